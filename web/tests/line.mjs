// A line before a port of this machine, which can be cut, and be down: what connects to it is connected to the port, byte for
// byte, and while it is down to nothing.
import { connect, createServer } from "node:net";

/** A line to a port. */
export function openLine(port) {
  const cuts = new Set();
  let isDown = false;
  const server = createServer(near => {
    if (isDown) return void near.destroy();
    const far = connect(port, "127.0.0.1");
    const cut = () => { near.destroy(); far.destroy(); cuts.delete(cut); };
    cuts.add(cut);
    near.pipe(far);
    far.pipe(near);
    for (const end of [near, far]) for (const event of ["close", "error"]) end.on(event, cut);
  });
  const cut = () => { for (const one of [...cuts]) one(); };
  const down = () => { isDown = true; cut(); }, up = () => { isDown = false; };
  return new Promise(done => server.listen(0, "127.0.0.1", () => {
    done({ url: `http://127.0.0.1:${server.address().port}`, cut, down, up, close: () => { cut(); server.close(); } });
  }));
}
