// Frames of a TCP stream, by docs/FORMATS.md.

/** The frames of a TCP stream, as bodies. */
export function bodiesOf(stream, came) {
  let left = Buffer.alloc(0);
  stream.on("data", piece => {
    left = Buffer.concat([left, piece]);
    for (let at = 0; ; ) {
      if (left.length - at < 4 || left.length - at - 4 < left.readUInt32BE(at)) { left = left.subarray(at); return; }
      const n = left.readUInt32BE(at);
      came(new Uint8Array(left.subarray(at + 4, at + 4 + n)));
      at += 4 + n;
    }
  });
}
/** A body in its frame. */
export const framed = body => { const head = Buffer.alloc(4); head.writeUInt32BE(body.length); return Buffer.concat([head, body]); };
