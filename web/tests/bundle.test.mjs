// The one file that web/bundle makes: its hashes, its length, and what is not in it; and the form of its sources.
import assert from "node:assert/strict";
import { spawnSync } from "node:child_process";
import { createHash } from "node:crypto";
import { readFileSync, readdirSync } from "node:fs";
import test from "node:test";
import { THEMES, hex, seatColour } from "../src/colours.js";

const web = new URL("../", import.meta.url), made = spawnSync("python3", [new URL("bundle", web).pathname], { encoding: "utf8" });
const page = readFileSync(new URL("out/pazgrot.html", web), "latin1"), source = readFileSync(new URL("page.html", web), "latin1");
const script = /<script type="module">([^]*?)<\/script>/.exec(page)[1], style = /<style>([^]*?)<\/style>/.exec(page)[1];
const modules = readdirSync(new URL("src", web)).map(name => [name, readFileSync(new URL("src/" + name, web), "latin1")]);
const hashOf = text => `'sha256-${createHash("sha256").update(text, "latin1").digest("base64")}'`;

test("the policy names the hashes of script and style, and lets nothing else run", () => {
  assert.equal(made.status, 0, made.stderr);
  const policy = /<meta http-equiv="Content-Security-Policy" content="([^"]*)">/.exec(page)[1];
  assert.equal(policy, `default-src 'none'; script-src ${hashOf(script)}; style-src ${hashOf(style)}; img-src data: blob:; connect-src 'self'; base-uri 'none'; form-action 'none'`);
  assert.ok(made.stdout.includes(policy));
  assert.ok(page.indexOf("Content-Security-Policy") < page.indexOf("<style>"));
  assert.equal(page.match(/<script/g).length, 1);
  assert.ok(!/\sstyle=|\son\w+=/.test(page.replace(script, "")));
});

test("it is ASCII, below 120 kB, and fetches nothing", () => {
  assert.match(page, /^[\n\x20-\x7e]*$/);
  assert.ok(page.length < 120000, `${page.length} bytes`);
  const links = page.match(/(?:https?|wss?):\/\/[^\s"'`$]*/g).filter(l => l !== "http://www.w3.org/2000/svg");
  assert.deepEqual(links, []);
  assert.ok(!/\bfetch\(|XMLHttpRequest|\bimport\b|@import|url\(/.test(page));
});

test("no text reaches markup", () => {
  assert.ok(!/innerHTML|outerHTML|insertAdjacent|document\.write|DOMParser|eval\(|new Function|createContextualFragment/.test(script));
});

test("the script is one module that node can read", () => {
  const read = spawnSync(process.execPath, ["--input-type=module", "--check"], { input: script, encoding: "utf8" });
  assert.equal(read.status, 0, read.stderr);
});

test("each button has its command, and each name that is looked up an element", () => {
  const commands = modules.find(([name]) => name === "commands.js")[1];
  for (const [, name] of source.matchAll(/data-do="(\w+)"/g)) assert.match(commands, new RegExp(`\\b${name}: \\(\\) =>`), name);
  for (const [name, text] of modules) for (const [, id] of text.matchAll(/\b(?:part|field|addTo)\("(\w+)"/g)) assert.ok(source.includes(`id="${id}"`), `${name}: ${id}`);
});

test("modules have less than 300 lines, functions less than 40, and types are checked", () => {
  for (const [name, text] of modules) {
    const lines = text.split("\n");
    assert.ok(lines.length <= 300, `${name} has ${lines.length} lines`);
    assert.equal(lines[0], "// @ts-check", name);
    assert.match(text, /^[\n\x20-\x7e]*$/, name);
    lines.forEach((line, k) => {
      const begun = /^( *)(?:export )?(?:static |async |\*)*(?:function \w+|(?!if|for|while|switch|class)\w+)\(.*\{$/.exec(line);
      if (!begun) return;
      const end = lines.findIndex((l, j) => j > k && l.startsWith(begun[1] + "}") && !l.endsWith("{"));
      assert.ok(end > k && end - k < 40, `${name} line ${k + 1}: ${end - k} lines`);
    });
  }
});

/** The contrast of two colours, 1 to 21, as WCAG has it. */
function contrast(a, b) {
  const light = colour => {
    const [r, g, bl] = [1, 3, 5].map(k => parseInt(colour.slice(k, k + 2), 16) / 255).map(n => (n <= .04045 ? n / 12.92 : ((n + .055) / 1.055) ** 2.4));
    return .2126 * r + .7152 * g + .0722 * bl;
  };
  const [low, high] = [light(a), light(b)].sort((p, q) => p - q);
  return (high + .05) / (low + .05);
}

test("text has a contrast of 4.5 to 1, edges and live cells of 3 to 1", () => {
  for (const selector of [":root", "html.strong"]) {
    const root = Object.fromEntries([...new RegExp(selector.replace(".", "\\.") + "\\{([^}]*)\\}").exec(style)[1].matchAll(/--(\w+):(#\w{6})/g)].map(m => m.slice(1)));
    for (const ground of ["bar", "button", "on"]) assert.ok(contrast(root.text, root[ground]) >= 4.5, `${selector} text on ${ground}`);
    assert.ok(contrast(root.told, root.bar) >= 4.5 && contrast(root.edge, root.bar) >= 3 && contrast(root.edge, root.button) >= 3);
  }
  for (const theme of THEMES) assert.ok(contrast(hex(theme.of(1, 2)), hex(theme.of(0, 2))) >= 3, theme.name);
  for (let seat = 1; seat <= 64; seat++) assert.ok(contrast("#000000", hex(seatColour(seat))) >= 4.5, `seat ${seat}`);
});
