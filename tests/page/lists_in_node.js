// Reads lists in Node as the page does: each JSON line of standard input has a list's bytes in base64, and gets a line with its articles and the
// errors of its other lines, in the words of tables/shop/en.json, or in those of the language that is the argument. PAGE may name another folder
// with the page's scripts.
"use strict";

const fs = require("fs"), path = require("path"), readline = require("readline"), vm = require("vm");
const page = process.env.PAGE ?? path.join(__dirname, "../../page");

// The one thing of a browser that these scripts make when they are loaded.
globalThis.document = { createElement: () => ({ getContext: () => null }) };
for (const name of "gs1.module gs1 ais values shop ui core fonts stock encodings lists openfile archives numbers spreadsheets xlsx ods mending typed prices amounts remarks columns symbol articles".split(" ")) {
  vm.runInThisContext(fs.readFileSync(path.join(page, `${name}.js`), "utf8"), name);
}

vm.runInThisContext(fs.readFileSync(path.join(__dirname, "told.js"), "utf8"), "told");

const load = vm.runInThisContext(`async (chosen) => {
  language = chosen;
  gs1 = await Gs1.load(GS1_WASM_32, 32);
  core.year = 2026;
}`);

async function main() {
  await load(process.argv[2] ?? "en");
  for await (const line of readline.createInterface({ input: process.stdin })) {
    console.log(JSON.stringify(await toldOf(new Uint8Array(Buffer.from(line, "base64")))));
  }
}

main();
