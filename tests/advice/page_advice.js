// What the page says of each line of standard input, a JSON text as people type it: the error, what to do and each text that may be meant; or
// null if nothing is refused.
"use strict";

const fs = require("fs"), path = require("path"), vm = require("vm");
const page = path.join(__dirname, "../../page");

globalThis.document = { createElement: () => ({ getContext: () => null }) };
for (const name of "gs1.module gs1 ais values shop ui core mending typed".split(" ")) vm.runInThisContext(fs.readFileSync(path.join(page, `${name}.js`), "utf8"), name);

const inPage = vm.runInThisContext(`({
  async load() { gs1 = await Gs1.load(GS1_WASM_32, 32); core.year = 2026; },
  told(text) {
    const { refused } = readText(text);
    if (!refused) return null;
    const fault = remedyOf(text, refused);
    return [refused, faultText(fault), fault.fixes ?? []];
  },
})`);

inPage.load().then(() => process.stdout.write(fs.readFileSync(0, "utf8").split("\n").slice(0, -1).map((line) => `${JSON.stringify(inPage.told(JSON.parse(line)))}\n`).join("")));
