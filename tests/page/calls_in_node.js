// Answers a list of the page's calls in Node, as JSON, with the module of 32-bit memory. Each call is a name and its arguments: `gtin`, `elements`
// and `symbol` with a text, and `read` with a PBM image in base64, which it reads as the page does.
"use strict";

const fs = require("fs"), path = require("path"), vm = require("vm");
const page = path.join(__dirname, "../../page");
const scripts = [...fs.readFileSync(path.join(page, "index.html"), "utf8").matchAll(/<script defer src="(.*?)">/g)].map((found) => found[1]);

// Those that speak of the document are left out.
for (const name of scripts.slice(0, scripts.indexOf("values.js") + 1)) {
  vm.runInThisContext(fs.readFileSync(path.join(page, name), "utf8"), name);
}

const inPage = vm.runInThisContext(`({
  runs: (bits) => Gs1.runs(bits),
  load: () => Gs1.load(GS1_WASM_32, 32),
  gtin: (gs1, text) => gs1.told("gs1_c_gtin", ...gs1.put(text)),
  elements: (gs1, text) => gs1.told("gs1_c_text", ...gs1.put(text), 2026),
  symbol: (gs1, kind, text) => gs1.told("gs1_c_symbol", Gs1.kinds.indexOf(kind), ...gs1.put(text), 2026),
  read: (gs1, image) => symbolsShown(gs1.picture(pixelsOfPbm(new Uint8Array(image)), 0, 2026)).symbols.map(({ said }) => said),
})`);

async function main() {
  const gs1 = await inPage.load(), calls = JSON.parse(fs.readFileSync(0, "utf8"));
  const answers = calls.map(([name, ...words]) => inPage[name](gs1, ...(name === "read" ? [Buffer.from(words[0], "base64")] : words)));
  console.log(JSON.stringify({ wide: inPage.runs(64), answers }));
}

main();
