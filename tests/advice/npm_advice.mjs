// What the npm package says of each line of standard input, a JSON list of a call and its words: the error, what to do and each text that may be
// meant; or null if nothing is refused. Usage: node npm_advice.mjs PACKAGE.
import { readFileSync } from "node:fs";
import { pathToFileURL } from "node:url";

const { load, Refusal } = await import(pathToFileURL(`${process.argv[2]}/index.js`));
const gs1 = await load();
const elementsOf = (pairs) => pairs.map(([ai, value]) => ({ ai, value }));
const CALLS = {
  scan: (text) => gs1.readScan(text, 2026),
  elements: (text) => gs1.parseElements(text, 2026),
  gtin: (text) => gs1.readGtin(text),
  digit: (text) => gs1.checkDigit(text),
  label: (kind, text) => gs1.labelSymbol(kind, text, 2026),
  compose: (ai, value) => gs1.compose([[ai, value]], 2026),
  row: (widths) => gs1.readRow(widths, 2026),
  text: (text) => gs1.readText(text, 2026),
  scanned: (pairs, identifier) => gs1.scanText(elementsOf(pairs), identifier, 2026),
  link: (pairs, stem) => gs1.link(elementsOf(pairs), stem, 2026),
  conflicts: (pairs) => gs1.conflicts(elementsOf(pairs)),
};

function told([call, ...words]) {
  try {
    CALLS[call](...words);
    return null;
  } catch (error) {
    if (error instanceof Refusal) return [error.message, error.remedy, error.fixes];
    throw error;
  }
}

process.stdout.write(readFileSync(0, "utf8").split("\n").slice(0, -1).map((line) => `${JSON.stringify(told(JSON.parse(line)))}\n`).join(""));
