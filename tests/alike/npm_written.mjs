// Writes lists of elements by the npm package, and answers texts by the calls for many and for one. Standard input is a JSON object with the texts
// and the lists, [pairs, identifier, stem]; the answer has what is written, or the number of the error, and how many answers differ.
// Usage: node npm_written.mjs PACKAGE.
import { readFileSync } from "node:fs";
import { pathToFileURL } from "node:url";

const { load, Refusal } = await import(pathToFileURL(`${process.argv[2]}/index.js`));
const gs1 = await load(), year = 2026, { texts, lists } = JSON.parse(readFileSync(0, "utf8"));

function orError(ask) {
  try {
    return ask();
  } catch (error) {
    if (error instanceof Refusal) return error;
    throw error;
  }
}

const numbered = (said) => (said instanceof Refusal ? said.number : said);
const written = lists.map(([pairs, identifier, stem]) => {
  const elements = pairs.map(([ai, value]) => ({ ai, value }));
  return [orError(() => gs1.scanText(elements, identifier, year)), orError(() => gs1.link(elements, stem, year))].map(numbered);
});

const shown = (said) => (said instanceof Refusal ? JSON.stringify([said.message, said.before, said.ai, said.fixes]) : JSON.stringify([said, said.symbol]));
const differing = (all, one) => texts.filter((text, i) => shown(all[i]) !== shown(orError(() => one(text)))).length;
const differ = differing(gs1.readScans(texts, year), (text) => gs1.readScan(text, year)) + differing(gs1.readGtins(texts), (text) => gs1.readGtin(text));
process.stdout.write(JSON.stringify({ written, differ }));
