// Answers lines from standard input as c_answers.c does, with the npm package. After a tab and `values` follows what the values of elements mean, as JSON.
// Usage: node npm_answers.mjs PACKAGE.
import { readFileSync } from "node:fs";
import { pathToFileURL } from "node:url";

const { load, Refusal } = await import(pathToFileURL(`${process.argv[2]}/index.js`));
const gs1 = await load(), kinds = ["ean13", "upca", "ean8", "upce", "gs1128", "itf14"];
const symbols = [undefined, "ean13", "upca", "upce", "ean8", "itf14", "gs1128", "databar", "datamatrix", "qr_code", "dotcode"];
const pairsOf = (elements) => elements.map(({ ai, value }) => `${ai}=${value}`).join("\t");

function answer(line) {
  const text = line.slice(2);
  try {
    if (line[0] === "-") {
      const elements = gs1.parseElements(text, 2026);
      return `data ${pairsOf(elements)}\tvalues ${JSON.stringify(elements)}`;
    }
    if ("=~".includes(line[0])) {
      const answer = line[0] === "~" ? gs1.readText(text, 2026) : gs1.readScan(text, 2026);
      return `scan ${answer.identifier ?? "-"} ${symbols.indexOf(answer.symbol)} ${answer.gtin ?? "-"} ${pairsOf(answer.elements)}`;
    }
    // With a mark, since the digits of a GTIN may be elements too.
    const kind = kinds[line[0]], { text: under, quietLeft, quietRight, widths } = gs1.labelSymbol(kind, kind === "gs1128" ? `^${text}` : text, 2026);
    return `symbol ${under} ${quietLeft} ${quietRight} ${widths.join("")}`;
  } catch (error) {
    if (!(error instanceof Refusal)) throw error;
    if (error.remedy.length < 5) throw new Error(`no remedy of ${error.message}`);
    const before = pairsOf(error.before);
    return line[0] === "-" ? `${error.message}\tvalues ${JSON.stringify([before, error.ai ?? null])}` : error.message;
  }
}

process.stdout.write(readFileSync(0, "latin1").split("\n").slice(0, -1).map((line) => `${answer(line)}\n`).join(""));
