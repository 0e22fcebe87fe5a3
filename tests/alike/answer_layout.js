// Compares how the page's scripts and the npm package read `struct gs1_answer` with the lines of tests/embed/answer_layout.c on standard input. The last
// line is the counts.
"use strict";

const assert = require("assert"), fs = require("fs"), path = require("path"), vm = require("vm");

vm.runInThisContext(fs.readFileSync(path.join(__dirname, "../../page/gs1.js"), "utf8"), "gs1.js");
const [Calls, Read] = vm.runInThisContext("[Gs1, RawAnswer]");

const lines = fs.readFileSync(0, "latin1").split("\n").slice(0, -1).map((line) => line.split("\t"));
const structs = lines.filter(([asked]) => asked.length > 2), symbols = lines.filter(([asked]) => asked.length < 3);
const asData = (value) => JSON.parse(JSON.stringify(value));

function answerAsData(bytes) {
  // At a place that is not the first of the memory.
  const memory = new Uint8Array(bytes.length + 16);
  memory.set(bytes, 16);
  const read = new Read(memory.buffer, 16);
  // As the next call does.
  memory.fill(0);
  const { refused, identifier, symbol, elements } = read;
  return refused ? { refused } : { identifier: identifier || null, symbol: symbol ?? null, count: elements.length, first: elements[0], last: elements.at(-1) };
}

let wrong = 0;
function same(got, wanted) {
  try {
    assert.deepStrictEqual(asData(got), wanted);
  } catch (error) {
    wrong++;
    console.error(error.message);
  }
}

for (const [hex, said] of structs) same(answerAsData(Buffer.from(hex, "hex")), JSON.parse(said));
same(Calls.symbols.map((symbol) => symbol ?? null), symbols.map(([, name]) => (name === "UNKNOWN" ? null : name.toLowerCase())));
console.log(`${structs.length + 1} parts of structs read by JavaScript, ${wrong} wrong`);
process.exit(wrong || structs.length !== 4 ? 1 : 0);
