// Answers lists of elements from standard input, [[ai, value]..] a line, with the conflicts that the npm package finds, [[element, kind, other, code]..].
// Usage: node npm_conflicts.mjs PACKAGE.
import { createInterface } from "node:readline";
import { pathToFileURL } from "node:url";

const { load } = await import(pathToFileURL(`${process.argv[2]}/index.js`)), gs1 = await load();
let told = [];

for await (const line of createInterface({ input: process.stdin })) {
  const elements = JSON.parse(line).map(([ai, value]) => ({ ai, value }));
  told.push(JSON.stringify(gs1.conflicts(elements).map(({ kind, element, other, code }) => [elements.indexOf(element), kind, other ? elements.indexOf(other) : 255, code])));
  if (told.length === 1000) process.stdout.write(`${told.splice(0).join("\n")}\n`);
}
process.stdout.write(told.map((it) => `${it}\n`).join(""));
