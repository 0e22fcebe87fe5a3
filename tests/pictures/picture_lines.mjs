// Answers pictures from standard input with what readPicture finds, in the lines of gs1_picture, and an empty line. A picture is a line with its
// width and height, and then its grey values. Usage: node picture_lines.mjs PACKAGE. The year is 2026.
import { readFileSync } from "node:fs";
import { pathToFileURL } from "node:url";

const { load } = await import(pathToFileURL(`${process.argv[2]}/index.js`));
const gs1 = await load(), given = readFileSync(0);
let told = "";
for (let at = 0; at < given.length;) {
  const end = given.indexOf(10, at), [width, height] = given.subarray(at, end).toString().split(" ").map(Number);
  const grey = given.subarray(end + 1, at = end + 1 + width * height), data = new Uint8ClampedArray(4 * grey.length).fill(255);
  for (let i = 0; i < grey.length; i++) data.fill(grey[i], 4 * i, 4 * i + 3);
  for (const { answer, corners, rows } of gs1.readPicture({ width, height, data }, 2026)) {
    const places = corners.map(({ x, y }) => `${256 * x} ${256 * y}`).join(" ");
    told += `${places} ${rows} ${answer.identifier} ${answer.elements.map(({ ai, value }) => `${ai}=${value}`).join("\t")}\n`;
  }
  told += "\n";
}
process.stdout.write(told);
