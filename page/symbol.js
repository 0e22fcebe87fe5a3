// @ts-check
// Symbols on labels: the resolutions of printers, names of kinds, and the digits for people under the bars.
"use strict";

// Dots per millimetre by a printer's dots per inch, and per metre as in PNG.
const DOTS_IN_MM = Object.fromEntries(Object.entries(SHOP.dots).map(([name, dots]) => [name, dots / 25.4]));
const RESOLUTIONS = { 203: 8000, 300: 11811, 600: 23622 };

const KIND_NAMES = { ean13: "EAN-13", upca: "UPC-A", ean8: "EAN-8", upce: "UPC-E", gs1128: "GS1-128", itf14: "ITF-14" };

// The lines that the module said of symbols so far, by kind, year and text.
const symbols = new Map();

// The digits under the symbol of an article; or why there is none.
function symbolOf({ kind, text }) {
  const key = `${kind} ${core.year} ${text}`;
  if (!symbols.has(key)) symbols.set(key, core.symbol(kind, text));
  const line = symbols.get(key);
  return line.startsWith("refused") ? { refused: line } : { digits: line.split(" ")[1] };
}
