// @ts-check
// Reads a spreadsheet's own file, .xlsx or .ods, by the browser's own parts. No CSV has its numbers in full. As
// bindings/python/noriladle/_spreadsheets.py.
"use strict";

/**
 * A row with its number.
 * @typedef {{ line: number, cells: string[] }} Row
 *
 * A sheet: its rows, the numbers of the hidden ones, and the errors of cells.
 * @typedef {{ name: string, isHidden: boolean, rows: Row[], hiddenRows: number[], faults: LineFault[] }} Page
 *
 * The sheet of the list, and what a person should know of the others.
 * @typedef {{ page: Page, notes: Told[] }} Book
 *
 * The parts of a file: their names in small letters, and the document of a part.
 * @typedef {{ has: (name: string) => boolean, find: (pattern: RegExp) => string | undefined,
 *   part: (name: string) => Promise<Document> }} Parts
 */

// The most cells of a sheet, and the most columns and rows that spreadsheets have.
const MOST_CELLS = 2000000, MOST_COLUMNS = 16384, MOST_ROWS = 1048576;

/**
 * The first visible sheet that has a cell. Throws a Faults if the file is locked, damaged, too large or has no such
 * sheet.
 * @param {Uint8Array} bytes
 */
async function bookOf(bytes) {
  try {
    return takenPage(await pagesOf(partsIn(bytes)));
  } catch (error) {
    throw error instanceof Faults ? error : damaged();
  }
}

/**
 * @param {Uint8Array} bytes
 * @returns {Parts}
 */
function partsIn(bytes) {
  const parts = new Map([...partsOf(bytes)].map(([name, part]) => [name.toLowerCase(), part]));
  return { has: (name) => parts.has(name.toLowerCase()),
    find: (pattern) => [...parts.keys()].find((name) => pattern.test(name)),
    part: async (name) => xmlOf(await unpacked(bytes, parts.get(name.toLowerCase()))) };
}

/**
 * All sheets of a file.
 * @param {Parts} parts
 */
async function pagesOf(parts) {
  const workbook = parts.find(/^xl\/workbook\d*\.xml$/);
  if (workbook) return xlsxPages(parts, workbook);
  if (parts.has("content.xml")) return odsPages(parts);
  throw new Faults(faultAt(1, parts.find(/^(xl\/workbook\.bin|index\/.*\.iwa)$/) ? "sheetOld" : "packed"));
}

/**
 * A part as a document. One with a DOCTYPE is none of a spreadsheet.
 * @param {Uint8Array} bytes
 */
function xmlOf(bytes) {
  const text = new TextDecoder("utf-8", { fatal: true }).decode(bytes);
  if (text.includes("<!DOCTYPE")) throw damaged();
  const xml = new DOMParser().parseFromString(text, "application/xml");
  if (xml.getElementsByTagName("parsererror").length) throw damaged();
  return xml;
}

/**
 * The elements of a name, in any namespace.
 * @param {Document | Element} root
 * @param {string} name
 */
const allOf = (root, name) => Array.from(root.getElementsByTagNameNS("*", name));

/**
 * An attribute by its name without a prefix.
 * @param {Element} element
 * @param {string} name
 */
const attributeOf = (element, name) => Array.from(element.attributes).find((it) => it.localName === name)?.value;

/** Counts cells, and ends a sheet that has too many. */
class CellCount {
  constructor() { this.count = 0; }

  /** @param {number} more */
  add(more) {
    this.count += more;
    if (this.count > MOST_CELLS) throw new Faults(faultAt(1, "sheetLarge"));
  }
}

/** @param {number} column  from 0 */
function columnLetters(column) {
  let letters = "";
  for (let rest = column + 1; rest; rest = Math.floor((rest - 1) / 26)) {
    letters = String.fromCharCode(65 + (rest - 1) % 26) + letters;
  }
  return letters;
}

/** @param {Row} row */
const hasCells = ({ cells }) => cells.some(trimmed);

/**
 * The list of the first visible sheet with cells, and what a person should know.
 * @param {Page[]} pages
 * @returns {Book}
 */
function takenPage(pages) {
  const at = pages.findIndex(({ isHidden, rows }) => !isHidden && rows.some(hasCells)), page = pages[at];
  if (!page) throw new Faults(faultAt(1, "sheetNone"));
  const others = pages.filter((other, i) => i !== at && (i < at || other.rows.some(hasCells)))
    .map(({ name, isHidden }) => ({ key: isHidden ? "hiddenSheet" : "quoted", values: [name] }));
  const filled = new Set(page.rows.filter(({ cells }) => cells.length).map(({ line }) => line));
  const hidden = page.hiddenRows.filter((line) => filled.has(line)), taken = { key: "quoted", values: [page.name] };
  return { page, notes: [...(others.length ? [{ key: "sheetTaken", values: [taken, { list: others }] }] : []),
    ...(hidden.length ? [{ key: "sheetHidden", values: [runsOf(hidden)] }] : [])] };
}

/**
 * Numbers of lines as a person writes them, such as 2, 4-9.
 * @param {number[]} lines
 */
function runsOf(lines) {
  /** @type {number[][]} */
  const runs = [];
  for (const line of lines) {
    const last = runs[runs.length - 1];
    if (last && last[last.length - 1] === line - 1) last.push(line);
    else runs.push([line]);
  }
  return runs.map((run) => run.length > 1 ? `${run[0]}-${run[run.length - 1]}` : String(run[0])).join(", ");
}

/**
 * A row as a line of text, with tabs between its cells.
 * @param {string[]} cells
 */
const lineOfCells = (cells) => cells.map((cell) => /["\t\r\n]/.test(cell) ? `"${cell.replaceAll('"', '""')}"` : cell)
  .join("\t");

/**
 * A sheet as text: a line for each row.
 * @param {Page} page
 */
function textOfPage({ rows }) {
  /** @type {string[]} */
  const lines = [];
  for (const { line, cells } of rows) {
    while (lines.length < line - 1) lines.push("");
    lines.push(lineOfCells(cells));
  }
  return lines.join("\n");
}
