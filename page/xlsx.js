// @ts-check
// Reads the sheets of an .xlsx file, Office Open XML (ECMA-376, part 1, 18). As bindings/python/noriladle/_xlsx.py.
"use strict";

/** @typedef {{ texts: string[], formats: Format[] }} SharedParts  what the cells of all sheets share */

/**
 * All sheets of a workbook.
 * @param {Parts} parts
 * @param {string} workbook
 */
async function xlsxPages(parts, workbook) {
  const sheets = allOf(await parts.part(workbook), "sheet"), places = await xlsxPlaces(parts, workbook);
  const perhaps = async (/** @type {string} */ name) => parts.has(name) ? parts.part(name) : null;
  const shared = { texts: textsShared(await perhaps("xl/sharedStrings.xml")),
    formats: xlsxFormats(await perhaps("xl/styles.xml")) };
  /** @type {Page[]} */
  const pages = [];
  for (const sheet of sheets) {
    const place = places.get(attributeOf(sheet, "id") ?? "");
    if (place === undefined) throw damaged();
    if (!place.includes("worksheets/")) continue;
    const isHidden = (sheet.getAttribute("state") ?? "visible") !== "visible";
    pages.push({ name: sheet.getAttribute("name") ?? "", isHidden, ...xlsxRows(await parts.part(place), shared) });
  }
  return pages;
}

/**
 * Where each sheet's part is, by the name of its relation.
 * @param {Parts} parts
 * @param {string} workbook
 */
async function xlsxPlaces(parts, workbook) {
  return new Map(allOf(await parts.part(`xl/_rels/${workbook.slice(3)}.rels`), "Relationship").map((it) => {
    const target = it.getAttribute("Target") ?? "";
    return [it.getAttribute("Id") ?? "", target.startsWith("/") ? target.slice(1) : `xl/${target}`];
  }));
}

/**
 * The texts that cells share.
 * @param {Document | null} xml
 */
const textsShared = (xml) => xml ? allOf(xml, "si").map(richText) : [];

/**
 * A text of several runs, without how it is pronounced.
 * @param {Element} element
 * @returns {string}
 */
const richText = (element) =>
  unescaped(Array.from(element.children, (child) => child.localName === "t" ? child.textContent ?? ""
  : ["is", "r"].includes(child.localName) ? richText(child) : "").join(""));

/**
 * A text without the escapes of signs that XML does not have.
 * @param {string} text
 */
const unescaped = (text) => text.replace(/_x([0-9A-Fa-f]{4})_/g, (_, code) => String.fromCharCode(parseInt(code, 16)));

/**
 * The format of each style.
 * @param {Document | null} xml
 */
function xlsxFormats(xml) {
  if (!xml) return [];
  const codes = new Map(
    allOf(xml, "numFmt").map((it) => [Number(it.getAttribute("numFmtId")), it.getAttribute("formatCode") ?? ""]));
  return Array.from(allOf(xml, "cellXfs")[0]?.children ?? [], (it) => {
    const number = Number(it.getAttribute("numFmtId"));
    return formatOf(number, codes.get(number));
  });
}

/**
 * The rows of a sheet.
 * @param {Document} xml
 * @param {SharedParts} shared
 */
function xlsxRows(xml, shared) {
  const count = new CellCount();
  /** @type {{ rows: Row[], hiddenRows: number[], faults: LineFault[] }} */
  const sheet = { rows: [], hiddenRows: [], faults: [] };
  let line = 0;
  for (const row of allOf(xml, "row")) {
    line = lineAfter(line, Number(row.getAttribute("r") ?? line + 1));
    if (["1", "true"].includes(row.getAttribute("hidden") ?? "")) sheet.hiddenRows.push(line);
    sheet.rows.push({ line, cells: xlsxCells(row, line, { ...shared, count, faults: sheet.faults }) });
  }
  return sheet;
}

/**
 * The number of a row: it is larger than the one before.
 * @param {number} before
 * @param {number} line
 */
function lineAfter(before, line) {
  if (!(line > before && line <= MOST_ROWS)) throw damaged();
  return line;
}

/**
 * @param {Element} row
 * @param {number} line
 * @param {SharedParts & { count: CellCount, faults: LineFault[] }} sheet
 */
function xlsxCells(row, line, sheet) {
  /** @type {string[]} */
  const cells = [];
  for (const cell of row.children) {
    if (cell.localName !== "c") continue;
    const place = cell.getAttribute("r"), column = place ? columnAt(place) : cells.length;
    if (column < cells.length || column >= MOST_COLUMNS) throw damaged();
    // The empty cells before it count, too.
    sheet.count.add(1 + column - cells.length);
    while (cells.length < column) cells.push("");
    cells.push(xlsxCell(cell, sheet));
    if (lacksValue(cell)) sheet.faults.push(faultAt(line, "sheetFormula", columnLetters(column)));
  }
  return cells;
}

/**
 * The column of a cell such as B7, from 0.
 * @param {string} place
 */
function columnAt(place) {
  const letters = place.match(/^[A-Z]{1,3}/)?.[0];
  if (!letters) throw damaged();
  return Array.from(letters).reduce((column, letter) => 26 * column + letter.charCodeAt(0) - 64, 0) - 1;
}

/**
 * What a cell says.
 * @param {Element} cell
 * @param {SharedParts} shared
 */
function xlsxCell(cell, { texts, formats }) {
  const kind = cell.getAttribute("t") ?? "n", style = Number(cell.getAttribute("s") ?? 0);
  const stored = kind === "inlineStr" ? richText(cell) : unescaped(childText(cell, "v") ?? "");
  if (kind === "n" && stored) return numberWritten(stored, formats[style] ?? PLAIN_FORMAT);
  if (kind === "b") return { 1: "TRUE", 0: "FALSE" }[stored] ?? stored;
  if (kind !== "s" || !stored) return stored;
  const text = texts[Number(stored)];
  if (text === undefined) throw damaged();
  return text;
}

/**
 * Whether a cell has a formula, and its value was not stored. A formula of an empty text has the kind of a text.
 * @param {Element} cell
 */
function lacksValue(cell) {
  const stored = childText(cell, "v");
  return !stored && childText(cell, "f") !== undefined && !(stored !== undefined && cell.getAttribute("t") === "str");
}

/**
 * The text of a child with this name, if there is one.
 * @param {Element} element
 * @param {string} name
 */
function childText(element, name) {
  let child = element.firstElementChild;
  while (child && child.localName !== name) child = child.nextElementSibling;
  return child?.textContent ?? undefined;
}
