// @ts-check
// Reads lists as people save and paste them, plain lines or the CSV of any spreadsheet, as records with line numbers.
// It reads every list as bindings/python/noriladle/_lists.py does.
"use strict";

// The most bytes of a list, and the delimiters of one with one cell a line and of a spreadsheet: characters that no
// text has.
const LIMIT = 16777216, WHOLE_LINES = "\x1f", SPREADSHEET = "\x1e";

// The most lines of a list of labels, so that a mistake in it is reported in seconds; and the most cells of a text.
const MOST_LINES = 20000, MOST_TEXT_CELLS = 1000000;

const MOST_CELL = 1000000, DELIMITERS = [WHOLE_LINES, ";", "\t", ",", "|"];

/**
 * A list in the field, and whether it is a spreadsheet, with tabs between its cells. Then it may have errors of cells
 * that the text does not show.
 * @typedef {{ text: string, isSheet: boolean, faults: BookFault[] }} ListTyped
 *
 * An error of a row, as long as its text is this one.
 * @typedef {LineFault & { text: string }} BookFault
 *
 * A record: the number of its line or row, the line of the text where it begins, and its cells.
 * @typedef {{ line: number, from: number, cells: string[] }} ListRecord
 *
 * The records of a list with a delimiter, and the errors of the lines that are none.
 * `lost` has the content of these lines, as far as it is known.
 * @typedef {{ delimiter: string, records: ListRecord[], faults: LineFault[], lost: ListRecord[] }} Sheet
 *
 * A text of tables/shop by its name or number, with values: texts, numbers, lengths, other errors, or several ways out.
 * @typedef {{ key: string | number, values?: any[] }} Told
 *
 * An error with its line, counted from 1, and the line of the text.
 * @typedef {{ line: number, from?: number, fault: Told }} LineFault
 */

/** The errors of a list. */
class Faults extends Error {
  /** @param {...LineFault} faults */
  constructor(...faults) {
    super("faults");
    this.faults = faults;
  }
}

/**
 * An error at a line.
 * @param {number} line
 * @param {string | number} key
 * @param {...any} values
 * @returns {LineFault}
 */
const faultAt = (line, key, ...values) => ({ line, fault: { key, values } });

const tooLarge = () => new Faults(faultAt(1, "tooLarge", LIMIT));

// The list read with each delimiter that it may have: only the one that its first line names, as in `sep=;`; else whole
// lines, and then each delimiter that occurs in it. Those with more lines than `most` drop out.
function sheetsOf({ text, isSheet, faults }, most) {
  const told = isSheet ? null : text.match(/^sep=([^\n])[ \t]*(\r\n|\n|\r|$)/u);
  const signs = isSheet ? [] : ["\n", "\r", ...DELIMITERS.slice(1), ...(told ? [told[1]] : [])];
  if (signs.some((sign) => countOf(text, sign) > MOST_TEXT_CELLS)) throw new Faults(faultAt(1, "sheetLarge"));
  const found = isSheet ? [sheetOf(text, "\t", 1, most, true)] : told
    ? [sheetOf(text.slice(told[0].length), told[1], 2, most)]
    : DELIMITERS.filter((it) => it === WHOLE_LINES || text.includes(it)).map((it) => sheetOf(text, it, 1, most));
  const sheets = found.filter((sheet) => sheet.records.length + sheet.faults.length <= most);
  if (!sheets.length) throw new Faults(faultAt(1, "manyLines", most));
  if (isSheet) return [bookSheet(sheets[0], faults)];
  if (!sheets.some(({ records, faults }) => records.length || faults.length)) throw new Faults(faultAt(1, "emptyList"));
  return sheets.map((sheet) => withoutDamaged(sheet, text));
}

// How often a text has a sign.
function countOf(text, sign) {
  let count = 0;
  for (let at = text.indexOf(sign); at >= 0; at = text.indexOf(sign, at + 1)) count++;
  return count;
}

// A spreadsheet without the records of rows that have an error.
function bookSheet({ records }, known) {
  const texts = new Map(records.map(({ line, cells }) => [line, lineOfCells(cells)]));
  const faults = known.filter(({ line, text }) => (texts.get(line) ?? "") === text);
  const lines = new Set(faults.map(({ line }) => line));
  return withoutLines({ delimiter: SPREADSHEET, records, faults: [], lost: [] }, lines, faults);
}

// The list without the records of lines that have a damaged character.
function withoutDamaged(sheet, text) {
  if (!text.includes("\ufffd")) return sheet;
  const lines = text.split(/\r\n|\r|\n/).flatMap((line, i) => line.includes("\ufffd") ? [i + 1] : []);
  return withoutLines(sheet, new Set(lines), lines.map((line) => faultAt(line, "notUtf8")));
}

// The list without the records of these lines, and with these errors for them.
function withoutLines(sheet, lines, faults) {
  const isLost = ({ line }) => lines.has(line), records = sheet.records.filter((record) => !isLost(record));
  const lost = [...sheet.lost, ...sheet.records.filter(isLost)];
  return { ...sheet, records, lost, faults: [...sheet.faults, ...faults].sort((a, b) => a.line - b.line) };
}

// The records of a text that are not empty, and the lines that are none (RFC 4180, with any line ends). The first line
// has this number. Of a spreadsheet rows are counted, whatever line ends their cells have. `from` is the line of the
// text. It ends behind one more than `most`.
function sheetOf(text, delimiter, first, most, isSheet = false) {
  const lines = text.match(/[^\r\n]*(?:\r\n|\r|\n)|[^\r\n]+$/g) ?? [], records = [], faults = [], lost = [];
  for (let next = 0, row = 1; next < lines.length && records.length + faults.length <= most; row++) {
    const from = first + next, line = isSheet ? row : from, { cells, end } = recordAt(lines, next, delimiter);
    if (!cells) {
      faults.push({ ...faultAt(line, "noCsv"), from });
      const parts = lines.slice(next, end).join("").split(/[\r\n"]/);
      lost.push({ line, from, cells: parts.flatMap((part) => part.split(delimiter)) });
    } else if (cells.some(trimmed)) records.push({ line, from, cells });
    next = end;
  }
  return { delimiter, records, faults, lost };
}

// The cells of the record that begins with a line, or nothing if it is no CSV, and the line after it.
function recordAt(lines, next, delimiter) {
  const line = lines[next];
  if (!line.includes('"')) {
    const cells = line.replace(/[\r\n]+$/, "").split(delimiter);
    return { cells: cells.some(({ length }) => length > MOST_CELL) ? null : cells, end: next + 1 };
  }
  const cells = [];
  let cell = "", state = "start";
  for (; next < lines.length; next++) {
    for (const sign of lines[next]) {
      const isEnd = sign === "\n" || sign === "\r";
      if (sign === '"' && ["quoted", "start"].includes(state)) state = state === "quoted" ? "quote" : "quoted";
      else if (state === "quoted") cell += sign;
      else if (state === "quote" && sign === '"') [cell, state] = [`${cell}"`, "quoted"];
      else if (sign === delimiter) [cell, state] = [(cells.push(cell), ""), "start"];
      else if (state === "quote" && !isEnd) return { cells: null, end: next + 1 };
      else if (!isEnd) [cell, state] = [cell + sign, "plain"];
      if (cell.length > MOST_CELL) return { cells: null, end: next + 1 };
    }
    if (state !== "quoted") return { cells: [...cells, cell], end: next + 1 };
  }
  return { cells: null, end: next };
}
