// @ts-check
// Reads a file that a person opens as a list: a spreadsheet's own file, or a text in any usual encoding.
"use strict";

/**
 * What a file has: its text, and what a person should know of it. A spreadsheet is a text with tabs. If its bytes do
 * not decide the encoding, there are those that it may have, and the question.
 * @typedef {{ text: string, isSheet: boolean, faults: BookFault[], notes: Told[], encodings: string[],
 *   question: Told | null }} FileRead
 */

/** @type {[string, string][]} */
const OTHER_FILES = [["%PDF-", "pdf"], ["\x89PNG", "picture"], ["\xff\xd8\xff", "picture"], ["\x1f\x8b", "packed"]];

/**
 * What a file has. `asked` is the encoding that a person chose. Throws a Faults if it is no list.
 * @param {Uint8Array} bytes
 * @param {string} [asked]
 * @returns {Promise<FileRead>}
 */
async function fileRead(bytes, asked) {
  if (bytes.length > LIMIT) throw tooLarge();
  const head = binaryText(bytes.subarray(0, 8)), other = OTHER_FILES.find(([magic]) => head.startsWith(magic));
  if (other) throw new Faults(faultAt(1, other[1]));
  if (head.startsWith("\xd0\xcf\x11\xe0")) throw new Faults(faultAt(1, oldSpreadsheet(bytes)));
  if (!head.startsWith("PK\x03\x04")) return { ...decoded(bytes, asked), isSheet: false, faults: [] };
  const { page, notes } = await bookOf(bytes);
  const rows = new Map(page.rows.map(({ line, cells }) => [line, lineOfCells(cells)]));
  const faults = page.faults.map((it) => ({ ...it, text: rows.get(it.line) ?? "" }));
  return { text: textOfPage(page), isSheet: true, notes, faults, encodings: [], question: null };
}

/** @param {Uint8Array} bytes */
const binaryText = (bytes) => String.fromCharCode(...bytes);

// The name of the part that has a locked spreadsheet, as it is in the file.
const LOCKED = Array.from("EncryptedPackage", (letter) => `${letter}\0`).join("");

/**
 * What is wrong with a spreadsheet that is no ZIP: it is locked by a password, or of an old program.
 * @param {Uint8Array} bytes
 */
function oldSpreadsheet(bytes) {
  return new TextDecoder("latin1").decode(bytes).includes(LOCKED) ? "sheetEncrypted" : "sheetOld";
}
