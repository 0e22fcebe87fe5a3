// @ts-check
// Reads the sheets of an .ods file, OpenDocument (version 1.3, part 3, 9). As bindings/python/noriladle/_ods.py.
"use strict";

const ODF = "urn:oasis:names:tc:opendocument:xmlns:";

/**
 * An attribute of OpenDocument, such as `table:name`.
 * @param {Element} element
 * @param {string} name
 */
function odf(element, name) {
  const [family, local] = name.split(":");
  return element.getAttributeNS(`${ODF}${family}:1.0`, local) ?? undefined;
}

/**
 * All sheets of a document.
 * @param {Parts} parts
 */
async function odsPages(parts) {
  const manifest = "META-INF/manifest.xml";
  const isLocked = parts.has(manifest) && allOf(await parts.part(manifest), "encryption-data").length > 0;
  if (isLocked) throw new Faults(faultAt(1, "sheetEncrypted"));
  const xml = await parts.part("content.xml"), tables = Array.from(allOf(xml, "spreadsheet")[0]?.children ?? []);
  const hidden = new Set(allOf(xml, "table-properties").filter((it) => odf(it, "table:display") === "false")
    .map(({ parentElement }) => parentElement && odf(parentElement, "style:name")));
  return tables.filter(({ localName }) => localName === "table").map((table) =>
    ({ name: odf(table, "table:name") ?? "", isHidden: hidden.has(odf(table, "table:style-name")),
      ...odsRows(table) }));
}

/**
 * The rows of a sheet.
 * @param {Element} table
 */
function odsRows(table) {
  const count = new CellCount();
  /** @type {{ rows: Row[], hiddenRows: number[], faults: LineFault[] }} */
  const sheet = { rows: [], hiddenRows: [], faults: [] };
  let line = 1;
  for (const row of allOf(table, "table-row")) {
    const times = Number(odf(row, "table:number-rows-repeated") ?? 1), cells = odsCells(row, line, sheet.faults);
    const isHidden = (odf(row, "table:visibility") ?? "visible") !== "visible";
    if (cells.length) {
      count.add(times * cells.length);
      if (!(line + times <= MOST_ROWS + 1)) throw damaged();
      for (let i = 0; i < times; i++) sheet.rows.push({ line: line + i, cells });
      for (let i = 0; isHidden && i < times; i++) sheet.hiddenRows.push(line + i);
    }
    line += times;
  }
  return sheet;
}

/**
 * The cells of a row, without empty ones behind the last.
 * @param {Element} row
 * @param {number} line
 * @param {LineFault[]} faults
 */
function odsCells(row, line, faults) {
  /** @type {string[]} */
  const cells = [];
  let empty = 0;
  for (const cell of row.children) {
    if (!["table-cell", "covered-table-cell"].includes(cell.localName)) continue;
    const times = Number(odf(cell, "table:number-columns-repeated") ?? 1), text = odsCell(cell);
    if (!text) {
      const isFormula = odf(cell, "table:formula") !== undefined && odf(cell, "office:value-type") === undefined;
      if (isFormula) faults.push(faultAt(line, "sheetFormula", columnLetters(cells.length + empty)));
      empty += times;
      continue;
    }
    if (!(cells.length + empty + times <= MOST_COLUMNS)) throw damaged();
    cells.push(...Array(empty).fill(""), ...Array(times).fill(text));
    empty = 0;
  }
  return cells;
}

/**
 * What a cell says: as it is shown, but a number in full.
 * @param {Element} cell
 */
function odsCell(cell) {
  const shown = paragraphsOf(cell), kind = odf(cell, "office:value-type") ?? "", value = odf(cell, "office:value");
  if (!["float", "currency", "percentage"].includes(kind) || value === undefined) return shown;
  const number = decimalOf(value);
  if (!number) throw damaged();
  const kept = keptDecimal(number), isWhole = isWholeDecimal(number), full = inFull(kept).replace(".", decimalSign());
  if (/^0\d+$/.test(shown) && isWhole && shown.replace(/^0+(?=\d)/, "") === inFull(number)) return shown;
  const isLong = isWhole && number.point > PRICE_DIGITS;
  const isScientific = shown.toUpperCase().replaceAll("EUR", "").includes("E");
  if (isLong || isScientific || !/\p{Nd}/u.test(shown)) return full;
  const decimals = shown.match(/[.,](\p{Nd}+)\P{Nd}*$/u)?.[1].length ?? 0;
  if (kind === "percentage" || isWhole || decimals && kept.digits.length - kept.point <= decimals) return shown;
  return shown.replace(/-?\p{Nd}[\p{Nd}.,'’\s]*/u, (it) => full + (it.endsWith(" ") ? " " : ""));
}

/**
 * The paragraphs of a cell as lines, without its comments.
 * @param {Element} cell
 */
const paragraphsOf = (cell) => Array.from(cell.children).filter(({ localName }) => localName === "p").map(textOfNode)
  .join("\n");

/**
 * @param {Node} node
 * @returns {string}
 */
function textOfNode(node) {
  if (node.nodeType === Node.TEXT_NODE) return node.textContent ?? "";
  if (!(node instanceof Element) || node.localName === "annotation") return "";
  const blanks = node.localName === "s" ? " ".repeat(Math.min(1000, Number(odf(node, "text:c") ?? 1))) : "";
  const sign = { tab: "\t", "line-break": "\n" }[node.localName] ?? blanks;
  return sign + Array.from(node.childNodes, textOfNode).join("");
}
