// @ts-check
// Finds what a list says of its prices outside their heading: in titles, between its lines and in other columns, such
// as "all prices without tax", a column of units that says "carton", or sums of price and tax.
// tables/shop/README.md has the rule. As bindings/python/noriladle/_remarks.py.
"use strict";

/**
 * A cell that may mean that the price is not that of the shelf, and its line.
 * @typedef {{ line: number, cell: string }} Remark
 */

const REMARKS = { units: anyOf(PRICES.remarks.units), sizes: anyOf(PRICES.remarks.sizes),
  measures: anyOf(PRICES.remarks.measures), currencies: anyOf(PRICES.remarks.currencies),
  quantities: anyOf(PRICES.remarks.quantities) };
const NETS = new Set(PRICES.remarks.nets), NETS_OR_NO = new Set([...NETS, ...PRICES.remarks.no]);
// Cells that say yes or no.
const FLAGS = new Set([...PRICES.remarks.no, ...PRICES.remarks.yes]);
// A sum that differs by this part is that of the price, and one up to this many times the price may have its tax.
const NEAR = 0.02, TAXED = 1.3;

/**
 * The first remark on the prices of a column: in the titles, in the lines without an article, or in the columns that
 * are not used.
 * @param {number} price
 * @param {string[]} headings
 * @param {{ titles: ListRecord[], passed: ListRecord[], records: ListRecord[] }} lines
 * @param {number[]} unused
 * @returns {Remark | undefined}
 */
function remarkOn(price, headings, { titles, passed, records }, unused) {
  const between = passed.filter(({ cells }) => !cells.some((cell) => writtenPrice(trimmed(cell))?.point));
  for (const record of [...titles, ...between]) {
    const [remark] = remarksInLine(price, headings, record);
    if (remark) return remark;
  }
  for (const place of unused) {
    const [remark] = remarksInColumn(place, headings[place] ?? "", records);
    if (remark) return remark;
  }
  if (hasTax(folded(headings[price] ?? ""))) return undefined;
  return unused.filter((place) => mayAddTax(headings[place] ?? ""))
    .flatMap((place) => remarksInSums(price, place, headings, records))[0];
}

/**
 * What a line without an article says. A cell in the column of the price goes on with its heading.
 * @param {number} price
 * @param {string[]} headings
 * @param {ListRecord} record
 * @returns {Remark[]}
 */
function remarksInLine(price, headings, record) {
  const isOther = (/** @type {string} */ text) => PRICES.remarks.reasons.includes(reasonOf(text));
  const { line } = record, cells = record.cells.map(oneBlank);
  if (cells.length === headings.length && cells.every((cell, place) => cell === headings[place])) return [];
  return cells.filter(
    (cell, place) => cell && (isOther(cell) || place === price && isOther(`${headings[price]} ${cell}`)))
    .map((cell) => ({ line, cell }));
}

/**
 * What a column says of the price beside it: of how much it is the price, in which of several currencies, or that it is
 * without tax.
 * @param {number} place
 * @param {string} heading
 * @param {ListRecord[]} records
 * @returns {Remark[]}
 */
function remarksInColumn(place, heading, records) {
  const words = folded(heading),
    filled = records.map(({ line, cells }) => ({ line, cell: oneBlank(cells[place] ?? "") }))
    .filter(({ cell }) => cell);
  const isSize = has(REMARKS.sizes, words), isCurrency = has(REMARKS.currencies, words);
  const found = has(REMARKS.units, words) ? filled.filter(({ cell }) => isOtherUnit(cell, isSize))
    : isCurrency ? filled.filter(({ cell }) => cell.toUpperCase() !== filled[0].cell.toUpperCase()) : [];
  const others = hasTax(words) ? NETS_OR_NO : NETS;
  return [...found, ...filled.filter(({ cell }) => others.has(cell.toLowerCase()))]
    .map(({ line, cell }) => ({ line, cell: `${heading}: ${cell}` }));
}

/**
 * What a column says of the price beside it: it is without tax, if most of the amounts that are not the price times a
 * quantity are a tax above it.
 * @param {number} price
 * @param {number} place
 * @param {string[]} headings
 * @param {ListRecord[]} records
 * @returns {Remark[]}
 */
function remarksInSums(price, place, headings, records) {
  const placesOf = (/** @type {RegExp} */ words) =>
    headings.flatMap((heading, at) => has(words, folded(heading)) ? [at] : []);
  const priced = [price, ...placesOf(PRICE_WORDS.deposit).filter((at) => at !== place)];
  for (const quantity of [-1, ...placesOf(REMARKS.quantities)]) {
    const shares = records.map((record) => ({ record, share: shareOf(record, place, priced, quantity) }));
    const taxed = shares.filter(({ share }) => share >= 1 + NEAR && share <= TAXED);
    const others = shares.filter(({ share }) => share > 0 && share < 1 - NEAR || share > TAXED);
    if (taxed.length > others.length) {
      const [{ record: { line, cells } }] = taxed;
      return [{ line, cell: `${headings[place]}: ${oneBlank(cells[place])}` }];
    }
  }
  return [];
}

/**
 * An amount, divided by the sum of the price and what is paid with it, times a quantity; 0 if one is missing.
 * @param {ListRecord} record
 * @param {number} place
 * @param {number[]} priced
 * @param {number} quantity
 */
function shareOf({ cells }, place, priced, quantity) {
  const [price, ...others] = priced.map((at) => cellAmount(cells[at] ?? ""));
  const times = quantity < 0 ? 1 : cellAmount(cells[quantity] ?? "");
  return times && price ? cellAmount(cells[place] ?? "") / (times * others.reduce((sum, one) => sum + one, price)) : 0;
}

/**
 * Whether a unit is another one than a piece: a measure or a case; and beside a price's unit a number above 1.
 * @param {string} unit
 * @param {boolean} isSize
 */
function isOtherUnit(unit, isSize) {
  if (!isSize) return has(REMARKS.measures, folded(unit));
  const [, number, rest] = unit.match(/^(0*1 |[0-9]+(?![0-9.,]))?(.*)$/s) ?? [];
  return has(REMARKS.measures, folded(rest ?? "")) || number !== undefined && Number(number) !== 1;
}
