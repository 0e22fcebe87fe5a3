// @ts-check
// Finds what each column of a list is: by headings in the languages of tables/shop/shop.json, or by the cells. As
// bindings/python/noriladle/_columns.py.
"use strict";

/**
 * What a person said about a list: the column of a meaning, by its index, or -1 for none; and whether 0 is a price.
 * @typedef {{ columns: Record<string, number>, isFree: boolean, units?: string[] }} Answers
 *
 * A list whose columns are known: its records that have a number; where each meaning's columns are; the errors of lines
 * that are no records, and what stands in them; the line of the heading if titles stand above it; how many cells a
 * record may have, and has if none is missing; what a person must say about the price; what the heading of the price
 * says; the columns that are not used; and the lines without a number.
 * @typedef {{ records: ListRecord[], places: Places, faults: LineFault[], lost: ListRecord[], titled: number,
 *   delimiter: string, width: number, shortest: number, question: PriceQuestion | null,
   heading: PriceHeading | undefined,
 *   unused: Told[], passed: number[], look: Look }} Table
 *
 * @typedef {Record<string, number[]>} Places  the columns of each meaning
 * @typedef {{ line: number, fault: Told, places: number[] }} PriceQuestion  with the columns that it names
 * @typedef {[number, number]} Ranked  how well a heading fits, less is better; and its column
 */

/** @type {Record<string, string[]>} */
const HEADINGS = SHOP.headings;
const MEANINGS = Object.keys(HEADINGS);

// What a label shows beside its name and price, as gs1.h orders it; and meanings of a heading that has no other words,
// whose columns are chosen after the price, so that they change nothing in its choice.
const FIELDS = ["old-price", "unit-price", "deposit", "best-before", "batch"], BESIDE = [...FIELDS, "content"];

// What each heading means, and its rank: a lower one is better.
/** @type {Map<string, { meaning: string, rank: number }>} */
const KNOWN = new Map([...MEANINGS].reverse().flatMap((meaning) =>
  HEADINGS[meaning].map((word, rank) => /** @type {const} */ ([word, { meaning, rank }]))));

// Words that turn a heading such as "article" into one of article numbers.
const NUMBER_WORDS = new Set(SHOP.numbers);

// Meanings that no list may have twice, since nobody can say which column is meant.
const ONCE = ["gtin", "gs1", "copies", "kind", ...BESIDE];

// The heading is one of this many records; how many words of a heading may be that of a number; how many records decide
// what a column is.
const MOST_TITLES = 10, MOST_NUMBER_WORDS = 4, SAMPLE = 200;

// The rank of a heading that begins with a known word and has more; twice that if the word comes later, and four times
// if it is a case's.
const LONGER = 100;

const LIKE_PRICE = /^[^\p{Nd}\s]{0,3}\s?\p{Nd}{1,6}[.,]\p{Nd}{2}\s?[^\p{Nd}\s]{0,4}$/u;

/** @type {Record<string, string>} */
const FOLDED = { ł: "l", ø: "o", ß: "ss" };

/** @type {Answers} */
const NOTHING_SAID = { columns: {}, isFree: false };

/**
 * A heading in small letters, without accents, blanks and signs.
 * @param {string} heading
 */
const plainHeading = (heading) => heading.toLowerCase().replace(/[łøß]/g, (sign) => FOLDED[sign]).normalize("NFKD")
  .replace(/[^\p{L}\p{N}]/gu, "");

/**
 * What a heading means, if it or one of its words is known, and its rank.
 * @param {string} heading
 * @returns {{ meaning: string, rank: number }}
 */
function knownHeading(heading) {
  // A number with a word beside it, such as EAN: 4012345010008.
  if (/\p{Nd}{7}/u.test(heading)) return { meaning: "", rank: 0 };
  const price = priceHeading(heading), whole = KNOWN.get(plainHeading(heading));
  if (price && !BESIDE.includes(whole?.meaning ?? "")) return { meaning: price.reason ? "" : "price", rank: 0 };
  if (whole) return whole;
  const words = heading.split(/[^\p{L}\p{N}]+/u).filter(Boolean).map(plainHeading);
  const known = words.map((word) => KNOWN.get(word.replace(/[0-9]+$/, "")));
  const at = known.slice(0, MOST_NUMBER_WORDS).findIndex((one) => one?.meaning === "gtin");
  if (at >= 0 && !/\p{Nd}/u.test(words.slice(0, at).join(""))) {
    const isCase = folded(heading).search(PRICE_WORDS.carton) >= 0;
    return { meaning: "gtin", rank: LONGER * (1 + Number(at > 0) + 3 * Number(isCase)) + (known[at]?.rank ?? 0) };
  }
  const { meaning = "", rank = 0 } = known[0] ?? {}, isNumber = words.slice(1).some((word) => NUMBER_WORDS.has(word));
  return meaning === "name" && isNumber || BESIDE.includes(meaning) ? { meaning: "", rank: 0 }
    : { meaning, rank: LONGER + rank };
}

/** @param {string} cell */
const isRightCell = (cell) => "elements" in readText(cell);

/** @param {string} text */
const oneBlank = (text) => trimmed(text).replace(WHITE, " ");

/** A list read by one of its delimiters: the columns known by headings, and that of the numbers by its cells. */
class Look {
  /**
   * @param {Sheet} sheet
   * @param {Answers} answers
   */
  constructor(sheet, { columns }) {
    this.sheet = sheet;
    this.asked = Object.fromEntries(
      Object.entries(columns).filter(([, place]) => place >= 0).map(([name, place]) => [name, [place]]));
    this.none = new Set(Object.keys(columns).filter((meaning) => columns[meaning] < 0));
    const titles = sheet.records.slice(0, MOST_TITLES).findIndex((record) => this.isHeading(this.meanings(record)));
    this.titles = Math.max(0, titles);
    this.records = sheet.records.slice(this.titles);
    this.first = this.records[0];
    this.sample = this.records.slice(0, SAMPLE);
    this.wide = this.sample.reduce((most, { cells }) => Math.max(most, cells.length), 0);
    this.headed = this.found();
    const [right, looking, number] = Array.from({ length: this.wide }, (_, place) => this.score(place))
      .reduce((best, score) => isBetter(score.slice(0, 2), best.slice(0, 2)) ? score : best);
    this.right = right;
    this.looking = looking;
    this.number = number;
    this.hasHeading = false;
  }

  /** @param {Record<string, unknown>} meanings */
  isHeading(meanings) { return "gtin" in meanings || "gs1" in meanings; }

  /** How well the list reads with this delimiter. Of equals the first wins, and whole lines come first. */
  rank() { return [Number(this.isHeading(this.headed)), Object.keys(this.headed).length, this.right, this.looking]; }

  get isLines() { return this.sheet.delimiter === WHOLE_LINES; }

  /**
   * What the cells of a record mean if it is a heading: for each meaning the rank and the column. A record with a valid
   * number is no heading, whatever its article is called.
   * @param {ListRecord} record
   */
  meanings({ cells }) {
    /** @type {Record<string, Ranked[]>} */
    const found = {};
    if (cells.some((cell) => looksRight(cell) && isRightCell(cell))) return found;
    cells.forEach((cell, place) => {
      const { meaning, rank } = knownHeading(cell);
      if (meaning) (found[meaning] ??= []).push([rank, place]);
    });
    return found;
  }

  /** The columns by their headings: for each meaning the best one, and all free lines. */
  found() {
    const found = Object.entries(this.meanings(this.first)).map(([meaning, its]) => {
      // An empty column gives way to one that has cells.
      const filled = its.filter(([, place]) => this.hasCells(place)), best = filled.length && meaning !== "line"
        ? filled : its;
      return { meaning, its: best.sort((a, b) => a[0] - b[0] || a[1] - b[1]) };
    });
    const isOnce = ({ meaning = "" }) => ONCE.includes(meaning) && !(meaning in this.asked) && !this.none.has(meaning);
    for (const { meaning, its } of found.filter(isOnce)) this.checkOnce(meaning, its);
    const known = found.filter(({ meaning }) => !this.none.has(meaning)).map(({ meaning, its }) =>
      [meaning, meaning === "line" ? its.map(([, place]) => place).sort((a, b) => a - b) : [its[0][1]]]);
    return /** @type {Places} */ (Object.fromEntries(known));
  }

  /**
   * Throws a question if two columns have a meaning. A heading with more words, such as "EAN of the case", loses
   * against one that is a known word.
   * @param {string} meaning
   * @param {Ranked[]} its
   */
  checkOnce(meaning, [best, other]) {
    if (!other || Math.floor(best[0] / LONGER) !== Math.floor(other[0] / LONGER)) return;
    const places = [best[1], other[1]].sort((a, b) => a - b);
    const [first, second] = places.map((place) => oneBlank(this.first.cells[place]));
    this.hasHeading = true;
    throw this.question(meaning, places, faultAt(this.first.line, "twice", first, second, meaning));
  }

  /**
   * An error that a person answers by a column.
   * @param {string} meaning
   * @param {number[]} places
   * @param {LineFault} fault
   */
  question(meaning, places, fault) {
    return Object.assign(new Faults(fault), { look: this, question: { meaning, places } });
  }

  /**
   * Whether a column has a cell below the heading.
   * @param {number} place
   */
  hasCells(place) { return this.records.slice(1).some(({ cells }) => trimmed(cells[place] ?? "")); }

  /**
   * How many cells of a column are valid numbers, and how many look like numbers; and the column.
   * @param {number} place
   */
  score(place) {
    const looking = this.sample.map(({ cells }) => cells[place] ?? "").filter(looksRight);
    return [looking.filter(isRightCell).length, looking.length, place];
  }

  /** The table. Throws a question if no column has numbers. */
  table() {
    const isHeaded = this.isHeading(this.headed), isAsked = this.isHeading(this.asked), isFound = !isHeaded && !isAsked;
    if (isFound && !this.looking && (this.wide > 1 || Object.keys(this.headed).length)) {
      throw this.question("gtin", [], faultAt(this.first.line, "noNumbers"));
    }
    const number = this.asked.gtin ?? this.asked.gs1 ?? [this.number];
    this.hasHeading = isHeaded || this.isWord(number[0]);
    const records = this.records.slice(Number(this.hasHeading));
    /** @type {Places} */
    const places = { ...(this.hasHeading ? this.headed : {}), ...this.asked, ...(isFound ? { gtin: number } : {}) };
    const choice = this.prices(places, records);
    delete places.price;
    if (choice.length === 1 && !this.none.has("price")) places.price = choice;
    // A column of prices of a unit says of what they are, or a person wants it.
    const hasUnit = (/** @type {number} */ place) =>
      this.asked["unit-price"] || this.records.some(({ cells }) => UNIT.test(cells[place] ?? ""));
    for (const meaning of BESIDE) {
      const [place] = places[meaning] ?? [];
      if (place === places.price?.[0] || meaning === "unit-price" && !hasUnit(place)) delete places[meaning];
    }
    if (isFound && !this.isLines) this.guessName(places, records.slice(0, SAMPLE));
    return this.tableOf(places, records, choice);
  }

  /**
   * @param {Places} places
   * @param {ListRecord[]} records
   * @param {number[]} choice
   * @returns {Table}
   */
  tableOf(places, records, choice) {
    const numbers = [...(places.gtin ?? []), ...(places.gs1 ?? [])], width = this.width(), shortest = this.shortest();
    const hasNone = (/** @type {ListRecord} */ record) => this.hasNoNumber(record, numbers, { width, shortest });
    const passed = new Set(this.isLines ? [] : records.filter(hasNone));
    const other = [...passed].find((record) => this.isOtherHeading(record));
    if (other) throw new Faults(faultAt(other.line, "otherHeading"));
    const rest = records.filter((record) => !passed.has(record)), unused = this.unused(places, records);
    const beside = [...unused, ...FIELDS.flatMap((meaning) => places[meaning] ?? [])].sort((a, b) => a - b);
    const question = this.none.has("price") ? null : places.price
      ? this.doubt(places, { titles: this.sheet.records.slice(0, this.titles), passed: [...passed], records: rest },
        beside) : this.priceQuestion(choice, places);
    if (question) delete places.price;
    const [price] = places.price ?? [], { faults, lost, delimiter } = this.sheet;
    return { records: rest, places, faults, lost, delimiter, width, shortest,
      titled: this.titles ? this.first.line : 0, question,
      heading: price === undefined || !this.hasHeading ? undefined : priceHeading(this.first.cells[price] ?? ""),
      unused: unused.map((place) => this.named(place)), passed: [...passed].map(({ line }) => line), look: this };
  }

  /**
   * Whether a record is a heading, too, and another one: it has two words of this one, and not the same in all.
   * @param {ListRecord} record
   */
  isOtherHeading(record) {
    if (!this.hasHeading) return false;
    if (record.cells.filter(trimmed).length < 2) return false;
    const own = this.first.cells.map(plainHeading), other = record.cells.map(plainHeading);
    const shared = new Set(own.filter((word) => word && other.includes(word)));
    return shared.size > 1 && own.some((word, place) => place < other.length && word !== other[place]);
  }

  /**
   * The question whether the column of the price is one, if a cell of the list may mean that it is not.
   * @param {Places} places
   * @param {{ titles: ListRecord[], passed: ListRecord[], records: ListRecord[] }} lines
   * @param {number[]} unused
   * @returns {PriceQuestion | null}
   */
  doubt(places, lines, unused) {
    if (!this.hasHeading || this.asked.price) return null;
    const [price] = places.price, remark = remarkOn(price, this.first.cells.map(oneBlank), lines, unused);
    return remark ? { line: remark.line, places: [price],
      fault: { key: "notShelf", values: [shortText(remark.cell), this.named(price)] } } : null;
  }

  /**
   * Whether a record is a category or a total: it has nothing like a number in its columns, nor one elsewhere, and no
   * cell is missing.
   * @param {ListRecord} record
   * @param {number[]} numbers
   * @param {{ width: number, shortest: number }} lengths
   */
  hasNoNumber({ cells }, numbers, { width, shortest }) {
    const isShort = cells.length < shortest && cells.filter(trimmed).length > 1;
    return !isShort && !numbers.some((place) => /[\p{Nd}#]/u.test(cells[place] ?? ""))
      && !cells.slice(width).some(trimmed)
      && !cells.some((cell) => looksRight(cell) && isRightCell(cell));
  }

  /** How many cells a record of a text has, if none is missing: as many as most have, with the heading. */
  shortest() { return this.sheet.delimiter === SPREADSHEET ? 0 : usualLength(this.sample); }

  /** How many cells a record may have: as many as the heading, or else as most have. */
  width() {
    if (this.isLines) return 1;
    return this.hasHeading ? this.first.cells.length : usualLength(this.sample);
  }

  /**
   * Whether the first record has a word in the column of the numbers, while others have numbers there.
   * @param {number} number
   */
  isWord(number) {
    const { cells } = this.first, isWord = number < cells.length && !/\p{Nd}\p{Nd}/u.test(cells[number]);
    return isWord && this.records.length > 1 && (this.right > 0 || Object.keys(this.headed).length > 0);
  }

  /**
   * The columns that may be the price on the shelf: by the heading, or in a list without one by the cells.
   * @param {Places} places
   * @param {ListRecord[]} records
   */
  prices(places, records) {
    if (this.asked.price) return this.asked.price;
    const free = this.free(places);
    if (!this.hasHeading) return this.isLines ? [] : this.amounts(free, records);
    const found = free.flatMap((place) => {
      const heading = priceHeading(this.first.cells[place] ?? "");
      return heading && (this.hasCells(place) || !records.length)
        ? [{ place, heading, cells: this.filled(place) }] : [];
    });
    const flags = found.filter(({ cells }) => cells.length && cells.every((cell) => FLAGS.has(cell)));
    const best = shelfPrices(found), others = shelfPrices(found.filter((one) => !flags.includes(one)));
    // A column that says yes or no is no price. One of 1 and 0 may be a price, too.
    const mayBeBoth = flags.some(({ cells }) => cells.some((cell) => /[0-9]/.test(cell)));
    if (!others.length) return best;
    return [...new Set([...others, ...(mayBeBoth ? best : [])])].sort((a, b) => a - b);
  }

  /**
   * What stands in a column below the heading, in small letters.
   * @param {number} place
   */
  filled(place) {
    const cells = this.records.slice(1).map(({ cells: { [place]: cell = "" } }) => trimmed(cell).toLowerCase());
    return [...new Set(cells.filter(Boolean))];
  }

  /**
   * The columns that have no meaning but that of a price.
   * @param {Places} places
   */
  free(places) {
    const taken =
      new Set(Object.entries(places).flatMap(([meaning, its]) => ["price", ...BESIDE].includes(meaning) ? [] : its));
    return Array.from({ length: this.wide }, (_, place) => place).filter((place) => !taken.has(place));
  }

  /**
   * The columns whose cells mostly look like prices.
   * @param {number[]} free
   * @param {ListRecord[]} records
   */
  amounts(free, records) {
    return free.filter((place) => {
      const cells = this.cellsOf(place, records);
      return 2 * cells.filter((cell) => LIKE_PRICE.test(cell)).length > cells.length;
    });
  }

  /**
   * The cells of a column, in the records that decide.
   * @param {number} place
   * @param {ListRecord[]} records
   */
  cellsOf(place, records) {
    return records.slice(0, SAMPLE).filter(({ cells }) => place < cells.length)
      .map(({ cells }) => trimmed(cells[place]));
  }

  /**
   * The question which column is the price.
   * @param {number[]} choice
   * @param {Places} places
   * @returns {PriceQuestion}
   */
  priceQuestion(choice, places) {
    const looking = this.amounts(this.free(places), this.records.slice(Number(this.hasHeading)));
    const told = new Map(this.hasHeading ? this.first.cells.flatMap((cell, place) => {
      const sure = looking.includes(place) ? reasonIn(cell) : "";
      const reason = priceHeading(cell)?.reason || (PRICES.remarks.reasons.includes(sure) ? sure : "");
      return reason ? [[place, reason]] : [];
    }) : []);
    const columns = choice.length ? choice : [...new Set([...told.keys(), ...looking])].sort((a, b) => a - b);
    const named = columns.map((place) => told.has(place) && !choice.length
      ? { key: "because", values: [this.nameOf(place), { key: told.get(place) }] } : this.named(place));
    const fault = choice.length ? { key: "whichPrice", values: [{ list: named }] }
      : columns.length ? { key: "noShelfPrice", values: [{ list: named }] } : { key: "nonePrice" };
    return { line: this.first.line, fault, places: columns };
  }

  /**
   * The heading of a column, or nothing.
   * @param {number} place
   */
  nameOf(place) { return this.hasHeading ? oneBlank(this.first.cells[place] ?? "") : ""; }

  /**
   * A column by its heading, or by its number.
   * @param {number} place
   * @returns {Told}
   */
  named(place) {
    const heading = this.nameOf(place);
    return heading ? { key: "quoted", values: [heading] } : { key: "columnNumber", values: [String(place + 1)] };
  }

  /**
   * The columns that are not used and have a heading or a cell.
   * @param {Places} places
   * @param {ListRecord[]} records
   */
  unused(places, records) {
    if (this.isLines) return [];
    const used = new Set(Object.entries(places).flatMap(([meaning, its]) => meaning === "content" ? [] : its));
    return Array.from({ length: this.width() }, (_, place) => place).filter((place) => !used.has(place)
      && (this.nameOf(place) || records.some(({ cells }) => trimmed(cells[place] ?? ""))));
  }

  /**
   * Adds the column of names, which has most letters.
   * @param {Places} places
   * @param {ListRecord[]} records
   */
  guessName(places, records) {
    const free = this.free(places).filter((place) => !places.price?.includes(place));
    const prices = this.amounts(free, records);
    const letters = (/** @type {number} */ place) => this.cellsOf(place, records).join("")
      .match(/\p{L}/gu)?.length ?? 0;
    const counts = free.filter((place) => !prices.includes(place)).map((place) => ({ place, count: letters(place) }));
    const best = counts.reduce((most, one) => one.count > most.count ? one : most, { place: -1, count: -1 });
    if (!("name" in places) && !this.none.has("name") && best.count > 2 * records.length) places.name = [best.place];
  }
}

/**
 * @param {number[]} a
 * @param {number[]} b
 */
const isBetter = (a, b) => {
  const at = a.findIndex((value, i) => value !== b[i]);
  return at >= 0 && a[at] > b[at];
};

/**
 * How many cells most records have; of as many the longer ones.
 * @param {ListRecord[]} records
 */
function usualLength(records) {
  /** @type {Map<number, number>} */
  const counts = new Map();
  for (const { cells: { length } } of records) counts.set(length, (counts.get(length) ?? 0) + 1);
  return [...counts].reduce((best, one) => isBetter([one[1], one[0]], [best[1], best[0]]) ? one : best, [0, 0])[0];
}

/**
 * The table of a list of at most this many lines. Throws a Faults, perhaps with a question.
 * @param {ListTyped} list
 * @param {Answers} answers
 * @param {number} most
 */
function tableOf(list, answers = NOTHING_SAID, most = LIMIT) {
  if (list.text.length > LIMIT) throw tooLarge();
  const sheets = sheetsOf(list, most);
  const looks = sheets.filter(({ records }) => records.length).map((sheet) => new Look(sheet, answers));
  if (!looks.length) throw new Faults(...(sheets[0].faults.length ? sheets[0].faults : [faultAt(1, "emptyList")]));
  return looks.reduce((best, look) => isBetter(look.rank(), best.rank()) ? look : best).table();
}

/**
 * The cell of a record in a column: empty if the record is too short, or if there is no such column.
 * @param {{ places: Places }} table
 * @param {ListRecord} record
 * @param {string} meaning
 */
const cellIn = ({ places }, { cells }, meaning) =>
  cells[(places[meaning] ?? []).find((place) => place < cells.length) ?? -1] ?? "";
