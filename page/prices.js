// @ts-check
// Finds which heading of a list is the price on the shelf. tables/shop has the words and, in README.md, the rule. As
// bindings/python/noriladle/_prices.py.
"use strict";

/**
 * What a heading says about its prices: why they are not those of the shelf, or nothing; how clearly they are the
 * shop's own, with tax: 0 to 4, or -1 if somebody else recommends them; the currencies and countries that it names;
 * whether they are whole numbers of cents; and whether all its words are known.
 * @typedef {{ reason: string, points: number, marks: string[], isCents: boolean, isSure: boolean }} PriceHeading
 */

// A longer text is no heading, or no remark.
const MOST_HEADING = 200, MOST_REMARK = 1000;

const LETTERS = new Map(Object.entries(PRICES.letters)), ANY_LETTER = RegExp(`[${[...LETTERS.keys()].join("")}]`, "g");

/**
 * The regular expression of a pattern of the table, on folded text.
 * @param {string} words
 */
function pricePattern(words) {
  const signs = { "*": "[^ ]*", "#": "(?:[2-9]|[1-9][0-9]+)" }, plain = words.replace(/^\^|\$$/g, "");
  const parts = plain.split(" ")
    .map((word) => word === "*" ? "[^ ]+" : word.replace(/[*#]/g, (sign) => signs[/** @type {"*" | "#"} */ (sign)]));
  return `${words[0] === "^" ? "^" : ""} ${parts.join(" ")}(?= )${words.at(-1) === "$" ? " $" : ""}`;
}

/** @param {string[]} patterns */
const anyOf = (patterns) => RegExp(patterns.map(pricePattern).join("|"), "gu");

/** @param {Record<string, string[]>} groups */
const anyOfEach = (groups) => Object.entries(groups).map(([name, patterns]) => ({ name, pattern: anyOf(patterns) }));

const PRICE_WORDS = { ignored: anyOf(PRICES.ignored), price: anyOf(PRICES.price), own: anyOf(PRICES.own),
  gross: anyOf(PRICES.gross), recommended: anyOf(PRICES.recommended), taxes: anyOf(PRICES.taxes),
    with: anyOf(PRICES.with),
  without: anyOf(PRICES.without), cents: anyOf(PRICES.cents), carton: anyOf(PRICES.reasons.carton),
  deposit: anyOf(PRICES.reasons.deposit),
  total: anyOf(PRICES.reasons.total) };
const PRICE_REASONS = anyOfEach(PRICES.reasons), PRICE_MARKS = anyOfEach(PRICES.marks);
const SURE_WORDS = anyOf([...PRICES.price, ...PRICES.own, ...PRICES.gross, ...PRICES.recommended, ...PRICES.taxes,
  ...PRICES.with, ...PRICES.cents, ...PRICES.neutral, ...Object.values(PRICES.marks).flat()]);

// Reasons that do not keep a column from being the price, if the only other one has unknown words.
const DOUBTFUL = ["unit", "offer", "country", "customer", "quantity", "unclear"];

/**
 * @param {RegExp} pattern
 * @param {string} text
 */
const has = (pattern, text) => text.search(pattern) >= 0;

/**
 * The words of a heading in small letters without accents, each between blanks. Single letters, as in R.R.P., become
 * one word.
 * @param {string} heading
 */
function folded(heading) {
  const small = heading.replace(/([a-z])([A-Z])/g, "$1 $2").toLowerCase()
    .replace(ANY_LETTER, (letter) => LETTERS.get(letter) ?? "");
  const plain = small.normalize("NFKD").replace(/\p{M}/gu, "").replace(/[^\p{L}\p{N}]/gu, " ");
  /** @type {string[]} */
  const words = [];
  let wasSingle = false;
  for (const word of plain.split(" ").filter(Boolean)) {
    const isSingle = /^\p{L}$/u.test(word);
    if (isSingle && wasSingle) words[words.length - 1] += word;
    else words.push(word);
    wasSingle = isSingle;
  }
  return ` ${words.join(" ")} `;
}

/**
 * What a heading says about its prices; or nothing, if it is not about prices.
 * @param {string} heading
 * @returns {PriceHeading | undefined}
 */
function priceHeading(heading) {
  if (Array.from(heading).length > MOST_HEADING) return undefined;
  const text = folded(heading).replace(PRICE_WORDS.ignored, "");
  if (!has(PRICE_WORDS.price, text)) return undefined;
  const { isTaxed, tax } = taxOf(text);
  const reason = firstReason(text, tax);
  const points = Number(has(PRICE_WORDS.own, text)) + Number(has(PRICE_WORDS.gross, text)) + 2 * Number(isTaxed);
  const marks = PRICE_MARKS.filter(({ pattern }) => has(pattern, text)).map(({ name }) => name);
  return { reason, points: has(PRICE_WORDS.recommended, text) ? -1 : points, marks,
    isCents: has(PRICE_WORDS.cents, text),
    isSure: !text.replace(SURE_WORDS, "").trim() };
}

// What reasonOf has said of texts, since lists repeat them, up to this many.
/** @type {Map<string, string>} */
const REASONS_SAID = new Map();
const MOST_SAID = 4096;

/**
 * Why the prices that a text speaks of are not those of the shelf; nothing if it does not say, or speaks of a total.
 * @param {string} text
 */
function reasonOf(text) {
  const said = REASONS_SAID.get(text) ?? reasonFound(text);
  if (REASONS_SAID.size >= MOST_SAID) REASONS_SAID.clear();
  REASONS_SAID.set(text, said);
  return said;
}

/** @param {string} text */
function reasonFound(text) {
  const words = folded(Array.from(text).slice(0, MOST_REMARK).join("")).replace(PRICE_WORDS.ignored, "");
  const { tax } = taxOf(words), isAbout = tax === "net" || has(PRICE_WORDS.price, words);
  return isAbout && !has(PRICE_WORDS.total, words) ? firstReason(words, tax) : "";
}

/**
 * The first reason that a folded text gives, or that its words of tax give.
 * @param {string} text
 * @param {string} tax
 */
const firstReason = (text, tax) =>
  PRICE_REASONS.find(({ name, pattern }) => name === tax || has(pattern, text))?.name ?? "";

/**
 * Whether a heading says that the tax is included, and else the reason that its words of tax make.
 * @param {string} text
 */
function taxOf(text) {
  if (!has(PRICE_WORDS.taxes, text)) return { isTaxed: false, tax: "" };
  if (has(PRICE_WORDS.without, text)) return { isTaxed: false, tax: "net" };
  return has(PRICE_WORDS.with, text) ? { isTaxed: true, tax: "" } : { isTaxed: false, tax: "tax" };
}

/** @param {string} heading */
const headingText = (heading) => folded(Array.from(heading).slice(0, MOST_HEADING).join(""))
  .replace(PRICE_WORDS.ignored, "");

/**
 * Why amounts below a heading are not prices of the shelf, also if it does not speak of prices; or nothing.
 * @param {string} heading
 */
function reasonIn(heading) {
  const text = headingText(heading);
  return firstReason(text, taxOf(text).tax);
}

/**
 * Whether a folded heading says that its prices have the tax.
 * @param {string} text
 */
const hasTax = (text) => taxOf(text).isTaxed || has(PRICE_WORDS.gross, text);

/**
 * Whether a heading may be that of prices with the tax added: it speaks of tax or a total, and of no other price.
 * @param {string} heading
 */
function mayAddTax(heading) {
  const text = headingText(heading), reason = reasonIn(heading);
  const saysSo = reason ? ["net", "total"].includes(reason)
    : has(PRICE_WORDS.with, text) || has(PRICE_WORDS.gross, text);
  return saysSo && !has(PRICE_WORDS.recommended, text);
}

/**
 * The columns, of these with their headings, that may be the price on the shelf: one is the answer, more are a
 * question.
 * @param {{ place: number, heading: PriceHeading }[]} headings
 */
function shelfPrices(headings) {
  const known = headings.filter(({ heading }) => !heading.reason), places = known.map(({ place }) => place);
  // Beside a purchase price the plain one is the shop's own. Without one it may be the purchase price.
  const least = headings.some(({ heading }) => heading.reason === "purchase") ? -1 : 0;
  const pointsOf = (/** @type {{ heading: PriceHeading }} */ { heading }) => Math.max(least, heading.points);
  const most = Math.max(...known.map(pointsOf)), first = known.filter((it) => pointsOf(it) === most);
  const plain = first.filter(({ heading }) => !heading.marks.length), best = plain.length ? plain : first;
  if (best.length !== 1) return places;
  const [{ place, heading: { marks, isSure, points } }] = best;
  // Beside a price that somebody recommends one of unclear meaning may be the shop's own.
  const doubtful = !isSure ? DOUBTFUL : points < 0 ? ["unclear"] : [];
  const doubts = headings.filter(({ heading }) => doubtful.includes(heading.reason)).map((it) => it.place);
  const others = known.filter((it) => it.place !== place && marks.length
    && it.heading.marks.some((mark) => !marks.includes(mark)));
  return others.length || doubts.length ? [...places, ...doubts].sort((a, b) => a - b) : [place];
}
