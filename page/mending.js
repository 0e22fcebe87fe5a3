// @ts-check
// What a number was meant to be, if somebody wrote it in another way. tables/shop/README.md says the rule. As
// bindings/python/noriladle/_mending.py.
"use strict";

/**
 * What to do about a text: in words of tables/shop/, and each number that may be put in its place. It is clear if the
 * text stands for that number alone.
 * @typedef {Told & { fixes?: string[], isClear?: boolean }} Advice
 *
 * A number that digits may be: the name of what would be wrong with them, and the number.
 * @typedef {{ name: string, number: string }} Reading
 */

const GTIN_LENGTHS = [8, 12, 13, 14];

const QUOTE_SIGNS = "\"'`´“”„‚‘’«»‹› ", NUMBER_NAMES = "ean|gtin|upc|isbn|barcode";
const BEFORE_NUMBER = RegExp(`^(?:(?:${NUMBER_NAMES})(?:[ -]?(?:8|10|12|13|14|a|e)(?![0-9]))?[.:#\\s-]*|[#+])`, "i");
const BEHIND_NUMBER = RegExp(`[\\s(]*(?:${NUMBER_NAMES})\\)?$|[,;.]$`, "i");
const JOINTS = /(?:[^\S\ufeff]|[\x1c-\x1f\x85\u2010-\u2015\u2212-])+/g;

// Letters that are read or typed for a digit, and how many of them a number may have.
/** @type {Record<string, string>} */
const LETTERS_FOR_DIGITS = { O: "0", o: "0", I: "1", i: "1", l: "1", "|": "1", S: "5", s: "5", B: "8", Z: "2", z: "2" };
const MOST_TYPED_LETTERS = 2;

/** @param {string} text */
const joinedText = (text) => text.replace(JOINTS, "");

/**
 * The number that a text clearly stands for, with a check digit that fits; or nothing.
 * @param {string} text
 */
function meantNumber(text) {
  const bare = bareText(text), joined = joinedText(bare), isIsbn = joined !== trimmed(text) || /^$|[Xx]$/.test(joined);
  const ways = [joined, isIsbn ? isbnNumber(joined) : "", joinedThousands(bare),
    joined.match(/^([0-9]{8,14})[.,]0+$/)?.[1] ?? "",
    fullDigits(joined), withoutLetters(joined), [10, 11].includes(joined.length) ? joined.padStart(12, "0") : ""];
  return ways.find(isNumber) ?? "";
}

/**
 * Whether these are the digits of a GTIN, and not zeros alone.
 * @param {string} digits
 */
const isNumber = (digits) => /^[0-9]+$/.test(digits) && GTIN_LENGTHS.includes(digits.length) && /[1-9]/.test(digits)
  && digits.slice(-1) === core.digit(digits.slice(0, -1));

/**
 * What to write for a text that is no number: what it clearly stands for, or each number that it may be; or nothing.
 * What is written of a number is the text that is read as it, or nothing if none is.
 * @param {string} text
 * @param {(number: string) => string} written
 * @returns {Advice | null}
 */
function numberAdvice(text, written) {
  const number = meantNumber(text), plain = number && written(number);
  const bare = bareText(text), digits = joinedText(bare), letter = bare.match(/[Oo]/)?.[0];
  const clear = (/** @type {string} */ key, /** @type {string[]} */ ...values) =>
    ({ key, values, fixes: [plain], isClear: true });
  if (plain && letter && digits.replace(/[Oo]/g, "0") === number) return clear("letterO", letter, plain);
  if (plain && (!/^[0-9]+$/.test(digits) || digits === number)) {
    return clear(/^[0-9]{9}[Xx]$/.test(digits) ? "isbn" : "plainly", plain);
  }
  const readings = readingsOf(digits).map(({ name, number: it }) => ({ name, number: written(it) }))
    .filter((it) => it.number);
  return readings.length ? { ...readingsTold(readings), fixes: readings.map((it) => it.number), isClear: !!number }
    : null;
}

/**
 * The sentence about the numbers that some digits may be.
 * @param {Reading[]} readings
 * @returns {Told}
 */
function readingsTold(readings) {
  const shown = readings.map(({ name, number }) => ({ key: name, values: [number] })), [{ name, number }] = readings;
  /** @type {Record<string, string>} */
  const alone = { lastDigit: "checkDigit", lostZeros: "zeros", ofIsbn: "isbn" };
  if (readings.length === 1) return { key: alone[name] ?? "noCheckDigit", values: [number] };
  if (name !== "lostZeros") return { key: "readings", values: [{ list: shown, between: "; " }] };
  return { key: "also", values: [{ key: "zeros", values: [number] }, { list: shown.slice(1), between: "; " }] };
}

/**
 * Each number that some digits may be, and what would be wrong with them.
 * @param {string} digits
 * @returns {Reading[]}
 */
function readingsOf(digits) {
  if (!/^[0-9]+$/.test(digits)) return [];
  const { length } = digits, isbn = isbnNumber(digits);
  const longer = [8, 12, 13].filter((wanted) => 5 < length && length < wanted)
    .map((wanted) => digits.padStart(wanted, "0")).find(isNumber);
  return [...(longer ? [{ name: "lostZeros", number: longer }] : []),
    ...(isbn ? [{ name: "ofIsbn", number: isbn }] : []),
    ...([7, 11, 12].includes(length) ? [{ name: "addedDigit", number: digits + core.digit(digits) }] : []),
    ...(GTIN_LENGTHS.includes(length) && !isNumber(digits)
      ? [{ name: "lastDigit", number: digits.slice(0, -1) + core.digit(digits.slice(0, -1)) }] : [])];
}

/**
 * A text with digits of any script as 0 to 9, and without what stands around a number: quotes, signs and words.
 * @param {string} text
 */
function bareText(text) {
  let plain = trimmed(text.replace(/\p{Cf}/gu, "").replace(/\p{Nd}/gu, plainDigit)), before = "";
  while (plain !== before) {
    before = plain;
    plain = strippedOf(plain.replace(/^=\s*(?=")/, ""), QUOTE_SIGNS);
    plain = trimmed(plain.replace(BEFORE_NUMBER, "").replace(BEHIND_NUMBER, ""));
    if (/^[([][^()[\]]*[)\]]$/.test(plain)) plain = plain.slice(1, -1);
  }
  return plain;
}

/**
 * A digit of any script as 0 to 9. Scripts have their ten digits in a row, from zero on.
 * @param {string} sign
 */
function plainDigit(sign) {
  const code = sign.codePointAt(0) ?? 0;
  let zero = code;
  while (/^\p{Nd}$/u.test(String.fromCodePoint(zero - 1))) zero--;
  return String((code - zero) % 10);
}

/**
 * A text without these signs at its ends.
 * @param {string} text
 * @param {string} signs
 */
function strippedOf(text, signs) {
  let from = 0, end = text.length;
  while (from < end && signs.includes(text[from])) from++;
  while (from < end && signs.includes(text[end - 1])) end--;
  return text.slice(from, end);
}

/**
 * The GTIN of an ISBN of ten digits (ISO 2108), whose last one may be an X; or nothing.
 * @param {string} digits
 */
function isbnNumber(digits) {
  if (!/^[0-9]{9}[0-9Xx]$/.test(digits)) return "";
  const sum = Array.from(digits)
    .reduce((total, digit, at) => total + (10 - at) * (/[Xx]/.test(digit) ? 10 : Number(digit)), 0);
  const body = `978${digits.slice(0, 9)}`;
  return sum % 11 ? "" : body + core.digit(body);
}

/**
 * A number without the points, commas or apostrophes between its thousands.
 * @param {string} text
 */
function joinedThousands(text) {
  const sign = text.match(/^[0-9]{1,3}([.,'’])[0-9]{3}(?:\1[0-9]{3})+$/)?.[1];
  return sign ? text.replaceAll(sign, "") : "";
}

/**
 * The digits of a number such as 4.012345010008E+12, if it has all of them.
 * @param {string} text
 */
function fullDigits(text) {
  const [, first = "", others = "", power] = text.match(/^([0-9])[.,]([0-9]+)[Ee]\+?([0-9]{1,2})$/) ?? [];
  return power !== undefined && others.length === Number(power) ? first + others : "";
}

/**
 * A number in which letters stand for a digit or two.
 * @param {string} text
 */
function withoutLetters(text) {
  const count = text.match(/[A-Za-z|]/g)?.length ?? 0;
  return 0 < count && count <= MOST_TYPED_LETTERS
    ? text.replace(/[OoIil|SsBZz]/g, (letter) => LETTERS_FOR_DIGITS[letter]) : "";
}
