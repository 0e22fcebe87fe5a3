// @ts-check
// Finds how the text of a list is encoded, by evidence. tables/shop has the tables and, in README.md, the rule. As
// bindings/python/noriladle/_encodings.py.
"use strict";

/** @typedef {Set<string>} Letters */

/**
 * @type {{ pages: Record<string, string>, shown: Record<string, string>, words: Record<string, string[]>,
 *   signs: string, joining: string,
 *   closing: string, alone: string, anywhere: string }}
 */
const CODE_PAGES = ENCODINGS;

/**
 * The letters of languages, in both cases.
 * @param {Record<string, string>} languages
 * @returns {Map<string, Letters>}
 */
const lettersOfLanguages = (languages) =>
  new Map(Object.entries(languages).map(([name, letters]) => [name, new Set(letters + letters.toUpperCase())]));

const OUR_LANGUAGES = lettersOfLanguages(ENCODINGS.languages);
const ALL_LANGUAGES = new Map([...OUR_LANGUAGES, ...lettersOfLanguages(ENCODINGS.neighbours)]);

/** @type {[string, string[]][]} */
const PAGE_GROUPS = Object.entries(ENCODINGS.groups);

const ANYWHERE = CODE_PAGES.anywhere + CODE_PAGES.anywhere.toUpperCase();

/** @type {Map<string, Letters>} */
const GROUP_LETTERS = new Map(PAGE_GROUPS.map(([page, names]) =>
  [page, new Set([...ANYWHERE, ...names.flatMap((name) => [...(ALL_LANGUAGES.get(name) ?? [])])])]));

// The code pages that may have all languages, the usual one first; and how many bytes a number has in UTF-16, at least.
const WINDOWS_PAGES = ["cp1252", "cp1250"], LEAST_WIDE = 16;

// Fewer words than this, without any hint, may be of every language.
const FEW_WORDS = 5;

// How many different words decide, and how many bytes may have the words of a heading.
const MOST_WORDS = 2000, HEAD_BYTES = 4000;

/**
 * What a text is that was decoded, and what a person should know. If nobody can say how it is encoded, there is a
 * question, with the encodings that it may have, and the text is that of the first.
 * @typedef {{ text: string, notes: Told[], encodings: string[], question: Told | null }} Decoded
 */

/**
 * The text of a file in this encoding, or in the one that fits it. Throws a Faults if it is no text, or no encoding
 * fits.
 * @param {Uint8Array} bytes
 * @param {string} [asked]
 * @returns {Decoded}
 */
function decoded(bytes, asked) {
  const name = asked || unicodeOf(bytes);
  if (name === "utf-16") return wideText(bytes);
  const zero = bytes.indexOf(0);
  if (zero >= 0) throw new Faults(faultAt(lineOfByte(bytes, zero), "noText"));
  if (name === "utf-8") return decidedText(new TextDecoder().decode(bytes));
  const pages = name ? [name] : fittingPages(bytes), shown = pages.map((page) => CODE_PAGES.shown[page]).join(", ");
  if (!pages.length) return undecided(bytes, Object.keys(CODE_PAGES.pages), { key: "noEncoding" });
  if (pages.length > 1) return undecided(bytes, pages, { key: "whichEncoding", values: [shown] });
  const text = textIn(bytes, pages[0]), at = text.indexOf("\ufffd");
  if (at < 0) return decidedText(text, [readAs(pages[0])]);
  throw new Faults(faultAt(lineOfByte(bytes, at), "otherEncoding", shown, bytes[at].toString(16).toUpperCase()));
}

/**
 * @param {string} text
 * @param {Told[]} notes
 * @returns {Decoded}
 */
const decidedText = (text, notes = []) => ({ text, notes, encodings: [], question: null });

/**
 * @param {Uint8Array} bytes
 * @param {string[]} encodings
 * @param {Told} question
 * @returns {Decoded}
 */
const undecided = (bytes, encodings, question) =>
  ({ text: textIn(bytes, encodings[0]), notes: [], encodings, question });

/** @param {string} name */
const readAs = (name) => ({ key: "readAs", values: [CODE_PAGES.shown[name]] });

/**
 * @param {Uint8Array} bytes
 * @param {number} at
 */
const lineOfByte = (bytes, at) => 1 + bytes.subarray(0, at).reduce((sum, byte) => sum + Number(byte === 10), 0);

/** @param {Uint8Array} bytes */
const hasMark = (bytes) => bytes[0] === 0xff && bytes[1] === 0xfe || bytes[0] === 0xfe && bytes[1] === 0xff;

/**
 * Which form of Unicode the bytes are, if they are one: most of UTF-16's are pairs with a byte 0.
 * @param {Uint8Array} bytes
 */
function unicodeOf(bytes) {
  let even = 0, odd = 0;
  for (let at = 0; at < bytes.length; at += 2) {
    if (bytes[at] === 0) even++;
    if (bytes[at + 1] === 0) odd++;
  }
  const isPaired = bytes.length % 2 === 0 && bytes.length >= LEAST_WIDE && 4 * (even + odd) >= bytes.length
    && !(even && odd);
  if (hasMark(bytes) || isPaired) return "utf-16";
  const text = new TextDecoder("utf-8", { ignoreBOM: true }).decode(bytes), bad = text.split("\ufffd").length - 1;
  return !bad || (text.match(/[^\0-\x7f\ufffd]/gu)?.length ?? 0) > bad ? "utf-8" : "";
}

/**
 * @param {Uint8Array} bytes
 * @returns {Decoded}
 */
function wideText(bytes) {
  const isLittle = hasMark(bytes) ? bytes[0] === 0xff : bytes[1] === 0;
  const text = new TextDecoder(isLittle ? "utf-16le" : "utf-16be").decode(bytes);
  return decidedText(text, hasMark(bytes) ? [] : [readAs("utf-16")]);
}

/**
 * The text of bytes in a code page. A byte that has no character there is U+FFFD.
 * @param {Uint8Array} bytes
 * @param {string} page
 */
const textIn = (bytes, page) => latinText(bytes)
  .replace(/[\x80-\xff]/g, (sign) => CODE_PAGES.pages[page][sign.charCodeAt(0) - 128]);

/**
 * Bytes as the characters of their numbers.
 * @param {Uint8Array} bytes
 */
function latinText(bytes) {
  const parts = [];
  for (let at = 0; at < bytes.length; at += 8192) parts.push(String.fromCharCode(...bytes.subarray(at, at + 8192)));
  return parts.join("");
}

/**
 * The code pages that fit the words of a list, if any do.
 * @param {Uint8Array} bytes
 */
function fittingPages(bytes) {
  const words = wordsBeyond(bytes), hints = hintedLanguages(bytes);
  const texts = new Map(Object.keys(CODE_PAGES.pages).map((page) => [page, words.map((word) => textIn(word, page))]));
  const letters = [...texts].flatMap(([page, its]) => {
    const found = lettersOfWords(its);
    return found ? [{ page, found: [...found] }] : [];
  });
  const isIn = (/** @type {string[]} */ found, /** @type {Letters | undefined} */ known) =>
    found.every((letter) => known?.has(letter));
  const all = [...ALL_LANGUAGES.keys()], groups = new Map(PAGE_GROUPS);
  const isShort = !hints.length && words.length < FEW_WORDS;
  const namesOf = (/** @type {string} */ page) => isShort ? all
    : [...OUR_LANGUAGES.keys(), ...(hints.length ? hints : WINDOWS_PAGES.includes(page) ? all : [])];
  const fit = letters.filter(({ page, found }) => namesOf(page).some((name) => isIn(found, ALL_LANGUAGES.get(name))));
  if (!isShort && fit.some(({ page }) => WINDOWS_PAGES.includes(page))) return unlikePages(fit, texts);
  const mixed = letters.filter(({ page, found }) => isIn(found, GROUP_LETTERS.get(page))), [usual] = WINDOWS_PAGES;
  const isHinted = hints.length && hints.every((name) => groups.get(usual)?.includes(name));
  if (!fit.length && isHinted && mixed.some(({ page }) => page === usual)) return [usual];
  return unlikePages(letters.filter((one) => fit.includes(one) || mixed.includes(one)), texts);
}

/**
 * The code pages, or the first if all give the words the same texts.
 * @param {{ page: string }[]} fit
 * @param {Map<string, string[]>} texts
 */
function unlikePages(fit, texts) {
  const pages = fit.map(({ page }) => page);
  const isOne = new Set(pages.map((page) => texts.get(page)?.join("\n"))).size === 1;
  return isOne ? pages.slice(0, 1) : pages;
}

/**
 * The different words of a list that have a byte of 128 to 255.
 * @param {Uint8Array} bytes
 */
function wordsBeyond(bytes) {
  const words = latinText(bytes).match(/[A-Za-z\x80-\xff]+/g)?.filter((word) => /[\x80-\xff]/.test(word)) ?? [];
  return [...new Set(words)].slice(0, MOST_WORDS).map((word) => Uint8Array.from(word, (sign) => sign.charCodeAt(0)));
}

/**
 * The languages with a word for a heading in the first lines, in any of the code pages.
 * @param {Uint8Array} bytes
 */
function hintedLanguages(bytes) {
  const head = bytes.subarray(0, HEAD_BYTES);
  const words = new Set(
    Object.keys(CODE_PAGES.pages).flatMap((page) => textIn(head, page).toLowerCase().match(/\p{L}+/gu) ?? []));
  return Object.keys(CODE_PAGES.words).filter((name) => CODE_PAGES.words[name].some((word) => words.has(word)));
}

/**
 * The letters of words beyond those of English; or nothing if signs stand inside words, or capitals behind small
 * letters.
 * @param {string[]} words
 * @returns {Letters | null}
 */
function lettersOfWords(words) {
  /** @type {Letters} */
  const found = new Set();
  for (const word of words) {
    for (const { 0: sign, index = 0 } of word.matchAll(/[^\0-\x7f]/gu)) {
      const before = word[index - 1] ?? "", after = word[index + 1] ?? "";
      if (CODE_PAGES.signs.includes(sign)) {
        const isJoined = !CODE_PAGES.closing.includes(sign) && (CODE_PAGES.joining.includes(sign) || !isLetter(before));
        if (isLetter(after) && !isJoined) return null;
      } else if (!/\p{L}/u.test(sign) || isMisplaced(before, sign, after)) return null;
      else found.add(sign);
    }
  }
  return found;
}

/** @param {string} sign */
const isLetter = (sign) => /\p{L}/u.test(sign) && !CODE_PAGES.signs.includes(sign);
const isSmall = (/** @type {string} */ sign) => /\p{Lowercase}/u.test(sign);
const isCapital = (/** @type {string} */ sign) => /\p{Uppercase}/u.test(sign);

/**
 * Whether a letter stands alone as none does, or has the wrong case between its neighbours.
 * @param {string} before
 * @param {string} letter
 * @param {string} after
 */
function isMisplaced(before, letter, after) {
  const isAlone = !before && !after && !CODE_PAGES.alone.includes(letter);
  if (isCapital(letter)) return isSmall(before) || /\p{L}/u.test(before) && isSmall(after) || isAlone;
  return isCapital(before) && isCapital(after) && letter !== "ß" || isAlone;
}
