// @ts-check
// Texts as people type and paste them: numbers, printed element strings, and what scanners send; and what to do about
// those that are refused. As bindings/python/noriladle/_texts.py and _advice.py. The npm package has this too.
"use strict";

const BRACKETED = { "(": /\(([0-9]{2,4})\)([^()]+)/g, "[": /\[([0-9]{2,4})\]([^\][]+)/g };
const LINK = /^https?:\/\//i, ROUNDED = /^\p{Nd}([.,]\p{Nd}+)?E\+?\p{Nd}+$/iu;

// White space as Python has it; and a cell without it at its ends.
const WHITE = /(?:[^\S\ufeff]|[\x1c-\x1f\x85])+/g, WHITE_ENDS = RegExp(`^${WHITE.source}|${WHITE.source}$`, "g");
const trimmed = (cell) => cell.replace(WHITE_ENDS, "");

// A code without white space at its ends. The separator stays.
const stripped = (text) =>
  text.replace(/^(?:[^\S\ufeff]|[\x1c\x1e\x1f\x85])+|(?:[^\S\ufeff]|[\x1c\x1e\x1f\x85])+$/g, "");

// A number without the blanks and hyphens that people put into it.
const digitsOf = (text) => text.replace(/(?:[^\S\ufeff]|[\x1c-\x1f\x85\u2010-\u2015-])+/g, "");

// Whether a text is an element string: it has parentheses around its first AI, or a separator.
const isElements = (text) => text[0] in BRACKETED || /[\^\x1d]/.test(text);

// Whether a cell looks like a number or a text that can be read, right or wrong.
function looksRight(cell) {
  const text = stripped(cell);
  if (text && "([]^\x1d".includes(text[0])) return /^([([]\d\d|\]\w\d|[\^\x1d]\d\d)/.test(text);
  // Most cells have no digit.
  if (!/\p{Nd}|:\/\//u.test(text)) return false;
  const digits = digitsOf(text);
  return /^\p{Nd}{7,14}$/u.test(digits) || ROUNDED.test(digits) || LINK.test(text);
}

// A text of a column of element strings as it is read, since it needs no mark there; or nothing for the digits of a
// GTIN, which may be elements too.
const inColumn = (text) => isElements(text) || text[0] === "]" ? text : isGtin(text) ? null : `^${text}`;

const isGtin = (text) => /^[0-9]+$/.test(text) && !core.gtin(text).refused;

// What a text says: the identifier that a scanner sent, the elements and their element string; or the line of its
// error.
function readText(typed) {
  const { refused, identifier, elements, text } = core.typed(typed);
  return refused ? { refused } : { identifier, elements, text };
}

// The AIs of a printed text that is refused, with their values; or nothing if there are parentheses or brackets
// elsewhere.
function bracketedPairs(text) {
  const pattern = BRACKETED[text[0]],
    pairs = Array.from(text.matchAll(pattern), ([, ai, value]) => ({ ai, value: printedValue(value) }));
  return text.replace(pattern, "") || !pairs.every(({ value }) => value) ? null : pairs;
}

// A printed value without the blanks around it, and one of digits alone without those in it.
function printedValue(value) {
  const plain = value.replace(WHITE, "");
  return /^[0-9]*$/.test(plain) ? plain : trimmed(value);
}

// ---- what to do about a text that is refused

// What was asked of a call: the text, whether the call reads another one, whether it takes numbers with an identifier
// too, and whether its separator is byte 29 alone.
/** @typedef {{ text: string, reads: (text: string) => boolean, call: string, isString?: boolean }} Asked */

// The advice if an identifier is followed by another number of digits; the identifiers of Digital Links; the AIs of two
// digits whose values are days; the advice for an element that lacks its separator.
const LENGTH_KEYS = { "]E0": "lengthEan", "]E4": "lengthEan8", "]I1": "lengthItf" }, LINKS = ["]Q1", "]d1"];
const DAYS = ["11", "12", "13", "15", "16", "17"];
const ALONE_KEYS = { 5: "noAi", 6: "valueLength", 7: "valueCharacter", 10: "valueLength" };

// What to do about a refused text, and each text that may be put in its place: this call reads it.
const remedyOf = (typed, refused) => remedyOfTyped(refusalOf(refused),
  { text: stripped(typed), reads: (text) => !readText(text).refused, call: "readText" });

function remedyOfTyped(refusal, asked) {
  // Others are of the label, the year or the machine.
  if (refusal.number > 11 && refusal.number !== 40) return { key: refusal.number };
  if (asked.text[0] === "]" || LINK.test(asked.text)) return remedyOfIdentified(refusal, asked);
  if (asked.text[0] in BRACKETED) return remedyOfPrinted(refusal, asked);
  return isElements(asked.text) ? remedyOfString(refusal, asked, asked.text, "^") : remedyOfDigits(refusal, asked);
}

// Of a text with an identifier or a separator in front, or a Digital Link.
function remedyOfIdentified(refusal, asked) {
  const { text } = asked, { number } = refusal, identifier = text[0] === "]" ? text.slice(0, 3) : "";
  if (number === 40) {
    const isLink = !identifier || LINKS.includes(identifier);
    return isLink ? { key: "noLink" } : { key: Gs1.identifiers[identifier] ?? "otherSymbol", values: [identifier] };
  }
  if (!identifier && LINK.test(text) || LINKS.includes(identifier)) return remedyOfLink(refusal);
  const digits = text.slice(identifier.length);
  if (number === 1 && identifier in LENGTH_KEYS) return { key: LENGTH_KEYS[identifier] };
  if (number === 3) return numberAdvice(digits, writtenFor(asked, identifier)) ?? { key: 3 };
  return remedyOfString(refusal, asked, digits, "^");
}

// Of an element of a link, whose place is its index.
function remedyOfLink({ number, place }) {
  if (place === undefined) return { key: number === 11 ? "fewerElements" : number };
  return { key: "inLink", values: [place + 1, remedyAlone(number, number === 9 ? "17" : "")] };
}

// Of an element string. Places do not count a separator at its beginning.
function remedyOfString({ number, place }, asked, string, separator) {
  const text = /^[\^\x1d]/.test(string) ? string.slice(1) : string;
  if (place === undefined || number < 5) {
    return number === 11 && asked.call !== "readText" ? { key: "fewerElements" }
      : usualRemedy(number, text, place, separator);
  }
  const rest = behindPlace(text, place);
  return { key: "at",
    values: [Array.from(rest).slice(0, 20).join("").replaceAll("\x1d", "^"), usualRemedy(number, rest, 0, separator)] };
}

// Of an element string as it is printed, with the element that it is about.
function remedyOfPrinted({ number, place }, asked) {
  const { text } = asked, pairs = bracketedPairs(text), close = text[0] === "(" ? ")" : "]";
  if (!pairs) {
    const meant = meantNumber(text), right = meant && writtenFor(asked)(meant);
    return { key: text[0] === "(" ? "parentheses" : "brackets", fixes: right ? [right] : [], isClear: !!right };
  }
  const shown = pairs.map(({ ai, value }) => text[0] + ai + close + value);
  let at = 0;
  for (const [i, { ai, value }] of pairs.entries()) {
    if (at === place) {
      const right = paddedGtin(ai, value), said = text[0] + ai + close + right,
        whole = shown.map((it, j) => j === i ? said : it).join("");
      const fixes = right && asked.reads(whole) ? [whole] : [];
      return { key: "at", values: [shown[i], right ? { key: "padded", values: [said] } : remedyAlone(number, ai)],
        fixes };
    }
    at += ai.length + value.length + 1;
  }
  return usualRemedy(number, text, undefined, "^");
}

// A GTIN with the zeros that its AI needs, if it lacks them.
function paddedGtin(ai, value) {
  const gtin = ["01", "02", "03"].includes(ai) ? gtinOf(core.gtin(value).elements) : "";
  return gtin && gtin !== value ? gtin : "";
}

// Of a number.
function remedyOfDigits(refusal, asked) {
  const { number, place } = refusal, { text } = asked, digits = digitsOf(text), written = writtenFor(asked);
  if (/^0+$/.test(digits)) return { key: number === 40 ? "zerosAlone" : number };
  const eight = [digits, meantNumber(text)].find((it) => /^0[0-9]{7}$/.test(it));
  if (eight && ["readText", "readScan"].includes(asked.call)) {
    const both = [`]E4${eight}`, `]E0${eight}`].filter(asked.reads);
    if (both.length) return { key: both.length === 2 ? "eight" : "plainly", values: both, fixes: both };
  }
  const whole = digits.match(/^(\p{Nd}{8,14})[.,]0+$/u)?.[1], plain = whole && written(whole);
  if (plain) return { key: "decimals", values: [plain], fixes: [plain], isClear: true };
  const advice = numberAdvice(text, written) ?? writtenOtherwise(asked);
  if (advice) return advice;
  if (ROUNDED.test(digits)) return { key: "rounded" };
  const areDigits = /^\p{Nd}*$/u.test(digits), string = `^${areDigits ? digits : text}`;
  if ((areDigits ? digits.length > 14 : number === 1) && asked.reads(string))
    return { key: "manyDigits", values: [string], fixes: [string] };
  return number === 40 ? { key: 1 } : usualRemedy(number, asked.call === "readGtin" ? text : digits, place, "^");
}

// The question which of two texts is meant, of the digits of a GTIN where elements are wanted, if both are read.
function remedyOfEither({ text, reads }, gtin) {
  const both = [gtin, `^${text}`].filter(reads);
  return { key: both.length === 2 ? "gtinOrElements" : "plainly", values: both, fixes: both };
}

const remedyOfColumn = (text) =>
  ({ ...remedyOfEither({ text, reads: (it) => !readText(it).refused }, `(01)${gtinOf(core.gtin(text).elements)}`),
    refused: "refused 40 Kind" });

// The advice for the number of an error, with the character or the separator that it is about.
function usualRemedy(number, text, place, separator) {
  if (number === 2) {
    const [sign] = behindPlace(text, place ?? 0);
    return sign ? { key: 2, values: [sign] } : { key: "noDigit" };
  }
  if (number === 9)
    return remedyAlone(number, [2, 3, 4].map((count) => text.slice(0, count)).find((ai) => AIS.has(ai)) ?? "17");
  return [5, 7, 10].includes(number) ? { key: number, values: [separator] } : { key: number };
}

// The advice for a single element. Days of AIs of two digits may be 00.
const remedyAlone = (number, ai) =>
  // Such as (17)31.12.2026.
  DAYS.includes(ai) && number in ALONE_KEYS ? { key: 9 }
    : { key: number === 9 && ai.length !== 2 ? "dayAndTime" : ALONE_KEYS[number] ?? number };

// A text from a place on, which counts bytes.
const behindPlace = (text, place) =>
  new TextDecoder("utf-8", { ignoreBOM: true }).decode(new TextEncoder().encode(text).subarray(place));

// How the call takes a number: as it is, or with the identifier of an EAN-8 if it may be a UPC-E too.
const writtenFor = (asked, identifier = "") => (number) =>
  [identifier + number, ...(!identifier && ["readText", "readScan"].includes(asked.call) ? [`]E4${number}`] : [])]
    .find(asked.reads) ?? "";

// What to write for a text that is clear, but written with other signs than this call takes.
function writtenOtherwise(asked) {
  const way = waysOf(asked).find((it) => it !== asked.text && asked.reads(it));
  if (way === undefined) return null;
  const key = asked.isString && /[^^]\^+[^^]/.test(asked.text) && way.includes("\x1d") ? "byte29" : "plainly";
  return { key, values: [way.replaceAll("\x1d", "\\x1d")], fixes: [way] };
}

// Texts that a text may stand for, if it has the marks of an element string, of a scan or of a number.
function waysOf(asked) {
  const text = stripped(asked.text), behind = text[0] === "]" ? text.slice(3) : text, number = meantNumber(text);
  if (!asked.isString && asked.call !== "readScan") return [text, behind, ...(number ? [number] : [])];
  const ways = asked.isString ? [text, behind] : [text];
  if (!isElements(behind)) return number && !asked.isString ? [...ways, number] : ways;
  const string = readText(behind).elements?.map(({ ai, value }) => ai + value).join("\x1d");
  return string ? [...ways, asked.isString ? string : `^${string}`.replaceAll("\x1d", "^")] : ways;
}
