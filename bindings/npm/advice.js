// What to do about a refused call, in English: of the call that was asked, and of its text. Each text that it names in place of that one is read
// by this call. As bindings/python/noriladle/_advice.py.
import {
  paddedGtin, remedyAlone, remedyOfDigits, remedyOfEither, remedyOfIdentified, remedyOfString, remedyOfTyped, stripped, usualRemedy, writtenOtherwise
} from "./page.js";
import { SENTENCES } from "./remedies.js";

// What the symbol of a row says is refused.
const isOfSymbol = (number) => number >= 4 && number <= 11;

const OF_CALLS = {
  readScan(refusal, asked) {
    const { text } = asked, isScan = text[0] === "]" && refusal.number !== 40 || /^(?:[\^\x1d]|https?:\/\/)/i.test(text);
    if (isScan) return remedyOfIdentified(refusal, asked);
    if (/^[0-9]+$/.test(text)) return remedyOfDigits(refusal, asked);
    return writtenOtherwise(asked) ?? (text[0] === "]" ? remedyOfIdentified(refusal, asked) : { key: "notScanned" });
  },
  parseElements: (refusal, asked) => writtenOtherwise(asked) ?? remedyOfString(refusal, asked, asked.text, "byte 29"),
  readText: (refusal, asked) => remedyOfTyped(refusal, { ...asked, text: stripped(asked.text) }),
  readGtin: remedyOfDigits,
  checkDigit({ number, place }, { text, reads }) {
    const digits = text.replace(/(?:[^\S\ufeff]|[\x1c-\x1f\x85\u2010-\u2015-])+/g, "");
    if (reads(digits)) return { key: "plainly", values: [digits], fixes: [digits] };
    return number === 1 ? { key: "lengthDigits" } : usualRemedy(number, text, place, "^");
  },
  label(refusal, asked) {
    if (!asked.kinds.includes(asked.kind)) return { key: "noLabelKind", values: [String(asked.kind), asked.kinds.join(", ")] };
    if (refusal.number === 40) return remedyOfEither(asked, `01${asked.gtin(asked.text)}`);
    if (refusal.number > 11) return { key: refusal.number };
    return OF_CALLS[asked.isString ? "parseElements" : "readGtin"](refusal, asked);
  },
  compose({ number }, { call, ai, text, identifiers }) {
    const right = number === 6 ? paddedGtin(ai, text) : "";
    if (number === 40) return call === "scanText" ? { key: "noIdentifier", values: [text, identifiers.join(", ")] } : call === "stem" ? { key: "noStem", values: [text] } : { key: "noKey" };
    if (!ai) return number === 4 ? { key: "noElements" } : number === 11 ? { key: "fewerElements" } : remedyAlone(number, ai);
    return { key: "at", values: [`(${ai})${text}`.replaceAll("\x1d", "^"), right ? { key: "padded", values: [`(${ai})${right}`] } : remedyAlone(number, ai)] };
  },
  row: ({ number }) => ({ key: isOfSymbol(number) ? "wrongText" : { 17: "wideRow", 18: "shortRow" }[number] ?? `row${number}` }),
  picture: ({ number }) => ({ key: isOfSymbol(number) ? "wrongText" : number }),
};

// The calls that are given elements; `stem` is a link whose stem is wrong.
for (const call of ["scanText", "link", "stem", "conflicts"]) OF_CALLS[call] = OF_CALLS.compose;

// The advice for an error without further information.
const ofAny = ({ number }) => number === 2 ? { key: "noDigit" } : usualRemedy(number, "", undefined, "^");

export const adviceOf = (refusal, asked) => refusal.number === 42 ? { key: 42 } : (OF_CALLS[asked?.call] ?? ofAny)(refusal, asked);

// An advice in words.
export const wordsOf = ({ key, values = [] }) => SENTENCES[key].replace(/\{(\d)\}/g, (_, i) => valueOf(values[i]));

const valueOf = (value) => value.list ? value.list.map(wordsOf).join(value.between) : value.key ? wordsOf(value) : String(value);
