// @ts-check
// The page's calls of the proved module, beside those of gs1.js, and the meaning of its lines in words.
"use strict";

let gs1;

const core = {
  year: new Date().getFullYear(),

  // The year, and every Application Identifier.
  get terms() { return Gs1.everyAi | core.year; },

  gtin: (text) => gs1.read("gs1_c_read_gtin", ...gs1.put(text), core.terms),
  digit: (digits) => gs1.told("gs1_c_digit", ...gs1.put(digits)).split(" ")[1],
  symbol: (kind, text) => gs1.told("gs1_c_symbol", Gs1.kinds.indexOf(kind), ...gs1.put(text), core.terms),

  // The symbols of a row by the ends of its runs.
  find: (ends) => gs1.find(ends, core.terms),

  // What a picture of grey values shows, by a chosen level or by its own.
  picture: (picture, level) => symbolsShown(gs1.picture(picture, level, core.terms)),

  // A text without room in the module's memory is too long for any code.
  typed: (text) => text.length > 65536 ? { refused: "refused 11 TooLong" }
    : gs1.read("gs1_c_read_text", ...gs1.put(text), core.terms),

  // What the line of an answer says, with its elements as data.
  said: (line) => gs1.said(line, core.terms),
};

// The number, the name and the place of the error of a line.
function refusalOf(line) {
  const { fault, place } = core.said(line);
  return { number: fault, name: Gs1.faults[fault], place };
}

// What a value means for a person, beyond its digits: a day, a weight, an amount of money, countries, a place.
function meaningOfElement({ ai, value, date, time, until }) {
  const number = numberOf(ai, value), place = placeOf(ai, value);
  if (date) return until ? `${inWords(date)} – ${inWords(until)}` : inWords(date, time);
  if (number !== undefined)
    return [amountOf(number),
      unitOf(ai) ?? currencyOf(ai, value) ?? (/^39[13]/.test(ai) ? value.slice(0, 3) : "")].filter(Boolean).join(" ");
  if (place) return `${place.latitude}, ${place.longitude}`;
  if (ai === "01" || ai === "02")
    return /^0{6}/.test(value) ? `EAN-8 ${value.slice(6)}` : /^00/.test(value) ? `UPC-A ${value.slice(2)}`
      : value[0] === "0" ? `EAN-13 ${value.slice(1)}` : "";
  if (ai === "30" || ai === "37") return `${Number(value)} ${t("pieces")}`;
  const names = new Intl.DisplayNames([language], { type: "region" });
  return countriesOf(ai, value).map((letters) => names.of(letters)).join(", ");
}

// A number with its decimals, as the language of the page writes it.
const amountOf = (number) => Number(number).toLocaleString(language,
  { minimumFractionDigits: number.split(".")[1]?.length ?? 0, maximumFractionDigits: 20 });

// A day in the language of the page, perhaps with a time.
function inWords(date, time) {
  const words = new Date(`${date}T00:00Z`).toLocaleDateString(language, { dateStyle: "medium", timeZone: "UTC" });
  return time ? `${words}, ${time}` : words;
}
