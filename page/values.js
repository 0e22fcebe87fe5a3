// @ts-check
// What the values of Application Identifiers say: numbers, units, codes and places. As
// bindings/python/noriladle/_values.py.
"use strict";

// Of AIs from one to another each digit lies between those of the two.
function aisFrom(least, greatest) {
  return Array.from(least).reduce((begun, low, i) => begun.flatMap(
    (start) => Array.from({ length: greatest[i] - low + 1 }, (_, k) => start + (Number(low) + k))), [""]);
}

// The table, by its AIs.
const AIS = new Map(
  AI_ROWS.flatMap(([least, greatest, title]) => aisFrom(least, greatest).map((ai) => [ai, { title }])));

const lettersOf = (packed) => new Map(packed.split(" ").map((code) => [code.slice(0, 3), code.slice(3)]));
const COUNTRY_LETTERS = lettersOf(COUNTRIES), CURRENCY_LETTERS = lettersOf(CURRENCIES),
  KNOWN_COUNTRIES = new Set(COUNTRY_LETTERS.values());

const isOf = (ai, ...families) => ai.length === 4 && families.includes(ai.slice(0, 3));
const isMeasure = (ai) => /^3[1-6]\d\d$/.test(ai);
const isTemperature = (ai) => isOf(ai, "433");

// Digits as a number with this many decimals, as an exact text.
function scaled(digits, decimals) {
  const padded = digits.padStart(decimals + 1, "0"),
    whole = padded.slice(0, padded.length - decimals).replace(/^0+(?=\d)/, "");
  return decimals ? `${whole}.${padded.slice(-decimals)}` : whole;
}

// The number of a measure, an amount, a price, a percentage or a temperature, as an exact text.
function numberOf(ai, value) {
  if (isMeasure(ai) || isOf(ai, "390", "392", "394", "395")) return scaled(value, Number(ai[3]));
  if (isOf(ai, "391", "393")) return scaled(value.slice(3), Number(ai[3]));
  return isTemperature(ai)
    ? (value.endsWith("-") && Number(value.slice(0, 6)) ? "-" : "") + scaled(value.slice(0, 6), 2) : undefined;
}

// The unit of such a number.
function unitOf(ai) {
  if (isOf(ai, "337")) return "kg/m²";
  if (isMeasure(ai)) return AIS.get(ai)?.title.replace(/^.*\(([^)]*)\).*$/, "$1").replace(/\.+$/, "");
  if (isOf(ai, "394")) return "%";
  return isTemperature(ai) ? ("13".includes(ai[3]) ? "°C" : "°F") : undefined;
}

// The currency of an amount or a price, by its letters.
const currencyOf = (ai, value) => isOf(ai, "391", "393") ? CURRENCY_LETTERS.get(value.slice(0, 3)) : undefined;

// The codes of countries in a value, in digits or in letters.
function countryCodes(ai, value) {
  if (["421", "422", "424", "426"].includes(ai) || isOf(ai, "703")) return [value.slice(0, 3)];
  if (ai === "423" || ai === "425") return value.match(/.{1,3}/g) ?? [];
  return ai === "4307" || ai === "4317" ? [value] : [];
}

// The countries of a value whose codes are known, by their two letters.
const countriesOf = (ai, value) => countryCodes(ai, value).map((code) => COUNTRY_LETTERS.get(code) ?? code)
  .filter((code) => KNOWN_COUNTRIES.has(code));

// The place that 4309 names, in ten millionths of a degree from the South Pole and to the east.
function placeOf(ai, value) {
  if (ai !== "4309") return undefined;
  const degrees = (units) => (units < 0 ? "-" : "") + scaled(String(Math.abs(units)), 7),
    east = Number(value.slice(10));
  return { latitude: degrees(Number(value.slice(0, 10)) - 900_000_000),
    longitude: degrees(east > 1_800_000_000 ? east - 3_600_000_000 : east) };
}
