// @ts-check
// Writes the numbers of spreadsheets in full, whatever their format shows, with what the format adds: zeros in front,
// decimals, and a currency. As bindings/python/noriladle/_numbers.py.
"use strict";

/**
 * What a format does to a number: at least this many digits before the point; its decimals; and what stands around it.
 * @typedef {{ digits: number, decimals: number, isGrouped: boolean, isPercent: boolean, isDate: boolean,
 *   before: string,
 *   after: string }} Format
 *
 * A decimal number: its digits without zeros at their ends, and how many of them are before the point.
 * @typedef {{ sign: string, digits: string, point: number }} Decimal
 */

// Excel's own formats of numbers.
/** @type {Record<number, string>} */
const USUAL_FORMATS = { 1: "0", 2: "0.00", 3: "#,##0", 4: "#,##0.00", 9: "0%", 10: "0.00%", 39: "#,##0.00",
  40: "#,##0.00",
  43: "#,##0.00", 44: "#,##0.00" };

// Excel's own formats of days and times.
const DAY_FORMATS = [[14, 22], [27, 36], [45, 47], [50, 58]];

// How many digits a spreadsheet's number has. A number of more digits before the point than the second is none of a
// list. A whole number of more digits than the third is no price.
const KEPT_DIGITS = 15, MOST_DIGITS = 21, PRICE_DIGITS = 7;

/** @type {Format} */
const PLAIN_FORMAT = { digits: 0, decimals: 0, isGrouped: false, isPercent: false, isDate: false, before: "",
  after: "" };

const DAY_0 = Date.UTC(1899, 11, 30), LAST_DAY = 2958466;

/**
 * The format of Excel's number for it, or of its code (ECMA-376, 18.8.30 and 18.8.31).
 * @param {number} number
 * @param {string} [told]
 * @returns {Format}
 */
function formatOf(number, told) {
  const code = told || USUAL_FORMATS[number] || "";
  const plain = code.split(";")[0].replace(/\[\$([^\]-]*)[^\]]*\]/g, '"$1"');
  const bare = plain.replace(/"[^"]*"|\\.|_.|\*.|\[[^\]]*\]/g, "");
  const isDay = DAY_FORMATS.some(([least, most]) => least <= number && number <= most);
  if (isDay || /[ymdhs]/i.test(bare.replaceAll("General", ""))) return { ...PLAIN_FORMAT, isDate: true };
  const shown = bare.match(/[0#?][0#?,]*(?:\.([0#?]+))?/);
  if (!shown || bare.toUpperCase().replaceAll("GENERAL", "").includes("E")) return PLAIN_FORMAT;
  const parts = plain.replace(/_.|\*./g, " ").replace(/[0#?][0#?,.]*/g, "\0").split("\0");
  const [before, after] = [parts[0], parts.slice(1).join("")]
    .map((text) => text.replace(/\\(.)|"([^"]*)"|\[[^\]]*\]/g, "$1$2"));
  const zeros = shown[0].split(".")[0].match(/0/g)?.length ?? 0;
  return { digits: zeros > 1 ? zeros : 0, decimals: shown[1]?.length ?? 0, isGrouped: shown[0].includes(","),
    isDate: false,
    isPercent: bare.includes("%"), before: trimmed(before) && before, after: trimmed(after) && after.trimEnd() };
}

/**
 * A stored number as a person would write it: as the format shows it if that is all of it, or else in full.
 * @param {string} stored
 * @param {Format} format
 */
function numberWritten(stored, format) {
  const number = decimalOf(stored);
  if (!number) throw damaged();
  if (number.point > MOST_DIGITS) return stored;
  if (format.isDate) return dayWritten(number);
  const kept = keptDecimal(number), value = format.isPercent && kept.digits ? { ...kept, point: kept.point + 2 } : kept;
  const isWhole = isWholeDecimal(value), isPadded = format.digits > 1 && isWhole && !format.decimals;
  if (isWhole && value.point > PRICE_DIGITS || isPadded) {
    return value.sign + inFull({ ...value, sign: "" }).padStart(format.digits - value.sign.length, "0");
  }
  const isAll = format.decimals > 0 && value.digits.length - value.point <= format.decimals;
  return format.before + localNumber(isAll ? withDecimals(value, format) : inFull(value)) + format.after;
}

/**
 * @param {string} stored
 * @returns {Decimal | undefined}
 */
function decimalOf(stored) {
  const [, sign, whole, behind = "", power = "0"] = stored.trim()
    .match(/^([+-]?)(\d*)(?:\.(\d*))?(?:[eE]([+-]?\d{1,9}))?$/) ?? [];
  if (whole === undefined || !(whole + behind)) return undefined;
  const all = whole + behind, digits = all.replace(/^0+/, ""), plain = digits.replace(/0+$/, "");
  const point = whole.length + Number(power) - (all.length - digits.length);
  return { sign: sign === "-" && plain ? "-" : "", digits: plain, point: plain ? point : 0 };
}

/** @param {Decimal} number */
const isWholeDecimal = ({ digits, point }) => digits.length <= Math.max(0, point);

/**
 * A number without what a binary one cannot hold exactly, as in 2.9000000000000004.
 * @param {Decimal} number
 */
function keptDecimal(number) {
  if (isWholeDecimal(number) || number.digits.length <= KEPT_DIGITS) return number;
  return decimalOf(Number(`${number.sign}0.${number.digits}E${number.point}`).toPrecision(KEPT_DIGITS)) ?? number;
}

/**
 * All digits of a number, with a point before the decimals.
 * @param {Decimal} number
 */
function inFull({ sign, digits, point }) {
  const whole = point > 0 ? digits.slice(0, point).padEnd(point, "0") : "0";
  const behind = digits && point < digits.length ? "0".repeat(Math.max(0, -point)) + digits.slice(Math.max(0, point))
    : "";
  return `${sign}${whole}${behind && "."}${behind}`;
}

/**
 * A number with as many decimals as its format shows, and perhaps commas between groups of digits.
 * @param {Decimal} number
 * @param {Format} format
 */
function withDecimals(number, { decimals, isGrouped }) {
  const [whole, behind = ""] = inFull(number).split(".");
  return `${isGrouped ? whole.replace(/(?<=\d)(?=(\d{3})+$)/g, ",") : whole}.${behind.padEnd(decimals, "0")}`;
}

/**
 * A number with the signs of the page's language.
 * @param {string} shown
 */
const localNumber = (shown) => decimalSign() === "," ? shown.replace(/[.,]/g, (sign) => sign === "." ? "," : ".")
  : shown;

/**
 * The date of a number of days, with a time if it has one. So a price that a spreadsheet took for a day is refused as
 * one.
 * @param {Decimal} number
 */
function dayWritten(number) {
  const days = Number(inFull(number));
  if (!(days >= 0 && days < LAST_DAY)) return inFull(keptDecimal(number));
  const [day, time] = new Date(DAY_0 + Math.floor(days) * 86400000 + Math.round(days % 1 * 86400) * 1000).toISOString()
    .slice(0, 19).split("T");
  return Math.round(days % 1 * 86400) ? `${day} ${time}` : day;
}
