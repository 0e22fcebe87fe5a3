// @ts-check
// Reads prices as people write them, and formats them for print. tables/shop/README.md has the rule. As
// bindings/python/noriladle/_amounts.py.
"use strict";

/**
 * A price as it is written.
 * @typedef {{ before: string, whole: string, group: string, point: string, fraction: string, dash: string,
 *   after: string, each: string,
 *   currency: string, isBelow: boolean }} Written
 */

// How many decimals a currency has, by each of its signs.
/** @type {Map<string, number>} */
const DECIMALS = new Map(Object.values(PRICES.currencies).flatMap((/** @type {any[]} */ [decimals, ...signs]) =>
  signs.map((sign) => /** @type {[string, number]} */ ([sign, decimals]))));

const ANY_SIGN = [...DECIMALS.keys()].sort((a, b) => b.length - a.length).map((sign) => sign.replace(/[.$]/g, "\\$&"))
  .join("|");

// A price: a number with or without decimals, a currency before or behind it, and what it is for.
const WRITTEN_PRICE = RegExp(`^(?<below>[-−])?(?<front>(?:${ANY_SIGN})[ \\xa0]?)?(?<minus>[-−])?`
  + "(?<whole>[0-9]{1,7}|[0-9]{1,3}(?<group>[.,'’ \\xa0\\u202f])[0-9]{3}(?:\\k<group>[0-9]{3})?)"
  + "(?:(?<point>[.,])(?:(?<fraction>[0-9]+)|(?<dash>[-–—]{1,2})))?(?<debit>-)?"
  + `(?<back>[ \\xa0]?(?:${ANY_SIGN}))?`
  + "(?<each>[ \\xa0]?(?:/|(?:je|pro|per|par|por|al|za)[ \\xa0])[ \\xa0]?"
  + "[\\p{L}\\p{No}\\p{Nl}][\\p{L}\\p{N}_. ]{0,11})?$", "iu");

/** The prices of a column. Its cells say together whether a point or a comma stands before the decimals. */
class Amounts {
  /**
   * @param {string[]} cells
   * @param {PriceHeading | undefined} heading
   * @param {boolean} isFree
   */
  constructor(cells, heading, isFree) {
    const [mark = ""] = (heading?.marks ?? []).filter((name) => DECIMALS.has(name)).sort();
    this.decimals = DECIMALS.get(mark) ?? 2;
    this.isCents = !!heading?.isCents;
    this.isFree = isFree;
    const points = cells.map(writtenPrice).filter((it) => it?.point && (it.group || it.fraction.length !== 3))
      .map((it) => it?.point);
    this.point = new Set(points).size === 1 ? points[0] ?? "" : "";
  }

  /**
   * The price of a cell as it is printed, with the decimals of its currency; or why it is none.
   * @param {string} cell
   * @returns {{ price: string } | { fault: Told }}
   */
  printed(cell) {
    const written = writtenPrice(cell), short = shortText(cell);
    if (!written || /^0[0-9]/.test(written.whole)) return { fault: { key: "noAmount", values: [short] } };
    if (written.isBelow) return { fault: { key: "belowZero", values: [short] } };
    const counted = this.isCents ? this.ofCents(written, short) : written;
    const full = "fault" in counted ? counted : this.inFull(counted, short);
    if ("fault" in full) return full;
    const isZero = !/[1-9]/.test(full.whole + full.fraction);
    if (isZero && !this.isFree) return { fault: { key: "zeroPrice", values: [short] } };
    const decimals = full.fraction || full.dash ? full.point + (full.fraction || full.dash) : "";
    return { price: full.before + full.whole + decimals + full.after + full.each };
  }

  /**
   * An amount as it is printed; nothing for zero.
   * @param {string} cell
   * @returns {{ price: string } | { fault: Told }}
   */
  above(cell) {
    const written = writtenPrice(cell);
    return written && !/[1-9]/.test(written.whole + written.fraction) ? { price: "" } : this.printed(cell);
  }

  /**
   * The price of one of these units, such as 1 kg = 5.80, by a price as it is printed and what it is for.
   * @param {string} price
   * @param {string} content
   * @param {string[]} units
   * @returns {{ price: string } | { fault: Told }}
   */
  ofUnit(price, content, units) {
    const measure = /[0-9]/.test(content) ? measureOf(content) : undefined, written = writtenPrice(price);
    const unit = units.find((it) => measureOf(it)?.kind === measure?.kind) ?? "", asked = measureOf(unit);
    if (!measure?.size || !asked || !written || written.each) {
      return { fault: { key: "noContent", values: [shortText(content), units.join(", ")] } };
    }
    // Whole numbers, since a price is rounded half up: all have a thousand million times their size.
    const decimals = DECIMALS.get(written.currency) ?? this.decimals, { number, scale } = exactAmount(written);
    const above = number * asked.size * 10n ** BigInt(decimals), below = measure.size * scale;
    const digits = String((2n * above + below) / (2n * below)).padStart(decimals + 1, "0"),
      at = digits.length - decimals;
    const amount = digits.slice(0, at)
      + (decimals ? (written.point || this.point || decimalSign()) + digits.slice(at) : "");
    const named = unit.replace(/^([0-9]*) ?/, (_, count) => `${count || 1} `);
    return { price: `${named} = ${written.before}${amount}${written.after}` };
  }

  /**
   * The price in money of a whole number of cents.
   * @param {Written} written
   * @param {string} short
   * @returns {Written | { fault: Told }}
   */
  ofCents(written, short) {
    const isOther = written.group || written.fraction || written.dash || written.currency;
    if (isOther) return { fault: { key: "notCents", values: [short] } };
    const digits = written.whole.padStart(3, "0");
    return { ...written, whole: digits.slice(0, -2), point: this.point || decimalSign(), fraction: digits.slice(-2) };
  }

  /**
   * A price with the decimals of its currency, if it has no more and is clear.
   * @param {Written} written
   * @param {string} short
   * @returns {Written | { fault: Told }}
   */
  inFull(written, short) {
    const decimals = DECIMALS.get(written.currency) ?? this.decimals;
    if (written.dash) return written;
    const isThree = written.fraction.length === 3 && !written.group && written.whole.length <= 3;
    const price = isThree && written.whole !== "0" && decimals !== 3 ? this.grouped(written, short, decimals) : written;
    if ("fault" in price) return price;
    const fraction = price.fraction.slice(0, decimals).padEnd(decimals, "0");
    if (/[^0]/.test(price.fraction.slice(decimals))) {
      return { fault: { key: "decimalsOfPrice", values: [short, decimals, roundedPrice(price, decimals)] } };
    }
    const point = price.point || this.point || decimalSign(), other = point === "." ? "," : ".";
    return { ...price, point: point === price.group ? other : point, fraction };
  }

  /**
   * A price such as 1.299, if other prices of the list write decimals with the other sign, or the currency has none.
   * @param {Written} written
   * @param {string} short
   * @param {number} decimals
   * @returns {Written | { fault: Told }}
   */
  grouped(written, short, decimals) {
    const { whole, point, fraction } = written;
    if (decimals && ["", point].includes(this.point)) {
      const full = `${whole}${fraction}${point}${"0".repeat(decimals)}`;
      return { fault: { key: "twoAmounts", values: [short, full, whole + point + fraction.slice(0, 2)] } };
    }
    return { ...written, whole: whole + point + fraction, group: point, point: "", fraction: "" };
  }
}

/**
 * The number of a price with this many decimals, rounded half up.
 * @param {Written} price
 * @param {number} decimals
 */
function roundedPrice({ whole, point, fraction }, decimals) {
  const kept = BigInt(whole.replace(/[^0-9]/g, "") + fraction.slice(0, decimals)) + BigInt(fraction[decimals] >= "5");
  const digits = String(kept).padStart(decimals + 1, "0"), at = digits.length - decimals;
  return digits.slice(0, at) + (decimals ? point + digits.slice(at) : "");
}

// Units, each with what it is a measure of and how many of the smallest it has. A unit in a text, perhaps with a number
// of it; and a measure such as 6 x 0.33 l.
/** @type {Record<string, any[]>} */
const UNITS = SHOP.units, ANY_UNIT = Object.keys(UNITS).sort((a, b) => b.length - a.length).join("|");
const UNIT = RegExp(`(?<![\\p{L}\\p{N}])([0-9]* ?)(${ANY_UNIT})(?![\\p{L}\\p{N}])`, "iu");
const MEASURE = RegExp(`^(?:([0-9]+) ?[x×] ?)?([0-9]+(?:[.,][0-9]+)?)? ?(${ANY_UNIT})(?: ?[e℮])?$`, "iu");

/**
 * What a text measures, and how much, in thousand millionths of its smallest unit; nothing if it is no measure, or its
 * decimals may be a group.
 * @param {string} text
 */
function measureOf(text) {
  const [, times = "1", count = "1", unit = ""] = text.match(MEASURE) ?? [];
  if (!unit || /[1-9][0-9]*[.,][0-9]{3}$/.test(count)) return undefined;
  const [kind, size] = UNITS[unit.toLowerCase()], [whole, fraction = ""] = count.split(/[.,]/);
  return { kind,
    size: BigInt(times) * BigInt(whole + fraction) * BigInt(1000 * size) * 10n ** 6n / 10n ** BigInt(fraction.length) };
}

/**
 * A price as a whole number of its last decimal, and how many of them are one.
 * @param {Written} written
 */
function exactAmount({ whole, fraction }) {
  return { number: BigInt(whole.replace(/[^0-9]/g, "") + fraction), scale: 10n ** BigInt(fraction.length) };
}

/**
 * Whether a price as it is printed is above another one.
 * @param {string} price
 * @param {string} other
 */
function isAbove(price, other) {
  const [one, two] = [price, other]
    .map((it) => exactAmount(writtenPrice(it) ?? /** @type {Written} */ ({ whole: "0", fraction: "" })));
  return one.number * two.scale > two.number * one.scale;
}

/**
 * The number of a cell that is written like a price; 0 for any other cell, and if its decimals may be a group.
 * @param {string} cell
 */
function cellAmount(cell) {
  const written = writtenPrice(trimmed(cell));
  if (!written || written.isBelow || written.fraction.length === 3 && written.whole !== "0") return 0;
  return Number(`${written.whole.replace(/[^0-9]/g, "")}.${written.fraction || 0}`);
}

/**
 * The parts of a cell that is written like a price; or nothing.
 * @param {string} cell
 * @returns {Written | undefined}
 */
function writtenPrice(cell) {
  const found = /[0-9]/.test(cell) ? cell.match(WRITTEN_PRICE)?.groups : undefined;
  if (!found || found.front && found.back) return undefined;
  const { front = "", whole = "", group = "", point = "", fraction = "", dash = "", back = "", each = "" } = found;
  return { before: front, whole, group, point, fraction, dash, after: back, each,
    currency: trimmed(front || back).toLowerCase(),
    isBelow: !!(found.below || found.minus || found.debit) };
}

// What stands before the decimals of a price, if the list does not show it.
const decimalSign = () => /** @type {Record<string, { decimal: string }>} */ (TEXTS)[language].decimal;
