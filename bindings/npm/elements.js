// Elements as data.
import { AIS, countriesOf, currencyOf, numberOf, placeOf, unitOf } from "./page.js";

// What there is of an element, in this order.
export function elementOf({ ai, value, date, until, time }) {
  const countries = countriesOf(ai, value), told = { ai, title: AIS.get(ai)?.title || undefined, value, date, until, time, number: /^(?:3[07]|8005)$/.test(ai) ? value.replace(/^0+(?=\d)/, "") : numberOf(ai, value), unit: unitOf(ai),
    currency: currencyOf(ai, value), countries: countries.length ? countries : undefined, place: placeOf(ai, value) };
  return Object.fromEntries(Object.entries(told).filter(([, it]) => it !== undefined));
}

// The AI that a text begins with: none begins another.
export const aiAt = (text) => [2, 3, 4].map((count) => text.slice(0, count)).find((ai) => AIS.has(ai));
