// The texts of scanners alone, for pages that read no bars: a third of the module of index.js, and the same answers.
import { FAULTS, MODULE, SYMBOLS, VERSION } from "./texts.module.js";

export { VERSION };

const PAGE = 65536, PLACES = 204, EVERY_AI = 0x8000;
const encoder = new TextEncoder(), decoder = new TextDecoder();

export class Refusal extends Error {
  constructor(number, fault, place) {
    super(`refused ${number} ${fault}${place === undefined ? "" : ` ${place}`}`);
    Object.assign(this, { name: "Refusal", number, fault, place });
  }
}

// `struct gs1_answer` of gs1.h at this place of a memory.
function answerAt(memory, at) {
  const view = new DataView(memory, at), byte = (i) => view.getUint8(i), fault = view.getUint16(0, true), place = view.getUint16(2, true);
  if (fault) throw new Refusal(fault, FAULTS[fault], place === 65535 ? undefined : place);
  const part = (from, end) => decoder.decode(new Uint8Array(memory, at + from, end - from)), text = part(12, 12 + byte(6));
  const elements = Array.from({ length: byte(5) }, (_, i) => elementAt(view, PLACES + 18 * i, text));
  const values = new Set(elements.filter(({ ai }) => ai === "01").map(({ value }) => value));
  return {
    identifier: byte(8) ? part(8, 11) : undefined, symbol: SYMBOLS[byte(4)], elements,
    gtin: values.size === 1 ? [...values][0] : undefined, text: elements.map(({ ai, value }) => `(${ai})${value}`).join(""),
  };
}

function elementAt(view, at, text) {
  const byte = (i) => view.getUint8(at + i), digits = (i) => String(byte(i)).padStart(2, "0"), named = byte(3);
  const day = (i) => `${String(view.getUint16(at + i, true)).padStart(4, "0")}-${digits(i + 2)}-${digits(i + 3)}`;
  return {
    ai: text.slice(byte(0), byte(1)), value: text.slice(byte(1), byte(2)), ...(named & 1 && { date: day(4) }), ...(named & 4 && { until: day(8) }),
    ...(named & 2 && { time: `${digits(12)}:${digits(13)}:${digits(14)}` }),
  };
}

class Texts {
  #calls;
  #at;

  constructor(calls) {
    this.#calls = calls;
    this.#at = calls.memory.grow(5) * PAGE;
  }

  readScan(text, year, options) { return this.#read("message", text, year, options); }

  parseElements(text, year, options) { return this.#read("elements", text, year, options).elements; }

  readGtin(text) { return this.#read("gtin", text, 2000).gtin; }

  #read(call, text, year, { ais = "all" } = {}) {
    const bytes = typeof text === "string" ? encoder.encode(text) : text;
    if (!ArrayBuffer.isView(bytes)) throw new TypeError(`a text is a string or a Uint8Array, and not ${typeof text}`);
    if (typeof year !== "number") throw new TypeError(`the year is a number, and not ${typeof year}`);
    if (ais !== "all" && ais !== "profile") throw new RangeError(`ais is "all" or "profile", and not ${ais}`);
    if (bytes.length > 4 * PAGE) throw new RangeError(`a text has at most ${4 * PAGE} bytes`);
    new Uint8Array(this.#calls.memory.buffer, this.#at).set(bytes);
    const terms = Number.isInteger(year) && year >= 1951 && year <= 2149 ? (ais === "all" ? EVERY_AI : 0) | year : 0, out = this.#at + 4 * PAGE;
    this.#calls[`gs1_c_read_${call}`](BigInt(this.#at), BigInt(bytes.length), terms, BigInt(out));
    return answerAt(this.#calls.memory.buffer, out);
  }
}

export async function load() {
  const packed = new Blob([Uint8Array.from(atob(MODULE), (letter) => letter.charCodeAt(0))]).stream();
  const module = await new Response(packed.pipeThrough(new DecompressionStream("gzip"))).arrayBuffer();
  return new Texts((await WebAssembly.instantiate(module, {})).instance.exports);
}
