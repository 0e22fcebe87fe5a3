// @ts-check
// The calls of the module. In both modules, that with 64-bit memory and that made of it for other browsers, pointers
// and counts have 64 bits, so they are BigInts. Each call writes its answer into a buffer of the page's, after the
// module's own memory.
"use strict";

class Gs1 {
  static kinds = ["ean13", "upca", "ean8", "upce", "gs1128", "itf14"];

  // The kinds of symbols that scanners read, and the names of errors (from tables/remedies), by their numbers in gs1.h.
  static symbols = [undefined, "ean13", "upca", "upce", "ean8", "itf14", "gs1128", "databar", "datamatrix",
    "qr_code", "dotcode"];
  static faults = [
    "", "Length", "NotDigit", "CheckDigit", "Empty", "UnknownAi", "ValueLength", "ValueCharacter", "ValueCheckDigit",
    "ValueDate", "MissingSeparator", "TooLong", "TooManyCharacters", "CheckCharacter", "NotGs1", "FunctionCharacter",
    "CodeSet", "TooWide", "BadRuns", "Blank", "RunCount", "QuietZone", "Modules", "Pattern", "SymbolCheckDigit",
    "BadGrid", "LabelKind", "LabelWidth", "NotP4", "PbmHeader", "Truncated", "PbmSize", "Stranger", "BadCount", "Full",
    "Spent", "NoThread", "ReadFault", "WriteFault", "Csv", "Kind", "BadLane", "Words", "NoMemory", "InputSize"
  ];

  // What is said of the identifiers of other symbols: keys of tables/shop/. tables/remedies writes them.
  static identifiers = {
    "]E1": "addOn", "]E2": "addOn", "]E3": "addOn", "]I0": "itfDigit", "]C0": "houseCode", "]e1": "composite", "]e2":
    "composite", "]e3": "composite"
  };

  // Beside a year: accept every Application Identifier.
  static everyAi = 0x8000;

  // The first bytes of a module, and of modules with memory of 32-bit and of 64-bit addresses.
  static header = [0, 0x61, 0x73, 0x6d, 1, 0, 0, 0];
  static memories = { 32: [5, 3, 1, 0, 0], 64: [5, 3, 1, 4, 0] };

  // Whether this browser runs modules whose memory has addresses of this many bits.
  static runs(bits) {
    return typeof WebAssembly === "object" && WebAssembly.validate(Uint8Array.of(...Gs1.header, ...Gs1.memories[bits]));
  }

  // The module in this base64 text, whose memory has addresses of this many bits. A loop is many times as fast as
  // `Uint8Array.from`.
  static async load(base64, bits) {
    const text = atob(base64), bytes = new Uint8Array(text.length);
    for (let i = 0; i < bytes.length; i++) bytes[i] = text.charCodeAt(i);
    const { module, instance } = await WebAssembly.instantiate(bytes, {});
    return new Gs1(instance.exports, bits, module);
  }

  // The same module with a memory of its own.
  another() { return new Gs1(new WebAssembly.Instance(this.module, {}).exports, this.bits, this.module); }

  // 256 KiB for the widths of a row or a text, and then room for an answer.
  constructor(calls, bits, module) {
    this.calls = calls;
    this.bits = bits;
    this.module = module;
    this.input = this.grow(6) * 65536;
    this.output = this.input + 4 * 65536;
    this.room = 2 * 65536;
    this.look();
  }

  // Enlarges the memory by this many pages of 64 KiB, and returns how many it had.
  grow(pages) { return Number(this.calls.memory.grow(this.bits === 64 ? BigInt(pages) : pages)); }

  look() {
    this.words = new Uint16Array(this.calls.memory.buffer, this.input, 2 * 65536);
    this.bytes = new Uint8Array(this.calls.memory.buffer, this.input, 4 * 65536);
    this.answer = new Uint8Array(this.calls.memory.buffer, this.output, this.room);
  }

  // As many bytes as the answer has.
  ask(call, ...words) {
    let count = Number(call(...words, BigInt(this.output), BigInt(this.room)));
    if (count > this.room) {
      const pages = Math.ceil((count - this.room) / 65536);
      this.grow(pages);
      this.room += pages * 65536;
      this.look();
      count = Number(call(...words, BigInt(this.output), BigInt(this.room)));
    }
    return this.answer.subarray(0, count);
  }

  line(bytes) { return String.fromCharCode(...bytes); }

  // The line that a call answers.
  told(name, ...words) { return this.line(this.ask(this.calls[name], ...words)); }

  // What a call says that fills a struct.
  read(name, ...words) {
    this.calls[name](...words, BigInt(this.output));
    return new RawAnswer(this.calls.memory.buffer, this.output);
  }

  // What the line of an answer says, with its elements as data.
  said(line, terms) { return this.read("gs1_c_read_data", ...this.put(line), terms); }

  // A text's place and length.
  put(text) { return [BigInt(this.input), BigInt(new TextEncoder().encodeInto(text, this.bytes).written)]; }

  // The symbols of a row, from left to right: the first run, the number of runs and the line of each. Run i goes from
  // `ends[i - 1]`, or 0, up to `ends[i]`, which is at most 65,535; the first and the last one are light.
  find(ends, terms) {
    for (let i = 0; i < ends.length; i++) this.words[i] = ends[i] - (i ? ends[i - 1] : 0);
    const lines = this.told("gs1_c_find", BigInt(this.input), BigInt(ends.length), terms);
    return Array.from(lines.matchAll(/(\d+) (\d+) (.*)\n/g),
      ([, first, runs, line]) => ({ first: Number(first), runs: Number(runs), line }));
  }

  // The lines of a picture of grey values, by a level or 0 for its own. The grey values follow the room for an answer,
  // and the working memory follows them.
  picture({ width, height, grey }, level, terms) {
    const words = Number(this.calls.gs1_c_picture_room(width, height));
    let end = this.output + this.room;
    const [greyAt, wordsAt, widthsAt] = [grey.length, 4 * words, 2 * (width + 2)].map((bytes) => {
      const at = end;
      end += Math.ceil(bytes / 8) * 8;
      return at;
    });
    const more = Math.ceil((end - this.calls.memory.buffer.byteLength) / 65536);
    if (more > 0) {
      this.grow(more);
      this.look();
    }
    new Uint8Array(this.calls.memory.buffer, greyAt, grey.length).set(grey);
    return this.told("gs1_c_picture", BigInt(greyAt), BigInt(grey.length), width, height, BigInt(width), level, terms,
      BigInt(wordsAt), BigInt(words), BigInt(widthsAt), BigInt(width + 2));
  }
}

// What a barcode says, or why it says nothing: `struct gs1_answer` of gs1.h at this place of a memory. Its elements are
// made when they are first asked for.
class RawAnswer {
  static decoder = new TextDecoder();

  #places;
  #elements;

  constructor(memory, at) {
    const view = new DataView(memory, at), place = view.getUint16(2, true), count = view.getUint8(5);
    this.fault = view.getUint16(0, true);
    this.place = place === 65535 ? undefined : place;
    this.symbol = Gs1.symbols[view.getUint8(4)];
    this.identifier = view.getUint8(8) ? String.fromCharCode(...[8, 9, 10].map((i) => view.getUint8(i))) : "";
    this.text = RawAnswer.decoder.decode(new Uint8Array(memory, at + 12, view.getUint8(6)));
    this.#places = new DataView(memory.slice(at + 204, at + 204 + 18 * count));
  }

  // The line of an error; empty if it is none.
  get refused() {
    return this.fault
      ? `refused ${this.fault} ${Gs1.faults[this.fault]}${this.place === undefined ? "" : ` ${this.place}`}` : "";
  }

  get elements() {
    return this.#elements ??= Array.from({ length: this.#places.byteLength / 18 }, (_, i) => this.#element(18 * i));
  }

  // The element at a place.
  #element(at) {
    const byte = (i) => this.#places.getUint8(at + i), digits = (i) => String(byte(i)).padStart(2, "0"),
      named = byte(3);
    const day = (i) =>
      `${String(this.#places.getUint16(at + i, true)).padStart(4, "0")}-${digits(i + 2)}-${digits(i + 3)}`;
    return {
      ai: this.text.slice(byte(0), byte(1)),
      value: this.text.slice(byte(1), byte(2)),
      date: named & 1 ? day(4) : undefined,
      time: named & 2 ? `${digits(12)}:${digits(13)}:${digits(14)}` : undefined,
      until: named & 4 ? day(8) : undefined,
    };
  }
}

// The GTIN of elements, wherever 01 stands; or nothing if there is none, or two that differ.
function gtinOf(elements) {
  const values = new Set(elements.filter(({ ai }) => ai === "01").map(({ value }) => value));
  return values.size === 1 ? [...values][0] : undefined;
}

// The symbols in the lines of a picture, in reading order, each with its corners, how many rows show it and what it
// says, and how many more there are, at least; for a picture without a symbol, the line that says why.
function symbolsShown(lines) {
  if (!lines.endsWith("\n")) return { symbols: [], dropped: 0, reason: lines };
  const symbols = Array.from(lines.matchAll(/^((?:\d+ ){8})(\d+) (.*)$/gm), ([, places, rows, said]) => {
    const at = places.trim().split(" ").map((place) => Number(place) / 256);
    return { said, rows: Number(rows), corners: [0, 2, 4, 6].map((i) => ({ x: at[i], y: at[i + 1] })) };
  });
  return { symbols, dropped: Number(lines.match(/^dropped (\d+)$/m)?.[1] ?? 0), reason: "" };
}
