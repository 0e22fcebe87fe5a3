// GS1 barcodes for Node and browsers: turns the answers of the proved library into values of JavaScript.
import { adviceOf, wordsOf } from "./advice.js";
import { aiAt, elementOf } from "./elements.js";
import { MODULE, VERSION } from "./module.js";
import { Gs1 as Calls, RawAnswer, askFor, greyOf, gtinOf, isGtin, stripped, symbolsShown } from "./page.js";

export { VERSION };

// The largest input.
const MOST_WIDTHS = 131_072, MOST_BYTES = 262_144, MOST_U16 = 65_535;

// How many lines are answered by one call, how many letters they have at most, how many bytes `struct gs1_answer` has, and where a word stands
// behind it.
const LINES = 120, MOST_LINE = 700, ANSWER = 1_068, WORD = 2_048;

// The kinds of conflicts, by their numbers in gs1.h, how many bytes each conflict has, and the most of an answer.
const CONFLICTS = [undefined, "needs", "excludes", "differs", "country", "currency", "prefix", "trade_item"], CONFLICT = 48, MOST_CONFLICTS = 240;

// What codes are not, if the kind of conflict does not say it.
const NO = { prefix: "GS1 Company Prefix", trade_item: "number of a trade item" };

// What GTINs identify, by the numbers in gs1.h.
const GTIN_USES = [undefined, "trade_item", "in_store", "coupon", "issn", "ismn", "isbn", "zeros"];

// For calls whose answer has no day.
const ANY_YEAR = 2000;

// The identifiers of scanners that an element string may follow.
const ELEMENT_STRINGS = ["]C1", "]e0", "]d2", "]Q3", "]J1"];

// The beginning of a link unless another is given.
const STEM = "https://id.gs1.org";

// The errors of a picture that cannot be read at all. Any other says why none of its rows was read.
const OF_THE_CALL = [17, 18, 42, 43];

// What the call of each error was asked, and the advice, once somebody asks for it.
const ASKED = new WeakMap(), ADVICE = new WeakMap();

export class Refusal extends Error {
  constructor(number, fault, place) {
    super(`refused ${number} ${fault}${place === undefined ? "" : ` ${place}`}`);
    this.name = "Refusal";
    this.number = number;
    this.fault = fault;
    this.place = place;
    this.before = [];
    this.ai = undefined;
  }

  get remedy() { return wordsOf(adviceFor(this)); }

  get fixes() { return adviceFor(this).fixes ?? []; }
}

function adviceFor(error) {
  if (!ADVICE.has(error)) ADVICE.set(error, adviceOf(error, ASKED.get(error)));
  return ADVICE.get(error);
}

// Asks, and notes in an error what was asked.
function noting(asked, ask) {
  try {
    return ask();
  } catch (error) {
    if (error instanceof Refusal && !ASKED.has(error)) ASKED.set(error, asked);
    throw error;
  }
}

// The same of a call of elements. The error knows the element at its place, or else the call's word.
function notingOf(call, listed, word, ask) {
  try {
    return ask();
  } catch (error) {
    const { ai, value } = listed[error.place] ?? { ai: "", value: word };
    if (error instanceof Refusal) ASKED.set(error, { call, ai, text: value, identifiers: ELEMENT_STRINGS });
    throw error;
  }
}

// What is asked, or its error.
function orRefusal(ask) {
  try {
    return ask();
  } catch (error) {
    if (error instanceof Refusal) return error;
    throw error;
  }
}

const isRead = (ask) => !(orRefusal(ask) instanceof Refusal);

// What a call of this name was asked about a text. `ask` asks it about another.
const askedOf = (call, text, ask, others) =>
  ({ call, text: typeof text === "string" ? text : new TextDecoder().decode(bytesOf(text)), reads: (it) => isRead(() => ask(it)), ...others });

const refusalOf = ({ fault, place }) => new Refusal(fault, Calls.faults[fault], place);

// A number for a call: 0, which every call refuses, if it is out of range.
const u16 = (number) => (Number.isInteger(number) && number >= 0 && number <= MOST_U16 ? number : 0);

// Year and AIs as the library's one number: 0, which it refuses, for a year out of range.
function termsOf(year, { ais = "all" } = {}) {
  if (ais !== "all" && ais !== "profile") throw new RangeError(`ais is "all" or "profile", and not ${ais}`);
  if (typeof year !== "number") throw new TypeError(`the year is a number, such as 2026, and not ${nameOf(year)}`);
  if (!Number.isInteger(year) || year < 1951 || year > 2149) return 0;
  return ais === "all" ? Calls.everyAi | year : year;
}

class Answer {
  #found;

  // What is found of the elements; what their values mean is added when somebody asks for it.
  constructor(identifier, symbol, found) {
    this.#found = found;
    this.identifier = identifier;
    this.symbol = symbol;
    let elements;
    Object.defineProperty(this, "elements", { enumerable: true, get: () => elements ??= madeOf(found) });
    // Under each AI the first element with it.
    for (const ai of new Set(found.map((it) => it.ai))) Object.defineProperty(this, ai, { get: () => this.elements.find((it) => it.ai === ai) });
  }

  get text() { return this.#found.map(({ ai, value }) => `(${ai})${value}`).join(""); }

  get gtin() { return gtinOf(this.#found); }

  gtinAs(digits) {
    if (![8, 12, 13, 14].includes(digits)) throw new RangeError(`a GTIN has 8, 12, 13 or 14 digits, and not ${digits}`);
    const { gtin } = this, zeros = "0".repeat(14 - digits);
    return gtin?.startsWith(zeros) ? gtin.slice(zeros.length) : undefined;
  }

  [Symbol.iterator]() { return this.elements[Symbol.iterator](); }

  toJSON() { return { identifier: this.identifier ?? null, gtin: this.gtin ?? null, elements: this.elements }; }

  toString() { return `${this.identifier ?? "-"} ${this.text}`; }

  // What Node prints, with the elements.
  [Symbol.for("nodejs.util.inspect.custom")](_, options, inspect) { return `Answer ${inspect({ ...this }, options)}`; }
}

const madeOf = (found) => found.map((it) => Object.freeze(elementOf(it)));

class Gs1 {
  #calls;

  constructor(calls) {
    this.#calls = calls;
    // The scripts of the page ask this module, and for advice about numbers any module, which answers alike.
    const asking = (call) => (text) => calls.read(call, ...calls.put(text), Calls.everyAi | ANY_YEAR);
    askFor({
      gtin: asking("gs1_c_read_gtin"), typed: asking("gs1_c_read_text"), said: asking("gs1_c_read_data"), digit: (text) => String(this.checkDigit(text)),
    });
  }

  readRow(widths, year, options) { return noting({ call: "row" }, () => this.#row(widths, year, options)); }

  find(widths, year, options) { return noting({ call: "row" }, () => this.#find(widths, year, options)); }

  readScan(text, year, options) {
    return noting(askedOf("readScan", text, (it) => this.#scan(it, year, options)), () => this.#scan(text, year, options));
  }

  readScans(texts, year, options) {
    return this.#each("gs1_c_read_messages", texts, termsOf(year, options), answerOf, (text) => this.readScan(text, year, options));
  }

  readGtins(texts) { return this.#each("gs1_c_read_gtins", texts, ANY_YEAR, ({ text }) => text.slice("01".length), (text) => this.readGtin(text)); }

  // What is made of each of many texts by a call of lines; what is refused, or cannot be a line, is asked about alone.
  #each(call, texts, terms, made, one) {
    const all = Array.from(texts), told = [];
    for (let at = 0; at < all.length; at += LINES) {
      const some = all.slice(at, at + LINES), areLines = some.every((it) => typeof it === "string" && it.length <= MOST_LINE && !/[\r\n]/.test(it));
      const said = areLines ? this.#lines(call, some, terms) : [];
      some.forEach((text, i) => told.push(said[i]?.fault === 0 ? made(said[i]) : orRefusal(() => one(text))));
    }
    return told;
  }

  // What a call says of lines. How many bytes of them it used stands before the structs.
  #lines(call, lines, terms) {
    const { calls, output } = this.#calls, at = output + 8, text = this.#put(bytesOf(lines.map((line) => `${line}\n`).join("")));
    calls[call](...text, terms, BigInt(at), BigInt(lines.length), BigInt(output));
    return lines.map((_, i) => new RawAnswer(calls.memory.buffer, at + ANSWER * i));
  }

  readText(text, year, options) {
    const ask = (it) => this.#text(it, year, options);
    return noting(askedOf("readText", text, ask), () => ask(text));
  }

  parseElements(text, year, options) {
    const ask = (it) => this.#parse(bytesOf(it), termsOf(year, options));
    return noting(askedOf("parseElements", text, ask, { isString: true }), () => ask(text));
  }

  #row(widths, year, options) {
    return answerOf(this.#askRow((...words) => this.#read("gs1_c_read_row", ...words), widths, termsOf(year, options)));
  }

  #find(widths, year, options) {
    const row = widthsOf(widths);
    return this.#askRow((...words) => this.#ask("gs1_c_find", ...words), row, termsOf(year, options)).split("\n").slice(0, -1).map((line) => {
      const [first, count] = line.split(" ", 2).map(Number);
      return { first, count, answer: this.#row(row.slice(first, first + count), year, options) };
    });
  }

  #scan(text, year, options, call = "gs1_c_read_message") {
    const terms = termsOf(year, options), bytes = bytesOf(text);
    try {
      return answerOf(this.#read(call, ...this.#put(bytes), terms));
    } catch (error) {
      if (!ELEMENT_STRINGS.includes(latin1(bytes.subarray(0, 3)))) throw error;
      // Places do not count a separator at the beginning.
      throw this.#withBefore(error, bytes.subarray([0x1d, 0x5e].includes(bytes[3]) ? 4 : 3).map((byte) => (byte === 0x5e ? 0x1d : byte)), terms);
    }
  }

  #text(text, year, options) {
    if (typeof text !== "string") throw new TypeError(`a text is a string, and not ${nameOf(text)}`);
    return this.#scan(stripped(text), year, options, "gs1_c_read_text");
  }

  compose(elements, year) {
    const listed = listOf(Array.from(elements, (it) => (Array.isArray(it) ? { ai: it[0], value: it[1] } : it)));
    return notingOf("compose", listed, "", () => {
      const said = orRefusal(() => this.#written("gs1_c_scan_text", listed, "]C1", year));
      if (typeof said === "string") return said.slice("]C1".length);
      throw said.fault === "TooLong" ? this.#tooLong(listed, year) : said;
    });
  }

  // The error of elements with too many characters: that of the first one that has an error, whose value may be long itself.
  #tooLong(listed, year) {
    for (const [at, { ai, value }] of listed.entries()) {
      const said = orRefusal(() => this.compose([[ai.slice(0, 5), value.slice(0, 100)]], year));
      if (said instanceof Refusal) return new Refusal(said.number, said.fault, at);
    }
    return new Refusal(11, "TooLong");
  }

  scanText(elements, identifier, year) {
    const listed = listOf(elements);
    return notingOf("scanText", listed, identifier, () => this.#written("gs1_c_scan_text", listed, identifier, year));
  }

  link(elements, stem = STEM, year) {
    const listed = listOf(elements), said = orRefusal(() => this.#written("gs1_c_link", listed, stem, year));
    if (typeof said === "string") return said;
    // With a stem that is right, a list without a key is still refused.
    const isStem = said.fault === "Kind" && isRead(() => this.#written("gs1_c_link", listed, STEM, year));
    return notingOf(isStem ? "stem" : "link", listed, stem, () => { throw said; });
  }

  // What a call writes of elements.
  #written(call, listed, word, year = new Date().getFullYear()) {
    const bytes = bytesOf(word), terms = termsOf(year);
    if (bytes.length > MOST_BYTES - WORD) throw new RangeError(`a text has at most ${MOST_BYTES - WORD} bytes`);
    this.#putElements(listed);
    this.#calls.bytes.set(bytes, WORD);
    return this.#ask(call, BigInt(this.#calls.input), BigInt(this.#calls.input + WORD), BigInt(bytes.length), terms);
  }

  // Puts elements for a call, as `struct gs1_answer` of gs1.h.
  #putElements(listed) {
    const ends = listed.reduce((all, { ai, value }) => [...all, all.at(-1) + ai.length + value.length], [0]);
    if (listed.length > 48 || ends.at(-1) > 192) throw new Refusal(11, "TooLong");
    const strange = listed.findIndex(({ ai, value }) => /[^\x01-\x7f]/.test(ai + value));
    if (strange >= 0) throw new Refusal(7, "ValueCharacter", strange);
    const view = new DataView(this.#calls.bytes.buffer, this.#calls.input);
    [[0, 0], [1, 0], [5, listed.length], [6, ends.at(-1)]].forEach(([at, byte]) => view.setUint8(at, byte));
    this.#calls.bytes.set(new TextEncoder().encode(listed.map(({ ai, value }) => ai + value).join("")).subarray(0, 192), 12);
    listed.forEach(({ ai }, i) => [ends[i], ends[i] + ai.length, ends[i + 1]].forEach((index, k) => view.setUint8(204 + 18 * i + k, index)));
  }

  conflicts(elements) {
    const listed = listOf(elements);
    notingOf("conflicts", listed, "", () => this.#putElements(listed));
    const count = Number(this.#calls.calls.gs1_c_conflicts(BigInt(this.#calls.input), BigInt(this.#calls.output), BigInt(MOST_CONFLICTS)));
    return Array.from({ length: count }, (_, i) => conflictOf(listed, this.#calls.answer.subarray(CONFLICT * i, CONFLICT * (i + 1))));
  }

  readGtin(text) {
    const ask = (it) => this.#read("gs1_c_read_gtin", ...this.#put(bytesOf(it)), ANY_YEAR).text.slice("01".length);
    return noting(askedOf("readGtin", text, ask), () => ask(text));
  }

  gtinUse(text) {
    this.readGtin(text);
    return GTIN_USES[this.#calls.calls.gs1_c_use_of_gtin(BigInt(this.#calls.output))];
  }

  checkDigit(text) {
    const ask = (it) => Number(this.#ask("gs1_c_digit", ...this.#put(bytesOf(it))).slice("digit ".length));
    return noting(askedOf("checkDigit", text, ask), () => ask(text));
  }

  labelSymbol(kind, text, year, options) { return noting(this.#askedOfLabel(kind, text, year, options), () => this.#symbol(kind, text, year, options)); }

  #askedOfLabel(kind, text, year, options) {
    return askedOf("label", text, (it) => this.#symbol(kind, it, year, options), { kind, kinds: Calls.kinds, isString: kind === "gs1128", gtin: (it) => this.readGtin(it) });
  }

  #symbol(kind, text, year, options) {
    const line = this.#ask("gs1_c_symbol", Calls.kinds.indexOf(kind), ...this.#put(labelBytes(kind, text)), termsOf(year, options));
    const [, under, left, right, widths] = line.split(" ");
    return { text: under, quietLeft: Number(left), quietRight: Number(right), widths: Array.from(widths, Number) };
  }

  drawLabel(kind, text, { year, module = 1, width, height, ais } = {}) {
    const dots = [module, width, height].map(u16);
    return noting(this.#askedOfLabel(kind, text, year, { ais }), () => {
      const image = this.#calls.ask(this.#calls.calls.gs1_c_label, Calls.kinds.indexOf(kind), ...this.#put(labelBytes(kind, text)), termsOf(year, { ais }), ...dots);
      // An image begins with P4.
      if (image[0] !== 0x50) throw this.#refusalIn(this.#calls.line(image));
      return image.slice();
    });
  }

  readPicture(pixels, year, options) { return noting({ call: "picture" }, () => this.#picture(pixels, year, options)); }

  #picture(pixels, year, { level = 0, ais } = {}) {
    if (!Number.isInteger(level) || level < 0 || level > 255) throw new RangeError("the level is not 1 to 255");
    const terms = termsOf(year, { ais }), { symbols, dropped, reason } = symbolsShown(this.#calls.picture(greyOf(pixelsOf(pixels)), level, terms));
    const refusal = this.#refusalIn(reason);
    if (refusal && OF_THE_CALL.includes(refusal.number)) throw refusal;
    if (refusal) ASKED.set(refusal, { call: "picture" });
    const shown = symbols.map(({ said, corners, rows }) => ({ answer: answerOf(this.#calls.said(said, terms)), corners, rows }));
    return Object.defineProperties(shown, { dropped: { value: dropped }, reason: { value: refusal } });
  }

  // The line of a call, unless it is an error.
  #ask(call, ...words) {
    const line = this.#calls.told(call, ...words), refusal = this.#refusalIn(line);
    if (refusal) throw refusal;
    return line;
  }

  // The error that a line reports, or nothing.
  #refusalIn(line) { return line.startsWith("refused ") ? refusalOf(this.#calls.said(line, ANY_YEAR)) : undefined; }

  // What a call says that fills a struct, unless it is an error.
  #read(call, ...words) {
    const said = this.#calls.read(call, ...words);
    if (said.fault) throw refusalOf(said);
    return said;
  }

  // Puts a text for a call: its place and its length.
  #put(bytes) {
    if (bytes.length > MOST_BYTES) throw new RangeError(`a text has at most ${MOST_BYTES} bytes`);
    this.#calls.bytes.set(bytes);
    return [BigInt(this.#calls.input), BigInt(bytes.length)];
  }

  // Asks about the widths of a row. A width above 65,535 is no u16, so it is refused here, but after the errors that come first: the year and
  // the number of runs.
  #askRow(ask, widths, terms) {
    const row = widthsOf(widths);
    if (row.length > MOST_WIDTHS) throw new RangeError(`a row has at most ${MOST_WIDTHS} runs`);
    if (row.some((width) => !Number.isInteger(width) || width < 0)) throw new RangeError("a width is a whole number from 0");
    this.#calls.words.set(row.map((width) => Math.min(width, MOST_U16)));
    const isNarrow = row.every((width) => width <= MOST_U16);
    try {
      const said = ask(BigInt(this.#calls.input), BigInt(row.length), terms);
      if (isNarrow) return said;
    } catch (error) {
      if (isNarrow || [18, 42].includes(error.number)) throw error;
    }
    throw new Refusal(17, "TooWide");
  }

  #parse(bytes, terms) {
    try {
      return madeOf(this.#read("gs1_c_read_elements", ...this.#put(bytes), terms).elements);
    } catch (error) {
      throw this.#withBefore(error, bytes, terms);
    }
  }

  // The error of an element string, with the elements before its place and the AI there.
  #withBefore(error, bytes, terms) {
    if (!(error instanceof Refusal) || error.place === undefined || error.place > bytes.length) return error;
    error.ai = aiAt(latin1(bytes.subarray(error.place, error.place + 4)));
    if (error.place > 0) error.before = this.#parse(bytes.subarray(0, error.place), terms);
    return error;
  }
}

// Elements as an array.
function listOf(elements) {
  if (typeof elements?.[Symbol.iterator] !== "function") throw new TypeError(`elements are an array or an answer, and not ${nameOf(elements)}`);
  const listed = Array.from(elements);
  if (!listed.every((it) => typeof it?.ai === "string" && typeof it?.value === "string")) throw new TypeError("an element has an AI and a value, both strings");
  return listed;
}

// A conflict of these elements, in `struct gs1_conflict` of gs1.h.
function conflictOf(elements, [kind, element, other, ...text]) {
  const told = { kind: CONFLICTS[kind], element: elements[element], other: elements[other], code: latin1(text).replace(/\0+$/, "") };
  return { ...told, text: `${told.element.ai}${conflictWords(told)}` };
}

function conflictWords({ kind, element, other, code }) {
  if (kind === "needs") return ` needs ${code.replaceAll(",", " or ")}`;
  if (kind === "excludes") return ` excludes ${other.ai}`;
  return kind === "differs" ? `: ${other.value} and ${element.value} differ` : `: ${code} is no ${NO[kind] ?? kind}`;
}

const answerOf = ({ identifier, symbol, elements }) => new Answer(identifier || undefined, symbol, elements);

const nameOf = (it) => it === null ? "null" : typeof it === "object" ? it.constructor?.name ?? "object" : typeof it;

function bytesOf(text) {
  if (typeof text === "string") return new TextEncoder().encode(text);
  if (ArrayBuffer.isView(text) && text.BYTES_PER_ELEMENT === 1) return text;
  throw new TypeError(`a text is a string or a Uint8Array, and not ${nameOf(text)}`);
}

// The widths of a row as an array.
function widthsOf(widths) {
  if (typeof widths !== "object" || !Number.isInteger(widths?.length)) throw new TypeError(`widths are an array of numbers, and not ${nameOf(widths)}`);
  return Array.from(widths);
}

// The pixels of a picture, if they are as ImageData has them.
function pixelsOf(pixels) {
  const { width, height, data } = pixels ?? {};
  if (!ArrayBuffer.isView(data) || data.BYTES_PER_ELEMENT !== 1) throw new TypeError("a picture has a width, a height, and its data in four bytes a pixel");
  if (![width, height].every((side) => Number.isInteger(side) && side >= 0) || data.length !== 4 * width * height) {
    throw new RangeError(`a picture of ${width} by ${height} pixels has four bytes for each, and not ${data.length} bytes`);
  }
  return data.byteOffset % 4 ? { width, height, data: data.slice() } : pixels;
}

// The text of a label as the library takes it: of an element string without a separator in front, and each as byte 29. The digits of a GTIN
// may be one too, so they are refused as such.
function labelBytes(kind, text) {
  const bytes = bytesOf(text);
  if (kind !== "gs1128") return bytes;
  if (isGtin(latin1(bytes))) throw new Refusal(40, "Kind");
  return bytes.subarray([0x1d, 0x5e].includes(bytes[0]) ? 1 : 0).map((byte) => (byte === 0x5e ? 0x1d : byte));
}

const latin1 = (bytes) => String.fromCharCode(...bytes);

export const load = async () => new Gs1(await Calls.load(MODULE, 32));
