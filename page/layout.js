// @ts-check
// Labels as the proved module lays them out (gs1_measure, gs1_plan and gs1_draw of gs1.h): dark boxes of whole dots,
// and texts in rectangles.
"use strict";

// The height that bars below a large price need; the standard asks for more.
const STRIP_MM = 6, LOGISTIC_MM = 0.495, MOST_PARTS = 400;

// The bytes of the structs of gs1.h.
const SIZES = {
  look: 96, font: 24, article: 152, letters: 16, measure: 12, plan: 48, part: 32, drawing: 24, row: 8192
};

// The errors of labels by their numbers in gs1.h, and their texts in tables/shop/.
const SAID_OF_LABELS = { 53: "noBars", 54: "noPlace", 55: "noHeight", 56: "manyFurther" };

// An empty label, and how much stays white at its sides, above and below. Lengths are dots.
function cellOf(stock, dots) {
  const [width, height] = [stock.width, stock.height].map((length) => Math.floor(length * dots));
  return { dots, width, height, aside: stock.aside * dots, above: stock.above * dots };
}

// The texts of a label by their numbers in gs1.h: its name, its price, its fields and its further lines.
const fieldsOf = ({ name, price, fields, lines }) => [name, price, ...fields, lines.join("\n")];

// Lays out the labels of a list in a look, with modules of this many dots if the caller asks for them.
class Layout {
  // A module of its own, since its memory is used from call to call.
  static module;

  constructor(articles, cell, look, dots) {
    const signs = new Set(ALWAYS), { look: own, article, plan, drawing, row, part, measure } = SIZES;
    let longest = 0;
    for (const { text, ...its } of articles) {
      const texts = [text, ...fieldsOf(its)];
      for (const told of texts) for (const sign of told) signs.add(sign);
      longest = Math.max(longest, texts.reduce((sum, told) => sum + told.length, 0));
    }
    this.cell = cell;
    /** @param {any} article */
    this.hasStrip = ({ price }) => look === "price" && price !== "";
    this.count = 0;
    this.fonts = [false, true].map((isBold) => fontOf([...signs], isBold));
    const [regular, bold] = this.fonts.map(({ widths }) => widths.byteLength);
    const parts = MOST_PARTS * part, measures = articles.length * measure, texts = 4 * longest + 64;
    this.take({ look: own, article, plan, drawing, row, parts, measures, regular, bold, texts });
    this.lendLook(look === "price", dots);
  }

  // Writes an empty label.
  lendCell({ aside, above, width, height, dots }) {
    const { view, at } = this;
    [aside, above, dots].forEach((length, i) => view.setFloat64(at.look + 8 * i, length, true));
    [width, height].forEach((number, i) => view.setUint16(at.look + 40 + 2 * i, number, true));
  }

  // Makes room in the memory of the module for such numbers of bytes.
  take(sizes) {
    const module = Layout.module ??= gs1.another();
    let end = module.input;
    this.at = {};
    for (const [name, bytes] of Object.entries(sizes)) {
      this.at[name] = end;
      end += Math.ceil(bytes / 8) * 8;
    }
    const more = Math.ceil((end - module.calls.memory.buffer.byteLength) / 65536);
    if (more > 0) module.grow(more);
    this.calls = module.calls;
    this.memory = module.calls.memory.buffer;
    this.view = new DataView(this.memory);
  }

  // Writes the place and the number of items.
  point(place, at, count) {
    this.view.setBigUint64(place, BigInt(at), true);
    this.view.setBigUint64(place + 8, BigInt(count), true);
  }

  lendLook(isPriceFirst, dots) {
    const { cell, view, at } = this;
    this.lendCell(cell);
    [dots / cell.dots, 0].forEach((length, i) => view.setFloat64(at.look + 24 + 8 * i, length, true));
    view.setUint32(at.look + 44, Number(isPriceFirst), true);
    for (const [i, name] of ["regular", "bold"].entries()) {
      const { widths, other, up, down, digits } = this.fonts[i], place = at.look + 48 + SIZES.font * i;
      new Uint16Array(this.memory, at[name], widths.length).set(widths);
      this.point(place, at[name], widths.length);
      [other, up, down, digits].forEach((length, k) => view.setUint16(place + 16 + 2 * k, length, true));
    }
  }

  lend(article) {
    const { view, at, memory } = this, told = fieldsOf(article);
    const { written } = new TextEncoder().encodeInto(article.text, new Uint8Array(memory, at.texts));
    let end = at.texts + Math.ceil(written / 8) * 8;
    this.point(at.article, at.texts, written);
    for (let field = 0; field < 8; field++) {
      const codes = Array.from(told[field], (sign) => sign.codePointAt(0));
      new Uint32Array(memory, end, codes.length).set(codes);
      this.point(at.article + SIZES.letters * (1 + field), end, codes.length);
      end += 4 * codes.length;
    }
    view.setUint32(at.article + 144, Gs1.kinds.indexOf(article.kind), true);
    view.setUint32(at.article + 148, 0, true);
  }

  // Takes an article's measure for the plan, or returns why it has no label.
  measure(article) {
    this.lend(article);
    const { number } = this.measured(this.cell);
    if (number === 0) this.count++;
    return this.faultOf(number, article);
  }

  // Measures the article that is lent on a label: the number of its error, or how wide its symbol with its quiet zones
  // is. The measure is put behind those of others.
  measured(cell) {
    const { at, view, count } = this, place = at.measures + SIZES.measure * count;
    this.lendCell(cell);
    const number = this.calls.gs1_c_measure(BigInt(at.look), BigInt(at.article), core.terms, BigInt(place));
    this.lendCell(this.cell);
    return { number, wide: number ? 0 : view.getUint32(place, true) / cell.dots };
  }

  // What to do if no module has room.
  tooWide(kind) {
    const { cell, cell: { dots } } = this, finest = Math.max(...Object.keys(DOTS_IN_MM).map(Number)),
      fine = Object.fromEntries(Object.entries(cell).map(([name, it]) => [name, it * DOTS_IN_MM[finest] / dots]));
    let wide = Math.ceil(cell.width / dots), needed = 0;
    while (wide < 1000 && !(needed = this.measured({ ...cell, width: Math.ceil(wide * dots) }).wide)) wide++;
    const stocks = Object.entries(STOCKS).map(([name, text]) => ({ name, ...stockOf(text) }))
      .filter((stock) => stock.width >= wide && this.measured(cellOf(stock, dots)).wide)
      .sort((a, b) => a.width - b.width || (a.name < b.name ? -1 : 1));
    const named = stocks.length ? ` (${stocks.slice(0, 3).map(({ name }) => name).join(", ")})` : "";
    /** @type {Told[]} */
    const ways = [{ key: "wider", values: [wide, named] }];
    if (this.measured(fine).wide) ways.push({ key: "finer", values: [finest] });
    if (kind === "gs1128") ways.push({ key: "fewer" });
    return { key: "tooWide", values: [length1(cell.width / dots), length1(needed), ways] };
  }

  // Notes what the labels of all articles have in common, so that their sheets look even.
  plan() {
    this.calls.gs1_c_plan(BigInt(this.at.look), BigInt(this.at.measures), BigInt(this.count), BigInt(this.at.plan));
  }

  // The label of an article: boxes, texts and warnings; or its error.
  draw(article) {
    const { view, at } = this;
    this.lend(article);
    const asked = [at.look, at.plan, at.article].map(BigInt);
    const lent = [at.row, SIZES.row, at.parts, MOST_PARTS, at.drawing].map(BigInt);
    const fault = this.faultOf(this.calls.gs1_c_draw(...asked, core.terms, ...lent), article);
    if (fault) return { fault };
    const drawing = { boxes: [], texts: [], warnings: [], item: article }, count = view.getUint32(at.drawing, true);
    const words = new Uint16Array(this.memory, at.parts, count * SIZES.part / 2);
    const told = [...fieldsOf(article), symbolOf(article).digits].map((text) => Array.from(text));
    for (let i = 0; i < words.length; i += SIZES.part / 2) {
      const box = [words[i], words[i + 1], words[i + 2], words[i + 3]];
      if ((words[i + 7] & 255) === 2) this.putText(drawing, told[words[i + 4]], box, at.parts + 2 * i);
      else drawing.boxes.push(box);
    }
    this.warn(drawing, article);
    return drawing;
  }

  // Puts the letters of a part into a drawing, with a warning if their text goes on.
  putText({ boxes, texts, warnings }, told, box, at) {
    const [field, from, count] = [8, 10, 12].map((i) => this.view.getUint16(at + i, true));
    const [size, start, base, cell] = [16, 20, 24, 28].map((i) => this.view.getUint32(at + i, true) / 64);
    const flags = this.view.getUint8(at + 15), isCut = flags & 1, isBold = (flags & 2) > 0;
    const signs = told.slice(from, from + count), text = signs.join("") + (isCut ? "…" : "");
    if (isCut) {
      const begin = field === 7 ? told.lastIndexOf("\n", from - 1) + 1 : 0;
      const front = told.slice(begin, from + count).join("").replace(/\s+/g, " ");
      warnings.push({ key: "cut", values: [`${front}…`], rank: 0 });
    }
    const isStruck = (flags & 4) > 0;
    if (isStruck) boxes.push([box[0], box[1] + (box[3] >> 1), box[2], Math.max(1, Math.floor(box[3] / 14))]);
    // Letters such as j begin left of their origin.
    texts.push({ text, isBold, isStruck, size, left: start + size * inkOf(signs[0], isBold).left, base, cell, box });
  }

  // Warns if the standard asks for other modules or bars than these.
  warn({ warnings }, { kind, ...article }) {
    const { view, at: { drawing }, cell: { dots } } = this, length = (at) => view.getUint16(drawing + at, true) / dots;
    const nominal = view.getUint32(drawing + 4, true) / 64 / dots, high = length(14) - length(12), size = length(18);
    const warn = (key, rank, ...values) => warnings.push({ key, values, rank });
    if (high < (this.hasStrip(article) ? STRIP_MM : nominal) - 0.1)
      warn("low", high / nominal, length1(high), length1(nominal));
    if (isOfCase(kind) && size < LOGISTIC_MM - 1e-6) warn("narrow", size, length3(size), length3(LOGISTIC_MM));
  }

  // What is wrong, by the number of the error; nothing for 0.
  faultOf(number, article) {
    if (!number) return null;
    const { refused } = symbolOf(article);
    if (refused) return { ...remedyOf(article.text, refused), refused };
    if (number === 27) return this.tooWide(article.kind);
    if (number === 52) return { key: "noModule", values: [0, 2].map((i) => length3(modulesOf(article.kind)[i])) };
    return { key: SAID_OF_LABELS[number] ?? "misdrawn", values: this.hasStrip(article) ? [{ key: "largeBars" }] : [] };
  }
}

// ---- lengths

// Lengths in mm, as people read them.
const length1 = (value) => ({ number: value, places: 1 }), length3 = (value) => ({ number: value, places: 3 });

const isOfCase = (kind) => ["gs1128", "itf14"].includes(kind);

// The least, the wanted and the largest width of a module, in mm.
const modulesOf = (kind) => SHOP.modules[isOfCase(kind) ? "cases" : "retail"];

// The dots that a module may have.
/** @param {number[]} range @param {number} dots */
function modulesAllowed([least, , most], dots) {
  const first = Math.ceil(least * dots - 1e-6);
  return Array.from({ length: Math.max(0, Math.floor(most * dots + 1e-6) - first + 1) }, (_, i) => first + i);
}

// ---- pieces

// Where a text in one piece stands by its middle, and its width; or each of its characters.
function piecesOf({ text, size, isBold, left, cell, box }) {
  const wideOf = (signs) => widthOfText(signs, isBold) * size;
  const placed = (sign, i) => ({ text: sign, middle: left + (i + 0.5) * cell, wide: wideOf(sign) });
  if (cell) return Array.from(text, placed);
  const wide = Math.min(wideOf(text), box[0] + box[2] - left);
  return [{ text, middle: left + wide / 2, wide }];
}
