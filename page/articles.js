// @ts-check
// The articles of a list: what is printed on a label, and as which kind of barcode. As
// bindings/python/noriladle/labels/_articles.py.
"use strict";

// The kind of barcode for a GTIN of this many digits, and for a text with this identifier of a scanner, if the list
// names no kind.
const KINDS_OF_LENGTH = { 8: "ean8", 12: "upca", 13: "ean13", 14: "itf14" };
const KINDS_OF_IDENTIFIER = { "]E4": "ean8", "]I1": "itf14", "]C1": "gs1128", "]e0": "gs1128", "]d2": "gs1128",
  "]Q3": "gs1128", "]J1": "gs1128" };

// The most labels of a line.
const MOST_COPIES = 1000;

// A cell in composed characters, with each white space as one blank. Its line ends stay.
const plainText = (cell) => stripped(cell.normalize("NFC").replaceAll("\r", "\n")
  .replace(/(?:[^\S\n\u00a0\ufeff]|[\x1c-\x1f\x85])+/g, " ").replace(/[^\S\ufeff]*\n[^\S\ufeff]*/g, "\n"));
const plainLine = (cell) => plainText(cell).replaceAll("\n", " ");

// A text as an error names it.
function shortText(text) {
  const plain = text.replace(/[\p{C}\p{Z}]/gu, (sign) => sign === " " ? sign : sign === "\x1d" ? "^" : "?");
  const signs = Array.from(plain);
  return signs.length <= 60 ? plain : `${signs.slice(0, 59).join("")}…`;
}

// What a person reads about a line: its text, the module's error, and the fault.
const faultOfText = (text, fault, refused = "") => ({ fault: { ...fault, refused, typed: text } });

// The articles of a table, in the order of their lines. A faulty line has its error instead.
function articlesOf(table, { isFree, units = [] } = NOTHING_SAID) {
  const prices = table.records.map((record) => plainLine(cellIn(table, record, "price")));
  const amounts = new Amounts(prices, table.heading, isFree), widths = widthsOf(table, amounts.point);
  const numbers = new Map();
  const articles = table.records.map((record) => articleOf(table, record, { amounts, widths, numbers, units }));
  for (const record of table.lost) noteDoubt(numbers, record);
  const wrong = table.faults.map((fault) => ({ ...fault, typed: "", name: "" }));
  return [...withoutDoubles(articles, numbers, wrong), ...wrong].sort((a, b) => a.line - b.line);
}

// Notes what a line says of a number: as which kind of barcode, with what name and price. Without a kind nobody knows.
function noteNumber(numbers, number, noted) {
  if (!numbers.has(number)) numbers.set(number, []);
  numbers.get(number).push(noted);
}

// Notes all numbers of a record that cannot be read, since it may be of the same article.
function noteDoubt(numbers, { line, cells }) {
  for (const cell of cells.filter(looksRight)) {
    const gtin = gtinOf(readText(cell).elements ?? []);
    if (gtin) noteNumber(numbers, gtin, { line, said: `\0${line}` });
  }
}

// Articles, with an error for each line whose number has another name or price in another line as the same kind, unless
// it has one already.
function withoutDoubles(articles, numbers, wrong) {
  const known = new Set([...articles.filter(({ fault }) => fault), ...wrong].map(({ line }) => line));
  const doubles = new Map([...numbers.values()].flatMap(doublesOf));
  return articles.map((article) => article.fault || known.has(article.line) || !doubles.has(article.line) ? article
    : { ...article, fault: { key: "sameNumber", values: [String(doubles.get(article.line))] } });
}

// The lines that say different things of a number, each with another such line.
function doublesOf(its) {
  const kinds = new Set(its.map(({ kind }) => kind).filter(Boolean));
  return [...kinds].flatMap((kind) => {
    const alike = its.filter((it) => !it.kind || it.kind === kind), [first, second] = alike;
    const isClear = new Set(alike.map(({ said }) => said)).size < 2;
    return isClear ? [] : alike.map((it) => [it.line, it === first ? second.line : first.line]);
  });
}

// What the cells beside the prices say: whether a decimal comma split all of them, and whether a missing cell may make
// another number the price.
function widthsOf({ places, delimiter, records }, point) {
  const [place] = places.price ?? [];
  if (place === undefined) return { place: Infinity, areSplit: false, isRisky: false, isPoint: false };
  const pairs = records.map(({ cells }) => cells.slice(place, place + 2)).filter(([cell = ""]) => trimmed(cell));
  const haveDecimals = pairs.some(([price]) => hasDecimals(price));
  const isNumber = (cell) => hasDecimals(cell) || !haveDecimals && /[0-9]/.test(cell);
  const areSplit = delimiter === "," && pairs.length > 0 && pairs.every((pair) => pair.length === 2 && isHalf(...pair));
  return { place, areSplit, isRisky: pairs.some(([, behind]) => behind !== undefined && isNumber(behind)),
    isPoint: delimiter === point };
}

// What is wrong with the cells of a record: some belong to no column, a decimal comma split a price, or one is missing.
function widthFault({ delimiter, width, shortest }, { cells }, { place, areSplit, isRisky, isPoint }) {
  const beyond = cells.slice(width).find(trimmed), [price, behind] = cells.slice(place, place + 2);
  const isWide = cells.length > width;
  if (behind !== undefined && delimiter === "," && (areSplit || isWide) && isHalf(price, behind)) {
    return { key: "splitPrice", values: [price, behind].map((cell) => shortText(plainLine(cell))) };
  }
  if (isPoint && /^[0-9]{1,7}$/.test(trimmed(price ?? ""))) return { key: "wholePrice", values: [trimmed(price)] };
  if (beyond !== undefined) return { key: "beyond", values: [shortText(plainLine(beyond)), cells.length, width] };
  const isMissing = cells.length < shortest && (isRisky || place !== Infinity && cells.length <= place);
  return isMissing ? { key: "missingCell", values: [cells.length, shortest] } : null;
}

const isHalf = (price, behind) => /^[^0-9.,]*[0-9]{1,7}$/.test(trimmed(price))
  && /^[0-9]{2}[^0-9.,]*$/.test(trimmed(behind));
const hasDecimals = (cell) => /[0-9][.,][0-9]{1,2}([^0-9]|$)/.test(cell);

function articleOf(table, record, { amounts, widths, numbers, units }) {
  const cell = (meaning) => cellIn(table, record, meaning), symbol = symbolOfRecord(cell);
  const article = { line: record.line, from: record.from, typed: symbol.typed, name: plainText(cell("name")) };
  if (symbol.fault) {
    noteDoubt(numbers, record);
    return { ...article, ...symbol };
  }
  const price = plainLine(cell("price")), copies = trimmed(cell("copies"));
  noteNumber(numbers, symbol.text,
    { line: record.line, kind: symbol.kind, said: JSON.stringify([article.name, price]) });
  const wrong = widthFault(table, record, widths) ?? nameFault(article.name) ?? copiesFault(copies);
  if (wrong) return { ...article, fault: wrong };
  const printed = price ? amounts.printed(price) : { price };
  const lines = (table.places.line ?? []).map((place) => plainLine(record.cells[place] ?? "")).filter(Boolean);
  if (printed.fault) return { ...article, ...printed };
  const shown = FIELDS.map((meaning) => {
    const text = plainLine(cell(meaning)), [place] = table.places[meaning] ?? [];
    return text ? fieldOf(meaning, text, table.look.nameOf(place), printed.price, amounts) : { price: "" };
  }), content = plainLine(cell("content"));
  if (units.length && printed.price && content && shown[1].price === "" && !shown.some(({ fault }) => fault)) {
    const unit = UNIT.test(content) ? "" : table.look.nameOf(table.places.content[0]).match(UNIT)?.[0] ?? "";
    shown[1] = amounts.ofUnit(printed.price, unit ? `${content} ${unit}` : content, units);
  }
  const doubt = shown.find(({ fault }) => fault);
  return { ...article,
    ...(doubt ?? { ...symbol, ...printed, fields: shown.map((it) => it.price), lines, copies: Number(copies || 1) }) };
}

// A field of a label as it shows it: the cell, behind the heading of its column if that says what it is; or why nobody
// can say what it means.
function fieldOf(meaning, cell, caption, price, amounts) {
  const withCaption = (text) => ({ price: trimmed(text && `${caption} ${text}`) }),
    fault = (key) => ({ fault: { key, values: [shortText(cell)] } });
  if (meaning === "batch") return withCaption(cell);
  if (meaning === "best-before") return /[0-9].*[^0-9]|[^0-9].*[0-9]/.test(cell) ? withCaption(cell) : fault("noDay");
  if (meaning === "unit-price" && cell.includes("=") && UNIT.test(cell)) return { price: cell };
  const amount = amounts.above(cell);
  if (!amount.price) return amount;
  if (meaning === "deposit") return withCaption(amount.price);
  if (meaning === "old-price") return isAbove(amount.price, price) ? amount : fault("oldPrice");
  const unit = caption.match(UNIT)?.[0];
  return UNIT.test(amount.price) ? amount : unit ? { price: `${amount.price}/${trimmed(unit)}` } : fault("noUnit");
}

// What is typed as the number of a record, and its symbol; or why there is none.
/** @returns {any} */
function symbolOfRecord(cell) {
  const gtin = stripped(cell("gtin")), elements = stripped(cell("gs1")), typed = gtin || elements;
  if (gtin && elements) return { typed, fault: { key: "twoNumbers" } };
  if (!typed) return { typed, fault: { key: "noNumber" } };
  const text = gtin || inColumn(elements);
  if (!text) return { typed, ...faultOfText(elements, remedyOfColumn(elements), "refused 40 Kind") };
  return { typed, ...symbolTold(text, plainText(cell("kind"))) };
}

const nameFault = (name) => writtenPrice(name)?.point ? { key: "nameIsPrice", values: [shortText(name)] } : null;

const copiesFault = (copies) => copies && !(/^[0-9]{1,4}$/.test(copies) && Number(copies) <= MOST_COPIES)
  ? { key: "copies", values: [shortText(copies), MOST_COPIES] } : null;

// The kind of a text, what is printed and what it says; or why there is none.
function symbolTold(text, named) {
  const short = named.replace(/[^\S\ufeff]|-/g, "").toLowerCase();
  if (short && !Gs1.kinds.includes(short))
    return { fault: { key: "noKind", values: [shortText(named), Gs1.kinds.join(", ")] } };
  // Eight digits may be both. A UPC-E begins with 0.
  const digits = digitsOf(text),
    mark = /^\p{Nd}{8}$/u.test(digits) && { upce: /^[1-9]/.test(digits) ? "" : "]E0", ean8: "]E4" }[short];
  const asked = mark ? mark + digits : text, answer = /** @type {any} */ (readText(asked));
  if (answer.refused) return faultOfText(text, remedyOf(text, answer.refused), answer.refused);
  const says = answer.elements.map(({ ai, value }) => `(${ai})${value}`).join("");
  const isLink = ["]Q1", "]d1"].includes(answer.identifier) || /^http/i.test(text);
  if (isLink) return faultOfText(text, { key: "link", values: [says] });
  const usual = usualKind(asked, answer), kind = short || usual, gtin = gtinOf(answer.elements);
  if (kind === "gs1128") return { kind, text: usual === kind ? answer.text : `01${gtin}`, answer };
  if (!gtin || answer.elements.length > 1) return faultOfText(text, { key: "notAlone" });
  return { kind, text: gtin, answer };
}

// The kind of barcode for a text, if the list names no kind. A scanner sends the eight digits of a UPC-E with the
// identifier of an EAN-13.
function usualKind(text, { identifier }) {
  if (isElements(text) && !identifier) return "gs1128";
  const digits = digitsOf(identifier ? text.slice(3) : text);
  return identifier === "]E0" && digits.length === 8 ? "upce"
    : KINDS_OF_IDENTIFIER[identifier] ?? KINDS_OF_LENGTH[digits.length];
}
