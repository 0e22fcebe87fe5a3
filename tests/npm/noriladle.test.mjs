// Compares the package with the program's answers to the files of the folder GIVEN, and with the values of its README.
import assert from "node:assert/strict";
import fs from "node:fs";
import { createRequire } from "node:module";
import path from "node:path";
import test from "node:test";
import { fileURLToPath } from "node:url";
import { inspect } from "node:util";
import { gzipSync } from "node:zlib";
import { load, Refusal, VERSION } from "noriladle";
import { load as loadTexts } from "noriladle/texts";

const gs1 = await load();
const linesOf = (name) => fs.readFileSync(path.join(process.env.GIVEN, name), "latin1").split("\n").slice(0, -1);

// What is asked, in text, or the line of its refusal.
function told(ask) {
  try {
    return String(ask());
  } catch (error) {
    if (error instanceof Refusal) return error.message;
    throw error;
  }
}

// How many of the lines that are wanted differ.
function differing(records, wanted, answer) {
  assert.equal(records.length, wanted.length);
  return records.filter((record, i) => told(() => answer(record)) !== wanted[i]);
}

const thrown = (ask) => {
  try {
    return ask() && undefined;
  } catch (error) {
    return error;
  }
};

test("the version", () => {
  const { version } = createRequire(import.meta.url)("noriladle/package.json");
  assert.match(VERSION, /^\d+\.\d+\.\d+ \(sources [0-9a-f]{12}\)$/);
  assert.equal(VERSION.split(" ")[0], version);
});

test("the examples of the README", () => {
  assert.equal(gs1.checkDigit("950110153000"), 3);
  assert.equal(gs1.readGtin("9501101530003"), "09501101530003");
  const answer = gs1.readScan("]C13103001250\x1d17261231", 2026), day = { ai: "17", title: "USE BY or EXPIRY", value: "261231", date: "2026-12-31" };
  assert.deepEqual([answer["3103"].number, answer["3103"].unit], ["1.250", "kg"]);
  assert.deepEqual(answer["17"], day);
  assert.equal(gs1.readText("978-3-16-148410-0", 2026).gtinAs(13), "9783161484100");
  assert.equal(answer["01"], undefined);
  assert.deepEqual([...answer], answer.elements);
  assert.deepEqual(gs1.parseElements("10A\x1d17261231", 2026), [{ ai: "10", title: "BATCH/LOT", value: "A" }, day]);
  const error = thrown(() => gs1.parseElements("10AB\x1d17261331", 2026));
  assert.ok(error instanceof Refusal);
  assert.deepEqual([error.message, error.before.map(({ value }) => value), error.ai], ["refused 9 ValueDate 5", ["AB"], "17"]);
  assert.equal(error.remedy, "at 17261331: write YYMMDD, and 00 for the last day of the month: there is no such day or time");
  assert.deepEqual(error.fixes, []);
  assert.deepEqual(thrown(() => gs1.readScan("(10)AB(17)261231", 2026)).fixes, ["^10AB^17261231"]);
  for (let number = 1; number < 45; number++) assert.doesNotMatch(new Refusal(number, "Name").remedy, /^$|[{}`]|undefined/);
  assert.throws(() => gs1.readGtin("9501101530004"), { number: 3, fault: "CheckDigit", before: [], ai: undefined });
});

test("texts as they are printed and typed", () => {
  for (const [text, said] of [
    ["(01)09501101530003 (17)261231\n", "(01)09501101530003(17)261231"], ["[10]A(1)[17]261231", "(10)A(1)(17)261231"], ["10AB^17261231", "(10)AB(17)261231"], ["]C110AB", "(10)AB"],
    ["https://id.gs1.org/01/09501101530003/10/AB", "(01)09501101530003(10)AB"], ["978-3-16-148410-0", "(01)09783161484100"], ["96385074", "(01)00000096385074"],
    ["(310)3001250", "refused 5 UnknownAi 0"], ["(10)A(1)", "(10)A(1)"], ["(310)3 001250", "refused 5 UnknownAi 0"], ["(10)AB 12", "refused 7 ValueCharacter 0"], ["(17)261331", "refused 9 ValueDate 0"], ["9501101530004", "refused 3 CheckDigit"],
    ["00000000", "refused 40 Kind"], ["01234565", "refused 40 Kind"], ["]E3123", "refused 40 Kind"], ["", "refused 1 Length"],
  ]) assert.equal(told(() => gs1.readText(text, 2026).text), said, text);
  assert.equal(gs1.readText("]C110AB", 2026).symbol, "gs1128");
  assert.deepEqual(thrown(() => gs1.readText("9501101530004", 2026)).fixes, ["9501101530003"]);
  for (const text of ["9501101530003", "(10)AB", "]C110AB"]) assert.throws(() => gs1.readText(text, 1900), { number: 42 });
  assert.equal(gs1.readText("(17)510101", 2026)["17"].date, "2051-01-01");
  assert.throws(() => gs1.readText("(235)AB", 2026, { ais: "profile" }), { number: 5 });
  assert.throws(() => gs1.readText(9501101530003, 2026), TypeError);
});

test("values as data", () => {
  const said = (ai, value) => { const [{ ai: _, title, value: same, ...others }] = gs1.parseElements(ai + value, 2026); return [title, same === value, others]; };
  for (const [ai, value, title, others] of [
    ["3932", "978000195", "PRICE", { number: "1.95", currency: "EUR" }], ["3922", "7", "PRICE", { number: "0.07" }], ["4331", "001850-", "MAX TEMP C", { number: "-18.50", unit: "°C" }],
    ["4330", "000000-", "MAX TEMP F", { number: "0.00", unit: "°F" }], ["3941", "0125", "PRCNT OFF", { number: "12.5", unit: "%" }], ["423", "276528", "COUNTRY - INITIAL PROCESS", { countries: ["DE", "NL"] }],
    ["4309", "05620000003500000000", "SHIP TO GEO", { place: { latitude: "-33.8000000", longitude: "-10.0000000" } }],
    ["7007", "261231270200", "HARVEST DATE", undefined], ["7007", "261231270131", "HARVEST DATE", { date: "2026-12-31", until: "2027-01-31" }],
    ["7003", "2612312359", "EXPIRY TIME", { date: "2026-12-31", time: "23:59:00" }], ["3370", "001250", "KG PER m²", { number: "1250", unit: "kg/m²" }], ["99", "x", "INTERNAL", {}],
    ["37", "0012", "COUNT", { number: "12" }], ["30", "0", "VAR. COUNT", { number: "0" }],
  ]) {
    if (others) assert.deepEqual(said(ai, value), [title, true, others]);
    else assert.throws(() => said(ai, value), { number: 9 });
  }
  assert.equal(JSON.stringify(gs1.readScan("9501101530003", 2026)), '{"identifier":null,"gtin":"09501101530003","elements":[{"ai":"01","title":"GTIN","value":"09501101530003"}]}');
  assert.equal(String(gs1.readScan("9501101530003", 2026)), "- (01)09501101530003");
});

test("an answer is a value", () => {
  const answer = gs1.readScan("]d210AB\x1d17261231\x1d0109501101530003", 2026);
  // The next call writes into the same memory.
  gs1.readScan("]E09501101530003", 2026);
  assert.deepEqual([answer.identifier, answer.symbol, answer.gtin, answer.text], ["]d2", "datamatrix", "09501101530003", "(10)AB(17)261231(01)09501101530003"]);
  assert.deepEqual(answer.elements.map(({ ai, value, date }) => [ai, value, date]), [["10", "AB", undefined], ["17", "261231", "2026-12-31"], ["01", "09501101530003", undefined]]);
  assert.ok(Object.isFrozen(answer.elements[0]) && answer.elements === answer.elements && answer["17"] === answer.elements[1]);
  assert.deepEqual({ ...answer }, { identifier: "]d2", symbol: "datamatrix", elements: answer.elements });
  assert.deepEqual(structuredClone(answer), { ...answer });
  assert.match(inspect(answer), /^Answer \{\s+identifier: '\]d2',\s+symbol: 'datamatrix',\s+elements: \[\s+\{ ai: '10'/);
});

test("the symbol and the GTIN", () => {
  for (const [text, symbol, gtin] of [
    ["]E04006381333931", "ean13", "04006381333931"], ["]E0012345678905", "upca", "00012345678905"], ["]E001234565", "upce", "00012345000065"], ["]E496385074", "ean8", "00000096385074"],
    ["]I109501101530003", "itf14", "09501101530003"], ["]C110AB", "gs1128", undefined], ["]e010AB", "databar", undefined], ["]Q310AB", "qr_code", undefined], ["]J110AB", "dotcode", undefined],
    ["9501101530003", undefined, "09501101530003"], ["]C1010950110153000310A^0109501101530010", "gs1128", undefined], ["]C1010950110153000310A^0109501101530003", "gs1128", "09501101530003"],
    ["]C110(01)09501101530003", "gs1128", undefined],
  ]) {
    const answer = gs1.readScan(text, 2026);
    assert.deepEqual([answer.symbol, answer.gtin, answer.gtinAs(14)], [symbol, gtin, gtin], text);
    assert.equal(answer.gtinAs(12), gtin?.startsWith("00") ? gtin.slice(2) : undefined);
    assert.throws(() => answer.gtinAs(11), RangeError);
  }
  const row = (kind, text) => {
    const { quietLeft, quietRight, widths } = gs1.labelSymbol(kind, text, 2026);
    return [quietLeft, ...widths, quietRight];
  };
  for (const [kind, text, symbol = kind] of [["ean13", "4006381333931"], ["ean13", "0012345678905", "upca"], ["upca", "012345678905"], ["upce", "00012345000065"], ["ean8", "96385074"], ["itf14", "09501101530003"],
    ["gs1128", "10AB"]]) assert.equal(gs1.readRow(row(kind, text), 2026).symbol, symbol, kind);
});

test("every Application Identifier, or those of the profile", () => {
  assert.equal(gs1.readScan("]C1235ABC", 2026)["235"].title, "TPX");
  const error = thrown(() => gs1.readScan("]C1^10AB^235ABC", 2026, { ais: "profile" }));
  assert.deepEqual([error.message, error.before.map(({ ai, value }) => ai + value), error.ai], ["refused 5 UnknownAi 5", ["10AB"], "235"]);
  assert.throws(() => gs1.drawLabel("gs1128", "235ABC", { year: 2026, width: 400, height: 3, ais: "profile" }), { number: 5 });
  assert.throws(() => gs1.labelSymbol("gs1128", "235ABC", 2026, { ais: "profile" }), { number: 5 });
  assert.throws(() => gs1.readScan("]C1235ABC", 2026, { ais: "some" }), RangeError);
});

test("texts of scanners and links of elements", () => {
  const answer = gs1.readScan("]C117261231" + "10A/1\x1d" + "0109501101530003", 2026);
  assert.equal(gs1.scanText(answer, "]d2"), "]d21726123110A/1\x1d0109501101530003");
  assert.equal(gs1.link(answer, "https://example.com/", 2026), "https://example.com/01/09501101530003/10/A%2F1?17=261231");
  assert.deepEqual(gs1.readScan(gs1.link(answer), 2026).elements.map(({ ai }) => ai), ["01", "10", "17"]);
  assert.throws(() => gs1.scanText(answer, "]E0"), { number: 40 });
  assert.throws(() => gs1.link([{ ai: "10", value: "A" }]), { number: 40 });
  assert.throws(() => gs1.link(answer, "https://x.de/?a"), { number: 40 });
  assert.throws(() => gs1.link([{ ai: "01", value: "1" }]), { number: 6, place: 0 });
  assert.throws(() => gs1.link(answer, 5), TypeError);
});

test("many texts", () => {
  const told = gs1.readScans(["]C110AB", "]E09501101530004", "10AB\n17", ...Array(300).fill("]C110AB")], 2026);
  assert.deepEqual(told.slice(0, 3).map(String), ["]C1 (10)AB", "Refusal: refused 3 CheckDigit", "Refusal: refused 40 Kind"]);
  assert.ok(told.length === 303 && told[302]["10"].value === "AB" && told[1].remedy && told[1] instanceof Refusal);
  assert.deepEqual(gs1.readGtins(["96385074", new TextEncoder().encode("9501101530003"), "9501101530003\r"]).map(String),
    ["00000096385074", "09501101530003", "Refusal: refused 2 NotDigit 13"]);
});

test("element strings of elements", () => {
  const pairs = [["01", "09501101530003"], ["10", "AB"], ["17", "261231"]];
  assert.equal(gs1.compose(pairs, 2026), "010950110153000310AB\x1d17261231");
  assert.equal(gs1.compose(gs1.parseElements(gs1.compose(pairs, 2026), 2026), 2026), "010950110153000310AB\x1d17261231");
  for (const [wrong, message] of [[["01", "9501101530003"], "refused 6 ValueLength 1"], [["17", "261331"], "refused 9 ValueDate 1"], [["10", "A\x1d21B"], "refused 7 ValueCharacter 1"],
    [["1", "0AB"], "refused 5 UnknownAi 1"], [["", ""], "refused 5 UnknownAi 1"], [["20", "123"], "refused 6 ValueLength 1"], [["09", "1"], "refused 5 UnknownAi 1"]]) {
    assert.equal(thrown(() => gs1.compose([["10", "AB"], wrong], 2026)).message, message, String(wrong));
  }
  assert.throws(() => gs1.compose([["10", "AB"]], 1900), { number: 42 });
});

test("what GTINs identify", () => {
  const kinds = ["9501101530003", "02012345678903", "9812345678902", "9770317847001", "9790260000438", "9783161484100", "00000000", new TextEncoder().encode("96385074")].map((it) => gs1.gtinUse(it));
  assert.deepEqual(kinds, ["trade_item", "in_store", "coupon", "issn", "ismn", "isbn", "zeros", "trade_item"]);
  assert.throws(() => gs1.gtinUse("9501101530004"), { number: 3, fixes: ["9501101530003"] });
});

test("what is asked of elements that stand together", () => {
  const texts = (elements) => gs1.conflicts(elements).map(({ text }) => text);
  assert.deepEqual(texts([{ ai: "02", value: "1" }]), ["02 needs 37"]);
  assert.deepEqual(texts([{ ai: "01", value: "1" }, { ai: "37", value: "1" }]), ["01 excludes 37", "37 needs 02 or 8026"]);
  assert.deepEqual(texts([{ ai: "422", value: "281" }, { ai: "3932", value: "000195" }, { ai: "401", value: "AB" }, { ai: "7030", value: "999A" }, { ai: "01", value: "1" }, { ai: "30", value: "1" }]),
    ["422: 281 is no country", "3932: 000 is no currency", "401: AB is no GS1 Company Prefix"]);
  assert.deepEqual(texts([{ ai: "01", value: "02012345678903" }, { ai: "01", value: "09783161484100" }])[0], "01: 02012345678903 is no number of a trade item");
  const answer = gs1.readScan("]C1172612310109501101530003" + "17271231", 2026), [found, ...others] = gs1.conflicts(answer);
  assert.deepEqual([found.kind, found.element, found.other, found.code, found.text, others], ["differs", answer.elements[2], answer.elements[0], "", "17: 261231 and 271231 differ", []]);
  assert.deepEqual([gs1.conflicts([]), gs1.conflicts(gs1.readScan("9501101530003", 2026))], [[], []]);
  for (const long of [Array(49).fill({ ai: "10", value: "A" }), Array(2).fill({ ai: "10", value: "A".repeat(95) })]) assert.throws(() => gs1.conflicts(long), { number: 11 });
  for (const wrong of [5, undefined, "01", [{ ai: "01" }]]) assert.throws(() => gs1.conflicts(wrong), TypeError);
  assert.throws(() => gs1.conflicts([{ ai: "01", value: "1" }, { ai: "10", value: "é" }]), { number: 7, place: 1 });
});

test("the symbol of a label in modules", () => {
  const { text, quietLeft, quietRight, widths } = gs1.labelSymbol("upce", "00012345000065", 2026);
  assert.deepEqual([text, quietLeft, quietRight, widths.length, widths.reduce((sum, width) => sum + width)], ["01234565", 9, 7, 33, 51]);
  assert.equal(gs1.labelSymbol("gs1128", "10AB\x1d17261231", 2026).text, "(10)AB(17)261231");
  assert.throws(() => gs1.labelSymbol("ean13", "9501101530004", 2026), { number: 3 });
  assert.throws(() => gs1.labelSymbol("qr", "9501101530003", 2026), { number: 40 });
});

test("a GTIN is no element string unless it has a mark", () => {
  for (const text of ["9501101530003", new TextEncoder().encode("96385074")]) {
    const error = thrown(() => gs1.labelSymbol("gs1128", text, 2026));
    assert.deepEqual([error.number, error.fault, error.fixes.length], [40, "Kind", 2]);
    assert.throws(() => gs1.drawLabel("gs1128", text, { year: 2026, width: 400, height: 60 }), { number: 40 });
  }
  assert.equal(thrown(() => gs1.labelSymbol("gs1128", "9501101530003", 2026)).remedy,
    "is this a GTIN, or are these elements? write 0109501101530003 or ^9501101530003");
  for (const text of ["^9501101530003", "\x1d9501101530003"]) assert.equal(gs1.labelSymbol("gs1128", text, 2026).text, "(95)01101530003");
  assert.equal(gs1.labelSymbol("gs1128", "10AB^17261231", 2026).text, "(10)AB(17)261231");
});

test("arguments of another type", () => {
  const pixels = { width: 2, height: 2, data: new Uint8ClampedArray(16) };
  for (const [ask, message] of [
    [() => gs1.readGtin(9501101530003), "a text is a string or a Uint8Array, and not number"], [() => gs1.readScan(null, 2026), "a text is a string or a Uint8Array, and not null"],
    [() => gs1.checkDigit(), "a text is a string or a Uint8Array, and not undefined"], [() => gs1.parseElements(["10AB"], 2026), "a text is a string or a Uint8Array, and not Array"],
    [() => gs1.readScan("]C110AB"), "the year is a number, such as 2026, and not undefined"], [() => gs1.readScan("]C110AB", "2026"), "the year is a number, such as 2026, and not string"],
    [() => gs1.readRow(5, 2026), "widths are an array of numbers, and not number"], [() => gs1.find("1 2 3", 2026), "widths are an array of numbers, and not string"],
    [() => gs1.compose([["10", 5]]), "an element has an AI and a value, both strings"], [() => gs1.compose([null]), "an element has an AI and a value, both strings"],
    [() => gs1.drawLabel("ean13", "9501101530003"), "the year is a number, such as 2026, and not undefined"], [() => gs1.labelSymbol("ean13", 5, 2026), "a text is a string or a Uint8Array, and not number"],
    [() => gs1.readPicture(undefined, 2026), "a picture has a width, a height, and its data in four bytes a pixel"],
  ]) assert.throws(ask, { name: "TypeError", message });
  for (const wrong of [{ width: 3 }, { height: -2 }, { data: new Uint8Array(15) }]) assert.throws(() => gs1.readPicture({ ...pixels, ...wrong }, 2026), RangeError);
  assert.equal(gs1.readPicture({ width: 2, height: 2, data: new Uint8Array(new ArrayBuffer(17), 1, 16) }, 2026).length, 0);
});

test("the entry for texts answers as the whole package", async () => {
  const texts = await loadTexts();
  const said = (ask) => {
    try {
      const { identifier, symbol, gtin, text, elements } = ask();
      return JSON.stringify([identifier, symbol, gtin, text, elements.map(({ ai, value, date, until, time }) => ({ ai, value, date, until, time }))]);
    } catch (error) {
      return error.message;
    }
  };
  const asked = linesOf("texts").map((record) => record.slice(record.indexOf(",") + 1)).flatMap((text) => [text, `]C1${text}`, `^${text}`]);
  let read = 0;
  for (const text of [...asked, "]E001234565", "https://id.gs1.org/01/09501101530003?17=261231", "]C17007261231270131^70032612312359", "]E39501101530003"]) {
    for (const options of [undefined, { ais: "profile" }]) {
      const wanted = said(() => gs1.readScan(text, 2026, options));
      assert.equal(said(() => texts.readScan(text, 2026, options)), wanted, text);
      read += !wanted.startsWith("refused");
    }
  }
  assert.ok(read > 1000, String(read));
  assert.equal(texts.readGtin("96385074"), "00000096385074");
  assert.deepEqual(texts.parseElements("10AB\x1d17261231", 2026), [{ ai: "10", value: "AB" }, { ai: "17", value: "261231", date: "2026-12-31" }]);
  assert.throws(() => texts.readScan("]C110AB", 1900), { number: 42 });
  assert.throws(() => texts.readScan(5, 2026), TypeError);
});

test("the entry for texts is small", () => {
  const folder = path.dirname(fileURLToPath(import.meta.resolve("noriladle/texts")));
  const size = ["texts.js", "texts.module.js"].reduce((sum, name) => sum + gzipSync(fs.readFileSync(path.join(folder, name)), { level: 9 }).length, 0);
  assert.ok(size <= 22_000, `${size} bytes`);
});

test("the sizes that the README names", () => {
  const folder = path.dirname(fileURLToPath(import.meta.resolve("noriladle"))), told = fs.readFileSync(path.join(folder, "README.md"), "utf8");
  for (const [, name, kilobytes] of told.matchAll(/^\| `noriladle(\/texts)?` \| [^|]*\| (\d+) kB \|$/gm)) {
    const files = name ? ["texts.js", "texts.module.js"] : ["index.js", "advice.js", "elements.js", "module.js", "page.js", "remedies.js"];
    const size = files.reduce((sum, file) => sum + gzipSync(fs.readFileSync(path.join(folder, file)), { level: 9 }).length, 0);
    assert.ok(Math.abs(size / 1000 - kilobytes) < 1 + kilobytes / 50, `${files[0]}: ${size} bytes, not ${kilobytes} kB`);
  }
  assert.equal(told.match(/^\| `noriladle/gm).length, 2);
});

test("a worker answers a reader", async () => {
  const [{ answer }, { Reader }] = [await import("noriladle/worker"), await import("noriladle/reader")];
  const worker = new EventTarget(), ended = [];
  worker.postMessage = async (message) => {
    const data = structuredClone(await answer(structuredClone(message)));
    worker.dispatchEvent(Object.assign(new Event("message"), { data }));
  };
  worker.terminate = () => ended.push(1);
  const reader = new Reader(worker);
  assert.equal((await reader.readScan("]C110AB^17261231", 2026)).text, "(10)AB(17)261231");
  await assert.rejects(reader.readScan("]E39501101530003", 2026), { number: 40, fault: "Kind", message: "refused 40 Kind", remedy: /switch supplementals off/ });
  await assert.rejects(reader.readScan(5, 2026), /a text is a string/);
  const { symbols, dropped, reason } = await reader.readPicture({ width: 2, height: 2, data: new Uint8ClampedArray(16) }, 2026);
  assert.deepEqual([symbols, dropped, reason], [[], 0, undefined]);
  const waiting = reader.readScan("]C110AB", 2026);
  reader.close();
  await assert.rejects(waiting, /closed/);
  assert.equal(ended.length, 1);
});

test("what no call can take", () => {
  assert.throws(() => gs1.readScan("]E09501101530003", 1900), { number: 42, fault: "Words" });
  assert.throws(() => gs1.readScan("]E09501101530003", NaN), { number: 42 });
  assert.throws(() => gs1.readRow([70000, 1, 1], 2026), { number: 17, fault: "TooWide" });
  assert.throws(() => gs1.readRow([70000, 1, 1], 1900), { number: 42 });
  assert.throws(() => gs1.readRow([70000, 1], 2026), { number: 18, fault: "BadRuns" });
  assert.throws(() => gs1.readRow([1.5, 1, 1], 2026), RangeError);
  assert.throws(() => gs1.readRow([-1, 1, 1], 2026), RangeError);
  assert.throws(() => gs1.readRow(new Uint16Array(131_073), 2026), RangeError);
  assert.throws(() => gs1.readGtin("1".repeat(262_145)), RangeError);
  assert.throws(() => gs1.drawLabel("qr", "9501101530003", { year: 2026, width: 113, height: 3 }), { number: 40, fault: "Kind" });
});

test("20,000 rows as the program answers them", () => {
  const rows = linesOf("rows");
  assert.equal(rows.length, 20_000);
  for (const ais of ["profile", "all"]) {
    const wrong = differing(rows, linesOf(`rows.${ais}`), (row) => gs1.readRow(row.slice(row.indexOf(",") + 1).split(" ").map(Number), 2026, { ais }));
    assert.deepEqual(wrong.slice(0, 5), [], ais);
  }
});

test("2,000 numbers and texts as the program answers them", () => {
  const asks = {
    gtin: (text) => `gtin ${gs1.readGtin(text)}`,
    digit: (text) => `digit ${gs1.checkDigit(text)}`,
    text: (text, options) => `hri ${gs1.parseElements(text.replaceAll("^", "\x1d"), 2026, options).map(({ ai, value }) => `(${ai})${value}`).join("")}`,
  };
  for (const options of [{ ais: "profile" }, {}]) {
    const wanted = linesOf(`texts.${options.ais ?? "all"}`), kept = { records: [], wanted: [] };
    linesOf("texts").forEach((record, i) => {
      if (!(record.slice(0, record.indexOf(",")) in asks)) return;
      kept.records.push(record);
      kept.wanted.push(wanted[i]);
    });
    assert.ok(kept.records.length > 1000);
    const wrong = differing(kept.records, kept.wanted, (record) => {
      const at = record.indexOf(","), field = record.slice(at + 1);
      return asks[record.slice(0, at)](field.startsWith('"') ? field.slice(1, -1).replaceAll('""', '"') : field, options);
    });
    assert.deepEqual(wrong.slice(0, 5), [], options.ais);
  }
});

test("two symbols in a row", () => {
  const [one] = linesOf("rows").map((row) => row.slice(row.indexOf(",") + 1).split(" ").map(Number)).filter((row) => told(() => gs1.readRow(row, 2026)).startsWith("]E0"));
  const [first, second] = gs1.find([...one.slice(0, -1), one.at(-1) + one[0], ...one.slice(1)], 2026);
  assert.equal(String(first.answer), String(gs1.readRow(one, 2026)));
  assert.deepEqual([first.first, first.count, second.first], [0, one.length, one.length - 1]);
  assert.equal(String(second.answer), String(first.answer));
});

test("a label is drawn, and read as a picture, turned too", () => {
  const [width, height] = [600, 60], stride = width / 8;
  const image = gs1.drawLabel("gs1128", "10A(01)\x1d17261231", { year: 2026, module: 2, width, height });
  const raster = image.subarray(image.length - stride * height);
  const upright = new Uint8ClampedArray(width * height * 4).fill(255), turned = upright.slice();
  for (let y = 0; y < height; y++) {
    for (let x = 0; x < width; x++) {
      if (!(raster[y * stride + (x >> 3)] >> (7 - (x & 7)) & 1)) continue;
      upright.fill(0, 4 * (y * width + x), 4 * (y * width + x) + 3);
      turned.fill(0, 4 * (x * height + y), 4 * (x * height + y) + 3);
    }
  }
  for (const picture of [{ width, height, data: upright }, { width: height, height: width, data: turned }]) {
    const [symbol, ...others] = gs1.readPicture(picture, 2026);
    assert.equal(others.length, 0);
    assert.equal(symbol.answer.identifier, "]C1");
    assert.deepEqual(symbol.answer.elements.map(({ ai, value }) => ai + value), ["10A(01)", "17261231"]);
    assert.equal(symbol.corners.length, 4);
  }
  assert.equal(gs1.readPicture({ width, height, data: upright }, 2026, { level: 99, ais: "profile" }).length, 1);
  assert.equal(gs1.readPicture({ width: height, height: width, data: turned }, 2026, { level: 99 }).length, 0);
  assert.throws(() => gs1.readPicture({ width, height, data: upright }, 2026, { level: 256 }), RangeError);
  const read = gs1.readPicture({ width, height, data: upright }, 2026), part = gs1.readPicture({ width: 200, height, data: upright.slice(0, 800 * height) }, 2026, { level: 99 });
  assert.deepEqual([read.dropped, read.reason, part.length, part.dropped], [0, undefined, 0, 0]);
  assert.ok(part.reason instanceof Refusal && part.reason.number > 18 && part.reason.remedy.length > 9, String(part.reason));
  assert.equal(gs1.readPicture({ width: 8, height: 8, data: new Uint8ClampedArray(256).fill(255) }, 2026).reason, undefined);
  assert.throws(() => gs1.readPicture({ width, height, data: upright }, 1900), { number: 42 });
});
