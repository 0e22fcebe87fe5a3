// @ts-check
// The task "check": answers texts from a box, from a scanner or from a list, line by line.
"use strict";

const CHECK_EXAMPLES = {
  box: "(01)09501101530003(17)261231(10)LOT7(3103)001250", scanner: "]C1010950110153000317261231^10AB12",
  list: "4012345010008\n4012345010375\n978-3-16-148410-0\n12345000065\n(01)09501101530003(15)261301\n"
    + "]E04012345010374\nhttps://id.gs1.org/01/09501101530003/10/LOT7?17=261231",
};

// The kinds of symbols by the identifiers of scanners (ISO/IEC 15424).
const SCANNED = { "]E0": "EAN/UPC", "]E4": "EAN-8", "]C1": "GS1-128", "]I1": "ITF-14", "]e0": "GS1 DataBar",
  "]d2": "GS1 DataMatrix", "]Q3": "GS1 QR", "]J1": "GS1 DotCode",
  "]Q1": "QR", "]d1": "DataMatrix" };

const MOST_OPEN = 12, MOST_ANSWERS = 500;

// A scanner types at least this many characters, each within this many milliseconds on average.
const LEAST_SCANNED = 7, QUICK = 35;

// The answers to the lines; what was typed since the last line end, and since when.
let answers = [], typing = { count: 0, since: 0 };

// The kind of a line and what it says; or its error.
function answerOf(typed, line, isString = false) {
  const text = isString ? inColumn(typed) : typed;
  if (text === null) return { line, typed, kind: "elements", fault: remedyOfColumn(typed) };
  const answer = { line, typed: text, kind: kindOf(text) }, said = readText(text);
  // On a German keyboard, a scanner that is set to an American one types ] as +.
  if (/^\+[A-Za-z]\d/.test(text)) return { ...answer, kind: "scanner", fault: { key: "layout" } };
  if (said.refused) return { ...answer, fault: { ...remedyOf(text, said.refused), refused: said.refused } };
  return { ...answer, elements: told(said.elements), gtin: gtinOf(said.elements),
    isPlain: said.elements.length === 1 && said.elements[0].ai === "01" };
}

function kindOf(text) {
  if (text[0] === "]") return SCANNED[text.slice(0, 3)] ?? "scanner";
  if (LINK.test(text)) return "link";
  if (isElements(text)) return "elements";
  const { length } = digitsOf(text);
  return KINDS_OF_LENGTH[length] && /^[0-9]+$/.test(digitsOf(text)) ? `GTIN-${length}` : "gtin";
}

// The answers to a text; for a table, to its columns of numbers.
function answersTo(text) {
  if (!text.trim()) return [];
  try {
    const table = tableOf({ text, isSheet: false, faults: [] }),
      wrong = table.faults.map(({ line, fault }) => ({ line, typed: "", kind: "gtin", fault }));
    return [
      ...table.records.flatMap(
        (record) => textsOf(table, record).map(([text, isString]) => answerOf(text, record.line, isString))),
      ...wrong].sort((a, b) => a.line - b.line);
  } catch (error) {
    if (!(error instanceof Faults)) throw error;
    return error.faults.map(({ line, fault }) => ({ line, typed: "", kind: "gtin", fault }));
  }
}

// The texts of a record, and whether each is in a column of element strings: one, unless it has a number too.
function textsOf(table, record) {
  const [number, elements] = ["gtin", "gs1"].map((meaning) => stripped(cellIn(table, record, meaning)));
  return [...(number || !elements ? [[number, false]] : []), ...(elements ? [[elements, true]] : [])];
}

function check() {
  answers = answersTo(at("texts").value);
  const wrong = answers.filter(({ fault }) => fault).length, shown = scans() ? answers.toReversed() : answers;
  at("check-told").replaceChildren(...toldParts(
    [answers.length - wrong ? many("rightCount", answers.length - wrong) : "", "right"],
    [wrong ? many("wrongCount", wrong) : "", "wrong"]));
  at("check-empty").hidden = at("examples").hidden = answers.length > 0;
  at("check-clear").hidden = !at("texts").value;
  at("check-tools").hidden = !answers.length;
  at("answers").replaceChildren(...shown.slice(0, MOST_ANSWERS).map(answerItem));
  at("answers-more").textContent = answers.length > MOST_ANSWERS
    ? t("answersMore", countText(answers.length - MOST_ANSWERS)) : "";
}

function answerItem(answer, i) {
  const { line, typed, kind, fault, elements } = answer, isOne = answers.length === 1, shown = shortText(typed);
  const head = make("p", { class: "answer-head" }, icon(fault ? "bad" : "good"),
    make("span", { class: "hidden" }, t(fault ? "isWrong" : "isRight")),
    make("span", { class: "mono typed" }, shown),
    make("span", { class: "kind" }, isOne ? kindName(kind) : `${t("line", line)} · ${kindName(kind)}`));
  const item = make("li", { class: fault ? "answer bad" : "answer good" }, head);
  if (fault)
    item.append(make("p", { class: "remedy" }, remedyText(fault), " ",
      make("span", { class: "code" }, faultName(fault))), ...fixButtons(answer));
  else if (isOne || !answer.isPlain && (answers.length <= MOST_OPEN || scans() && !i))
    item.append(elementsTable(elements));
  else if (!answer.isPlain)
    item.append(make("details", {},
      make("summary", {}, elements.map(({ title, meaning, value }) => `${title} ${meaning || value}`).join(" · ")),
      elementsTable(elements)));
  return item;
}

const kindName = (kind) => /^(elements|gtin|scanner|link)$/.test(kind) ? t(`kind-${kind}`) : kind;

function fixButtons({ line, typed, fault }) {
  const use = (fix) => {
    const lines = at("texts").value.split("\n");
    lines[line - 1] = lines[line - 1].replace(typed, () => fix);
    at("texts").value = lines.join("\n");
    at("texts").focus();
    check();
  };
  return (fault.fixes ?? []).map(
    (fix) => make("button", { type: "button", class: "small", onclick: () => use(fix) }, t("useFix", fix)));
}

// ---- a scanner that types

const scans = () => at("scans").checked;

// Each key. Many quick ones before a line end come from a scanner: its answers appear newest first, with a tone.
function noteKey(event) {
  // The separator, byte 29, comes as Ctrl+].
  if (event.ctrlKey && (event.key === "]" || event.code === "BracketRight")) {
    event.preventDefault();
    at("texts").setRangeText("^", at("texts").selectionStart, at("texts").selectionEnd, "end");
    typing.count++;
  } else if (event.key === "Enter") endLine(event);
  else if (event.key.length === 1 && !event.ctrlKey && !event.metaKey)
    typing = typing.count ? { ...typing, count: typing.count + 1 } : { count: 1, since: event.timeStamp };
}

function endLine(event) {
  const isScanner = typing.count >= LEAST_SCANNED && event.timeStamp - typing.since < QUICK * typing.count;
  typing = { count: 0, since: 0 };
  if (isScanner) at("scans").checked = true;
  // The field has the key's character only after this event.
  if (scans()) setTimeout(() => { check(); toneOf(answers.at(-1)); });
}

const toneOf = (answer) => answer && beep(answer.fault ? 330 : 1760, answer.fault ? 0.35 : 0.1);

// ---- as data

const checkedRows = () => [
  [t("csvLine"), t("csvTyped"), t("csvKind"), t("thAi"), t("thTitle"), t("thValue"), t("thMeaning"), t("csvFault")],
  ...answers.flatMap(({ line, typed, kind, fault, elements }) => fault
    ? [[line, typed, kindName(kind), "", "", "", "", remedyText(fault)]]
    : elements.map(({ ai, title, value, meaning }) => [line, typed, kindName(kind), ai, title, value, meaning, ""]))];

const checkedJson = () => JSON.stringify(answers.map(({ line, typed, kind, fault, gtin, elements }) => ({
  line, text: typed, kind, ...(fault
    ? { fault: { ...(fault.refused ? refusalOf(fault.refused) : {}), remedy: remedyText(fault), fixes: fault.fixes } }
    : { gtin, elements: asData(elements) }) })), null, 2);

// Elements as data, with days in the international form.
const asData = (elements) => elements.map(({ ai, title, value, date, time, meaning }) =>
  ({ ai, title, value, date: time ? `${date} ${time}` : date, meaning: meaning || undefined }));

async function takeTexts(file) {
  const read = await openFile(file, "check-fault");
  if (!read) return;
  at("texts").value = read.text.replace(/\r\n?/g, "\n");
  note([t("taken", file.name), ...read.notes.map(remedyText)].join(" "));
  check();
}

function listenToCheck() {
  let waiting;
  at("texts").addEventListener("keydown", noteKey);
  at("texts").addEventListener("input", () => {
    at("check-fault").textContent = "";
    clearTimeout(waiting);
    waiting = setTimeout(check, 120);
  });
  at("scans").addEventListener("change", () => { check(); at("texts").focus(); });
  for (const [name, text] of Object.entries(CHECK_EXAMPLES))
    at(`try-${name}`).addEventListener("click", () => { at("texts").value = text; at("texts").focus(); check(); });
  at("check-open").addEventListener("click", () => at("check-file").click());
  at("check-file").addEventListener("change", () => {
    if (at("check-file").files[0]) document.taken = takeTexts(at("check-file").files[0]);
    at("check-file").value = "";
  });
  at("check-clear").addEventListener("click", () => { at("texts").value = ""; at("texts").focus(); check(); });
  at("check-copy").addEventListener("click", () => { document.copied = copy(csvOf(checkedRows()).slice(1)); });
  at("check-copy-json").addEventListener("click", () => { document.copied = copy(checkedJson()); });
  at("check-csv").addEventListener("click", () => save(csvOf(checkedRows()), "checked.csv", "text/csv"));
  at("check-json").addEventListener("click", () => save(checkedJson(), "checked.json", "application/json"));
}
