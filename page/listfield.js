// @ts-check
// The list of the task "labels": its file, the question that it asks, what a person should know of it, and its
// corrections.
"use strict";

/**
 * A question on show: what it is about, its choices, and what an answer does.
 * @typedef {{ kind: string, text: string, choices: { value: string, name: string }[],
 *   answer: (value: string) => void }} Question
 */

// The columns that a person may correct, and how many faults and values of a column are shown.
const COLUMNS = ["gtin", "gs1", "name", "price", "line", ...BESIDE, "copies", "kind"], MOST_FAULTS_SHOWN = 40,
  MOST_SAMPLES = 3;
const MOST_NAMED = 12;

// What was answered, and about a list with which first line; the file that is open, with its bytes and its first and
// last line; the question on show; and whether the list was corrected here.
/** @type {any} */
const asked = { columns: {}, isFree: false, about: "", file: null, ends: [], question: null, isMended: false };

// A list that has the first or the last line of the file is that file's, even if a person corrected it.
const fileListed = () => asked.ends.some((line) => at("list").value.includes(line)) ? asked.file : null;
const listTyped = () =>
  ({ text: at("list").value, isSheet: !!fileListed()?.isSheet, faults: fileListed()?.faults ?? [] });

// The articles of the list, what its columns are, what a person should know, and the question that comes first.
function listRead() {
  const list = listTyped(), file = fileListed(), notes = file?.notes ?? [], [about] = list.text.split("\n", 1);
  // What was said of another heading says nothing of this one.
  if (about !== asked.about) Object.assign(asked, { columns: {}, isFree: false, about });
  if (!list.text.trim()) return { articles: [], columns: null, notes: [], question: null };
  if (file?.question) return { articles: [], columns: null, notes, question: encodingQuestion(file) };
  try {
    const table = tableOf(list, asked, MOST_LINES), units = at("units").value.split(",").filter(Boolean),
      { question, look } = table;
    if (units.length && !table.places.content && !question)
      throw look.question("content", [], faultAt(1, "noContents"));
    const articles = articlesOf(table, { ...asked, units });
    const asks = question && columnQuestion({ ...question, meaning: "price" }, look);
    return asks ? { articles: [], columns: table, notes, question: asks }
      : { articles, columns: table, notes: [...notes, ...notesOfTable(table, articles, units)], question: null };
  } catch (error) {
    if (!(error instanceof Faults)) throw error;
    const { look, question, faults } = /** @type {any} */ (error), columns = look && { look, places: {} };
    if (question) return { articles: [], columns, notes,
      question: columnQuestion({ ...question, ...faults[0] }, look) };
    return { articles: faults.map((it) => ({ ...it, typed: "", name: "" })), columns, notes, question: null };
  }
}

// What a person should know of how a list was read.
function notesOfTable({ titled, unused, passed, places, look }, articles, units) {
  const unpriced = places.price ? articles.filter(({ fault, price }) => !fault && !price).map(({ line }) => line) : [];
  const unmeasured = units.length ? articles.filter(({ fault, price, fields }) => !fault && price && !fields[1])
    .map(({ line }) => line) : [];
  const named = unused.filter(({ values: [name] }) => !units.length || name !== look.nameOf(places.content[0]));
  return [...(titled ? [{ key: "tookLine", values: [titled] }] : []),
    ...(named.length ? [{ key: "unused", values: [{ list: named }] }] : []),
    ...linesTold("passed", passed), ...linesTold("unpriced", unpriced), ...linesTold("unmeasured", unmeasured)];
}

// A sentence that counts some lines, if there are any.
const linesTold = (key, lines) => lines.length
  ? [{ key: lines.length > 1 ? key : `${key}1`, values: [lines.length, runsOf(lines)] }] : [];

// ---- the question

// Which column has this meaning: first those that may have it, each with its first cells.
function columnQuestion({ meaning, places, fault }, look) {
  const all = [...places,
    ...Array.from({ length: look.wide }, (_, place) => place).filter((place) => !places.includes(place))];
  const nameOf = (place) => [columnName(look, place), samplesOf(look, place)].filter(Boolean).join(" · ");
  const choices = all.map((place) => ({ value: String(place), name: nameOf(place) }));
  const answer = (value) => { asked.columns[meaning] = Number(value); };
  return { kind: meaning, text: remedyText(fault), choices: look.wide > 1 ? choices : [], answer };
}

const columnName = (look, place) => look.nameOf(place) || t("columnNo", place + 1);

const samplesOf = (look, place) => look.records.slice(Number(look.hasHeading))
  .map(({ cells }) => oneBlank(cells[place] ?? "")).filter(Boolean).slice(0, MOST_SAMPLES).map(shortText).join(", ");

// In which encoding the file was saved: the first line that is not the same in all, in each.
function encodingQuestion({ bytes, encodings, question }) {
  const lines = encodings.map((encoding) => textIn(bytes, encoding).split(/[\r\n]+/));
  const differ = lines[0].findIndex((line, i) => lines.some((its) => its[i] !== line));
  const lineIn = (i) => shortText(oneBlank(lines[i][differ] ?? ""));
  const nameOf = (encoding, i) => `${lineIn(i)} · ${CODE_PAGES.shown[encoding]}`;
  const choices = encodings.map((encoding, i) => ({ value: encoding, name: nameOf(encoding, i) }));
  return { kind: "encoding", text: remedyText(question), choices, answer: takeEncoding };
}

// Reads the file in the chosen encoding; if it has a byte that is none there, the page says so and asks again.
function takeEncoding(encoding) {
  try {
    Object.assign(asked.file, decoded(asked.file.bytes, encoding));
    fillList(asked.file.text);
  } catch (error) {
    at("list-fault").textContent = fileFault(asked.file.name, error);
  }
}

// Shows the question. One that stands there already keeps what was chosen in it.
function showQuestion(question) {
  const dataOf = (one) => JSON.stringify([one.text, one.choices]);
  const isSame = question && asked.question && dataOf(question) === dataOf(asked.question);
  asked.question = question;
  at("question").hidden = !question;
  at("no-price-field").hidden = question?.kind !== "price" && asked.columns.price !== -1;
  at("asks").hidden = at("question").hidden && at("no-price-field").hidden;
  at("no-price").checked = asked.columns.price === -1;
  if (!question || isSame) return;
  at("question-text").textContent = question.text;
  at("question-choice").hidden = !question.choices.length;
  at("question-label").textContent = t(question.kind === "encoding" ? "encodingChoice" : "columnChoice");
  const options = question.choices.map(({ value, name }) => new Option(name, value));
  at("question-select").replaceChildren(new Option(t("choosePlease"), ""), ...options);
}

function answerQuestion() {
  const { value } = at("question-select");
  if (!value) return at("question-select").focus();
  asked.question.answer(value);
  makeAgain();
  at("columns").querySelector("summary").focus();
}

const makeAgain = () => { document.made = makeLabels(); };

// ---- what a person should know

function showNotes(notes) {
  at("list-notes").replaceChildren(...notes.map(noteItem));
  at("mended").hidden = !asked.isMended;
}

// A note; one that names many columns is folded.
function noteItem(note) {
  const all = note.values?.[0]?.list ?? [], few = { ...note, values: [{ list: all.slice(0, MOST_NAMED) }] };
  if (all.length <= MOST_NAMED) return make("li", {}, remedyText(note));
  const summary = make("summary", {}, `${remedyText(few).slice(0, -1)} …`);
  return make("li", {}, make("details", {}, summary, remedyText(note)));
}

// What the columns are, for correction by hand.
function showColumns(found) {
  const { look, places } = found ?? { places: {} }, wide = look?.wide ?? 0, nameOf = (place) => columnName(look, place);
  at("columns").hidden = !wide;
  for (const meaning of COLUMNS) {
    const options = Array.from({ length: wide }, (_, place) => new Option(nameOf(place), `${place}`));
    at(`column-${meaning}`).replaceChildren(new Option(t("none"), "-1"), ...options);
    at(`column-${meaning}`).value = places[meaning]?.[0] ?? -1;
  }
  at("columns-told").textContent = COLUMNS.filter((meaning) => places[meaning]?.length)
    .map((meaning) => `${t(`column-${meaning}`)} = ${places[meaning].map(nameOf).join(" + ")}`).join(", ");
}

// ---- faults and corrections

function showFaults(faults) {
  const fixes = faults.filter(isClear).length;
  at("faults").hidden = !faults.length;
  at("faults-title").textContent = many("faultCount", faults.length);
  at("fault-list").replaceChildren(...faults.slice(0, MOST_FAULTS_SHOWN).map(faultItem));
  at("faults-more").textContent = faults.length > MOST_FAULTS_SHOWN
    ? t("faultsMore", countText(faults.length - MOST_FAULTS_SHOWN)) : "";
  at("fix-all").hidden = fixes < 2;
  at("fix-all").textContent = t("fixAll", countText(fixes));
  at("free").checked = asked.isFree;
  at("free-field").hidden = !asked.isFree && !faults.some(({ fault }) => fault.key === "zeroPrice");
}

// Whether a number is clearly meant, the first one that can be put in the place of what is typed.
const isClear = ({ fault }) => !!fault.isClear;

function faultItem({ line, from = line, typed, name, fault }) {
  const shown = shortText(typed), use = (fault.fixes ?? []).map((fix) =>
    make("button", { type: "button", class: "small", onclick: () => mend({ line, from, typed, fix }) },
      t("useFix", fix)));
  return make("li", {},
    make("button", { type: "button", class: "line", onclick: () => goToLine(from) }, t("line", line)),
    make("div", {},
      make("p", { class: "typed" }, make("span", { class: "mono" }, shown || "–"), name ? ` ${shortText(name)}` : ""),
      make("p", {}, remedyText(fault), " ", make("span", { class: "code" }, faultName(fault))), ...use));
}

// Where a line of the field begins and ends.
function spanOfLine(line) {
  const text = at("list").value;
  let from = 0;
  for (let i = 1; i < line; i++) from = text.indexOf("\n", from) + 1;
  const end = text.indexOf("\n", from);
  return { from, end: end < 0 ? text.length : end };
}

function goToLine(line) {
  const list = at("list"), { from, end } = spanOfLine(line);
  list.focus();
  list.setSelectionRange(from, end);
  list.scrollTop = (line - 3) * parseFloat(getComputedStyle(list).lineHeight);
}

// Replaces a wrong number by the right one. Returns whether it was found: in a quoted cell its quotation marks are
// double.
function replaceIn({ from: line, typed, fix }) {
  const list = at("list"), { from } = spanOfLine(line);
  const found = [typed, typed.replaceAll('"', '""')].map((text) => ({ text, place: list.value.indexOf(text, from) }))
    .filter(({ place }) => place >= 0)[0];
  if (found) list.setRangeText(fix, found.place, found.place + found.text.length, "end");
  return !!found;
}

function mend(one) {
  if (!replaceIn(one)) return goToLine(one.from);
  asked.isMended = true;
  at("list").focus();
  note(t("mended", one.line));
  makeAgain();
}

// Puts all numbers right that are clear, as `noriladle check --fix` does. From the end, since what is before a line
// keeps its place.
function mendAll() {
  const clear = shop.made.faults.filter(isClear)
    .map(({ line, from = line, typed, fault }) => ({ from, typed, fix: fault.fixes[0] }));
  const mended = clear.reverse().filter(replaceIn);
  asked.isMended = true;
  note(many("mendedAll", mended.length));
  makeAgain();
}

// The list as it stands in the field. A spreadsheet opens the tabs of UTF-16 in columns, whatever the language of the
// machine.
function saveList() {
  const { text, isSheet } = listTyped(), lines = text.replaceAll("\n", "\r\n");
  save(isSheet ? Uint16Array.from(`\ufeff${lines}`, (sign) => sign.charCodeAt(0)) : `\ufeff${lines}`, "list.csv",
    "text/csv");
  note(t("saved"));
}

// What is left out, with what to do.
function saveFaults() {
  const rows = shop.made.faults.map(({ line, typed, name, fault }) => [line, typed, name, remedyText(fault)]);
  save(csvOf([[t("csvLine"), t("csvTyped"), t("column-name"), t("csvFault")], ...rows]), "left-out.csv", "text/csv");
}

// ---- files

// What a file has; or nothing, and the page says why. What was typed stays.
async function openFile(file, place) {
  at(place).textContent = "";
  try {
    // Read one byte more, to notice that there are too many.
    const bytes = new Uint8Array(await file.slice(0, LIMIT + 1).arrayBuffer());
    return { ...await fileRead(bytes), bytes, name: file.name };
  } catch (error) {
    at(place).textContent = fileFault(file.name, error);
    return null;
  }
}

// What is wrong with a file.
function fileFault(name, error) {
  const [{ line, fault } = /** @type {any} */ ({})] = error.faults ?? [];
  return fault ? `${name}: ${line > 1 ? `${t("line", line)}: ` : ""}${remedyText(fault)}` : t("noFile", name);
}

async function takeList(file) {
  const read = await openFile(file, "list-fault");
  if (!read) return;
  setList(read.text, read);
  note(t("taken", file.name));
}

// A new list, perhaps of a file. What was answered of the one before is forgotten.
function setList(text, file = null) {
  at("list-fault").textContent = "";
  Object.assign(asked, { columns: {}, isFree: false, file, isMended: false });
  wantedGtins = null;
  fillList(text);
  shop.page = 0;
  makeAgain();
}

// A text field has no other line ends.
function fillList(text) {
  at("list").value = text.replace(/\r\n?/g, "\n");
  const lines = at("list").value.split("\n").filter((line) => line.trim());
  asked.ends = lines.length ? [lines[0], lines.at(-1)] : [];
}

// Keeps the list in this browser for the next time, unless a question about its letters is open.
function keepList() {
  const { text } = listTyped(), { isSheet, faults, notes, question } = fileListed() ?? {};
  const file = fileListed() ? { isSheet, faults, notes } : null;
  memory.set("list", text && !question ? JSON.stringify({ text, file }) : "");
}

function takeKept() {
  try {
    const { text, file } = JSON.parse(memory.get("list") || "{}");
    if (!text) return;
    asked.file = file;
    fillList(text);
  } catch { /* It is no list of this page. */ }
}

function listenToList() {
  let waiting;
  at("list").addEventListener("input", () => {
    at("list-fault").textContent = "";
    asked.isMended = at("list").value !== "" && (asked.isMended || !!fileListed());
    clearTimeout(waiting);
    waiting = setTimeout(makeAgain, 120);
  });
  at("open").addEventListener("click", () => at("list-file").click());
  at("list-file").addEventListener("change", () => {
    const [file] = at("list-file").files;
    if (file) document.taken = takeList(file);
    at("list-file").value = "";
  });
  at("example").addEventListener("click", () => setList(t("exampleList")));
  at("clear").addEventListener("click", () => { setList(""); at("list").focus(); });
  at("question").addEventListener("submit", answerQuestion);
  at("no-price").addEventListener("change", ({ target }) => {
    if (target.checked) asked.columns.price = -1;
    else delete asked.columns.price;
    makeAgain();
  });
  at("free").addEventListener("change", ({ target }) => { asked.isFree = target.checked; makeAgain(); });
  at("fix-all").addEventListener("click", mendAll);
  at("save-list").addEventListener("click", saveList);
  at("save-faults").addEventListener("click", saveFaults);
  for (const meaning of COLUMNS) {
    at(`column-${meaning}`).addEventListener("change", ({ target }) => {
      asked.columns[meaning] = Number(target.value);
      makeAgain();
    });
  }
}
