// @ts-check
// What all tasks of the page share: its elements, its language, its tabs, and saving and copying.
"use strict";

/** @type {(id: string) => any} */
const at = (id) => document.getElementById(id);

// ---- language

const LANGUAGES = Object.keys(TEXTS);
let language = "en";

// What the page remembers. A private window may remember nothing, and what is too long is forgotten whole.
const memory = {
  get(key) { try { return localStorage.getItem(`noriladle.${key}`); } catch { return null; } },
  set(key, value) {
    try {
      localStorage.removeItem(`noriladle.${key}`), localStorage.setItem(`noriladle.${key}`, value);
    } catch { /* It is forgotten. */ }
  },
};

const filledText = (text, values) => text.replace(/\{(\d)\}/g, (_, i) => values[i] ?? "");

// The text of a key in the page's language, with values in place of {0}, {1}.
function t(key, ...values) {
  return filledText(TEXTS[language].page[key] ?? TEXTS.en.page[key] ?? key, values);
}

// A count, as the language writes it.
const countText = (count) => count.toLocaleString(language);

// The text for a count: that of `key1` for one.
const many = (key, count, ...values) => t(count === 1 ? `${key}1` : key, countText(count), ...values);

// A button for each language.
function fillLanguages(changed) {
  at("languages").replaceChildren(...LANGUAGES.map((name) =>
    make("button", { type: "button", lang: name, "aria-label": TEXTS[name].page.name,
      onclick: () => { memory.set("language", name); changed(name); } }, name.toUpperCase())));
}

// Puts the texts of a language into the elements with `data-t` and its like.
function speak(chosen) {
  language = LANGUAGES.includes(chosen) ? chosen : "en";
  document.documentElement.lang = language;
  document.title = t("title");
  for (const made of document.querySelectorAll("[data-t]")) made.textContent = t(made.dataset.t);
  for (const made of document.querySelectorAll("[data-t-label]"))
    made.setAttribute("aria-label", t(made.dataset.tLabel));
  for (const made of document.querySelectorAll("[data-t-hint]")) made.placeholder = t(made.dataset.tHint);
  for (const button of at("languages").children) button.setAttribute("aria-pressed", button.lang === language);
}

// ---- elements

// An element with its attributes and contents. Attributes that begin with `on` are listeners.
function make(name, attributes = {}, ...holds) {
  const made = document.createElement(name);
  for (const [key, value] of Object.entries(attributes)) {
    if (key.startsWith("on")) made.addEventListener(key.slice(2), value);
    else if (value !== undefined && value !== false) made.setAttribute(key, value === true ? "" : value);
  }
  made.append(...holds.filter((part) => part !== null && part !== undefined));
  return made;
}

// The parts of a message, each with its class, without empty ones.
const toldParts = (...parts) =>
  parts.filter(([text]) => text).flatMap(([text, name], i) => [i ? " · " : "", make("span", { class: name }, text)]);

function icon(name) {
  const svg = document.createElementNS("http://www.w3.org/2000/svg", "svg"),
    use = document.createElementNS(svg.namespaceURI, "use");
  use.setAttribute("href", `#i-${name}`);
  svg.setAttribute("class", "icon");
  svg.setAttribute("aria-hidden", "true");
  svg.append(use);
  return svg;
}

// ---- tabs

const TASKS = ["labels", "check", "read"];

// Shows a task. Its tab is in the address, so bookmarks and the back button lead to it.
function showTask(name) {
  const task = TASKS.includes(name) ? name : TASKS[0];
  for (const one of TASKS) {
    const tab = at(`tab-${one}`);
    tab.setAttribute("aria-selected", one === task);
    tab.tabIndex = one === task ? 0 : -1;
    at(one).hidden = one !== task;
  }
  if (location.hash !== `#${task}`) history.replaceState(null, "", `#${task}`);
  memory.set("task", task);
  dispatchEvent(new CustomEvent("task", { detail: task }));
}

function listenToTabs() {
  for (const one of TASKS) at(`tab-${one}`).addEventListener("click", () => showTask(one));
  at("tabs").addEventListener("keydown", (event) => {
    const here = TASKS.findIndex((one) => at(`tab-${one}`).tabIndex === 0), last = TASKS.length - 1;
    const next = {
      ArrowRight: here === last ? 0 : here + 1, ArrowLeft: here ? here - 1 : last, Home: 0, End: last }[event.key];
    if (next === undefined) return;
    event.preventDefault();
    showTask(TASKS[next]);
    at(`tab-${TASKS[next]}`).focus();
  });
  addEventListener("hashchange", () => showTask(location.hash.slice(1)));
}

// ---- saving and copying

function save(data, name, type) {
  const link = make("a", { href: URL.createObjectURL(new Blob([data], { type })), download: name });
  link.click();
  setTimeout(() => URL.revokeObjectURL(link.href), 10000);
}

async function copy(text) {
  try {
    await navigator.clipboard.writeText(text);
    note(t("copied"));
  } catch {
    note(t("noClipboard"));
  }
}

// A tone, if the browser allows it.
function beep(frequency, seconds) {
  try {
    const audio = new AudioContext(), tone = audio.createOscillator();
    tone.frequency.value = frequency;
    tone.connect(audio.destination);
    tone.start();
    tone.stop(audio.currentTime + seconds);
    tone.addEventListener("ended", () => audio.close());
  } catch { /* The answer is seen. */ }
}

let noted;

// Shows for a while what was done.
function note(text) {
  at("note").textContent = text;
  clearTimeout(noted);
  noted = setTimeout(() => { at("note").textContent = ""; }, 4000);
}

// Rows as CSV (RFC 4180), with the mark by which spreadsheets recognize UTF-8. A cell that would be a formula gets an
// apostrophe.
function csvOf(rows) {
  const text = (word) => /^[=+\-@\t\r]/.test(word) ? `'${word}` : word,
    quoted = (word) => /[",;\r\n]/.test(word) ? `"${word.replaceAll('"', '""')}"` : word;
  return `\ufeff${rows.map((row) => `${row.map((cell) => quoted(text(String(cell ?? "")))).join(",")}\r\n`).join("")}`;
}

// ---- elements of a text as a table

// The name of an element; weights, amounts and the like have that of their family.
function titleOf(ai) {
  const titles = TEXTS[language].elements;
  return titles[ai] ?? titles[ai.slice(0, 3)]
    ?? (/^9[1-9]$/.test(ai) ? titles["91-99"] : AIS.get(ai)?.title || t("element"));
}

// The elements with their titles and meanings.
const told = (pairs) => pairs.map((pair) => ({ ...pair, title: titleOf(pair.ai), meaning: meaningOfElement(pair) }));

function elementsTable(elements) {
  const head = ["thAi", "thTitle", "thValue", "thMeaning"].map((key) => make("th", { scope: "col" }, t(key)));
  const rows = elements.map(({ ai, title, value, meaning }) => make("tr", {}, make("td", { class: "mono" }, ai),
    make("th", { scope: "row" }, title), make("td", { class: "mono value" }, value), make("td", {}, meaning)));
  return make("table", { class: "elements" }, make("thead", {}, make("tr", {}, ...head)), make("tbody", {}, ...rows));
}

// ---- faults

// The text of an error, from tables/shop/. Its values are texts, numbers, lengths, other errors, or several ways out.
function faultText({ key, values = [] }) {
  const { faults, command } = TEXTS[language];
  return filledText(faults[key] ?? command[key] ?? TEXTS.en.faults[key] ?? String(key), values.map(valueText));
}

function valueText(value) {
  if (Array.isArray(value)) return value.map(faultText).join(t("orWay"));
  if (value.list) return value.list.map(faultText).join(value.between ?? ", ");
  if (typeof value === "number") return countText(value);
  if (typeof value === "string") return value;
  return value.number === undefined ? faultText(value)
    : value.number.toLocaleString(language, { minimumFractionDigits: value.places, maximumFractionDigits: value.places,
      useGrouping: false });
}

// A text as a sentence.
const sentence = (text) => `${text[0]?.toLocaleUpperCase(language) ?? ""}${text.slice(1)}.`;

const remedyText = (fault) => sentence(faultText(fault));
const faultName = ({ refused }) => refused?.startsWith("refused ") ? refused.slice(8) : "";
