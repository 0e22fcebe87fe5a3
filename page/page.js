// @ts-check
// The start of the page: its module, its language and its tasks.
"use strict";

function refuse(problem) {
  at("problem").textContent = problem;
  at("problem").hidden = false;
  document.querySelector("main").hidden = true;
}

// The modules of page/build by the bits of their addresses. The proved one comes first.
const modules =
  () => ({ 64: typeof GS1_WASM === "string" && GS1_WASM, 32: typeof GS1_WASM_32 === "string" && GS1_WASM_32 });

// On a telephone the camera comes first.
const isPhone = () => matchMedia("(max-width: 760px) and (pointer: coarse)").matches;
const firstTask = () => TASKS.includes(location.hash.slice(1)) ? location.hash.slice(1)
  : memory.get("task") ?? (isPhone() ? "read" : "labels");

function changeLanguage(chosen) {
  speak(chosen);
  showAll();
}

// Everything that has words of the language, beside the page's own texts.
function showAll() {
  fillStocks();
  fillModules();
  document.made = makeLabels();
  check();
  for (const one of pictures) delete one.card;
  tellRead();
  at("read-fault").textContent = at("list-fault").textContent = at("check-fault").textContent = "";
  at("camera-text").textContent = t(stream ? "stopCamera" : "useCamera");
}

// All fields of the year have one value.
function changeYear({ target }) {
  if (!target.checkValidity() || !target.value) return;
  core.year = Number(target.value);
  for (const field of document.querySelectorAll("[data-year]")) field.value = core.year;
  document.made = makeLabels();
  check();
  for (const one of pictures) {
    if (one.grey) readPicture(one);
    delete one.card;
  }
  tellRead();
}

// A served page can be installed, and then opens without the server. A page from a file needs nothing.
function serve() {
  if (!/^https?:$/.test(location.protocol) || !isSecureContext) return;
  document.head.append(make("link", { rel: "manifest", href: "manifest.json" }));
  navigator.serviceWorker?.register("worker.js").catch(tellOnline);
}

async function start() {
  at("old").remove();
  fillLanguages(changeLanguage);
  speak(memory.get("language") ?? navigator.language.slice(0, 2));
  const built = modules();
  if (!built[64]) return refuse(t("noModule"));
  const bits = [64, 32].find((width) => built[width] && Gs1.runs(width));
  if (!bits || typeof CompressionStream !== "function" || typeof OffscreenCanvas !== "function"
    || !Array.prototype.toSorted) return refuse(t("oldBrowser"));
  gs1 = await Gs1.load(built[bits], bits);
  for (const listen of [listenToTabs, listenToList, listenToScanned, listenToLabels, listenToCheck, listenToRead,
    listenToCamera]) listen();
  for (const form of document.forms) form.addEventListener("submit", (event) => event.preventDefault());
  for (const field of document.querySelectorAll("[data-year]")) {
    field.value = core.year;
    field.addEventListener("input", changeYear);
  }
  takeKept();
  showAll();
  at("own").hidden = at("stock").value !== "own";
  showTask(firstTask());
  serve();
  await document.made;
}

document.started = start().catch((error) => refuse(t("noStart", error)));
