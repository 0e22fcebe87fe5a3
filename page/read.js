// @ts-check
// The task "read": reads photographs that are dropped, pasted, chosen or from the camera.
"use strict";

// The pictures, newest first. A series of the camera is one of them, without a picture, its newest code first.
let pictures = [], isTable = false;

// The colours of the marks: dark on a light edge, visible on any picture.
const MARK = "#0b6e4f", MARK_EDGE = "#ffffff";

// How many results are kept, and how many pictures to look at; more pictures at once than the last are first shown as a
// table.
const MOST_PICTURES = 2000, MOST_SHOWN = 40, MOST_CARDS = 8;

// Reads a picture; only this calls the module. Returns its symbols in reading order, and the error if it has none.
function readPicture(taken) {
  const from = performance.now(), { symbols: seen, reason } = core.picture(taken, taken.level ?? 0);
  taken.symbols = seen.map(({ said, corners, rows }) => {
    const pairs = core.said(said).elements;
    return { line: said.slice(0, 4) + pairs.map(({ ai, value }) => `(${ai})${value}`).join(""), pairs, corners, rows };
  });
  taken.refused = seen.length ? null : reason;
  taken.passed = performance.now() - from;
}

// What to do about a picture without a symbol; `none` if no row of it looked like one.
const unread = ({ refused }) => remedyText({ key: refused === "none" ? "noSymbol" : refusalOf(refused).number });

// The text under the bars, and the name of the kind.
function shownOf(line) {
  const mark = line.slice(0, 3), gtin = line.slice(8);
  if (mark === "]E4") return { kind: "EAN-8", says: gtin.slice(6) };
  if (mark === "]E0")
    return gtin.startsWith("00") ? { kind: "UPC", says: gtin.slice(2) } : { kind: "EAN-13", says: gtin.slice(1) };
  return { kind: SCANNED[mark] ?? mark, says: mark === "]I1" ? gtin : line.slice(4) };
}

// ---- showing

function tellRead() {
  const count = pictures.reduce((sum, { symbols: seen }) => sum + seen.length, 0);
  const shots = pictures.filter(({ series }) => !series).length;
  at("told").textContent = !pictures.length ? "" : shots
    ? t("readCount", many("codeCount", count), many("pictureCount", shots)) : many("codeCount", count);
  at("told").className = count ? "told right" : "told wrong";
  at("read-tools").hidden = !count;
  at("read-empty").hidden = pictures.length > 0;
  at("read-views").hidden = pictures.length < 2;
  for (const view of ["cards", "table"])
    at(`view-${view}`).setAttribute("aria-pressed", (view === "table") === isTable);
  at("pictures").hidden = isTable;
  at("read-table").hidden = !isTable || !pictures.length;
  if (isTable) at("read-rows").replaceChildren(...pictures.flatMap(rowsOfPicture));
  else at("pictures").replaceChildren(...pictures.map((one) => one.card ??= cardOf(one)));
}

const nameOf = ({ name, series }) => name || t(series ? "series" : "camera-picture");

// The rows of a picture in the table: one for each of its symbols, or one that says what to do.
function rowsOfPicture(picture) {
  const name = () => make("th", { scope: "row" }, nameOf(picture));
  if (!picture.symbols.length)
    return [make("tr", { class: "bad" }, name(), make("td", { colspan: 4 }, unread(picture)))];
  return picture.symbols.map(({ line, pairs }, i) => {
    const { kind, says } = shownOf(line), elements = told(pairs).filter(({ ai, meaning }) => meaning && ai !== "01");
    return make("tr", {}, name(), make("td", {}, i + 1), make("td", { class: "mono value" }, says),
      make("td", {}, kind),
      make("td", {}, elements.map(({ title, meaning }) => `${title} ${meaning}`).join(" · ")));
  });
}

function showTable(wanted) {
  isTable = wanted;
  tellRead();
}

function cardOf(picture) {
  const list = picture.symbols.length
    ? make("ol", { class: "symbols" },
      ...picture.symbols.map((symbol, i) => symbolItem(symbol, picture.series ? picture.symbols.length - i : i + 1)))
    : make("div", { class: "remedy unread" }, icon("bad"),
      make("p", {}, unread(picture), " ", make("span", { class: "code" }, faultName(picture))));
  const name = make("p", { class: "name" }, nameOf(picture));
  if (!picture.grey) return make("li", { class: "picture plain" }, make("div", { class: "said" }, name, list));
  const canvas = make("canvas",
    { role: "img", "aria-label": t("pictureLabel", nameOf(picture), many("codeCount", picture.symbols.length)) });
  mark(canvas, picture);
  const level = make("input",
    { type: "range", min: 1, max: 255, value: picture.level ?? 128, "aria-label": t("level") });
  level.addEventListener("change", () => readAgain(picture, Number(level.value)));
  const again = make("details", { class: "level" }, make("summary", {}, t("levelTitle")),
    make("label", {}, t("level"), level));
  return make("li", { class: "picture" }, make("div", { class: "photo" }, canvas, name),
    make("div", { class: "said" }, list, again));
}

// Reads a picture with a level that a person chose, and shows it again.
function readAgain(picture, level) {
  picture.level = level;
  readPicture(picture);
  const before = picture.card;
  picture.card = cardOf(picture);
  picture.card.querySelector("details").open = true;
  before.replaceWith(picture.card);
  picture.card.querySelector("input").focus();
  tellRead();
}

function symbolItem({ line, pairs }, number) {
  const { kind, says } = shownOf(line), elements = told(pairs);
  const button = make("button", { type: "button", class: "small quiet", "aria-label": t("copyThis", says),
    onclick: () => { document.copied = copy(says); } }, icon("copy"));
  const no = make("span", { class: "no", "aria-hidden": "true" }, number),
    text = make("strong", { class: "mono" }, says), name = make("span", { class: "kind" }, kind);
  if (elements.length === 1) return make("li", {}, make("p", { class: "symbol" }, no, text, button, name));
  return make("li", {}, make("p", { class: "symbol" }, no, name, button), make("p", { class: "mono long" }, says),
    elementsTable(elements));
}

// Corners with a margin of this many pixels around them.
function widened(corners, margin) {
  const [right, down] = [1, 2].map((i) => {
    const [x, y] = [corners[i].x - corners[i - 1].x, corners[i].y - corners[i - 1].y], length = Math.hypot(x, y) || 1;
    return { x: margin * x / length, y: margin * y / length };
  });
  return corners.map(({ x, y }, i) => {
    const [along, across] = [i === 1 || i === 2 ? 1 : -1, i > 1 ? 1 : -1];
    return { x: x + along * right.x + across * down.x, y: y + along * right.y + across * down.y };
  });
}

// Draws the picture, and around each symbol a frame with its number that covers none of it.
function mark(canvas, picture) {
  const pen = canvas.getContext("2d");
  [canvas.width, canvas.height] = [picture.width, picture.height];
  if (picture.image) pen.drawImage(picture.image, 0, 0);
  else {
    const image = new ImageData(picture.width, picture.height), pixels = new Uint32Array(image.data.buffer);
    picture.grey.forEach((value, i) => { pixels[i] = (0xff000000 | value * 0x010101) >>> 0; });
    pen.putImageData(image, 0, 0);
  }
  const size = Math.max(16, Math.round(picture.width / 30)), wide = Math.max(2, Math.round(size / 7));
  pen.font = `bold ${size * 0.8}px sans-serif`;
  [pen.textBaseline, pen.textAlign, pen.lineJoin] = ["middle", "center", "round"];
  picture.symbols.forEach((symbol, i) => {
    const corners = widened(symbol.corners, wide);
    for (const [colour, width] of [[MARK_EDGE, 2 * wide], [MARK, wide]]) {
      [pen.strokeStyle, pen.lineWidth] = [colour, width];
      pen.beginPath();
      for (const { x, y } of corners) pen.lineTo(x, y);
      pen.closePath();
      pen.stroke();
    }
    const { x, y } = corners.reduce((a, b) => a.x + a.y <= b.x + b.y ? a : b), tag = size * 1.2,
      left = Math.max(0, x - tag / 2), top = Math.max(0, y - tag / 2);
    pen.fillStyle = MARK;
    pen.beginPath();
    pen.arc(left + tag / 2, top + tag / 2, tag / 2, 0, 7);
    pen.fill();
    pen.fillStyle = "white";
    pen.fillText(i + 1, left + tag / 2, top + tag / 2 + wide / 4);
  });
}

// ---- as data

const readRows = () => [
  [t("csvPicture"), t("csvNumber"), t("csvSymbol"), t("thAi"), t("thTitle"), t("thValue"), t("thMeaning")],
  ...pictures.flatMap((one) => one.symbols.flatMap(({ line, pairs }, i) => told(pairs).map(
    ({ ai, title, value, meaning }) => [nameOf(one), i + 1, shownOf(line).kind, ai, title, value, meaning])))];

const readJson = () => JSON.stringify(pictures.map(({ name, symbols: seen, refused, series }) => ({
  picture: name, camera: series,
  ...(refused ? { fault: refused === "none" ? { name: refused } : refusalOf(refused) } : {}),
  symbols: seen.map(({ line, pairs }) => ({ identifier: line.slice(0, 3), text: line.slice(4), kind: shownOf(line).kind,
    elements: asData(told(pairs)) })) })), null, 2);

const readTexts = () => pictures.flatMap(({ symbols: seen }) => seen.map(({ line }) => shownOf(line).says)).join("\n");

// ---- taking

// A file as a picture; or nothing if it is none.
async function pictureOf(file) {
  const pbm = pixelsOfPbm(new Uint8Array(await file.arrayBuffer()));
  if (pbm) return { ...pbm, image: null };
  try {
    const image = await createImageBitmap(file), canvas = new OffscreenCanvas(image.width, image.height),
      pen = canvas.getContext("2d", { willReadFrequently: true });
    pen.drawImage(image, 0, 0);
    return { ...greyOf(pen.getImageData(0, 0, image.width, image.height)), image };
  } catch {
    return null;
  }
}

let takes = 0;

// Reads files as pictures, one after another, and names those that are none. Later pictures end this.
async function take(...files) {
  if (!files.length || !files[0]) return say("noPicture");
  at("read-fault").textContent = "";
  showTask("read");
  if (stream) stopCamera();
  const turn = ++takes, others = [], taken = [], before = pictures;
  for (const [i, file] of files.entries()) {
    say("reading", i + 1, files.length);
    await new Promise((done) => requestAnimationFrame(() => setTimeout(done)));
    const one = await pictureOf(file);
    if (turn !== takes) return;
    if (one) taken.push(takePicture({ ...one, name: file.name ?? "" }, taken, before));
    else others.push(file.name || "?");
  }
  isTable = taken.length > MOST_CARDS || isTable && pictures.length > 1;
  tellRead();
  at("read-fault").textContent = others.length ? t("notPictures", others.join(", ")) : "";
}

// Reads a picture, and shows it after those that came with it and before all earlier ones.
function takePicture(one, taken = [], before = pictures) {
  readPicture(one);
  pictures = [...taken, one, ...before].slice(0, MOST_PICTURES);
  // Older pictures keep only their results.
  for (const old of pictures.slice(MOST_SHOWN)) if (old.grey) {
    [old.grey, old.image] = [null, old.image?.close?.()];
    delete old.card;
  }
  tellRead();
  return one;
}

const say = (key, ...values) => { at("told").className = "told"; at("told").textContent = t(key, ...values); };

async function takeClipboard() {
  try {
    for (const item of await navigator.clipboard.read()) {
      const type = item.types.find((name) => name.startsWith("image/"));
      if (type) return await take(await item.getType(type));
    }
    say("noPictureClipboard");
  } catch {
    say("pasteByKeys");
  }
}

// Files go where they belong: pictures to "read", lists to the task on show.
function takeFiles(files) {
  const images =
    files.filter(({ type, name }) => type.startsWith("image/") || /\.(pbm|jpe?g|png|webp|heic)$/i.test(name));
  if (images.length) return take(...images);
  if (at("check").hidden) showTask("labels");
  return at("labels").hidden ? takeTexts(files[0]) : takeList(files[0]);
}

function listenToRead() {
  at("file").addEventListener("change", () => { document.taken = take(...at("file").files); });
  at("choose").addEventListener("click", () => { at("file").value = ""; at("file").click(); });
  at("paste").addEventListener("click", () => { document.taken = takeClipboard(); });
  at("read-copy").addEventListener("click", () => { document.copied = copy(readTexts()); });
  at("read-csv").addEventListener("click", () => save(csvOf(readRows()), "read.csv", "text/csv"));
  at("read-json").addEventListener("click", () => save(readJson(), "read.json", "application/json"));
  at("read-clear").addEventListener("click", () => {
    [pictures, isTable] = [[], false];
    at("read-fault").textContent = "";
    tellRead();
  });
  for (const view of ["cards", "table"])
    at(`view-${view}`).addEventListener("click", () => showTable(view === "table"));
  addEventListener("paste", (event) => {
    const images = [...event.clipboardData.files].filter(({ type }) => type.startsWith("image/"));
    if (images.length) document.taken = take(...images);
  });
  for (const name of ["dragover", "dragleave", "drop"]) {
    addEventListener(name, (event) => {
      // Dropped text goes where it was dropped.
      if (!event.dataTransfer.types.includes("Files")) return;
      event.preventDefault();
      document.body.classList.toggle("over", name === "dragover");
      if (name === "drop") document.taken = takeFiles([...event.dataTransfer.files]);
    });
  }
}
