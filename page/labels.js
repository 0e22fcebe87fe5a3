// @ts-check
// The task "labels": makes sheets of labels on the chosen stock from a price list; shows, prints and saves them.
"use strict";

// The sheet on show, what was made last, and how often.
const shop = { page: 0, made: null, turns: 0, zoom: "fit", hasEdges: false };

// The most labels of a list, and the longest name of one that the sheet's text has.
const MOST_LABELS = 10000, MOST_NAME_TOLD = 80, OUTPUTS = ["print", "pdf", "png", "svg", "zpl"];

const pause = () => new Promise((done) => setTimeout(done));

// ---- what is asked for

function stockChosen() {
  if (at("stock").value !== "own") return stockOf(STOCKS[at("stock").value]);
  const [columns, rows, width, height, gapX, gapY, left, top] =
    ["columns", "rows", "width", "height", "gap-x", "gap-y", "left", "top"]
      .map((id) => at(`own-${id}`).value.replace(",", "."));
  const side = (count, length, gap) => places(count * length + (count - 1) * gap), page = at("own-page").value;
  const told = page !== "roll" ? `${page}${left || top ? `/${left || 0}/${top || 0}` : ""}`
    : `${side(+columns, +width, +gapX)}x${side(+rows, +height, +gapY)}`;
  return stockOf(`${columns}x${rows}:${width}x${height}+${gapX || 0}+${gapY || 0}@${told}`);
}

const dpiFor = (stock) => Number(at("dpi").value) || (stock.isRoll ? 203 : 300);

const firstCell = () => Number(at("first").value || 1) - 1;

// What is wrong with the stock or its first free label.
function stockFault(stock) {
  if (!stock) return t("ownFault");
  return stock.isRoll || /^[1-9][0-9]*$/.test(at("first").value || "1") && firstCell() < stock.cells ? ""
    : t("firstFault", stock.cells);
}

// ---- making

// Draws all labels, with pauses in which the page can be used. A later run ends an earlier one.
async function makeLabels() {
  const turn = ++shop.turns, from = performance.now(), stock = stockChosen();
  at("own-fault").textContent = stockFault(stock);
  // Half-drawn labels are neither printed nor saved.
  for (const id of OUTPUTS) at(id).disabled = true;
  if (stockFault(stock)) return;
  const dpi = dpiFor(stock), cell = cellOf(stock, DOTS_IN_MM[dpi]),
    { articles: all, columns, notes, question } = listRead();
  const items = [], labels = [], faults = [], each = eachInTime(turn, from), { articles, missing } = scannedOf(all);
  keepList();
  showScanned(question ? [] : missing);
  showQuestion(question);
  showNotes(notes);
  showColumns(columns);
  const layout = new Layout(articles.filter(({ fault }) => !fault), cell, at("look").value, Number(at("module").value));
  if (!await each(articles, (article) => items.push({ ...article, fault: article.fault ?? layout.measure(article) })))
    return;
  layout.plan();
  shop.made = { stock, dpi, cell, labels, faults, question, isDone: false };
  const drawn = (item) => {
    const drawing = item.fault ? item : layout.draw(item);
    if (drawing.fault) return faults.push({ ...item, fault: drawing.fault });
    if (labels.length + item.copies > MOST_LABELS)
      return faults.push({ ...item, fault: { key: "manyLabels", values: [MOST_LABELS] } });
    const before = labels.length;
    for (let i = 0; i < item.copies; i++) labels.push(drawing);
    // Show the first sheet as soon as it is full.
    if (before < stock.cells && labels.length >= stock.cells) showSheet();
  };
  if (!await each(items, drawn)) return;
  shop.made.isDone = true;
  shop.passed = performance.now() - from;
  showLabels();
}

// Does something with each item of a list, and shows the progress. Returns whether it did all of them.
function eachInTime(turn, from) {
  let last = from;
  return async (list, work) => {
    for (let i = 0; i < list.length; i++) {
      work(list[i]);
      if (performance.now() - last < 60) continue;
      if (performance.now() - from > 300)
        at("labels-told").textContent = t("drawing", countText(i + 1), countText(list.length));
      await pause();
      if (turn !== shop.turns) return false;
      last = performance.now();
    }
    return true;
  };
}

// ---- showing

// A page with the drawing of each cell that has one, at whole dots.
function pageWith({ stock, dpi }, drawingOf) {
  const inDots = (length) => Math.round(length * DOTS_IN_MM[dpi]);
  return Array.from({ length: stock.cells }, (_, cell) => {
    const { left, top } = stock.place(cell);
    return { left: inDots(left), top: inDots(top), drawing: drawingOf(cell) };
  }).filter(({ drawing }) => drawing);
}

function pageOf(number) {
  const { stock, labels } = shop.made, before = number * stock.cells - (stock.isRoll ? 0 : firstCell());
  return pageWith(shop.made, (cell) => labels[before + cell]);
}

// A page of the edges of all labels, to lay over the stock.
function edgesPage(made) {
  const { width, height, dots } = made.cell, thick = Math.max(1, Math.round(dots / 5));
  const boxes = [[0, 0, width, thick], [0, height - thick, width, thick], [0, 0, thick, height],
    [width - thick, 0, thick, height]];
  return pageWith(made, () => ({ boxes, texts: [] }));
}

const pageCount =
  () => Math.ceil(((shop.made.stock.isRoll ? 0 : firstCell()) + shop.made.labels.length) / shop.made.stock.cells);
const allPages = () => Array.from({ length: pageCount() }, (_, number) => pageOf(number));

const svgElement =
  (text) => document.importNode(new DOMParser().parseFromString(text, "image/svg+xml").documentElement, true);

// The edges of the labels, only on the screen. Labels before the first free one are used up.
function gridOf(stock, dots, used) {
  return Array.from({ length: stock.cells }, (_, cell) => {
    const { left, top } = stock.place(cell),
      [x, y, width, height] = [left, top, stock.width, stock.height].map((length) => places(length * dots));
    return `<rect class="cell${cell < used ? " used" : ""}" data-cell="${cell}" x="${x}" y="${y}" width="${width}"`
      + ` height="${height}" rx="${places(1.5 * dots)}"/>`;
  }).join("");
}

function showSheet() {
  const { stock, dpi, labels } = shop.made, dots = DOTS_IN_MM[dpi], count = Math.max(1, pageCount());
  shop.page = Math.min(shop.page, count - 1);
  const used = shop.page || stock.isRoll ? 0 : firstCell(),
    sheet = svgElement(svgOfPage(pageOf(shop.page), stock, dots, gridOf(stock, dots, used)));
  sheet.setAttribute("role", "img");
  const said = ({ drawing: { item: { name, price, text } } }) =>
    [name.slice(0, MOST_NAME_TOLD), price, text].filter(Boolean).join(" ");
  sheet.setAttribute("aria-label", labels.length
    ? t("sheetLabel", countText(shop.page + 1), countText(count), pageOf(shop.page).map(said).join("; "))
    : t("sheetEmpty"));
  at("paper").replaceChildren(sheet);
  at("paper").className = `${shop.zoom}${stock.isRoll ? " roll" : ""}`;
  at("sheet-no").textContent = t("sheetNo", countText(shop.page + 1), countText(count));
  at("back").disabled = !shop.page;
  at("next").disabled = shop.page >= count - 1;
  at("pager").hidden = count < 2;
  at("empty").hidden = labels.length > 0;
  at("sizes").textContent = stock.isRoll ? t("sizeRoll", mm(stock.width), mm(stock.height), dpi)
    : t("sizeSheet", mm(stock.width), mm(stock.height), t(`page-${stock.page.name}`), mm(stock.page.width),
      mm(stock.page.height), dpi);
}

const mm = (length) => length.toLocaleString(language, { maximumFractionDigits: 1 });

function showLabels() {
  const { labels, faults, stock, question } = shop.made, count = labels.length;
  showSheet();
  at("first").max = stock.cells;
  at("first-field").hidden = stock.isRoll;
  const sum = count ? `${many("labelCount", count)} ${stock.isRoll ? t("onRoll") : many("onSheets", pageCount())}` : "";
  const none = at("list").value.trim() ? remedyText({ key: "noLabels" }) : t("noList");
  at("labels-told").replaceChildren(...toldParts(
    [sum, ""], [faults.length ? many("leftOut", faults.length) : "", "wrong"], [question ? t("oneQuestion") : "", ""],
    [sum || faults.length || question ? "" : none, "soft-told"]));
  at("example").hidden = at("list").value.trim() !== "";
  at("clear").hidden = !at("example").hidden;
  for (const id of OUTPUTS) at(id).disabled = !count;
  showFaults(faults);
  showWarnings();
}

// Shows equal warnings once, with the number of labels and the worst of them.
function showWarnings() {
  const told = new Map();
  for (const { warnings } of new Set(shop.made.labels)) {
    for (const warning of warnings) {
      const { count = 0, worst = warning } = told.get(warning.key) ?? {};
      told.set(warning.key, { count: count + 1, worst: warning.rank < worst.rank ? warning : worst });
    }
  }
  at("warnings").replaceChildren(...[...told.values()].map(
    ({ count, worst }) => make("li", {}, `${many("labelCount", count)}: ${remedyText(worst)}`)));
}

// ---- printing and saving

const paper = new CSSStyleSheet();

// Prints all pages, or that of the edges, at the size of the stock.
function preparePrint() {
  document.body.classList.toggle("sheets", !at("labels").hidden);
  document.adoptedStyleSheets = at("labels").hidden ? [] : [paper];
  if (!shop.made?.isDone || at("labels").hidden) return;
  const { stock, dpi } = shop.made, pages = shop.hasEdges ? [edgesPage(shop.made)] : allPages();
  paper.replaceSync(`@page { size: ${stock.page.width}mm ${stock.page.height}mm; margin: 0 }`);
  at("printed").replaceChildren(...pages.map((page) => svgElement(svgOfPage(page, stock, DOTS_IN_MM[dpi]))));
}

function printEdges() {
  shop.hasEdges = true;
  print();
  shop.hasEdges = false;
}

// The pages as files: one as it is, several in a ZIP.
async function savePages(ending, type, bytesOf) {
  const pages = allPages(), files = [];
  for (const [i, page] of pages.entries()) {
    note(t("saving", i + 1, pages.length));
    files.push({ name: `labels-${String(i + 1).padStart(2, "0")}.${ending}`, bytes: await bytesOf(page) });
    await pause();
  }
  if (files.length === 1) save(files[0].bytes, `labels.${ending}`, type);
  else save(zipOf(files), `labels-${ending}.zip`, "application/zip");
  note(t("saved"));
}

const SAVES = {
  pdf: async ({ stock, dpi }) => {
    save(await pdfOf(allPages(), stock, DOTS_IN_MM[dpi]), "labels.pdf", "application/pdf");
    note(t("saved"));
  },
  svg: ({ stock, dpi }) =>
    savePages("svg", "image/svg+xml", (page) => new TextEncoder().encode(svgOfPage(page, stock, DOTS_IN_MM[dpi]))),
  png: ({ stock, dpi }) => savePages("png", "image/png", (page) => pngOfPage(page, stock, dpi)),
  // One after another, each once, with its number of copies; or row by row, if a roll has several labels across.
  zpl: async ({ stock, cell, labels }) => {
    const { page: { width, height } } = stock, hasRows = stock.isRoll && stock.cells > 1;
    const size = hasRows ? cellOf({ ...stock, width, height }, cell.dots) : cell, parts = [];
    const forms = hasRows ? allPages()
      : [...new Set(labels)].map((drawing) => [{ left: 0, top: 0, drawing }]);
    for (const [i, page] of forms.entries()) {
      parts.push(zplOfPage(page, size, hasRows ? 1 : page[0].drawing.item.copies));
      if (i % 20) continue;
      note(t("savingLabel", i + 1, forms.length));
      await pause();
    }
    save(parts.join(""), "labels.zpl", "text/plain");
    note(t("saved"));
  },
};

// ---- start

function fillStocks() {
  const groups = { a4: make("optgroup"), letter: make("optgroup"), roll: make("optgroup") },
    chosen = at("stock").value || memory.get("stock");
  for (const [name, text] of Object.entries(STOCKS)) {
    const stock = stockOf(text), size = `${mm(stock.width)} × ${mm(stock.height)} mm`;
    const label = !stock.isRoll ? t("stockOption", size, stock.cells, name) : name === text ? size
      : `${size} · ${name}`;
    groups[stock.page.name || "roll"].append(new Option(label, name));
  }
  for (const [name, group] of Object.entries(groups)) group.label = t(`group-${name}`);
  const pages = [...Object.keys(SHOP.pages), "roll"].map((name) => new Option(t(`page-${name}`), name)),
    page = at("own-page").value || "a4";
  at("own-page").replaceChildren(...pages);
  at("own-page").value = page;
  at("stock").replaceChildren(...Object.values(groups), new Option(t("ownSize"), "own"));
  at("stock").value = STOCKS[chosen] || chosen === "own" ? chosen : "3474";
}

// The modules that a printer can print, in whole dots.
function fillModules() {
  const stock = stockChosen(), dots = DOTS_IN_MM[stock ? dpiFor(stock) : 300], before = at("module").value;
  const options = modulesAllowed(SHOP.modules.cases, dots)
    .map((module) => new Option(
      t("moduleOption", module, (module / dots).toLocaleString(language, { maximumFractionDigits: 3 })), `${module}`));
  at("module").replaceChildren(new Option(t("automatic"), "0"), ...options);
  at("module").value = options.some(({ value }) => value === before) ? before : "0";
}

function changeStock() {
  for (const id of ["stock", "look"]) memory.set(id, at(id).value);
  at("own").hidden = at("stock").value !== "own";
  shop.page = 0;
  fillModules();
  document.made = makeLabels();
}

function listenToLabels() {
  at("look").value = memory.get("look") || "price";
  for (const id of ["stock", "look", "dpi"]) at(id).addEventListener("change", changeStock);
  at("own").addEventListener("input", () => { document.made = makeLabels(); });
  for (const id of ["first", "module", "units"])
    at(id).addEventListener("input", () => { document.made = makeLabels(); });
  at("back").addEventListener("click", () => { shop.page--; showSheet(); });
  at("next").addEventListener("click", () => { shop.page++; showSheet(); });
  for (const zoom of ["fit", "real"]) at(`zoom-${zoom}`).addEventListener("click", () => setZoom(zoom));
  at("paper").addEventListener("click", ({ target }) => takeFirst(target.dataset.cell));
  for (const [id, saving] of Object.entries(SAVES))
    at(id).addEventListener("click", () => { document.saved = saving(shop.made); });
  at("print").addEventListener("click", () => print());
  at("align").addEventListener("click", printEdges);
  addEventListener("beforeprint", preparePrint);
  addEventListener("afterprint", () => at("printed").replaceChildren());
}

function setZoom(zoom) {
  shop.zoom = zoom;
  for (const one of ["fit", "real"]) at(`zoom-${one}`).setAttribute("aria-pressed", one === zoom);
  showSheet();
}

// The cell of the first sheet that was tapped is the first free one.
function takeFirst(cell) {
  if (cell === undefined || shop.page || shop.made.stock.isRoll) return;
  if (Number(cell) === firstCell()) return;
  at("first").value = Number(cell) + 1;
  note(t("firstNow", Number(cell) + 1));
  document.made = makeLabels();
}
