// @ts-check
// Scans become labels: those of the articles in the list whose codes were read, in the order of the list. Without a
// list, the codes are the list.
"use strict";

/** @typedef {{ ai: string, value: string }} Pair */

// The GTINs that labels are made of, each with what was read; nothing if they are made of the whole list.
/** @type {Map<string, string> | null} */
let wantedGtins = null;

/** @param {Pair[] | undefined} pairs @returns {string | undefined} */
const gtinIn = (pairs) => pairs?.find(({ ai }) => ai === "01")?.value;

// Makes labels of what was read. What has no GTIN stays out, and is counted.
function labelScanned() {
  const symbols = pictures.flatMap(({ symbols: seen }) => seen).reverse(),
    listed = symbols.filter(({ pairs }) => gtinIn(pairs));
  const read = new Map(listed.map(({ pairs, line }) => [gtinIn(pairs), shownOf(line).says]));
  if (at("list").value.trim()) wantedGtins = read;
  else {
    setList([...read.values(), ""].join("\n"));
    asked.columns.price = -1;
  }
  shop.page = 0;
  showTask("labels");
  makeAgain();
  if (listed.length < symbols.length) note(many("noGtin", symbols.length - listed.length));
}

// The articles that were scanned, or all; and what was read that none of them has.
function scannedOf(articles) {
  if (!wantedGtins) return { articles, missing: [] };
  const wanted = new Map(wantedGtins), gtinOf = ({ answer, typed }) => gtinIn((answer ?? readText(typed)).elements);
  const found = articles.map((article) => ({ article, gtin: gtinOf(article) })).filter(({ gtin }) => wanted.has(gtin));
  for (const { gtin } of found) wanted.delete(gtin);
  return { articles: found.map(({ article }) => article), missing: [...wanted.values()] };
}

// Says that labels are of scanned codes alone, and which of these the list has not.
function showScanned(missing) {
  at("scanned").hidden = !wantedGtins;
  at("scanned-told").textContent = wantedGtins ? many("scannedOnly", wantedGtins.size) : "";
  at("not-listed").textContent = missing.length ? t("notListed", missing.join(", ")) : "";
}

function listenToScanned() {
  at("read-labels").addEventListener("click", labelScanned);
  at("scanned-all").addEventListener("click", () => { wantedGtins = null; makeAgain(); });
}
