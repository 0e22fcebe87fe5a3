// @ts-check
// Label stock, written in text as bindings/python/noriladle/labels/_stocks.py takes it, in millimetres: columns and rows
// of a page, width and height of labels, the gaps between them, the page, and where the first label begins; for a roll
// only width and height. Two grids have & between them. Known stock is in tables/shop/shop.json.
"use strict";

const STOCKS = { ...SHOP.sheets, ...SHOP.rolls };

const LENGTH = "(\\d{1,4}(?:\\.\\d{1,4})?)", SIDES = `${LENGTH}x${LENGTH}`;
const GRID = RegExp(`^(?:(\\d{1,2})x(\\d{1,2}):)?${SIDES}(?:\\+${LENGTH}\\+${LENGTH})?(?:@([\\w.]+))?`
  + `(?:/${LENGTH}/${LENGTH})?$`);

// The page and the labels of a grid, which is in the middle unless the text says where it begins; or nothing.
function gridTold(text) {
  const told = text.match(GRID), own = told?.[7]?.match(`^${SIDES}$`);
  if (!told || told[7] && !own && !SHOP.pages[told[7]]) return null;
  const [columns, rows] = [told[1] ?? 1, told[2] ?? 1].map(Number), name = own || !told[1] ? "" : told[7] ?? "a4";
  const [width, height, gapX, gapY] = [told[3], told[4], told[5] ?? 0, told[6] ?? 0].map(Number);
  const [wide, high] = own ? own.slice(1).map(Number) : SHOP.pages[name] ?? [width, height];
  const across = width + gapX, down = height + gapY, isPlaced = told[8] !== undefined;
  const left = isPlaced ? Number(told[8]) : (wide - (columns - 1) * across - width) / 2,
    top = isPlaced ? Number(told[9]) : (high - (rows - 1) * down - height) / 2;
  return { page: { name, width: wide, height: high }, width, height, columns, rows, left, top, across, down };
}

// The stock of such a text; or nothing if it is none, is larger than its page, or has no label of a usable size.
function stockOf(text) {
  const grids = text.split("&").map(gridTold), [first] = grids, { unprinted, least, most } = SHOP.label;
  if (!first || grids.some((it) => !it || it.width !== first.width || it.height !== first.height)) return null;
  const { page, width, height } = first, counts = grids.map(({ columns, rows }) => columns * rows),
    cells = counts.reduce((sum, count) => sum + count, 0);
  const aside = Math.min(...grids.flatMap(({ left, columns, across }) =>
    [left, page.width - left - (columns - 1) * across - width]));
  const above = Math.min(...grids.flatMap(({ top, rows, down }) =>
    [top, page.height - top - (rows - 1) * down - height]));
  if (counts.includes(0) || Math.min(width, height) < least || Math.max(page.width, page.height) > most
    || Math.min(aside, above) < -0.01) return null;
  const own = Math.min(5, Math.max(1.2, 0.06 * height)), isRoll = !page.name;
  const edge = cells > 1 && !isRoll ? unprinted : 0;
  return {
    isRoll, page, width, height, cells,
    // How much stays white at the sides of each label, and above and below.
    aside: Math.max(own, edge - aside), above: Math.max(own, edge - above),
    // The left and the upper edge of a cell; cells count row by row, and grid by grid.
    place: (cell) => {
      let at = cell, grid = first;
      for (grid of grids) {
        if (at < grid.columns * grid.rows) break;
        at -= grid.columns * grid.rows;
      }
      return { left: grid.left + at % grid.columns * grid.across,
        top: grid.top + Math.floor(at / grid.columns) * grid.down };
    },
  };
}
