// @ts-check
// The font of labels, Helvetica or one with its widths (Arial, Liberation Sans), which every PDF reader has: the widths
// of texts, in thousandths of their size, and where signs have ink.
"use strict";

const FAMILY = "Arial, Helvetica, 'Liberation Sans', sans-serif";

const WIDTHS = {
  regular: {
    191: "'", 222: "ijl‚‘’", 260: "|¦", 278: " !,./:;I[\\]ft ·ÌÍÎÏìíîï", 333: "()-`r„ˆ‹“”˜›¡¨­²³´¸¹", 334: "{}",
    350: "•", 355: "\"", 365: "º", 370: "ª", 389: "*", 400: "°", 469: "^", 500: "Jcksvxyzšžçýÿ", 537: "¶",
    549: "±÷", 552: "¯", 556: "#$0123456789?L_abdeghnopqu€ƒ†‡–¢£¤¥§«»àáâãäåèéêëðñòóôõöùúûüþ", 576: "µ",
    584: "+<=>~¬×", 611: "FTZŽ¿ßø", 667: "&ABEKPSVXYŠŸÀÁÂÃÄÅÈÉÊËÝÞ", 722: "CDHNRUwÇÐÑÙÚÛÜ", 737: "©®",
    778: "GOQÒÓÔÕÖØ", 833: "Mm", 834: "¼½¾", 889: "%æ", 944: "Wœ", 1000: "…‰Œ—™Æ", 1015: "@",
  },
  bold: {
    238: "'", 278: " ,./I\\ijl‚‘’ ·ÌÍÎÏìíîï", 280: "|¦", 333: "!()-:;[]`ftˆ‹˜›¡¨­²³´¸¹", 350: "•", 365: "º",
    370: "ª", 389: "*r{}", 400: "°", 474: "\"", 500: "z„“”ž", 549: "±÷", 552: "¯",
    556: "#$0123456789J_aceksvxy€ƒ†‡–š¢£¤¥§«¶»àáâãäåçèéêëýÿ", 576: "µ", 584: "+<=>^~¬×",
    611: "?FLTZbdghnopquŽ¿ßðñòóôõöøùúûüþ", 667: "EPSVXYŠŸÈÉÊËÝÞ", 722: "&ABCDHKNRUÀÁÂÃÄÅÇÐÑÙÚÛÜ", 737: "©®",
    778: "GOQwÒÓÔÕÖØ", 833: "M", 834: "¼½¾", 889: "%mæ", 944: "Wœ", 975: "@", 1000: "…‰Œ—™Æ",
  },
};

const WIDTH_OF = Object.fromEntries(Object.entries(WIDTHS).map(([name, widths]) =>
  [name,
    new Map(Object.entries(widths).flatMap(([width, signs]) => Array.from(signs, (sign) => [sign, +width / 1000])))]));

const measure = document.createElement("canvas").getContext("2d");

// Whether PDF's own Helvetica has all characters of a text.
const isLatin = (text) => Array.from(text).every((sign) => WIDTH_OF.bold.has(sign));

// The width of a text in the unit of its size; for characters beyond Western Europe by the browser's font.
function widthOfText(text, isBold) {
  if (isLatin(text))
    return Array.from(text).reduce((sum, sign) => sum + WIDTH_OF[isBold ? "bold" : "regular"].get(sign), 0);
  measure.font = `${isBold ? "bold " : ""}100px ${FAMILY}`;
  return measure.measureText(text).width / 100;
}

// Where signs have ink, and their widths, in sizes, so far.
const inks = new Map();

// How far a sign goes up and down from its base line, and beside its width, which is that of its place in a line.
function inkOf(sign, isBold) {
  const key = `${Number(isBold)}${sign}`;
  if (!inks.has(key)) {
    measure.font = `${isBold ? "bold " : ""}100px ${FAMILY}`;
    const { actualBoundingBoxLeft: left, actualBoundingBoxRight: right, actualBoundingBoxAscent: up,
      actualBoundingBoxDescent: down } = measure.measureText(sign);
    inks.set(key, { left: Math.max(0, left / 100), right: right / 100, up: up / 100, down: down / 100,
      wide: widthOfText(sign, isBold) });
  }
  return inks.get(key);
}

// Signs that each list has, and how far most go up and down.
const ALWAYS = " …()0123456789", UP = 0.9, DOWN = 0.22;

// A font of these signs as gs1.h has it. Lines are farther apart if some are higher than most.
function fontOf(signs, isBold) {
  const found = signs.map((sign) => ({ code: sign.codePointAt(0), ...inkOf(sign, isBold) })),
    unit = (length) => Math.min(65535, Math.ceil(16384 * length));
  const most = (ofInk, least) => found.reduce((so, ink) => Math.max(so, ofInk(ink)), least),
    widths = new Uint16Array(1 + most(({ code }) => code, 0));
  for (const { code, left, right, wide } of found) widths[code] = unit(left + Math.max(right, wide, 1e-4));
  return { widths, other: unit(widthOfText("0", isBold)), up: unit(most(({ up }) => up, UP)),
    down: unit(most(({ down }) => down, DOWN)),
    digits: unit(Math.max(...Array.from("0123456789", (digit) => inkOf(digit, isBold).up)) + 0.02) };
}
