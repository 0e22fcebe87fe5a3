// @ts-check
// Drawn pages of labels as SVG, PDF, PNG and ZPL, each with every bar at its dots. A page is a list of
// { left, top, drawing } in dots.
"use strict";

// A text in XML, which has no control characters (XML 1.0, 2.2).
const escaped = (text) => text.replace(/[^\t\n\r -\ud7ff\ue000-\ufffd\u{10000}-\u{10ffff}]/gu, "\ufffd")
  .replace(/[&<>"]/g, (sign) => `&#${sign.charCodeAt(0)};`);
const places = (number) => String(Math.round(number * 100) / 100);

// ---- SVG

// A label's bars as one path, and its texts, each fitted to its width, so another font makes no difference.
function svgOfLabel({ left, top, drawing }) {
  const path = drawing.boxes.map(([x, y, width, height]) => `M${x} ${y}h${width}v${height}h${-width}z`).join("");
  const texts = drawing.texts.map((text) => {
    const pieces = piecesOf(text),
      fit = text.cell ? "" : ` textLength="${places(pieces[0].wide)}" lengthAdjust="spacingAndGlyphs"`;
    const look = text.isBold ? ' font-weight="bold"' : text.isStruck ? ' class="struck"' : "";
    return `<text x="${pieces.map(({ middle }) => places(middle)).join(" ")}" y="${places(text.base)}"`
      + ` font-size="${places(text.size)}"${look}${fit}>${escaped(text.text)}</text>`;
  });
  return `<g transform="translate(${left} ${top})"><path d="${path}" shape-rendering="crispEdges"/>`
    + `${texts.join("")}</g>`;
}

// A page at its size in millimetres; `below` is drawn under the labels.
function svgOfPage(page, stock, dots, below = "") {
  const [width, height] = [stock.page.width * dots, stock.page.height * dots];
  return `<svg xmlns="http://www.w3.org/2000/svg" width="${stock.page.width}mm" height="${stock.page.height}mm"`
    + ` viewBox="0 0 ${places(width)} ${places(height)}" font-family="${FAMILY}" text-anchor="middle">`
    + `<rect width="100%" height="100%" fill="white"/>${below}${page.map(svgOfLabel).join("\n")}</svg>\n`;
}

// ---- dots

// Draws a text in the browser's fonts, with its pieces at their widths.
function paintText(pen, text) {
  pen.font = `${text.isBold ? "bold " : ""}${text.size}px ${FAMILY}`;
  [pen.textAlign, pen.textBaseline] = ["left", "alphabetic"];
  for (const { text: said, middle, wide } of piecesOf(text)) {
    const scale = wide / (pen.measureText(said).width || 1);
    pen.save();
    pen.beginPath();
    pen.rect(...text.box);
    pen.clip();
    pen.translate(middle - wide / 2, text.base);
    pen.scale(scale, 1);
    pen.fillText(said, 0, 0);
    pen.restore();
  }
}

function canvasOf(width, height) {
  const canvas = new OffscreenCanvas(Math.max(1, Math.ceil(width)), Math.max(1, Math.ceil(height))),
    pen = canvas.getContext("2d", { willReadFrequently: true });
  pen.fillStyle = "white";
  pen.fillRect(0, 0, canvas.width, canvas.height);
  pen.fillStyle = "black";
  return { canvas, pen };
}

// The box of a text in whole dots, and its grey values there.
function rasterOf(text) {
  const pieces = piecesOf(text), wide = Math.max(...pieces.map((piece) => piece.wide));
  const left = Math.floor(pieces[0].middle - wide / 2) - 1, [, top, , high] = text.box;
  const width = Math.ceil(pieces.at(-1).middle + wide / 2) + 1 - left, { canvas, pen } = canvasOf(width, high);
  pen.translate(-left, -top);
  paintText(pen, text);
  return { left, top, ...greyOf(pen.getImageData(0, 0, canvas.width, canvas.height)) };
}

// The check of a PNG's chunk and of a ZIP's file (PNG, annex D).
function crc32(bytes) {
  let rest = 0xffffffff;
  for (const byte of bytes) rest = CRCS[(rest ^ byte) & 255] ^ rest >>> 8;
  return ~rest >>> 0;
}

const CRCS = Uint32Array.from({ length: 256 }, (_, byte) => {
  for (let bit = 0; bit < 8; bit++) byte = byte & 1 ? byte >>> 1 ^ 0xedb88320 : byte >>> 1;
  return byte;
});

// A PNG with its resolution: a chunk pHYs after its 33 bytes of head.
function withResolution(png, dpi) {
  const chunk = new DataView(new ArrayBuffer(21));
  chunk.setUint32(0, 9);
  [..."pHYs"].forEach((letter, i) => chunk.setUint8(4 + i, letter.charCodeAt(0)));
  chunk.setUint32(8, RESOLUTIONS[dpi]);
  chunk.setUint32(12, RESOLUTIONS[dpi]);
  chunk.setUint8(16, 1);
  chunk.setUint32(17, crc32(new Uint8Array(chunk.buffer, 4, 13)));
  return joinedBytes([png.subarray(0, 33), new Uint8Array(chunk.buffer), png.subarray(33)]);
}

function joinedBytes(parts) {
  const whole = new Uint8Array(parts.reduce((sum, { length }) => sum + length, 0));
  parts.reduce((at, part) => (whole.set(part, at), at + part.length), 0);
  return whole;
}

async function pngOfPage(page, stock, dpi) {
  const dots = DOTS_IN_MM[dpi],
    { canvas, pen } = canvasOf(Math.round(stock.page.width * dots), Math.round(stock.page.height * dots));
  for (const placed of page) {
    paintTexts(pen, placed);
    for (const box of placed.drawing.boxes) pen.fillRect(...box);
  }
  return withResolution(new Uint8Array(await (await canvas.convertToBlob({ type: "image/png" })).arrayBuffer()), dpi);
}

// ---- ZPL

// A label, or those of a row, as ZPL: a box for each bar, and all texts as one field of dots, so it needs no font of
// the printer's.
function zplOfPage(page, { width, height }, copies) {
  const boxes = page.flatMap(({ left, top, drawing }) => drawing.boxes.map(([x, y, wide, high]) =>
    `^FO${left + x},${top + y}^GB${wide},${high},${Math.min(wide, high)}^FS`));
  return ["^XA", `^PW${width}`, `^LL${height}`, "^LH0,0", ...boxes, zplOfTexts(page, width, height), `^PQ${copies}`,
    "^XZ", ""].join("\n");
}

// Draws the texts of labels at their places.
function paintTexts(pen, { left, top, drawing }) {
  pen.setTransform(1, 0, 0, 1, left, top);
  for (const text of drawing.texts) paintText(pen, text);
}

function zplOfTexts(page, width, height) {
  const { canvas, pen } = canvasOf(width, height), stride = (width + 7) >> 3, rows = [];
  for (const placed of page) paintTexts(pen, placed);
  const pixels = new Uint32Array(pen.getImageData(0, 0, canvas.width, canvas.height).data.buffer);
  for (let y = 0; y < height; y++) {
    const row = new Uint8Array(stride);
    let isBlank = true;
    for (let x = 0, at = y * width; x < width; x++, at++) {
      if ((pixels[at] & 255) >= 128) continue;
      row[x >> 3] |= 128 >> (x & 7);
      isBlank = false;
    }
    rows.push(isBlank ? "," : zplOfRow(row));
  }
  const told = rows.map((row, y) => y && row === rows[y - 1] ? ":" : row).join("");
  return `^FO0,0^GFA,${stride * height},${stride * height},${stride},${told}^FS`;
}

const HEX = Array.from({ length: 256 }, (_, byte) => byte.toString(16).padStart(2, "0").toUpperCase());

// A row in hexadecimal digits, 1 is dark: G to Y before a digit stand for 1 to 19 of it, g to z for 20 to 400, and a
// comma for zeros up to the end.
function zplOfRow(row) {
  const hex = Array.from(row, (byte) => HEX[byte]).join("").replace(/0+$/, ",");
  const count = (times) => (times >= 20 ? "ghijklmnopqrstuvwxyz"[Math.floor(times / 20) - 1] : "")
    + (times % 20 ? "GHIJKLMNOPQRSTUVWXY"[times % 20 - 1] : "");
  return hex.replace(/([0-9A-F])\1{2,399}/g, (run, digit) => count(run.length) + digit);
}

// ---- PDF

// How many dots PDF lacks at each edge of a box, since some programs blacken every dot that a box touches.
const INSET = 0.05;

// The byte of each sign in PDF's WinAnsiEncoding.
const WIN_ANSI = new Map(Array.from(textIn(Uint8Array.from({ length: 256 }, (_, byte) => byte), "cp1252"),
  (sign, byte) => [sign, byte]));
const pdfString =
  (text) => `<${Array.from(text, (sign) => WIN_ANSI.get(sign).toString(16).padStart(2, "0")).join("")}>`;

async function deflated(bytes) {
  return new Uint8Array(
    await new Response(new Blob([bytes]).stream().pipeThrough(new CompressionStream("deflate"))).arrayBuffer());
}

// A PDF file, object by object. Streams are compressed.
class Pdf {
  constructor() {
    this.parts = [];
    this.size = 0;
    this.at = [];
    this.put("%PDF-1.4\n%âãÏÓ\n");
  }

  put(part) {
    const bytes = typeof part === "string" ? Uint8Array.from(part, (sign) => sign.charCodeAt(0)) : part;
    this.parts.push(bytes);
    this.size += bytes.length;
  }

  object(number, text) {
    this.at[number] = this.size;
    this.put(`${number} 0 obj\n${text}\nendobj\n`);
  }

  async stream(number, bytes, words = "") {
    const packed = await deflated(bytes);
    this.at[number] = this.size;
    this.put(`${number} 0 obj\n<<${words}/Filter/FlateDecode/Length ${packed.length}>>stream\n`);
    this.put(packed);
    this.put("\nendstream\nendobj\n");
  }

  end(root) {
    const from = this.size, count = this.at.length;
    const offsets = this.at.slice(1).map((at) => `${String(at).padStart(10, "0")} 00000 n \n`).join("");
    this.put(`xref\n0 ${count}\n0000000000 65535 f \n${offsets}`);
    this.put(`trailer\n<</Size ${count}/Root ${root} 0 R>>\nstartxref\n${from}\n%%EOF\n`);
    return joinedBytes(this.parts);
  }
}

// All pages as one PDF, which asks for printing at 100 %. Texts with characters that Helvetica lacks are pictures.
async function pdfOf(pages, stock, dots) {
  const pdf = new Pdf(), point = 72 / 25.4 / dots,
    [width, height] = [stock.page.width, stock.page.height].map((length) => places(length * 72 / 25.4));
  let next = 5;
  const kids = [];
  for (const page of pages) {
    const [number, content] = [next, next + 1], images = [];
    next += 2;
    const down = (top) => (stock.page.height * 72 / 25.4 - top * point).toFixed(4);
    const code = page.map(({ left, top, drawing }) =>
      `q ${point.toFixed(6)} 0 0 ${point.toFixed(6)} ${(left * point).toFixed(4)} ${down(top)} cm\n`
      + `${pdfOfLabel(drawing, images)}Q\n`).join("");
    await pdf.stream(content, new TextEncoder().encode(code));
    for (const image of images)
      await pdf.stream(image.number = next++, image.grey, "/Type/XObject/Subtype/Image/ColorSpace/DeviceGray"
        + `/BitsPerComponent 8/Width ${image.width}/Height ${image.height}`);
    const named = images.map(({ name, number: at }) => `/${name} ${at} 0 R`).join("");
    pdf.object(number, `<</Type/Page/Parent 2 0 R/MediaBox[0 0 ${width} ${height}]/Contents ${content} 0 R`
      + `/Resources<</Font<</F1 3 0 R/F2 4 0 R>>/XObject<<${named}>>>>>>`);
    kids.push(number);
  }
  pdf.object(1, "<</Type/Catalog/Pages 2 0 R/ViewerPreferences<</PrintScaling/None>>>>");
  pdf.object(2, `<</Type/Pages/Count ${kids.length}/Kids[${kids.map((kid) => `${kid} 0 R`).join(" ")}]>>`);
  ["Helvetica", "Helvetica-Bold"].forEach(
    (name, i) => pdf.object(3 + i, `<</Type/Font/Subtype/Type1/BaseFont/${name}/Encoding/WinAnsiEncoding>>`));
  return pdf.end(1);
}

function pdfOfLabel({ boxes, texts }, images) {
  const lines = boxes.map(([x, y, width, height]) =>
    `${x + INSET} ${places(-y - height + INSET)} ${places(width - 2 * INSET)} ${places(height - 2 * INSET)} re`);
  return `${lines.join("\n")} f\n${texts.map((text) => pdfOfText(text, images)).join("")}`;
}

function pdfOfText(text, images) {
  if (!isLatin(text.text)) return pdfOfImage(rasterOf(text), images);
  const [{ middle, wide }] = piecesOf(text), space = text.cell ? text.cell - wide : 0;
  return `BT /F${text.isBold ? 2 : 1} ${places(text.size)} Tf ${space.toFixed(3)} Tc`
    + ` ${places(middle - wide / 2)} ${places(-text.base)} Td ${pdfString(text.text)} Tj ET\n`;
}

function pdfOfImage(raster, images) {
  const name = `I${images.length}`;
  images.push({ name, ...raster });
  return `q ${raster.width} 0 0 ${raster.height} ${raster.left} ${-raster.top - raster.height} cm /${name} Do Q\n`;
}

// ---- ZIP

// Files in a ZIP, not compressed (PKWARE's APPNOTE, 4.3).
function zipOf(files) {
  const parts = [], heads = [];
  let at = 0;
  const record = (mark, fields) => {
    const bytes = new DataView(new ArrayBuffer(4 + fields.reduce((sum, [size]) => sum + size, 0)));
    bytes.setUint32(0, mark, true);
    let place = 4;
    for (const [size, value] of fields)
      (size === 2 ? bytes.setUint16(place, value, true) : bytes.setUint32(place, value, true), place += size);
    return new Uint8Array(bytes.buffer);
  };
  for (const { name, bytes } of files) {
    const word = new TextEncoder().encode(name),
      both = [[2, 20], [2, 0x800], [2, 0], [2, 0], [2, 33], [4, crc32(bytes)], [4, bytes.length], [4, bytes.length],
        [2, word.length], [2, 0]];
    parts.push(record(0x04034b50, both), word, bytes);
    heads.push(record(0x02014b50, [[2, 20], ...both, [2, 0], [2, 0], [2, 0], [4, 0], [4, at]]), word);
    at += 30 + word.length + bytes.length;
  }
  const size = heads.reduce((sum, { length }) => sum + length, 0);
  return joinedBytes([...parts, ...heads,
    record(0x06054b50, [[2, 0], [2, 0], [2, files.length], [2, files.length], [4, size], [4, at], [2, 0]])]);
}
