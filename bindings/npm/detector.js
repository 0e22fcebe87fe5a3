// The BarcodeDetector of the W3C Shape Detection API over this package, for pages that are written for it. It reads EAN-13, EAN-8, UPC-A,
// ITF-14 and GS1-128, and a UPC-E as the UPC-A that it stands for: in a picture they are not told apart.
import { load } from "./index.js";

const FORMATS = { ean13: "ean_13", ean8: "ean_8", upca: "upc_a", itf14: "itf", gs1128: "code_128" };

let loading;

export class BarcodeDetector {
  #formats;

  constructor({ formats = Object.values(FORMATS) } = {}) {
    const known = Array.from(formats, String);
    if (!known.length) throw new TypeError("name a format, such as ean_13");
    this.#formats = new Set(known);
  }

  static async getSupportedFormats() { return Object.values(FORMATS); }

  async detect(source) {
    const gs1 = await (loading ??= load());
    return gs1.readPicture(await pixelsOf(source), new Date().getFullYear()).map((symbol) => detected(gs1, symbol)).filter(({ format }) => this.#formats.has(format));
  }
}

// As browsers report a symbol: the digits of its bars, or the element string with byte 29 as the separator.
function detected(gs1, { answer, corners }) {
  const format = FORMATS[answer.symbol], xs = corners.map(({ x }) => x), ys = corners.map(({ y }) => y), x = Math.min(...xs), y = Math.min(...ys);
  return {
    format, rawValue: rawOf(gs1, answer), boundingBox: DOMRectReadOnly.fromRect({ x, y, width: Math.max(...xs) - x, height: Math.max(...ys) - y }),
    cornerPoints: corners.map(({ x: across, y: down }) => ({ x: across, y: down })), answer,
  };
}

function rawOf(gs1, { symbol, gtin, elements }) {
  if (symbol === "gs1128") return gs1.compose(elements);
  return gtin.slice({ ean8: 6, upca: 2, ean13: 1, itf14: 0 }[symbol]);
}

// The pixels of whatever a page can draw.
async function pixelsOf(source) {
  if (source instanceof ImageData) return source;
  const image = source instanceof Blob ? await createImageBitmap(source) : source;
  const [width, height] = ["Width", "Height"].map((side) => image[`video${side}`] || image[`natural${side}`] || image[`display${side}`] || Number(image[side.toLowerCase()]));
  if (!(width > 0 && height > 0)) throw new DOMException("the picture has no pixels yet", "InvalidStateError");
  const canvas = new OffscreenCanvas(width, height), pen = canvas.getContext("2d", { willReadFrequently: true });
  pen.drawImage(image, 0, 0);
  return pen.getImageData(0, 0, width, height);
}
