// Reads drawn labels in a browser by the detector, by the reader's worker and by the entry for texts, and sends what differs to the server. The
// server's Content Security Policy is that of the README.
import { load } from "/package/index.js";
import { BarcodeDetector } from "/package/detector.js";
import { Reader } from "/package/reader.js";
import { load as loadTexts } from "/package/texts.js";

const LABELS = [["ean13", "4012345010008", "ean_13", "4012345010008"], ["ean8", "96385074", "ean_8", "96385074"], ["upca", "012345000065", "upc_a", "012345000065"],
  ["upce", "00012345000065", "upc_a", "012345000065"], ["itf14", "14012345010005", "itf", "14012345010005"], ["gs1128", "10AB\x1d17261231", "code_128", "10AB\x1d17261231"]];
const told = [];

function same(name, wanted, found) {
  const [one, other] = [wanted, found].map((it) => JSON.stringify(it));
  told.push(one === other ? "" : `${name}: ${other}, not ${one}`);
}

// A label as a canvas.
function drawn(gs1, kind, text) {
  const { quietLeft, quietRight, widths } = gs1.labelSymbol(kind, text, 2026), canvas = document.createElement("canvas");
  [canvas.width, canvas.height] = [3 * (quietLeft + quietRight + widths.reduce((sum, width) => sum + width)), 90];
  const pen = canvas.getContext("2d");
  pen.fillStyle = "white";
  pen.fillRect(0, 0, canvas.width, canvas.height);
  pen.fillStyle = "black";
  widths.reduce((at, width, i) => {
    if (i % 2 === 0) pen.fillRect(3 * at, 5, 3 * width, 80);
    return at + width;
  }, quietLeft);
  return canvas;
}

async function main() {
  const gs1 = await load(), detector = new BarcodeDetector(), reader = new Reader(), texts = await loadTexts();
  same("formats", (await BarcodeDetector.getSupportedFormats()).length, 5);
  for (const [kind, text, format, raw] of LABELS) {
    const canvas = drawn(gs1, kind, text), pixels = canvas.getContext("2d").getImageData(0, 0, canvas.width, canvas.height);
    const blob = await new Promise((give) => canvas.toBlob(give)), image = new Image();
    image.src = canvas.toDataURL();
    await image.decode();
    for (const source of [canvas, pixels, blob, image, await createImageBitmap(canvas)]) {
      const found = await detector.detect(source);
      same(`${kind} as ${source.constructor.name}`, [[format, raw, 4]], found.map((it) => [it.format, it.rawValue, it.cornerPoints.length]));
      same(`${kind}: its box`, true, found[0]?.boundingBox.width > 90 && found[0]?.boundingBox.height > 60);
    }
    same(`${kind} wanted as another`, [], await new BarcodeDetector({ formats: [format === "itf" ? "ean_8" : "itf"] }).detect(canvas));
    const { symbols, dropped, reason } = await reader.readPicture(pixels, 2026);
    same(`${kind} by a worker`, [[kind === "upce" ? "upca" : kind], 0, undefined], [symbols.map(({ answer }) => answer.symbol), dropped, reason]);
    same(`${kind}: its pixels went to the worker`, 0, pixels.data.length);
  }
  same("a text by a worker", "(10)AB", (await reader.readScan("]C110AB", 2026)).text);
  same("an error by a worker", [40, "Kind"], await reader.readScan("]E3", 2026).catch(({ number, fault }) => [number, fault]));
  same("texts alone", "04012345010008", texts.readScan("]E04012345010008", 2026).gtin);
  same("an empty list of formats", "TypeError", await Promise.resolve().then(() => new BarcodeDetector({ formats: [] })).catch(({ name }) => name));
  same("a picture without pixels", "InvalidStateError", await detector.detect(new Image()).catch(({ name }) => name));
  reader.close();
}

main().catch((error) => told.push(String(error?.stack ?? error))).then(() => fetch("/told", { method: "POST", body: JSON.stringify(told) }));
