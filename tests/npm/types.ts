// What the types let a caller write, and what they refuse.
import { load, Refusal, type Answer, type Gs1Element, type Gs1Symbols, type LabelSymbol, type SymbolKind } from "noriladle";
import { BarcodeDetector, type DetectedBarcode } from "noriladle/detector";
import { Reader } from "noriladle/reader";
import { load as loadTexts, type TextAnswer } from "noriladle/texts";

const gs1 = await load();
const answer: Answer = gs1.readScan("]E09501101530003", 2026);
const elements: readonly Gs1Element[] = [...answer];
const gtin: string | undefined = answer.gtin ?? gs1.readText("(01)09501101530003", 2026).gtinAs(13);
const kind: SymbolKind | undefined = answer.symbol;
const expiry: string | undefined = answer["17"]?.date;
const digit: number = gs1.checkDigit("950110153000");
const image: Uint8Array = gs1.drawLabel("ean13", "9501101530003", { year: 2026, width: 113, height: 3, ais: "profile" });
const symbol: LabelSymbol = gs1.labelSymbol("upce", "00012345000065", 2026);
const corners: readonly { x: number; y: number }[] = gs1.readPicture({ width: 1, height: 1, data: new Uint8ClampedArray(4) }, 2026, { level: 99 })[0]?.corners ?? [];
const text: string = gs1.compose([["01", "09501101530003"], { ai: "10", value: "AB" }]);
export const written: string[] = [gs1.scanText(answer, "]d2"), gs1.link(answer), gs1.link(elements, "https://x.de", 2026)];
export const many: (string | undefined)[] = [...gs1.readScans(["]C110AB"], 2026), ...gs1.readGtins(["1"])].map((it) => (it instanceof Refusal || typeof it === "string" ? undefined : it.gtin));
const told: string[] = gs1.conflicts(answer).map((it) => it.text);
export const number: number | undefined = ((error: unknown) => (error instanceof Refusal ? error.number + error.before.length : undefined))(undefined);
const pictured: Gs1Symbols = gs1.readPicture({ width: 1, height: 1, data: new Uint8ClampedArray(4) }, 2026);
export const why: readonly string[] = pictured.reason?.fixes ?? [pictured.reason?.remedy ?? String(pictured.dropped)];
export const scanned: TextAnswer = (await loadTexts()).readScan("]C110AB", 2026);
export const seen = async (image: Blob): Promise<DetectedBarcode[]> => new BarcodeDetector({ formats: ["ean_13"] }).detect(image);
export const read = async (reader: Reader, picture: ImageData): Promise<string | undefined> => (await reader.readPicture(picture, 2026)).symbols[0]?.answer.gtin;
// @ts-expect-error: there is no such format.
new BarcodeDetector({ formats: ["qr_code"] });
// @ts-expect-error: the year is wanted.
gs1.readScan("]E09501101530003");
// @ts-expect-error: there is no such kind.
gs1.drawLabel("qr", "1", { year: 2026, width: 1, height: 1 });
// @ts-expect-error: an answer is not to be changed.
answer.identifier = "]E4";
// @ts-expect-error: there is no such symbol.
answer.symbol === "code39";
// @ts-expect-error: there are two sets of AIs.
gs1.readScan("]E09501101530003", 2026, { ais: "some" });
// @ts-expect-error: an element has no such part.
answer["17"]?.day;
export { elements, gtin, kind, expiry, digit, image, symbol, corners, text, told };
