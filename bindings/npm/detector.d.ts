/** The BarcodeDetector of the W3C Shape Detection API over this package, for pages that are written for it. A UPC-E is read as the UPC-A that it
 * stands for: in a picture they are not told apart. */

import type { Answer } from "./index.js";

export type BarcodeFormat = "ean_13" | "ean_8" | "upc_a" | "itf" | "code_128";

export interface DetectedBarcode {
  readonly boundingBox: DOMRectReadOnly;
  readonly cornerPoints: readonly { readonly x: number; readonly y: number }[];
  readonly format: BarcodeFormat;
  /** The digits of the symbol, or the element string of a GS1-128, with byte 29 as the separator. */
  readonly rawValue: string;
  /** What it says. A browser's own detector has no such part. */
  readonly answer: Answer;
}

export class BarcodeDetector {
  constructor(options?: { formats?: Iterable<BarcodeFormat> });
  static getSupportedFormats(): Promise<BarcodeFormat[]>;
  detect(source: ImageData | Blob | CanvasImageSource): Promise<DetectedBarcode[]>;
}
