/** The texts of scanners alone, for pages that read no bars: a third of the module of the package's main entry, and the same answers without titles,
 * numbers and remedies. The module is packed, so it needs a `DecompressionStream`: Node 18, and browsers since 2023. */

import type { SymbolKind, Options } from "./index.js";

/** The version and the beginning of the checksum of its sources. */
export const VERSION: string;

/** An error: its number and its name, as docs/FAULTS.md lists them. */
export class Refusal extends Error {
  constructor(number: number, fault: string, place?: number);
  readonly number: number;
  readonly fault: string;
  readonly place: number | undefined;
}

/** An element: an Application Identifier, its value, and the day and the time that it names. */
export interface TextElement {
  readonly ai: string;
  readonly value: string;
  readonly date?: string;
  readonly until?: string;
  readonly time?: string;
}

/** What a text from a scanner says. */
export interface TextAnswer {
  readonly identifier: string | undefined;
  readonly symbol: SymbolKind | undefined;
  readonly elements: readonly TextElement[];
  readonly gtin: string | undefined;
  readonly text: string;
}

export interface Texts {
  /** What a text from a scanner says, by its symbology identifier. */
  readScan(text: string | Uint8Array, year: number, options?: Options): TextAnswer;
  /** The elements of an element string. Byte 29 is the separator. */
  parseElements(text: string | Uint8Array, year: number, options?: Options): readonly TextElement[];
  /** The 14 digits of a GTIN that is written with 8, 12, 13 or 14. */
  readGtin(text: string | Uint8Array): string;
}

/** Loads the module. */
export function load(): Promise<Texts>;
