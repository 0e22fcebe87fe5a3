/** Reads pictures and texts in a worker of its own, so that a page stays quick. For browsers: in Node, call `load` of `noriladle` in a worker thread. */

import type { Gs1Element, Options, Pixels, SymbolKind } from "./index.js";

/** What a symbol or a text says, as a worker can send it. */
export interface PlainAnswer {
  readonly identifier: string | undefined;
  readonly symbol: SymbolKind | undefined;
  readonly gtin: string | undefined;
  readonly text: string;
  readonly elements: readonly Gs1Element[];
}

/** An error as a worker can send it. The error with which a call ends has these parts too. */
export interface PlainRefusal {
  readonly number: number;
  readonly fault: string;
  readonly place: number | undefined;
  readonly remedy: string;
  readonly fixes: readonly string[];
}

export class Reader {
  /** Starts the worker of this package, unless you give one that runs `noriladle/worker`. */
  constructor(worker?: Worker);
  readScan(text: string | Uint8Array, year: number, options?: Options): Promise<PlainAnswer>;
  /** The pixels go to the worker, and are no longer there afterwards, if they are in a buffer of their own. */
  readPicture(pixels: Pixels, year: number, options?: Options & { level?: number }): Promise<{
    readonly symbols: readonly { readonly answer: PlainAnswer; readonly corners: readonly { readonly x: number; readonly y: number }[]; readonly rows: number }[];
    readonly dropped: number;
    readonly reason: PlainRefusal | undefined;
  }>;
  /** Ends the worker; what still waits ends with an error. */
  close(): void;
}
