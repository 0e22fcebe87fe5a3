// For the compiler alone: what browsers have that TypeScript of Debian 12 does not know, what a service worker has, and
// what the page's scripts keep at the document so that tests can wait for it.

declare class CompressionStream { constructor(format: string); readonly readable: ReadableStream; readonly writable: WritableStream }
declare class DecompressionStream { constructor(format: string); readonly readable: ReadableStream; readonly writable: WritableStream }
declare class OffscreenCanvas {
  constructor(width: number, height: number);
  width: number;
  height: number;
  getContext(kind: "2d", options?: object): any;
  convertToBlob(options?: object): Promise<Blob>;
}
interface Array<T> {
  toReversed(): T[];
  toSorted(compare?: (one: T, other: T) => number): T[];
}
interface Document {
  made: unknown;
  started: unknown;
  taken: unknown;
  read: unknown;
  copied: unknown;
  saved: unknown;
}
interface ParentNode { querySelectorAll(selectors: string): NodeListOf<any> }
declare function addEventListener(kind: string, listener: (event: any) => void): void;
