// Reads pictures and texts in a worker of its own, so that a page stays quick.
export class Reader {
  #worker;
  #waiting = new Map();
  #last = 0;

  constructor(worker = new Worker(new URL("./worker.js", import.meta.url), { type: "module" })) {
    this.#worker = worker;
    worker.addEventListener("message", ({ data }) => this.#take(data));
    worker.addEventListener("error", (event) => this.#fail(event.error ?? new Error(event.message || "the worker could not start")));
  }

  readScan(text, year, options) { return this.#ask("readScan", [text, year, options]); }

  // The pixels go to the worker, and are no longer there afterwards, if they are in a buffer of their own.
  readPicture({ width, height, data }, year, options) {
    return this.#ask("readPicture", [{ width, height, data }, year, options], data.byteLength === data.buffer.byteLength ? [data.buffer] : []);
  }

  close() {
    this.#worker.terminate();
    this.#fail(new Error("the reader is closed"));
  }

  #ask(call, words, given = []) {
    const id = ++this.#last;
    return new Promise((right, wrong) => {
      this.#waiting.set(id, { right, wrong });
      this.#worker.postMessage({ id, call, words }, given);
    });
  }

  #take({ id, answer, error }) {
    const { right, wrong } = this.#waiting.get(id) ?? {};
    // What was closed waits no more.
    if (!this.#waiting.delete(id)) return;
    if (error) wrong(Object.assign(new Error(error.message ?? `refused ${error.number} ${error.fault}${error.place === undefined ? "" : ` ${error.place}`}`), error));
    else right(answer);
  }

  #fail(error) {
    for (const { wrong } of this.#waiting.values()) wrong(error);
    this.#waiting.clear();
  }
}
