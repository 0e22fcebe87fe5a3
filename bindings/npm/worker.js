// Answers pages from a worker, so that reading a picture holds up none of them. A message has an id, the name of a call of index.js and its words; the
// reply has the id, and the answer, or the number, the name, the place, the remedy and the fixes of an error. Made for bindings/npm/reader.js.
import { load, Refusal } from "./index.js";

const loading = load();

const plain = (answer) => ({ identifier: answer.identifier, symbol: answer.symbol, gtin: answer.gtin, text: answer.text, elements: answer.elements });

const CALLS = {
  readScan: (gs1, ...words) => plain(gs1.readScan(...words)),
  readPicture(gs1, ...words) {
    const symbols = gs1.readPicture(...words), { dropped, reason } = symbols;
    return { symbols: symbols.map(({ answer, corners, rows }) => ({ answer: plain(answer), corners, rows })), dropped, reason: reason && told(reason) };
  },
};

const told = ({ number, fault, place, remedy, fixes }) => ({ number, fault, place, remedy, fixes });

export async function answer({ id, call, words }) {
  try {
    return { id, answer: CALLS[call](await loading, ...words) };
  } catch (error) {
    return { id, error: error instanceof Refusal ? told(error) : { message: String(error) } };
  }
}

globalThis.addEventListener?.("message", async ({ data }) => postMessage(await answer(data)));
