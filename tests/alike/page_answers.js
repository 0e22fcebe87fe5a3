// Answers lines from standard input as c_answers.c does, with the page's scripts.
"use strict";

const fs = require("fs"), path = require("path"), vm = require("vm");
const page = path.join(__dirname, "../../page");

for (const name of "gs1.module gs1 ais values shop core".split(" ")) vm.runInThisContext(fs.readFileSync(path.join(page, `${name}.js`), "utf8"), name);

const inPage = vm.runInThisContext(`({
  async load() { gs1 = await Gs1.load(GS1_WASM_32, 32); core.year = 2026; },
  read: (call, text) => gs1.read(call, ...gs1.put(text), core.terms),
  answer(line) {
    const text = line.slice(2);
    const { refused: wrong, identifier, symbol, elements } = line[0] === "-" ? this.read("gs1_c_read_message", "^" + text)
      : line[0] === "=" ? this.read("gs1_c_read_message", text) : line[0] === "~" ? core.typed(text) : {};
    if (wrong) return wrong;
    const pairs = elements?.map(({ ai, value }) => ai + "=" + value).join("\t");
    if (line[0] === "-") return "data " + pairs;
    if ("=~".includes(line[0])) return ["scan", identifier || "-", Gs1.symbols.indexOf(symbol), gtinOf(elements) ?? "-", pairs].join(" ");
    return core.symbol(Gs1.kinds[line[0]], text);
  },
})`);

inPage.load().then(() => process.stdout.write(fs.readFileSync(0, "latin1").split("\n").slice(0, -1).map((line) => `${inPage.answer(line)}\n`).join("")));
