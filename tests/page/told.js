// What the page tells of a file's bytes, in the words of its language: the articles, the errors of the other lines, and their numbers
// that are clear. Node and browsers run it beside the page's scripts.
"use strict";

globalThis.toldOf = async (bytes) => {
  const said = ({ line, fault }) =>
    [line, [fault.typed && shortText(fault.typed), fault.refused, faultText(fault)].filter(Boolean).join(": ")];
  const inOrder = (faults) => faults.sort(([a, one], [b, other]) => a - b || (one < other ? -1 : 1));
  const none = { articles: [], fixes: [], unused: [], passed: [], opened: [] };
  try {
    const read = await fileRead(bytes);
    if (read.question) return { ...none, faults: [said({ line: 1, fault: read.question })] };
    const table = tableOf(read), { question, unused, passed } = table, all = articlesOf(table, { ...NOTHING_SAID, units: table.places.content ? ["kg", "100ml"] : [] });
    const articles = all.filter(({ fault }) => !fault)
      .map(({ line, kind, text, name, price, fields, lines, copies }) => [line, kind, text, name, price, fields, lines, copies]);
    const faults = inOrder([...(question ? [question] : []), ...all.filter(({ fault }) => fault)].map(said));
    const fixes = all.filter(({ fault }) => fault?.isClear).map(({ line, fault }) => [line, fault.fixes[0]]);
    return { articles, faults, fixes, unused: unused.map(faultText), passed, opened: read.notes.map(faultText) };
  } catch (error) {
    if (!(error instanceof Faults)) throw error;
    return { ...none, faults: inOrder(error.faults.map(said)) };
  }
};
