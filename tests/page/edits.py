"""Makes edits of the page's scripts, such as a tired programmer makes. One of the lists of same_lists.py must show each.

Usage: edits.py WORK. Its last line is the counts.
"""
import json
import os
import shutil
import subprocess
import sys
from typing import Sequence

import same_lists

HERE = os.path.dirname(os.path.abspath(__file__))
PAGE = os.path.join(os.path.dirname(os.path.dirname(HERE)), "page")
WORK = os.path.abspath(sys.argv[1])
LISTS = 1500

EDITS = [
    ("lists.js", "cells.some(({ length }) => length > MOST_CELL) ? null : cells", "cells.slice(0, 3)"),
    ("lists.js", "`${cell}\"`, \"quoted\"", "cell, \"quoted\""),
    ("lists.js", "else if (state === \"quote\" && !isEnd) return { cells: null, end: next + 1 };", ""),
    ("lists.js", "sheetOf(text.slice(told[0].length), told[1], 2, most)", "sheetOf(text.slice(told[0].length), told[1], 1, most)"),
    ("lists.js", "\",\", \"|\"]", "\",\"]"),
    ("lists.js", "if (!text.includes(\"\\ufffd\")) return sheet;", "return sheet;"),
    ("encodings.js", "hasMark(bytes) ? bytes[0] === 0xff : bytes[1] === 0", "true"),
    ("encodings.js", "!CODE_PAGES.closing.includes(sign) && (", "("),
    ("encodings.js", "isCapital(before) && isCapital(after)", "isCapital(before)"),
    ("encodings.js", "found.every((letter) => known?.has(letter))", "found.some((letter) => known?.has(letter))"),
    ("columns.js", "LONGER = 100", "LONGER = 1"),
    ("columns.js", "a[0] - b[0] || a[1] - b[1]", "b[0] - a[0] || a[1] - b[1]"),
    ("columns.js", "if (cells.some((cell) => looksRight(cell) && isRightCell(cell))) return found;", ""),
    ("columns.js", "best.count > 2 * records.length", "best.count > 0"),
    ("columns.js", ".normalize(\"NFKD\")", ""),
    ("columns.js", "heading && (this.hasCells(place) || !records.length)", "heading"),
    ("columns.js", "&& !cells.slice(width).some(trimmed)", ""),
    ("prices.js", "-1 : points", "1 : points"),
    ("prices.js", "2 * Number(isTaxed)", "0"),
    ("prices.js", "has(PRICE_WORDS.without, text)", "false"),
    ("prices.js", "const least = headings.some(({ heading }) => heading.reason === \"purchase\") ? -1 : 0;", "const least = 0;"),
    ("prices.js", "!isSure ? DOUBTFUL", "false ? DOUBTFUL"),
    ("prices.js", "isAbout && !has(PRICE_WORDS.total, words)", "isAbout"),
    ("remarks.js", "[...titles, ...between]", "between"),
    ("remarks.js", "place === price && isOther(`${headings[price]} ${cell}`)", "false"),
    ("remarks.js", "Number(number) !== 1", "false"),
    ("remarks.js", "cell.toUpperCase() !== filled[0].cell.toUpperCase()", "false"),
    ("amounts.js", "/^0[0-9]/.test(written.whole)", "false"),
    ("amounts.js", "found.below || found.minus || found.debit", "found.below"),
    ("amounts.js", "[\"\", point].includes(this.point)", "[point].includes(this.point)"),
    ("amounts.js", ".padEnd(decimals, \"0\")", ""),
    ("amounts.js", "this.isCents = !!heading?.isCents;", "this.isCents = false;"),
    ("amounts.js", "if (isZero && !this.isFree)", "if (false)"),
    ("mending.js", "others.length === Number(power)", "true"),
    ("mending.js", "(10 - at)", "(9 - at)"),
    ("mending.js", "[10, 11].includes(joined.length)", "[11].includes(joined.length)"),
    ("typed.js", "isClear: !!right };", "isClear: false };"),
    ("mending.js", "[7, 11, 12]", "[7, 11]"),
    ("typed.js", "find((it) => /^0[0-9]{7}$/", "find((it) => /^0[0-9]{8}$/"),
    ("typed.js", "at += ai.length + value.length + 1;", "at += ai.length + value.length;"),
    ("typed.js", "if (number === 40) {", "if (number === 41) {"),
    ("typed.js", "\\u2010-\\u2015-", "\\u2010-\\u2015"),
    ("typed.js", "return refused ? { refused } : {", "return {"),
    ("core.js", "gs1.read(\"gs1_c_read_text\"", "gs1.read(\"gs1_c_read_message\""),
    ("articles.js", "usual === kind ? answer.text : ", ""),
    ("articles.js", "8: \"ean8\", 12: \"upca\"", "8: \"ean8\", 12: \"ean13\""),
    ("articles.js", "MOST_COPIES = 1000", "MOST_COPIES = 9999"),
    ("articles.js", "identifier === \"]E0\" && digits.length === 8 ? \"upce\"", "false ? \"upce\""),
    ("articles.js", "if (gtin && elements) return", "if (false) return"),
    ("articles.js", "cell.normalize(\"NFC\")", "cell"),
    ("articles.js", "(areSplit || isWide)", "areSplit"),
    ("articles.js", "cells.length < shortest", "false"),
    ("articles.js", "if (isPoint && ", "if (false && "),
    ("articles.js", "new Set(alike.map(({ said }) => said)).size < 2", "true"),
    ("prices.js", "points < 0 ? [\"unclear\"] : []", "[]"),
    ("remarks.js", "hasTax(words) ? NETS_OR_NO : NETS", "NETS"),
    ("remarks.js", "if (hasTax(folded(headings[price] ?? \"\"))) return undefined;", ""),
    ("remarks.js", "[-1, ...placesOf(REMARKS.quantities)]", "[-1]"),
    ("remarks.js", "others.reduce((sum, one) => sum + one, price)", "price"),
    ("remarks.js", "taxed.length > others.length", "taxed.length"),
    ("remarks.js", "TAXED = 1.3", "TAXED = 2.3"),
    ("remarks.js", "NEAR = 0.02", "NEAR = 0"),
    ("prices.js", "[\"net\", \"total\"].includes(reason)", "reason === \"total\""),
    ("prices.js", "saysSo && !has(PRICE_WORDS.recommended, text)", "saysSo"),
    ("columns.js", "...(mayBeBoth ? best : [])", ""),
    ("columns.js", "if (!others.length) return best;", "if (others.length < 9) return best;"),
    ("amounts.js", "(2n * above + below)", "(2n * above)"),
    ("amounts.js", "!written || written.each", "!written"),
    ("amounts.js", "if (!unit || /[1-9][0-9]*[.,][0-9]{3}$/.test(count)) return", "if (!unit) return"),
    ("articles.js", "isAbove(amount.price, price) ? amount : fault(\"oldPrice\")", "amount"),
    ("articles.js", "/[0-9].*[^0-9]|[^0-9].*[0-9]/.test(cell)", "true"),
    ("articles.js", "`${amount.price}/${trimmed(unit)}`", "amount.price"),
    ("columns.js", "meaning === \"name\" && isNumber || BESIDE.includes(meaning)", "meaning === \"name\" && isNumber"),
    ("columns.js", "&& !hasUnit(place)", "&& false"),
    ("columns.js", "[\"price\", ...BESIDE].includes(meaning) ? []", "meaning === \"price\" ? []"),
    ("articles.js", "for (const record of table.lost) noteDoubt(numbers, record);", ""),
]


def is_noticed(page: str, lists: str, answers: Sequence[object]) -> bool:
    """Whether these scripts of the page answer a list in another way than the command. It ends with the first one."""
    with open(lists, "rb") as asked, subprocess.Popen(["node", f"{HERE}/lists_in_node.js"], env={**os.environ, "PAGE": page}, stdin=asked,
                                                      stdout=subprocess.PIPE, stderr=subprocess.DEVNULL) as node:
        try:
            return not all(line and json.loads(line) == answer for line, answer in ((node.stdout.readline(), it) for it in answers))
        finally:
            node.kill()


def main() -> bool:
    made = [*same_lists.of_shops(), *same_lists.made(LISTS)]
    lists, answers = os.path.join(WORK, "lists"), [same_lists.by_python(data) for data in made]
    with open(lists, "wb") as file:
        file.write(same_lists.lines_of(made))
    if is_noticed(PAGE, lists, answers):
        sys.exit("the page without an edit differs from the command")
    missed = 0
    for number, (name, old, new) in enumerate(EDITS):
        folder = os.path.join(WORK, f"edit-{number}")
        shutil.copytree(PAGE, folder, ignore=shutil.ignore_patterns("out"))
        path = os.path.join(folder, name)
        with open(path, encoding="utf-8") as file:
            text = file.read()
        if text.count(old) != 1:
            sys.exit(f"{name} has {old!r} {text.count(old)} times")
        with open(path, "w", encoding="utf-8") as file:
            file.write(text.replace(old, new))
        if not is_noticed(folder, lists, answers):
            missed += 1
            print(f"missed: {name}: {old!r} as {new!r}", flush=True)
        shutil.rmtree(folder)
    print(f"{len(EDITS)} edits, {missed} missed")
    return missed != 0


if __name__ == "__main__":
    sys.exit(main())
