"""Counts what becomes of each cell of a damaged list: silent_cells.py LISTS WORK [COUNT [SEED]].

Each cell that is not blank must stand on a label, or its column must be named as unused, or its line must be refused,
or counted among the lines that are passed over. A cell with none of these is silent. A label with another price than
its line has, or with a price that is none, is wrong. Prints the counts as its last line.
"""
from __future__ import annotations

import collections
import os
import re
import sys
from typing import Any, Iterator

from damaged_lists import List, Row, damaged, is_gtin
from printed import Label, Run, cents_in_cell, labels_of

WORK = sys.argv[2]
COUNT = int(sys.argv[3]) if len(sys.argv) > 3 else 1_000
SEED = int(sys.argv[4]) if len(sys.argv) > 4 else 92
FAULTS = []


class Account:
    """What the command said of a list, as far as cells are concerned."""

    def __init__(self, a_list: List, done: Run) -> None:
        self.list, self.done = a_list, done
        refusals = [line for line in done.said if line.startswith("LIST:") and "warning:" not in line]
        # A refusal stands at its line, and may name others: "the same number as in line 3".
        self.refused = {int(number) for line in refusals for number in re.findall(r"(?:^LIST:|\blines? )(\d+)", line)}
        self.named = done.names([heading for heading in a_list.headings if heading])
        counts = [re.search(r"\d+", line.replace("LIST", "")) for line in done.said if "passed over" in line]
        self.passed = sum(int(found[0]) for found in counts if found)
        # Nothing was printed, and the command says why: nobody can think that the list is done.
        self.whole = not done.labels and done.status == 1 and any("took " not in line for line in refusals)
        self.labels = collections.defaultdict(list)
        for label in done.labels:
            self.labels[label.number.zfill(14)].append(label)

    def number_of(self, row: Row) -> str:
        """The number in a line's column of numbers, in 14 digits; nothing if there is none."""
        at = self.list.place("gtin")
        return row.cells[at].zfill(14) if at < len(row.cells) and is_gtin(row.cells[at]) else ""

    def is_on(self, cell: str, label: Label) -> bool:
        """Whether a cell stands on a label: as its number, as a part of its texts, or as its price."""
        text = re.sub(r"\s+", " ", cell).strip()
        if is_gtin(text):
            return label.number.zfill(14) == text.zfill(14)
        cents = cents_in_cell(text, self.list.decimal) if re.fullmatch(r"[\d.,]+", text) else None
        return text in label.text or cents is not None and cents == price_on(label, self.list)

    def is_named(self, at: int) -> bool:
        """Whether this column is named as unused, by its heading or its number."""
        heading = self.list.headings[at] if at < len(self.list.headings) else ""
        return (
            heading in self.named
            if heading
            else any(re.search(rf"\bcolumn {at + 1}\b", line) for line in self.done.said)
        )

    def silent(self) -> list[tuple[int, str]]:
        """The cells that are on no label, and of which nothing is said."""
        if self.whole:
            return []
        lost, over = [], []
        for row in [row for row in self.list.rows if row.kind != "blank"]:
            cells = [(at, cell) for at, cell in enumerate(row.cells) if cell.strip()]
            if row.line in self.refused or row.under in self.refused:
                continue
            labels = self.labels[self.number_of(row)]
            if not labels:
                over.append((row, cells))
                continue
            lost += [
                (row.line, cell)
                for at, cell in cells
                if not any(self.is_on(cell, label) for label in labels) and not self.is_named(at)
            ]
        may_pass = [row for row, _ in over if not self.number_of(row)]
        is_counted = len(may_pass) <= self.passed
        return lost + [
            (row.line, cell) for row, cells in over for _, cell in cells if not (is_counted and row in may_pass)
        ]

    def wrong(self) -> Iterator[str]:
        """The labels that say another price than their line, or that no line may have."""
        rows = collections.defaultdict(list)
        for row in self.list.rows:
            for cell in row.cells:
                if is_gtin(cell):
                    rows[cell.zfill(14)].append(row)
        for number, labels in self.labels.items():
            allowed = set().union(*(row.prices for row in rows[number]))
            for label in labels:
                if (
                    not rows[number]
                    or any(row.is_unclear for row in rows[number])
                    or price_on(label, self.list) not in allowed
                ):
                    yield f"{number} is printed as {label.texts}, and may say {sorted(allowed, key=str)}"


def price_on(label: Label, a_list: List) -> int | None:
    """The cents of the label's one price; None without one, and no cents if there are several."""
    others = {
        re.sub(r"\s+", " ", cell).strip() for row in a_list.rows for cell in row.cells if re.search(r"[^\W\d]", cell)
    }
    prices = label.prices(*others - {""})
    return None if not prices else prices[0] if len(prices) == 1 and prices[0] is not None else -1


def account_of(a_list: List, path: str) -> Account:
    """Runs the command; if it refuses lines, runs it again without them, so that each other line shows."""
    done = labels_of(path, WORK)
    if done.status == 1 and not done.labels:
        rest = labels_of(path, WORK, "--leave-out")
        if rest.status == 1:
            rest.said = [*rest.said, *(line for line in done.said if line not in rest.said)]
            return Account(a_list, rest)
        FAULTS.append(f"--leave-out has status {rest.status}: {rest.said[:2]}")
    return Account(a_list, done)


def main() -> None:
    cells = silent = wrong = whole = 0
    kinds: collections.Counter[str] = collections.Counter()
    for number in range(COUNT):
        a_list, path = damaged(SEED, number), os.path.join(WORK, "damaged.csv")
        with open(path, "wb") as file:
            file.write(a_list.saved())
        account = account_of(a_list, path)
        lost, bad = account.silent(), list(account.wrong())
        cells += sum(bool(cell.strip()) for row in a_list.rows for cell in row.cells)
        silent, wrong, whole = silent + len(lost), wrong + len(bad), whole + account.whole
        name = f"list {number} ({', '.join(a_list.damages) or 'not damaged'})"
        if not a_list.damages and account.done.status != 0:
            FAULTS.append(f"{name} is refused: {account.done.said[:3]}")
        found: Any
        for kind, found in (("silent", lost), ("wrong", bad)):
            if found:
                kinds.update(f"{kind} {damage}" for damage in a_list.damages or ["not damaged"])
                FAULTS.append(f"{name}: {kind}: {found[:3]}; status {account.done.status}: {account.done.said[:3]}")
    if whole * 4 > COUNT:
        FAULTS.append(f"{whole} of {COUNT} lists are refused as a whole, which says too little of their lines")
    print(
        "\n".join([*FAULTS[:20], *(f"{kind}: {count} lists" for kind, count in kinds.most_common())]),
        file=sys.stderr,
        end="\n" if FAULTS else "",
    )
    print(f"damaged: {COUNT:,} lists, {cells} cells, {silent} silent, {wrong} labels wrong")
    sys.exit(1 if FAULTS else 0)


main()
