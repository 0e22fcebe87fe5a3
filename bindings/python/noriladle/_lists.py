"""Reads lists as people save them, plain lines or the CSV of any spreadsheet, as records with line numbers."""
from __future__ import annotations

import csv
import re
from typing import Iterator, List, NamedTuple, Sequence

from ._shop import count_text, said

LIMIT = 16_777_216
"""The most bytes of a list: the limit of ``gs1_hub``'s input."""

MOST_LINES = 20_000
"""The most lines of a list of labels, so that a mistake in it is reported in seconds."""

_MOST_CELLS = 1_000_000

WHOLE_LINES = "\x1f"
"""The delimiter of a list with one cell a line: a character that no text has."""

SPREADSHEET = "\x1e"
"""The delimiter of a spreadsheet's file: a character that no text has."""

_MOST_CELL = 1_000_000
_LINE = re.compile(r"[^\r\n]*(?:\r\n|\r|\n)|[^\r\n]+")
_DELIMITERS = (WHOLE_LINES, ";", "\t", ",", "|")


class Fault(NamedTuple):
    """What is wrong with a line of a list, in words; lines count from 1."""

    line: int
    said: str


class Faults(ValueError):
    """All that is wrong with a list."""

    def __init__(self, faults: Sequence[Fault]) -> None:
        super().__init__("; ".join(f"line {fault.line}: {fault.said}" for fault in faults))
        self.faults = tuple(faults)


class Record(NamedTuple):
    """The cells of a line, or of several lines if a cell has line ends; the number is that of the first."""

    line: int
    cells: Sequence[str]


class Sheet(NamedTuple):
    """The records of a list with this delimiter, and the errors of the lines that are none."""

    delimiter: str
    records: Sequence[Record]
    faults: Sequence[Fault]
    lost: Sequence[Record] = ()
    """The content of the lines that have an error, as far as it is known."""

    def without(self, faults: Sequence[Fault]) -> Sheet:
        """The list without the records of these lines, and with these errors for them. The heading is not taken out."""
        lines = {fault.line for fault in faults}
        records, lost = ([it for it in self.records if (it.line in lines) is is_lost] for is_lost in (False, True))
        return Sheet(self.delimiter, records, sorted([*self.faults, *faults]), [*self.lost, *lost]) if faults else self


def sheets_of(text: str, most: int) -> List[Sheet]:
    """The list read with each delimiter that it may have: only the one that its first line names, as in ``sep=;``; else
    whole lines, and then each delimiter that occurs in it.

    :raises Faults: it is empty, or has more lines than this with each delimiter, or too many cells.
    """
    told = re.match(r"sep=(.)[ \t]*(\r\n|\n|\r|$)", text)
    if max(map(text.count, ("\n", "\r", told[1] if told else "\n", *_DELIMITERS[1:]))) > _MOST_CELLS:
        raise Faults([Fault(1, said("sheetLarge"))])
    if told:
        found = [_sheet(text[told.end():], told[1], 2, most)]
    else:
        found = [_sheet(text, it, 1, most) for it in _DELIMITERS if it == WHOLE_LINES or it in text]
    sheets = [sheet for sheet in found if len(sheet.records) + len(sheet.faults) <= most]
    if not sheets:
        raise Faults([Fault(1, said("manyLines", count_text(most)))])
    if not any(sheet.records or sheet.faults for sheet in sheets):
        raise Faults([Fault(1, said("emptyList"))])
    return sheets


def _sheet(text: str, delimiter: str, first: int, most: int) -> Sheet:
    """The records of a text that are not empty, up to one more than this many; its first line has this number."""
    csv.field_size_limit(_MOST_CELL)
    records: List[Record] = []
    faults: List[Fault] = []
    lost: List[Record] = []
    line, at, end = first, 0, 0

    def lines() -> Iterator[str]:
        nonlocal end
        for found in _LINE.finditer(text):
            end = found.end()
            yield found[0]

    reader = csv.reader(lines(), delimiter=delimiter, strict=True)
    while len(records) + len(faults) <= most:
        try:
            cells = next(reader)
        except StopIteration:
            break
        except csv.Error:
            faults.append(Fault(line, said("noCsv")))
            lost.append(Record(line, re.findall(f"[^{re.escape(delimiter)}\r\n\"]+", text[at:end])))
            cells = []
        at = end
        if "".join(cells).strip():
            records.append(Record(line, cells))
        line = first + reader.line_num
    return Sheet(delimiter, records, faults, lost)
