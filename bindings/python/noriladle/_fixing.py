"""Corrects the numbers of a list, as far as it is clear what they were meant to be."""
from __future__ import annotations

import csv
import io
import re
from dataclasses import replace
from typing import List, NamedTuple, Tuple

from . import Refusal
from ._columns import Table
from ._lists import SPREADSHEET, WHOLE_LINES, Record
from ._mending import is_number, meant
from ._texts import digits_of, read_text


class Change(NamedTuple):
    """A number of a line, before and after."""

    line: int
    before: str
    after: str


def fixed(table: Table, year: int) -> Tuple[Table, List[Change]]:
    """The table with its numbers corrected, and the changes."""
    places = table.places.get("gtin", ())
    lines = {record.line for record in table.records}
    source, changes = [], []
    for record in table.source:
        place = next((place for place in places if place < len(record.cells)), None)
        number = "" if place is None or record.line not in lines else _meant(record.cells[place], year)
        if number and place is not None:
            changes.append(Change(record.line, record.cells[place], number))
            record = Record(record.line, [*record.cells[:place], number, *record.cells[place + 1:]])
        source.append(record)
    return replace(table, source=source, records=[record for record in source if record.line in lines]), changes


def _meant(cell: str, year: int) -> str:
    """The number that a cell clearly stands for, unless it stands there as it is."""
    try:
        read_text(cell, year)
    except Refusal:
        number = meant(cell)
    else:
        number = digits_of(cell)
    # Eight digits that begin with 0 may be two numbers.
    return number if number != cell and is_number(number) and not re.fullmatch("0.{7}", number) else ""


def csv_of(table: Table) -> str:
    """All records of a list as CSV, with its own separator."""
    text = io.StringIO()
    delimiter = ";" if table.delimiter in (SPREADSHEET, WHOLE_LINES) else table.delimiter
    csv.writer(text, delimiter=delimiter, lineterminator="\r\n").writerows(record.cells for record in table.source)
    return text.getvalue()
