"""The sheets of an .ods file, OpenDocument (ISO/IEC 26300)."""
from __future__ import annotations

import re
from decimal import Decimal
from typing import Dict, Iterator, List

from ._lists import Fault, Faults
from ._numbers import in_full
from ._shop import decimal_sign, said
from ._spreadsheets import MOST_CELLS, MOST_COLUMNS, Attributes, Book, Handler, Page, Row, column_letters, parse

_NUMBERS = ("float", "currency", "percentage")
_LONG = 10_000_000
_MOST_EMPTY = 1_048_576
"""A row of cells that are repeated more often than this is no row of a list."""


def ods_pages(book: Book) -> Iterator[Page]:
    """All sheets of a book.

    :raises Faults: it has a password.
    """
    if book.find(r"meta-inf/manifest\.xml") and b"encryption-data" in book.part("META-INF/manifest.xml"):
        raise Faults([Fault(1, said("sheetEncrypted"))])
    tables = _Tables()
    parse(book.part("content.xml"), tables)
    return iter(tables.found)


class _Tables(Handler):
    """The tables of a document."""

    def __init__(self) -> None:
        self.found: List[Page] = []
        self._hidden_styles: Dict[str, bool] = {}
        self._style = ""
        self._name, self._is_hidden = "", False
        self._rows: List[Row] = []
        self._hidden: List[int] = []
        self._faults: List[Fault] = []
        self._line, self._times, self._count = 1, 1, 0
        self._cells: List[str] = []
        self._empty = 0
        self._cell: Attributes = {}
        self._parts: List[str] = []
        self._notes = self._paragraphs = 0

    def start(self, name: str, attributes: Attributes) -> None:
        if name == "table":
            self._name = attributes.get("name", "")
            self._is_hidden = self._hidden_styles.get(attributes.get("style-name", ""), False)
            self._rows, self._hidden, self._faults, self._line = [], [], [], 1
        elif name == "table-row":
            self._times, self._cells, self._empty = int(attributes.get("number-rows-repeated", "1")), [], 0
            if attributes.get("visibility", "visible") != "visible":
                self._hidden += range(self._line, self._line + min(self._times, _LONG // 100))
        elif name in ("table-cell", "covered-table-cell"):
            self._cell, self._parts, self._paragraphs = attributes, [], 0
        elif name == "style":
            self._style = attributes.get("name", "")
        elif name == "table-properties":
            self._hidden_styles[self._style] = attributes.get("display") == "false"
        elif name == "annotation":
            self._notes += 1
        elif not self._notes:
            self._start_of_text(name, attributes)

    def _start_of_text(self, name: str, attributes: Attributes) -> None:
        if name == "p":
            self._parts += ["\n"] * bool(self._paragraphs)
            self._paragraphs += 1
        elif name == "s":
            self._parts.append(" " * min(int(attributes.get("c", "1")), 1_000))
        elif name in ("tab", "line-break"):
            self._parts.append("\t" if name == "tab" else "\n")

    def text(self, text: str) -> None:
        if self._paragraphs and not self._notes:
            self._parts.append(text)

    def end(self, name: str) -> None:
        if name == "annotation":
            self._notes -= 1
        elif name in ("table-cell", "covered-table-cell"):
            self._end_of_cell()
        elif name == "table-row":
            self._end_of_row()
        elif name == "table":
            self.found.append(Page(self._name, self._is_hidden, self._rows, self._hidden, self._faults))

    def _end_of_cell(self) -> None:
        shown = _shown("".join(self._parts), self._cell)
        times = int(self._cell.get("number-columns-repeated", "1"))
        if not shown:
            self._empty += times
            if "formula" in self._cell and "value-type" not in self._cell:
                place = len(self._cells) + self._empty - times
                self._faults.append(Fault(self._line, said("sheetFormula", column_letters(place))))
            return
        if len(self._cells) + self._empty + times > MOST_COLUMNS:
            raise ValueError("column")
        self._cells += [""] * self._empty + [shown] * times
        self._empty = 0

    def _end_of_row(self) -> None:
        """Takes the row as often as it is repeated. Its paragraphs are done, so blanks between tags are no text."""
        self._paragraphs = 0
        if self._cells:
            self._count += self._times * len(self._cells)
            if self._count > MOST_CELLS:
                raise Faults([Fault(1, said("sheetLarge"))])
            self._rows += [(self._line + at, self._cells) for at in range(self._times)]
        self._line += self._times


def _shown(shown: str, cell: Attributes) -> str:
    """What a cell says: as it is shown, but a number in full."""
    kind, value = cell.get("value-type", ""), cell.get("value")
    if kind not in _NUMBERS or value is None:
        return shown
    number = Decimal(value)
    is_whole = number == number.to_integral_value()
    if re.fullmatch(r"0\d+", shown) and is_whole and int(shown) == number:
        return shown
    if is_whole and abs(number) >= _LONG or not re.search(r"\d", shown) or "E" in shown.upper().replace("EUR", ""):
        return _local(in_full(number))
    decimals = _decimals(shown)
    if kind == "percentage" or is_whole or decimals and round(number, decimals) == Decimal(in_full(number)):
        return shown
    return re.sub(r"-?\d[\d.,'’\s]*\d|-?\d", _local(in_full(number)), shown, count=1)


def _decimals(shown: str) -> int:
    """How many decimals a number shows."""
    found = re.search(r"[.,](\d+)\D*$", shown)
    return len(found[1]) if found else 0


def _local(number: str) -> str:
    return number.replace(".", decimal_sign())
