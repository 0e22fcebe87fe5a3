"""The sheets of an .xlsx file, Office Open XML (ISO/IEC 29500-1)."""
from __future__ import annotations

import re
from typing import Dict, Iterator, List, Optional

from ._lists import Fault, Faults
from ._numbers import Format, format_of, written
from ._shop import said
from ._spreadsheets import MOST_CELLS, MOST_COLUMNS, Attributes, Book, Handler, Page, Row, column_letters, parse

_ESCAPED = re.compile("_x([0-9A-Fa-f]{4})_")


def xlsx_pages(book: Book) -> Iterator[Page]:
    """All sheets of a book."""
    workbook = book.find(r"xl/workbook\d*\.xml")
    sheets = _Sheets()
    parse(book.part(workbook), sheets)
    links = _Links()
    parse(book.part(f"xl/_rels/{workbook[3:]}.rels"), links)
    strings, styles = _Strings(), _Styles()
    if book.find(r"xl/sharedstrings\.xml"):
        parse(book.part("xl/sharedStrings.xml"), strings)
    if book.find(r"xl/styles\.xml"):
        parse(book.part("xl/styles.xml"), styles)
    for sheet in sheets.found:
        target = links.found[sheet["id"]]
        name = target.lstrip("/") if target.startswith("/") else f"xl/{target}"
        if "worksheets/" in name:
            rows = _Rows(strings.found, styles.formats)
            parse(book.part(name), rows)
            is_hidden = sheet.get("state", "visible") != "visible"
            yield Page(sheet.get("name", ""), is_hidden, rows.found, rows.hidden, rows.faults)


class _Sheets(Handler):
    """The sheets of a workbook."""

    def __init__(self) -> None:
        self.found: List[Attributes] = []

    def start(self, name: str, attributes: Attributes) -> None:
        if name == "sheet":
            self.found.append(attributes)


class _Links(Handler):
    """The parts of a workbook by their identifiers."""

    def __init__(self) -> None:
        self.found: Dict[str, str] = {}

    def start(self, name: str, attributes: Attributes) -> None:
        if name == "Relationship":
            self.found[attributes["Id"]] = attributes["Target"]


class _Strings(Handler):
    """The texts that cells share. The readings above Asian signs are no part of them."""

    def __init__(self) -> None:
        self.found: List[str] = []
        self._parts: Optional[List[str]] = None
        self._is_reading = False
        self._is_text = False

    def start(self, name: str, attributes: Attributes) -> None:
        if name == "si":
            self._parts = []
        self._is_reading = self._is_reading or name == "rPh"
        self._is_text = name == "t"

    def text(self, text: str) -> None:
        if self._is_text and not self._is_reading and self._parts is not None:
            self._parts.append(text)

    def end(self, name: str) -> None:
        self._is_text = False
        if name == "rPh":
            self._is_reading = False
        elif name == "si":
            self.found.append(_plain("".join(self._parts or ())))


class _Styles(Handler):
    """The formats of numbers, by the number of a cell's style."""

    def __init__(self) -> None:
        self.formats: List[Format] = []
        self._codes: Dict[int, str] = {}
        self._is_cells = False

    def start(self, name: str, attributes: Attributes) -> None:
        if name == "numFmt":
            self._codes[int(attributes["numFmtId"])] = attributes["formatCode"]
        elif name == "cellXfs":
            self._is_cells = True
        elif name == "xf" and self._is_cells:
            number = int(attributes.get("numFmtId", "0"))
            self.formats.append(format_of(number, self._codes.get(number, "")))

    def end(self, name: str) -> None:
        self._is_cells = self._is_cells and name != "cellXfs"


class _Rows(Handler):
    """The rows of a sheet."""

    def __init__(self, strings: List[str], formats: List[Format]) -> None:
        self.found: List[Row] = []
        self.hidden: List[int] = []
        self.faults: List[Fault] = []
        self._strings, self._formats = strings, formats
        self._line = self._count = 0
        self._cells: List[str] = []
        self._cell: Attributes = {}
        self._parts: List[str] = []
        self._is_read = self._is_reading = self._has_value = self._has_formula = False

    def start(self, name: str, attributes: Attributes) -> None:
        if name == "row":
            self._line = int(attributes.get("r", self._line + 1))
            self._cells = []
            if attributes.get("hidden") in ("1", "true"):
                self.hidden.append(self._line)
        elif name == "c":
            self._cell, self._parts, self._has_value, self._has_formula = attributes, [], False, False
        elif name in ("v", "t"):
            self._is_read = not self._is_reading
            self._has_value = True
        elif name == "f":
            self._has_formula = True
        elif name == "rPh":
            self._is_reading = True

    def text(self, text: str) -> None:
        if self._is_read:
            self._parts.append(text)

    def end(self, name: str) -> None:
        if name in ("v", "t"):
            self._is_read = False
        elif name == "rPh":
            self._is_reading = False
        elif name == "c":
            self._end_of_cell()
        elif name == "row" and self._cells:
            self.found.append((self._line, self._cells))

    def _end_of_cell(self) -> None:
        place = _place(self._cell["r"]) if "r" in self._cell else len(self._cells)
        if not len(self._cells) <= place < MOST_COLUMNS:
            raise ValueError("column")
        # The empty cells before it count, too.
        self._count += 1 + place - len(self._cells)
        if self._count > MOST_CELLS:
            raise Faults([Fault(1, said("sheetLarge"))])
        self._cells += [""] * (place - len(self._cells))
        text = "".join(self._parts)
        self._cells.append(self._shown(text))
        if self._has_formula and not text and not (self._has_value and self._cell.get("t") == "str"):
            self.faults.append(Fault(self._line, said("sheetFormula", column_letters(place))))

    def _shown(self, text: str) -> str:
        """What a cell says."""
        kind, style = self._cell.get("t", "n"), int(self._cell.get("s", "0"))
        if kind == "s":
            return self._strings[int(text)] if text else ""
        if kind == "b":
            return {"1": "TRUE", "0": "FALSE"}.get(text, text)
        if kind == "n" and text:
            return written(text, self._formats[style] if style < len(self._formats) else Format())
        return _plain(text)


def _place(name: str) -> int:
    """The number of a cell's column, from 0, by the cell's name."""
    letters = re.match("[A-Z]{1,3}", name)
    number = 0
    for letter in letters[0] if letters else "":
        number = 26 * number + ord(letter) - 64
    return number - 1


def _plain(text: str) -> str:
    """A text without the escapes of signs that XML does not have."""
    return _ESCAPED.sub(lambda it: chr(int(it[1], 16)), text) if "_x" in text else text
