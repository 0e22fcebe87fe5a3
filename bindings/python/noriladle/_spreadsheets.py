"""Reads a spreadsheet's own file, .xlsx or .ods, with Python alone. No CSV has its numbers in full."""
from __future__ import annotations

import io
import lzma
import re
import zipfile
import zlib
from typing import Callable, Dict, List, NamedTuple, Sequence, Tuple
from xml.parsers import expat

from ._lists import SPREADSHEET, Fault, Faults, Record, Sheet
from ._shop import runs_of, said

MOST_CELLS = 2_000_000
MOST_COLUMNS = 16_384
_MOST_BYTES = 64_000_000
"""The most bytes of a part when it is unpacked."""
_MOST_RATIO, _LEAST_BOMB = 200, 10_000_000
"""Parts that are larger than this, and shrank more than this many times, have no list."""
_DAMAGES = (zipfile.BadZipFile, expat.ExpatError, KeyError, ValueError, EOFError, RuntimeError, IndexError,
            ArithmeticError, NotImplementedError, zlib.error, lzma.LZMAError)
"""What Python raises for damaged files."""

Row = Tuple[int, List[str]]
Attributes = Dict[str, str]


class Page(NamedTuple):
    """A sheet of a spreadsheet: its rows with their numbers, and what is special about some of them."""

    name: str
    is_hidden: bool
    rows: Sequence[Row]
    hidden_rows: Sequence[int]
    faults: Sequence[Fault]

    @property
    def has_cells(self) -> bool:
        """Whether a cell is not blank."""
        return any(cell.strip() for _, cells in self.rows for cell in cells)


class Book:
    """The parts of a spreadsheet's file."""

    def __init__(self, data: bytes) -> None:
        self._file = zipfile.ZipFile(io.BytesIO(data))
        self._names = {name.lower(): name for name in self._file.namelist()}

    def find(self, pattern: str) -> str:
        """The name of the first part of this pattern, or nothing."""
        return next((name for name in self._names if re.fullmatch(pattern, name)), "")

    def part(self, name: str) -> bytes:
        """The bytes of a part.

        :raises Faults: it is too large, or has a password.
        """
        info = self._file.getinfo(self._names[name.lower()])
        if info.flag_bits & 1:
            raise Faults([Fault(1, said("sheetEncrypted"))])
        is_bomb = info.file_size > _LEAST_BOMB and info.file_size > _MOST_RATIO * info.compress_size
        if info.file_size > _MOST_BYTES or is_bomb:
            raise Faults([Fault(1, said("sheetLarge"))])
        return self._file.read(info)


class Handler:
    """Takes the elements of a part of XML, by their names without namespaces."""

    def start(self, name: str, attributes: Attributes) -> None:
        """An element begins."""

    def end(self, name: str) -> None:
        """An element ends."""

    def text(self, text: str) -> None:
        """Text stands in an element."""


def parse(data: bytes, handler: Handler) -> None:
    """Hands the elements of a part to a handler.

    :raises ValueError: it has a DOCTYPE, which no spreadsheet needs.
    """
    def refuse(*_: object) -> None:
        raise ValueError("DOCTYPE")

    parser = expat.ParserCreate(namespace_separator=" ")
    local: Callable[[str], str] = _Names().__getitem__
    parser.StartElementHandler = lambda name, attributes: handler.start(
        local(name), {local(key): value for key, value in attributes.items()})
    parser.EndElementHandler = lambda name: handler.end(local(name))
    parser.CharacterDataHandler = handler.text
    parser.StartDoctypeDeclHandler = refuse
    parser.buffer_text = True
    parser.Parse(data, True)


class _Names(Dict[str, str]):
    """Names without their namespaces."""

    def __missing__(self, name: str) -> str:
        self[name] = name.rpartition(" ")[2]
        return self[name]


def opened_book(data: bytes) -> Tuple[Sheet, List[str]]:
    """The records of the first visible sheet that has cells, and what a person should know of the others.

    :raises Faults: the file is damaged, too large, has a password, or no sheet with cells.
    """
    from ._ods import ods_pages
    from ._xlsx import xlsx_pages

    try:
        book = Book(data)
        if book.find(r"xl/workbook\d*\.xml"):
            pages = list(xlsx_pages(book))
        elif book.find(r"content\.xml"):
            pages = list(ods_pages(book))
        else:
            is_other = book.find(r"xl/workbook\.bin") or book.find(r"index/.*\.iwa")
            raise Faults([Fault(1, said("sheetOld" if is_other else "packed"))])
    except Faults:
        raise
    except _DAMAGES as error:
        raise Faults([Fault(1, said("sheetDamaged"))]) from error
    return _taken(pages)


def _taken(pages: Sequence[Page]) -> Tuple[Sheet, List[str]]:
    """The list of the first visible page with cells."""
    page = next((page for page in pages if page.has_cells and not page.is_hidden), None)
    if not page:
        raise Faults([Fault(1, said("sheetNone"))])
    others = [said("hiddenSheet" if it.is_hidden else "quoted", it.name) for at, it in enumerate(pages)
              if it is not page and (it.has_cells or at < pages.index(page))]
    notes = [said("sheetTaken", said("quoted", page.name), ", ".join(others))] if others else []
    records = [Record(line, cells) for line, cells in page.rows if any(cell.strip() for cell in cells)]
    hidden = {*page.hidden_rows} & {record.line for record in records}
    if hidden:
        notes.append(said("sheetHidden", runs_of(sorted(hidden))))
    return Sheet(SPREADSHEET, records, []).without(page.faults), notes


def column_letters(place: int) -> str:
    """The letters of a column, counted from 0."""
    letters = ""
    place += 1
    while place:
        place, letter = divmod(place - 1, 26)
        letters = chr(65 + letter) + letters
    return letters

