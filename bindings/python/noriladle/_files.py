"""Opens the file of a list: a spreadsheet, or a text in any of its encodings."""
from __future__ import annotations

from typing import NamedTuple, Sequence

from ._encodings import decoded
from ._lists import LIMIT, Fault, Faults, Sheet, sheets_of
from ._shop import count_text, said, told

_OTHER_FILES = ((b"%PDF-", "pdf"), (b"\x89PNG", "picture"), (b"\xff\xd8\xff", "picture"), (b"\x1f\x8b", "packed"))
_PICTURES = ("pdf", "picture")
"""What ``noriladle read`` takes."""
_OLD_SPREADSHEET = b"\xd0\xcf\x11\xe0"
"""How a file begins that Excel wrote before 2007, or with a password."""


class Opened(NamedTuple):
    """The ways to read a list, and what a person should know of how the file was read."""

    sheets: Sequence[Sheet]
    notes: Sequence[str] = ()


def opened_list(data: bytes, encoding: str = "", most: int = LIMIT) -> Opened:
    """The list of a file's bytes, of at most this many lines.

    :raises Faults: it is too long, empty, or no list.
    """
    if len(data) > LIMIT:
        raise Faults([Fault(1, said("tooLarge", count_text(LIMIT)))])
    if data.startswith(b"PK\x03\x04"):
        from ._spreadsheets import opened_book  # Imported only here, since it takes time.

        sheet, notes = opened_book(data)
        if len(sheet.records) > most:
            raise Faults([Fault(1, said("manyLines", count_text(most)))])
        return Opened([sheet], notes)
    if data.startswith(_OLD_SPREADSHEET):
        is_encrypted = "EncryptedPackage".encode("utf-16-le") in data
        raise Faults([Fault(1, said("sheetEncrypted" if is_encrypted else "sheetOld"))])
    for magic, name in _OTHER_FILES:
        if data.startswith(magic):
            raise Faults([Fault(1, told("takesPicture", said(name)) if name in _PICTURES else said(name))])
    text, note, damaged = decoded(data, encoding)
    faults = [Fault(line, said("notUtf8")) for line in damaged]
    return Opened([sheet.without(faults) for sheet in sheets_of(text, most)], [note] if note else [])
