"""Binds the documented names of the library by ctypes alone, as any language can, and calls each.

Usage: calls_by_ctypes.py LIBRARY [elements]. With `elements` it answers the element strings of standard input, one a line, with every AI, element
by element. Without it the last line is the counts, and the status is 0 if none is wrong.
"""
from __future__ import annotations

import ctypes
import pathlib
import re
import sys
from typing import Any, Iterator

YEAR, EVERY_AI = 2026, 0x8000
EAN8 = [7, 1, 1, 1, 3, 1, 1, 2, 1, 1, 1, 4, 1, 4, 1, 1, 1, 2, 1, 3, 1, 1, 1, 1, 1, 1, 2, 3, 1, 3, 2, 1, 1, 1, 3, 1, 2, 1, 1, 3, 2, 1, 1, 1, 7]


class Bytes(ctypes.Structure):
    """struct gs1_bytes"""

    _fields_ = [("at", ctypes.c_void_p), ("count", ctypes.c_size_t)]

    def text(self) -> bytes:
        return ctypes.string_at(self.at, self.count)


class Element(ctypes.Structure):
    """struct gs1_element"""

    _fields_ = [("ai", Bytes), ("value", Bytes)]


library = ctypes.CDLL(sys.argv[1])
TEXT, OUT, LINE = [ctypes.c_char_p, ctypes.c_size_t], [ctypes.c_void_p, ctypes.c_size_t], [ctypes.c_char_p, ctypes.c_size_t]
WIDTHS = [ctypes.POINTER(ctypes.c_uint16), ctypes.c_size_t]
DOTS = [ctypes.c_char_p, ctypes.c_uint32]
YEARS = [ctypes.c_uint16]
TYPES: dict[str, list[Any]] = {
    "gs1_row": WIDTHS + YEARS + OUT, "gs1_row_elements": WIDTHS + YEARS + OUT, "gs1_find": WIDTHS + YEARS + OUT,
    "gs1_dots": DOTS + YEARS + OUT, "gs1_dots_elements": DOTS + YEARS + OUT, "gs1_find_dots": DOTS + YEARS + OUT,
    "gs1_date": TEXT + YEARS + OUT, "gs1_scan": TEXT + YEARS + OUT, "gs1_gtin": TEXT + OUT, "gs1_digit": TEXT + OUT,
    "gs1_text": TEXT + YEARS + OUT, "gs1_text_elements": TEXT + YEARS + OUT, "gs1_title": TEXT + OUT,
    "gs1_label": [ctypes.c_int] + TEXT + YEARS + 3 * [ctypes.c_uint16] + OUT, "gs1_symbol": [ctypes.c_int] + TEXT + YEARS + OUT,
    "gs1_picture": [ctypes.c_char_p, ctypes.c_size_t, ctypes.c_uint32, ctypes.c_uint32, ctypes.c_size_t, ctypes.c_uint8] + YEARS
    + [ctypes.POINTER(ctypes.c_uint32), ctypes.c_size_t] + OUT,
    "gs1_picture_room": [ctypes.c_uint32, ctypes.c_uint32], "gs1_status": LINE, "gs1_next": [ctypes.POINTER(Bytes), ctypes.POINTER(Element)],
}
library.gs1_version.restype = ctypes.c_char_p
VERSION = (pathlib.Path(__file__).resolve().parents[2] / "VERSION").read_text("ascii").strip()
for name, types in TYPES.items():
    call = getattr(library, name)
    call.argtypes, call.restype = types, ctypes.c_int if name in ("gs1_status", "gs1_next") else ctypes.c_size_t


def asked(name: str, *words: object) -> bytes:
    """The answer of a call, with a buffer as large as it needs."""
    call = getattr(library, name)
    length = call(*words, None, 0)
    out = ctypes.create_string_buffer(length + 1)
    assert call(*words, out, length) == length
    return out.raw[:length]


def elements(line: bytes) -> Iterator[tuple[bytes, bytes]]:
    """The elements of a line."""
    held = ctypes.create_string_buffer(line, len(line) + 1)
    rest, element = Bytes(ctypes.addressof(held), len(line)), Element()
    while library.gs1_next(ctypes.byref(rest), ctypes.byref(element)):
        yield element.ai.text(), element.value.text()


def said(text: bytes) -> bytes:
    """The line of an element string for people, put together from its elements."""
    line = asked("gs1_text_elements", text, len(text), EVERY_AI | YEAR)
    if library.gs1_status(line, len(line)):
        return line
    return b"hri " + b"".join(b"(%b)%b" % pair for pair in elements(line))


def main() -> int:
    if sys.argv[2:]:
        for line in sys.stdin:
            print(said(line.rstrip("\n").replace("^", chr(29)).encode()).decode())
        return 0
    widths, bits = (ctypes.c_uint16 * len(EAN8))(*EAN8), int("".join("01"[at % 2] * it for at, it in enumerate(EAN8)).ljust(88, "0"), 2).to_bytes(11, "big")
    memory = (ctypes.c_uint32 * library.gs1_picture_room(400, 60))()
    image = asked("gs1_label", 0, b"9501101530003", 13, YEAR, 2, 400, 60)
    grey = b"".join(bytes([0 if image[10 + at] >> bit & 1 else 255]) for at in range(len(image) - 10) for bit in range(7, -1, -1))
    cases = [
        (asked("gs1_row", widths, len(EAN8), YEAR), b"]E4 (01)00000096385074"),
        (asked("gs1_row_elements", widths, len(EAN8), YEAR), b"]E4 01=00000096385074"),
        (asked("gs1_find", widths, len(EAN8), YEAR), b"0 45 ]E4 (01)00000096385074\n"),
        (asked("gs1_dots", bits, 81, YEAR), b"]E4 (01)00000096385074"),
        (asked("gs1_dots_elements", bits, 81, YEAR), b"]E4 01=00000096385074"),
        (asked("gs1_find_dots", bits, 81, YEAR), b"0 45 ]E4 (01)00000096385074\n"),
        (asked("gs1_date", b"17=261231", 9, YEAR), b"date 2026-12-31"),
        (asked("gs1_scan", b"]C110A\x1d17261231", 15, YEAR), b"]C1 10=A\t17=261231"),
        (asked("gs1_gtin", b"96385074", 8), b"gtin 00000096385074"),
        (asked("gs1_digit", b"9638507", 7), b"digit 4"),
        (asked("gs1_text", b"10A", 3, YEAR), b"hri (10)A"),
        (asked("gs1_text_elements", b"235A", 4, YEAR), b"refused 5 UnknownAi 0"),
        (asked("gs1_text_elements", b"235A", 4, EVERY_AI | YEAR), b"data 235=A"),
        (asked("gs1_title", b"3163", 4), "NET VOLUME (m³)".encode()),
        (asked("gs1_symbol", 2, b"96385074", 8, YEAR)[:20], b"symbol 96385074 7 7 "),
        (asked("gs1_picture", grey, len(grey), 400, 60, 400, 0, YEAR, memory, len(memory)).split(b" ", 8)[8:], [b"56 ]E0 01=09501101530003\n"]),
        (library.gs1_status(b"refused 42 Words", 16), 42),
        (re.sub("[0-9a-f]{12}", "SUM", library.gs1_version().decode()), f"{VERSION} (sources SUM)"),
        (library.gs1_status(b"hri (10)A", 9), 0),
        (list(elements(b"]C1 10=A=B\t17=261231")), [(b"10", b"A=B"), (b"17", b"261231")]),
        (list(elements(b"refused 3 CheckDigit")), []),
    ]
    # Null pointers and zeros: each pointer stands for no items.
    zeros = {it: 0 for it in (ctypes.c_size_t, ctypes.c_uint8, ctypes.c_uint16, ctypes.c_uint32, ctypes.c_int)}
    for name, types in TYPES.items():
        for count in (0, 7):
            words = [count if it is ctypes.c_size_t else zeros.get(it) for it in types]
            length = getattr(library, name)(*words)
            cases.append((0 <= length < 100, True))
    wrong = 0
    for at, (got, wanted) in enumerate(cases):
        if got != wanted:
            wrong += 1
            print(f"case {at}: {got!r}, not {wanted!r}", file=sys.stderr)
    print(f"{len(TYPES)} names bound, {len(cases)} answers, {wrong} wrong")
    return 1 if wrong else 0


if __name__ == "__main__":
    sys.exit(main())
