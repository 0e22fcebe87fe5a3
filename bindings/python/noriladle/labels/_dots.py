"""Labels as dots: PNG of pages, and ZPL, EPL and TSPL of single labels, for label printers.

A label printer gets letters as dots, and with EPL and TSPL the whole label. So every script prints, and the printer's fonts do not matter.
"""
from __future__ import annotations

import re
import struct
import zlib
from collections import defaultdict
from itertools import chain
from typing import Dict, Iterable, Iterator, List, Sequence, Tuple

from ._drawing import Drawing, Look, Text
from ._letters import dots_of
from ._pages import Page
from ._stocks import Stock

_GAP = 3
"""The mm between two labels of a roll."""


class Image:
    """Dark dots on light. A row is a number, whose highest bit is the left dot; 1 is dark."""

    def __init__(self, width: int, rows: Sequence[int]) -> None:
        self.width, self.rows = width, list(rows)

    @property
    def height(self) -> int:
        """How many rows it has."""
        return len(self.rows)

    def put(self, left: int, top: int, width: int, rows: Sequence[int]) -> None:
        """Darkens the dark dots of other rows, from a place on. What lies outside of the image is cut off."""
        shift, inside, own = self.width - left - width, (1 << self.width) - 1, self.rows
        is_inside = left >= 0 and shift >= 0  # Most are, and this is faster.
        for place, row in enumerate(rows[max(0, -top):max(0, len(own) - top)], max(0, top)):
            if row:
                own[place] |= row << shift if is_inside else (row << shift if shift >= 0 else row >> -shift) & inside

    def write(self, text: Text) -> None:
        """Puts a text, each letter at whole dots, so that it looks the same everywhere."""
        for letter in _letters(text):
            self.put(*letter)

    def turned(self) -> Image:
        """The same, turned to the right by 90 degrees."""
        columns = zip(*(f"{row:0{self.width}b}" for row in reversed(self.rows)))
        return Image(self.height, [int("".join(column), 2) for column in columns])

    def packed(self, light: int) -> "tuple[int, List[bytes]]":
        """How many bytes a row has, and the rows, eight dots a byte. Dots after the last are light."""
        wide = (self.width + 7) // 8
        shift, turned = 8 * wide - self.width, light * ((1 << 8 * wide) - 1)
        return wide, [(row << shift ^ turned).to_bytes(wide, "big") for row in self.rows]


def _letters(text: Text) -> Iterator[Tuple[int, int, int, Tuple[int, ...]]]:
    """The letters of a text that have dots: their places, widths and rows, as far as they lie in its rectangle."""
    (first, upper, wide, high), font, size, base = text.box, text.font, text.size, round(text.base)
    for piece, middle in text.pieces():
        at = middle - font.width(piece, size) / 2
        for letter in piece:
            dots = dots_of(font.path_of(letter), letter, size)
            left, top, width, rows = round(at) + dots.left, base - dots.top, dots.width, dots.rows
            # Most lie in it, and this is faster.
            if left < first or left + width > first + wide or top < upper or top + len(rows) > upper + high:
                before, behind = max(0, first - left), max(0, left + width - first - wide)
                width -= before + behind
                rows = tuple([row >> behind & (1 << max(0, width)) - 1 for row in rows[max(0, upper - top):max(0, upper + high - top)]])
                left, top = left + before, max(upper, top)
            if width > 0 and rows:
                yield left, top, width, rows
            at += size * font.widths[letter]


def png_of(page: Page, stock: Stock, look: Look) -> bytes:
    """A page as PNG of black and white dots, with its resolution (PNG 1.2, sections 3 and 4)."""
    width, height = (round(length * look.dots) for length in stock.page)
    sheet = Image(width, [0] * height)
    for placed in page:
        label = image_of(placed.drawing, look.turned)
        sheet.put(placed.left, placed.top, label.width, label.rows)
    # One bit a dot, grey, no interlace; then dots in a metre. Each row begins with the number of its filter, which is none.
    chunks = {b"IHDR": struct.pack(">IIBBBBB", width, height, 1, 0, 0, 0, 0), b"pHYs": struct.pack(">IIB", *(round(look.dots * 1000),) * 2, 1),
              b"IDAT": zlib.compress(b"".join(b"\0" + row for row in sheet.packed(light=1)[1])), b"IEND": b""}
    return b"\x89PNG\r\n\x1a\n" + b"".join(struct.pack(">I", len(data)) + name + data + struct.pack(">I", zlib.crc32(name + data))
                                          for name, data in chunks.items())


def image_of(drawing: Drawing, is_turned: bool) -> Image:
    """A label's dots."""
    image = Image(drawing.width, [0] * drawing.height)
    for text in drawing.texts:
        image.write(text)
    # Most bars stand side by side: their rows are alike.
    lines: Dict[Tuple[int, int], Image] = defaultdict(lambda: Image(drawing.width, [0]))
    for left, top, width, height in drawing.boxes:
        lines[top, height].put(left, 0, width, [(1 << width) - 1])
    for (top, height), line in lines.items():
        image.put(0, top, drawing.width, line.rows * height)
    return image.turned() if is_turned else image


def zpl_of(labels: Iterable[Tuple[Drawing, int]], is_turned: bool, settings: str) -> bytes:
    """Labels and their copies as ZPL II: bars and lines as boxes, and each letter as dots, which the printer keeps up to the end."""
    kept: Dict[Tuple[int, Tuple[int, ...]], str] = {}
    forms = [settings]
    for drawing, copies in labels:
        fields = []
        for left, top, width, height in drawing.boxes:
            at, wide, high = (drawing.height - top - height, height, width) if is_turned else (left, width, height)
            fields.append(f"^FO{at},{left if is_turned else top}^GB{wide},{high},{min(wide, high)}^FS")
        for left, top, width, rows in chain.from_iterable(map(_letters, drawing.texts)):
            name = kept.setdefault((width, rows), f"R:N{len(kept)}.GRF")
            fields.append(f"^FO{drawing.height - top - len(rows) if is_turned else left},{left if is_turned else top}^XG{name}^FS")
        sides = (drawing.height, drawing.width) if is_turned else (drawing.width, drawing.height)
        forms.append("^XA\n^PW{}\n^LL{}\n^LH0,0\n{}\n^PQ{}\n^XZ\n".format(*sides, "\n".join(fields), copies))
    letters = [_zpl_letter(name, Image(width, rows), is_turned) for (width, rows), name in kept.items()]
    return "".join([*letters, *forms, "^XA^IDR:N*.GRF^FS^XZ\n"]).encode("ascii")


def _zpl_letter(name: str, letter: Image, is_turned: bool) -> str:
    """The command by which a printer keeps a letter; 1 is dark."""
    wide, rows = (letter.turned() if is_turned else letter).packed(light=0)
    return f"~DG{name},{wide * len(rows)},{wide},{''.join(_zpl_row(row, before) for row, before in zip(rows, [b'', *rows]))}\n"


def _zpl_row(row: bytes, before: bytes) -> str:
    """A row in ZPL's short form: ``:`` repeats the row before, ``,`` is light up to the end, and a letter says how often
    the digit after it repeats."""
    if row == before:
        return ":"
    text = row.hex().upper()
    bare = text.rstrip("0")
    return _REPEATED.sub(_zpl_run, bare) + ("," if len(bare) < len(text) else "")


_REPEATED = re.compile(r"(.)\1{2,}")


def _zpl_run(run: "re.Match[str]") -> str:
    """A repeated digit: ``z`` means 400 of it, ``g`` to ``y`` 20 to 380, and ``G`` to ``Y`` 1 to 19."""
    hundreds, rest = divmod(len(run[0]), 400)
    twenties, ones = divmod(rest, 20)
    letters = ["z" * hundreds, chr(ord("f") + twenties) if twenties else "", chr(ord("F") + ones) if ones else ""]
    return "".join(letters) + run[1]


def epl_of(image: Image, look: Look, copies: int) -> bytes:
    """A label as EPL2: one picture of dots; 1 is light."""
    wide, rows = image.packed(light=1)
    head = f"\nN\nq{image.width}\nQ{image.height},{round(_GAP * look.dots)}\nGW0,0,{wide},{image.height},"
    return head.encode("ascii") + b"".join(rows) + f"\nP{copies}\n".encode("ascii")


def tspl_of(image: Image, size: Tuple[float, float], copies: int) -> bytes:
    """A label as TSPL: one picture of dots; 1 is light."""
    wide, rows = image.packed(light=1)
    head = f"SIZE {size[0]:g} mm,{size[1]:g} mm\r\nGAP {_GAP} mm,0 mm\r\nDIRECTION 1\r\nCLS\r\nBITMAP 0,0,{wide},{image.height},0,"
    return head.encode("ascii") + b"".join(rows) + f"\r\nPRINT 1,{copies}\r\n".encode("ascii")
