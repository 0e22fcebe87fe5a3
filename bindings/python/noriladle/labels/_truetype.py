"""What the layout of labels needs of a TrueType font: its characters and their widths (OpenType: cmap, head, hhea and hmtx)."""
from __future__ import annotations

import struct
from pathlib import Path
from typing import Dict, Iterator, NamedTuple, Tuple


class NoFont(ValueError):
    """Why a file is no TrueType font."""


class Metrics(NamedTuple):
    """The widths of a font in size 1."""

    widths: Dict[str, float]
    """The width of each character that it has."""
    other: float
    """The width of its sign for missing characters."""


def metrics_of(path: Path) -> Metrics:
    """The characters of a TrueType font, or of the first in a collection.

    :raises NoFont: it is none, or it is damaged.
    :raises OSError: it cannot be read.
    """
    data = path.read_bytes()
    try:
        return _metrics(data)
    except (struct.error, KeyError, IndexError, ZeroDivisionError) as error:
        raise NoFont(f"{path.name} is damaged, or no TrueType font") from error


def _metrics(data: bytes) -> Metrics:
    tables = dict(tables_of(data))
    em, = struct.unpack_from(">H", data, tables["head"] + 18)
    count, = struct.unpack_from(">H", data, tables["hhea"] + 34)
    # Glyphs behind the last width are as wide as that one.
    advances = [advance / em for advance, _ in struct.iter_unpack(">Hh", data[tables["hmtx"]:tables["hmtx"] + 4 * count])]
    if "glyf" not in tables or len(advances) != count:
        raise KeyError("glyf")
    glyphs = {code: glyph for code, glyph in characters_of(data, tables["cmap"]) if glyph}
    widths = {chr(code): advances[min(glyph, count - 1)] for code, glyph in glyphs.items()}
    # Programs draw a blank that breaks no line as a blank.
    if " " in widths:
        widths.setdefault("\xa0", widths[" "])
    return Metrics(widths, advances[0])


def tables_of(data: bytes) -> Iterator[Tuple[str, int]]:
    """The tables, each with its offset."""
    at, = struct.unpack_from(">I", data, 12) if data[:4] == b"ttcf" else (0,)
    if data[at:at + 4] not in (b"\0\1\0\0", b"true"):
        raise KeyError("sfnt")
    for place in range(struct.unpack_from(">H", data, at + 4)[0]):
        tag, _, offset, length = struct.unpack_from(">4sIII", data, at + 12 + 16 * place)
        if offset + length > len(data):
            raise IndexError("the file is cut")
        yield tag.decode("latin-1"), offset


def characters_of(data: bytes, at: int) -> Iterator[Tuple[int, int]]:
    """The code points of Unicode with their glyphs."""
    for place in range(struct.unpack_from(">H", data, at + 2)[0]):
        platform, encoding, offset = struct.unpack_from(">HHI", data, at + 4 + 8 * place)
        form, = struct.unpack_from(">H", data, at + offset)
        if (platform, encoding) in ((3, 1), (3, 10)) or platform == 0:
            if form == 4:
                yield from _segments(data, at + offset)
            elif form == 12:
                yield from _groups(data, at + offset)


def _segments(data: bytes, at: int) -> Iterator[Tuple[int, int]]:
    """A cmap of format 4: ranges of code points up to 65535."""
    double, = struct.unpack_from(">H", data, at + 6)
    before = -1
    for place in range(at + 14, at + 14 + double, 2):
        # The last codes, a padding, the first codes, the differences and the offsets stand in five columns.
        last, first, delta, offset = (struct.unpack_from(">H", data, place + skip)[0]
                                      for skip in (0, double + 2, 2 * double + 2, 3 * double + 2))
        before = _ascending(before, first, last, 0xffff)
        for code in range(first, min(last, 0xfffe) + 1):
            glyph = code
            if offset:
                glyph, = struct.unpack_from(">H", data, place + 3 * double + 2 + offset + 2 * (code - first))
            yield code, (glyph + delta) % 65536 if glyph or not offset else 0


def _groups(data: bytes, at: int) -> Iterator[Tuple[int, int]]:
    """A cmap of format 12: ranges of all code points."""
    before = -1
    for place in range(struct.unpack_from(">I", data, at + 12)[0]):
        first, last, glyph = struct.unpack_from(">III", data, at + 16 + 12 * place)
        before = _ascending(before, first, last, 0x10ffff)
        for code in range(first, last + 1):
            yield code, glyph + code - first


def _ascending(before: int, first: int, last: int, most: int) -> int:
    """The end of a range, which begins after the one before. So a damaged font does not take long.

    :raises IndexError: it does not, or it has no end.
    """
    if not before < first <= last <= most:
        raise IndexError("ranges")
    return last
