"""The letters of a TrueType font as dots (OpenType: head, loca and glyf), drawn as their outlines stand, without hints.

A letter's rows are numbers, whose highest bit is the left dot; 1 is dark.
"""
from __future__ import annotations

import math
import struct
from collections import defaultdict
from functools import lru_cache, reduce
from operator import or_
from pathlib import Path
from typing import Dict, Iterator, List, NamedTuple, Sequence, Tuple

from ._truetype import NoFont, characters_of, tables_of


class Point(NamedTuple):
    """A point of an outline, with y upwards; one that is not on the outline draws it to its side."""

    x: float
    y: float
    is_on: bool


class Ink(NamedTuple):
    """The rectangle of a letter in ems, from its origin to the right and upwards."""

    left: float
    bottom: float
    right: float
    top: float


class Dots(NamedTuple):
    """The dots of a letter, and where they begin: right of its origin, and above its base line."""

    left: int
    top: int
    width: int
    rows: Tuple[int, ...]


_DEEPEST, _MOST, _FARTHEST = 5, 4000, 8
"""How many levels of parts a letter may have, how many points and parts, and how many ems they may be away from its origin."""
_ON, _SHORT_X, _SHORT_Y, _REPEATED, _SAME_X, _SAME_Y = 1, 2, 4, 8, 16, 32
"""What the flags of a point say."""
_WORDS, _OFFSETS, _MORE = 1, 2, 32
_SCALES = {8: 1, 64: 2, 128: 4}
"""What the flags of a part say, and how many scales it has."""


@lru_cache(maxsize=4096)
def dots_of(path: Path, letter: str, size: float) -> Dots:
    """A letter in a size, in dots. One that the font lacks is its sign for missing characters.

    :raises NoFont: its outline is damaged.
    """
    try:
        outlines = [[Point(x * size, y * size, is_on) for x, y, is_on in outline] for outline in _outlines(path, letter)]
        return _filled([edge for outline in outlines for edge in _edges(outline, size)], [place for outline in outlines for place in _speck(outline)])
    except (struct.error, IndexError, ZeroDivisionError, KeyError) as error:
        raise NoFont(f"{path.name} has a damaged letter {letter!r}") from error


@lru_cache(maxsize=4096)
def _outlines(path: Path, letter: str) -> List[List[Point]]:
    """The outlines of a letter in ems."""
    font = _font(path)
    return font.outlines(font.glyph(letter))


@lru_cache(maxsize=4096)
def ink_of(path: Path, letter: str) -> Ink:
    """Where a letter has ink.

    :raises NoFont: its outline is damaged.
    """
    try:
        font = _font(path)
        return font.ink(font.glyph(letter))
    except (struct.error, IndexError, ZeroDivisionError, KeyError) as error:
        raise NoFont(f"{path.name} has a damaged letter {letter!r}") from error


class _Font:
    """The outlines of a font."""

    def __init__(self, data: bytes) -> None:
        self._data, self._tables = data, dict(tables_of(data))
        head = self._tables["head"]
        self._em, self._is_long, self._left = self._read("H", head + 18)[0], self._read("h", head + 50)[0], 0
        self.glyphs: Dict[int, int] = {code: glyph for code, glyph in characters_of(data, self._tables["cmap"]) if glyph}

    def _read(self, form: str, at: int) -> Tuple[int, ...]:
        return struct.unpack_from(f">{form}", self._data, at)

    def glyph(self, letter: str) -> int:
        """The glyph of a letter; 0, the sign for missing characters, if the font lacks it."""
        return self.glyphs.get(ord(letter)) or self.glyphs.get(32, 0) * (letter == "\xa0")

    def outlines(self, glyph: int) -> List[List[Point]]:
        """The closed outlines of a glyph, in ems.

        :raises IndexError: they have too many points, or points too far away.
        """
        self._left = _MOST
        made = [[Point(x / self._em, y / self._em, is_on) for x, y, is_on in outline] for outline in self._outlines(glyph, 0)]
        if any(abs(at) > _FARTHEST for outline in made for point in outline for at in point[:2]):
            raise IndexError("points")
        return made

    def _take(self, count: int) -> None:
        self._left -= count
        if self._left < 0:
            raise IndexError("points")

    def ink(self, glyph: int) -> Ink:
        """The rectangle of a glyph."""
        at = self._place(glyph)
        return Ink(*(edge / self._em for edge in (self._read("4h", at + 2) if at else (0, 0, 0, 0))))

    def _place(self, glyph: int) -> int:
        """Where a glyph stands in the file; 0 if it has no outline."""
        loca = self._tables["loca"]
        first, end = self._read("II", loca + 4 * glyph) if self._is_long else (2 * it for it in self._read("HH", loca + 2 * glyph))
        return self._tables["glyf"] + first if first != end else 0

    def _outlines(self, glyph: int, depth: int) -> List[List[Point]]:
        at = self._place(glyph)
        if not at:
            return []
        self._take(1 if depth <= _DEEPEST else _MOST + 1)
        count, = self._read("h", at)
        return self._simple(at + 10, count) if count >= 0 else self._composite(at + 10, depth)

    def _simple(self, at: int, count: int) -> List[List[Point]]:
        ends = self._read(f"{count}H", at) if count else (-1,)
        at += 2 * count + 2 + self._read("H", at + 2 * count)[0]
        self._take(ends[-1] + 1)
        flags: List[int] = []
        while len(flags) <= ends[-1]:
            flag, again = self._read("BB", at)
            is_repeated = flag & _REPEATED != 0
            flags += [flag] * (1 + again * is_repeated)
            at += 1 + is_repeated
        lines: List[List[int]] = []
        for short, same in ((_SHORT_X, _SAME_X), (_SHORT_Y, _SAME_Y)):
            lines.append([])
            value = 0
            for flag in flags[:ends[-1] + 1]:
                if flag & short:
                    value += self._read("B", at)[0] * (1 if flag & same else -1)
                    at += 1
                elif not flag & same:
                    value += self._read("h", at)[0]
                    at += 2
                lines[-1].append(value)
        points = [Point(x, y, flag & _ON != 0) for x, y, flag in zip(*lines, flags)]
        # Outlines of one or two points tie letters to each other, and have no inside.
        return [points[begin:end + 1] for begin, end in zip([0, *(end + 1 for end in ends)], ends) if begin + 1 < end]

    def _composite(self, at: int, depth: int) -> List[List[Point]]:
        made: List[List[Point]] = []
        flags = _MORE
        while flags & _MORE:
            flags, glyph = self._read("HH", at)
            if not flags & _OFFSETS:
                raise IndexError("parts tied by their points")
            across, up = self._read("hh" if flags & _WORDS else "bb", at + 4)
            at += 8 if flags & _WORDS else 6
            count = next((count for flag, count in _SCALES.items() if flags & flag), 0)
            scales = [scale / 16384 for scale in self._read(f"{count}h", at)]
            at += 2 * count
            xx, xy, yx, yy = scales if count == 4 else (scales[0], 0.0, 0.0, scales[-1]) if count else (1.0, 0.0, 0.0, 1.0)
            made += [[Point(x * xx + y * yx + across, x * xy + y * yy + up, is_on) for x, y, is_on in outline]
                     for outline in self._outlines(glyph, depth + 1)]
        return made


@lru_cache(maxsize=8)
def _font(path: Path) -> _Font:
    return _Font(path.read_bytes())


_Place = Tuple[float, float]
_Edge = Tuple[_Place, _Place]


def _edges(outline: Sequence[Point], size: float) -> Iterator[_Edge]:
    """An outline as straight edges: a curve is as many as its size needs."""
    points: List[Point] = []
    for before, point in zip([outline[-1], *outline], outline):
        if not before.is_on and not point.is_on:
            # Between two points beside the outline one lies on it, in their middle.
            points.append(Point((before.x + point.x) / 2, (before.y + point.y) / 2, True))
        points.append(point)
    at = points[0] if points[0].is_on else points.pop()
    rest = iter([*points[points[0] is at:], at])
    for point in rest:
        if point.is_on:
            yield at[:2], point[:2]
            at = point
        else:
            to = next(rest)
            line = [(first * at.x + middle * point.x + last * to.x, first * at.y + middle * point.y + last * to.y)
                    for first, middle, last in _parts(2 + math.isqrt(int(size)))]
            yield from zip(line, line[1:])
            at = to


@lru_cache(maxsize=64)
def _parts(count: int) -> Sequence[Tuple[float, float, float]]:
    """How much the points of a curve count at places on it: its begin, the one beside it, and its end."""
    return [((1 - part) ** 2, 2 * part * (1 - part), part ** 2) for part in (step / count for step in range(count + 1))]


def _speck(outline: Sequence[Point]) -> Iterator[Tuple[int, int]]:
    """The row and the dot of an outline that is too small to be sure of a middle, as a full stop may be."""
    xs, ys = [point.x for point in outline], [point.y for point in outline]
    if max(xs) - min(xs) < 2 and max(ys) - min(ys) < 2:
        yield math.floor((min(ys) + max(ys)) / 2), math.floor((min(xs) + max(xs)) / 2)


def _filled(edges: Sequence[_Edge], specks: Sequence[Tuple[int, int]]) -> Dots:
    """The dots whose middles the edges go round. A stroke that is too thin for middles gets the dots it is in."""
    rows, thin = _runs(edges)
    _, thin_columns = _runs([((y, x), (to_y, to_x)) for (x, y), (to_x, to_y) in edges])
    for row, dot in [*specks, *thin, *((dot, column) for column, dot in thin_columns)]:
        rows.setdefault(row, []).append((dot, dot + 1))
    if not rows:
        return Dots(0, 0, 0, ())
    left, right = (choose(run[end] for its in rows.values() for run in its) for choose, end in ((min, 0), (max, 1)))
    return Dots(left, max(rows) + 1, right - left, tuple(
        reduce(or_, (((1 << end - first) - 1) << right - end for first, end in rows.get(row, ())), 0) for row in range(max(rows), min(rows) - 1, -1)))


def _runs(edges: Sequence[_Edge]) -> Tuple[Dict[int, List[Tuple[int, int]]], List[Tuple[int, int]]]:
    """The dark runs of each row, the first dot and one past the last; and the rows and dots of strokes between two middles."""
    crossings: Dict[int, List[Tuple[float, int]]] = defaultdict(list)
    for (x, y), (to_x, to_y) in edges:
        low, high, way = (y, to_y, 1) if y < to_y else (to_y, y, -1)
        for row in range(math.ceil(low - 0.5), math.ceil(high - 0.5)):
            crossings[row].append((x + (row + 0.5 - y) * (to_x - x) / (to_y - y), way))
    spans = {row: list(_spans(sorted(its))) for row, its in crossings.items()}
    runs: Dict[int, List[Tuple[int, int]]] = {}
    thin = []
    for row, its in spans.items():
        for begin, end in its:
            first, last = math.ceil(begin - 0.5), math.ceil(end - 0.5)
            if first < last:
                runs.setdefault(row, []).append((first, last))
            # The tip of a curve is no stroke: it is wide in the next row.
            elif any(right - left < 1 and left < end + 1 and begin < right + 1 for beside in (row - 1, row + 1) for left, right in spans.get(beside, ())):
                thin.append((row, math.floor((begin + end) / 2)))
    return runs, thin


def _spans(crossings: Sequence[Tuple[float, int]]) -> Iterator[Tuple[float, float]]:
    """The dark parts of a line: those that the outlines go round."""
    wound, begin = 0, 0.0
    for x, way in crossings:
        if wound == 0:
            begin = x
        wound += way
        if wound == 0:
            yield begin, x
