"""Label stock: where labels lie on a sheet, or one after another on a roll. Lengths are millimetres."""
from __future__ import annotations

import difflib
import re
from dataclasses import dataclass
from pathlib import Path
from typing import Dict, List, NamedTuple, Tuple
from xml.etree import ElementTree

from .._shop import localized, shared, translated

PAGES: Dict[str, Tuple[float, float]] = {name: (width, height) for name, (width, height) in shared("pages").items()}

SHEETS: Dict[str, str] = shared("sheets")
"""Sheets by the numbers of Avery and Avery Zweckform, which others use too: columns, rows, width and height of labels, gaps
between them. They lie in the middle of a page."""

ROLLS: Dict[str, str] = shared("rolls")
"""Rolls by the numbers of Dymo and Brother, or by the width and the height of a label."""

KNOWN = {**SHEETS, **ROLLS}

_MAKERS = re.compile(r"\b(avery|zweckform|dymo|brother)\b[\s-]*", re.IGNORECASE)
_LENGTH = r"(\d{1,4}(?:\.\d{1,4})?)"
_TEXT = re.compile(rf"(?:(\d{{1,2}})x(\d{{1,2}}):)?{_LENGTH}x{_LENGTH}(?:\+{_LENGTH}\+{_LENGTH})?(?:@([\w.]+))?(?:/{_LENGTH}/{_LENGTH})?")
_PAGE = re.compile(f"{_LENGTH}x{_LENGTH}")
_TEMPLATES = Path("/usr/share/libglabels-3.0/templates")
"""Where the templates of gLabels are, if glabels-data is installed."""
_MM = {"mm": 1.0, "cm": 10.0, "in": 25.4, "pt": 25.4 / 72, "": 25.4 / 72, "pc": 25.4 / 6}

_UNPRINTED: float = shared("label")["unprinted"]
"""The edge of a sheet that most office printers leave white."""
_LEAST: float = shared("label")["least"]
_MOST: float = shared("label")["most"]
"""The sides of a label."""


class Grid(NamedTuple):
    """Labels in columns and rows: where the first one begins, and how far it is to the next."""

    columns: int
    rows: int
    left: float
    top: float
    across: float
    down: float


@dataclass(frozen=True)
class Stock:
    """Labels of one size on a page, in one grid or in several. A roll's page is the label, or the labels across it."""

    width: float
    height: float
    page: Tuple[float, float]
    grids: Tuple[Grid, ...]

    @property
    def cells(self) -> int:
        """How many labels a page has."""
        return sum(grid.columns * grid.rows for grid in self.grids)

    @property
    def has_row(self) -> bool:
        """Whether it is a roll with several labels across."""
        return self.cells > 1 and self.page not in PAGES.values()

    @property
    def margins(self) -> Tuple[float, float]:
        """The least that the page has at the sides of its labels, and above and below them."""
        aside = [side for it in self.grids for side in (it.left, self.page[0] - it.left - (it.columns - 1) * it.across - self.width)]
        above = [side for it in self.grids for side in (it.top, self.page[1] - it.top - (it.rows - 1) * it.down - self.height)]
        return min(aside), min(above)

    @property
    def padding(self) -> Tuple[float, float]:
        """How much stays white at the sides of each label, and above and below: the same for all labels of a sheet."""
        own = min(5.0, max(1.2, 0.06 * self.height))
        edge = _UNPRINTED if self.cells > 1 and not self.has_row else 0.0
        aside, above = self.margins
        return max(own, edge - aside), max(own, edge - above)

    def place(self, cell: int) -> Tuple[float, float]:
        """The left and the upper edge of a cell; cells count row by row, from 0, and grid by grid."""
        for grid in self.grids:
            row, column = divmod(cell, grid.columns)
            if row < grid.rows:
                break
            cell -= grid.columns * grid.rows
        return grid.left + column * grid.across, grid.top + row * grid.down


def stock_of(name: str) -> Stock:
    """The stock of a number, such as ``L7160`` or ``Dymo 11354``, or of its measures: ``3x8:70x37`` for a sheet of A4,
    ``5x13:38.1x21.2+2.54+0@letter`` with gaps on another page, ``..@a5/5/7.5`` where the first label begins 5 mm from the left
    and 7.5 mm from the top, two of these with ``&`` between, and ``57x32`` for a roll or ``2x1:50x25+2+0@104x25`` for one with
    two labels across. Other numbers are those of gLabels, if its templates are installed.

    :raises ValueError: there is no such stock.
    """
    short = _MAKERS.sub("", name).strip().lower()
    texts = {known.lower(): text for known, text in KNOWN.items()}.get(short, short.replace("×", "x")).split("&")
    told = [found for found in map(_TEXT.fullmatch, texts) if found]
    if len(told) < len(texts):
        return _of_glabels(name)
    grids, sizes = zip(*(_grid(name, *found.groups()) for found in told))
    stock = Stock(float(told[0][3]), float(told[0][4]), sizes[0], grids)
    if not all(it.columns * it.rows for it in grids) or min(stock.width, stock.height) < _LEAST or max(stock.page) > _MOST or {(it[3], it[4]) for it in told} != {told[0].group(3, 4)}:
        raise ValueError(translated("the stock {0!r} has no labels of {1:g} to {2:g} mm", name, _LEAST, _MOST))
    if min(stock.margins) < -0.01:
        sides = [localized(f"{side:g}") for side in stock.page]
        raise ValueError(translated("the labels of {0!r} are larger than their page of {1} x {2} mm", name, *sides))
    return stock


def _grid(name: str, columns: str, rows: str, width: str, height: str, *others: str) -> Tuple[Grid, Tuple[float, float]]:
    """The grid and the page of a text: in the middle of the page, unless it says where it begins."""
    gap_x, gap_y, page, left, top = others
    own = _PAGE.fullmatch(page or "")
    if page is not None and page not in PAGES and not own:
        raise ValueError(translated("there is no page {0!r}: it is one of {1}", page, ", ".join(PAGES)))
    size = (float(own[1]), float(own[2])) if own else PAGES[page or "a4"] if columns else (float(width), float(height))
    across, down = float(width) + float(gap_x or 0), float(height) + float(gap_y or 0)
    wide, high = (int(columns or 1) - 1) * across + float(width), (int(rows or 1) - 1) * down + float(height)
    places = (float(left), float(top)) if left else ((size[0] - wide) / 2, (size[1] - high) / 2)
    return Grid(int(columns or 1), int(rows or 1), *places, across, down), size


def _of_glabels(name: str) -> Stock:
    """The stock of a number, or of a maker and a number, in the templates of gLabels.

    :raises ValueError: they have none or several, or are not installed.
    """
    wanted, found = name.strip().lower(), {}
    papers = {it.get("id"): it for path in _TEMPLATES.glob("paper-sizes.xml") for it in ElementTree.parse(path).iter() if it.get("id")}
    for path in sorted(_TEMPLATES.glob("*-templates.xml")):
        parts = {(it.get("brand", ""), it.get("part", "")): it for it in ElementTree.parse(path).iter() if it.tag.endswith("Template")}
        for (brand, part), template in parts.items():
            label = next((it for it in parts.get((brand, template.get("equiv", "")), template) if it.tag.endswith("Label-rectangle")), None)
            if label is not None and wanted in (part.lower(), f"{brand} {part}".lower()):
                source = parts.get((brand, template.get("equiv", "")), template)
                page = papers.get(source.get("size"), source)
                (width, height), (wide, high) = (_lengths(it, "width", "height") for it in (label, page))
                found[f"{brand} {part}"] = Stock(width, height, (wide, high), tuple(
                    Grid(int(it.get("nx", 1)), int(it.get("ny", 1)), *_lengths(it, "x0", "y0", "dx", "dy")) for it in label if it.tag.endswith("Layout")))
    if len({*found.values()}) == 1:
        return next(iter(found.values()))
    near = [*found][:9] or difflib.get_close_matches(_MAKERS.sub("", name).strip().upper(), KNOWN, 3, 0.5)
    meant = translated(" (did you mean {0}?)", translated(" or ").join(near)) if near else ""
    raise ValueError(translated(
        "there is no stock {0!r}{1}: --stocks lists those that are known; else write its measures in mm, "
        "as 3x8:70x37 (a sheet of A4), 5x13:38.1x21.2+2.54+0 (with gaps) or 57x32 (a roll)", name, meant))


def _lengths(element: ElementTree.Element, *names: str) -> List[float]:
    """The lengths of an element, in mm."""
    found = [re.fullmatch("([0-9.]+) *([a-z]*)", element.get(name, "0")) for name in names]
    return [float(it[1]) * _MM[it[2]] if it else 0.0 for it in found]
