"""The drawing of a label: bars as boxes of whole printer dots, and texts. Lengths are dots unless a name says mm."""
from __future__ import annotations

import math
import struct
from dataclasses import dataclass, field
from typing import Dict, Iterator, List, NamedTuple, Optional, Sequence, Tuple

from .._shop import shared
from ._fonts import Font
from ._stocks import Stock

DOTS_IN_MM: Dict[int, float] = {int(name): dots / 25.4 for name, dots in shared("dots").items()}
RESOLUTIONS = tuple(DOTS_IN_MM)
"""Printers' dots per inch; a printer of 203 has eight per millimetre."""

Box = Tuple[int, int, int, int]
"""A rectangle: its left and upper edge, its width and height."""

BOX = struct.Struct("<4H24x")
"""The rectangle of ``struct gs1_part``."""


class Text(NamedTuple):
    """Letters in a rectangle: on a base line one after another, or each in the middle of a cell."""

    text: str
    font: Font
    size: float
    left: float
    base: float
    cell: float
    box: Box
    is_struck: bool = False

    @property
    def wide(self) -> float:
        """How wide its letters are."""
        return self.font.width(self.text, self.size)

    def pieces(self) -> Iterator[Tuple[str, float]]:
        """The pieces with a place of their own, each with its middle."""
        if not self.cell:
            yield self.text, self.left + self.wide / 2
        else:
            yield from ((sign, self.left + (number + 0.5) * self.cell) for number, sign in enumerate(self.text))


@dataclass(frozen=True)
class Look:
    """How labels look."""

    resolution: int = 300
    module_mm: Optional[float] = None
    """The width of a module, instead of the standard's; and the height of the bars."""
    bars_mm: Optional[float] = None
    bearers: bool = False
    """Whether an ITF-14 has a bar above and one below."""
    turned: bool = False
    """Whether labels are read from the right side of their stock."""
    is_price_first: bool = True
    """Whether a price is the largest, and the bars are a strip below it."""

    @property
    def dots(self) -> float:
        """Dots in a millimetre."""
        return DOTS_IN_MM[self.resolution]


class Cell(NamedTuple):
    """An empty label, and how much stays white at its sides, above and below."""

    width: int
    height: int
    aside: float
    above: float
    dots: float


class Warned(NamedTuple):
    """A warning about a label: its name in tables/shop/en.json, and the values in it."""

    name: str
    own: Tuple[str, ...]
    rank: float = 0.0
    """Of several labels, the one with the least value is named."""


@dataclass
class Drawing:
    """A drawn label."""

    width: int
    height: int
    dark: bytes = b""
    """The bars of its symbol from the left, then its bearers, and lines through old prices, each as ``struct gs1_part``, which takes less memory than objects."""
    texts: List[Text] = field(default_factory=list)
    warnings: List[Warned] = field(default_factory=list)

    @property
    def boxes(self) -> Sequence[Box]:
        """Its bars, bearers and lines."""
        return [(left, top, width, height) for left, top, width, height in BOX.iter_unpack(self.dark)]


def cell_of(stock: Stock, look: Look) -> Cell:
    """A label of this stock."""
    sizes = [math.floor(length * look.dots) for length in (stock.width, stock.height)]
    padding = [length * look.dots for length in stock.padding]
    if look.turned:
        sizes, padding = sizes[::-1], padding[::-1]
    return Cell(sizes[0], sizes[1], padding[0], padding[1], look.dots)
