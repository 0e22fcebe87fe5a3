"""The sets of pictures that readers are compared by: groups of pictures with symbols, and pictures without any."""
from __future__ import annotations

import os
from typing import Any, Callable, Iterable, Iterator, Sequence, Tuple

import camera_kinds
import hard_pictures
import pictures
import real_pictures
import zint_pictures

PAGE, HOSTILE, CAMERAS, REAL, ZINT = "of the page", "hostile", "by cameras", "real", "as zint writes them"
CUT = "cut by the picture's edge"
Made = Sequence[Tuple[Sequence[Any], str]]
"""Pictures: the symbols of each, and its path."""
Group = Tuple[str, str, Callable[..., Made]]
"""A group's name and set, and what makes its pictures."""
LEAST = {PAGE: 99.5, HOSTILE: 0, CAMERAS: 90, REAL: 100, ZINT: 100}
"""How many of 100 symbols of a set the library must read."""
WITHOUT, CUTS = 1000, 2000


class Sources:
    """Makes the pictures of each set in a folder. Real photographs that were not fetched are counted as skipped."""

    def __init__(self, symbols: list[pictures.Symbol], work: str, kept: str, look: bool) -> None:
        self.symbols, self.work, self.look = symbols, work, look
        self.seed = camera_kinds.LOOK if look else camera_kinds.TEST
        photographs, self.skipped = ([], 0) if look else real_pictures.photographs(os.path.join(kept, "real"))
        self.real = [([one], one.path) for one in photographs if one.says]
        self.nothing = [one.path for one in photographs if not one.says]

    def groups(self) -> Iterator[Group]:
        """Each group's name and set, and a function that makes its pictures: the symbols and the path of each."""
        for name in camera_kinds.KINDS:
            yield name, CAMERAS, lambda name=name: [([s], p) for s, p in camera_kinds.group(name, self.seed, self.work)]
        if self.look:
            return
        for name in pictures.GROUPS:
            yield name, PAGE, lambda name=name: [([s], p) for s, p in pictures.group(name, self.symbols, self.work)]
        hard = hard_pictures.group
        for name in hard_pictures.GROUPS:
            yield name, HOSTILE, lambda name=name: [([s], p) for s, p in hard(name, self.symbols, self.work)]
        for angle in (0, 3):
            name = f"a sheet of 104 labels, turned by {angle} degrees"
            yield name, HOSTILE, lambda angle=angle: [hard_pictures.sheet(self.symbols, 8, 13, angle, self.work)]
        for name, make in zint_pictures.GROUPS.items():
            yield name, ZINT, lambda make=make: [([s], p) for s, p in make(self.work)]
        if self.real:
            yield "photographs of packs", REAL, lambda: self.real

    def without(self) -> Iterator[tuple[str, Callable[[], list[str]]]]:
        """Each set of pictures without a symbol, and a function that makes them: their paths."""
        yield CAMERAS, lambda: camera_kinds.without_symbol(WITHOUT, self.seed, self.work)
        yield CUT, lambda: zint_pictures.cut_symbols(CUTS, self.seed, self.work)
        if self.look:
            return
        yield PAGE, lambda: pictures.without_symbol(WITHOUT, self.symbols, self.work)
        if self.nothing:
            yield REAL, lambda: self.nothing

    def remove(self, paths: Iterable[str]) -> None:
        """Removes those pictures that were made."""
        for path in paths:
            if os.path.dirname(path) == self.work:
                os.remove(path)
