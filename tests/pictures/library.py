"""The library from Python, C and Node, which must agree about each picture."""
from __future__ import annotations

import os
import subprocess
import sys
import time
from typing import Sequence

HERE = os.path.dirname(os.path.abspath(__file__))
sys.path[:0] = [os.path.join(HERE, "..", "..", "bindings", "python")]
from noriladle import Symbol, Symbols, picture

_PART = 20
"""How many pictures are in memory at once."""


class Library:
    """Asks from Python, and compares what C and Node say. Node does not say why a picture shows nothing."""

    def __init__(self, program: str, package: str) -> None:
        self.programs = {"C": [program], "Node": ["node", os.path.join(HERE, "picture_lines.mjs"), package]}
        self.asked, self.differing, self.passed = 0, 0, 0.0

    def read(self, paths: Sequence[str]) -> list[Symbols]:
        """The symbols of each picture, as Python has them."""
        return [symbols for i in range(0, len(paths), _PART) for symbols in self._read(paths[i:i + _PART])]

    def _read(self, paths: Sequence[str]) -> list[Symbols]:
        greys = [picture.grey_of(path) for path in paths]
        begun = time.process_time()
        shown = [picture.read(grey, 2026) for grey in greys]
        self.passed += time.process_time() - begun
        self.asked += len(greys)
        given = b"".join(b"%d %d\n" % grey.shape[::-1] + grey.tobytes() for grey in greys)
        for name, words in self.programs.items():
            told = subprocess.run(words, input=given, stdout=subprocess.PIPE, check=True).stdout.decode("ascii")
            wanted = [lines_of(it) + "\n\n" if it or name == "C" else "\n" for it in shown]
            if "".join(wanted) != told:
                self.differing += 1
                print(f"differs: Python {''.join(wanted)!r}, {name} {told!r}", file=sys.stderr)
        return shown


def lines_of(shown: Symbols) -> str:
    """The library's lines for a picture, without the last line feed."""
    if not shown and not shown.dropped:
        return str(shown.reason or "none")
    return "\n".join([*map(line_of, shown), *([f"dropped {shown.dropped}"] if shown.dropped else [])])


def line_of(symbol: Symbol) -> str:
    places = " ".join(f"{256 * x:.0f} {256 * y:.0f}" for x, y in symbol.corners)
    pairs = "\t".join(f"{element.ai}={element.value}" for element in symbol.answer.elements)
    return f"{places} {symbol.rows} {symbol.answer.identifier} {pairs}"


def says(symbol: Symbol) -> str:
    """What a symbol says, in the words of pictures.Symbol."""
    elements = symbol.answer.elements
    return "".join(it.ai + it.value for it in elements) if symbol.answer.identifier == "]C1" else elements[0].value
