"""The fonts of labels: the widths of texts, and how they fill lines."""
from __future__ import annotations

import importlib.util
import os
import re
import unicodedata
from dataclasses import dataclass, field
from functools import lru_cache
from pathlib import Path
from typing import Dict, List, NamedTuple, Optional, Set, Tuple

from .._shop import translated
from ._letters import Ink, ink_of
from ._truetype import Metrics, NoFont, metrics_of

_FOLDERS = ("/usr/share/fonts", "/usr/local/share/fonts", "~/.local/share/fonts", "~/.fonts", "/Library/Fonts", "C:/Windows/Fonts")
_USUAL = (("LiberationSans-Regular.ttf", "LiberationSans-Bold.ttf"), ("Arial.ttf", "Arial Bold.ttf"), ("arial.ttf", "arialbd.ttf"),
          ("DejaVuSansCondensed.ttf", "DejaVuSansCondensed-Bold.ttf"), ("DejaVuSans.ttf", "DejaVuSans-Bold.ttf"), ("Vera.ttf", "VeraBd.ttf"))
"""Pairs of a regular and a bold font. The first that is installed is used; the last comes with reportlab."""

NO_FONT = "no font was found: apt-get install fonts-liberation, or name a regular and a bold one by --font"


@dataclass(frozen=True)
class Font:
    """A TrueType font, by its file and its name in PDF files."""

    path: Path
    name: str
    is_bold: bool
    widths: "_Widths" = field(hash=False, compare=False, repr=False)
    """The widths of its characters in size 1."""
    borrowed: Dict[str, Path] = field(default_factory=dict, hash=False, compare=False, repr=False)
    """The characters that it lacks, with the files of other fonts that have them."""

    def borrow(self, letters: Set[str]) -> None:
        """Takes each of these characters that it lacks from the first installed font that has it."""
        missing = {letter for letter in letters if letter not in self.widths}
        for path in _others() if missing else ():
            try:
                widths = metrics_of(path).widths
            except (NoFont, OSError):
                continue
            self.borrowed.update({letter: path for letter in missing & widths.keys()})
            self.widths.update({letter: widths[letter] for letter in missing & widths.keys()})
            missing -= widths.keys()
            if not missing:
                return

    def path_of(self, letter: str) -> Path:
        """The file that has a character."""
        return self.borrowed.get(letter, self.path)

    def ink(self, letter: str) -> Ink:
        """Where a letter has ink, in size 1.

        :raises NoFont: it is damaged.
        """
        return ink_of(self.path_of(letter), letter)

    def width(self, text: str, size: float = 1.0) -> float:
        """How wide a text is in the unit of its size."""
        return size * sum(map(self.widths.__getitem__, text))

    def lacks(self, text: str) -> List[str]:
        """The characters of a text that it lacks, or that do not stand from left to right, one after another."""
        return sorted(letter for letter in set(text) - {"\n"} if letter not in self.widths or _is_not_set(letter))


class _Widths(Dict[str, float]):
    """The widths of characters. One that the font lacks is as wide as its sign for missing characters."""

    def __init__(self, metrics: Metrics) -> None:
        super().__init__(metrics.widths)
        self.other = metrics.other

    def __missing__(self, letter: str) -> float:
        return self.other


def _is_not_set(letter: str) -> bool:
    return bool(unicodedata.combining(letter)) or unicodedata.bidirectional(letter) in ("R", "AL", "AN")


class Fonts(NamedTuple):
    """The fonts of labels."""

    regular: Font
    bold: Font


def fonts_of(regular: Optional[str] = None, bold: Optional[str] = None) -> Fonts:
    """The fonts of these files. Without a bold one the regular one is both; without files it is the first usual pair.

    :raises ValueError: a file is no TrueType font, or no usual pair is there.
    """
    paths = [Path(regular), Path(bold or regular)] if regular else _found()
    try:
        return Fonts(_loaded(paths[0], False), _loaded(Path(bold) if bold else paths[1], True))
    except (NoFont, OSError) as error:
        raise ValueError(translated("this is no TrueType font: {0}", error)) from error


@lru_cache(maxsize=1)
def _others() -> List[Path]:
    """All installed fonts, those of the usual pairs first, and upright ones before others."""
    usual = [name for pair in _USUAL for name in pair]
    slanted = re.compile("bold|italic|oblique|mono|light|thin|black", re.IGNORECASE)
    rank = {name: at for at, name in enumerate(usual)}
    return [path for name, path in sorted(_installed().items(), key=lambda it: (rank.get(it[0], 99), bool(slanted.search(it[0])), it[0]))
            if name[-4:].lower() in (".ttf", ".ttc")]


def _installed() -> Dict[str, Path]:
    """All files of fonts by their names."""
    there: Dict[str, Path] = {}
    for folder in (*_FOLDERS, *_of_reportlab()):
        for inside, _, names in os.walk(os.path.expanduser(folder)):
            for name in names:
                there.setdefault(name, Path(inside, name))
    return there


def _found() -> List[Path]:
    there = _installed()
    for pair in _USUAL:
        if all(name in there for name in pair):
            return [there[name] for name in pair]
    raise ValueError(NO_FONT)


def _of_reportlab() -> List[str]:
    """The folder of the fonts that come with reportlab, if it is installed."""
    spec = importlib.util.find_spec("reportlab")
    return [os.path.join(place, "fonts") for place in (spec and spec.submodule_search_locations) or []]


@lru_cache(maxsize=None)
def _loaded(path: Path, is_bold: bool) -> Font:
    return Font(path, path.stem, is_bold, _Widths(metrics_of(path)))
