"""The kinds of labels, by their words, as tables/kinds.tsv has them."""
import csv
import os
from typing import List, NamedTuple, Optional


class Kind(NamedTuple):
    """A kind: its word, its name, its number in the library and its symbology identifier; how many digits stand under its bars, if it
    shows a number; the modules of its widest symbol and of its quiet zones; its names in zint, zbarimg and ZXingReader; and a text of it and
    what that says."""

    word: str
    name: str
    number: int
    identifier: str
    digits: Optional[int]
    modules: int
    left: int
    right: int
    zint: str
    zbar: str
    zxing: str
    sample: str
    says: str

    @property
    def wide(self) -> int:
        """The modules of its widest symbol with its quiet zones."""
        return self.left + self.modules + self.right


def _kind(row: List[str]) -> Kind:
    word, name, number, identifier, digits, modules, left, right, *others = row
    return Kind(word, name, int(number), identifier, None if digits == "-" else int(digits), int(modules), int(left), int(right), *others)


TABLE = os.path.join(os.path.dirname(os.path.abspath(__file__)), "..", "..", "tables", "kinds.tsv")
with open(TABLE, encoding="utf-8") as file:
    KINDS = {row[0]: _kind(row) for row in list(csv.reader(file, delimiter="\t"))[1:]}
