"""What a heading of a list means, and how a person names its columns."""
from __future__ import annotations

import re
import unicodedata
from functools import lru_cache
from typing import Dict, List, Sequence, Tuple

from ._lists import Fault, Record
from ._prices import CARTON, SURE_REASONS, folded, price_of, reason_in
from ._shop import said, shared, told
from ._texts import short

_WORDS: Dict[str, List[str]] = shared("headings")
"""The headings of each meaning, in English, German, French, Spanish, Italian, Dutch and Polish, without accents, blanks
and signs. If several columns have one meaning, the word that comes first here wins; a line may have a number. Headings
of prices are in tables/shop/prices.json."""

MEANINGS = tuple(_WORDS)
FIELDS = ("old-price", "unit-price", "deposit", "best-before", "batch")
"""What a label shows beside its name and price, as gs1.h orders it."""
_EXACT = frozenset((*FIELDS, "content"))
"""Meanings of a heading that has no other words."""
_KNOWN = {word: (meaning, rank)
          for meaning, words in reversed(_WORDS.items()) for rank, word in enumerate(words)}
_NUMBERS = frozenset(shared("numbers"))
"""Words that turn a heading such as "article" into one of article numbers."""
LONGER = 100
"""The rank of a heading that begins with a known word and has more. A number whose word comes later has twice that, and
one of a case three times this more."""
_MOST_WORDS = 4
"""How many words of a heading may be that of a number."""
_FOLDED = str.maketrans({"ł": "l", "ø": "o", "ß": "ss"})


@lru_cache(maxsize=4096)
def plain(heading: str) -> str:
    """A heading in small letters, without accents, blanks and signs."""
    letters = unicodedata.normalize("NFKD", heading.casefold().translate(_FOLDED))
    return "".join(letter for letter in letters if letter.isalnum())


def known(heading: str) -> Tuple[str, int]:
    """What a heading means, if it or one of its words is known, and its rank: a lower one is better."""
    if re.search(r"\d{7}", heading):
        return "", 0  # A number with a word beside it, such as EAN: 4012345010008.
    price, whole = price_of(heading), _KNOWN.get(plain(heading))
    if price and not (whole and whole[0] in _EXACT):
        return ("", 0) if price.reason else ("price", 0)
    if whole:
        return whole
    words = [plain(word) for word in re.split(r"[\W_]+", heading) if word] or [""]
    meanings = [_KNOWN.get(word.rstrip("0123456789"), ("", 0)) for word in words]
    number = next((at for at, (meaning, _) in enumerate(meanings[:_MOST_WORDS]) if meaning == "gtin"), None)
    if number and re.search(r"\d", "".join(words[:number])):
        number = None
    if number is not None:
        return "gtin", LONGER * (1 + bool(number) + 3 * bool(CARTON.search(folded(heading)))) + meanings[number][1]
    meaning, rank = meanings[0]
    return ("", 0) if meaning == "name" and _NUMBERS & {*words[1:]} or meaning in _EXACT else (meaning, LONGER + rank)


class Headings:
    """The columns of a list as a person names them: by the cells of the heading, or by their numbers."""

    def __init__(self, first: Record, has_heading: bool) -> None:
        self.line = first.line
        self.cells: Sequence[str] = [" ".join(cell.split()) for cell in first.cells] if has_heading else []
        self._plain = [*map(plain, self.cells)]

    def of(self, place: int) -> str:
        """The heading of a column, or nothing."""
        return self.cells[place] if place < len(self.cells) else ""

    def named(self, place: int) -> str:
        """A column by its heading, or by its number."""
        return said("quoted", self.of(place)) if self.of(place) else said("columnNumber", place + 1)

    def count(self, heading: str) -> int:
        """How many columns have this heading."""
        return self._plain.count(plain(heading))

    def is_another(self, record: Record) -> bool:
        """Whether a record is a heading, too, and another one: it has two words of this one, and not the same in all."""
        other = [cell and plain(cell) for cell in record.cells]
        shared = {*self._plain} & {*other} - {""}
        return len(shared) > 1 and any(cell != other[place] for place, cell in enumerate(self._plain) if place < len(other))

    def reasons(self) -> Dict[int, str]:
        """Why the prices of some columns are not those of the shelf."""
        prices = {place: price_of(cell) for place, cell in enumerate(self.cells)}
        return {place: price.reason for place, price in prices.items() if price and price.reason}

    def question(self, choice: Sequence[int], looking: Sequence[int]) -> Fault:
        """The question which of some columns is the price; if there is none to choose, those that are about prices or look
        like some."""
        reasons = {place: reason for place in looking for reason in [reason_in(self.of(place))] if reason in SURE_REASONS}
        reasons.update(self.reasons())
        columns = choice or sorted({*reasons, *looking})
        if choice:
            text = said("whichPrice", ", ".join(map(self.named, choice)))
        elif columns:
            text = said("noShelfPrice", ", ".join(
                said("because", self.of(place), said(reasons[place])) if place in reasons else self.named(place)
                for place in columns))
        else:
            return Fault(self.line, told("by", said("nonePrice"), "--no-price"))
        return self._asked(self.line, text, min(columns, key=lambda it: (it in reasons, reasons.get(it) == "purchase")))

    def doubt(self, price: int, line: int, cell: str) -> Fault:
        """The question whether a column is the price, since a cell of the list may mean that it is not."""
        return self._asked(line, said("notShelf", short(cell), self.named(price)), price)

    def _asked(self, line: int, text: str, place: int) -> Fault:
        """A question, with the options that answer it."""
        heading = self.of(place)
        answer = repr(heading) if heading and self.count(heading) == 1 else place + 1
        return Fault(line, told("by", text, told("or", f"--column price={answer}", "--no-price")))
