"""Finds which heading of a list is the price on the shelf. tables/shop has the words and, in README.md, the rule."""
from __future__ import annotations

import re
import unicodedata
from functools import cached_property, lru_cache
from typing import Any, Dict, FrozenSet, List, Mapping, NamedTuple, Optional, Sequence, Tuple

from ._shop import file_of

_TABLE: Dict[str, Any] = file_of("prices")
_MOST, _MOST_TEXT = 200, 1_000
"""A longer text is no heading, or no remark."""
_LETTERS = str.maketrans(_TABLE["letters"])


class PriceHeading(NamedTuple):
    """What a heading says about its prices."""

    reason: str
    """Why they are not those of the shelf, or nothing."""
    points: int
    """How clearly they are the shop's own, with tax: 0 to 4, or -1 if somebody else recommends them."""
    marks: FrozenSet[str]
    """The currencies and countries that the heading names."""
    is_cents: bool
    """Whether they are whole numbers of cents."""
    is_sure: bool
    """Whether all words of the heading are known."""


def _pattern(words: str) -> str:
    """The regular expression of a pattern of the table, on folded text."""
    parts = ["[^ ]+" if word == "*" else re.escape(word).replace(r"\*", "[^ ]*").replace(r"\#", "(?:[2-9]|[1-9][0-9]+)")
             for word in words.strip("^$").split(" ")]
    return f"{'^' * (words[0] == '^')} {' '.join(parts)}(?= ){' $' * (words[-1] == '$')}"


class Words:
    """Finds any of some patterns of the table in folded text. Their regular expression is made at first use: those of the whole table take half of a start."""

    def __init__(self, patterns: Sequence[str]) -> None:
        self._patterns = patterns

    @cached_property
    def _expression(self) -> "re.Pattern[str]":
        return re.compile("|".join(map(_pattern, self._patterns)))

    def search(self, text: str) -> bool:
        """Whether the text has one of them."""
        return bool(self._expression.search(text))

    def cut(self, text: str) -> str:
        """The text without them."""
        return self._expression.sub("", text)


_IGNORED, _PRICE, _OWN, _GROSS, _RECOMMENDED, _TAXES, _WITH, _WITHOUT, _CENTS = (Words(_TABLE[name]) for name in (
    "ignored", "price", "own", "gross", "recommended", "taxes", "with", "without", "cents"))
_SURE = Words([word for name in ("price", "own", "gross", "recommended", "taxes", "with", "cents", "neutral")
               for word in _TABLE[name]] + [word for words in _TABLE["marks"].values() for word in words])
_REASONS = {name: Words(patterns) for name, patterns in _TABLE["reasons"].items()}
CARTON, DEPOSIT = _REASONS["carton"], _REASONS["deposit"]
"""Words of a case, also in headings of numbers, and of what is paid with the price."""
SURE_REASONS = frozenset(_TABLE["remarks"]["reasons"])
"""Those that a text gives also outside a heading of prices."""
_MARKS = {name: Words(patterns) for name, patterns in _TABLE["marks"].items()}


def folded(heading: str) -> str:
    """The words of a heading in small letters without accents, each between blanks. Single letters, as in R.R.P.,
    become one word."""
    text = re.sub("([a-z])([A-Z])", r"\1 \2", heading).lower().translate(_LETTERS)
    letters = (letter for letter in unicodedata.normalize("NFKD", text) if unicodedata.category(letter)[0] != "M")
    words: List[str] = []
    was_single = False
    for word in "".join(letter if unicodedata.category(letter)[0] in "LN" else " " for letter in letters).split():
        is_single = len(word) == 1 and word.isalpha()
        if is_single and was_single:
            words[-1] += word
        else:
            words.append(word)
        was_single = is_single
    return f" {' '.join(words)} "


@lru_cache(maxsize=4096)
def price_of(heading: str) -> Optional[PriceHeading]:
    """What a heading says about its prices; None if it is not about prices."""
    text = _IGNORED.cut(folded(heading[:_MOST + 1]))
    if len(heading) > _MOST or not _PRICE.search(text):
        return None
    reason = _reason(text, _tax(text)[1])
    points = _OWN.search(text) + _GROSS.search(text) + 2 * _tax(text)[0]
    marks = frozenset(name for name, pattern in _MARKS.items() if pattern.search(text))
    is_sure = not _SURE.cut(text).strip()
    return PriceHeading(reason, -1 if _RECOMMENDED.search(text) else points, marks, _CENTS.search(text), is_sure)


@lru_cache(maxsize=4096)
def reason_of(text: str) -> str:
    """Why the prices that a text speaks of are not those of the shelf; nothing if it does not say, or speaks of a total."""
    words = _IGNORED.cut(folded(text[:_MOST_TEXT]))
    _, tax = _tax(words)
    is_about = (tax == "net" or _PRICE.search(words)) and not _REASONS["total"].search(words)
    return _reason(words, tax) if is_about else ""


def _reason(text: str, tax: str) -> str:
    """The first reason that a folded text gives, or that its words of tax give."""
    return next((name for name, pattern in _REASONS.items() if name == tax or pattern.search(text)), "")


def reason_in(heading: str) -> str:
    """Why amounts below a heading are not prices of the shelf, also if it does not speak of prices; nothing if it does not say."""
    text = _IGNORED.cut(folded(heading[:_MOST]))
    return _reason(text, _tax(text)[1])


def has_tax(text: str) -> bool:
    """Whether a folded heading says that its prices have the tax."""
    return _tax(text)[0] or _GROSS.search(text)


@lru_cache(maxsize=4096)
def may_add_tax(heading: str) -> bool:
    """Whether a heading may be that of prices to which the tax was added: it speaks of tax or a total, and of no other price."""
    text, reason = _IGNORED.cut(folded(heading[:_MOST])), reason_in(heading)
    says_so = reason in ("net", "total") or not reason and (_WITH.search(text) or _GROSS.search(text))
    return says_so and not _RECOMMENDED.search(text)


def _tax(text: str) -> Tuple[bool, str]:
    """Whether a heading says that the tax is included, and else the reason that its words of tax make."""
    if not _TAXES.search(text):
        return False, ""
    if _WITHOUT.search(text):
        return False, "net"
    return (True, "") if _WITH.search(text) else (False, "tax")


_DOUBTFUL = frozenset(("unit", "offer", "country", "customer", "quantity", "unclear"))
"""Reasons that do not keep a column from being the price, if the only other one has unknown words."""


def shelf_prices(headings: Mapping[int, PriceHeading]) -> List[int]:
    """The columns, of these with their headings, that may be the price on the shelf: more than one are a question."""
    known = {place: heading for place, heading in headings.items() if not heading.reason}
    # Beside a purchase price the plain one is the shop's own. Without one it may be the purchase price.
    least = -1 if any(heading.reason == "purchase" for heading in headings.values()) else 0
    most = max((max(least, heading.points) for heading in known.values()), default=0)
    best = [place for place, heading in known.items() if max(least, heading.points) == most]
    best = [place for place in best if not known[place].marks] or best
    if len(best) != 1:
        return [*known]
    chosen = known[best[0]]
    # Beside a price that somebody recommends one of unclear meaning may be the shop's own.
    doubtful = _DOUBTFUL if not chosen.is_sure else ("unclear",) if chosen.points < 0 else ()
    doubts = [place for place, heading in headings.items() if heading.reason in doubtful]
    has_others = bool(chosen.marks) and any(not heading.marks <= chosen.marks for heading in known.values())
    return sorted([*known, *doubts]) if has_others or doubts else best
