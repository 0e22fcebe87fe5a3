"""Reads prices as people write them, and formats them for print. tables/shop/README.md has the rule."""
from __future__ import annotations

import re
from decimal import ROUND_HALF_UP, Decimal
from functools import lru_cache
from typing import Dict, Iterable, List, NamedTuple, Optional, Sequence, Tuple

from ._prices import PriceHeading
from ._shop import decimal_sign, file_of, said, shared
from ._texts import short

_DECIMALS: Dict[str, int] = {}
"""How many decimals a currency has, by each of its signs."""
for _decimals, *_signs in file_of("prices")["currencies"].values():
    _DECIMALS.update(dict.fromkeys(_signs, _decimals))

_SIGN = "|".join(map(re.escape, sorted(_DECIMALS, key=len, reverse=True)))
_GROUPS = ".,'’ \xa0\u202f"
_PRICE = re.compile(
    rf"(?P<below>[-−])?(?P<front>(?:{_SIGN})[ \xa0]?)?(?P<minus>[-−])?"
    rf"(?P<whole>[0-9]{{1,7}}|[0-9]{{1,3}}(?P<group>[{_GROUPS}])[0-9]{{3}}(?:(?P=group)[0-9]{{3}})?)"
    rf"(?:(?P<point>[.,])(?:(?P<fraction>[0-9]+)|(?P<dash>[-–—]{{1,2}})))?(?P<debit>-)?"
    rf"(?P<back>[ \xa0]?(?:{_SIGN}))?"
    r"(?P<each>[ \xa0]?(?:/|(?:je|pro|per|par|por|al|za)[ \xa0])[ \xa0]?[^\W\d_][\w. ]{0,11})?",
    re.IGNORECASE)
"""A price: a number with or without decimals, a currency before or behind it, and what it is for."""
_DIGIT = re.compile("[0-9]")
_UNITS: Dict[str, Tuple[str, float]] = shared("units")
"""Of what a unit is a measure, and how many of its smallest it has."""
UNIT = re.compile(rf"(?<![^\W_])([0-9]* ?)({'|'.join(sorted(_UNITS, key=len, reverse=True))})(?![^\W_])", re.IGNORECASE)
"""A unit in a text, perhaps with a number of it."""
_MEASURE = re.compile(rf"(?:([0-9]+) ?[x×] ?)?([0-9]+(?:[.,][0-9]+)?)? ?({'|'.join(_UNITS)})(?: ?[e℮])?", re.IGNORECASE)


class _Written(NamedTuple):
    """A price as it is written."""

    before: str
    whole: str
    group: str
    point: str
    fraction: str
    dash: str
    after: str
    each: str
    currency: str
    is_below: bool


class Amounts:
    """The prices of a column. Its cells say together whether a point or a comma stands before the decimals."""

    def __init__(self, cells: Iterable[str], heading: Optional[PriceHeading], currency: str, is_free: bool) -> None:
        marks = sorted(heading.marks & _DECIMALS.keys()) if heading else []
        self._decimals = _DECIMALS.get((currency or "".join(marks[:1])).casefold(), 2)
        self._sign = currency
        self._is_cents, self._is_free = bool(heading and heading.is_cents), is_free
        written = [it for it in map(_written, cells) if it and it.point and (it.group or len(it.fraction) != 3)]
        points = {it.point for it in written}
        self.point = points.pop() if len(points) == 1 else ""
        """What all decimals of the column have before them; nothing if cells differ, or none has decimals."""

    def printed(self, cell: str) -> str:
        """The price of a cell as it is printed: with the decimals of its currency.

        :raises ValueError: it is no price, in words.
        """
        price = _written(cell)
        if not price or re.match("0[0-9]", price.whole):
            raise ValueError(said("noAmount", short(cell)))
        if price.is_below:
            raise ValueError(said("belowZero", short(cell)))
        price = self._in_full(self._of_cents(price, cell) if self._is_cents else price, cell)
        if not self._is_free and not re.search("[1-9]", price.whole + price.fraction):
            raise ValueError(f"{said('zeroPrice', short(cell))} (--free)")
        decimals = f"{price.point}{price.fraction or price.dash}" if price.fraction or price.dash else ""
        return f"{price.before}{price.whole}{decimals}{price.after}{price.each}"

    def signed(self, cell: str) -> str:
        """An amount as it is printed, with the sign of the currency if it has none; nothing for zero."""
        price = _written(cell)
        if price and not re.search("[1-9]", price.whole + price.fraction):
            return ""
        return signed(self.printed(cell), self._sign)

    def of_unit(self, price: str, content: str, units: Sequence[str]) -> str:
        """The price of one of these units, such as ``1 kg = 5.80``, by a price as it is printed and what it is for.

        :raises ValueError: it cannot be told.
        """
        kind, size = _DIGIT.search(content) and measure_of(content) or ("", Decimal())
        written, unit = _written(price), next((it for it in units if (measure_of(it) or ("",))[0] == kind), "")
        _, asked = measure_of(unit) or ("", Decimal())
        if not size or not asked or not written or written.each:
            raise ValueError(said("noContent", short(content), ", ".join(units)))
        number = amount_of(price) * asked / size
        whole, _, fraction = str(number.quantize(Decimal(1).scaleb(-_DECIMALS.get(written.currency, self._decimals)), ROUND_HALF_UP)).partition(".")
        point = fraction and (written.point or self.point or decimal_sign())
        amount = signed(f"{written.before}{whole}{point}{fraction}{written.after}", self._sign)
        return re.sub("^([0-9]*) ?", lambda found: f"{found[1] or 1} ", unit) + f" = {amount}"

    def _of_cents(self, price: _Written, cell: str) -> _Written:
        """The price in money of a whole number of cents."""
        if price.group or price.fraction or price.dash or price.currency:
            raise ValueError(said("notCents", short(cell)))
        digits = price.whole.zfill(3)
        return price._replace(whole=digits[:-2], point=self.point or decimal_sign(), fraction=digits[-2:])

    def _in_full(self, price: _Written, cell: str) -> _Written:
        """A price with the decimals of its currency.

        :raises ValueError: it has more, or nobody can say what they are.
        """
        decimals = _DECIMALS.get(price.currency, self._decimals)
        if price.dash:
            return price
        may_be_group = len(price.fraction) == 3 and not price.group and re.fullmatch("[1-9][0-9]{0,2}", price.whole)
        if may_be_group and decimals != 3:
            price = self._grouped(price, cell, decimals)
        fraction = price.fraction[:decimals].ljust(decimals, "0")
        if price.fraction[decimals:].strip("0"):
            raise ValueError(said("decimalsOfPrice", short(cell), decimals, _rounded(price, decimals)))
        point = price.point or self.point or decimal_sign()
        if point == price.group:
            point = "," if point == "." else "."
        return price._replace(point=point, fraction=fraction)

    def _grouped(self, price: _Written, cell: str, decimals: int) -> _Written:
        """A price such as 1.299, if other prices write decimals with the other sign, or the currency has none.

        :raises ValueError: they do not.
        """
        if decimals and self.point in ("", price.point):
            full = f"{price.whole}{price.fraction}{price.point}{'0' * decimals}"
            raise ValueError(said("twoAmounts", short(cell), full, f"{price.whole}{price.point}{price.fraction[:2]}"))
        whole = f"{price.whole}{price.point}{price.fraction}"
        return price._replace(whole=whole, group=price.point, point="", fraction="")


def _rounded(price: _Written, decimals: int) -> str:
    """The number of a price with this many decimals, rounded half up."""
    number = Decimal(f"{re.sub('[^0-9]', '', price.whole)}.{price.fraction}")
    return str(number.quantize(Decimal(1).scaleb(-decimals), ROUND_HALF_UP)).replace(".", price.point)


def signed(amount: str, currency: str) -> str:
    """An amount with the sign of a currency behind it, if it is only a number."""
    return f"{amount}\xa0{currency}" if currency and re.fullmatch(r"[\d.,' ]+", amount) else amount


def measure_of(text: str) -> Optional[Tuple[str, Decimal]]:
    """What a text such as ``6 x 0.33 l`` measures, and how much; nothing if it is no measure, or its decimals may be a group."""
    found = _MEASURE.fullmatch(text)
    if not found or re.search("[1-9][0-9]*[.,][0-9]{3}$", found[2] or ""):
        return None
    kind, size = _UNITS[found[3].lower()]
    return kind, Decimal(found[1] or 1) * Decimal((found[2] or "1").replace(",", ".")) * Decimal(str(size))


def amount_of(price: str) -> Decimal:
    """The number of a price as it is printed."""
    written = _written(price)
    return Decimal(f"{re.sub('[^0-9]', '', written.whole)}.{written.fraction or 0}") if written else Decimal()


def price_like(cell: str) -> bool:
    """Whether a cell is nothing but a price with decimals."""
    price = _written(cell)
    return bool(price and price.point)


def cell_amount(cell: str) -> float:
    """The number of a cell that is written like a price; 0 for any other cell, and if its decimals may be a group."""
    price = _written(cell.strip())
    if not price or price.is_below or len(price.fraction) == 3 and price.whole != "0":
        return 0.0
    return float(f"{re.sub('[^0-9]', '', price.whole)}.{price.fraction or 0}")


@lru_cache(maxsize=8192)
def _written(cell: str) -> Optional[_Written]:
    """The parts of a cell that is written like a price."""
    found = _DIGIT.search(cell) and _PRICE.fullmatch(cell)
    if not found or found["front"] and found["back"]:
        return None
    part: Dict[str, str] = {name: text or "" for name, text in found.groupdict().items()}
    currency = (part["front"] or part["back"]).strip().casefold()
    return _Written(part["front"], part["whole"], part["group"], part["point"], part["fraction"], part["dash"],
                    part["back"], part["each"], currency, any(part[name] for name in ("below", "minus", "debit")))
