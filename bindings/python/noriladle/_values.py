"""The meaning of values of Application Identifiers: numbers, codes and places."""
from __future__ import annotations

from decimal import Decimal
from functools import lru_cache
from typing import Dict, List, NamedTuple, Optional, Tuple

from ._ais import COUNTRIES, CURRENCIES, ROWS


class Row(NamedTuple):
    """What the table says about an Application Identifier."""

    title: str


class Place(NamedTuple):
    """A place on the Earth, in degrees: north and east are above 0."""

    latitude: Decimal
    longitude: Decimal


@lru_cache(maxsize=None)
def rows() -> Dict[str, Row]:
    """The table, by its Application Identifiers."""
    table = {}
    for least, greatest, title in ROWS:
        for ai in range(int(least), int(greatest) + 1):
            name = f"{ai:0{len(least)}d}"
            # Of AIs from one to another each digit lies between those of the two.
            if all(low <= digit <= high for low, digit, high in zip(least, name, greatest)):
                table[name] = Row(title)
    return table


def ai_at(text: str) -> Optional[str]:
    """The Application Identifier at the beginning of a text. No Application Identifier begins another."""
    return next((text[:count] for count in (2, 3, 4) if text[:count] in rows()), None)


@lru_cache(maxsize=None)
def _letters(packed: str, count: int) -> Dict[str, str]:
    return {code[:3]: code[3:] for code in packed.split()}


def _country(number: str) -> Optional[str]:
    return _letters(COUNTRIES, 2).get(number)


def _is_measure(ai: str) -> bool:
    return len(ai) == 4 and ai[0] == "3" and ai[1] in "123456"


def _scaled(digits: str, decimals: int) -> Decimal:
    return Decimal(int(digits)).scaleb(-decimals)


def number(ai: str, value: str) -> Optional[Decimal]:
    """The number of a count, a measure, an amount, a price, a percentage or a temperature."""
    if ai in ("30", "37", "8005"):
        return Decimal(int(value))
    if _is_measure(ai) or ai[:3] in ("390", "392", "394", "395"):
        return _scaled(value, int(ai[3]))
    if ai[:3] in ("391", "393"):
        return _scaled(value[3:], int(ai[3]))
    if ai[:3] == "433":
        degrees = _scaled(value[:6], 2)
        return -degrees if value.endswith("-") else degrees
    return None


def currency(ai: str, value: str) -> Optional[str]:
    """The currency of an amount or a price, such as ``EUR``."""
    return _letters(CURRENCIES, 3).get(value[:3]) if ai[:3] in ("391", "393") and len(ai) == 4 else None


def country_codes(ai: str, value: str) -> List[str]:
    """The codes of countries in a value, in digits or in letters."""
    if ai in ("421", "422", "424", "426") or (ai[:3] == "703" and len(ai) == 4):
        return [value[:3]]
    if ai in ("423", "425"):
        return [value[at:at + 3] for at in range(0, len(value), 3)]
    return [value] if ai in ("4307", "4317") else []


def countries(ai: str, value: str) -> Tuple[str, ...]:
    """The countries of a value whose codes are known, such as ``("DE", "FR")``."""
    known = set(_letters(COUNTRIES, 2).values())
    letters = (_country(code) or code for code in country_codes(ai, value))
    return tuple(code for code in letters if code in known)


def place(ai: str, value: str) -> Optional[Place]:
    """The place of a value, which counts ten millionths of a degree from the South Pole and to the east."""
    if ai != "4309":
        return None
    east = _scaled(value[10:], 7)
    return Place(_scaled(value[:10], 7) - 90, east - 360 if east > 180 else east)
