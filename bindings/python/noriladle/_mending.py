"""What a number was meant to be, if somebody wrote it in another way. tables/shop/README.md has the rule."""
from __future__ import annotations

import re
import unicodedata
from functools import lru_cache
from typing import Callable, List, NamedTuple, Optional, Sequence, Tuple

from . import check_digit
from ._shop import said

_LENGTHS = (8, 12, 13, 14)
_QUOTES = "\"'`´“”„‚‘’«»‹›"
_WORDS = "ean|gtin|upc|isbn|barcode"
_BEFORE = re.compile(rf"(?:{_WORDS})(?:[ -]?(?:8|10|12|13|14|a|e)(?![0-9]))?[.:#\s-]*|[#+]", re.IGNORECASE)
_BEHIND = re.compile(rf"[\s(]*(?:{_WORDS})\)?$|[,;.]$", re.IGNORECASE)
_JOINTS = re.compile("[\\s\xa0\u2007\u202f\u2010-\u2015\u2212-]+")
_LETTERS = str.maketrans("OoIil|SsBZz", "00111155822")
"""Letters that are read or typed for a digit."""
_MOST_LETTERS = 2


@lru_cache(maxsize=16)
def meant(text: str) -> str:
    """The number that a text clearly stands for, with a check digit that fits; or nothing."""
    bare = _bare(text)
    joined = _JOINTS.sub("", bare)
    is_written_as_isbn = joined != text.strip() or joined[-1:] in "Xx"
    others = (_isbn(joined) if is_written_as_isbn else "", _of_thousands(bare), _without_decimals(joined), _in_full(joined), _of_letters(joined),
              joined.zfill(12) if len(joined) in (10, 11) else "")
    return next((number for number in (joined, *others) if number and is_number(number)), "")


def is_number(digits: str) -> bool:
    """Whether these are the digits of a GTIN, and not zeros alone."""
    return (len(digits) in _LENGTHS and digits.isascii() and digits.isdecimal() and bool(digits.strip("0"))
            and int(digits[-1]) == check_digit(digits[:-1]))


class Advice(NamedTuple):
    """What to do about a text that is refused: a sentence of tables/shop/, the words in it, and each text that may replace this one."""

    key: str
    values: Tuple[object, ...] = ()
    fixes: Tuple[str, ...] = ()

    def __str__(self) -> str:
        return said(self.key, *self.values)


Written = Callable[[str], str]
"""The text that a call reads as a number; empty if it reads none as it."""


def advice(text: str, written: Written) -> Optional[Advice]:
    """What to write for a text that is no number: what it clearly stands for, or each number that it may be."""
    number, digits = meant(text), _JOINTS.sub("", _bare(text))
    letter, plain = re.search("[Oo]", digits), written(number) if number else ""
    if plain and letter and re.sub("[Oo]", "0", digits) == number:
        return Advice("letterO", (letter[0], plain), (plain,))
    if plain and (not digits.isdecimal() or digits == number):
        return Advice("isbn" if re.fullmatch("[0-9]{9}[Xx]", digits) else "plainly", (plain,), (plain,))
    return _told([(name, told) for name, it in _readings(digits) for told in [written(it)] if told])


def _told(readings: Sequence[Tuple[str, str]]) -> Optional[Advice]:
    """The sentence about the texts that may be meant."""
    fixes = tuple(text for _, text in readings)
    if not readings:
        return None
    if len(readings) == 1:
        (name, one), = readings
        return Advice({"lastDigit": "checkDigit", "lostZeros": "zeros", "ofIsbn": "isbn"}.get(name, "noCheckDigit"), (one,), fixes)
    shown = [Advice(name, (one,)) for name, one in readings]
    if readings[0][0] == "lostZeros":
        return Advice("also", (Advice("zeros", (readings[0][1],)), "; ".join(map(str, shown[1:]))), fixes)
    return Advice("readings", ("; ".join(map(str, shown)),), fixes)


def _readings(digits: str) -> List[Tuple[str, str]]:
    """Each number that some digits may be, and what would be wrong with them."""
    if not (digits.isascii() and digits.isdecimal()):
        return []
    padded = [digits.zfill(length) for length in (8, 12, 13) if 5 < len(digits) < length]
    found = [("lostZeros", number) for number in padded if is_number(number)][:1]
    found += [("ofIsbn", it) for it in [_isbn(digits)] if it]
    if len(digits) in (7, 11, 12):
        found.append(("addedDigit", f"{digits}{check_digit(digits)}"))
    if len(digits) in _LENGTHS and not is_number(digits):
        found.append(("lastDigit", f"{digits[:-1]}{check_digit(digits[:-1])}"))
    return found


@lru_cache(maxsize=16)
def _bare(text: str) -> str:
    """A text with digits of any script as 0 to 9, and without anything around a number: quotes, signs and words."""
    signs = (sign for sign in text if unicodedata.category(sign) != "Cf")
    plain = (text if text.isascii() else "".join(str(unicodedata.decimal(sign, sign)) for sign in signs)).strip()
    before = ""
    while plain != before:
        before = plain
        plain = re.sub(r'^=\s*(?=")', "", plain).strip(_QUOTES + " ")
        plain = _BEHIND.sub("", _BEFORE.sub("", plain, count=1) if _BEFORE.match(plain) else plain).strip()
        plain = plain[1:-1] if re.fullmatch(r"[(\[][^()\[\]]*[)\]]", plain) else plain
    return plain


def _isbn(digits: str) -> str:
    """The GTIN of an ISBN of ten digits (ISO 2108), whose last one may be an X."""
    if not re.fullmatch("[0-9]{9}[0-9Xx]", digits):
        return ""
    values = [10 if digit in "Xx" else int(digit) for digit in digits]
    if sum(weight * value for weight, value in zip(range(10, 0, -1), values)) % 11:
        return ""
    return f"978{digits[:9]}{check_digit(f'978{digits[:9]}')}"


def _of_thousands(text: str) -> str:
    """A number without the points, commas or apostrophes between its thousands."""
    found = re.fullmatch(r"[0-9]{1,3}([.,'’])[0-9]{3}(?:\1[0-9]{3})+", text)
    return text.replace(found[1], "") if found else ""


def _without_decimals(text: str) -> str:
    found = re.fullmatch("([0-9]{8,14})[.,]0+", text)
    return found[1] if found else ""


def _in_full(text: str) -> str:
    """The digits of a number such as 4.012345010008E+12, if it has all of them."""
    found = re.fullmatch(r"([0-9])[.,]([0-9]+)[Ee]\+?([0-9]{1,2})", text)
    return found[1] + found[2] if found and len(found[2]) == int(found[3]) else ""


def _of_letters(text: str) -> str:
    """A number in which letters stand for a digit or two."""
    return text.translate(_LETTERS) if 0 < len(re.findall("[A-Za-z|]", text)) <= _MOST_LETTERS else ""
