"""Reads texts as people type and paste them: numbers, printed element strings, and what scanners send."""
from __future__ import annotations

import re
from typing import List, Optional, Tuple

from . import Ais, Answer, Refusal, _bytes, _is_gtin, _library, _noted, _read, _terms, _with_scanned

BRACKETED = {"(": re.compile(r"\(([0-9]{2,4})\)([^()]+)"), "[": re.compile(r"\[([0-9]{2,4})\]([^][]+)")}
_PUNCTUATION = re.compile(r"[\s\xa0\u2007\u202f\u2010-\u2015-]+")
LINK = re.compile(r"https?://", re.IGNORECASE)
_MAY_BE = re.compile(r"\d|://")
"""What is in each number or link: most cells have none of it."""
ROUNDED = re.compile(r"\d([.,]\d+)?E\+?\d+", re.IGNORECASE)


_WHITE = "".join(sign for sign in map(chr, range(0x3001)) if sign.isspace() and sign != "\x1d")


def read_text(text: str, year: Optional[int], ais: Ais = "all") -> Answer:
    """What a text says, as :func:`noriladle.read_text`."""
    typed, terms = _bytes(text), _terms(year, ais)
    try:
        return _read(_library.gs1_read_text, typed, len(typed), terms)
    except Refusal as refusal:
        raise _with_scanned(refusal, _bytes(stripped(text)), terms)


def stripped(text: str) -> str:
    """A text without white space at its ends. Byte 29, the separator, stays."""
    return text.strip(_WHITE)


def short(text: str) -> str:
    """A text as an error names it."""
    plain = "".join(letter if letter.isprintable() else "^" if letter == "\x1d" else "?" for letter in text)
    return plain if len(plain) <= 60 else f"{plain[:59]}…"


def is_elements(text: str) -> bool:
    """Whether a text is an element string: it has parentheses around its first Application Identifier, or a separator."""
    return text[:1] in BRACKETED or "^" in text or "\x1d" in text


def looks_right(text: str) -> bool:
    """Whether a cell looks like a number or a text that can be read, right or wrong."""
    text = stripped(text)
    if text[:1] in BRACKETED or text[:1] in ("]", "^", "\x1d"):
        return bool(re.match(r"[(\[]\d\d|\]\w\d|[\^\x1d]\d\d", text))
    if not _MAY_BE.search(text):
        return False
    digits = digits_of(text)
    return bool(7 <= len(digits) <= 14 and digits.isdecimal() or ROUNDED.fullmatch(digits) or LINK.match(text))


def digits_of(text: str) -> str:
    """A number without the blanks and hyphens that people put into it."""
    return _PUNCTUATION.sub("", text)


def element_string(answer: Answer) -> str:
    """The element string of an answer, with a separator only where one must stand."""
    told: str = answer.__dict__["_told"][0]
    return told


def in_column(text: str) -> str:
    """A text of a column of element strings as :func:`read_text` takes it: it needs no mark there.

    :raises Refusal: 40 ``Kind`` for the digits of a GTIN, which may be elements too.
    """
    if not text or is_elements(text) or text[0] == "]":
        return text
    if _is_gtin(text.encode("utf-8", "surrogatepass")):
        raise _noted(Refusal(40, "Kind"), "column", text)
    return f"^{text}"


def pairs_of(text: str) -> List[Tuple[str, str]]:
    """The Application Identifiers of a printed text that is refused, each with its value.

    :raises Refusal: 5 ``UnknownAi`` if there are parentheses or brackets elsewhere.
    """
    pattern = BRACKETED[text[0]]
    pairs = [(ai, _printed(value)) for ai, value in pattern.findall(text)]
    if pattern.sub("", text) or not all(value for _, value in pairs):
        raise Refusal(5, "UnknownAi")
    return pairs


def _printed(value: str) -> str:
    """A printed value without the blanks around it, and one of digits alone without those in it."""
    plain = "".join(value.split())
    return plain if re.fullmatch("[0-9]*", plain) else value.strip()
