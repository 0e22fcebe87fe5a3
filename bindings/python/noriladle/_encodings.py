"""Finds how the text of a list is encoded, by evidence. tables/shop has the tables and, in README.md, the rule."""
from __future__ import annotations

import re
from typing import Any, Dict, FrozenSet, List, NamedTuple, Optional, Sequence, Set

from ._lists import Fault, Faults
from ._shop import file_of, said, told

_TABLE: Dict[str, Any] = file_of("encodings")
_PAGES: Dict[str, str] = _TABLE["pages"]
_SIGNS, _JOINING, _CLOSING, _ALONE = (frozenset(_TABLE[name]) for name in ("signs", "joining", "closing", "alone"))
_SEVEN = {name: frozenset(letters + letters.upper()) for name, letters in _TABLE["languages"].items()}
_ALL = {**_SEVEN, **{name: frozenset(letters + letters.upper()) for name, letters in _TABLE["neighbours"].items()}}
_NATIVE = {page: frozenset(names) for page, names in _TABLE["groups"].items()}
_ANYWHERE = frozenset(_TABLE["anywhere"] + _TABLE["anywhere"].upper())
_GROUPS: Dict[str, FrozenSet[str]] = {
    page: _ANYWHERE.union(*(_ALL[name] for name in names)) for page, names in _NATIVE.items()}
_WORDS = {name: frozenset(words) for name, words in _TABLE["words"].items()}
_KNOWN = {word: name for name, words in _TABLE["names"].items() for word in words}
_UPPER = {page: {128 + at: sign for at, sign in enumerate(signs)} for page, signs in _PAGES.items()}
NAMES = tuple(_TABLE["names"])
"""The encodings that a person may name."""

_WINDOWS = ("cp1252", "cp1250")
_USUAL = _WINDOWS[0]
_FEW_WORDS = 5
"""Fewer words than this, without any hint, may be of every language."""
_MOST_WORDS = 2_000
"""How many different words decide."""
_LEAST = 16
"""How many bytes a number has in UTF-16, at least."""
_HEAD = 4_000
"""How many bytes may have the words of a heading."""


class Decoded(NamedTuple):
    """The text of a file; what a person should know of its encoding; and the lines with a damaged character."""

    text: str
    note: str = ""
    damaged: Sequence[int] = ()


def encoding_of(name: str) -> Optional[str]:
    """The encoding of a name that a person gave."""
    return _KNOWN.get(name.strip().lower())


def decoded(data: bytes, encoding: str = "") -> Decoded:
    """The text of a file in this encoding, or in the one that fits it.

    :raises Faults: it is no text, or several encodings fit, or none.
    """
    name = encoding or _unicode(data)
    if name == "utf-16":
        order = "" if data[:2] in (b"\xff\xfe", b"\xfe\xff") else "-le" if data[1:2] == b"\0" else "-be"
        text = data.decode(f"utf-16{order}", "replace")
        return Decoded(text, _note(name) if order else "", _damaged(text))
    if b"\0" in data:
        raise Faults([Fault(_line(data, data.index(b"\0")), said("noText"))])
    if name == "utf-8":
        text = data.decode("utf-8-sig", "replace")
        return Decoded(text, "", _damaged(text))
    page = name or _page(data)
    text = _text(data, page)
    if "\ufffd" in text:
        at = text.index("\ufffd")
        raise Faults([Fault(_line(data, at), said("otherEncoding", _TABLE["shown"][page], f"{data[at]:02X}"))])
    return Decoded(text, _note(page))


def _unicode(data: bytes) -> str:
    """Which form of Unicode the bytes are, if they are one: most of UTF-16's are pairs with a byte 0."""
    zeros = data.count(0)
    are_pairs = len(data) % 2 == 0 and len(data) >= _LEAST and 4 * zeros >= len(data)
    if data[:2] in (b"\xff\xfe", b"\xfe\xff") or are_pairs and zeros in (data[0::2].count(0), data[1::2].count(0)):
        return "utf-16"
    text = data.decode("utf-8", "replace")
    bad = text.count("\ufffd")
    return "utf-8" if not bad or len(re.findall("[^\0-\x7f\ufffd]", text)) > bad else ""


def _damaged(text: str) -> List[int]:
    """The lines of a text that have a damaged character."""
    lines = re.split("\r\n|\r|\n", text) if "\ufffd" in text else []
    return [number for number, line in enumerate(lines, 1) if "\ufffd" in line]


def _page(data: bytes) -> str:
    """The code page that fits the words of a list.

    :raises Faults: several fit, or none.
    """
    words = _words(data)
    hints = _hinted(data)
    found = {page: _letters([_text(word, page) for word in words]) for page in _PAGES}
    letters = {page: its for page, its in found.items() if its is not None}
    is_short = not hints and len(words) < _FEW_WORDS
    fitting = [page for page, its in letters.items()
               if any(its <= _ALL[name] for name in (_ALL if is_short else _languages(page, hints)))]
    mixed = [page for page, its in letters.items() if its <= _GROUPS[page]]
    if not fitting and hints and hints <= _NATIVE[_USUAL] and _USUAL in mixed:
        fitting = [_USUAL]
    elif is_short or not {*fitting} & {*_WINDOWS}:
        fitting = [page for page in _PAGES if page in fitting or page in mixed]
    if not fitting:
        raise Faults([Fault(1, told("by", said("noEncoding"), f"--encoding {next(iter(_PAGES))}"))])
    if len({tuple(_text(word, page) for word in words) for page in fitting}) > 1:
        pages = ", ".join(_TABLE["shown"][page] for page in fitting)
        raise Faults([Fault(1, told("by", said("whichEncoding", pages), f"--encoding {fitting[0]}"))])
    return fitting[0]


def _languages(page: str, hints: Set[str]) -> Set[str]:
    """The languages that a list in a page may have: the seven, and of their neighbours those with a hint, or without
    any hint those of Windows."""
    return {*_SEVEN, *(hints or (_ALL if page in _WINDOWS else ()))}


def _words(data: bytes) -> List[bytes]:
    """The different words of a list that have a byte of 128 to 255."""
    found: Dict[bytes, None] = {}
    for word in re.finditer(rb"[A-Za-z\x80-\xff]+", data):
        if not word[0].isascii():
            found[word[0]] = None
            if len(found) == _MOST_WORDS:
                break
    return [*found]


def _hinted(data: bytes) -> Set[str]:
    """The languages with a word for a heading in the first lines, in any of the code pages."""
    words: Set[str] = set()
    for page in _PAGES:
        words.update("".join(sign if sign.isalpha() else " " for sign in _text(data[:_HEAD], page).lower()).split())
    return {name for name, its in _WORDS.items() if words & its}


def _letters(words: Sequence[str]) -> Optional[Set[str]]:
    """The letters of words beyond those of English; None if a sign or a letter is where none belongs."""
    found: Set[str] = set()
    for word in words:
        for at, sign in enumerate(word):
            before, after = word[at - 1] if at else "", word[at + 1:at + 2]
            if sign in _SIGNS:
                if _is_letter(after) and (sign in _CLOSING or sign not in _JOINING and _is_letter(before)):
                    return None
            elif not sign.isascii():
                if not sign.isalpha() or _is_misplaced(before, sign, after):
                    return None
                found.add(sign)
    return found


def _is_letter(sign: str) -> bool:
    return sign.isalpha() and sign not in _SIGNS


def _is_misplaced(before: str, letter: str, after: str) -> bool:
    """Whether a letter stands alone as none does, or has the wrong case between its neighbours."""
    if not before and not after:
        return letter not in _ALONE
    if letter.isupper():
        return before.islower() or before.isalpha() and after.islower()
    return before.isupper() and after.isupper() and letter != "ß"


def _text(data: bytes, page: str) -> str:
    """The text of bytes in a code page."""
    return data.decode("latin-1").translate(_UPPER[page])


def _note(name: str) -> str:
    return said("readAs", _TABLE["shown"][name])


def _line(data: bytes, at: int) -> int:
    """The line of a byte."""
    return 1 + data[:at].count(b"\n")
