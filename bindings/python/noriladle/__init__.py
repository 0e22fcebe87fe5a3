"""Reads GS1 barcodes, checks numbers and element strings, and draws labels.

Each call of the library underneath is proved against the definitions of the GS1 standards. An error is raised as a
:class:`Refusal`, with its number and its name. ``year`` is the reference year by which years of two digits are read: this
year, unless you give another.

    >>> read_gtin("9501101530003")
    '09501101530003'
    >>> check_digit("950110153000")
    3
    >>> read_elements("10AB\\x1d17261231", year=2026)
    '(10)AB(17)261231'
    >>> answer = read_scan("]C13103001250\\x1d17261231", year=2026)
    >>> answer["17"].title, answer["17"].date
    ('USE BY or EXPIRY', datetime.date(2026, 12, 31))
    >>> answer["3103"].number, answer["3103"].unit
    (Decimal('1.250'), 'kg')
    >>> read_scan("https://id.gs1.org/01/09501101530003/10/AB", year=2026).text
    '(01)09501101530003(10)AB'
"""
from __future__ import annotations

import ctypes
import datetime
import enum
import operator
import os
import re
import struct
from dataclasses import dataclass, field
from decimal import Decimal
from functools import lru_cache, wraps
from itertools import accumulate, islice
from typing import TYPE_CHECKING, Any, Callable, Dict, Iterable, Iterator, List, Literal, NamedTuple, Optional, Sequence, Tuple, TypeVar, Union, cast, get_args

from . import _values
from ._values import Place

if TYPE_CHECKING:
    from ._mending import Advice as _Advice
    from .picture import Picture

__all__ = [
    "Ais", "Answer", "Box", "Conflict", "ConflictKind", "Element", "Found", "GtinUse", "Kind", "LabelSymbol", "Place", "Refusal", "Symbol", "SymbolKind", "Symbols",
    "check_digit", "compose", "conflicts", "draw_label", "find", "find_dots", "gtin_use", "label_symbol", "parse_elements", "read_dots",
    "read_elements", "read_gtin", "read_gtins", "read_picture", "read_row", "read_scan", "read_scans", "read_text",
]

__version__ = "2.0.0"

_MOST = 65_535
_LINE = 292
_SYMBOL = 900
_EVERY_AI = 0x8000
_ANY_YEAR = 2000
"""For calls whose answer has no day."""
# The symbology identifiers that an element string may follow.
_ELEMENT_STRINGS = (b"]C1", b"]e0", b"]d2", b"]Q3", b"]J1")

Ais = Literal["all", "profile"]
"""Which Application Identifiers are accepted: every one of the GS1 General Specifications, or those of the profile."""

SymbolKind = Literal["ean13", "upca", "upce", "ean8", "itf14", "gs1128", "databar", "datamatrix", "qr_code", "dotcode"]
"""The kinds of symbols that scanners read."""

ConflictKind = Literal["needs", "excludes", "differs", "country", "currency", "prefix", "trade_item"]
"""What may be wrong with an element beside others, or what a code in it is not."""

_NO: Dict[ConflictKind, str] = {"prefix": "GS1 Company Prefix", "trade_item": "number of a trade item"}
"""What codes are not, if the kind of conflict does not say it."""

GtinUse = Literal["trade_item", "in_store", "coupon", "issn", "ismn", "isbn", "zeros"]
"""What a GTIN identifies: a trade item, what a company or a shop numbers itself, a coupon or a refund receipt, a serial publication, printed music, a
book, or nothing, if it is zeros alone."""

_SYMBOLS: Tuple[Optional[SymbolKind], ...] = (None, *get_args(SymbolKind))
"""Those of ``enum gs1_symbol_kind``, by their numbers."""
_HEAD = struct.Struct("<2H4B4s192s")
"""``struct gs1_answer`` up to its elements: fault, place, symbol, count, length, gtin, identifier, text."""
_PLACE = struct.Struct("<4BH2BH2B5Bx")
"""``struct gs1_place``: ai, value, end, named; year, month and day, twice; hour, minute, second, number, decimals."""
_CONFLICT = struct.Struct("<3B45s")
"""``struct gs1_conflict``: kind, element, other, text."""
_MOST_ELEMENTS, _MOST_TEXT, _MOST_CONFLICTS = 48, 192, 240
_NAMES_DAY, _NAMES_TIME, _NAMES_LAST_DAY = 1, 2, 4
_NO_PLACE = 65_535
_STEM = "https://id.gs1.org"
"""The beginning of a link unless another is given."""

_RawAnswer = ctypes.c_char * (_HEAD.size + _MOST_ELEMENTS * _PLACE.size)
_RawConflicts = ctypes.c_char * (_MOST_CONFLICTS * _CONFLICT.size)
_BATCH = 1024
"""How many lines are answered by one call."""
_RawAnswers = ctypes.c_char * (_BATCH * ctypes.sizeof(_RawAnswer))
_HEADS = struct.Struct(f"{_HEAD.format}{_MOST_ELEMENTS * _PLACE.size}x")
"""The same of many answers, which passes over their elements."""
assert (ctypes.sizeof(_RawAnswer), _CONFLICT.size) == (1068, 48), "the sizes that gs1.h promises"

_library = ctypes.CDLL(os.path.join(os.path.dirname(__file__), "libgs1.so"))
_SIZE, _U16, _U32, _BYTES, _WIDTHS = ctypes.c_size_t, ctypes.c_uint16, ctypes.c_uint32, ctypes.c_char_p, ctypes.POINTER(ctypes.c_uint16)
for _name in ("gs1_read_message", "gs1_read_elements", "gs1_read_gtin", "gs1_read_text", "gs1_read_data"):
    getattr(_library, _name).argtypes = [_BYTES, _SIZE, _U16, _RawAnswer]
for _name in ("gs1_read_messages", "gs1_read_gtins"):
    getattr(_library, _name).argtypes = [_BYTES, _SIZE, _U16, _RawAnswers, _SIZE, ctypes.c_void_p]
_library.gs1_read_row.argtypes = [_WIDTHS, _SIZE, _U16, _RawAnswer]
_library.gs1_read_dots.argtypes = [_BYTES, _U32, _U16, _RawAnswer]
_library.gs1_scan_text.argtypes = _library.gs1_link.argtypes = [_RawAnswer, _BYTES, _SIZE, _U16, _BYTES, _SIZE]
_library.gs1_conflicts.argtypes = [_RawAnswer, _RawConflicts, _SIZE]
_library.gs1_use_of_gtin.argtypes = [_RawAnswer]
_library.gs1_unit.argtypes = [_BYTES, _SIZE, _BYTES, _SIZE]
_library.gs1_find.argtypes = [_WIDTHS, _SIZE, _U16, _BYTES, _SIZE]
_library.gs1_find_dots.argtypes = [_BYTES, _U32, _U16, _BYTES, _SIZE]
_library.gs1_picture.argtypes = [
    ctypes.c_void_p, _SIZE, _U32, _U32, _SIZE, ctypes.c_uint8, _U16, ctypes.c_void_p, _SIZE, _BYTES, _SIZE]
_library.gs1_picture_room.argtypes = [_U32, _U32]
_library.gs1_status.argtypes = [_BYTES, _SIZE]
_library.gs1_text.argtypes = [_BYTES, _SIZE, _U16, _BYTES, _SIZE]
_library.gs1_digit.argtypes = [_BYTES, _SIZE, _BYTES, _SIZE]
_library.gs1_gtin.argtypes = [_BYTES, _SIZE, _BYTES, _SIZE]
_library.gs1_symbol.argtypes = [_U32, _BYTES, _SIZE, _U16, _BYTES, _SIZE]
_library.gs1_label.argtypes = [_U32, _BYTES, _SIZE, _U16, _U16, _U16, _U16, _BYTES, _SIZE]
for _name in ("gs1_text", "gs1_find", "gs1_find_dots", "gs1_picture", "gs1_picture_room", "gs1_digit", "gs1_gtin", "gs1_label", "gs1_symbol", "gs1_conflicts",
              "gs1_read_messages", "gs1_read_gtins", "gs1_scan_text", "gs1_link", "gs1_unit"):
    getattr(_library, _name).restype = _SIZE


def _sources() -> str:
    """The beginning of the checksum of the library's sources."""
    call = getattr(_library, "gs1_version", None)
    if not call:  # The library is older than the module.
        return "unknown"
    call.restype = _BYTES
    told: bytes = call()
    return told.decode().partition("sources ")[2].rstrip(")")


class Refusal(ValueError):
    """An error: its number and its name say what is wrong, as docs/FAULTS.md lists them.

    ``place`` is an offset or an index, from 0, if the error has one. ``cause`` and ``remedy`` say what is wrong with what
    this call was asked, and what to do; ``fixes`` has each text that may be meant, and that the same call reads:

        >>> try:
        ...     read_gtin("950110153000")
        ... except Refusal as refusal:
        ...     print(refusal.remedy)
        a digit is wrong or missing; compare the number with the box: it may be 9501101530003, if its check digit is missing; \
950110153007, if the last digit is wrong

    For an element string, ``before`` has the elements before the place, and ``ai`` the Application Identifier there, if
    there is one:

        >>> try:
        ...     parse_elements("10AB\\x1d17261331", year=2026)
        ... except Refusal as refusal:
        ...     print(refusal, refusal.before[0].value, refusal.ai)
        refused 9 ValueDate 5 AB 17
    """

    before: Tuple[Element, ...] = ()
    ai: Optional[str] = None
    _asked: Tuple[Any, ...] = ("",)
    _advised: Optional["_Advice"] = None

    def __init__(self, number: int, name: str, place: Optional[int] = None) -> None:
        super().__init__(number, name, place)
        self.number = number
        self.name = name
        self.place = place

    @property
    def cause(self) -> str:
        """What is wrong, in words."""
        advice, told = self._advice(), _remedies()
        key = getattr(advice.values[1] if advice.key in ("at", "inLink") else advice, "key")
        cause: str = told["causes"].get(key) or told["faults"].get(key, told["faults"][str(self.number)])[1]
        return cause

    @property
    def remedy(self) -> str:
        """What to do about it, in words."""
        return str(self._advice())

    @property
    def fixes(self) -> Tuple[str, ...]:
        """Each text that may be meant. A person should compare it with the label, since it may be that of another article."""
        return self._advice().fixes

    def _advice(self) -> "_Advice":
        from ._advice import Asked, advice_of  # It needs this module.

        if self._advised is None:
            self._advised = advice_of(self, Asked(*self._asked))
        return self._advised

    def __str__(self) -> str:
        place = "" if self.place is None else f" {self.place}"
        return f"refused {self.number} {self.name}{place}"


@lru_cache(maxsize=None)
def _remedies() -> Dict[str, Dict[str, Any]]:
    """The name and the cause of each number, the cause of each advice, and that of each identifier, from the file that tables/remedies makes."""
    import json  # Not at every start: it takes a tenth of it.

    with open(os.path.join(os.path.dirname(__file__), "remedies.json"), encoding="utf-8") as file:
        told: Dict[str, Dict[str, Any]] = json.load(file)
    return told


class Kind(enum.Enum):
    """A kind of label: ``GS1128`` shows an element string, the others a GTIN."""

    EAN13 = 0
    UPCA = 1
    EAN8 = 2
    UPCE = 3
    GS1128 = 4
    ITF14 = 5


@dataclass(frozen=True)
class Element:
    """An element: an Application Identifier and its value, with the day and the time that it names."""

    ai: str
    value: str
    date: Optional[datetime.date] = None
    """The day by the reference year, if the Application Identifier has one; day 00 is the last of its month."""
    time: Optional[datetime.time] = None
    """The time, if the Application Identifier has one: in the profile 7003 and 8008."""
    until: Optional[datetime.date] = field(default=None, repr=False)
    """The second day of 7007, if it has two."""

    @property
    def title(self) -> str:
        """The data title in the standard, such as ``USE BY or EXPIRY``; empty if there is none."""
        row = _values.rows().get(self.ai)
        return row.title if row else ""

    @property
    def number(self) -> Optional[Decimal]:
        """The number of a count, a measure, an amount, a price, a percentage or a temperature (30, 37, 310n to 369n, 390n to 395n, 433n, 8005). Of the
        price of a unit, 8005, the standard does not say how many digits are decimals, so it has none here.

        >>> Element("3932", "978000195").number
        Decimal('1.95')
        """
        return _values.number(self.ai, self.value)

    @property
    def unit(self) -> Optional[str]:
        """The unit of a measure, such as ``kg``; ``%`` for a percentage, ``°C`` or ``°F`` for a temperature.

        >>> str(Element("4331", "001850-").number), Element("4331", "001850-").unit
        ('-18.50', '°C')
        """
        ai = self.ai.encode("ascii", "replace")
        return _ask(_library.gs1_unit, ai, len(ai)).decode() or None

    @property
    def currency(self) -> Optional[str]:
        """The currency of an amount or a price that has one (391n and 393n), such as ``EUR``; None if its code is in no list.

        >>> Element("3932", "978000195").currency
        'EUR'
        """
        return _values.currency(self.ai, self.value)

    @property
    def countries(self) -> Tuple[str, ...]:
        """The countries of a value, by their two letters (421 to 426, 4307, 4317 and 703n), if their codes are in the list.

        >>> Element("423", "276528").countries
        ('DE', 'NL')
        """
        return _values.countries(self.ai, self.value)

    @property
    def place(self) -> Optional[Place]:
        """The place that 4309 names.

        >>> Element("4309", "14152186780061337830").place
        Place(latitude=Decimal('51.5218678'), longitude=Decimal('6.1337830'))
        """
        return _values.place(self.ai, self.value)

    def to_dict(self) -> Dict[str, Any]:
        """The element for JSON: a day as ``2026-12-31``, a number as a text."""
        told = {
            "ai": self.ai, "title": self.title, "value": self.value, "date": self.date, "until": self.until,
            "time": self.time, "number": self.number, "unit": self.unit, "currency": self.currency,
        }
        here: Dict[str, Any] = {
            name: f"{it:f}" if isinstance(it, Decimal) else str(it) for name, it in told.items() if it is not None and it != ""
        }
        if self.countries:
            here["countries"] = list(self.countries)
        if self.place:
            here["place"] = [f"{it:f}" for it in self.place]
        return here


@dataclass(frozen=True)
class Answer:
    """What a row, or a text from a scanner, says. Iterate over its elements; ``answer["17"]`` is that of an Application Identifier."""

    identifier: Optional[str]
    """The symbology identifier: ``]E0`` for EAN-13, UPC-A and UPC-E, ``]E4`` for EAN-8, ``]I1`` for ITF-14, ``]C1`` for
    GS1-128, or another that a scanner sent; None if the scanner sent none."""
    elements: Tuple[Element, ...]
    symbol: Optional[SymbolKind] = field(default=None, repr=False, compare=False)
    """The kind of symbol, such as ``upca``. In rows and dots it is known exactly. Elsewhere it is what the identifier says:
    behind ``]E0`` it is a guess from the digits, since a scanner may send a UPC-E as the 12 digits of a UPC-A. None without an
    identifier."""

    if not TYPE_CHECKING:
        def __getattr__(self, name: str) -> Any:
            """The elements, when they are first asked for. Two threads may both make them, alike."""
            told = self.__dict__.get("_told") if name == "elements" else None
            if told is None:
                raise AttributeError(f"{type(self).__name__!r} object has no attribute {name!r}")
            elements = self.__dict__["elements"] = _elements_at(*told)
            return elements

    def __getstate__(self) -> Dict[str, Any]:
        """What pickles and copies have: the fields."""
        return {"identifier": self.identifier, "elements": self.elements, "symbol": self.symbol}

    @property
    def text(self) -> str:
        """The line for people: each Application Identifier in parentheses before its value, as
        ``(01)09501101530003``. Different elements may have the same line, since a value may have parentheses."""
        return "".join([f"({ai}){value}" for ai, value in _pairs(self)])

    @property
    def gtin(self) -> Optional[str]:
        """The 14 digits of the GTIN, wherever 01 stands; None if there is none, or two that differ."""
        values = {value for ai, value in _pairs(self) if ai == "01"}
        return values.pop() if len(values) == 1 else None

    def gtin_as(self, digits: int) -> Optional[str]:
        """The GTIN as 8, 12, 13 or 14 digits, without zeros in front; None if there is no GTIN, or it has more digits.

        >>> answer = read_scan("]E09501101530003", year=2026)
        >>> answer.gtin, answer.gtin_as(13), answer.gtin_as(12)
        ('09501101530003', '9501101530003', None)

        :raises ValueError: no GTIN is written with so many digits.
        """
        if digits not in (8, 12, 13, 14):
            raise ValueError(f"a GTIN has 8, 12, 13 or 14 digits, and not {digits}")
        gtin, zeros = self.gtin, "0" * (14 - digits)
        return gtin[len(zeros):] if gtin and gtin.startswith(zeros) else None

    def __getitem__(self, ai: str) -> Element:
        """The first element with this Application Identifier.

        :raises KeyError: there is none.
        """
        for element in self.elements:
            if element.ai == ai:
                return element
        raise KeyError(ai)

    def __iter__(self) -> Iterator[Element]:
        return iter(self.elements)

    def __contains__(self, ai: object) -> bool:
        return any(element.ai == ai for element in self.elements)

    def scan(self, identifier: str, year: Optional[int] = None) -> str:
        """The text that a scanner sends of a symbol with these elements. The identifier is ``]C1`` (GS1-128), ``]e0`` (DataBar), ``]d2``
        (DataMatrix), ``]Q3`` (QR code) or ``]J1`` (DotCode). :func:`read_scan` reads the text as the same elements.

        >>> read_scan("]E09501101530003").scan("]d2")
        ']d20109501101530003'

        :raises Refusal: 40 ``Kind`` for any other identifier; as :func:`compose` if you made the elements yourself.
        """
        try:
            return _written(_library.gs1_scan_text, self, identifier, year)
        except Refusal as refusal:
            raise _noted_of(refusal, "scan", self.elements, year, identifier)

    def link(self, stem: str = _STEM, year: Optional[int] = None) -> str:
        """The GS1 Digital Link of these elements: in the path the first one that is a key, with its qualifiers, and in the query the
        others. :func:`read_scan` reads it as the same elements in this order.

        >>> read_scan("]C117261231" "10AB/1\\x1d" "0109501101530003", year=2026).link("https://example.com")
        'https://example.com/01/09501101530003/10/AB%2F1?17=261231'

        :raises Refusal: 40 ``Kind`` if no element is a key, such as (01), or the stem is no http or https URI or has a ``?`` or a ``#``;
            11 ``TooLong`` if they are no element string in this order; as :func:`compose` if you made the elements yourself.
        """
        try:
            return _written(_library.gs1_link, self, stem, year)
        except Refusal as refusal:
            raise _noted_of(refusal, "stem" if refusal.name == "Kind" and _has_key(self, year) else "link", self.elements, year, stem)

    def to_json(self) -> str:
        """The answer as a JSON text.

        >>> print(read_scan("]C110AB", year=2026).to_json())
        {"identifier": "]C1", "gtin": null, "elements": [{"ai": "10", "title": "BATCH/LOT", "value": "AB"}]}
        """
        import json  # Not at every start: it takes a tenth of it.

        told = {"identifier": self.identifier, "gtin": self.gtin, "elements": [element.to_dict() for element in self.elements]}
        return json.dumps(told, ensure_ascii=False)

    def __str__(self) -> str:
        return f"{self.identifier or '-'} {self.text}"


@dataclass(frozen=True)
class Found:
    """A symbol of a row."""

    first: int
    """The index of its first run, the light one before it."""
    count: int
    """How many runs it has, with the light ones at its ends."""
    answer: Answer


class Box(NamedTuple):
    """A part of a picture, in pixels from its left and upper edges, as Pillow's ``crop`` takes it: ``right`` and ``bottom``
    are one past the last pixel."""

    left: int
    top: int
    right: int
    bottom: int


class Symbols(List["Symbol"]):
    """The symbols of a picture: a list that also says what it does not have."""

    dropped: int = 0
    """How many more symbols were found, at least."""
    reason: Optional[Refusal] = None
    """If there is no symbol, the error of the row that came furthest; None if no row looked like a symbol."""


@dataclass(frozen=True)
class Symbol:
    """A symbol of a picture."""

    answer: Answer
    box: Box
    """The upright box around the part of its bars that was read."""
    corners: Tuple[Tuple[float, float], ...]
    """The four corners of this part, clockwise, in pixels from the left and upper edges of the picture: those of a
    rectangle along the bars."""
    rows: int
    """How many rows of the picture show it."""


def _ask(call: Any, *words: Any, room: int = _LINE) -> bytes:
    """The bytes of a call's answer. If the buffer is too small, calls again with a larger one."""
    while True:
        out = ctypes.create_string_buffer(room)
        length: int = call(*words, out, room)
        if length <= room:
            return out.raw[:length]
        room = length


def _said(call: Any, *words: Any) -> Union[Answer, Refusal]:
    """What a call says that fills a struct, or its error. Of the elements it keeps the text and the places."""
    raw = _RawAnswer()
    call(*words, raw)
    return _said_at(raw, 0)


def _said_at(raw: Any, at: int) -> Union[Answer, Refusal]:
    """What the struct says that begins at an index."""
    fault, place, symbol, count, length, _, identifier, text = _HEAD.unpack_from(raw, at)
    if fault:
        return Refusal(fault, _remedies()["faults"][str(fault)][0], None if place == _NO_PLACE else place)
    answer = object.__new__(Answer)
    of = answer.__dict__
    of["identifier"], of["symbol"] = identifier[:3].decode("ascii") if identifier[0] else None, _SYMBOLS[symbol]
    of["_told"] = text[:length].decode("ascii"), raw[at + _HEAD.size:at + _HEAD.size + count * _PLACE.size]
    return answer


def _read(call: Any, *words: Any) -> Answer:
    """The same, but raises the error."""
    said = _said(call, *words)
    if isinstance(said, Refusal):
        raise said
    return said


def _answers(batch: Any, one: Any, texts: List[bytes], terms: int) -> List[Union[Answer, Refusal]]:
    """What the call of one says of each of at most ``_BATCH`` texts, by the call of many unless a text has an end of a line in it."""
    lines = b"\n".join(texts) + b"\n"
    if lines.count(b"\n") > len(texts) or b"\r\n" in lines:
        return [_said(one, text, len(text), terms) for text in texts]
    raw = _RawAnswers()
    batch(lines, len(lines), terms, raw, len(texts), None)
    return [_said_at(raw, at * ctypes.sizeof(_RawAnswer)) for at in range(len(texts))]


def _each(batch: Any, one: Any, texts: Iterable[Union[str, bytes]], terms: int) -> Iterator[Tuple[Union[str, bytes], bytes, Union[Answer, Refusal]]]:
    """Each of many texts, its bytes, and what the call of one says of it."""
    every = iter(texts)
    for some in iter(lambda: list(islice(every, _BATCH)), []):
        said = list(map(_bytes, some))
        yield from zip(some, said, _answers(batch, one, said, terms))


def _gtins(texts: Sequence[bytes]) -> List[Optional[str]]:
    """The 14 digits of each text without an end of a line that is a GTIN; None if it is none, or eight digits that may be a UPC-E, too."""
    raw = _RawAnswers()
    told: List[Any] = []
    for at in range(0, len(texts), _BATCH):
        lines = b"\n".join(texts[at:at + _BATCH]) + b"\n"
        count = _library.gs1_read_gtins(lines, len(lines), _ANY_YEAR, raw, _BATCH, None)
        told += islice(_HEADS.iter_unpack(raw), count)
    return [None if fault or len(text) == 8 and text[0] == 48 else said[2:16].decode("ascii") for (fault, _, _, _, _, _, _, said), text in zip(told, texts)]


def _said_in(line: bytes, terms: int) -> Union[Answer, Refusal]:
    """The answer or the error whose line this is, with the elements as data; of any other line, error 40."""
    return _said(_library.gs1_read_data, line, len(line), terms)


def _fault_in(line: str) -> int:
    """The number of the error that a line reports, or 0."""
    answer = line.encode()
    number: int = _library.gs1_status(answer, len(answer))
    return number


def _elements_at(text: str, places: bytes) -> Tuple[Element, ...]:
    """The elements at these places of a text, made without the constructor, which takes twice the time. Without a day or a time
    the None of the class stands. Python's dates do not have the year 0."""
    elements = []
    for ai, value, end, named, year, month, day, last_year, last_month, last_day, hour, minute, second, _, _ in _PLACE.iter_unpack(places):
        element = object.__new__(Element)
        of = element.__dict__
        of["ai"], of["value"] = text[ai:value], text[value:end]
        if named & _NAMES_DAY and year:
            of["date"] = datetime.date(year, month, day)
        if named & _NAMES_TIME:
            of["time"] = datetime.time(hour, minute, second)
        if named & _NAMES_LAST_DAY and last_year:
            of["until"] = datetime.date(last_year, last_month, last_day)
        elements.append(element)
    return tuple(elements)


def _pairs(answer: Answer) -> List[Tuple[str, str]]:
    """The Application Identifier and the value of each element, without making the elements."""
    pairs: Optional[List[Tuple[str, str]]] = answer.__dict__.get("_pairs")
    if pairs is None:
        text, places = answer.__dict__.get("_told", ("", b""))
        pairs = ([(text[it[0]:it[1]], text[it[1]:it[2]]) for it in _PLACE.iter_unpack(places)] if places else
                 [(element.ai, element.value) for element in answer.elements])
        answer.__dict__["_pairs"] = pairs
    return pairs


def _with_before(refusal: Refusal, text: bytes, terms: int) -> Refusal:
    """The error of an element string, with the elements before its place and the Application Identifier there."""
    place = refusal.place
    if place is not None and place <= len(text) and refusal.name != "Words":
        refusal.ai = _values.ai_at(text[place:place + 4].decode("latin-1"))
        if place > 0:
            refusal.before = _parse(text[:place], terms).elements
    return refusal


def _with_scanned(refusal: Refusal, said: bytes, terms: int) -> Refusal:
    """The error of what a scanner sends; of an element string behind an identifier as :func:`_with_before`."""
    # Places do not count a separator at the beginning.
    return _with_before(refusal, re.sub(b"^\x1d", b"", said[3:].replace(b"^", b"\x1d")), terms) if said[:3] in _ELEMENT_STRINGS else refusal


def _line(answer: bytes) -> str:
    """The line of a call; raises its error if it is one."""
    if answer.startswith(b"refused "):
        _read(_library.gs1_read_data, answer, len(answer), _ANY_YEAR)
    return answer.decode("ascii")


def _places(call: Any, *words: Any) -> List[Tuple[int, int]]:
    """The first run and the number of runs of each symbol that a call finds."""
    return [(int(first), int(count)) for first, count, _ in (line.split(" ", 2) for line in _line(_ask(call, *words)).splitlines())]


def _bytes(text: Union[str, bytes]) -> bytes:
    if isinstance(text, str):
        return text.encode("utf-8", "surrogatepass")
    if isinstance(text, (bytes, bytearray, memoryview)):
        return bytes(text)
    raise TypeError(f"a text is str or bytes, and not {type(text).__name__}")


def _u16(number: int) -> int:
    """The number, or 0 if no answer allows it. Raises a TypeError if it is no whole number."""
    number = operator.index(number)
    return number if 0 <= number <= _MOST else 0


def _terms(year: Optional[int], ais: Ais) -> int:
    """Year and AIs as the library's one number; this year unless one is given, and for one out of range 0, which it refuses."""
    year = datetime.date.today().year if year is None else operator.index(year)
    if ais not in ("all", "profile"):
        raise ValueError(f"ais is 'all' or 'profile', and not {ais!r}")
    if not 1951 <= year <= 2149:
        return 0
    return _EVERY_AI | year if ais == "all" else year


_Said = TypeVar("_Said")
_Call = TypeVar("_Call", bound=Callable[..., Any])


def _noted(refusal: Refusal, call: str, text: Union[str, bytes] = "", *others: Any) -> Refusal:
    """The error, which knows what the call was asked."""
    refusal._advised = None
    refusal._asked = (call, text if isinstance(text, str) else bytes(text).decode("utf-8", "replace"), *others)
    return refusal


def _about(call: str) -> Callable[[_Call], _Call]:
    """Notes in the errors of a call what it is about: a row, or a picture."""
    def of(asking: _Call) -> _Call:
        @wraps(asking)
        def asked(*words: Any, **named: Any) -> Any:
            try:
                return asking(*words, **named)
            except Refusal as refusal:
                raise _noted(refusal, call)
        return cast(_Call, asked)
    return of


def _of_widths(ask: Callable[..., _Said], call: Any, widths: Sequence[int], terms: int) -> _Said:
    """What a call says about widths."""
    if any(width < 0 for width in widths):
        raise ValueError("a width is below 0")
    row = (_U16 * len(widths))(*(min(width, _MOST) for width in widths))
    is_narrow = all(width <= _MOST for width in widths)
    try:
        said = ask(call, row, len(row), terms)
    except Refusal as refusal:
        # An error of the year or of the number of runs comes before that of a width.
        if is_narrow or refusal.name in ("Words", "BadRuns"):
            raise
    else:
        if is_narrow:
            return said
    raise Refusal(17, "TooWide")


def _of_dots(ask: Callable[..., _Said], call: Any, dots: Union[bytes, bytearray, memoryview], width: int, terms: int) -> _Said:
    """What a call says about packed dots."""
    if width < 0:
        raise ValueError("the width is below 0")
    packed = bytes(dots)
    if width > 8 * len(packed):
        # As one dot of no byte, since the number may have more than 32 bits.
        return ask(call, None, 1, terms)
    return ask(call, packed, min(width, _MOST + 1), terms)


def _widths(dots: Union[bytes, bytearray, memoryview], width: int) -> List[int]:
    """The widths of the runs of packed dots, light first and last."""
    row = "".join(f"{byte:08b}" for byte in bytes(dots))[:width]
    # If the row has no light ends, these have no dot.
    light, *others = (len(run) for run in re.findall("^0*|1+|0+", row))
    return [light, *others] if len(others) % 2 == 0 else [light, *others, 0]


@_about("row")
def read_row(widths: Sequence[int], year: Optional[int] = None, *, ais: Ais = "all") -> Answer:
    """What a scanned row says. ``widths`` are those of its light and dark bars in pixels, starting and ending with light.

    The row may be scanned in either direction. Dates are read by the reference year, 1951 to 2149.

    :raises Refusal: it is no row, or shows no symbol with elements; 42 ``Words`` if the year is out of range.
    :raises ValueError: a width is below 0.
    """
    return _of_widths(_read, _library.gs1_read_row, widths, _terms(year, ais))


@_about("row")
def find(widths: Sequence[int], year: Optional[int] = None, *, ais: Ais = "all") -> List[Found]:
    """Every symbol of a scanned row, from left to right, whatever stands beside or between them.

    The widths are as for :func:`read_row`. Each part of the row that begins and ends with light and can be read as a
    row is a symbol.

    :raises Refusal: 18 ``BadRuns`` or 17 ``TooWide`` if it is no row; 42 ``Words`` if the year is out of range.
    :raises ValueError: a width is below 0.
    """
    places = _of_widths(_places, _library.gs1_find, widths, _terms(year, ais))
    return [Found(first, count, read_row(widths[first:first + count], year, ais=ais)) for first, count in places]


@_about("picture")
def read_picture(picture: Picture, year: Optional[int] = None, *, level: Optional[int] = None, ais: Ais = "all") -> Symbols:
    """Every symbol of a picture, in the order of reading: line by line, and from left to right.

    The picture is an image of Pillow's, a file (its first image), or an array with a row of grey, RGB or RGBA values for
    each line: of 8 or 16 bits, or ``bool``, where ``True`` is light. A file is its path, its bytes, or an open binary
    stream, such as that of an upload, which is read to its end. The orientation that a file names is ignored. Dates are read by the reference year, 1951 to 2149.

    With a level, 1 to 255, only the picture's own rows are read, and pixels below the level are dark. Without one, the
    level is that which separates the picture's values best, and symbols are also found at other angles and in uneven
    light. At most 192 symbols are reported; ``dropped`` of the answer says how many more there are, at least. If there is
    none, ``reason`` is the error of the row that came furthest.

    Needs numpy and Pillow: ``pip install noriladle[picture]``.

    :raises ImportError: numpy or Pillow is not installed.
    :raises OSError: the file is missing or damaged, or no JPEG, PNG, TIFF, PBM, PGM, PPM, BMP, GIF or WebP.
    :raises Refusal: 17 ``TooWide`` if a side has more than 65,535 pixels; 44 ``InputSize`` if a file's picture has more
        than 100,000,000, or a stream more than 1,000,000,000 bytes; 42 ``Words`` if the year is out of range.
    :raises TypeError: the pixels are of another type.
    :raises ValueError: the array has another shape, or the level is out of range.
    """
    from . import picture as pictures

    return pictures.read(picture, year, level, ais)


@_about("row")
def read_dots(dots: Union[bytes, bytearray, memoryview], width: int, year: Optional[int] = None, *, ais: Ais = "all") -> Answer:
    """What a row of ``width`` dots says, packed eight in a byte as in a PBM image.

    The first dot of a byte is its high bit, and 1 is dark; bits after the last dot do not matter. Dates are read by
    the reference year, 1951 to 2149.

    :raises Refusal: 18 ``BadRuns`` if ``dots`` has fewer dots, 17 ``TooWide`` for more than 65,535; it shows no symbol
        with elements; 42 ``Words`` if the year is out of range.
    :raises ValueError: the width is below 0.
    """
    return _of_dots(_read, _library.gs1_read_dots, dots, width, _terms(year, ais))


@_about("row")
def find_dots(dots: Union[bytes, bytearray, memoryview], width: int, year: Optional[int] = None, *, ais: Ais = "all") -> List[Found]:
    """Every symbol of a row of ``width`` dots, packed as for :func:`read_dots`: what :func:`find` finds in the widths of
    its light and dark runs.

    :raises Refusal: 18 ``BadRuns`` if ``dots`` has fewer dots, 17 ``TooWide`` for more than 65,535; 42 ``Words`` if the
        year is out of range.
    :raises ValueError: the width is below 0.
    """
    places = _of_dots(_places, _library.gs1_find_dots, dots, width, _terms(year, ais))
    widths = _widths(dots, width) if places else []
    return [Found(first, count, read_row(widths[first:first + count], year, ais=ais)) for first, count in places]


def read_scan(text: Union[str, bytes], year: Optional[int] = None, *, ais: Ais = "all") -> Answer:
    """What a text from a scanner says. It begins with a symbology identifier; what the symbol says follows:

    - ``]E0``: the 12 or 13 digits of a GTIN, or the 8 of a UPC-E; ``]E4``: 8 digits; ``]I1``: 14
    - ``]C1``, ``]e0``, ``]d2``, ``]Q3`` and ``]J1``: an element string, with ``"\\x1d"`` or ``"^"`` as the separator
    - ``]Q1`` and ``]d1``: a GS1 Digital Link

    If the scanner sends no identifier, digits are read as a GTIN, a separator begins an element string, and ``http://``
    or ``https://`` a Digital Link. Eight digits that begin with 0 are refused: they may be an EAN-8 or a UPC-E.

        >>> read_scan("]E001234565", year=2026).gtin
        '00012345000065'
        >>> answer = read_scan("9501101530003", year=2026)
        >>> answer.identifier, answer.gtin
        (None, '09501101530003')

    An error's place counts from after the identifier; in a Digital Link it is the index of the element, from 0.

    :raises Refusal: 40 ``Kind`` for any other identifier or URI; 1 to 3 for digits, 4 to 11 for elements; 42 ``Words`` if
        the year is out of range.
    """
    said = _bytes(text)
    try:
        return _read(_library.gs1_read_message, said, len(said), _terms(year, ais))
    except Refusal as refusal:
        raise _with_scanned(_noted(refusal, "read_scan", text, year, ais), said, _terms(year, ais))


def read_scans(texts: Iterable[Union[str, bytes]], year: Optional[int] = None, *, ais: Ais = "all") -> Iterator[Union[Answer, Refusal]]:
    """What each of many texts from scanners says, one after another: the answer of :func:`read_scan`, or the error that it
    raises.

        >>> [str(it) for it in read_scans(["]C110AB", "9501101530004"], year=2026)]
        [']C1 (10)AB', 'refused 3 CheckDigit']
    """
    terms = _terms(year, ais)
    each = _each(_library.gs1_read_messages, _library.gs1_read_message, texts, terms)
    return (_with_scanned(_noted(it, "read_scan", text, year, ais), said, terms) if isinstance(it, Refusal) else it for text, said, it in each)


def read_gtins(texts: Iterable[Union[str, bytes]]) -> Iterator[Union[str, Refusal]]:
    """The 14 digits of each of many GTINs, one after another, or the error that :func:`read_gtin` raises.

        >>> [str(it) for it in read_gtins(["9501101530003", "9501101530004"])]
        ['09501101530003', 'refused 3 CheckDigit']
    """
    each = _each(_library.gs1_read_gtins, _library.gs1_read_gtin, texts, _ANY_YEAR)
    return (_noted(it, "read_gtin", text) if isinstance(it, Refusal) else it.__dict__["_told"][0][len("01"):] for text, _, it in each)


def read_text(text: str, year: Optional[int] = None, *, ais: Ais = "all") -> Answer:
    """What a text says, as it is printed, typed or pasted:

    - a number of 8, 12, 13 or 14 digits, with blanks and hyphens, such as an ISBN
    - an element string with each Application Identifier in parentheses or brackets, or with ``^`` or ``"\\x1d"`` as the separator
    - what a scanner sends behind an identifier, and a GS1 Digital Link, as :func:`read_scan` reads them

    Blanks at the ends, around printed values and in those of digits alone do not count. A printed value ends before the next Application
    Identifier: if a value has one in parentheses, write brackets around each, as in ``[10]A(17)``.

        >>> read_text("(01)09501101530003 (17)261231", year=2026)["17"].date
        datetime.date(2026, 12, 31)
        >>> read_text("978-3-16-148410-0").gtin
        '09783161484100'

    :raises Refusal: as :func:`read_scan`; for a number as :func:`read_gtin`, and 40 ``Kind`` for zeros alone. The place of a printed
        element is its offset in the text of all of them with a separator between each two.
    """
    from . import _texts  # It needs this module.

    if not isinstance(text, str):
        raise TypeError(f"a text is str, and not {type(text).__name__}")
    try:
        return _texts.read_text(text, year, ais)
    except Refusal as refusal:
        raise _noted(refusal, "read_text", text, year, ais)


def read_gtin(text: Union[str, bytes]) -> str:
    """The 14 digits of a GTIN that is written with 8, 12, 13 or 14.

    :raises Refusal: it is no GTIN: 1 ``Length``, 2 ``NotDigit`` or 3 ``CheckDigit``.
    """
    digits = _bytes(text)
    try:
        element: str = _read(_library.gs1_read_gtin, digits, len(digits), _ANY_YEAR).__dict__["_told"][0]
    except Refusal as refusal:
        raise _noted(refusal, "read_gtin", text)
    return element[len("01"):]


def gtin_use(text: Union[str, bytes]) -> GtinUse:
    """What a GTIN identifies, by its first digits.

        >>> gtin_use("9501101530003"), gtin_use("9783161484100"), gtin_use("2012345678903")
        ('trade_item', 'isbn', 'in_store')

    :raises Refusal: as :func:`read_gtin`.
    """
    digits, raw = read_gtin(text).encode("ascii"), _RawAnswer()
    _library.gs1_read_gtin(digits, len(digits), _ANY_YEAR, raw)
    uses: Tuple[GtinUse, ...] = get_args(GtinUse)
    number: int = _library.gs1_use_of_gtin(raw)
    return uses[number - 1]


def check_digit(text: Union[str, bytes]) -> int:
    """The check digit for 1 to 17 digits.

    :raises Refusal: 1 ``Length`` or 2 ``NotDigit``.
    """
    digits = _bytes(text)
    try:
        return int(_line(_ask(_library.gs1_digit, digits, len(digits))).partition(" ")[2])
    except Refusal as refusal:
        raise _noted(refusal, "check_digit", text)


def read_elements(text: Union[str, bytes], year: Optional[int] = None, *, ais: Ais = "all") -> str:
    """The elements of an element string, as ``(10)AB(17)261231``. The separator is ``"\\x1d"``.

    :raises Refusal: its first fault, 4 ``Empty`` to 11 ``TooLong``; 42 ``Words`` if the year is out of range.
    """
    string, terms = _bytes(text), _terms(year, ais)
    try:
        return _line(_ask(_library.gs1_text, string, len(string), terms))[len("hri "):]
    except Refusal as refusal:
        raise _with_before(_noted(refusal, "parse_elements", text, year, ais), string, terms)


def parse_elements(text: Union[str, bytes], year: Optional[int] = None, *, ais: Ais = "all") -> Tuple[Element, ...]:
    """The elements of an element string. The separator is ``"\\x1d"``.

    :raises Refusal: as :func:`read_elements`.
    """
    try:
        return _parse(_bytes(text), _terms(year, ais)).elements
    except Refusal as refusal:
        raise _noted(refusal, "parse_elements", text, year, ais)


def _parse(text: bytes, terms: int) -> Answer:
    """What an element string says."""
    try:
        return _read(_library.gs1_read_elements, text, len(text), terms)
    except Refusal as refusal:
        raise _with_before(refusal, text, terms)


def compose(elements: Iterable[Union[Element, Tuple[str, str]]], year: Optional[int] = None) -> str:
    """The element string of elements, or of pairs of an Application Identifier and a value. The separator ``"\\x1d"``
    stands wherever it must.

        >>> compose([("01", "09501101530003"), ("10", "AB"), ("17", "261231")], year=2026)
        '010950110153000310AB\\x1d17261231'

    :raises Refusal: they are no elements, 4 to 11, with the index of the element as the place; 42 ``Words`` if the year
        is out of range.
    """
    listed = [it if isinstance(it, Element) else Element(*it) for it in elements]
    try:
        return _written(_library.gs1_scan_text, Answer(None, tuple(listed)), "]C1", year)[len("]C1"):]
    except Refusal as refusal:
        raise _noted_of(_too_long(listed, year) if refusal.name == "TooLong" else refusal, "compose", listed, year)


def _too_long(elements: List[Element], year: Optional[int]) -> Refusal:
    """The error of elements with too many characters: that of the first one that has an error, whose value may be long itself."""
    for at, it in enumerate(elements):
        try:
            compose([(it.ai[:5], it.value[:100])], year)
        except Refusal as refusal:
            return Refusal(refusal.number, refusal.name, at)
    return Refusal(11, "TooLong")


def _written(call: Any, answer: Answer, word: str, year: Optional[int]) -> str:
    """What a call writes of an answer's elements."""
    said = word.encode()
    return _line(_ask(call, _raw_of(answer), said, len(said), _terms(year, "all")))


def _noted_of(refusal: Refusal, call: str, elements: Sequence[Element], year: Optional[int] = None, word: str = "") -> Refusal:
    """The error of a call of elements, which knows the element at its place, or else the call's word."""
    wrong = None if refusal.place is None else elements[refusal.place]
    return _noted(refusal, call, wrong.value, year, "all", wrong.ai) if wrong else _noted(refusal, call, word)


def _has_key(answer: Answer, year: Optional[int]) -> bool:
    """Whether the elements have a link, by a stem that is right."""
    try:
        return bool(_written(_library.gs1_link, answer, _STEM, year))
    except Refusal:
        return False


class Conflict(NamedTuple):
    """What is wrong with an element beside others, or with a code in it. It is no error: what a needed element says may stand
    in another symbol, and lists of codes change."""

    kind: ConflictKind
    element: Element
    other: Optional[Element]
    """The element that it excludes, or the one before it that has another value."""
    text: str
    """The Application Identifiers, one of which it needs, such as ``02,310n``, where ``n`` stands for any digit; or the code
    that is in no list, or the GTIN that identifies no trade item."""

    def __str__(self) -> str:
        ai = self.element.ai
        if self.other:
            return f"{ai}: {self.other.value} and {self.element.value} differ" if self.kind == "differs" else f"{ai} excludes {self.other.ai}"
        if self.kind == "needs":
            return f"{ai} needs {self.text.replace(',', ' or ')}"
        return f"{ai}: {self.text} is no {_NO.get(self.kind, self.kind)}"


def conflicts(elements: Iterable[Element]) -> List[Conflict]:
    """What the standard asks of elements that stand together and is not so, Application Identifiers that stand twice with
    different values, codes of countries and currencies that are in no list, and GTINs that identify no trade item.

        >>> answer = read_scan("]C10109501101530003" "375\\x1d" "422281", year=2026)
        >>> [str(it) for it in conflicts(answer)]
        ['01 excludes 37', '37 needs 02 or 8026', '422: 281 is no country']

    :raises Refusal: 11 ``TooLong`` for more elements than an element string has; 7 ``ValueCharacter`` for letters that no
        element has, with the index of the element.
    """
    listed = elements if isinstance(elements, Answer) else Answer(None, tuple(elements))
    found = _RawConflicts()
    try:
        count = _library.gs1_conflicts(_raw_of(listed), found, _MOST_CONFLICTS)
    except Refusal as refusal:
        raise _noted_of(refusal, "conflicts", listed.elements)
    return [_conflict(listed.elements, *_CONFLICT.unpack_from(found, _CONFLICT.size * at)) for at in range(count)]


def _conflict(elements: Tuple[Element, ...], kind: int, element: int, other: int, text: bytes) -> Conflict:
    return Conflict(get_args(ConflictKind)[kind - 1], elements[element], elements[other] if other < 255 else None, text.rstrip(b"\0").decode("ascii"))


def _raw_of(answer: Answer) -> Any:
    """An answer as ``struct gs1_answer``."""
    text, places = answer.__dict__.get("_told") or _told_of(answer.elements)
    raw = _RawAnswer()
    _HEAD.pack_into(raw, 0, 0, _NO_PLACE, 0, len(places) // _PLACE.size, len(text), 255, b"", text.encode("ascii"))
    ctypes.memmove(ctypes.byref(raw, _HEAD.size), places, len(places))
    return raw


def _told_of(elements: Sequence[Element]) -> Tuple[str, bytes]:
    """The text of elements, and where they stand in it."""
    ends = list(accumulate(len(element.ai + element.value) for element in elements))
    if len(elements) > _MOST_ELEMENTS or sum(ends[-1:]) > _MOST_TEXT:
        raise Refusal(11, "TooLong")
    for at, element in enumerate(elements):
        if not (element.ai + element.value).isascii():
            raise Refusal(7, "ValueCharacter", at)
    starts = [0, *ends]
    places = (_PLACE.pack(start, start + len(element.ai), end, *[0] * 12) for element, start, end in zip(elements, starts, ends))
    return "".join(element.ai + element.value for element in elements), b"".join(places)


class LabelSymbol(NamedTuple):
    """The symbol of a label in modules, for programs that draw it."""

    text: str
    """What stands under the bars: the digits of the number as its kind writes them, or the elements."""
    quiet_left: int
    """The nominal quiet zones (GS1 General Specifications, sections 5.2 to 5.4)."""
    quiet_right: int
    widths: Tuple[int, ...]
    """The widths of bars and spaces, starting and ending with a bar."""


def label_symbol(kind: Union[Kind, str], text: Union[str, bytes], year: Optional[int] = None, *, ais: Ais = "all") -> LabelSymbol:
    """The symbol of a label, in modules. The kind may be a name, such as ``"ean13"``.

        >>> symbol = label_symbol("upce", "00012345000065", year=2026)
        >>> symbol.text, symbol.quiet_left, symbol.quiet_right, sum(symbol.widths)
        ('01234565', 9, 7, 51)

    A GS1-128 takes an element string, with ``"\\x1d"`` or ``"^"`` as the separator. The digits of a GTIN may be one too, so
    they are refused as such. With a separator in front they are elements:

        >>> label_symbol("gs1128", "^9501101530003", year=2026).text
        '(95)01101530003'

    :raises Refusal: 40 ``Kind`` if there is no such kind, or for a GS1-128 of the digits of a GTIN; 42 ``Words`` if the year is
        out of range, 1 to 11 for the text, and 26 ``LabelKind`` if the text has no such symbol.
    """
    try:
        said = _label_text(kind, text)
        answer = _ask(_library.gs1_symbol, _kind(kind).value, said, len(said), _terms(year, ais), room=_SYMBOL)
        _, under, left, right, widths = _line(answer).split(" ")
    except Refusal as refusal:
        raise _noted(refusal, "label", text, year, ais, _name_of(kind))
    return LabelSymbol(under, int(left), int(right), tuple(map(int, widths)))


def _name_of(kind: Union[Kind, str]) -> str:
    return kind.name.lower() if isinstance(kind, Kind) else kind


def _label_text(kind: Union[Kind, str], text: Union[str, bytes]) -> bytes:
    """The text of a label as the library takes it: of an element string without a separator in front, and each as byte 29.

    :raises Refusal: 40 ``Kind`` if an element string is wanted, and these are the digits of a GTIN without a mark.
    """
    said = _bytes(text)
    if _kind(kind) is not Kind.GS1128:
        return said
    if _is_gtin(said):
        raise Refusal(40, "Kind")
    string = said.replace(b"^", b"\x1d")
    return string[1:] if string[:1] == b"\x1d" else string


def _is_gtin(text: bytes) -> bool:
    return text.isdigit() and isinstance(_said(_library.gs1_read_gtin, text, len(text), _ANY_YEAR), Answer)


def _kind(kind: Union[Kind, str]) -> Kind:
    """The kind of this name."""
    named = kind if isinstance(kind, Kind) else {known.name.lower(): known for known in Kind}.get(kind)
    if named is None:
        raise Refusal(40, "Kind")
    return named


def draw_label(
    kind: Union[Kind, str], text: Union[str, bytes], year: Optional[int] = None, *, module: int = 2, width: int = 480, height: int = 120,
    ais: Ais = "all",
) -> bytes:
    """A label as the bytes of a PBM image, of ``width`` by ``height`` dots, its modules ``module`` dots wide.

    The kind may be a name, such as ``"ean13"``, and takes the texts of :func:`label_symbol`. A module is 1 to 8 dots, the width 1 to 4,096, and the height more than
    two modules and at most 1,024.

    :raises Refusal: 40 ``Kind`` if there is no such kind, or for a GS1-128 of the digits of a GTIN; 42 ``Words`` if the year is
        out of range, 25 ``BadGrid`` for the dots, 1 to 11 for the text, 26 ``LabelKind`` if it has no such symbol, 27 ``LabelWidth`` if that does not fit.
    """
    words = [_u16(number) for number in (module, width, height)]
    try:
        said = _label_text(kind, text)
        image = _ask(_library.gs1_label, _kind(kind).value, said, len(said), _terms(year, ais), *words)
        if not image.startswith(b"P4"):
            _line(image)
    except Refusal as refusal:
        raise _noted(refusal, "label", text, year, ais, _name_of(kind))
    return image
