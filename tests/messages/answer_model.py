"""A model of what `live` answers to a record, and `gs1_scan` to a text. It was typed from the grammar in docs/DECISIONS.md and from the
standards, and not from the code. The table of AIs is that of the tests of the commands.

Texts are bytes. An error is raised as a `Fault`, with the words after `refused`.
"""

from __future__ import annotations

import calendar
import re
import sys
from pathlib import Path
from typing import Callable, Sequence

sys.path.insert(0, str(Path(__file__).parents[1] / "commands"))
from element_strings import ANY, CHECKED, DATE, PARTS, TIME, X, check_digit, is_predefined, lengths  # noqa: E402

MOST_LINE, MOST_TEXT, MOST_ELEMENTS = 65_536, 192, 48
STRINGS = [b"]C1", b"]e0", b"]d2", b"]Q3", b"]J1"]
LINKS = [b"]d1", b"]Q1"]

# The qualifiers that may follow a key in the path of a Digital Link, in their order.
QUALIFIERS = {
    b"00": b"", b"01": b"22 10 21 235", b"253": b"", b"255": b"", b"401": b"", b"402": b"", b"414": b"254 7040", b"415": b"8020",
    b"417": b"7040", b"8003": b"", b"8004": b"7040", b"8006": b"22 10 21", b"8010": b"8011", b"8013": b"", b"8017": b"8019",
    b"8018": b"8019",
}


class Fault(Exception):
    """Why a text is refused."""


def century(year_of_two: int, reference: int) -> int:
    """The year of two digits: from 49 before the reference to 50 after."""
    return next(it for it in range(reference - 49, reference + 51) if it % 100 == year_of_two)


def is_day(text: str, reference: int, from_day: int) -> bool:
    """Whether YYMMDD is a day. Day 00 is the last of its month, if it is allowed."""
    year, month, day = century(int(text[:2]), reference), int(text[2:4]), int(text[4:6])
    return 1 <= month <= 12 and from_day <= day <= calendar.monthrange(year, month)[1]


def is_moment(text: str, reference: int) -> bool:
    """Whether YYMMDDHH, with MM and SS behind it or not, is a day and a time."""
    hour, minute, second = (int(text[it : it + 2] or "0") for it in (6, 8, 10))
    return is_day(text, reference, 1) and hour < 24 and minute < 60 and second < 60


def check_value(ai: str, value: str, reference: int, place: int) -> None:
    """Raises the error of a value of a valid length: of its characters, its check digit or its day, in this order."""
    cut, rest = [], value
    for part in PARTS[ai]:
        cut.append((part, rest[: part.greatest]))
        rest = rest[part.greatest :]
    if any(it not in (X if part.format == ANY else "0123456789") for part, text in cut for it in text):
        raise Fault(f"7 ValueCharacter {place}")
    if any(part.format == CHECKED and check_digit(text[:-1]) != text[-1] for part, text in cut):
        raise Fault(f"8 ValueCheckDigit {place}")
    if any(part.format == DATE and not is_day(text, reference, 0) or part.format == TIME and not is_moment(text, reference) for part, text in cut):
        raise Fault(f"9 ValueDate {place}")


def elements_in(data: bytes, reference: int) -> list[tuple[str, str]]:
    """The elements of an element string, whose separators are byte 29."""
    if len(data) > MOST_TEXT:
        raise Fault("11 TooLong")
    if not data:
        raise Fault("4 Empty")
    text, place, found = data.decode("latin-1"), 0, []
    while place < len(text):
        ai = next((text[place : place + count] for count in (2, 3, 4) if text[place : place + count] in PARTS), None)
        if ai is None:
            raise Fault(f"5 UnknownAi {place}")
        begin = place + len(ai)
        field = text[begin:].split("\x1d", 1)[0]
        value = field[: lengths(ai)[-1]] if is_predefined(ai) else field
        if len(value) > lengths(ai)[-1]:
            raise Fault(f"10 MissingSeparator {place}")
        if len(value) not in lengths(ai):
            raise Fault(f"6 ValueLength {place}")
        check_value(ai, value, reference, place)
        found.append((ai, value))
        place = begin + len(value)
        place += text[place : place + 1] == "\x1d"
    return found


def elements_of(pairs: list[tuple[bytes, bytes]], reference: int) -> list[tuple[str, str]]:
    """The elements of pairs of an AI and a value."""
    if len(pairs) > MOST_ELEMENTS or any(len(it) > MOST_TEXT for pair in pairs for it in pair):
        raise Fault("11 TooLong")
    told = [(ai.decode("latin-1"), value.decode("latin-1")) for ai, value in pairs]
    for place, (ai, value) in enumerate(told):
        if ai not in PARTS:
            raise Fault(f"5 UnknownAi {place}")
        if len(value) not in lengths(ai):
            raise Fault(f"6 ValueLength {place}")
        check_value(ai, value, reference, place)
    ends = sum(not is_predefined(ai) for ai, _ in told[:-1])
    if sum(len(ai + value) for ai, value in told) + ends > MOST_TEXT:
        raise Fault("11 TooLong")
    return told


def gtin_of(digits: bytes, sizes: Sequence[int]) -> list[tuple[str, str]]:
    """The element of a GTIN of one of these numbers of digits."""
    text = digits.decode("latin-1")
    if len(text) not in sizes:
        raise Fault("1 Length")
    other = re.search("[^0-9]", text)
    if other:
        raise Fault(f"2 NotDigit {other.start()}")
    if check_digit(text[:-1]) != text[-1]:
        raise Fault("3 CheckDigit")
    return [("01", text.rjust(14, "0"))]


def widened(six: str) -> str:
    """The eleven digits of a GTIN-12 without its check digit, of the six of a UPC-E."""
    if six[5] in "012":
        return f"0{six[:2]}{six[5]}0000{six[2:5]}"
    if six[5] == "3":
        return f"0{six[:3]}00000{six[3:5]}"
    if six[5] == "4":
        return f"0{six[:4]}00000{six[4]}"
    return f"0{six[:5]}0000{six[5]}"


def upce_of(digits: bytes) -> list[tuple[str, str]]:
    """The element of the eight digits of a UPC-E: 0, six and the check digit of its GTIN-12."""
    text = digits.decode("latin-1")
    other = re.search("[^0-9]", text)
    if other:
        raise Fault(f"2 NotDigit {other.start()}")
    if text[0] != "0":
        raise Fault("1 Length")
    front = widened(text[1:7])
    if check_digit(front) != text[7]:
        raise Fault("3 CheckDigit")
    return [("01", f"00{front}{text[7]}")]


def part_of_key(segments: list[bytes]) -> list[bytes] | None:
    """The segments from the key on. Searches from the end, two segments at a time, for a key."""
    found = None
    for begin in range(len(segments) - 2, -1, -1):
        rest = segments[begin:]
        if rest[0] not in QUALIFIERS or len(rest) % 2:
            continue
        order = QUALIFIERS[rest[0]].split()
        behind = rest[2::2]
        # A qualifier that is not the key's has no place. Places must grow.
        places = [order.index(it) if it in order else -1 for it in behind]
        if -1 not in places and places == sorted(set(places)):
            found = rest
        if len(rest) > 12:
            break
    return found


def elements_of_link(text: bytes, reference: int) -> list[tuple[str, str]]:
    """The elements of a Digital Link."""
    uri = re.fullmatch(rb"(?i:https?)://([^/?#]+)(?:/([^?#]*))?(?:\?([^#]*))?(?:#(.*))?", text, re.DOTALL)
    if not uri or re.search(rb"[^!-~]", text) or re.search(rb"%(?![0-9A-Fa-f]{2})", text):
        raise Fault("40 Kind")
    path, parameters = (uri[2] or b"").removesuffix(b"/"), (uri[3] or b"").split(b"&")
    named = [(name, value) for name, _, value in (it.partition(b"=") for it in parameters)]
    part = part_of_key(path.split(b"/"))
    if b";" in (uri[3] or b"") or any(b"%" in name for name, _ in named) or part is None:
        raise Fault("40 Kind")
    pairs = [(ai, uncoded(value)) for ai, value in zip(part[::2], part[1::2])]
    pairs = [(ai, value.rjust(14, b"0") if ai == b"01" and len(value) in (8, 12, 13) else value) for ai, value in pairs]
    pairs += [(name, uncoded(value.replace(b"+", b" "))) for name, value in named if name.isdigit()]
    return elements_of(pairs, reference)


def uncoded(text: bytes) -> bytes:
    """A text with its percent codes replaced by bytes."""
    return re.sub(rb"%(..)", lambda it: bytes.fromhex(it[1].decode()), text)


def is_message(text: bytes) -> bool:
    """Whether a field is a text of a scanner."""
    return bool(re.match(rb"[]^\x1d]|[0-9]{8}|(?i:https?)://", text))


def said(text: bytes, reference: int) -> tuple[bytes, list[tuple[str, str]]]:
    """The identifier and the elements of a text of a scanner."""
    text = text.rstrip(b" \t\n\f\r")
    front, behind = text[:3], text[3:]
    if front == b"]E0":
        return front, upce_of(behind) if len(behind) == 8 else gtin_of(behind, (12, 13))
    if front in (b"]E4", b"]I1"):
        return front, gtin_of(behind, (8,) if front == b"]E4" else (14,))
    if front in LINKS:
        return front, elements_of_link(behind, reference)
    if front in STRINGS or text[:1] in (b"^", b"\x1d"):
        string = (behind if front in STRINGS else text).replace(b"^", b"\x1d").removeprefix(b"\x1d")
        return front if front in STRINGS else b"-", elements_in(string, reference)
    if re.match(rb"(?i:https?)://", text):
        return b"-", elements_of_link(text, reference)
    if re.match(rb"[0-9]{8}", text) and not re.fullmatch(rb"0[0-9]{7}", text):
        return b"-", gtin_of(text, (8, 12, 13, 14))
    raise Fault("40 Kind")


def answer(text: bytes, reference: int, as_pairs: bool) -> str:
    """The answer to a text of a scanner."""
    try:
        word, elements = said(text, reference)
    except Fault as fault:
        return f"refused {fault}"
    shown = "\t".join(f"{ai}={value}" for ai, value in elements) if as_pairs else "".join(f"({ai}){value}" for ai, value in elements)
    return f"{word.decode()} {shown}"


def row_fault(field: bytes) -> str:
    """Why a field is no row, or None."""
    words = field.split(b" ")
    if not all(re.fullmatch(rb"[0-9]{1,5}", it) for it in words):
        return "18 BadRuns"
    widths = [int(it) for it in words]
    if len(widths) % 2 == 0 or 0 in widths[1:-1]:
        return "18 BadRuns"
    return "17 TooWide" if sum(widths) > 65_535 else None


class Hub:
    """A run of `live`: the numbers of its lanes, and the answers to rows, by their fields."""

    def __init__(self, lanes: int, year: int, as_pairs: bool, rows: Callable[..., object]) -> None:
        self.lanes, self.year, self.as_pairs, self.rows = lanes, year, as_pairs, rows
        self.numbers = lanes * [0]

    def line(self, record: bytes) -> str:
        """The line that answers a line of the input, or None for one that is no record."""
        record = record.removesuffix(b"\r")
        if not record:
            return None
        if len(record) > MOST_LINE:
            return "- - refused 44 InputSize"
        lane, comma, field = record.partition(b",")
        if not comma or b"," in field and not is_message(field):
            return "- - refused 39 Csv"
        if not re.fullmatch(rb"[0-9]{1,2}", lane) or int(lane) >= self.lanes:
            return "- - refused 41 BadLane"
        if is_message(field):
            return f"{int(lane)} - {answer(field, self.year, self.as_pairs)}"
        fault = row_fault(field)
        if fault:
            return f"{int(lane)} - refused {fault}"
        number = self.numbers[int(lane)]
        self.numbers[int(lane)] += 1
        return f"{int(lane)} {number} {self.rows(field)}"
