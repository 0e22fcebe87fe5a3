"""The Application Identifiers of the product, the formats of their values, and the characters of these."""

from __future__ import annotations

from collections import namedtuple

# The characters of an alphanumeric value.
X = "!\"%&'()*+,-./0123456789:;<=>?ABCDEFGHIJKLMNOPQRSTUVWXYZ_abcdefghijklmnopqrstuvwxyz"

# A part of a value: its format, and the least and the greatest of its lengths.
Part = namedtuple("Part", "format least greatest")

# Digits; digits that end with their check digit; a day; a day and a time, of an even length; characters of X.
DIGITS, CHECKED, DATE, TIME, ANY = "digits", "checked", "date", "time", "any"


def between(first: int, last: int) -> list[str]:
    """The AIs of these numbers."""
    return [str(number) for number in range(first, last + 1)]


def with_digits(greatest: int, *beginnings: str) -> list[str]:
    """AIs of a beginning and one more digit, from 0 on."""
    return [f"{beginning}{digit}" for beginning in beginnings for digit in range(greatest + 1)]


MEASURES = [
    *between(310, 316),
    *between(320, 329),
    *between(330, 337),
    *between(340, 349),
    *between(350, 357),
    *between(360, 369),
]

# Each AI with the parts of its value.
PARTS = {ai: parts for identifiers, parts in [
    (["00"], [Part(CHECKED, 18, 18)]),
    (["01", "02"], [Part(CHECKED, 14, 14)]),
    (["10", "21", "22"], [Part(ANY, 1, 20)]),
    (["11", "12", "13", "15", "16", "17"], [Part(DATE, 6, 6)]),
    (["20"], [Part(DIGITS, 2, 2)]),
    (["30", "37"], [Part(DIGITS, 1, 8)]),
    (["240", "241", "250"], [Part(ANY, 1, 30)]),
    (["253"], [Part(CHECKED, 13, 13), Part(ANY, 0, 17)]),
    (["254"], [Part(ANY, 1, 20)]),
    (with_digits(5, *MEASURES), [Part(DIGITS, 6, 6)]),
    (with_digits(9, "390", "392"), [Part(DIGITS, 1, 15)]),
    (with_digits(9, "391", "393"), [Part(DIGITS, 3, 3), Part(DIGITS, 1, 15)]),
    (["400", "401", "403"], [Part(ANY, 1, 30)]),
    (["402"], [Part(CHECKED, 17, 17)]),
    (between(410, 417), [Part(CHECKED, 13, 13)]),
    (["420"], [Part(ANY, 1, 20)]),
    (["422"], [Part(DIGITS, 3, 3)]),
    (["7003"], [Part(TIME, 10, 10)]),
    (["8005"], [Part(DIGITS, 6, 6)]),
    (["8008"], [Part(TIME, 8, 12)]),
    (["8018"], [Part(CHECKED, 18, 18)]),
    (["8020"], [Part(ANY, 1, 25)]),
    (["90"], [Part(ANY, 1, 30)]),
    (between(91, 99), [Part(ANY, 1, 90)]),
] for ai in identifiers}

# The first two digits of AIs that need no separator after them.
PREDEFINED = ["00", "01", "02", "03", "04", *between(11, 20), *between(31, 36), "41"]


def check_digit(payload: str) -> str:
    """The check digit of these digits."""
    weighted = [int(digit) * (1 if place % 2 else 3) for place, digit in enumerate(reversed(payload))]
    return str(-sum(weighted) % 10)


def is_predefined(ai: str) -> bool:
    """Whether the AI needs no separator after it."""
    return ai[:2] in PREDEFINED


def lengths(ai: str) -> range:
    """The lengths of its value."""
    parts = PARTS[ai]
    step = 2 if parts[0].format == TIME else 1
    return range(sum(it.least for it in parts), sum(it.greatest for it in parts) + 1, step)


def value(ai: str, length: int) -> str:
    """A value of the AI cut to this length, or with more of the same after it."""
    told = ""
    for part in PARTS[ai]:
        room = length - len(told)
        count = room if part is PARTS[ai][-1] else min(room, part.greatest)
        if part.format == CHECKED:
            payload = "8273645190827364519"[: part.greatest - 1]
            told += (payload + check_digit(payload) + "7")[:count]
        else:
            repeated = {DIGITS: "4071925836", DATE: "2604305", TIME: "2604301545307", ANY: "aZ9/x-0,Q.5"}[part.format]
            told += (9 * repeated)[:count]
    return told
