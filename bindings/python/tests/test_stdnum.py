"""500 values beside python-stdnum, another reader of element strings: days, times, measures and amounts.

Its mistakes, which are left out here: years of two digits from 69 on are of the last century, whatever year it is; an amount with more
decimals than digits is ten times too great for each digit that it lacks; and of a temperature (433n) it takes none.
"""
from __future__ import annotations

import datetime
import random
from decimal import Decimal
from typing import Iterator

import pytest

from noriladle import Element, parse_elements

gs1_128 = pytest.importorskip("stdnum.gs1_128")

MEASURES = [*range(310, 317), *range(320, 330), *range(330, 338), *range(340, 350), *range(350, 358), *range(360, 370)]


def day(draw: random.Random, zero: bool) -> str:
    """Six digits of a day of this century, near 2026."""
    return f"{draw.randrange(69):02}{draw.randint(1, 12):02}{draw.randint(0 if zero else 1, 28):02}"


def digits(draw: random.Random, decimals: int) -> str:
    """Digits of an amount with this many decimals."""
    count = draw.randint(decimals + 1, 15)
    return f"{draw.randrange(10**count):0{count}}"


def cases() -> Iterator[tuple[str, str]]:
    """AIs with values, the same at each run."""
    draw = random.Random(20261128)
    for _ in range(100):
        yield draw.choice(["11", "12", "13", "15", "16", "17"]), day(draw, True)
        yield f"{draw.choice(MEASURES)}{draw.randrange(6)}", f"{draw.randrange(10**6):06}"
        decimals = draw.randrange(10)
        yield f"{draw.choice([390, 392])}{decimals}", digits(draw, decimals)
        yield f"{draw.choice([391, 393])}{decimals}", "978" + digits(draw, decimals)
    for _ in range(50):
        yield "7003", f"{day(draw, False)}{draw.randrange(24):02}{draw.randrange(60):02}"
        yield f"{draw.choice([394, 395])}{draw.randrange(4)}", ""


def said(element: Element) -> object:
    """What the module says, as python-stdnum has it."""
    if element.time:
        return datetime.datetime.combine(element.date, element.time)
    if element.currency:
        return element.value[:3], element.number
    return element.number if element.number is not None else element.date


def test_values_are_those_of_stdnum() -> None:
    draw, count = random.Random(1), 0
    for ai, value in cases():
        if ai[:3] in ("394", "395"):
            value = f"{draw.randrange(10**4):04}" if ai[:3] == "394" else f"{draw.randrange(10**6):06}"
            element = Element(ai, value)
        else:
            (element,) = parse_elements(ai + value, 2026)
        ((key, theirs),) = gs1_128.info(ai + value).items()
        assert ai.startswith(key) and said(element) == theirs, (ai, value)
        assert not isinstance(theirs, Decimal) or f"{theirs:f}" == f"{element.number:f}"
        count += 1
    assert count == 500
