"""Asks the library for labels with impossible measures and texts: hostile.py LISTS WORK. It must draw a label that lies on its cell, or name an
error, and take at most 10 ms of processor time. Its last line is the counts.
"""
from __future__ import annotations

import collections
import ctypes
import random
import sys
import time
from array import array
from typing import Any, Sequence

from noriladle import Kind, _library, _terms
from noriladle.labels import _layout

CALLS, SECONDS = 20_000, 0.010
NUMBERS = [0.0, -1.0, 1e-300, 1e300, float("inf"), float("-inf"), float("nan"), 65_535.0]
SIDES = [0, 1, 30, 304, 508, 2_000, 65_535]
TEXTS = ["", "A", "e\u0301" * 40, "W" * 299, "Hafer-" * 60, "x" * 10_000, " " * 5_000, "\n" * 300, "a\nb\nc", "\U0001f34e" * 30, "Öl, kalt gepresst, 0,75 l"]
PRICES = ["", "1,20 €", "9" * 40, "12345,67 CHF", "1" * 10_000, "\u0301"]
SYMBOLS = [(Kind.EAN13, b"04012345010008"), (Kind.EAN8, b"00000096385074"), (Kind.UPCA, b"00012345000065"), (Kind.ITF14, b"04012345010008"),
           (Kind.GS1128, b"01095011015300031726123110LOT7"), (Kind.UPCE, b"00012345000065"), (Kind.EAN13, b""), (Kind.GS1128, b"x")]
WIDTHS = [array("H"), array("H", [0]) * 400, array("H", [65_535]) * 400, array("H", [9_000]) * 9_000]
MOST_FAULT = 57
PRICE, LETTERS, CUT = 1, 2, 1


def font_of(chance: random.Random) -> Any:
    widths = chance.choice(WIDTHS).tobytes()
    sizes = [chance.choice(it) for it in ([0, 9_000, 65_535], [0, 15_893, 65_535], [0, 3_769, 65_535], [0, 12_124, 65_535])]
    if chance.random() < 0.85:
        widths, sizes = WIDTHS[-1].tobytes(), [9_000, 15_893, 3_769, 12_124]
    return _layout._Font(_layout._Lent(widths, len(widths) // 2), *sizes)


def look_of(chance: random.Random) -> Any:
    usual = [18.3, 18.3, 8.0, 0.0, 0.0]
    measures = [chance.choice([*NUMBERS, own, own]) if chance.random() < 0.07 else own for own in usual]
    sides = [chance.choice(SIDES) for _ in range(2)] if chance.random() < 0.4 else [chance.choice([430, 508, 2_000]), chance.choice([160, 304, 900])]
    return _layout._Look(*measures, *sides, chance.randrange(2), (_layout._Font * 2)(font_of(chance), font_of(chance)))


def article_of(chance: random.Random) -> "tuple[Any, Sequence[str]]":
    kind, number = chance.choice(SYMBOLS)
    texts = [chance.choice(TEXTS), chance.choice(PRICES), *(chance.choice([*TEXTS, "", "", ""]) if chance.random() < 0.3 else "" for _ in range(6))]
    lent = _layout._Article(_layout._Lent(number, len(number)), kind=kind.value if chance.random() < 0.95 else 9, bearers=chance.randrange(2))
    for place, text in enumerate(texts):
        lent.texts[place] = _layout._Lent(text.encode("utf-32-le"), len(text))
    return lent, texts


def wrong_with(parts: Sequence[Sequence[int]], drawn: Sequence[int], look: Any, texts: Sequence[str]) -> str:
    """What is wrong with a label, if anything is."""
    if tuple(drawn[2:4]) != (look.width, look.height):
        return "another size"
    if any(left + wide > look.width or top + high > look.height for left, top, wide, high, *_ in parts):
        return "a part beside the label"
    shown = [it for it in parts if it[7] == LETTERS and it[4] == PRICE]
    is_whole = len(shown) == 1 and tuple(shown[0][5:7]) == (0, len(texts[PRICE])) and not shown[0][8] & CUT
    return "" if is_whole or not texts[PRICE] else "a price that is not whole"


def asked(chance: random.Random, row: Any, buffer: Any, drawing: Any) -> "tuple[int, str, float]":
    """The number of the error, what is wrong, and the seconds of the slowest call."""
    look, (lent, texts), measure, plan = look_of(chance), article_of(chance), _layout._Measure(), _layout._Plan()
    terms, at, times = _terms(2026, "all"), ctypes.byref, []
    calls = [lambda: _library.gs1_measure(at(look), at(lent), terms, at(measure)), lambda: _library.gs1_plan(at(look), at(measure), 1, plan),
             lambda: _library.gs1_draw(at(look), plan, at(lent), terms, row, len(row), buffer, _layout._MOST_PARTS, drawing)]
    faults = []
    for number, call in enumerate(calls):
        if number == 2 and chance.random() < 0.2:
            plan[:] = [chance.choice(NUMBERS) for _ in plan]
        begun = time.process_time()
        faults.append(call())
        times.append(time.process_time() - begun)
    if faults[-1]:
        return faults[-1], "" if faults[-1] <= MOST_FAULT else "an error without a name", max(times)
    drawn = _layout._DRAWN.unpack(drawing)
    parts = list(_layout._PART.iter_unpack(buffer.raw[:drawn[0] * _layout._PART.size]))
    return 0, wrong_with(parts, drawn, look, texts), max(times)


def main() -> bool:
    chance, told, slowest, wrong = random.Random(40), collections.Counter[int](), 0.0, 0
    room = [ctypes.create_string_buffer(size) for size in (_layout._ROW, _layout._MOST_PARTS * _layout._PART.size, _layout._DRAWN.size)]
    for number in range(CALLS):
        state = chance.getstate()
        fault, what, took = asked(chance, *room)
        if took > SECONDS:
            # Another program may have had the caches: the same once more.
            chance.setstate(state)
            fault, what, took = asked(chance, *room)
        told[fault] += 1
        slowest = max(slowest, took)
        if what or took > SECONDS:
            wrong += 1
            print(f"call {number}: {what or 'too slow'}, {1000 * took:.1f} ms", file=sys.stderr)
    kinds = len(told) - 1
    print(f"{CALLS} hostile labels: {told[0]} drawn, {CALLS - told[0]} refused by {kinds} errors, {wrong} wrong; the slowest took {1000 * slowest:.1f} ms")
    return wrong != 0 or told[0] < CALLS // 20 or kinds < 8


if __name__ == "__main__":
    sys.exit(main())
