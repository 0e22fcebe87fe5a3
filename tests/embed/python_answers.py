"""Prints the Python module's answers to the lines of standard input, a line for each. The argument says what the lines are:

    rows      lines of `lanes`                  finds     the symbols of such rows, and an empty line after each row
    dots      the same rows as packed dots      dotfinds  the symbols of packed dots
    check     lines of `check`                  elements  element strings of every AI
    titles    AIs, for their titles             dates     a year, a comma, an AI, `=` and a value

The year is 2026, except for `dates`."""
from __future__ import annotations

import sys
from typing import Iterable

import noriladle

YEAR = 2026
CHECKS = {
    "digit": lambda text: f"digit {noriladle.check_digit(text)}",
    "gtin": lambda text: f"gtin {noriladle.read_gtin(text)}",
    "text": lambda text: f"hri {noriladle.read_elements(text.replace('^', chr(29)), YEAR, ais='profile')}",
}


def packed(widths: list[int]) -> tuple[bytes, int]:
    """The packed dots of these widths, and how many they are. The bits after the last dot are dark."""
    bits = "".join("01"[i % 2] * width for i, width in enumerate(widths))
    count = len(bits)
    bits += "1" * (-count % 8)
    return int("0" + bits, 2).to_bytes(len(bits) // 8, "big"), count


def lines_of(found: Iterable[noriladle.Found]) -> str:
    """The lines of symbols, in the form of the C call."""
    return "".join(f"{it.first} {it.count} {it.answer}\n" for it in found)


def dated(year: str, pair: str) -> str:
    """The day and the time of an element, in the form of the C call."""
    element, = noriladle.parse_elements(pair.replace("=", "", 1), int(year))
    if element.date is None:
        return "none"
    return f"date {element.date:%Y-%m-%d}" + ("" if element.time is None else f" {element.time:%H:%M:%S}")


def answer(line: str) -> object:
    first, _, second = line.rstrip("\n").partition(",")
    if sys.argv[1] == "titles":
        return noriladle.Element(line.rstrip("\n"), "").title
    try:
        if sys.argv[1] == "elements":
            elements = noriladle.parse_elements(line.rstrip("\n").replace("^", chr(29)), YEAR, ais="all")
            return "hri " + "".join(f"({it.ai}){it.value}" for it in elements)
        if sys.argv[1] == "dates":
            return dated(first, second)
        if sys.argv[1] == "check":
            return CHECKS[first](second)
        widths = [int(width) for width in second.split()]
        if sys.argv[1] == "finds":
            return lines_of(noriladle.find(widths, YEAR))
        if sys.argv[1] == "dotfinds":
            return lines_of(noriladle.find_dots(*packed(widths), YEAR))
        return noriladle.read_row(widths, YEAR) if sys.argv[1] == "rows" else noriladle.read_dots(*packed(widths), YEAR)
    except noriladle.Refusal as refusal:
        return refusal


for line in sys.stdin:
    print(answer(line))
