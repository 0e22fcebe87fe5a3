"""Characters of Code 128, as the standard prints them, and symbols of them."""

from __future__ import annotations

import re

from rows import runs

# The widths of the values 0 to 105, bar first. The last three start a symbol in code sets A, B and C.
PATTERNS = """
    212222 222122 222221 121223 121322 131222 122213 122312 132212 221213
    221312 231212 112232 122132 122231 113222 123122 123221 223211 221132
    221231 213212 223112 312131 311222 321122 321221 312212 322112 322211
    212123 212321 232121 111323 131123 131321 112313 132113 132311 211313
    231113 231311 112133 112331 132131 113123 113321 133121 313121 211331
    231131 213113 213311 213131 311123 311321 331121 312113 312311 332111
    314111 221411 431111 111224 111422 121124 121421 141122 141221 112214
    112412 122114 122411 142112 142211 241211 221114 413111 241112 134111
    111242 121142 121241 114212 124112 124211 411212 421112 421211 212141
    214121 412121 111143 111341 131141 114113 114311 411113 411311 113141
    114131 311141 411131 211412 211214 211232
""".split()

STOP = "2331112"

# The start characters, and the values of code changes, of SHIFT and of FNC1.
A, B, C = 103, 104, 105
SHIFT = 98
TO_C, TO_B, TO_A = 99, 100, 101
FNC1 = 102


def check_character(start: int, values: list[int]) -> int:
    """The check character of these values."""
    return (start + sum(place * value for place, value in enumerate(values, 1))) % 103


def symbol(start: int, values: list[int], check: int | None = None) -> str:
    """The widths of a symbol of these values, in groups: its check character is right unless you give one."""
    check = check_character(start, values) if check is None else check
    return " ".join([*(PATTERNS[value] for value in [start, *values, check]), STOP])


def encoded(text: str) -> list[int]:
    """The values that a text, with ^ for each separator, is printed with after start C and the first FNC1."""
    values, set_c, place = [], True, 0
    while place < len(text):
        digits = len(re.match("[0-9]*", text[place:])[0])
        if text[place] == "^":
            values.append(FNC1)
            place += 1
        elif set_c and digits >= 2:
            values.append(int(text[place : place + 2]))
            place += 2
        elif set_c or digits >= 4 and digits % 2 == 0:
            values.append(TO_B if set_c else TO_C)
            set_c = not set_c
        else:
            values.append(ord(text[place]) - 32)
            place += 1
    return values


def row(groups: str) -> list[int]:
    """The row of a symbol, between light ends of ten modules."""
    return [10, *runs(groups), 10]
