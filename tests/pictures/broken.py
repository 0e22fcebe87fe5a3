"""Drawings that look like symbols of the library's kinds, and of which it is certain that none is whole.

They are drawn from modules. What is left of a symbol is searched for whole symbols, module by module, so no chance
makes one.
"""
from __future__ import annotations

from typing import Callable, List, Optional, Tuple

import numpy
import packs
import pictures
from camera import Array, Chance
from packs import STEPS

Modules = str
"""Modules in a row, `1` where dark."""

ODD = pictures.ODD
EVEN = ["".join("10"[int(m)] for m in reversed(code)) for code in ODD]
RIGHT = [code[::-1] for code in EVEN]
NARROW_WIDE = ["00110", "10001", "01001", "11000", "00101", "10100", "01100", "00011", "10010", "01010"]
"""The two wide elements of each digit of Interleaved 2 of 5 (ISO/IEC 16390)."""
ENDS_OF_UPCE = ["EEEOOO", "EEOEOO", "EEOOEO", "EEOOOE", "EOEEOO", "EOOEEO", "EOOOEE", "EOEOEO", "EOEOOE", "EOOEOE"]
"""The parities of a UPC-E of number system 0 by its check digit (ISO/IEC 15420). Number system 1 has odd for even."""
CODE128 = """
    212222 222122 222221 121223 121322 131222 122213 122312 132212 221213 221312 231212 112232 122132 122231 113222
    123122 123221 223211 221132 221231 213212 223112 312131 311222 321122 321221 312212 322112 322211 212123 212321
    232121 111323 131123 131321 112313 132113 132311 211313 231113 231311 112133 112331 132131 113123 113321 133121
    313121 211331 231131 213113 213311 213131 311123 311321 331121 312113 312311 332111 314111 221411 431111 111224
    111422 121124 121421 141122 141221 112214 112412 122114 122411 142112 142211 241211 221114 413111 241112 134111
    111242 121142 121241 114212 124112 124211 411212 421112 421211 212141 214121 412121 111143 111341 131141 114113
    114311 411113 411311 113141 114131 311141 411131 211412 211214 211232
""".split()
"""The widths of the characters 0 to 102 and of the three starts (ISO/IEC 15417)."""
CODE128_STOP = "2331112"


# ---- drawing

def left(digits: str, parities: str) -> Modules:
    return "".join((ODD if parity == "O" else EVEN)[int(digit)] for digit, parity in zip(digits, parities))


def right(digits: str) -> Modules:
    return "".join(RIGHT[int(digit)] for digit in digits)


def ean13(digits: str) -> Modules:
    return "101" + left(digits[1:7], pictures.PARITIES[int(digits[0])]) + "01010" + right(digits[7:]) + "101"


def ean8(digits: str) -> Modules:
    return "101" + left(digits[:4], "OOOO") + "01010" + right(digits[4:]) + "101"


def itf(digits: str) -> Modules:
    """The bars of an even count of digits, with wide ones of 3 modules."""
    row = "1010"
    for bars, spaces in zip(digits[::2], digits[1::2]):
        for bar, space in zip(NARROW_WIDE[int(bars)], NARROW_WIDE[int(spaces)]):
            row += "1" * (1 + 2 * int(bar)) + "0" * (1 + 2 * int(space))
    return row + "11101"


# ---- whole symbols in a row of modules

def whole(row: Modules) -> bool:
    """Whether a row has a whole symbol of the library's kinds, in either direction, with any light to both sides."""
    return whole_ean(row) or whole_itf(row) or whole_code128(row)


def whole_ean(row: Modules) -> bool:
    """Whether a row has a whole EAN-13, UPC-A, EAN-8 or UPC-E."""
    lit = "0" + row + "0"
    return any(_begins(way[i + 1:]) for way in (lit, lit[::-1]) for i in range(len(way) - 50) if way[i:i + 4] == "0101")


def _begins(row: Modules) -> bool:
    return _ean(row, 6) or _ean(row, 4) or _upce(row)


def _digits(row: Modules, count: int, tables: List[List[str]]) -> Optional[List[Tuple[int, int]]]:
    """The digits that the first characters of a row are, each with the number of its table."""
    found = []
    for i in range(count):
        code = row[7 * i:7 * i + 7]
        which = [(table.index(code), j) for j, table in enumerate(tables) if code in table]
        if not which:
            return None
        found.append(which[0])
    return found


def _ean(row: Modules, half: int) -> bool:
    middle, end = 3 + 7 * half, 8 + 14 * half
    if row[middle:middle + 5] != "01010" or row[end:end + 3] != "101" or row[end + 3:end + 4] == "1":
        return False
    first, last = _digits(row[3:middle], half, [ODD, EVEN]), _digits(row[middle + 5:end], half, [RIGHT])
    if first is None or last is None:
        return False
    parities = "".join("OE"[table] for _, table in first)
    digits = "".join(str(digit) for digit, _ in first + last)
    if half == 4:
        return parities == "OOOO" and right_check(digits)
    return parities in pictures.PARITIES and right_check(str(pictures.PARITIES.index(parities)) + digits)


def _upce(row: Modules) -> bool:
    if row[45:51] != "010101" or row[51:52] == "1":
        return False
    six = _digits(row[3:45], 6, [ODD, EVEN])
    if six is None:
        return False
    parities = "".join("OE"[table] for _, table in six)
    digits = "".join(str(digit) for digit, _ in six)
    turned = parities.translate(str.maketrans("OE", "EO"))
    return any(right_check(pictures.gtin12(f"{system}{digits}{ENDS_OF_UPCE.index(word)}"))
               for system, word in ((0, parities), (1, turned)) if word in ENDS_OF_UPCE)


def right_check(digits: str) -> bool:
    return packs.with_check(digits[:-1]) == digits


def whole_itf(row: Modules) -> bool:
    """Whether a row has a whole ITF-14."""
    return any(_itf(runs) for way in (row, row[::-1]) for runs in _runs_from_bars(way))


def _runs_from_bars(row: Modules) -> List[List[int]]:
    """The widths of bars and spaces from each bar on."""
    edges = [i for i in range(1, len(row)) if row[i] != row[i - 1]]
    starts = [i for i in [0, *edges] if row[i:i + 1] == "1"]
    ends = [*edges, len(row)]
    after = [[start, *(end for end in ends if end > start)] for start in starts]
    return [[end - begin for begin, end in zip(places, places[1:])] for places in after]


def _itf(runs: List[int]) -> bool:
    if len(runs) < 77 or runs[:4] != [1, 1, 1, 1] or runs[74:77] != [3, 1, 1] or not set(runs[4:74]) <= {1, 3}:
        return False
    digits = ""
    for i in range(4, 74, 10):
        for pattern in (runs[i:i + 10:2], runs[i + 1:i + 10:2]):
            word = "".join("1" if width == 3 else "0" for width in pattern)
            if word not in NARROW_WIDE:
                return False
            digits += str(NARROW_WIDE.index(word))
    return right_check(digits)


def whole_code128(row: Modules) -> bool:
    """Whether a row has a whole Code 128."""
    return any(_code128(runs) for way in (row, row[::-1]) for runs in _runs_from_bars(way))


def _code128(runs: List[int]) -> bool:
    values: List[int] = []
    for i in range(0, len(runs) - 6, 6):
        if "".join(map(str, runs[i:i + 7])) == CODE128_STOP and len(values) > 2:
            return (values[0] + sum(j * value for j, value in enumerate(values[:-1])) - values[-1]) % 103 == 0
        word = "".join(map(str, runs[i:i + 6]))
        if word not in CODE128 or (CODE128.index(word) > 102) == bool(values):
            return False
        values.append(CODE128.index(word))
    return False


# ---- what is not whole

def drawn(row: Modules, chance: Chance) -> Array:
    """A drawing of modules with light zones, as high as a symbol's."""
    zone = "0" * 12
    values = numpy.array([255 * (module == "0") for module in zone + row + zone], numpy.uint8)
    high = int(chance.integers(25, 61)) * STEPS
    image = numpy.full((high + 12 * STEPS, values.size * STEPS), 255, numpy.uint8)
    image[2 * STEPS:2 * STEPS + high] = numpy.repeat(values, STEPS)
    return image


def modules_of(symbol: pictures.Symbol) -> Modules:
    """The modules of a symbol of zint's."""
    begin, end, top, _ = packs.bars_of(symbol.image)
    return "".join("1" if value < 128 else "0" for value in symbol.image[top + STEPS, begin + STEPS // 2:end:STEPS])


def wrong_digit(digits: str, chance: Chance) -> str:
    """A number with another check digit."""
    return digits[:-1] + str((int(digits[-1]) + chance.integers(1, 10)) % 10)


def wrong_check(chance: Chance, _: str) -> Modules:
    kind, draw = (("ean13", ean13), ("ean8", ean8), ("itf14", itf))[chance.integers(3)]
    return draw(wrong_digit(packs.text_of(kind, chance), chance))


def without_guards(chance: Chance, _: str) -> Modules:
    """The digits of an EAN-13 or EAN-8 between wider light or dark than a guard's."""
    if chance.random() < 0.5:
        digits, first = packs.text_of("ean13", chance)[1:], 6
    else:
        digits, first = packs.text_of("ean8", chance), 4
    middle = "0" * int(chance.integers(6, 12))
    return left(digits[:first], "OOOOOO") + middle + right(digits[first:])


def random_bars(chance: Chance, _: str) -> Modules:
    count = int(chance.choice((33, 43, 59, 77, 61, 91, 121)))
    return "".join("10"[i % 2] * int(chance.integers(1, 5)) for i in range(count))


def half(chance: Chance, folder: str) -> Modules:
    """A symbol without 15 to 85 of 100 of its modules at one end."""
    row = modules_of(packs.symbol_of(str(chance.choice(packs.KINDS)), chance, folder))
    kept = int(len(row) * chance.uniform(0.15, 0.85))
    return row[:kept] if chance.random() < 0.5 else row[-kept:]


def band(chance: Chance, folder: str) -> Modules:
    """A symbol from which a band is cut out, or painted light or dark, that is wider than any bar or space of a
    symbol."""
    row = modules_of(packs.symbol_of(str(chance.choice(packs.KINDS)), chance, folder))
    wide = int(chance.integers(9, 25))
    place = int(chance.integers(4, len(row) - wide - 4))
    return row[:place] + str(chance.choice(("", "0" * wide, "1" * wide))) + row[place + wide:]


def copied(chance: Chance, folder: str) -> Modules:
    """A symbol in which the modules of one character stand in the place of another, so that its check fails."""
    kind = str(chance.choice(packs.KINDS))
    row = modules_of(packs.symbol_of(kind, chance, folder))
    characters = {"ean13": (7, 3, 6), "upca": (7, 50, 6), "ean8": (7, 3, 4), "upce": (7, 3, 6), "itf14": (18, 4, 7)}
    size, first, count = characters.get(kind, (11, 22, (len(row) - 35) // 11))
    source, target = (first + size * int(i) for i in chance.choice(count, 2, replace=False))
    return row[:target] + row[source:source + size] + row[target + size:]


def fence(chance: Chance, _: str) -> Modules:
    """Bars of one width, or nearly."""
    wide, row = int(chance.integers(1, 5)), ""
    for i in range(int(chance.integers(20, 60))):
        row += "10"[i % 2] * max(1, wide + int(chance.choice((0, 0, 0, 0, -1, 1))))
    return row


MAKERS: List[Callable[[Chance, str], Modules]] = [wrong_check, without_guards, random_bars, half, band, copied, fence]


def image_of(maker: Callable[[Chance, str], Modules], chance: Chance, folder: str) -> Array:
    """A drawing of a maker's, of which it is certain that no symbol in it is whole."""
    while True:
        row = maker(chance, folder)
        if not whole(row):
            return drawn(row, chance)
