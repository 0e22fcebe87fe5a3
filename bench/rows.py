"""Prints scanned rows for `lanes`: a lane, a comma and the widths of a row. The same arguments give the same rows.

Usage: rows.py COUNT LANES SEED [long | itf14]. The symbols are EAN-13, EAN-8, UPC-E and GS1-128 in turn, with `long` only
the longest GS1-128 symbols, of 595 runs, and with `itf14` only ITF-14. They are read in both directions, at 1 to 4 dots a
module, and one in ten is damaged: a run made wider or dropped, a light end too small, or a character changed.
"""
from __future__ import annotations

import random
import sys
from typing import Callable

# ISO/IEC 15420: number set A, and the number sets by first digit or check digit.
SET_A = "3211 2221 2122 1411 1132 1231 1114 1312 1213 3112".split()
SET_B = [widths[::-1] for widths in SET_A]
EAN13_ROWS = "AAAAAA AABABB AABBAB AABBBA ABAABB ABBAAB ABBBAA ABABAB ABABBA ABBABA".split()
UPCE_ROWS = "BBBAAA BBABAA BBAABA BBAAAB BABBAA BAABBA BAAABB BABABA BABAAB BAABAB".split()

# ISO/IEC 16390: the five widths of each digit.
TWO_OF_FIVE = "11331 31113 13113 33111 11313 31311 13311 11133 31131 13131".split()

# ISO/IEC 15417: the widths of the values 0 to 102 and of the start characters.
CODE128 = """
212222 222122 222221 121223 121322 131222 122213 122312 132212 221213 221312 231212 112232 122132
122231 113222 123122 123221 223211 221132 221231 213212 223112 312131 311222 321122 321221 312212
322112 322211 212123 212321 232121 111323 131123 131321 112313 132113 132311 211313 231113 231311
112133 112331 132131 113123 113321 133121 313121 211331 231131 213113 213311 213131 311123 311321
331121 312113 312311 332111 314111 221411 431111 111224 111422 121124 121421 141122 141221 112214
112412 122114 122411 142112 142211 241211 221114 413111 241112 134111 111242 121142 121241 114212
124112 124211 411212 421112 421211 212141 214121 412121 111143 111341 131141 114113 114311 411113
411311 113141 114131 311141 411131 211412 211214 211232
""".split()
START_B, START_C, FNC1, STOP = 104, 105, 102, "2331112"


def check_digit(digits: str) -> str:
    weights = (3, 1)
    total = sum(int(d) * weights[i % 2] for i, d in enumerate(reversed(digits)))
    return str(-total % 10)


def digits(random: random.Random, count: int) -> str:
    return "".join(random.choice("0123456789") for _ in range(count))


def left(row: str, text: str) -> str:
    return "".join((SET_A if s == "A" else SET_B)[int(d)] for s, d in zip(row, text))


def right(text: str) -> str:
    return "".join(SET_A[int(d)] for d in text)


def ean13(random: random.Random) -> tuple[int, str, int]:
    text = digits(random, 12)
    text += check_digit(text)
    return 11, "111" + left(EAN13_ROWS[int(text[0])], text[1:7]) + "11111" + right(text[7:]) + "111", 7


def ean8(random: random.Random) -> tuple[int, str, int]:
    text = digits(random, 7)
    text += check_digit(text)
    return 7, "111" + left("AAAA", text[:4]) + "11111" + right(text[4:]) + "111", 7


def upce(random: random.Random) -> tuple[int, str, int]:
    six = digits(random, 5) + random.choice("56789")
    check = check_digit("0" + six[:5] + "0000" + six[5])
    return 9, "111" + left(UPCE_ROWS[int(check)], six) + "111111", 7


def itf14(random: random.Random) -> tuple[int, str, int]:
    text = digits(random, 13)
    text += check_digit(text)
    pairs = (zip(TWO_OF_FIVE[int(a)], TWO_OF_FIVE[int(b)]) for a, b in zip(text[::2], text[1::2]))
    return 10, "1111" + "".join(bar + space for pair in pairs for bar, space in pair) + "311", 10


def code128(random: random.Random, start: int, values: list[int]) -> tuple[int, str, int]:
    values = [FNC1] + values
    check = (start + sum(i * v for i, v in enumerate(values, 1))) % 103
    return 10, CODE128[start] + "".join(CODE128[v] for v in values + [check]) + STOP, 10


def gtin_and_batch(random: random.Random) -> tuple[int, str, int]:
    text = digits(random, 13)
    text = "01" + text + check_digit(text)
    pairs = [int(text[i : i + 2]) for i in range(0, 16, 2)]
    batch = [ord(random.choice("ABCDEFGHJKLMNPQRSTUVWXYZ")) - 32 for _ in range(random.randint(1, 12))]
    return code128(random, START_C, pairs + [10, 100] + batch)


def origin(random: random.Random) -> tuple[int, str, int]:
    text = "422" + digits(random, 3)
    return code128(random, START_C, [int(text[i : i + 2]) for i in range(0, 6, 2)])


def weight(random: random.Random) -> tuple[int, str, int]:
    text = "3103" + digits(random, 6)
    return code128(random, START_C, [int(text[i : i + 2]) for i in range(0, 10, 2)])


def longest(random: random.Random) -> tuple[int, str, int]:
    pairs = lambda: [random.randrange(100) for _ in range(45)]
    return code128(random, START_C, [20, 11, 91] + pairs() + [FNC1, 92] + pairs())


ALONE = {"long": (longest,), "itf14": (itf14,)}
SYMBOLS = (ean13, gtin_and_batch, ean8, origin, upce, ean13, weight, gtin_and_batch)


def damaged(random: random.Random, widths: list[int]) -> list[int]:
    i = random.randrange(1, len(widths) - 1)
    harm = random.randrange(4)
    if harm == 0:
        widths[i] *= 3
    elif harm == 1:
        del widths[i]
        del widths[i]
    elif harm == 2:
        widths[random.choice((0, -1))] = 1
    else:
        j = random.randrange(1, len(widths) - 1)
        widths[i], widths[j] = widths[j], widths[i]
    return widths


def row(random: random.Random, symbol: Callable[[random.Random], tuple[int, str, int]]) -> list[int]:
    quiet_left, modules, quiet_right = symbol(random)
    widths = [quiet_left] + [int(m) for m in modules] + [quiet_right]
    if random.random() < 0.5:
        widths.reverse()
    dots = random.randint(1, 4)
    widths = [dots * w for w in widths]
    if random.random() < 0.1:
        widths = damaged(random, widths)
    return widths


def main() -> None:
    count, lanes, seed = map(int, sys.argv[1:4])
    symbols = ALONE[sys.argv[4]] if sys.argv[4:] else SYMBOLS
    rng = random.Random(seed)
    for i in range(count):
        widths = row(rng, symbols[i % len(symbols)])
        print(f"{rng.randrange(lanes)},{' '.join(map(str, widths))}")


if __name__ == "__main__":
    main()
