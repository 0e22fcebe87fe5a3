"""Prints lines for `check` or `print`. The same arguments give the same lines.

Usage: check_and_print_lines.py check|print COUNT SEED. Many of the texts for `check` have an error: a length, a byte or a check digit. Those
for `print` all fit 640 dots with modules of 2.
"""
from __future__ import annotations

import sys
from random import Random

what, count, seed = sys.argv[1], int(sys.argv[2]), int(sys.argv[3])
random = Random(seed)


def digits(count: int) -> str:
    return "".join(random.choice("0123456789") for _ in range(count))


def checked(text: str) -> str:
    total = sum(int(digit) * (3, 1)[i % 2] for i, digit in enumerate(reversed(text)))
    return text + str(-total % 10)


def word(most: int) -> str:
    return "".join(random.choice("ABCXYZabcxyz0123456789-/.") for _ in range(random.randint(1, most)))


def element() -> str:
    return random.choice([
        lambda: "01" + checked(digits(13)),
        lambda: "17" + digits(2) + random.choice(["0101", "1231", "0229", "0630", "1300", digits(4)]),
        lambda: "10" + word(22) + "^",
        lambda: "21" + word(21) + random.choice(["^", "^", ""]),
        lambda: "310" + digits(7),
        lambda: digits(random.randint(0, 8)),
    ])()


def faulty(text: str) -> str:
    place = random.randrange(len(text) + 1)
    return random.choice([text, text, text[:place], text[:place] + random.choice("X 5") + text[place + 1:]])


def asked() -> tuple[str, str]:
    kind = random.choice(["digit", "gtin", "text", "text"])
    if kind == "digit":
        return kind, faulty(digits(random.randint(1, 18)))
    if kind == "gtin":
        return kind, faulty(checked(digits(random.choice([7, 11, 12, 13, 9]))))
    return kind, "".join(element() for _ in range(random.randint(1, 5)))


def label() -> tuple[str, str]:
    kind = random.choice(["ean13", "upca", "ean8", "gs1128", "itf14"])
    if kind == "gs1128":
        return kind, random.choice(["01" + checked(digits(13)), "10" + word(8), "01" + checked(digits(13)) + "10" + word(4)])
    return kind, checked(digits({"ean13": 12, "upca": 11, "ean8": 7, "itf14": 13}[kind]))


for _ in range(count):
    print(*(asked() if what == "check" else label()), sep=",")
