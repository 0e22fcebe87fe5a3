#!/usr/bin/env python3
"""Makes values of every Application Identifier by the formats of tables/ais.tsv, most of them valid, and element strings of them.

    tests/ais/element_strings_of_all_ais.py COUNT SEED

prints COUNT element strings of one to five elements, a line each, with `^` as the separator. About one in four is faulty.
"""

from __future__ import annotations

import importlib.machinery
import importlib.util
import os
import random
import sys
from typing import Iterator

ROOT = os.path.dirname(os.path.dirname(os.path.dirname(os.path.abspath(__file__))))
sys.dont_write_bytecode = True
loader = importlib.machinery.SourceFileLoader("make", os.path.join(ROOT, "tables", "ais"))
make = importlib.util.module_from_spec(importlib.util.spec_from_loader("make", loader))
sys.modules["make"] = make
loader.exec_module(make)

GOOD, CHANGED = 12, 3
LETTERS = "23456789ABCDEFGHJKLMNPQRSTUVWXYZ"
X = "!\"%&'()*+,-./0123456789:;<=>?ABCDEFGHIJKLMNOPQRSTUVWXYZ_abcdefghijklmnopqrstuvwxyz"
PRIMES = [2, 3, 5, 7, 11, 13, 17, 19, 23, 29, 31, 37, 41, 43, 47, 53, 59, 61, 67, 71, 73, 79, 83]
CHARACTERS = {"N": "0123456789", "X": "ABCabc019-./", "Y": "ABC0123-/#", "Z": "ABCabc019-_="}
# Values for rules that a random text hardly meets.
KNOWN = {
    "iso3166": ["276", "528", "840"], "iso3166999": ["276", "999"], "iso4217": ["978", "840"], "iso3166alpha2": ["DE", "NL"],
    "packagetype": ["AA", "BX"], "iban": ["DE89370400440532013000", "GB82WEST12345698765432"], "couponcode": ["106141416543213150110120"],
    "couponposoffer": ["000000000000000000000"], "posinseqslash": ["1/2", "3/9"], "hyphen": ["-"], "zero": ["0"], "yesno": ["0", "1"],
    "winding": ["0", "9"], "iso5218": ["1", "2"], "importeridx": ["A", "_"], "mediatype": ["01", "80"], "pieceoftotal": ["0102", "1212"],
    "hhmm": ["0000", "2359"], "hh": ["23"], "mi": ["59"], "ss": ["00"], "latitude": ["1800000000", "0562000000"],
    "longitude": ["3600000000", "0035000000"],
}


def check_digit(digits: str) -> str:
    """The digits, the last replaced by their check digit."""
    return digits[:-1] + str(-sum(int(it) * (1 if at % 2 else 3) for at, it in enumerate(reversed(digits[:-1]))) % 10)


def checked(text: str) -> str:
    """A text with its two check characters behind it."""
    value = sum(X.index(it) * prime for it, prime in zip(reversed(text), PRIMES)) % 1021
    return text + LETTERS[value >> 5] + LETTERS[value & 31]


def part(letter: str, least: int, greatest: int, rules: list[str]) -> str:
    """A value of a part, mostly a good one."""
    for rule in rules:
        if rule in KNOWN:
            return random.choice(KNOWN[rule])
        if rule in ("yymmdd", "yymmd0"):
            return f"{random.randrange(100):02}{random.randint(1, 12):02}{random.randint(0 if rule == 'yymmd0' else 1, 28):02}"
        if rule == "yyyymmdd":
            return f"{random.randint(1900, 2099)}{random.randint(1, 12):02}{random.randint(1, 28):02}"
    count = random.choice([least, greatest, random.randint(least, greatest)])
    text = "".join(random.choice(CHARACTERS[letter]) for _ in range(count))
    if "csumalpha" in rules:
        return checked("1987654A" + text[: greatest - 10])
    if "key" in rules and letter != "N":
        return ("9521" + text)[:greatest]
    return check_digit(text) if "csum" in rules else text


def good(form: str) -> str:
    """A value of a format."""
    parts = list(make.tokens(form))
    last = random.randint(sum(not it[0] for it in parts), len(parts))
    return "".join(part(*it[1:]) for it in parts[:last])


def changed(value: str) -> str:
    """A value with one change."""
    at = random.randrange(len(value))
    return random.choice([
        value[:at] + value[at + 1 :], value[:at] + random.choice("0123456789A") + value[at:],
        value[:at] + random.choice("0123456789") + value[at + 1 :], value[:at] + random.choice("AaZ%_-#*/!") + value[at + 1 :],
        value[:at] + random.choice("09") + value[at + 1 :],
    ])


def values() -> Iterator[tuple[str, str]]:
    """AIs with values."""
    for row in make.read(os.path.join(ROOT, "tables", "ais.tsv")):
        for ai in row.ais():
            for _ in range(GOOD):
                value = good(row.format)
                yield ai, value
                yield from ((ai, it) for it in (changed(value) for _ in range(CHANGED)) if 0 < len(it) <= 90)


def strings(count: int) -> Iterator[str]:
    """Element strings with `^` for each separator."""
    rows = make.read(os.path.join(ROOT, "tables", "ais.tsv"))
    ais = [(ai, row) for row in rows for ai in row.ais()]
    for _ in range(count):
        text = ""
        for _ in range(random.randint(1, 5)):
            ai, row = random.choice(ais)
            value = good(row.format)
            if random.random() < 0.1:
                value = changed(value)
            text += ai + value + ("" if row.predefined else "^")
        yield text.rstrip("^") if random.random() < 0.8 else text


def main() -> None:
    count, seed = map(int, sys.argv[1:])
    random.seed(seed)
    for text in strings(count):
        print(text)


if __name__ == "__main__":
    main()
