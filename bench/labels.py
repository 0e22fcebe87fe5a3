"""Prints labels for `print`: a kind, a comma and a GTIN or an element string.

Usage: labels.py COUNT SEED. The same numbers give the same labels, each kind in turn.
"""
import random
import sys

from rows import check_digit, digits


def gtin(random: random.Random, count: int) -> str:
    text = digits(random, count - 1)
    return text + check_digit(text)


def upce(random: random.Random) -> str:
    text = "0" + digits(random, 5) + "0000" + random.choice("56789")
    return text + check_digit(text)


def elements(random: random.Random) -> str:
    batch = "".join(random.choice("ABCDEFGHJKLMNPQRSTUVWXYZ") for _ in range(random.randint(1, 8)))
    return "01" + gtin(random, 14) + "10" + batch


KINDS = (
    ("ean13", lambda random: gtin(random, 13)),
    ("upca", lambda random: gtin(random, 12)),
    ("ean8", lambda random: gtin(random, 8)),
    ("upce", upce),
    ("gs1128", elements),
)


def main() -> None:
    count, seed = map(int, sys.argv[1:])
    rng = random.Random(seed)
    for i in range(count):
        kind, text = KINDS[i % len(KINDS)]
        print(f"{kind},{text(rng)}")


if __name__ == "__main__":
    main()
