"""Prints texts of scanners for `live`: a lane, a comma and what a scanner sends. The same arguments give the same texts.

Usage: scanner_texts.py COUNT LANES SEED. The texts are EAN-13, UPC-E, GS1-128 with a GTIN, a date and a lot, and Digital Links with these,
in turn. One in ten has a digit changed.
"""
import random
import sys

from labels import gtin
from rows import check_digit, digits


def lot(random: random.Random) -> str:
    return "".join(random.choice("ABCDEFGHJKLMNPQRSTUVWXYZ0123456789") for _ in range(random.randint(1, 12)))


def day(random: random.Random) -> str:
    return f"{random.randint(20, 60)}{random.randint(1, 12):02}{random.randint(0, 28):02}"


def upce(random: random.Random) -> str:
    six = digits(random, 5) + random.choice("56789")
    return f"0{six}{check_digit(f'0{six[:5]}0000{six[5]}')}"


KINDS = [
    lambda random: "]E0" + gtin(random, 13),
    lambda random: "]E0" + upce(random),
    lambda random: f"]C101{gtin(random, 14)}17{day(random)}10{lot(random)}",
    lambda random: f"]Q1https://id.gs1.org/01/{gtin(random, 14)}/10/{lot(random)}?17={day(random)}",
]


def damaged(random: random.Random, text: str) -> str:
    place = random.choice([i for i, byte in enumerate(text) if byte.isdigit() and i > 2])
    return text[:place] + random.choice("0123456789") + text[place + 1 :]


def main() -> None:
    count, lanes, seed = map(int, sys.argv[1:4])
    chance = random.Random(seed)
    for number in range(count):
        text = KINDS[number % len(KINDS)](chance)
        print(f"{chance.randrange(lanes)},{damaged(chance, text) if chance.random() < 0.1 else text}")


main()
