"""Compares what other readers and the program make of a hundred texts of each kind of label.

Usage: compare_readers.py PROGRAM FOLDER. The folder is for the images. The texts are the same in each run.
"""
from __future__ import annotations

import concurrent.futures
import os
import random
import re
import subprocess
import sys
from concurrent.futures import Executor
from typing import Callable, Iterable, Iterator, Sequence

sys.path.insert(0, os.path.join(os.path.dirname(os.path.abspath(__file__)), "..", "commands"))
from kinds import KINDS, Kind

COUNT = 100
MODULE = 2
YEAR = "2026"

# The characters that a value may have (GS1 General Specifications, figure 7.11-1).
CHARACTERS = "!\"%&'()*+,-./0123456789:;<=>?ABCDEFGHIJKLMNOPQRSTUVWXYZ_abcdefghijklmnopqrstuvwxyz"


def digits(chance: random.Random, count: int) -> str:
    return "".join(chance.choice("0123456789") for _ in range(count))


def checked(text: str) -> str:
    """The digits with their check digit (GS1 General Specifications, 7.9.1)."""
    total = sum(int(digit) * (3, 1)[i % 2] for i, digit in enumerate(reversed(text)))
    return text + str(-total % 10)


def gtin12(upce: str) -> str:
    """The GTIN-12 of the eight digits of a UPC-E (GS1 General Specifications, figure 5.2.2.4-1)."""
    d, last = upce[1:7], int(upce[6])
    if last <= 2:
        body = d[:2] + d[5] + "0000" + d[2:5]
    elif last == 3:
        body = d[:3] + "00000" + d[3:5]
    elif last == 4:
        body = d[:4] + "00000" + d[4]
    else:
        body = d[:5] + "0000" + d[5]
    return checked("0" + body)


class Text:
    """A label: the inputs of `print` and zint, what it says, and the same in the form for people."""

    def __init__(self, ours: str, zint: str, says: str, hri: str) -> None:
        self.ours, self.zint, self.says, self.hri = ours, zint, says, hri


def of_gtin(gtin: str, zint: str | None = None) -> Text:
    says = gtin.zfill(14)
    return Text(gtin, zint or gtin[:-1], says, "(01)" + says)


def gtin(count: int, first: str = "0123456789") -> Callable[[random.Random], Text]:
    """A GTIN of this many digits that begins with one of these. zint adds the check digit."""
    return lambda chance: of_gtin(checked(chance.choice(first) + digits(chance, count - 2)))


def upce(chance: random.Random) -> Text:
    six = list(digits(chance, 6))
    # The first spelling of a number: no later line of the table has another.
    if six[5] == "3":
        six[2] = chance.choice("3456789")
    elif six[5] == "4":
        six[3] = chance.choice("123456789")
    elif six[5] in "56789":
        six[4] = chance.choice("123456789")
    seven = "0" + "".join(six)
    return of_gtin(gtin12(seven + "0"), seven)


def date(chance: random.Random) -> str:
    return "%02d%02d%02d" % (chance.randrange(100), chance.randrange(1, 13), chance.randrange(1, 29))


def characters(most: int) -> Callable[[random.Random], str]:
    return lambda chance: "".join(chance.choice(CHARACTERS) for _ in range(chance.randrange(1, most + 1)))


def numbers(least: int, most: int) -> Callable[[random.Random], str]:
    return lambda chance: digits(chance, chance.randrange(least, most + 1))


def checked_numbers(count: int) -> Callable[[random.Random], str]:
    return lambda chance: checked(digits(chance, count - 1))


# An AI, whether its length is predefined, and its value (GS1 General Specifications, section 3.2).
ELEMENTS = [
    ("00", True, checked_numbers(18)),
    ("01", True, checked_numbers(14)),
    ("02", True, checked_numbers(14)),
    ("10", False, characters(20)),
    ("11", True, date),
    ("12", True, date),
    ("13", True, date),
    ("15", True, date),
    ("16", True, date),
    ("17", True, date),
    ("20", True, numbers(2, 2)),
    ("21", False, characters(20)),
    ("22", False, characters(20)),
    ("30", False, numbers(1, 8)),
    ("37", False, numbers(1, 8)),
    ("240", False, characters(30)),
    ("241", False, characters(30)),
    ("250", False, characters(30)),
    ("254", False, characters(20)),
    ("3103", True, numbers(6, 6)),
    ("3202", True, numbers(6, 6)),
    ("3370", True, numbers(6, 6)),
    ("3922", False, numbers(1, 15)),
    ("400", False, characters(30)),
    ("403", False, characters(30)),
    ("410", True, checked_numbers(13)),
    ("414", True, checked_numbers(13)),
    ("420", False, characters(20)),
    ("90", False, characters(30)),
    ("91", False, characters(40)),
    ("99", False, characters(40)),
]


def gs1128(chance: random.Random) -> Text:
    """Up to four elements of different AIs, in at most 48 characters."""
    while True:
        elements = [(ai, fixed, value(chance))
                    for ai, fixed, value in chance.sample(ELEMENTS, chance.randrange(1, 5))]
        says = ""
        for i, (ai, fixed, value) in enumerate(elements):
            last = i + 1 == len(elements)
            says += ai + value + ("" if fixed or last else "\x1d")
        if len(says) <= 48:
            break
    return Text(says.replace("\x1d", "^"),
                "".join("[%s]%s" % (ai, value) for ai, fixed, value in elements),
                says, "".join("(%s)%s" % (ai, value) for ai, fixed, value in elements))


# How a text of each kind is made; gtin(14) makes those of one that shows a GTIN-14.
TEXTS = {"ean13": gtin(13, "123456789"), "upca": gtin(12), "ean8": gtin(8), "upce": upce, "itf14": gtin(14), "gs1128": gs1128}


def run(words: Sequence[str], data: bytes = b"") -> subprocess.CompletedProcess[bytes]:
    return subprocess.run(words, input=data, stdout=subprocess.PIPE, stderr=subprocess.PIPE)


def quoted(text: str) -> str:
    return '"' + text.replace('"', '""') + '"'


def number(kind: Kind, read: str) -> str:
    """What a reader read; a number as 14 digits, a UPC-E as its eight."""
    if kind.word == "gs1128":
        return read
    if kind.word == "upce" and len(read) == 8:
        read = gtin12(read)
    return read.zfill(14)


def images_of(data: bytes) -> list[bytes]:
    """The PBM images that stand one after another."""
    images = []
    while data:
        header = re.match(rb"P4\n(\d+) (\d+)\n", data)
        width, height = int(header[1]), int(header[2])
        end = header.end() + (width + 7) // 8 * height
        images.append(data[:end])
        data = data[end:]
    return images


def by_zbarimg(kind: Kind, image: str) -> tuple[str, str]:
    """The symbology and the text that zbarimg reads in an image."""
    told = run(["zbarimg", "--quiet", "--nodbus", image]).stdout.decode("latin-1")
    name, _, read = told.rstrip("\n").partition(":")
    return name, number(kind, read)


def by_zxing(kind: Kind, image: str) -> tuple[str | None, str | None, str]:
    """The symbology, the identifier and the text that ZXingReader reads in an image."""
    told = run(["ZXingReader", image]).stdout.decode("latin-1")
    found = dict(re.findall(r"^(\w+): +(.*?) *$", told, re.MULTILINE))
    read = bytes.fromhex(found.get("Bytes", "")).decode("latin-1")
    return found.get("Format"), found.get("Identifier"), number(kind, read)


def printed(program: str, kind: Kind, texts: list[Text], folder: str) -> list[str]:
    """The sheets of the texts, one label each, as PNG files."""
    records = "".join("%s,%s\n" % (kind.word, quoted(text.ours)) for text in texts)
    sizes = ["--module", str(MODULE), "--width", str(MODULE * kind.wide), "--height", "100"]
    run_print = run([program, "print", *sizes, "--columns", "1", "--rows", "1", "--year", YEAR],
                    records.encode())
    if run_print.returncode != 0:
        sys.exit("print: " + run_print.stderr.decode())
    paths = []
    for i, image in enumerate(images_of(run_print.stdout)):
        paths.append("%s/%s-%d.png" % (folder, kind.word, i))
        with open(paths[-1], "wb") as file:
            file.write(run(["pnmtopng"], image).stdout)
    return paths


def drawn(kind: Kind, text: Text, path: str) -> list[int]:
    """The runs of the middle row of zint's symbol, in dots, light first and light last."""
    told = run(["zint", "--barcode=" + kind.zint, "--data=" + text.zint, "--output=" + path, "--notext",
                "--scale=1", "--height=20", "--whitesp=12", "--bind", "--border=0"])
    if told.returncode != 0:
        sys.exit("zint: %s: %s" % (text.zint, told.stderr.decode()))
    with open(path, "rb") as file:
        plain = run(["pngtopnm", "-plain"], file.read()).stdout.split()
    width, height = int(plain[1]), int(plain[2])
    # P1 has 1 for a dark dot and no blanks between dots that are wanted; P2 and P3 have 0 for it.
    if plain[0] == b"P1":
        dots = [dot == 49 for dot in b"".join(plain[3:])]
    elif plain[0] == b"P2":
        dots = [shade == b"0" for shade in plain[4:]]
    else:
        dots = [shade == b"0" for shade in plain[4::3]]
    row = dots[height // 2 * width:][:width]
    runs, dark = [0], False
    for dot in row:
        if dot != dark:
            runs.append(0)
            dark = dot
        runs[-1] += 1
    return runs if len(runs) % 2 else runs + [0]


def answered(program: str, rows: Iterable[list[int]]) -> list[str]:
    """The answers of `lanes` to the rows, in their order."""
    records = "".join("0,%s\n" % " ".join(map(str, runs)) for runs in rows)
    told = run([program, "lanes", "--lanes", "1", "--workers", "2", "--year", YEAR], records.encode())
    return [line.split(" ", 2)[2] for line in told.stdout.decode().splitlines()]


def compare(name: str, wanted: Sequence[object], found: Sequence[object]) -> tuple[int, int]:
    """Prints how many are as wanted, and each other one."""
    right = 0
    for want, find in zip(wanted, found):
        if want == find:
            right += 1
        else:
            print("%s: wanted %r, found %r" % (name, want, find), file=sys.stderr)
    print("%s: %d of %d" % (name, right, len(wanted)))
    return right, len(wanted)


def try_kind(program: str, kind: Kind, folder: str, pool: Executor) -> Iterator[tuple[int, int]]:
    chance = random.Random(kind.word)
    texts = [TEXTS[kind.word](chance) for _ in range(COUNT)]
    paths = printed(program, kind, texts, folder)
    yield compare("%s, printed, by zbarimg" % kind.word, [(kind.zbar, text.says) for text in texts],
                  list(pool.map(lambda path: by_zbarimg(kind, path), paths)))
    yield compare("%s, printed, by ZXingReader" % kind.word,
                  [(kind.zxing, kind.identifier, text.says) for text in texts],
                  list(pool.map(lambda path: by_zxing(kind, path), paths)))
    rows = list(pool.map(lambda i: drawn(kind, texts[i], "%s/zint-%s-%d.png" % (folder, kind.word, i)),
                         range(COUNT)))
    wanted = ["%s %s" % (kind.identifier, text.hri) for text in texts]
    yield compare("%s, of zint, by lanes" % kind.word, wanted, answered(program, rows))
    yield compare("%s, of zint and turned, by lanes" % kind.word, wanted,
                  answered(program, [runs[::-1] for runs in rows]))


def main() -> None:
    program, folder = sys.argv[1:]
    right = tried = 0
    with concurrent.futures.ThreadPoolExecutor() as pool:
        for kind in KINDS.values():
            for found, wanted in try_kind(program, kind, folder, pool):
                right, tried = right + found, tried + wanted
    print("%d kinds: %d of %d" % (len(KINDS), right, tried))
    sys.exit(0 if right == tried else 1)


main()
