"""Makes damaged lists. Each must be refused: damage.py LISTS WORK.

Prints a line for each part; the last one has the counts.
"""
from __future__ import annotations

import contextlib
import io
import os
import random
import re
import sys
from typing import Callable

from noriladle import labels as shop
from noriladle.__main__ import main as main_of_noriladle

LISTS, WORK = sys.argv[1:]
YEAR = 2026
FAULTS = []


def list_of(name: str) -> list[bytes]:
    with open(os.path.join(LISTS, name), "rb") as file:
        return file.read().splitlines(keepends=True)


# ---- lists with one fault, in a line that is known

Edit = Callable[[random.Random, bytes], bytes]
"""Makes a fault in a line."""


def one_digit(chance: random.Random, row: bytes) -> bytes:
    """Another digit in the number: the check digit finds each."""
    at = chance.choice([it.start() for it in re.finditer(rb"\d", row.split(b";")[0])])
    return row[:at] + bytes([48 + (row[at] - 48 + chance.randrange(1, 10)) % 10]) + row[at + 1:]


def in_cell(place: int, value: bytes) -> Edit:
    def edit(chance: random.Random, row: bytes) -> bytes:
        cells = row.rstrip(b"\n").split(b";")
        cells[place] = value
        return b";".join(cells) + b"\n"
    return edit


def too_long(chance: random.Random, row: bytes) -> bytes:
    return b"12" + row


EDITS = {
    "a digit": one_digit, "two digits more": too_long, "no number": in_cell(0, b"#N/V"), "rounded": in_cell(0, b"4,01235E+12"),
    "a letter": in_cell(0, b"40123450100O8"), "an element string without marks": in_cell(0, b"0109501101530003"),
    "no day": in_cell(0, b"(01)09501101530003(17)261331"), "no AI": in_cell(0, b"(98765)1"), "an open parenthesis": in_cell(0, b"(10A"),
    "copies": in_cell(3, b"-1"), "many copies": in_cell(3, b"1001"), "copies in words": in_cell(3, b"two"),
    "Hebrew": in_cell(1, "שלום".encode()), "a sign of no font": in_cell(1, "\U000f1234".encode()), "a quotation mark": in_cell(1, b'"a"b'),
    "a QR code's link": in_cell(0, b"https://id.gs1.org/01/09501101530003"),
}


def try_lists(count: int) -> tuple[int, int]:
    """Runs the command on lists with one fault each: it must name the line, and write nothing."""
    chance, refused = random.Random(5), 0
    heading, *rows = [line for line in list_of("prices.csv") if b'"' not in line]
    for number in range(count):
        name = list(EDITS)[number % len(EDITS)]
        chosen = chance.sample(rows, 4)
        line = chance.randrange(4)
        chosen[line] = EDITS[name](chance, chosen[line])
        path, output = os.path.join(WORK, "list.csv"), os.path.join(WORK, "list.pdf")
        with open(path, "wb") as file:
            file.writelines([heading, *chosen])
        out, err = io.StringIO(), io.StringIO()
        with contextlib.redirect_stdout(out), contextlib.redirect_stderr(err):
            status = main_of_noriladle(["labels", path, "-o", output, "--year", str(YEAR)])
        lines = err.getvalue().splitlines()
        is_right = (status == 1 and len(lines) == 2 and lines[0].startswith(f"{path}:{line + 2}: ") and not out.getvalue()
                    and lines[1].endswith("1 line refused, so nothing was written") and not os.path.exists(output))
        refused += is_right
        if not is_right:
            FAULTS.append(f"{name} in line {line + 2}: status {status}: {lines}")
    print(f"lists with a fault: {refused} of {count} refused by their line, and nothing written")
    return refused, count


# ---- lists that are damaged anywhere

PIECES = [b'"', b";", b",", b"\t", b"\r", b"\n", b"\0", b"\xff", b"\xef\xbb\xbf", b"(01)", b"^", b"\xc3\xbc", b"u\xcc\x88", b"\xd7\x90",
          b"9" * 30, b"E+12", b"\xe2\x82\xac", b"\xe4\xb8\xad", b" ", b"-", b"=" * 300, b"\xf0\x9f\x8d\x8e", b"\x1d", b"copies", b"2000",
          b"%s", b"{}", b"<&>", b"]E0", b"[10]", b"https://", b"\x1f", b"sep=;\n", b"gtin"]


def try_damage(count: int) -> tuple[int, int]:
    """Each list is made into labels that say numbers of the list, or refused with a line; nothing else is raised."""
    chance, stock, fonts = random.Random(7), shop.stock_of("L7163"), shop.fonts_of()
    heading, *rows = list_of("prices.csv")
    made = refused = 0
    for number in range(count):
        data = bytearray(heading + b"".join(chance.sample(rows, 3)) if number % 3 else b"".join(list_of("cases.csv")))
        for _ in range(chance.randrange(5)):
            at = chance.randrange(len(data) + 1)
            if chance.random() < 0.7:
                data[at:at] = chance.choice(PIECES)
            else:
                del data[at:at + chance.randrange(1, 6)]
        saved = bytes(data).decode("utf-8", "replace").encode("utf-16") if number % 7 == 0 else bytes(data)
        try:
            labels = shop.make(shop.read_list(saved, YEAR), stock, YEAR, fonts=fonts)
            written = [labels.pdf(), *labels.svgs(), labels.zpl() if number % 10 == 0 else b""]
            made += bool(written[0])
        except shop.Faults as faults:
            refused += bool(faults.faults) and all(fault.line >= 1 and fault.said for fault in faults.faults)
        except Exception as error:  # Nothing else may be raised, whatever it is.
            FAULTS.append(f"{type(error).__name__}: {error}: {saved!r}")
    print(f"damaged lists: {made} made, {refused} refused with their lines, of {count}")
    return made + refused, count


def main() -> None:
    parts = [try_lists(480), try_damage(2_000)]
    print("\n".join(FAULTS[:20]), file=sys.stderr, end="\n" if FAULTS else "")
    print(f"{parts[0][0]} of {parts[0][1]} lists with a fault, {parts[1][0]} of {parts[1][1]} damaged lists as they must be; {len(FAULTS)} wrong")
    sys.exit(1 if FAULTS else 0)


main()
