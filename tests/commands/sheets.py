"""Images of labels, drawn by hand or from widths, and checks of them."""

from __future__ import annotations

from program import CommandTest, ran
from rows import runs

# The record of a label of 113 modules with its quiet zones.
RECORD = "ean13,9501101530003\n"

# A row of dots without a bar, and one through the bars of that label at one dot a module.
LIGHT_ROW = bytes(15)
BAR_ROW = b"\x00\x15\x8A\x76\x66\x53\x99\x54\xE8\x5C\xB9\x72\x85\x40\x00"

# The label in a cell of 113 by 3 dots, and a cell without a label.
LABEL = LIGHT_ROW + BAR_ROW + LIGHT_ROW
LIGHT = 3 * LIGHT_ROW

# The headers of images of one such cell, and of two.
LOW = b"P4\n113 3\n"
HIGH = b"P4\n113 6\n"


def image(header: bytes, labelled: int, light: int) -> bytes:
    """An image: its header, then cells with the label, then cells without one."""
    return header + labelled * LABEL + light * LIGHT


def grid(width: int, height: int, columns: int, rows: int, module: int = 1) -> str:
    """The command `print` with such cells, at this many dots a module."""
    return f"print --module {module} --width {width} --height {height} --columns {columns} --rows {rows} --year 2026"


def dots_of(left: int, groups: str, width: int) -> str:
    """A row of this many dots: light ones, then the bars and spaces of these widths, and light ones again."""
    dots = "".join("10"[place % 2] * run for place, run in enumerate(runs(groups)))
    return ("0" * left + dots).ljust(width, "0")


def packed(dots: str) -> bytes:
    """The bytes of a row of dots."""
    count = (len(dots) + 7) // 8
    return int(dots.ljust(8 * count, "0"), 2).to_bytes(count, "big")


class SymbolTest(CommandTest):
    """A test of symbols that are printed."""

    def prints(self, width: int, cases: list[tuple[str, str]]) -> None:
        """That records, each in a cell of this many dots on a sheet of its own, print as these rows of dots."""
        it = ran(grid(width, 3, 1, 1), "".join(f"{record}\n" for record, _ in cases).encode())
        self.assertEqual((it.status, it.error), (0, b""))
        light = packed(width * "0")
        images = [b"P4\n%d 3\n" % width + light + packed(dots) + light for _, dots in cases]
        size = len(images[0])
        self.assertEqual(len(it.output), size * len(cases))
        told = [it.output[place : place + size] for place in range(0, len(it.output), size)]
        wrong = [(record, image, found) for (record, _), image, found in zip(cases, images, told) if image != found]
        self.assertEqual(wrong[:20], [], "records with the image that is wanted and the one that is printed")
