"""Rows of widths at one dot a module, as in records, and checks of rows."""

from __future__ import annotations

from program import CommandTest

# The symbol of 9501101530003 as EAN-13: its runs without the two light ends.
SYMBOL = (
    "1 1 1 1 2 3 1 1 1 2 3 1 2 2 2 2 2 2 1 1 1 2 3 2 2 2 1 1 1 1 1 "
    "1 1 2 3 1 1 4 1 1 3 2 1 1 3 2 1 1 3 2 1 1 1 4 1 1 1 1 1"
)

# The same with 4 in place of its last digit, 3, which is the check digit.
WRONG_CHECK_DIGIT = (
    "1 1 1 1 2 3 1 1 1 2 3 1 2 2 2 2 2 2 1 1 1 2 3 2 2 2 1 "
    "1 1 1 1 1 1 2 3 1 1 4 1 1 3 2 1 1 3 2 1 1 3 2 1 1 1 1 3 2 1 1 1"
)

# The same with a space of five modules in its last digit.
WIDE_SPACE = (
    "1 1 1 1 2 3 1 1 1 2 3 1 2 2 2 2 2 2 1 1 1 2 3 2 2 2 1 1 1 1 1 "
    "1 1 2 3 1 1 4 1 1 3 2 1 1 3 2 1 1 3 2 1 1 1 5 1 1 1 1 1"
)

# The row of 96385074 as EAN-8, its light ends included.
EAN8_ROW = (
    "7 1 1 1 3 1 1 2 1 1 1 4 1 4 1 1 1 2 1 3 1 1 1 1 1 1 2 3 1 3 2 1 "
    "1 1 3 1 2 1 1 3 2 1 1 1 7"
)

# The row of (422)528 as GS1-128, its light ends included.
GS1128_ROW = (
    "10 2 1 1 2 3 2 4 1 1 1 3 1 1 1 2 1 3 3 3 2 1 1 2 2 3 2 2 1 1 2 1 2 "
    "1 4 2 1 2 3 3 1 1 1 2 10"
)


def runs(groups: str, dots: int = 1) -> list[int]:
    """The widths of groups of digits, at this many dots a module."""
    return [int(digit) * dots for group in groups.split() for digit in group]


class RowTest(CommandTest):
    """A test of rows."""

    def reads(self, cases: list[tuple[list[int], str]], year: int = 2026) -> None:
        """That rows of widths, each with its two light ends, have these answers, in both directions."""
        records = [
            ("0," + " ".join(map(str, turned)), answer) for widths, answer in cases for turned in (widths, widths[::-1])
        ]
        self.gives_lines(
            f"lanes --lanes 1 --workers 1 --year {year}",
            [(record, f"0 {number} {answer}") for number, (record, answer) in enumerate(records)],
        )
