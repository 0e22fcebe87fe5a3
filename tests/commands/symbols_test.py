"""Symbols of numbers: each is read in both directions, and printed with the widths that the standards give it."""

from __future__ import annotations

import itertools

from kinds import KINDS
from rows import RowTest, runs
from sheets import SymbolTest, dots_of
from symbols import EAN8, EAN13, ITF14, OTHER_UPCE, UPCE


def row(kind: str, groups: str) -> list[int]:
    """The widths of a symbol between its light ends."""
    return [KINDS[kind].left, *runs(groups), KINDS[kind].right]


def replaced(groups: str, place: int, group: str) -> str:
    """The same groups with another in one place."""
    parts = groups.split()
    parts[place] = group
    return " ".join(parts)


class ReadTest(RowTest):
    def test_ean13(self) -> None:
        self.reads([(row("ean13", groups), f"]E0 (01)0{number}") for number, groups in EAN13])

    def test_ean8(self) -> None:
        self.reads([(row("ean8", groups), f"]E4 (01)000000{number}") for number, groups in EAN8])

    def test_upce(self) -> None:
        self.reads([(row("upce", groups), f"]E0 (01)00{number}") for _, number, groups in UPCE + OTHER_UPCE])

    def test_itf14(self) -> None:
        self.reads([(row("itf14", groups), f"]I1 (01){number}") for number, groups in ITF14])

    def test_wrong_check_digits(self) -> None:
        # The character of each other digit in place of the last.
        characters = "3211 2221 2122 1411 1132 1231 1114 1312 1213 3112".split()
        self.reads([
            (row(kind, replaced(groups, -2, character)), "refused 24 SymbolCheckDigit")
            for kind, symbols in [("ean13", EAN13), ("ean8", EAN8)]
            for _, groups in symbols
            for character in characters
            if character != groups.split()[-2]
        ])

    def test_first_digits_by_number_sets(self) -> None:
        # The left digits 234567 in each choice of number sets, and the right ones 89012: the first digit of those that
        # have one, with the character of the check digit.
        sets = ["2122 1411 1132 1231 1114 1312".split(), "2212 1141 2311 1321 4111 2131".split()]
        wanted = {
            "AAAAAA": ("0", "9", "3112"),
            "AABABB": ("1", "8", "1213"),
            "AABBAB": ("2", "7", "1312"),
            "AABBBA": ("3", "6", "1114"),
            "ABAABB": ("4", "5", "1231"),
            "ABBAAB": ("5", "4", "1132"),
            "ABBBAA": ("6", "3", "1411"),
            "ABABAB": ("7", "2", "2122"),
            "ABABBA": ("8", "1", "2221"),
            "ABBABA": ("9", "0", "3211"),
        }
        cases = []
        for choice in map("".join, itertools.product("AB", repeat=6)):
            left = " ".join(sets["AB".index(it)][place] for place, it in enumerate(choice))
            first, check, last = wanted.get(choice, ("", "", "3211"))
            answer = f"]E0 (01)0{first}23456789012{check}" if first else "refused 23 Pattern"
            cases.append((row("ean13", f"111 {left} 11111 1213 3112 3211 2221 2122 {last} 111"), answer))
        self.reads(cases)

    def test_check_digits_of_upce_by_number_sets(self) -> None:
        # The six digits 123456, whose check digit is 5, in each choice of number sets.
        sets = ["2221 2122 1411 1132 1231 1114".split(), "1222 2212 1141 2311 1321 4111".split()]
        others = "BBBAAA BBABAA BBAABA BBAAAB BABBAA BAAABB BABABA BABAAB BAABAB".split()
        wanted = dict.fromkeys(others, "refused 24 SymbolCheckDigit")
        wanted["BAABBA"] = "]E0 (01)00012345000065"
        cases = []
        for choice in map("".join, itertools.product("AB", repeat=6)):
            six = " ".join(sets["AB".index(it)][place] for place, it in enumerate(choice))
            cases.append((row("upce", f"111 {six} 111111"), wanted.get(choice, "refused 23 Pattern")))
        self.reads(cases)

    def test_wide_guards(self) -> None:
        # Each run of the guard patterns two modules wide.
        cases = []
        for kind, groups in [("ean13", EAN13[3][1]), ("ean8", EAN8[2][1]), ("upce", UPCE[4][2])]:
            for place, guard in enumerate(groups.split()):
                for run in range(len(guard)) if set(guard) == {"1"} else ():
                    wide = guard[:run] + "2" + guard[run + 1 :]
                    cases.append((row(kind, replaced(groups, place, wide)), "refused 23 Pattern"))
        self.assertEqual(len(cases), 11 + 11 + 9)
        self.reads(cases)

    def test_other_ends_of_itf14(self) -> None:
        # Each other choice of narrow and wide elements for the start and for the stop.
        groups = ITF14[1][1]
        cases = []
        for place, right in [(0, "1111"), (-1, "311")]:
            others = {"".join(it) for it in itertools.product("13", repeat=len(right))} - {right}
            cases += [(row("itf14", replaced(groups, place, it)), "refused 23 Pattern") for it in sorted(others)]
        self.reads(cases)

    def test_itf14_pairs_without_a_digit(self) -> None:
        # The first pair, 76, with each other choice of narrow and wide elements for one of its digits.
        groups = ITF14[0][1]
        cases = []
        for wide in itertools.product("13", repeat=5):
            if wide.count("3") != 2:
                bars = "".join(itertools.chain(*zip(wide, "13311")))
                spaces = "".join(itertools.chain(*zip("11133", wide)))
                cases += [(row("itf14", replaced(groups, 1, pair)), "refused 23 Pattern") for pair in [bars, spaces]]
        self.assertEqual(len(cases), 44)
        self.reads(cases)


class PrintedTest(SymbolTest):
    def has_widths(self, kind: str, cases: list[tuple[str, str]]) -> None:
        """That records of a kind print with these widths in the narrowest cell."""
        left, right = KINDS[kind].left, KINDS[kind].right
        width = left + sum(runs(cases[0][1])) + right
        self.prints(width, [(f"{kind},{number}", dots_of(left, groups, width)) for number, groups in cases])

    def test_ean13(self) -> None:
        self.has_widths("ean13", EAN13)

    def test_upca(self) -> None:
        self.has_widths("upca", [(number[1:], groups) for number, groups in EAN13[:1]])

    def test_ean8(self) -> None:
        self.has_widths("ean8", EAN8)

    def test_upce(self) -> None:
        self.has_widths("upce", [(number, groups) for _, number, groups in UPCE])

    def test_itf14(self) -> None:
        self.has_widths("itf14", ITF14)

    def test_upce_in_the_first_spelling(self) -> None:
        self.has_widths("upce", [
            ("012000000003", "111 1222 2212 3211 3211 3211 1123 111111"),
            ("098000000014", "111 2113 1213 1123 1123 2221 3211 111111"),
            ("098100000020", "111 2113 3121 1123 3211 2122 2221 111111"),
            ("045600000005", "111 2311 1231 1114 1123 1123 1411 111111"),
        ])
