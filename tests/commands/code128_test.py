"""Code 128: every pattern, and what every value means in each code set."""

from __future__ import annotations

import itertools
from typing import Iterable

from code128 import A, B, C, FNC1, PATTERNS, SHIFT, STOP, TO_A, TO_B, TO_C, check_character, encoded, row, symbol
from element_strings import X
from program import field
from rows import RowTest
from sheets import SymbolTest, dots_of

# AI 91 in sets A and B, and in set C.
ANY = [FNC1, 25, 17]
ANY_C = [FNC1, 91]

# The letter A, which is the same in sets A and B, and a value that is a control character in A and the letter a in B.
LETTER, LOWER = 33, 65

# A separator in set A, and a brace in B. After it a list of (20)11 in sets A and B.
BYTE_29 = 93
NEXT = [18, 16, 17, 17]

FUNCTION = "refused 15 FunctionCharacter"
SHIFTED = "refused 16 CodeSet"
PATTERN = "refused 23 Pattern"


def in_set_a(value: int) -> str:
    """The character of a value below 96 in set A."""
    return chr(value + 32) if value < 64 else chr(value - 64)


def in_set_b(value: int) -> str:
    """The character of a value below 96 in set B."""
    return chr(value + 32)


def answer(value: str) -> str:
    """What is answered to AI 91 with this value, in which the letter A stands before and after another character."""
    if value[1] == "\x1d":
        return "refused 5 UnknownAi 4"
    return f"]C1 (91){value}" if set(value) <= set(X) else "refused 7 ValueCharacter 0"


def widths_of(count: int, modules: int) -> list[str]:
    """All choices of this many widths of 1 to 4 with this sum."""
    return ["".join(map(str, it)) for it in itertools.product(range(1, 5), repeat=count) if sum(it) == modules]


class ValuesTest(RowTest):
    """A test of values."""

    def reads_symbols(self, cases: Iterable[tuple[int, list[int], str]]) -> None:
        """That symbols have these answers: their start, values after it, and answer."""
        self.reads([(row(symbol(start, values)), told) for start, values, told in cases])


class PatternsTest(ValuesTest):
    def test_each_value_as_data(self) -> None:
        self.reads_symbols([
            *((C, [*ANY_C, value], f"]C1 (91){value:02}") for value in range(100)),
            (C, [*ANY_C, 11, TO_B, LETTER], "]C1 (91)11A"),
            (C, [*ANY_C, 11, TO_A, LETTER], "]C1 (91)11A"),
            (C, [FNC1, 20, 11, FNC1, 10, 12], "]C1 (20)11(10)12"),
        ])

    def test_each_value_as_check_character(self) -> None:
        found: dict[int, tuple[int, list[int], str]] = {}
        for first, second in itertools.product(range(100), repeat=2):
            values = [*ANY_C, first, second]
            found.setdefault(check_character(C, values), (C, values, f"]C1 (91){first:02}{second:02}"))
        self.assertEqual(len(found), 103)
        self.reads_symbols(found.values())

    def test_each_wrong_check_character(self) -> None:
        values = [*ANY_C, 12]
        right = check_character(C, values)
        self.reads([
            (row(symbol(C, values, check)), "]C1 (91)12" if check == right else "refused 13 CheckCharacter")
            for check in range(103)
        ])

    def test_widths_of_no_character(self) -> None:
        start, fnc1, ai, data, check = symbol(C, [*ANY_C, 12]).split()[:-1]
        others = sorted(set(widths_of(6, 11)) - set(PATTERNS))
        self.assertEqual(len(others), 110)
        # The start characters are none of the data either.
        self.reads([
            (row(" ".join([*characters, STOP])), PATTERN)
            for widths in [*others, *PATTERNS[103:]]
            for characters in [
                [start, widths, ai, data, check],
                [start, fnc1, ai, widths, check],
                [start, fnc1, ai, data, widths],
            ]
        ])
        self.reads([
            (row(" ".join([widths, fnc1, ai, data, check, STOP])), PATTERN) for widths in [*others, *PATTERNS[:103]]
        ])

    def test_other_ends(self) -> None:
        characters = symbol(C, [*ANY_C, 12]).split()[:-1]
        self.reads([(row(" ".join([*characters, it])), PATTERN) for it in widths_of(7, 13) if it != STOP])

    def test_the_first_value(self) -> None:
        self.reads_symbols([
            (start, [value, FNC1], "refused 14 NotGs1") for start in [A, B, C] for value in range(102)
        ])


class MeaningsTest(ValuesTest):
    def test_each_value_in_set_a(self) -> None:
        self.reads_symbols([
            *((A, [*ANY, LETTER, value, LETTER], answer(f"A{in_set_a(value)}A")) for value in range(96)),
            (A, [*ANY, LETTER, 96, LETTER], FUNCTION),
            (A, [*ANY, LETTER, 97, LETTER], FUNCTION),
            (A, [*ANY, LETTER, SHIFT, LETTER], "]C1 (91)AA"),
            (A, [*ANY, LETTER, TO_C, LETTER], "]C1 (91)A33"),
            (A, [*ANY, LETTER, TO_B, LETTER], "]C1 (91)AA"),
            (A, [*ANY, LETTER, 101, LETTER], FUNCTION),
            (A, [*ANY, LETTER, FNC1, LETTER], "refused 5 UnknownAi 4"),
        ])

    def test_each_value_in_set_b(self) -> None:
        self.reads_symbols([
            *((B, [*ANY, LETTER, value, LETTER], answer(f"A{in_set_b(value)}A")) for value in range(96)),
            (B, [*ANY, LETTER, 96, LETTER], FUNCTION),
            (B, [*ANY, LETTER, 97, LETTER], FUNCTION),
            (B, [*ANY, LETTER, SHIFT, LETTER], "]C1 (91)AA"),
            (B, [*ANY, LETTER, TO_C, LETTER], "]C1 (91)A33"),
            (B, [*ANY, LETTER, 100, LETTER], FUNCTION),
            (B, [*ANY, LETTER, TO_A, LETTER], "]C1 (91)AA"),
            (B, [*ANY, LETTER, FNC1, LETTER], "refused 5 UnknownAi 4"),
        ])

    def test_each_value_in_set_c(self) -> None:
        self.reads_symbols([
            *((C, [*ANY_C, 11, value, LETTER], f"]C1 (91)11{value:02}33") for value in range(100)),
            (C, [*ANY_C, 11, TO_B, LETTER], "]C1 (91)11A"),
            (C, [*ANY_C, 11, TO_A, LETTER], "]C1 (91)11A"),
            (C, [*ANY_C, 11, FNC1, LETTER], "refused 5 UnknownAi 5"),
            (C, [*ANY_C, 11, SHIFT], "]C1 (91)1198"),
        ])

    def test_each_value_after_shift(self) -> None:
        self.reads_symbols([
            case
            for value in range(96)
            for case in [
                (A, [*ANY, LETTER, SHIFT, value, LETTER], answer(f"A{in_set_b(value)}A")),
                (B, [*ANY, LETTER, SHIFT, value, LETTER], answer(f"A{in_set_a(value)}A")),
            ]
        ])
        self.reads_symbols([
            (start, [*ANY, LETTER, SHIFT, value, LETTER], SHIFTED) for start in [A, B] for value in range(96, 103)
        ])

    def test_shift_is_for_one_value(self) -> None:
        self.reads_symbols([
            (A, [*ANY, SHIFT, LOWER, LETTER, BYTE_29, *NEXT], "]C1 (91)aA(20)11"),
            (A, [*ANY, SHIFT, LOWER, LOWER], "refused 7 ValueCharacter 0"),
            (A, [*ANY, SHIFT, LOWER, SHIFT, LOWER], "]C1 (91)aa"),
            (A, [*ANY, SHIFT, LOWER, SHIFT], SHIFTED),
            (B, [*ANY, LOWER, SHIFT, BYTE_29, *NEXT], "]C1 (91)a(20)11"),
            (B, [*ANY, SHIFT, LETTER, LOWER], "]C1 (91)Aa"),
            (B, [*ANY, LOWER, SHIFT, BYTE_29, *NEXT[:2], TO_C, 11], "]C1 (91)a(20)11"),
            (A, [*ANY, LETTER, SHIFT], SHIFTED),
            (B, [*ANY, LETTER, SHIFT], SHIFTED),
            (A, [FNC1, SHIFT], SHIFTED),
            (B, [FNC1, SHIFT], SHIFTED),
        ])

    def test_changes_of_code_set(self) -> None:
        self.reads_symbols([
            # Value 65 is a control character in set A, the letter a in B, and digits in C.
            (A, [*ANY, LETTER, LOWER], "refused 7 ValueCharacter 0"),
            (A, [*ANY, LETTER, TO_B, LOWER], "]C1 (91)Aa"),
            (A, [*ANY, LETTER, TO_C, LOWER], "]C1 (91)A65"),
            (B, [*ANY, LETTER, LOWER], "]C1 (91)Aa"),
            (B, [*ANY, LETTER, TO_A, LOWER], "refused 7 ValueCharacter 0"),
            (B, [*ANY, LETTER, TO_C, LOWER], "]C1 (91)A65"),
            (C, [*ANY_C, LOWER], "]C1 (91)65"),
            (C, [*ANY_C, TO_B, LOWER], "]C1 (91)a"),
            (C, [*ANY_C, TO_A, LOWER], "refused 7 ValueCharacter 0"),
            # Value 93 is a separator in set A alone.
            (C, [*ANY_C, 11, TO_A, BYTE_29, *NEXT], "]C1 (91)11(20)11"),
            (C, [*ANY_C, 11, TO_B, BYTE_29, *NEXT], "refused 7 ValueCharacter 0"),
            (B, [*ANY, LOWER, TO_A, BYTE_29, *NEXT], "]C1 (91)a(20)11"),
            (A, [*ANY, LETTER, TO_B, LOWER, TO_A, BYTE_29, *NEXT], "]C1 (91)Aa(20)11"),
            (A, [*ANY, LETTER, BYTE_29, *NEXT], "]C1 (91)A(20)11"),
            (A, [*ANY, LETTER, FNC1, *NEXT], "]C1 (91)A(20)11"),
            (B, [*ANY, LETTER, FNC1, *NEXT], "]C1 (91)A(20)11"),
            (C, [*ANY_C, 11, FNC1, 20, 11], "]C1 (91)11(20)11"),
            # The set stays after FNC1.
            (C, [*ANY_C, TO_B, LOWER, FNC1, *NEXT[:2], TO_C, 11], "]C1 (91)a(20)11"),
            # To C and back, and to the same set twice.
            (B, [*ANY, LOWER, TO_C, 12, TO_B, LOWER, TO_C, 34, TO_A, LETTER], "]C1 (91)a12a34A"),
            (C, [*ANY_C, TO_B, TO_C, 12], "]C1 (91)12"),
            (A, [*ANY, TO_B, TO_A, LETTER], "]C1 (91)A"),
            # A change at the end says nothing.
            (A, [*ANY, LETTER, TO_B], "]C1 (91)A"),
            (A, [*ANY, LETTER, TO_C], "]C1 (91)A"),
            (B, [*ANY, LETTER, TO_A], "]C1 (91)A"),
            (B, [*ANY, LETTER, TO_C], "]C1 (91)A"),
            (C, [*ANY_C, 11, TO_A], "]C1 (91)11"),
            (C, [*ANY_C, 11, TO_B], "]C1 (91)11"),
        ])

    def test_the_first_fault(self) -> None:
        self.reads_symbols([
            (A, [FNC1, 96, SHIFT], FUNCTION),
            (A, [FNC1, SHIFT, 96], SHIFTED),
            (B, [FNC1, 97, SHIFT, SHIFT], FUNCTION),
            (B, [FNC1, SHIFT, SHIFT, 97], SHIFTED),
            # Before a fault of the text.
            (B, [FNC1, LETTER, LETTER, 100], FUNCTION),
            (A, [FNC1, LETTER, SHIFT], SHIFTED),
            # After the first value.
            (A, [97, FNC1, SHIFT], "refused 14 NotGs1"),
        ])
        self.reads([
            (row(symbol(A, [97, FNC1, SHIFT], 0)), "refused 13 CheckCharacter"),
            (row(symbol(A, [FNC1, 97], 0)), "refused 13 CheckCharacter"),
        ])


class PrintedTest(SymbolTest):
    def has_values(self, cases: Iterable[tuple[str, list[int]]]) -> None:
        """That texts print with these values after start C and FNC1."""
        self.prints(512, [
            (f"gs1128,{field(text)}", dots_of(10, symbol(C, [FNC1, *values]), 512)) for text, values in cases
        ])

    def test_each_pair_of_digits(self) -> None:
        self.has_values([(f"91{value:02}", [91, value]) for value in range(100)])

    def test_each_character(self) -> None:
        # Between letters, so that a digit has no digit beside it.
        self.has_values([
            (f"91a{character}b", [91, TO_B, 65, ord(character) - 32, 66]) for character in X
        ])

    def test_each_check_character(self) -> None:
        found: dict[int, tuple[str, list[int]]] = {}
        for first, second in itertools.product(range(100), repeat=2):
            check = check_character(C, [FNC1, 91, first, second])
            found.setdefault(check, (f"91{first:02}{second:02}", [91, first, second]))
        self.assertEqual(len(found), 103)
        self.has_values(found.values())

    def test_the_choice_of_code_sets(self) -> None:
        texts = [
            ("0109501101530003", [1, 9, 50, 11, 1, 53, 0, 3]),
            ("422528", [42, 25, 28]),
            ("10AB^17261231", [10, TO_B, 33, 34, FNC1, TO_C, 17, 26, 12, 31]),
            ("1726123110AB", [17, 26, 12, 31, 10, TO_B, 33, 34]),
            ("10A12345", [10, TO_B, 33, 17, TO_C, 23, 45]),
            # Digits in set C: in pairs, and the last alone in set B.
            ("10123", [10, 12, TO_B, 19]),
            ("101234", [10, 12, 34]),
            ("10123A", [10, 12, TO_B, 19, 33]),
            ("240123", [24, 1, 23]),
            ("2401234", [24, 1, 23, TO_B, 20]),
            # Digits in set B: an even number from four on goes to set C, and an odd one after its first.
            ("10A1", [10, TO_B, 33, 17]),
            ("10A12", [10, TO_B, 33, 17, 18]),
            ("10A123", [10, TO_B, 33, 17, 18, 19]),
            ("10A1234", [10, TO_B, 33, TO_C, 12, 34]),
            ("10A123456", [10, TO_B, 33, TO_C, 12, 34, 56]),
            ("10A1234567", [10, TO_B, 33, 17, TO_C, 23, 45, 67]),
            ("10A1234B", [10, TO_B, 33, TO_C, 12, 34, TO_B, 34]),
            ("10A123B1234", [10, TO_B, 33, 17, 18, 19, 34, TO_C, 12, 34]),
            # A separator in either set, and digits that end at one.
            ("1012^2112", [10, 12, FNC1, 21, 12]),
            ("10123^2112", [10, 12, TO_B, 19, FNC1, TO_C, 21, 12]),
            ("10A^211", [10, TO_B, 33, FNC1, 18, 17, 17]),
            ("10A12^2112", [10, TO_B, 33, 17, 18, FNC1, TO_C, 21, 12]),
        ]
        self.has_values(texts)
        for text, values in texts:
            with self.subTest(text):
                self.assertEqual(encoded(text), values)

    def test_separators_that_are_not_needed(self) -> None:
        self.has_values([
            ("2011^10A^", [20, 11, 10, TO_B, 33]),
            ("0109501101530003^10A", [1, 9, 50, 11, 1, 53, 0, 3, 10, TO_B, 33]),
        ])
