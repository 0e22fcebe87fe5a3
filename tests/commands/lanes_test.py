"""Rows that lanes send: records and their faults, and what is answered to rows of each carrier, in both directions."""

from __future__ import annotations

import time

from program import CommandTest
from rows import EAN8_ROW, GS1128_ROW, SYMBOL, WIDE_SPACE, WRONG_CHECK_DIGIT, runs


class RecordsTest(CommandTest):
    def answers(self, lanes: int, workers: int, given: str, wanted: str) -> None:
        """That `lanes` by this many workers writes this."""
        self.gives(f"lanes --lanes {lanes} --workers {workers} --year 2026", given, wanted)

    def test_each_row(self) -> None:
        for left, symbol, right, answer in [
            ("11", SYMBOL, "7", "]E0 (01)09501101530003"),
            ("5", SYMBOL, "5", "]E0 (01)09501101530003"),
            ("4", SYMBOL, "7", "refused 21 QuietZone"),
            ("11", SYMBOL, "4", "refused 21 QuietZone"),
            ("11", WRONG_CHECK_DIGIT, "7", "refused 24 SymbolCheckDigit"),
            ("11", WIDE_SPACE, "7", "refused 22 Modules"),
            ("0", "65535", "0", "refused 20 RunCount"),
            ("1", "0001 1 00001", "65531", "refused 20 RunCount"),
        ]:
            with self.subTest(answer):
                self.answers(1, 1, f"0,{left} {symbol} {right}\n", f"0 0 {answer}\n")

    def test_blank_rows(self) -> None:
        for width in ["0", "100", "65535"]:
            self.answers(1, 1, f"0,{width}", "0 0 refused 19 Blank\n")

    def test_order_by_lane_and_number(self) -> None:
        for lanes, given, wanted in [
            (1, "", ""),
            (16, "\n\n", ""),
            (16, "15,0", "15 0 refused 19 Blank\n"),
            (1, "\ufeff0,7\r\n", "0 0 refused 19 Blank\n"),
        ]:
            with self.subTest(given):
                self.answers(lanes, 1, given, wanted)
        self.answers(
            3,
            1,
            f'2,100\n1,11 {SYMBOL} 7\n\n02,0 9 0\n"1","100"\n00,0\n',
            "0 0 refused 19 Blank\n1 0 ]E0 (01)09501101530003\n1 1 refused 19 Blank\n"
            "2 0 refused 19 Blank\n2 1 refused 20 RunCount\n",
        )

    def test_eleven_lines_of_a_lane(self) -> None:
        self.answers(1, 1, 11 * "0,0\n", "".join(f"0 {number} refused 19 Blank\n" for number in range(11)))

    def test_wakes(self) -> None:
        """A worker that nobody wakes sleeps for a second (`REST` in hub_core). Nobody may wait for that at the end of a run."""
        start = time.monotonic()
        for _ in range(30):
            self.answers(1, 4, "0,0\n", "0 0 refused 19 Blank\n")
        self.assertLess(time.monotonic() - start, 15)

    def test_any_number_of_workers(self) -> None:
        rows = f"1,{EAN8_ROW}\n2,11 {SYMBOL} 7\n2,100\n2,11 {SYMBOL} 7\n2,{EAN8_ROW}\n2,{GS1128_ROW}\n"
        lines = (
            "1 0 ]E4 (01)00000096385074\n"
            "2 0 ]E0 (01)09501101530003\n"
            "2 1 refused 19 Blank\n"
            "2 2 ]E0 (01)09501101530003\n"
            "2 3 ]E4 (01)00000096385074\n"
            "2 4 ]C1 (422)528\n"
        )
        for workers in [1, 2, 16]:
            with self.subTest(workers=workers):
                self.answers(3, workers, rows, lines)
                self.answers(3, workers, f"3,11 {SYMBOL} 7\n{rows}", "record 0: refused 41 BadLane")

    def test_faulty_records(self) -> None:
        for given, wanted in [
            ("0", "record 0: refused 39 Csv"),
            ("0,100,", "record 0: refused 39 Csv"),
            ("\"\"", "record 0: refused 39 Csv"),
            ("2,100", "record 0: refused 41 BadLane"),
            ("000,100", "record 0: refused 41 BadLane"),
            ("+1,100", "record 0: refused 41 BadLane"),
            (" 1,100", "record 0: refused 41 BadLane"),
            (",100", "record 0: refused 41 BadLane"),
            ("0,", "record 0: refused 18 BadRuns"),
            ("0,a", "record 0: refused 18 BadRuns"),
            ("0,1  1 1", "record 0: refused 18 BadRuns"),
            ("0, 1", "record 0: refused 18 BadRuns"),
            ("0,1 ", "record 0: refused 18 BadRuns"),
            ("0,100000", "record 0: refused 18 BadRuns"),
            ("0,000001", "record 0: refused 18 BadRuns"),
            ("0,1 0 1", "record 0: refused 18 BadRuns"),
            ("0,5 3", "record 0: refused 18 BadRuns"),
            ("0,65536 1", "record 0: refused 18 BadRuns"),
            ("0,65536 0 1", "record 0: refused 18 BadRuns"),
            ("0,0 65535 1", "record 0: refused 17 TooWide"),
            ("0,65536", "record 0: refused 17 TooWide"),
            ("0,99999", "record 0: refused 17 TooWide"),
            ("0,100\n\n1,100\n7,1\n", "record 2: refused 41 BadLane"),
            ("7,\n0\n", "record 0: refused 41 BadLane"),
            ("0,99999\n7,\n0\n", "record 0: refused 17 TooWide"),
        ]:
            with self.subTest(given):
                self.answers(2, 1, given, wanted)


# The symbols at one dot a module, without their light ends: guard patterns and characters as the
# standards print them.
EAN13 = "111 1231 1123 1222 2221 1123 2221 11111 1231 1411 3211 3211 3211 1411 111"

EAN8 = "111 3112 1114 1411 1213 11111 1231 3211 1312 1132 111"

UPCE = "111 1222 2122 1411 2311 1321 1114 111111"

# 09501101530003: narrow elements 1, wide ones 3.
ITF14 = "1111 1113313311 3111331311 3311111133 1311313113 3313311111 1111333311 1313313111 311"

STOP = "2331112"

# (17)000229 as Code 128, from its start to its check character.
DATE = "211232 411131 123221 212222 222221 322211 124211"


def two_widths(groups: str, narrow: int, wide: int) -> list[int]:
    """An element of this many dots for each digit of the groups: narrow for a 1, otherwise wide."""
    return [narrow if digit == 1 else wide for digit in runs(groups)]


class RowsTest(CommandTest):
    def says(self, row: list[int], answer: str, year: int = 2026) -> None:
        """That a row of widths has this answer under the year, in both directions."""
        for widths in [row, row[::-1]]:
            given = "0," + " ".join(map(str, widths))
            self.gives(f"lanes --lanes 1 --workers 1 --year {year}", given, f"0 0 {answer}\n")

    def code128_says(self, characters: str, answer: str, year: int = 2026) -> None:
        """The same of the Code 128 symbol of these characters, between light ends of ten modules."""
        self.says([10, *runs(f"{characters} {STOP}"), 10], answer, year)

    def test_each_carrier(self) -> None:
        for (left, right), groups, answer in [
            ((11, 7), EAN13, "]E0 (01)09501101530003"),
            ((7, 7), EAN8, "]E4 (01)00000096385074"),
            ((9, 7), UPCE, "]E0 (01)00012345000065"),
            ((10, 10), ITF14, "]I1 (01)09501101530003"),
        ]:
            with self.subTest(answer):
                self.says([left, *runs(groups), right], answer)

    def test_code_128_under_a_year(self) -> None:
        for characters, year, answer in [
            # 43 runs, as an EAN-8 has.
            ("211232 411131 112133 321122 322112 121421", 2026, "]C1 (422)528"),
            # (7003)2601021530 and its check character 101, and a minute 60.
            ("211232 411131 112412 121223 321221 222122 222221 113222 212123 311141", 2026, "]C1 (7003)2601021530"),
            ("211232 411131 112412 121223 321221 222122 222221 113222 314111 232121", 2026, "refused 9 ValueDate 0"),
            # A date under two reference years.
            (DATE, 2026, "]C1 (17)000229"),
            (DATE, 2060, "refused 9 ValueDate 0"),
        ]:
            with self.subTest(answer):
                self.code128_says(characters, answer, year)

    def test_what_is_nearly_read(self) -> None:
        for (left, right), groups, dots, answer in [
            # The number sets of the check digit 4 in place of those of 5.
            ((9, 7), "111 1222 2122 1141 2311 1231 1114 111111", 1, "refused 24 SymbolCheckDigit"),
            # A first character of number set B.
            ((7, 7), "111 2113 1114 1411 1213 11111 1231 3211 1312 1132 111", 1, "refused 23 Pattern"),
            # Too narrow a light end of an EAN-8, which is wide enough for a GS1-128 of as many runs.
            ((14, 21), EAN8, 3, "refused 22 Modules"),
            ((4, 7), EAN13, 1, "refused 21 QuietZone"),
            ((5, 7), EAN13, 1, "]E0 (01)09501101530003"),
        ]:
            with self.subTest(answer):
                self.says([left, *runs(groups, dots), right], answer)

    def test_a_third_of_a_module(self) -> None:
        # At exactly a third of a module, and a dot past it.
        thirds = [21, *runs(EAN8, 3), 21]
        thirds[3:5] = [4, 8]
        self.says(thirds, "]E4 (01)00000096385074")
        halves = [14, *runs(EAN8, 2), 14]
        halves[3:5] = [3, 5]
        self.says(halves, "refused 22 Modules")

    def test_itf14_in_each_ratio(self) -> None:
        for (narrow, wide), end, answer in [
            ((4, 9), 40, "]I1 (01)09501101530003"),
            ((4, 10), 40, "]I1 (01)09501101530003"),
            ((4, 11), 40, "]I1 (01)09501101530003"),
            ((4, 12), 40, "]I1 (01)09501101530003"),
            ((4, 8), 40, "refused 22 Modules"),
            ((1, 2), 10, "refused 22 Modules"),
            ((2, 5), 20, "]I1 (01)09501101530003"),
            ((1, 3), 5, "]I1 (01)09501101530003"),
            ((1, 3), 4, "refused 21 QuietZone"),
        ]:
            with self.subTest(narrow=narrow, wide=wide):
                self.says([end, *two_widths(ITF14, narrow, wide), end], answer)

    def test_wrong_itf14_symbols(self) -> None:
        for groups, answer in [
            # The last pair 04 in place of 03.
            (
                "1111 1113313311 3111331311 3311111133 1311313113 3313311111 1111333311 1111333113 311",
                "refused 24 SymbolCheckDigit",
            ),
            # The last pair with a third wide space, and a start with a wide space.
            ("1111 1113313311 3111331311 3311111133 1311313113 3313311111 1111333311 1313313311 311", "refused 23 Pattern"),
            ("1311 1113313311 3111331311 3311111133 1311313113 3313311111 1111333311 1313313111 311", "refused 23 Pattern"),
        ]:
            with self.subTest(groups):
                self.says([10, *two_widths(groups, 1, 3), 10], answer)
                self.says([40, *two_widths(groups, 4, 12), 40], answer)

    def test_rows_of_no_carrier(self) -> None:
        for width in [0, 100, 65_535]:
            self.says([width], "refused 19 Blank")
        self.says([0, 65_535, 0], "refused 20 RunCount")
        for count, answer in [
            (19, "refused 20 RunCount"),
            (25, "refused 23 Pattern"),
            (57, "refused 20 RunCount"),
            (595, "refused 23 Pattern"),
            (601, "refused 20 RunCount"),
        ]:
            with self.subTest(count=count):
                self.says([100, *(count * [9]), 100], answer)

    def test_code_128_symbols_by_their_values(self) -> None:
        for characters, answer in [
            ("211214 411131 411311 111341", "refused 16 CodeSet"),
            ("211214 411131 114131 411113", "refused 15 FunctionCharacter"),
            ("211232 112232 122231", "refused 14 NotGs1"),
            ("211232 411131 222122", "refused 4 Empty"),
            ("211232 112232 113222", "refused 13 CheckCharacter"),
            ("211232 411131 411131 411131", "refused 5 UnknownAi 0"),
            ("211232 411131 221231 231212 411131 112412", "]C1 (20)11"),
            ("211232 411131 221231 231212 411131 411131 121124", "refused 5 UnknownAi 5"),
        ]:
            with self.subTest(characters):
                self.code128_says(characters, answer)

    def test_the_widest_rows(self) -> None:
        # 65,427 dots, and 65,535 with a wider light end.
        symbol = runs(EAN13, 579)
        self.says([6369, *symbol, 4053], "]E0 (01)09501101530003")
        self.says([6369, *symbol, 4161], "]E0 (01)09501101530003")
        wider = "0," + " ".join(map(str, [6369, *symbol, 4162]))
        self.gives("lanes --lanes 1 --workers 1 --year 2026", wider, "record 0: refused 17 TooWide")

    def test_the_longest_symbol(self) -> None:
        # 595 runs: 98 start, data and check characters.
        zeros = 45 * " 212222"
        characters = f"211232 411131 221231 231212 412121{zeros} 411131 111143{zeros} 111323"
        self.code128_says(characters, f"]C1 (20)11(91){90 * '0'}(92){90 * '0'}")
