"""Days and times in element strings: each day of a year, each time of a day, and the years that two digits name."""

from __future__ import annotations

from program import CommandTest

# The days of the months of a year with 29 February and of one without.
LEAP = [31, 29, 31, 30, 31, 30, 31, 31, 30, 31, 30, 31]
COMMON = [31, 28, 31, 30, 31, 30, 31, 31, 30, 31, 30, 31]

FOUR_DIGITS = [f"{number:04}" for number in range(10_000)]
TWO_DIGITS = [f"{number:02}" for number in range(100)]


def is_day(months: list[int], digits: str, last_is_00: bool) -> bool:
    """Whether four digits, MMDD, are a day of the year with these months."""
    month, day = int(digits[:2]), int(digits[2:])
    return 1 <= month <= 12 and (day == 0 and last_is_00 or 1 <= day <= months[month - 1])


class DatesTest(CommandTest):
    def has_dates(self, cases: list[tuple[str, str, bool]], year: int = 2026) -> None:
        """That elements, each its AI and its value, are taken, or refused by their date."""
        self.gives_lines(f"check --year {year}", [
            (f"text,{ai}{value}", f"hri ({ai}){value}" if taken else "refused 9 ValueDate 0")
            for ai, value, taken in cases
        ])

    def test_each_day_of_a_year(self) -> None:
        for months, year in [(LEAP, "24"), (COMMON, "25")]:
            self.has_dates([("17", year + digits, is_day(months, digits, True)) for digits in FOUR_DIGITS])

    def test_each_day_with_a_time(self) -> None:
        for months, year in [(LEAP, "24"), (COMMON, "25")]:
            days = [(year + digits, is_day(months, digits, False)) for digits in FOUR_DIGITS]
            self.has_dates([("7003", f"{day}0000", taken) for day, taken in days])
            self.has_dates([("8008", f"{day}00", taken) for day, taken in days])

    def test_each_time(self) -> None:
        hours = [int(it) < 24 for it in TWO_DIGITS]
        sixty = [int(it) < 60 for it in TWO_DIGITS]
        times = [(it, hours[int(it[:2])] and sixty[int(it[2:])]) for it in FOUR_DIGITS]
        self.has_dates([("7003", f"260102{time}", taken) for time, taken in times])
        self.has_dates([("8008", f"260102{time}", taken) for time, taken in times])
        self.has_dates([("8008", f"260102{hour}", taken) for hour, taken in zip(TWO_DIGITS, hours)])
        self.has_dates([("8008", f"2601021530{second}", taken) for second, taken in zip(TWO_DIGITS, sixty)])
        self.has_dates([("8008", f"260102{it}", False) for it in ["240000", "156000", "155960", "995959", "159959"]])

    def test_each_identifier_of_a_date(self) -> None:
        self.has_dates([
            (ai, value, taken)
            for ai in ["11", "12", "13", "15", "16", "17"]
            for value, taken in [
                ("261231", True),
                ("261200", True),
                ("260200", True),
                ("240229", True),
                ("250229", False),
                ("240230", False),
                ("260431", False),
                ("260132", False),
                ("260001", False),
                ("261301", False),
                ("260000", False),
            ]
        ])

    def test_other_digits_are_no_dates(self) -> None:
        self.has_dates([("3100", "261301", True), ("8005", "250229", True), ("10", "261301", True), ("20", "00", True)])

    def test_29_february_by_the_year(self) -> None:
        # The year 00 is 2000, which has the day, or 2100, which has not. Each other year has it where 4 divides it.
        for year, taken in [
            (1951, True),
            (1999, True),
            (2000, True),
            (2026, True),
            (2049, True),
            (2050, False),
            (2051, False),
            (2080, False),
            (2099, False),
            (2100, False),
            (2149, False),
        ]:
            with self.subTest(year):
                self.has_dates([("17", "000229", taken), ("7003", "0002291530", taken), ("8008", "00022915", taken)], year)
                self.has_dates([("17", f"{it}0229", int(it) % 4 == 0) for it in TWO_DIGITS[1:]], year)
