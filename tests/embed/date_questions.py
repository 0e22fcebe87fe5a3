"""Writes questions for `gs1_date`, and the right answers by Python's calendar.

Usage: date_questions.py INTO [elements]. INTO.asked gets lines of a year, a comma and an element as a pair, and INTO.wanted their answers; with
`elements` it leaves out those that must be refused. It asks every reference year about every year of two digits, four years about every month
and day of two digits, and one day about times of 0 to 8 digits. It searches for years and days, and does not compute them.
"""
from __future__ import annotations

import calendar
import functools
import sys
from typing import Iterator

DAYS = ["11", "12", "13", "15", "16", "17"]
# The numbers of digits of an AI's times.
TIMES = {"7003": [4], "8008": [2, 4, 6]}
OTHERS = ["10=261231", "10=17=261231", "21=A", "01=09501101530003", "20=11", "3100=261231", "8005=261231", "90=261231"]
REFUSED = {
    "": "4 Empty",
    "=": "5 UnknownAi 0", "261231": "5 UnknownAi 0", "=261231": "5 UnknownAi 0", "17261231": "5 UnknownAi 0", "1=7261231": "5 UnknownAi 0",
    "172=61231": "5 UnknownAi 0", "14=261231": "5 UnknownAi 0", " 17=261231": "5 UnknownAi 0", "17 =261231": "5 UnknownAi 0",
    "17": "6 ValueLength 0", "17=": "6 ValueLength 0", "17=26123": "6 ValueLength 0", "17=2612310": "6 ValueLength 0", "10=": "6 ValueLength 0",
    "17=26-2-1": "7 ValueCharacter 0", "17= 61231": "7 ValueCharacter 0", "17==61231": "7 ValueCharacter 0", "10=A B": "7 ValueCharacter 0",
    "10=A\x1d17": "7 ValueCharacter 0", "10=A\t17=261231": "7 ValueCharacter 0",
    "01=09501101530004": "8 ValueCheckDigit 0",
    "10=" + 189 * "1": "6 ValueLength 0", "10=" + 190 * "1": "11 TooLong", 193 * "1": "11 TooLong",
}


@functools.cache
def year_of(digits: str, reference: int) -> int:
    """The one year with these last two digits from 49 before the reference year to 50 after it."""
    year, = [year for year in range(reference - 49, reference + 51) if f"{year:04}"[2:] == digits]
    return year


@functools.cache
def day_of(six: str, reference: int, with_last: bool) -> str | None:
    """The day that six digits name, if they name one. Day 00 is the last of its month, if the AI allows it."""
    year = year_of(six[:2], reference)
    if not "01" <= six[2:4] <= "12":
        return None
    days = [f"{day:02}" for week in calendar.monthcalendar(year, int(six[2:4])) for day in week if day]
    day = days[-1] if with_last and six[4:] == "00" else six[4:]
    return f"{year}-{six[2:4]}-{day}" if day in days else None


def time_of(digits: str) -> str | None:
    """The time that two, four or six digits name, if they name one."""
    parts = [digits[at:at + 2] for at in range(0, len(digits), 2)]
    if any(part not in [f"{number:02}" for number in range(most)] for part, most in zip(parts, (24, 60, 60))):
        return None
    return ":".join(parts + ["00"] * (3 - len(parts)))


def answer(ai: str, value: str, reference: int) -> str:
    if ai in DAYS:
        day = day_of(value, reference, True)
        return "refused 9 ValueDate 0" if day is None else f"date {day}"
    if len(value) - 6 not in TIMES[ai]:
        return "refused 6 ValueLength 0"
    day, time = day_of(value[:6], reference, False), time_of(value[6:])
    return "refused 9 ValueDate 0" if day is None or time is None else f"date {day} {time}"


def questions() -> Iterator[tuple[int, str, str]]:
    """Each question: a reference year, a pair and its answer."""
    asked = []
    for reference in range(1951, 2150):
        for year in range(100):
            for rest in ("1231", ("0229", "0200")[(reference + year // 7) % 2]):
                asked.append((reference, DAYS[(reference + year) % len(DAYS)], f"{year:02}{rest}"))
    for reference, two in ((2026, "26"), (2026, "28"), (2000, "00"), (2100, "00")):
        for month in range(100):
            for day in range(100):
                asked.append((reference, DAYS[(month + day) % len(DAYS)], f"{two}{month:02}{day:02}"))
        for ai, month, day in ((ai, month, day) for ai in DAYS + [*TIMES] for month in range(14) for day in range(34)):
            asked.append((reference, ai, f"{two}{month:02}{day:02}" + "235958"[:max(TIMES.get(ai, [0]))]))
    for ai in TIMES:
        for digits in range(9):
            asked.append((2026, ai, "261231" + "1203040506"[:digits]))
        for number in range(100):
            for time in (f"{number:02}", f"{number:02}59", f"23{number:02}", f"{number:02}5959", f"23{number:02}00", f"0000{number:02}"):
                asked.append((2026, ai, "240229" + time))
    for reference, ai, value in asked:
        yield reference, f"{ai}={value}", answer(ai, value, reference)
    for reference in (1951, 2026, 2149):
        for pair in OTHERS:
            yield reference, pair, "none"
        for pair, fault in REFUSED.items():
            yield reference, pair, f"refused {fault}"
    for reference in (0, 1950, 2150, 65_535):
        for pair in ("17=261231", ""):
            yield reference, pair, "refused 42 Words"


into, only = sys.argv[1], sys.argv[2:]
with open(f"{into}.asked", "w", encoding="ascii") as questions_file, open(f"{into}.wanted", "w", encoding="ascii") as wanted:
    for reference, pair, line in questions():
        if not (only and line.startswith("refused")):
            questions_file.write(f"{reference},{pair}\n")
            wanted.write(line + "\n")
