"""Writes the numbers of spreadsheets in full, whatever their format shows, with what the format adds: zeros in front,
decimals, and a currency."""
from __future__ import annotations

import datetime
import re
from decimal import Decimal
from typing import NamedTuple

from ._shop import localized

_USUAL = {1: "0", 2: "0.00", 3: "#,##0", 9: "0%", 10: "0.00%", **dict.fromkeys((4, 39, 40, 43, 44), "#,##0.00")}
"""Excel's own formats of numbers."""
_DATES = {*range(14, 23), *range(27, 37), *range(45, 48), *range(50, 59)}
_MOST_DIGITS = 15
"""How many digits a spreadsheet's number has."""
_LONG = 10_000_000
"""A whole number from here on is no price."""


class Format(NamedTuple):
    """What a format does to a number."""

    digits: int = 0
    """At least this many digits before the point."""
    decimals: int = 0
    is_grouped: bool = False
    is_percent: bool = False
    is_date: bool = False
    before: str = ""
    after: str = ""


def format_of(number: int, code: str) -> Format:
    """The format of Excel's number for it, or of its code."""
    code = code or _USUAL.get(number, "")
    plain = re.sub(r"\[\$([^]-]*)[^]]*\]", r'"\1"', code.split(";")[0])
    bare = re.sub(r'"[^"]*"|\\.|_.|\*.|\[[^]]*\]', "", plain)
    if number in _DATES or re.search("[ymdhs]", bare.replace("General", ""), re.IGNORECASE):
        return Format(is_date=True)
    shown = re.search(r"[0#?][0#?,]*(?:\.([0#?]+))?", bare)
    if not shown or "E" in bare.upper().replace("GENERAL", ""):
        return Format()
    first, _, last = re.sub(r"[0#?][0#?,.]*", "\0", re.sub(r'_.|\*.', " ", plain)).partition("\0")
    before, after = (re.sub(r'\\(.)|"([^"]*)"|\[[^]]*\]', r"\1\2", it).replace("\0", "") for it in (first, last))
    zeros = len(re.sub("[^0]", "", shown[0].partition(".")[0]))
    return Format(zeros if zeros > 1 else 0, len(shown[1] or ""), "," in shown[0], "%" in bare, False,
                  before if before.strip() else "", after.rstrip() if after.strip() else "")


def written(text: str, form: Format = Format()) -> str:
    """A number as a person would write it: as the format shows it if that is all of it, or else in full."""
    value = Decimal(text)
    if not value.is_finite() or value.adjusted() > 20:
        return text
    if form.is_date:
        return _date(value)
    value = Decimal(in_full(value)) * (100 if form.is_percent else 1)
    is_whole = value == value.to_integral_value()
    if is_whole and abs(value) >= _LONG or form.digits > 1 and is_whole and not form.decimals:
        return f"{int(value):0{form.digits or 1}d}"
    if value == round(value, form.decimals) and form.decimals:
        shown = f"{value:{',' if form.is_grouped else ''}.{form.decimals}f}"
    else:
        shown = in_full(value)
    return f"{form.before}{localized(shown)}{form.after}"


def in_full(value: Decimal) -> str:
    """All digits of a number, without what a binary number cannot hold exactly, as in 2.9000000000000004."""
    if value == value.to_integral_value():
        return f"{int(value)}"
    shown = f"{value.normalize():f}"
    if len(re.sub(r"\D", "", shown).lstrip("0")) <= _MOST_DIGITS:
        return shown
    return f"{Decimal(f'{float(value):.{_MOST_DIGITS}g}'):f}"


def _date(value: Decimal) -> str:
    """The date of a number of days, with a time if it has one."""
    if not 0 <= value < 2_958_466:
        return in_full(value)
    seconds = round((value % 1) * 86_400)
    moment = datetime.datetime(1899, 12, 30) + datetime.timedelta(int(value), seconds)
    return moment.isoformat(" ") if seconds else moment.date().isoformat()
