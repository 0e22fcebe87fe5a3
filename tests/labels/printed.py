"""Runs `noriladle` in this process, and reads back from its SVG files what stands on each label.

It uses no part of noriladle that lays labels out.
"""
from __future__ import annotations

import contextlib
import glob
import io
import os
import re
import xml.etree.ElementTree
from typing import Iterable

# The commands speak the language of the machine; these tests read English.
os.environ.update({"LC_ALL": "C.UTF-8", "LANGUAGE": "en"})
from noriladle.__main__ import main as noriladle  # noqa: E402  (the language first)

CURRENCIES = re.compile(r"\b(EUR|CHF|GBP|USD|PLN|SEK|DKK|CZK|zł|kr|Kč)\b")
SVG = "{http://www.w3.org/2000/svg}"
STOCK = "2x5:99x57"  # Labels on which every name and price of these tests fits.


class Label:
    """What stands on one label: the digits under its bars, its other texts from the top, and those that are struck out."""

    def __init__(self, group: xml.etree.ElementTree.Element) -> None:
        texts = [*group.iter(f"{SVG}text")]
        lines: dict[int, list[str]] = {}
        self.struck = ["".join(text.itertext()) for text in texts if text.get("class") == "struck"]
        for text in [it for it in texts if it.get("class") != "struck"]:
            lines.setdefault(round(float(text.get("y"))), []).append("".join(text.itertext()))
        rows = [
            "".join(parts) if all(re.fullmatch(r"[\d ]+", part) for part in parts) else " ".join(parts)
            for parts in lines.values()
        ]
        digits = [row for row in rows if re.fullmatch(r"[\d ]{8,}", row)]
        self.number = max(digits, key=len, default="").replace(" ", "")
        self.texts = [re.sub(r"\s", " ", row) for row in rows if row not in digits]

    @property
    def text(self) -> str:
        return " ".join([*self.texts, *self.struck])

    def prices(self, *others: str) -> list[int | None]:
        """The cents of each text that is an amount alone, once these other texts are taken out.

        They are None for an amount without its two decimals.
        """
        found = []
        for row in self.texts:
            for other in sorted(others, key=len, reverse=True):
                row = row.replace(other, " ")
            if re.search(r"\d", row) and not re.search(r"[^\W\d]|[=/%:]", CURRENCIES.sub("", row)):
                found.append(cents_on_label(row))
        return found


class Run:
    """One run of the command: its status, the lines that it wrote for a person, and its labels."""

    def __init__(self, status: int | str | None, said: list[str], labels: list[Label]) -> None:
        self.status, self.said, self.labels = status, said, labels

    def names(self, headings: Iterable[str]) -> set[str]:
        """The headings that stand in what was said, each as a whole; a heading inside a longer one does not count."""
        rest, found = "\n".join(self.said), set()
        for heading in sorted(set(headings), key=len, reverse=True):
            pattern = rf"(?<![\w]){re.escape(heading.strip())}(?![\w])"
            if heading.strip() and re.search(pattern, rest):
                found.add(heading)
                rest = re.sub(pattern, "\0", rest)
        return found


def run(words: list[str], work: str) -> Run:
    """Runs noriladle with these words; SVG files stand in `work`."""
    for path in glob.glob(os.path.join(work, "labels*.svg")):
        os.remove(path)
    status: int | str | None
    out, err = io.StringIO(), io.StringIO()
    with contextlib.redirect_stdout(out), contextlib.redirect_stderr(err):
        try:
            status = noriladle(words)
        except SystemExit as left:
            status = left.code
    pages = sorted(glob.glob(os.path.join(work, "labels*.svg")), key=lambda path: (len(path), path))
    groups = [group for page in pages for group in xml.etree.ElementTree.parse(page).iter(f"{SVG}g")]
    return Run(status, err.getvalue().splitlines(), [Label(group) for group in groups])


def labels_of(path: str, work: str, *options: str) -> Run:
    """Makes the labels of a list. The list's own path is cut from what is said, since it may hold a heading's word."""
    done = run(
        ["labels", path, "-o", os.path.join(work, "labels.svg"), "--stock", STOCK, "--year", "2026", *options], work
    )
    done.said = [line.replace(path, "LIST") for line in done.said]
    return done


def cents_in_cell(text: str, decimals: str) -> int | None:
    """The cents that a list's cell says, or nothing. `decimals` is the list's decimal sign, or `cents`."""
    found = re.search(r"\d[\d.,' \u00a0\u202f]*", text)
    if not found:
        return None
    digits = re.sub(r"[' \u00a0\u202f]", "", found[0]).rstrip(".,")
    if decimals == "cents":
        return int(digits)
    whole, _, part = digits.replace("," if decimals == "." else ".", "").partition(decimals)
    return int(whole) * 100 + int(part.ljust(2, "0")) if len(part) <= 2 else None


def cents_on_label(text: str) -> int | None:
    """The cents that a label's price says, which must have two decimals; or nothing."""
    amount = re.search(r"(?<![\d.,-])(\d[\d.,' ]*)[.,](\d\d)(?![\d.,])", text)
    return int(re.sub(r"\D", "", amount[1])) * 100 + int(amount[2]) if amount else None
