"""Works out the labels that the lists of this folder ask for, without any part of noriladle."""
from __future__ import annotations

import csv
import re


def gtin12(upce: str) -> str:
    """The GTIN-12 of the eight digits of a UPC-E (GS1 General Specifications, figure 5.2.2.4-1)."""
    d, last = upce[1:7], int(upce[6])
    if last <= 2:
        body = d[:2] + d[5] + "0000" + d[2:5]
    elif last == 3:
        body = d[:3] + "00000" + d[3:5]
    elif last == 4:
        body = d[:4] + "00000" + d[4]
    else:
        body = d[:5] + "0000" + d[5]
    return "0" + body + upce[7]


class Label:
    """A wanted label: its kind, a reader's answer, the digits under its bars, its name and its price."""

    def __init__(self, row: dict[str, str]) -> None:
        number, elements = re.sub(r"[ -]", "", row.get("ean") or ""), row.get("gs1") or ""
        self.name, self.price = row.get("name") or "", row.get("price") or ""
        self.lines = [row[key] for key in row if key and key.startswith("line") and row[key]]
        kind = row.get("kind")
        if number.startswith("]E0"):
            number, kind = number[3:], "upce"
        self.kind = "gs1128" if elements else kind or {8: "ean8", 12: "upca", 13: "ean13", 14: "itf14"}[len(number)]
        if self.kind == "gs1128":
            self.says, self.digits = elements_of(elements)
        elif self.kind == "upce":
            self.says = (gtin12(number) if len(number) == 8 else number).zfill(14)
            self.digits = number if len(number) == 8 else None
        else:
            self.says, self.digits = number.zfill(14), number.zfill(14) if self.kind == "itf14" else number
        self.copies = int(row.get("copies") or 1)


# The values of these Application Identifiers have a predefined length (GS1 General Specifications, 7.8.5).
FIXED = {"00": 18, "01": 14, "02": 14, "17": 6, "3103": 6}


def elements_of(text: str) -> tuple[str, str]:
    """An element string without separators, and in the form for people."""
    if text[0] == "^":
        rest = text[1:].replace("^", "")
        pairs: list[tuple[str, str]] = []
        for ai in ("01", "3103", "17"):  # The one such text of cases.csv.
            value = rest[len(ai):len(ai) + FIXED[ai]]
            assert rest.startswith(ai), text
            pairs, rest = pairs + [(ai, value)], rest[len(ai) + FIXED[ai]:]
    elif text[0] == "[":
        pairs = re.findall(r"\[(\d+)\]([^[]+)", text)
    else:
        pairs = re.findall(r"\((\d+)\)([^(]+)", text)
    return "".join(ai + value for ai, value in pairs), "".join(f"({ai}){value}" for ai, value in pairs)


def labels_of(path: str) -> list[Label]:
    """The labels of a list, with all copies."""
    with open(path, encoding="utf-8") as file:
        rows = [Label(row) for row in csv.DictReader(file, delimiter=";")]
    return [label for label in rows for _ in range(label.copies)]
