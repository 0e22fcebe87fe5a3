"""The photographs of real.tsv that fetch_real has put into a folder, with the number printed under the bars of each."""
from __future__ import annotations

import csv
import hashlib
import os
import sys
from typing import List, NamedTuple, Tuple

TABLE = os.path.join(os.path.dirname(os.path.abspath(__file__)), "real.tsv")


class Real(NamedTuple):
    """A photograph: its path, and the number that is printed on it with 14 digits; empty if nothing is to be read."""

    path: str
    says: str


def photographs(folder: str) -> Tuple[List[Real], int]:
    """The photographs that are there with the sums of the table, and how many are not."""
    found, skipped = [], 0
    with open(TABLE, encoding="utf-8") as table:
        for row in csv.DictReader(table, delimiter="\t"):
            path = os.path.join(folder, row["file"])
            if sum_of(path) == row["sha256"]:
                found.append(Real(path, "" if row["printed"] == "-" else row["printed"].zfill(14)))
            else:
                print(f"skipped: {row['file']} is missing or another picture", file=sys.stderr)
                skipped += 1
    return found, skipped


def sum_of(path: str) -> str:
    """The SHA-256 of a file, and nothing for a file that is not there."""
    if not os.path.exists(path):
        return ""
    with open(path, "rb") as file:
        return hashlib.sha256(file.read()).hexdigest()
