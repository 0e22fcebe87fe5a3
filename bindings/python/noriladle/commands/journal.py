"""Print and check the journal of a gateway: each scan and its answer

Each line has the time of the scan, its lane and number, its text, and its answer, with tabs between. Then the counts follow
on standard error. The status is 1 if a record was changed, is missing or is there twice, and a line says which. A gateway
may write the journal meanwhile.

  $ noriladle journal /var/lib/noriladle/journal --lane till-1
"""
from __future__ import annotations

import argparse
import datetime
import json
from pathlib import Path
from typing import Dict

from .._journal import Check, Record
from . import REFUSED, RIGHT, WrongWords, tell


def add_arguments(parser: argparse.ArgumentParser) -> None:
    """Adds the arguments of ``noriladle journal``."""
    parser.add_argument("folder", metavar="DIR", help="The folder that noriladle gateway --journal names")
    parser.add_argument("--lane", metavar="NAME", help="Print this lane alone")
    parser.add_argument("--check", action="store_true", help="Print no record: only check them all, and print the counts")
    parser.add_argument("--json", action="store_true", help="Print records as JSON objects")


def run(words: argparse.Namespace) -> int:
    """Prints the records, and what is wrong with them."""
    folder = Path(words.folder)
    try:
        check = Check(folder)
    except OSError as fault:
        raise WrongWords(f"{folder}: {fault.strerror}") from fault
    if not check.files:
        raise WrongWords(f"{folder}: there is no journal")
    count = 0
    for record in check:
        count += 1
        if not words.check and words.lane in (None, record.lane):
            print(json.dumps(_named(record)) if words.json else "\t".join(map(str, _named(record).values())))
    for said in [*check.notes, *check.faults]:
        tell(said)
    tell(f"{count} records in {len(check.files)} files, {len(check.faults)} faults")
    return REFUSED if check.faults else RIGHT


def _named(record: Record) -> Dict[str, str]:
    """The fields of a record that a person reads, by their names."""
    time = datetime.datetime.fromtimestamp(record.at, datetime.timezone.utc).isoformat(timespec="milliseconds").replace("+00:00", "Z")
    return {"time": time, "lane": record.lane, "number": record.scan, "text": record.text, "answer": record.said}
