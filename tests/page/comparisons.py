"""Counts the comparisons of the page's tests and the wrong ones, and helps them to measure time."""
from __future__ import annotations

import contextlib
import json
import os
import sys
from typing import Any, Iterator

counts = {"compared": 0, "wrong": 0}


def same(what: str, got: object, wanted: object) -> None:
    counts["compared"] += 1
    if got != wanted:
        counts["wrong"] += 1
        print(f"wrong: {what}: {str(got)[:400]}, not {str(wanted)[:400]}", file=sys.stderr, flush=True)


def ended() -> bool:
    """Prints the counts, and returns the status."""
    print(f"{counts['compared']} compared, {counts['wrong']} wrong")
    return counts["wrong"] != 0 or not counts["compared"]


@contextlib.contextmanager
def before_others() -> Iterator[float]:
    """Gives what starts here priority over other work of the machine, if it may; otherwise returns by how much limits must grow."""
    try:
        os.sched_setscheduler(0, os.SCHED_RR, os.sched_param(1))
        yield 1
    except PermissionError:
        yield max(1, os.getloadavg()[0] / os.cpu_count())
    finally:
        os.sched_setscheduler(0, os.SCHED_OTHER, os.sched_param(0))


def texts() -> dict[str, Any]:
    """The page's texts by language, as the repository has them."""
    folder = os.path.join(os.path.dirname(os.path.dirname(os.path.dirname(os.path.abspath(__file__)))), "tables", "shop")
    found = {}
    for name in sorted(os.listdir(folder)):
        if len(name) == 7:
            with open(os.path.join(folder, name), encoding="utf-8") as file:
                found[name[:2]] = json.load(file)
    return found
