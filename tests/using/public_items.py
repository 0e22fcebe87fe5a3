"""Compares the public items of the libraries with the list in items.txt beside this file.

Usage: public_items.py ROOT. Items are what a crate's src/lib.rt exports by `pub use`, and each `pub fn` of a type among these, as
`Type::call`. In items.txt they follow their crate and a colon.
"""
from __future__ import annotations

import collections
import glob
import re
import sys
from typing import Counter, Iterator

def passed_on(crate: str) -> Iterator[str]:
    """What src/lib.rt exports."""
    with open(f"{crate}/src/lib.rt", encoding="utf-8") as it:
        used = re.findall(r"^pub use ([^;]*);", it.read(), re.MULTILINE)
    for path in used:
        names = path[path.index("{") + 1 : path.index("}")].split(",") if "{" in path else [path.rsplit("::", 1)[1]]
        yield from (name.strip() for name in names if name.strip())


def calls(crate: str) -> Iterator[str]:
    """The public calls of each type, as `Type::call`."""
    for file in glob.glob(f"{crate}/src/**/*.rt", recursive=True):
        with open(file, encoding="utf-8") as it:
            lines = it.read().split("\n")
        owner = None
        for line in lines:
            block = re.match(r"impl(?:<[^{]*>)? (\w+)(?:<[^{]*>)? \{$", line)
            if block:
                owner = block[1]
            elif line == "}":
                owner = None
            call = re.match(r"    pub (?:const )?fn (\w+)", line)
            if owner and call:
                yield f"{owner}::{call[1]}"


def items_of(crate: str) -> set[str]:
    """All public items of a crate."""
    names = set(passed_on(crate))
    return names | {it for it in calls(crate) if it.split("::")[0] in names}


def listed(text: str) -> Counter[tuple[str, str]]:
    """The items that the list has, each with its crate, and how often."""
    found = re.findall(r"^(\w+): ((?:.*\n)(?:    .*\n)*)", text, re.MULTILINE)
    return collections.Counter((crate, item) for crate, names in found for item in names.split())


def main() -> None:
    root = sys.argv[1]
    with open(f"{root}/tests/using/items.txt", encoding="utf-8") as it:
        counts = listed(it.read())
    crates = sorted({crate for crate, _ in counts})
    there = {(crate, item) for crate in crates for item in items_of(f"{root}/crates/{crate}")}
    differ = sorted(there ^ counts.keys() | {it for it, count in counts.items() if count > 1})
    for crate, item in differ:
        how = "listed twice" if counts.get((crate, item), 0) > 1 else "not listed" if (crate, item) in there else "not there"
        print(f"tests/using/items.txt: {crate}::{item} is {how}", file=sys.stderr)
    print(f"public items: {len(there)} of {len(crates)} libraries, {len(differ)} differ")
    sys.exit(0 if there and not differ else 1)


main()
