"""Asks the library (from C, Python and Node), zbarimg and ZXingReader what pictures show, and prints what each reads.

Usage: compare_readers.py LINES PACKAGE WORK KEPT [--look] [GROUP...]. LINES is the program of picture_lines.c, PACKAGE
the npm package, WORK a folder for the pictures, and KEPT the folder of what was fetched. With --look it takes those
pictures that come from a seed, from the seed to look at. With --look or groups it tests no limit. Its last lines are
the limits, each with what was seen.
"""
from __future__ import annotations

import concurrent.futures
import os
import sys
import time
from concurrent.futures import Executor
from typing import Iterable, Iterator, Sequence

HERE = os.path.dirname(os.path.abspath(__file__))
sys.path[:0] = [os.path.join(HERE, "..", "page"), os.path.join(HERE, "..", "..", "bindings", "python")]
import broken
import hard_pictures
import pictures
import sets
from library import Library, line_of, says
from noriladle import picture
from other_readers import OTHERS, Reader, newest

READERS = ("library", *OTHERS)
SLOWEST = 0.6
"""How many seconds of processor time a picture of 12 megapixels may take, beside other work."""


class Count:
    """How many symbols each reader reads, and in how many pictures it reads something else."""

    def __init__(self) -> None:
        self.symbols, self.right, self.wrong = 0, dict.fromkeys(READERS, 0), dict.fromkeys(READERS, 0)

    def add(self, other: Count) -> None:
        self.symbols += other.symbols
        for reader in READERS:
            self.right[reader] += other.right[reader]
            self.wrong[reader] += other.wrong[reader]

    def note(self, reader: str, wanted: Sequence[str], got: Sequence[str]) -> None:
        left = list(wanted)
        for read in got:
            if read in left:
                left.remove(read)
        self.right[reader] += len(wanted) - len(left)
        self.wrong[reader] += any(read not in wanted for read in got)

    def cells(self) -> list[str]:
        """What each reader read, and in brackets in how many pictures it read something else."""
        return [f"{self.right[reader]}{f' ({self.wrong[reader]})' if self.wrong[reader] else ''}" for reader in READERS]


class Comparison:
    """The library beside the other readers, with what they read by group and by set of groups."""

    def __init__(self, sources: sets.Sources, library: Library, others: dict[str, Reader], pool: Executor) -> None:
        self.sources, self.library, self.others, self.pool = sources, library, others, pool
        self.by_group: dict[str, Count] = {}
        self.by_set: dict[str, Count] = {}

    def read(self, made: sets.Made) -> Count:
        """What all readers read of pictures, each given by its symbols and its path."""
        count = Count()
        wanted, paths = [[symbol.says for symbol in symbols] for symbols, _ in made], [path for _, path in made]
        count.symbols = sum(map(len, wanted))
        for path, want, symbols in zip(paths, wanted, self.library.read(paths)):
            got = list(map(says, symbols))
            count.note("library", want, got)
            if any(it not in want for it in got):
                print(f"wrong: {os.path.basename(path)}: {got}, not {want}", file=sys.stderr)
        for reader, ask in self.others.items():
            for want, got in zip(wanted, self.pool.map(ask, paths)):
                count.note(reader, want, got)
        return count

    def table(self, groups: Iterable[sets.Group]) -> None:
        """Prints a row for each group and each set of groups."""
        row = "| {:58} | {:>7} | {:>11} | {:>11} | {:>11} | {:>5} |"
        print(row.format("group: read (pictures with something else read)", "symbols", *READERS, "ms"))
        print("|---|---|---|---|---|---|")
        for name, of, make in groups:
            before, asked = self.library.passed, self.library.asked
            made = make()
            self.by_group[name] = count = self.read(made)
            self.by_set.setdefault(of, Count()).add(count)
            spent = 1000 * (self.library.passed - before) / max(1, self.library.asked - asked)
            print(row.format(name, count.symbols, *count.cells(), f"{spent:.1f}"), flush=True)
            self.sources.remove([path for _, path in made])
        for of, count in self.by_set.items():
            print(row.format(f"all {of}", count.symbols, *count.cells(), ""))

    def without(self) -> dict[str, tuple[int, int]]:
        """How many pictures without a symbol there are in each set, and in how many of them the library finds one."""
        none = {}
        for of, make in self.sources.without():
            paths, found = make(), 0
            for path, got in zip(paths, self.library.read(paths)):
                if got:
                    found += 1
                    lines = list(map(line_of, got))
                    print(f"wrong: {os.path.basename(path)}: {lines}, which is no symbol", file=sys.stderr)
            none[of] = len(paths), found
            self.sources.remove(paths)
        return none


def slowest() -> tuple[float, str]:
    """The longest that a picture made to be slow takes, in seconds of processor time, and its name."""
    longest = (0.0, "")
    for name, grey in hard_pictures.slow():
        begun = time.process_time()
        picture.read(grey, 2026)
        longest = max(longest, (time.process_time() - begun, name))
    return longest


def limits(seen: Comparison, none: dict[str, tuple[int, int]],
           slow: tuple[float, str]) -> Iterator[tuple[str, object, bool]]:
    """Each limit, what was seen, and whether it holds."""
    for of, count in seen.by_set.items():
        right, least = count.right["library"], sets.LEAST[of]
        enough = 100 * right >= least * count.symbols
        yield f"{of}, read, at least {least} of 100", f"{right} of {count.symbols}", enough
        for reader in OTHERS:
            more = right > count.right[reader] or least == 100 and right == count.symbols
            yield f"{of}, more than {reader}, or all", f"{right}, {count.right[reader]}", more
        yield f"{of}, pictures with something else read, none", count.wrong["library"], count.wrong["library"] == 0
    fewer = [name for name, count in seen.by_group.items()
             if name not in hard_pictures.NOT_HELD and count.right["library"] < max(count.right.values())]
    yield "groups in which another reads more, none but light zones", ", ".join(fewer) or 0, not fewer
    for of, (many, found) in none.items():
        yield f"{of}, symbols found in {many}, none", found, found == 0
    yield f"the slowest of 12 million dots, at most {SLOWEST} s", f"{slow[0]:.2f} ({slow[1]})", slow[0] <= SLOWEST
    rows = [broken.modules_of(symbol) for symbol in seen.sources.symbols]
    found = sum(broken.whole(row) and broken.whole(row[::-1]) for row in rows)
    search = "whole symbols of zint's that the search in broken ones finds, all"
    yield search, f"{found} of {len(rows)}", found == len(rows)
    library = seen.library
    alike = library.differing == 0 and library.asked > 8200
    yield f"of {library.asked} pictures Python, C and Node answer alike, of all", "all" if alike else "not all", alike


def main() -> int:
    program, package, work, kept, *names = sys.argv[1:]
    look = "--look" in names
    names = [name for name in names if name != "--look"]
    sources = sets.Sources(pictures.symbols(work), work, kept, look)
    with concurrent.futures.ThreadPoolExecutor(2) as pool:
        seen = Comparison(sources, Library(program, package), newest(os.path.join(kept, "sid")), pool)
        seen.table([one for one in sources.groups() if not names or one[0] in names])
        if names:
            return 0
        none = seen.without()
    if look:
        print(*(f"{of}: {found} of {count} with a symbol found" for of, (count, found) in none.items()), sep="\n")
        return 0
    kept_limits = missed = 0
    for asked, got, holds in limits(seen, none, slowest()):
        kept_limits, missed = kept_limits + holds, missed + (not holds)
        print(f"{'holds' if holds else 'MISSED'}: {asked}: {got}")
    counts = f"{kept_limits} limits hold, {missed} do not, {sources.skipped} pictures skipped"
    print(f"{seen.library.asked} pictures read, {counts}")
    return 1 if missed else 0


if __name__ == "__main__":
    sys.exit(main())
