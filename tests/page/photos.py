"""Lets the page, zbarimg and ZXingReader read the same pictures, prints how many of each group they read, and asserts the limits. For each
picture the page must give Python's answer, byte for byte.

Usage: photos.py WORK [GROUP...]. WORK is a folder for the pictures. With groups it reads only these, and asserts no limit.
Its last lines are the limits, each with what was seen, and their counts.
"""
from __future__ import annotations

import concurrent.futures
import json
import os
import sys
from concurrent.futures import Executor
from typing import Iterator, Sequence

import pictures
from browser import Browser

ROOT = os.path.dirname(os.path.dirname(os.path.dirname(os.path.abspath(__file__))))
sys.path[:0] = [os.path.join(ROOT, "bindings", "python"), os.path.join(ROOT, "tests", "pictures")]
from noriladle import picture
from library import lines_of
from other_readers import OTHERS

READERS = ("page", *OTHERS)
ALL_READ = ("mild photograph", "upright, turned by 90 degrees", "upright, turned by 270 degrees", "1.2 dots a module")
WITHOUT = 1000


class Page:
    """The page in a browser, asked of files."""

    def __init__(self) -> None:
        self.browser = Browser(f"file://{ROOT}/page/index.html")
        self.browser.value("globalThis.chosen = document.createElement('input'), chosen.type = 'file', chosen.multiple = true, 0")
        self.asked = self.differing = 0

    def symbols(self, paths: Sequence[str]) -> tuple[list[list[str]], float]:
        """What each symbol of each of the pictures says; and the milliseconds that all took."""
        node = self.browser.call("Runtime.evaluate", expression="chosen")["result"]["objectId"]
        self.browser.call("DOM.setFileInputFiles", files=[os.path.abspath(path) for path in paths], objectId=node)
        told = json.loads(self.browser.value("""(async () => {
            const found = [];
            let passed = 0;
            for (const file of chosen.files) {
                const taken = await pictureOf(file), from = performance.now();
                found.push(gs1.picture(taken, 0, Gs1.everyAi | 2026));
                passed += performance.now() - from;
            }
            return JSON.stringify({ found, passed });
        })()"""))
        for path, lines in zip(paths, told["found"]):
            self.asked += 1
            wanted = lines_of(picture.read(picture.grey_of(path), 2026))
            if lines.rstrip("\n") != wanted:
                self.differing += 1
                print(f"differs: {os.path.basename(path)}: page {lines!r}, Python {wanted!r}", file=sys.stderr)
        return [said_in(lines) for lines in told["found"]], told["passed"]


def said_in(lines: str) -> list[str]:
    """What each symbol of a picture says, in the words of pictures.Symbol.line: behind its eight places and its rows stand identifier and pairs."""
    said = [line.split(" ", 10)[9:] for line in lines.splitlines() if line.count(" ") > 9]
    return [f"{identifier} " + "".join(f"({ai}){value}" for ai, _, value in (it.partition("=") for it in pairs.split("\t"))) for identifier, pairs in said]


def compare(page: Page, name: str, symbols: list[pictures.Symbol], work: str, pool: Executor) -> tuple[int, dict[str, int], dict[str, int], float]:
    """How many pictures of a group each reader reads, and in how many it reads something else; the milliseconds of the page."""
    made = pictures.group(name, symbols, work)
    found, passed = page.symbols([path for _, path in made])
    right, wrong = dict.fromkeys(READERS, 0), dict.fromkeys(READERS, 0)

    def note(reader: str, wanted: str, got: Sequence[str]) -> None:
        right[reader] += wanted in got
        wrong[reader] += any(read != wanted for read in got)

    for (symbol, path), lines in zip(made, found):
        note("page", symbol.line, lines)
        if any(line != symbol.line for line in lines):
            print(f"wrong: {os.path.basename(path)}: {lines}, not {symbol.line}", file=sys.stderr)
    for reader, ask in OTHERS.items():
        for (symbol, _), got in zip(made, pool.map(lambda pair: ask(pair[1]), made)):
            note(reader, symbol.says, got)
    for _, path in made:
        os.remove(path)
    return len(made), right, wrong, passed


def table(page: Page, names: Sequence[str], symbols: list[pictures.Symbol],
          work: str) -> tuple[int, dict[str, int], dict[str, int], dict[str, tuple[int, int]]]:
    """Prints a row for each group and one for all; the counts of all, and of the page by group."""
    row = "| {:36} | {:>8} | {:>5} | {:>7} | {:>11} | {:>14} |"
    print(row.format("group", "pictures", *READERS, "ms of the page"))
    print("|---|---|---|---|---|---|")
    total, right, wrong, by_group = 0, dict.fromkeys(READERS, 0), dict.fromkeys(READERS, 0), {}
    with concurrent.futures.ThreadPoolExecutor(2) as pool:
        for name in names:
            count, read, otherwise, passed = compare(page, name, symbols, work, pool)
            print(row.format(name, count, *read.values(), f"{passed / count:.0f}"), flush=True)
            total, by_group[name] = total + count, (read["page"], count)
            for reader in READERS:
                right[reader] += read[reader]
                wrong[reader] += otherwise[reader]
    print(row.format("all", total, *right.values(), ""))
    print(row.format("pictures with something else read", total, *wrong.values(), ""))
    return total, right, wrong, by_group


def without(page: Page, symbols: list[pictures.Symbol], work: str) -> tuple[int, int]:
    """How many of the pictures without a symbol show the page one."""
    paths, found = pictures.without_symbol(WITHOUT, symbols, work), 0
    for i in range(0, len(paths), 50):
        for path, symbols_found in zip(paths[i:i + 50], page.symbols(paths[i:i + 50])[0]):
            if symbols_found:
                found += 1
                print(f"wrong: {os.path.basename(path)}: {symbols_found}, which is no symbol", file=sys.stderr)
    return len(paths), found


def limits(total: int, right: dict[str, int], wrong: dict[str, int], by_group: dict[str, tuple[int, int]], none: tuple[int, int],
           page: Page) -> Iterator[tuple[str, object, bool]]:
    """What the page has to reach: what is asked, what was seen, and whether it holds."""
    yield "pictures, at least 1,800", total, total >= 1800
    yield "read, at least 99.5 of 100", f"{100 * right['page'] / total:.2f}", right["page"] >= 0.995 * total
    for reader in OTHERS:
        yield f"read, more than by {reader}", f"{right['page']}, {right[reader]}", right["page"] > right[reader]
    for name in ALL_READ:
        read, count = by_group[name]
        yield f"{name}, all read", f"{read} of {count}", read == count
    read, count = by_group["usual photograph"]
    yield "usual photograph, at least 95 of 100", f"{read} of {count}", read >= 0.95 * count
    yield "pictures with a wrong answer, none", wrong["page"], wrong["page"] == 0
    yield f"symbols found in {none[0]} pictures without one, none", none[1], none[1] == 0 and none[0] >= WITHOUT
    yield f"of {page.asked} pictures the page and Python answer alike, of all", "not all" if page.differing else "all", page.differing == 0 and page.asked >= 2800


def main() -> int:
    work, names = sys.argv[1], sys.argv[2:]
    symbols, page = pictures.symbols(work), Page()
    try:
        counts = table(page, names or list(pictures.GROUPS), symbols, work)
        if names:
            return 0
        none = without(page, symbols, work)
    finally:
        page.browser.close()
    asked_for = missed = 0
    for asked, seen, holds in limits(*counts, none, page):
        asked_for, missed = asked_for + 1, missed + (not holds)
        print(f"{'holds' if holds else 'MISSED'}: {asked}: {seen}")
    print(f"{counts[0]} and {none[0]} pictures, {asked_for} limits, {missed} missed")
    return 1 if missed else 0


if __name__ == "__main__":
    sys.exit(main())
