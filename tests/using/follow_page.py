"""Runs the commands of a page and compares what they print with what the page shows.

Usage: follow_page.py NAME < PAGE, in the folder in which the commands run. A command is a line that
begins with `$ `, in a block between lines of three backquotes or indented by two spaces. The lines
after it in the block, up to the next command, are its standard output and standard error. bash runs
each command with an empty standard input.
"""
from __future__ import annotations

import subprocess
import sys
import tempfile
from typing import Iterator


def blocks(page: str) -> Iterator[list[str]]:
    """The blocks of a page, each a list of lines without its indentation."""
    fenced = False
    block: list[str] = []
    for line in page.splitlines():
        if line.startswith("```"):
            fenced = not fenced
            yield block
            block = []
        elif fenced:
            block.append(line)
        elif line.startswith("  "):
            block.append(line[2:])
        else:
            yield block
            block = []
    yield block


def commands(block: list[str]) -> list[tuple[str, list[str]]]:
    """The commands of a block, each with the lines that it prints."""
    found: list[tuple[str, list[str]]] = []
    for line in block:
        if line.startswith("$ "):
            found.append((line[2:], []))
        elif found:
            found[-1][1].append(line)
    return found


def main() -> None:
    name = sys.argv[1]
    ran = differ = 0
    for block in blocks(sys.stdin.read()):
        for command, lines in commands(block):
            with tempfile.TemporaryFile() as told:  # What a command leaves running may hold it open.
                subprocess.run(["bash", "-c", command], stdin=subprocess.DEVNULL, stdout=told, stderr=subprocess.STDOUT)
                told.seek(0)
                found = told.read().decode("utf-8", "replace")
            wanted = "".join(line + "\n" for line in lines)
            ran += 1
            if found != wanted:
                differ += 1
                print("%s: $ %s\nwanted:\n%sfound:\n%s" % (name, command, wanted, found), file=sys.stderr)
    print("%s: %d commands, %d differ" % (name, ran, differ))
    sys.exit(0 if ran and not differ else 1)


main()
