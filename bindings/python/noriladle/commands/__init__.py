"""The subcommands of ``noriladle``, a module each, and what they share.

A module has a docstring, whose first line is the help's first line and whose rest stands below the options;
``add_arguments``, which adds its arguments to a parser; and ``run``, which runs the command and returns its status.
:mod:`noriladle.__main__` has the table of them, and imports a module only when its command is asked for.
"""
from __future__ import annotations

import contextlib
import datetime
import os
import sys
import time
from typing import TYPE_CHECKING, Any, Dict, List, Sequence, Tuple, Union

from .. import Answer
from .._shop import translated

if TYPE_CHECKING:
    import argparse

RIGHT, REFUSED, WRONG_WORDS = 0, 1, 2
"""The exit statuses: all is well; something was refused, not found or not written; the arguments are wrong, or name a
file that cannot be read."""


class WrongWords(Exception):
    """What is wrong with the arguments, in one line that says what to do. The command ends with status 2."""


def tell(said: str) -> None:
    """Writes a line to standard error."""
    print(said, file=sys.stderr, flush=True)


def add_year(parser: argparse.ArgumentParser) -> None:
    """Adds the option for the reference year of dates."""
    parser.add_argument("--year", type=_year, default=datetime.date.today().year, metavar="YEAR",
                        help="Reference year for years of two digits, 1951 to 2149 [default: this year]")


def add_ais(parser: argparse.ArgumentParser) -> None:
    """Adds the option for which Application Identifiers are read."""
    parser.add_argument("--ais", choices=["all", "profile"], default="all", metavar="AIS",
                        help="Accept all AIs of the GS1 General Specifications, or those of the profile [default: all] [possible values: all, profile]")


def _year(word: str) -> int:
    from argparse import ArgumentTypeError  # Not for --version.

    if not (word.isascii() and word.isdecimal() and 1951 <= int(word) <= 2149):
        raise ArgumentTypeError(translated("{0!r} is no year from 1951 to 2149", word))
    return int(word)


def write_files(files: Sequence[Tuple[Union[str, os.PathLike[str]], bytes]]) -> None:
    """Writes all files or none: writes each beside its place, and then moves all there. A pipe or a device is written in
    its place.

    :raises OSError: a file cannot be written.
    """
    moved: List[Tuple[str, str]] = []
    try:
        for path, data in files:
            place = os.path.realpath(path)
            if os.path.exists(place) and not os.path.isfile(place):
                with open(place, "wb") as file:
                    file.write(data)
                continue
            folder, name = os.path.split(place)
            beside = os.path.join(folder, f".{name}.{os.getpid()}")
            with open(beside, "xb") as file:
                moved.append((beside, place))
                file.write(data)
        for beside, place in moved:
            os.replace(beside, place)
    except BaseException:
        for beside, _ in moved:
            with contextlib.suppress(FileNotFoundError):
                os.unlink(beside)
        raise


class Progress:
    """A line of progress at a terminal, after a second or at once. It disappears at the end."""

    def __init__(self) -> None:
        self._since = self._last = time.monotonic()
        self._wide = 0

    def __call__(self, said: str, at_once: bool = False) -> None:
        """Shows the progress, at most ten times a second."""
        now = time.monotonic()
        if not sys.stderr.isatty() or not at_once and (now - self._since < 1 or now - self._last < 0.1):
            return
        self._last = now
        sys.stderr.write(f"\r{said:<{self._wide}}")
        sys.stderr.flush()
        self._wide = len(said)

    def end(self) -> None:
        """Clears the line."""
        if self._wide:
            sys.stderr.write(f"\r{'':<{self._wide}}\r")
            sys.stderr.flush()
            self._wide = 0


def data_of(answer: Answer) -> Dict[str, Any]:
    """An answer for ``--json``."""
    elements = [{"ai": it.ai, "value": it.value, **({"date": it.date.isoformat()} if it.date else {}),
                 **({"time": it.time.isoformat()} if it.time else {})} for it in answer.elements]
    return {"identifier": answer.identifier, "gtin": answer.gtin, "elements": elements}
