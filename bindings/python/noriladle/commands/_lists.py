"""What the commands with a list share: its arguments and its bytes."""
from __future__ import annotations

import argparse
import contextlib
import sys
from typing import BinaryIO, Dict, Iterator

from .._encodings import NAMES, encoding_of
from .._headings import MEANINGS
from .._lists import LIMIT
from .._shop import told, translated
from . import WrongWords, tell


def add_list(parser: argparse.ArgumentParser) -> None:
    """Adds the list, and the option that says what a column of it is."""
    parser.add_argument("list", nargs="?", default="-", metavar="LIST", help="The list; standard input if left out or -")
    parser.add_argument("--column", action="append", default=[], metavar="NAME=HEADING",
                        help=translated("Column of the {0} or {1}, by its heading or number", ", ".join(MEANINGS[:-1]), MEANINGS[-1]))
    parser.add_argument("--encoding", type=_encoding, metavar="NAME",
                        help=translated("Encoding of the list, if it cannot be found: {0}", ", ".join(NAMES)))


def _encoding(word: str) -> str:
    name = encoding_of(word)
    if not name:
        raise argparse.ArgumentTypeError(translated("{0!r} is none of {1}", word, ", ".join(NAMES)))
    return name


def add_price(parser: argparse.ArgumentParser) -> None:
    """Adds the options about prices."""
    parser.add_argument("--no-price", action="store_true", help="Make labels without a price")
    parser.add_argument("--free", action="store_true", help="Print prices of zero, too")


def columns_of(words: argparse.Namespace) -> Dict[str, str]:
    """What the arguments say about the columns.

    :raises WrongWords: a column has an unknown meaning.
    """
    columns: Dict[str, str] = {}
    for word in words.column:
        meaning, _, heading = (part.strip() for part in word.partition("="))
        if meaning not in MEANINGS or not heading:
            raise WrongWords(translated("--column {0}: write one of {1}, = and a heading, as in --column name=Bezeichnung",
                                        word, ", ".join(MEANINGS)))
        if columns.get(meaning, heading) != heading:
            raise WrongWords(translated("--column {0}: the {1} is already '{2}'", word, meaning, columns[meaning]))
        columns[meaning] = heading
    if getattr(words, "no_price", False):
        if "price" in columns:
            raise WrongWords(translated("--no-price and --column price do not go together: leave one out"))
        columns["price"] = ""
    return columns


def name_of(words: argparse.Namespace) -> str:
    """The list's name for people."""
    return told("input") if words.list == "-" else str(words.list)


@contextlib.contextmanager
def file_of(words: argparse.Namespace) -> Iterator[BinaryIO]:
    """The file of the list, or standard input.

    :raises WrongWords: it cannot be opened.
    """
    if words.list == "-":
        if sys.stdin.isatty():
            tell(told("typeList"))
        yield sys.stdin.buffer
        return
    try:
        file = open(words.list, "rb")
    except OSError as error:
        raise WrongWords(f"{words.list}: {error.strerror}") from error
    with file:
        yield file


def first_of(words: argparse.Namespace, file: BinaryIO) -> bytes:
    """The first bytes of the file; one more than the limit of a list, if it is too long.

    :raises WrongWords: it cannot be read.
    """
    try:
        return file.read(LIMIT + 1)
    except OSError as error:
        raise WrongWords(f"{words.list}: {error.strerror}") from error


def read_list(words: argparse.Namespace) -> bytes:
    """The bytes of the list; one more than the limit, if it is too long.

    :raises WrongWords: it cannot be read.
    """
    with file_of(words) as file:
        return first_of(words, file)
