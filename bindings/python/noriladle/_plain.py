"""Lists with one text a line and nothing else, such as files of a million numbers: read block by block, so they may be of any length."""
from __future__ import annotations

import itertools
import re
from typing import BinaryIO, Iterator, List, Tuple

from ._columns import SAMPLE, table_of
from ._lists import LIMIT, WHOLE_LINES, Fault, Faults
from ._shop import count_text, said

_BLOCK = 262_144
_FIRST = 65_536
"""How many bytes are looked at as a table."""
_OTHER = re.compile(rb'[\0\x1f"\x80-\xff]')
"""What makes cells of several lines, or needs an encoding."""


def is_plain(data: bytes, year: int) -> bool:
    """Whether a list that begins with these bytes has one text a line, without a heading. Its first lines decide, as in
    :func:`table_of`."""
    if _OTHER.search(data):
        return False
    try:
        table = table_of(data[:data.rfind(b"\n", 0, _FIRST) + 1], year)
    except Faults:
        return False
    return (table.delimiter == WHOLE_LINES and [*table.places] == ["gtin"] and not table.notes()
            and SAMPLE < len(table.records) == len(table.source))


def blocks_of(first: bytes, file: BinaryIO) -> Iterator[Tuple[int, List[bytes]]]:
    """The lines of a plain list, from its first bytes and its file: the number of a line, and that line with others after it.

    :raises Faults: it has more bytes than other lists, and is not plain to its end.
    """
    line, rest = 1, b""
    starts = (first[at:at + _BLOCK] for at in range(0, len(first), _BLOCK))
    for part in itertools.chain(starts, iter(lambda: file.read(_BLOCK), b"")):
        if _OTHER.search(part) or len(rest) > LIMIT:
            raise Faults([Fault(line, said("tooLarge", count_text(LIMIT)))])
        end = part.rfind(b"\n") + 1
        if end:
            lines = (rest + part[:end]).splitlines()
            yield line, lines
            line, rest = line + len(lines), b""
        rest += part[end:]
    yield line, rest.splitlines()
