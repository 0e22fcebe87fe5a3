"""Finds what a list says of its prices outside their heading: in titles, between its lines and in other columns, such as
"all prices without tax", a column of units that says "carton", or sums of price and tax. tables/shop/README.md has the rule."""
from __future__ import annotations

import re
from functools import lru_cache
from typing import Any, Dict, Iterable, Iterator, NamedTuple, Optional, Sequence

from ._amounts import cell_amount, price_like
from ._headings import Headings
from ._lists import Record
from ._prices import DEPOSIT, SURE_REASONS, Words, folded, has_tax, may_add_tax, reason_of
from ._shop import file_of

_TABLE: Dict[str, Any] = file_of("prices")["remarks"]
_NETS, _NO = frozenset(_TABLE["nets"]), frozenset(_TABLE["no"])
FLAGS = _NO | frozenset(_TABLE["yes"])
"""Cells that say yes or no."""
_UNITS, _SIZES, _MEASURES, _CURRENCIES, _QUANTITIES = (Words(_TABLE[name]) for name in (
    "units", "sizes", "measures", "currencies", "quantities"))
_NEAR, _TAXED = 0.02, 1.3
"""A sum that differs by this part is that of the price, and one up to this many times the price may have its tax."""


class Remark(NamedTuple):
    """A cell that may mean that the price is not that of the shelf, and its line."""

    line: int
    cell: str


def remark_on(
    price: int, headings: Headings, titles: Sequence[Record], passed: Sequence[Record], records: Sequence[Record],
    unused: Sequence[int]
) -> Optional[Remark]:
    """The first remark on the prices of a column: in the titles, in the lines without an article, or in the columns that
    are not used."""
    between = [record for record in passed if not any(price_like(cell.strip()) for cell in record.cells)]
    found = [_in_lines(price, headings, [*titles, *between])]
    found += [_in_column(place, headings.of(place), records) for place in unused]
    if not has_tax(folded(headings.of(price))):
        found += [_in_sums(price, place, headings, records) for place in unused if may_add_tax(headings.of(place))]
    return next((remark for remarks in found for remark in remarks), None)


def _in_lines(price: int, headings: Headings, records: Iterable[Record]) -> Iterator[Remark]:
    """What lines without an article say. A cell in the column of the price goes on with its heading."""
    for record in records:
        cells = [" ".join(cell.split()) for cell in record.cells]
        if cells != headings.cells:
            yield from (Remark(record.line, cell) for place, cell in enumerate(cells) if cell and (
                reason_of(cell) in SURE_REASONS or place == price and reason_of(f"{headings.of(price)} {cell}") in SURE_REASONS))


def _in_column(place: int, heading: str, records: Iterable[Record]) -> Iterator[Remark]:
    """What a column says of the price beside it: of how much it is the price, in which of several currencies, or that it is
    without tax."""
    words = folded(heading)
    others = _NETS | _NO if has_tax(words) else _NETS
    cells = [(record.line, record.cells[place]) for record in records if place < len(record.cells)]
    plain = {cell: " ".join(cell.split()) for cell in {cell for _, cell in cells}}
    if not (_UNITS.search(words) or _CURRENCIES.search(words) or any(cell.lower() in others for cell in plain.values())):
        return  # Most columns say nothing, and this is faster.
    filled = [(line, plain[cell]) for line, cell in cells if plain[cell]]
    if _UNITS.search(words):
        is_size = _SIZES.search(words)
        yield from (Remark(line, f"{heading}: {cell}") for line, cell in filled if _is_other(cell, is_size))
    elif _CURRENCIES.search(words):
        yield from (Remark(line, f"{heading}: {cell}") for line, cell in filled if cell.upper() != filled[0][1].upper())
    yield from (Remark(line, f"{heading}: {cell}") for line, cell in filled if cell.lower() in others)


def _in_sums(price: int, place: int, headings: Headings, records: Sequence[Record]) -> Iterator[Remark]:
    """What a column says of the price beside it: it is without tax, if most of the amounts that are not the price times a
    quantity are a tax above it."""
    words = [*map(folded, headings.cells)]
    priced = [price, *(at for at, text in enumerate(words) if at != place and DEPOSIT.search(text))]
    for quantity in [None, *(at for at, text in enumerate(words) if _QUANTITIES.search(text))]:
        shares = [(_share(record, place, priced, quantity), record) for record in records]
        taxed = [record for share, record in shares if 1 + _NEAR <= share <= _TAXED]
        others = [record for share, record in shares if 0 < share < 1 - _NEAR or share > _TAXED]
        if len(taxed) > len(others):
            yield Remark(taxed[0].line, f"{headings.of(place)}: {' '.join(taxed[0].cells[place].split())}")
            return


def _share(record: Record, place: int, priced: Sequence[int], quantity: Optional[int]) -> float:
    """An amount, divided by the sum of the price and what is paid with it, times a quantity; 0 if one is missing."""
    amounts = [cell_amount(record.cells[at]) if at < len(record.cells) else 0.0 for at in (place, *priced)]
    times = 1.0 if quantity is None else cell_amount(record.cells[quantity]) if quantity < len(record.cells) else 0.0
    return amounts[0] / (times * sum(amounts[1:])) if times and amounts[1] else 0.0


@lru_cache(maxsize=1024)
def _is_other(unit: str, is_size: bool) -> bool:
    """Whether a unit is another one than a piece: a measure or a case; and beside a price's unit a number above 1."""
    if not is_size:
        return _MEASURES.search(folded(unit))
    found = re.fullmatch("(0*1 |[0-9]+(?![0-9.,]))?(.*)", unit)
    return bool(found and (_MEASURES.search(folded(found[2])) or found[1] and int(found[1]) != 1))
