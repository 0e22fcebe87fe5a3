"""Finds what each column of a list is: by headings in seven languages, or by the cells."""
from __future__ import annotations

import re
from collections import Counter
from dataclasses import dataclass, field, replace
from typing import Dict, List, Mapping, Optional, Sequence, Set, Tuple

from . import Refusal
from ._amounts import UNIT
from ._files import opened_list
from ._headings import FIELDS, LONGER, MEANINGS, Headings, known, plain
from ._lists import LIMIT, SPREADSHEET, WHOLE_LINES, Fault, Faults, Record, Sheet
from ._prices import PriceHeading, price_of, shelf_prices
from ._remarks import FLAGS, remark_on
from ._shop import said, sentence_of_lines, told
from ._texts import looks_right, read_text

_ONCE = ("gtin", "gs1", "copies", "kind", *FIELDS, "content")
"""Meanings that no list may have twice, since nobody can say which column is meant."""

_BESIDE = {*FIELDS, "content"}
"""Meanings of columns that are chosen after the price, so that they change nothing in its choice."""
_MOST_TITLES = 10
"""The heading is one of the first 10 records."""
SAMPLE = 200
"""How many records decide what a column is."""
_PRICE = re.compile(r"[^\d\s]{0,3}\s?\d{1,6}[.,]\d{2}\s?[^\d\s]{0,4}")


@dataclass(frozen=True)
class Table:
    """A list whose columns are known."""

    records: Sequence[Record]
    """The records with a number, without the heading."""
    places: Mapping[str, Sequence[int]]
    """Where the columns are, by what they are: ``gtin`` or ``gs1`` or both, ``name``, ``price``, the fields, ``content``,
    ``copies``, ``kind``, and ``line`` of any number of columns."""
    faults: Sequence[Fault]
    """The errors of the lines that are no records."""
    note: str
    """What each column was taken for, unless all headings say it."""
    delimiter: str
    width: int
    """How many cells a record may have."""
    shortest: int
    """How many cells a record has at least, unless some are missing."""
    question: Optional[Fault] = None
    """What a person must say about the price before labels are made."""
    heading: Optional[PriceHeading] = None
    """What the heading of the price says."""
    captions: Mapping[str, str] = field(default_factory=dict)
    """The headings of the columns by what they are."""
    unused: Sequence[str] = ()
    """The columns that are not used, by their headings or numbers."""
    lost: Sequence[Record] = ()
    """The content of the lines that have an error, as far as it is known."""
    passed: Sequence[int] = ()
    """The lines that have no number, such as categories and totals."""
    source: Sequence[Record] = ()
    """All records of the list, also those above the heading."""
    opened: Sequence[str] = ()
    """What a person should know of how the file was read."""

    def notes(self) -> List[str]:
        """What a person should know of how the list was read."""
        return [*self.opened, *([self.note] if self.note else []), *sentence_of_lines("passed", self.passed)]

    def cell(self, record: Record, meaning: str) -> str:
        """The cell of a record in a column: empty if the record is too short, or if there is no such column."""
        for place in self.places.get(meaning, ()):
            if place < len(record.cells):
                return record.cells[place]
        return ""


def table_of(
    data: bytes, year: int, columns: Optional[Mapping[str, str]] = None, encoding: str = "", most: int = LIMIT
) -> Table:
    """The table of a file's bytes, of at most this many lines. ``columns`` names columns for meanings: by the heading, or by the number from 1; an
    empty one says that there is none. The others are found by headings, the column of the numbers also by its cells.

    :raises Faults: the file cannot be read or is empty; two columns have one meaning; none has numbers; or none is as
        ``columns`` says.
    """
    opened = opened_list(data, encoding, most)
    looks = [_Look(sheet, year, columns or {}) for sheet in opened.sheets if sheet.records]
    if not looks:
        raise Faults(opened.sheets[0].faults or [Fault(1, said("emptyList"))])
    return replace(max(looks, key=_Look.rank).table(), opened=opened.notes)


class _Look:
    """A list read by one of its possible delimiters: the columns known by headings, and the column of the numbers by its
    cells."""

    def __init__(self, sheet: Sheet, year: int, columns: Mapping[str, str]) -> None:
        self.sheet, self.year = sheet, year
        self.none = {meaning for meaning, word in columns.items() if not word}
        self.asked = {meaning: word for meaning, word in columns.items() if word.isdecimal()}
        self.named = {meaning: word for meaning, word in columns.items() if word and not word.isdecimal()}
        own = {plain(word): meaning for meaning, word in self.named.items()}
        # Titles may stand above the heading.
        self.titles = next((at for at, record in enumerate(sheet.records[:_MOST_TITLES])
                            if {"gtin", "gs1"} & self._meanings(record, own).keys()), 0)
        self.records = sheet.records[self.titles:]
        self.first, self.sample = self.records[0], self.records[:SAMPLE]
        self.wide = max(len(record.cells) for record in self.sample)
        self.headed = self._headed(own)
        self.right, self.looking, self.number = max(map(self._score, range(self.wide)), key=lambda score: score[:2])

    def rank(self) -> Tuple[bool, int, int, int]:
        """How well the list reads with this delimiter. Of equals the first wins, and whole lines come first."""
        return bool({"gtin", "gs1"} & self.headed.keys()), len(self.headed), self.right, self.looking

    def _headed(self, own: Mapping[str, str]) -> Dict[str, List[int]]:
        """The columns by their headings: for each meaning the best one, and all free lines.

        :raises Faults: nobody can say which is meant.
        """
        # An empty column gives way to one that has cells.
        found = {meaning: meaning != "line" and [it for it in its if self._has_cells(it[1])] or its
                 for meaning, its in self._meanings(self.first, own).items()}
        for meaning in {*_ONCE} - self.asked.keys() - self.none:
            best, *others = sorted(found.get(meaning, ())) or [(0, 0)]
            # A heading with more words, such as "EAN of the case", loses against one that is a known word.
            if others and best[0] >= 0 and best[0] // LONGER == others[0][0] // LONGER:
                first, second = (" ".join(self.first.cells[place].split()) for place in sorted((best[1], others[0][1])))
                way = f"--column {meaning}='{first}'"
                raise Faults([Fault(self.first.line, told("by", said("twice", first, second, meaning), way))])
        return {meaning: [place for _, place in places] if meaning == "line" else [min(places)[1]]
                for meaning, places in found.items() if meaning not in self.none}

    def _has_cells(self, place: int) -> bool:
        """Whether a column has a cell below the heading."""
        return any(record.cells[place].strip() for record in self.records[1:] if place < len(record.cells))

    def _has_unit(self, place: int) -> bool:
        """Whether a column says of what its prices are, or a person wants it."""
        cells = (record.cells[place] for record in self.records if place < len(record.cells))
        return "unit-price" in {*self.asked, *self.named} or any(map(UNIT.search, cells))

    def _meanings(self, record: Record, own: Mapping[str, str]) -> Dict[str, List[Tuple[int, int]]]:
        """What the cells of a record mean if it is a heading: for each meaning the rank and the column. A record with a valid
        number is no heading, whatever its article is called."""
        found: Dict[str, List[Tuple[int, int]]] = {}
        if any(looks_right(cell) and _is_right(cell, self.year) for cell in record.cells):
            return found
        for place, cell in enumerate(record.cells):
            meaning, rank = (own[plain(cell)], -1) if plain(cell) in own else known(cell)
            found.setdefault(meaning, []).append((rank, place))
        found.pop("", None)
        return found

    def _score(self, place: int) -> Tuple[int, int, int]:
        """How many cells of a column are valid numbers, and how many look like numbers; and the column."""
        cells = [record.cells[place] for record in self.sample if place < len(record.cells)]
        looking = [cell for cell in cells if looks_right(cell)]
        return sum(_is_right(cell, self.year) for cell in looking), len(looking), place

    def table(self) -> Table:
        """The table, with a note of what was found by the cells.

        :raises Faults: no column has numbers, or none is as a person says.
        """
        is_headed = bool({"gtin", "gs1"} & self.headed.keys())
        asked = {meaning: [self._asked(meaning, int(word))] for meaning, word in self.asked.items()}
        is_found = not is_headed and not {"gtin", "gs1"} & asked.keys()
        if is_found and not self.looking and (self.wide > 1 or self.headed):
            way = f"--column gtin='{' '.join(self.first.cells[0].split())}'"
            raise Faults([Fault(self.first.line, told("by", said("noNumbers"), way))])
        number = asked.get("gtin") or asked.get("gs1") or [self.number]
        has_heading = is_headed or self._has_heading(number[0])
        headings = Headings(self.first, has_heading)
        self._check_names(headings)
        places = {**(self.headed if has_heading else {}), **asked, **({"gtin": number} if is_found else {})}
        records = self.records[has_heading:]
        choice = self._prices(places, records, has_heading)
        places.pop("price", None)
        places.update({"price": choice} if len(choice) == 1 else {})
        for meaning in _BESIDE & places.keys():
            if places[meaning] == places.get("price") or meaning == "unit-price" and not self._has_unit(places[meaning][0]):
                del places[meaning]
        if is_found and self.sheet.delimiter != WHOLE_LINES:
            self._guess_name(places, records[:SAMPLE])
        return self._table(places, records, choice, headings, is_found)

    def _table(
        self, places: Dict[str, List[int]], records: Sequence[Record], choice: Sequence[int], headings: Headings,
        is_found: bool
    ) -> Table:
        """The table of these columns."""
        is_lines = self.sheet.delimiter == WHOLE_LINES
        note = self._note(places, headings) if is_found and (headings.cells or not is_lines) else ""
        if self.titles:
            note = told("tookLine", self.first.line)
        numbers = [place for meaning in ("gtin", "gs1") for place in places.get(meaning, ())]
        wide, shortest = self._width(headings), self._shortest()
        passed = [] if is_lines else [it for it in records if self._has_no_number(it, numbers, wide, shortest)]
        others = [record.line for record in passed if headings.is_another(record)]
        if others:
            raise Faults([Fault(others[0], said("otherHeading"))])
        lines = {record.line for record in passed}
        rest, unused = [it for it in records if it.line not in lines], self._unused(places, records, headings)
        question = None
        if "price" not in {*places, *self.none}:
            question = headings.question(choice, self._amounts(self._free(places), records))
        elif headings.cells and "price" not in {*self.asked, *self.named, *self.none}:
            beside = sorted([*unused, *(place for meaning in FIELDS for place in places.get(meaning, ()))])
            remark = remark_on(places["price"][0], headings, self.sheet.records[:self.titles], passed, rest, beside)
            question = remark and headings.doubt(places.pop("price")[0], *remark)
        price = places.get("price", ())
        return Table(
            records=rest, places=places, faults=self.sheet.faults, note=note, delimiter=self.sheet.delimiter, width=wide,
            shortest=shortest, question=question, heading=price_of(headings.of(price[0])) if price else None,
            captions={meaning: headings.of(its[0]) for meaning, its in places.items() if its},
            unused=[headings.named(place) for place in unused], lost=self.sheet.lost, passed=sorted(lines),
            source=self.sheet.records)

    def _has_no_number(self, record: Record, numbers: Sequence[int], wide: int, shortest: int) -> bool:
        """Whether a record is a category or a total: it has nothing like a number in its columns, nor one elsewhere,
        and no cell is missing or too many."""
        cells = [record.cells[place] for place in numbers if place < len(record.cells)]
        is_short = len(record.cells) < shortest and sum(bool(cell.strip()) for cell in record.cells) > 1
        if is_short or re.search(r"[\d#]", " ".join(cells)) or any(cell.strip() for cell in record.cells[wide:]):
            return False
        return not any(looks_right(cell) and _is_right(cell, self.year) for cell in record.cells)

    def _shortest(self) -> int:
        """How many cells a record of a text has, if none is missing: as many as most have, with the heading."""
        usual = Counter(len(record.cells) for record in self.sample)
        return max(usual, key=lambda count: (usual[count], count)) if self.sheet.delimiter != SPREADSHEET else 0

    def _width(self, headings: Headings) -> int:
        """How many cells a record may have: as many as the heading, or as most records have."""
        if self.sheet.delimiter == WHOLE_LINES:
            return 1
        usual = Counter(len(record.cells) for record in self.sample)
        return len(headings.cells) or max(usual, key=lambda count: (usual[count], count))

    def _asked(self, meaning: str, number: int) -> int:
        """The index of a column that was named by its number."""
        if not 1 <= number <= self.wide:
            raise Faults([Fault(self.first.line, said("columnRange", number, meaning, self.wide))])
        return number - 1

    def _check_names(self, headings: Headings) -> None:
        """Looks whether the list has each heading that a person named, and once.

        :raises Faults: it has not.
        """
        for word in self.named.values():
            count = headings.count(word)
            if not headings.cells:
                fault = said("noHeading", word)
            elif not count:
                fault = said("noColumn", word, ", ".join(said("quoted", cell) for cell in headings.cells if cell))
            else:
                fault = said("twoColumns", word)
            if count != 1:
                raise Faults([Fault(headings.line, fault)])

    def _has_heading(self, number: int) -> bool:
        """Whether the first record has a word in the column of the numbers, while others have numbers there."""
        cells = self.first.cells
        is_word = number < len(cells) and not re.search(r"\d\d", cells[number])
        return is_word and len(self.records) > 1 and bool(self.right or self.headed)

    def _prices(self, places: Mapping[str, Sequence[int]], records: Sequence[Record], has_heading: bool) -> List[int]:
        """The columns that may be the price on the shelf: by the heading, or in a list without one by the cells."""
        if "price" in self.none:
            return []
        if "price" in {*self.asked, *self.named}:
            return list(places["price"])
        free = self._free(places)
        if not has_heading:
            return self._amounts(free, records) if self.sheet.delimiter != WHOLE_LINES else []
        headings = {place: price_of(self.first.cells[place]) for place in free if place < len(self.first.cells)}
        found = {place: heading for place, heading in headings.items() if heading and (self._has_cells(place) or not records)}
        flags = {place: cells for place, cells in ((it, self._filled(it)) for it in found) if cells and cells <= FLAGS}
        best, others = shelf_prices(found), shelf_prices({it: found[it] for it in found.keys() - flags.keys()})
        # A column that says yes or no is no price. One of 1 and 0 may be a price, too.
        may_be_both = any(cell.isdigit() for cells in flags.values() for cell in cells)
        return best if not others else sorted({*others, *(best if may_be_both else [])})

    def _filled(self, place: int) -> Set[str]:
        """The cells of a column below the heading, in small letters."""
        cells = (record.cells[place].strip().lower() for record in self.records[1:] if place < len(record.cells))
        return {cell for cell in cells if cell}

    def _free(self, places: Mapping[str, Sequence[int]]) -> List[int]:
        """The columns that are no number, name, kind or line, and no number of copies."""
        taken = {place for meaning, found in places.items() if meaning not in ("price", *_BESIDE) for place in found}
        return [place for place in range(self.wide) if place not in taken]

    def _amounts(self, free: Sequence[int], records: Sequence[Record]) -> List[int]:
        """The columns whose cells mostly look like prices."""
        sample = records[:SAMPLE]
        cells = {place: [it.cells[place].strip() for it in sample if place < len(it.cells)] for place in free}
        return [place for place, its in cells.items() if 2 * sum(bool(_PRICE.fullmatch(it)) for it in its) > len(its)]

    def _unused(self, places: Mapping[str, Sequence[int]], records: Sequence[Record], headings: Headings) -> List[int]:
        """The columns that are not used and have a heading or a cell."""
        if self.sheet.delimiter == WHOLE_LINES:
            return []
        used = {place for meaning, found in places.items() if meaning != "content" for place in found}
        filled: Set[int] = {place for record in records for place, cell in enumerate(record.cells) if cell.strip()}
        wide = self._width(headings)
        return [place for place in range(wide) if place not in used and (place in filled or headings.of(place))]

    def _guess_name(self, places: Dict[str, List[int]], records: Sequence[Record]) -> None:
        """Adds the column of names, which has most letters."""
        free = [place for place in self._free(places) if place not in places.get("price", ())]
        prices = self._amounts(free, records)
        cells = {place: [it.cells[place].strip() for it in records if place < len(it.cells)] for place in free}
        letters = {place: sum(letter.isalpha() for it in cells[place] for letter in it) for place in free if place not in prices}
        if "name" not in places and "name" not in self.none and letters and max(letters.values()) > 2 * len(records):
            places["name"] = [max(letters, key=lambda place: letters[place])]

    def _note(self, places: Mapping[str, Sequence[int]], headings: Headings) -> str:
        """What each column was taken for."""
        if self.sheet.delimiter == WHOLE_LINES:
            return told("tookHeading", repr(headings.of(0)), self.first.line)
        taken = [(meaning, place) for meaning in MEANINGS for place in places.get(meaning, ())[:1]]
        names = [repr(headings.of(place)) if place < len(headings.cells) else headings.named(place) for _, place in taken]
        shown = [told("tookFor", name, meaning) for name, (meaning, _) in zip(names, taken)]
        return told("took", ", ".join(shown))


def _is_right(cell: str, year: int) -> bool:
    try:
        return bool(read_text(cell, year).elements)
    except Refusal:
        return False
