"""The articles of a list: what is printed on a label, and as which kind of barcode."""
from __future__ import annotations

import re
import unicodedata
from dataclasses import dataclass
from typing import Dict, List, NamedTuple, Optional, Sequence, Set, Tuple

from .. import Answer, Kind, Refusal
from .._amounts import UNIT, Amounts, amount_of, price_like
from .._columns import Table
from .._headings import FIELDS
from .._lists import Fault, Record
from .._shop import count_text, said
from .._advice import remedy_of
from .._texts import digits_of, element_string, in_column, is_elements, looks_right, read_text, short, stripped

_BY_LENGTH = {8: Kind.EAN8, 12: Kind.UPCA, 13: Kind.EAN13, 14: Kind.ITF14}
"""The kind of barcode for a GTIN of this many digits, if the list names no kind."""

_BY_IDENTIFIER = {"]E4": Kind.EAN8, "]I1": Kind.ITF14, **dict.fromkeys(("]C1", "]e0", "]d2", "]Q3", "]J1"), Kind.GS1128)}
"""The kind of barcode for a scanned text with one of these identifiers."""

MOST_COPIES = 1_000


@dataclass(frozen=True)
class Article:
    """A line of a list that becomes a label."""

    line: int
    kind: Kind
    text: str
    """The GTIN in 14 digits, or the element string."""
    answer: Answer
    """What the text says."""
    name: str = ""
    price: str = ""
    lines: Tuple[str, ...] = ()
    copies: int = 1
    fields: Sequence[str] = ()
    """The old price, the price of a unit, the deposit, the day of best before and the batch, as a label shows them."""


def articles_of(
    table: Table, year: int, currency: str = "", is_free: bool = False, units: Sequence[str] = ()
) -> Tuple[List[Article], List[Fault]]:
    """The articles of a table, and the errors of its other lines. The prices have the decimals of the currency; zero is
    one if articles may be free. With units each has the price of one of them."""
    prices = [_line(table.cell(record, "price")) for record in table.records]
    amounts = Amounts(prices, table.heading, currency, is_free)
    widths, numbers = _Widths(table, amounts.point), _Numbers()
    articles, faults = [], list(table.faults)
    for record in table.records:
        try:
            kind, printed, answer = _number(table, record, year)
        except ValueError as error:
            faults.append(Fault(record.line, str(error)))
            numbers.doubt(record, year)
            continue
        said_of = _plain(table.cell(record, "name")), _line(table.cell(record, "price"))
        numbers.add(printed, _Noted(record.line, kind, said_of))
        try:
            widths.check(record)
            articles.append(_article(table, record, (kind, printed, answer), amounts, units))
        except ValueError as error:
            faults.append(Fault(record.line, str(error)))
    for record in table.lost:
        numbers.doubt(record, year)
    faults += numbers.faults({fault.line for fault in faults})
    lines = {fault.line for fault in faults}
    return [it for it in articles if it.line not in lines], sorted(faults)


class _Noted(NamedTuple):
    """What a line says of a number: as which kind of barcode, with what name and price. Without a kind nobody knows."""

    line: int
    kind: Optional[Kind]
    article: Tuple[str, str]


class _Numbers:
    """The numbers of a list, each with what its lines say of the article."""

    def __init__(self) -> None:
        self._found: Dict[str, List[_Noted]] = {}

    def add(self, number: str, noted: _Noted) -> None:
        """Notes what a line says of a number."""
        self._found.setdefault(number, []).append(noted)

    def doubt(self, record: Record, year: int) -> None:
        """Notes all numbers of a record that cannot be read, since it may be of the same article."""
        for cell in filter(looks_right, record.cells):
            try:
                gtin = read_text(cell, year).gtin
            except Refusal:
                continue
            self.add(gtin or "", _Noted(record.line, None, ("", f"\0{record.line}")))

    def faults(self, known: Set[int]) -> List[Fault]:
        """The errors of the lines whose number has several names or prices as one kind, except those known to be wrong."""
        found: Dict[int, Fault] = {}
        for its in self._found.values():
            for kind in {it.kind for it in its if it.kind}:
                alike = [it for it in its if it.kind in (kind, None)]
                first, *others = alike
                for it in alike if len({it.article for it in alike}) > 1 else ():
                    found[it.line] = Fault(it.line, said("sameNumber", (others[0] if it is first else first).line))
        return [fault for line, fault in found.items() if line not in known]


class _Widths:
    """How many cells the lines of a table have, and what that says of their prices."""

    def __init__(self, table: Table, point: str) -> None:
        self._table, self._point = table, point
        self._place = next(iter(table.places.get("price", ())), None)
        self._are_split, self._is_risky = False, False
        if self._place is not None:
            found = [it.cells[self._place:self._place + 2] for it in table.records]
            pairs = [pair for pair in found if pair and pair[0].strip()]
            self._are_split = table.delimiter == "," and bool(pairs) and all(
                len(pair) == 2 and _is_half(*pair) for pair in pairs)
            have_decimals = any(_has_decimals(pair[0]) for pair in pairs)
            behind = [pair[1] for pair in pairs if len(pair) == 2]
            self._is_risky = any(_has_decimals(cell) or not have_decimals and re.search("[0-9]", cell) for cell in behind)

    def check(self, record: Record) -> None:
        """Looks for cells that belong to no column, for a price that its comma split, and for a missing cell.

        :raises ValueError: there are some.
        """
        count, width = len(record.cells), self._table.width
        beyond = [cell for cell in record.cells[width:] if cell.strip()]
        behind = record.cells[self._place:self._place + 2] if self._place is not None else []
        may_be_split = self._table.delimiter == "," and (self._are_split or count > width)
        if len(behind) == 2 and may_be_split and _is_half(*behind):
            raise ValueError(said("splitPrice", short(_line(behind[0])), short(_line(behind[1]))))
        if len(behind) and self._table.delimiter == self._point and re.fullmatch("[0-9]{1,7}", behind[0].strip()):
            raise ValueError(said("wholePrice", behind[0].strip()))
        if beyond:
            raise ValueError(said("beyond", short(_line(beyond[0])), count_text(count), count_text(width)))
        if count < self._table.shortest and (self._is_risky or self._place is not None and count <= self._place):
            raise ValueError(said("missingCell", count_text(count), count_text(self._table.shortest)))


def _is_half(price: str, behind: str) -> bool:
    """Whether a price and the next cell may be one number that a decimal comma split."""
    is_whole = re.fullmatch("[^0-9.,]*[0-9]{1,7}", price.strip())
    return bool(is_whole and re.fullmatch("[0-9]{2}[^0-9.,]*", behind.strip()))


def _has_decimals(cell: str) -> bool:
    return bool(re.search("[0-9][.,][0-9]{1,2}([^0-9]|$)", cell))


def _number(table: Table, record: Record, year: int) -> Tuple[Kind, str, Answer]:
    """The kind of a record's barcode, its number or element string, and what it says."""
    gtin, elements = stripped(table.cell(record, "gtin")), stripped(table.cell(record, "gs1"))
    if gtin and elements:
        raise ValueError(said("twoNumbers"))
    if not gtin and not elements:
        raise ValueError(said("noNumber"))
    try:
        text = gtin or in_column(elements)
    except Refusal as refusal:
        raise ValueError(f"{short(elements)}: {refusal}: {refusal.remedy}") from None
    return _symbol(text, _kind(_plain(table.cell(record, "kind"))), year)


def _article(
    table: Table, record: Record, number: Tuple[Kind, str, Answer], amounts: Amounts, units: Sequence[str]
) -> Article:
    """The article of a record with this number. A missing cell counts as empty."""
    lines = tuple(_line(record.cells[place]) for place in table.places.get("line", ()) if place < len(record.cells))
    name, price = _plain(table.cell(record, "name")), _line(table.cell(record, "price"))
    if price_like(name):
        raise ValueError(said("nameIsPrice", short(name)))
    copies = _copies(table.cell(record, "copies").strip())
    shown = amounts.printed(price) if price else ""
    fields = dict.fromkeys(FIELDS, "")
    for meaning in filter(table.places.__contains__, FIELDS):
        cell = _line(table.cell(record, meaning))
        fields[meaning] = cell and _field(meaning, cell, table.captions.get(meaning, ""), shown, amounts)
    content = _line(table.cell(record, "content")) if units else ""
    if shown and content and not fields["unit-price"]:
        unit = UNIT.search(table.captions["content"])
        fields["unit-price"] = amounts.of_unit(shown, f"{content} {unit[0]}" if unit and not UNIT.search(content) else content, units)
    return Article(record.line, *number, name, shown, tuple(filter(None, lines)), copies, tuple(fields.values()))


def _field(meaning: str, cell: str, caption: str, price: str, amounts: Amounts) -> str:
    """A field of a label as it shows it: the cell, behind the heading of its column if that says what it is.

    :raises ValueError: nobody can say what it means.
    """
    if meaning == "old-price":
        old = amounts.signed(cell)
        if old and amount_of(old) <= amount_of(price):
            raise ValueError(said("oldPrice", short(cell)))
        return old
    if meaning == "unit-price":
        amount, unit = cell if UNIT.search(cell) and "=" in cell else amounts.signed(cell), UNIT.search(caption)
        if amount and not UNIT.search(amount):
            if not unit:
                raise ValueError(said("noUnit", short(cell)))
            amount += f"/{unit[0].strip()}"
        return amount
    if meaning == "best-before" and not re.search("[0-9].*[^0-9]|[^0-9].*[0-9]", cell):
        raise ValueError(said("noDay", short(cell)))
    text = amounts.signed(cell) if meaning == "deposit" else cell
    return f"{caption} {text}".strip() if text else ""


def _symbol(text: str, kind: Optional[Kind], year: int) -> Tuple[Kind, str, Answer]:
    """The kind of a text, what is printed, and what it says.

    :raises ValueError: it is refused; the message says what to do.
    """
    digits = digits_of(text)
    # Eight digits may be both. A UPC-E begins with 0.
    is_ean8, is_upce = kind is Kind.EAN8, kind is Kind.UPCE and not re.match("[1-9]", digits)
    mark = "" if len(digits) != 8 or not digits.isdecimal() else "]E4" if is_ean8 else "]E0" if is_upce else ""
    asked = f"{mark}{digits}" if mark else text
    try:
        answer = read_text(asked, year)
    except Refusal as refusal:
        raise ValueError(f"{short(text)}: {refusal}: {remedy_of(text, refusal, year)}") from None
    if answer.identifier in ("]Q1", "]d1") or text.lower().startswith("http"):
        raise ValueError(f"{short(text)}: {said('link', answer.text)}")
    usual = _usual_kind(asked, answer)
    chosen = kind or usual
    if chosen is Kind.GS1128:
        return chosen, element_string(answer) if usual is Kind.GS1128 else f"01{answer.gtin}", answer
    if answer.gtin is None or len(answer.elements) > 1:
        raise ValueError(f"{short(text)}: {said('notAlone')}")
    return chosen, answer.gtin, answer


def _usual_kind(text: str, answer: Answer) -> Kind:
    """The kind of barcode for a text, if the list names no kind."""
    identifier = answer.identifier
    if is_elements(text) and identifier is None:
        return Kind.GS1128
    digits = digits_of(text if identifier is None else text[3:])
    # A scanner sends the eight digits of a UPC-E with the identifier of an EAN-13.
    return Kind.UPCE if identifier == "]E0" and len(digits) == 8 else _BY_IDENTIFIER.get(identifier or "") or _BY_LENGTH[len(digits)]


def _kind(name: str) -> Optional[Kind]:
    """The kind of a name, such as ``ean13`` or ``EAN-13``; without a name the usual one."""
    plain = re.sub(r"[\s-]", "", name).upper()
    if plain and plain not in Kind.__members__:
        raise ValueError(said("noKind", short(name), ", ".join(Kind.__members__).lower()))
    return Kind.__members__.get(plain)


def _copies(cell: str) -> int:
    """How many labels a line gets."""
    if cell and not (re.fullmatch(r"[0-9]{1,4}", cell) and int(cell) <= MOST_COPIES):
        raise ValueError(said("copies", short(cell), count_text(MOST_COPIES)))
    return int(cell or 1)


def _plain(cell: str) -> str:
    """A cell in composed characters, with each white space as one blank. Its line ends stay."""
    if cell.isascii() and cell.isprintable() and "  " not in cell:
        return cell.strip()  # Most cells are, and this is faster.
    blanks = re.sub(r"[^\S\n\xa0]+", " ", unicodedata.normalize("NFC", cell).replace("\r", "\n"))
    return re.sub(r"\s*\n\s*", "\n", blanks).strip()


def _line(cell: str) -> str:
    return _plain(cell).replace("\n", " ")
