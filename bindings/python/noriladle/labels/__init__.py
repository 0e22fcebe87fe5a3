"""Labels for a shop: names, prices, barcodes and their digits on label stock, as PDF, SVG, PNG or for a label printer.

    >>> prices = read_list(b"gtin,name,price\\n9501101530003,Oat biscuits,1.95\\n", year=2026)
    >>> labels = make(prices, stock_of("L7160"), year=2026)
    >>> labels.pdf()[:5]
    b'%PDF-'

If a list has errors, nothing is made: :class:`Faults` has each with its line. The proved library lays out each label, so it
says what the list says, and its price is whole.

All need a TrueType font, and PDF needs reportlab: ``pip install noriladle[labels]``, or Debian's python3-reportlab.
"""
from __future__ import annotations

from dataclasses import dataclass, replace
from typing import TYPE_CHECKING, Callable, Dict, Iterator, List, Mapping, NamedTuple, Optional, Sequence, Tuple, TypeVar

from .. import Kind, read_scan
from .._amounts import signed
from .._columns import Table, table_of
from .._lists import MOST_LINES, Fault, Faults
from .._needs import FONT, REPORTLAB, sentence
from .._shop import count_text, said, sentence_of_lines, told, translated
from ._articles import Article, articles_of
from ._drawing import BOX, RESOLUTIONS, Drawing, Look, Warned, cell_of
from ._fonts import Fonts, fonts_of
from ._layout import Layout
from ._pages import Page, Placed, beside, svg_of
from ._stocks import KNOWN, Stock, stock_of

if TYPE_CHECKING:
    from ._dots import Image

__all__ = ["KNOWN", "RESOLUTIONS", "Article", "Fault", "Faults", "Fonts", "LabelWarning", "Labels", "Look",
           "MOST_LABELS", "PriceList", "Stock", "fonts_of", "make", "missing", "outlines", "read_list", "stock_of"]

MOST_LABELS = 100_000
"""The most labels of a list, with all copies."""

_Given = TypeVar("_Given")
_Made = TypeVar("_Made")
Progress = Callable[[int, int], None]
"""Called with how many labels are done, and how many there are."""


class PriceList(NamedTuple):
    """The articles of a list, and the errors of its other lines."""

    articles: Sequence[Article]
    faults: Sequence[Fault] = ()
    notes: Sequence[str] = ()
    """What a person should know of how the list was read, and what of it is not printed."""


class LabelWarning(NamedTuple):
    """A warning about the labels of some lines."""

    lines: Tuple[int, ...]
    """The lines. The first is the worst, and the warning is about it."""
    said: str


@dataclass(frozen=True)
class Labels:
    """Drawn labels, each once."""

    drawings: Tuple[Tuple[Article, Drawing], ...]
    stock: Stock
    look: Look
    start: int
    """The cell of the first sheet that the first label is in, from 0."""
    shift: Tuple[float, float] = (0.0, 0.0)
    """How far all labels are moved to the right and down, in mm."""
    left_out: Tuple[Fault, ...] = ()
    """The lines of the list that have no label, since they have an error."""

    @property
    def warnings(self) -> List[LabelWarning]:
        """The warnings about these labels."""
        told: Dict[str, List[Tuple[Article, Warned]]] = {}
        for article, drawing in self.drawings:
            for warned in drawing.warnings:
                told.setdefault(warned.name, []).append((article, warned))
        return [_warning(name, found) for name, found in told.items()]

    @property
    def count(self) -> int:
        """How many labels there are, with all copies."""
        return sum(article.copies for article, _ in self.drawings)

    @property
    def sheets(self) -> int:
        """How many pages they fill."""
        return -(-(self.start + self.count) // self.stock.cells) if self.count else 0

    def pages(self) -> Iterator[Page]:
        """The labels at their places, page by page."""
        page: Page = []
        cell = self.start
        for article, drawing in self.drawings:
            for _ in range(article.copies):
                place = self.stock.place(cell)
                left, top = (round((length + by) * self.look.dots) for length, by in zip(place, self.shift))
                page.append(Placed(left, top, drawing))
                cell += 1
                if cell == self.stock.cells:
                    yield page
                    page, cell = [], 0
        if page:
            yield page

    def pdf(self, title: str = "labels") -> bytes:
        """All pages."""
        from ._pdf import pdf_of  # Only here reportlab is needed.

        return pdf_of(self.pages(), self.stock, self.look, title)

    def svgs(self) -> Iterator[str]:
        """Each page."""
        return (svg_of(page, self.stock, self.look) for page in self.pages())

    def pngs(self) -> Iterator[bytes]:
        """Each page."""
        from ._dots import png_of

        return (png_of(page, self.stock, self.look) for page in self.pages())

    def zpl(self, settings: str = "") -> bytes:
        """All labels as ZPL II, behind the printer's settings. The printer makes the copies itself."""
        from ._dots import zpl_of

        return zpl_of(self._single(), self.look.turned, settings)

    def epl(self) -> bytes:
        """All labels as EPL2."""
        from ._dots import epl_of

        return b"".join(epl_of(image, self.look, copies) for image, copies in self._images())

    def tspl(self) -> bytes:
        """All labels as TSPL."""
        from ._dots import tspl_of

        size = self.stock.page if self.stock.has_row else (self.stock.width, self.stock.height)
        return b"".join(tspl_of(image, size, copies) for image, copies in self._images())

    def _images(self) -> Iterator[Tuple[Image, int]]:
        """The dots of each label, and how many copies it has."""
        from ._dots import image_of

        return ((image_of(drawing, self.look.turned), copies) for drawing, copies in self._single())

    def _single(self) -> Iterator[Tuple[Drawing, int]]:
        """What a label printer prints at a time, with how many copies: a label, or a row of them.

        :raises ValueError: the labels of a row are turned.
        """
        if not self.stock.has_row:
            yield from ((drawing, article.copies) for article, drawing in self.drawings if article.copies)
        elif self.look.turned:
            raise ValueError(translated("labels beside each other on a roll are not turned: leave --turn out"))
        else:
            width, height = (int(length * self.look.dots) for length in self.stock.page)
            yield from ((beside(page, width, height), 1) for page in self.pages())


def missing(form: str, has_font: bool) -> str:
    """What a format needs and this machine lacks, with what to do, in one line; empty if nothing is missing.

    Each needs a font, and PDF reportlab too. ``has_font`` says that the person has named a font, so none needs to be
    installed.
    """
    lacking = [] if form != "pdf" or REPORTLAB.is_there() else [REPORTLAB]
    try:
        lacking += [] if has_font or fonts_of() else [FONT]
    except ValueError:
        lacking.append(FONT)
    return sentence(form.upper(), lacking)


def _warning(name: str, found: Sequence[Tuple[Article, Warned]]) -> LabelWarning:
    """One warning for several labels, the worst first."""
    ranked = sorted(found, key=lambda it: it[1].rank)
    return LabelWarning(tuple(article.line for article, _ in ranked), said(name, *ranked[0][1].own))


def read_list(
    data: bytes, year: int, columns: Optional[Mapping[str, str]] = None, *, encoding: str = "", currency: str = "",
    is_free: bool = False, units: Sequence[str] = ()
) -> PriceList:
    """The articles of a CSV file or a spreadsheet, and the errors of its other lines. ``columns`` names your own
    headings, such as ``{"name": "Ware"}``, or columns by their numbers from 1; ``{"price": ""}`` says that labels have
    no price. The prices have the decimals of the currency; zero is a price if articles may be free. With
    ``units``, such as ``("100g", "l")``, labels show the price of one of them, by the column ``content``.

    :raises Faults: nobody can say what its columns are, or which of them is the price on the shelf.
    """
    table = table_of(data, year, columns, encoding, MOST_LINES)
    if table.question:
        raise Faults(sorted([table.question, *table.faults]))
    if units and "content" not in table.places:
        raise Faults([Fault(1, told("by", said("noContents"), "--column content=4"))])
    articles, faults = articles_of(table, year, currency, is_free, units)
    return PriceList(articles, faults, _notes(table, articles, units))


def _notes(table: Table, articles: Sequence[Article], units: Sequence[str]) -> List[str]:
    """What a person should know of how a list was read."""
    unpriced = [article.line for article in articles if not article.price] if "price" in table.places else []
    unmeasured = [article.line for article in articles if units and article.price and not article.fields[1]]
    unused = [name for name in table.unused if not units or name != said("quoted", table.captions["content"])]
    shown = [said("unused", ", ".join(unused))] if unused else []
    return [*table.notes(), *shown, *sentence_of_lines("unpriced", unpriced), *sentence_of_lines("unmeasured", unmeasured)]


def outlines(stock: Stock, look: Look, shift: Tuple[float, float] = (0.0, 0.0)) -> Labels:
    """A page of the edges of all labels, to lay over the stock."""
    cell = cell_of(stock, replace(look, turned=False))
    thick = max(1, round(look.dots / 5))
    edges = [(0, 0, cell.width, thick), (0, cell.height - thick, cell.width, thick), (0, 0, thick, cell.height), (cell.width - thick, 0, thick, cell.height)]
    drawing = Drawing(cell.width, cell.height, b"".join(BOX.pack(*edge) for edge in edges))
    article = Article(1, Kind.EAN13, "", read_scan("9501101530003", 2026), copies=stock.cells)
    return Labels(((article, drawing),), stock, replace(look, turned=False), 0, shift)


def make(
    prices: PriceList, stock: Stock, year: int, *, look: Look = Look(), start: int = 1, currency: str = "",
    fonts: Optional[Fonts] = None, shift: Tuple[float, float] = (0.0, 0.0), leave_out: bool = False,
    progress: Progress = lambda done, of: None
) -> Labels:
    """The labels of a list. ``start`` is the first free cell of the first sheet, from 1. The currency follows prices that are
    only numbers. With ``leave_out`` the lines that have an error are left out.

    :raises Faults: lines have an error, no symbol, no room, or characters that the font lacks; or there are no labels.
    :raises ValueError: the sheet has no such cell, or there are more than :data:`MOST_LABELS` labels.
    """
    if not 1 <= start <= stock.cells:
        raise ValueError(translated("the first label is to be in one of the cells 1 to {0}, and not in {1}", stock.cells, start))
    if sum(article.copies for article in prices.articles) > MOST_LABELS:
        raise ValueError(translated("the list asks for more than {0} labels: split it", count_text(MOST_LABELS)))
    articles = [replace(it, price=signed(it.price, currency)) for it in prices.articles] if currency else prices.articles
    layout = Layout(cell_of(stock, look), fonts or fonts_of(), look, year, articles)
    items, faults = _each(articles, articles, layout.item, lambda done, of: progress(done, 2 * of))
    left = sorted([*prices.faults, *faults])
    if left and not leave_out:
        raise Faults(left)
    layout.plan(items)
    drawings, faults = _each([item.article for item in items], items, lambda item: (item.article, layout.drawn(item)),
                             lambda done, of: progress(of + done, 2 * of))
    left = sorted([*left, *faults])
    if faults and not leave_out or not sum(article.copies for article, _ in drawings):
        raise Faults(left or [Fault(1, said("noLabels"))])
    return Labels(tuple(drawings), stock, look, start - 1, shift, tuple(left))


def _each(
    articles: Sequence[Article], given: Sequence[_Given], call: Callable[[_Given], _Made], progress: Progress
) -> Tuple[List[_Made], List[Fault]]:
    """What is made for each article, and what is wrong with those for which nothing is."""
    made, faults = [], []
    for done, (article, one) in enumerate(zip(articles, given), 1):
        try:
            made.append(call(one))
        except ValueError as error:
            faults.append(Fault(article.line, str(error)))
        if not done % 32:
            progress(done, len(articles))
    return made, faults
