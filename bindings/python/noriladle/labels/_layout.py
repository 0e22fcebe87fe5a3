"""Labels as the proved library lays them out (``gs1_measure``, ``gs1_plan`` and ``gs1_draw`` of gs1.h)."""
from __future__ import annotations

import ctypes
import math
import struct
from array import array
from functools import cached_property
from itertools import islice
from string import digits
from typing import List, NamedTuple, Sequence, Set, Tuple

from .. import Kind, LabelSymbol, Refusal, _library, _terms, label_symbol
from .._shop import count_text, localized, said, shared, told, translated
from ._articles import Article
from ._drawing import BOX, DOTS_IN_MM, RESOLUTIONS, Cell, Drawing, Look, Text, Warned, cell_of
from ._fonts import Font, Fonts
from ._stocks import KNOWN, stock_of

_LOGISTIC_MM = 0.495
_MOST_MM = 1_000
_STRIP_MM = 6.0
"""The height that bars below a large price need; the standard asks for more."""
_UP, _DOWN, _OVERSHOOT = 0.9, 0.22, 0.02
"""How far most letters go up above their base line and down below it, and round digits below it, in sizes."""
_MOST_PARTS, _ROW = 400, 8192
_BAR, _LETTERS, _LINES, _CUT, _BOLD, _STRUCK = 0, 2, 7, 1, 2, 4
_NO_SYMBOL, _TOO_WIDE, _NO_MODULE = 26, 27, 52
_SAID = {53: "noBars", 54: "noPlace", 55: "noHeight", 56: "manyFurther"}
"""The errors of labels by their numbers in gs1.h, and their texts in tables/shop/."""
_PART, _INK, _DRAWN = struct.Struct("<7H2B4L"), 14, struct.Struct("<2L6H")
"""``struct gs1_part``, where its ink stands, and ``struct gs1_drawing``."""
_U16, _U32, _SIZE, _DOUBLE = ctypes.c_uint16, ctypes.c_uint32, ctypes.c_size_t, ctypes.c_double


class _Lent(ctypes.Structure):
    _fields_ = [("at", ctypes.c_char_p), ("count", _SIZE)]


class _Article(ctypes.Structure):
    _fields_ = [("text", _Lent), ("texts", _Lent * 8), ("kind", _U32), ("bearers", _U32)]


class _Font(ctypes.Structure):
    _fields_ = [("widths", _Lent), ("other", _U16), ("ascent", _U16), ("descent", _U16), ("digits", _U16)]


class _Look(ctypes.Structure):
    _fields_ = [*((name, _DOUBLE) for name in ("aside", "above", "dots", "module_mm", "bars_mm")),
                ("width", _U16), ("height", _U16), ("price_first", _U32), ("fonts", _Font * 2)]


class _Measure(ctypes.Structure):
    _fields_ = [("wide", _U32), ("price", _U32), ("retail", ctypes.c_uint8)]


_Plan = _DOUBLE * 6


class Item(NamedTuple):
    """An article, as it is lent to the library, and what its label counts for the others."""

    article: Article
    texts: Sequence[str]
    lent: _Article
    measure: _Measure


class Layout:
    """Lays out the labels of a list."""

    def __init__(self, cell: Cell, fonts: Fonts, look: Look, year: int, articles: Sequence[Article]) -> None:
        self._cell, self._fonts, self._own = cell, fonts, look
        self._year, self._terms = year, _terms(year, "all")
        letters = set("… ").union(*(text for article in articles for text in (*_texts(article), article.answer.text)))
        for font in fonts:
            font.borrow(letters - {"\n"})
        self._lacking = {letter for font in fonts for letter in font.lacks("".join(letters))}
        lent_fonts = (_Font * 2)(*(_lent_font(font, letters) for font in fonts))
        self._look = _Look(cell.aside, cell.above, cell.dots, look.module_mm or 0, look.bars_mm or 0,
                           cell.width, cell.height, look.is_price_first, lent_fonts)
        self._plan = _Plan()
        sizes = _ROW, _MOST_PARTS * _PART.size, _DRAWN.size
        self._row, self._parts, self._drawn = map(ctypes.create_string_buffer, sizes)

    def item(self, article: Article) -> Item:
        """An article with its measure.

        :raises ValueError: the label has no room for its symbol, there is no such symbol, or the font lacks a letter.
        """
        texts = _texts(article)
        lacking = sorted(self._lacking.intersection("".join(texts)))
        if lacking:
            raise ValueError(told("notSet", ", ".join(map(repr, lacking[:5]))))
        number = article.text.encode("ascii")
        lent = _Article(_Lent(number, len(number)), kind=article.kind.value, bearers=self._own.bearers)
        for place, text in enumerate(texts):
            lent.texts[place] = _Lent(text.encode("utf-32-le"), len(text))
        measure = _Measure()
        self._check(_library.gs1_measure(_at(self._look), _at(lent), self._terms, _at(measure)), article)
        return Item(article, texts, lent, measure)

    def plan(self, items: Sequence[Item]) -> None:
        """Notes what the labels of these articles have in common, so that their sheets look even."""
        measures = (_Measure * len(items))(*(item.measure for item in items))
        if _library.gs1_plan(_at(self._look), measures, len(items), self._plan):
            raise ValueError(said("misdrawn"))

    def drawn(self, item: Item) -> Drawing:
        """The label of an article.

        :raises ValueError: it has no room.
        """
        fault = _library.gs1_draw(_at(self._look), self._plan, _at(item.lent), self._terms,
                                  self._row, _ROW, self._parts, _MOST_PARTS, self._drawn)
        self._check(fault, item.article)
        count, nominal, width, height, top, end, _, module = _DRAWN.unpack(self._drawn)
        drawing = Drawing(width, height)
        self._put(drawing, item, self._parts.raw[:count * _PART.size])
        dots, high = self._cell.dots, (end - top) / self._cell.dots
        wanted = nominal / 64 / dots
        if high < (_STRIP_MM if self._has_strip(item.article) else wanted) - 0.1:
            lengths = localized(f"{high:.1f}"), localized(f"{wanted:.1f}")
            drawing.warnings.append(Warned("low", lengths, high / wanted))
        if not item.measure.retail and module / dots < _LOGISTIC_MM - 1e-6:
            lengths = localized(f"{module / dots:.3f}"), localized(f"{_LOGISTIC_MM}")
            drawing.warnings.append(Warned("narrow", lengths, module))
        return drawing

    def _put(self, drawing: Drawing, item: Item, parts: bytes) -> None:
        """Puts parts into a drawing, with a warning of each text that is cut."""
        behind = _PART.size * parts[_INK::_PART.size].count(_BAR)
        drawing.dark = parts[:behind]
        texts = (*item.texts, _symbol(item.article, self._year).text)
        for left, top, wide, high, *letters in _PART.iter_unpack(parts[behind:]):
            field, first, count, ink, flags, size, start, base, step = letters
            if ink != _LETTERS:
                drawing.dark += BOX.pack(left, top, wide, high)
                continue
            text, font = texts[field][first:first + count], self._fonts.bold if flags & _BOLD else self._fonts.regular
            if flags & _CUT:
                begin = texts[field].rfind("\n", 0, first) + 1 if field == _LINES else 0
                text += "…"
                drawing.warnings.append(Warned("cut", (f"{' '.join(texts[field][begin:first + count].split())}…",)))
            if flags & _STRUCK:
                drawing.dark += BOX.pack(left, top + high // 2, wide, max(1, high // 14))
            # Letters such as j begin left of their origin.
            start += max(0.0, -size * font.ink(text[0]).left)
            drawing.texts.append(Text(text, font, size / 64, start / 64, base / 64, step / 64, (left, top, wide, high), bool(flags & _STRUCK)))

    def _check(self, fault: int, article: Article) -> None:
        """Raises the error of this number, with what to do."""
        if not fault:
            return
        if fault == _TOO_WIDE:
            raise ValueError(self._too_wide(article))
        if fault == _NO_MODULE:
            least, _, most = shared("modules")["cases" if article.kind in (Kind.GS1128, Kind.ITF14) else "retail"]
            raise ValueError(said("noModule", localized(f"{least}"), localized(f"{most}")))
        if fault <= _NO_SYMBOL:
            _symbol(article, self._year)
        other = f"{said('largeBars')} (--look bars)" if self._has_strip(article) else ""
        raise ValueError(said(_SAID.get(fault, "misdrawn"), other))

    def _too_wide(self, article: Article) -> str:
        """The error that no module has room, with what to do."""
        width, height, aside, above, dots = self._cell
        finest = max(RESOLUTIONS)
        fine = DOTS_IN_MM[finest] / dots
        wider = ((it, self._wide_on(article, Cell(math.ceil(it * dots), height, aside, above, dots))) for it in range(math.ceil(width / dots), _MOST_MM))
        least, needed = next((it for it in wider if it[1]), (0, 0))
        names = islice((name for wide, name, other in self._stocks if wide >= least and self._wide_on(article, other)), 3)
        named = ", ".join(names)
        ways = [said("wider", count_text(least), f" ({named})" if named else "")]
        if self._wide_on(article, Cell(int(width * fine), int(height * fine), aside * fine, above * fine, dots * fine)):
            ways.append(f"{said('finer', finest)} (--dpi {finest})")
        if self._wide_on(article, Cell(height, width, above, aside, dots)):
            ways.append(told("turn"))
        if article.kind is Kind.GS1128:
            ways.append(said("fewer"))
        lengths = localized(f"{width / dots:.1f}"), localized(f"{needed / dots:.1f}")
        return said("tooWide", *lengths, f";{translated(' or ')}".join(ways))

    @cached_property
    def _stocks(self) -> Sequence[Tuple[float, str, Cell]]:
        """All known stock by its width."""
        return sorted((it.width, name, cell_of(it, self._own)) for name, it in zip(KNOWN, map(stock_of, KNOWN)))

    def _wide_on(self, article: Article, cell: Cell) -> int:
        """How many dots the barcode of an article with its quiet zones is wide on a label; 0 if it has no room there."""
        look, measure, number = _Look.from_buffer_copy(self._look), _Measure(), article.text.encode("ascii")
        look.width, look.height, look.aside, look.above, look.dots = cell
        fault = _library.gs1_measure(_at(look), _at(_Article(_Lent(number, len(number)), kind=article.kind.value)), self._terms, _at(measure))
        return 0 if fault else int(measure.wide)

    def _has_strip(self, article: Article) -> bool:
        """Whether the bars are a strip below a large price."""
        return self._own.is_price_first and bool(article.price)


def _at(lent: ctypes.Structure) -> object:
    return ctypes.byref(lent)


def _texts(article: Article) -> Sequence[str]:
    """The texts of a label by their numbers in gs1.h: its name, its price, its fields and its further lines."""
    texts = article.name, article.price, *(article.fields or [""] * 5), "\n".join(article.lines)
    # How an emoji is to look is no letter.
    return [text if text.isascii() else text.replace("\ufe0f", "") for text in texts]


def _lent_font(font: Font, letters: Set[str]) -> _Font:
    """A font with the widths and heights of these letters. Lines are farther apart if some are higher than most."""
    inks = {letter: font.ink(letter) for letter in letters | set(digits)}
    table = array("H", bytes(2 * (1 + max(map(ord, inks)))))
    for letter, ink in inks.items():
        table[ord(letter)] = _unit(max(0.0, -ink.left) + max(ink.right, font.width(letter), 1e-4))
    up, down = max(_UP, *(ink.top for ink in inks.values())), max(_DOWN, *(-ink.bottom for ink in inks.values()))
    heights = font.widths.other, up, down, max(inks[digit].top for digit in digits) + _OVERSHOOT
    return _Font(_Lent(table.tobytes(), len(table)), *map(_unit, heights))


def _unit(length: float) -> int:
    """A length of a font as gs1.h has it, rounded up."""
    return min(65535, math.ceil(16384 * length))


def _symbol(article: Article, year: int) -> LabelSymbol:
    """The symbol of an article.

    :raises ValueError: there is none; the message says what to do.
    """
    try:
        # These are elements, also if their digits may be a GTIN.
        return label_symbol(article.kind, f"^{article.text}" if article.kind is Kind.GS1128 else article.text, year)
    except Refusal as refusal:
        raise ValueError(f"{article.text}: {refusal}: {refusal.remedy}".replace("\x1d", "^")) from None


# ---- what to do if no module has room
