"""Labels on pages, as PDF: each bar at its dots, and texts as texts. Needs reportlab."""
from __future__ import annotations

import io
from functools import lru_cache
from itertools import groupby
from operator import itemgetter
from pathlib import Path
from typing import Dict, Iterable, Tuple

try:
    from reportlab.pdfbase import pdfmetrics
    from reportlab.pdfbase.ttfonts import TTFError, TTFont
    from reportlab.pdfgen.canvas import Canvas
except ImportError as error:
    raise ImportError("labels as PDF need reportlab: pip install 'noriladle[labels]'") from error

from ._drawing import Drawing, Look, Text
from ._fonts import Font
from ._pages import Page
from ._stocks import Stock

_INSET = 0.05
"""How many dots PDF lacks at each edge of a box, since some programs blacken every dot that a box touches."""
_POINTS = 72 / 25.4


def pdf_of(pages: Iterable[Page], stock: Stock, look: Look, title: str) -> bytes:
    """All pages as one PDF, for printing at 100 %."""
    out, point = io.BytesIO(), _POINTS / look.dots
    width, height = (length * _POINTS for length in stock.page)
    canvas = Canvas(out, pagesize=(width, height), invariant=1, pageCompression=1)
    canvas.setTitle(title)
    canvas.setCreator("noriladle")
    canvas.setAuthor("")
    canvas.setSubject("")
    canvas.setViewerPreference("PrintScaling", "None")
    codes: Dict[bool, _Codes] = {}
    for page in pages:
        for placed in page:
            turn = f"0 -1 1 0 {placed.drawing.height} 0 cm " if look.turned else ""
            canvas.addLiteral(f"q {point:.6f} 0 0 {point:.6f} {placed.left * point:.4f} {height - placed.top * point:.4f} cm {turn}")
            _draw_pdf(canvas, placed.drawing, codes)
        canvas.showPage()
    canvas.save()
    return out.getvalue()


def _draw_pdf(canvas: Canvas, drawing: Drawing, codes: Dict[bool, _Codes]) -> None:
    """Draws a label below the origin, in dots. Its boxes are one path, whose origin moves by what they lack."""
    boxes = [f"{left} {-top - height} {width - 1}.9 {height - 1}.9 re" for left, top, width, height in drawing.boxes]
    texts = [_shown(text, codes.get(text.font.is_bold) or codes.setdefault(text.font.is_bold, _Codes(text.font, canvas))) for text in drawing.texts]
    canvas.addLiteral("\n".join([f"q 1 0 0 1 {_INSET} {_INSET} cm", *boxes, "f Q BT", *texts, "ET Q"]))


class _Codes(Dict[str, Tuple[str, str]]):
    """The letters of a font in a PDF file so far: each with the name of a font there, and its code in that."""

    def __init__(self, font: Font, canvas: Canvas) -> None:
        self._font, self._document = font, canvas._doc

    def __missing__(self, letter: str) -> Tuple[str, str]:
        font = _set_in(self._font.path_of(letter))
        (subset, code), = font.splitString(letter, self._document)
        self[letter] = font.getSubsetInternalName(subset, self._document), code.hex()
        return self[letter]


def _shown(text: Text, codes: _Codes) -> str:
    """The operators that show a text (ISO 32000-1, 9.4). reportlab's own ways take three times the time for a sheet."""
    space = text.cell and text.cell - text.font.width("0", text.size)
    pieces = [f"{name} {text.size:.3f} Tf <{''.join([code for _, code in letters])}> Tj"
              for name, letters in groupby(map(codes.__getitem__, text.text), itemgetter(0))]
    return f"{space:.3f} Tc 1 0 0 1 {text.left + space / 2:.3f} {-text.base:.3f} Tm {' '.join(pieces)}"


@lru_cache(maxsize=None)
def _set_in(path: Path) -> TTFont:
    """The font of a file as reportlab puts it into PDF files.

    :raises ValueError: reportlab cannot put it into PDF files.
    """
    try:
        pdfmetrics.registerFont(TTFont(path.stem, str(path)))
    except TTFError as error:
        raise ValueError(f"{path}: this font cannot stand in PDF files: {error}") from error
    return pdfmetrics.getFont(path.stem)
