"""Labels on pages, and pages as SVG: each bar at its dots, and texts as texts."""
from __future__ import annotations

from typing import List, NamedTuple
from xml.sax.saxutils import escape

from ._drawing import BOX, Drawing, Look, Text
from ._stocks import Stock


class Placed(NamedTuple):
    """A label on a page: its upper left corner in dots."""

    left: int
    top: int
    drawing: Drawing


Page = List[Placed]


def beside(page: Page, width: int, height: int) -> Drawing:
    """The labels of a page as one of this size."""
    row = Drawing(width, height)
    for left, top, drawing in page:
        row.dark += b"".join(BOX.pack(left + x, top + y, wide, high) for x, y, wide, high in drawing.boxes)
        row.texts += [text._replace(left=left + text.left, base=top + text.base, box=(left + text.box[0], top + text.box[1], *text.box[2:]))
                      for text in drawing.texts]
    return row


def svg_of(page: Page, stock: Stock, look: Look) -> str:
    """A page as SVG; a viewer with another font fits it to the same width."""
    width, height = (length * look.dots for length in stock.page)
    labels = "\n".join(_svg_label(placed, look.turned) for placed in page)
    return (f'<svg xmlns="http://www.w3.org/2000/svg" width="{stock.page[0]:g}mm" height="{stock.page[1]:g}mm" '
            f'viewBox="0 0 {width:.3f} {height:.3f}" font-family="Liberation Sans, Arial, Helvetica, sans-serif">\n'
            f'<rect width="100%" height="100%" fill="white"/>\n{labels}\n</svg>\n')


def _svg_label(placed: Placed, turned: bool) -> str:
    drawing = placed.drawing
    turn = f" translate({drawing.height}) rotate(90)" if turned else ""
    path = "".join(f"M{left} {top}h{width}v{height}h-{width}z" for left, top, width, height in drawing.boxes)
    texts = "".join(map(_svg_text, drawing.texts))
    return (f'<g transform="translate({placed.left} {placed.top}){turn}">'
            f'<path d="{path}" shape-rendering="crispEdges"/>{texts}</g>')


def _svg_text(text: Text) -> str:
    bold = ' font-weight="bold"' if text.font.is_bold else ' class="struck"' if text.is_struck else ""
    places = " ".join(f"{middle:.2f}" for _, middle in text.pieces())
    where = f'x="{places}" text-anchor="middle"'
    if not text.cell:
        where += f' textLength="{text.wide:.2f}" lengthAdjust="spacingAndGlyphs"'
    return f'<text {where} y="{text.base:.2f}" font-size="{text.size:.2f}"{bold}>{escape(text.text)}</text>'
