"""Make labels from a list: names, prices and barcodes on label stock

LIST is a CSV file or a spreadsheet, .xlsx or .ods. Its headings say which column is gtin (or ean, upc) or gs1, name,
price, copies, kind (ean13, upca, ean8, upce, itf14 or gs1128), old price, price per kg, deposit, best before, batch and
line 1, line 2, .. in English, German, French, Spanish, Italian, Dutch or Polish; a column of numbers without such a
heading is found by its cells. If lines have errors, each is reported with what to do, nothing is written, and the status is 1; --leave-out makes the labels of the others. If
several columns may be the price, the command asks, and --column price=HEADING answers. The end of FILE's name says the
format: .pdf, .svg, .png, or .zpl, .epl, .tspl for a label printer. Print a PDF file at 100 %.

  $ noriladle labels prices.csv --stock L7160 -o labels.pdf
"""
from __future__ import annotations

import argparse
import sys
from pathlib import Path
from typing import TYPE_CHECKING, Callable, Dict, List, Sequence, Tuple

from .._shop import count_text, counted, said, told, translated
from . import REFUSED, RIGHT, Progress, WrongWords, add_year, tell, write_files
from ._lists import add_list, add_price, columns_of, name_of, read_list

if TYPE_CHECKING:
    from ..labels import Fault, Labels, LabelWarning

FORMS = ("pdf", "svg", "png", "zpl", "epl", "tspl")
_FOR_PRINTERS = FORMS[3:]
_MOST_TOLD = 50
_SETTINGS = {"darkness": (0, 30, "~SD{:02}", "Darkness that .zpl asks for, 0 to 30 [default: as the printer is set]"),
             "speed": (1, 14, "^PR{}", "Inches a second that .zpl asks for, 1 to 14 [default: as the printer is set]")}
_MEDIA = {"gaps": "^MNW", "marks": "^MNM", "continuous": "^MNN"}


def add_arguments(parser: argparse.ArgumentParser) -> None:
    """Adds the arguments of ``noriladle labels``."""
    parser.add_argument("-o", "--output", metavar="FILE", help="File to write, or - for standard output [default: labels.pdf]")
    parser.add_argument("--to", choices=FORMS, metavar="FORM", help="Format of the file, if its name does not say it")
    parser.add_argument("--stock", default="3474", metavar="STOCK",
                        help="Label stock by its number, or by measures: 3x8:70x37 on A4, 57x32 on a roll [default: 3474]")
    parser.add_argument("--stocks", action="store_true", help="List the known numbers of stock, with their measures in mm")
    parser.add_argument("--align", action="store_true", help="Print a page of the labels' edges, to lay over the stock")
    parser.add_argument("--start", type=int, default=1, metavar="N", help="First free label of a sheet that is partly used [default: 1]")
    parser.add_argument("--shift", type=_shift, default=(0.0, 0.0), metavar="X,Y",
                        help="Move all labels right and down by this many mm [default: 0,0]")
    parser.add_argument("--dpi", type=int, choices=(203, 300, 600), metavar="DPI",
                        help="The printer's dots an inch: 203, 300 or 600 [default: 300; label printers 203]")
    parser.add_argument("--module", type=_length, metavar="MM",
                        help="Width of the narrowest bar [default: 0.33; ITF-14 and GS1-128 0.495]")
    parser.add_argument("--bars", type=_length, metavar="MM", help="Height of the bars [default: the standard's, if there is room]")
    parser.add_argument("--bearers", action="store_true", help="Draw a bar above and below each ITF-14")
    parser.add_argument("--look", choices=("price", "bars"), default="price", metavar="LOOK",
                        help="What is largest on a label that has a price: price or bars [default: price]")
    parser.add_argument("--turn", action="store_true", help="Turn the labels by 90 degrees on their stock")
    parser.add_argument("--currency", default="", metavar="SIGN", help="Sign to put behind prices without one, such as €")
    parser.add_argument("--unit-price", type=_units, default=(), metavar="UNIT,..",
                        help="Print the price of a unit, such as kg,l or 100g,100ml, by the column of the content")
    for name, (least, most, _, told_of) in _SETTINGS.items():
        parser.add_argument(f"--{name}", type=int, choices=range(least, most + 1), metavar="N", help=told_of)
    parser.add_argument("--media", choices=tuple(_MEDIA), metavar="MEDIA",
                        help="What .zpl says of the roll: gaps, marks or continuous [default: as the printer is set]")
    add_list(parser)
    add_price(parser)
    parser.add_argument("--leave-out", action="store_true",
                        help="Leave out lines that have errors, and make the labels of the others")
    parser.add_argument("--font", metavar="TTF", help="TrueType file for the texts [default: Liberation Sans, or what is installed]")
    parser.add_argument("--bold", metavar="TTF", help="TrueType file for names and prices")
    add_year(parser)


def _length(word: str) -> float:
    try:
        length = float(word.replace(",", "."))
    except ValueError:
        length = 0.0
    if not 0.05 <= length <= 500:
        raise argparse.ArgumentTypeError(translated("{0!r} is no length in mm", word))
    return length


def _units(word: str) -> List[str]:
    from .._amounts import measure_of  # Imported only here, since it takes time.

    units = word.split(",")
    for unit in units:
        if not (measure_of(unit) or ("", 0))[1]:
            raise argparse.ArgumentTypeError(translated("{0!r} is no unit, such as kg, 100g or l", unit))
    return units


def _shift(word: str) -> Tuple[float, float]:
    try:
        across, down = (float(part) for part in word.split(","))
    except ValueError:
        across = down = 1000.0
    if not (abs(across) <= 20 and abs(down) <= 20):
        raise argparse.ArgumentTypeError(translated("{0!r} is not two lengths of at most 20 mm, as 0.5,-1", word))
    return across, down


def run(words: argparse.Namespace) -> int:
    """Writes the labels of a list: all or none, unless faulty lines are left out."""
    if words.stocks:
        from ..labels import KNOWN
        print("\n".join(f"{name}\t{text}" for name, text in KNOWN.items()))
        return RIGHT
    words.output = words.output or f"labels.{words.to or 'pdf'}"
    form = _form(words)
    if form != "zpl" and (words.media or any(getattr(words, name) is not None for name in _SETTINGS)):
        raise WrongWords(translated("--darkness, --speed and --media are for .zpl: leave them out"))
    from .. import labels as shop
    _need(shop.missing(form, bool(words.font)))
    if words.align:
        return _align(words, form)
    columns, name = columns_of(words), name_of(words)
    look = shop.Look(_dpi(words, form), words.module, words.bars, words.bearers, words.turn, words.look == "price")
    progress, prices = Progress(), None
    try:
        stock, fonts = shop.stock_of(words.stock), shop.fonts_of(words.font, words.bold)
        prices = shop.read_list(read_list(words), words.year, columns, encoding=words.encoding or "",
                                currency=words.currency, is_free=words.free, units=words.unit_price)
        if not prices.faults and not any(article.copies for article in prices.articles):
            tell(f"{name}:1: {said('noLabels')}")
            return REFUSED
        for note in prices.notes:
            tell(f"{name}: {note}")
        made = shop.make(
            prices, stock, words.year, look=look, start=words.start, currency=words.currency, fonts=fonts, shift=words.shift,
            leave_out=words.leave_out, progress=lambda done, of: progress(told("drawing", 100 * done // of)))
        progress(told("writing", count_text(made.sheets)))
        files = _files(made, form, words)
    except shop.Faults as error:
        progress.end()
        _tell_faults(name, error.faults)
        if prices:
            tell(f"{name}: {counted('refused', len(error.faults))}")
        return REFUSED
    except ValueError as error:
        progress.end()
        raise WrongWords(str(error)) from error
    progress.end()
    _tell_warnings(name, made.warnings)
    _write(words.output, files)
    if made.left_out:
        for line, fault in made.left_out:
            tell(f"{name}:{line}: {fault}")
        tell(f"{name}: {counted('leftOut', len({line for line, _ in made.left_out}))}")
    pages = "" if form in _FOR_PRINTERS else counted("onPages", made.sheets)
    tell(f"{counted('labels', made.count)}{pages}{_where(words.output, files)}")
    return REFUSED if made.left_out else RIGHT


def _dpi(words: argparse.Namespace, form: str) -> int:
    return words.dpi or (203 if form in _FOR_PRINTERS else 300)


def _align(words: argparse.Namespace, form: str) -> int:
    """Writes the edges of the labels of a page."""
    from .. import labels as shop
    try:
        made = shop.outlines(shop.stock_of(words.stock), shop.Look(_dpi(words, form)), words.shift)
        files = _files(made, form, words)
    except ValueError as error:
        raise WrongWords(str(error)) from error
    _write(words.output, files)
    tell(f"{counted('labels', made.count)}{counted('onPages', made.sheets)}{_where(words.output, files)}")
    return RIGHT


def _settings(words: argparse.Namespace) -> str:
    """What a file says of the printer's settings."""
    asked = [form.format(getattr(words, name)) for name, (_, _, form, _) in _SETTINGS.items() if getattr(words, name) is not None]
    asked += [_MEDIA[words.media]] if words.media else []
    return f"^XA{''.join(asked)}^XZ\n" if asked else ""


def _need(missing: str) -> None:
    if missing:
        raise WrongWords(missing)


def _where(output: str, files: Sequence[Tuple[Path, bytes]]) -> str:
    """Where the labels are."""
    if output == "-":
        return ""
    return told("inFile", files[0][0]) if len(files) == 1 else told("inFiles", files[0][0], files[-1][0])


def _form(words: argparse.Namespace) -> str:
    """What is to be written, by a word or by the end of the file's name.

    :raises WrongWords: there is no such format or no such folder, or the output would go to a terminal.
    """
    ending = Path(words.output).suffix[1:].lower()
    form: str = words.to or ("pdf" if words.output == "-" else ending)
    if form not in FORMS:
        raise WrongWords(translated("{0}: the end of the name says no form: write .{1}, or --to FORM", words.output, ", .".join(FORMS)))
    if words.output == "-" and sys.stdout.isatty():
        raise WrongWords(translated("a terminal shows no {0}: write a file, as in -o labels.{1}", form.upper(), form))
    if words.output != "-" and not Path(words.output).parent.is_dir():
        raise WrongWords(translated("{0}: there is no folder {1}", words.output, Path(words.output).parent))
    return form


def _files(made: Labels, form: str, words: argparse.Namespace) -> List[Tuple[Path, bytes]]:
    """What is written of labels, file by file: those of a page each have its number.

    :raises WrongWords: several files would go to standard output.
    """
    title = "labels" if words.list == "-" else Path(words.list).stem
    if form in ("svg", "png"):
        pages = [text.encode() for text in made.svgs()] if form == "svg" else list(made.pngs())
    else:
        write: Dict[str, Callable[[], bytes]] = {"zpl": lambda: made.zpl(_settings(words)), "epl": made.epl, "tspl": made.tspl}
        pages = [made.pdf(title) if form == "pdf" else write[form]()]
    path = Path(words.output)
    if len(pages) == 1:
        return [(path, pages[0])]
    if words.output == "-":
        raise WrongWords(translated("{0} pages are {0} files: write them, as in -o labels.{1}", len(pages), form))
    wide = len(str(len(pages)))
    return [(path.with_name(f"{path.stem}-{number:0{wide}}{path.suffix}"), data) for number, data in enumerate(pages, 1)]


def _write(output: str, files: Sequence[Tuple[Path, bytes]]) -> None:
    if output == "-":
        sys.stdout.buffer.write(files[0][1])
        return
    try:
        write_files(files)
    except OSError as error:
        raise OSError(error.errno, f"{error.strerror}; nothing was written", output) from error


def _more(lines: Sequence[int]) -> str:
    """How many more lines have the same error."""
    return counted("more", len(lines) - 1) if len(lines) > 1 else ""


def _tell_faults(name: str, faults: Sequence[Fault]) -> None:
    """Reports each error once, even if several lines have it."""
    lines: Dict[str, List[int]] = {}
    for line, fault in faults:
        lines.setdefault(fault, []).append(line)
    for fault, places in list(lines.items())[:_MOST_TOLD]:
        tell(f"{name}:{places[0]}: {fault}{_more(places)}")
    if len(lines) > _MOST_TOLD:
        tell(f"{name}: {counted('moreFaults', len(lines) - _MOST_TOLD)}")


def _tell_warnings(name: str, warnings: Sequence[LabelWarning]) -> None:
    for lines, warning in warnings:
        tell(f"{name}:{lines[0]}: {told('warning', warning)}{_more(lines)}")
