"""Read the barcodes of photographs, scans and PDF files

Prints a line for each barcode, with tabs between: the picture, the symbology identifier, the elements, and its place in
pixels from the left and upper edge: left, top, right and bottom. A file of several pages has the number of the page
behind its name; pdftoppm draws the pages of a PDF file with 300 pixels an inch. The status is 1 if a picture shows no
barcode that can be read, and 2 if it cannot be opened.

  $ noriladle read photo.jpg
"""
from __future__ import annotations

import argparse
import contextlib
import io
import json
import os
import re
import shutil
import sys
import warnings
from collections import deque
from concurrent.futures import Future, ThreadPoolExecutor
from functools import partial
from typing import TYPE_CHECKING, Any, Callable, Deque, Iterator, List, NamedTuple, Optional, Tuple, Union

from .. import Refusal, Symbol, Symbols
from .._needs import NUMPY, PDFTOPPM, PILLOW, sentence
from .._shop import count_text, told
from . import REFUSED, RIGHT, WRONG_WORDS, Progress, WrongWords, add_ais, add_year, data_of, tell

if TYPE_CHECKING:
    from PIL import Image

DPI = 300
"""The pixels per inch of pages of PDF files."""

_PATIENCE = 60
"""How many seconds pdftoppm may take for a page."""
_MOST_PAGES, _MOST_BYTES = 10_000, 1_000_000_000
_ADVICE = {13: "characterUnclear", 21: "leaveLight", 22: "comeNearer", 23: "comeNearer", 24: "digitUnclear"}
"""What to do about a picture whose furthest row has this error: blur and small bars look like damage in a row."""
_PHOTOS_OF_TELEPHONES = (b"ftypheic", b"ftypheix", b"ftyphevc", b"ftypmif1", b"ftypmsf1", b"ftypavif")


def add_arguments(parser: argparse.ArgumentParser) -> None:
    """Adds the arguments of ``noriladle read``."""
    parser.add_argument("pictures", nargs="+", metavar="PICTURE",
                        help="JPEG, PNG, TIFF, PBM, PGM, PPM, BMP, GIF, WebP or PDF; - is standard input")
    parser.add_argument("--json", action="store_true", help="Print a JSON object for each barcode")
    add_year(parser)
    add_ais(parser)


class Page(NamedTuple):
    """A page of a file, or a whole picture, which has no number."""

    name: str
    number: Optional[int]
    pixels: float
    image: Callable[[], "Image.Image"]
    """Loads its image, or draws it."""

    def __str__(self) -> str:
        return self.name if self.number is None else f"{self.name}:{self.number}"


class Unopened(Exception):
    """Why a file is not opened, in words."""


def run(words: argparse.Namespace) -> int:
    """Reads each picture, and prints a line for each barcode."""
    needed = [NUMPY, PILLOW, *([PDFTOPPM] if any(name.lower().endswith(".pdf") for name in words.pictures) else [])]
    if not (NUMPY.is_there() and PILLOW.is_there()):
        raise WrongWords(sentence("reading", [it for it in needed if not it.is_there()]))
    from .. import picture

    def read(page: Page) -> Symbols:
        return picture.read(page.image(), words.year, ais=words.ais)

    # Pillow warns about damage that does not keep it from reading.
    warnings.simplefilter("ignore")
    status, progress, is_later = RIGHT, Progress(), False
    for count, name in enumerate(words.pictures, 1):
        try:
            for page, found in _side_by_side(_pages_of(name), read, picture.MOST_PIXELS):
                progress(told("reading", page, count, len(words.pictures)), at_once=is_later)
                is_later = True
                shown = found.result()
                progress.end()
                for symbol in shown:
                    print(_line(page, symbol, words.json), flush=sys.stdout.isatty())
                if shown.dropped:
                    tell(f"{page}: {told('moreSymbols', shown.dropped)}")
                    status = max(status, REFUSED)
                if not shown:
                    tell(f"{page}: {told('noSymbol', _why(shown.reason))}")
                    status = max(status, REFUSED)
        except Refusal as refusal:
            tell(f"{name}: {told('tooManyPixels', refusal, count_text(picture.MOST_PIXELS))}")
            status = max(status, REFUSED)
        except Unopened as error:
            progress.end()
            tell(f"{name}: {error}")
            status = WRONG_WORDS
    return status


def _side_by_side(pages: Iterator[Page], read: Callable[[Page], Symbols], most: int) -> Iterator[Tuple[Page, "Future[Symbols]"]]:
    """The pages of a file in their order, with what they show. As many are read at once as there are processors; together they have
    at most this many pixels, as the largest picture has."""
    processors = os.cpu_count() or 1
    under_way: Deque[Tuple[Page, "Future[Symbols]"]] = deque()
    reason: Union[Refusal, Unopened, None] = None
    with ThreadPoolExecutor(processors) as pool:
        try:
            try:
                for page in pages:
                    while under_way and (len(under_way) == processors or page.pixels + sum(it.pixels for it, _ in under_way) > most):
                        yield under_way.popleft()
                    under_way.append((page, pool.submit(read, page)))
            except (Refusal, Unopened) as error:
                reason = error
            while under_way:
                yield under_way.popleft()
        finally:
            for _, found in under_way:
                found.cancel()
    if reason:
        raise reason


def _why(reason: Optional[Refusal]) -> str:
    """Why a picture shows no barcode that is read, by the row that came furthest, and what to do."""
    if reason is None:
        return f": {told('kindsRead')}"
    advice = _ADVICE.get(reason.number)
    return f": {reason}: {told(advice) if advice else reason.remedy}"


def _line(page: Page, symbol: Symbol, as_json: bool) -> str:
    """The line of a barcode."""
    answer, box = symbol.answer, symbol.box
    if not as_json:
        return f"{page}\t{answer.identifier}\t{answer.text}\t{','.join(map(str, box))}"
    data = {"file": page.name, **({} if page.number is None else {"page": page.number}), **data_of(answer),
            "box": list(box), "corners": [list(corner) for corner in symbol.corners], "rows": symbol.rows}
    return json.dumps(data, ensure_ascii=False)


def _pages_of(name: str) -> Iterator[Page]:
    """The pictures of a file.

    :raises Refusal: 44 ``InputSize`` for too many pixels.
    :raises Unopened: the file cannot be read, or is no picture.
    """
    try:
        if name == "-":
            data = sys.stdin.buffer.read(_MOST_BYTES + 1)
        else:
            with open(name, "rb") as file:
                data = file.read(_MOST_BYTES + 1)
    except OSError as error:
        raise Unopened(error.strerror or str(error)) from error
    if len(data) > _MOST_BYTES:
        raise Unopened(told("tooManyBytes", count_text(_MOST_BYTES)))
    if data[:1024].lstrip().startswith(b"%PDF-"):
        yield from _pdf_pages(name, data)
    elif data[4:12] in _PHOTOS_OF_TELEPHONES:
        raise Unopened(told("photo"))
    else:
        yield from _pictures(name, data)


@contextlib.contextmanager
def _damage() -> Iterator[None]:
    """Names damage of a picture."""
    from ..picture import DAMAGES

    try:
        yield
    except Refusal:
        raise
    except DAMAGES as error:
        is_known = type(error).__name__ != "UnidentifiedImageError"
        raise Unopened(told("damagedPicture" if is_known else "noPicture")) from error


def _pictures(name: str, data: bytes) -> Iterator[Page]:
    """The picture of a file, or the pages of a TIFF."""
    from ..picture import opened

    with _damage():
        with opened(io.BytesIO(data)) as image:
            pages = getattr(image, "n_frames", 1) if image.format == "TIFF" else 1
        for number in range(pages):
            frame = opened(io.BytesIO(data), number)
            yield Page(name, number + 1 if pages > 1 else None, frame.width * frame.height, partial(_loaded, frame))


def _loaded(frame: "Image.Image") -> "Image.Image":
    with _damage():
        frame.load()
    return frame


def _pdf_pages(name: str, data: bytes) -> Iterator[Page]:
    """The pages of a PDF file, as pdftoppm draws them."""
    from ..picture import MOST_PIXELS

    if not (shutil.which("pdftoppm") and shutil.which("pdfinfo")):
        raise Unopened(told("noPoppler"))
    for number, (width, height) in enumerate(_sizes(data), 1):
        pixels = width * height * (DPI / 72) ** 2
        if pixels > MOST_PIXELS:
            raise Refusal(44, "InputSize")
        yield Page(name, number, pixels, partial(_drawn, data, number))


def _drawn(data: bytes, number: int) -> "Image.Image":
    """A page of a PDF file, as pdftoppm draws it."""
    from ..picture import DAMAGES, opened

    drawn = _run(["pdftoppm", "-r", str(DPI), "-gray", "-f", str(number), "-l", str(number), "-"], data, number)
    try:
        return opened(io.BytesIO(drawn))
    except DAMAGES as error:
        raise Unopened(told("noPage", number)) from error


def _sizes(data: bytes) -> List[Tuple[float, float]]:
    """The widths and heights of the pages of a PDF file, in points."""
    shown = _run(["pdfinfo", "-f", "1", "-l", str(_MOST_PAGES), "-"], data, 0).decode("utf-8", "replace")
    sizes = re.findall(r"^Page +\d+ size: +([\d.]+) x ([\d.]+) pts", shown, re.MULTILINE)
    return [(float(width), float(height)) for width, height in sizes]


def _run(words: List[str], data: bytes, number: int) -> bytes:
    """The output of a program of poppler's for a PDF file.

    :raises Unopened: it fails, or takes too long.
    """
    import subprocess  # Imported only here, since it takes time.

    try:
        run = subprocess.run(words, input=data, stdout=subprocess.PIPE, stderr=subprocess.PIPE, timeout=_PATIENCE)
    except subprocess.TimeoutExpired:
        raise Unopened(told("slowPage", number, words[0], _PATIENCE)) from None
    if run.returncode:
        lines: List[Any] = run.stderr.decode("utf-8", "replace").strip().splitlines()
        raise Unopened(told("notOpened", words[0], lines[-1] if lines else f"status {run.returncode}"))
    return run.stdout
