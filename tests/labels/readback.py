"""Reads back what `noriladle labels` writes, label by label: readback.py LISTS WORK, where LISTS is this folder.

It cuts out each label with its whole cell, and must read exactly that label. Prints a line for each format; the last one
has the counts.
"""
from __future__ import annotations

import base64
import concurrent.futures
import csv
import html
import io
import itertools
import json
import os
import re
import shutil
import subprocess
import sys
import xml.etree.ElementTree
from typing import Any, Callable, Iterable, Iterator, List, Sequence

from PIL import Image

from labels_of_lists import Label, gtin12, labels_of

sys.path.insert(0, os.path.join(os.path.dirname(os.path.abspath(__file__)), "..", "commands"))
from kinds import KINDS

LISTS, WORK = sys.argv[1:]
YEAR = "2026"
POOL, READING = concurrent.futures.ThreadPoolExecutor(4), concurrent.futures.ThreadPoolExecutor(3)
BATCH = 25
COUNTS = {"labels": 0, "noriladle": 0, "zbarimg": 0, "ZXingReader": 0, "digits": 0, "of": 0}
FAULTS: list[str] = []
Image.MAX_IMAGE_PIXELS = None

# Columns, rows, width, height, gaps, page in mm: as the makers have them, and the printer's dots an inch.
SHEETS = {
    "L7159": (3, 8, 63.5, 33.9, 2.54, 0, 210, 297), "L7160": (3, 7, 63.5, 38.1, 2.54, 0, 210, 297),
    "L7162": (2, 8, 99.1, 33.9, 2.54, 0, 210, 297), "L7163": (2, 7, 99.1, 38.1, 2.54, 0, 210, 297),
    "L7651": (5, 13, 38.1, 21.2, 2.54, 0, 210, 297), "3474": (3, 8, 70, 37, 0, 0, 210, 297), "3424": (2, 6, 105, 48, 0, 0, 210, 297),
    "3483": (2, 2, 105, 148, 0, 0, 210, 297), "5160": (3, 10, 66.675, 25.4, 3.175, 0, 215.9, 279.4),
    "2x10:90x27+5+1@letter": (2, 10, 90, 27, 5, 1, 215.9, 279.4),
}


def run(*words: str, data: bytes = b"") -> bytes:
    """What a program writes on standard output, whatever it ends with: some readers say so that they found nothing."""
    return subprocess.run(words, input=data, stdout=subprocess.PIPE, stderr=subprocess.DEVNULL).stdout


def noriladle(*words: str) -> bytes:
    done = subprocess.run([sys.executable, "-m", "noriladle", *words], stdout=subprocess.PIPE, stderr=subprocess.PIPE)
    if done.returncode:
        sys.exit(f"noriladle {' '.join(words)}: status {done.returncode}: {done.stderr.decode()}")
    return done.stdout


def cell_of(stock: str, number: int) -> tuple[int, float, float, float, float]:
    """The left and upper edge and the size of a cell, in mm, and its page."""
    columns, rows, width, height, gap_x, gap_y, page_x, page_y = SHEETS[stock]
    page, cell = divmod(number, columns * rows)
    row, column = divmod(cell, columns)
    left = (page_x - columns * width - (columns - 1) * gap_x) / 2 + column * (width + gap_x)
    top = (page_y - rows * height - (rows - 1) * gap_y) / 2 + row * (height + gap_y)
    return page, left, top, width, height


def cuts(pages: list[Image.Image], stock: str, count: int, start: int, dpi: int) -> Iterator[Image.Image]:
    """The labels of pages, each with all of its cell."""
    for number in range(start - 1, start - 1 + count):
        page, left, top, width, height = cell_of(stock, number)
        yield pages[page].crop(tuple(round(it * dpi / 25.4) for it in (left, top, left + width, top + height)))


# ---- readers: what each says of pictures, as labels_of_lists.py has it

# Where noriladle read the last pictures' bars: left, top, right and bottom, in pixels.
BOXES: list[list[float]] = []


def by_noriladle(paths: Sequence[str]) -> list[list[str]]:
    found: dict[str, list[str]] = {path: [] for path in paths}
    BOXES.clear()
    done = subprocess.run([sys.executable, "-m", "noriladle", "read", "--json", "--year", YEAR, *paths], stdout=subprocess.PIPE,
                          stderr=subprocess.DEVNULL)
    for line in done.stdout.splitlines():
        told = json.loads(line)
        is_gs1128 = told["identifier"] == "]C1"
        BOXES.append(told["box"])
        found[told["file"]].append("".join((it["ai"] if is_gs1128 else "") + it["value"] for it in told["elements"]))
    return list(found.values())


def said(name: str, text: str) -> str:
    if name.upper().replace("-", "").startswith("UPCE") and len(text) == 8:
        text = gtin12(text)
    text = text.replace("\x1d", "")
    return text.zfill(14) if re.fullmatch(r"\d{8,14}", text) else text


Reader = Callable[[Sequence[str]], Iterable[List[str]]]
"""Reads pictures' files: what each symbol of each says."""
ZBAR = "{http://zbar.sourceforge.net/2008/barcode}"


def zbarimg_says(paths: Sequence[str]) -> Iterable[list[str]]:
    told = xml.etree.ElementTree.fromstring(run("zbarimg", "--quiet", "--nodbus", "--xml", *paths))
    found: dict[str, list[str]] = {path: [] for path in paths}
    for source in told.iter(f"{ZBAR}source"):
        for symbol in source.iter(f"{ZBAR}symbol"):
            data = symbol.find(f"{ZBAR}data")
            # A separator is no character of XML.
            text = base64.b64decode(data.text).decode("latin-1") if data.get("format") == "base64" else data.text
            found[source.get("href")].append(said(symbol.get("type"), text))
    return found.values()


def zxing_says(paths: Sequence[str]) -> Iterable[list[str]]:
    # Debian's ZXingReader 1.4.0 ends by an assertion (Result.cpp:140) if it finds a symbol in the picture and in a smaller one.
    told = run("ZXingReader", "-noscale", *paths).decode("latin-1")
    # It names a file if there are several.
    _, *parts = re.split(r"^File: +(.*)$", told if len(paths) > 1 else f"File: {paths[0]}\n{told}", flags=re.MULTILINE)
    found: dict[str, list[str]] = {path: [] for path in paths}
    for path, part in zip(parts[::2], parts[1::2]):
        names, data = (re.findall(rf"^{word}: +(.*?) *$", part, re.MULTILINE) for word in ("Format", "Bytes"))
        found[path] += [said(name, bytes.fromhex(one).decode("latin-1")) for name, one in zip(names, data) if name != "None"]
    return found.values()


def in_batches(reader: Reader) -> Reader:
    """A reader of many pictures: each call takes some of them, since a start costs more than a picture."""
    return lambda paths: itertools.chain(*POOL.map(reader, (paths[at:at + BATCH] for at in range(0, len(paths), BATCH))))


READERS = {"noriladle": by_noriladle, "zbarimg": in_batches(zbarimg_says), "ZXingReader": in_batches(zxing_says)}


def read_all(title: str, pictures: Iterable[Image.Image], labels: list[Label]) -> None:
    """Reads pictures of one label each, and counts those that say exactly the label."""
    paths = []
    for number, picture in enumerate(pictures):
        paths.append(os.path.join(WORK, f"cut-{number}.png"))
        picture.convert("L").save(paths[-1], compress_level=1)
    right = {}
    told = {name: READING.submit(lambda reader=reader: list(reader(paths))) for name, reader in READERS.items()}
    for name in READERS:
        found = told[name].result()
        right[name] = sum(one == [label.says] for one, label in zip(found, labels))
        COUNTS[name] += right[name]
        FAULTS.extend(f"{title}: {name}: label {number} says {one}, and not {label.says}"
                      for number, (one, label) in enumerate(zip(found, labels)) if one != [label.says])
    COUNTS["labels"] += len(labels)
    if len(paths) != len(labels):
        FAULTS.append(f"{title}: {len(paths)} labels, and not {len(labels)}")
    print(f"{title}: {len(labels)} labels, " + ", ".join(f"{name} {count}" for name, count in right.items()), flush=True)


# ---- pages of each form

def pages_by(*words: str) -> list[Image.Image]:
    """The pages that a program draws into the folder for them."""
    shutil.rmtree(PAGES, ignore_errors=True)
    os.mkdir(PAGES)
    run(*words)
    return [Image.open(os.path.join(PAGES, name)).convert("L") for name in sorted(os.listdir(PAGES))]


PDF, PAGES = os.path.join(WORK, "labels.pdf"), os.path.join(WORK, "pages")


def files_of(form: str, *words: str) -> list[str]:
    """The files of a form that noriladle writes, in the order of their pages."""
    for old in os.listdir(WORK):
        if old.endswith(f".{form}"):
            os.unlink(os.path.join(WORK, old))
    # Labels of cases have no price.
    options = ["--no-price"] if words[0].endswith("cases.csv") else []
    noriladle("labels", *words, *options, "--year", YEAR, "-o", os.path.join(WORK, f"labels.{form}"))
    return sorted(os.path.join(WORK, name) for name in os.listdir(WORK) if name.endswith(f".{form}"))


def try_sheet(name: str, stock: str, dpi: int, start: int, *options: str) -> None:
    """Labels of a list on sheets: PDF by two renderers, SVG and PNG."""
    path = os.path.join(LISTS, name)
    labels = labels_of(path)
    words = [path, "--stock", stock, "--dpi", str(dpi), "--start", str(start), *options]
    title = " ".join([f"{name} on {stock} from {start}, for {dpi} dots an inch", *options])
    files_of("pdf", *words)
    for at in (300, 600) if (name, stock) == ("kinds.csv", "L7163") else (dpi,):
        pages = pages_by("pdftoppm", "-r", str(at), "-gray", PDF, f"{PAGES}/page")
        read_all(f"{title}: PDF by pdftoppm at {at}", cuts(pages, stock, len(labels), start, at), labels)
        if at == dpi:
            digits(title, stock, labels, start, dpi)
    pages = pages_by("gs", "-q", "-dNOPAUSE", "-dBATCH", "-sDEVICE=pngmono", f"-r{dpi}", f"-sOutputFile={PAGES}/%03d.png", PDF)
    read_all(f"{title}: PDF by Ghostscript, black and white", cuts(pages, stock, len(labels), start, dpi), labels)
    svgs = files_of("svg", *words)
    pages = [Image.open(io.BytesIO(it)).convert("L") for it in
             POOL.map(lambda svg: run("rsvg-convert", "-d", str(dpi), "-p", str(dpi), svg), svgs)]
    read_all(f"{title}: SVG by rsvg-convert", cuts(pages, stock, len(labels), start, dpi), labels)
    pages = [Image.open(it) for it in files_of("png", *words)]
    read_all(f"{title}: PNG", cuts(pages, stock, len(labels), start, dpi), labels)


# ---- the languages of label printers, by readers of their own

def zpl_pictures(data: bytes) -> Iterator[Image.Image]:
    """The labels of ZPL: boxes, and letters that were sent before (ZPL II Programming Guide, ^GB, ~DG, ^XG, and the compression of graphics)."""
    text, letters = data.decode("ascii"), {}
    for name, total, wide, told in re.findall(r"~DG(R:\w+\.GRF),(\d+),(\d+),(.*)\n", text):
        rows = zpl_rows(told, 2 * int(wide))
        assert len(rows) * int(wide) == int(total), name
        letters[name] = Image.frombytes("1", (8 * int(wide), len(rows)), bytes.fromhex("".join(rows)))
    for form in re.findall(r"\^XA(\n.*?)\^XZ", text, re.DOTALL):
        width, height = int(re.search(r"\^PW(\d+)", form)[1]), int(re.search(r"\^LL(\d+)", form)[1])
        image = Image.new("1", (width, height), 1)
        for left, top, field in re.findall(r"\^FO(\d+),(\d+)\^(.*)\^FS", form):
            if field.startswith("XG"):
                image.paste(0, (int(left), int(top)), letters[field[2:]])
            else:
                wide, high, thick = map(int, field[2:].split(","))
                assert thick == min(wide, high), field
                image.paste(0, (int(left), int(top), int(left) + wide, int(top) + high))
        for _ in range(int(re.search(r"\^PQ(\d+)", form)[1])):
            yield image


def zpl_rows(told: str, wide: int) -> list[str]:
    row, times = "", 0
    rows: list[str] = []
    for letter in told:
        if letter in ":,!":
            row = rows[-1] if letter == ":" else row.ljust(wide, "0F"[letter == "!"])
        elif "G" <= letter <= "Y":
            times += ord(letter) - ord("F")
        elif "g" <= letter <= "z":
            times += 20 * (ord(letter) - ord("f"))
        else:
            row, times = row + letter * (times or 1), 0
        if len(row) == wide:
            rows, row = rows + [row], ""
    assert not row and not times
    return rows


def epl_pictures(data: bytes) -> Iterator[Image.Image]:
    """The labels of EPL2: GW has dots that are light where a bit is 1."""
    while data:
        head = re.match(rb"\nN\nq(\d+)\nQ(\d+),24\nGW0,0,(\d+),(\d+),", data)
        width, height, wide, rows = (int(it) for it in head.groups())
        assert height == rows
        end = head.end() + wide * rows
        image = Image.frombytes("1", (8 * wide, rows), data[head.end():end]).crop((0, 0, width, height))
        tail = re.match(rb"\nP(\d+)\n", data[end:])
        data = data[end + tail.end():]
        for _ in range(int(tail[1])):
            yield image


def tspl_pictures(data: bytes) -> Iterator[Image.Image]:
    """The labels of TSPL: BITMAP has dots that are light where a bit is 1."""
    while data:
        head = re.match(rb"SIZE [\d.]+ mm,[\d.]+ mm\r\nGAP 3 mm,0 mm\r\nDIRECTION 1\r\nCLS\r\nBITMAP 0,0,(\d+),(\d+),0,", data)
        wide, rows = (int(it) for it in head.groups())
        end = head.end() + wide * rows
        image = Image.frombytes("1", (8 * wide, rows), data[head.end():end])
        tail = re.match(rb"\r\nPRINT 1,(\d+)\r\n", data[end:])
        data = data[end + tail.end():]
        for _ in range(int(tail[1])):
            yield image


PRINTERS = {"zpl": zpl_pictures, "epl": epl_pictures, "tspl": tspl_pictures}


def try_roll(name: str, stock: str, dpi: int, forms: Sequence[str], *options: str) -> None:
    """Labels of a list on a roll, for label printers."""
    path = os.path.join(LISTS, name)
    for form in forms:
        file, = files_of(form, path, "--stock", stock, "--dpi", str(dpi), *options)
        with open(file, "rb") as data:
            pictures = list(PRINTERS[form](data.read()))
        read_all(" ".join([f"{name} on {stock}: {form.upper()} of {dpi} dots an inch", *options]), pictures, labels_of(path))


# ---- digits by pdftotext

# Of each kind the groups of digits: the first and the number of them, and the module where they begin, from the first bar on
# (GS1 General Specifications, 5.2.3 and 5.2.5: each digit stands below the symbol character that it is).
GROUPS = {"ean13": ((1, 6, 3), (7, 6, 50)), "upca": ((1, 5, 10), (6, 5, 50)), "ean8": ((0, 4, 3), (4, 4, 36)), "upce": ((1, 6, 3),)}


def digits(title: str, stock: str, labels: list[Label], start: int, dpi: int) -> None:
    """How many labels have their digits under their own bars, and their name and price as typed, in the text of the PDF."""
    texts = run("pdftotext", "-bbox", PDF, "-").decode().split("<page ")[1:]
    right = 0
    if len(BOXES) != len(labels):
        return  # A line before this has reported that not all were read.
    for number, (label, box) in enumerate(zip(labels, BOXES), start - 1):
        page, left, top, width, height = cell_of(stock, number)
        words = [(float(a) * 25.4 / 72 - left, float(b) * 25.4 / 72 - top, float(c) * 25.4 / 72 - left, html.unescape(it)) for a, b, c, it in
                 re.findall(r'<word xMin="([\d.]+)" yMin="([\d.]+)" xMax="([\d.]+)" yMax="[\d.]+">(.*?)</word>', texts[page])]
        words = [it for it in words if 0 <= it[0] and it[2] <= width and 0 <= it[1] < height]
        first, last, end = (it * 25.4 / dpi for it in (box[0], box[2], box[3]))
        fault = digits_fault(label, words, first, last, end) or text_fault(label, words)
        right += not fault
        if fault:
            FAULTS.append(f"{title}: pdftotext: label {number}, {label.says}: {fault}")
    COUNTS["digits"] += right
    COUNTS["of"] += len(labels)
    print(f"{title}: by pdftotext {right} of {len(labels)} have their digits under their bars, and name and price", flush=True)


def digits_fault(label: Label, words: list[tuple[float, float, float, str]], first: float, last: float, bottom: float) -> str:
    """What is wrong with the digits of a label."""
    module = (last - first) / (KINDS[label.kind].modules if KINDS[label.kind].digits else 100)
    under = sorted((it for it in words if it[1] > bottom - module and it[0] > first - 12 * module and it[2] < last + 12 * module),
                   key=lambda it: (round(it[1]) if label.kind == "gs1128" else 0, it[0]))
    told = "".join(it[3] for it in under)
    if label.kind == "upce" and label.digits is None:
        if gtin12(told).zfill(14) != label.says:
            return f"digits {told}"
    elif told != label.digits:
        return f"digits {told}, and not {label.digits}"
    for at, count, where in GROUPS.get(label.kind, ()):
        group = [it for it in under if it[3] == told[at:at + count]]
        begin, end = first + where * module, first + (where + 7 * count) * module
        if not any(abs(it[0] + it[2] - begin - end) < 1.2 * module and it[0] > begin - 0.3 * module and it[2] < end + 0.3 * module
                   for it in group):
            return f"{told[at:at + count]} is not between {begin:.2f} and {end:.2f} mm: {under}"
    return ""


def text_fault(label: Label, words: list[tuple[float, float, float, str]]) -> str:
    """What is missing of a name and a price; a text that was cut ends with three points in one."""
    told = " ".join(it[3] for it in words)
    if "…" in told:
        return ""
    missing = set(f"{label.name} {label.price}".split()) - set(told.split())
    return f"missing {missing}" if missing else ""


# ---- whole sheets, as a scanner has them

def try_whole_sheets() -> None:
    """`noriladle read` takes the PDF itself: each label of a sheet is read, and nothing else."""
    path = os.path.join(LISTS, "prices.csv")
    files_of("pdf", path, "--stock", "3474")
    told = [json.loads(line) for line in noriladle("read", "--json", PDF).splitlines()]
    wanted = sorted(label.says for label in labels_of(path))
    found = sorted(it["gtin"] for it in told)
    if found != wanted:
        FAULTS.append(f"whole sheets: {found}, and not {wanted}")
    print(f"prices.csv on 3474: noriladle read labels.pdf: {len(found)} of {len(wanted)} on {max(it['page'] for it in told)} pages")


def try_example() -> None:
    """The sheet of the examples says what its list says."""
    examples = os.path.join(LISTS, "..", "..", "examples")
    with open(os.path.join(examples, "shelf.csv"), encoding="utf-8") as file:
        wanted = sorted(row["ean"].zfill(14) for row in csv.DictReader(file))
    found = sorted(json.loads(line)["gtin"] for line in noriladle("read", "--json", os.path.join(examples, "shelf.pdf")).splitlines())
    if found != wanted:
        FAULTS.append(f"examples/shelf.pdf: {found}, and not {wanted}")
    print(f"examples/shelf.pdf: {len(found)} of {len(wanted)}")


def main() -> None:
    sheet: Any
    for sheet in [
            ("prices.csv", "L7163", 300, 1, "--look", "bars"), ("kinds.csv", "3424", 600, 1, "--look", "bars"),
            ("prices.csv", "3474", 300, 1), ("prices.csv", "L7160", 300, 1), ("prices.csv", "L7163", 300, 5), ("prices.csv", "L7159", 300, 1),
            ("prices.csv", "L7162", 300, 1), ("prices.csv", "L7651", 600, 14, "--look", "bars"), ("prices.csv", "5160", 300, 30),
            ("kinds.csv", "L7163", 300, 1), ("kinds.csv", "3424", 300, 2), ("kinds.csv", "2x10:90x27+5+1@letter", 600, 1, "--look", "bars"),
            ("cases.csv", "3424", 300, 1), ("cases.csv", "3483", 300, 1)]:
        try_sheet(*sheet)
    roll: Any
    for roll in [
            ("prices.csv", "57x32", 203, ("zpl", "epl", "tspl")), ("kinds.csv", "100x50", 203, ("zpl", "tspl"), "--look", "bars"),
            ("prices.csv", "50x25", 300, ("zpl",)), ("prices.csv", "38.1x21.2", 600, ("zpl",), "--look", "bars"),
            ("kinds.csv", "100x50", 203, ("zpl", "epl", "tspl")), ("kinds.csv", "99014", 600, ("zpl",)),
            ("cases.csv", "152x102", 203, ("zpl", "epl", "tspl")), ("cases.csv", "152x102", 300, ("zpl",))]:
        try_roll(*roll)
    path = os.path.join(LISTS, "cases.csv")
    files_of("pdf", path, "--stock", "3483", "--turn")
    pages = pages_by("pdftoppm", "-r", "300", "-gray", PDF, f"{PAGES}/page")
    turned = [it.transpose(Image.Transpose.ROTATE_90) for it in cuts(pages, "3483", 5, 1, 300)]
    read_all("cases.csv on 3483, turned: PDF by pdftoppm at 300", turned, labels_of(path))
    file, = files_of("zpl", path, "--stock", "102x152", "--turn", "--darkness", "12", "--media", "gaps")
    with open(file, "rb") as data:
        turned = [it.transpose(Image.Transpose.ROTATE_90) for it in zpl_pictures(data.read())]
    read_all("cases.csv on 102x152, turned: ZPL", turned, labels_of(path))
    try_whole_sheets()
    try_example()
    print("\n".join(FAULTS), file=sys.stderr, end="\n" if FAULTS else "")
    print(f"{COUNTS['labels']} labels read: " + ", ".join(f"{name} {COUNTS[name]}" for name in READERS)
          + f"; digits of {COUNTS['digits']} of {COUNTS['of']}; {len(FAULTS)} wrong")
    sys.exit(1 if FAULTS else 0)


main()
