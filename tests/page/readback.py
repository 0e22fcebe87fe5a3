"""Reads labels back: cuts each out of its page with its whole cell, where noriladle and zbarimg must read exactly that label."""
from __future__ import annotations

import concurrent.futures
import io
import os
import random
import re
import subprocess
import sys
import tempfile
import zipfile
from typing import Sequence

ROOT = os.path.dirname(os.path.dirname(os.path.dirname(os.path.abspath(__file__))))
sys.path.insert(0, os.path.join(ROOT, "bindings", "python"))
import noriladle
from PIL import Image, ImageDraw

Image.MAX_IMAGE_PIXELS = None
NAMES = ["Haferkekse", "Roggenbrot", "Apfelsaft 1 l", "Butter 250 g", "Blütenhonig aus der Lüneburger Heide, cremig, 500 g", "Kaugummi",
         "Cola 0,5 l", "Müsli Früchte „Großer Hof“, ungesüßt, 750 g", "Käse, jung, Scheiben, 48 % Fett i. Tr.", "Salz", "Öl"]
# Columns, rows, the width and the height of a label, the gap between columns, the page, and the dots an inch: in mm, from the makers.
STOCKS = {"3474": (3, 8, 70, 37, 0, (210, 297), 300), "L7160": (3, 7, 63.5, 38.1, 2.54, (210, 297), 300), "L7651": (5, 13, 38.1, 21.2, 2.54, (210, 297), 600),
          "5160": (3, 10, 66.675, 25.4, 3.175, (215.9, 279.4), 300), "57x32": (1, 1, 57, 32, 0, (57, 32), 203.2), "own": (2, 1, 50, 25, 2, (102, 25), 203.2)}


def articles(count: int) -> list[tuple[str, str, str]]:
    """Lines of a price list: EAN-13, EAN-8 and UPC-A."""
    chance, made = random.Random(7), []
    for i in range(count):
        kind = i % len(NAMES)
        digits = f"9638{500 + i // 11:03}" if kind == 5 else f"0{1234500000 + i:010}" if kind == 6 else f"4012345{1000 + 37 * i:05}"
        check = -sum(int(digit) * (1 if j % 2 else 3) for j, digit in enumerate(reversed(digits))) % 10
        made.append((f"{digits}{check}", NAMES[kind], f"{chance.randint(0, 14)},{chance.randint(0, 99):02} €"))
    return made


def listed(made: list[tuple[str, str, str]]) -> str:
    return "EAN;Artikel;Preis\n" + "".join(";".join(article) + "\n" for article in made)


def pages_of_pdf(pdf: bytes, dpi: float) -> list[Image.Image]:
    with tempfile.TemporaryDirectory() as folder:
        with open(f"{folder}/sheet.pdf", "wb") as file:
            file.write(pdf)
        subprocess.run(["pdftoppm", "-r", str(dpi), "-gray", f"{folder}/sheet.pdf", f"{folder}/page"], check=True)
        return [Image.open(f"{folder}/{name}").convert("L").copy() for name in sorted(os.listdir(folder)) if name.startswith("page-")]


def pages_of_svg(svgs: Sequence[bytes], dpi: float) -> list[Image.Image]:
    made = (subprocess.run(["rsvg-convert", "--dpi-x", str(dpi), "--dpi-y", str(dpi)], input=svg, stdout=subprocess.PIPE, check=True).stdout for svg in svgs)
    return [Image.open(io.BytesIO(png)).convert("L") for png in made]


def files_of(path: str) -> list[bytes]:
    """What was saved: the file, or those of the zip."""
    if path.endswith(".zip"):
        with zipfile.ZipFile(path) as packed:
            return [packed.read(name) for name in sorted(packed.namelist())]
    with open(path, "rb") as file:
        return [file.read()]


def pages_of_zpl(text: str) -> list[Image.Image]:
    """The labels as a printer would draw them: boxes, and one picture of dots for the texts (ZPL II, ^GB and ^GF)."""
    pages = []
    for label in re.findall(r"\^XA(.*?)\^XZ", text, re.DOTALL):
        size = [int(re.search(rf"\^{word}(\d+)", label)[1]) for word in ("PW", "LL")]
        image = Image.new("L", size, 255)
        pen = ImageDraw.Draw(image)
        for wide, high, stride, data in re.findall(r"\^GFA,(\d+),(\d+),(\d+),([^^]*)\^FS", label):
            rows, stride = _zpl_rows(data, int(stride)), int(stride)
            for y, row in enumerate(rows):
                image.paste(0, (0, y), Image.frombytes("1", (8 * stride, 1), row).crop((0, 0, min(size[0], 8 * stride), 1)))
        for x, y, wide, high in re.findall(r"\^FO(\d+),(\d+)\^GB(\d+),(\d+),", label):
            pen.rectangle((int(x), int(y), int(x) + int(wide) - 1, int(y) + int(high) - 1), fill=0)
        pages += [image] * int(re.search(r"\^PQ(\d+)", label)[1])
    return pages


def _zpl_rows(data: str, stride: int) -> list[bytes]:
    row, count = "", 0
    rows: list[bytes] = []
    for letter in data:
        if letter == ":":
            rows.append(rows[-1])
        elif letter == ",":
            rows.append(bytes.fromhex(row.ljust(2 * stride, "0")))
            row = ""
        elif letter in "GHIJKLMNOPQRSTUVWXY":
            count += ord(letter) - ord("F")
        elif letter in "ghijklmnopqrstuvwxyz":
            count += 20 * (ord(letter) - ord("f"))
        else:
            row += letter * (count or 1)
            count = 0
            if len(row) == 2 * stride:
                rows.append(bytes.fromhex(row))
                row = ""
    return rows


def read_back(stock: str, pages: Sequence[Image.Image], made: list[tuple[str, str, str]], first: int = 1) -> str:
    """How many labels each reader reads as they are: 'noriladle N, zbarimg N'."""
    columns, rows, width, height, gap, (wide, high), dpi = STOCKS[stock]
    left, top = (wide - columns * width - (columns - 1) * gap) / 2, (high - rows * height) / 2
    cells = []
    for i, (number, _, _) in enumerate(made, first - 1):
        sheet, cell = divmod(i, columns * rows)
        x, y = left + cell % columns * (width + gap), top + cell // columns * height
        box = tuple(round(length * dpi / 25.4) for length in (x, y, x + width, y + height))
        cells.append((number.zfill(14), pages[sheet].crop(box) if sheet < len(pages) else Image.new("L", (9, 9))))
    own = sum([symbol.answer.gtin for symbol in noriladle.read_picture(image, 2026)] == [number] for number, image in cells)
    with concurrent.futures.ThreadPoolExecutor(3) as pool:
        other = sum(pool.map(lambda cell: _by_zbarimg(cell[1]) == [cell[0]], cells))
    return f"noriladle {own}, zbarimg {other}"


def _by_zbarimg(image: Image.Image) -> list[str]:
    with tempfile.NamedTemporaryFile(suffix=".png") as file:
        image.save(file.name)
        said = subprocess.run(["zbarimg", "-q", "--nodbus", "--raw", file.name], stdout=subprocess.PIPE, stderr=subprocess.DEVNULL).stdout
    return [word.zfill(14) for word in said.decode().split()]


def read_by_command(pdf: bytes) -> list[str]:
    """The numbers that `noriladle read` finds in a PDF file, in rising order."""
    with tempfile.NamedTemporaryFile(suffix=".pdf") as file:
        file.write(pdf)
        file.flush()
        done = subprocess.run([sys.executable, "-m", "noriladle", "read", file.name], env={**os.environ, "PYTHONPATH": f"{ROOT}/python"}, stdout=subprocess.PIPE)
    return sorted(re.findall(r"\(01\)(\d{14})", done.stdout.decode()))
