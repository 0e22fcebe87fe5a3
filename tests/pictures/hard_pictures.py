"""Pictures that are hard to read, in groups of one picture for each symbol; pages of many labels; and pictures that take long."""
from __future__ import annotations

import os
import random
from typing import Callable, Iterator

import cv2
import numpy
from pictures import INK, PAPER, Bare, Look, Symbol, picture_of, seen, write

Drawing = Callable[[numpy.ndarray, Look, random.Random], numpy.ndarray]
"""Makes a picture of a symbol's image."""


def light_on_dark(image: numpy.ndarray, look: Look, chance: random.Random) -> numpy.ndarray:
    return 255 - picture_of(Bare(image), look, chance)


def shaken(dots: int) -> Drawing:
    """A picture that moved along the row by this many dots."""
    def made(image: numpy.ndarray, look: Look, chance: random.Random) -> numpy.ndarray:
        return cv2.blur(picture_of(Bare(image), look, chance), (dots, 1))
    return made


def glare(image: numpy.ndarray, look: Look, chance: random.Random) -> numpy.ndarray:
    """A lamp shines on a part of the label, which is white."""
    picture = picture_of(Bare(image), look, chance).astype(numpy.float32)
    height, width = picture.shape
    spot = numpy.zeros_like(picture)
    middle = (chance.randrange(width), chance.randrange(height // 2, height * 3 // 4))
    cv2.ellipse(spot, middle, (width // 5, height // 5), 0, 0, 360, 400, -1)
    return numpy.clip(picture + cv2.GaussianBlur(spot, (0, 0), height / 20), 0, 255).astype(numpy.uint8)


def zones(modules: int) -> Drawing:
    """A symbol between dark blocks, this many modules of light away."""
    def made(image: numpy.ndarray, look: Look, chance: random.Random) -> numpy.ndarray:
        dark = numpy.flatnonzero((image < 128).sum(axis=0) > image.shape[0] // 3)
        left, right = dark[0], dark[-1] + 1
        edge = modules * 8
        framed = numpy.zeros((image.shape[0], right - left + 2 * edge + 400), numpy.uint8)
        framed[:, 200:-200] = 255
        framed[:, 200 + edge:200 + edge + right - left] = image[:, left:right]
        return picture_of(Bare(framed), look, chance)
    return made


def on_print(image: numpy.ndarray, look: Look, chance: random.Random) -> numpy.ndarray:
    """A label among lines of print."""
    height, width = image.shape
    page = numpy.full((height + 900, width + 900), 255, numpy.uint8)
    for y in range(60, page.shape[0], 90):
        line = "".join(chance.choice("abcdefghilmnopqrstuvwxyz 0123456789||lIi") for _ in range(120))
        cv2.putText(page, line, (10, y), cv2.FONT_HERSHEY_SIMPLEX, 2, 0, 4)
    page[450:450 + height, 450:450 + width] = image
    return picture_of(Bare(page), look, chance)


def cut(image: numpy.ndarray, look: Look, chance: random.Random) -> numpy.ndarray:
    """The frame cuts the symbol: the outer half of a light zone is gone, and so is the upper half of the bars."""
    dark = numpy.flatnonzero((image < 128).sum(axis=0) > image.shape[0] // 3)
    return picture_of(Bare(image[image.shape[0] * 2 // 5:, dark[0] - 60:dark[-1] + 61]), look, chance)


def plain(image: numpy.ndarray, look: Look, chance: random.Random) -> numpy.ndarray:
    return picture_of(Bare(image), look, chance)


GROUPS = {
    "light on dark": (light_on_dark, Look()),
    "light on dark, usual photograph": (light_on_dark, Look(angle=4, tilt=0.1, blur=1, noise=8, light=0.6, table=True)),
    "blur of 0.7 modules": (plain, Look(dots=4, blur=2.8)),
    "blur of 0.9 modules": (plain, Look(dots=3, blur=2.7)),
    "blur of 0.6 modules, noise, light": (plain, Look(blur=1.8, noise=4, light=0.5)),
    "shaken by 1.3 modules": (shaken(4), Look()),
    "shaken by 1.7 modules": (shaken(5), Look()),
    "contrast of 0.08": (plain, Look(contrast=0.08)),
    "contrast of 0.2, noise of 8": (plain, Look(contrast=0.2, noise=8)),
    "light falling to 0.1": (plain, Look(light=0.1)),
    "glare": (glare, Look()),
    "perspective 0.4": (plain, Look(tilt=0.4)),
    "perspective 0.2, turned by 20 degrees": (plain, Look(tilt=0.2, angle=20)),
    "round a bottle of 0.6 widths": (plain, Look(bend=0.6)),
    "round a bottle of 0.8 widths, turned by 8 degrees": (plain, Look(bend=0.8, angle=8)),
    "1 dot a module": (plain, Look(dots=1)),
    "1.2 dots a module, turned by 20 degrees": (plain, Look(dots=1.2, angle=20)),
    "1.5 dots a module, turned by 40 degrees": (plain, Look(dots=1.5, angle=40)),
    "among print": (on_print, Look(dots=2)),
    "among print, turned by 25 degrees": (on_print, Look(dots=2, angle=25)),
    "cut at the light zones": (cut, Look()),
    "light zones of 6 modules": (zones(6), Look()),
    "light zones of 2 modules": (zones(2), Look()),
}
NOT_HELD = ("light zones of 2 modules",)
"""Groups in which another reader may read more: the library needs half of the standard's light zones (docs/PICTURES.md)."""


def group(name: str, symbols: list[Symbol], folder: str) -> list[tuple[Symbol, str]]:
    """The symbol of each picture of a group, and its path."""
    draw, look = GROUPS[name]
    made = []
    for i, symbol in enumerate(symbols):
        picture = draw(symbol.image, look, random.Random(f"hostile {name} {i}"))
        made.append((symbol, write(picture, os.path.join(folder, f"hostile_{i}"))))
    return made


def sheet(symbols: list[Symbol], columns: int, rows: int, angle: float, folder: str) -> tuple[list[Symbol], str]:
    """A page of labels, two dots a module, turned by an angle; the symbols, and its path."""
    small = [cv2.resize(symbol.image, None, fx=0.25, fy=0.125, interpolation=cv2.INTER_AREA) for symbol in symbols]
    wide, high = max(image.shape[1] for image in small) + 20, max(image.shape[0] for image in small) + 20
    page, shown = numpy.full((rows * high + 80, columns * wide + 80), 255, numpy.uint8), []
    for place in range(columns * rows):
        image, (row, column) = small[place % len(small)], divmod(place, columns)
        page[40 + row * high:, 40 + column * wide:][:image.shape[0], :image.shape[1]] = image
        shown.append(symbols[place % len(small)])
    if angle:
        middle = (page.shape[1] / 2, page.shape[0] / 2)
        page = cv2.warpAffine(page, cv2.getRotationMatrix2D(middle, angle, 1), page.shape[::-1], flags=cv2.INTER_LINEAR, borderValue=255)
    grey = INK + (PAPER - INK) / 255 * page.astype(numpy.float32)
    return shown, write(seen(grey, Look(noise=4), random.Random(f"sheet {angle}")), os.path.join(folder, f"sheet_{angle}"))


def slow() -> Iterator[tuple[str, numpy.ndarray]]:
    """Pictures of 4,000 by 3,000 dots that take long, by their names."""
    source, wide, high = numpy.random.RandomState(5), 4000, 3000

    def bars(dots: int) -> numpy.ndarray:
        row = numpy.concatenate([numpy.full(width, 255 * (i % 2)) for i, width in enumerate(source.choice([1, 1, 2, 3, 4], 4000) * dots)])
        return numpy.tile(row[:wide].astype(numpy.uint8), (high, 1))

    yield "noise", source.randint(0, 256, (high, wide)).astype(numpy.uint8)
    for dots in (1, 2, 3):
        yield f"bars of {dots} dots", bars(dots)
    zoned = bars(3)
    for left in range(0, wide, 160):
        zoned[:, left:left + 24] = 255
    yield "bars with light zones", zoned
    yield "the same, with noise", numpy.clip(zoned // 2 + 60 + source.normal(0, 12, zoned.shape), 0, 255).astype(numpy.uint8)
    y, x = numpy.mgrid[0:high, 0:wide]
    yield "stripes aslant", (127 + 120 * numpy.sign(numpy.sin((x + 0.4 * y) / 2.2))).astype(numpy.uint8)
    yield "as dense as print", (source.randint(0, 2, (high // 6, wide // 3 + 1)) * 255).astype(numpy.uint8).repeat(6, 0).repeat(3, 1)[:, :wide]
