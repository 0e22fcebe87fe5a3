"""Symbols as zint writes them, cropped to some modules of light, and cut by the picture's edge."""
from __future__ import annotations

import functools
import os
import subprocess
from concurrent.futures import ProcessPoolExecutor
from typing import Callable, Dict, List, NamedTuple, Tuple

import broken
import camera_kinds
import cv2
import numpy
import packs
import pictures
from camera import Array, Chance, write
from packs import STEPS

SCALES = (1, 2, 3, 4, 5)
"""zint's scales; it draws a module with twice as many dots."""
FILES = {"PNG": "png", "BMP": "bmp", "TIFF": "tif"}
LEAST = {"ean8": 4.5, "upce": 2.5}
"""How many modules of light a picture must show beside a symbol that could be a part of another."""
CROPS = (0, 1, 2, 2.5, 3, 4, 4.5, 5, 6, 7, 8, 9, 10)


class Written(NamedTuple):
    """A symbol that is in a picture: its kind, and what it says."""

    kind: str
    says: str


Made = List[Tuple[Written, str]]


def as_written(name: str, folder: str) -> Made:
    """Two symbols of each kind at each scale, in a file of zint's that it wrote without any option but the scale."""
    made = []
    for kind, texts in pictures.TEXTS.items():
        for text in texts[:2]:
            says = pictures.Symbol(kind, text, os.path.join(folder, "symbol.png")).says
            for scale in SCALES:
                path = os.path.join(folder, f"{kind}_{text}_{scale}.{FILES[name]}")
                words = [f"--barcode={pictures.KINDS[kind].zint}", f"--data={pictures.data_of(kind, text)}"]
                subprocess.run(["zint", f"--scale={scale}", *words, f"--output={path}"], stderr=subprocess.DEVNULL)
                made.append((Written(kind, says), path))
    return made


def cropped(light: float, folder: str) -> Made:
    """A symbol of each kind at each scale with so many modules of light to both sides, some with none above and
    below."""
    made = []
    for kind, texts in pictures.TEXTS.items():
        if light < LEAST.get(kind, 0):
            continue
        for scale in SCALES:
            symbol = pictures.Symbol(kind, texts[scale], os.path.join(folder, "symbol.png"))
            left, right, top, bottom = packs.bars_of(symbol.image)
            image = numpy.pad(symbol.image, ((0, 0), (10 * STEPS, 10 * STEPS)), constant_values=255)
            edge = int(light * STEPS)
            image = image[:, left + 10 * STEPS - edge:right + 10 * STEPS + edge]
            if kind == "itf14" or scale % 2:
                image = image[top:bottom]
            small = cv2.resize(image, None, fx=2 * scale / STEPS, fy=2 * scale / STEPS, interpolation=cv2.INTER_NEAREST)
            made.append((Written(kind, symbol.says), write(small, os.path.join(folder, f"{kind}_{scale}_{light}"))))
    return made


GROUPS: Dict[str, Callable[[str], Made]] = {
    **{f"as zint writes it, {name}": functools.partial(as_written, name) for name in FILES},
    **{f"cropped to {light} modules of light": functools.partial(cropped, light) for light in CROPS},
}


# ---- cut by the edge of the picture

def cut(seed: int, i: int, folder: str) -> str:
    """The path of a picture whose edge cuts a symbol, by its number: the first bar is gone, and the last is there."""
    cv2.setNumThreads(1)
    chance = numpy.random.default_rng([seed, _CUT, i])
    kind = packs.KINDS[i % len(packs.KINDS)]
    symbol = like_upce(chance, folder) if i % 10 == 0 else packs.symbol_of(kind, chance, folder)
    left, right, *_ = packs.bars_of(symbol.image)
    modules = broken.modules_of(symbol)
    first, last = modules.index("0"), modules.rindex("0") + 1
    lost = int(chance.uniform(first, last) * STEPS)
    image, place = symbol.image, left + lost
    if i % 10 == 0:
        image, place = image[::-1, ::-1], image.shape[1] - left - int(chance.uniform(51, 55) * STEPS)
    elif chance.random() < 0.5:
        image, place = image[::-1, ::-1], image.shape[1] - right + lost
    picture = (drawn_cut if i % 2 else taken_cut)(numpy.ascontiguousarray(image), place, chance)
    return write(numpy.ascontiguousarray(picture), os.path.join(folder, f"cut_{i}_{symbol.kind}"))


_CUT = 100
"""Sets the pictures that are cut apart from the kinds of the same seed."""


def like_upce(chance: Chance, folder: str) -> pictures.Symbol:
    """An EAN-13 whose left half and middle, cut in the next digit, are the modules of a UPC-E of number system 1."""
    while True:
        digits = packs.text_of("ean13", chance)[:7] + "3" + packs.digits_of(chance, 4)
        if broken.right_check(pictures.gtin12("1" + digits[1:7] + digits[0])):
            path = os.path.join(folder, f"like_{os.getpid()}.png")
            return pictures.Symbol("ean13", packs.with_check(digits), path, "--height=40")


def drawn_cut(image: Array, place: int, chance: Chance) -> Array:
    """A drawing from a place on, in steps, with some dots a module, and often a little blurred."""
    share = chance.uniform(1.3, 6) / STEPS
    small = cv2.resize(image[:, place:], None, fx=share, fy=share, interpolation=cv2.INTER_AREA)
    if chance.random() < 0.7:
        small = cv2.GaussianBlur(small, (0, 0), chance.uniform(0.3, 1))
    return small if chance.random() < 0.5 else small[:, ::-1]


def taken_cut(image: Array, place: int, chance: Chance) -> Array:
    """A photograph from a place on, in steps: its edge goes through it or to the right of it at each height."""
    shot = camera_kinds.usual(image, chance, (1.5, 3), 4)
    x, y = (place - image.shape[1] / 2) / STEPS, shot.printed.high / 2
    edge = shot.columns(numpy.array([x, x]), numpy.array([-y, y])).max()
    picture = shot.taken(chance)[:, int(numpy.ceil(edge)):]
    return picture if chance.random() < 0.5 else picture[::-1, ::-1]


def cut_symbols(count: int, seed: int, folder: str) -> List[str]:
    """The paths of this many pictures whose edge cuts a symbol."""
    with ProcessPoolExecutor(camera_kinds.WORKERS) as pool:
        return list(pool.map(cut, [seed] * count, range(count), [folder] * count, chunksize=20))
