"""Symbols of zint's in the print of packs: text, shapes, frames, digits under the bars, panels.

A symbol is drawn with STEPS steps a module, and a print with as many as its picture can show. Their values are 0 to
255; the camera's linear() says what light they throw back.
"""
from __future__ import annotations

import os
import sys
from dataclasses import dataclass
from typing import Tuple

import cv2
import numpy

sys.path.insert(0, os.path.join(os.path.dirname(os.path.abspath(__file__)), "..", "page"))
import pictures
from camera import Array, Chance

STEPS = pictures.DRAWN
KINDS = ("ean13", "upca", "ean8", "upce", "itf14", "gs1128")
Colour = Tuple[int, int, int]
Inks = Tuple[Colour, Colour]
WHITE, BLACK = (235, 235, 235), (25, 25, 25)


@dataclass
class Print:
    """A print: its values, how many steps a module has, where the middle of its symbol is in steps, and the width and
    height of the symbol with its quiet zones in modules."""

    values: Array
    steps: float
    middle: Tuple[float, float]
    wide: float
    high: float


# ---- symbols

def with_check(digits: str) -> str:
    """A number with its check digit (GS1 General Specifications, section 7.9)."""
    total = sum(int(digit) * (3, 1)[i % 2] for i, digit in enumerate(reversed(digits)))
    return digits + str(-total % 10)


def digits_of(chance: Chance, count: int) -> str:
    return "".join(map(str, chance.integers(0, 10, count)))


def upce_of(chance: Chance) -> str:
    """The eight digits of a UPC-E as its rules write it: no shorter form would do."""
    six = [int(digit) for digit in chance.integers(0, 10, 6)]
    place = {3: 2, 4: 3}.get(six[5], 4 if six[5] > 4 else 0)
    lowest = {3: 3}.get(six[5], 1)
    if place:
        six[place] = int(chance.integers(lowest, 10))
    eight = "0" + "".join(map(str, six)) + "0"
    return eight[:7] + with_check(pictures.gtin12(eight)[:11])[-1]


def date_of(chance: Chance) -> str:
    return f"{chance.integers(25, 35)}{chance.integers(1, 13):02}{chance.integers(1, 29):02}"


def elements_of(chance: Chance) -> str:
    """The elements of a GS1-128."""
    gtin = "(01)" + with_check(digits_of(chance, 13))
    lot = "".join(chance.choice(list("ABCDEFGHKLMNPRSTUVWXYZ0123456789"), chance.integers(3, 8)))
    forms = [gtin, f"{gtin}(17){date_of(chance)}", f"{gtin}(10){lot}", f"(00){with_check(digits_of(chance, 17))}",
             f"(17){date_of(chance)}(10){lot}", f"{gtin}(15){date_of(chance)}(21){chance.integers(1, 9999)}",
             f"(10){lot}(37){chance.integers(1, 999)}"]
    return forms[chance.integers(len(forms))]


def text_of(kind: str, chance: Chance) -> str:
    """A number or elements that a symbol of a kind may say."""
    if kind == "gs1128":
        return elements_of(chance)
    if kind == "upce":
        return upce_of(chance)
    first = str(chance.integers(1, 10))
    return with_check(first + digits_of(chance, {"ean13": 11, "upca": 10, "ean8": 6, "itf14": 12}[kind]))


def symbol_of(kind: str, chance: Chance, folder: str, least: int = 25, most: int = 60) -> pictures.Symbol:
    """A symbol with bars of 25 to 60 modules' height."""
    words = [f"--height={chance.integers(least, most + 1)}"]
    if kind == "itf14" and chance.random() < 0.5:
        words += ["--bind", "--border=0"]
    return pictures.Symbol(kind, text_of(kind, chance), os.path.join(folder, f"symbol_{os.getpid()}.png"), *words)


def bars_of(image: Array) -> Tuple[int, int, int, int]:
    """Where the bars of a drawn symbol begin and end, without a frame: left, right, top, bottom."""
    middle = image.shape[0] * 3 // 10
    dark = image[middle] < 128
    places = numpy.flatnonzero(dark)
    left, right = int(places[0]), int(places[-1]) + 1
    if dark[left:left + 5 * STEPS].all():
        inner = numpy.flatnonzero(~dark[left:right]) + left
        between = numpy.flatnonzero(dark[inner[0]:inner[-1]]) + inner[0]
        left, right = int(between[0]), int(between[-1]) + 1
    bar, zone = _stretch(image[:, left + STEPS // 2] < 128, middle), _stretch(image[:, left - STEPS] >= 128, middle)
    return left, right, max(bar[0], zone[0]), min(bar[1], zone[1])


def _stretch(holds: Array, place: int) -> Tuple[int, int]:
    """The first and the last but one of the neighbours of a place for which something holds."""
    ends = numpy.flatnonzero(~holds)
    before, after = ends[ends < place], ends[ends > place]
    return int(before[-1]) + 1 if before.size else 0, int(after[0]) if after.size else len(holds)


# ---- what stands round them

def coloured(image: Array, ink: Colour, paper: Colour) -> Array:
    """A drawing of one colour on another."""
    share = image[..., None].astype(numpy.float32) / 255
    dark, light = numpy.array(ink, numpy.float32), numpy.array(paper, numpy.float32)
    return (dark + share * (light - dark)).astype(numpy.uint8)


def some_colour(chance: Chance, least: int = 20, most: int = 236) -> Colour:
    red, green, blue = (int(value) for value in chance.integers(least, most, 3))
    return red, green, blue


def text(values: Array, chance: Chance, lines: int, steps: float) -> None:
    """Lines of text all over a print."""
    height, width = values.shape[:2]
    letters = list("abcdefghilmnoprstuvwz ABCDEFGHIJKLMNOPRSTUVW 0123456789 ||lIi.,%")
    for _ in range(lines):
        words = "".join(chance.choice(letters, chance.integers(4, 40)))
        size = float(chance.uniform(0.1, 0.5)) * steps
        place = (int(chance.uniform(-0.1, 1) * width), int(chance.uniform(0, 1) * height))
        thick = max(1, int(size * chance.uniform(1, 3)))
        cv2.putText(values, words, place, _FONTS[chance.integers(4)], size, some_colour(chance), thick, cv2.LINE_AA)


_FONTS = [cv2.FONT_HERSHEY_SIMPLEX, cv2.FONT_HERSHEY_DUPLEX, cv2.FONT_HERSHEY_COMPLEX, cv2.FONT_HERSHEY_TRIPLEX]


def shapes(values: Array, chance: Chance, count: int, steps: float) -> None:
    """Blocks, discs, lines and frames all over a print."""
    height, width = values.shape[:2]
    for _ in range(count):
        x, y = int(chance.uniform(0, 1) * width), int(chance.uniform(0, 1) * height)
        across, down = int(chance.uniform(5, 60) * steps), int(chance.uniform(4, 40) * steps)
        thick = max(1, int(chance.uniform(0.4, 3) * steps))
        form, colour = chance.integers(4), some_colour(chance)
        if form == 0:
            cv2.rectangle(values, (x, y), (x + across, y + down), colour, -1)
        elif form == 1:
            turned = float(chance.uniform(0, 180))
            cv2.ellipse(values, (x, y), (across // 2, down // 2), turned, 0, 360, colour, -1, cv2.LINE_AA)
        elif form == 2:
            cv2.line(values, (x, y), (x + across, y + int(chance.uniform(-1, 1) * down)), colour, thick, cv2.LINE_AA)
        else:
            cv2.rectangle(values, (x, y), (x + across, y + down), colour, thick)


def ground(chance: Chance, height: int, width: int, steps: float) -> Array:
    """A pack's print without a symbol."""
    values = numpy.empty((height, width, 3), numpy.uint8)
    values[:] = some_colour(chance, 150, 240) if chance.random() < 0.5 else some_colour(chance, 20, 200)
    shapes(values, chance, int(chance.integers(3, 12)), steps)
    text(values, chance, int(chance.integers(5, 25)), steps)
    return values


def panel(values: Array, image: Array, chance: Chance, steps: float) -> Tuple[int, int]:
    """Lays a drawing on a panel of its paper into the middle of a print, perhaps in a frame; its left and upper end."""
    height, width = image.shape[:2]
    left, top = (values.shape[1] - width) // 2, (values.shape[0] - height) // 2
    spare = int(chance.integers(0, 6) * steps)
    corners = (left - spare, top - spare), (left + width + spare - 1, top + height + spare - 1)
    cv2.rectangle(values, *corners, tuple(map(int, image[0, 0])), -1)
    if chance.random() < 0.3:
        colour = BLACK if chance.random() < 0.7 else some_colour(chance)
        cv2.rectangle(values, *corners, colour, max(1, int(chance.uniform(0.4, 1.5) * steps)))
    values[top:top + height, left:left + width] = image
    return left, top


def words(chance: Chance) -> Array:
    """A drawing of nothing but text."""
    values = numpy.full((50 * STEPS, 110 * STEPS, 3), 255, numpy.uint8)
    for _ in range(int(chance.integers(4, 30))):
        text(values, chance, 1, STEPS)
    return cv2.cvtColor(values, cv2.COLOR_RGB2GRAY)


def pack(image: Array, chance: Chance, steps: float, inks: Inks = (BLACK, WHITE), room: int = 30) -> Print:
    """A pack with a drawn symbol in its middle, and this many modules of other print to each side.

    It has steps a module, at most those of the drawing. Inks are the colours of bars and paper.
    """
    steps = min(steps, STEPS)
    image = cv2.resize(image, None, fx=steps / STEPS, fy=steps / STEPS, interpolation=cv2.INTER_AREA)
    height, width = image.shape
    spare = 2 * int(room * steps)
    values = ground(chance, height + spare, width + spare, steps)
    left, top = panel(values, coloured(image, *inks), chance, steps)
    return Print(values, steps, (left + width / 2, top + height / 2), width / steps, height / steps)
