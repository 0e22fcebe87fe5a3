"""What may be wrong with a print: ink that spread, thermal printers, colours, narrow light zones, scratches."""
from __future__ import annotations

from typing import Tuple

import cv2
import numpy
import packs
from camera import Array, Chance, linear
from packs import STEPS, Colour, Inks


def spread(image: Array, modules: float, chance: Chance) -> Array:
    """Bars that are so many modules too wide, or too narrow if negative, with rough edges."""
    fine = cv2.resize(image, None, fx=2, fy=1, interpolation=cv2.INTER_NEAREST)
    light = (fine >= 128).astype(numpy.uint8)
    # How far a place is from the next bar, or into one if negative.
    away = cv2.distanceTransform(light, cv2.DIST_L2, 3) - cv2.distanceTransform(1 - light, cv2.DIST_L2, 3)
    rough = chance.standard_normal((fine.shape[0] // 3 + 1, fine.shape[1] // 6 + 1)).astype(numpy.float32)
    rough = cv2.resize(rough, fine.shape[::-1], interpolation=cv2.INTER_LINEAR)
    # Each side of a bar moves by half of it, which are as many steps, twice as fine.
    paper = away > modules * STEPS + rough * chance.uniform(0.2, 1)
    return cv2.resize(paper.astype(numpy.uint8) * 255, image.shape[::-1], interpolation=cv2.INTER_AREA)


def thermal(image: Array, chance: Chance) -> Array:
    """A label of a thermal printer: dead dots of the head, voids, fading, streaks."""
    height, width = image.shape
    dark = 1 - image.astype(numpy.float32) / 255
    dot = int(chance.integers(4, 9))
    along = chance.random() < 0.5
    for _ in range(int(chance.integers(0, 4))):
        place = int(chance.integers(0, (width if along else height) - dot))
        if along:
            dark[:, place:place + dot] = 0
        else:
            dark[place:place + dot] = 0
    grain = chance.standard_normal((height // 4 + 1, width // 4 + 1)).astype(numpy.float32)
    grain = cv2.resize(grain, (width, height), interpolation=cv2.INTER_LINEAR)
    dark[grain > chance.uniform(1.8, 3)] *= 0.2
    fade = numpy.linspace(1, chance.uniform(0.3, 1), width, dtype=numpy.float32)[::chance.choice((-1, 1))]
    streak = cv2.GaussianBlur(chance.standard_normal((height, 1)).astype(numpy.float32), (0, 0), STEPS)
    return (255 * (1 - dark * numpy.clip(fade[None, :] * (1 + 0.8 * streak), 0, 1))).astype(numpy.uint8)


def colours(chance: Chance) -> Inks:
    """The colours of bars and paper, which may differ little; three times in ten the bars are the lighter ones."""
    while True:
        dark, light = packs.some_colour(chance, 10, 180), packs.some_colour(chance, 60, 245)
        if 42 <= luminance(light) - luminance(dark) <= 110:
            return (light, dark) if chance.random() < 0.3 else (dark, light)


def luminance(colour: Colour) -> float:
    return 0.299 * colour[0] + 0.587 * colour[1] + 0.114 * colour[2]


def with_zones(image: Array, chance: Chance, modules: float) -> Array:
    """A symbol with light zones of so many modules beside dark print or in a frame."""
    left, right, top, bottom = packs.bars_of(image)
    zone = int(modules * STEPS)
    bars = image[top:bottom, left:right]
    wide, high = right - left + 2 * zone, bottom - top
    framed = chance.random() < 0.5
    edge = int(chance.uniform(1, 5) * STEPS) if framed else 30 * STEPS
    inner = 2 * STEPS if framed else 0
    block = numpy.zeros((high + 2 * inner + (2 * edge if framed else 0), wide + 2 * edge), numpy.uint8)
    y = (block.shape[0] - high) // 2
    block[y - inner:y + high + inner, edge:edge + wide] = 255
    block[y:y + high, edge + zone:edge + zone + right - left] = bars
    room = numpy.full((block.shape[0] + 8 * STEPS, block.shape[1] + 8 * STEPS), 255, numpy.uint8)
    room[4 * STEPS:-4 * STEPS, 4 * STEPS:-4 * STEPS] = block
    return room


def scratched(image: Array, chance: Chance) -> Array:
    """A symbol with scratches across it, light or dark."""
    image = image.copy()
    height, width = image.shape
    for _ in range(int(chance.integers(3, 12))):
        start = int(chance.integers(0, width)), int(chance.integers(0, height))
        angle, long = chance.uniform(0, numpy.pi), chance.uniform(0.3, 1) * width
        end = int(start[0] + long * numpy.cos(angle)), int(start[1] + long * numpy.sin(angle))
        cv2.line(image, start, end, int(chance.choice((255, 255, 0))), int(chance.integers(2, 2 * STEPS)), cv2.LINE_AA)
    return image


def large_ground(chance: Chance, height: int, width: int) -> Array:
    """The light of a large print."""
    small = packs.ground(chance, height // 2, width // 2, 3)
    packs.text(small, chance, 120, 3)
    return cv2.resize(linear(small), (width, height), interpolation=cv2.INTER_LINEAR)
