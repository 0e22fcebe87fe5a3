"""How a print lies before the camera: flat, round a bottle, crumpled or waved; and the light that falls onto it.

A surface says for each place of the picture which place of the print is seen there, how much light it throws back, and
how much of a lamp it mirrors. Places are in modules of the symbol, from its middle.
"""
from __future__ import annotations

from typing import Callable, Tuple

import cv2
import numpy
from camera import Array, Chance

Seen = Tuple[Array, Array, Array, Array]
Surface = Callable[[Array, Array], Seen]


def flat(x: Array, y: Array) -> Seen:
    return x, y, numpy.float32(1), numpy.float32(0)


def bottle(radius: float, turned: float, lamp: float, gloss: float) -> Surface:
    """Round a bottle that stands upright, of this radius, whose symbol is turned away by an angle."""
    def seen(x: Array, y: Array) -> Seen:
        side = numpy.clip(x / radius + numpy.sin(turned), -0.999, 0.999)
        angle = numpy.arcsin(side)
        shade = 0.5 + 0.5 * numpy.clip(numpy.cos(angle - lamp), 0, 1)
        mirrored = gloss * numpy.exp(-((angle - lamp) / 0.12) ** 2)
        return radius * (angle - turned), y, shade, mirrored
    return seen


def field(chance: Chance, shape: Tuple[int, ...], creases: int, depth: float, span: float) -> Array:
    """The heights of a crumpled bag, in modules: faces that meet in creases, up to a depth; span is its width."""
    height, width = shape
    small = (max(2, height // 4), max(2, width // 4))
    y, x = numpy.mgrid[0:small[0], 0:small[1]].astype(numpy.float32)
    x, y = (x / small[1] - 0.5) * span, (y / small[0] - 0.5) * span * height / width
    heights = numpy.zeros(small, numpy.float32)
    for _ in range(creases):
        angle, place = chance.uniform(0, numpy.pi), chance.uniform(-0.45, 0.45) * span
        along = x * numpy.cos(angle) + y * numpy.sin(angle) - place
        fade = chance.uniform(8, 30)
        heights += chance.uniform(-1, 1) * depth * numpy.exp(-numpy.abs(along) / fade)
    heights = cv2.GaussianBlur(heights, (0, 0), 1.2 * small[1] / span)
    return cv2.resize(heights, (width, height), interpolation=cv2.INTER_CUBIC)


def crumpled(chance: Chance, creases: int, depth: float, gloss: float) -> Surface:
    """A bag with creases: its slopes are seen shorter, are darker or lighter, and mirror a lamp."""
    def seen(x: Array, y: Array) -> Seen:
        step = float(abs(x[0, -1] - x[0, 0]) + abs(y[0, -1] - y[0, 0])) / x.shape[1]
        heights = field(chance, x.shape, creases, depth, step * x.shape[1])
        across, down = numpy.gradient(heights, step, axis=1), numpy.gradient(heights, step, axis=0)
        longer_x, longer_y = numpy.sqrt(1 + across ** 2) - 1, numpy.sqrt(1 + down ** 2) - 1
        more_x, more_y = numpy.cumsum(longer_x, axis=1) * step, numpy.cumsum(longer_y, axis=0) * step
        middle = x.shape[0] // 2, x.shape[1] // 2
        more_x, more_y = more_x - more_x[:, middle[1]:middle[1] + 1], more_y - more_y[middle[0]:middle[0] + 1]
        lamp = chance.normal(0, 0.5, 2).astype(numpy.float32)
        norm = 1 / numpy.sqrt(1 + across ** 2 + down ** 2)
        facing = numpy.clip((1 - lamp[0] * across - lamp[1] * down) * norm / numpy.sqrt(1 + lamp @ lamp), 0, 1)
        mirror = chance.normal(0, 0.25, 2).astype(numpy.float32)
        off = (across + mirror[0]) ** 2 + (down + mirror[1]) ** 2
        return x + more_x, y + more_y, 0.3 + 0.8 * facing, gloss * numpy.exp(-off / 0.012)
    return seen


def waved(chance: Chance, depth: float, slant: float) -> Surface:
    """A bag with waves, seen aslant from one side: its bars curve."""
    long, phase, lean = chance.uniform(30, 70), chance.uniform(0, 2 * numpy.pi), chance.uniform(-0.5, 0.5)

    def seen(x: Array, y: Array) -> Seen:
        angle = 2 * numpy.pi * (y + lean * x) / long + phase
        heights = depth * numpy.sin(angle)
        slope = depth * 2 * numpy.pi / long * numpy.cos(angle)
        shade = numpy.clip(0.85 - 0.35 * slope, 0.3, 1.1)
        wide = 1 / numpy.cos(slant)
        return x * wide + heights * numpy.tan(slant), y + 0.3 * heights, shade, numpy.float32(0)
    return seen


# ---- light: what falls onto each place of the picture, and what a lamp adds

Light = Callable[[Array, Array], Tuple[Array, Array]]


def even(x: Array, y: Array) -> Tuple[Array, Array]:
    return numpy.float32(1), numpy.float32(0)


def falling(chance: Chance, least: float) -> Light:
    """Light that falls off to one side."""
    angle, drop = chance.uniform(0, 2 * numpy.pi), chance.uniform(least, 1)

    def light(x: Array, y: Array) -> Tuple[Array, Array]:
        along = (x * numpy.cos(angle) + y * numpy.sin(angle)) / 120
        return numpy.clip(1 - (1 - drop) * (along + 0.5), 0.1, 1), numpy.float32(0)
    return light


def glare(chance: Chance, strength: float, wide: float) -> Light:
    """A lamp that is mirrored as a strip or a spot on the symbol."""
    strip = chance.random() < 0.5
    angle, place_x, place_y = chance.uniform(0, numpy.pi), chance.uniform(-30, 30), chance.uniform(-12, 12)
    long = chance.uniform(1.2, 3) * wide

    def light(x: Array, y: Array) -> Tuple[Array, Array]:
        along = (x - place_x) * numpy.cos(angle) + (y - place_y) * numpy.sin(angle)
        across = -(x - place_x) * numpy.sin(angle) + (y - place_y) * numpy.cos(angle)
        off = (across / wide) ** 2 + (0 if strip else (along / long) ** 2)
        return numpy.float32(1), strength * numpy.exp(-off)
    return light


def shadows(chance: Chance, dark: float, soft: float) -> Light:
    """The edge of a shadow, or of several, as a blind throws them."""
    angle = chance.uniform(0, numpy.pi)
    blind = chance.random() < 0.4
    wide, place = chance.uniform(14, 40), chance.uniform(-25, 25)

    def light(x: Array, y: Array) -> Tuple[Array, Array]:
        along = x * numpy.cos(angle) + y * numpy.sin(angle) - place
        if blind:
            along = wide / 2 - numpy.abs(numpy.mod(along, 2 * wide) - wide)
        lit = 1 / (1 + numpy.exp(-numpy.clip(along / soft, -30, 30)))
        return dark + (1 - dark) * lit, numpy.float32(0)
    return light
