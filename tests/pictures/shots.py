"""A shot: a print as it lies before a camera, in its light, and the picture that becomes of it."""
from __future__ import annotations

from dataclasses import dataclass, field
from typing import Optional, Tuple

import cv2
import numpy
import surfaces
from camera import FINE, Array, Camera, Chance, linear
from packs import Print

_TABLE = (110, 105, 100)
"""What the print lies on."""


@dataclass
class Shot:
    """How a print is photographed.

    dots: a module in dots. angle: by how much it is turned, in radians. tilt: by how much it comes nearer to the right
    and down, a module. margin: how many modules round the symbol the frame has. frame: its width and height in dots, if
    they are given; aside: where the symbol's middle then is, beside the frame's, in dots. gain: the light of white
    paper.
    """

    printed: Print
    camera: Camera
    dots: float
    angle: float = 0
    tilt: Tuple[float, float] = (0, 0)
    surface: surfaces.Surface = surfaces.flat
    light: surfaces.Light = surfaces.even
    margin: float = 10
    frame: Optional[Tuple[int, int]] = None
    aside: Tuple[float, float] = field(default=(0, 0))
    gain: float = 0.9

    def _bounds(self) -> Tuple[Tuple[int, int], Tuple[float, float]]:
        """The size in dots of a frame with the symbol and the margin, and where the symbol's middle is beside its
        own."""
        x = self.printed.wide / 2 * numpy.array([-1, 1, 1, -1])
        y = self.printed.high / 2 * numpy.array([-1, -1, 1, 1])
        places = self._on_picture(x, y)
        least, most = places.min(axis=1), places.max(axis=1)
        width, height = (int(side * self.dots / 2) * 2 for side in most - least + 2 * self.margin)
        left, top = -(least + most) / 2 * self.dots
        return (width, height), (float(left), float(top))

    def _on_picture(self, x: Array, y: Array) -> Array:
        """Where places of a flat print are on the picture, in modules from the symbol's middle."""
        far = 1 - self.tilt[0] * x - self.tilt[1] * y
        cos, sin = numpy.cos(self.angle), numpy.sin(self.angle)
        return numpy.array([x * cos - y * sin, x * sin + y * cos]) / far

    def columns(self, x: Array, y: Array) -> Array:
        """The columns in which a picture without a given frame shows places of a flat print."""
        (width, _), aside = self._bounds()
        return self._on_picture(x, y)[0] * self.dots + width / 2 + aside[0]

    def places(self) -> Tuple[Array, Array]:
        """Which place of the print's plane each fine dot of the frame sees, in modules."""
        (width, height), aside = self._bounds()
        if self.frame:
            (width, height), aside = self.frame, self.aside
        dots = numpy.float32(self.dots)
        u = ((numpy.arange(width * FINE, dtype=numpy.float32) + 0.5) / FINE - width / 2 - aside[0]) / dots
        v = ((numpy.arange(height * FINE, dtype=numpy.float32) + 0.5) / FINE - height / 2 - aside[1]) / dots
        u, v = u[None, :], v[:, None]
        cos, sin = numpy.float32(numpy.cos(self.angle)), numpy.float32(numpy.sin(self.angle))
        x, y = u * cos + v * sin, v * cos - u * sin
        near = 1 + numpy.float32(self.tilt[0]) * x + numpy.float32(self.tilt[1]) * y
        return x / near, y / near

    def fine_light(self) -> Array:
        """The light that comes from the print, FINE times as fine as the picture."""
        x, y = self.places()
        seen_x, seen_y, shade, mirrored = self.surface(x, y)
        columns, rows = (numpy.float32(self.printed.steps) * seen + numpy.float32(middle - 0.5)
                         for seen, middle in zip((seen_x, seen_y), self.printed.middle))
        values = cv2.remap(self.printed.values, columns, rows, cv2.INTER_LINEAR, borderValue=_TABLE)
        lit, lamp = self.light(x, y)
        factor, more = numpy.float32(self.gain) * shade * lit, mirrored + lamp
        light = linear(values)
        if numpy.ndim(factor) or factor != 1:
            light = light * (factor[..., None] if numpy.ndim(factor) else factor)
        return light + more[..., None] if numpy.ndim(more) else light

    def taken(self, chance: Chance) -> Array:
        """The picture."""
        return self.camera.photograph(self.fine_light(), chance)
