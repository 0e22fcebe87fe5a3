"""A camera: what it makes of the light that comes from a scene.

Light is linear: 1 comes from white paper in full light. It has rows, columns, and red, green and blue. A dot is a pixel
of the picture. Before the lens light is given FINE times as fine as dots, because a dot gathers it as a sensor does.
"""
from __future__ import annotations

import io
from dataclasses import dataclass
from typing import Any, Optional, Tuple

import cv2
import numpy
from numpy.random import Generator as Chance
from PIL import Image

Array = Any

FINE = 2
"""How many steps of light a dot has to each side."""

_RESPONSE = numpy.array([0.55, 1.0, 0.65], numpy.float32)
"""How much of red, green and blue light a sensor of daylight takes up, beside green."""
_GAMMA = 2.2
_WHITE, _FULL = 40000, 65535
"""The numbers of a dot for white paper in full light, and the most that it may have."""


@dataclass(frozen=True)
class Camera:
    """A camera and its settings.

    lens: standard deviation of its blur, in dots. focus: radius of the disc that a point becomes, in dots. moved: how
    far the picture moved, in dots, and to which side, in radians. electrons: what a dot gathers from white paper.
    noise: of reading a dot, in electrons. smear: strength of the smoothing against noise, in grey values. sharpening
    and halo: strength, and standard deviation in dots. curve: how much of an S the tones have. vignetting: how much
    light the corners lose. edges: whether colours are filled in along edges. jpeg: its quality.
    """

    lens: float = 0.45
    focus: float = 0
    moved: Tuple[float, float] = (0, 0)
    electrons: float = 4000
    noise: float = 4
    smear: float = 0
    sharpening: float = 0.6
    halo: float = 1
    curve: float = 0.3
    vignetting: float = 0.2
    edges: bool = True
    jpeg: int = 70

    @staticmethod
    def any(chance: Chance) -> Camera:
        """A camera of the usual kind."""
        return Camera(lens=chance.uniform(0.35, 0.6), electrons=chance.uniform(1500, 6000), noise=chance.uniform(2, 6),
                      sharpening=chance.uniform(0.2, 1.2), halo=chance.uniform(0.7, 1.3), curve=chance.uniform(0, 0.6),
                      vignetting=chance.uniform(0, 0.35), edges=bool(chance.random() < 0.6),
                      jpeg=int(chance.integers(40, 86)))

    def photograph(self, light: Array, chance: Chance) -> Array:
        """The picture of fine light: rows of red, green and blue, 0 to 255, as the camera's program leaves them."""
        return self.developed(self.gathered(light), chance)

    def gathered(self, light: Array) -> Array:
        """What falls onto each dot through the lens."""
        light = cv2.GaussianBlur(light, (0, 0), self.lens * FINE, borderType=cv2.BORDER_REPLICATE)
        if self.focus:
            light = cv2.filter2D(light, -1, disc(self.focus * FINE), borderType=cv2.BORDER_REPLICATE)
        if self.moved[0]:
            light = cv2.filter2D(light, -1, track(self.moved[0] * FINE, self.moved[1]), borderType=cv2.BORDER_REPLICATE)
        height, width = light.shape[0] // FINE, light.shape[1] // FINE
        return cv2.resize(light[:height * FINE, :width * FINE], (width, height), interpolation=cv2.INTER_AREA)

    def developed(self, light: Array, chance: Chance) -> Array:
        """The picture of the light that the dots gathered."""
        code = cv2.COLOR_BayerBG2RGB_EA if self.edges else cv2.COLOR_BayerBG2RGB
        tones = self._tones()[cv2.cvtColor(self._counted(light, chance), code)]
        if self.smear:
            tones = cv2.bilateralFilter(tones, 5, self.smear, 2)
        softer = cv2.GaussianBlur(tones, (0, 0), self.halo)
        return cv2.addWeighted(tones, 1 + self.sharpening, softer, -self.sharpening, 0)

    def _counted(self, light: Array, chance: Chance) -> Array:
        """The mosaic of dots, each of one colour, with the noise of light and of reading."""
        mosaic = numpy.empty(light.shape[:2], numpy.uint16)
        y = numpy.linspace(-1, 1, light.shape[0], dtype=numpy.float32)[:, None]
        x = numpy.linspace(-1, 1, light.shape[1], dtype=numpy.float32)[None, :]
        for row, column, colour in ((0, 0, 0), (0, 1, 1), (1, 0, 1), (1, 1, 2)):
            full = numpy.float32(self.electrons * _RESPONSE[colour])
            corners = 1 - numpy.float32(self.vignetting / 2) * (y[row::2] ** 2 + x[:, column::2] ** 2)
            counts = light[row::2, column::2, colour] * corners
            counts *= full
            noise = chance.standard_normal(counts.shape, dtype=numpy.float32)
            noise *= cv2.sqrt(counts + numpy.float32(self.noise ** 2))
            counts += noise
            counts *= _WHITE / full
            mosaic[row::2, column::2] = numpy.clip(counts, 0, _FULL, out=counts)
        return mosaic

    def _tones(self) -> Array:
        """The tone of each number that a dot may have, 0 to 255."""
        tones = numpy.clip(numpy.arange(_FULL + 1, dtype=numpy.float32) / _WHITE, 0, 1) ** numpy.float32(1 / _GAMMA)
        bent = (1 - self.curve) * tones + self.curve * tones * tones * (3 - 2 * tones)
        return numpy.rint(255 * bent).astype(numpy.uint8)


def disc(radius: float) -> Array:
    """The light of a point out of focus."""
    half = int(numpy.ceil(radius))
    y, x = numpy.mgrid[-half:half + 1, -half:half + 1]
    kernel = numpy.clip(radius + 0.5 - numpy.hypot(x, y), 0, 1).astype(numpy.float32)
    return kernel / kernel.sum()


def track(length: float, angle: float) -> Array:
    """The light of a point that moved this far in this direction."""
    half = int(numpy.ceil(length / 2)) + 1
    kernel = numpy.zeros((2 * half + 1, 2 * half + 1), numpy.float32)
    for step in numpy.linspace(-length / 2, length / 2, int(8 * length) + 2):
        x, y = half + step * numpy.cos(angle), half + step * numpy.sin(angle)
        left, top = int(x), int(y)
        for i, j in ((0, 0), (0, 1), (1, 0), (1, 1)):
            kernel[top + i, left + j] += (1 - abs(y - top - i)) * (1 - abs(x - left - j))
    return kernel / kernel.sum()


def grey_of(colours: Array) -> Array:
    """The luminance of a picture, as a phone's preview has it."""
    return cv2.cvtColor(colours, cv2.COLOR_RGB2GRAY)


def linear(values: Array) -> Array:
    """The light that printed values of 0 to 255 throw back."""
    return _LINEAR[values]


_LINEAR = ((numpy.arange(256, dtype=numpy.float32) / 255) ** _GAMMA).astype(numpy.float32)


def write(picture: Array, path: str, jpeg: Optional[int] = None) -> str:
    """Writes a picture as PNG, or as JPEG of this quality with halved colours; the path that it has."""
    if jpeg:
        path += ".jpg"
        Image.fromarray(picture).save(path, quality=jpeg, subsampling=2)
    else:
        path += ".png"
        Image.fromarray(picture).save(path, compress_level=1)
    return path


def through_jpeg(picture: Array, jpeg: int) -> Array:
    """A picture as it comes out of a JPEG of this quality."""
    stream = io.BytesIO()
    Image.fromarray(picture).save(stream, "JPEG", quality=jpeg, subsampling=2)
    return numpy.asarray(Image.open(stream))
