"""Reads the symbols of a picture by its grey values, with the library (docs/PICTURES.md)."""
from __future__ import annotations

import io
import math
import os
import struct
import warnings
import zlib
from typing import Any, BinaryIO, Optional, Protocol, Tuple, Union

try:
    import numpy
    from PIL import Image, UnidentifiedImageError
except ImportError as error:
    raise ImportError("read_picture needs numpy and Pillow: pip install 'noriladle[picture]'") from error

from . import _MOST, Ais, Box, Refusal, Symbol, Symbols, _ask, _library, _line, _noted, _read, _terms


class Stream(Protocol):
    """An open binary stream, or any other object with such a call, as uploads are."""

    def read(self, size: int, /) -> Optional[bytes]:
        """At most this many bytes; none at the end."""


Picture = Union[Image.Image, str, "os.PathLike[str]", bytes, bytearray, memoryview, Stream, "numpy.ndarray[Any, Any]"]

FORMATS = ("JPEG", "PNG", "TIFF", "PPM", "BMP", "GIF", "WEBP")
"""The formats of files that it opens. For some others Pillow runs other programs."""

MOST_PIXELS = 100_000_000
"""The most pixels of a file's picture: a small file may claim more than memory can hold."""

MOST_BYTES = 1_000_000_000
"""The most bytes of a stream."""

DAMAGES = (OSError, ValueError, SyntaxError, EOFError, IndexError, KeyError, TypeError, struct.error, zlib.error)
"""What Pillow raises for damaged files."""

_BAND = 64
"""How many rows are made grey at a time."""
_RED, _GREEN, _BLUE = 77, 150, 29
"""The weights of red, green and blue in grey, of 256."""
_ROOM = 80_000
"""Room for the lines of as many symbols as the library reports."""
_UNIT = 256
"""The library gives places in 1/256 pixel."""
_OF_THE_CALL = (17, 18, 42, 43)
"""The errors of a picture that cannot be read at all. Any other says why none of its rows was read."""


def read(picture: Picture, year: Optional[int] = None, level: Optional[int] = None, ais: Ais = "all") -> Symbols:
    """What a picture shows; the arguments are those of :func:`noriladle.read_picture`."""
    if level is not None and not 1 <= level <= 255:
        raise ValueError("the level is not 1 to 255")
    terms = _terms(year, ais)
    grey = numpy.ascontiguousarray(grey_of(picture))
    height, width = grey.shape
    columns, rows = min(width, _MOST + 1), min(height, _MOST + 1)
    words = numpy.empty(_library.gs1_picture_room(columns, rows), numpy.uint32)
    told = _ask(_library.gs1_picture, grey.ctypes.data, grey.size, columns, rows, width, level or 0, terms, words.ctypes.data, words.size, room=_ROOM)
    shown = Symbols()
    if not told.endswith(b"\n"):
        try:
            _line(told)
        except Refusal as reason:
            if reason.number in _OF_THE_CALL:
                raise
            shown.reason = _noted(reason, "picture")
        return shown
    *lines, last = told.splitlines()
    word, _, dropped = last.partition(b" ")
    if word == b"dropped":
        shown.dropped = int(dropped)
    else:
        lines.append(last)
    shown += [_symbol(line, terms, width, height) for line in lines]
    return shown


def _symbol(line: bytes, terms: int, width: int, height: int) -> Symbol:
    """The symbol of a line, with its box in a picture of this size."""
    *numbers, said = line.split(b" ", 9)
    places = [int(number) / _UNIT for number in numbers[:8]]
    xs, ys = places[0::2], places[1::2]
    corners: Tuple[Tuple[float, float], ...] = tuple(zip(xs, ys))
    box = Box(math.floor(min(xs)), math.floor(min(ys)), min(width, math.ceil(max(xs))), min(height, math.ceil(max(ys))))
    return Symbol(_read(_library.gs1_read_data, said, len(said), terms), box, corners, int(numbers[8]))


def grey_of(picture: Picture) -> "numpy.ndarray[Any, Any]":
    """The grey values of a picture, rows first; transparent pixels are white."""
    if isinstance(picture, (bytes, bytearray, memoryview)):
        return _grey_of_file(io.BytesIO(picture))
    if isinstance(picture, (str, os.PathLike)):
        return _grey_of_file(picture)
    if not isinstance(picture, (Image.Image, numpy.ndarray)) and hasattr(picture, "read"):
        return _grey_of_file(_whole(picture))
    pixels = numpy.asarray(_plain(picture) if isinstance(picture, Image.Image) else picture)
    if pixels.dtype == bool:
        pixels = pixels * numpy.uint8(255)
    elif pixels.dtype == numpy.uint16:
        pixels = (pixels >> 8).astype(numpy.uint8)
    elif pixels.dtype != numpy.uint8:
        raise TypeError(f"a picture is of bool, uint8 or uint16, and not {pixels.dtype}")
    if pixels.ndim == 2:
        return pixels
    if pixels.ndim != 3 or pixels.shape[2] not in (3, 4):
        raise ValueError(f"a picture has rows of grey values, of RGB or of RGBA, and not the shape {pixels.shape}")
    grey = numpy.empty(pixels.shape[:2], numpy.uint8)
    # A few rows at a time: the steps for a whole large picture would need several times its memory.
    for top in range(0, len(pixels), _BAND):
        grey[top:top + _BAND] = _light(pixels[top:top + _BAND])
    return grey


def _grey_of_file(file: Union[str, "os.PathLike[str]", BinaryIO]) -> "numpy.ndarray[Any, Any]":
    try:
        image = opened(file)
        with image:
            image.load()
            plain = _plain(image)
    except UnidentifiedImageError as error:
        if isinstance(file, (str, os.PathLike)):
            raise
        # Pillow names a stream by its place in memory.
        raise OSError("this is no JPEG, PNG, TIFF, PBM, PGM, PPM, BMP, GIF or WebP picture") from error
    except (OSError, Refusal):
        raise
    except DAMAGES as error:
        raise OSError("the picture is damaged, or cut") from error
    return grey_of(plain)


def _whole(stream: Stream) -> BinaryIO:
    """A stream from its place to its end, in memory: Pillow wants one that it can go back in.

    :raises Refusal: 44 ``InputSize`` if it is too long.
    """
    data = io.BytesIO()
    while data.tell() <= MOST_BYTES:
        piece = stream.read(1 << 20)
        if not isinstance(piece, (bytes, bytearray, memoryview)):
            raise TypeError(f"a stream gives bytes, and not {type(piece).__name__}: open it in binary mode")
        if not piece:
            data.seek(0)
            return data
        data.write(piece)
    raise Refusal(44, "InputSize")


def _light(pixels: "numpy.ndarray[Any, Any]") -> "numpy.ndarray[Any, Any]":
    """The grey values of pixels of RGB or RGBA."""
    red, green, blue = (pixels[..., i].astype(numpy.uint16) for i in range(3))
    light: numpy.ndarray[Any, Any] = (red * _RED + green * _GREEN + blue * _BLUE) >> 8
    if pixels.shape[2] == 4:
        opaque = pixels[..., 3].astype(numpy.uint16)
        light = (light * opaque + 255 * (255 - opaque)) // 255
    return light


def opened(file: Union[str, "os.PathLike[str]", BinaryIO], page: int = 0) -> Image.Image:
    """The picture of a file, or one of its pages, from 0. Its pixels are not read yet.

    :raises OSError: the file is missing, or has none of the formats.
    :raises Refusal: 44 ``InputSize`` if it has too many pixels.
    """
    with warnings.catch_warnings():
        # The limit below counts instead.
        warnings.simplefilter("ignore", Image.DecompressionBombWarning)
        try:
            image = Image.open(file, formats=FORMATS)
            image.seek(page)
        except Image.DecompressionBombError:
            raise Refusal(44, "InputSize") from None
    if image.width * image.height > MOST_PIXELS:
        image.close()
        raise Refusal(44, "InputSize")
    return image


def _plain(image: Image.Image) -> Union[Image.Image, "numpy.ndarray[Any, Any]"]:
    """An image in a mode whose arrays have their values."""
    if "transparency" in image.info or image.mode in ("LA", "La", "PA", "RGBa"):
        return image.convert("RGBA")
    if image.mode.startswith("I"):
        # Pillow's modes of grey values of 16 bits.
        return numpy.asarray(image).astype(numpy.uint16)
    return image if image.mode in ("1", "L", "RGB", "RGBA") else image.convert("RGB")
