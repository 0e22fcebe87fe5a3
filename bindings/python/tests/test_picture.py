"""What is read of pictures: labels of known texts, as Pillow turns, blurs and shades them."""
from __future__ import annotations

import io
import math
import subprocess
import sys
from pathlib import Path
from typing import Any

import noriladle
import pytest
from PIL import Image
from noriladle import Answer, Box, Element, Kind, Refusal, Symbol

numpy = pytest.importorskip("numpy")
Image = pytest.importorskip("PIL.Image")
ImageFilter = pytest.importorskip("PIL.ImageFilter")

# The runs of 9501101530003 as an EAN-13, and what they say.
BARS = [int(width) for width in """1 1 1 1 2 3 1 1 1 2 3 1 2 2 2 2 2 2 1 1 1 2 3 2 2 2 1 1 1 1 1 1 1 2 3 1 1 4
1 1 3 2 1 1 3 2 1 1 3 2 1 1 1 4 1 1 1 1 1""".split()]
READ = Answer("]E0", (Element("01", "09501101530003"),))

# A picture of 700 by 300 dots: bars of 3 dots a module from dot 150 up to 435, in rows 80 up to 200.
GREY = numpy.full((300, 700), 230, numpy.uint8)
GREY[80:200, 150:435] = numpy.repeat([30 if i % 2 == 0 else 230 for i in range(59)], [3 * width for width in BARS])
BOX = Box(150, 80, 435, 200)
SYMBOL = Symbol(READ, BOX, ((150, 80), (435, 80), (435, 200), (150, 200)), 120)


def label(kind: Kind | str, text: str, **sizes: Any) -> Image.Image:
    """A label as an image of grey values."""
    data = noriladle.draw_label(kind, text, 2026, **sizes)
    width, height = (int(word) for word in data.split(b"\n", 2)[1].split())
    bits = numpy.unpackbits(numpy.frombuffer(data, numpy.uint8, offset=len(data) - (width + 7) // 8 * height))
    return Image.fromarray(255 - 255 * bits.reshape(height, -1)[:, :width])


def texts(picture: Image.Image | bytes | Any, **named: Any) -> list[str]:
    return [str(symbol.answer) for symbol in noriladle.read_picture(picture, 2026, **named)]


def turned(degrees: int) -> tuple[Image.Image, list[complex]]:
    """The picture turned clockwise about its middle, and where the corners of its symbol come to be."""
    image = Image.fromarray(GREY).rotate(-degrees, Image.Resampling.BICUBIC, expand=True, fillcolor=230)
    turn = complex(math.cos(math.radians(degrees)), math.sin(math.radians(degrees)))
    middle = complex(*image.size) / 2
    return image, [(complex(x, y) - (350 + 150j)) * turn + middle for x, y in SYMBOL.corners]


def test_reads_a_picture_in_each_form(tmp_path: Path) -> None:
    image = Image.fromarray(GREY)
    black = image.convert("1", dither=Image.Dither.NONE)
    image.save(tmp_path / "grey.png")
    black.save(tmp_path / "black.pbm")
    clear = numpy.dstack([numpy.zeros_like(GREY)] * 3 + [255 - GREY])
    forms = {
        "grey": GREY, "RGB": numpy.dstack([GREY] * 3), "RGBA": numpy.dstack([GREY] * 3 + [numpy.full_like(GREY, 255)]),
        "clear where light": clear, "bool": GREY > 128, "16 bits": GREY.astype(numpy.uint16) << 8,
        "every second dot of an array": numpy.repeat(numpy.repeat(GREY, 2, axis=0), 2, axis=1)[::2, ::2],
        "L": image, "1": black, "P": image.convert("P"), "RGB image": image.convert("RGB"),
        "LA": Image.fromarray(clear).convert("LA"), "CMYK": image.convert("CMYK"),
        "I;16": Image.fromarray(GREY.astype(numpy.uint16) << 8),
        "path": tmp_path / "grey.png", "name": str(tmp_path / "black.pbm"),
    }
    for name, form in forms.items():
        assert noriladle.read_picture(form, 2026) == [SYMBOL], name


def test_takes_colours_by_their_light() -> None:
    red, blue = (230, 30, 30), (30, 30, 230)
    assert texts(numpy.where(GREY[..., None] > 128, red, blue).astype(numpy.uint8)) == [str(READ)]


def test_reads_every_symbol_in_reading_order() -> None:
    sheet = Image.new("L", (1000, 420), 255)
    for place, kind, text in [((520, 205), "upca", "012345000065"), ((0, 0), "gs1128", "10AB\x1d17261231"),
                              ((500, 10), "ean8", "96385074"), ((0, 210), "itf14", "09501101530003")]:
        sheet.paste(label(kind, text, height=150), place)
    assert texts(sheet) == ["]C1 (10)AB(17)261231", "]E4 (01)00000096385074", "]I1 (01)09501101530003", "]E0 (01)00012345000065"]


def test_tells_symbols_of_one_line_apart() -> None:
    for text in ("10A(17)261231", "10A\x1d17261231"):
        symbol, = noriladle.read_picture(label(Kind.GS1128, text), 2026)
        assert symbol.answer.elements == noriladle.parse_elements(text, 2026)


@pytest.mark.parametrize("degrees", [0, 5, 10, 30, 45, 80, 90, 137, 180, 270, 301])
def test_reads_a_turned_picture(degrees: int) -> None:
    image, corners = turned(degrees)
    symbol, = noriladle.read_picture(image, 2026)
    assert symbol.answer == READ
    assert symbol.rows >= 2
    for corner in corners:
        assert min(abs(corner - complex(x, y)) for x, y in symbol.corners) < 3
    left, top, right, bottom = symbol.box
    assert all(left <= x <= right and top <= y <= bottom for x, y in symbol.corners)
    assert 0 <= left < right <= image.width and 0 <= top < bottom <= image.height


def test_reads_what_a_photograph_shows() -> None:
    aslant = Image.fromarray(GREY).transform((700, 300), Image.Transform.QUAD, (0, 0, 40, 300, 660, 300, 700, 0),
                                             Image.Resampling.BICUBIC)
    blurred = numpy.asarray(aslant.rotate(7, Image.Resampling.BICUBIC, fillcolor=230).filter(ImageFilter.GaussianBlur(1.2)))
    shaded = blurred * numpy.linspace(1, 0.3, 700)
    noisy = shaded + numpy.random.RandomState(7).normal(0, 4, shaded.shape)
    assert texts(numpy.clip(noisy, 0, 255).astype(numpy.uint8)) == [str(READ)]


def test_takes_a_blur_out() -> None:
    image, _ = turned(30)
    assert texts(image.filter(ImageFilter.GaussianBlur(1.5))) == [str(READ)]


def test_reads_by_a_level_alone_where_one_is_given() -> None:
    light = numpy.where(GREY > 128, 230, 150).astype(numpy.uint8)
    assert [texts(light, level=level) for level in (1, 150, 151, 230, 231, 255)] == [[], [], [str(READ)], [str(READ)], [], []]
    image, _ = turned(30)
    assert texts(image) == [str(READ)]
    assert texts(image, level=128) == []


@pytest.mark.parametrize("height, width", [(0, 0), (0, 5), (5, 0), (1, 1), (1, 500), (500, 1), (2, 2), (3, 3), (97, 33), (300, 300)])
def test_finds_nothing_where_nothing_is(height: int, width: int) -> None:
    noise = numpy.random.RandomState(7).randint(0, 256, (height, width)).astype(numpy.uint8)
    for picture in (noise, noise * 0, noise * 0 + 255, noise > 128, noise // 128 * 3):
        assert noriladle.read_picture(picture, 2026) == []


@pytest.mark.parametrize("height, width", [(600, 20), (20, 600), (600, 24), (600, 25), (40, 40), (300, 300)])
def test_finds_nothing_in_stripes(height: int, width: int) -> None:
    stripes = numpy.repeat(numpy.random.RandomState(7).randint(0, 2, (1, width)) * 200, height, axis=0).astype(numpy.uint8)
    for picture in (stripes, stripes.T, numpy.tile([0, 0, 200, 200], (height, width // 4)).astype(numpy.uint8)):
        assert noriladle.read_picture(picture, 2026) == []


def test_finds_no_number_that_is_wrong() -> None:
    # The last digit's runs are those of another one.
    row = numpy.repeat([0 if i % 2 == 0 else 255 for i in range(59)], BARS[:-7] + [2, 1, 2, 2] + BARS[-3:]).astype(numpy.uint8)
    assert noriladle.read_picture(numpy.pad(numpy.tile(row, (50, 1)), 20, constant_values=255), 2026) == []


def test_reads_a_date_by_the_year() -> None:
    # 29 February is a day of 2000 and none of 2100.
    image = label(Kind.GS1128, "17000229")
    assert texts(image) == ["]C1 (17)000229"]
    assert noriladle.read_picture(image, 2090) == []


def test_refuses_a_year_and_a_width_out_of_range() -> None:
    for year in (1950, 2150, -1, 65_536 + 2026):
        with pytest.raises(Refusal) as raised:
            noriladle.read_picture(GREY, year)
        assert (raised.value.number, raised.value.name) == (42, "Words")
    wide = numpy.full((3, 65_536), 255, numpy.uint8)
    assert noriladle.read_picture(wide[:, :65_535], 2026) == []
    with pytest.raises(Refusal) as raised:
        noriladle.read_picture(wide, 2026)
    assert (raised.value.number, raised.value.name) == (17, "TooWide")


@pytest.mark.parametrize("picture, error", [
    (None, TypeError), (7, TypeError), (b"P4", OSError), (b"", OSError), ([[0, 1]], TypeError), (io.StringIO("P4"), TypeError), (GREY.astype(float), TypeError),
    (GREY.astype(numpy.int64), TypeError), (GREY[0], ValueError), (numpy.dstack([GREY] * 2), ValueError), (GREY[None, None], ValueError),
    ("/nowhere/at/all.png", FileNotFoundError),
])
def test_takes_no_picture_but_a_picture(picture: Any, error: type[Exception]) -> None:
    with pytest.raises(error):
        noriladle.read_picture(picture, 2026)


def saved(image: Image.Image, form: str) -> bytes:
    data = io.BytesIO()
    image.save(data, form)
    return data.getvalue()


class Stream:
    """A stream of an upload: nobody can go back in it, and it gives a few bytes at a time."""

    def __init__(self, data: bytes) -> None:
        self._data = io.BytesIO(data)

    def read(self, count: int = -1) -> bytes:
        return self._data.read(min(count, 1000))


@pytest.mark.parametrize("form", ["PNG", "JPEG", "TIFF", "BMP", "GIF", "WEBP", "PPM"])
def test_takes_the_bytes_of_a_file_and_a_stream(form: str) -> None:
    data = saved(Image.fromarray(GREY), form)
    wanted = noriladle.read_picture(Image.open(io.BytesIO(data)), 2026)
    assert texts(data) == ["]E0 (01)09501101530003"] and wanted
    for picture in (data, bytearray(data), memoryview(data), io.BytesIO(data), Stream(data)):
        assert noriladle.read_picture(picture, 2026) == wanted


def test_bytes_and_streams_have_the_limits_of_files(tmp_path: Path, monkeypatch: pytest.MonkeyPatch) -> None:
    eps = b"%!PS-Adobe-3.0 EPSF-3.0\n%%BoundingBox: 0 0 100 100\nshowpage\n"
    large = b"P5 12500 12000 255\n"
    (tmp_path / "large.pgm").write_bytes(large)
    for picture in (eps, io.BytesIO(eps), Stream(eps), b"%PDF-1.7\n", saved(Image.fromarray(GREY), "ICO")):
        with pytest.raises(OSError):
            noriladle.read_picture(picture, 2026)
    for picture in (large, io.BytesIO(large), Stream(large), tmp_path / "large.pgm"):
        with pytest.raises(Refusal) as raised:
            noriladle.read_picture(picture, 2026)
        assert (raised.value.number, raised.value.remedy) == (44, "this is too large: split it, or make the picture smaller")
    monkeypatch.setattr("noriladle.picture.MOST_BYTES", 999)
    with pytest.raises(Refusal) as raised:
        noriladle.read_picture(Stream(saved(Image.fromarray(GREY), "BMP")), 2026)
    assert raised.value.number == 44


@pytest.mark.parametrize("form", ["PNG", "JPEG", "TIFF", "BMP", "GIF", "WEBP", "PPM"])
def test_a_stream_that_ends_is_an_os_error(form: str, tmp_path: Path) -> None:
    data = saved(Image.fromarray(GREY), form)
    for end in (len(data) // 2, len(data) // 4, 30, 5):
        for picture in (data[:end], Stream(data[:end])):
            with pytest.raises(OSError):
                noriladle.read_picture(picture, 2026)
        (tmp_path / "cut").write_bytes(data[:end])
        with pytest.raises(OSError):
            noriladle.read_picture(tmp_path / "cut", 2026)


def test_says_why_nothing_was_read_and_what_was_dropped() -> None:
    assert (noriladle.read_picture(GREY, 2026).reason, noriladle.read_picture(GREY, 2026).dropped) == (None, 0)
    blank = noriladle.read_picture(numpy.full((30, 30), 255, numpy.uint8), 2026)
    assert (blank, blank.reason, blank.dropped) == ([], None, 0)
    for change, number, name in ((slice(130, 134), 24, "SymbolCheckDigit"), (slice(60, 64), 22, "Modules")):
        wrong = numpy.asarray(label(Kind.EAN13, "9501101530003", width=400, height=60).convert("L")).copy()
        wrong[:, change] = 255 - wrong[:, change]
        seen = noriladle.read_picture(wrong, 2026, level=128)
        assert seen == [] and (seen.reason.number, seen.reason.name) == (number, name)
        assert "picture" in seen.reason.remedy or "camera" in seen.reason.remedy
    one = numpy.full((12, 130), 255, numpy.uint8)
    one[1:11, 15:110] = numpy.repeat([0 if i % 2 == 0 else 255 for i in range(59)], BARS)
    many = noriladle.read_picture(numpy.tile(one, (25, 10)), 2026, level=128)
    assert len(many) == 192 and 1 <= many.dropped <= 58


@pytest.mark.parametrize("level", [-1, 0, 256])
def test_takes_no_level_out_of_range(level: int) -> None:
    with pytest.raises(ValueError):
        noriladle.read_picture(GREY, 2026, level=level)


@pytest.mark.parametrize("missing", ["numpy", "PIL"])
def test_needs_numpy_and_pillow_for_pictures_alone(missing: str) -> None:
    script = f"""
import sys
sys.modules["{missing}"] = None
import noriladle
print(noriladle.check_digit("950110153000"))
try:
    noriladle.read_picture("picture.png", 2026)
except ImportError as error:
    print(error)
"""
    told = subprocess.run([sys.executable, "-c", script], capture_output=True, text=True, check=True)
    assert told.stdout == "3\nread_picture needs numpy and Pillow: pip install 'noriladle[picture]'\n"
