"""The widths of fonts: those that reportlab reads of the same files; their letters: those that Pillow draws; and files that are no font."""
import struct
import time
from pathlib import Path

import pytest
from PIL import Image, ImageChops, ImageDraw, ImageFilter, ImageFont

from noriladle.labels import _letters, _truetype, fonts_of
from noriladle.labels._fonts import Font
from noriladle.labels._letters import Dots, dots_of
from noriladle.labels._truetype import NoFont, metrics_of

ttfonts = pytest.importorskip("reportlab.pdfbase.ttfonts")
FONTS = sorted(Path("/usr/share/fonts").rglob("*.ttf"))[:20]


def test_the_widths_are_those_that_reportlab_reads() -> None:
    """reportlab also counts characters that have the sign for missing ones."""
    read = 0
    for path in FONTS:
        try:
            face = ttfonts.TTFont("font", str(path)).face
        except ttfonts.TTFError:
            with pytest.raises(NoFont):
                metrics_of(path)
            continue
        ours = metrics_of(path)
        theirs = {chr(code): face.charWidths[code] for code, glyph in face.charToGlyph.items() if glyph and code in face.charWidths}
        assert ours.widths.keys() == theirs.keys(), path
        assert all(abs(1000 * ours.widths[letter] - wide) < 1e-6 for letter, wide in theirs.items()), path
        assert abs(1000 * ours.other - face.defaultWidth) < 1e-6, path
        read += 1
    assert read or not FONTS


def test_no_font(tmp_path: Path) -> None:
    font = fonts_of().regular.path.read_bytes()
    path = tmp_path / "font.ttf"
    for data in (b"", b"no font", b"OTTO" + font[4:], font[:12], font[:300], font[:len(font) // 20], b"ttcf" + struct.pack(">III", 1, 1, 1 << 31)):
        path.write_bytes(data)
        with pytest.raises(NoFont):
            metrics_of(path)
    with pytest.raises(ValueError, match="no TrueType font"):
        fonts_of(str(path))


def test_damaged_fonts_end(tmp_path: Path) -> None:
    """A byte of the tables is another: the font is read or refused, and neither takes long."""
    font = bytearray(fonts_of().regular.path.read_bytes())
    tables = dict(_truetype.tables_of(bytes(font)))
    for place in [*range(0, 300, 7), *range(tables["cmap"], tables["cmap"] + 300, 3), *range(tables["hhea"], tables["hhea"] + 36)]:
        before, font[place] = font[place], 255
        try:
            assert len(_truetype._metrics(bytes(font)).widths) <= 0x110000
        except (struct.error, KeyError, IndexError, ZeroDivisionError):
            pass
        font[place] = before


def picture(width: int, height: int, left: int, base: int, dots: Dots) -> Image.Image:
    """The dots of a letter in a picture, at a place on its base line."""
    wide = (dots.width + 7) // 8
    data = b"".join((row << 8 * wide - dots.width).to_bytes(wide, "big") for row in dots.rows)
    made = Image.new("1", (width, height))
    made.paste(Image.frombytes("1", (dots.width, len(dots.rows)), data), (left + dots.left, base - dots.top))
    return made.convert("L")


@pytest.mark.parametrize("font", [*fonts_of(), *(fonts_of(str(path)).regular for path in FONTS[:4])], ids=lambda font: font.path.name)
def test_letters_are_those_that_pillow_draws(font: Font) -> None:
    """All dots are those of FreeType, except some within three dots of an edge, since its hints move edges. Letters with accents are of two parts."""
    size = 200
    drawer = ImageFont.truetype(str(font.path), size)
    for letter in "AQg&€Àåi":
        if font.lacks(letter):
            continue
        theirs = Image.new("L", (2 * size, 2 * size))
        ImageDraw.Draw(theirs).text((size // 2, 3 * size // 2), letter, font=drawer, fill=255, anchor="ls")
        ours = picture(2 * size, 2 * size, size // 2, 3 * size // 2, dots_of(font.path, letter, size))
        thinner, thicker = theirs.filter(ImageFilter.MinFilter(7)), theirs.filter(ImageFilter.MaxFilter(7))
        outside = [ImageChops.subtract(ours, thicker.point(lambda grey: 255 * (grey > 0))), ImageChops.subtract(thinner.point(lambda grey: 255 * (grey > 254)), ours)]
        assert [it.getbbox() for it in outside] == [None, None], letter
        assert thinner.getbbox() or letter in "i", letter


def test_strokes_of_less_than_a_dot_stay() -> None:
    """In each size a stem is one stroke from its foot to its top, a bar one from end to end, and a stop a block."""
    for size in (tenth / 10 for tenth in range(50, 250)):
        stem, bar, stop = (dots_of(fonts_of().regular.path, letter, size) for letter in "l-.")
        assert all(stem.rows) and len(stem.rows) >= 0.6 * size and 1 <= stem.width <= 3, size
        for block, wide in ((bar, round(0.2 * size)), (stop, 1)):
            assert block.rows and set(block.rows) == {(1 << block.width) - 1} and block.width >= wide, (size, block)


def test_a_blank_has_no_dots() -> None:
    assert dots_of(fonts_of().regular.path, " ", 30) == (0, 0, 0, ())


def test_damaged_letters_end(tmp_path: Path) -> None:
    """A byte of the outlines or of their places is another: the letter is drawn or refused, and neither takes long."""
    font = bytearray(fonts_of().regular.path.read_bytes())
    tables = dict(_truetype.tables_of(bytes(font)))
    whole = _letters._Font(bytes(font))
    form, wide, unit = (">I", 4, 1) if whole._is_long else (">H", 2, 2)
    at = {letter: tables["glyf"] + unit * struct.unpack_from(form, font, tables["loca"] + wide * whole.glyphs[ord(letter)])[0] for letter in "gÀ"}
    path, slowest, refused = tmp_path / "font.ttf", 0.0, 0
    for letter, place in [(letter, first + more) for letter, first in at.items() for more in range(60)]:
        for value in (0, 127, 255):
            before, font[place] = font[place], value
            path.write_bytes(font)
            _letters._font.cache_clear()
            _letters._outlines.cache_clear()
            _letters.dots_of.cache_clear()
            begun = time.process_time()
            try:
                dots_of(path, letter, 30)
            except NoFont:
                refused += 1
            slowest, font[place] = max(slowest, time.process_time() - begun), before
    assert slowest < 2 and refused > 10
