"""Pictures of symbols in groups, and pictures that have none: zint's symbols, as OpenCV turns, blurs and soils them.

The same pictures at each run: the texts, the places and the noise come from fixed seeds. Lengths are in dots, which are the
pixels of a picture; a picture is an array of grey values, rows first.
"""
from __future__ import annotations

import os
import random
import subprocess
import sys

import cv2
import numpy

sys.path.insert(0, os.path.join(os.path.dirname(os.path.abspath(__file__)), "..", "commands"))
from kinds import KINDS

PAPER, INK = 235, 25

# A symbol of zint's has this many dots a module before it is laid into a picture.
DRAWN = 8

# What zint draws, and what the symbol says: the line of the page, and the text in the words of other readers.
TEXTS = {
    "ean13": ["9501101530003", "4006381333931", "5901234123457", "9780201379624", "2012345678903", "8711253001202"],
    "upca": ["012345678905", "036000291452", "725272730706", "614141000036", "885909950805", "070470409665"],
    "ean8": ["96385074", "40170725", "12345670", "73513537", "90311017", "55123457"],
    "upce": ["01234565", "04252614", "01278907", "06543217", "09876547", "03456781"],
    "itf14": ["09501101530003", "10012345678902", "15400141288763", "98898765432106", "00614141000036", "30712345670015"],
    "gs1128": ["(01)09501101530003(17)261231", "(00)006141411234567890", "(01)09501101530003(10)AB12",
               "(17)261231(10)L4711", "(420)12345", "(01)00614141000036(3103)001750(15)270630(21)C7"],
}


def gtin12(upce: str) -> str:
    """The GTIN-12 of the eight digits of a UPC-E (GS1 General Specifications, figure 5.2.2.4-1)."""
    six, last = upce[1:7], upce[6]
    if last in "012":
        return upce[0] + six[:2] + last + "0000" + six[2:5] + upce[7]
    if last == "3":
        return upce[0] + six[:3] + "00000" + six[3:5] + upce[7]
    if last == "4":
        return upce[0] + six[:4] + "00000" + six[4] + upce[7]
    return upce[0] + six[:5] + "0000" + last + upce[7]


class Symbol:
    """A symbol of zint's, dark on light, with its quiet zones, and what it says. It may have more words for zint."""

    def __init__(self, kind: str, text: str, path: str, *words: str) -> None:
        self.kind = kind
        if kind == "gs1128":
            self.line = f"{KINDS[kind].identifier} {text}"
            self.says = text.replace("(", "").replace(")", "")
        else:
            self.says = (gtin12(text) if kind == "upce" else text).zfill(14)
            self.line = f"{KINDS[kind].identifier} (01){self.says}"
        self.image = drawn(KINDS[kind].zint, data_of(kind, text), path, *words)


def data_of(kind: str, text: str) -> str:
    """What zint is given to draw a text."""
    return text.replace("(", "[").replace(")", "]") if kind == "gs1128" else text[:-1]


def drawn(barcode: str, data: str, path: str, *words: str) -> numpy.ndarray:
    """The image that zint draws of a text, with white paper round it."""
    options = ["--scale=4", "--height=40", "--quietzones", f"--barcode={barcode}", f"--data={data}", f"--output={path}", *words]
    told = subprocess.run(["zint", *options], stdout=subprocess.PIPE, stderr=subprocess.STDOUT)
    # zint warns with a status of its own where a size is not that of a standard.
    if not os.path.exists(path):
        raise RuntimeError(f"zint: {data}: {told.stdout.decode()}")
    image = cv2.imread(path, cv2.IMREAD_GRAYSCALE)
    os.remove(path)
    border = 2 * DRAWN
    return cv2.copyMakeBorder(image, border, border, border, border, cv2.BORDER_CONSTANT, value=255)


def symbols(folder: str) -> list[Symbol]:
    """The symbols of all texts."""
    return [Symbol(kind, text, os.path.join(folder, "symbol.png")) for kind, texts in TEXTS.items() for text in texts]


class Look:
    """How a picture shows its symbol.

    dots: a module in dots. angle: degrees. tilt: by how much the scale changes over the width or the height of the label,
    whichever the chance falls on. bend: the radius of the bottle that the label goes round, in widths of the label. blur and
    noise: standard deviations, in dots and in grey values. light: what is left of the light at one end. contrast: what is left
    of the difference of ink and paper. jpeg: the quality, or None for PNG. table: whether the label lies on something.
    harm: what was done to the label.
    """

    def __init__(self, dots: float = 3, angle: float = 0, tilt: float = 0, bend: float = 0, blur: float = 0, noise: float = 0,
                 light: float = 1, contrast: float = 1, jpeg: int | None = None, table: bool = False, harm: str | None = None) -> None:
        self.dots, self.angle, self.tilt, self.bend = dots, angle, tilt, bend
        self.blur, self.noise, self.light, self.contrast = blur, noise, light, contrast
        self.jpeg, self.table, self.harm = jpeg, table, harm


GROUPS = {
    **{f"{dots} dots a module": Look(dots=dots) for dots in (6, 4.5, 3, 2.5, 2, 1.5, 1.2)},
    **{f"turned by {angle} degrees": Look(angle=angle) for angle in (1, 2, 4, 7, 10, 15, 20, 30, 45, 60, 120, 180)},
    "upright, turned by 90 degrees": Look(angle=90),
    "upright, turned by 270 degrees": Look(angle=270),
    **{f"perspective {tilt}": Look(tilt=tilt) for tilt in (0.05, 0.1, 0.15, 0.2, 0.3)},
    **{f"round a bottle of {bend} widths": Look(bend=bend) for bend in (1, 0.7)},
    **{f"blur of {blur} dots": Look(blur=blur) for blur in (1, 1.5, 2, 2.5, 3)},
    **{f"noise of {noise}": Look(noise=noise) for noise in (10, 20, 30, 50)},
    **{f"JPEG of quality {jpeg}": Look(jpeg=jpeg) for jpeg in (50, 20, 10)},
    **{f"contrast of {contrast}": Look(contrast=contrast) for contrast in (0.5, 0.25, 0.1)},
    **{f"light falling to {light}": Look(light=light) for light in (0.6, 0.4, 0.2)},
    "scratches along": Look(harm="along"),
    "scratches across": Look(harm="across"),
    "spots": Look(harm="spots"),
    "half covered": Look(harm="covered"),
    "little ink": Look(harm="thin"),
    "much ink": Look(harm="thick"),
    "mild photograph": Look(angle=1.5, tilt=0.05, blur=0.8, noise=6, light=0.8, jpeg=85, table=True),
    "usual photograph": Look(angle=4, tilt=0.1, blur=1, noise=8, light=0.6, jpeg=75, table=True),
    "near photograph": Look(dots=5, angle=7, tilt=0.15, blur=1.5, noise=8, light=0.5, table=True, jpeg=75),
    "far photograph": Look(dots=2, angle=3, tilt=0.05, blur=0.6, noise=6, light=0.7, jpeg=85, table=True),
    "photograph aslant": Look(angle=25, tilt=0.1, blur=1, noise=6, light=0.6, jpeg=85, table=True),
}


def harmed(image: numpy.ndarray, harm: str, chance: random.Random) -> numpy.ndarray:
    """The label's image with what was done to it; its bars stand between a tenth and seven tenths of its height."""
    image = image.copy()
    height, width = image.shape
    if harm == "along":
        for _ in range(6):
            y = chance.randrange(height // 10, height * 7 // 10)
            cv2.line(image, (0, y), (width, y + chance.randrange(-30, 30)), chance.choice((0, 255)), DRAWN)
    elif harm == "across":
        for _ in range(4):
            x = chance.randrange(width)
            cv2.line(image, (x, 0), (x + chance.randrange(width // 3, width // 2), height * 7 // 10), chance.choice((0, 255)), DRAWN)
    elif harm == "spots":
        for _ in range(40):
            place = (chance.randrange(width), chance.randrange(height))
            cv2.circle(image, place, chance.randrange(DRAWN // 2, 2 * DRAWN), chance.choice((0, 255)), -1)
    elif harm == "covered":
        image[height * 35 // 100:] = 128
    elif harm in ("thin", "thick"):
        side = numpy.ones((1, 5), numpy.uint8)
        image = cv2.dilate(image, side) if harm == "thin" else cv2.erode(image, side)
    return image


def bent(image: numpy.ndarray, radius: float) -> numpy.ndarray:
    """The image as seen on a bottle that stands upright, whose radius is this many widths of the image."""
    height, width = image.shape
    r = radius * width
    half = r * numpy.sin(width / 2 / r)
    seen = numpy.linspace(-half, half, int(2 * half))
    x = (numpy.arcsin(seen / r) * r + width / 2).astype(numpy.float32)
    y = numpy.arange(height, dtype=numpy.float32)
    return cv2.remap(image, *numpy.meshgrid(x, y), cv2.INTER_LINEAR, borderValue=255)


def tilted(tilt: float, width: int, height: int, chance: random.Random) -> numpy.ndarray:
    """The matrix of a label that is tilted about its middle, so that the scale changes by `tilt` from end to end."""
    matrix = numpy.eye(3)
    if tilt:
        along, way = chance.choice((True, False)), chance.choice((-1, 1))
        matrix[2, 0 if along else 1] = way * tilt / (width if along else height)
    return matrix


def placed(image: numpy.ndarray, look: Look, chance: random.Random) -> numpy.ndarray:
    """The label in its picture: its grey values on paper, or on a table."""
    height, width = image.shape
    # A picture is made several times as large and then made smaller, as the dots of a camera gather light.
    fine = max(2, round(DRAWN / look.dots))
    scale = look.dots * fine / DRAWN
    angle = numpy.radians(look.angle)
    cos, sin = numpy.cos(angle) * scale, numpy.sin(angle) * scale
    to_middle = numpy.array([[1, 0, -width / 2], [0, 1, -height / 2], [0, 0, 1]])
    matrix = numpy.array([[cos, -sin, 0], [sin, cos, 0], [0, 0, 1]]) @ tilted(look.tilt, width, height, chance) @ to_middle
    corners = cv2.perspectiveTransform(numpy.float32([[[0, 0], [width, 0], [width, height], [0, height]]]), matrix)[0]
    margin = (30 if look.table else 4) * fine
    shift = corners.min(axis=0) - margin - [chance.random() * fine, chance.random() * fine]
    size = numpy.ceil((corners.max(axis=0) - corners.min(axis=0) + 2 * margin + fine) / fine).astype(int)
    matrix = numpy.array([[1, 0, -shift[0]], [0, 1, -shift[1]], [0, 0, 1]]) @ matrix
    large = tuple(int(side) * fine for side in size)
    paper = INK + (PAPER - INK) / 255 * image.astype(numpy.float32)
    laid = cv2.warpPerspective(paper, matrix, large, flags=cv2.INTER_LINEAR, borderMode=cv2.BORDER_REPLICATE)
    ground = table(large, chance) if look.table else numpy.full(large[::-1], PAPER, numpy.float32)
    inside = cv2.warpPerspective(numpy.ones_like(paper), matrix, large, flags=cv2.INTER_NEAREST)
    laid = numpy.where(inside > 0, laid, ground)
    return cv2.resize(laid, tuple(int(side) for side in size), interpolation=cv2.INTER_AREA)


def table(size: tuple[int, ...], chance: random.Random) -> numpy.ndarray:
    """A ground with a grain, darker than paper."""
    source = numpy.random.RandomState(chance.randrange(1 << 30))
    coarse = source.normal(0, 1, (size[1] // 40 + 2, size[0] // 40 + 2)).astype(numpy.float32)
    return 140 + 20 * cv2.resize(coarse, size, interpolation=cv2.INTER_CUBIC)


def seen(picture: numpy.ndarray, look: Look, chance: random.Random) -> numpy.ndarray:
    """What the camera makes of a picture: light, contrast, blur and noise."""
    height, width = picture.shape
    middle = (PAPER + INK) / 2
    picture = middle + (picture - middle) * look.contrast
    if look.light != 1:
        picture = picture * numpy.linspace(1, look.light, width, dtype=numpy.float32)[::chance.choice((-1, 1))]
    if look.blur:
        picture = cv2.GaussianBlur(picture, (0, 0), look.blur, borderType=cv2.BORDER_REPLICATE)
    if look.noise:
        source = numpy.random.RandomState(chance.randrange(1 << 30))
        picture = picture + source.normal(0, look.noise, picture.shape)
    return numpy.clip(numpy.round(picture), 0, 255).astype(numpy.uint8)


def picture_of(symbol: Symbol | Bare, look: Look, chance: random.Random) -> numpy.ndarray:
    """A picture that shows a symbol so."""
    image = harmed(symbol.image, look.harm, chance) if look.harm else symbol.image
    if look.bend:
        image = bent(image, look.bend)
    return seen(placed(image, look, chance), look, chance)


def write(picture: numpy.ndarray, path: str, jpeg: int | None = None) -> str:
    """Writes a picture as PNG, or as JPEG of this quality; the path that it has."""
    path += ".jpg" if jpeg else ".png"
    cv2.imwrite(path, picture, [cv2.IMWRITE_JPEG_QUALITY, jpeg] if jpeg else [cv2.IMWRITE_PNG_COMPRESSION, 1])
    return path


def group(name: str, drawn_symbols: list[Symbol], folder: str) -> list[tuple[Symbol, str]]:
    """The pictures of a group: the symbol of each, and its path."""
    look, made = GROUPS[name], []
    for i, symbol in enumerate(drawn_symbols):
        chance = random.Random(f"{name} {i}")
        path = os.path.join(folder, f"{name.replace(' ', '_')}_{i}")
        made.append((symbol, write(picture_of(symbol, look, chance), path, look.jpeg)))
    return made


# ---- pictures without a symbol

# Other kinds of symbols, and texts of them that are no GTIN and no element string.
OTHERS = [
    ("CODE39", "NORILADLE 39"), ("CODE93", "Noriladle"), ("CODABAR", "A123456B"), ("CODE128", "Not GS1 at all"), ("CODE128", "950110153000"),
    ("C25INTER", "1234567890"), ("C25STANDARD", "12345678"), ("MSI_PLESSEY", "950110153"), ("CODE11", "12-345"), ("LOGMARS", "AB 12"),
    ("QRCODE", "https://example.org/01/09501101530003"), ("DATAMATRIX", "09501101530003"), ("PDF417", "Noriladle prints labels"),
    ("AZTEC", "Noriladle"), ("RM4SCC", "SN34RD1A"), ("TELEPEN", "Telepen"), ("PHARMA", "123456"), ("DBAR_OMN", "950110153000"),
    ("DBAR_EXP", "[01]09501101530003[3103]001750"), ("ONECODE", "01234567094987654321"),
]

# The parity of the left half of EAN-13 by its first digit, and the modules of odd parity (ISO/IEC 15420).
PARITIES = ["OOOOOO", "OOEOEE", "OOEEOE", "OOEEEO", "OEOOEE", "OEEOOE", "OEEEOO", "OEOEOE", "OEOEEO", "OEEOEO"]
ODD = ["0001101", "0011001", "0010011", "0111101", "0100011", "0110001", "0101111", "0111011", "0110111", "0001011"]


def ean13_modules(digits: str) -> str:
    """The modules of an EAN-13 with these digits, right or wrong, 1 where dark."""
    right = ["".join("10"[int(m)] for m in code) for code in ODD]
    left = "".join(ODD[int(d)] if p == "O" else right[int(d)][::-1] for d, p in zip(digits[1:7], PARITIES[int(digits[0])]))
    return "101" + left + "01010" + "".join(right[int(d)] for d in digits[7:]) + "101"


def bars(modules: str) -> numpy.ndarray:
    """An image of these modules, with quiet zones."""
    row = numpy.array([0] * 12 + [int(m) for m in modules] + [0] * 12, numpy.uint8)
    return numpy.repeat(numpy.repeat(255 - 255 * row[None, :], DRAWN, axis=1), 40 * DRAWN, axis=0)


def wrong_digit(chance: random.Random) -> numpy.ndarray:
    """An EAN-13 whose check digit is wrong."""
    digits = [chance.randrange(10) for _ in range(12)]
    right = -sum(d * (1, 3)[i % 2] for i, d in enumerate(digits)) % 10
    return bars(ean13_modules("".join(map(str, digits)) + str((right + chance.randrange(1, 10)) % 10)))


def random_bars(chance: random.Random) -> numpy.ndarray:
    """Bars and spaces of one to four modules, as many as a symbol has."""
    count = chance.choice((33, 43, 59, 77, 61, 91, 121))
    return bars("".join("10"[i % 2] * chance.randrange(1, 5) for i in range(count)))


def cut_symbol(symbol: Symbol, chance: random.Random) -> numpy.ndarray:
    """A symbol whose one end is gone."""
    image = symbol.image.copy()
    width = image.shape[1] * chance.randrange(15, 60) // 100
    side = slice(None, width) if chance.choice((True, False)) else slice(-width, None)
    image[:, side] = 255
    return image


def words(chance: random.Random) -> numpy.ndarray:
    """Lines of print."""
    image = numpy.full((700, 1000), 255, numpy.uint8)
    for y in range(40, 700, 45):
        line = "".join(chance.choice("abcdefghilmnopqrstuvwxyz 0123456789||lIi") for _ in range(50))
        cv2.putText(image, line, (20, y), cv2.FONT_HERSHEY_SIMPLEX, 1, 0, chance.randrange(1, 4))
    return image


def stripes(chance: random.Random) -> numpy.ndarray:
    """A fence: bars of one width, or nearly."""
    image = numpy.full((400, 1000), 255, numpy.uint8)
    wide, x = chance.randrange(6, 30), 40
    while x < 960:
        image[:, x:x + wide] = 0
        x += 2 * wide + chance.randrange(-wide // 4, wide // 4 + 1)
    return image


def texture(chance: random.Random) -> numpy.ndarray:
    """Noise of a grain, from dots to clouds."""
    source = numpy.random.RandomState(chance.randrange(1 << 30))
    grain = chance.choice((1, 2, 4, 16, 64))
    coarse = source.normal(128, 60, (480 // grain + 1, 640 // grain + 1)).astype(numpy.float32)
    if chance.choice((True, False)):
        coarse = cv2.blur(coarse, (1, 15))
    return numpy.clip(cv2.resize(coarse, (640, 480), interpolation=cv2.INTER_LINEAR), 0, 255).astype(numpy.uint8)


def without_symbol(count: int, drawn_symbols: list[Symbol], folder: str) -> list[str]:
    """The paths of this many pictures that have no symbol."""
    others = [drawn(barcode, data, os.path.join(folder, "other.png")) for barcode, data in OTHERS]
    looks = [Look(), Look(dots=2), Look(angle=10), Look(angle=90), Look(blur=1.5), Look(noise=20),
             *(look for name, look in GROUPS.items() if "photograph" in name)]
    paths = []
    for i in range(count):
        chance = random.Random(f"none {i}")
        source = i % 10
        if source < 3:
            image = others[chance.randrange(len(others))]
        elif source < 5:
            image = cut_symbol(drawn_symbols[chance.randrange(len(drawn_symbols))], chance)
        elif source == 5:
            image = wrong_digit(chance)
        else:
            image = (random_bars, words, stripes, texture)[source - 6](chance)
        look = looks[chance.randrange(len(looks))]
        picture = seen(image, look, chance) if source == 9 else picture_of(Bare(image), look, chance)
        paths.append(write(picture, os.path.join(folder, f"none_{i}"), look.jpeg))
    return paths


class Bare:
    """An image in place of a symbol's."""

    def __init__(self, image: numpy.ndarray) -> None:
        self.image = image
