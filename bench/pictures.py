"""Times read_picture on pictures of 1,600 by 1,200 pixels, and on noise of 8,000 by 8,000: the least processor time of five runs, and how
many symbols it finds.

Usage: PYTHONPATH=bindings/python /usr/bin/python3 bench/pictures.py

Needs what bindings/python/build makes, and: apt-get install python3-numpy python3-pil
"""
import time

import noriladle
import numpy
from PIL import Image, ImageFilter

LABELS = [("ean13", "9501101530003"), ("gs1128", "10AB\x1d17261231"), ("itf14", "09501101530003"), ("upca", "012345000065")]
TURN = {"resample": Image.Resampling.BICUBIC, "fillcolor": 255}


def label(kind: str, text: str) -> Image.Image:
    """A label of 480 by 200 dots, with modules of 2 dots."""
    bits = numpy.frombuffer(noriladle.draw_label(kind, text, 2026, height=200), numpy.uint8, offset=len(b"P4\n480 200\n"))
    return Image.fromarray(255 - 255 * numpy.unpackbits(bits).reshape(200, 480))


def sheet() -> Image.Image:
    image = Image.new("L", (1600, 1200), 255)
    for i, (kind, text) in enumerate(LABELS):
        image.paste(label(kind, text), (150 + i % 2 * 800, 200 + i // 2 * 500))
    return image


def photograph(chance: numpy.random.RandomState) -> numpy.ndarray:
    """One label, turned, blurred, with light from one side and noise."""
    image = Image.new("L", (1600, 1200), 255)
    image.paste(label(*LABELS[0]), (550, 500))
    seen = numpy.asarray(image.rotate(12, **TURN).filter(ImageFilter.GaussianBlur(0.8)))
    return numpy.clip(seen * numpy.linspace(1, 0.4, 1600) + chance.normal(0, 6, seen.shape), 0, 255).astype(numpy.uint8)


def four_ways(stripes: numpy.ndarray, chance: numpy.random.RandomState) -> numpy.ndarray:
    """Squares of 128 dots with stripes in one of four directions: as many as read_picture tries."""
    whole = Image.fromarray(numpy.tile(stripes, (2, 2)))
    turned = numpy.stack([numpy.asarray(whole.rotate(angle, **TURN))[600:1800, 800:2400] for angle in (10, 55, 100, 145)])
    way = chance.randint(0, 4, (10, 13)).repeat(128, axis=0).repeat(128, axis=1)[:1200, :1600]
    return numpy.take_along_axis(turned, way[None], axis=0)[0]


def main() -> None:
    chance = numpy.random.RandomState(7)
    stripes = numpy.repeat(chance.randint(0, 2, (40, 1600)) * 200, 30, axis=0).astype(numpy.uint8)
    pictures = {
        "four labels": sheet(), "four labels turned by 25 degrees": sheet().rotate(25, **TURN), "a photograph": photograph(chance),
        "noise": chance.randint(0, 256, (1200, 1600), dtype=numpy.uint8), "stripes all over": stripes,
        "stripes all over turned by 25 degrees": Image.fromarray(stripes).rotate(25, **TURN), "stripes four ways": four_ways(stripes, chance),
        "noise, 8,000 by 8,000": chance.randint(0, 256, (8000, 8000), dtype=numpy.uint8),
    }
    for name, picture in pictures.items():
        least = float("inf")
        for _ in range(5):
            begun = time.process_time()
            found = noriladle.read_picture(picture, 2026)
            least = min(least, time.process_time() - begun)
        print(f"{name}: {1000 * least:.0f} ms, symbols: {len(found)}")


main()
