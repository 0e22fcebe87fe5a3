"""Pictures of symbols as cameras take them, COUNT for each kind of damage and each seed; the same at each run."""
from __future__ import annotations

import os
from concurrent.futures import ProcessPoolExecutor
from dataclasses import replace
from typing import Callable, Dict, List, Optional, Tuple

import broken
import cv2
import numpy
import packs
import pictures
import prints
import surfaces
from camera import FINE, Array, Camera, Chance, grey_of, through_jpeg, write
from shots import Shot

COUNT = 40
LOOK, TEST = 1, 2
"""Two seeds: pictures to look at while a reader is written, and those that test it."""
WORKERS = 2

Taken = Tuple[Array, Optional[int]]
"""A picture, and the quality of its JPEG, if it is one."""
Kind = Callable[[Array, Chance], Taken]
"""Takes a picture of a drawn symbol."""


def usual(image: Array, chance: Chance, dots: Tuple[float, float] = (1.9, 3), turned: float = 5, room: int = 25,
          inks: packs.Inks = (packs.BLACK, packs.WHITE)) -> Shot:
    """A shot of the usual kind of a drawn symbol on a pack: nearly upright, in light that falls off a little."""
    module = chance.uniform(*dots)
    printed = packs.pack(image, chance, 1.5 * FINE * module, inks, room)
    camera, angle = Camera.any(chance), numpy.radians(chance.uniform(-turned, turned))
    tilt = chance.normal(0, 0.0003), chance.normal(0, 0.0003)
    light = surfaces.falling(chance, 0.7)
    return Shot(printed, camera, module, angle, tilt, light=light, margin=chance.uniform(4, 20))


def finished(shot: Shot, chance: Chance) -> Taken:
    """A picture in colours, as JPEG."""
    return shot.taken(chance), shot.camera.jpeg


def plain(least: float, most: float) -> Kind:
    def taken(image: Array, chance: Chance) -> Taken:
        return finished(usual(image, chance, (least, most)), chance)
    return taken


def any_angle(image: Array, chance: Chance) -> Taken:
    return finished(usual(image, chance, (1.45, 2.3), 180, room=50), chance)


def crumpled_shot(image: Array, chance: Chance, dots: Tuple[float, float], depth: float) -> Shot:
    shot = usual(image, chance, dots, room=35)
    shot.surface = surfaces.crumpled(chance, int(chance.integers(4, 11)), depth, chance.uniform(0, 0.8))
    return shot


def crumpled(image: Array, chance: Chance) -> Taken:
    return finished(crumpled_shot(image, chance, (1.7, 2.8), 18), chance)


def preview(image: Array, chance: Chance) -> Taken:
    shot = crumpled_shot(image, chance, (1.5, 2.4), 16)
    shot.camera = replace(shot.camera, electrons=chance.uniform(600, 2500), sharpening=chance.uniform(0.6, 1.6))
    return grey_of(shot.taken(chance)), None


def waved(image: Array, chance: Chance) -> Taken:
    shot = usual(image, chance, turned=8, room=45)
    shot.surface = surfaces.waved(chance, chance.uniform(3, 8), chance.uniform(0.5, 1) * chance.choice((-1, 1)))
    return finished(shot, chance)


def bottle(image: Array, chance: Chance) -> Taken:
    shot = usual(image, chance, (1.6, 2.5), room=50)
    radius = max(chance.uniform(50, 90), 0.55 * shot.printed.wide)
    turned, lamp, gloss = chance.uniform(-0.15, 0.15), chance.uniform(-0.8, 0.8), chance.uniform(0, 0.6)
    shot.surface = surfaces.bottle(radius, turned, lamp, gloss)
    shot.margin = 4
    return finished(shot, chance)


def perspective(image: Array, chance: Chance) -> Taken:
    shot = usual(image, chance, turned=12, room=50)
    across = chance.uniform(0.3, 0.75) / shot.printed.wide * chance.choice((-1, 1))
    shot.tilt = across, chance.uniform(-0.3, 0.3) / shot.printed.high
    return finished(shot, chance)


def glare(image: Array, chance: Chance) -> Taken:
    shot = usual(image, chance)
    shot.light = surfaces.glare(chance, chance.uniform(0.4, 1.5), chance.uniform(6, 18))
    return finished(shot, chance)


def shadow(image: Array, chance: Chance) -> Taken:
    shot = usual(image, chance, (1.5, 2.4))
    shot.light = surfaces.shadows(chance, chance.uniform(0.15, 0.45), chance.uniform(0.3, 3))
    return finished(shot, chance)


def out_of_focus(image: Array, chance: Chance) -> Taken:
    shot = usual(image, chance)
    shot.camera = replace(shot.camera, focus=chance.uniform(0.7, 1.3) * shot.dots)
    return finished(shot, chance)


def moved(image: Array, chance: Chance) -> Taken:
    shot = usual(image, chance, (1.7, 2.7))
    shot.camera = replace(shot.camera, moved=(chance.uniform(0.9, 2) * shot.dots, shot.angle + chance.normal(0, 0.4)))
    return finished(shot, chance)


def dim(image: Array, chance: Chance) -> Taken:
    shot = usual(image, chance, (1.55, 2.5))
    electrons, smear = chance.uniform(80, 400), chance.uniform(15, 50)
    shot.camera = replace(shot.camera, electrons=electrons, smear=smear, sharpening=chance.uniform(0, 0.5))
    return finished(shot, chance)


def messenger(image: Array, chance: Chance) -> Taken:
    share = chance.uniform(0.4, 0.8)
    shot = usual(image, chance, (1.7 / share, 2.8 / share))
    picture = through_jpeg(shot.taken(chance), shot.camera.jpeg)
    small = cv2.resize(picture, None, fx=share, fy=share, interpolation=cv2.INTER_AREA)
    return small, int(chance.integers(25, 46))


def ink_spread(image: Array, chance: Chance) -> Taken:
    modules = chance.uniform(0.2, 0.42) * chance.choice((-1, 1))
    return finished(usual(prints.spread(image, modules, chance), chance, (1.6, 2.6)), chance)


def thermal(image: Array, chance: Chance) -> Taken:
    return finished(usual(prints.thermal(image, chance), chance, (1.7, 2.8)), chance)


def coloured(image: Array, chance: Chance) -> Taken:
    return finished(usual(image, chance, inks=prints.colours(chance)), chance)


def narrow_zones(image: Array, chance: Chance) -> Taken:
    return finished(usual(prints.with_zones(image, chance, chance.uniform(3, 5.5)), chance), chance)


def scratched(image: Array, chance: Chance) -> Taken:
    return finished(usual(prints.scratched(image, chance), chance, (1.7, 2.8)), chance)


def video(image: Array, chance: Chance) -> Taken:
    dots = min(chance.uniform(1.3, 2.1), 600 * packs.STEPS / image.shape[1])
    shot = usual(image, chance, (dots, dots), 15, room=60)
    shot.frame, shot.aside = (640, 480), (chance.uniform(-20, 20), chance.uniform(-20, 20))
    shot.camera = replace(shot.camera, electrons=chance.uniform(300, 1500), focus=chance.uniform(0.2, 0.7) * dots)
    grey = grey_of(shot.taken(chance)).astype(numpy.float32)
    dark, light = chance.uniform(20, 70), chance.uniform(130, 220)
    return (dark + (light - dark) / 255 * grey).astype(numpy.uint8), None


def large(image: Array, chance: Chance) -> Taken:
    """A symbol somewhere in a picture of 12 megapixels."""
    shot = usual(image, chance, (1.5, 3), 10, room=15)
    shot.margin = 8
    patch = shot.camera.gathered(shot.fine_light())
    light = prints.large_ground(chance, 3000, 4000)
    top, left = (int(chance.integers(0, (light.shape[i] - patch.shape[i]) // 2) * 2) for i in (0, 1))
    light[top:top + patch.shape[0], left:left + patch.shape[1]] = patch
    return shot.camera.developed(light, chance), shot.camera.jpeg


KINDS: Dict[str, Kind] = {
    "1.1 to 1.5 dots a module": plain(1.1, 1.5),
    "1.5 to 2.2 dots a module": plain(1.5, 2.2),
    "any angle": any_angle,
    "crumpled bag": crumpled,
    "crumpled bag, a phone's preview": preview,
    "waved bag, aslant": waved,
    "bottle or can": bottle,
    "perspective": perspective,
    "glare": glare,
    "edge of a shadow": shadow,
    "out of focus": out_of_focus,
    "moved": moved,
    "dim light": dim,
    "sent by a messenger": messenger,
    "ink spread or thin": ink_spread,
    "thermal printer": thermal,
    "colours": coloured,
    "narrow quiet zones": narrow_zones,
    "scratches": scratched,
    "video frame": video,
    "12 megapixels": large,
}


def made(name: str, seed: int, i: int, folder: str) -> Tuple[pictures.Symbol, str]:
    """A picture of a kind, by its number: its symbol and its path."""
    cv2.setNumThreads(1)
    chance = numpy.random.default_rng([seed, list(KINDS).index(name), i])
    symbol = packs.symbol_of(packs.KINDS[i % len(packs.KINDS)], chance, folder)
    picture, jpeg = KINDS[name](symbol.image, chance)
    return symbol, write(picture, os.path.join(folder, f"{name.replace(' ', '_')}_{i}"), jpeg)


def group(name: str, seed: int, folder: str) -> List[Tuple[pictures.Symbol, str]]:
    """The symbol of each picture of a kind, and its path."""
    with ProcessPoolExecutor(WORKERS) as pool:
        return list(pool.map(made, [name] * COUNT, [seed] * COUNT, range(COUNT), [folder] * COUNT, chunksize=4))


# ---- pictures without a whole symbol

def nothing(seed: int, i: int, folder: str) -> str:
    """The path of a picture without a whole symbol, by its number: broken symbols, fences, other codes, and text."""
    cv2.setNumThreads(1)
    chance = numpy.random.default_rng([seed, len(KINDS), i])
    source = i % 10
    if source < len(broken.MAKERS):
        image = broken.image_of(broken.MAKERS[source], chance, folder)
    elif source < 9:
        barcode, data = pictures.OTHERS[chance.integers(len(pictures.OTHERS))]
        image = pictures.drawn(barcode, data, os.path.join(folder, f"other_{os.getpid()}.png"))
    else:
        image = packs.words(chance)
    name = "12 megapixels" if i % 100 == 0 else str(chance.choice(CAMERAS))
    picture, jpeg = KINDS[name](image, chance)
    return write(picture, os.path.join(folder, f"nothing_{i}"), jpeg)


CAMERAS = [name for name in KINDS if name not in ("12 megapixels", "narrow quiet zones")]


def without_symbol(count: int, seed: int, folder: str) -> List[str]:
    """The paths of this many pictures without a whole symbol."""
    with ProcessPoolExecutor(WORKERS) as pool:
        return list(pool.map(nothing, [seed] * count, range(count), [folder] * count, chunksize=20))
