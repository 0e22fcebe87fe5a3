"""Prints random texts of scanners, a line each: tests/embed/texts_of_scanners.py COUNT SEED. Bytes that are no letters, digits or marks
stand as \\xNN."""

import random
import sys
from pathlib import Path

ROOT = Path(__file__).resolve().parents[2]
sys.path[:0] = [str(ROOT / it) for it in ("tests/messages", "tests/commands")]
import random_texts  # noqa: E402


def escaped(text: bytes) -> str:
    """The text with all bytes but letters, digits and marks as \\xNN."""
    return "".join(chr(it) if 33 <= it < 127 and it != 92 else f"\\x{it:02x}" for it in text)


def main() -> None:
    count, seed = map(int, sys.argv[1:])
    rng = random.Random(seed)
    for _ in range(count):
        print(escaped(random_texts.message(rng)))


main()
