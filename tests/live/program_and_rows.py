"""What the tests of the running hub share: the program, a row, and random rows of lanes with what `lanes` answers."""
from __future__ import annotations

import os
import random
import subprocess
import sys
from pathlib import Path

ROOT = Path(__file__).parents[2]
PROGRAM = os.environ.get("GS1_HUB", "gs1_hub")
EAN13 = "11 1 1 1 1 2 3 1 1 1 2 3 1 2 2 2 2 2 2 1 1 1 2 3 2 2 2 1 1 1 1 1 1 1 2 3 1 1 4 1 1 3 2 1 1 3 2 1 1 3 2 1 1 1 4 1 1 1 1 1 7"
READ = "]E0 (01)09501101530003"
SEED = int(os.environ.get("SEED", "7"))


def random_lanes(count: int, lanes: int, seed: int = SEED) -> tuple[list[list[str]], list[list[str]]]:
    """Random rows by lane, as texts of widths, and the lines of `gs1_hub lanes` for them; `count` rows in all."""
    rows = subprocess.run([sys.executable, ROOT / "bench/rows.py", *map(str, (count, lanes, seed))], capture_output=True, check=True)
    words = [PROGRAM, "lanes", "--lanes", str(lanes), "--workers", "2", "--year", "2026"]
    lines = subprocess.run(words, input=rows.stdout, capture_output=True, check=True).stdout.decode().splitlines()
    asked: list[list[str]] = [[] for _ in range(lanes)]
    wanted: list[list[str]] = [[] for _ in range(lanes)]
    for record in rows.stdout.decode().splitlines():
        lane, widths = record.split(",")
        asked[int(lane)].append(widths)
    for line in lines:
        wanted[int(line.partition(" ")[0])].append(line)
    assert sum(map(len, wanted)) == count
    print(f"\nseed {seed}: {count} rows of {lanes} lanes")
    return asked, wanted


def noise(count: int) -> bytes:
    """This many random bytes."""
    print(f"\nseed {SEED}: {count} bytes")
    return random.Random(SEED).getrandbits(8 * count).to_bytes(count, "big")
