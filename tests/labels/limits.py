"""Tests the time and memory of the commands: limits.py LISTS WORK. It measures processor time, since others may use the machine."""
from __future__ import annotations

import os
import random
import resource
import subprocess
import sys
from typing import Any

from plain_xlsx import write_xlsx

WORK = sys.argv[2]
FAULTS = []


def checked(text: str) -> str:
    return text + str(-sum(int(digit) * (3, 1)[at % 2] for at, digit in enumerate(reversed(text))) % 10)


def measure(name: str, words: list[str], seconds: float, megabytes: int = 0, status: int = 0) -> float:
    """Runs noriladle three times in a process of its own, compares the best run with the limits, and returns its seconds."""
    best = (1e9, 1e9)
    for _ in range(3):
        done = subprocess.run([sys.executable, __file__, "", WORK, "run", *words], stdout=subprocess.DEVNULL, stderr=subprocess.PIPE)
        took, most = done.stderr.decode().split()[-2:]
        if done.returncode != status:
            FAULTS.append(f"{name}: status {done.returncode}")
        best = min(best, (float(took), float(most)))
    is_wrong = best[0] > seconds or megabytes and best[1] > megabytes
    print(f"{name}: {best[0]:.2f} s of {seconds}, {best[1]:.0f} MB{f' of {megabytes}' if megabytes else ''}")
    if is_wrong:
        FAULTS.append(f"{name}: {best}")
    return best[0]


def main() -> None:
    chance = random.Random(1)
    names = ["Haferkekse", "Roggenbrot 500 g", "Apfelsaft 1 l", "Blütenhonig aus der Lüneburger Heide, cremig, 500 g", "Öl"]
    rows = [f"{checked(f'4012345{number:05}')};{chance.choice(names)} {number};{chance.randrange(1, 20)},{chance.randrange(100):02} €\n"
            for number in range(10_000)]
    for count in (1_000, 5_000, 10_000):
        with open(os.path.join(WORK, f"{count}.csv"), "w", encoding="utf-8") as file:
            file.writelines(["ean;name;price\n", *rows[:count]])
    cells = [line.rstrip().split(";") for line in ["ean;name;price", *rows[:5_000]]]
    write_xlsx(os.path.join(WORK, "5000.xlsx"), cells)
    pdf = os.path.join(WORK, "many.pdf")
    measure("start", ["--version"], 0.15)
    measure("labels of 1,000 lines", ["labels", os.path.join(WORK, "1000.csv"), "-o", pdf], 2.5)
    measure("labels of 10,000 lines", ["labels", os.path.join(WORK, "10000.csv"), "-o", pdf], 15, 200)
    seconds = measure("labels of 5,000 lines", ["labels", os.path.join(WORK, "5000.csv"), "-o", pdf], 7.5)
    measure("the same lines as .xlsx", ["labels", os.path.join(WORK, "5000.xlsx"), "-o", pdf], round(2.5 * seconds, 2))
    measure("check of 10,000 lines", ["check", os.path.join(WORK, "10000.csv")], 1)
    long = os.path.join(WORK, "long.txt")
    for count in (1, 3):
        with open(long, "w", encoding="ascii") as file:
            file.writelines(f"{checked(str(number))}\n" for number in range(10**12, 10**12 + 1_000_000 * count))
        words: Any
        for words, limit in (([], 2 * count + 0.5), (["--json"], 10 * count)):
            measure(f"check of {count},000,000 numbers{' as JSON' if words else ''}", ["check", long, *words], limit, 80)
    refused = {"100,000 lines": "ean;name;price\n" + "4012345010008;x;1,00\n" * 100_000, "too many cells": ";" * 16_000_000,
               "empty lines": "\n" * 16_000_000, "quotation marks alone": '"' * 16_000_000, "one long cell": "ean;name\n" + "x" * 16_000_000,
               "wrong numbers": "ean;name;price\n" + "".join(f"{number:013};x;1,00\n" for number in range(10**12, 10**12 + 5_000))}
    for name, text in refused.items():
        path = os.path.join(WORK, "refused.csv")
        with open(path, "w", encoding="utf-8") as file:
            file.write(text)
        measure(f"{name}, refused", ["labels", path, "-o", pdf], 2, 200, status=1)
    print("\n".join(FAULTS), file=sys.stderr, end="\n" if FAULTS else "")
    print(f"{10 + len(refused)} limits of time and memory, {len(FAULTS)} broken")
    sys.exit(1 if FAULTS else 0)


def run_once(words: list[str]) -> None:
    """Runs noriladle, and reports its processor seconds and megabytes on standard error."""
    done = subprocess.run([sys.executable, "-m", "noriladle", *words], stderr=subprocess.PIPE)
    used = resource.getrusage(resource.RUSAGE_CHILDREN)
    sys.stderr.write(f"{used.ru_utime + used.ru_stime} {used.ru_maxrss / 1024}\n")
    sys.exit(done.returncode)


if sys.argv[3:4] == ["run"]:
    run_once(sys.argv[4:])
main()
