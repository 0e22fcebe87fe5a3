"""Runs programs on inputs that scripts make, and measures their time and memory, for the programs of bench/."""
from __future__ import annotations

import contextlib
import os
import subprocess
import sys
import tempfile
from typing import IO, Any, Iterable, Iterator, Mapping, Sequence

HERE = os.path.dirname(os.path.abspath(__file__))
ROOT = os.path.dirname(HERE)
LANES, SEED = 4, 2026
YEAR = ["--year", "2026"]
# 128 labels on a sheet of 2,240 by 3,840 dots.
GRID = "--module 2 --width 560 --height 120 --columns 4 --rows 32".split()

# Starts the program with priority if it may, as `chrt -r 1` does, and writes its status, times and memory to a pipe. It is its own
# process, since the peak memory of a process includes that of its starter: this one has 8 MiB, so it cannot see less.
STARTER = """
import os, sys, time
try:
    os.sched_setscheduler(0, os.SCHED_RR, os.sched_param(1))
except OSError:
    pass
start = time.monotonic()
_, status, usage = os.wait4(os.posix_spawn(sys.argv[2], sys.argv[2:], {}), 0)
wall = time.monotonic() - start
code = os.waitstatus_to_exitcode(status)
os.write(int(sys.argv[1]), b"%d %f %f %d" % (code, wall, usage.ru_utime + usage.ru_stime, usage.ru_maxrss))
"""


def measure(words: Sequence[str], source: IO[bytes], sink: IO[bytes],
            errors: IO[bytes] | int | None = None) -> tuple[int, float, float, float]:
    """The exit status, wall time and processor time in seconds, and peak memory in MiB, of a program and its words."""
    ours, theirs = os.pipe()
    command = [sys.executable, "-ISc", STARTER, str(theirs), *words]
    subprocess.run(command, stdin=source, stdout=sink, stderr=errors, pass_fds=[theirs], check=True)
    os.close(theirs)
    with os.fdopen(ours) as told:
        status, wall, processor, memory = told.read().split()
    return int(status), float(wall), float(processor), int(memory) / 1024


def in_turn(jobs: Mapping[Any, tuple[Sequence[str], str]], count: int) -> dict[Any, tuple[tuple[float, ...], ...]]:
    """The wall times, processor times and peak memories of jobs, run in turn this many times. A job is its words and the path of an input."""
    runs: dict[Any, list[list[float]]] = {name: [] for name in jobs}
    for _ in range(count):
        for name, (words, path) in jobs.items():
            with open(path, "rb") as source, open(os.devnull, "wb") as sink:
                status, *figures = measure(words, source, sink)
            if status != 0:
                sys.exit(f"bench: {' '.join(words)} ended with status {status}")
            runs[name].append(figures)
    return {name: tuple(zip(*figures)) for name, figures in runs.items()}


def built() -> str:
    """The program, proved and built if it is not current; not the script, whose start would be measured too."""
    subprocess.run([os.path.join(ROOT, "gs1_hub"), "--help"], stdout=subprocess.DEVNULL, check=True)
    return os.path.join(ROOT, "crates", "gs1_hub", "out", "gs1_hub")


def lanes_of(program: str, command: str, workers: int) -> list[str]:
    return [program, command, "--lanes", str(LANES), "--workers", str(workers), *YEAR]


def scan_of(program: str, workers: int) -> list[str]:
    return [program, "scan", *GRID, "--workers", str(workers), *YEAR]


def print_of(program: str, *others: str) -> list[str]:
    return [program, "print", *GRID, *YEAR, *others]


def kept(content: bytes) -> IO[bytes]:
    """A file with this content."""
    file = tempfile.NamedTemporaryFile()
    file.write(content)
    file.flush()
    return file


def made(maker: str, *arguments: object) -> bytes:
    """The output of a script that makes inputs."""
    words = [sys.executable, os.path.join(HERE, maker), *map(str, arguments)]
    return subprocess.run(words, stdout=subprocess.PIPE, check=True).stdout


def output(words: Sequence[str], path: str) -> bytes:
    with open(path, "rb") as source:
        return subprocess.run(words, stdin=source, stdout=subprocess.PIPE, check=True).stdout


@contextlib.contextmanager
def compiled(source: str, *words: str) -> Iterator[str]:
    """The compiled program of a file of bench/c."""
    with tempfile.TemporaryDirectory() as folder:
        program = os.path.join(folder, "program")
        warnings = "-Wall -Wextra -Wno-missing-field-initializers -Wno-unused-function -Wno-maybe-uninitialized".split()
        subprocess.run(["cc", "-O2", *warnings, "-pthread", "-o", program, os.path.join(HERE, "c", source), *words], check=True)
        yield program


def latency(sender: Sequence[str], pause: int, command: Sequence[str], lines: Iterable[bytes]) -> tuple[int, ...]:
    """The time for each line that bench/c/latency.c sends alone after a pause of this many microseconds: the median and the 99th of 100, in
    microseconds."""
    told = subprocess.run([*sender, str(pause), *command], input=b"".join(lines), stdout=subprocess.PIPE, check=True).stdout
    return tuple(map(int, told.split()))
