"""Rows, workers and tills of a chain of shops, for the tests and the measurement of noriladle.streams."""
from __future__ import annotations

import asyncio
import signal
import subprocess
import sys
from typing import Any, Sequence

from noriladle import streams as keys
from noriladle.streams import Till, Worker  # noqa: F401
from program_and_rows import SEED, random_lanes

NORILADLE = [sys.executable, "-m", "noriladle"]
LANES = [str(lane) for lane in range(8)]


def Shop(address: list[str] | str, user: str | None = None, password: str | None = None) -> keys.Shop:
    """The lanes at the address of a node, or at several."""
    return keys.Shop([address] if isinstance(address, str) else address, user, password)


def rows_of(count: int, seed: int = SEED,
            lanes: int = len(LANES)) -> tuple[dict[str, list[str]], dict[str, list[tuple[int, str]]]]:
    """Random rows by lane, and the answers of one run of `gs1_hub lanes`, by lane and number."""
    asked, lines = random_lanes(count, lanes, seed)
    wanted = [[(int(number), answer) for _, number, answer in (line.split(" ", 2) for line in some)] for some in lines]
    return {str(lane): some for lane, some in enumerate(asked)}, {str(lane): some for lane, some in enumerate(wanted)}


class Workers:
    """Processes of `noriladle worker`, by name."""

    def __init__(self, address: str, count: int, more: Sequence[str] = ()) -> None:
        # One address, or several with commas between them.
        self.words = [*NORILADLE, "worker", *(word for one in address.split(",") for word in ("--redis", one))]
        self.more = ["--year", "2026", "--log", "all", *more]
        self.names = [f"worker{number}" for number in range(count)]
        self.running: dict[str, subprocess.Popen[str]] = {}

    def __enter__(self) -> Workers:
        for name in self.names:
            self.start(name)
        return self

    def __exit__(self, *_: object) -> None:
        for name in list(self.running):
            self.kill(name)

    def start(self, name: str) -> None:
        self.running[name] = subprocess.Popen([*self.words, "--name", name, *self.more], stderr=subprocess.PIPE, text=True)

    def kill(self, name: str) -> str:
        """Kills a worker, even a suspended one, and returns its output."""
        process = self.running.pop(name)
        process.kill()
        return process.communicate()[1]

    def end(self) -> list[str]:
        """Stops all regularly, and returns the last line of each."""
        for process in self.running.values():
            process.send_signal(signal.SIGTERM)
        said = [process.communicate(timeout=20)[1].strip() for process in self.running.values()]
        assert all(process.returncode == 0 for process in self.running.values()), said
        self.running = {}
        return [lines.rpartition("\n")[2] for lines in said]


async def read_lanes(address: str, asked: dict[str, list[str]],
                     **more: Any) -> tuple[dict[str, list[tuple[int, str]]], list[Till]]:
    """What a till of each lane gets, all lanes at once, and the tills."""
    shop = Shop(address)
    tills = {lane: Till(shop, lane, **more) for lane in asked}

    async def one(lane: str) -> tuple[str, list[tuple[int, str]]]:
        return lane, [answer async for answer in tills[lane].read_all(asked[lane])]

    got = dict(await asyncio.gather(*map(one, asked)))
    await shop.close()
    return got, list(tills.values())


async def read_lane(address: str, lane: str, texts: list[str], **more: Any) -> list[str]:
    """The answers of one lane."""
    got, _ = await read_lanes(address, {lane: texts}, **more)
    return [answer for _, answer in got[lane]]


async def entries(address: str, stream: str) -> list[tuple[str, dict[str, str]]]:
    """The entries of a stream, each with its ID and its fields."""
    shop = Shop(address)
    found = await shop.ask(stream, "XRANGE", stream, "-", "+")
    await shop.close()
    return [(name, dict(zip(words[::2], words[1::2]))) for name, words in found]


def nothing_left(address: str, lanes: list[str]) -> None:
    """Checks that no row of these lanes is left in Redis without an answer."""
    for lane in lanes:
        assert asyncio.run(entries(address, keys.rows(lane))) == []
