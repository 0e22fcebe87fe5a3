#!/usr/bin/python3
"""Measures the running hub in Python and over Redis, and prints a line for each figure: measure.py [always | everysec]

- noriladle.live: 100,000 rows of 16 lanes at once, each reply compared with `gs1_hub lanes`; then one row at a time.
- noriladle gateway: rows one at a time over a UNIX socket; and texts from a scanner on a pseudo terminal to a till.
- Over a Redis Cluster of three nodes, with one, two and three workers: 40,000 rows of 8 lanes at once, each answer
  compared; the processor time that a row took, in microseconds, by process; then rows one at a time, of one lane, and
  of 8 lanes beside each other.

Run it on an idle machine. It needs what tests/live/run needs. Say where program and module are:

    GS1_HUB=$PWD/crates/gs1_hub/out/gs1_hub PYTHONPATH=$PWD/bindings/python tests/live/measure.py
"""
from __future__ import annotations

import asyncio
import os
import sys
import tempfile
import time
from concurrent.futures import ProcessPoolExecutor
from pathlib import Path
from typing import Any, Awaitable, Callable, Iterable, Sequence

from workers_and_tills import LANES, Shop, Till, Workers, read_lanes, rows_of
from redis_cluster import Cluster
from gateway_and_scanners import Gateway, Serial
from noriladle.live import Hub
from program_and_rows import EAN13, READ

TICK = os.sysconf("SC_CLK_TCK")
ONCE = 100_000
COUNT = 40_000


def middle(times: Iterable[float]) -> tuple[float, float]:
    """The median and the 99th of 100."""
    times = sorted(times)
    return times[len(times) // 2], times[len(times) * 99 // 100]


async def timed(call: Callable[[Any], Awaitable[Any]], rows: Iterable[Any], scale: float) -> list[float]:
    """The time for each row, sent when the one before it is answered."""
    times = []
    for widths in rows:
        begin = time.perf_counter()
        await call(widths)
        times.append((time.perf_counter() - begin) * scale)
    return times


async def measure_live() -> None:
    asked, wanted = rows_of(ONCE, lanes=16)
    async with Hub(16, 2, 2026) as hub:
        async def one(lane: str) -> tuple[str, list[tuple[int, str]]]:
            replies = hub.lane(int(lane)).read_all(asked[lane])
            return lane, [(reply.number, str(reply.answer)) async for reply in replies]

        begin = time.perf_counter()
        got = dict(await asyncio.gather(*map(one, asked)))
        took = time.perf_counter() - begin
        assert got == wanted
        alone = middle(await timed(hub.lane(0).read, [EAN13] * 5000, 1e6))
    print(f"noriladle.live, 16 lanes at once: {ONCE / took:,.0f} rows/s; one at a time: median {alone[0]:.0f} us, "
          f"p99 {alone[1]:.0f} us", flush=True)


async def measure_gateway() -> None:
    with tempfile.TemporaryDirectory() as folder, Gateway(Path(folder), port=False) as gateway:
        reader, writer = await asyncio.open_unix_connection(gateway.unix)

        async def read(widths: str) -> None:
            writer.write(f"{widths}\n".encode())
            assert (await reader.readline()).endswith(f" {READ}\n".encode())

        alone = middle(await timed(read, [EAN13] * 5000, 1e6))
        writer.close()
        print(f"noriladle gateway, one at a time: median {alone[0]:.0f} us, p99 {alone[1]:.0f} us", flush=True)
        with Serial("--gateway", gateway.unix, "--lane", "till-1") as scanner, gateway.watch("till-1") as till:
            assert till.line() == "0 next\n"

            async def scan(text: bytes) -> None:
                os.write(scanner.ours, text)
                assert till.line().endswith(f" {READ}\n")
                scanner.line()

            alone = middle(await timed(scan, [b"]E09501101530003\r"] * 5000, 1e6))
        print(f"scanner to till, one at a time: median {alone[0]:.0f} us, p99 {alone[1]:.0f} us", flush=True)


def used(pid: int | str) -> tuple[float, float]:
    """The processor time of a process so far, and that of its children, in seconds."""
    fields = Path(f"/proc/{pid}/stat").read_text().rpartition(")")[2].split()
    children = Path(f"/proc/{pid}/task/{pid}/children").read_text().split()
    return (int(fields[11]) + int(fields[12])) / TICK, sum((used(child)[0] for child in children), 0.0)


def costs(cluster: Cluster, workers: Workers) -> tuple[float, float, float, float]:
    """The processor time of workers, hubs, nodes and the tills that have ended, so far."""
    own, hubs = map(sum, zip(*(used(process.pid) for process in workers.running.values())))
    return own, hubs, sum(used(process.pid)[0] for process in cluster.processes.values()), sum(os.times()[2:4])


def at_once(address: str, asked: dict[str, list[str]]) -> dict[str, list[tuple[int, str]]]:
    """What the tills get; a process has those of four lanes."""
    parts = [{lane: asked[lane] for lane in lanes} for lanes in (LANES[:4], LANES[4:])]
    with ProcessPoolExecutor() as pool:
        told = list(pool.map(read_part, parts, [address] * len(parts)))
    return {lane: got for part in told for lane, got in part.items()}


def read_part(asked: dict[str, list[str]], address: str) -> dict[str, list[tuple[int, str]]]:
    return asyncio.run(read_lanes(address, asked))[0]


async def one_at_a_time(address: str, asked: dict[str, list[str]], lanes: Sequence[str],
                        count: int) -> tuple[float, float]:
    shop = Shop(address)
    times = await asyncio.gather(*(timed(Till(shop, lane).read, asked[lane][:count], 1e3) for lane in lanes))
    await shop.close()
    return middle(sum(times, []))


def measure_redis(fsync: str, number: int) -> None:
    asked, wanted = rows_of(COUNT)
    with Cluster(more=f"appendfsync {fsync}\n") as cluster, Workers(cluster.address, number) as workers:
        asyncio.run(read_lanes(cluster.address, {lane: asked[lane][:1] for lane in LANES}))  # The workers have found them.
        before, begin = costs(cluster, workers), time.perf_counter()
        got = at_once(cluster.address, asked)
        took, after = time.perf_counter() - begin, costs(cluster, workers)
        assert got == wanted
        parts = zip(("workers", "hubs", "nodes", "tills"), before, after)
        cost = ", ".join(f"{name} {(b - a) / COUNT * 1e6:.0f}" for name, a, b in parts)
        one = asyncio.run(one_at_a_time(cluster.address, asked, LANES[3:4], 1000))
        eight = asyncio.run(one_at_a_time(cluster.address, asked, LANES, 200))
    print(f"Redis, {fsync}, {number} workers: {COUNT / took:,.0f} rows/s; us of a processor a row: {cost}; "
          f"one at a time: median {one[0]:.2f} ms, p99 {one[1]:.2f} ms; "
          f"8 lanes so: median {eight[0]:.2f} ms, p99 {eight[1]:.2f} ms", flush=True)


def main(fsync: str = "always") -> None:
    print(f"{os.cpu_count()} processors, load {os.getloadavg()[0]:.1f} before")
    asyncio.run(measure_live())
    asyncio.run(measure_gateway())
    for number in (1, 2, 3):
        measure_redis(fsync, number)


if __name__ == "__main__":
    main(*sys.argv[1:])
