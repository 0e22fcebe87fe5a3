"""Lanes over a real Redis Cluster, whose workers and nodes are killed, put to sleep, moved and cut.

Every till is compared with one run of `gs1_hub lanes` on the same rows.
"""
from __future__ import annotations

import asyncio
import os
import random
import signal
import subprocess
import sys
import threading
import time
from pathlib import Path
from typing import Any, Sequence

import pytest

from workers_and_tills import LANES, NORILADLE, Shop, Till, Worker, Workers, keys, nothing_left, read_lane, read_lanes, rows_of
from redis_cluster import Cluster, ask
from program_and_rows import EAN13, READ, ROOT, SEED

LIMIT = 700
COUNT = 20_000
KILLS = 36


class Harm:
    """Kills workers and nodes, and puts workers to sleep, as the seed says."""

    def __init__(self, cluster: Cluster, workers: Workers, seed: int) -> None:
        self.cluster, self.workers, self.random = cluster, workers, random.Random(seed)
        self.killed = self.slept = self.nodes = 0

    async def until(self, done: asyncio.Event) -> None:
        while not done.is_set():
            await asyncio.sleep(self.random.uniform(0, 0.5))
            name = self.random.choice(self.workers.names)
            if name not in self.workers.running:
                self.workers.start(name)
            elif self.random.random() < 0.25:
                await self.put_to_sleep(self.workers.running[name])
            else:
                self.kill(name)
            if self.nodes < 3 and self.killed >= 9 * (self.nodes + 1):
                await self.kill_node(self.cluster.ports[self.nodes])

    async def put_to_sleep(self, worker: subprocess.Popen[str]) -> None:
        worker.send_signal(signal.SIGSTOP)
        await asyncio.sleep(self.random.uniform(0.7, 1.2))
        worker.send_signal(signal.SIGCONT)
        self.slept += 1

    def kill(self, name: str) -> None:
        self.workers.kill(name)
        self.killed += 1
        if self.random.random() < 0.7:
            self.workers.start(name)

    async def kill_node(self, port: int) -> None:
        await asyncio.to_thread(self.cluster.kill, port)
        await asyncio.sleep(self.random.uniform(0.2, 3))
        await asyncio.to_thread(self.cluster.start, port)
        self.nodes += 1


async def read_while_killed(address: str, asked: dict[str, list[str]], harm: Harm) -> tuple[dict[str, list[tuple[int, str]]], list[Till]]:
    """A till of each lane, which takes its answers no faster than workers are killed."""
    shop, done, tills = Shop(address), asyncio.Event(), []
    harming = asyncio.create_task(harm.until(done))

    async def one(lane: str) -> tuple[str, list[Any]]:
        till, got = Till(shop, lane, most=48), []
        async for answer in till.read_all(asked[lane]):
            got.append(answer)
            while harm.killed < KILLS * len(got) / len(asked[lane]) - 1:
                await asyncio.sleep(0.01)
        tills.append(till)
        return lane, got

    got = dict(await asyncio.gather(*map(one, asked)))
    done.set()
    await harming
    await shop.close()
    return got, tills


@pytest.mark.limit(180)
@pytest.mark.parametrize("seed", range(SEED, SEED + 3))
def test_workers_and_nodes_are_killed(seed: int) -> None:
    asked, wanted = rows_of(COUNT, seed)
    with Cluster() as cluster, Workers(cluster.address, 3) as workers:
        harm = Harm(cluster, workers, seed)
        got, tills = asyncio.run(read_while_killed(cluster.address, asked, harm))
        assert got == wanted
        print(f"{harm.killed} workers and {harm.nodes} nodes killed, {harm.slept} workers put to sleep; rows submitted again "
              f"{sum(till.repeated for till in tills)}, told as lost {sum(till.lost for till in tills)}; 0 lost, 0 doubled, 0 out of order")
        assert harm.killed >= KILLS - 1 and harm.nodes == 3 and not any(till.lost for till in tills)


def test_a_hub_is_killed() -> None:
    """Its worker ends, with a status that is not 0, and another goes on."""
    asked, wanted = rows_of(COUNT)
    with Cluster() as cluster, Workers(cluster.address, 2) as workers:
        async def test() -> dict[str, list[Any]]:
            shop, killed = Shop(cluster.address), asyncio.Event()

            async def one(lane: str) -> tuple[str, list[Any]]:
                got = []
                async for answer in Till(shop, lane, most=64).read_all(asked[lane]):
                    got.append(answer)
                    if len(got) == 100:
                        await killed.wait()
                return lane, got

            reading = asyncio.gather(*map(one, LANES))
            await asyncio.sleep(2)
            hub = subprocess.run(["pgrep", "-P", str(workers.running["worker0"].pid)], capture_output=True, text=True, check=True).stdout
            os.kill(int(hub), signal.SIGKILL)
            killed.set()
            got = dict(await reading)
            await shop.close()
            return got

        assert asyncio.run(test()) == wanted
        worker = workers.running.pop("worker0")
        assert worker.wait(timeout=10) == 1
        assert worker.stderr.read().strip().endswith("Z the hub has ended, status -9")


def test_a_worker_sleeps_with_rows_that_another_answers() -> None:
    """It wakes and writes their answers again: the till gives each once."""
    async def test(address: str) -> None:
        shop, begun, asleep = Shop(address), asyncio.Event(), asyncio.Event()

        async def slow(texts: Sequence[str]) -> list[str]:
            begun.set()
            await asleep.wait()
            return [READ] * len(texts)

        async def quick(texts: Sequence[str]) -> list[str]:
            return [READ] * len(texts)

        one, two = Worker(shop, "one", slow), Worker(shop, "two", quick)
        first = asyncio.ensure_future(one.run())
        till = Till(shop, "3")
        reading = asyncio.ensure_future(till.read(EAN13))
        await begun.wait()
        second = asyncio.ensure_future(two.run())
        assert await reading == READ and two.claimed and (till.lost, till.repeated) == (0, 0)
        asleep.set()
        assert await till.read(EAN13) == READ
        one.stopping = two.stopping = True
        await asyncio.gather(first, second)
        assert one.given + two.given >= 3
        await shop.close()

    with Cluster(nodes=1) as cluster:
        asyncio.run(test(cluster.address))


@pytest.mark.limit(60)
def test_a_node_hangs_while_a_worker_has_its_rows() -> None:
    """Rows of other nodes do not wait until the worker has given it up, which takes 2.5 seconds."""
    with Cluster() as cluster:
        bad = cluster.ports[2]
        slow, quick = (next(lane for lane in LANES if (cluster.holder(keys.rows(lane)) == bad) == is_bad) for is_bad in (True, False))

        async def test() -> None:
            hung: list[float] = []

            async def answer(texts: Sequence[str]) -> list[str]:
                if "100" in texts:
                    cluster.processes[bad].send_signal(signal.SIGSTOP)
                    hung.append(time.monotonic())
                return [READ] * len(texts)

            shop, one = Shop(cluster.address), Worker(Shop(cluster.address), "one", answer)
            waiting = asyncio.ensure_future(Till(shop, slow).read("100"))
            while not await shop.ask(keys.rows(slow), "XLEN", keys.rows(slow)):
                await asyncio.sleep(0.02)
            running = asyncio.ensure_future(one.run())
            while not hung:
                await asyncio.sleep(0.01)
            assert await Till(shop, quick).read(EAN13) == READ and time.monotonic() - hung[0] < 2
            cluster.processes[bad].send_signal(signal.SIGCONT)
            assert await waiting == READ
            one.stopping = True
            await running
            await shop.close()

        try:
            asyncio.run(test())
        finally:
            cluster.processes[bad].send_signal(signal.SIGCONT)


def test_a_till_is_started_again() -> None:
    """It goes on with its series, from the row whose answer it had not got; the rows under way are there twice for it."""
    asked, wanted = rows_of(COUNT)
    with Cluster() as cluster, Workers(cluster.address, 1):
        async def test() -> list[Any]:
            shop, got = Shop(cluster.address), []
            first = Till(shop, "3")
            async for answer in first.read_all(asked["3"]):
                got.append(answer)
                if len(got) == 1000:
                    break
            second = Till(shop, "3", first.series, 1000)
            got += [answer async for answer in second.read_all(asked["3"][1000:])]
            assert second.lost == second.strange == 0
            await shop.close()
            return got

        assert asyncio.run(test()) == wanted["3"]


def test_lanes_move_to_another_node() -> None:
    """While rows go through, the slot of each lane moves to another node, and on."""
    asked, wanted = rows_of(COUNT)
    with Cluster() as cluster, Workers(cluster.address, 2) as workers:
        names = {port: ask(port, "CLUSTER", "MYID") for port in cluster.ports}
        ended, moved = threading.Event(), []

        def move(lane: str) -> None:
            slot = ask(cluster.ports[0], "CLUSTER", "KEYSLOT", keys.rows(lane))
            old = cluster.holder(keys.rows(lane))
            new = cluster.ports[(cluster.ports.index(old) + 1) % 3]
            ask(new, "CLUSTER", "SETSLOT", slot, "IMPORTING", names[old])
            ask(old, "CLUSTER", "SETSLOT", slot, "MIGRATING", names[new])
            for key in ask(old, "CLUSTER", "GETKEYSINSLOT", slot, 100).split():
                assert ask(old, "MIGRATE", "127.0.0.1", new, key, 0, 5000) in ("OK", "NOKEY")
                time.sleep(0.05)
            for port in (new, old, *cluster.ports):
                ask(port, "CLUSTER", "SETSLOT", slot, "NODE", names[new])
            moved.append(lane)

        def move_all() -> None:
            while not ended.is_set():
                for lane in LANES:
                    move(lane)

        moving = threading.Thread(target=move_all)
        moving.start()
        try:
            got, tills = asyncio.run(read_lanes(cluster.address, asked, most=64))
        finally:
            ended.set()
            moving.join()
        assert got == wanted
        workers.end()
        print(f"{len(moved)} moves of a lane; rows submitted again {sum(till.repeated for till in tills)}")


@pytest.mark.limit(120)
def test_nodes_lose_what_they_had_acknowledged() -> None:
    """As after a power cut with `everysec`: each till still gets the answers to its rows, in order and each once."""
    asked, wanted = rows_of(COUNT)
    with Cluster() as cluster, Workers(cluster.address, 2):
        ended, cut = threading.Event(), []

        def cut_all() -> None:
            for port in cluster.ports * 2:
                if not ended.wait(0.1):
                    cluster.cut(port, 40_000)
                    cut.append(port)

        cutting = threading.Thread(target=cut_all)
        cutting.start()
        try:
            got, tills = asyncio.run(read_lanes(cluster.address, asked, most=64))
        finally:
            ended.set()
            cutting.join()
        assert got == wanted and cut
        print(f"{len(cut)} files cut while rows went through; rows told as lost {sum(till.lost for till in tills)}")


@pytest.mark.limit(40)
def test_rows_that_vanish_unseen() -> None:
    """No connection ends, and the rows are not there any more: the till looks after 1.5 seconds, and submits them again."""
    async def test(address: str) -> None:
        shop = Shop(address)
        told: list[str] = []
        till = Till(shop, "3", note=told.append)
        reading = asyncio.ensure_future(till.read(EAN13))
        while not await shop.ask(keys.rows("3"), "XLEN", keys.rows("3")):
            await asyncio.sleep(0.02)
        await shop.ask(keys.rows("3"), "DEL", keys.rows("3"))
        with Workers(address, 1):
            assert await reading == READ and (till.lost, till.repeated) == (1, 1)
        assert told == ["lane 3: Redis has lost rows or answers from 0 on; they are submitted again"]
        await shop.close()

    with Cluster(nodes=1) as cluster:
        asyncio.run(test(cluster.address))


@pytest.mark.limit(40)
@pytest.mark.parametrize("is_there", [False, True])
def test_one_entry_of_several_vanishes(is_there: bool) -> None:
    """The till's first one, while its second waits, also if somebody else's entry has its ID by then."""
    async def test(address: str) -> None:
        shop, stream = Shop(address), keys.rows("3")
        till = Till(shop, "3")
        reading = asyncio.ensure_future(till.read_all([EAN13] * 300).__anext__())
        while await shop.ask(stream, "XLEN", stream) < 2:
            await asyncio.sleep(0.02)
        (first, _), (second, words) = await shop.ask(stream, "XRANGE", stream, "-", "+")
        await shop.ask(stream, "DEL", stream)
        if is_there:
            await shop.ask(stream, "XADD", stream, first, "s", "another", "n", "0", "t", "100")
        await shop.ask(stream, "XADD", stream, second, *words)
        until = time.monotonic() + 5
        while not till.repeated:
            assert time.monotonic() < until
            await asyncio.sleep(0.1)
        assert (till.lost, till.repeated) == (256, 300)
        reading.cancel()
        await shop.close()

    with Cluster(nodes=1) as cluster:
        asyncio.run(test(cluster.address))


@pytest.mark.limit(40)
def test_answers_behind_many_others(monkeypatch: pytest.MonkeyPatch) -> None:
    """A till that looks for losses reads to the end of its answers before it takes anything for lost."""
    async def test(address: str) -> None:
        shop, stream, till = Shop(address), keys.rows("3"), Till(Shop(address), "3")
        reading = asyncio.ensure_future(till.read(EAN13))
        while not await shop.ask(stream, "XLEN", stream):
            await asyncio.sleep(0.02)
        others = [["XADD", keys.answers("3"), "*", "x", "y"]] * 100
        mine = ["XADD", keys.answers("3"), "*", "s", till.series, "n", "0", "a", f"{keys.mark(EAN13)} {READ}"]
        monkeypatch.setattr(keys, "IDLE", 0)
        await shop.ask_all(stream, [["MULTI"], *others, mine, ["DEL", stream], ["EXEC"]])
        assert await reading == READ and (till.lost, till.repeated) == (0, 0)
        await shop.close()
        await till.shop.close()

    with Cluster(nodes=1) as cluster:
        asyncio.run(test(cluster.address))


@pytest.mark.limit(40)
def test_a_till_looks_at_once_after_an_error(monkeypatch: pytest.MonkeyPatch) -> None:
    """And does not wait for its next look: a replica that took over may have lost its rows."""
    monkeypatch.setattr(keys, "IDLE", 60_000)

    async def test(address: str) -> None:
        shop, stream, till = Shop(address), keys.rows("3"), Till(Shop(address), "3")
        reading = asyncio.ensure_future(till.read(EAN13))
        while not await shop.ask(stream, "XLEN", stream):
            await asyncio.sleep(0.02)
        until = time.monotonic() + 8
        await shop.ask_all(stream, [["DEL", stream], ["CLIENT", "KILL", "TYPE", "normal", "SKIPME", "yes"]])
        while not till.lost:
            assert time.monotonic() < until
            await asyncio.sleep(0.02)
        reading.cancel()
        await shop.close()

    with Cluster(nodes=1) as cluster:
        asyncio.run(test(cluster.address))


@pytest.mark.limit(40)
def test_a_clock_that_is_behind() -> None:
    """A node whose clock is two minutes behind takes over, so its answers have lower IDs than those that the till has read."""
    with Cluster(nodes=1) as cluster, Workers(cluster.address, 1):
        async def test() -> None:
            shop = Shop(cluster.address)
            till = Till(shop, "3")
            assert await till.read(EAN13) == READ
            await shop.ask(keys.answers("3"), "XADD", keys.answers("3"), f"{int(time.time() + 120)}000-0", "x", "")
            assert await till.read(EAN13) == READ
            await shop.ask(keys.answers("3"), "DEL", keys.answers("3"))
            assert await till.read(EAN13) == READ and till.lost == till.repeated == 0
            await shop.close()

        asyncio.run(test())


def test_two_tills_on_a_lane() -> None:
    """Each gets the answers to its own rows."""
    with Cluster(nodes=1) as cluster, Workers(cluster.address, 1):
        async def test() -> None:
            shop = Shop(cluster.address)
            one, two = Till(shop, "3"), Till(shop, "3")
            assert one.series != two.series
            for _ in range(20):
                assert [*await asyncio.gather(one.read(EAN13), two.read("100"))] == [READ, "refused 19 Blank"]
            assert one.lost == two.lost == one.repeated == two.repeated == one.strange == two.strange == 0
            await shop.close()

        asyncio.run(test())


def test_a_series_that_another_till_has() -> None:
    """Its answers to other rows have other marks: this till drops them, and submits its own rows."""
    async def test(shop: keys.Shop) -> None:
        one, two = Till(shop, "3", "f00d" * 10), Till(shop, "3", "f00d" * 10)
        assert [*await asyncio.gather(one.read(EAN13), two.read("100"))] == [READ, "refused 19 Blank"]
        assert one.strange or two.strange
        await shop.close()

    with Cluster(nodes=1) as cluster, Workers(cluster.address, 1):
        asyncio.run(test(Shop(cluster.address)))


def test_series_that_no_worker_answers() -> None:
    """A worker repeats 40 characters of a series, and no sign of a number."""
    for series, start in (("f00d" * 10 + "f", 0), ("f00d", -1)):
        with pytest.raises(ValueError, match="no worker answers a series with more than 40 characters, or a number below 0"):
            Till(Shop("localhost:1"), "3", series, start)


def test_the_page(tmp_path: Path) -> None:
    """The commands of docs/REDIS.md print what it shows."""
    (tmp_path / "examples").symlink_to(ROOT / "examples")
    (tmp_path / "noriladle").write_text(f'#!/bin/sh\nexec {sys.executable} -m noriladle "$@"\n')
    (tmp_path / "noriladle").chmod(0o755)
    with open(ROOT / "docs" / "REDIS.md") as page:
        words = [sys.executable, str(ROOT / "tests" / "using" / "follow_page.py"), "docs/REDIS.md"]
        path = f"{tmp_path}{os.pathsep}{os.environ['PATH']}"
        subprocess.run(words, stdin=page, cwd=tmp_path, check=True, env={**os.environ, "PATH": path})


def test_a_row_alone() -> None:
    """One after the other, by two workers; what is answered leaves Redis."""
    asked, wanted = rows_of(2000)
    with Cluster(nodes=1) as cluster, Workers(cluster.address, 2) as workers:
        got = asyncio.run(read_lane(cluster.address, "3", asked["3"], most=1))
        assert got == [answer for _, answer in wanted["3"]]
        nothing_left(cluster.address, ["3"])
        # Another till of the lane may be behind by as many.
        assert 64 <= int(ask(cluster.ports[0], "XLEN", keys.answers("3"))) < 200
        assert ask(cluster.ports[0], "XPENDING", keys.rows("3"), "workers").split()[0] == "0"
        workers.end()


def test_at_rest() -> None:
    """A worker and a till keep their connections, and report nothing."""
    with Cluster(nodes=1, more="appendfsync no\n") as cluster, Workers(cluster.address, 1) as workers:
        async def test() -> None:
            shop = Shop(cluster.address)
            till, counts = Till(shop, "3"), []
            for pause in (1, 1, 1, 4, 0):
                assert await till.read(EAN13) == READ
                told = await shop.ask("", "INFO", "stats")
                counts.append(int(told.partition("total_connections_received:")[2].split()[0]))
                await asyncio.sleep(pause)
            assert counts[-1] - counts[0] < 5, counts
            await shop.close()

        asyncio.run(test())
        assert [line for line in workers.kill("worker0").splitlines() if "127.0.0.1" in line] == []


def test_names_of_lanes() -> None:
    """A name that would be a pattern or a rule of Redis is refused."""
    for name in ("", "a" * 65, "north 0", "x} ~* +@all", "*", "{0}", "é", "a\n"):
        with pytest.raises(ValueError, match="is no name of a lane, which has 1 to 64 of A-Z, a-z, 0-9"):
            Till(Shop("localhost:1"), name)
        for words in (["till", "--redis", "localhost:1", name], ["worker", "--acl", "north.0", name]):
            ran = subprocess.run([*NORILADLE, *words], input="", capture_output=True, text=True)
            assert ran.returncode == 2 and ran.stdout == "" and "is no name of a lane" in ran.stderr
    assert {keys.rows(name)[:4] for name in LANES} == {"nl:{"}
