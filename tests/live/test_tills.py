"""What breaks tills over Redis: each fault, with real nodes and workers, and the errors of the tills. Needs gcc and pgrep."""
from __future__ import annotations

import asyncio
import os
import random
import re
import signal
import socket
import ssl
import subprocess
import time
import urllib.error
import urllib.request
from pathlib import Path
from typing import Any, Awaitable, Callable, Sequence

import pytest

from workers_and_tills import LANES, NORILADLE, Shop, Till, Worker, Workers, entries, keys, rows_of
from redis_cluster import Cluster, ask, free_ports, make_certificates
from lane_faults import Place, most_memory, shifted
from noriladle.live import HubEnded
from noriladle.streams import NoAnswer
from program_and_rows import EAN13, READ

LIMIT = 500
EAN8 = "7 1 1 1 3 1 1 2 1 1 1 4 1 4 1 1 1 2 1 3 1 1 1 1 1 1 2 3 1 3 2 1 1 1 3 1 2 1 1 3 2 1 1 1 7"
GUM = "]E4 (01)00000096385074"
ROWS, ANSWERS = keys.rows("3"), keys.answers("3")


def with_node(test: Callable[[keys.Shop, Cluster], Awaitable[Any]], **more: Any) -> Any:
    """Runs a test with the Shop of one node."""
    with Cluster(nodes=1, **more) as node:
        async def run() -> Any:
            shop = Shop(node.address)
            try:
                return await test(shop, node)
            finally:
                await shop.close()
        return asyncio.run(run())


async def looks(shop: keys.Shop) -> int:
    """How often tills have asked for an entry of their rows."""
    return int(re.search(r"cmdstat_xrange:calls=(\d+)|$", await shop.ask("", "INFO", "commandstats"))[1] or 0)


def write(port: int, *words: str) -> None:
    """A command to a node, however long it is and takes."""
    with socket.create_connection(("127.0.0.1", port)) as node:
        node.sendall(b"*%d\r\n%b" % (len(words), b"".join(b"$%d\r\n%b\r\n" % (len(word), word.encode()) for word in words)))
        assert node.recv(100).startswith(b"$")


@pytest.mark.limit(120)
@pytest.mark.parametrize("evil", ["one entry of 60 MB", "one entry of 20 MB", "many rows of 1 MB"])
def test_entries_that_are_too_long_kill_no_worker(evil: str) -> None:
    """A row of 1 MB has its refusal; an entry over the limit of a reply is dropped unread, and one over that of a lane goes with the
    lane's rows. Another lane goes on meanwhile, and the worker takes no more memory for it."""
    async def test(shop: keys.Shop, node: Cluster) -> None:
        with Workers(node.address, 1) as workers:
            till = Till(shop, "3")
            assert await till.read(EAN13) == READ
            worker = workers.running["worker0"]
            before, other, big = most_memory(worker), Till(shop, "4"), "1 " * 500_000
            entries = [["t", big] + ["x", big] * (int(evil.split()[3]) - 1)] if evil.startswith("one") else [["s", "e", "n", "0", "t", big]] * 20
            for fields in entries:
                await asyncio.to_thread(write, node.ports[0], "XADD", ROWS, "*", *fields)
            until = time.monotonic() + 60
            while await shop.ask(ROWS, "XLEN", ROWS):
                assert time.monotonic() < until and worker.poll() is None
                begin = time.monotonic()
                assert await other.read(EAN13) == READ
                assert time.monotonic() - begin < 10
            answers = [dict(zip(words[::2], words[1::2])) for _, words in await shop.ask(ANSWERS, "XRANGE", ANSWERS, "-", "+")]
            refused = [of["a"].partition(" ")[2] for of in answers if of["s"] == "e"]
            assert refused == ([] if evil.startswith("one") else ["refused 44 InputSize"] * 20)
            assert most_memory(worker) - before < 60_000
            assert await till.read(EAN13) == READ
            said = workers.kill("worker0")
            assert ("has an entry that is too long, and is dropped" in said) == (evil == "one entry of 20 MB")
            assert (f"{ROWS} is emptied: it had 6" in said) == (evil == "one entry of 60 MB")
    with_node(test)


@pytest.mark.limit(60)
def test_a_lane_that_has_too_many_rows() -> None:
    """Over 32 MB of rows without an answer its stream is emptied, and its till submits again."""
    async def test(shop: keys.Shop, node: Cluster) -> None:
        till = Till(shop, "3")
        reading = asyncio.ensure_future(till.read(EAN13))
        for _ in range(40):
            await asyncio.to_thread(write, node.ports[0], "XADD", ROWS, "*", "x", "1" * 1_000_000)
        with Workers(node.address, 1) as workers:
            assert await reading == READ
            until = time.monotonic() + 30
            while await shop.ask(ROWS, "XLEN", ROWS):
                assert time.monotonic() < until
                await asyncio.sleep(0.1)
            assert f"{ROWS} is emptied" in workers.kill("worker0")
    with_node(test)


def test_a_till_goes_on_row_by_row() -> None:
    """Its predecessor had submitted five rows, and died before an answer."""
    async def test(shop: keys.Shop, node: Cluster) -> None:
        first = Till(shop, "3")
        reading = asyncio.ensure_future(first.read_all([EAN13, EAN8, "100", EAN13, EAN8]).__anext__())
        while not await shop.ask(ROWS, "XLEN", ROWS):
            await asyncio.sleep(0.02)
        reading.cancel()
        with Workers(node.address, 1):
            second = Till(shop, "3", first.series, 0)
            wanted = [(EAN13, READ), (EAN8, GUM), ("100", "refused 19 Blank"), (EAN13, READ), (EAN8, GUM), (EAN13, READ), (EAN8, GUM)]
            for row, answer in wanted:
                assert await second.read(row) == answer
            # A till beside it that has its series gets its own answers.
            third = Till(shop, "3", first.series, 7)
            assert [*await asyncio.gather(third.read(EAN13), second.read(EAN13))] == [READ, READ]
    with_node(test)


def test_rows_that_come_one_by_one_share_their_answers(monkeypatch: pytest.MonkeyPatch) -> None:
    """Entries of a row that follow each other are answered by few entries; none has the answers of more than 256 rows, or of two series."""
    async def test(shop: keys.Shop, node: Cluster) -> None:
        one, two = Till(shop, "3"), Till(shop, "3")
        again = Till(shop, "3", one.series, 600)

        async def read(till: Till, times: int) -> None:
            assert [said async for _, said in till.read_all([EAN13, EAN8, "100"] * times)] == [READ, GUM, "refused 19 Blank"] * times

        async def submit(till: Till, times: int, entries: int) -> asyncio.Task[Any]:
            before = await shop.ask(ROWS, "XLEN", ROWS)
            reading = asyncio.ensure_future(read(till, times))
            while await shop.ask(ROWS, "XLEN", ROWS) < before + entries:
                await asyncio.sleep(0.02)
            return reading

        monkeypatch.setattr(keys, "BYTES", 1)
        reading = [await submit(two, 200, 600), await submit(one, 200, 600)]
        monkeypatch.undo()
        reading.append(await submit(again, 300, 4))
        with Workers(node.address, 1):
            await asyncio.gather(*reading)
        found = await entries(node.address, ANSWERS)
        assert len(found) < 40 and max(of["a"].count("\n") for _, of in found) < 256
        assert not any(till.lost or till.repeated or till.strange for till in (one, two, again))
    with_node(test)


@pytest.mark.limit(60)
def test_a_hub_whose_lane_is_spent(tmp_path: Path) -> None:
    """Its refusal is no answer: the worker ends, and the next one answers."""
    (tmp_path / "hub").write_text("#!/bin/sh\nwhile read -r line; do echo \"${line%%,*} - refused 35 Spent\"; done\n")
    (tmp_path / "hub").chmod(0o755)

    async def test(shop: keys.Shop, node: Cluster) -> None:
        words = [*NORILADLE, "worker", "--redis", node.address, "--name", "one", "--year", "2026"]
        reading = asyncio.ensure_future(Till(shop, "3").read(EAN13))
        with subprocess.Popen(["env", f"GS1_HUB={tmp_path / 'hub'}", *words], stderr=subprocess.PIPE, text=True) as worker:
            said = await asyncio.to_thread(worker.communicate)
            assert "the hub has used all numbers of its lane; start the worker again" in said[1] and worker.returncode == 1
        with Workers(node.address, 1):
            assert await reading == READ
    with_node(test)


@pytest.mark.limit(60)
def test_lanes_of_the_version_before() -> None:
    """A worker says that they are there, and what to read."""
    async def test(shop: keys.Shop, node: Cluster) -> None:
        await shop.ask("shop:{north.0}:rows", "XADD", "shop:{north.0}:rows", "1-0", "widths", EAN13)
        with Workers(node.address, 1) as workers:
            assert await Till(shop, "3").read(EAN13) == READ
            await asyncio.sleep(1)
            said = workers.kill("worker0")
        assert said.count("shop:{north.0}:rows is a lane of version 1.1, which no worker of this version answers: docs/REDIS.md says how") == 1
    with_node(test)


@pytest.mark.limit(60)
def test_one_address_of_several_is_down() -> None:
    """A worker and a till that are started then reach the lanes of the nodes that run."""
    with Cluster() as cluster:
        down = cluster.ports[0]
        lane = next(lane for lane in LANES if cluster.holder(keys.rows(lane)) != down)
        addresses = [f"127.0.0.1:{port}" for port in cluster.ports]
        cluster.kill(down)
        time.sleep(3)
        seeds = [word for address in addresses for word in ("--redis", address)]
        words = [*NORILADLE, "worker", *seeds, "--year", "2026"]
        with subprocess.Popen(words, stderr=subprocess.DEVNULL) as worker:
            ran = subprocess.run([*NORILADLE, "till", *seeds, lane], input=f"{EAN13}\n", capture_output=True, text=True, timeout=40)
            worker.terminate()
            assert (ran.returncode, ran.stdout) == (0, f"0 {READ}\n")


FAILOVERS = 10


@pytest.mark.limit(240)
def test_replicas_take_over() -> None:
    """Masters die one after the other, and their replicas, which may be behind, take their lanes: each till gets the
    answers to its rows, in order and each once."""
    asked, wanted = rows_of(16_000)

    async def read_on(shop: keys.Shop, lane: str, done: Any, tills: list[Till]) -> tuple[str, list[str]]:
        got, till = [], Till(shop, lane, most=16)
        async for _, answer in till.read_all(asked[lane]):
            got.append(answer)
            # As long as masters die there are rows left.
            while not done.is_set() and len(got) > len(asked[lane]) * (done.count + 1) / (FAILOVERS + 1):
                await asyncio.sleep(0.02)
        tills.append(till)
        return lane, got

    async def fail_over(cluster: Cluster, done: Any) -> None:
        for number in range(FAILOVERS):
            masters = [port for port in cluster.ports if await asyncio.to_thread(cluster.role, port) == "master"]
            port = masters[number % len(masters)]
            await asyncio.to_thread(cluster.kill, port)
            # Until another has its slots.
            until = time.monotonic() + 30
            while sum([await asyncio.to_thread(cluster.role, it) == "master" for it in cluster.ports if it != port]) < cluster.masters:
                assert time.monotonic() < until, "no replica takes over"
                await asyncio.sleep(0.2)
            await asyncio.to_thread(cluster.start, port)
            until = time.monotonic() + 30
            while not await asyncio.to_thread(cluster.follows, port):
                assert time.monotonic() < until, "it does not come back as a replica"
                await asyncio.sleep(0.2)
            done.count += 1
        done.set()

    async def test(cluster: Cluster) -> tuple[Any, list[Till]]:
        shop = Shop([f"127.0.0.1:{port}" for port in cluster.ports])
        tills: list[Till] = []
        done: Any = asyncio.Event()
        done.count = 0
        harming: asyncio.Future[Any] = asyncio.ensure_future(fail_over(cluster, done))
        reading: asyncio.Future[Any] = asyncio.gather(*(read_on(shop, lane, done, tills) for lane in LANES))
        await asyncio.wait([harming, reading], return_when=asyncio.FIRST_EXCEPTION)
        await harming
        got = dict(await reading)
        await shop.close()
        return got, tills

    with Cluster(replicas=True) as cluster, Workers(",".join(f"127.0.0.1:{port}" for port in cluster.ports), 2) as workers:
        got, tills = asyncio.run(test(cluster))
        workers.end()
    assert got == {lane: [answer for _, answer in wanted[lane]] for lane in LANES}
    print(f"\n{FAILOVERS} failovers, {sum(till.lost for till in tills)} rows told as lost: 0 wrong, 0 doubled, 0 out of order")


def test_without_a_worker() -> None:
    """A till says so after two seconds, and its program gets a fault when it does not want to wait longer."""
    async def test(shop: keys.Shop, _: object) -> None:
        said: list[str] = []
        till = Till(shop, "3", patience=3, note=said.append)
        begin = time.monotonic()
        with pytest.raises(NoAnswer, match="lane 3: no answer for 3 seconds"):
            await till.read(EAN13)
        assert 3 <= time.monotonic() - begin < 7 and said == ["lane 3: no worker answers"]
    with_node(test)


def test_patience_begins_anew_with_each_answer() -> None:
    """Each comes within it, all of them do not."""
    async def test(shop: keys.Shop, _: object) -> None:
        async def answer(texts: Sequence[str]) -> list[str]:
            await asyncio.sleep(0.7)
            return [READ] * len(texts)

        one = Worker(shop, "one", answer)
        running = asyncio.ensure_future(one.run())
        till = Till(shop, "3", most=1, patience=2)
        assert [it async for it in till.read_all([EAN13] * 5)] == [(n, READ) for n in range(5)]
        one.stopping = True
        await running
    with_node(test)


def test_a_worker_whose_answers_fail() -> None:
    """It raises the error, and reads no more rows."""
    async def test(shop: keys.Shop, _: object) -> None:
        asked: list[str] = []

        async def answer(texts: Sequence[str]) -> list[str]:
            asked.extend(texts)
            raise HubEnded("it has ended")

        readings = [asyncio.ensure_future(Till(shop, "3").read(EAN13))]
        one = Worker(shop, "one", answer)
        with pytest.raises(HubEnded):
            await one.run()
        readings += [asyncio.ensure_future(Till(shop, lane).read("100")) for lane in LANES]
        await asyncio.sleep(2)
        assert asked == [EAN13]
        for reading in readings:
            reading.cancel()
    with_node(test)


@pytest.mark.limit(60)
def test_rows_that_only_wait_are_submitted_again_late() -> None:
    """Without a worker they stay in Redis once for 12 seconds, however often the till looks, and twice for 24: a till that submits
    them again because it is silent would make more work for workers that have too much."""
    async def test(shop: keys.Shop, node: Cluster) -> None:
        said: list[str] = []
        till = Till(shop, "3", note=said.append)
        answers = till.read_all([EAN13] * 300)
        reading, begin = asyncio.ensure_future(answers.__anext__()), time.monotonic()
        while time.monotonic() < begin + 11:
            await asyncio.sleep(0.2)
            assert till.repeated == 0 and await shop.ask(ROWS, "XLEN", ROWS) <= 2
        assert 1 <= await looks(shop) <= 1 + (time.monotonic() - begin) / 1.5
        await asyncio.sleep(begin + 16 - time.monotonic())
        assert till.repeated == 300 and await shop.ask(ROWS, "XLEN", ROWS) == 4
        with Workers(node.address, 1):
            assert await reading == (0, READ) and [it async for it in answers] == [(n, READ) for n in range(1, 300)]
        assert till.lost == 0 and said == ["lane 3: no worker answers"] * 2
    with_node(test)


def test_a_till_takes_no_more_rows_than_it_may_keep() -> None:
    """The others stay with its program until there are answers."""
    async def test(shop: keys.Shop, _: object) -> None:
        given = []
        reading = asyncio.ensure_future(Till(shop, "3", most=16).read_all(given.append(n) or EAN13 for n in range(100)).__anext__())
        await asyncio.sleep(1)
        assert len(given) == 16
        reading.cancel()
    with_node(test)


def test_an_answer_of_the_same_moment() -> None:
    """Its ID may have the millisecond of its row: the till reads it at once, and does not find it when it looks."""
    async def test(shop: keys.Shop, _: object) -> None:
        till = Till(shop, "3")
        reading = asyncio.ensure_future(till.read(EAN13))
        while not await shop.ask(ROWS, "XLEN", ROWS):
            await asyncio.sleep(0.01)
        moment = (await shop.ask(ROWS, "XREAD", "STREAMS", ROWS, "0"))[0][1][0][0].partition("-")[0]
        await shop.ask(ANSWERS, "XADD", ANSWERS, f"{moment}-0", "s", till.series, "n", 0, "a", f"{keys.mark(EAN13)} {READ}")
        assert await reading == READ and await looks(shop) == 0
    with_node(test)


def test_errors_are_reported_once() -> None:
    """A node that is down makes many of them; the same one is reported once in ten seconds."""
    async def test(said: list[str]) -> None:
        with pytest.raises(NoAnswer):
            await Till(keys.Shop([f"127.0.0.1:{free_ports(1)[0]}"], note=said.append), "3", patience=2).read(EAN13)
        assert said and len(said) == len(set(said))

    asyncio.run(test([]))


@pytest.mark.parametrize("said", [b"", b"HTTP/1.1 400 Bad Request\r\n\r\n"])
def test_what_is_no_redis(said: bytes) -> None:
    """It ends each connection, or answers as something else does: the till goes on trying."""
    async def test() -> None:
        async def serve(reader: asyncio.StreamReader, writer: asyncio.StreamWriter) -> None:
            await reader.read(1)
            writer.write(said)
            writer.close()

        server = await asyncio.start_server(serve, "127.0.0.1", 0)
        with pytest.raises(NoAnswer):
            await Till(keys.Shop([f"127.0.0.1:{server.sockets[0].getsockname()[1]}"]), "3", patience=2).read(EAN13)
        server.close()

    asyncio.run(test())


def test_how_often_a_node_that_is_down_is_tried() -> None:
    """Ten times a second."""
    class Counted(keys.Shop):
        tried = 0

        async def rest(self, fault: Exception) -> None:
            self.tried += 1
            await super().rest(fault)

    async def test() -> None:
        shop = Counted([f"127.0.0.1:{free_ports(1)[0]}"])
        with pytest.raises(NoAnswer):
            await Till(shop, "3", patience=2).read(EAN13)
        assert 1 < shop.tried <= 21

    asyncio.run(test())


@pytest.mark.limit(40)
def test_a_node_that_is_silent_from_the_first(certificates: Path) -> None:
    """It takes a connection, and never begins TLS: a call does not wait for a minute."""
    async def test() -> None:
        with socket.create_server(("127.0.0.1", 0)) as server:
            shop = keys.Shop([f"127.0.0.1:{server.getsockname()[1]}"], tls=ssl.create_default_context(cafile=certificates / "ca.pem"))
            begin = time.monotonic()
            with pytest.raises(OSError, match="no answer"):
                await shop.ask("", "PING")
            assert time.monotonic() - begin < 8

    asyncio.run(test())


def test_a_node_by_ipv6() -> None:
    try:
        with socket.create_server(("::1", 0), family=socket.AF_INET6) as free:
            port = free.getsockname()[1]
    except OSError:
        pytest.skip("this machine has no IPv6")
    with subprocess.Popen(["redis-server", "--bind", "::1", "--port", str(port), "--save", ""], stdout=subprocess.DEVNULL) as node:
        try:
            with Workers(f"[::1]:{port}", 1):
                ran = subprocess.run([*NORILADLE, "till", "--redis", f"[::1]:{port}", "3"], input=EAN13, capture_output=True, text=True, timeout=30)
                assert (ran.returncode, ran.stdout) == (0, f"0 {READ}\n")
        finally:
            node.terminate()


@pytest.mark.limit(60)
def test_the_named_node_is_gone() -> None:
    """Clients were given one address; then the node dies, and a slot of another moves. They ask the nodes that they know of."""
    with Cluster() as cluster:
        async def test() -> None:
            gone, old, new = cluster.ports
            lane = next(lane for lane in LANES if cluster.holder(keys.rows(lane)) == old)
            slot, names = ask(old, "CLUSTER", "KEYSLOT", keys.rows(lane)), {port: ask(port, "CLUSTER", "MYID") for port in cluster.ports}
            shop = Shop(cluster.address)
            with Workers(cluster.address, 1):
                till = Till(shop, lane)
                assert await till.read(EAN13) == READ
                cluster.kill(gone)
                for key in ask(old, "CLUSTER", "GETKEYSINSLOT", slot, 100).split():
                    ask(old, "DEL", key)
                for port in (new, old):
                    ask(port, "CLUSTER", "SETSLOT", slot, "NODE", names[new])
                assert await till.read(EAN13) == READ
            await shop.close()

        asyncio.run(test())


@pytest.mark.limit(60)
def test_a_slot_that_no_node_has() -> None:
    """Its lane waits, others do not, and it goes on when a node has it."""
    with Cluster(nodes=1) as cluster:
        port, slot = cluster.ports[0], ask(cluster.ports[0], "CLUSTER", "KEYSLOT", ROWS)
        other = next(lane for lane in LANES if ask(port, "CLUSTER", "KEYSLOT", keys.rows(lane)) != slot)
        ask(port, "CLUSTER", "DELSLOTS", slot)

        async def test() -> None:
            shop = Shop(cluster.address)
            with Workers(cluster.address, 1) as workers:
                reading = asyncio.ensure_future(Till(shop, "3").read(EAN13))
                assert await Till(shop, other).read(EAN13) == READ
                await asyncio.sleep(1)
                assert not reading.done() and workers.running["worker0"].poll() is None
                ask(port, "CLUSTER", "ADDSLOTS", slot)
                assert await reading == READ
            await shop.close()

        asyncio.run(test())


@pytest.mark.limit(40)
def test_connections_to_a_node_that_was_gone() -> None:
    """Those that were open before are dead: one call waits for one of them, and the next has a new one."""
    async def test() -> None:
        silent: list[bool] = []

        async def serve(reader: asyncio.StreamReader, writer: asyncio.StreamWriter) -> None:
            mine = len(silent)
            while (words := await reader.read(1000)) and len(silent) == mine:
                writer.write(b"-ERR This instance has cluster support disabled\r\n" if b"SLOTS" in words else b"+PONG\r\n")
            await reader.read()

        server = await asyncio.start_server(serve, "127.0.0.1", 0)
        shop = keys.Shop([f"127.0.0.1:{server.sockets[0].getsockname()[1]}"])
        assert await asyncio.gather(*(shop.ask("", "PING") for _ in range(5))) == ["PONG"] * 5
        silent.append(True)
        with pytest.raises(OSError, match=r"^127.0.0.1:\d+: the node has ended the connection, or is silent$"):
            await shop.ask("", "PING")
        begin = time.monotonic()
        assert await shop.ask("", "PING") == "PONG" and time.monotonic() - begin < 2
        await shop.close()
        server.close()

    asyncio.run(test())


@pytest.mark.limit(60)
@pytest.mark.parametrize("is_new", [True, False])
def test_rows_of_a_dead_worker_whose_time_is_in_the_future(is_new: bool) -> None:
    """The node's clock steps back by a minute: a worker that starts then claims them at once, and so does one that was there."""
    async def test(place: Place) -> None:
        port, = free_ports(1)
        environment, step = shifted(place.folder, 60)
        place.node(port, **environment)
        shop, other = place.at(port), Till(place.at(port), "4")
        if not is_new:
            place.worker("one")
            assert await other.read(EAN13) == READ
            place.workers["one"].send_signal(signal.SIGSTOP)
        await shop.ask(ROWS, "XGROUP", "CREATE", ROWS, "workers", "0", "MKSTREAM")
        till = Till(shop, "3")
        reading = asyncio.ensure_future(till.read(EAN13))
        while not await shop.ask(ROWS, "XREADGROUP", "GROUP", "workers", "gone", "STREAMS", ROWS, ">"):
            await asyncio.sleep(0.02)
        step(0)
        if is_new:
            place.worker("one")
        else:
            place.workers["one"].send_signal(signal.SIGCONT)
        assert await reading == READ and till.repeated == 0
        await shop.close()
        await other.shop.close()

    with Place() as place:
        asyncio.run(test(place))


@pytest.mark.limit(60)
def test_a_claimed_row_before_long_ones() -> None:
    """A worker reads it alone, so what follows it does not make it too long."""
    async def test(shop: keys.Shop, node: Cluster) -> None:
        till = Till(shop, "3")
        await shop.ask(ROWS, "XGROUP", "CREATE", ROWS, "workers", "0", "MKSTREAM")
        reading = asyncio.ensure_future(till.read(EAN13))
        while not await shop.ask(ROWS, "XREADGROUP", "GROUP", "workers", "gone", "STREAMS", ROWS, ">"):
            await asyncio.sleep(0.02)
        for _ in range(10):
            await asyncio.to_thread(write, node.ports[0], "XADD", ROWS, "*", "t", "1 " * 500_000)
        with Workers(node.address, 1) as workers:
            assert await reading == READ and (till.lost, till.repeated) == (0, 0)
            while await shop.ask(ROWS, "XLEN", ROWS):
                await asyncio.sleep(0.1)
            assert "is dropped" not in workers.kill("worker0")
    with_node(test)


def test_many_entries_of_a_dead_worker() -> None:
    """Another claims many at each look, and does not take a second for each."""
    async def test(shop: keys.Shop, node: Cluster) -> None:
        await shop.ask_all(ROWS, [["XADD", ROWS, "*", "s", "e", "n", 2 * n, "t", EAN13] for n in range(100)])
        await shop.ask(ROWS, "XGROUP", "CREATE", ROWS, "workers", "0")
        await shop.ask(ROWS, "XREADGROUP", "GROUP", "workers", "gone", "STREAMS", ROWS, ">")
        with Workers(node.address, 1):
            assert await Till(shop, "4").read(EAN13) == READ
            until = time.monotonic() + 20
            while await shop.ask(ROWS, "XLEN", ROWS):
                assert time.monotonic() < until
                await asyncio.sleep(0.1)
    with_node(test)


@pytest.mark.parametrize("number", [signal.SIGTERM, signal.SIGINT])
def test_both_signals_end_a_worker_regularly(number: signal.Signals) -> None:
    async def test(shop: keys.Shop, node: Cluster) -> None:
        with Workers(node.address, 1) as workers:
            assert await Till(shop, "3").read(EAN13) == READ
            worker = workers.running.pop("worker0")
            worker.send_signal(number)
            said = await asyncio.to_thread(worker.communicate)
            assert worker.returncode == 0 and "stopped worker=worker0 answers=" in said[1]
    with_node(test)


def test_the_user_in_the_environment() -> None:
    async def test(shop: keys.Shop, node: Cluster) -> None:
        await shop.ask("", "ACL", "SETUSER", "guest", "on", ">open", "~*", "+@all")
        words = [*NORILADLE, "till", "--redis", node.address, "3", "--patience", "10"]
        with Workers(node.address, 1):
            ran = await asyncio.to_thread(subprocess.run, words, input=EAN13, capture_output=True, text=True,
                                          env={**os.environ, "REDIS_USER": "guest", "REDIS_PASSWORD": "open"})
        assert (ran.returncode, ran.stdout) == (0, f"0 {READ}\n")
    with_node(test)


def test_the_command_of_a_till_without_a_worker() -> None:
    with Cluster(nodes=1) as node:
        words = [*NORILADLE, "till", "--redis", node.address, "3", "--patience", "1"]
        ran = subprocess.run(words, input=EAN13, capture_output=True, text=True, timeout=30)
        assert ran.returncode == 1 and ran.stdout == "" and ran.stderr.endswith("noriladle till: lane 3: no answer for 1 seconds\n")
    ran = subprocess.run(words, input=EAN13, capture_output=True, text=True, timeout=30)
    assert ran.returncode == 1 and "noriladle till: lane 3: no answer for 1 seconds\n" in ran.stderr
    with Cluster(nodes=1) as node:
        words = [*NORILADLE, "till", "--redis", node.address, "3", "--patience", "3"]
        ran = subprocess.run(words, input=EAN13, capture_output=True, text=True, timeout=30)
        assert "lane 3: no worker answers\n" in ran.stderr


def test_year_and_identifiers_of_a_worker() -> None:
    """As its options say: 2100 has no 29 February, and a profile does not have all Application Identifiers."""
    async def test(shop: keys.Shop, node: Cluster) -> None:
        more: list[str] = []
        for wanted in (["]C1 (17)000229", "]C1 (7240)X"], ["refused 9 ValueDate 0", "refused 5 UnknownAi 0"]):
            with Workers(node.address, 1, more=more):
                till = Till(shop, "3")
                assert [await till.read(text) for text in ("]C117000229", "]C17240X")] == wanted
            more = ["--year", "2060", "--ais", "profile"]
    with_node(test)


@pytest.mark.limit(80)
def test_a_call_that_is_cancelled_harms_no_other_till() -> None:
    """Two tills of one program share a Shop; one gives its calls a time that is too short."""
    async def test(shop: keys.Shop, node: Cluster) -> None:
        chance = random.Random(7)
        with Workers(node.address, 1):
            for _ in range(20):
                async def hasty() -> None:
                    till = Till(shop, "0")
                    for _ in range(60):
                        try:
                            assert await asyncio.wait_for(till.read(EAN8), chance.choice([0.001, 0.002, 0.004, 0.01])) == GUM
                        except asyncio.TimeoutError:
                            return

                async def calm() -> list[str]:
                    till = Till(shop, "1")
                    return [await till.read(EAN13) for _ in range(20)]

                _, got = await asyncio.gather(hasty(), calm())
                assert got == [READ] * 20
        # And leaves no connection open.
        assert int((await shop.ask("", "INFO", "clients")).partition("connected_clients:")[2].split()[0]) < 10
    with_node(test)


def page(port: int, path: str) -> str:
    """The body of a page of a worker's port, also if it is not ready."""
    try:
        with urllib.request.urlopen(f"http://127.0.0.1:{port}{path}", timeout=10) as answer:
            return answer.read().decode()
    except urllib.error.HTTPError as answer:
        return answer.read().decode()


def values_of(port: int) -> dict[str, str]:
    return dict(line.rsplit(" ", 1) for line in page(port, "/metrics").splitlines() if not line.startswith("#"))


async def until(seen: Callable[[], Any], seconds: float = 20) -> Any:
    """Waits until something is seen, and returns it."""
    end = time.monotonic() + seconds
    while time.monotonic() < end:
        try:
            found = await asyncio.to_thread(seen)
            if found:
                return found
        except OSError:
            pass
        await asyncio.sleep(0.1)
    raise AssertionError("it was not seen")


@pytest.mark.limit(90)
def test_what_an_operator_sees_of_a_worker() -> None:
    """Health, readiness and numbers, also of rows that nobody answers; and that a node is silent."""
    async def test(shop: keys.Shop, node: Cluster) -> None:
        port = free_ports(1)[0]
        name = f"127.0.0.1:{node.ports[0]}"
        with Workers(node.address, 1, more=["--metrics", str(port)]) as workers:
            worker = workers.running["worker0"]
            till = Till(shop, "3")
            assert [await till.read(row) for row in (EAN13, "100", EAN8)] == [READ, "refused 19 Blank", GUM]
            await until(lambda: page(port, "/readyz") == "ready\n")
            values = await until(lambda: (it := values_of(port)).get('noriladle_entries{lane="3"}') == "0.0" and it)
            assert float(values["noriladle_answers_total"]) > 3 and float(values['noriladle_refusals_total{number="19"}']) == 1
            assert [float(values[f'noriladle_{it}{{lane="3"}}']) for it in ("oldest_seconds", "entries", "pending")] == [0, 0, 0]
            assert 0 < float(values[f'noriladle_round_trip_seconds{{node="{name}"}}']) < 5
            assert [float(values[f"noriladle_{it}"]) for it in ("ready", "rows_lost_total", "rows_dropped_total")] == [1, 0, 0]
            # A lane whose group gives its rows to nobody.
            stream = keys.rows("4")
            await shop.ask_all(stream, [["MULTI"], ["XADD", stream, "1-0", "t", "x"], ["XGROUP", "CREATE", stream, "workers", "$"], ["EXEC"]])
            values = await until(lambda: (it := values_of(port)).get('noriladle_entries{lane="4"}') == "1.0" and it)
            assert float(values['noriladle_oldest_seconds{lane="4"}']) > 1e9 and float(values['noriladle_pending{lane="4"}']) == 0
            # The node hangs.
            node.processes[node.ports[0]].send_signal(19)
            try:
                said = await until(lambda: (it := page(port, "/readyz")) != "ready\n" and it)
                assert said.startswith(f"no answer through {name} for ")
                values = await until(lambda: (it := values_of(port))["noriladle_ready"] == "0.0" and it)
                assert float(values[f'noriladle_round_trip_seconds{{node="{name}"}}']) > 5 and page(port, "/healthz") == "ok\n"
            finally:
                node.processes[node.ports[0]].send_signal(18)
            await until(lambda: page(port, "/readyz") == "ready\n")
            worker.terminate()
            said = worker.communicate(timeout=20)[1]
            workers.running.clear()
            assert "stopped worker=worker0 answers=" in said and worker.returncode == 0
    with_node(test)


def test_a_port_of_metrics_that_is_taken() -> None:
    """The worker says so, and works."""
    async def test(shop: keys.Shop, node: Cluster) -> None:
        with socket.create_server(("127.0.0.1", 0)) as taken:
            with Workers(node.address, 1, more=["--metrics", str(taken.getsockname()[1])]) as workers:
                assert await Till(shop, "3").read(EAN13) == READ
                assert "no metrics: " in workers.kill("worker0")
    with_node(test)


def test_streams_of_rows_and_texts() -> None:
    """Rows and texts of scanners in one lane, beside `lanes`."""
    asked, wanted = rows_of(2000)
    async def test(shop: keys.Shop, node: Cluster) -> None:
        with Workers(node.address, 1):
            till = Till(shop, "3")
            mixed = [row for text in asked["3"] for row in (text, "]E496385074")]
            got = [answer async for _, answer in till.read_all(mixed)]
            assert till.lost == till.repeated == 0
            assert got[::2] == [answer for _, answer in wanted["3"]] and set(got[1::2]) == {GUM}
    with_node(test)


@pytest.fixture
def certificates(tmp_path: Path) -> Path:
    return make_certificates(tmp_path)


def test_tls(certificates: Path) -> None:
    """To a node that wants a client's certificate; with none, or by another authority, nothing goes through."""
    port = free_ports(1)[0]
    words = ["redis-server", "--port", "0", "--tls-port", str(port), "--save", "", "--dir", str(certificates), "--tls-cert-file", "node.pem",
             "--tls-key-file", "node.key", "--tls-ca-cert-file", "ca.pem", "--tls-auth-clients", "yes"]
    client: list[str | Path] = ["--tls", "--ca", certificates / "ca.pem", "--cert", certificates / "client.pem", "--key", certificates / "client.key"]
    with subprocess.Popen(words, cwd=certificates, stdout=subprocess.DEVNULL) as node:
        worker = subprocess.Popen([*NORILADLE, "worker", "--redis", f"127.0.0.1:{port}", "--year", "2026", *client], stderr=subprocess.DEVNULL)
        try:
            def till(*more: str | Path) -> tuple[int, str]:
                asked = [*NORILADLE, "till", "--redis", f"127.0.0.1:{port}", "3", "--patience", "4", *more]
                ran = subprocess.run(asked, input=EAN13, capture_output=True, text=True, timeout=30)
                return ran.returncode, ran.stdout

            assert till(*client) == (0, f"0 {READ}\n")
            assert till("--tls", "--ca", certificates / "ca.pem") == (1, "")
            assert till("--tls", "--ca", certificates / "other.pem", *client[3:]) == (1, "")
            assert till() == (1, "")
        finally:
            worker.terminate()
            worker.wait(20)
            node.terminate()


@pytest.mark.parametrize("words, wanted", [
    ([], "name a node of Redis: --redis HOST:PORT"),
    (["--redis", "localhost:65536"], "name a node of Redis: --redis HOST:PORT"),
    (["--redis", "localhost"], "name a node of Redis: --redis HOST:PORT"),
    (["--redis", "localhost:1", "--ca", "ca.pem"], "--ca, --cert and --key are of TLS: add --tls"),
    (["--redis", "localhost:1", "--tls", "--ca", "no/such.pem"], "no/such.pem: No such file or directory"),
])
def test_words(words: list[str], wanted: str) -> None:
    for command in (["worker"], ["till", "3"]):
        ran = subprocess.run([*NORILADLE, *command, *words], input="", capture_output=True, text=True)
        assert (ran.returncode, ran.stderr) == (2, f"noriladle: {wanted}\n")


@pytest.mark.parametrize("text, wanted", [
    ("redis = 'one:1'\n", ":1: redis: it is a list"), ("redis = [1, true]\n", ":1: redis: it is one text or number"),
    ("workers = 17\n", ":1: workers: '17' is no number from 1 to 16"), ("\nsecret = 'x'\n", ":2: there is no option 'secret'"),
    ("lane = ['north.0']\n", ":1: there is no option 'lane'"),
])
def test_a_file_of_options_that_is_wrong(tmp_path: Path, text: str, wanted: str) -> None:
    (tmp_path / "worker.toml").write_text(text)
    ran = subprocess.run([*NORILADLE, "worker", "--config", tmp_path / "worker.toml"], capture_output=True, text=True)
    assert ran.returncode == 2 and ran.stderr.startswith(f"noriladle: {tmp_path}/worker.toml{wanted}"), ran.stderr
