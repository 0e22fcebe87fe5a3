"""Faults of lanes over Redis: what tills get while workers, nodes and clocks fail, and other programs do their worst.

A scenario is a coroutine that takes a Record and does harm until the record has enough answers. test_redis_faults.py runs
each for a short time, and tests/live/faults as long as you say. Every answer is compared with that of `gs1_hub lanes` or,
for a text, of the library.
"""
from __future__ import annotations

import asyncio
import contextlib
import hashlib
import itertools
import os
import random
import shutil
import signal
import ssl
import struct
import subprocess
import sys
import tempfile
import time
from pathlib import Path
from typing import Any, Callable, Collection, Coroutine, Iterable, Iterator, Sequence, Union

from noriladle import Refusal, read_scan
from noriladle.streams import Fault, Shop, Till, Worker, answers, rows
from program_and_rows import random_lanes
from redis_cluster import Cluster, Secured, ask, free_ports, make_certificates

NORILADLE = [sys.executable, "-m", "noriladle"]
CLOCK = r"""
#define _GNU_SOURCE
#include <fcntl.h>
#include <stdlib.h>
#include <sys/mman.h>
#include <sys/syscall.h>
#include <sys/time.h>
#include <time.h>
#include <unistd.h>
static volatile long *shift;
__attribute__((constructor)) static void begin(void) {
    int file = open(getenv("SHIFT"), O_RDONLY);
    shift = mmap(0, 8, PROT_READ, MAP_SHARED, file, 0);
}
int gettimeofday(struct timeval *now, void *zone) {
    struct timespec real;
    syscall(SYS_clock_gettime, CLOCK_REALTIME, &real);
    now->tv_sec = real.tv_sec + *shift;
    now->tv_usec = real.tv_nsec / 1000;
    return 0;
}
time_t time(time_t *now) {
    struct timespec real;
    syscall(SYS_clock_gettime, CLOCK_REALTIME, &real);
    if (now) *now = real.tv_sec + *shift;
    return real.tv_sec + *shift;
}
"""
"""The clock of a node, wrong by the seconds of a file."""
ODD = {
    "": "refused 18 BadRuns", "no row": "refused 18 BadRuns", "3,100": "refused 39 Csv", "70000": "refused 17 TooWide",
    "1\n2": "refused 18 BadRuns", "é": "refused 18 BadRuns", "x" * 70_000: "refused 44 InputSize", "100": "refused 19 Blank",
}
"""What is no row, with its answers."""


Word = Union[int, Path, str]
"""A word of a command."""


class Pool:
    """Rows and texts, with their answers."""

    def __init__(self, seed: int) -> None:
        asked, lines = random_lanes(1500, 1, seed)
        chance = random.Random(seed)
        self.answers = dict(zip(asked[0], (line.split(" ", 2)[2] for line in lines[0])))
        texts = ["]E0" + "".join(chance.choices("0123456789", k=13)) for _ in range(1500)]
        self.answers.update((text, answer_of(text)) for text in [*texts, "]E0123", "]C1\x1d", "]E0é", "]E0a\x00b"])
        self.answers.update(ODD)
        self.usual, self.odd = [*asked[0], *texts], list(ODD)

    def some(self, most: int, chance: random.Random) -> list[str]:
        """A few rows, few of them odd."""
        return [chance.choice(self.odd if chance.random() < 0.001 else self.usual) for _ in range(chance.randint(1, most))]


def answer_of(text: str) -> str:
    """The answer of the library to a text."""
    try:
        return str(read_scan(text, 2026))
    except Refusal as refusal:
        return str(refusal)


class Record:
    """What the tills of all lanes got, and the longest time for which each lane had no answer."""

    def __init__(self, answers: int, seed: int) -> None:
        self.wanted, self.random, self.pool = answers, random.Random(seed), Pool(seed)
        self.right = self.repeated = self.lost = self.strange = 0
        self.wrong: list[tuple[object, ...]] = []
        self.notes: list[str] = []
        self.silence: dict[str, float] = {}
        # Since when each till waits for an answer, by its lane and name.
        self.waits: dict[tuple[str, str], float] = {}
        self.until = time.monotonic() + 900
        self.is_over = False

    @property
    def has_enough(self) -> bool:
        """Whether the tills have had enough answers, or too much time."""
        return self.right >= self.wanted or time.monotonic() > self.until

    async def till(self, shop: Shop, lane: str, name: str = "", pause: float = 0.0, burst: int = 1024, only: str | None = None) -> None:
        """A till of a lane, which submits some rows, waits for their answers, and so on."""
        chance = random.Random(f"{lane} {name}")
        till, n = Till(shop, lane, note=self.notes.append), 0
        while not self.is_over:
            texts = [only] * chance.randint(1, burst) if only else self.pool.some(burst, chance)
            self.waits[lane, name], got = time.monotonic(), 0
            async for number, said in till.read_all(texts):
                now = time.monotonic()
                self.silence[lane] = max(self.silence.get(lane, 0), now - self.waits[lane, name])
                self.waits[lane, name] = now
                if (number, said) == (n, self.pool.answers[texts[got]]):
                    self.right += 1
                else:
                    self.wrong.append((lane, n, texts[got][:60], number, said))
                n, got = n + 1, got + 1
            if got != len(texts):
                self.wrong.append((lane, n, "answers are missing", len(texts) - got))
            del self.waits[lane, name]
            if pause:
                await asyncio.sleep(chance.uniform(0, pause))
        self.repeated, self.lost, self.strange = self.repeated + till.repeated, self.lost + till.lost, self.strange + till.strange

    async def at_work(self, tills: list[Coroutine[Any, Any, None]], harm: Coroutine[Any, Any, None]) -> None:
        """Lets tills work while a coroutine does harm, which ends when there are enough answers."""
        tasks = [asyncio.ensure_future(it) for it in tills]
        harming = asyncio.ensure_future(harm)
        done, _ = await asyncio.wait([harming, *tasks], return_when=asyncio.FIRST_COMPLETED)
        for task in done:
            task.result()
        self.is_over = True
        _, late = await asyncio.wait(tasks, timeout=60)
        self.wrong += [("a till hangs",) for _ in late]
        for task in tasks:
            task.cancel()
        await asyncio.gather(*tasks, return_exceptions=True)

    async def all_work(self, names: Collection[str]) -> None:
        """Waits until the tills of all these lanes have had answers: on a busy machine workers start slowly."""
        while not self.silence.keys() >= set(names) and time.monotonic() < self.until:
            await asyncio.sleep(0.1)

    def harms(self) -> Iterator[int]:
        """Counts until there are enough answers, and harm was done ten times: on a fast machine they are there in a second."""
        for number in itertools.count():
            if self.has_enough and (number >= 10 or time.monotonic() > self.until):
                return
            yield number

    async def goes_on(self) -> None:
        """Waits until more answers have come, for 20 seconds at most: else workers die faster than they start."""
        before, until = self.right, time.monotonic() + 20
        while self.right < before + 100 and time.monotonic() < until:
            await asyncio.sleep(0.05)

    def longest(self, lanes: Collection[str] | None = None) -> float:
        """The longest silence of some lanes since the last look, also of one that has not ended; the next look begins again."""
        now = time.monotonic()
        gaps = [*self.silence.items(), *((lane, now - since) for (lane, _), since in self.waits.items())]
        self.silence = {}
        return max((gap for lane, gap in gaps if lanes is None or lane in lanes), default=0.0)

    def __str__(self) -> str:
        return (f"{self.right} right, {len(self.wrong)} wrong, doubled, out of order or missing; rows submitted again {self.repeated}, "
                f"told as lost {self.lost}, answers to other rows {self.strange}")


class Place:
    """Processes of a scenario: nodes, Sentinels and workers, in a folder of their own; over TLS if they have certificates."""

    def __init__(self, tls: bool = False) -> None:
        self.folder = Path(tempfile.mkdtemp(prefix="faults-"))
        self.processes: list[subprocess.Popen[bytes]] = []
        self.workers: dict[str, subprocess.Popen[bytes]] = {}
        self.words: list[Word] = []
        self.certificates = make_certificates(self.folder) if tls else None
        self.log = open(self.folder / "log", "w")

    def __enter__(self) -> Place:
        return self

    def __exit__(self, *_: object) -> None:
        for process in self.processes:
            if process.poll() is None:
                process.send_signal(signal.SIGCONT)
                process.kill()
                process.wait()
        self.log.close()
        shutil.rmtree(self.folder, ignore_errors=True)

    def run(self, words: Sequence[Word], **environment: Any) -> subprocess.Popen[bytes]:
        """Starts a program."""
        process = subprocess.Popen([*map(str, words)], stdout=self.log, stderr=self.log, env={**os.environ, **environment})
        self.processes.append(process)
        return process

    def node(self, port: int, *more: Word, wipe: bool = False, **environment: Any) -> subprocess.Popen[bytes]:
        """Starts a node, or starts it again."""
        folder = self.folder / str(port)
        if wipe:
            shutil.rmtree(folder, ignore_errors=True)
        folder.mkdir(exist_ok=True)
        process = self.run(["redis-server", *self.listens(port), "--bind", "127.0.0.1", "--dir", folder, "--appendonly", "yes", "--appendfsync", "always",
                            "--save", "", "--repl-diskless-sync-delay", "0", *more], **environment)
        while "LOADING" in (said := self.ask(port, "PING")) or not (said == "PONG" or said.startswith("NOAUTH")):
            assert process.poll() is None
            time.sleep(0.05)
        return process

    def listens(self, port: int) -> list[Word]:
        """The words of a node that listens on a port."""
        of = self.certificates
        return ["--port", "0", "--tls-port", port, "--tls-replication", "yes", "--tls-auth-clients", "yes", "--tls-cert-file", of / "node.pem",
                "--tls-key-file", of / "node.key", "--tls-ca-cert-file", of / "ca.pem"] if of else ["--port", port]

    def ask(self, port: int, *words: Word) -> str:
        """A command to a node."""
        of = self.certificates
        tls: list[Word] = ["--tls", "--cacert", of / "ca.pem", "--cert", of / "client.pem", "--key", of / "client.key"] if of else []
        return ask(port, *tls, *words)

    def worker(self, name: str, **environment: Any) -> None:
        """Starts a worker at the addresses, or starts it again."""
        words = [*NORILADLE, "worker", "--name", name, "--year", "2026", *self.words]
        self.workers[name] = self.run(words, **environment)

    def kill(self, name: str) -> None:
        self.workers[name].kill()
        self.workers[name].wait()

    def at(self, *ports: int, master: str | None = None, user: str | None = None) -> Shop:
        """The addresses at which workers look, and the lanes of a till; those of Sentinels, if the master has a name there."""
        self.words = [*(word for port in ports for word in ("--redis", f"127.0.0.1:{port}")), *(["--master", master] if master else [])]
        context, of = None, self.certificates
        if of:
            self.words += ["--tls", "--ca", of / "ca.pem", "--cert", of / "client.pem", "--key", of / "client.key"]
            context = ssl.create_default_context(cafile=of / "ca.pem")
            context.load_cert_chain(of / "client.pem", of / "client.key")
        return Shop([f"127.0.0.1:{port}" for port in ports], user, user and "secret", tls=context, master=master)

    def users(self, names: Iterable[str]) -> list[Word]:
        """The words of a node with the rights of `noriladle worker --acl` for these lanes; all passwords are `secret`."""
        told = subprocess.run([*NORILADLE, "worker", "--acl", *names], capture_output=True, text=True, check=True).stdout
        (self.folder / "users.acl").write_text(told.replace("#HASH", "#" + hashlib.sha256(b"secret").hexdigest()))
        return ["--aclfile", self.folder / "users.acl", "--masteruser", "replica", "--masterauth", "secret"]


def lanes(count: int) -> list[str]:
    return [f"lane.{number}" for number in range(count)]


async def killed(record: Record, tls: bool = False) -> None:
    """Workers are killed and put to sleep, and the node is killed."""
    with Place(tls) as place:
        port, = free_ports(1)
        node = place.node(port)
        shop, names = place.at(port), ["one", "two", "three"]
        for name in names:
            place.worker(name)

        async def harm() -> None:
            nonlocal node
            for _ in record.harms():
                await asyncio.sleep(record.random.uniform(0.3, 1))
                await record.goes_on()
                what, name = record.random.random(), record.random.choice(names)
                if what < 0.45:
                    place.kill(name)
                    place.worker(name)
                elif what < 0.9:
                    process = place.workers[name]
                    process.send_signal(signal.SIGSTOP)
                    asyncio.get_running_loop().call_later(record.random.uniform(1, 6), process.send_signal, signal.SIGCONT)
                else:
                    node.kill()
                    node.wait()
                    await asyncio.sleep(0.3)
                    node = await asyncio.to_thread(place.node, port)

        await record.at_work([record.till(shop, lane) for lane in lanes(16)], harm())
        await shop.close()


async def killed_over_tls(record: Record) -> None:
    """The same over TLS."""
    await killed(record, tls=True)


async def takeover(record: Record) -> dict[signal.Signals, list[float]]:
    """One of two workers is killed, or stopped regularly, while tills submit a few rows at a time. Returns the longest
    silence after each."""
    longest: dict[signal.Signals, list[float]] = {signal.SIGKILL: [], signal.SIGTERM: []}
    with Place() as place:
        port, = free_ports(1)
        place.node(port)
        shop, names = place.at(port), ["one", "two"]
        for name in names:
            place.worker(name)

        async def harm() -> None:
            await record.all_work(lanes(20))
            await asyncio.sleep(3)
            while not record.has_enough or not longest[signal.SIGTERM]:
                for how in longest:
                    record.longest()
                    place.workers[names[0]].send_signal(how)
                    await asyncio.to_thread(place.workers[names[0]].wait)
                    await asyncio.sleep(4)
                    longest[how].append(record.longest())
                    place.worker(names[0])
                    await asyncio.sleep(1.5)
                    names.reverse()

        await record.at_work([record.till(shop, lane, pause=0.01, burst=64) for lane in lanes(20)], harm())
        await shop.close()
    return longest


class OwnSentinel:
    """A Sentinel of one master, which this program names."""

    def __init__(self, port: int) -> None:
        self.port, self.master = port, 0

    async def __aenter__(self) -> OwnSentinel:
        self.server = await asyncio.start_server(self._serve, "127.0.0.1", self.port)
        return self

    async def __aexit__(self, *_: object) -> None:
        self.server.close()

    async def _serve(self, reader: asyncio.StreamReader, writer: asyncio.StreamWriter) -> None:
        with contextlib.suppress(OSError, asyncio.IncompleteReadError, ValueError):
            while True:
                words = []
                for _ in range(int((await reader.readline())[1:])):
                    size = int((await reader.readline())[1:])
                    words.append((await reader.readexactly(size + 2))[:-2])
                port = str(self.master)
                writer.write(f"*2\r\n$9\r\n127.0.0.1\r\n${len(port)}\r\n{port}\r\n".encode() if words[0] == b"SENTINEL"
                             else b"-ERR unknown command 'CLUSTER'\r\n")
        writer.close()


def shifted(folder: Path, seconds: int) -> tuple[dict[str, Any], Callable[[int], None]]:
    """The environment of a node whose clock is wrong, and a function that makes it wrong by other seconds."""
    (folder / "clock.c").write_text(CLOCK)
    library, file = folder / "clock.so", folder / "shift"
    subprocess.run(["gcc", "-shared", "-fPIC", "-O1", "-o", library, folder / "clock.c"], check=True)
    file.write_bytes(struct.pack("q", seconds))

    def step(to: int) -> None:
        with open(file, "r+b") as it:
            it.write(struct.pack("q", to))

    return {"LD_PRELOAD": str(library), "SHIFT": str(file)}, step


async def behind(record: Record) -> float:
    """A master dies, and a replica takes over that is behind, and whose clock is 30 seconds behind too; and back again."""
    longest = 0.0
    with Place() as place:
        one, two, port = free_ports(3)
        slow, _ = shifted(place.folder, -30)

        def start(node: int, *more: Word) -> Any:
            return place.node(node, *more, wipe=True, **(slow if node == two else {}))

        def follows(node: int) -> bool:
            return "master_link_status:up" in ask(node, "INFO", "replication")

        nodes = {one: start(one), two: start(two, "--replicaof", "127.0.0.1", str(one))}
        while not follows(two):
            await asyncio.sleep(0.1)
        shop, names = place.at(port, master="lanes"), ["one", "two", "three"]
        async with OwnSentinel(port) as sentinel:
            sentinel.master = one
            for name in names:
                place.worker(name)

            async def harm() -> None:
                nonlocal longest
                await record.all_work(lanes(20))
                await asyncio.sleep(2)
                record.longest()
                while not record.has_enough or not longest:
                    await asyncio.sleep(record.random.uniform(1, 3))
                    old, new = sentinel.master, one + two - sentinel.master
                    ask(new, "REPLICAOF", "127.0.0.1", 1)
                    await asyncio.sleep(record.random.uniform(0.05, 0.8))
                    if record.random.random() < 0.5:
                        name = record.random.choice(names)
                        place.kill(name)
                        place.worker(name)
                    nodes[old].kill()
                    nodes[old].wait()
                    ask(new, "REPLICAOF", "NO", "ONE")
                    sentinel.master = new
                    await asyncio.sleep(1)
                    nodes[old] = await asyncio.to_thread(start, old, "--replicaof", "127.0.0.1", str(new))
                    while not await asyncio.to_thread(follows, old):
                        await asyncio.sleep(0.1)
                    longest = max(longest, record.longest())

            await record.at_work([record.till(shop, lane) for lane in lanes(20)], harm())
            await shop.close()
    return longest


async def sentinels(record: Record, tls: bool = False) -> list[float]:
    """Three Sentinels of Redis, a master and two replicas, with rights; the master is killed and comes back as a replica. Returns the
    longest silence after each kill."""
    longest: list[float] = []
    with Place(tls) as place:
        first, *others = free_ports(3)
        names, users = lanes(12), place.users(lanes(12))
        nodes = {first: place.node(first, *users)}
        nodes.update((port, place.node(port, *users, "--replicaof", "127.0.0.1", str(first))) for port in others)
        await asyncio.sleep(1.5)
        watching = free_ports(3)
        for port in watching:
            folder = place.folder / str(port)
            folder.mkdir()
            (folder / "configuration").write_text(
                f"bind 127.0.0.1\ndir {folder}\nsentinel monitor lanes 127.0.0.1 {first} 2\n"
                "sentinel down-after-milliseconds lanes 1000\nsentinel failover-timeout lanes 3000\n"
                "sentinel auth-user lanes sentinel\nsentinel auth-pass lanes secret\n")
            place.run(["redis-server", folder / "configuration", "--sentinel", *place.listens(port)])
        await asyncio.sleep(3)
        shops = {lane: place.at(*watching, master="lanes", user=f"till.{lane}") for lane in names}
        place.words += ["--user", "worker"]
        for name in ("one", "two"):
            place.worker(name, REDIS_PASSWORD="secret")

        async def harm() -> None:
            await record.all_work(names)
            await asyncio.sleep(3)
            while not record.has_enough or not longest:
                record.longest()
                master = int(place.ask(watching[0], "SENTINEL", "GET-MASTER-ADDR-BY-NAME", "lanes").split()[1])
                nodes[master].kill()
                nodes[master].wait()
                await asyncio.sleep(16)
                longest.append(record.longest())
                nodes[master] = await asyncio.to_thread(place.node, master, *users)
                await asyncio.sleep(6)

        await record.at_work([record.till(shops[lane], lane) for lane in names], harm())
        for shop in shops.values():
            await shop.close()
    return longest


async def sentinels_over_tls(record: Record) -> list[float]:
    """The same over TLS."""
    return await sentinels(record, tls=True)


async def hung(record: Record, tls: bool = False) -> tuple[list[float], list[float], list[float]]:
    """Of a cluster of three one node hangs, and then a worker is killed too. Returns the longest silences of the lanes of the
    other nodes: before, while it hangs, and with the kill."""
    alone, with_kill = [], []
    before: list[float] = []
    with (Secured() if tls else Cluster()) as cluster, Place() as place:
        place.certificates = cluster.root if tls else None
        bad, names = cluster.ports[2], ["one", "two", "three"]
        shop = place.at(*(port + 20_000 * tls for port in cluster.ports))
        healthy = [lane for lane in lanes(24) if await shop.address(rows(lane)) != f"127.0.0.1:{bad + 20_000 * tls}"]
        for name in names:
            place.worker(name)

        async def harm() -> None:
            await record.all_work(lanes(24))
            await asyncio.sleep(3)
            record.longest()
            while not record.has_enough or not before:
                await asyncio.sleep(3)
                before.append(record.longest(healthy))
                cluster.processes[bad].send_signal(signal.SIGSTOP)
                await asyncio.sleep(6)
                alone.append(record.longest(healthy))
                name = record.random.choice(names)
                place.kill(name)
                await asyncio.sleep(5)
                with_kill.append(record.longest(healthy))
                place.worker(name)
                cluster.processes[bad].send_signal(signal.SIGCONT)
                await asyncio.sleep(2)
                record.longest()

        try:
            await record.at_work([record.till(shop, lane, pause=0.05, burst=64) for lane in lanes(24)], harm())
        finally:
            cluster.processes[bad].send_signal(signal.SIGCONT)
        await shop.close()
    return before, alone, with_kill


async def hung_over_tls(record: Record) -> tuple[list[float], list[float], list[float]]:
    """The same over TLS."""
    return await hung(record, tls=True)


async def clocks(record: Record) -> float:
    """The clock of the node steps, by up to an hour, while workers are killed and put to sleep. Returns the longest silence after two of them died
    for good, and the clock stepped back."""
    longest = 0.0
    with Place() as place:
        port, = free_ports(1)
        environment, step = shifted(place.folder, 0)
        place.node(port, **environment)
        shop, names = place.at(port), ["one", "two", "three"]
        for name in names:
            place.worker(name)

        async def harm() -> None:
            nonlocal longest
            for _ in record.harms():
                await asyncio.sleep(record.random.uniform(0.3, 1))
                await record.goes_on()
                what, name = record.random.random(), record.random.choice(names)
                if what < 0.4:
                    place.kill(name)
                    place.worker(name)
                elif what < 0.7:
                    process = place.workers[name]
                    process.send_signal(signal.SIGSTOP)
                    asyncio.get_running_loop().call_later(record.random.uniform(1, 6), process.send_signal, signal.SIGCONT)
                else:
                    step(record.random.choice([0, 3600, -3600, -30, 30]))
            for process in place.workers.values():
                process.send_signal(signal.SIGCONT)
            step(7200)
            await asyncio.sleep(3)
            record.longest()
            for name in names[1:]:
                place.kill(name)
            step(0)
            await asyncio.sleep(12)
            longest = record.longest()

        await record.at_work([record.till(shop, lane) for lane in lanes(20)], harm())
        await shop.close()
    return longest


async def two_tills(record: Record) -> None:
    """Two tills on each lane, and series that are taken again: with the same rows, and with others."""
    with Place() as place:
        port, = free_ports(1)
        place.node(port)
        shop = place.at(port)
        for name in ("one", "two"):
            place.worker(name)

        async def harm() -> None:
            for _ in record.harms():
                texts = record.random.choices(record.pool.usual, k=300)
                lane, stop = f"again.{record.random.randrange(4)}", record.random.randrange(1, 299)
                first, n = Till(shop, lane), 0
                async for number, said in first.read_all(texts):
                    record.wrong += [(lane, number, n, said)] if (number, said) != (n, record.pool.answers[texts[n]]) else []
                    n += 1
                    if n == stop:
                        break
                if record.random.random() < 0.5:
                    texts = record.random.choices(record.pool.usual, k=300)
                second = Till(shop, lane, first.series, n)
                async for number, said in second.read_all(texts[n:]):
                    record.wrong += [(lane, number, n, said)] if (number, said) != (n, record.pool.answers[texts[n]]) else []
                    n += 1
                record.right += n
                record.strange += second.strange

        await record.at_work([record.till(shop, lane, name) for lane in lanes(8) for name in ("a", "b")], harm())
        await shop.close()


async def deleted(record: Record) -> None:
    """Somebody deletes groups, keys, entries or all."""
    with Place() as place:
        port, = free_ports(1)
        place.node(port)
        shop = place.at(port)
        for name in ("one", "two"):
            place.worker(name)

        async def harm() -> None:
            for _ in record.harms():
                await asyncio.sleep(1)
                lane = record.random.choice(lanes(8))
                commands: list[list[Word]] = [
                    ["DEL", rows(lane)], ["DEL", answers(lane)], ["FLUSHALL"], ["XGROUP", "DESTROY", rows(lane), "workers"],
                    ["XTRIM", rows(lane), "MAXLEN", 0], ["XTRIM", answers(lane), "MAXLEN", 0]]
                ask(port, *record.random.choice(commands))

        await record.at_work([record.till(shop, lane) for lane in lanes(8)], harm())
        await shop.close()



def locked(place: Place, port: int, names: Sequence[str], *more: Word) -> dict[str, Shop]:
    """A node with rights, and the lanes as each of their tills sees them."""
    place.node(port, *place.users(names), "--maxmemory-policy", "noeviction", "--proto-max-bulk-len", "1mb", "--maxmemory-clients", "16mb", *more)
    shops = {lane: place.at(port, user=f"till.{lane}") for lane in names}
    place.words += ["--user", "worker"]
    return shops


EVIL = [["commands"], ["odd"], ["megabyte"], ["sixty"], ["fields"], ["empty"], ["flood", "10"], ["flood", "60000"], ["flood", "1000000"]]


async def evil(record: Record, seconds: float = 6) -> dict[str, Any]:
    """One till writes what no till writes, and floods its lane. Returns for each evil how many entries it wrote, and the longest
    silence of the other lanes; and the most memory of a worker, in MB."""
    told: dict[str, Any] = {}
    with Place() as place:
        port, = free_ports(1)
        shops = locked(place, port, lanes(8), "--maxmemory", "300mb")
        for name in ("one", "two"):
            place.worker(name, REDIS_PASSWORD="secret")
        bad, *others = lanes(8)

        async def harm() -> None:
            await record.all_work(others)
            await asyncio.sleep(3)
            record.longest()
            await asyncio.sleep(2)
            told["before"] = round(record.longest(), 2)
            while not record.has_enough or len(told) <= len(EVIL):
                for what in EVIL * 2:
                    # On a busy machine all may wait for something else: once more, if it was long.
                    if told.get(" ".join(what), ("", 2))[1] > 1 or not record.has_enough:
                        program = await asyncio.create_subprocess_exec(
                            sys.executable, str(Path(__file__).with_name("evil_till.py")), str(port), f"till.{bad}", rows(bad), *what, str(seconds),
                            stdout=subprocess.PIPE)
                        written = (await program.communicate())[0].decode().strip()
                        told[" ".join(what)] = written, round(record.longest(), 2)
            await asyncio.sleep(3)

        await record.at_work([record.till(shops[lane], lane, pause=0.02, burst=64) for lane in others], harm())
        assert all(process.poll() is None for process in place.workers.values())
        told["worker MB"] = max(most_memory(process) // 1024 for process in place.workers.values())
        for shop in shops.values():
            await shop.close()
    return told


def most_memory(process: subprocess.Popen[Any]) -> int:
    """The most memory that a process has had, in kB."""
    return int(Path(f"/proc/{process.pid}/status").read_text().split("VmHWM:")[1].split()[0])


async def full(record: Record) -> float:
    """Many lanes fill the memory of the node together, none of them too large: the worker empties the largest, and the others
    go on. Returns the longest silence."""
    with Place() as place:
        port, = free_ports(1)
        many = [f"bad.{number}" for number in range(10)]
        shops = locked(place, port, [*many, *lanes(4)], "--maxmemory", "60mb")
        for size in (10_000, 100):  # All of a size: Redis judges the size of a stream by its first entries.
            for lane in itertools.cycle(many):
                told = await shops[lane].ask_all(rows(lane), [["XADD", rows(lane), "*", "t", "x" * size]] * 50)
                if isinstance(told[-1], Fault):
                    break
            await asyncio.sleep(3)  # Meanwhile the node frees the buffers of clients.

        async def harm() -> None:
            for name in ("one", "two"):
                place.worker(name, REDIS_PASSWORD="secret")
            end = time.monotonic() + 10
            while not record.has_enough or time.monotonic() < end:
                lane = record.random.choice(many)
                with contextlib.suppress(Fault):
                    await shops[lane].ask(rows(lane), "XADD", rows(lane), "*", "t", "x" * record.random.choice([10_000, 1_000]))
                await asyncio.sleep(0.005)

        await record.at_work([record.till(shops[lane], lane) for lane in lanes(4)], harm())
        for shop in shops.values():
            await shop.close()
    return record.longest()


async def slow(record: Record, names: tuple[str, str, str] = ("one", "two", "three")) -> float:
    """A row takes a worker 2 ms, one after the other, and tills submit all they may. Returns how many rows were worked for each answer."""
    with Place() as place:
        port, = free_ports(1)
        place.node(port)
        shop = place.at(port)

        def worker(name: str) -> Worker:
            one = asyncio.Lock()

            async def answer(texts: Sequence[str]) -> list[str]:
                async with one:
                    await asyncio.sleep(0.002 * len(texts))
                return [record.pool.answers[text] for text in texts]

            return Worker(place.at(port), name, answer)

        workers = [worker(name) for name in names]
        record.pool.odd = ["100"]

        async def harm() -> None:
            working = [asyncio.ensure_future(worker.run()) for worker in workers]
            while not record.has_enough:
                await asyncio.sleep(0.2)
            record.is_over = True
            await asyncio.sleep(20)
            for worker in workers:
                worker.stopping = True
            await asyncio.gather(*working)

        await record.at_work([record.till(shop, lane) for lane in lanes(12)], harm())
        await shop.close()
    return sum(worker.given for worker in workers) / record.right


async def slow_of_one_name(record: Record) -> float:
    """The same, by three workers of one name."""
    return await slow(record, ("one", "one", "one"))


async def thousand(record: Record) -> tuple[float, float, float, float, list[float]]:
    """A thousand lanes, of which each submits a few rows now and then. Returns the median and the longest silence, how long the
    first row of a new lane waits and a row alone, in seconds, and the share of a processor that each worker takes at rest."""
    with Place() as place:
        port, = free_ports(1)
        place.node(port)
        shop = place.at(port)
        for name in ("one", "two"):
            place.worker(name)

        async def harm() -> None:
            await asyncio.sleep(8)
            record.longest()
            record.wanted += record.right
            while not record.has_enough:
                await asyncio.sleep(0.5)

        await record.at_work([record.till(shop, lane, pause=10, burst=16) for lane in lanes(1000)], harm())
        silences, late, took = sorted(record.silence.values()), Till(shop, "late"), []
        for _ in range(51):
            begin = time.monotonic()
            assert await late.read(record.pool.usual[0]) == record.pool.answers[record.pool.usual[0]]
            took.append(time.monotonic() - begin)
        before = [used(process) for process in place.workers.values()]
        await asyncio.sleep(5)
        rest = [(used(process) - its) / 5 for process, its in zip(place.workers.values(), before)]
        await shop.close()
    return silences[len(silences) // 2], silences[-1], took[0], sorted(took[1:])[25], rest


def used(process: subprocess.Popen[Any]) -> float:
    """The processor time that a process has used, in seconds."""
    words = Path(f"/proc/{process.pid}/stat").read_text().rpartition(")")[2].split()
    return (int(words[11]) + int(words[12])) / os.sysconf("SC_CLK_TCK")


SCENARIOS = ["killed", "killed_over_tls", "takeover", "behind", "sentinels", "sentinels_over_tls", "hung", "hung_over_tls", "clocks", "two_tills", "deleted", "evil", "full", "slow", "slow_of_one_name",
             "thousand"]
