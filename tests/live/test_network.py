"""Nodes, workers, tills and a gateway on machines of their own, on a network that loses packets, is slow, or is cut. Needs root, iproute2 and
the device /dev/net/tun; else these are skipped."""
from __future__ import annotations

import asyncio
import os
import random
import re
import signal
import subprocess
import threading
import time
from pathlib import Path
from typing import Any, Callable, Iterator

import pytest

from workers_and_tills import LANES, Shop, Till, Workers, rows_of
from redis_cluster import Cluster, ask
from gateway_and_scanners import ROW, Client, Gateway
from network import Network
from program_and_rows import READ, SEED, random_lanes

LIMIT = 600
CUTS = 12

pytestmark = pytest.mark.skipif(os.geteuid() != 0 or not os.path.exists("/dev/net/tun"), reason="only root makes machines of network namespaces")


class Spread(Cluster):
    """A cluster with each node on its own machine."""

    def __init__(self, network: Network, nodes: int = 3, **more: Any) -> None:
        super().__init__(nodes, "protected-mode no\n", **more)
        self.network, self.machines = network, dict(zip(self.ports, network.names))

    def host(self, port: int) -> str:
        return self.network.addresses[self.machines[port]]

    def ask(self, port: int, *words: int | str | Path) -> str:
        with self.network.inside(self.machines[port]):
            return ask(port, *words, host=self.host(port))

    def run(self, port: int, words: list[str]) -> subprocess.Popen[bytes]:
        with self.network.inside(self.machines[port]):
            return super().run(port, words)

    @property
    def addresses(self) -> list[str]:
        return [f"{self.host(port)}:{port}" for port in self.ports]

    def taken(self, port: int) -> int:
        """How many entries of streams a node has taken since it runs."""
        return int(re.search("cmdstat_xadd:calls=([0-9]+)|$", self.ask(port, "INFO", "commandstats"))[1] or 0)


class Far(Workers):
    """Workers, each on the machine of its name."""

    def __init__(self, network: Network, address: str, count: int) -> None:
        super().__init__(address, count)
        self.network = network

    def start(self, name: str) -> None:
        with self.network.inside(name):
            super().start(name)


@pytest.mark.limit(240)
@pytest.mark.parametrize("delay, loss", [(0.01, 0.03), (0.1, 0.005)])
def test_packets_are_lost_and_machines_cut_off(delay: float, loss: float) -> None:
    """Each machine for up to seven seconds, one after the other: nothing is lost, doubled or out of order."""
    asked, wanted = rows_of(8_000)
    names = ["one", "two", "three", "worker0", "worker1", "tills"]
    with Network(*names) as network, Spread(network) as cluster, Far(network, cluster.address, 2) as workers:
        network.worsen(delay, loss)
        chance, done, cut = random.Random(SEED), threading.Event(), []

        def cut_all() -> None:
            for number in range(CUTS):
                network.cut_off(names[number % len(names)])
                cut.append(number)
                done.wait(chance.uniform(0.2, 7 if number % 3 == 0 else 2))
                network.cut_off()
                done.wait(chance.uniform(0.5, 2))

        async def test() -> dict[str, list[tuple[int, str]]]:
            shop = Shop(cluster.addresses)
            got: dict[str, list[tuple[int, str]]] = {lane: [] for lane in LANES}

            async def one(lane: str) -> None:
                async for answer in Till(shop, lane, most=64).read_all(asked[lane]):
                    got[lane].append(answer)
                    # As long as machines are cut off there are rows left.
                    while len(cut) < CUTS and len(got[lane]) > len(asked[lane]) * len(cut) / CUTS:
                        await asyncio.sleep(0.01)

            await asyncio.gather(*map(one, LANES))
            await shop.close()
            return got

        cutting = threading.Thread(target=cut_all)
        with network.inside("tills"):
            cutting.start()
            got = asyncio.run(test())
            done.set()
            cutting.join()
            network.worsen(0, 0)
            cluster.wait()
            assert got == wanted
        workers.end()
        print(f"{len(cut)} machines cut off, {network.told()}: 0 wrong, 0 doubled, 0 out of order")
        assert len(cut) == CUTS


REPLICATED = ["one", "two", "three", "again1", "again2", "again3", "worker0", "worker1", "tills"]


async def read_on(addresses: list[str], asked: dict[str, list[str]], most: int = 64) -> tuple[dict[str, list[str]], int]:
    """What a till of each lane gets, and how many rows the tills were told as lost, each of which they submit again."""
    shop = Shop(addresses)
    tills = {lane: Till(shop, lane, most=most) for lane in LANES}

    async def one(lane: str) -> tuple[str, list[str]]:
        got, till = [], tills[lane]
        async for _, answer in till.read_all(asked[lane]):
            got.append(answer)
            await asyncio.sleep(0.005)
        return lane, got

    got = dict(await asyncio.gather(*map(one, LANES)))
    await shop.close()
    lost, repeated = (sum(getattr(till, name) for till in tills.values()) for name in ("lost", "repeated"))
    assert lost <= repeated
    return got, lost


def answers_of(wanted: dict[str, list[tuple[int, str]]]) -> dict[str, list[str]]:
    return {lane: [answer for _, answer in wanted[lane]] for lane in LANES}


@pytest.mark.limit(90)
def test_a_master_is_cut_off_for_good() -> None:
    """No connection to it ends, and nobody there says anything; its replica takes over, and its lanes go on there."""
    asked, wanted = rows_of(8_000)
    with Network(*REPLICATED) as network, Spread(network, replicas=True) as cluster, Far(network, ",".join(cluster.addresses), 2):
        cutting = threading.Timer(1, network.cut_off, ["one"])
        begin = time.monotonic()
        with network.inside("tills"):
            cutting.start()
            got, lost = asyncio.run(read_on(cluster.addresses, asked))
        assert got == answers_of(wanted)
        print(f"\n{time.monotonic() - begin:.0f} seconds, {lost} rows told as lost; {network.told()}")


@pytest.mark.limit(120)
def test_a_network_in_two_halves() -> None:
    """A master and the tills are on the smaller one, and a worker that is at work at times: what the master takes meanwhile, and nobody
    answers, is lost when the halves meet."""
    asked, wanted = rows_of(12_000)
    with Network(*REPLICATED) as network, Spread(network, replicas=True) as cluster, Far(network, ",".join(cluster.addresses), 2) as workers:
        done, halves, worker = threading.Event(), 0, workers.running["worker0"]

        def wait_for(is_so: Callable[[], bool]) -> None:
            """Until it is so, all rows are answered, or 20 seconds are over."""
            end = time.monotonic() + 20
            while not is_so() and time.monotonic() < end and not done.wait(0.1):
                pass

        def cut() -> None:
            nonlocal halves
            for master, replica in zip(cluster.ports, cluster.ports[cluster.masters:]):
                before = cluster.taken(master)
                wait_for(lambda: cluster.taken(master) > before + 10)  # Answers come.
                network.cut_off(cluster.machines[master], "worker0", "tills")
                if halves % 2 == 0:
                    worker.send_signal(signal.SIGSTOP)
                halves += 1
                wait_for(lambda: cluster.role(replica) == "master")
                network.cut_off()
                worker.send_signal(signal.SIGCONT)
                done.wait(6)

        cutting = threading.Thread(target=cut)
        with network.inside("tills"):
            cutting.start()
            got, lost = asyncio.run(read_on(cluster.addresses, asked))
            done.set()
            cutting.join()
        assert got == answers_of(wanted)
        print(f"\n{halves} times in two halves, {lost} rows told as lost: 0 wrong; {network.told()}")
        assert lost


@pytest.fixture
def far(tmp_path: Path, request: pytest.FixtureRequest) -> Iterator[tuple[Network, Gateway]]:
    """A gateway on one machine, with an idle time, and clients on another."""
    with Network("shop", "till") as network:
        with network.inside("shop"):
            gateway = Gateway(tmp_path, "--host", network.addresses["shop"], "--anyone", "--metrics", "0", "--idle", request.param)
        with gateway:
            yield network, gateway


def connect(far: tuple[Network, Gateway]) -> Client:
    network, gateway = far
    with network.inside("till"):
        return Client((network.addresses["shop"], gateway.ports["port"]))


@pytest.mark.parametrize("far", ["60"], indirect=True)
def test_a_gateway_far_away(far: tuple[Network, Gateway]) -> None:
    """Its answers come in order over a slow and lossy network, and after it was cut, however late TCP tries again."""
    network, gateway = far
    asked, wanted = random_lanes(3_000, 1)
    network.worsen(0.02, 0.03)
    with connect(far) as client:
        sending = threading.Thread(target=lambda: client.send("\n".join([*asked[0], ""]).encode()))
        cutting = [threading.Timer(0.3, network.cut_off, ["till"]), threading.Timer(3, network.cut_off)]
        for thread in (sending, *cutting):
            thread.start()
        lines = [client.line() for _ in asked[0]]
        for thread in (sending, *cutting):
            thread.join()
    assert [line.rstrip("\n").split(" ", 1)[1] for line in lines] == [line.split(" ", 2)[2] for line in wanted[0]]
    assert [line.split(" ", 1)[0] for line in lines] == [str(number) for number in range(len(lines))]
    print(f"\n{network.told()}")


@pytest.mark.limit(100)
@pytest.mark.parametrize("far", ["5"], indirect=True)
def test_clients_that_are_cut_off(far: tuple[Network, Gateway]) -> None:
    """A lane is free again after the idle time, and a till, which may be silent, is given up within a minute: no word of its end comes."""
    network, gateway = far
    with connect(far) as client, connect(far) as till:
        assert client.ask(ROW) == f"0 {READ}\n"
        till.send(b"watch till-1\n")
        with network.inside("shop"):
            gateway.waits_for(tills=1)
            network.cut_off("till")
            begin = time.monotonic()
            gateway.waits_for(lanes_free=16)
            lane = time.monotonic() - begin
            while gateway.numbers()["noriladle_tills"] != "0":
                assert time.monotonic() < begin + 75
                time.sleep(0.5)
        print(f"\na lane is free after {lane:.0f} seconds, a till is given up after {time.monotonic() - begin:.0f}")
