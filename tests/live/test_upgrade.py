"""An earlier version beside this one, as they are while a shop is upgraded at work: workers and tills over Redis, gateways and scanners. Needs
the history of the repository, from which the earlier one is taken; without it these are skipped."""
from __future__ import annotations

import gzip
import os
import platform
import signal
import subprocess
import threading
import time
from pathlib import Path
from typing import Any

import pytest

from workers_and_tills import LANES, NORILADLE, Workers, rows_of
from redis_cluster import Cluster, ask
from gateway_and_scanners import Gateway, Serial, Till
from program_and_rows import ROOT

LIMIT = 240
OLD = "9d2bd37"
REPOSITORY = os.environ.get("REPOSITORY", str(ROOT))


@pytest.fixture(scope="module")
def old(tmp_path_factory: pytest.TempPathFactory) -> list[str]:
    """The command of the earlier version, with its own library and program."""
    folder, parts = tmp_path_factory.mktemp("old"), Path("release", platform.machine())
    packed = subprocess.run(["git", "-C", REPOSITORY, "archive", OLD, "python/noriladle", "examples/till", parts], capture_output=True)
    if packed.returncode:
        pytest.skip("there is no history of the repository")
    subprocess.run(["tar", "-xf", "-", "-C", folder], input=packed.stdout, check=True)
    library, program = folder / "python/noriladle/libgs1.so", folder / "gs1_hub"
    for file in (library, program):
        file.write_bytes(gzip.decompress((folder / parts / f"{file.name}.gz").read_bytes()))
    program.chmod(0o755)
    return ["env", f"PYTHONPATH={folder / 'python'}", f"GS1_HUB={program}", *NORILADLE]


@pytest.fixture(scope="module")
def old_till(old: list[str]) -> Path:
    """The till of the earlier version, which knows form 1 alone."""
    return Path(old[1].partition("=")[2]).parent / "examples/till/till.py"


class Feed(threading.Thread):
    """`noriladle till`, of either version, that gets rows at an even pace; `got` is what it has printed in the end."""

    def __init__(self, command: list[str], address: str, lane: str, texts: list[str]) -> None:
        super().__init__()
        self.process = subprocess.Popen([*command, "till", "--redis", address, lane], stdin=subprocess.PIPE, stdout=subprocess.PIPE, text=True)
        self.texts = texts
        self.got: list[str] = []
        self.reading = threading.Thread(target=lambda: self.got.extend(self.process.stdout))
        self.reading.start()
        self.start()

    def run(self) -> None:
        with self.process.stdin as to:
            for place in range(0, len(self.texts), 10):
                to.write("".join(f"{text}\n" for text in self.texts[place:place + 10]))
                to.flush()
                time.sleep(0.15)

    def answers(self) -> list[tuple[int, str]]:
        self.join()
        self.reading.join()
        assert self.process.wait() == 0
        self.process.stdout.close()
        return [(int(number), said) for number, said in (line.rstrip("\n").split(" ", 1) for line in self.got)]


@pytest.mark.limit(150)
def test_workers_and_tills_are_upgraded(old: list[str]) -> None:
    """Workers of both versions beside each other on one Redis, and tills one after the other, as docs/REDIS.md says: each till gets its
    answers, and in the end the keys of the earlier version can go."""
    asked, wanted = rows_of(8_000)
    with Cluster() as cluster, Workers(cluster.address, 2) as workers:
        earlier = subprocess.Popen([*old, "worker", "--redis", cluster.address, "--name", "old", "--year", "2026", *LANES], stderr=subprocess.DEVNULL)
        try:
            half = {lane: asked[lane][:len(asked[lane]) // 2] for lane in LANES}
            first = {lane: Feed(old, cluster.address, lane, half[lane]) for lane in LANES}
            got = {}
            for lane in LANES:
                got[lane] = first[lane].answers()
                assert got[lane] == wanted[lane][:len(half[lane])]
                first[lane] = Feed(NORILADLE, cluster.address, lane, asked[lane][len(half[lane]):])
            more = {lane: [answer for _, answer in first[lane].answers()] for lane in LANES}
            assert more == {lane: [answer for _, answer in wanted[lane][len(half[lane]):]] for lane in LANES}
        finally:
            earlier.send_signal(signal.SIGTERM)
            assert earlier.wait(20) == 0
        said = [workers.kill(name) for name in workers.names]
        assert all("is a lane of version 1.1, which no worker of this version answers" in it for it in said)
        for port in cluster.ports:
            for key in ask(port, "KEYS", "shop:*").split():
                ask(port, "DEL", key)
        workers.start("worker0")
        feed = Feed(NORILADLE, cluster.address, "0", asked["0"][:10])
        assert [answer for _, answer in feed.answers()] == [answer for _, answer in wanted["0"][:10]]
        assert "version 1.1" not in workers.kill("worker0")


@pytest.mark.limit(90)
def test_a_gateway_is_upgraded(old: list[str], old_till: Path, tmp_path: Path) -> None:
    """And back again, with a scanner of each version and tills of the earlier one: they get each scan once, or as lost, in order."""
    versions = {"old": old, "new": NORILADLE}
    gateway = Gateway(tmp_path, "--metrics", "0", command=old)
    scanners = {name: Serial("--gateway", gateway.unix, "--lane", name, command=[*command, "scanner"]) for name, command in versions.items()}
    tills = {name: Till(gateway.unix, name, script=old_till) for name in versions}
    try:
        for version in ("new", "old", "new"):
            gateway.waits_for(scanners=2, tills=2)
            for _ in range(20):
                for scanner in scanners.values():
                    scanner.send(b"]E09501101530003\r\n")
                time.sleep(0.03)
            time.sleep(0.5)
            gateway.__exit__()
            gateway = Gateway(tmp_path, "--metrics", "0", command=versions[version])
        gateway.waits_for(scanners=2, tills=2)
        for scanner in scanners.values():
            scanner.send(b"]E09501101530003\r\n")
        until = time.monotonic() + 20
        for name, till in tills.items():
            while not till.lines or not till.lines[-1].startswith("sold: 60 "):
                assert time.monotonic() < until, till.lines[-3:]
                time.sleep(0.1)
            told = [line for line in till.lines if line.startswith("sold: ")]
            assert told == [f"sold: {number} ]E0 (01)09501101530003\n" for number in range(61)]
    finally:
        it: Any
        for it in [*scanners.values(), *tills.values()]:
            it.__exit__()
        gateway.__exit__()
