"""The alerts for lanes over Redis, by promtool over the numbers of real workers while something fails. Needs prometheus."""
from __future__ import annotations

import asyncio
import re
import shutil
import subprocess
import time
from concurrent.futures import ThreadPoolExecutor
from pathlib import Path
from typing import Any, Awaitable, Callable, Iterator

import pytest

from workers_and_tills import Shop, Till, Workers, keys
from redis_cluster import Cluster, free_ports
from test_tills import page, write
from program_and_rows import EAN13, READ, ROOT

LIMIT = 240
EVERY, BEFORE, AFTER = 2, 16, 36
"""Seconds between two looks, until the fault, and from then on. Every fault has its alert within 30."""
RULES = ROOT / "package" / "monitoring" / "alerts.yml"
Fault = Callable[[Cluster, Workers], Awaitable[None]]
"""What goes wrong with a node and workers."""

pytestmark = pytest.mark.skipif(not shutil.which("promtool"), reason="there is no promtool: apt-get install prometheus")


def names_of(rules: Path) -> list[str]:
    """The alerts of the group of lanes."""
    return re.findall(r"- alert: (\w+)", rules.read_text().partition("name: noriladle-lanes")[2])


class Series:
    """The numbers of workers, as Prometheus reads them."""

    def __init__(self, ports: list[int]) -> None:
        self.ports, self.fault = ports, 0
        self.looks: list[dict[str, str]] = []

    async def record(self, seconds: int) -> None:
        end = time.monotonic() + seconds
        while time.monotonic() < end:
            begin = time.monotonic()
            told = await asyncio.gather(*(asyncio.to_thread(self.look, port) for port in self.ports))
            self.looks.append({name: value for of_one in told for name, value in of_one.items()})
            await asyncio.sleep(max(0, begin + EVERY - time.monotonic()))

    def look(self, port: int) -> dict[str, str]:
        label = f'instance="127.0.0.1:{port}",job="noriladle"'
        try:
            lines = [line for line in page(port, "/metrics").splitlines() if line.startswith("noriladle_")]
        except OSError:
            return {f"up{{{label}}}": "0"}
        told = {f"up{{{label}}}": "1"}
        for line in lines:
            name, value = line.rsplit(" ", 1)
            told[name.replace("{", f"{{{label},") if "{" in name else f"{name}{{{label}}}"] = value
        return told

    def tests(self) -> Iterator[str]:
        """The series for promtool; a number that is gone is stale at once."""
        for name in sorted({name for look in self.looks for name in look}):
            values, before = [], None
            for look in self.looks:
                values.append(look.get(name, "_" if before is None else "stale"))
                before = look.get(name)
            yield f"      - series: '{name}'\n        values: '{' '.join(values)}'\n"


def fired(folder: Path, name: str, series: Series) -> list[set[str]]:
    """The alerts that fire at any look before the fault, and those within 30 seconds after it."""
    spans = {"before": (0, series.fault - EVERY), "after": (series.fault, series.fault + 30)}
    text = (f"rule_files: [{RULES}]\nevaluation_interval: {EVERY}s\ntests:\n  - interval: {EVERY}s\n    input_series:\n{''.join(series.tests())}"
            "    promql_expr_test:\n")
    for when, (begin, end) in spans.items():
        for alert in names_of(RULES):
            text += (f"      - expr: count_over_time(ALERTS{{alertname=\"{alert}\",alertstate=\"firing\",{when}=\"\"}}[{end - begin}s])\n"
                     f"        eval_time: {end}s\n        exp_samples: []\n")
    (folder / f"{name}.yml").write_text(text)
    ran = subprocess.run(["promtool", "test", "rules", folder / f"{name}.yml"], capture_output=True, text=True)
    told = ran.stdout + ran.stderr
    assert (ran.returncode == 0) == ("expr: " not in told), told
    found = re.findall(r"expr: .*?alertname=\W*(\w+).*?,(before|after)=", told)
    return [{alert for alert, its in found if its == when} for when in spans]


async def situation(fault: Fault) -> Series:
    """What Prometheus sees of two workers before and after a fault."""
    ports = free_ports(2)
    with Cluster(nodes=1) as node, Workers(node.address, 0) as workers:
        for name, port in zip(("one", "two"), ports):
            workers.more = ["--year", "2026", "--metrics", str(port)]
            workers.start(name)
        shop, series = Shop(node.address), Series(ports)
        till = Till(shop, "3")
        assert await till.read(EAN13) == READ
        await series.record(BEFORE)
        series.fault = EVERY * len(series.looks)
        await fault(node, workers)
        await series.record(AFTER)
        node.processes[node.ports[0]].send_signal(18)
        await shop.close()
    return series


async def nothing(node: Cluster, workers: Workers) -> None:
    pass


async def one_worker_stops(node: Cluster, workers: Workers) -> None:
    workers.running["one"].terminate()


async def node_hangs(node: Cluster, workers: Workers) -> None:
    node.processes[node.ports[0]].send_signal(19)


async def node_dies(node: Cluster, workers: Workers) -> None:
    node.kill(node.ports[0])
    node.processes[node.ports[0]] = subprocess.Popen(["sleep", "100"])


async def workers_die(node: Cluster, workers: Workers) -> None:
    for process in workers.running.values():
        process.kill()


async def lane_has_a_group_at_its_end(node: Cluster, workers: Workers) -> None:
    shop, stream = Shop(node.address), keys.rows("4")
    await shop.ask_all(stream, [["MULTI"], ["XADD", stream, "*", "t", "x"], ["XGROUP", "CREATE", stream, "workers", "$"], ["EXEC"]])
    await shop.close()


async def entry_is_too_long(node: Cluster, workers: Workers) -> None:
    await asyncio.to_thread(write, node.ports[0], "XADD", keys.rows("4"), "*", *[word for n in range(9) for word in (f"f{n}", "x" * 1_000_000)])


async def all_is_deleted(node: Cluster, workers: Workers) -> None:
    shop, end = Shop(node.address), time.monotonic() + 1.5
    while time.monotonic() < end:
        await shop.ask("", "FLUSHALL")
        await asyncio.sleep(0.01)
    await shop.close()


FAULTS = {nothing: None, one_worker_stops: None, node_hangs: "NoriladleNoAnswerThroughNode", node_dies: "NoriladleNoAnswerThroughNode",
          workers_die: "NoriladleNoWorker", lane_has_a_group_at_its_end: "NoriladleLaneWaits", entry_is_too_long: "NoriladleRowsDropped",
          all_is_deleted: "NoriladleRowsLost"}


@pytest.mark.limit(200)
def test_each_fault_has_its_alert_and_no_other(tmp_path: Path) -> None:
    """Within 30 seconds, and none before."""
    async def all_at_once() -> list[Any]:
        return await asyncio.gather(*map(situation, FAULTS))

    seen = asyncio.run(all_at_once())
    names = [fault.__name__ for fault in FAULTS]
    with ThreadPoolExecutor(4) as pool:
        told = dict(zip(names, pool.map(lambda name, series: fired(tmp_path, name, series), names, seen)))
    print(told)
    assert told == {fault.__name__: [set(), {wanted} - {None}] for fault, wanted in FAULTS.items()}


def test_the_rules_are_right() -> None:
    ran = subprocess.run(["promtool", "check", "rules", RULES], capture_output=True, text=True)
    assert ran.returncode == 0, ran.stdout + ran.stderr
