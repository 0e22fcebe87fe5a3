"""Alerts: for each fault of the shop's services in which somebody has something to do, what Prometheus reads of real services while it lasts
goes through the shipped rules. An alert fires within 30 seconds once the fault has lasted 30. Needs promtool and openssl; a full disk needs root."""
from __future__ import annotations

import contextlib
import json
import os
import re
import shutil
import signal
import subprocess
import threading
import time
import urllib.request
from pathlib import Path
from typing import Any, Callable, Iterator

import pytest

from gateway_and_scanners import ROW, Gateway, Serial
from program_and_rows import ROOT
from test_certificates import pair
from test_journal import fill, hanging, small_disk  # noqa: F401 (small_disk is a fixture)
from test_rights import Authority

LIMIT = 560
RULES = ROOT / "package/monitoring/alerts.yml"
STEP = 15
"""Seconds between two reads, and between two looks of the rules, which is Prometheus' default at most."""
AFTER = 4
"""How many reads follow the first one that the fault may have touched: 60 seconds."""
SAMPLE = re.compile(r"^(noriladle_\w+)(\{.*\})? (\S+)$")
pytestmark = pytest.mark.skipif(not shutil.which("promtool"), reason="there is no promtool")


Fault = Callable[[Gateway, Path, contextlib.ExitStack], Iterator[None]]
"""Begins a shop, and then its fault."""


class Recorded(threading.Thread):
    """A shop with a gateway, what Prometheus reads of it each 15 seconds, and a fault that begins right after the second read."""

    def __init__(self, name: str, folder: Path, begin: Fault, *words: str) -> None:
        super().__init__(daemon=True)
        self.name_of_fault = name
        folder.mkdir(exist_ok=True)
        self.gateway = Gateway(folder, "--metrics", "0", "--idle", "1000", *words)
        self.parts = contextlib.ExitStack()
        self.fault = begin(self.gateway, folder, self.parts)
        next(self.fault)
        self.reads: list[dict[str, str]] = []
        self.wrong: BaseException | None = None

    def run(self) -> None:
        try:
            begin = time.monotonic()
            for number in range(2 + AFTER):
                time.sleep(max(0, begin + STEP * number - time.monotonic()))
                self.reads.append(self.read())
                if number == 1:
                    next(self.fault, None)
        except BaseException as wrong:  # The test raises it again.
            self.wrong = wrong

    def end(self) -> None:
        self.gateway.process.send_signal(signal.SIGCONT)
        self.parts.close()
        self.gateway.process.kill()
        self.gateway.process.communicate()

    def read(self) -> dict[str, str]:
        """The samples that Prometheus has of one read."""
        try:
            with urllib.request.urlopen(f"http://127.0.0.1:{self.gateway.ports['metrics']}/metrics", timeout=10) as told:
                text = told.read().decode()
        except OSError:
            return {'up{job="noriladle"}': "0"}
        found = (SAMPLE.match(line) for line in text.splitlines())
        values = {it[1] + (it[2] or ""): it[3] for it in found if it}
        return {'up{job="noriladle"}': "1", **values}

    def series(self) -> list[dict[str, str]]:
        """The recorded samples as promtool takes them."""
        names = dict.fromkeys(name for read in self.reads for name in read)
        return [{"series": labelled(name, self.name_of_fault), "values": " ".join(read.get(name, "_") for read in self.reads)} for name in names]


def labelled(name: str, instance: str) -> str:
    metric, _, labels = name.partition("{")
    return f'{metric}{{instance="{instance}",{labels or "}"}'


def scanning(gateway: Gateway, stack: contextlib.ExitStack, lane: str = "till-1", seconds: float = 0.2, count: int = 1) -> Serial:
    """A scanner that scans each fifth of a second, this many texts at once."""
    scanner = stack.enter_context(Serial("--gateway", gateway.unix, "--lane", lane))
    ends = threading.Event()

    def scan() -> None:
        while not ends.wait(seconds):
            scanner.send(b"]E09501101530003\r" * count, size=1_000)
            scanner.line(0.01)

    thread = threading.Thread(target=scan, daemon=True)
    thread.start()
    stack.callback(thread.join, 5)
    stack.callback(ends.set)
    return scanner


# Each prepares a shop, waits, and then begins a fault.

def nothing(gateway: Gateway, folder: Path, stack: contextlib.ExitStack) -> Iterator[None]:
    scanning(gateway, stack)
    stack.enter_context(gateway.watch("till-1"))
    yield


def dead(gateway: Gateway, folder: Path, stack: contextlib.ExitStack) -> Iterator[None]:
    yield
    gateway.process.kill()


def stopped(gateway: Gateway, folder: Path, stack: contextlib.ExitStack) -> Iterator[None]:
    yield
    gateway.process.send_signal(signal.SIGSTOP)


def hub_stopped(gateway: Gateway, folder: Path, stack: contextlib.ExitStack) -> Iterator[None]:
    yield
    os.kill(gateway.hub(), signal.SIGSTOP)
    stack.callback(os.kill, gateway.hub(), signal.SIGCONT)


def hub_stopped_while_scanning(gateway: Gateway, folder: Path, stack: contextlib.ExitStack) -> Iterator[None]:
    scanning(gateway, stack)
    yield
    os.kill(gateway.hub(), signal.SIGSTOP)
    stack.callback(os.kill, gateway.hub(), signal.SIGCONT)


def rows_wait(gateway: Gateway, folder: Path, stack: contextlib.ExitStack) -> Iterator[None]:
    client = stack.enter_context(gateway.unix_client())
    client.ask(ROW)
    yield
    os.kill(gateway.hub(), signal.SIGSTOP)
    stack.callback(os.kill, gateway.hub(), signal.SIGCONT)
    client.send(ROW)


def scanner_unplugged(gateway: Gateway, folder: Path, stack: contextlib.ExitStack) -> Iterator[None]:
    scanner = scanning(gateway, stack)
    yield
    scanner.process.kill()


def second_scanner(gateway: Gateway, folder: Path, stack: contextlib.ExitStack) -> Iterator[None]:
    scanning(gateway, stack)
    yield
    scanning(gateway, stack)


def scanner_floods(gateway: Gateway, folder: Path, stack: contextlib.ExitStack) -> Iterator[None]:
    yield
    scanning(gateway, stack, count=20)


def expired(gateway: Gateway, folder: Path, stack: contextlib.ExitStack) -> Iterator[None]:
    yield


def mismatched(gateway: Gateway, folder: Path, stack: contextlib.ExitStack) -> Iterator[None]:
    yield
    key, _ = pair(Authority(folder, "other"), folder / "second", "second")
    shutil.copy(key, folder / "key")
    gateway.process.send_signal(signal.SIGHUP)


def wrong_options(gateway: Gateway, folder: Path, stack: contextlib.ExitStack) -> Iterator[None]:
    yield
    (folder / "gateway.toml").write_text("lanez = 3\n")
    gateway.process.send_signal(signal.SIGHUP)


def strangers(gateway: Gateway, folder: Path, stack: contextlib.ExitStack) -> Iterator[None]:
    yield
    for _ in range(100):
        stack.enter_context(gateway.connect())


def all_lanes(gateway: Gateway, folder: Path, stack: contextlib.ExitStack) -> Iterator[None]:
    yield
    for _ in range(16):
        stack.enter_context(gateway.unix_client()).ask(ROW)


def full_disk(gateway: Gateway, folder: Path, stack: contextlib.ExitStack) -> Iterator[None]:
    scanning(gateway, stack)
    yield
    fill(folder.parent / "disk")


def disk_hangs(gateway: Gateway, folder: Path, stack: contextlib.ExitStack) -> Iterator[None]:
    scanning(gateway, stack)
    yield
    (folder / "hang").touch()
    stack.callback((folder / "hang").unlink)


def no_log(gateway: Gateway, folder: Path, stack: contextlib.ExitStack) -> Iterator[None]:
    """The log is a pipe that nobody reads."""
    yield

    ends = threading.Event()

    def fill_log() -> None:
        while not ends.is_set():
            clients = [gateway.unix_client() for _ in range(50)]
            for client in clients:
                client.__exit__()

    filling = threading.Thread(target=fill_log, daemon=True)
    filling.start()
    stack.callback(filling.join, 5)
    stack.callback(ends.set)


FAULTS = {
    "the gateway is dead": (dead, "NoriladleDown"), "the gateway is stopped": (stopped, "NoriladleDown"), "the hub is stopped": (hub_stopped, "NoriladleNotReady"),
    "scans have no answer": (hub_stopped_while_scanning, "NoriladleUnread"), "rows wait": (rows_wait, "NoriladleSlow"),
    "the scanner is unplugged": (scanner_unplugged, "NoriladleScannerGone"), "two scanners have a lane": (second_scanner, "NoriladleScannersShareALane"),
    "a scanner floods": (scanner_floods, "NoriladleScannerFloods"),
    "the certificate has expired": (expired, "NoriladleCertificateExpired"), "the certificate ends in ten days": (expired, "NoriladleCertificateExpires"),
    "the certificate and the key are no pair": (mismatched, "NoriladleReloadFailed"), "the option file is wrong": (wrong_options, "NoriladleReloadFailed"),
    "strangers take all places": (strangers, "NoriladleNoPlace"), "all lanes are taken": (all_lanes, "NoriladleLanesAreTaken"),
    "the journal's disk is full": (full_disk, "NoriladleJournalFails"), "the journal's disk hangs": (disk_hangs, "NoriladleNotReady"),
    "nobody takes the log": (no_log, "NoriladleLogDropsLines"),
}


def words_of(name: str, folder: Path, disk: Path) -> list[str]:
    """The gateway's options for a fault."""
    words = ["--log", "all"] if name == "nobody takes the log" else []
    if "certificate" in name:
        days = {"the certificate has expired": "-1", "the certificate ends in ten days": "10"}.get(name, "30")
        made = folder.parent / f"{folder.name}-pair"
        made.mkdir()
        key, file = pair(Authority(made, "shop"), made / "first", "first", days)
        folder.mkdir()
        shutil.copy(key, folder / "key"), shutil.copy(file, folder / "pem")
        (folder / "gateway.toml").write_text(f'key = "{folder}/key"\ncert = "{folder}/pem"\n')
        words += ["--config", str(folder / "gateway.toml")]
    if "option" in name:
        folder.mkdir()
        (folder / "gateway.toml").write_text("idle = 1000\n")
        words += ["--config", str(folder / "gateway.toml")]
    return words + (["--journal", str(disk / "journal")] if "journal" in name else [])


def fires(recorded: Recorded, alert: str, folder: Path) -> list[int]:
    """How many seconds after the read before the fault an alert fires, or None."""
    times = [STEP * number for number in range(2, 2 + AFTER)]
    tests = [{"expr": f'count(ALERTS{{alertname=~"{alert}",alertstate="firing"}}) > bool 0', "eval_time": f"{at}s",
              "exp_samples": [{"labels": "{}", "value": 1}]} for at in times]
    missed = failed(recorded, tests, folder)
    return [at - STEP for at in times if at not in missed]


def failed(recorded: Recorded, tests: list[dict[str, Any]], folder: Path) -> set[int]:
    """The times whose test fails, by promtool."""
    file = folder / "rules_test.json"
    now = int(time.time()) // 1000 * 1000
    rules = folder / "alerts.yml"
    # promtool's clock begins in 1970; that of a certificate does not.
    rules.write_text(RULES.read_text().replace("time()", f"({now} + time())"))
    file.write_text(json.dumps({"rule_files": [str(rules)], "evaluation_interval": f"{STEP}s", "tests": [
        {"interval": f"{STEP}s", "input_series": recorded.series(), "promql_expr_test": tests}]}))
    ran = subprocess.run(["promtool", "test", "rules", str(file)], capture_output=True, text=True)
    said = ran.stdout + ran.stderr
    assert ran.returncode == 0 or "FAILED" in said, said[:2000]
    return {sum(int(number) * (60 if unit == "m" else 1) for number, unit in re.findall(r"(\d+)([ms])", at)) for at in re.findall(r"time: ([0-9ms]+)", said)}


@pytest.mark.limit(540)
def test_each_fault_has_its_alert(tmp_path: Path, monkeypatch: pytest.MonkeyPatch, small_disk: Path) -> None:  # noqa: F811
    """All faults at the same time, each in a shop of its own; and none for a shop without a fault."""
    shops = {}
    for name, (fault, _) in {"nothing": (nothing, ""), **FAULTS}.items():
        folder = tmp_path / re.sub(r"\W", "-", name)
        words = words_of(name, folder, small_disk if "full" in name else folder)
        with monkeypatch.context() as its:
            if fault is disk_hangs:
                folder.mkdir()
                hanging(folder, its)
            shops[name] = Recorded(name, folder, fault, *words)
    for shop in shops.values():
        shop.start()
    for shop in shops.values():
        shop.join(400)
    for shop in shops.values():
        shop.end()
        assert not shop.wrong and len(shop.reads) == 2 + AFTER, (shop.name_of_fault, shop.wrong)
    assert fires(shops["nothing"], ".+", tmp_path) == []
    late = []
    for name, (_, alert) in FAULTS.items():
        seconds = fires(shops[name], alert, tmp_path)
        print(f"\n{name}: {alert} after {seconds[0] if seconds else 'never'} seconds", end="")
        if not seconds or seconds[0] > 60:
            late.append(name)
    assert not late, late

