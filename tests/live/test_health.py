"""Health that is true: what a gateway says of itself while its hub does not answer, and its numbers for Prometheus. Needs promtool."""
from __future__ import annotations

import os
import re
import shutil
import signal
import socket
import subprocess
import time
import urllib.error
import urllib.request
from pathlib import Path
from typing import Any, Iterator

import pytest

import noriladle
from gateway_and_scanners import NORILADLE, ROW, Client, Gateway
from program_and_rows import PROGRAM, READ
from test_gateway import page

LIMIT = 120
EAN = b"]E09501101530003"


@pytest.fixture
def gateway(tmp_path: Path) -> Iterator[Gateway]:
    with Gateway(tmp_path, "--metrics", "0") as it:
        yield it


def test_a_hub_that_is_stopped_is_not_ready(gateway: Gateway) -> None:
    """Within a second, with the reason, though nobody asks the hub; and ready again when it answers."""
    assert page(gateway, "/readyz") == (200, "ready\n")
    os.kill(gateway.hub(), signal.SIGSTOP)
    begin = time.monotonic()
    assert page(gateway, "/readyz") == (503, "no answer in 1 second\n") and time.monotonic() - begin < 1.5
    assert gateway.numbers()["noriladle_ready"] == "0" and page(gateway, "/healthz") == (200, "ok\n")
    os.kill(gateway.hub(), signal.SIGCONT)
    assert page(gateway, "/readyz") == (200, "ready\n")
    gateway.waits_for(ready=1)


def test_a_hub_whose_answers_are_wrong_is_not_ready(tmp_path: Path, monkeypatch: pytest.MonkeyPatch) -> None:
    hub = tmp_path / "gs1_hub"
    hub.write_text(f"#!/bin/sh\n{shutil.which(PROGRAM)} \"$@\" | sed -u s/09501101530003/09501101530010/\n")
    hub.chmod(0o755)
    monkeypatch.setenv("GS1_HUB", str(hub))
    with Gateway(tmp_path, "--metrics", "0", port=False) as gateway:
        assert page(gateway, "/readyz") == (503, "the hub answers ]E0 (01)09501101530010 to ]E09501101530003\n")


def test_the_oldest_scan_of_each_lane(gateway: Gateway) -> None:
    """As long as a scan waits, its lane and no other has it in its numbers; rows of programs have the lane -."""
    with gateway.unix_client() as scanner, gateway.unix_client() as other, gateway.connect() as rows:
        for client, lane in ((scanner, b"till-1"), (other, b"till-2")):
            client.send(b"scan " + lane + b"\n0\n")
            assert client.line() == "0 next\n"
        assert rows.ask(ROW) == f"0 {READ}\n"
        os.kill(gateway.hub(), signal.SIGSTOP)
        scanner.send(b"0 " + EAN + b"\n")
        rows.send(ROW)
        time.sleep(1)
        scanner.send(b"1 " + EAN + b"\n")
        gateway.waits_for(**{'unanswered{lane="till-1"}': 2})
        values = gateway.numbers()
        assert values['noriladle_unanswered{lane="till-2"}'] == "0"
        assert 0.9 < float(values['noriladle_oldest_seconds{lane="till-1"}']) < 2
        assert values['noriladle_oldest_seconds{lane="till-2"}'] == "0" and 0.9 < float(values['noriladle_oldest_seconds{lane="-"}']) < 2
        os.kill(gateway.hub(), signal.SIGCONT)
        assert scanner.line() == f"0 {READ}\n" and scanner.line() == f"1 {READ}\n" and rows.line() == f"1 {READ}\n"
        assert gateway.numbers()['noriladle_unanswered{lane="till-1"}'] == "0"
        assert gateway.numbers()['noriladle_scanner_connected{lane="till-1"}'] == "1"
    gateway.waits_for(**{'scanner_connected{lane="till-1"}': 0})


def test_the_numbers_of_a_lane(gateway: Gateway) -> None:
    """What came, what had no answer, what never came, and who found the lane taken."""
    with gateway.unix_client() as scanner, gateway.unix_client() as other:
        scanner.send(b"scan till-1\n7\n7 " + EAN + b"\n8\tunplugged\n")
        assert [scanner.line() for _ in range(3)] == ["0 next\n", f"7 {READ}\n", "8 unread: unplugged\n"]
        assert scanner.ask(b"12\n12 " + EAN + b"\n") == f"12 {READ}\n"
        assert other.ask(b"scan till-1\n") == "closed: lane till-1 has a scanner\n"
        values = gateway.numbers()
        assert {name: values[f'noriladle_{name}_total{{lane="till-1"}}'] for name in ("scans", "unread", "lost", "scanners_refused")} == {
            "scans": "3", "unread": "1", "lost": "3", "scanners_refused": "1"}
        assert values["noriladle_answers_total"] == "2" and not [name for name in values if name.startswith("noriladle_refusals")]


def test_the_histogram_and_the_version(gateway: Gateway) -> None:
    """Each answer is in one of the buckets, and the slow one in that of its time."""
    with gateway.unix_client() as client:
        client.send(b"scan till-1\n0\n")
        assert client.line() == "0 next\n"
        for number in range(20):
            assert client.ask(b"%d %s\n" % (number, EAN)) == f"{number} {READ}\n"
        os.kill(gateway.hub(), signal.SIGSTOP)
        client.send(b"20 " + EAN + b"\n")
        time.sleep(0.6)
        os.kill(gateway.hub(), signal.SIGCONT)
        assert client.line() == f"20 {READ}\n"
    values = gateway.numbers()
    assert values["noriladle_answer_seconds_count"] == values["noriladle_answers_total"] == "21"
    assert values['noriladle_answer_seconds_bucket{le="0.5"}'] == "20" and values['noriladle_answer_seconds_bucket{le="1.0"}'] == "21"
    assert 0.6 < float(values["noriladle_answer_seconds_sum"]) < 3
    assert values[f'noriladle_build_info{{version="{noriladle.__version__}"}}'] == "1"


@pytest.mark.skipif(not shutil.which("promtool"), reason="there is no promtool")
def test_names_and_format(gateway: Gateway) -> None:
    """As promtool takes them, by Prometheus' conventions for names and units."""
    with gateway.unix_client() as client:
        client.send(b"scan till-1\n0\n0 " + EAN + b"\n1 ]E09501101530004\n")
        assert [client.line() for _ in range(3)][0] == "0 next\n"
    text = page(gateway, "/metrics")[1]
    ran = subprocess.run(["promtool", "check", "metrics"], input=text, capture_output=True, text=True)
    assert (ran.returncode, ran.stdout + ran.stderr) == (0, "")
    names = {re.match("(noriladle|process)_", line)[1] for line in text.splitlines() if not line.startswith("#")}
    assert names == {"noriladle", "process"}


@pytest.mark.parametrize("host, status", [
    (b"127.0.0.1:%d", 200), (b"localhost", 200), (b"[::1]:4712", 200), (b"LOCALHOST:1", 200), (b"evil.example", 403), (b"127.0.0.1.evil.example", 403),
    (b"localhost:80@evil.example", 403), (b"", 403), (None, 403), (b"127.0.0.1\r\nHost: evil.example", 403),
])
def test_the_host_of_a_request(gateway: Gateway, host: bytes | None, status: int) -> None:
    """A page of another site whose name stands for this machine reads nothing."""
    with Client(("127.0.0.1", gateway.ports["metrics"])) as client:
        its = b"" if host is None else b"Host: " + (host.replace(b"%d", b"%d" % gateway.ports["metrics"])) + b"\r\n"
        client.send(b"GET /metrics HTTP/1.1\r\n" + its + b"\r\n")
        told = client.lines.read()
    assert told.startswith(b"HTTP/1.1 %d " % status) and (b"noriladle_" in told) == (status == 200)


def test_other_methods_and_many_clients(gateway: Gateway) -> None:
    with Client(("127.0.0.1", gateway.ports["metrics"])) as client:
        client.send(b"POST /metrics HTTP/1.1\r\nHost: localhost\r\n\r\n")
        assert client.lines.read().startswith(b"HTTP/1.1 405 ")
    before = len(os.listdir(f"/proc/{gateway.process.pid}/fd"))
    silent = [Client(("127.0.0.1", gateway.ports["metrics"])) for _ in range(200)]
    time.sleep(0.5)
    assert len(os.listdir(f"/proc/{gateway.process.pid}/fd")) - before <= 20
    time.sleep(5.5)
    assert page(gateway, "/healthz") == (200, "ok\n")
    for client in silent:
        client.__exit__()


def test_a_port_that_is_taken_stops_no_gateway(tmp_path: Path, gateway: Gateway) -> None:
    """It says so, and goes on without its numbers."""
    folder = tmp_path / "other"
    folder.mkdir()
    other = Gateway(folder, port=False)
    with other:
        pass
    words: Any = other.process.args
    process = subprocess.Popen([*words, "--metrics", str(gateway.ports["metrics"])], stderr=subprocess.PIPE, text=True)
    try:
        assert f"--metrics {gateway.ports['metrics']}: " in process.stderr.readline()
        with Client(other.unix, socket.AF_UNIX) as client:
            assert client.ask(ROW) == f"0 {READ}\n"
        with urllib.request.urlopen(f"http://127.0.0.1:{gateway.ports['metrics']}/healthz", timeout=5) as told:
            assert told.status == 200
    finally:
        process.terminate()
        process.communicate(timeout=20)


def test_without_prometheus_client(tmp_path: Path, monkeypatch: pytest.MonkeyPatch) -> None:
    """The gateway says what it lacks, and is ready all the same."""
    (tmp_path / "modules").mkdir()
    (tmp_path / "modules/sitecustomize.py").write_text(
        "import importlib.util, sys\nreally = importlib.util.find_spec\nsys.modules['prometheus_client'] = None\n"
        "importlib.util.find_spec = lambda name, *more: None if name == 'prometheus_client' else really(name, *more)\n")
    monkeypatch.setenv("PYTHONPATH", f"{tmp_path}/modules:{os.environ['PYTHONPATH']}")
    process = subprocess.Popen([*NORILADLE, "gateway", "--unix", str(tmp_path / "hub"), "--metrics", "0"], stderr=subprocess.PIPE, text=True)
    try:
        said = [process.stderr.readline(), process.stderr.readline()]
        port = next(line.split()[1] for line in said if line.startswith("metrics "))
        assert any("/metrics needs prometheus_client: apt-get install python3-prometheus-client" in line for line in said)
        with urllib.request.urlopen(f"http://127.0.0.1:{port}/readyz", timeout=5) as told:
            assert told.status == 200
        with pytest.raises(urllib.error.HTTPError, match="501"):
            urllib.request.urlopen(f"http://127.0.0.1:{port}/metrics", timeout=5)
    finally:
        process.terminate()
        process.communicate(timeout=20)
