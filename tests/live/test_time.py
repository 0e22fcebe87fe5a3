"""Time in each line: no scan is sold that is old, whatever slept, and who is connected knows within ten seconds that the gateway has gone.
Needs chromium for the page, and root and iproute2 for a gateway far away; else it skips these."""
from __future__ import annotations

import os
import re
import signal
import socket
import sys
import threading
import time
from pathlib import Path
from typing import Iterator

import pytest

from gateway_and_scanners import Gateway, Serial, Till
from network import Network
from noriladle.commands import scanner as scanner_module
from program_and_rows import READ, ROOT
from test_page import MESSAGE, READY, SHOWN, page  # noqa: F401 (page is a fixture)

sys.path.insert(0, str(ROOT / "tests/page"))
from browser import Browser  # noqa: E402

LIMIT = 450
EAN = b"]E09501101530003"
NEXT = r"(\d+|-) (\d+\.\d{3}) next ([0-9a-f]{8}|-)\n"


@pytest.fixture
def gateway(tmp_path: Path) -> Iterator[Gateway]:
    with Gateway(tmp_path) as it:
        yield it


def plug(gateway: Gateway, lane: str = "till-1") -> Serial:
    return Serial("--gateway", gateway.unix, "--lane", lane)


def until(lines: list[str], wanted: str, seconds: float = 20) -> str:
    """Waits until a line of a till matches, and returns it."""
    end = time.monotonic() + seconds
    while not any(re.search(wanted, line) for line in list(lines)):
        assert time.monotonic() < end, (wanted, lines)
        time.sleep(0.02)
    return next(line for line in lines if re.search(wanted, line))


def test_lines_of_form_2(gateway: Gateway) -> None:
    """The number, the time of the scan, and what it says; at once, and each five seconds, who is next, the time and the series."""
    with gateway.unix_client() as till, gateway.unix_client() as scanner:
        begin = time.monotonic()
        till.send(b"watch till-1 2\n")
        assert re.fullmatch(NEXT, till.line()).group(1, 3) == ("-", "-") and time.monotonic() - begin < 2
        scanner.send(b"scan till-1 2 0123abcd\n")
        hello = re.fullmatch(NEXT, scanner.line())
        assert hello.group(1, 3) == ("0", "0123abcd") and abs(float(hello[2]) - time.time()) < 1
        at = time.time() - 0.5
        scanner.send(b"7 %.3f\n7 %.3f %s\n8 %.3f\tunplugged\n" % (at, at, EAN, at))
        assert re.fullmatch(NEXT, till.line()).group(1, 3) == ("7", "0123abcd")
        for client in (till, scanner):
            assert [client.line(), client.line()] == [f"7 {at:.3f} {READ}\n", f"8 {at:.3f} unread: unplugged\n"]
        begin = time.monotonic()
        for client in (till, scanner, till):
            beat = re.fullmatch(NEXT, client.line())
            assert beat.group(1, 3) == ("9", "0123abcd") and abs(float(beat[2]) - time.time()) < 1
        assert 4.5 < time.monotonic() - begin < 11


def test_form_1_stays(gateway: Gateway) -> None:
    """A scanner and a till in form 1 beside a till in form 2."""
    with gateway.watch("till-1") as old, gateway.unix_client() as till, gateway.unix_client() as scanner:
        till.send(b"watch till-1 2\n")
        assert till.line().startswith("- ")
        assert scanner.ask(b"scan till-1\n") == "0 next\n"
        scanner.send(b"0\n0 " + EAN + b"\n")
        assert scanner.line() == f"0 {READ}\n" and [old.line(), old.line()] == ["0 next\n", f"0 {READ}\n"]
        assert re.fullmatch(NEXT, till.line())
        at = re.fullmatch(rf"0 (\d+\.\d{{3}}) {re.escape(READ)}\n", till.line())[1]
        assert abs(float(at) - time.time()) < 1
        old.socket.settimeout(6)
        with pytest.raises(OSError):  # No line comes but those of scans.
            old.socket.recv(1)


@pytest.mark.parametrize("age, wanted", [
    (0, READ), (1.5, READ), (-1.5, READ), (2.5, r"unread: it was scanned 2\.\d seconds before it came"), (8, r"unread: it was scanned 8\.\d seconds before it came"),
    (-9, r"unread: its scanner's clock is [89]\.\d seconds ahead"), (1e9, r"unread: it was scanned 1000000000\.\d seconds before it came"),
])
def test_a_scan_that_comes_late(gateway: Gateway, age: float, wanted: str) -> None:
    with gateway.unix_client() as scanner:
        assert re.fullmatch(NEXT, scanner.ask(b"scan till-1 2\n"))
        scanner.send(b"0 %.3f\n0 %.3f %s\n" % (time.time(), time.time() - age, EAN))
        said = scanner.line().split(" ", 2)[2].rstrip("\n")
        assert re.fullmatch(wanted if wanted != READ else re.escape(READ), said), said


@pytest.mark.parametrize("line", [b"0 " + EAN, b"0", b"0 x.123 " + EAN, b"0 1764493234 " + EAN, b"0 1764493234.1 " + EAN, b"0 -1.000 " + EAN,
                                  b"0 123456789012.000 " + EAN, b"0  1764493234.123"])
def test_what_is_no_line_of_form_2(gateway: Gateway, line: bytes) -> None:
    with gateway.unix_client() as scanner:
        assert re.fullmatch(NEXT, scanner.ask(b"scan till-1 2\n"))
        assert scanner.ask(line + b"\n") == "closed: a scan is a number, its time, a blank and a text\n"


def test_a_scanner_s_program_that_slept(gateway: Gateway) -> None:
    """What it read, and what the device held, is unread; what comes then is sold."""
    with Till(gateway.unix, "till-1") as till, plug(gateway) as scanner:
        scanner.send(EAN + b"\r", size=100)
        until(till.lines, "sold: 0 ")
        os.kill(scanner.process.pid, signal.SIGSTOP)
        scanner.send(EAN + b"\r]E09501", size=100)
        time.sleep(8)
        scanner.send(b"101530003\r", size=100)
        os.kill(scanner.process.pid, signal.SIGCONT)
        until(till.lines, r"again, please: 1 unread: the program of the scanner slept while the text came")
        until(till.lines, r"again, please: 2 unread: the program of the scanner slept while the text came")
        scanner.send(EAN + b"\r", size=100)
        until(till.lines, "sold: 3 ")
        os.kill(scanner.process.pid, signal.SIGSTOP)
        scanner.send(b"]E09501", size=100)
        time.sleep(3)
        os.kill(scanner.process.pid, signal.SIGCONT)
        time.sleep(0.5)
        scanner.send(b"101530003\r", size=100)  # Its first half is old.
        until(till.lines, r"again, please: 4 unread: the program of the scanner slept while the text came")
        assert len(till.lines) == 5, till.lines


def test_half_a_text_from_before_a_sleep(monkeypatch: pytest.MonkeyPatch) -> None:
    """It may have no end: then the next text is as new as it is."""
    clock = [100.0]
    monkeypatch.setattr(scanner_module, "now", lambda: clock[0])
    texts = scanner_module.Texts()
    assert texts.take(b"]E09501", is_old=True) == [] and not texts.is_endless()
    clock[0] += 3
    assert texts.is_endless() and texts.take(EAN + b"\r") == [(EAN, False)]
    assert texts.take(EAN + b"\r]E0", is_old=True) == [(EAN, True)] and texts.take(EAN[3:] + b"\r" + EAN + b"\r") == [(EAN, True), (EAN, False)]


def test_a_scanner_without_a_gateway_that_slept(tmp_path: Path) -> None:
    """What it kept for a gateway when it fell asleep is lost, though the gateway is there when it wakes."""
    with Serial("--gateway", str(tmp_path / "hub"), "--lane", "till-1") as scanner:
        scanner.send(EAN + b"\r", size=100)
        time.sleep(0.3)
        os.kill(scanner.process.pid, signal.SIGSTOP)
        with Gateway(tmp_path, port=False) as gateway, Till(gateway.unix, "till-1") as till:
            time.sleep(3)
            os.kill(scanner.process.pid, signal.SIGCONT)
            # It sends nothing of it: a gateway of version 1.1 would not know how old it is.
            assert scanner.line() == f"0 unread: {gateway.unix}: No such file or directory\n"
            time.sleep(0.5)  # A text within the same moment is unread too: nobody knows when it came.
            scanner.send(EAN + b"\r", size=100)
            until(till.lines, "sold: 1 ")
            assert not [line for line in till.lines if line.startswith("sold: 0 ")]


def test_a_gateway_of_the_version_before(tmp_path: Path) -> None:
    """A scanner's program speaks form 1 with it, and form 2 again with the next one."""
    with socket.socket(socket.AF_UNIX) as its:
        its.bind(str(tmp_path / "hub"))
        its.listen()
        its.settimeout(10)
        with Serial("--gateway", str(tmp_path / "hub"), "--lane", "till-1"):
            for wanted, said in ((rb"scan till-1 2 [0-9a-f]{8}\n", b"closed: a lane's name has up to 64 letters, digits and . _ : -\n"),
                                 (rb"scan till-1\n", b"0 next\n"), (rb"scan till-1 2 [0-9a-f]{8}\n", b"")):
                client, _ = its.accept()
                with client:
                    assert re.fullmatch(wanted, client.recv(100))
                    client.sendall(said)
                    time.sleep(0.2)


def test_a_till_that_slept(gateway: Gateway) -> None:
    """What was scanned meanwhile is not sold when it wakes, and it says how old it is."""
    with Till(gateway.unix, "till-1") as till, plug(gateway) as scanner:
        scanner.send(EAN + b"\r", size=100)
        until(till.lines, "sold: 0 ")
        os.kill(till.process.pid, signal.SIGSTOP)
        for number in (1, 2):
            scanner.send(EAN + b"\r", size=100)
            assert scanner.line() and number
        time.sleep(15)
        os.kill(till.process.pid, signal.SIGCONT)
        for number in (1, 2):
            until(till.lines, rf"again, please: {number} is 1[5-7] seconds old: {re.escape(READ)}")
        scanner.send(EAN + b"\r", size=100)
        until(till.lines, "sold: 3 ")
        assert sum(line.startswith("sold: ") for line in till.lines) == 2, till.lines


@pytest.mark.parametrize("slept", [8])
def test_a_gateway_that_slept(gateway: Gateway, slept: float) -> None:
    """What waited in its socket is too old when it wakes."""
    with Till(gateway.unix, "till-1") as till, plug(gateway) as scanner:
        scanner.send(EAN + b"\r", size=100)
        until(till.lines, "sold: 0 ")
        os.kill(gateway.process.pid, signal.SIGSTOP)
        scanner.send(EAN + b"\r", size=100)
        time.sleep(slept)
        os.kill(gateway.process.pid, signal.SIGCONT)
        end = time.monotonic() + 20
        while not any(re.match("sold: [^0]", line) for line in list(till.lines)):  # The till may have to connect again.
            assert time.monotonic() < end
            scanner.send(EAN + b"\r", size=100)
            time.sleep(0.5)
        assert not [line for line in till.lines if line.startswith("sold: 1 ")]


def test_the_series_shows_what_was_lost(tmp_path: Path) -> None:
    """Gateway and scanner restart together, and the numbers happen to agree: the till says that scans may be lost. If the gateway alone
    restarts, the series goes on, and nothing is said."""
    gateway = Gateway(tmp_path, port=False)
    with Till(gateway.unix, "till-1") as till:
        with plug(gateway) as scanner:
            for number in range(2):
                scanner.send(EAN + b"\r", size=100)
                until(till.lines, f"sold: {number} ")
            gateway.__exit__()
            with Gateway(tmp_path, port=False) as gateway:
                scanner.send(EAN + b"\r", size=100)
                until(till.lines, "sold: 2 ")
        assert not [line for line in till.lines if "lost" in line]
        with Gateway(tmp_path, port=False) as gateway, gateway.unix_client() as scanner:
            scanner.send(b"scan till-1 2\n")
            assert scanner.line().startswith("0 ")
            scanner.send(b"3 %.3f\n" % time.time())
            until(till.lines, "again, please: some scans were lost")
            scanner.send(b"3 %.3f %s\n" % (time.time(), EAN))
            until(till.lines, "sold: 3 ")


@pytest.mark.skipif(os.geteuid() != 0, reason="a network needs root")
def test_a_gateway_that_loses_power(tmp_path: Path) -> None:
    """No word of its end comes; a till over TCP says so within ten seconds, and goes on with the next gateway."""
    with Network("shop", "till") as network:
        with network.inside("shop"):
            gateway = Gateway(tmp_path, "--host", network.addresses["shop"], "--anyone")
        with network.inside("till"):
            till = Till(f"{network.addresses['shop']}:{gateway.ports['port']}", "till-1")
        with till:
            with plug(gateway) as scanner:
                scanner.send(EAN + b"\r", size=100)
                until(till.lines, "sold: 0 ")
            network.cut_off("shop")
            begin = time.monotonic()
            gateway.process.kill()
            gateway.process.wait()
            until(till.lines, "again, please: the gateway has said nothing for 8 seconds")
            print(f"\nthe till knows after {time.monotonic() - begin:.1f} seconds")
            assert time.monotonic() - begin < 10
            network.cut_off()
            with network.inside("shop"):
                gateway = Gateway(tmp_path, "--host", network.addresses["shop"], "--anyone", "--port", str(gateway.ports["port"]), port=False)
                gateway.process.stderr.readline()
            with gateway, plug(gateway) as scanner:
                seen = len(till.lines)
                end = time.monotonic() + 20
                while not any(line.startswith("sold: ") for line in till.lines[seen:]):
                    assert time.monotonic() < end
                    scanner.send(EAN + b"\r", size=100)
                    time.sleep(0.5)


def test_a_page_that_slept(tmp_path: Path, page: str) -> None:  # noqa: F811
    """It sells nothing that is old, says how old it is, and notices a gateway that says nothing."""
    with Gateway(tmp_path, "--web", "0", port=False) as gateway:
        browser = Browser(f"{page}?port={gateway.ports['web']}&lane=till-1", width=760, height=560, started=READY)
        try:
            with plug(gateway) as scanner:
                scanner.send(EAN + b"\r", size=100)
                browser.until(f"{MESSAGE} === 'Oat biscuits 1.95'", 10)
                # The page is busy for 7 seconds, as a browser that slept.
                sleeping = threading.Thread(target=browser.value, args=("(() => { const end = Date.now() + 7000; while (Date.now() < end); })()",))
                sleeping.start()
                time.sleep(0.5)
                scanner.send(EAN + b"\r", size=100)
                sleeping.join()
                browser.until(f"/^Scan again, please: [67] seconds old/.test({MESSAGE})", 10)
                assert len(browser.value(SHOWN)) == 1
                os.kill(gateway.process.pid, signal.SIGSTOP)
                browser.until("document.getElementById('state').textContent === 'the gateway says nothing'", 10)
                os.kill(gateway.process.pid, signal.SIGCONT)
                browser.until(READY, 10)
                scanner.send(EAN + b"\r", size=100)
                browser.until(f"{MESSAGE} === 'Oat biscuits 1.95'", 10)
        finally:
            browser.close()
