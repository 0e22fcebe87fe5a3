"""Logs that are full or that nobody reads: every client is answered all the same. A full disk is /dev/full."""
from __future__ import annotations

import fcntl
import os
import re
import resource
import select
import signal
import socket
import subprocess
import time
import urllib.request
from pathlib import Path
from typing import Any

import pytest

from gateway_and_scanners import NORILADLE, ROW, Client, Gateway, Serial
from noriladle._log import Writer
from program_and_rows import READ
from test_rights import rights

LIMIT = 150
COUNT = 1_500
"""Connections; each logs two lines, and a pipe that nobody reads is full after some 500."""


class Blocked:
    """A gateway whose standard error goes to a file or a pipe; it logs everything."""

    def __init__(self, folder: Path, error: Any, *words: str) -> None:
        self.unix = str(folder / "hub")
        self.process = subprocess.Popen([*NORILADLE, "gateway", "--year", "2026", "--unix", self.unix, "--log", "all", *words], stderr=error)
        until = time.monotonic() + 20
        while not os.path.exists(self.unix):
            assert self.process.poll() is None and time.monotonic() < until
            time.sleep(0.02)

    def __enter__(self) -> Blocked:
        return self

    def __exit__(self, *_: object) -> None:
        self.process.kill()
        self.process.wait()

    def answers(self, count: int) -> None:
        """Asks over this many connections, one after the other; a second is the most that each may wait."""
        for number in range(count):
            with Client(self.unix, socket.AF_UNIX) as client:
                client.socket.settimeout(1)
                assert client.ask(ROW) == f"0 {READ}\n", number


def small_pipe() -> tuple[int, int]:
    """A pipe of a page."""
    unread, end = os.pipe()
    fcntl.fcntl(end, 1031, 4096)  # F_SETPIPE_SZ
    return unread, end


def test_a_log_on_a_full_disk(tmp_path: Path) -> None:
    with open("/dev/full", "w") as full, Blocked(tmp_path, full) as gateway:
        gateway.answers(300)


def test_a_log_whose_disk_has_room_again(tmp_path: Path) -> None:
    """Lines are written again, and one says how many are missing."""
    with open(tmp_path / "log", "w+") as log, Blocked(tmp_path, log) as gateway:
        gateway.answers(5)
        time.sleep(0.3)
        pid, size = gateway.process.pid, os.fstat(log.fileno()).st_size
        resource.prlimit(pid, resource.RLIMIT_FSIZE, (size, resource.RLIM_INFINITY))
        gateway.answers(20)
        time.sleep(0.3)
        assert os.fstat(log.fileno()).st_size == size
        resource.prlimit(pid, resource.RLIMIT_FSIZE, (resource.RLIM_INFINITY, resource.RLIM_INFINITY))
        gateway.answers(1)
        time.sleep(0.3)
        said = (tmp_path / "log").read_text()[size:].splitlines()
        assert re.fullmatch(r"\S+Z 40 log lines were dropped", said[0]) and [line.split()[1] for line in said[1:]] == ["connected", "closed"], said


def test_a_log_that_nobody_reads(tmp_path: Path) -> None:
    unread, end = small_pipe()
    with Blocked(tmp_path, end) as gateway:
        gateway.answers(COUNT)
        # A gateway that cannot write its log ends when it is told to.
        gateway.process.terminate()
        assert gateway.process.wait(10) == 0
    os.close(end)
    os.close(unread)


def free_port() -> int:
    with socket.socket() as free:
        free.bind(("127.0.0.1", 0))
        return free.getsockname()[1]


def test_lines_without_room_are_counted(tmp_path: Path, monkeypatch: pytest.MonkeyPatch) -> None:
    """The number says how many; when the log has room again a line does, and later lines follow."""
    port = free_port()
    unread, end = small_pipe()
    with Blocked(tmp_path, end, "--metrics", str(port)) as gateway:
        def dropped() -> float:
            with urllib.request.urlopen(f"http://127.0.0.1:{port}/metrics", timeout=2) as told:
                return next(float(line.split()[1]) for line in told.read().decode().splitlines()
                            if line.startswith("noriladle_log_lines_dropped_total"))

        gateway.answers(2_500)
        count = dropped()
        assert count > 300
        os.set_blocking(unread, False)
        said = b""
        until = time.monotonic() + 20
        while b" log lines were dropped" not in said:
            assert time.monotonic() < until
            if select.select([unread], [], [], 0.1)[0]:
                said = (said + os.read(unread, 65_536))[-1_000_000:]
            else:
                gateway.answers(1)
        assert b" %d log lines were dropped" % count in said
    os.close(end)
    os.close(unread)


def test_levels_for_journald(tmp_path: Path, monkeypatch: pytest.MonkeyPatch) -> None:
    """They stand in place of the time, which it adds itself."""
    monkeypatch.setenv("JOURNAL_STREAM", "8:1")
    file = tmp_path / "gateway.toml"
    file.write_text("idle = 30\n")
    gateway = Gateway(tmp_path, "--log", "all", "--config", str(file))
    with gateway.connect() as client:
        assert client.ask(ROW) == f"0 {READ}\n"
        file.write_text("idle = 0\n")
        gateway.process.send_signal(signal.SIGHUP)
        said = [*iter(gateway.process.stderr.readline, f"<3>{file}:1: idle: '0' is no number of seconds above 0\n")]
    assert said and all(re.match("<6>(connected|closed) peer=", line) for line in said)
    gateway.process.terminate()
    gateway.process.communicate(timeout=20)


def test_what_a_client_sends_ends_no_line_of_the_log(tmp_path: Path) -> None:
    """Nor does it reach the terminal of who reads it."""
    gateway = Gateway(tmp_path, "--log", "all", *rights(tmp_path, '"user 4711" = "rows"'))
    with gateway.unix_client() as client:
        assert client.ask(b"watch a\x1b[2J\r 2026-01-01T00:00:00.000Z the hub has ended\n").startswith("closed: no right to watch a")
    gateway.process.terminate()
    lines = gateway.process.communicate(timeout=20)[1].split("\n")
    assert all(re.fullmatch("[ -~]*", line) for line in lines) and [line[25:].split(" ")[0] for line in lines if "2026-01-01" in line] == ["closed"]


def test_a_line_that_is_taken_in_parts() -> None:
    """By a socket that somebody else has set not to block."""
    here, there = socket.socketpair()
    with here, there, there.makefile() as read:
        here.setblocking(False)
        there.settimeout(20)
        write = Writer(here.fileno())
        for line in ("a" * 1_000_000, "b"):
            write(line)
        assert [len(read.readline()) for _ in range(2)] == [1_000_001, 2]


def test_a_journal_that_was_stopped(tmp_path: Path) -> None:
    """journald holds the other end of a socket, and takes nothing while it is stopped."""
    here, there = socket.socketpair(socket.AF_UNIX)
    here.setsockopt(socket.SOL_SOCKET, socket.SO_SNDBUF, 4096)
    with here, there, Blocked(tmp_path, here.fileno()) as gateway:
        gateway.answers(COUNT)


@pytest.mark.parametrize("how", ["full", "unread"])
def test_a_scanner_whose_lines_nobody_takes(tmp_path: Path, how: str) -> None:
    """The till has every scan."""
    with Gateway(tmp_path, port=False) as gateway, gateway.watch("till-1") as till:
        unread, end = small_pipe()
        with Serial("--gateway", gateway.unix, "--lane", "till-1", out=os.open("/dev/full", os.O_WRONLY) if how == "full" else end) as scanner:
            assert till.line() == "0 next\n"
            for number in range(500):
                scanner.send(b"]E09501101530003\r", size=100)
                assert till.line() == f"{number} {READ}\n"
            assert scanner.process.poll() is None
            scanner.process.send_signal(signal.SIGTERM)
            assert scanner.process.wait(10) == 0
        os.close(end)
        os.close(unread)


def test_what_libraries_say_is_in_the_log(tmp_path: Path) -> None:
    """No descriptor is left: the gateway says so in lines of its log, without a traceback, and lets clients in when there is one again."""
    gateway = Gateway(tmp_path, "--metrics", "0")
    pid = gateway.process.pid
    limits = resource.prlimit(pid, resource.RLIMIT_NOFILE)
    time.sleep(0.3)
    resource.prlimit(pid, resource.RLIMIT_NOFILE, (len(os.listdir(f"/proc/{pid}/fd")), limits[1]))
    waiting = [Client(("127.0.0.1", gateway.ports[name])) for name in ("metrics", "port")]
    time.sleep(0.5)
    resource.prlimit(pid, resource.RLIMIT_NOFILE, limits)
    assert waiting[1].ask(ROW) == f"0 {READ}\n"
    for client in waiting:
        client.__exit__()
    gateway.process.terminate()
    lines = gateway.process.communicate(timeout=20)[1].splitlines()
    assert any("no client can come in: Too many open files" in line for line in lines) and any("by=asyncio" in line for line in lines)
    assert all(re.match(r"\d{4}-\d\d-\d\dT[0-9:.]+Z ", line) for line in lines), lines
