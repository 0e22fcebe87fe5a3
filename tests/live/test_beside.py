"""A healthy lane beside each fault of a shop: a till waits for a scan for at most 100 ms, however others break, sleep, flood or take places.

At the same moments another gateway, which has no fault, answers scans too: what these wait is the machine's, and is allowed beside the 100 ms. So
is the time for which the gateway, its hub or this test was ready to run and the machine ran others, or was not there itself, as the kernel counts it.
The hub itself, and the disk of a journal that stops the shop, are of all lanes; so is power. Needs openssl; another machine needs root."""
from __future__ import annotations

import contextlib
import itertools
import os
import shutil
import signal
import socket
import statistics
import struct
import subprocess
import sys
import threading
import time
from pathlib import Path
from typing import Any, Callable, Generator, Iterator

import pytest

import test_limits
from gateway_and_scanners import NORILADLE, ROW, Client, Gateway, Serial
from network import Network
from program_and_rows import READ
from test_alerts import all_lanes, mismatched, scanner_unplugged, second_scanner, wrong_options
from test_certificates import pair
from test_limits import EAN, HANDSHAKE
from test_logs import Blocked, small_pipe
from test_rights import Authority

LIMIT = 450
SECONDS, FEWEST = 4.0, 20
"""How long each fault lasts, and it goes on until so many scans were answered: a busy machine takes longer."""
MOST = 0.1
NUMBERS = itertools.count()
TICK = os.sysconf("SC_CLK_TCK")


class Lane:
    """A lane with a scanner and a till, and how long its scans waited: in all, and without the time for which the gateway could not run."""

    def __init__(self, path: str, stack: contextlib.ExitStack) -> None:
        self._number = 0
        self.all: list[float] = []
        self.times: list[float] = []
        self._till, self._scanner = (stack.enter_context(Client(path, socket.AF_UNIX)) for _ in range(2))
        name = f"good-{next(NUMBERS)}"
        self._scanner.send(f"scan {name}\n0\n".encode())
        assert self._scanner.line() == "0 next\n"
        self._till.send(f"watch {name}\n".encode())
        assert self._till.line() == "0 next\n"
        self.name = name
        gateway, _, _ = struct.unpack("3i", self._till.socket.getsockopt(socket.SOL_SOCKET, socket.SO_PEERCRED, 12))
        hub = int(Path(f"/proc/{gateway}/task/{gateway}/children").read_text().split()[0])
        # A scan goes through the first thread of each, and then through one of its others: a worker of the hub, and the thread of a journal.
        self._threads = [[Path(f"/proc/self/task/{threading.get_native_id()}")]]
        for pid in (gateway, hub):
            first, threads = Path(f"/proc/{pid}/task/{pid}"), Path(f"/proc/{pid}/task").iterdir()
            self._threads += [[first], [it for it in threads if it != first]]

    def _held_up(self) -> tuple[list[list[float]], list[float]]:
        """For how many seconds the threads that a scan goes through were ready to run, and did not; and each processor was not there."""
        stolen = [int(line.split()[8]) / TICK for line in Path("/proc/stat").read_text().splitlines() if line.startswith("cpu") and line[3] != " "]
        return [[int((it / "schedstat").read_text().split()[1]) / 1e9 for it in its] for its in self._threads], stolen

    def scan(self) -> None:
        (ready, stolen), begin = self._held_up(), time.perf_counter()
        self._scanner.send(b"%d %s\n" % (self._number, EAN))
        assert self._till.line() == f"{self._number} {READ}\n" == self._scanner.line()
        self.all.append(time.perf_counter() - begin)
        ready_now, stolen_now = self._held_up()
        waited = [max((now - before for now, before in zip(*its)), default=0.0) for its in zip(ready_now, ready)]
        self.times.append(max(0.0, self.all[-1] - sum(waited) - max(now - its for now, its in zip(stolen_now, stolen))))
        self._number += 1


# Each makes a shop, gives its socket, gets the name of the healthy lane, and then has its fault, which may go on in threads and processes that the
# stack ends.

Fault = Callable[[Path, contextlib.ExitStack], Generator[str, str, None]]
"""Gives the socket of a shop, gets the name of its healthy lane, and then has its fault."""


def shop(folder: Path, stack: contextlib.ExitStack, *words: str, **more: Any) -> Gateway:
    gateway = Gateway(folder, "--idle", "1000", *words, **more)
    stack.callback(gateway.process.wait)
    stack.callback(gateway.process.kill)
    return gateway


def again_and_again(stack: contextlib.ExitStack, call: Callable[[], object]) -> None:
    """Calls a function until the stack ends."""
    ends = threading.Event()

    def run() -> None:
        while not ends.is_set():
            call()

    thread = threading.Thread(target=run, daemon=True)
    thread.start()
    stack.callback(thread.join, 10)
    stack.callback(ends.set)


def of_alerts(begin: Callable[[Gateway, Path, contextlib.ExitStack], Iterator[None]], *words: str) -> Fault:
    """A fault of test_alerts.py."""
    def fault(folder: Path, stack: contextlib.ExitStack) -> Generator[str, str, None]:
        if "--config" in words:
            key, file = pair(Authority(folder, "shop"), folder / "first", "first")
            shutil.copy(key, folder / "key"), shutil.copy(file, folder / "pem")
            (folder / "gateway.toml").write_text(f'key = "{folder}/key"\ncert = "{folder}/pem"\n')
        gateway = shop(folder, stack, *(str(folder / word) if word.endswith(".toml") else word for word in words))
        its = begin(gateway, folder, stack)
        next(its)
        yield gateway.unix
        next(its, None)
    return fault


def certificates(folder: Path, stack: contextlib.ExitStack) -> Generator[str, str, None]:
    """It is renewed again and again by halves, by others, by none and by expired ones, and clients over TLS come."""
    authority = Authority(folder, "shop")
    (key, file), (other_key, other), (_, old) = (pair(authority, folder / name, name, days) for name, days in (("first", "30"), ("second", "30"), ("third", "-1")))
    (folder / "half").write_bytes(file.read_bytes()[:400])
    (folder / "empty").write_bytes(b"")
    (folder / "gateway.toml").write_text(f'key = "{folder}/key"\ncert = "{folder}/pem"\n')
    shutil.copy(key, folder / "key"), shutil.copy(file, folder / "pem")
    gateway = shop(folder, stack, "--config", str(folder / "gateway.toml"))
    yield gateway.unix

    def renew() -> None:
        for its_key, its in ((other_key, file), (other_key, folder / "half"), (folder / "empty", other), (other_key, old), (other_key, other), (key, file)):
            shutil.copy(its_key, folder / "key"), shutil.copy(its, folder / "pem")
            gateway.process.send_signal(signal.SIGHUP)
            with contextlib.suppress(OSError), gateway.connect() as client:
                client.send(b"\x16\x03\x01 no handshake\n")
            time.sleep(0.1)

    again_and_again(stack, renew)


def a_log_on_a_full_disk(folder: Path, stack: contextlib.ExitStack) -> Generator[str, str, None]:
    gateway = stack.enter_context(Blocked(folder, stack.enter_context(open("/dev/full", "w"))))
    yield gateway.unix
    again_and_again(stack, lambda: come_and_go(gateway.unix, 0.003))


def a_log_that_nobody_reads(folder: Path, stack: contextlib.ExitStack) -> Generator[str, str, None]:
    unread, end = small_pipe()
    stack.callback(os.close, unread), stack.callback(os.close, end)
    gateway = stack.enter_context(Blocked(folder, end))
    yield gateway.unix
    again_and_again(stack, lambda: come_and_go(gateway.unix, 0.003))


def come_and_go(path: str, seconds: float) -> None:
    """A client whose connection is logged."""
    Client(path, socket.AF_UNIX).__exit__()
    time.sleep(seconds)


def other_program(*words: str | int) -> subprocess.Popen[bytes]:
    return subprocess.Popen([sys.executable, *map(str, words)], stdout=subprocess.PIPE)


STRANGERS = """
import contextlib, socket, sys, time
held = []
for number in range(1_100):
    held.append(socket.create_connection(("127.0.0.1", int(sys.argv[1])), 5))
    with contextlib.suppress(OSError):
        held[-1].send(sys.argv[2].encode() if number % 2 else b"")
print("held", flush=True)
time.sleep(1_000)
"""


def sockets_of(port: str, said: str) -> Fault:
    """1,100 strangers of a port, in a program of their own: threads of this one hold up each other."""
    def fault(folder: Path, stack: contextlib.ExitStack) -> Generator[str, str, None]:
        gateway = shop(folder, stack, "--web", "0")
        yield gateway.unix
        its = stack.enter_context(other_program("-c", STRANGERS, gateway.ports[port], said))
        stack.callback(its.kill)
        assert its.stdout.readline() == b"held\n"
    return fault


def floods(count: int) -> Fault:
    def fault(folder: Path, stack: contextlib.ExitStack) -> Generator[str, str, None]:
        gateway = shop(folder, stack, port=False)
        yield gateway.unix
        its = stack.enter_context(other_program(test_limits.__file__, gateway.unix, count))
        stack.callback(its.kill)
    return fault


ROWS = """
import socket, sys, threading
def drain(its):
    while its.recv(1 << 16): pass
for _ in range(int(sys.argv[2])):
    its = socket.create_connection(("127.0.0.1", int(sys.argv[1])))
    threading.Thread(target=drain, args=(its,), daemon=True).start()
    threading.Thread(target=lambda its=its: [its.sendall(sys.argv[3].encode() * 500) for _ in iter(int, 1)], daemon=True).start()
threading.Event().wait()
"""


def rows(count: int, row: str) -> Fault:
    """Programs that send rows as fast as they go."""
    def fault(folder: Path, stack: contextlib.ExitStack) -> Generator[str, str, None]:
        gateway = shop(folder, stack)
        yield gateway.unix
        its = stack.enter_context(other_program("-c", ROWS, gateway.ports["port"], count, row))
        stack.callback(its.kill)
    return fault


def without_a_line_end(folder: Path, stack: contextlib.ExitStack) -> Generator[str, str, None]:
    gateway = shop(folder, stack)
    yield gateway.unix
    clients = [stack.enter_context(gateway.connect()) for _ in range(60)]
    again_and_again(stack, lambda: [client.send(b"1 " * 50_000) for client in clients])


def too_large_numbers(folder: Path, stack: contextlib.ExitStack) -> Generator[str, str, None]:
    gateway = shop(folder, stack, port=False)
    yield gateway.unix

    def call() -> None:
        with gateway.unix_client() as client:
            client.send(b"scan bad\n999999999999999999\n")
            client.lines.read()

    again_and_again(stack, call)


def a_scanner_that_sleeps(folder: Path, stack: contextlib.ExitStack) -> Generator[str, str, None]:
    """Its program is stopped while it has texts."""
    gateway = shop(folder, stack, port=False)
    scanner = stack.enter_context(Serial("--gateway", gateway.unix, "--lane", "till-2"))
    scanner.send(EAN + b"\r", size=100)
    assert scanner.line()
    yield gateway.unix
    scanner.process.send_signal(signal.SIGSTOP)
    scanner.send((EAN + b"\r") * 50, size=100)
    time.sleep(3)
    scanner.process.send_signal(signal.SIGCONT)


def tills_that_take_nothing(folder: Path, stack: contextlib.ExitStack) -> Generator[str, str, None]:
    """Of the healthy lane itself, and of a page."""
    gateway = shop(folder, stack, "--web", "0", port=False)
    lane = yield gateway.unix
    for _ in range(20):
        stack.enter_context(gateway.watch(lane))
        its = stack.enter_context(socket.create_connection(("127.0.0.1", gateway.ports["web"])))
        its.send(HANDSHAKE.replace(b"till-1", lane.encode()))


def a_till_without_power(folder: Path, stack: contextlib.ExitStack) -> Generator[str, str, None]:
    network = stack.enter_context(Network("shop", "till"))
    with network.inside("shop"):
        gateway = shop(folder, stack, "--host", network.addresses["shop"], "--anyone")
    with network.inside("till"):
        tills = [stack.enter_context(Client((network.addresses["shop"], gateway.ports["port"]))) for _ in range(20)]
    lane = yield gateway.unix
    for till in tills:
        till.send(f"watch {lane} 2\n".encode())
        assert till.line()
    network.cut_off("till")


def requests_of_browsers(folder: Path, stack: contextlib.ExitStack) -> Generator[str, str, None]:
    """To the port of scanners, and to that of the numbers under another name."""
    gateway = shop(folder, stack, "--metrics", "0")
    yield gateway.unix

    def call() -> None:
        for name, host in (("port", b"x"), ("metrics", b"evil.example"), ("metrics", b"localhost")):
            with Client(("127.0.0.1", gateway.ports[name])) as client:
                client.send(b"GET /metrics HTTP/1.1\r\nHost: " + host + b"\r\n\r\n")
                with contextlib.suppress(OSError):
                    client.lines.read()
    again_and_again(stack, call)


def a_second_gateway(folder: Path, stack: contextlib.ExitStack) -> Generator[str, str, None]:
    gateway = shop(folder, stack, port=False)
    yield gateway.unix
    again_and_again(stack, lambda: subprocess.run([*NORILADLE, "gateway", "--unix", gateway.unix], capture_output=True))


def connections_that_come_and_go(folder: Path, stack: contextlib.ExitStack) -> Generator[str, str, None]:
    gateway = shop(folder, stack)
    yield gateway.unix

    def call() -> None:
        with gateway.connect() as client:
            client.send(ROW * 20 + ROW[:-10])
            client.reset()
        come_and_go(gateway.unix, 0)
    again_and_again(stack, call)


def a_journal_that_is_checked(folder: Path, stack: contextlib.ExitStack) -> Generator[str, str, None]:
    """While it is written."""
    gateway = shop(folder, stack, "--journal", str(folder / "journal"), port=False)
    yield gateway.unix
    again_and_again(stack, lambda: subprocess.run([*NORILADLE, "journal", folder / "journal", "--check"], capture_output=True))


def nothing(folder: Path, stack: contextlib.ExitStack) -> Generator[str, str, None]:
    yield shop(folder, stack, port=False).unix


FAULTS = {
    "nothing": nothing, "certificates are renewed wrongly": certificates, "option files are wrong": of_alerts(wrong_options, "--config", "gateway.toml"),
    "a key is of another certificate": of_alerts(mismatched, "--config", "gateway.toml"), "the log's disk is full": a_log_on_a_full_disk,
    "nobody reads the log": a_log_that_nobody_reads, "1,100 strangers": sockets_of("port", "1 1"),
    "1,100 pages": sockets_of("web", HANDSHAKE.decode()), "all lanes are taken": of_alerts(all_lanes), "a scanner floods": floods(1), "four scanners flood": floods(4),
    "a program sends rows": rows(1, ROW.decode()), "twelve programs send rows": rows(12, ROW.decode()), "twelve programs send texts": rows(12, "]E09501101530003\n"),
    "a line has no end": without_a_line_end, "numbers are too large": too_large_numbers, "a scanner sleeps": a_scanner_that_sleeps,
    "a scanner is unplugged": of_alerts(scanner_unplugged), "two scanners have a lane": of_alerts(second_scanner), "tills take nothing": tills_that_take_nothing,
    "a till loses power": a_till_without_power, "browsers send requests": requests_of_browsers, "a second gateway starts": a_second_gateway,
    "connections come and go": connections_that_come_and_go, "the journal is checked": a_journal_that_is_checked,
}


def go_on(fault: Generator[str, str, None], lane: str) -> None:
    with contextlib.suppress(StopIteration):
        fault.send(lane)


@pytest.fixture(scope="module")
def control(tmp_path_factory: pytest.TempPathFactory) -> Iterator[Gateway]:
    """A gateway without a fault."""
    with Gateway(tmp_path_factory.mktemp("control"), "--idle", "1000", port=False) as gateway:
        yield gateway


@pytest.mark.parametrize("name", FAULTS)
def test_a_healthy_lane(tmp_path: Path, control: Gateway, name: str) -> None:
    if name == "a till loses power" and (os.geteuid() or not os.path.exists("/dev/net/tun")):
        pytest.skip("only root makes machines of network namespaces")
    with contextlib.ExitStack() as stack:
        fault = FAULTS[name](tmp_path, stack)
        lanes = [Lane(path, stack) for path in (next(fault), control.unix)]
        beginning = threading.Thread(target=go_on, args=(fault, lanes[0].name), daemon=True)
        begin = time.monotonic()
        beginning.start()
        while beginning.is_alive() or time.monotonic() < begin + SECONDS or len(lanes[0].times) <= FEWEST:
            for lane in lanes:
                lane.scan()
            time.sleep(0.01)
    its, other = lanes
    print(f"\n{name}: {len(its.times)} scans, median {statistics.median(its.times) * 1e3:.1f} ms, longest {max(its.times) * 1e3:.1f} ms, "
          f"on this machine {max(its.all) * 1e3:.1f}; without a fault {statistics.median(other.times) * 1e3:.1f}, {max(other.times) * 1e3:.1f} ms")
    assert max(its.times) < MOST + max(other.times)
