"""The limits of a gateway: who takes too much, or comes from where nobody was let in, holds up no scanner and no till. Needs python3-websockets."""
from __future__ import annotations

import asyncio
import contextlib
import itertools
import os
import resource
import signal
import socket
import statistics
import subprocess
import sys
import threading
import time
from pathlib import Path
from typing import Any

import pytest
import websockets

from gateway_and_scanners import NORILADLE, ROW, Client, Gateway, Serial
from noriladle import _gateway
from noriladle._door import Door, Place, Places, who
from noriladle._gateway import CUT, LINES, PAUSE
from noriladle._log import Log
from noriladle._scans import Listener, ScanLane
from program_and_rows import READ
from test_gateway import page
from test_rights import Authority, open_folder, rights  # noqa: F401 (open_folder is a fixture)

LIMIT = 200
EAN = b"]E09501101530003"
HANDSHAKE = (b"GET /till-1 HTTP/1.1\r\nHost: localhost\r\nUpgrade: websocket\r\nConnection: Upgrade\r\nSec-WebSocket-Key: dGhlIHNhbXBsZSBub25jZQ==\r\n"
             b"Sec-WebSocket-Version: 13\r\n\r\n")


def descriptors(gateway: Gateway) -> int:
    return len(os.listdir(f"/proc/{gateway.process.pid}/fd"))


def scans(gateway: Gateway, lane: str, most: float = 0.1) -> float:
    """A scanner and a till of a lane work, and each line comes within 100 ms. Returns the longest wait."""
    longest = 0.0
    with gateway.watch(lane) as till, gateway.unix_client() as scanner:
        scanner.send(f"scan {lane}\n".encode())
        first = int(scanner.line().split()[0])
        scanner.send(b"%d\n" % first)
        for number in range(first, first + 20):
            begin = time.monotonic()
            scanner.send(b"%d %s\n" % (number, EAN))
            # The till gets the number of the next scan when it comes, and when the scanner says it.
            answer = next(line for line in iter(till.line, "") if line != f"{first} next\n")
            assert answer == scanner.line() == f"{number} {READ}\n"
            longest = max(longest, time.monotonic() - begin)
    assert longest < most
    return longest


@pytest.mark.parametrize("which", ["web", "port"])
def test_strangers_over_tcp(tmp_path: Path, which: str) -> None:
    """1,100 of them, silent or not, take few descriptors; the UNIX socket goes on, and they leave no line in the log."""
    with Gateway(tmp_path, "--web", "0", "--metrics", "0") as gateway, contextlib.ExitStack() as strangers:
        alone = scans(gateway, "till-1", 1)
        for number in range(1_100):
            its = strangers.enter_context(socket.create_connection(("127.0.0.1", gateway.ports[which]), 5))
            if which == "web" and number % 2:
                its.send(HANDSHAKE)
        # On a busy machine a lane that is alone waits too.
        scans(gateway, "till-1", 0.1 + 2 * alone)
        assert descriptors(gateway) < 200
        assert page(gateway, "/readyz") == (200, "ready\n")


def test_pages_are_counted(tmp_path: Path) -> None:
    """Those above the limit are refused in the handshake."""
    async def test(port: int) -> None:
        pages = [await websockets.connect(f"ws://127.0.0.1:{port}/till-1") for _ in range(5)]
        with pytest.raises(websockets.InvalidStatusCode, match="503"):
            await websockets.connect(f"ws://127.0.0.1:{port}/till-1")
        await pages[0].close()
        pages[0] = await websockets.connect(f"ws://127.0.0.1:{port}/till-1")
        for its in pages:
            await its.close()

    with Gateway(tmp_path, "--web", "0", "--each", "5", port=False) as gateway:
        asyncio.run(asyncio.wait_for(test(gateway.ports["web"]), 30))


@pytest.mark.limit(60)
def test_a_page_that_answers_nothing(tmp_path: Path) -> None:
    """Its browser was stopped: within 20 seconds it is a till no more."""
    with Gateway(tmp_path, "--web", "0", "--metrics", "0", port=False) as gateway, Client(("127.0.0.1", gateway.ports["web"])) as client:
        client.send(HANDSHAKE)
        gateway.waits_for(tills=1)
        until = time.monotonic() + 30
        while gateway.numbers()["noriladle_tills"] != "0":
            assert time.monotonic() < until
            time.sleep(0.5)


HOLD = """
import socket, sys, time
held = []
for _ in range(int(sys.argv[2])):
    its = socket.socket(socket.AF_UNIX)
    its.connect(sys.argv[1])
    try:
        its.sendall(sys.argv[3].encode())
    except BrokenPipeError:
        pass  # It had no place.
    held.append(its)
print("held", flush=True)
sys.stdin.read()
"""


def hold(gateway: Gateway, count: int, said: str, user: int | None = None) -> subprocess.Popen[str]:
    """Another program, which holds this many connections until its standard input ends."""
    its = subprocess.Popen([sys.executable, "-c", HOLD, gateway.unix, str(count), said], stdin=subprocess.PIPE, stdout=subprocess.PIPE, text=True, user=user)
    assert its.stdout.readline() == "held\n"
    return its


@pytest.mark.skipif(os.geteuid() != 0, reason="only root asks as other users")
def test_a_user_who_takes_all(open_folder: Path) -> None:  # noqa: F811
    """One user's limit is no other's."""
    with Gateway(open_folder, "--each", "20", port=False) as gateway:
        os.chmod(gateway.unix, 0o666)
        with hold(gateway, 60, "", user=4711):
            scans(gateway, "till-1")


@pytest.mark.skipif(os.geteuid() != 0, reason="only root connects as other users")
def test_spare_places_of_all_users(open_folder: Path) -> None:  # noqa: F811
    """Four users may hold eight each, and a fifth has none."""
    with Gateway(open_folder, "--connections", "8", "--each", "8", port=False) as gateway, contextlib.ExitStack() as stack:
        os.chmod(gateway.unix, 0o666)
        time.sleep(0.5)
        for _ in range(8):
            stack.enter_context(gateway.watch("till-1"))
        for user in range(4711, 4716):
            os.seteuid(user)
            try:
                its = [stack.enter_context(gateway.unix_client()) for _ in range(8)][0]
            finally:
                os.seteuid(0)
        assert its.line() == "closed: there are 8 connections\n"


def test_scanners_have_a_place_when_there_is_no_other(tmp_path: Path) -> None:
    """Though one user has taken every place; whatever else comes is told why not."""
    with Gateway(tmp_path, "--connections", "8", "--each", "8", "--metrics", "0", port=False) as gateway:
        time.sleep(0.5)
        tills = [gateway.watch("till-1") for _ in range(8)]
        with gateway.unix_client() as late:
            assert late.ask(b"watch till-1\n") == "closed: there are 8 connections\n"
        scanners = []
        for number in range(12):
            scanners.append(gateway.unix_client())
            assert scanners[-1].ask(b"scan lane-%d\n" % number) == "0 next\n"
        # A silent one keeps such a place for five seconds.
        silent = [gateway.unix_client() for _ in range(8)]
        with gateway.unix_client() as late:
            assert late.line() == "closed: there are 8 connections\n"
        assert silent[0].line() == "closed: nothing came or was taken for 5 seconds\n"
        time.sleep(0.2)
        with gateway.unix_client() as late:
            assert late.ask(b"scan lane-99\n") == "0 next\n"
        for client in (*tills, *scanners, *silent):
            client.__exit__()
        gateway.waits_for(connections=0)


def test_tcp_leaves_places_to_the_unix_socket(tmp_path: Path) -> None:
    with Gateway(tmp_path, "--connections", "20", "--each", "20") as gateway:
        time.sleep(0.5)
        far = [gateway.connect() for _ in range(15)]
        with gateway.connect() as late:
            assert late.line() == "closed: there are 15 connections that are not of the UNIX socket\n"
        near = [gateway.unix_client() for _ in range(5)]
        assert near[-1].ask(ROW) == f"0 {READ}\n"
        for client in (*far, *near):
            client.__exit__()
        time.sleep(0.5)
        with gateway.connect() as client:
            assert client.ask(ROW) == f"0 {READ}\n"


def test_a_user_or_an_address_has_its_limit(tmp_path: Path) -> None:
    with Gateway(tmp_path, "--each", "4", "--metrics", "0") as gateway:
        time.sleep(0.5)
        far = [gateway.connect() for _ in range(4)]
        with gateway.connect() as late:
            assert late.line() == "closed: address 127.0.0.1 has 4 connections\n"
        assert gateway.numbers()["noriladle_places_refused_total"] == "1"
        far[0].__exit__()
        time.sleep(0.2)
        with gateway.connect() as next_one:
            assert next_one.ask(ROW) == f"0 {READ}\n"
        for client in far[1:]:
            client.__exit__()


def test_limits_change_at_work(tmp_path: Path) -> None:
    """By a reload, for those that come then."""
    file = tmp_path / "gateway.toml"
    file.write_text("each = 2\n")
    with Gateway(tmp_path, "--config", str(file)) as gateway, contextlib.ExitStack() as stack:
        time.sleep(0.5)
        for _ in range(2):
            stack.enter_context(gateway.connect())
        with gateway.connect() as late:
            assert late.line() == "closed: address 127.0.0.1 has 2 connections\n"
        file.write_text("each = 3\n")
        gateway.process.send_signal(signal.SIGHUP)
        time.sleep(0.5)
        assert stack.enter_context(gateway.connect()).ask(ROW) == f"0 {READ}\n"
        with gateway.connect() as late:
            assert late.line() == "closed: address 127.0.0.1 has 3 connections\n"


def test_each_place_has_its_descriptors(tmp_path: Path) -> None:
    """Whatever limit the gateway was started with; also places that a reload makes."""
    file, (soft, hard) = tmp_path / "gateway.toml", resource.getrlimit(resource.RLIMIT_NOFILE)
    file.write_text("connections = 300\n")
    resource.setrlimit(resource.RLIMIT_NOFILE, (256, hard))
    try:
        gateway = Gateway(tmp_path, "--config", str(file), port=False)
    finally:
        resource.setrlimit(resource.RLIMIT_NOFILE, (soft, hard))
    with gateway:
        assert resource.prlimit(gateway.process.pid, resource.RLIMIT_NOFILE) == (1_112, hard)
        file.write_text("connections = 600\n")
        gateway.process.send_signal(signal.SIGHUP)
        until = time.monotonic() + 20
        while resource.prlimit(gateway.process.pid, resource.RLIMIT_NOFILE) != (1_712, hard):
            assert time.monotonic() < until
            time.sleep(0.02)


@pytest.mark.parametrize("host, more, wanted", [
    ("0.0.0.0", [], "it needs TLS (--cert and --key) and a table of rights, or --ca"),
    ("::", [], "it needs TLS (--cert and --key) and a table of rights, or --ca"),
    ("0.0.0.0", ["rights"], "it needs TLS (--cert and --key)"),
    ("0.0.0.0", ["tls"], "it needs a table of rights, or --ca"),
    ("0.0.0.0", ["tls", "rights"], ""), ("0.0.0.0", ["tls", "ca"], ""), ("0.0.0.0", ["anyone"], ""), ("127.0.0.1", [], ""), ("127.0.0.2", [], ""),
    ("localhost", [], ""),
])
def test_a_port_for_other_machines(tmp_path: Path, host: str, more: list[str], wanted: str) -> None:
    """Without rights or without TLS it is refused, unless the operator says so."""
    words = ["--host", host, "--port", "0"]
    if "tls" in more:
        key, file = Authority(tmp_path, "shop").issue("gateway")
        words += ["--key", str(key), "--cert", str(file)]
    words += ["--ca", str(tmp_path / "shop.pem")] if "ca" in more else []
    words += rights(tmp_path, '"user 0" = "rows"') if "rights" in more else []
    words += ["--anyone"] if "anyone" in more else []
    process = subprocess.Popen([*NORILADLE, "gateway", *words], stderr=subprocess.PIPE, text=True)
    try:
        line = process.stderr.readline()
        if wanted:
            assert (line, process.wait(10)) == (f"noriladle: other machines reach {host}: {wanted}; with --anyone it goes without\n", 2)
        else:
            assert line.startswith("port ")
    finally:
        process.terminate()
        process.communicate(timeout=20)


def test_a_reload_opens_no_port_to_everyone(tmp_path: Path) -> None:
    """It refuses the table that a start would."""
    key, file = Authority(tmp_path, "shop").issue("gateway")
    words = rights(tmp_path, '"user 0" = "rows"')
    gateway = Gateway(tmp_path, "--host", "0.0.0.0", "--key", str(key), "--cert", str(file), *words)
    rights(tmp_path, '"anyone" = "rows, scan *, watch *"')
    gateway.process.send_signal(signal.SIGHUP)
    assert gateway.process.stderr.readline().endswith(" other machines reach 0.0.0.0: it needs a table of rights, or --ca; with --anyone it goes without\n")
    with gateway, gateway.unix_client() as client:
        assert client.ask(b"watch till-1\n") == "closed: no right to watch till-1\n"


@pytest.mark.parametrize("address, whose", [
    ("2001:db8::1", "network 2001:db8::/64"), ("2001:db8::ffff:1%eth0", "network 2001:db8::/64"), ("2001:db8:0:1::1", "network 2001:db8:0:1::/64"),
    ("::1", "address ::1"), ("10.0.0.7", "address 10.0.0.7"),
])
def test_whose_a_connection_is(address: str, whose: str) -> None:
    """A machine has a whole network of IPv6."""
    class Socket:
        family = socket.AF_INET6 if ":" in address else socket.AF_INET

        def getpeername(self) -> tuple[str, int]:
            return address, 4711

    its: Any = Socket()
    assert who(its) == whose


def test_the_lock_follows_no_link(tmp_path: Path) -> None:
    """A file that a link at the lock's place points to keeps what it has; so has a lock that was left, and a pipe there stops nobody."""
    target, lock = tmp_path / "target", tmp_path / "hub.lock"
    target.write_text("of somebody else")
    lock.symlink_to(target)
    ran = subprocess.run([*NORILADLE, "gateway", "--unix", str(tmp_path / "hub")], capture_output=True, text=True, timeout=20)
    assert (ran.returncode, ran.stderr) == (2, f"noriladle: {lock} is a symbolic link: remove it, or name another socket\n")
    assert target.read_text() == "of somebody else"
    lock.unlink()
    lock.write_text("left")
    with Gateway(tmp_path, port=False) as gateway, gateway.unix_client() as client:
        assert client.ask(ROW) == f"0 {READ}\n"
    assert lock.read_text() == "left"


def test_a_file_in_the_socket_s_place_is_kept(tmp_path: Path) -> None:
    (tmp_path / "hub").write_text("of somebody else")
    ran = subprocess.run([*NORILADLE, "gateway", "--unix", str(tmp_path / "hub")], capture_output=True, text=True, timeout=20)
    assert (ran.returncode, ran.stderr) == (1, f"noriladle: {tmp_path}/hub: Address already in use\n")
    assert (tmp_path / "hub").read_text() == "of somebody else"


@pytest.mark.parametrize("sent", [
    b"POST / HTTP/1.1\r\nHost: x\r\nContent-Type: text/plain\r\n\r\nscan till-1\n0\n0 ]E09501101530003\n",
    b"GET /x HTTP/1.1\r\nHost: x\r\n\r\n", b"OPTIONS * HTTP/1.0\r\n\r\n",
])
def test_a_page_of_another_site_takes_no_lane(tmp_path: Path, sent: bytes) -> None:
    """A browser sends such a request to any port."""
    with Gateway(tmp_path, "--metrics", "0") as gateway, gateway.watch("till-1") as till:
        with gateway.connect() as client:
            client.send(sent)
            assert client.line() == "closed: this port is not for web pages\n"
            assert gateway.numbers()["noriladle_lanes_free"] == "16"
        till.socket.settimeout(0.3)
        with pytest.raises(OSError):
            till.socket.recv(1)


@pytest.mark.parametrize("sent, wanted", [
    (b"999999999999999999\n", "closed: a scan's number is at most 999999999999999\n"), (b"1000000000000000\n", "closed: a scan's number is at most 999999999999999\n"),
    (b"9999999999999999999999\n", "closed: a scan is a number, a blank and a text\n"), (b"-1\n", "closed: a scan is a number, a blank and a text\n"),
])
def test_a_number_that_is_too_large(tmp_path: Path, sent: bytes, wanted: str) -> None:
    """The lane goes on with the next scanner."""
    with Gateway(tmp_path, port=False) as gateway:
        with gateway.unix_client() as client:
            assert client.ask(b"scan till-1\n") == "0 next\n"
            assert client.ask(sent) == wanted
        scans(gateway, "till-1")


def test_the_last_numbers(tmp_path: Path) -> None:
    """A lane whose numbers end begins anew, with a scanner's program too."""
    with Gateway(tmp_path, port=False) as gateway:
        with gateway.unix_client() as client:
            assert client.ask(b"scan till-1\n") == "0 next\n"
            client.send(b"999999999999999\n999999999999999 %s\n" % EAN)
            assert client.line() == f"999999999999999 {READ}\n"
            client.send(b"1000000000000000 %s\n" % EAN)
            assert client.line() == "closed: a scan's number is at most 999999999999999\n"
        with Serial("--gateway", gateway.unix, "--lane", "till-1") as scanner:
            for number in range(3):
                scanner.send(EAN + b"\r", size=100)
                assert scanner.line() == f"{number} {READ}\n"
        scans(gateway, "till-1")


@pytest.mark.parametrize("count", [1, 4])
def test_a_scanner_that_floods(tmp_path: Path, count: int) -> None:
    """Each lane has its turn: another lane waits at most 100 ms, and has no scan without an answer."""
    with Gateway(tmp_path, port=False) as gateway, gateway.watch("good") as till, gateway.unix_client() as scanner:
        scanner.send(b"scan good\n0\n")
        assert scanner.line() == "0 next\n" == till.line()
        numbers = itertools.count()
        times: dict[str, list[float]] = {}

        def measure(when: str) -> None:
            times[when] = []
            for number in itertools.islice(numbers, 200):
                begin = time.perf_counter()
                scanner.send(b"%d %s\n" % (number, EAN))
                assert till.line() == scanner.line() == f"{number} {READ}\n"
                times[when].append((time.perf_counter() - begin) * 1e3)
                time.sleep(0.01)

        measure("alone")
        with subprocess.Popen([sys.executable, __file__, gateway.unix, str(count)], stdout=subprocess.PIPE) as floods:
            assert floods.stdout.readline() == b"begun\n"
            measure("beside")
            floods.kill()
        print(f"\n{count} floods: " + "; ".join(f"{when} median {statistics.median(its):.1f} ms, longest {max(its):.1f} ms" for when, its in times.items()))
        # On a busy machine a lane that is alone waits too.
        assert max(times["beside"]) < 100 + 2 * max(times["alone"])


def test_many_lanes_that_wait(tmp_path: Path) -> None:
    """More than the turns that they share: each has its least share."""
    with Gateway(tmp_path, "--each", "100", port=False) as gateway, contextlib.ExitStack() as stack:
        scanners = [stack.enter_context(gateway.unix_client()) for _ in range(80)]
        for number, scanner in enumerate(scanners):
            assert scanner.ask(b"scan lane-%d\n" % number) == "0 next\n"
        os.kill(gateway.hub(), signal.SIGSTOP)
        for scanner in scanners:
            scanner.send(b"0\n" + b"".join(b"%d %s\n" % (number, EAN) for number in range(20)))
        time.sleep(0.3)
        os.kill(gateway.hub(), signal.SIGCONT)
        for scanner in scanners:
            assert [scanner.line() for _ in range(20)] == [f"{number} {READ}\n" for number in range(20)]


def test_more_lanes_than_there_are(tmp_path: Path) -> None:
    """Lanes that nobody uses any more make room for the 257th; one that a till watches stays, and so do those of scanners."""
    with Gateway(tmp_path, "--connections", "600", "--each", "300", port=False) as gateway, contextlib.ExitStack() as stack:
        till = stack.enter_context(gateway.watch("till-1"))
        for number in range(256):
            with gateway.unix_client() as client:
                assert client.ask(b"scan lane-%d\n" % number) == "0 next\n"
        for number in range(255):
            assert stack.enter_context(gateway.unix_client()).ask(b"scan lane-%d\n" % number) == "0 next\n"
        with gateway.unix_client() as late:
            assert late.ask(b"scan lane-255\n") == "closed: there are 256 lanes\n"
        with gateway.unix_client() as scanner:
            assert scanner.ask(b"scan till-1\n") == "0 next\n"
            scanner.send(b"0\n0 %s\n" % EAN)
            assert [till.line(), till.line()] == ["0 next\n", f"0 {READ}\n"]


@pytest.fixture
def taken(tmp_path: Path, monkeypatch: pytest.MonkeyPatch) -> Path:
    """What a hub gets that takes all and answers nothing."""
    taken, hub = tmp_path / "taken", tmp_path / "gs1_hub"
    hub.write_text(f"#!/bin/sh\nexec cat > {taken}\n")
    hub.chmod(0o755)
    monkeypatch.setenv("GS1_HUB", str(hub))
    return taken


def test_a_lane_has_few_scans_under_way(tmp_path: Path, taken: Path) -> None:
    """A scan of another lane waits for these alone. Each two seconds they are unread, and others have their turn."""
    with Gateway(tmp_path, port=False) as gateway, gateway.unix_client() as client:
        assert client.ask(b"scan till-1\n") == "0 next\n"
        begin = time.monotonic()
        client.send(b"0\n" + b"".join(b"%d ]E496385074\n" % number for number in range(5_000)))
        for _ in range(64):
            assert client.line().endswith("unread: no answer in 2 seconds\n")
        count = taken.read_bytes().count(b"]E496385074\n")
        assert 64 <= count <= 64 * (1 + (time.monotonic() - begin) // 2)


def test_programs_share_the_rows_under_way(tmp_path: Path, taken: Path) -> None:
    """However many there are, the hub has few rows of theirs, so a scan waits for few."""
    with Gateway(tmp_path) as gateway, contextlib.ExitStack() as programs:
        wanted, until = 0, time.monotonic() + 20
        for count in range(1, 17):
            programs.enter_context(gateway.connect()).send(b"1 1\n" * 500)
            wanted += max(4, 64 // count)
            while taken.read_bytes().count(b",1 1\n") < wanted:
                assert time.monotonic() < until
                time.sleep(0.01)
        time.sleep(0.3)
        assert taken.read_bytes().count(b",1 1\n") == wanted < 256


def test_lines_without_an_end_take_turns(tmp_path: Path) -> None:
    """All that send them together are read no faster than one of them."""
    with Gateway(tmp_path) as gateway, contextlib.ExitStack() as clients:
        held = [clients.enter_context(gateway.unix_client()).socket for _ in range(20)]
        for its in held:
            its.setblocking(False)
        sent, begin = 0, time.monotonic()
        while time.monotonic() < begin + 3:
            for its in held:
                with contextlib.suppress(BlockingIOError):
                    sent += its.send(b"1 " * 100_000)
            time.sleep(0.001)
        took = time.monotonic() - begin
        room = sum(its.getsockopt(socket.SOL_SOCKET, socket.SO_SNDBUF) for its in held)
        print(f"\n{sent / 1e6:.0f} MB in {took:.1f} s, of which {room / 1e6:.0f} MB may wait")
        assert sent - 2 * room < (took / PAUSE + 2 * len(held)) * CUT


def test_twenty_endless_lines_take_turns(monkeypatch: pytest.MonkeyPatch) -> None:
    """The same without sockets, so that it does not depend on the machine's speed."""
    monkeypatch.setattr(_gateway, "PAUSE", 0.05)
    reads = itertools.count()

    class Endless:
        async def read(self, most: int) -> bytes:
            next(reads)
            return b"1" * most

    async def skip(lock: asyncio.Lock) -> None:
        its: Any = object.__new__(_gateway.Connection)
        its.reader = Endless()
        async for _ in its.turns(lock):
            pass

    async def test() -> None:
        lock, begin = asyncio.Lock(), time.monotonic()
        _, tasks = await asyncio.wait([asyncio.ensure_future(skip(lock)) for _ in range(20)], timeout=1)
        count, took = next(reads), time.monotonic() - begin
        for it in tasks:
            it.cancel()
        assert len(tasks) == 20 < count <= took / 0.05 + 21

    asyncio.run(test())


def test_numbers_without_a_scan_leave_others_their_turn() -> None:
    """A scanner that sends 10,000 numbers of a next scan at once: the loop runs others all the while."""
    async def test() -> None:
        its, ends, turns = object.__new__(_gateway.Scanner), asyncio.Event(), itertools.count()
        its._lane, its._listener = ScanLane("till-1", None), Listener(lambda line: None)

        async def other() -> None:
            while not ends.is_set():
                next(turns)
                await asyncio.sleep(0)

        beside = asyncio.ensure_future(other())
        await its.take([b"0"] * 10_000)
        ends.set()
        await beside
        assert next(turns) >= 10_000 // LINES

    asyncio.run(test())


def test_clients_that_wait_come_in_by_fours() -> None:
    """Others have their turn between."""
    async def serve(place: Place, reader: asyncio.StreamReader, writer: asyncio.StreamWriter) -> None:
        await asyncio.sleep(60)

    async def test() -> None:
        listening, places = socket.create_server(("127.0.0.1", 0), backlog=64), Places(100, 100)
        clients = [socket.create_connection(listening.getsockname()) for _ in range(40)]
        door = Door(listening, places, serve, Log(), lambda: None)
        most = before = 0
        while before < len(clients):
            await asyncio.sleep(0)
            most, before = max(most, places.taken - before), places.taken
        door.close()
        assert most <= 4

    asyncio.run(asyncio.wait_for(test(), 30))


def test_a_till_that_takes_nothing_has_no_place(tmp_path: Path) -> None:
    """It does not take the reason why it is closed, either."""
    with Gateway(tmp_path, "--idle", "1", "--metrics", "0", port=False) as gateway, gateway.watch("till-1"), gateway.unix_client() as scanner:
        assert scanner.ask(b"scan till-1\n") == "0 next\n"
        gateway.waits_for(tills=1)
        scanner.send(b"0\n")
        numbers = itertools.count()
        while gateway.numbers()["noriladle_tills"] != "0":
            some = [next(numbers) for _ in range(1_000)]
            scanner.send(b"".join(b"%d %s\n" % (number, EAN) for number in some))
            assert [scanner.line() for _ in some] == [f"{number} {READ}\n" for number in some]
        gateway.waits_for(connections=1)


def flood(path: str, count: int) -> None:
    """Scanners that send as fast as they can, and read what they get, until this program is ended."""
    def drain(its: socket.socket) -> None:
        while its.recv(65_536):
            pass

    def send(its: socket.socket) -> None:
        for begin in itertools.count(0, 2_000):
            its.sendall(b"".join(b"%d %s\n" % (it, EAN) for it in range(begin, begin + 2_000)))

    for number in range(count):
        its = socket.socket(socket.AF_UNIX)
        its.connect(path)
        its.sendall(b"scan bad-%d\n" % number)
        its.recv(100)
        its.sendall(b"0\n")
        threading.Thread(target=drain, args=(its,)).start()
        threading.Thread(target=send, args=(its,)).start()
    time.sleep(0.5)
    print("begun", flush=True)


if __name__ == "__main__":
    flood(sys.argv[1], int(sys.argv[2]))
