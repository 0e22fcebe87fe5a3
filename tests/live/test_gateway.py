"""The gateway with the real program, and clients over TCP and a UNIX socket. Needs socat and pgrep."""
from __future__ import annotations

import asyncio
import json
import os
import signal
import socket
import subprocess
import threading
import time
import urllib.error
import urllib.request
from pathlib import Path
from typing import Iterator

import pytest

from gateway_and_scanners import NORILADLE, ROW, Client, Gateway
from noriladle._service import keep_alive, watchdog
from program_and_rows import READ, noise, random_lanes

LIMIT = 180
TAKEN = "closed: all 16 lanes are taken\n"


@pytest.fixture
def gateway(tmp_path: Path) -> Iterator[Gateway]:
    with Gateway(tmp_path) as it:
        yield it
        # Whatever came, each lane is free again.
        for client in [it.free_lane() for _ in range(16)]:
            client.__exit__()


@pytest.mark.parametrize("kind", ["TCP", "UNIX-CONNECT"])
def test_socat(gateway: Gateway, kind: str) -> None:
    address = f"TCP:127.0.0.1:{gateway.ports['port']}" if kind == "TCP" else f"UNIX-CONNECT:{gateway.unix}"
    rows = ROW + b"\n\r\n100\r\nno row\n" + ROW
    found = subprocess.run(["socat", "-t5", "-", address], input=rows, capture_output=True, check=True).stdout.decode()
    assert found == f"0 {READ}\n1 refused 19 Blank\n- refused 18 BadRuns\n2 {READ}\n"
    assert os.stat(gateway.unix).st_mode & 0o777 == 0o660


@pytest.mark.parametrize("words, gtin, two", [((), "(01)09501101530003", "(10)A=B(21)C"), (("--elements",), "01=09501101530003", "10=A=B\t21=C")])
def test_elements(tmp_path: Path, words: tuple[str, ...], gtin: str, two: str) -> None:
    """In the answers to rows, and in those to scans, as the program writes them; the gateway's own scan is answered too."""
    with Gateway(tmp_path, "--metrics", "0", *words) as gateway, gateway.connect() as client, gateway.unix_client() as scanner:
        assert client.ask(ROW) == f"0 ]E0 {gtin}\n"
        assert client.ask(b"100\n") == "1 refused 19 Blank\n"
        assert client.ask(b"^10A=B^21C\n") == f"- - {two}\n"
        scanner.send(b"scan till-1\n0\n0 ]E09501101530003\n1 ]C110A=B^21C\n2 ]E09501101530004\n")
        assert [scanner.line() for _ in range(4)] == ["0 next\n", f"0 ]E0 {gtin}\n", f"1 ]C1 {two}\n", "2 refused 3 CheckDigit\n"]
        assert page(gateway, "/readyz") == (200, "ready\n")
        assert gateway.numbers()['noriladle_refusals_total{number="3"}'] == "1"


def test_texts_of_scanners(gateway: Gateway) -> None:
    """They take no number."""
    with gateway.connect() as client:
        for number in range(3):
            assert client.ask(ROW) == f"{number} {READ}\n"
            assert client.ask(b"]C110A,B^21C\r\n") == "- ]C1 (10)A,B(21)C\n"
            assert client.ask(b"9501101530003\n") == "- - (01)09501101530003\n"
            assert client.ask(b"]E09501101530004\n") == "- refused 3 CheckDigit\n"


def test_16_connections_and_the_17th(gateway: Gateway) -> None:
    """Rows of 16 at once get the lines of `lanes`, and each connection has its own numbers from 0."""
    asked, wanted = random_lanes(16_000, 16)
    for _ in range(2):
        clients = [gateway.free_lane() for _ in range(16)]
        with gateway.connect() as late:
            assert late.ask(ROW) == TAKEN
        got = [""] * 16

        def one(lane: int) -> None:
            sending = threading.Thread(target=clients[lane].send, args=("\n".join([*asked[lane], ""]).encode(),))
            sending.start()
            lines = [clients[lane].lines.readline().decode() for _ in asked[lane]]
            sending.join()
            got[lane] = "".join(lines) + clients[lane].ends()

        threads = [threading.Thread(target=one, args=(lane,)) for lane in range(16)]
        for thread in threads:
            thread.start()
        for thread in threads:
            thread.join(60)
        for lane in range(16):
            said = [line.split(" ", 2)[2] for line in wanted[lane]]
            assert got[lane] == "".join(f"{number} {text}\n" for number, text in enumerate(said, 1))
            clients[lane].__exit__()


@pytest.mark.parametrize("row, answer", [
    (b"3,100", "- refused 39 Csv"),  # The lane is not the client's to choose.
    (b'"0",100', "- refused 39 Csv"),
    (b"\xff\x00\x1b[2J", "- refused 18 BadRuns"),
    (b"GET / HTTP/1.1\r", "- refused 18 BadRuns"),
    (b"1 " * 40_000, "- refused 44 InputSize"),
    (b"9" * 65_534, "- refused 1 Length"),
    (b"9" * 65_535, "- refused 44 InputSize"),
    (b"x" * 10_000_000, "- refused 44 InputSize"),
    (b"70000", "- refused 17 TooWide"),
    (b"https://id.gs1.org/" + b"1/" * 10_000, "- refused 40 Kind"),
    (b"]C191" + b"A" * 200, "- refused 11 TooLong"),
], ids=["other lane", "quoted", "bytes", "http", "80 kB", "longest", "too long", "10 MB", "wide", "segments", "193 bytes"])
def test_no_row(gateway: Gateway, row: bytes, answer: str) -> None:
    with gateway.connect() as client:
        assert client.ask(ROW) == f"0 {READ}\n"
        assert client.ask(row + b"\n") == f"{answer}\n"
        assert client.ask(ROW) == f"1 {READ}\n"


def test_noise(gateway: Gateway) -> None:
    """Random bytes: each line that is not blank gets one answer."""
    sent = noise(1_000_000).replace(b"\r", b"") + b"\n"
    with gateway.connect() as client:
        sending = threading.Thread(target=client.send, args=(sent,))
        sending.start()
        for line in filter(None, sent.split(b"\n")):
            assert client.lines.readline().split()[1] == b"refused", line
        sending.join()
        assert client.ask(ROW).endswith(f" {READ}\n")


def test_10_mb_without_a_line_end_take_no_memory(gateway: Gateway) -> None:
    before = gateway.most_memory()
    with gateway.connect() as client:
        for _ in range(100):
            client.send(b"1 " * 50_000)
            assert gateway.most_memory() - before < 2_000
        assert client.ask(b"\n") == "- refused 44 InputSize\n"


def test_a_line_that_was_cut_is_no_row(gateway: Gateway) -> None:
    with gateway.connect() as client:
        client.send(ROW + ROW[:-10])
        assert client.ends() == f"0 {READ}\n"
    with gateway.connect() as client:
        # It is no row before its end comes, either.
        client.send(ROW[:-1])
        client.socket.settimeout(0.3)
        with pytest.raises(socket.timeout):
            client.lines.readline()


def test_connections_that_are_reset(gateway: Gateway) -> None:
    """In the middle of a line, and of a turn; more of them than there are lanes."""
    for count in range(80):
        client = gateway.free_lane()
        client.send(ROW * (count % 2 * 2_000) + ROW[:-10])
        client.reset()


def test_idle(tmp_path: Path) -> None:
    with Gateway(tmp_path, "--idle", "0.5", "--lanes", "1") as gateway:
        with gateway.connect() as client:
            assert client.ask(ROW) == f"0 {READ}\n"
            client.send(b"11 1")
            assert client.lines.read() == b"closed: nothing came or was taken for 0.5 seconds\n"
        # One that waits for the gateway is not idle, nor is a till.
        till = gateway.watch("till-1")
        with gateway.free_lane() as client:
            os.kill(gateway.hub(), signal.SIGSTOP)
            client.send(ROW)
            time.sleep(1.2)
            os.kill(gateway.hub(), signal.SIGCONT)
            assert client.line() == f"1 {READ}\n"
        with till, gateway.unix_client() as scanner:
            assert scanner.ask(b"scan till-1\n") == "0 next\n"
            scanner.send(b"0\n")
            assert till.line() == "0 next\n"
        # One that sends and takes nothing has its lane until its answers have filled all buffers, and no longer.
        gateway.free_lane().__exit__()
        with flood(gateway):
            gateway.free_lane().__exit__()


def flood(gateway: Gateway) -> Client:
    """A connection that takes no answer, and has sent rows until no more were taken, or it was closed: the buffers of a UNIX socket
    are small."""
    client = Client(gateway.unix, socket.AF_UNIX)
    client.socket.settimeout(3)
    with pytest.raises(OSError):
        for _ in range(50):
            client.send(b"100\n" * 10_000)
    return client


def test_one_that_takes_nothing_holds_up_no_other(tmp_path: Path) -> None:
    """Nor is anything more read of it."""
    with Gateway(tmp_path, "--metrics", "0") as gateway, flood(gateway):
        answered = gateway.numbers()["noriladle_answers_total"]
        with gateway.connect() as client:
            for number in range(100):
                assert client.ask(ROW) == f"{number} {READ}\n"
        time.sleep(0.5)
        assert int(gateway.numbers()["noriladle_answers_total"]) == int(answered) + 100


def test_the_hub_dies(tmp_path: Path) -> None:
    """Each connection gets the reason, and the gateway ends with status 1, so systemd starts it again."""
    with Gateway(tmp_path) as gateway:
        clients = [gateway.free_lane() for _ in range(16)]
        os.kill(gateway.hub(), signal.SIGSTOP)
        for client in clients[:8]:
            client.send(ROW)
        time.sleep(0.1)
        os.kill(gateway.hub(), signal.SIGKILL)
        for client in clients:
            assert client.lines.read() == b"closed: the hub has ended, status -9\n"
            client.__exit__()
        assert gateway.process.wait(10) == 1 and not os.path.exists(gateway.unix)
        assert gateway.process.stderr.read().endswith("Z the hub has ended, status -9\n")


def test_a_second_gateway_on_one_socket(tmp_path: Path) -> None:
    """It ends at once, and the first keeps its socket."""
    with Gateway(tmp_path) as gateway:
        ran = subprocess.run([*NORILADLE, "gateway", "--unix", gateway.unix], capture_output=True, text=True, timeout=20)
        assert ran.returncode == 2
        assert ran.stderr == f"noriladle: another gateway has {gateway.unix}; end it, or name another socket\n"
        with gateway.unix_client() as client:
            assert client.ask(ROW) == f"0 {READ}\n"


def test_lanes_are_kept_for_the_unix_socket(tmp_path: Path) -> None:
    with Gateway(tmp_path, "--lanes", "3", "--kept", "1") as gateway:
        clients = [gateway.free_lane(), gateway.free_lane()]
        with gateway.connect() as late, gateway.unix_client() as client:
            assert late.ask(ROW) == "closed: all 2 lanes for TCP are taken\n"
            assert client.ask(ROW) == f"0 {READ}\n"
        for client in clients:
            client.__exit__()
        gateway.free_lane().__exit__()
    # TCP has one of them at least.
    with Gateway(tmp_path, "--lanes", "2", "--kept", "4") as gateway:
        gateway.free_lane().__exit__()


def test_silent_connections_take_no_lane(gateway: Gateway) -> None:
    """Forty that say nothing, or half a line, and one that works."""
    silent = [gateway.connect() for _ in range(40)]
    for client in silent[:20]:
        client.send(b"11 1")
    gateway.free_lane().__exit__()
    for client in silent:
        client.__exit__()


def test_too_many_connections(tmp_path: Path) -> None:
    with Gateway(tmp_path, "--connections", "3") as gateway:
        time.sleep(1)  # The one that tried whether it is there has gone.
        clients = [gateway.connect() for _ in range(3)]
        for client in clients:
            assert client.ask(ROW) == f"0 {READ}\n"
        with gateway.connect() as late:
            assert late.line() == "closed: there are 3 connections\n"
        for client in clients:
            client.__exit__()
        gateway.free_lane().__exit__()


def test_many_connections(tmp_path: Path) -> None:
    """Connections above 256 get the reason, and the others are served."""
    with Gateway(tmp_path, "--each", "10000") as gateway:
        time.sleep(1)  # The one that tried whether it is there has gone.
        clients = [gateway.unix_client() for _ in range(900)]
        closed = 0
        for number, client in enumerate(clients):
            if number % 50 == 0 and number < 250:
                assert client.ask(ROW) == f"0 {READ}\n"
            elif number >= 300:
                closed += client.lines.readline() == b"closed: there are 256 connections\n"
        assert closed == 600
        for client in clients:
            client.__exit__()
        gateway.free_lane().__exit__()


def test_a_line_that_comes_byte_by_byte_is_no_sign_of_life(tmp_path: Path) -> None:
    """A client that sends a byte now and then does not keep its lane."""
    with Gateway(tmp_path, "--idle", "0.5", "--lanes", "1") as gateway, gateway.connect() as client:
        assert client.ask(ROW) == f"0 {READ}\n"
        with pytest.raises(OSError):
            for _ in range(50):
                client.send(b"1")
                time.sleep(0.1)


def page(gateway: Gateway, path: str) -> tuple[int, str]:
    """The status and the text of a page for operators."""
    try:
        with urllib.request.urlopen(f"http://127.0.0.1:{gateway.ports['metrics']}{path}", timeout=10) as answer:
            return answer.status, answer.read().decode()
    except urllib.error.HTTPError as refused:
        return refused.code, refused.read().decode()


def test_health_and_metrics(tmp_path: Path) -> None:
    with Gateway(tmp_path, "--metrics", "0") as gateway:
        with gateway.free_lane() as client:
            assert client.ask(b"100\n") == "1 refused 19 Blank\n"
            assert (page(gateway, "/healthz"), page(gateway, "/readyz")) == ((200, "ok\n"), (200, "ready\n"))
            assert page(gateway, "/")[0] == 404
            values = gateway.numbers()
            assert values["noriladle_answers_total"] == "2" and values["noriladle_connections"] == "1"
            assert values['noriladle_refusals_total{number="19"}'] == "1" and values["noriladle_lanes_free"] == "15"
        # A till that has gone is counted no more.
        with gateway.watch("till-1"):
            gateway.waits_for(tills=1)
        gateway.waits_for(tills=0)
        for junk in (b"\r\n", b"x" * 10_000, b"GET\n", b""):
            with Client(("127.0.0.1", gateway.ports["metrics"])) as client:
                client.send(junk)
                client.ends()
        assert page(gateway, "/healthz") == (200, "ok\n")


def test_log(tmp_path: Path) -> None:
    """A line for each connection, with its time and its peer, as text or as JSON."""
    gateway = Gateway(tmp_path, "--log", "all", "--json")
    with gateway.watch("till-1") as till, gateway.unix_client() as scanner:
        assert scanner.ask(b"scan till-1\n") == "0 next\n"
        for _ in range(3):
            with gateway.unix_client() as other:
                assert other.ask(b"scan till-1\n") == "closed: lane till-1 has a scanner\n"
        scanner.send(b"0\nbad\n")
        assert till.line() == "0 next\n"
        assert scanner.line() == "closed: a scan is a number, a blank and a text\n"
        with gateway.unix_client() as scanner, gateway.unix_client() as other:
            assert scanner.ask(b"scan till-1\n") == "0 next\n"
            assert other.ask(b"scan till-1\n") == "closed: lane till-1 has a scanner\n"
    gateway.process.terminate()
    lines = [json.loads(line) for line in gateway.process.communicate(timeout=20)[1].splitlines()]
    assert all(line["kind"] == "note" and line["time"].startswith("20") and line["peer"].startswith("pid-") for line in lines)
    told = [(line["what"], line.get("lane"), line.get("why")) for line in lines]
    assert {("till", "till-1", None), ("scanner", "till-1", None), ("closed", None, "a scan is a number, a blank and a text")} <= set(told)
    assert told.count(("a second scanner was refused", "till-1", None)) == 2  # Once beside each scanner: its program tries again each second.


@pytest.mark.parametrize("text, wanted", [
    ("lanez = 3\n", ":1: there is no option 'lanez' (did you mean lanes?)"),
    ("# ours\n\nidle = -1\n", ":3: idle: '-1' is no number of seconds above 0"),
    ("lanes = 17\n", ":1: lanes: '17' is no number from 1 to 16"),
    ("lanes = [1]\n", ":1: lanes: it is one text or number"),
    ("log = 'some'\n", ":1: log: 'some' is none of faults, all"),
    ("json = 'yes'\n", ":1: json: it is true or false"),
    ("origin = 'https://one.example'\n", ":1: origin: it is a list"),
    ("lanes = 3\nlanes = 4\n", ": Cannot overwrite a value (at line 2"),
    ("lanes = \n", ": Invalid value (at line 1"),
    ("[gateway]\nlanes = 3\n", ":1: there is no option 'gateway'"),
    ("token = 'abc'\n", ":1: there is no option 'token'"),
    ("config = 'other.toml'\n", ":1: there is no option 'config'"),
    ("rights = 'all'\n", ":1: rights: it is a table of texts"),
    ("[rights]\n'user anna' = 3\n", ":1: rights: it is a table of texts"),
    ("[rights]\n\nanna = 'rows'\n", ":3: anna: who is \"anyone\", \"user NAME\""),
    ("[rights]\n'token abc' = 'rows'\n", ":2: token abc: who is"),
    ("[rights]\nanyone = 'rows, read till-1'\n", ":2: anyone: what is \"rows\", \"scan LANE\""),
    ("[rights]\nanyone = ''\n", ":2: anyone: what is"),
])
def test_a_file_of_options_that_is_wrong(tmp_path: Path, text: str, wanted: str) -> None:
    file = tmp_path / "gateway.toml"
    file.write_text(text)
    ran = subprocess.run([*NORILADLE, "gateway", "--unix", str(tmp_path / "hub"), "--config", file], capture_output=True, text=True)
    assert ran.returncode == 2 and ran.stderr.startswith(f"noriladle: {file}{wanted}"), ran.stderr


def test_a_file_of_options(tmp_path: Path) -> None:
    """What stands in it holds unless a word says otherwise, at each reload too; a part of it can be changed at work."""
    file = tmp_path / "gateway.toml"
    file.write_text("lanes = 2\nidle = 30\nelements = true\nconnections = 1\n")
    with Gateway(tmp_path, "--lanes", "1", "--connections", "5", "--config", str(file)) as gateway:
        for idle in (0.5, 0.3):
            with gateway.connect() as client, gateway.connect() as late:
                assert client.ask(ROW) == "0 ]E0 01=09501101530003\n"
                assert late.ask(ROW) == "closed: all 1 lanes are taken\n"
                file.write_text(f"lanes = 2\nidle = {idle}\nelements = true\nconnections = 1\n")
                gateway.process.send_signal(signal.SIGHUP)
                assert client.lines.read() == f"closed: nothing came or was taken for {idle} seconds\n".encode()


def test_a_file_that_is_wrong_changes_nothing_at_work(tmp_path: Path) -> None:
    file = tmp_path / "gateway.toml"
    file.write_text("idle = 30\n")
    gateway = Gateway(tmp_path, "--config", str(file))
    with gateway.connect() as client:
        assert client.ask(ROW) == f"0 {READ}\n"
        file.write_text("idle = 0\n")
        gateway.process.send_signal(signal.SIGHUP)
        assert f"{file}:1: idle: '0' is no number of seconds above 0" in gateway.process.stderr.readline()
        file.write_text("idle = 30\nlanes = 3\n")
        gateway.process.send_signal(signal.SIGHUP)
        assert gateway.process.stderr.readline().endswith(" lanes changes when the gateway is started again\n")
        assert client.ask(ROW) == f"1 {READ}\n"
    gateway.__exit__()


class Notified:
    """A socket like systemd's, and the messages of a service to it."""

    def __init__(self, folder: Path) -> None:
        self.path = str(folder / "notify")
        self.socket = socket.socket(socket.AF_UNIX, socket.SOCK_DGRAM)
        self.socket.bind(self.path)
        self.socket.settimeout(20)

    def next(self) -> str:
        return self.socket.recv(4096).decode()


def test_systemd_is_told(tmp_path: Path, monkeypatch: pytest.MonkeyPatch) -> None:
    """When it is ready, that it lives, that it reloads its options, and that it stops."""
    systemd = Notified(tmp_path)
    monkeypatch.setenv("NOTIFY_SOCKET", systemd.path)
    monkeypatch.setenv("WATCHDOG_USEC", "600000")
    with Gateway(tmp_path, "--config", "/dev/null") as gateway:
        told = [systemd.next() for _ in range(5)]
        assert sorted(set(told)) == ["READY=1", "WATCHDOG=1"]
        gateway.process.send_signal(signal.SIGHUP)
        told = [systemd.next() for _ in range(4)]
        assert "RELOADING=1" in told and "READY=1" in told
        # A hub that does not answer is no life.
        os.kill(gateway.hub(), signal.SIGSTOP)
        time.sleep(0.3)
        systemd.socket.settimeout(0.1)
        with pytest.raises(OSError):
            while True:
                systemd.next()
        systemd.socket.settimeout(1)
        with pytest.raises(OSError):
            systemd.next()
        os.kill(gateway.hub(), signal.SIGCONT)
        assert systemd.next() == "WATCHDOG=1"
        gateway.process.terminate()
        systemd.socket.settimeout(20)
        while systemd.next() != "STOPPING=1":
            pass


@pytest.mark.parametrize("number", [signal.SIGTERM, signal.SIGINT])
def test_it_stops_when_told(tmp_path: Path, number: signal.Signals) -> None:
    with Gateway(tmp_path) as gateway:
        with gateway.free_lane() as client, flood(gateway):
            hub = gateway.hub()
            gateway.process.send_signal(number)
            assert client.lines.read() == b"closed: the gateway stops\n"
            assert gateway.process.wait(10) == 0 and not os.path.exists(gateway.unix)
            with pytest.raises(ProcessLookupError):
                os.kill(hub, 0)


def test_it_stops_beside_a_hub_that_is_stopped(tmp_path: Path) -> None:
    """Within the ten seconds after which systemd would kill it; its clients are told first."""
    with Gateway(tmp_path) as gateway, gateway.free_lane() as client:
        hub, begin = gateway.hub(), time.monotonic()
        os.kill(hub, signal.SIGSTOP)
        client.send(ROW)
        time.sleep(0.3)
        gateway.process.terminate()
        assert client.line() == "closed: the gateway stops\n" and time.monotonic() - begin < 4
        assert gateway.process.wait(20) == 0 and time.monotonic() - begin < 10
        with pytest.raises(ProcessLookupError):
            os.kill(hub, 0)


def test_the_watchdog_of_another_process(monkeypatch: pytest.MonkeyPatch) -> None:
    """Its time is none of this one's."""
    monkeypatch.setenv("WATCHDOG_USEC", "600000")
    for pid, wanted in ((os.getpid(), 0.6), (1, None)):
        monkeypatch.setenv("WATCHDOG_PID", str(pid))
        assert watchdog() == wanted


def test_signs_of_life(monkeypatch: pytest.MonkeyPatch) -> None:
    """Three in the time that systemd gives the service; its socket may have a name without a file."""
    name, asked, slept = f"noriladle-{os.getpid()}", [], []

    async def sleep(seconds: float) -> None:
        slept.append(seconds)
        monkeypatch.delenv("NOTIFY_SOCKET")
        raise asyncio.CancelledError

    async def is_well() -> None:
        asked.append(1)

    monkeypatch.setenv("WATCHDOG_USEC", "30000000")
    monkeypatch.setenv("NOTIFY_SOCKET", f"@{name}")
    with socket.socket(socket.AF_UNIX, socket.SOCK_DGRAM) as systemd:
        systemd.bind(f"\0{name}")
        systemd.settimeout(5)
        with monkeypatch.context() as its:
            its.setattr(asyncio, "sleep", sleep)
            with pytest.raises(asyncio.CancelledError):
                asyncio.run(keep_alive(is_well))
        assert systemd.recv(100) == b"WATCHDOG=1"
    assert asked == [1] and slept == [10]


@pytest.mark.parametrize("has_row", [True, False])
def test_it_answers_what_is_under_way_before_it_stops(tmp_path: Path, has_row: bool) -> None:
    """A scan that the hub has, and a row."""
    with Gateway(tmp_path) as gateway, gateway.free_lane() as client, gateway.unix_client() as scanner:
        assert scanner.ask(b"scan till-1\n") == "0 next\n"
        hub = gateway.hub()
        os.kill(hub, signal.SIGSTOP)
        if has_row:
            client.send(ROW)
        scanner.send(b"0\n0 ]E09501101530003\n")
        time.sleep(0.3)
        gateway.process.send_signal(signal.SIGTERM)
        time.sleep(0.3)
        os.kill(hub, signal.SIGCONT)
        assert client.lines.read().decode() == f"1 {READ}\n" * has_row + "closed: the gateway stops\n"
        assert scanner.lines.read() == f"0 {READ}\nclosed: the gateway stops\n".encode()


def test_a_client_that_has_said_all_gets_its_answers(tmp_path: Path) -> None:
    """A scanner that sends no more, while the hub takes its time."""
    with Gateway(tmp_path, port=False) as gateway, gateway.unix_client() as scanner:
        assert scanner.ask(b"scan till-1\n") == "0 next\n"
        hub = gateway.hub()
        os.kill(hub, signal.SIGSTOP)
        threading.Timer(0.5, os.kill, [hub, signal.SIGCONT]).start()
        scanner.send(b"0\n0 ]E09501101530003\n")
        assert scanner.ends() == f"0 {READ}\n"


def test_a_socket_that_was_left(tmp_path: Path) -> None:
    """One that was killed leaves its socket, and the next takes its place."""
    with Gateway(tmp_path) as gateway:
        gateway.process.kill()
        gateway.process.wait()
    with Gateway(tmp_path) as gateway, Client(gateway.unix, socket.AF_UNIX) as client:
        assert client.ask(ROW) == f"0 {READ}\n"


@pytest.mark.parametrize("words, status, wanted", [
    ([], 2, "noriladle: name a socket by --unix or --port\n"),
    (["--port", "0", "--lanes", "17"], 2, "argument --lanes: '17' is no number from 1 to 16"),
    (["--port", "0", "--year", "1950"], 2, "argument --year: '1950' is no year from 1951 to 2149"),
    (["--port", "65536"], 2, "argument --port: '65536' is no port from 0 to 65535"),
    (["--port", "0", "--idle", "0"], 2, "argument --idle: '0' is no number of seconds above 0"),
    (["--unix", "no/such/folder/hub"], 1, "noriladle: no/such/folder/hub.lock: No such file or directory\n"),
])
def test_words(words: list[str], status: int, wanted: str) -> None:
    ran = subprocess.run([*NORILADLE, "gateway", *words], capture_output=True, text=True)
    assert ran.returncode == status and wanted in ran.stderr and "Traceback" not in ran.stderr


def test_no_program() -> None:
    ran = subprocess.run([*NORILADLE, "gateway", "--port", "0"], capture_output=True, text=True, env={**os.environ, "GS1_HUB": "no/such/program"})
    assert (ran.returncode, ran.stderr) == (1, "noriladle: no/such/program: No such file or directory\n")


def test_one_at_a_time(gateway: Gateway) -> None:
    with gateway.connect() as client:
        client.socket.setsockopt(socket.IPPROTO_TCP, socket.TCP_NODELAY, 1)
        times = []
        for number in range(3_000):
            start = time.perf_counter()
            assert client.ask(ROW) == f"{number} {READ}\n"
            times.append((time.perf_counter() - start) * 1e6)
        times.sort()
        print(f"\nTCP, one at a time: median {times[1_500]:.0f} microseconds, 99 of 100 below {times[2_970]:.0f}")
