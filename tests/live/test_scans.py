"""From scanner to till: six scanners, six tills and one gateway, whatever comes and goes. Needs pgrep."""
from __future__ import annotations

import asyncio
import itertools
import os
import random
import re
import signal
import socket
import statistics
import threading
import time
from pathlib import Path
from typing import Callable, Iterator

import pytest

from gateway_and_scanners import Client, Gateway, Serial, Till
from noriladle._gateway import UNREAD_LINES
from noriladle._scans import Listener, ScanLane
from noriladle.commands.scanner import _checked
from noriladle.live import Reply
from program_and_rows import SEED, noise

LIMIT = 500
EAN8 = b"]E496385074"
GUM = "]E4 (01)00000096385074"
LANES = [f"till-{number}" for number in range(1, 7)]
SCANS = int(os.environ.get("SCANS", "100000"))
WINDOW = 40
RESTARTS = 10


@pytest.fixture
def gateway(tmp_path: Path) -> Iterator[Gateway]:
    with Gateway(tmp_path, port=False) as it:
        yield it


def plug(gateway: Gateway, lane: str) -> Serial:
    return Serial("--gateway", gateway.unix, "--lane", lane)


def wait_for(what: Callable[[], object], seconds: float = 20) -> None:
    until = time.monotonic() + seconds
    while not what():
        assert time.monotonic() < until, "it does not come"
        time.sleep(0.01)


class Lane(threading.Thread):
    """A scanner that is used without a pause and pulled out now and then, in mid-line, and plugged in again."""

    def __init__(self, gateway: Gateway, name: str, count: int, seed: int) -> None:
        super().__init__()
        self.gateway, self.name_of_lane, self.count, self.random = gateway, name, count, random.Random(seed)
        self.sent = 0
        self.plugged = 0
        self.fault: BaseException | None = None

    def run(self) -> None:
        try:
            while self.sent < self.count:
                self.plugged += 1
                self.use(min(self.count, self.sent + self.random.randrange(self.count // 6, self.count // 3)))
        except BaseException as fault:  # The test raises it again.
            self.fault = fault

    def use(self, until: int) -> None:
        """Scans until this many texts were sent, each answered or unread; the scanner is pulled out then."""
        with plug(self.gateway, self.name_of_lane) as scanner:
            settled = self.sent
            while settled < until:
                while self.sent < min(until, settled + WINDOW):
                    scanner.send(b"]C121%d%s" % (self.sent, self.random.choice([b"\r", b"\n", b"\r\n"])), size=100)
                    self.sent += 1
                line = scanner.line()
                assert re.match(r"\d+ (\]C1|unread:)", line), line
                settled += 1
            scanner.send(EAN8[:5])
            time.sleep(0.05)
            scanner.unplug()
            assert scanner.ended()[2] == 0


def restart(gateway: Gateway, folder: Path, at: int, lanes: list[Lane]) -> None:
    """Ends the gateway, by a signal that it hears of or not, and starts another after a while; when this many were sent."""
    for number in range(RESTARTS):
        while sum(lane.sent for lane in lanes) < at * (number + 1):
            if not any(lane.is_alive() for lane in lanes):
                return
            time.sleep(0.02)
        gateway.process.send_signal(signal.SIGKILL if number % 3 else signal.SIGTERM)
        gateway.process.communicate(timeout=20)
        time.sleep(random.Random(SEED + number).choice([0, 0.3, 2.5]))
        gateway.process = Gateway(folder, port=False).process


def is_answered_once(lane: Lane, till: Till) -> int:
    """Whether a till was told of each scan once and in order, or that it was lost; how many were."""
    sold = [int(found[1]) for line in till.lines for found in [re.fullmatch(r"sold: \d+ \]C1 \(21\)(\d+)\n", line)] if found]
    lost = [found[1] for line in till.lines for found in [re.fullmatch(r"again, please: (\d+|some) scans were lost\n", line)] if found]
    # Half a text may be told as unread before its scanner is pulled out, on a machine that is slow.
    halves = [line for line in till.lines if " unread: no CR, LF, Tab or Enter came behind the text" in line]
    unread = [line for line in till.lines if re.fullmatch(r"again, please: \d+ unread: .*\n", line) and line not in halves]
    assert len(halves) <= lane.plugged
    others = [line for line in till.lines if not re.match(r"sold: |again, please: |closed: the gateway stops", line)]
    assert not others, others[:3]
    assert all(one < two for one, two in zip(sold, sold[1:])), "an answer came twice, or out of order"
    assert set(sold) <= set(range(lane.sent))
    missing = lane.sent - len(sold)
    if "some" not in lost:
        assert sum(map(int, lost)) + len(unread) == missing, (lost, unread, missing)
    return missing


@pytest.mark.limit(450)
def test_six_scanners_and_six_tills(tmp_path: Path) -> None:
    """100,000 scans; scanners are plugged in and out, and the gateway is started again."""
    gateway = Gateway(tmp_path, port=False)
    tills = [Till(gateway.unix, name) for name in LANES]
    lanes = [Lane(gateway, name, -(-SCANS // len(LANES)), SEED + number) for number, name in enumerate(LANES)]
    begin = time.monotonic()
    for lane in lanes:
        lane.start()
    try:
        restart(gateway, tmp_path, SCANS // (RESTARTS + 1), lanes)
        for lane in lanes:
            lane.join(300)
            assert not lane.is_alive() and not lane.fault, lane.fault
        wait_for(lambda: all(len(till.lines) == before for till, before in [(it, (len(it.lines), time.sleep(0.3))[0]) for it in tills]))
    finally:
        for till in tills:
            till.__exit__()
        gateway.process.terminate()
        gateway.process.communicate(timeout=20)
    missing = [is_answered_once(lane, till) for lane, till in zip(lanes, tills)]
    sent = sum(lane.sent for lane in lanes)
    print(f"\nseed {SEED}: {sent} scans in {time.monotonic() - begin:.0f} s, {RESTARTS} gateways, scanners plugged in "
          f"{sum(lane.plugged for lane in lanes)} times: {sent - sum(missing)} told once and in order, {sum(missing)} told as lost, 0 else")


def test_scanner_to_till(gateway: Gateway) -> None:
    """How long it takes, one at a time."""
    with gateway.watch("till-1") as till, plug(gateway, "till-1") as scanner:
        assert till.line() == "0 next\n"
        times = []
        for number in range(2_000):
            begin = time.perf_counter()
            os.write(scanner.ours, EAN8 + b"\r")
            line = till.line()
            times.append((time.perf_counter() - begin) * 1e3)
            assert line == f"{number} {GUM}\n"
            scanner.line()
        print(f"\nscanner to till: median {statistics.median(times):.2f} ms, 99 of 100 below {sorted(times)[1980]:.2f} ms")


def test_a_till_that_comes_late_is_told_the_next_number_and_no_old_scan(gateway: Gateway) -> None:
    with plug(gateway, "till-1") as scanner:
        for number in range(3):
            scanner.send(EAN8 + b"\r")
            assert scanner.line() == f"{number} {GUM}\n"
        with gateway.watch("till-1") as till, gateway.watch("till-1") as display:
            assert till.line() == display.line() == "3 next\n"
            scanner.send(EAN8 + b"\r")
            assert till.line() == display.line() == f"3 {GUM}\n"


def test_a_till_without_a_scanner_hears_nothing_until_one_comes(gateway: Gateway) -> None:
    with gateway.watch("till-1") as till, gateway.watch("till-2") as other:
        till.socket.settimeout(0.3)
        with pytest.raises(OSError):
            till.socket.recv(1)
        till.socket.settimeout(20)
        with plug(gateway, "till-1") as scanner:
            scanner.send(EAN8 + b"\r")
            assert [till.line(), till.line()] == ["0 next\n", f"0 {GUM}\n"]
            other.socket.settimeout(0.3)
            with pytest.raises(OSError):
                other.socket.recv(1)


def test_a_scanner_that_is_plugged_in_again_goes_on_with_the_numbers(gateway: Gateway) -> None:
    with gateway.watch("till-1") as till:
        for number in range(3):
            with plug(gateway, "till-1") as scanner:
                assert till.line() == f"{number} next\n"
                scanner.send(EAN8 + b"\r" + EAN8[:4], size=100)
                assert till.line() == f"{number} {GUM}\n"
                scanner.unplug()
                assert scanner.ended()[2] == 0


def test_a_scanner_that_is_unplugged_gets_the_answer_to_its_last_scan(gateway: Gateway) -> None:
    with plug(gateway, "till-1") as scanner:
        scanner.send(EAN8 + b"\r")
        assert scanner.line() == f"0 {GUM}\n"
        os.kill(gateway.hub(), signal.SIGSTOP)
        scanner.send(EAN8 + b"\r")
        time.sleep(0.2)
        scanner.unplug()
        time.sleep(0.3)
        os.kill(gateway.hub(), signal.SIGCONT)
        assert scanner.ended() == (f"1 {GUM}\n", f"{scanner.device}: unplugged\n", 0)


def test_two_scanners_on_a_lane(gateway: Gateway) -> None:
    """The first has it; what the second scans is unread, until the first is unplugged."""
    with gateway.watch("till-1") as till, plug(gateway, "till-1") as first:
        assert till.line() == "0 next\n"
        with plug(gateway, "till-1") as second:
            second.send(EAN8 + b"\r")
            assert second.line() == "0 unread: lane till-1 has a scanner\n"
            first.send(EAN8 + b"\r")
            assert first.line() == till.line() == f"0 {GUM}\n"
            first.unplug()
            assert first.ended()[2] == 0
            # Its scans in vain are reported as lost when it has the lane.
            assert till.line() == "2 next\n"
            second.send(EAN8 + b"\r")
            assert till.line() == second.line() == f"2 {GUM}\n"
            # It has told what was lost, so it ends at once.
            begin = time.monotonic()
            second.unplug()
            assert second.ended()[2] == 0 and time.monotonic() - begin < 2


def test_no_gateway(tmp_path: Path) -> None:
    """What is scanned has two seconds until there is one."""
    with Serial("--gateway", str(tmp_path / "hub"), "--lane", "till-1") as scanner:
        begin = time.monotonic()
        scanner.send(EAN8 + b"\r")
        assert scanner.line() == f"0 unread: {tmp_path}/hub: No such file or directory\n"
        assert 1.9 < time.monotonic() - begin < 4
        scanner.send(EAN8 + b"\r")
        with Gateway(tmp_path, port=False) as gateway, gateway.watch("till-1") as till:
            if scanner.line() == f"1 {GUM}\n":
                first = till.line()
                assert first == "2 next\n" or first == "1 next\n" and till.line() == f"1 {GUM}\n"


def test_a_gateway_that_lets_nobody_in(tmp_path: Path) -> None:
    """It was stopped, and as many clients wait as may: a scan is unread in its time."""
    with socket.socket(socket.AF_UNIX) as listening, socket.socket(socket.AF_UNIX) as waiting:
        listening.bind(str(tmp_path / "hub"))
        listening.listen(0)
        waiting.connect(listening.getsockname())
        with Serial("--gateway", listening.getsockname(), "--lane", "till-1") as scanner:
            scanner.send(EAN8 + b"\r")
            assert scanner.line() == f"0 unread: {tmp_path}/hub: Resource temporarily unavailable\n"


def test_a_text_is_sent_once(tmp_path: Path) -> None:
    """A gateway that ends with a text may have told the till of it: the next one gets the number behind it, and no text."""
    with socket.socket(socket.AF_UNIX) as listening:
        listening.bind(str(tmp_path / "hub"))
        listening.listen()
        with Serial("--gateway", str(tmp_path / "hub"), "--lane", "till-1") as scanner:
            for number in range(3):
                end, _ = listening.accept()
                with end, end.makefile("rb") as lines:
                    series = re.fullmatch(rb"scan till-1 2 ([0-9a-f]{8})\n", lines.readline())[1]
                    end.sendall(b"0 %.3f next %s\n" % (time.time(), series))
                    # Within the two seconds that the text before would have had.
                    assert re.fullmatch(rb"%d \d+\.\d{3}\n" % number, lines.readline())
                    assert number == 0 or scanner.line().startswith(f"{number - 1} unread: ")
                    scanner.send(EAN8 + b"\r")
                    assert re.fullmatch(rb"%d \d+\.\d{3} %s\n" % (number, re.escape(EAN8)), lines.readline())


@pytest.mark.parametrize("stalled", ["the gateway", "the hub"])
def test_an_answer_that_comes_late_is_not_told(gateway: Gateway, stalled: str) -> None:
    """For three seconds nothing answers; the next customer gets no answer of the one before."""
    pid = gateway.process.pid if stalled == "the gateway" else gateway.hub()
    with gateway.watch("till-1") as till, plug(gateway, "till-1") as scanner:
        assert till.line() == "0 next\n"
        os.kill(pid, signal.SIGSTOP)
        begin = time.monotonic()
        scanner.send(EAN8 + b"\r")
        assert scanner.line() == "0 unread: no answer in 2 seconds\n"
        assert 1.9 < time.monotonic() - begin < 3
        time.sleep(1)
        os.kill(pid, signal.SIGCONT)
        time.sleep(0.2)
        scanner.send(EAN8 + b"\r")
        told = [till.line()]
        while told[-1] != f"1 {GUM}\n":
            told.append(till.line())
        assert set(told[:-1]) <= {"0 unread: no answer in 2 seconds\n", "1 next\n"} and len(told) > 1


def test_an_answer_that_waited_while_the_scanner_slept(gateway: Gateway) -> None:
    """Its program prints and types nothing of it."""
    with plug(gateway, "till-1") as scanner:
        scanner.send(EAN8 + b"\r")
        assert scanner.line() == f"0 {GUM}\n"
        hub = gateway.hub()
        os.kill(hub, signal.SIGSTOP)
        scanner.send(EAN8 + b"\r")
        time.sleep(0.3)
        scanner.process.send_signal(signal.SIGSTOP)
        os.kill(hub, signal.SIGCONT)
        time.sleep(3)
        scanner.process.send_signal(signal.SIGCONT)
        assert scanner.line() == "1 unread: no answer in 2 seconds\n"


def test_an_answer_that_the_gateway_had_before_it_slept() -> None:
    """It is told to nobody, though the loop comes to it before it gives up the scan."""
    async def test() -> None:
        reply = asyncio.get_running_loop().create_future()
        told: list[str] = []
        lane = ScanLane("till-1", type("Asked", (), {"ask": lambda self, text: reply})())
        lane.watch(Listener(told.append))
        lane.begin(lane.join())
        lane.scan(0, EAN8)
        time.sleep(2.1)
        reply.set_result(Reply(0, None, GUM, 0))
        await asyncio.sleep(0.1)
        assert told == ["0 next\n", "0 unread: no answer in 2 seconds\n"] and lane.unread == 1

    asyncio.run(test())


def test_a_scan_has_two_seconds_whatever_its_program_does(gateway: Gateway) -> None:
    """The gateway reports it to the till by itself."""
    with gateway.watch("till-1") as till, gateway.unix_client() as scanner:
        assert scanner.ask(b"scan till-1\n0\n") == "0 next\n" == till.line()
        os.kill(gateway.hub(), signal.SIGSTOP)
        begin = time.monotonic()
        for number in (b"0 ", b"1 "):  # The second one comes while the first one waits.
            scanner.send(number + EAN8 + b"\n")
            time.sleep(0.1)
        assert till.line() == scanner.line() == "0 unread: no answer in 2 seconds\n" and 1.9 < time.monotonic() - begin < 4
        first = time.monotonic()
        assert till.line() == scanner.line() == "1 unread: no answer in 2 seconds\n" and time.monotonic() - first < 1.5
        os.kill(gateway.hub(), signal.SIGCONT)
        scanner.send(b"2 " + EAN8 + b"\n")
        assert till.line() == f"2 {GUM}\n"


def test_a_till_that_takes_nothing_holds_up_no_other(gateway: Gateway) -> None:
    """Once the buffers of its socket are full it is closed."""
    with gateway.watch("till-1") as slow, gateway.watch("till-1") as till, gateway.unix_client() as scanner:
        scanner.ask(b"scan till-1\n")
        scanner.send(b"0\n")
        assert till.line() == "0 next\n"
        numbers = itertools.count()
        for _ in range((UNREAD_LINES + 2_000_000) // 40 // 100):
            some = [next(numbers) for _ in range(100)]
            scanner.send(b"".join(b"%d %s\n" % (number, EAN8) for number in some))
            for number in some:
                assert till.line() == f"{number} {GUM}\n"
                scanner.line()
        slow.socket.settimeout(5)
        *told, last = slow.lines.read().decode().splitlines()
        assert last == "closed: what was told is not taken" and told[0] == "0 next"


def test_noise_while_a_till_asks(gateway: Gateway) -> None:
    """Random bytes of one scanner: each text has its answer in its place, and another till goes on."""
    sent = noise(100_000)
    texts = [text for text in re.split(b"[\r\n\t]", sent) if text]
    with gateway.watch("till-1") as till, plug(gateway, "till-1") as scanner, plug(gateway, "till-2") as loud:
        sending = threading.Thread(target=loud.send, args=(sent + b"\r" + EAN8 + b"\r",), kwargs={"size": 500})
        sending.start()
        assert till.line() == "0 next\n"
        for number in range(200):
            scanner.send(EAN8 + b"\r")
            assert till.line() == f"{number} {GUM}\n"
        for number in range(len(texts)):
            assert loud.line().startswith(f"{number} refused "), number
        assert loud.line() == f"{len(texts)} {GUM}\n"
        sending.join()


@pytest.mark.parametrize("text, wanted", [
    (b"9501101530003", "- (01)09501101530003"),
    (b"4012345010008", "- (01)04012345010008"),
    (b"]E001234565", "]E0 (01)00012345000065"),
    (b"\x1d0109501101530003\x1d", "- (01)09501101530003"),
    (b"]C10109501101530003" + b"10AB^21C", "]C1 (01)09501101530003(10)AB(21)C"),
    (b"]C191" + b"A" * 200, "refused 11 TooLong"),
    (b"]C0ABC", "refused 40 Kind"),
    (b"]E39501101530003", "refused 40 Kind"),
    (b"01234565", "refused 40 Kind"),
    (b"100", "refused 19 Blank"),  # Three digits by hand are a row.
    (b"hello", "refused 18 BadRuns"),
    (b"watch till-1", "refused 18 BadRuns"),  # No text of a scanner is a word of the gateway.
    (b"5", "refused 19 Blank"),
    (b"]Q1https://id.gs1.org/01/09501101530003", "]Q1 (01)09501101530003"),
    (b"https://id.gs1.org/x/y/01/9501101530003/21/%41", "- (01)09501101530003(21)A"),
    (b"https://id.gs1.org/" + b"1/" * 490, "refused 40 Kind"),
], ids=lambda it: str(it)[:24])
def test_texts(gateway: Gateway, text: bytes, wanted: str) -> None:
    with gateway.watch("till-1") as till, plug(gateway, "till-1") as scanner:
        scanner.send(text + b"\r" + EAN8 + b"\r", size=1_000)
        assert [till.line() for _ in range(3)] == ["0 next\n", f"0 {wanted}\n", f"1 {GUM}\n"]


@pytest.mark.parametrize("text", [b"]C101095011015300031726123110LOT7\x1d21A/B", b"https://id.gs1.org/01/09501101530003/10/A%2FB?17=261231#x"])
def test_a_message_that_is_cut_at_each_place(gateway: Gateway, text: bytes) -> None:
    """Each part has one answer in its place, that of the library, and the whole one is read."""
    parts = [text[:end] for end in range(1, len(text) + 1)] + [text[begin:] for begin in range(1, len(text))]
    with gateway.watch("till-1") as till, plug(gateway, "till-1") as scanner:
        assert till.line() == "0 next\n"
        for number, part in enumerate(parts):
            scanner.send(part + b"\r", size=100)
            said = till.line()
            # Parts without an identifier that are no text of a scanner are rows to the hub.
            wanted = _checked(part, 2026, "all")
            assert said == f"{number} {wanted}\n" or wanted == "refused 40 Kind" and re.fullmatch(rf"{number} refused \d+ .*\n", said), part


@pytest.mark.parametrize("sent, why", [
    (b"scan \n", "a lane's name has up to 64 letters, digits and . _ : -"),
    (b"watch ../hub\n", "a lane's name has up to 64 letters, digits and . _ : -"),
    (b"watch " + b"x" * 65 + b"\n", "a lane's name has up to 64 letters, digits and . _ : -"),
    (b"scan till-1 2 0123ABCD\n", "a lane's name has up to 64 letters, digits and . _ : -"),
    (b"watch till-1 2 0123abcd\n", "a lane's name has up to 64 letters, digits and . _ : -"),
    (b"scan till-1\n]E496385074\n", "a scan is a number, a blank and a text"),
    (b"scan till-1\n" + b"9" * 19 + b"\n", "a scan is a number, a blank and a text"),
    (b"scan till-1\n7 ]E496385074\n", "scan 7 is not the next one of lane till-1"),
    (b"scan till-1\n0\n1 ]E496385074\n", "scan 1 is not the next one of lane till-1"),
    (b"watch till-1\n]E496385074\n", "a till that watches a lane sends nothing more"),
])
def test_what_no_scanner_and_no_till_sends(gateway: Gateway, sent: bytes, why: str) -> None:
    with gateway.unix_client() as client:
        client.send(sent)
        assert client.lines.read().decode().endswith(f"closed: {why}\n")
    with gateway.watch("till-1") as till, plug(gateway, "till-1") as scanner:
        scanner.send(EAN8 + b"\r")
        assert any(till.line() == f"0 {GUM}\n" for _ in range(3))


def test_why_a_scan_has_no_text(gateway: Gateway) -> None:
    """Its program says so: up to 200 bytes, and of these a till gets what can be printed."""
    with gateway.watch("till-1") as till, gateway.unix_client() as scanner:
        assert scanner.ask(b"scan till-1\n") == "0 next\n"
        scanner.send(b"0\n0\tun\x1b[2Jplugged\x00\r\n1\t" + b"x" * 300 + b"\n")
        said = ["0 unread: un[2Jplugged\n", f"1 unread: {'x' * 200}\n"]
        assert [till.line() for _ in range(3)] == ["0 next\n", *said] and [scanner.line() for _ in range(2)] == said


def test_more_scanners_than_lanes_of_the_hub(gateway: Gateway) -> None:
    """Texts need no lane of their own."""
    clients = [gateway.unix_client() for _ in range(40)]
    for number, client in enumerate(clients):
        assert client.ask(f"scan till-{number}\n".encode()) == "0 next\n"
        client.send(b"0\n")
    for client in clients:
        assert client.ask(b"0 " + EAN8 + b"\n") == f"0 {GUM}\n"
        client.__exit__()


def test_names_that_nobody_uses_make_room(gateway: Gateway) -> None:
    """A client that asks for one lane after the other takes none from anybody."""
    with gateway.watch("till-1") as till:
        for number in range(300):
            with gateway.watch(f"lane-{number}"):
                pass
        with plug(gateway, "till-1"):
            assert till.line() == "0 next\n"


def test_the_lane_of_a_device_by_the_file_of_options(gateway: Gateway, tmp_path: Path) -> None:
    with gateway.watch("till-7") as till:
        scanner = Serial.__new__(Serial)
        file = tmp_path / "scanner.toml"
        link = tmp_path / "scanner-1-4"
        ours, its = os.openpty()
        link.symlink_to(os.ttyname(its))
        file.write_text(f'gateway = "{gateway.unix}"\n[lanes]\n"/dev/scanner-9" = "till-9"\n"{link}" = "till-7"\n')
        super(Serial, scanner).__init__(os.ttyname(its), "--config", str(file))
        with scanner:
            assert till.line() == "0 next\n"
        os.close(ours), os.close(its)


def test_nothing_leaks(gateway: Gateway) -> None:
    """Connections of all kinds that end in all ways leave no file open."""
    def open_files() -> int:
        return len(os.listdir(f"/proc/{gateway.process.pid}/fd"))

    def round_of() -> None:
        with plug(gateway, "till-1") as scanner, gateway.watch("till-1") as till:
            scanner.send(EAN8 + b"\r")
            assert till.line().endswith("next\n")
        for sent in (b"", b"scan till-1\n", b"watch till-1\n", b"scan till-1\n0 ]E4", b"watch !\n", b"11 1"):
            client = Client(gateway.unix, socket.AF_UNIX)
            client.send(sent)
            client.reset()

    round_of()
    wait_for(lambda: open_files() < 30)
    time.sleep(0.5)
    before = open_files()
    for _ in range(5):
        round_of()
    wait_for(lambda: open_files() <= before)
