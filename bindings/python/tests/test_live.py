"""The running hub in Python, with the real program: that of $GS1_HUB, or gs1_hub on the PATH.

Needs apt-get install python3-pytest; the last line of a run with -s has the speed.
"""
from __future__ import annotations

import asyncio
import contextlib
import fcntl
import os
import shutil
import signal
import subprocess
import sys
import threading
import time
from itertools import groupby
from pathlib import Path
from typing import Any, BinaryIO, Coroutine, Iterator

import pytest

import noriladle
from noriladle import Answer, Element, Refusal, live
from noriladle.live import Hub, HubEnded

sys.path.insert(0, str(Path(__file__).parents[3] / "tests" / "live"))
from program_and_rows import EAN13, PROGRAM, random_lanes  # noqa: E402

LIMIT = 120
WIDTHS = [int(width) for width in EAN13.split()]
READ = Answer("]E0", (Element("01", "09501101530003"),))


def run(test: Coroutine[Any, Any, None]) -> None:
    """Runs a test to its end, in a time in which none of them waits."""
    asyncio.run(asyncio.wait_for(test, 60))


def stop(hub: Hub) -> None:
    """Stops the process, so that it answers nothing until it goes on."""
    os.kill(hub.pid, signal.SIGSTOP)
    while Path(f"/proc/{hub.pid}/stat").read_text().rpartition(")")[2].split()[0] != "T":
        time.sleep(0.001)


def is_gone(pid: int) -> bool:
    """Whether a process has ended. If not, it is killed, so a failing test leaves none."""
    try:
        os.kill(pid, signal.SIGKILL)
    except ProcessLookupError:
        return True
    return False


def widths_of(text: str) -> list[int]:
    """The row of a GS1-128 label of an element string."""
    image = noriladle.draw_label("gs1128", text, 2026)
    middle = image[-60 * 60:-60 * 59]
    dots = "".join(f"{byte:08b}" for byte in middle)
    return [len(list(run_of)) for _, run_of in groupby(dots)]


def test_reads_a_row() -> None:
    async def test() -> None:
        async with Hub(lanes=4, workers=2, year=2026) as hub:
            reply = await hub.lane(2).read(WIDTHS)
            assert (reply.lane, reply.number, reply.answer) == (2, 0, READ)
            assert str(reply) == "2 0 ]E0 (01)09501101530003"
            assert str(await hub.lane(2).read(WIDTHS[::-1])) == "2 1 ]E0 (01)09501101530003"
            assert str(await hub.lane(0).read(EAN13)) == "0 0 ]E0 (01)09501101530003"
            assert str(await hub.lane(0).read(EAN13.encode())) == "0 1 ]E0 (01)09501101530003"
    run(test())


@pytest.mark.parametrize("text", ["10A(17)261231", "10A\x1d17261231", "10A=B\x1d21C"])
def test_tells_elements_apart(text: str) -> None:
    async def test() -> None:
        async with Hub(1, 1, 2026) as hub:
            reply = await hub.lane(0).read(widths_of(text))
            assert reply.answer == Answer("]C1", noriladle.parse_elements(text, 2026))
    run(test())


def test_without_elements() -> None:
    """A reply has what the program says, for people, and no answer. With elements it has both."""
    async def test() -> None:
        texts = [EAN13, "]C110A=B\x1d21C", "]E09501101530004"]
        async with Hub(1, 1, 2026, elements=False) as hub, Hub(1, 1, 2026) as other:
            for_people, for_programs = [[await it.lane(0).read(text) for text in texts] for it in (hub, other)]
        assert [it.said for it in for_people] == [str(READ), "]C1 (10)A=B(21)C", "refused 3 CheckDigit"]
        assert [it.said for it in for_programs] == ["]E0 01=09501101530003", "]C1 10=A=B\t21=C", "refused 3 CheckDigit"]
        assert [*map(str, for_people)] == [*map(str, for_programs)] == [f"0 0 {READ}", "0 - ]C1 (10)A=B(21)C", "0 - refused 3 CheckDigit"]
        for it in for_people:
            with pytest.raises(AttributeError, match="without elements"):
                it.answer
    run(test())


@pytest.mark.parametrize("text, wanted", [
    ("]E09501101530003", "1 - ]E0 (01)09501101530003"),
    (b"]C110AB\x1d21C", "1 - ]C1 (10)AB(21)C"),
    ("9501101530003", "1 - - (01)09501101530003"),
    ("]E09501101530004", "1 - refused 3 CheckDigit"),
])
def test_reads_a_text_of_a_scanner(text: bytes | str, wanted: str) -> None:
    """It takes no number from the rows beside it."""
    async def test() -> None:
        async with Hub(2, 1, 2026) as hub:
            lane = hub.lane(1)
            replies = [lane.ask(EAN13), lane.ask(text), lane.ask(EAN13)]
            assert [str(await reply) for reply in replies] == [f"1 0 {READ}", wanted, f"1 1 {READ}"]
    run(test())


@pytest.mark.parametrize("widths, wanted", [
    ([100], "1 0 refused 19 Blank"),
    ([0, 65_535, 0], "1 0 refused 20 RunCount"),
    ([], "1 - refused 18 BadRuns"),
    ("", "1 - refused 18 BadRuns"),
    ([5, 3], "1 - refused 18 BadRuns"),
    ([5, 700_000], "1 - refused 18 BadRuns"),
    ([70_000], "1 - refused 17 TooWide"),
    ([700_000], "1 - refused 17 TooWide"),
    ([2 ** 70, 1, 1], "1 - refused 17 TooWide"),
    ("700000", "1 - refused 18 BadRuns"),
    ("3,100", "1 - refused 39 Csv"),
    ("rm -rf", "1 - refused 18 BadRuns"),
    ("\u20ac\udcff", "1 - refused 18 BadRuns"),
    (b"\0\xff\r", "1 - refused 18 BadRuns"),
    ("9" * 65_534, "1 - refused 1 Length"),
    ("9" * 65_535, "1 - refused 44 InputSize"),
    ("9" * 10_000_000, "1 - refused 44 InputSize"),
], ids=lambda it: str(it)[:30])
def test_refuses_a_row(widths: list[int] | bytes | str, wanted: str) -> None:
    async def test() -> None:
        async with Hub(2, 1, 2026) as hub:
            reply = await hub.lane(1).read(widths)
            assert str(reply) == wanted and isinstance(reply.answer, Refusal)
            # The next row is not moved by it.
            following = await hub.lane(1).read(WIDTHS)
            assert (following.number, following.answer) == (0 if reply.number is None else 1, READ)
    run(test())


@pytest.mark.parametrize("text, wanted", [
    ("]E09501101530003", "1 - ]E0 (01)09501101530003"),
    ("]E001234565", "1 - ]E0 (01)00012345000065"),
    (b"]C110A,B\x1d17261231", "1 - ]C1 (10)A,B(17)261231"),
    ("9501101530003\r", "1 - - (01)09501101530003"),
    ("^10A=B", "1 - - (10)A=B"),
    ("https://id.gs1.org/01/9501101530003?10=A%3DB", "1 - - (01)09501101530003(10)A=B"),
    ("]E09501101530004", "1 - refused 3 CheckDigit"),
    ("]Q1https://id.gs1.org/", "1 - refused 40 Kind"),
    ("01234565", "1 - refused 40 Kind"),
])
def test_reads_what_scanners_send(text: bytes | str, wanted: str) -> None:
    """As the library does, in its place and without a number."""
    async def test() -> None:
        async with Hub(2, 1, 2026) as hub:
            replies = await asyncio.gather(*(hub.lane(1).read(it) for it in (WIDTHS, text, WIDTHS, text)))
            assert [reply.number for reply in replies] == [0, None, 1, None]
            assert [str(reply) for reply in replies[1::2]] == [wanted, wanted]
            assert (replies[0].answer, replies[2].answer) == (READ, READ)
            try:
                assert replies[1].answer == noriladle.read_scan(text, 2026)
            except Refusal as refusal:
                assert str(replies[1].answer) == str(refusal)
    run(test())


@pytest.mark.parametrize("widths", [[100], [0, 65_535, 0], [], [5, 3], [5, 700_000], [70_000], [700_000], [1] * 9_999],
                         ids=lambda it: str(it)[:30])
def test_refuses_as_the_library_does(widths: list[int]) -> None:
    async def test() -> None:
        async with Hub(1, 1, 2026) as hub:
            with pytest.raises(Refusal) as raised:
                noriladle.read_row(widths, 2026)
            assert str((await hub.lane(0).read(widths)).answer) == str(raised.value)
    run(test())


def test_refuses_what_cannot_be_sent() -> None:
    async def test() -> None:
        async with Hub(2, 1, 2026) as hub:
            widths: Any
            for widths in ("1\n2", b"\n", [1, -1, 1]):
                with pytest.raises(ValueError):
                    await hub.lane(0).read(widths)
            for lane in (-1, 2):
                with pytest.raises(ValueError):
                    hub.lane(lane)
            assert (await hub.lane(0).read(WIDTHS)).number == 0
    run(test())
    for numbers in ((0, 1, 2026), (17, 1, 2026), (1, 0, 2026), (1, 17, 2026), (1, 1, 1950), (1, 1, 2150)):
        with pytest.raises(ValueError):
            Hub(*numbers)
    with pytest.raises(ValueError):
        Hub(1, 1, 2026, most=0)


def test_finds_the_program(tmp_path: Path, monkeypatch: pytest.MonkeyPatch) -> None:
    async def test(**named: Any) -> None:
        async with Hub(1, 1, 2026, **named) as hub:
            assert (await hub.lane(0).read(WIDTHS)).answer == READ
    (tmp_path / "gs1_hub").symlink_to(os.path.abspath(shutil.which(PROGRAM)))
    found = str(tmp_path / "gs1_hub")
    monkeypatch.setenv("GS1_HUB", "no/such/program")
    with pytest.raises(FileNotFoundError):
        run(test())
    run(test(program=found))
    run(test(program=["nice", found]))
    monkeypatch.setenv("GS1_HUB", found)
    run(test())
    monkeypatch.delenv("GS1_HUB")
    monkeypatch.setenv("PATH", str(tmp_path))
    run(test())


@pytest.mark.parametrize("count, most", [(5_000, 1), (5_000, 64), (100_000, 1024)])
def test_16_lanes_at_once(count: int, most: int) -> None:
    """Each lane gets the lines of `gs1_hub lanes`."""
    asked, wanted = random_lanes(count, 16)

    async def lane(hub: Hub, number: int) -> None:
        assert [str(reply) async for reply in hub.lane(number).read_all(asked[number])] == wanted[number]

    async def test() -> None:
        async with Hub(16, 4, 2026, most=most) as hub:
            start = time.perf_counter()
            await asyncio.gather(*(lane(hub, number) for number in range(16)))
            print(f"16 lanes at once, {most} rows under way: {count / (time.perf_counter() - start):,.0f} rows a second")
    run(test())


def test_one_at_a_time() -> None:
    """Each row is answered before the next exists."""
    async def test() -> None:
        async with Hub(4, 2, 2026) as hub:
            lane, times = hub.lane(1), []
            for number in range(5_000):
                start = time.perf_counter()
                reply = await lane.read(WIDTHS)
                times.append((time.perf_counter() - start) * 1e6)
                assert reply.number == number
            times.sort()
            print(f"\none at a time: median {times[2_500]:.0f} microseconds, 99 of 100 below {times[4_950]:.0f}")
    run(test())


def test_tasks_of_one_lane_keep_the_order_of_their_calls() -> None:
    async def test() -> None:
        async with Hub(1, 2, 2026, most=8) as hub:
            replies = await asyncio.gather(*(hub.lane(0).read([width]) for width in range(1, 2_001)))
            assert [reply.number for reply in replies] == list(range(2_000))
    run(test())


def test_a_later_call_does_not_pass_one_that_waits() -> None:
    """A call is made in the very turn in which there is room again."""
    async def test() -> None:
        async with Hub(1, 1, 2026, most=1) as hub:
            first, second = (asyncio.ensure_future(hub.lane(0).read([width])) for width in (1, 2))
            assert (await first).number == 0
            assert (await hub.lane(0).read([3])).number == 2
            assert (await second).number == 1
    run(test())


def test_read_all_is_ahead_by_so_many() -> None:
    async def test() -> None:
        async with Hub(1, 1, 2026) as hub:
            taken = []
            rows = (taken.append(width) or [width] for width in range(1, 100))
            async for reply in hub.lane(0).read_all(rows, ahead=5):
                assert len(taken) == min(99, reply.number + 6)
            assert len(taken) == 99
    run(test())


def test_read_all_that_is_left_early() -> None:
    """What it has asked for ahead is given up: only that much has a number."""
    async def test() -> None:
        async with Hub(1, 1, 2026, most=2) as hub:
            replies: Any = hub.lane(0).read_all([[1]] * 100, ahead=50)
            assert (await replies.__anext__()).number == 0
            await replies.aclose()
            assert (await hub.lane(0).read([1])).number <= 4
    run(test())


def test_no_more_is_under_way_than_allowed() -> None:
    """A process that is stopped has `most` rows; the others wait here, and all are answered when it goes on."""
    async def test() -> None:
        async with Hub(1, 1, 2026, most=10) as hub:
            await hub.lane(0).read(WIDTHS)
            stop(hub)
            asked = [asyncio.ensure_future(hub.lane(0).read(WIDTHS)) for _ in range(100)]
            await asyncio.sleep(0.05)
            assert len(hub._process._sent) == 10 and len(hub._process._waiting) == 90
            assert not any(one.done() for one in asked)
            os.kill(hub.pid, signal.SIGCONT)
            assert [reply.number for reply in await asyncio.gather(*asked)] == list(range(1, 101))
    run(test())


def test_a_cancelled_call_takes_no_reply_of_another() -> None:
    async def test() -> None:
        async with Hub(2, 2, 2026, most=10) as hub:
            stop(hub)
            asked = [asyncio.ensure_future(hub.lane(0).read([width, 1, 1])) for width in range(1, 31)]
            other = asyncio.ensure_future(hub.lane(1).read(WIDTHS))
            await asyncio.sleep(0.05)
            for call in asked[5:25]:
                call.cancel()
            os.kill(hub.pid, signal.SIGCONT)
            kept = [await call for call in asked[:5] + asked[25:]]
            # 5 to 9 had been submitted; 10 to 24 had not, and have no number.
            assert [reply.number for reply in kept] == [*range(5), *range(10, 15)]
            assert (await other).answer == READ
            stop(hub)
            with pytest.raises(asyncio.TimeoutError):
                await asyncio.wait_for(hub.lane(1).read([100]), 0.05)
            os.kill(hub.pid, signal.SIGCONT)
            reply = await hub.lane(1).read(WIDTHS)
            assert (reply.number, reply.answer) == (2, READ)
    run(test())


def test_cancelled_calls_leave_nothing() -> None:
    """Callers that give up and ask again, of a process that is stopped, fill no memory."""
    async def test() -> None:
        async with Hub(1, 1, 2026, most=4) as hub:
            stop(hub)
            for _ in range(50):
                calls = [asyncio.ensure_future(hub.lane(0).read([1])) for _ in range(100)]
                await asyncio.sleep(0)
                for call in calls:
                    call.cancel()
                await asyncio.wait(calls)
            await asyncio.sleep(0)
            assert len(hub._process._sent) == 4 and not hub._process._waiting
            os.kill(hub.pid, signal.SIGCONT)
            assert (await hub.lane(0).read([1])).number == 4
    run(test())


def test_death_reaches_every_waiting_call() -> None:
    async def test() -> None:
        async with Hub(4, 2, 2026, most=10) as hub:
            stop(hub)
            asked = [asyncio.ensure_future(hub.lane(number % 4).read(WIDTHS)) for number in range(100)]
            await asyncio.sleep(0.05)
            os.kill(hub.pid, signal.SIGKILL)
            for fault in await asyncio.gather(*asked, return_exceptions=True):
                assert isinstance(fault, HubEnded) and fault.status == -9
            assert str(await hub.ended()) == "the hub has ended, status -9"
            with pytest.raises(HubEnded, match="status -9"):
                await hub.lane(0).read(WIDTHS)
    run(test())


def test_death_amid_rows() -> None:
    """All replies that had come are given, and are what they should be."""
    async def test() -> None:
        asked, wanted = random_lanes(5_000, 1)
        async with Hub(1, 2, 2026) as hub:
            got = []
            with pytest.raises(HubEnded):
                async for reply in hub.lane(0).read_all(asked[0]):
                    got.append(str(reply))
                    if len(got) == 1_000:
                        os.kill(hub.pid, signal.SIGKILL)
                        await hub.ended()
            assert 1_000 <= len(got) == hub._process._numbers[0] < 5_000
            assert got == wanted[0][:len(got)]
    run(test())


def test_the_end_of_the_block() -> None:
    """What was asked before it is answered; after it, nothing; and no process is left."""
    async def test() -> None:
        async with Hub(1, 1, 2026, most=3) as hub:
            asked = [asyncio.ensure_future(hub.lane(0).read(WIDTHS)) for _ in range(50)]
            await asyncio.sleep(0)
        assert [call.result().number for call in asked] == list(range(50))
        with pytest.raises(HubEnded):
            await hub.lane(0).read(WIDTHS)
        assert is_gone(hub.pid)
        # The same hub may run again, and its numbers begin anew.
        async with hub:
            assert (await hub.lane(0).read(WIDTHS)).number == 0
    run(test())
    with pytest.raises(HubEnded):
        Hub(1, 1, 2026).pid


def test_a_block_is_entered_once_at_a_time(tmp_path: Path) -> None:
    async def entered(hub: Hub) -> int:
        async with hub:
            return (await hub.lane(0).read(WIDTHS)).number

    async def test() -> None:
        hub = Hub(1, 1, 2026)
        async with hub:
            with pytest.raises(RuntimeError):
                await entered(hub)
            assert (await hub.lane(0).read(WIDTHS)).number == 0
        first, second = await asyncio.gather(entered(hub), entered(hub), return_exceptions=True)
        assert first == 0 and isinstance(second, RuntimeError)
        absent = Hub(1, 1, 2026, program=str(tmp_path / "absent"))
        for _ in range(2):
            with pytest.raises(FileNotFoundError):
                await entered(absent)
    run(test())


def test_an_exception_ends_the_block_too() -> None:
    async def forever(hub: Hub) -> None:
        async with hub:
            while True:
                await hub.lane(0).read(WIDTHS)

    async def test() -> None:
        with pytest.raises(KeyError):
            async with Hub(1, 1, 2026) as hub:
                raise KeyError
        assert is_gone(hub.pid)
        with pytest.raises(asyncio.TimeoutError):
            await asyncio.wait_for(forever(hub), 0.3)
        assert is_gone(hub.pid)
    run(test())


def test_a_process_that_does_not_end(monkeypatch: pytest.MonkeyPatch) -> None:
    """It is stopped, and does not see the end of its input: it is killed."""
    monkeypatch.setattr(live, "_PATIENCE", 0.2)

    async def test() -> None:
        async with Hub(1, 1, 2026) as hub:
            await hub.lane(0).read(WIDTHS)
            stop(hub)
        assert is_gone(hub.pid)
    run(test())


@pytest.mark.parametrize("script, why", [
    ("exit 3", "the hub has ended, status 3"),
    ("sleep 1000 & exit 3", "the hub has ended, status 3"),
    ("echo first >&2; echo refused 36 NoThread >&2; exit 1", "the hub has ended, status 1: refused 36 NoThread"),
    ("read row; echo 1 0 ]E0 01=09501101530003; sleep 1000", "what was not asked: .*1 0 ]E0 01=09501101530003"),  # Another lane.
    ("read row; echo 0 1 ]E0 01=09501101530003; sleep 1000", "what was not asked: .*0 1 ]E0 01=09501101530003"),  # Another number.
    ("read row; echo 0 0 ]E0 01=09501101530003; echo 0 0 ]E0 01=09501101530003; read row; sleep 1000", "what was not asked"),  # The same again.
    ("read row; echo no answer; sleep 1000", "what was not asked"),
    ("read row; printf '\\377 0 ]E0\\n'; sleep 1000", "what was not asked"),
])
def test_a_process_that_is_no_hub(script: str, why: str) -> None:
    async def test() -> None:
        async with Hub(2, 1, 2026, program=["sh", "-c", script]) as hub:
            with pytest.raises(HubEnded, match=why):
                while True:
                    await hub.lane(0).read(WIDTHS)
    run(test())


def test_a_line_that_comes_in_two_pieces() -> None:
    async def test() -> None:
        script = "read row; printf '0 0 ]E0 0'; sleep 0.2; echo 1=09501101530003; read row"
        async with Hub(1, 1, 2026, program=["sh", "-c", script]) as hub:
            assert (await hub.lane(0).read(WIDTHS)).answer == Answer("]E0", (Element("01", "09501101530003"),))
    run(test())


@pytest.mark.parametrize("said", ["]E0 01=1", "]E0 (01)09501101530003", "some more words", "refused 3 Kind", ""])
def test_a_reply_that_is_no_answer(said: str) -> None:
    async def test() -> None:
        async with Hub(1, 1, 2026, program=["sh", "-c", f"read row; echo '0 0 {said}'; read row"]) as hub:
            assert str((await hub.lane(0).read(WIDTHS)).answer) == "refused 40 Kind"
    run(test())


def test_a_reply_to_nothing() -> None:
    async def test() -> None:
        async with Hub(2, 1, 2026, program=["sh", "-c", "echo 0 0 ]E0 01=09501101530003; sleep 1000"]) as hub:
            assert str(await hub.ended()) == "the hub answered what was not asked: b'0 0 ]E0 01=09501101530003', status -9"
    run(test())


@contextlib.contextmanager
def without_waiting(*words: str) -> Iterator[tuple[subprocess.Popen[bytes], BinaryIO, BinaryIO]]:
    """The program over pipes that somebody else has set not to wait: its process, its input and its output."""
    theirs, ours = os.pipe()
    back, out = os.pipe()
    for end in (theirs, out):
        fcntl.fcntl(end, fcntl.F_SETFL, fcntl.fcntl(end, fcntl.F_GETFL) | os.O_NONBLOCK)
    with open(ours, "wb") as rows, open(back, "rb") as answers:
        with subprocess.Popen([PROGRAM, *words], stdin=theirs, stdout=out, stderr=subprocess.PIPE) as process:
            os.close(theirs)
            os.close(out)
            time.sleep(0.2)  # Nothing has come yet.
            yield process, rows, answers
            rows.close()
            answers.close()
            assert process.wait(20) == 0 and process.stderr.read() == b""


def test_pipes_that_do_not_wait() -> None:
    """A hub waits for its input, and for whoever reads its answers."""
    count = 20_000
    row = f"0,{EAN13}\n".encode()
    with without_waiting("live", "--lanes", "1", "--workers", "2", "--year", "2026") as (process, rows, answers):
        rows.write(row)
        rows.flush()
        assert answers.readline() == b"0 0 ]E0 (01)09501101530003\n"
        writing = threading.Thread(target=lambda: (rows.write(row * count), rows.close()))
        writing.start()
        time.sleep(0.5)  # The pipe of the answers is full.
        assert writing.is_alive() and process.poll() is None
        for number in range(1, count + 1):
            assert answers.readline() == f"0 {number} ]E0 (01)09501101530003\n".encode()
        assert answers.read() == b""
        writing.join()


def test_a_command_over_pipes_that_do_not_wait() -> None:
    count = 5_000
    with without_waiting("lanes", "--lanes", "1", "--workers", "2", "--year", "2026") as (process, rows, answers):
        for _ in range(count // 100):
            rows.write(f"0,{EAN13}\n".encode() * 100)
            rows.flush()
            time.sleep(0.002)
        rows.close()
        time.sleep(0.3)
        assert answers.read() == b"".join(f"0 {number} ]E0 (01)09501101530003\n".encode() for number in range(count))
