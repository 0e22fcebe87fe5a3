"""Records that are answered as they come: each line and each end, whatever pieces the input comes in, and that no answer waits for a
later record."""

from __future__ import annotations

import os
import random
import re
import select
import shutil
import socket
import subprocess
import tempfile
import time
from typing import Any, Callable

import program
from program import Breaking, CommandTest, Ran, ran, ran_to, room_for
from rows import EAN8_ROW, GS1128_ROW, SYMBOL, WIDE_SPACE, WRONG_CHECK_DIGIT

# Widths of rows with what is answered to them.
ROWS = [
    (f"11 {SYMBOL} 7", "]E0 (01)09501101530003"),
    (EAN8_ROW, "]E4 (01)00000096385074"),
    (GS1128_ROW, "]C1 (422)528"),
    (f"4 {SYMBOL} 7", "refused 21 QuietZone"),
    (f"11 {WRONG_CHECK_DIGIT} 7", "refused 24 SymbolCheckDigit"),
    (f"11 {WIDE_SPACE} 7", "refused 22 Modules"),
    ("100", "refused 19 Blank"),
    ("0", "refused 19 Blank"),
    ("65535", "refused 19 Blank"),
    ("0 9 0", "refused 20 RunCount"),
    ("1 0001 1 00001 65531", "refused 20 RunCount"),
]

ANSWERS = dict(ROWS)

# Records that are no rows, of two lanes, with what stands in their place.
FAULTS = [
    ("0", "- - refused 39 Csv"),
    ("0,100,", "- - refused 39 Csv"),
    ('""', "- - refused 39 Csv"),
    (" ", "- - refused 39 Csv"),
    ("\0", "- - refused 39 Csv"),
    ("\x80\xff", "- - refused 39 Csv"),
    ("2,100", "- - refused 41 BadLane"),
    ("16,100", "- - refused 41 BadLane"),
    ("000,100", "- - refused 41 BadLane"),
    ("+1,100", "- - refused 41 BadLane"),
    (" 1,100", "- - refused 41 BadLane"),
    (",100", "- - refused 41 BadLane"),
    (",", "- - refused 41 BadLane"),
    ('"0",100', "- - refused 41 BadLane"),
    ("\0000,100", "- - refused 41 BadLane"),
    ("\xef\xbb\xbf0,100", "- - refused 41 BadLane"),
    ("0\r,100", "- - refused 41 BadLane"),
    ("0,", "0 - refused 18 BadRuns"),
    ("1,a", "1 - refused 18 BadRuns"),
    ("01,1  1 1", "1 - refused 18 BadRuns"),
    ("0, 1", "0 - refused 18 BadRuns"),
    ("0,1 ", "0 - refused 18 BadRuns"),
    ('0,"100"', "0 - refused 18 BadRuns"),
    ("0,100000", "0 - refused 18 BadRuns"),
    ("0,1 0 1", "0 - refused 18 BadRuns"),
    ("0,5 3", "0 - refused 18 BadRuns"),
    ("0,65536 1", "0 - refused 18 BadRuns"),
    ("0,1\x001", "0 - refused 18 BadRuns"),
    ("0,\xb2", "0 - refused 18 BadRuns"),
    ("0,0 65535 1", "0 - refused 17 TooWide"),
    ("1,65536", "1 - refused 17 TooWide"),
    ("1,99999", "1 - refused 17 TooWide"),
]

# Messages of scanners, of two lanes, with what is answered in their place.
MESSAGES = [
    ("0,]E09501101530003", "0 - ]E0 (01)09501101530003"),
    ("1,]E001234565", "1 - ]E0 (01)00012345000065"),
    ("01,]C110A,B\x1d17261231", "1 - ]C1 (10)A,B(17)261231"),
    ("1,^10AB^", "1 - - (10)AB"),
    ("0,9501101530003", "0 - - (01)09501101530003"),
    ("0,https://id.gs1.org/01/09501101530003?17=261231", "0 - - (01)09501101530003(17)261231"),
    ("0,]E09501101530004", "0 - refused 3 CheckDigit"),
    ("1,]d210AB^^", "1 - refused 5 UnknownAi 5"),
    ("0,]Q1https://id.gs1.org/", "0 - refused 40 Kind"),
    ("1,01234565", "1 - refused 40 Kind"),
    ("16,]E09501101530003", "- - refused 41 BadLane"),
]

# What takes no number.
PLACED = FAULTS + MESSAGES

MOST = 65_536

# How long a test waits for an answer that comes at once.
PATIENCE = 20


def live(lanes: int = 2, workers: int = 1, more: str = "") -> str:
    """The words of the command."""
    return f"live --lanes {lanes} --workers {workers} --year 2026{more}"


def meant(line: bytes, lanes: int) -> tuple[int | str, list[str] | str] | None:
    """The lane of a line without its line feed, and its widths or what stands in its place; None for no record."""
    text = line.removesuffix(b"\r")
    if not text:
        return None
    if len(text) > MOST:
        return "-", "refused 44 InputSize"
    record = text.decode("latin-1")
    if record in dict(MESSAGES):
        place, _, told = dict(MESSAGES)[record].split(" ", 2)
        return place, told
    fields = record.split(",")
    if len(fields) != 2:
        return "-", "refused 39 Csv"
    if not re.fullmatch("[0-9]{1,2}", fields[0], re.ASCII) or int(fields[0]) >= lanes:
        return "-", "refused 41 BadLane"
    lane = int(fields[0])
    widths = fields[1].split(" ")
    if not all(re.fullmatch("[0-9]{1,5}", it, re.ASCII) for it in widths):
        return lane, "refused 18 BadRuns"
    numbers = [int(it) for it in widths]
    if len(numbers) % 2 == 0 or 0 in numbers[1:-1]:
        return lane, "refused 18 BadRuns"
    if sum(numbers) > 65_535:
        return lane, "refused 17 TooWide"
    return lane, widths


def answer(widths: list[str]) -> str:
    """What is answered to a row of the tests: one of the table, a blank one, or one with too few runs for a symbol."""
    if " ".join(widths) in ANSWERS:
        return ANSWERS[" ".join(widths)]
    assert len(widths) < 25, widths
    return "refused 19 Blank" if len(widths) == 1 else "refused 20 RunCount"


def text_of(given: bytes, lanes: int) -> bytes:
    """The text that answers an input, by a model of the command."""
    lines, numbers = [], lanes * [0]
    for line in given.split(b"\n"):
        found = meant(line, lanes)
        if found is None:
            continue
        lane, widths = found
        if isinstance(widths, str):
            lines.append(f"{lane} - {widths}\n")
        else:
            lines.append(f"{lane} {numbers[int(lane)]} {answer(widths)}\n")
            numbers[int(lane)] += 1
    return "".join(lines).encode()


def random_line(rng: random.Random) -> bytes:
    """A line of an input: a row, a fault or a message, bytes, digits where numbers stand, or nothing."""
    kind = rng.randrange(10)
    if kind < 4:
        line = f"{rng.randrange(3)},{rng.choice(ROWS)[0]}".encode()
    elif kind < 6:
        line = rng.choice(PLACED)[0].encode("latin-1")
    elif kind == 6:
        line = bytes(rng.randrange(256) for _ in range(rng.randrange(6))).replace(b"\n", b",")
    elif kind == 7:
        # Too short to be a lane and the digits of a GTIN.
        line = "".join(rng.choice("0011289 ,,\r") for _ in range(rng.randrange(10))).encode()
    else:
        line = b""
    return line + rng.choice([b"\n", b"\n", b"\r\n"])


def random_input(rng: random.Random, count: int) -> bytes:
    """This many lines, and a row whose line may be unfinished."""
    given = b"".join(random_line(rng) for _ in range(count)) + b"0,7\r\n"
    return given[: len(given) - rng.randrange(6)]


class Running:
    """A run that goes on: what is sent to it, and the lines that come of it."""

    def __init__(self, process: subprocess.Popen[bytes], send: Callable[[bytes], object], receive: int) -> None:
        self.process, self.send, self.receive, self.held = process, send, receive, b""

    def __enter__(self) -> Running:
        return self

    def __exit__(self, *_: object) -> None:
        self.process.kill()
        self.process.wait()
        for pipe in (self.process.stdin, self.process.stdout, self.process.stderr):
            if pipe:
                pipe.close()

    def has_more(self, seconds: float) -> bool:
        """Whether more is there, or the end, within this many seconds."""
        return bool(select.select([self.receive], [], [], seconds)[0])

    def line(self) -> str:
        """The next line, which has to come without anything more being sent."""
        until = time.monotonic() + PATIENCE
        while b"\n" not in self.held:
            more = os.read(self.receive, 65_536) if self.has_more(max(0, until - time.monotonic())) else b""
            if not more:
                raise AssertionError(f"no line, but {self.held!r}")
            self.held += more
        line, self.held = self.held.split(b"\n", 1)
        return line.decode()

    def ended(self) -> tuple[bytes, int]:
        """What comes after the last line to the end, and the exit status."""
        rest = os.read(self.receive, 65_536) if self.has_more(PATIENCE) else b"nothing came"
        return self.held + rest, self.process.wait(PATIENCE)


def running(words: str, **how: Any) -> Running:
    """A run between two pipes."""
    process = subprocess.Popen(
        [program.PATH, *words.split()], bufsize=0, stdin=subprocess.PIPE, stdout=subprocess.PIPE, **how
    )
    return Running(process, process.stdin.write, process.stdout.fileno())


class LiveTest(CommandTest):
    def answers(self, given: bytes | str, wanted: list[str], lanes: int = 2, workers: int = 1, more: str = "") -> None:
        """That the command writes these lines of this input."""
        given = given if isinstance(given, bytes) else given.encode("latin-1")
        output = "".join(f"{line}\n" for line in wanted)
        self.assertEqual(ran(live(lanes, workers, more), given).outcome(), (0, output.encode(), ""))

    def test_each_row(self) -> None:
        for widths, told in ROWS:
            with self.subTest(told):
                self.answers(f"0,{widths}\n", [f"0 0 {told}"])

    def test_each_fault_and_message_in_its_place(self) -> None:
        given = "".join(f"{record}\n1,7\n" for record, _ in PLACED)
        blank = (f"1 {number} refused 19 Blank" for number in range(len(PLACED)))
        self.answers(given, [line for (_, told), other in zip(PLACED, blank) for line in (told, other)])

    def test_lines(self) -> None:
        blank = "0 0 refused 19 Blank"
        cases: list[tuple[str, list[str]]] = [
            ("", []),
            ("\n", []),
            ("\r\n", []),
            ("\r", []),
            ("\n\r\n\n", []),
            ("0,7", [blank]),
            ("0,7\r", [blank]),
            ("0,7\n", [blank]),
            ("0,7\r\n", [blank]),
            ("\n0,7\n\n", [blank]),
            ("\r\n\r\n0,7\r\n\r\n", [blank]),
            ("0,7\r\r\n", ["0 - refused 18 BadRuns"]),
            ("\r\r\n", ["- - refused 39 Csv"]),
            ("0,7\r0,7\n", ["- - refused 39 Csv"]),
            ('"0,7\n0,7\n"', ["- - refused 41 BadLane", blank, "- - refused 39 Csv"]),
            ("0,", ["0 - refused 18 BadRuns"]),
        ]
        for given, wanted in cases:
            with self.subTest(given):
                self.answers(given, wanted)

    def test_lanes(self) -> None:
        self.answers("15,0\n16,0\n015,0\n00,0\n09,0\n", [
            "15 0 refused 19 Blank",
            "- - refused 41 BadLane",
            "- - refused 41 BadLane",
            "0 0 refused 19 Blank",
            "9 0 refused 19 Blank",
        ], lanes=16)

    def test_lengths_of_lines(self) -> None:
        # A row of 32,767 runs, its first width written with zeros so that the line has this many bytes.
        def line(count: int) -> bytes:
            return b"0," + b"1".rjust(count - 2 - 32_766 * 2, b"0") + 32_766 * b" 1"

        size, count_of_runs, blank = "- - refused 44 InputSize", "0 0 refused 20 RunCount", "1 0 refused 19 Blank"
        for count, told in [
            (MOST - 1, count_of_runs),
            (MOST, count_of_runs),
            (MOST + 1, size),
            (MOST + 2, size),
            (MOST + 3, size),
            (200_000, size),
        ]:
            row = line(count) if count <= MOST + 1 else count * b"0"
            self.assertEqual(len(row), count)
            for end in [b"\n", b"\r\n"]:
                with self.subTest(count=count, end=end):
                    self.answers(row + end + b"1,0" + end, [told, blank])
            for end in [b"", b"\r"]:
                with self.subTest(count=count, last=end):
                    self.answers(row + end, [told])
        # More carriage returns than the one before the line feed count.
        self.answers((MOST - 1) * b"0" + b"\r\r\n", ["- - refused 39 Csv"])
        self.answers(MOST * b"0" + b"\r\r\n", [size])

    def test_a_line_of_many_bytes(self) -> None:
        # 20 MB without a line feed, whatever is in them.
        given = 20_000_000 * b"0" + b"\r\n0,7\n" + 3_000_000 * b"0,7\0"
        self.answers(given, ["- - refused 44 InputSize", "0 0 refused 19 Blank", "- - refused 44 InputSize"])

    def test_elements(self) -> None:
        # (17)000229 and a GTIN, as in the tests of rows.
        for widths, told in [
            (GS1128_ROW, "]C1 422=528"),
            (EAN8_ROW, "]E4 01=00000096385074"),
            ("7", "refused 19 Blank"),
        ]:
            with self.subTest(told):
                messages = "1,\n1,]C110A=B^21(10)C\n1,96385074\n"
                answers = ["1 - refused 18 BadRuns", "1 - ]C1 10=A=B\t21=(10)C", "1 - - 01=00000096385074"]
                self.answers(f"1,{widths}\n{messages}", [f"1 0 {told}", *answers], more=" --elements")

    def test_any_input_as_the_model(self) -> None:
        rng = random.Random(47)
        for place in range(12):
            given = random_input(rng, 120)
            workers = rng.choice([1, 2, 4])
            with self.subTest(place=place, workers=workers):
                self.assertEqual(ran(live(3, workers), given).outcome(), (0, text_of(given, 3), ""))

    def in_pieces(self, given: bytes, sizes: list[int], lanes: int = 3) -> tuple[int, bytes, str]:
        """What the command writes of an input that comes in pieces of these sizes, each when the one before was read."""
        it = subprocess.Popen(
            [program.PATH, *live(lanes, 2).split()],
            bufsize=0,
            stdin=subprocess.PIPE,
            stdout=subprocess.PIPE,
            stderr=subprocess.PIPE,
        )
        place = 0
        for size in sizes:
            it.stdin.write(given[place : place + size])
            place += size
            if place >= len(given):
                break
        output, error = it.communicate(timeout=program.SECONDS)
        return it.returncode, output, error.decode()

    def test_any_pieces(self) -> None:
        rng = random.Random(4)
        for place in range(4):
            given = random_input(rng, 25)
            wanted = (0, text_of(given, 3), "")
            for name, sizes in [
                ("1", len(given) * [1]),
                ("2", len(given) * [2]),
                ("3", len(given) * [3]),
                ("random", [rng.randint(1, 200) for _ in given]),
            ]:
                with self.subTest(place=place, sizes=name):
                    self.assertEqual(self.in_pieces(given, sizes), wanted)

    def test_pieces_of_long_lines(self) -> None:
        rng = random.Random(5)
        given = b"".join(
            random_line(rng) + 3 * b"0,7\n" + rng.randint(MOST - 3, MOST + 4) * rng.choice([b"1", b"\r"]) + rng.choice([b"\n", b"\r\n"])
            for _ in range(8)
        ) + 70_000 * b"9"
        sizes = [rng.choice([1, 2, 4_095, 65_535, 65_536, 65_537]) for _ in range(4_000)]
        self.assertEqual(self.in_pieces(given, sizes), (0, text_of(given, 3), ""))

    def test_the_lines_of_lanes(self) -> None:
        # Of records that are all rows they are those of `lanes`, in the order of the records.
        rng = random.Random(6)
        given = "".join(f"{rng.randrange(3)},{rng.choice(ROWS)[0]}\n" for _ in range(400)).encode()
        wanted = ran("lanes --lanes 3 --workers 2 --year 2026", given).output.splitlines()
        for workers in [1, 4, 16]:
            with self.subTest(workers=workers):
                told = ran(live(3, workers), given).output.splitlines()
                self.assertEqual(sorted(told, key=lambda line: [int(it) for it in line.split()[:2]]), wanted)
                self.assertEqual(
                    [line.split()[0] for line in told], [record.split(b",")[0] for record in given.splitlines()]
                )

    def one_at_a_time(self, it: Running) -> None:
        """That each record is answered before the next is sent."""
        numbers = [0, 0]
        rows = [(f"{lane},{widths}", told) for lane in range(2) for widths, told in ROWS]
        for record, told in [*rows, *PLACED, *rows]:
            it.send((record + ("\r\n" if len(record) % 2 else "\n")).encode("latin-1"))
            if (record, told) in rows:
                lane = int(record[0])
                told = f"{lane} {numbers[lane]} {told}"
                numbers[lane] += 1
            self.assertEqual(it.line(), told)

    def test_no_answer_waits_by_pipe(self) -> None:
        for workers in [1, 16]:
            with self.subTest(workers=workers), running(live(2, workers)) as it:
                self.one_at_a_time(it)
                it.process.stdin.close()
                self.assertEqual(it.ended(), (b"", 0))

    def test_no_answer_waits_by_socket(self) -> None:
        here, there = socket.socketpair(socket.AF_UNIX, socket.SOCK_STREAM)
        with here, there:
            process = subprocess.Popen([program.PATH, *live().split()], stdin=there.fileno(), stdout=there.fileno())
            there.close()
            with Running(process, here.sendall, here.fileno()) as it:
                self.one_at_a_time(it)
                here.shutdown(socket.SHUT_WR)
                self.assertEqual(it.ended(), (b"", 0))

    def test_no_answer_waits_by_socat(self) -> None:
        socat = shutil.which("socat")
        if not socat:
            self.skipTest("apt-get install socat")
        with tempfile.TemporaryDirectory() as folder, socket.socket(socket.AF_UNIX, socket.SOCK_STREAM) as here:
            path = f"{folder}/hub"
            process = subprocess.Popen([socat, "-t", "20", f"UNIX-LISTEN:{path}", f"EXEC:{program.PATH} {live()}"])
            with Running(process, here.sendall, here.fileno()) as it:
                until = time.monotonic() + PATIENCE
                while not os.path.exists(path) and time.monotonic() < until:
                    time.sleep(0.01)
                here.connect(path)
                self.one_at_a_time(it)
                here.shutdown(socket.SHUT_WR)
                self.assertEqual(it.ended(), (b"", 0))

    def test_a_line_in_two_pieces(self) -> None:
        # Of a line that has not ended nothing is written, and then it is answered.
        with running(live()) as it:
            it.send(b"0,7\n0,1")
            self.assertEqual(it.line(), "0 0 refused 19 Blank")
            self.assertFalse(it.has_more(0.2))
            it.send(b"00000\n")
            self.assertEqual(it.line(), "0 - refused 18 BadRuns")
            it.send(b"0,8")
            self.assertFalse(it.has_more(0.2))
            it.process.stdin.close()
            self.assertEqual(it.line(), "0 1 refused 19 Blank")
            self.assertEqual(it.ended(), (b"", 0))

    def test_a_reader_that_has_gone(self) -> None:
        # It is no signal, and the end of the input is not waited for.
        with running(live(), stderr=subprocess.PIPE) as it:
            it.send(b"0,7\n")
            self.assertEqual(it.line(), "0 0 refused 19 Blank")
            it.process.stdout.close()
            it.send(b"0,7\n")
            self.assertEqual((it.process.wait(PATIENCE), it.process.stderr.read()), (1, b"refused 38 WriteFault\n"))

    def test_an_input_that_fails_at_any_byte(self) -> None:
        # The lines that had ended are answered.
        given = b"0,1\n0,0 1 0\n1,^10AB^\n1,\n"
        for count in range(len(given) + 1):
            with self.subTest(count=count), Breaking(given[:count]) as broken:
                told = text_of(given[: given[:count].rfind(b"\n") + 1], 2)
                self.is_refused(ran(live(), broken), "refused 37 ReadFault", told)

    def test_an_input_that_ends_at_any_byte(self) -> None:
        given = f"0,1\r\n0,0 1 0\n1,{EAN8_ROW[:7]}\n3,1\n".encode()
        for count in range(len(given) + 1):
            with self.subTest(count=count):
                self.assertEqual(ran(live(), given[:count]).outcome(), (0, text_of(given[:count], 2), ""))

    def test_an_output_that_fails_at_any_byte(self) -> None:
        given = b"0,1\n0,0 1 0\n1,^10AB^\n1,\n"
        output = text_of(given, 2)
        for room in range(len(output)):
            with self.subTest(room=room):
                self.is_refused(ran_to(room, live(), given), "refused 38 WriteFault", output[:room])
        self.assertEqual(ran_to(len(output), live(), given).outcome(), (0, output, ""))

    def test_a_full_output(self) -> None:
        with open("/dev/full", "wb") as full:
            it = ran(live(), b"0,7\n", stdout=full)
        self.assertEqual((it.status, it.error), (1, b"refused 38 WriteFault\n"))

    def limited(self, workers: int, mebibytes: int) -> Ran:
        """A run of one row with this much room."""
        return ran(live(1, workers), b"0,7\n", **room_for(mebibytes))

    def test_a_thread_for_each_worker(self) -> None:
        # Before the first byte is read.
        self.assertEqual(self.limited(1, 40).outcome(), (0, b"0 0 refused 19 Blank\n", ""))
        self.is_refused(self.limited(16, 40), "refused 36 NoThread")
