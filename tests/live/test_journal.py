"""The journal of scans: each answer that a till saw is in it, once, whatever happens to the gateway and to its disk. Needs root for a full disk."""
from __future__ import annotations

import asyncio
import os
import random
import re
import resource
import signal
import socket
import subprocess
import threading
import time
from functools import partial
from pathlib import Path
from typing import Any, Coroutine, Iterator, NoReturn, Sequence

import pytest

import noriladle._journal as journal_module
from gateway_and_scanners import NORILADLE, ROW, Client, Gateway
from noriladle._health import Metrics
from noriladle._journal import Check, Journal, Scan
from noriladle._log import Log
from program_and_rows import READ, SEED
from test_gateway import page

LIMIT = 500
EAN = b"]E09501101530003"
SCANS = int(os.environ.get("JOURNAL_SCANS", "60000"))
PARTS = max(1, SCANS // 200_000)
"""How often the gateway is killed, stopped and short of disk four times each, and the test's time is taken."""


def check(folder: Path, *words: str) -> tuple[str, str, int]:
    """What `noriladle journal` prints, its counts and faults, and its status."""
    ran = subprocess.run([*NORILADLE, "journal", str(folder), *words], capture_output=True, text=True)
    return ran.stdout, ran.stderr, ran.returncode


def scan_all(client: Client, lane: str, texts: list[bytes]) -> list[str]:
    """Scans texts in form 1, and returns the lines."""
    client.send(f"scan {lane}\n".encode())
    first = int(client.line().split()[0])
    client.send(b"%d\n" % first + b"".join(b"%d %s\n" % (number, text) for number, text in enumerate(texts, first)))
    return [client.line() for _ in texts]


def test_what_is_in_it(tmp_path: Path) -> None:
    """Each scan with its time, lane, number, text and answer, also those without an answer, and rows of programs."""
    folder = tmp_path / "journal"
    with Gateway(tmp_path, "--journal", str(folder)) as gateway, gateway.unix_client() as client, gateway.unix_client() as other:
        begin = time.time()
        odd = b"]C110A\x1d\xff\\\tB"
        assert scan_all(client, "till-1", [EAN, b"]E09501101530004", odd])[0] == f"0 {READ}\n"
        other.send(b"scan till-2\n5\n5\tunplugged\n")
        assert [other.line(), other.line()] == ["0 next\n", "5 unread: unplugged\n"]
        for _ in range(2):  # The numbers of rows begin anew in each connection.
            with gateway.connect() as rows:
                assert rows.ask(ROW) == f"0 {READ}\n" and rows.ask(b"9501101530003\r\n") == "- - (01)09501101530003\n"
        said, counts, status = check(folder)
        lines = [line.split("\t") for line in said.splitlines()]
        assert [line[1:] for line in lines] == [
            ["till-1", "0", EAN.decode(), READ], ["till-1", "1", "]E09501101530004", "refused 3 CheckDigit"],
            ["till-1", "2", r"]C110A\x1d\xff\x5c\x09B", "refused 5 UnknownAi 4"],
            ["till-2", "5", "", "unread: unplugged"],
            *2 * [["-", "0", ROW.decode().strip(), READ], ["-", "-", "9501101530003", "- (01)09501101530003"]],
        ]
        assert all(abs(time.mktime(time.strptime(line[0][:19], "%Y-%m-%dT%H:%M:%S")) - time.timezone - begin) < 5 for line in lines)
        assert (counts, status) == ("8 records in 1 files, 0 faults\n", 0)
    assert check(folder, "--lane", "till-2")[0].count("\n") == 1
    assert check(folder, "--check") == ("", "8 records in 1 files, 0 faults\n", 0)
    assert '"lane": "till-2", "number": "5", "text": "", "answer": "unread: unplugged"}' in check(folder, "--json")[0]
    assert oct(folder.stat().st_mode & 0o777) == "0o750"


def test_the_time_of_a_scan(tmp_path: Path) -> None:
    """It is that at which the scanner read it."""
    folder, second = tmp_path / "journal", int(time.time()) - 1
    with Gateway(tmp_path, "--journal", str(folder), port=False) as gateway, gateway.unix_client() as client:
        assert client.ask(b"scan till-1 2\n").startswith("0 ")
        assert client.ask(b"0 %d.123\n0 %d.123 %s\n" % (second, second, EAN)).startswith(f"0 {second}.123 ")
        assert check(folder)[0].startswith(time.strftime("%Y-%m-%dT%H:%M:%S.123Z\ttill-1\t0\t", time.gmtime(second)))


def recorded(folder: Path) -> dict[tuple[str, str, str], tuple[str, str]]:
    """The answers of a journal by lane, series and number, which must be whole."""
    found = Check(folder)
    answers = {}
    for record in found:
        if record.lane != "-":
            assert (record.lane, record.series, record.scan) not in answers
            answers[record.lane, record.series, record.scan] = record.text, record.said
    assert not found.faults, found.faults[:3]
    return answers


class Shop:
    """A scanner that scans as fast as it is answered, window by window, whatever happens to its gateway; and what its till saw."""

    def __init__(self, path: str, lane: str) -> None:
        self.path, self.lane = path, lane
        self.saw: dict[tuple[str, str], tuple[str, float]] = {}
        """What the till saw, by series and number."""
        self.unread = self.sent = self.number = 0
        self.ends = False
        self.threads = [threading.Thread(target=it, daemon=True) for it in (self._watch, self._scan)]
        for it in self.threads:
            it.start()

    def _watch(self) -> None:
        while not self.ends:
            try:
                with Client(self.path, socket.AF_UNIX) as till:
                    till.socket.settimeout(9)
                    till.send(f"watch {self.lane} 2\n".encode())
                    series = None
                    for line in till.lines:
                        if self.ends:
                            return
                        number, at, said = line.decode().rstrip("\n").split(" ", 2) if line.endswith(b"\n") else ("", "", "")
                        if said.startswith("next "):
                            series = said[5:]
                        elif number.isdecimal():
                            assert (series, number) not in self.saw, "a till saw a scan twice"
                            self.saw[series, number] = said, time.time() - float(at)
            except (OSError, ValueError):
                time.sleep(0.05)

    def _scan(self) -> None:
        series = "%08x" % random.Random(SEED).getrandbits(32)
        while not self.ends:
            try:
                with Client(self.path, socket.AF_UNIX) as scanner:
                    scanner.socket.settimeout(9)
                    scanner.send(f"scan {self.lane} 2 {series}\n".encode())
                    its, _, said = scanner.line().split(" ", 2)
                    self.number, series = max(self.number, int(its)) if said[5:-1] == series else int(its), said[5:-1]
                    scanner.send(b"%d %.3f\n" % (self.number, time.time()))
                    while not self.ends and self._scan_window(scanner):
                        pass
            except (OSError, ValueError):
                time.sleep(0.05)

    def _scan_window(self, scanner: Client) -> bool:
        """Whether 100 scans were answered or unread."""
        first, self.number = self.number, self.number + 100
        self.sent += 100
        scanner.send(b"".join(b"%d %.3f ]C121%d\n" % (it, time.time(), it) for it in range(first, self.number)))
        for it in range(first, self.number):
            line = scanner.line()
            while " next " in line:
                line = scanner.line()
            if not line.startswith(f"{it} "):
                return False
            self.unread += " unread: " in line
        return True

    def end(self) -> None:
        self.ends = True
        for it in self.threads:
            it.join(20)
            assert not it.is_alive()


@pytest.mark.limit(450 * PARTS)
def test_a_gateway_that_is_killed_stopped_and_short_of_disk(tmp_path: Path) -> None:
    """Whatever a till saw as an answer is in the journal, with this answer, and once; no answer was old; and the check finds nothing."""
    folder, chance, times = tmp_path / "journal", random.Random(SEED), 12 * PARTS
    gateway = Gateway(tmp_path, "--journal", str(folder), port=False)
    shop = Shop(gateway.unix, "till-1")
    begin, kinds = time.monotonic(), ["kill", "stop", "short"] * (times // 3)
    chance.shuffle(kinds)
    seen = 0
    for number, kind in enumerate(kinds):
        # Each fault is by itself: the till sees answers after the one before.
        while shop.sent < (number + 1) * SCANS // (times + 1) or len(shop.saw) <= seen:
            assert time.monotonic() < begin + 420 * PARTS
            time.sleep(0.02)
        if kind == "stop":
            gateway.process.send_signal(signal.SIGSTOP)
            time.sleep(3)
            gateway.process.send_signal(signal.SIGCONT)
        elif kind == "short":
            resource.prlimit(gateway.process.pid, resource.RLIMIT_FSIZE, (chance.randrange(100, 20_000), resource.RLIM_INFINITY))
            time.sleep(2)
            resource.prlimit(gateway.process.pid, resource.RLIMIT_FSIZE, (resource.RLIM_INFINITY, resource.RLIM_INFINITY))
        else:
            gateway.process.kill()
            gateway.process.communicate()
            gateway.process = Gateway(tmp_path, "--journal", str(folder), port=False).process
        seen = len(shop.saw)
    while shop.sent < SCANS:
        assert time.monotonic() < begin + 440 * PARTS
        time.sleep(0.02)
    shop.end()
    gateway.process.terminate()
    said = gateway.process.communicate(timeout=20)[1]
    answers = recorded(folder)
    told = {key: said for key, (said, _) in shop.saw.items() if not said.startswith("unread: ")}
    for (series, scan), said_to_till in told.items():
        assert answers["till-1", series, scan] == (f"]C121{scan}", said_to_till)
    # What was refused since it could not be written is not there.
    refused = {key for key, (said, _) in shop.saw.items() if said.startswith("unread: the journal cannot be written")}
    assert refused and not any(("till-1", *key) in answers for key in refused)
    oldest = max(age for said, age in shop.saw.values() if not said.startswith("unread: "))
    print(f"\nseed {SEED}: {shop.sent} scans in {time.monotonic() - begin:.0f} s, {times} faults: a till saw {len(told)} answers, each in the journal, "
          f"once; the oldest was {oldest:.1f} s old; {len(answers)} records; {shop.unread} unread")
    # A disk that is short refuses scans as fast as they come, which may be most of them; a gateway that is killed leaves a window.
    assert len(told) > max(0.9 * (shop.sent - shop.unread), SCANS // 5) and oldest < 5 and "Traceback" not in said


def fill(folder: Path) -> None:
    """Leaves no room on the disk of a folder."""
    with open(folder / "filler", "ab", buffering=0) as file:
        try:
            while True:
                file.write(bytes(4096))
        except OSError:
            pass


@pytest.fixture
def small_disk(tmp_path: Path) -> Iterator[Path]:
    """A disk of 2 MB."""
    place = tmp_path / "disk"
    place.mkdir()
    if os.geteuid() or subprocess.run(["mount", "-t", "tmpfs", "-o", "size=2m", "tmpfs", place]).returncode:
        pytest.skip("only root has a disk of its own")
    yield place
    subprocess.run(["umount", "-l", place], check=True)


@pytest.mark.parametrize("what", ["stop", "go-on"])
def test_a_full_disk(tmp_path: Path, small_disk: Path, what: str) -> None:
    """By the operator's choice scans are unread, or answered without a record; both say so, and go on when there is room."""
    gateway = Gateway(tmp_path, "--journal", str(small_disk / "journal"), "--journal-full", what, "--metrics", "0", port=False)
    with gateway.unix_client() as client, gateway.unix_client() as rows:
        assert scan_all(client, "till-1", [EAN])[0] == f"0 {READ}\n"
        fill(small_disk)
        filler = b"]C191" + b"A" * 90
        answers = set()
        for number in range(1, 60):  # The page of the file may have some room.
            answers.add(client.ask(b"%d %s\n" % (number, filler)).split(" ", 1)[1])
        assert rows.ask(ROW) == (f"0 {READ}\n" if what == "go-on" else "closed: the journal cannot be written: No space left on device\n")
        right = "]C1 (91)" + "A" * 90 + "\n"
        assert answers == ({right} if what == "go-on" else {right, "unread: the journal cannot be written: No space left on device\n"})
        ready = (200, "ready\n") if what == "go-on" else (503, "the journal cannot be written: No space left on device\n")
        assert page(gateway, "/readyz") == ready and gateway.numbers()["noriladle_journal_failing"] == "1"
        missed = int(gateway.numbers()["noriladle_journal_missed_total"])
        assert missed > 0
        (small_disk / "filler").unlink()
        gateway.waits_for(journal_failing=0)
        assert client.ask(b"60 " + EAN + b"\n") == f"60 {READ}\n" and page(gateway, "/readyz") == (200, "ready\n")
    gateway.process.terminate()
    said = gateway.process.communicate(timeout=20)[1]
    assert said.count("\n") == 2 and "No space left on device; " in said and "the journal is written again" in said
    found = Check(small_disk / "journal")
    records = list(found)
    assert not found.faults and any(record.said == f"gap: {missed} scans have no record" for record in records)
    assert (records[0].scan, records[-1].scan) == ("0", "60")


@pytest.mark.parametrize("what", ["stop", "go-on"])
def test_a_disk_that_hangs(tmp_path: Path, monkeypatch: pytest.MonkeyPatch, what: str) -> None:
    """Scans are unread, and the gateway is not ready, until it answers; then all that came is there, once."""
    folder = tmp_path / "journal"
    hang = hanging(tmp_path, monkeypatch)
    with Gateway(tmp_path, "--journal", str(folder), "--journal-full", what, "--metrics", "0", port=False) as gateway, gateway.unix_client() as client:
        assert scan_all(client, "till-1", [EAN]) == [f"0 {READ}\n"]
        hang.touch()
        for number in (1, 2):
            assert client.ask(b"%d %s\n" % (number, EAN)) == f"{number} unread: no answer in 2 seconds\n"
        status, why = page(gateway, "/readyz")
        assert status == 503 and re.fullmatch(r"the journal's disk has not answered for [3-9] seconds\n", why)
        hang.unlink()
        assert client.ask(b"3 " + EAN + b"\n") == f"3 {READ}\n" and page(gateway, "/readyz") == (200, "ready\n")
    assert [line.split("\t")[2:] for line in check(folder)[0].splitlines()] == [[str(number), EAN.decode(), READ] for number in range(4)]


def hanging(folder: Path, monkeypatch: pytest.MonkeyPatch) -> Path:
    """A file; while it is there, no write to the disk ends in programs that are started from now on."""
    (folder / "hang.c").write_text("""
#define _GNU_SOURCE
#include <dlfcn.h>
#include <stdlib.h>
#include <unistd.h>
int fdatasync(int file) {
    while (!access(getenv("HANG"), F_OK)) usleep(10000);
    return ((int (*)(int))dlsym(RTLD_NEXT, "fdatasync"))(file);
}
""")
    subprocess.run(["gcc", "-shared", "-fPIC", "-o", folder / "hang.so", folder / "hang.c", "-ldl"], check=True)
    monkeypatch.setenv("LD_PRELOAD", str(folder / "hang.so"))
    monkeypatch.setenv("HANG", str(folder / "hang"))
    return folder / "hang"


def test_files_follow_each_other_and_have_a_limit(tmp_path: Path) -> None:
    """The oldest are removed, and what is left is whole."""
    folder = tmp_path / "journal"
    with Gateway(tmp_path, "--journal", str(folder), "--journal-most", "1", "--metrics", "0", port=False) as gateway, gateway.unix_client() as client:
        text = b"]C191" + b"A" * 90
        client.send(b"scan till-1\n0\n")
        assert client.line() == "0 next\n"
        for begin in range(0, 10_000, 50):
            client.send(b"".join(b"%d %s\n" % (number, text) for number in range(begin, begin + 50)))
            for number in range(begin, begin + 50):
                assert client.line().startswith(f"{number} ]C1 ")
            assert sum(it.stat().st_size for it in folder.iterdir()) <= 1 << 20
        size = float(gateway.numbers()["noriladle_journal_size_bytes"])
    files = sorted(folder.glob("scans-*.tsv"))
    assert 2 <= len(files) <= 4 and size == sum(it.stat().st_size for it in files)
    records = list(Check(folder))
    assert records[0].number > 1 and records[-1].number == 10_000
    assert check(folder, "--check")[2] == 0


def test_files_have_their_limit_whatever_comes_together(tmp_path: Path) -> None:
    """Each write fits a file, or has one of its own."""
    async def test() -> None:
        journal = Journal(str(tmp_path / "journal"), 1 << 20, False, Log(), Metrics())
        for size in (10, 200, 200, 700, 10, 200, 30):  # In kB; a file has up to 256.
            assert await journal.put_all([Scan(time.time(), "-", "-", "0", b"1" * 900, READ)] * size) == ""
            sizes = [it.stat().st_size for it in (tmp_path / "journal").glob("scans-*.tsv")]
            assert sum(sizes) <= 1 << 20 and all(it <= 1 << 18 or it > 600_000 for it in sizes)
        journal.close()
        assert not list(Check(tmp_path / "journal"))[0].number == 1

    asyncio.run(asyncio.wait_for(test(), 30))


@pytest.mark.parametrize("what, wanted", [
    ("change an answer", r"scans-\d+.tsv:3: this record was changed, or one before it is missing"),
    ("change an answer and its sum", r"scans-\d+.tsv:4: this record was changed, or one before it is missing"),
    ("change a number and its sum", r"scans-\d+.tsv:5: this record was changed, or one before it is missing"),
    ("take a record out", r"scans-\d+.tsv:3: this record was changed, or one before it is missing"),
    ("swap two", r"scans-\d+.tsv:3: this record was changed, or one before it is missing"),
    ("take a file out", r"scans-\d+.tsv:1: it does not go on where scans-\d+.tsv ends: a file was taken away or changed"),
    ("cut the end of a file", r"scans-\d+.tsv:1: it does not go on where scans-\d+.tsv ends: a file was taken away or changed"),
    ("change the beginning", r"scans-\d+.tsv:1: this is no beginning of a file of the journal"),
    ("rename a file", r"scans-0+7.tsv:1: this is no beginning of a file of the journal"),
    ("add a file without a record", r"scans-0+7.tsv:1: it does not go on where scans-0+5.tsv ends: a file was taken away or changed"),
    ("change two files", r"10 records in 3 files, 2 faults\n"),
])
def test_a_journal_that_was_changed(tmp_path: Path, what: str, wanted: str) -> None:
    folder = tmp_path / "journal"
    for begin in range(3):
        with Gateway(tmp_path, "--journal", str(folder), port=False) as gateway, gateway.unix_client() as client:
            assert len(scan_all(client, "till-1", [EAN] * 4)) == 4
    assert check(folder, "--check") == ("", "12 records in 3 files, 0 faults\n", 0)
    first, second, third = sorted(folder.glob("scans-*.tsv"))
    lines = second.read_text().splitlines(keepends=True)
    if what == "change an answer":
        lines[2] = lines[2].replace("(01)09501101530003", "(01)09501101530010")
    elif what == "change an answer and its sum":
        changed = lines[2].rpartition("\t")[0].replace("(01)09501101530003", "(01)09501101530010")
        lines[2] = f"{changed}\t{journal_module._sum(changed, lines[1].rstrip().rpartition(chr(9))[2])}\n"
    elif what == "change a number and its sum":
        changed = lines[4].rpartition("\t")[0].replace("8\t", "9\t", 1)
        lines[4] = f"{changed}\t{journal_module._sum(changed, lines[3].rstrip().rpartition(chr(9))[2])}\n"
    elif what == "take a record out":
        del lines[2]
    elif what == "swap two":
        lines[2], lines[3] = lines[3], lines[2]
    elif what == "cut the end of a file":
        del lines[-1]
    elif what == "change the beginning":
        lines[0] = lines[0].replace("journal 1", "journal 2")
    elif what == "change two files":
        third.write_text(third.read_text().replace("\t3\t", "\t4\t"))
        lines[4] = lines[4].replace("\t3\t", "\t4\t")
    second.write_text("".join(lines))
    seventh = folder / "scans-000000000000007.tsv"
    if what == "take a file out":
        second.unlink()
    elif what == "rename a file":
        second.rename(seventh)
    elif what == "add a file without a record":
        seventh.write_text(f"{journal_module.FORM}\t7\t{'0' * 16}\n")
    _, said, status = check(folder, "--check")
    assert status == 1 and re.search(wanted, said), said
    # A gateway goes on behind it.
    with Gateway(tmp_path, "--journal", str(folder), port=False) as gateway, gateway.unix_client() as client:
        assert scan_all(client, "till-1", [EAN]) == [f"0 {READ}\n"]


@pytest.mark.parametrize("old, new, kept, wanted", [
    ("\t2\t]E0", "\t2\t]E1", [1, 2], ":4: this record was changed, or one before it is missing"),
    ("journal 1", "journal 2", [], ":1: this is no beginning of a file of the journal"),
])
def test_a_last_file_that_was_changed(tmp_path: Path, old: str, new: str, kept: list[int], wanted: str) -> None:
    """The next gateway keeps it, and begins above every number that may stand behind the changed line, so no number comes twice."""
    folder = tmp_path / "journal"
    for count in (6, 1):
        with Gateway(tmp_path, "--journal", str(folder), port=False) as gateway, gateway.unix_client() as client:
            assert len(scan_all(client, "till-1", [EAN] * count)) == count
        if count > 1:
            file, = folder.glob("scans-*.tsv")
            changed = file.read_text().replace(old, new)
            file.write_text(changed)
    found = Check(folder)
    *records, last = found
    assert [record.number for record in records] == kept and last.number > 6 and file.read_text() == changed
    assert len(found.faults) == 1 and found.faults[0].endswith(wanted)


def test_a_scan_that_is_there_twice(tmp_path: Path) -> None:
    """In the journal of a gateway that is wrong: the check says which. What waits when the gateway stops is written before it has ended."""
    async def test() -> None:
        journal = Journal(str(tmp_path / "journal"), 1 << 30, False, Log(), Metrics())
        await put(journal, [5, 6])
        for number in (6, 3, 7):
            journal.put(Scan(time.time(), "till-1", "0" * 8, str(number), EAN, READ))
        journal.put(Scan(time.time(), "till-2", "0" * 8, "6", EAN, READ))
        journal.close()

    asyncio.run(asyncio.wait_for(test(), 30))
    _, said, status = check(tmp_path / "journal", "--check")
    assert status == 1 and said.endswith("6 records in 1 files, 2 faults\n")
    assert "scan 6 of lane till-1 is there twice, or out of its order: record 3" in said and "scan 3 of lane till-1 is there twice" in said


def test_a_record_that_is_cut(tmp_path: Path) -> None:
    """The gateway died while it wrote: no answer was sent, which is no fault; the next gateway goes on before it."""
    folder = tmp_path / "journal"
    for cut in range(1, 40, 6):
        with Gateway(tmp_path, "--journal", str(folder), port=False) as gateway, gateway.unix_client() as client:
            assert scan_all(client, "till-1", [EAN, EAN])[1] == f"1 {READ}\n"
        last = sorted(folder.glob("scans-*.tsv"))[-1]
        os.truncate(last, last.stat().st_size - cut)
        _, said, status = check(folder, "--check")
        assert status == 0 and f"{last}: the gateway died while it wrote record " in said


def test_a_second_gateway_on_one_journal(tmp_path: Path) -> None:
    folder = tmp_path / "journal"
    with Gateway(tmp_path, "--journal", str(folder), port=False):
        ran = subprocess.run([*NORILADLE, "gateway", "--unix", str(tmp_path / "other"), "--journal", str(folder)], capture_output=True, text=True, timeout=20)
    assert (ran.returncode, ran.stderr) == (2, f"noriladle: another gateway has the journal {folder}; give each its own\n")


def test_the_lock_of_a_journal_follows_no_link(tmp_path: Path) -> None:
    folder = tmp_path / "journal"
    folder.mkdir()
    (folder / "lock").symlink_to(tmp_path / "target")
    ran = subprocess.run([*NORILADLE, "gateway", "--unix", str(tmp_path / "hub"), "--journal", folder], capture_output=True, text=True, timeout=20)
    assert (ran.returncode, ran.stderr) == (2, f"noriladle: --journal {folder}: Too many levels of symbolic links\n")
    assert not (tmp_path / "target").exists()


@pytest.mark.parametrize("words, wanted", [
    (["--journal", "/dev/null"], "noriladle: --journal /dev/null: it is no folder\n"),
    (["--journal", "no/such/folder"], "noriladle: --journal no/such/folder: No such file or directory\n"),
])
def test_no_folder(tmp_path: Path, words: list[str], wanted: str) -> None:
    ran = subprocess.run([*NORILADLE, "gateway", "--unix", str(tmp_path / "hub"), *words], capture_output=True, text=True, timeout=20)
    assert (ran.returncode, ran.stderr) == (2, wanted)


def test_no_journal(tmp_path: Path) -> None:
    assert check(tmp_path) == ("", f"noriladle: {tmp_path}: there is no journal\n", 2)
    assert check(tmp_path / "none") == ("", f"noriladle: {tmp_path}/none: No such file or directory\n", 2)


def test_a_scan_whose_scanner_waits_no_longer(tmp_path: Path) -> None:
    """It is in the journal too, as unread, and so is one whose hub does not answer; each once."""
    folder = tmp_path / "journal"
    with Gateway(tmp_path, "--journal", str(folder), port=False) as gateway, gateway.unix_client() as client:
        assert client.ask(b"scan till-1\n") == "0 next\n"
        os.kill(gateway.hub(), signal.SIGSTOP)
        client.send(b"0\n0 " + EAN + b"\n")
        assert client.line() == "0 unread: no answer in 2 seconds\n"
        client.send(b"1 " + EAN + b"\n2\n")
        time.sleep(0.2)
        os.kill(gateway.hub(), signal.SIGCONT)
        assert client.ask(b"2 " + EAN + b"\n") == f"2 {READ}\n"
        assert [line.split("\t")[2:] for line in check(folder)[0].splitlines()] == [
            ["0", EAN.decode(), "unread: no answer in 2 seconds"], ["1", EAN.decode(), "unread: its scanner waits no longer"], ["2", EAN.decode(), READ]]


class Disk:
    """Counts writes to the disk, which take a while, and can refuse them."""

    def __init__(self, monkeypatch: pytest.MonkeyPatch) -> None:
        self.count, self.folders, self.refuses = 0, 0, False
        self.really, self.really_all = os.fdatasync, os.fsync
        monkeypatch.setattr(journal_module.os, "fdatasync", self.sync)
        monkeypatch.setattr(journal_module.os, "fsync", self.sync_folder)

    def sync_folder(self, descriptor: int) -> None:
        """A file that is new is on the disk once its folder is."""
        self.folders += 1
        self.really_all(descriptor)

    def sync(self, descriptor: int) -> None:
        time.sleep(0.1)
        self.count += 1
        if self.refuses:
            raise OSError(5, "Input/output error")
        self.really(descriptor)


def put(journal: Journal, numbers: Sequence[int]) -> Coroutine[Any, Any, list[tuple[int, str, float]]]:
    """Puts scans into a journal, and returns what is called, in its order, and when."""
    async def wait() -> list[tuple[int, str, float]]:
        done = []

        def note(number: int, why: str) -> None:
            done.append((number, why, time.monotonic()))

        for number in numbers:
            journal.put(Scan(time.time(), "till-1", "0" * 8, str(number), EAN, READ), partial(note, number))
        while len(done) < len(numbers):
            await asyncio.sleep(0.005)
        return done
    return wait()


def test_an_answer_waits_for_the_disk_and_shares_its_write(tmp_path: Path, monkeypatch: pytest.MonkeyPatch) -> None:
    """500 scans that wait together need a write or two, and none is called before its own; after a failed one the file begins anew."""
    async def test() -> None:
        disk = Disk(monkeypatch)
        journal = Journal(str(tmp_path / "journal"), 1 << 30, False, Log(), Metrics())
        begin = time.monotonic()
        done = await put(journal, range(500))
        assert [number for number, _, _ in done] == list(range(500)) and not any(why for _, why, _ in done)
        assert 2 <= disk.count <= 4 and done[0][2] - begin > 0.2 and disk.folders == 1
        disk.refuses = True
        assert (await put(journal, [500]))[0][1] == "the journal cannot be written: Input/output error"
        disk.refuses = False
        assert (await put(journal, [501]))[0][1] == "" and disk.folders == 2
        writes = disk.count
        journal.put(Scan(time.time(), "till-1", "0" * 8, "502", EAN, READ))
        journal.close()
        assert disk.count == writes + 1
        found = Check(tmp_path / "journal")
        records = list(found)
        assert [record.scan for record in records if record.lane != "-"] == [*map(str, range(500)), "501", "502"]
        assert [record.said for record in records if record.lane == "-"] == ["gap: 1 scans have no record"]
        assert not found.faults and len(found.files) == 2

    asyncio.run(asyncio.wait_for(test(), 30))


def test_a_record_that_stays_though_it_was_refused(tmp_path: Path, monkeypatch: pytest.MonkeyPatch) -> None:
    """The disk fails, and the file cannot be cut: the next one begins before that record, and the check says that it was not sent."""
    def no_cut(*_: object) -> NoReturn:
        raise OSError(5, "Input/output error")

    async def test() -> None:
        disk = Disk(monkeypatch)
        monkeypatch.setattr(journal_module.os, "ftruncate", no_cut)
        journal = Journal(str(tmp_path / "journal"), 1 << 30, False, Log(), Metrics())
        for number in range(3):
            disk.refuses = number == 1
            assert bool((await put(journal, [number]))[0][1]) == disk.refuses
        journal.close()

    asyncio.run(asyncio.wait_for(test(), 30))
    first, _ = sorted((tmp_path / "journal").glob("scans-*.tsv"))
    said, counts, status = check(tmp_path / "journal")
    assert [line.split("\t")[2] for line in said.splitlines()] == ["0", "1", "-", "2"] and status == 0
    assert counts == f"{first}: its last 1 records were not sent\n4 records in 2 files, 0 faults\n"


def test_rows_that_come_together_are_written_together(tmp_path: Path, monkeypatch: pytest.MonkeyPatch) -> None:
    """All or none of them, though the disk has room again while they are put."""
    calls = []

    def sync(descriptor: int) -> None:
        calls.append(descriptor)
        if len(calls) == 2:  # The first has the beginning of the file.
            raise OSError(28, "No space left on device")

    async def test() -> None:
        monkeypatch.setattr(journal_module.os, "fdatasync", sync)
        journal = Journal(str(tmp_path / "journal"), 1 << 30, False, Log(), Metrics())
        rows = [Scan(time.time(), "-", "-", str(number), b"1 1", "refused 19 Blank") for number in range(20_000)]
        assert await journal.put_all(rows) == "the journal cannot be written: No space left on device"
        assert await journal.put_all(rows[:2]) == "" == await journal.put_all([])
        journal.close()
        assert [record.scan for record in Check(tmp_path / "journal")] == ["-", "0", "1"]

    asyncio.run(asyncio.wait_for(test(), 30))
