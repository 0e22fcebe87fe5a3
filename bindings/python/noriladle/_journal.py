"""The journal of a gateway: files that have each scan and its answer, written to the disk before the answer is sent.

A file begins with the line ``noriladle journal 1``, the number of its first record, and the sum of the record before. A
record is a line of fields with tabs between: its number, the time of the scan in seconds since 1970, the lane, the series
and the number of the scan, its text, its answer, and a sum over the line and the sum before. So a check finds each record
that was changed, added, or taken out of the middle. Bytes of a text that are no printable ASCII, and ``\\``, are ``\\xHH``.
"""
from __future__ import annotations

import asyncio
import contextlib
import fcntl
import hashlib
import math
import os
import re
import threading
import time
from pathlib import Path
from typing import Callable, Dict, Iterator, List, NamedTuple, Optional, Tuple

from ._health import PATIENCE, Metrics
from ._log import Log
from .commands import WrongWords

FORM = "noriladle journal 1"
FILE = 16 << 20
"""A file of this many bytes is followed by the next one."""
AGAIN = 1.0
"""How many seconds lie between two attempts, while the journal cannot be written."""
_START = "0" * 16
_NAME = re.compile(r"scans-(\d{15})\.tsv")
_ODD = re.compile(rb"[^ -\[\]-~]")


class Scan(NamedTuple):
    """What a record says of a scan. A row of a program has the lane and the series -."""

    at: float
    lane: str
    series: str
    number: str
    text: bytes
    said: str


class Record(NamedTuple):
    """A record as it stands in a file."""

    number: int
    at: float
    lane: str
    series: str
    scan: str
    text: str
    said: str


Kept = Callable[[str], None]
"""Called when a record is on the disk, or with the reason why it is not."""


def _shown(text: bytes) -> str:
    return _ODD.sub(lambda found: b"\\x%02x" % found[0][0], text).decode("ascii")


def _sum(line: str, before: str) -> str:
    return hashlib.sha256(f"{before}\t{line}".encode()).hexdigest()[:16]


def files_of(folder: Path) -> List[Path]:
    """The files of a journal, from the oldest."""
    return sorted(it for it in folder.iterdir() if _NAME.fullmatch(it.name))


class Journal:
    """Writes the journal in a folder, by a thread of its own. Records that wait together share a write to the disk.

    The files have at most ``most`` bytes; the oldest are removed. While the journal cannot be written, each scan is refused
    with the reason; or, with ``goes_on``, is answered without a record, which the journal says once it can.

    :raises WrongWords: another gateway has the folder, or it is no folder for a journal.
    """

    def __init__(self, folder: str, most: int, goes_on: bool, log: Log, metrics: Metrics) -> None:
        self.why = ""
        """Why the journal cannot be written now."""
        self._folder, self._most, self._goes_on, self._log = Path(folder), most, goes_on, log
        self._lock = _locked(self._folder)
        self._file: Optional[int] = None
        self._size = self._bytes = 0
        self._next, self._before = _end_of(self._folder)
        self._missed = 0
        self._since = math.inf
        """When the write to the disk began that is under way."""
        self._waiting: List[Tuple[Scan, Optional[Kept]]] = []
        self._wakes = threading.Condition()
        self._ends = False
        self._loop = asyncio.get_running_loop()
        self._records = metrics.counter("noriladle_journal_records_total", "Records that the journal has on the disk.")
        self._lost = metrics.counter("noriladle_journal_missed_total", "Scans that the journal does not have.")
        self._took = metrics.histogram("noriladle_journal_sync_seconds", "How long a write of the journal to the disk took.")
        metrics.gauge("noriladle_journal_failing", "1 while the journal cannot be written, else 0.", lambda: bool(self.why))
        metrics.gauge("noriladle_journal_size_bytes", "The size of all files of the journal.", lambda: self._bytes)
        self._thread = threading.Thread(target=self._write_all, name="journal", daemon=True)
        self._thread.start()

    def stops(self) -> str:
        """Why scans have no answer now, or nothing."""
        if self.why and not self._goes_on:
            return f"the journal cannot be written: {self.why}"
        waits = time.monotonic() - self._since
        return f"the journal's disk has not answered for {waits:.0f} seconds" if waits > PATIENCE else ""

    def put(self, scan: Scan, kept: Optional[Kept] = None) -> None:
        """Writes a record, and then calls ``kept`` in the loop, in the order of the calls."""
        with self._wakes:
            self._waiting.append((scan, kept))
            self._wakes.notify()

    async def put_all(self, scans: List[Scan]) -> str:
        """Writes records together, all or none. Returns why they are not on the disk, or nothing."""
        if not scans:
            return ""
        done: asyncio.Future[str] = self._loop.create_future()
        with self._wakes:
            self._waiting += [(scan, None) for scan in scans[:-1]]
            self.put(scans[-1], lambda why: None if done.done() else done.set_result(why))
        return await done

    def close(self) -> None:
        """Writes what waits, and ends."""
        with self._wakes:
            self._ends = True
            self._wakes.notify()
        self._thread.join(5)
        os.close(self._lock)

    def _write_all(self) -> None:
        while True:
            with self._wakes:
                while not (self._waiting or self._ends):
                    if not self._wakes.wait(AGAIN if self.why else None):
                        break  # The disk may have room again.
                taken, self._waiting = self._waiting, []
                ends = self._ends
            if taken or self.why:
                why = self._write([scan for scan, _ in taken])
                self._missed += len(taken) if why else 0
                self._tell(taken, why)
            elif ends:
                self._close_file()
                return

    def _tell(self, taken: List[Tuple[Scan, Optional[Kept]]], why: str) -> None:
        """Calls those that wait, in the loop."""
        if why and why != self.why:
            self._log.fault(f"{self._folder}: {why}; " + ("scans go on without a record" if self._goes_on else "no scan is answered"))
        elif self.why and not why:
            self._log.fault(f"{self._folder}: the journal is written again")
        self.why = why
        said = f"the journal cannot be written: {why}" if why and not self._goes_on else ""

        def call() -> None:
            (self._lost if why else self._records).add(by=len(taken))
            for _, kept in taken:
                if kept:
                    kept(said)

        with contextlib.suppress(RuntimeError):  # The loop has ended.
            self._loop.call_soon_threadsafe(call)

    def _write(self, scans: List[Scan]) -> str:
        """Has records on the disk. Returns why not, and then the file ends where it ended before."""
        begin = self._since = time.monotonic()
        number, before = self._next, self._before
        if self._missed:
            scans = [Scan(time.time(), "-", "-", "-", b"", f"gap: {self._missed} scans have no record"), *scans]
        lines: List[str] = []
        for scan in scans:
            fields = [str(number), f"{scan.at:.3f}", scan.lane, scan.series, scan.number, _shown(scan.text), _shown(scan.said.encode())]
            line = "\t".join(fields)
            before = _sum(line, before)
            lines.append(f"{line}\t{before}\n")
            number += 1
        try:
            data = "".join(lines).encode()
            self._make_room(len(data))
            self._append(data)
        except OSError as fault:
            self._drop_file()
            return str(fault.strerror)
        finally:
            self._since = math.inf
        self._next, self._before, self._missed = number, before, 0
        self._took.see(time.monotonic() - begin)
        return ""

    def _make_room(self, more: int) -> None:
        """Opens the next file if there is none or the present one is full, and removes the oldest."""
        full = max(1, min(FILE, self._most // 4))
        if self._file is not None and self._size + more > full:
            self._close_file()
        if self._file is None:
            files = files_of(self._folder)
            sizes = [it.stat().st_size for it in files]
            while files and sum(sizes) + max(full, more) > self._most:
                files.pop(0).unlink()
                sizes.pop(0)
            self._bytes, self._size = sum(sizes), 0
            path = self._folder / f"scans-{self._next:015}.tsv"
            with contextlib.suppress(FileNotFoundError):
                path.unlink()  # One that has no record.
            self._file = os.open(path, os.O_WRONLY | os.O_CREAT | os.O_EXCL | os.O_NOFOLLOW | os.O_CLOEXEC, 0o640)
            self._append(f"{FORM}\t{self._next}\t{self._before}\n".encode())
            _sync_folder(self._folder)

    def _append(self, data: bytes) -> None:
        assert self._file is not None
        rest = memoryview(data)
        while rest:
            rest = rest[os.write(self._file, rest):]
        os.fdatasync(self._file)
        self._size += len(data)
        self._bytes += len(data)

    def _drop_file(self) -> None:
        """Cuts the file where its last record ended, and leaves it. After a failed write to the disk nobody knows what it has."""
        if self._file is not None:
            with contextlib.suppress(OSError):
                os.ftruncate(self._file, self._size)
            self._close_file()

    def _close_file(self) -> None:
        if self._file is not None:
            with contextlib.suppress(OSError):
                os.close(self._file)
            self._file = None


def _sync_folder(folder: Path) -> None:
    end = os.open(folder, os.O_RDONLY | os.O_DIRECTORY | os.O_CLOEXEC)
    try:
        os.fsync(end)
    finally:
        os.close(end)


def _locked(folder: Path) -> int:
    """Holds a lock in a folder, which is made if it is not there."""
    try:
        folder.mkdir(mode=0o750, exist_ok=True)
        lock = os.open(folder / "lock", os.O_RDWR | os.O_CREAT | os.O_NOFOLLOW | os.O_CLOEXEC, 0o640)
    except FileExistsError as fault:
        raise WrongWords(f"--journal {folder}: it is no folder") from fault
    except OSError as fault:
        raise WrongWords(f"--journal {folder}: {fault.strerror}") from fault
    try:
        fcntl.flock(lock, fcntl.LOCK_EX | fcntl.LOCK_NB)
    except BlockingIOError:
        os.close(lock)
        raise WrongWords(f"another gateway has the journal {folder}; give each its own") from None
    return lock


def _end_of(folder: Path) -> Tuple[int, str]:
    """The number of the next record of a journal, and the sum of the last."""
    for file in reversed(files_of(folder)):
        checked = Checked(file)
        for _ in checked:
            pass
        if checked.header or checked.faults:
            # Behind a line that is wrong the numbers begin above whatever may stand there.
            return checked.next + (file.stat().st_size if checked.faults else 0), checked.before
    return 1, _START


class Checked:
    """The records of a file, each checked: ``faults`` says what is wrong with which line."""

    def __init__(self, path: Path) -> None:
        self.path = path
        self.faults: List[str] = []
        self.header: Optional[Tuple[int, str]] = None
        """The number of the first record, and the sum before it."""
        self.next, self.before = int(path.stem.partition("-")[2]), _START
        self.is_torn = False
        """Whether its last line has no end: the gateway died while it wrote, and sent no answer of it."""

    def __iter__(self) -> Iterator[Tuple[Record, str]]:
        """The records, each with its sum, up to the first line that is wrong."""
        with open(self.path, encoding="ascii", errors="replace", newline="\n") as file:
            for place, line in enumerate(file, 1):
                if not line.endswith("\n"):
                    self.is_torn = True
                    return
                if place == 1:
                    if not self._take_header(line[:-1]):
                        return
                    continue
                found = self._record(line[:-1], place)
                if not found:
                    return
                yield found, self.before

    def _take_header(self, line: str) -> bool:
        form, _, rest = line.partition("\t")
        first, _, before = rest.partition("\t")
        named = _NAME.fullmatch(self.path.name)
        if form != FORM or not (named and first.isdecimal() and int(first) == int(named[1]) and re.fullmatch("[0-9a-f]{16}", before)):
            self.faults.append(f"{self.path}:1: this is no beginning of a file of the journal")
            return False
        self.header = self.next, self.before = int(first), before
        return True

    def _record(self, line: str, place: int) -> Optional[Record]:
        rest, _, its_sum = line.rpartition("\t")
        fields = rest.split("\t")
        if len(fields) != 7 or _sum(rest, self.before) != its_sum or fields[0] != str(self.next):
            self.faults.append(f"{self.path}:{place}: this record was changed, or one before it is missing")
            return None
        self.next, self.before = self.next + 1, its_sum
        return Record(int(fields[0]), float(fields[1]), *fields[2:])


class Check:
    """All records of a journal, checked: each is whole and in its place, and no scan is there twice."""

    def __init__(self, folder: Path) -> None:
        self.faults: List[str] = []
        self.notes: List[str] = []
        """What is no fault: answers that were never sent."""
        self.files = files_of(folder)
        self._last: Dict[Tuple[str, str], int] = {}

    def __iter__(self) -> Iterator[Record]:
        end: Optional[Checked] = None
        seen: Dict[int, str] = {}
        for path in self.files:
            file = Checked(path)
            sums: Dict[int, str] = {}
            for number, (record, its_sum) in enumerate(file):
                if number == 0:
                    self._follow(end, seen, file)
                sums[file.next] = its_sum
                self._once(record, path)
                yield record
            if file.header and not sums:
                self._follow(end, seen, file)
            self.faults += file.faults
            if file.is_torn:
                self.notes.append(f"{path}: the gateway died while it wrote record {file.next}; it sent no answer of it")
            if file.header:
                end, seen = file, {file.header[0]: file.header[1], **sums}

    def _follow(self, end: Optional[Checked], seen: Dict[int, str], file: Checked) -> None:
        """Whether a file goes on where the one before ended; or before that, if its last records never got to the disk whole."""
        assert file.header
        if end is None or end.faults:
            return
        first, before = file.header
        if seen.get(first) != before:
            self.faults.append(f"{file.path}:1: it does not go on where {end.path.name} ends: a file was taken away or changed")
        elif first < end.next:
            self.notes.append(f"{end.path}: its last {end.next - first} records were not sent")

    def _once(self, record: Record, path: Path) -> None:
        if record.lane == "-" or not record.scan.isdecimal():
            return
        last = self._last.get((record.lane, record.series), -1)
        if int(record.scan) <= last:
            self.faults.append(f"{path}: scan {record.scan} of lane {record.lane} is there twice, or out of its order: record {record.number}")
        self._last[record.lane, record.series] = int(record.scan)
