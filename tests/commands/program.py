"""Runs the program, and checks a run."""

from __future__ import annotations

import ctypes
import io
import itertools
import mmap
import os
import resource
import subprocess
import tempfile
import unittest
from typing import IO, Any, Callable, Union

# The program that is tested; `run` sets it.
PATH = ""

# No run takes as long.
SECONDS = 120

# Whether an emulator of another processor runs the program.
EMULATED = bool(os.environ.get("EMULATED"))


Given = Union[bytes, IO[bytes], int]
"""What a run reads: bytes, an open file, or its number."""


class Ran:
    """The result of a run: its exit status, its output, and its standard error."""

    def __init__(self, status: int, output: bytes, error: bytes) -> None:
        self.status, self.output, self.error = status, output, error

    def outcome(self) -> tuple[int, bytes, str]:
        """The exit status, the output, and the lines on standard error, as a test compares them."""
        return self.status, self.output, self.error.decode()


def ran(command: str, given: Given, **how: Any) -> Ran:
    """Runs the program's command, one word for each between spaces, on these bytes or on this open file."""
    how["input" if isinstance(given, bytes) else "stdin"] = given
    how.setdefault("stdout", subprocess.PIPE)
    it = subprocess.run([PATH, *command.split()], stderr=subprocess.PIPE, timeout=SECONDS, **how)
    return Ran(it.returncode, it.stdout, it.stderr)


def ran_to(room: int, command: str, given: Given) -> Ran:
    """The same with an output file that has room for this many bytes: a write past them fails."""

    def narrow() -> None:
        resource.setrlimit(resource.RLIMIT_FSIZE, (room, room))

    with tempfile.TemporaryFile() as file:
        # Python ignores the signal of such a write, and so does what it starts, unless signals are restored.
        it = ran(command, given, stdout=file, preexec_fn=narrow, restore_signals=False)
        file.seek(0)
        return Ran(it.status, file.read(), it.error)


def room_for(mebibytes: int) -> dict[str, Callable[[], None]]:
    """How a run is started with this much room for memory and for threads, each with a stack of eight MiB."""
    if EMULATED:
        raise unittest.SkipTest("an emulator takes the room that is meant for the program")

    def limit() -> None:
        resource.setrlimit(resource.RLIMIT_STACK, (8 << 20, resource.getrlimit(resource.RLIMIT_STACK)[1]))
        resource.setrlimit(resource.RLIMIT_AS, (mebibytes << 20, mebibytes << 20))

    return {"preexec_fn": limit}


def field(text: str) -> str:
    """A field of a record with this text: between quotes where CSV wants them."""
    return '"' + text.replace('"', '""') + '"' if set(text) & set('",\r\n') else text


class Breaking:
    """A file of some bytes, after which a read fails: the last bytes of a page of memory, and the page after it is
    of a file that has no such page."""

    def __init__(self, given: bytes) -> None:
        with tempfile.TemporaryFile() as pages:
            pages.truncate(2 * mmap.PAGESIZE)
            self.room = mmap.mmap(pages.fileno(), 2 * mmap.PAGESIZE)
            pages.truncate(mmap.PAGESIZE)
        start = mmap.PAGESIZE - len(given)
        self.room[start : mmap.PAGESIZE] = given
        self.file = open("/proc/self/mem", "rb", buffering=0)
        self.file.seek(ctypes.addressof(ctypes.c_char.from_buffer(self.room)) + start)

    def __enter__(self) -> io.FileIO:
        return self.file

    def __exit__(self, *_: object) -> None:
        self.file.close()


class CommandTest(unittest.TestCase):
    """A test of commands."""

    maxDiff = None

    def gives(self, command: str, given: bytes | str, wanted: str) -> None:
        """That a command writes this output, or is refused with this line and writes nothing: a refusal has no line end."""
        given = given if isinstance(given, bytes) else given.encode()
        if wanted and not wanted.endswith("\n"):
            self.is_refused(ran(command, given), wanted)
        else:
            self.assertEqual(ran(command, given).outcome(), (0, wanted.encode(), ""))

    def gives_lines(self, command: str, cases: list[tuple[str, str]]) -> None:
        """That one run writes these lines, one for each record: the records with their lines."""
        it = ran(command, "".join(f"{record}\n" for record, _ in cases).encode())
        self.assertEqual((it.status, it.error), (0, b""))
        lines = it.output.decode().removesuffix("\n").split("\n")
        # Enough of what differs, since one fault can show in thousands of records.
        wrong = [(record, line, told) for (record, line), told in zip(cases, lines) if line != told]
        self.assertEqual(wrong[:20], [], "records with the line that is wanted and the one that is told")
        self.assertEqual(len(lines), len(cases))

    def writes_lines(self, command: str, given: bytes, lines: list[str]) -> None:
        """That a command writes this long text; a failure shows the first line that differs."""
        it = ran(command, given)
        self.assertEqual((it.status, it.error), (0, b""))
        if it.output != "".join(lines).encode():
            told = it.output.decode().splitlines(keepends=True)
            for place, (line, found) in enumerate(itertools.zip_longest(lines, told)):
                self.assertEqual(found, line, f"line {place}")

    def is_refused(self, it: Ran, line: str, output: bytes = b"") -> None:
        """That a run was refused with this line, and wrote this before."""
        self.assertEqual(it.outcome(), (1, output, f"{line}\n"))
