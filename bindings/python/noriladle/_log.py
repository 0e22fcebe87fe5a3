"""Log lines, and other lines that a service writes: a thread writes them, so that a full disk or a stuck reader holds nobody up."""
from __future__ import annotations

import atexit
import datetime
import json
import logging
import os
import queue
import re
import select
import threading
from typing import Callable, Dict, Optional

WAITING = 2_000
"""How many lines may wait to be written; later ones are dropped."""
LAST = 1.0
"""How many seconds the lines that wait at the end have to be written."""


class Writer:
    """Writes lines to a descriptor, and never waits for it: a line without room is dropped, and counted."""

    def __init__(self, descriptor: int) -> None:
        self.dropped = 0
        self.is_broken = False
        """Whether nobody reads its pipe any more."""
        self._descriptor = descriptor
        self.said: Callable[[int], str] = lambda count: f"{count} lines were dropped here"
        """The line that says how many were dropped, once lines can be written again."""
        self._lines: queue.Queue[Optional[str]] = queue.Queue(WAITING)
        self._thread: Optional[threading.Thread] = None

    def __call__(self, line: str) -> None:
        """Writes a line, some time."""
        if self._thread is None:
            self._thread = threading.Thread(target=self._write_all, name="writer", daemon=True)
            self._thread.start()
            atexit.register(self._end)
        try:
            self._lines.put_nowait(line)
        except queue.Full:
            self.dropped += 1

    def _write_all(self) -> None:
        told = 0
        while True:
            line = self._lines.get()
            if line is None:
                return
            if self.dropped > told and self._write(self.said(self.dropped - told)):
                told = self.dropped
            if not self._write(line):
                self.dropped += 1

    def _write(self, line: str) -> bool:
        """Whether a line has been written."""
        rest = (line + "\n").encode("utf-8", "replace")
        while rest:
            try:
                rest = rest[os.write(self._descriptor, rest):]
            except BlockingIOError:
                # Somebody else has set it so.
                select.select([], [self._descriptor], [])
            except OSError as fault:
                self.is_broken |= isinstance(fault, BrokenPipeError)
                return False
        return True

    def _end(self) -> None:
        if self._thread:
            try:
                self._lines.put(None, timeout=LAST)
            except queue.Full:
                return
            self._thread.join(LAST)


_writers: Dict[int, Writer] = {}


def writer(descriptor: int) -> Writer:
    """The writer of standard output, 1, or error, 2."""
    if descriptor not in _writers:
        _writers[descriptor] = Writer(descriptor)
    return _writers[descriptor]


def lines_dropped() -> int:
    """How many lines this process could not write."""
    return sum(it.dropped for it in _writers.values())


class Log:
    """Lines to standard error: what happened and to whom, each with its time, unless the journal adds one."""

    def __init__(self, what: str = "faults", as_json: bool = False) -> None:
        self.all, self.json = what == "all", as_json
        self._has_time = "JOURNAL_STREAM" in os.environ
        writer(2).said = lambda count: self._line("fault", f"{count} log lines were dropped", {})

    def note(self, what: str, **of: object) -> None:
        """An event that is no fault: a connection, a takeover, a sender that is refused."""
        if self.all:
            self._write("note", what, of)

    def fault(self, what: str, **of: object) -> None:
        """A fault of the service itself."""
        self._write("fault", what, of)

    def _write(self, kind: str, what: str, of: Dict[str, object]) -> None:
        writer(2)(self._line(kind, what, of))

    def _line(self, kind: str, what: str, of: Dict[str, object]) -> str:
        time = datetime.datetime.now(datetime.timezone.utc).strftime("%Y-%m-%dT%H:%M:%S.%f")[:-3] + "Z"
        if self.json:
            return json.dumps({"time": time, "kind": kind, "what": what, **of}, default=str)
        # The journal reads the level from this mark.
        mark = ("<3>" if kind == "fault" else "<6>") if self._has_time else f"{time} "
        return mark + " ".join([what, *(f"{name}={_quoted(value)}" for name, value in of.items())])


class _Logged(logging.Handler):
    """Has a log write what the libraries say."""

    def __init__(self, log: Log) -> None:
        super().__init__(logging.WARNING)
        self._log = log

    def emit(self, record: logging.LogRecord) -> None:
        """Writes a line, with the last line of a traceback."""
        fault = record.exc_info[1] if record.exc_info else None
        self._log.fault(record.getMessage().partition("\n")[0], by=record.name, **({"fault": repr(fault)} if fault else {}))


def take_libraries(log: Log) -> None:
    """Has a log write what the libraries of this process say, which otherwise wait for whoever reads it."""
    logging.root.handlers[:] = [_Logged(log)]


def _quoted(value: object) -> str:
    """A value without a blank in it, or as a text between quotation marks."""
    text = str(value)
    return text if re.fullmatch(r"[!#-~]+", text) else json.dumps(text)
