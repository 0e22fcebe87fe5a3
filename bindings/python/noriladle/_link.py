"""Sends a scanner's texts to a gateway, each once. Each gets its answer within two seconds or counts as unread."""
from __future__ import annotations

import socket
import time
from collections import deque
from typing import Callable, Deque, List, NamedTuple, Optional

from ._scans import SECONDS, new_series

_BETWEEN, _REFUSED = 0.1, 1.0
"""Seconds until the next attempt, if there is no gateway, and if it has refused the scanner."""

Said = Callable[[int, str, bytes], None]
"""Called with the number of a scan, its answer or why it has none, and its text, which is empty without an answer."""


def now() -> float:
    """Seconds of a clock that goes on while the machine sleeps, and that nobody sets."""
    return time.clock_gettime(time.CLOCK_BOOTTIME)


_OLD = "a lane's name has"
"""What a gateway of version 1.1 says to a first line of form 2."""


class _Scan(NamedTuple):
    number: int
    until: float
    at: float
    text: bytes
    """A blank and the text, or a tab and why there is none."""


class Link:
    """A scanner's connection to a gateway over its UNIX socket. It connects again whenever the connection ends.

    Each scan has a number, one more than the last, and its time. A scan that may have been sent is never sent again, since
    the till may have got it: it is unread. So is a scan for which there is no gateway within two seconds. At the next
    connection the gateway gets the number of the next scan, which shows the till what was lost.
    """

    def __init__(self, path: str, lane: str, said: Said, note: Callable[[str], None]) -> None:
        self.socket: Optional[socket.socket] = None
        self._path, self._lane, self._said, self._note = path, lane, said, note
        self._number = 0
        self._series = new_series()
        self._form = 2
        self._is_open, self._is_fresh = False, True
        self._lost = 0
        """How many scans were given up since the gateway got the number of the next one."""
        self._kept: Deque[_Scan] = deque()
        self._sent: Deque[_Scan] = deque()
        self._out = self._in = b""
        self._again, self._between = 0.0, _BETWEEN
        self._why = ""

    @property
    def is_waiting(self) -> bool:
        """Whether a scan has no answer yet, or the till does not know yet that one was lost."""
        return bool(self._kept or self._sent or self._lost)

    @property
    def wants_to_write(self) -> bool:
        """Whether something is left to send."""
        return bool(self._out)

    def next_step(self) -> float:
        """The time of :func:`now` at which :meth:`step` has something to do."""
        first = [scans[0].until for scans in (self._sent, self._kept) if scans]
        return min([*first, *([] if self.socket else [self._again])], default=float("inf"))

    def scan(self, text: bytes, at: float) -> None:
        """Sends a text that was read at this time, in seconds since 1970, or keeps it for up to two seconds."""
        self._take(at, b" " + text)

    def unread(self, why: str) -> None:
        """Reports a scan without a text to the till."""
        self._take(time.time(), b"\t" + why.encode())

    def _take(self, at: float, text: bytes) -> None:
        scan = _Scan(self._number, now() + SECONDS, at, text)
        self._number += 1
        if self._is_open:
            self._send(scan)
        else:
            self._kept.append(scan)

    def step(self) -> None:
        """Gives up scans that have waited too long, and connects if there is no connection."""
        self._drop_old()
        if self._sent and self._sent[0].until <= now():
            # All scans wait for the same gateway. Tell it that nobody waits any more.
            self._give_up(f"no answer in {SECONDS:g} seconds")
            self._tell_next(self._number)
        if not self.socket and self._again <= now():
            self._connect()

    def _drop_old(self) -> None:
        """Gives up scans that have waited too long for a gateway."""
        while self._kept and self._kept[0].until <= now():
            self._lost += 1
            self._said(self._kept.popleft().number, f"unread: {self._why or 'no gateway'}", b"")

    def take_answers(self) -> None:
        """Reads what the gateway has sent. Its connection may have ended."""
        assert self.socket
        try:
            some = self.socket.recv(65_536)
        except BlockingIOError:
            return
        except OSError as fault:
            self._end(str(fault))
            return
        *lines, self._in = (self._in + some).split(b"\n")
        for line in lines:
            self._answered(line.decode("utf-8", "replace"))
        if not some:
            self._end(self._why or "the gateway has gone")

    def write(self) -> None:
        """Writes as much as the gateway accepts now."""
        if self.socket and self._out:
            try:
                self._out = self._out[self.socket.send(self._out):]
            except BlockingIOError:
                pass
            except OSError as fault:
                self._end(str(fault))

    def close(self) -> None:
        """Ends the connection."""
        if self.socket:
            self.socket.close()
            self.socket = None

    def _connect(self) -> None:
        found = socket.socket(socket.AF_UNIX)
        found.setblocking(False)  # A gateway that was stopped lets nobody in.
        try:
            found.connect(self._path)
        except OSError as fault:
            found.close()
            self._again = now() + _BETWEEN
            self._tell(f"{self._path}: {fault.strerror}")
            return
        self.socket, self._in, self._out, self._between = found, b"", b"", _BETWEEN
        self._write(f"scan {self._lane}{f' 2 {self._series}' if self._form == 2 else ''}\n".encode())

    def _tell(self, why: str) -> None:
        """Remembers why there is no gateway, and logs it once."""
        if why != self._why:
            self._why = why
            self._note(why)

    def _answered(self, line: str) -> None:
        if line.startswith("closed: "):
            if self._form == 2 and line.startswith(f"closed: {_OLD}"):
                self._form = 1
                return
            self._between = _REFUSED
            self._tell(line[len("closed: "):])
            return
        word, _, said = line.partition(" ")
        said = said.partition(" ")[2] if self._form == 2 else said
        number = int(word) if word.isdecimal() else -1
        if said.startswith("next"):
            if not self._is_open:
                self._begin(number, said[len("next "):] or ("" if self._is_fresh else self._series))
        elif self._sent and number == self._sent[0].number and self._sent[0].until > now():
            self._said(number, said, self._sent.popleft().text[1:])

    def _begin(self, number: int, series: str) -> None:
        """The gateway expects this number. In the same series the numbers go on from the larger one; in another from the
        gateway's, with a gap for what was lost."""
        self._drop_old()
        first = self._kept[0].number if self._kept else self._number
        more = (max(number, first) if series == self._series else number + self._lost) - first
        self._kept = deque(scan._replace(number=scan.number + more) for scan in self._kept)
        self._number += more
        self._series, self._is_fresh, self._is_open, self._why = series or self._series, False, True, ""
        self._tell_next(first + more)
        kept: List[_Scan] = list(self._kept)
        self._kept.clear()
        for scan in kept:
            self._send(scan)

    def _tell_next(self, number: int) -> None:
        """Sends the number of the next scan, so the till knows which were lost."""
        self._lost = 0
        self._write(self._line(number, time.time(), b""))

    def _send(self, scan: _Scan) -> None:
        self._sent.append(scan)
        self._write(self._line(scan.number, scan.at, scan.text))

    def _line(self, number: int, at: float, text: bytes) -> bytes:
        return b"%d %.3f%b\n" % (number, at, text) if self._form == 2 else b"%d%b\n" % (number, text)

    def _write(self, line: bytes) -> None:
        self._out += line
        self.write()

    def _end(self, why: str) -> None:
        """The connection has ended. Scans that were sent and have no answer are not sent again."""
        self.close()
        if self._is_open:
            self._is_open, self._form = False, 2
        self._again = now() + self._between
        self._give_up(why)
        self._tell(why)

    def _give_up(self, why: str) -> None:
        self._lost += len(self._sent)
        while self._sent:
            self._said(self._sent.popleft().number, f"unread: {why}", b"")
