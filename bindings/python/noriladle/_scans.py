"""Lanes with names. Each has a scanner and the tills that watch it; all of them get each scan at once.

Lines have two forms. In form 1 a scan is ``17 ]E0 (01)09501101530003``. In form 2 its time stands behind its number, in
seconds since 1970, and each 5 seconds comes a line such as ``18 1764493234.123 next 5f3a9c01``: the next scan, the
gateway's time, and the name of the series of numbers.
"""
from __future__ import annotations

import asyncio
import functools
import re
import secrets
import time
from dataclasses import dataclass
from typing import Callable, Dict, List, Optional

from ._journal import Journal, Scan
from .live import Hub, Lane, Reply

SECONDS = 2.0
"""How long a scan may wait for its answer. Then it is unread, so the next customer does not get its answer."""
_LATE = f"unread: no answer in {SECONDS:g} seconds"
BEAT = 5.0
"""How many seconds lie between two lines that say that the gateway is there, in form 2."""
LAST = 999_999_999_999_999
"""The largest number of a scan. A scanner that comes when half of the numbers are used begins a new series."""
TURN, LEAST_TURN = 64, 8
"""How many scans of all lanes may be under way before each lane has its share of them; and the least share."""

_NAME = re.compile(r"[A-Za-z0-9][A-Za-z0-9._:-]{0,63}")
_SERIES = re.compile(r"[0-9a-f]{8}")

Tell = Callable[[str], None]
"""Sends a line to the other end, without waiting."""
Seen = Callable[[str, float], None]
"""Counts an answer, and how many seconds it took."""


def is_name(word: str) -> bool:
    """Whether a word may be the name of a lane."""
    return bool(_NAME.fullmatch(word))


def is_series(word: str) -> bool:
    """Whether a word may be the name of a series of numbers."""
    return bool(_SERIES.fullmatch(word))


def new_series() -> str:
    """The name of a series of numbers that no other has."""
    return secrets.token_hex(4)


@dataclass(frozen=True)
class Listener:
    """Somebody who gets the lines of a lane, in form 1 or 2."""

    tell: Tell
    form: int = 1


class _Asked:
    """A scan without an answer yet: its text, when the lane asked, by the clock of the loop, and when it was scanned, since 1970."""

    __slots__ = "text", "reply", "since", "time", "unread", "is_kept"

    def __init__(self, text: bytes, reply: "asyncio.Future[Reply]", since: float, at: float, unread: str) -> None:
        self.text, self.reply, self.since, self.time, self.unread = text, reply, since, at, unread
        self.is_kept = False
        """Whether the journal has it, or will."""


class ScanLane:
    """A lane with a name. The scanner's program numbers its scans, each one more than the last.

    For scan 17 each till gets ``17 ]E0 (01)09501101530003``, or ``17 refused 3 CheckDigit``, or
    ``17 unread: no answer in 2 seconds``. The line ``18 next`` says that the next scan is 18: a till that got no line for
    17 knows by this that it was lost. Nothing is kept for a till that is not connected.
    """

    def __init__(self, name: str, lane: Lane) -> None:
        self.name = name
        self.watchers: List[Listener] = []
        self.scanner: Optional[Listener] = None
        self.next: Optional[int] = None
        """The number of the next scan that the tills get; None before a scanner has come."""
        self.series = ""
        """The name of its series of numbers. In a series no number comes twice."""
        self.is_contested = False
        """Whether another scanner came while the lane had this one."""
        self.scans = self.unread = self.lost = self.refused = 0
        """How many scans came, had no answer, never came, and how many scanners found the lane taken."""
        self.seen: Seen = lambda said, seconds: None
        self.journal: Optional[Journal] = None
        self._lane = lane
        self._asked = 0
        self._waiting: Dict[int, _Asked] = {}
        self._room: Optional[asyncio.Future[None]] = None
        self._timer: Optional[asyncio.TimerHandle] = None

    @property
    def under_way(self) -> List[float]:
        """When the lane asked about each scan that has no answer yet, by the clock of the loop."""
        return [it.since for it in self._waiting.values()]

    @property
    def waiting(self) -> int:
        """How many scans have no answer yet."""
        return len(self._waiting)

    def join(self, series: str = "") -> int:
        """A scanner comes, with its own series. Returns the number from which it goes on."""
        if self._asked > LAST // 2:
            self._begin_series(0, new_series())
        self.series = self.series or series or new_series()
        return self._asked

    def begin(self, number: int) -> None:
        """The next scan has this number. The lane waits for no answer to an earlier one.

        :raises ValueError: the number is too large.
        """
        _check(number)
        self.lost += max(0, number - self._asked) if self.next is not None else 0
        self._begin_series(number, new_series() if number < self._asked else self.series)

    def _begin_series(self, number: int, series: str) -> None:
        waiting, self._waiting = self._waiting, {}
        for its_number, asked in waiting.items():
            asked.reply.cancel()
            self._keep(its_number, asked, "unread: its scanner waits no longer")
        self.next = self._asked = number
        self.series = series
        self._tell(number, "next")

    def scan(self, number: int, text: bytes, at: Optional[float] = None, unread: str = "") -> None:
        """Asks the hub for a text of the scanner, which it has read at this time, since 1970. With ``unread`` the scan has no
        text, and this is why.

        :raises ValueError: the number is not the next one, or is too large.
        """
        if number != self._asked or self.next is None:
            raise ValueError(f"scan {number} is not the next one of lane {self.name}")
        _check(number)
        self._asked += 1
        self.scans += 1
        now = time.time()
        if at is not None and not unread:
            unread = _why_old(now - at)
        loop = asyncio.get_running_loop()
        asked = _Asked(text, self._lane.ask(b"" if unread else text), loop.time(), now if at is None else at, unread)
        self._waiting[number] = asked
        asked.reply.add_done_callback(functools.partial(self._answered, number, asked))
        if not self._timer:
            self._timer = loop.call_later(SECONDS, self._expire)

    async def room(self, turn: int) -> None:
        """Waits until fewer scans than this are under way."""
        while len(self._waiting) >= turn:
            self._room = asyncio.get_running_loop().create_future()
            await self._room

    def _make_room(self) -> None:
        if self._room and not self._room.done():
            self._room.set_result(None)

    def watch(self, till: Listener) -> None:
        """Sends each scan to a till from now on; first the number of the next one, if there was a scanner."""
        self.watchers.append(till)
        if self.next is not None or till.form > 1:
            till.tell(self._line(self.next, "next", None, till.form))

    def leave(self, till: Listener) -> None:
        """Sends a till nothing more."""
        self.watchers = [it for it in self.watchers if it is not till]

    def beat(self) -> None:
        """Tells everybody in form 2 that the gateway is there."""
        for it in [*self.watchers, *([self.scanner] if self.scanner else [])]:
            if it.form > 1:
                it.tell(self._line(self.next, "next", None, it.form))

    def _expire(self) -> None:
        """Gives up the scans that have waited too long, for the hub or for the journal. The lane asked about them in their order."""
        loop = asyncio.get_running_loop()
        self._timer, least = None, loop.time() - SECONDS
        for number, asked in list(self._waiting.items()):
            if asked.since > least:
                self._timer = loop.call_at(asked.since + SECONDS, self._expire)
                return
            asked.reply.cancel()
            self._keep(number, asked, _LATE)
            self._send(number, asked, _LATE, True)

    def _answered(self, number: int, asked: _Asked, reply: "asyncio.Future[Reply]") -> None:
        """The hub has answered. If there is a journal, it gets the answer first. Answers come in the order of the scans."""
        if self._waiting.get(number) is not asked or reply.cancelled() or reply.exception():
            return  # Nobody waits any more, or the hub has ended, and with it each connection.
        said = f"unread: {asked.unread}" if asked.unread else reply.result().said
        if self.journal:
            self._keep(number, asked, said, functools.partial(self._kept, number, asked, said))
        else:
            self._send(number, asked, said, bool(asked.unread))

    def _keep(self, number: int, asked: _Asked, said: str, kept: Optional[Callable[[str], None]] = None) -> None:
        """Writes a scan into the journal, if there is one, and once."""
        if self.journal and not asked.is_kept:
            asked.is_kept = True
            self.journal.put(Scan(asked.time, self.name, self.series, str(number), asked.text, said), kept)

    def _kept(self, number: int, asked: _Asked, said: str, why: str) -> None:
        """The journal has a scan and its answer, or says why not. Nobody may wait for it any more."""
        if self._waiting.get(number) is asked:
            self._send(number, asked, f"unread: {why}" if why else said, bool(why or asked.unread))

    def _send(self, number: int, asked: _Asked, said: str, is_unread: bool) -> None:
        """Sends a scan's answer to the scanner and the tills, unless it is late: the gateway may have slept."""
        seconds = asyncio.get_running_loop().time() - asked.since
        if seconds > SECONDS and not is_unread:
            said, is_unread = _LATE, True
        del self._waiting[number]
        self.next = number + 1
        self.unread += is_unread
        if self.scanner:
            self.scanner.tell(self._line(number, said, asked.time, self.scanner.form))
        if self.watchers:
            self._tell(number, said, asked.time)
        self._make_room()
        if not is_unread:
            self.seen(said, seconds)

    def _tell(self, number: int, said: str, at: Optional[float] = None) -> None:
        for form in {it.form for it in self.watchers}:
            line = self._line(number, said, at, form)
            for it in list(self.watchers):
                if it.form == form:
                    it.tell(line)

    def _line(self, number: Optional[int], said: str, at: Optional[float], form: int) -> str:
        """A line in a form; ``at`` is when it was scanned, or None for a line about now."""
        if form == 1:
            return f"{number} {said}\n"
        series = f" {self.series or '-'}" if at is None else ""
        return f"{'-' if number is None else number} {time.time() if at is None else at:.3f} {said}{series}\n"


def _check(number: int) -> None:
    if number > LAST:
        raise ValueError(f"a scan's number is at most {LAST}")


def _why_old(age: float) -> str:
    """Why a scan of this age, in seconds, is not looked up."""
    if age > SECONDS:
        return f"it was scanned {age:.1f} seconds before it came"
    return f"its scanner's clock is {-age:.1f} seconds ahead" if age < -SECONDS else ""


class Scans:
    """The lanes of a gateway by their names. They share one lane of the hub, since its answers depend on the text alone."""

    def __init__(self, hub: Hub, most: int = 256) -> None:
        self.lanes: Dict[str, ScanLane] = {}
        self.seen: Seen = lambda said, seconds: None
        self.journal: Optional[Journal] = None
        self._hub, self._most = hub, most

    def lane(self, name: str) -> ScanLane:
        """The lane of this name; it is made at the first call.

        :raises ValueError: the name is not allowed, or there are too many lanes.
        """
        if not is_name(name):
            raise ValueError("a lane's name has up to 64 letters, digits and . _ : -")
        if name not in self.lanes:
            if len(self.lanes) >= self._most:
                # Lanes that nobody uses any more make room.
                self.lanes = {name: lane for name, lane in self.lanes.items() if lane.scanner or lane.watchers}
            if len(self.lanes) >= self._most:
                raise ValueError(f"there are {self._most} lanes")
            self.lanes[name] = ScanLane(name, self._hub.lane(0))
            self.lanes[name].seen, self.lanes[name].journal = self.seen, self.journal
        return self.lanes[name]

    def turn(self) -> int:
        """How many scans of a lane may be under way now, so that the others have their turn."""
        return max(LEAST_TURN, TURN // max(1, sum(bool(lane.waiting) for lane in self.lanes.values())))

    async def beat(self) -> None:
        """Says each 5 seconds that the gateway is there, for ever."""
        while True:
            await asyncio.sleep(BEAT)
            for lane in list(self.lanes.values()):
                lane.beat()
