"""A running hub for asyncio: ``gs1_hub live`` as a child process, and an object for each of its lanes.

    >>> async def read(*rows):
    ...     async with Hub(lanes=4, workers=2, year=2026) as hub:
    ...         return [await hub.lane(2).read(row) for row in rows]
    >>> gum = "7 1 1 1 3 1 1 2 1 1 1 4 1 4 1 1 1 2 1 3 1 1 1 1 1 1 2 3 1 3 2 1 1 1 3 1 2 1 1 3 2 1 1 1 7"
    >>> replies = asyncio.run(read([100], gum))
    >>> print(*replies, sep="\\n")
    2 0 refused 19 Blank
    2 1 ]E4 (01)00000096385074
    >>> replies[1].answer.elements
    (Element(ai='01', value='00000096385074', date=None, time=None),)

Ask about a text from a scanner that decodes symbols itself in the same way. Its reply has no number:

    >>> print(*asyncio.run(read("]E09501101530003", [100])), sep="\\n")
    2 - ]E0 (01)09501101530003
    2 0 refused 19 Blank

Each lane gets the replies to its rows and texts, in the order in which they were submitted, and each once. Any number
of tasks may ask at the same time, all in the event loop in which the block was entered.
"""
from __future__ import annotations

import asyncio
import contextlib
import os
import signal
from collections import OrderedDict, deque
from dataclasses import dataclass, field
from types import TracebackType
from typing import AsyncIterator, Deque, Iterable, List, Optional, Sequence, Tuple, Type, Union, cast

from . import Ais, Answer, Refusal, _bytes, _noted, _said_in, _terms

__all__ = ["Hub", "HubEnded", "Lane", "Reply", "Widths"]

Widths = Union[Sequence[int], str, bytes]
"""A scanned row: the widths of its light and dark bars in pixels, starting and ending with light, as numbers or as a
text with one space between them. Or the text of a scanner that decodes symbols itself, as for
:func:`noriladle.read_scan`."""

_WIDEST = 99_999
"""The largest width of five digits; every width above 65,535 is refused as too wide."""
_PATIENCE = 5
"""How many seconds the process may take to end after its input."""


class HubEnded(Exception):
    """The hub's process has ended, or its block has: calls without a reply get none.

    It is no OSError, so a program that tries connections again does not try a dead hub again.

    ``status`` is the exit status of the process, or minus the number of a signal; None if nobody waited for it.
    """

    def __init__(self, why: str, status: Optional[int] = None) -> None:
        super().__init__(why)
        self.status = status


@dataclass(frozen=True)
class Reply:
    """The reply to a row, or to the text of a scanner."""

    lane: int
    number: Optional[int]
    """The row's number in its lane, from 0. None for the text of a scanner, for a line that is neither (17, 18, 39 or 44),
    and for a row after the lane's last number (35)."""
    said: str
    """The answer as ``gs1_hub live`` writes it."""
    _terms: int = field(repr=False)

    @property
    def answer(self) -> Union[Answer, Refusal]:
        """What the row or the text says, or its error.

        :raises AttributeError: the hub was run without elements.
        """
        if not self._terms:
            raise AttributeError("a reply of a hub without elements has what was said alone")
        answer = _said_in(self.said.encode(), self._terms)
        return _noted(answer, "row") if isinstance(answer, Refusal) and self.number is not None else answer

    def __str__(self) -> str:
        """The line of ``gs1_hub live``, except that it also has the lane of errors 39 and 44."""
        return f"{self.lane} {'-' if self.number is None else self.number} {self.answer if self._terms else self.said}"


class Lane:
    """One lane of a hub, from :meth:`Hub.lane`."""

    def __init__(self, hub: Hub, number: int) -> None:
        self._hub = hub
        self.number = number

    async def read(self, widths: Widths) -> Reply:
        """The reply to a row or to the text of a scanner. Its answer may be a refusal.

        If you cancel the call, its row may have been submitted already, and then has a number.

        :raises HubEnded: the hub has ended before it replied.
        :raises ValueError: a width is below 0, or a text has a line end.
        """
        return await self.ask(widths)

    def ask(self, widths: Widths) -> asyncio.Future[Reply]:
        """Submits a row at once, and returns a future of its reply, which you may cancel like a call of :meth:`read`.

        :raises ValueError: as :meth:`read`.
        """
        return self._hub._ask(self.number, widths)

    async def read_all(self, rows: Iterable[Widths], ahead: int = 256) -> AsyncIterator[Reply]:
        """The replies to rows, in their order. It submits at most ``ahead`` rows (1 or more) before their replies come.

        :raises HubEnded: as :meth:`read`, after all replies that had come.
        :raises ValueError: as :meth:`read`.
        """
        asked: Deque[asyncio.Future[Reply]] = deque()
        try:
            for row in rows:
                if len(asked) >= ahead:
                    yield await asked.popleft()
                asked.append(self._hub._ask(self.number, row))
            while asked:
                yield await asked.popleft()
        finally:
            for reply in asked:
                reply.cancel()


class Hub:
    """A hub of 1 to 16 lanes and 1 to 16 workers, which runs as long as the ``async with`` block.

    ``year``, 1951 to 2149, is the reference year for dates, and ``ais`` says which Application Identifiers are accepted.
    The process has at most ``most`` rows (1 or more) at a time; later ones wait, in the order of the calls. ``program`` is
    the path of ``gs1_hub``, or the words that start it: without it the environment's ``GS1_HUB``, or ``gs1_hub`` of the
    ``PATH``. Without ``elements`` a reply has only ``said``, which is then for people.

    The end of the block waits for all replies. If an exception ends the block, the process is killed.

    :raises ValueError: a number is out of its range.
    :raises OSError: on entering the block, the program cannot be started.
    :raises RuntimeError: on entering the block, it was entered before and has not ended.
    """

    def __init__(
        self,
        lanes: int,
        workers: int,
        year: int,
        *,
        ais: Ais = "all",
        program: Union[str, Sequence[str], None] = None,
        most: int = 1024,
        elements: bool = True,
    ) -> None:
        if not (1 <= lanes <= 16 and 1 <= workers <= 16 and 1951 <= year <= 2149 and most >= 1):
            raise ValueError("1 to 16 lanes and workers, a year from 1951 to 2149, and at least 1 row at a time")
        found = program or os.environ.get("GS1_HUB") or "gs1_hub"
        options = f"live {'--elements ' * elements}--lanes {lanes} --workers {workers} --year {year} --ais {ais}".split()
        self._words = [*([found] if isinstance(found, str) else found), *options]
        self.lanes = lanes
        self._most = most
        self.elements = elements
        self._terms = _terms(year, ais) if elements else 0
        self._is_entered = False
        self._process: Optional[_Process] = None

    async def __aenter__(self) -> Hub:
        if self._is_entered:
            raise RuntimeError("the hub's block has not been left")
        self._is_entered = True
        try:
            # In its own session, so Ctrl-C ends the caller first, and the end of the block ends the process.
            _, self._process = await asyncio.get_running_loop().subprocess_exec(
                lambda: _Process(self.lanes, self._most, self._terms), *self._words, start_new_session=True
            )
        except BaseException:
            self._is_entered = False
            raise
        return self

    async def __aexit__(
        self, kind: Optional[Type[BaseException]], fault: Optional[BaseException], trace: Optional[TracebackType]
    ) -> None:
        process = self._running()
        try:
            if kind is None:
                await process.finish()
        finally:
            process.close()
            process.kill()
            await asyncio.wait([process.gone])
            self._is_entered = False

    @property
    def pid(self) -> int:
        """The process's number."""
        return self._running().pid

    def lane(self, number: int) -> Lane:
        """The lane of this number, from 0.

        :raises ValueError: there is no such lane.
        """
        if not 0 <= number < self.lanes:
            raise ValueError(f"lane {number} of {self.lanes}")
        return Lane(self, number)

    async def ended(self) -> HubEnded:
        """Waits until the process has ended, for whatever reason, and returns how."""
        gone = self._running().gone
        await asyncio.wait([gone])
        return gone.result()

    def _ask(self, lane: int, widths: Widths) -> asyncio.Future[Reply]:
        return self._running().ask(lane, widths)

    def _running(self) -> _Process:
        if self._process is None:
            raise HubEnded("the hub's block has not been entered")
        return self._process


class _Process(asyncio.SubprocessProtocol):
    """The process, the rows that it has not answered yet, and the rows that wait because it has ``most``.
    """

    def __init__(self, lanes: int, most: int, terms: int) -> None:
        self._loop = asyncio.get_running_loop()
        self._most = most
        self._terms = terms
        self._numbers = [0] * lanes
        self._sent: Deque[Tuple[int, asyncio.Future[Reply]]] = deque()
        self._waiting: OrderedDict[asyncio.Future[Reply], Tuple[int, bytes]] = OrderedDict()
        self._out: List[bytes] = []
        self._line = self._error = b""
        self._wrong = ""
        self._ended: Optional[Tuple[str, Optional[int]]] = None
        self.gone: asyncio.Future[HubEnded] = self._loop.create_future()

    def ask(self, lane: int, widths: Widths) -> asyncio.Future[Reply]:
        """Submits a row, or lets it wait. It awaits nothing first, so rows have the order of the calls."""
        record = b"%d,%s\n" % (lane, _text(widths))
        reply: asyncio.Future[Reply] = self._loop.create_future()
        if self._ended:
            _fail(reply, HubEnded(*self._ended))
        elif len(self._sent) < self._most:
            self._send(lane, record, reply)
        else:
            self._waiting[reply] = lane, record
            # A call that is cancelled no longer waits.
            reply.add_done_callback(lambda done: self._waiting.pop(done, None))
        return reply

    async def finish(self) -> None:
        """Waits for all replies, and then a few seconds at most for the end of the process."""
        self.close()
        asked = [*(reply for _, reply in self._sent), *self._waiting]
        if asked:
            await asyncio.wait(asked)
        self._stdin.close()
        await asyncio.wait([self.gone], timeout=_PATIENCE)

    def close(self) -> None:
        """Refuses further calls."""
        self._ended = self._ended or ("the hub's block has ended", None)

    def kill(self) -> None:
        """Ends the process and what it has started: it leads its own process group."""
        if not self.gone.done():
            with contextlib.suppress(ProcessLookupError):
                os.killpg(self.pid, signal.SIGKILL)

    def connection_made(self, transport: asyncio.BaseTransport) -> None:
        self._transport = cast(asyncio.SubprocessTransport, transport)
        self._stdin = cast(asyncio.WriteTransport, self._transport.get_pipe_transport(0))
        self.pid = self._transport.get_pid()

    def pipe_data_received(self, fd: int, data: bytes) -> None:
        if fd == 2:
            self._error = (self._error + data)[-1024:]
        elif not self._wrong:
            *lines, self._line = (self._line + data).split(b"\n")
            try:
                for line in lines:
                    self._take(line)
            except (ValueError, IndexError):
                self._wrong = f"the hub answered what was not asked: {line!r}"
                self.kill()

    def process_exited(self) -> None:
        # Processes that it has started may keep the pipes open.
        self.kill()

    def connection_lost(self, exc: Optional[Exception]) -> None:
        """The process has ended, and all its output has come."""
        self._transport.close()
        status = self._transport.get_returncode()
        last = self._error.decode("utf-8", "replace").strip().rpartition("\n")[2]
        ended = f"{self._wrong or 'the hub has ended'}, status {status}{last and ': ' + last}", status
        self._ended = self._ended or ended
        for reply in [*(reply for _, reply in self._sent), *self._waiting]:
            if not reply.done():
                _fail(reply, HubEnded(*ended))
        self.gone.set_result(HubEnded(*ended))

    def _send(self, lane: int, record: bytes, reply: asyncio.Future[Reply]) -> None:
        if not self._out:
            # One write for all rows of a turn of the loop.
            self._loop.call_soon(self._flush)
        self._out.append(record)
        self._sent.append((lane, reply))

    def _flush(self) -> None:
        self._stdin.write(b"".join(self._out))
        self._out.clear()

    def _take(self, line: bytes) -> None:
        """Gives a line to the call whose row it answers. Lines come in the order of the rows."""
        asked, reply = self._sent[0]
        lane, number, said = line.decode("ascii").split(" ", 2)
        if lane not in ("-", str(asked)) or number not in ("-", str(self._numbers[asked])):
            raise ValueError("of another row")
        # Nothing fails from here on, so no row leaves the list without its reply.
        self._sent.popleft()
        if not reply.done():
            reply.set_result(Reply(asked, None if number == "-" else int(number), said, self._terms))
        self._numbers[asked] += number != "-"
        while self._waiting and len(self._sent) < self._most:
            following, (lane_of_it, record) = self._waiting.popitem(last=False)
            if not following.done():
                self._send(lane_of_it, record, following)


def _fail(reply: asyncio.Future[Reply], fault: HubEnded) -> None:
    reply.set_exception(fault)
    # So asyncio logs nothing about a future that nobody waits for.
    reply.exception()


def _text(widths: Widths) -> bytes:
    if isinstance(widths, (str, bytes)):
        text = _bytes(widths)
        if b"\n" in text:
            raise ValueError("a row has no line end")
        return text
    if min(widths, default=0) < 0:
        raise ValueError("a width is below 0")
    if max(widths, default=0) > _WIDEST:
        # Otherwise the hub would refuse its six digits.
        widths = [min(width, _WIDEST) for width in widths]
    return " ".join(map(str, widths)).encode("ascii")
