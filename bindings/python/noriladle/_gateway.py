"""The connections of a gateway: each is a lane of rows, the scanner of a lane, or a till that watches one."""
from __future__ import annotations

import asyncio
import functools
import itertools
import math
import re
import socket
import time
from typing import AsyncIterator, Awaitable, Callable, Dict, List, Optional, Protocol, Set, Tuple

from ._door import Place, Places
from ._health import Answers, Metrics
from ._journal import Scan
from ._log import Log
from ._rights import Rights, all_rights, name_of_token, unix_names, unix_peer
from ._scans import LEAST_TURN, Listener, ScanLane, Scans, is_series
from .live import Hub, HubEnded, Lane

CUT = 65_536 + 1
"""How many bytes are kept of a line that has not ended: the hub refuses it as too long anyway."""

_SCAN = re.compile(rb"(\d{1,18})(?:([ \t])(.*))?", re.DOTALL)
_TIMED_SCAN = re.compile(rb"(\d{1,18}) (\d{1,11}\.\d{3})(?:([ \t])(.*))?", re.DOTALL)
ROWS_AHEAD, LEAST_AHEAD = 64, 4
"""How many rows of all connections may be under way before each has its share of them; and the least share."""
PAUSE = 0.005
"""How many seconds lie between two pieces of lines that are too long, of all connections together."""
LINES = 64
"""After this many lines of one connection, the others get their turn."""
_HTTP = re.compile(rb"[A-Z]+ \S+ HTTP/[0-9.]+\r?")
OWN, ITS_ANSWERS = "]E09501101530003", ("]E0 (01)09501101530003", "]E0 01=09501101530003")
"""The text of the gateway's own scan, and the right answers to it, without and with elements."""

SPARE_IDLE = 5.0
"""How many seconds a connection with a place for scanners alone may say nothing."""
UNREAD_LINES = 65_536
"""A till that leaves more bytes of lines than this unread is closed."""


class Closed(Exception):
    """Why the gateway closes a connection."""


class Connection:
    """A client: who it is, and since when it has sent or read nothing."""

    def __init__(self, place: Place, reader: asyncio.StreamReader, writer: asyncio.StreamWriter) -> None:
        self.place, self.reader, self.writer = place, reader, writer
        self.is_unix = writer.get_extra_info("socket").family == socket.AF_UNIX
        self.peer = unix_peer(writer.get_extra_info("socket")) if self.is_unix else \
            ":".join(map(str, (writer.get_extra_info("peername") or ("gone",))[:2]))
        self.asked = ("", "")
        self.task = asyncio.current_task()
        self.closed = ""
        self.is_patient = False
        """Whether it may stay silent for ever."""
        self.since = 0.0
        """When the last whole line came or was answered; infinite while the client waits for the gateway."""
        self.waits()

    @functools.cached_property
    def names(self) -> Set[str]:
        """Its names in a table of rights. They are looked up once it asks for something."""
        if self.is_unix:
            return {"anyone", *unix_names(self.writer.get_extra_info("socket"))}
        subject = (self.writer.get_extra_info("peercert") or {}).get("subject", ())
        return {"anyone", *(f"certificate {value}" for part in subject for name, value in part if name == "commonName")}

    def waits(self) -> None:
        """From now on the gateway waits for the client."""
        self.since = time.monotonic()

    def close(self, why: str) -> None:
        """Ends the connection, after a line that says why."""
        self.closed = self.closed or why
        if self.task:
            self.task.cancel()

    async def turns(self, skips: asyncio.Lock) -> AsyncIterator[List[bytes]]:
        """The complete lines that have come, as lists, without blank ones. Connections skip lines that are too long one after the
        other."""
        rest = b""
        while chunk := await self.reader.read(CUT):
            *ended, rest = (rest + chunk).split(b"\n")
            rest = rest[:CUT]
            lines = [line for line in ended if line.rstrip(b"\r")]
            if lines:
                self.waits()
                yield lines
            elif len(rest) == CUT:
                async with skips:
                    await asyncio.sleep(PAUSE)


class Client(Protocol):
    """Somebody with a right: a connection or a page."""

    @property
    def names(self) -> Set[str]:
        """Its names in a table of rights."""

    asked: Tuple[str, str]
    """The right that it uses, such as ``watch``, and in which lane; empty before it does."""

    def close(self, why: str) -> None:
        """Ends it."""


class Role(Protocol):
    """What a connection is for."""

    def take(self, lines: List[bytes]) -> Awaitable[None]:
        """Handles the lines that have come."""

    def end(self) -> None:
        """Its connection has ended."""


class Rows:
    """The client's own lane: each line gets an answer, with its number in this connection."""

    def __init__(self, gateway: Gateway, connection: Connection) -> None:
        self._gateway, self._connection = gateway, connection
        self._lane = gateway.take_lane(connection.is_unix)
        # The lane's numbers go on from those of earlier connections.
        self._numbers = itertools.count()

    async def take(self, lines: List[bytes]) -> None:
        """Answers all rows that have come, before more are read."""
        answers: List[str] = []
        gateway, connection = self._gateway, self._connection
        connection.since = math.inf
        begin = gateway.began[self] = time.monotonic()
        ahead = max(LEAST_AHEAD, ROWS_AHEAD // len(gateway.began))
        try:
            async for reply in self._lane.read_all(lines, ahead):
                number = "-" if reply.number is None else next(self._numbers)
                answers.append(f"{number} {reply.said}")
                gateway.seen(reply.said, time.monotonic() - begin)
        finally:
            try:
                why = await self._keep(lines, answers)
            finally:
                del gateway.began[self]
            if not why:
                connection.writer.write("".join(f"{answer}\n" for answer in answers).encode())
        if why:
            raise Closed(why)
        connection.waits()
        await connection.writer.drain()
        connection.waits()

    async def _keep(self, lines: List[bytes], answers: List[str]) -> str:
        """Writes rows and answers into the journal, if there is one. Returns why they are not there, or nothing."""
        journal = self._gateway.scans.journal
        if not journal:
            return ""
        now, rows = time.time(), zip(lines, (answer.partition(" ") for answer in answers))
        return await journal.put_all([Scan(now, "-", "-", number, line.rstrip(b"\r"), said) for line, (number, _, said) in rows])

    def end(self) -> None:
        self._gateway.give_lane(self._lane, self._connection.is_unix)


class Scanner:
    """The scanner of a lane. A line is the number of a scan, a blank and its text; or a number, a tab and why that scan
    has no text; or only the number of the next scan. In form 2 the time follows the number."""

    def __init__(self, gateway: Gateway, connection: Connection, lane: ScanLane, form: int, series: str) -> None:
        if lane.scanner:
            if not lane.is_contested:  # It tries again each second.
                gateway.log.note("a second scanner was refused", lane=lane.name, peer=connection.peer)
            lane.is_contested = True
            lane.refused += 1
            raise Closed(f"lane {lane.name} has a scanner")
        self._scans, self._lane = gateway.scans, lane
        lane.scanner = self._listener = Listener(Teller(connection), form)
        number = lane.join(series)
        self._listener.tell(f"{number} {time.time():.3f} next {lane.series}\n" if form > 1 else f"{number} next\n")

    async def take(self, lines: List[bytes]) -> None:
        turn = LEAST_TURN
        for count, line in enumerate(lines, 1):
            if count % LINES == 0:
                await asyncio.sleep(0)
            if self._lane.waiting >= turn:
                turn = self._scans.turn()
                await self._lane.room(turn)
            try:
                self._take(line)
            except ValueError as fault:
                raise Closed(str(fault)) from fault

    def _take(self, line: bytes) -> None:
        if self._listener.form > 1:
            found = _TIMED_SCAN.fullmatch(line)
            if not found:
                raise Closed("a scan is a number, its time, a blank and a text")
            at, mark, text = float(found[2]), found[3], found[4]
        else:
            found = _SCAN.fullmatch(line)
            if not found:
                raise Closed("a scan is a number, a blank and a text")
            at, mark, text = None, found[2], found[3]
        if mark:
            self._lane.scan(int(found[1]), b"" if mark == b"\t" else text, at, _why(text) if mark == b"\t" else "")
        else:
            self._lane.begin(int(found[1]))

    async def finish(self) -> None:
        """Its client sends nothing more, and may still wait for answers."""
        while self._lane.waiting:
            await asyncio.sleep(0.005)

    def end(self) -> None:
        self._lane.scanner, self._lane.is_contested = None, False


def _why(text: bytes) -> str:
    """What a scanner's program says about a scan without a text."""
    return "".join(char for char in text[:200].decode("utf-8", "replace") if char.isprintable())


class Till:
    """A till that watches a lane. It sends nothing."""

    def __init__(self, connection: Connection, lane: ScanLane, form: int) -> None:
        self._lane = lane
        self._listener = Listener(Teller(connection), form)
        lane.watch(self._listener)

    async def take(self, lines: List[bytes]) -> None:
        if lines:
            raise Closed("a till that watches a lane sends nothing more")

    def end(self) -> None:
        self._lane.leave(self._listener)


class Teller:
    """Writes lines to a connection, the first of a turn of the loop at once and the others together, and closes it if it does
    not read them."""

    def __init__(self, connection: Connection) -> None:
        self._connection = connection
        self._lines: List[str] = []
        self._has_written = False
        """Whether a line has been written in this turn."""
        self._loop = asyncio.get_running_loop()

    def __call__(self, line: str) -> None:
        if self._has_written:
            self._lines.append(line)
        else:
            self._has_written = True
            self._loop.call_soon(self._end_turn)
            self._write(line)

    def _end_turn(self) -> None:
        self._has_written = False
        if self._lines:
            self._write("".join(self._lines))
            self._lines.clear()

    def _write(self, lines: str) -> None:
        writer = self._connection.writer
        if writer.transport.get_write_buffer_size() > UNREAD_LINES:
            self._connection.close("what was told is not taken")
        elif not writer.transport.is_closing():
            writer.write(lines.encode())


def _first(line: bytes) -> Tuple[str, str, int, str]:
    """What the first line of a connection says: a word, a lane, the form of the lines, and the series of a scanner's numbers."""
    word, _, rest = line.rstrip(b"\r").decode("ascii", "replace").partition(" ")
    name, mark, more = rest.partition(" 2")
    series = more[1:]
    if mark and (not more or (word == "scan" and is_series(series))):
        return word, name, 2, series
    return word, rest, 1, ""


class Gateway:
    """The connections of one hub. `idle` is how many seconds each may send or read nothing; `kept` is how many lanes TCP
    connections leave to those of the UNIX socket."""

    def __init__(
        self, hub: Hub, idle: float, kept: int, places: Places, log: Log, metrics: Metrics, rights: Rights = all_rights(),
    ) -> None:
        self.hub, self.idle, self.kept, self.places = hub, idle, kept, places
        self.log, self.metrics, self.rights = log, metrics, rights
        self.free = [hub.lane(number) for number in range(hub.lanes)]
        self.scans = Scans(hub)
        self.scans.seen = self.seen
        self.began: Dict[Rows, float] = {}
        """When the gateway began to answer what a client sent."""
        self.closed = ""
        self.pages: Set[Client] = set()
        self._connections: Set[Connection] = set()
        self._skips = asyncio.Lock()
        self._by_tcp = 0
        self._name_metrics()

    def _name_metrics(self) -> None:
        of = self.metrics
        self._answers = Answers(of)
        self._took = of.histogram("noriladle_answer_seconds", "How long the hub took for an answer.")
        self._closed = of.counter("noriladle_closed_total", "Connections that the gateway closed.")
        of.gauge("noriladle_connections", "Connections.", lambda: self.places.taken)
        of.gauge("noriladle_lanes_free", "Lanes that no connection has.", lambda: len(self.free))
        def by_lane(value: Callable[[ScanLane], float]) -> Callable[[], Dict[str, float]]:
            return lambda: {it.name: value(it) for it in self.scans.lanes.values()}

        of.gauge("noriladle_scanner_connected", "1 if the lane has a scanner, else 0.", by_lane(lambda it: bool(it.scanner)), "lane")
        of.count_of("noriladle_scans_total", "Scans of the lane.", by_lane(lambda it: it.scans), "lane")
        of.count_of("noriladle_unread_total", "Scans without an answer in their time.", by_lane(lambda it: it.unread), "lane")
        of.count_of("noriladle_lost_total", "Scans that a scanner could not send.", by_lane(lambda it: it.lost), "lane")
        of.count_of("noriladle_scanners_refused_total", "Scanners that found another one on their lane.", by_lane(lambda it: it.refused), "lane")
        of.gauge("noriladle_scanners", "Scanners.", lambda: sum(bool(it.scanner) for it in self.scans.lanes.values()))
        of.gauge("noriladle_tills", "Tills.", lambda: sum(len(it.watchers) for it in self.scans.lanes.values()))
        of.gauge("noriladle_unanswered", "Scans without an answer yet; of the lane - turns of rows.",
                 lambda: {name: len(since) for name, since in self._since().items()}, "lane")
        of.gauge("noriladle_oldest_seconds", "How long the oldest of these has waited; 0 if there is none.", self._oldest, "lane")

    def _since(self) -> Dict[str, List[float]]:
        """When the gateway got what has no answer yet, by lane."""
        return {"-": list(self.began.values()), **{it.name: it.under_way for it in self.scans.lanes.values()}}

    def _oldest(self) -> Dict[str, float]:
        now = time.monotonic()
        return {name: now - min(since, default=now) for name, since in self._since().items()}

    def seen(self, said: str, seconds: float) -> None:
        """Counts an answer, and how long it took."""
        self._answers.add(said)
        self._took.see(seconds)

    async def trip(self) -> str:
        """Has a scan of its own answered by the hub. Returns why it was not, or nothing."""
        why = self.scans.journal.stops() if self.scans.journal else ""
        if why:
            return why
        try:
            said = (await self.hub.lane(0).read(OWN)).said
        except HubEnded as fault:
            return str(fault)
        return "" if said == ITS_ANSWERS[self.hub.elements] else f"the hub answers {said} to {OWN}"

    def take_lane(self, is_unix: bool) -> Lane:
        """A lane that no other connection has."""
        if not self.free:
            raise Closed(f"all {self.hub.lanes} lanes are taken")
        if not is_unix and self._by_tcp >= self.hub.lanes - self.kept:
            raise Closed(f"all {self.hub.lanes - self.kept} lanes for TCP are taken")
        self._by_tcp += not is_unix
        return self.free.pop(0)

    def give_lane(self, lane: Lane, is_unix: bool) -> None:
        """Gives a lane back."""
        self._by_tcp -= not is_unix
        self.free.append(lane)

    async def connected(self, place: Place, reader: asyncio.StreamReader, writer: asyncio.StreamWriter) -> None:
        """Serves a connection to its end."""
        connection = Connection(place, reader, writer)
        why = ""
        self._connections.add(connection)
        self.log.note("connected", peer=connection.peer)
        try:
            why = await self._serve(connection)
            if why:
                self._closed.add()
                writer.write(f"closed: {why}\n".encode())
            writer.close()
            await asyncio.wait_for(writer.wait_closed(), self.idle)
        except (OSError, asyncio.TimeoutError, asyncio.CancelledError):
            pass  # The client has gone, or does not read the rest.
        finally:
            self.log.note("closed", peer=connection.peer, why=why or connection.closed or "it went")
            writer.transport.abort()
            self._connections.discard(connection)

    async def _serve(self, connection: Connection) -> str:
        """Serves a connection. Returns why it is closed, unless the client ended it."""
        role: Optional[Role] = None
        try:
            async for lines in connection.turns(self._skips):
                if role is None:
                    lines = self._take_token(connection, lines)
                    if not lines:
                        continue
                    role, lines = self._begin(connection, lines)
                await role.take(lines)
            if isinstance(role, Scanner):
                await role.finish()
        except Closed as fault:
            return str(fault)
        except HubEnded as fault:
            return str(fault)
        except asyncio.CancelledError:
            return connection.closed
        finally:
            if role:
                role.end()
        return ""

    def _take_token(self, connection: Connection, lines: List[bytes]) -> List[bytes]:
        """Takes the token from the first line, if it has one, and returns the other lines."""
        word, _, token = lines[0].rstrip(b"\r").partition(b" ")
        if word != b"token":
            return lines
        self.add_token(connection, token.decode("utf-8", "replace"))
        return lines[1:]

    def _begin(self, connection: Connection, lines: List[bytes]) -> Tuple[Role, List[bytes]]:
        """What the connection is for, by its first line; and the other lines."""
        if _HTTP.fullmatch(lines[0]):
            raise Closed("this port is not for web pages")
        word, name, form, series = _first(lines[0])
        if connection.place.only_scanner and word != "scan":
            raise Closed(connection.place.only_scanner)
        if word not in ("scan", "watch"):
            self.let(connection, "rows")
            return Rows(self, connection), lines
        self.let(connection, word, name)
        try:
            lane = self.scans.lane(name)
        except ValueError as fault:
            raise Closed(str(fault)) from fault
        role: Role
        if word == "scan":
            role = Scanner(self, connection, lane, form, series)
            self.places.settle(connection.place)
        else:
            role = Till(connection, lane, form)
        connection.is_patient = True
        self.log.note("scanner" if word == "scan" else "till", lane=name, peer=connection.peer)
        return role, lines[1:]

    def add_token(self, client: Client, token: str) -> None:
        """Gives a client the rights of its token."""
        name = name_of_token(token)
        if name not in self.rights:
            raise Closed("this token has no rights")
        client.names.add(name)

    def let(self, client: Client, word: str, lane: str = "") -> None:
        """Allows a client what it has the right to."""
        if not self.rights.grants(client.names, word, lane):
            raise Closed(f"no right to {word} {lane}".rstrip())
        client.asked = word, lane

    def change_rights(self, rights: Rights) -> None:
        """Replaces the table of rights, and closes connections that lost theirs."""
        self.rights = rights
        for client in [*self._connections, *self.pages]:
            if client.asked[0] and not rights.grants(client.names, *client.asked):
                client.close(f"no right to {' '.join(client.asked)}".rstrip())

    async def sweep(self) -> None:
        """Closes connections that have sent or read nothing for too long."""
        while True:
            await asyncio.sleep(min(1.0, self.idle / 4))
            for connection in list(self._connections):
                # A spare place is needed again soon.
                idle = min(self.idle, SPARE_IDLE) if connection.place.only_scanner else self.idle
                if connection.since < time.monotonic() - idle and not connection.is_patient:
                    connection.close(f"nothing came or was taken for {idle:g} seconds")

    async def close(self, why: str) -> None:
        """Closes all connections within two seconds. First answers what is under way, for up to a second."""
        until = time.monotonic() + 1
        while any(self._since().values()) and not why.startswith("the hub") and time.monotonic() < until:
            await asyncio.sleep(0.01)
        tasks = [connection.task for connection in self._connections if connection.task]
        for connection in list(self._connections):
            connection.close(why)
        if tasks:
            await asyncio.wait(tasks, timeout=1)
