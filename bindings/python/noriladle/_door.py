"""Sockets that listen, and how many connections may come over them."""
from __future__ import annotations

import asyncio
import contextlib
import ipaddress
import socket
import ssl
import struct
from collections import Counter
from typing import Awaitable, Callable, Optional, Set

from ._log import Log

HANDSHAKE = 5.0
"""How many seconds a client has to begin TLS."""
SPARE, SPARE_EACH = 32, 8
"""How many more connections to the UNIX socket scanners may have when no place is left; and how many of one user."""
AT_ONCE = 4
"""How many clients come in before others have their turn."""
_PAUSE = 1.0
"""Seconds until the next attempt to let clients in, if the system has no descriptor left."""


class Full(Exception):
    """Why a connection has no place."""


class Place:
    """The place of a connection: whose it is, and why it is for a scanner alone, if it is."""

    def __init__(self, who: str, is_near: bool, only_scanner: str = "") -> None:
        self.who, self.is_near, self.only_scanner = who, is_near, only_scanner


class Places:
    """The places for connections: ``most`` in all, and ``each`` of a user or an address.

    A quarter of them is kept for the UNIX socket, which is near. If none is left there, a scanner still has one.
    """

    def __init__(self, most: int, each: int) -> None:
        self.most, self.each = most, each
        self._of: Counter[str] = Counter()
        self._spare: Counter[str] = Counter()
        self._far = 0

    @property
    def taken(self) -> int:
        """How many connections there are."""
        return sum(self._of.values()) + sum(self._spare.values())

    def enter(self, who: str, is_near: bool) -> Place:
        """A place for a connection.

        :raises Full: there is none.
        """
        why = self._why_not(who, is_near)
        if not why:
            self._of[who] += 1
            self._far += not is_near
            return Place(who, is_near)
        if is_near and sum(self._spare.values()) < SPARE and self._spare[who] < SPARE_EACH:
            self._spare[who] += 1
            return Place(who, is_near, why)
        raise Full(why)

    def _why_not(self, who: str, is_near: bool) -> str:
        far = self.most - self.most // 4
        if sum(self._of.values()) >= self.most:
            return f"there are {self.most} connections"
        if not is_near and self._far >= far:
            return f"there are {far} connections that are not of the UNIX socket"
        return f"{who} has {self.each} connections" if self._of[who] >= self.each else ""

    def settle(self, place: Place) -> None:
        """A connection with a spare place is that of a scanner: the next one may come. Lanes limit how many do."""
        if place.only_scanner:
            self._drop(self._spare, place.who)
            place.only_scanner = ""
            self._of[place.who] += 1

    def leave(self, place: Place) -> None:
        """A connection has ended."""
        self._drop(self._spare if place.only_scanner else self._of, place.who)
        self._far -= not place.is_near

    @staticmethod
    def _drop(counts: "Counter[str]", who: str) -> None:
        counts[who] -= 1
        if not counts[who]:
            del counts[who]


def who(its: socket.socket) -> str:
    """Whose connections are counted together with this one: those of a user, or of an address; of IPv6, of its network."""
    if its.family == socket.AF_UNIX:
        _, user, _ = struct.unpack("3i", its.getsockopt(socket.SOL_SOCKET, socket.SO_PEERCRED, struct.calcsize("3i")))
        return f"user {user}"
    address = ipaddress.ip_address(str(its.getpeername()[0]).partition("%")[0])
    if address.version == 6 and not address.is_loopback:
        return f"network {ipaddress.ip_network((address, 64), strict=False)}"
    return f"address {address}"


Serve = Callable[[Place, asyncio.StreamReader, asyncio.StreamWriter], Awaitable[None]]


class Door:
    """A socket that listens. It counts a client before it reads a byte of it."""

    def __init__(self, listening: socket.socket, places: Places, serve: Serve, log: Log, tls: Callable[[], Optional[ssl.SSLContext]]) -> None:
        self.sockets = [listening]
        self.refused = 0
        """How many clients had no place."""
        self._listening, self._places, self._serve, self._log, self._tls = listening, places, serve, log, tls
        self._tasks: Set[asyncio.Task[None]] = set()
        self._loop = asyncio.get_running_loop()
        listening.setblocking(False)
        self._open()

    def close(self) -> None:
        """Lets nobody in any more."""
        self._loop.remove_reader(self._listening)
        self._listening.close()

    def _open(self) -> None:
        if self._listening.fileno() >= 0:
            self._loop.add_reader(self._listening, self._accept)

    def _accept(self) -> None:
        for _ in range(AT_ONCE):
            try:
                its, _ = self._listening.accept()
            except (BlockingIOError, InterruptedError, ConnectionAbortedError):
                return
            except OSError as fault:
                self._log.fault(f"no client can come in: {fault.strerror}")
                self._loop.remove_reader(self._listening)
                self._loop.call_later(_PAUSE, self._open)
                return
            its.setblocking(False)
            try:
                place = self._places.enter(who(its), its.family == socket.AF_UNIX)
            except OSError:
                its.close()  # It has gone.
            except Full as full:
                self._refuse(its, str(full))
            else:
                task = self._loop.create_task(self._let_in(its, place))
                self._tasks.add(task)
                task.add_done_callback(self._tasks.discard)

    def _refuse(self, its: socket.socket, why: str) -> None:
        self.refused += 1
        with contextlib.suppress(OSError):
            if not self._tls() or its.family == socket.AF_UNIX:
                its.send(f"closed: {why}\n".encode())
            its.shutdown(socket.SHUT_WR)
        its.close()

    async def _let_in(self, its: socket.socket, place: Place) -> None:
        """Begins TLS, if the socket has it, and serves the client to its end."""
        _keep_alive(its)

        async def serve(reader: asyncio.StreamReader, writer: asyncio.StreamWriter) -> None:
            try:
                await self._serve(place, reader, writer)
            finally:
                self._places.leave(place)

        tls = self._tls() if its.family != socket.AF_UNIX else None
        try:
            # When this returns without a fault, the client is served.
            await self._loop.connect_accepted_socket(
                lambda: asyncio.StreamReaderProtocol(asyncio.StreamReader(), serve), its, ssl=tls,
                ssl_handshake_timeout=HANDSHAKE if tls else None)
        except OSError:  # It speaks no TLS, or has gone.
            its.close()
            self._places.leave(place)


def _keep_alive(its: socket.socket) -> None:
    """Has the kernel notice within a minute that the other end of a TCP connection is gone."""
    if its.family != socket.AF_UNIX:
        with contextlib.suppress(AttributeError, OSError):
            its.setsockopt(socket.SOL_SOCKET, socket.SO_KEEPALIVE, 1)
            its.setsockopt(socket.IPPROTO_TCP, socket.TCP_KEEPIDLE, 30)
            its.setsockopt(socket.IPPROTO_TCP, socket.TCP_KEEPINTVL, 10)
            its.setsockopt(socket.IPPROTO_TCP, socket.TCP_KEEPCNT, 3)
