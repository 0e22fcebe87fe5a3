"""Tills that are web pages: each watches a lane by a WebSocket, and gets the lines of a till on a socket."""
from __future__ import annotations

import argparse
import asyncio
import contextlib
import functools
import re
import socket
from http import HTTPStatus
from typing import Any, List, Optional, Set, Tuple
from urllib.parse import parse_qs, unquote, urlsplit

from ._door import AT_ONCE, Full
from ._gateway import Closed, Gateway
from ._scans import Listener, ScanLane
from .commands import WrongWords

try:
    from websockets.exceptions import ConnectionClosed
    from websockets.legacy.server import WebSocketServerProtocol, serve as serve_pages
except ImportError as missing:
    raise WrongWords("--web needs websockets: apt-get install python3-websockets") from missing

UNREAD = 256
"""A page that leaves more lines than this unread is closed."""
TOLD = 16
"""How many pages for which there is no place get a message at a time; further ones are closed at once."""
OPENING = 5.0
"""How many seconds a page has to ask for its lane."""
_OF_THIS_MACHINE = re.compile(r"https?://(localhost|127\.0\.0\.1|\[::1\])(:\d+)?")


async def serve(gateway: Gateway, port: int, words: argparse.Namespace) -> Any:
    """Serves ``ws://127.0.0.1:PORT/LANE`` to pages of this machine, and to those of the origins in ``words``; a page that has a token
    adds ``?token=TOKEN``. With ``?form=2`` the lines have their time.

    The browser sends the origin of the page, so no page of somebody else watches what a till sells.

    :raises WrongWords: the module websockets is not installed.
    """
    async def connected(page: Any, *_: object) -> None:
        url = urlsplit(page.path)
        client = _Page(page)
        try:
            for token in parse_qs(url.query).get("token", []):
                gateway.add_token(client, token)
            name = unquote(url.path[1:])
            gateway.let(client, "watch", name)
            lane = gateway.scans.lane(name)
        except (Closed, ValueError) as fault:
            # The page can show it: a browser does not give it what the handshake says.
            await _close(page, str(fault))
            return
        gateway.pages.add(client)
        try:
            await client.watch(lane, 2 if parse_qs(url.query).get("form") == ["2"] else 1)
        finally:
            gateway.pages.discard(client)

    its = socket.create_server(("127.0.0.1", port))
    server = await serve_pages(connected, sock=its, backlog=AT_ONCE, create_protocol=functools.partial(_Counted, gateway, words), compression=None,
                               max_size=4096, ping_interval=10, ping_timeout=10)
    its.listen(256)  # More may wait than come in at once.
    server.refused = 0
    return server


async def _close(page: Any, why: str) -> None:
    """Closes a page, which may have gone, with a reason of at most 123 bytes."""
    with contextlib.suppress(ConnectionClosed):
        await page.close(1008, why.encode()[:120].decode("utf-8", "ignore"))


class _Counted(WebSocketServerProtocol):  # type: ignore[misc]
    """The connection of a page. It is counted before a byte of it is read, and refused in the handshake."""

    told = 0

    def __init__(self, gateway: Gateway, its_words: argparse.Namespace, *words: Any, **more: Any) -> None:
        super().__init__(*words, **more)
        self._gateway, self._words = gateway, its_words
        self._full = ""

    def connection_made(self, transport: Any) -> None:
        address = transport.get_extra_info("peername")[0]
        try:
            self._place = self._gateway.places.enter(f"address {address}", False)
        except Full as full:
            self._full = str(full)
            self.ws_server.refused += 1
            _Counted.told += 1
        super().connection_made(transport)
        self._opening = asyncio.get_running_loop().call_later(OPENING, transport.abort)
        if self._full and _Counted.told > TOLD:
            transport.abort()

    def connection_lost(self, fault: Optional[Exception]) -> None:
        self._opening.cancel()
        if self._full:
            _Counted.told -= 1
        else:
            self._gateway.places.leave(self._place)
        super().connection_lost(fault)

    async def process_request(self, path: str, headers: Any) -> Optional[Tuple[HTTPStatus, List[Tuple[str, str]], bytes]]:
        """What the page is refused with, or nothing."""
        self._opening.cancel()
        origin = headers.get("Origin")
        if self._full:
            return HTTPStatus.SERVICE_UNAVAILABLE, [], f"{self._full}\n".encode()
        if origin and origin not in self._words.origin and not _OF_THIS_MACHINE.fullmatch(origin):
            return HTTPStatus.FORBIDDEN, [], f"no page of {origin} may watch\n".encode()
        return None


class _Page:
    """A page that watches a lane."""

    def __init__(self, page: Any) -> None:
        self.names: Set[str] = {"anyone"}
        self.asked = ("", "")
        self._page = page
        self._gone = asyncio.ensure_future(page.wait_closed())
        self._why = ""

    def close(self, why: str) -> None:
        """Ends it."""
        self._why = self._why or why
        self._gone.cancel()

    async def watch(self, lane: ScanLane, form: int) -> None:
        """Sends the page the lines of its lane in a form, until it goes or reads no more."""
        lines: asyncio.Queue[str] = asyncio.Queue(UNREAD)

        def told(line: str) -> None:
            if lines.full():
                self.close("what was told is not taken")
            else:
                lines.put_nowait(line)

        async def send() -> None:
            while True:
                await self._page.send((await lines.get()).rstrip("\n"))

        listener = Listener(told, form)
        lane.watch(listener)
        sending = asyncio.ensure_future(send())
        try:
            await asyncio.wait([self._gone, sending], return_when=asyncio.FIRST_COMPLETED)
        finally:
            lane.leave(listener)
            for task in (self._gone, sending):
                task.cancel()
            await asyncio.gather(self._gone, sending, return_exceptions=True)
            await _close(self._page, self._why)
