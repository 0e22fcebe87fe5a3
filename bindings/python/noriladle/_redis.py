"""Commands to one Redis, a Redis Cluster, or the master that Sentinels name, found by the addresses of some nodes.

A connection whose reply was not read to its end is never used again. So you may cancel a command, a reply that is too
long is not kept, and no connection is silently made again. A node that is silent delays no call to another.
"""
from __future__ import annotations

import asyncio
import binascii
import ssl
from collections import defaultdict
from typing import Any, AsyncGenerator, Callable, DefaultDict, Dict, List, Optional, Sequence, Set, Union

from ._needs import HIREDIS, sentence

Word = Union[str, int]
Commands = Sequence[Sequence[Word]]
REPLY = 8 << 20
"""Replies with more bytes are refused; those to commands that are sent together count together."""
_CONNECT, _ANSWER, _SAME = 5.0, 2.5, 10.0
"""Seconds for a connection, and for a reply; and from an error until the same one is told again."""


class Fault(Exception):
    """An error that a node sends in place of a reply, such as ``NOPERM ..``."""


class TooMuch(Exception):
    """A reply is too long."""


FAULTS = (Fault, TooMuch, OSError)
"""What a command may raise. No TimeoutError of asyncio leaves this module."""


class Redis:
    """A Redis Cluster, one Redis, or the ``master`` of this name at Sentinels, found by the addresses of nodes or of
    Sentinels, ``HOST:PORT``. One of them that runs is enough. ``note`` gets errors, the same one once in 10 seconds.
    """

    def __init__(self, addresses: Sequence[str], user: Optional[str] = None, password: Optional[str] = None,
                 tls: Optional[ssl.SSLContext] = None, note: Callable[[str], None] = lambda said: None,
                 master: Optional[str] = None) -> None:
        if not HIREDIS.is_there():
            raise ImportError(sentence("Redis", [HIREDIS]))
        self._addresses, self._tls, self._note, self._master = set(addresses), tls, note, master
        self._login: Commands = [] if password is None else [["AUTH", *([user] if user else []), password]]
        self._free: DefaultDict[str, List[AsyncGenerator[List[Any], Commands]]] = defaultdict(list)
        """The connections to each node that no call has."""
        self._slots: Dict[int, str] = {}
        """The address of the node that has a slot."""
        self._asked: Dict[str, asyncio.Future[Any]] = {}
        self._told: Set[str] = set()

    async def ask(self, key: str, *words: Word) -> Any:
        """The reply to a command, by the node that has a key.

        :raises Fault: the node refuses it.
        :raises OSError: it does not answer.
        """
        return whole((await self.ask_all(key, [words]))[0])

    async def ask_all(self, key: str, commands: Commands) -> List[Any]:
        """The replies to commands that are sent together, by the node that has a key; a refused one has a
        :class:`Fault` in its place."""
        return await self._ask_at(await self.address(key), commands)

    async def address(self, key: str) -> str:
        """The address of the node that has a key, by the tag in its braces."""
        slot = binascii.crc_hqx(key.partition("{")[2].partition("}")[0].encode(), 0) % 16_384
        if not self._slots and (fault := await self.renew()):
            raise fault
        return self._slots[slot]

    async def streams(self, key: str, pattern: str) -> Set[str]:
        """The names that match a pattern, of streams on the node that has a key."""
        found, cursor = set(), ""
        while cursor != "0":
            cursor, some = await self.ask(key, "SCAN", cursor or "0", "MATCH", pattern, "COUNT", 1000, "TYPE", "stream")
            found.update(some)
        return found

    def tell(self, said: str) -> None:
        """Gives ``note`` an error, unless it had the same one just now."""
        if said not in self._told:
            self._told.add(said)
            asyncio.get_running_loop().call_later(_SAME, self._told.discard, said)
            self._note(said)

    async def rest(self, fault: Exception) -> None:
        """After an error: asks for a newer map of the nodes, without waiting for it, and rests a little."""
        self.tell(str(fault))
        asyncio.ensure_future(self.renew())
        await asyncio.sleep(0.1)

    async def renew(self) -> Any:
        """Asks all addresses at once for the map; the first answer counts. If there is none, the old map stays, and the
        last error is returned. An address that is still asked is not asked again: a handshake of TLS that is cancelled
        begins anew."""
        told: Any = OSError("there is no address")
        addresses = self._addresses.union(() if self._master else self._slots.values())
        for address in addresses:
            if address not in self._asked or self._asked[address].done():
                self._asked[address] = asyncio.gather(self._map_of(address), return_exceptions=True)
        for one in asyncio.as_completed([self._asked[address] for address in addresses]):
            told, = await one
            if isinstance(told, dict):
                self._slots = told
                return None
        return told

    async def _map_of(self, address: str) -> Dict[int, str]:
        """The map as one address tells it. A node of a cluster may not know its own host, and refuses what no node has."""
        words = ["SENTINEL", "GET-MASTER-ADDR-BY-NAME", self._master] if self._master else ["CLUSTER", "SLOTS"]
        told, = await self._ask_at(address, [words])
        if told is None:
            raise OSError(f"the Sentinel {address} knows no master {self._master!r}")
        is_alone = "cluster support disabled" in str(told)
        slots = [[0, 16_383, whole(told)]] if self._master else [] if is_alone else whole(told)
        known = dict.fromkeys(range(16_384), address)
        for first, last, (host, port, *_), *_ in slots:
            known.update(dict.fromkeys(range(first, last + 1), f"{host or address.rpartition(':')[0]}:{port}"))
        return known

    async def _ask_at(self, address: str, commands: Commands) -> List[Any]:
        free = self._free[address]
        try:
            connection = free.pop() if free else await asyncio.wait_for(self._connect(address), _CONNECT)
            replies = await connection.asend(commands)
        except (OSError, asyncio.TimeoutError) as fault:
            # Other connections to a node that has gone are dead too.
            while free:
                await free.pop().aclose()
            raise OSError(f"{address}: {str(fault) or 'no answer'}") from fault
        free.append(connection)
        return replies

    async def _connect(self, address: str) -> AsyncGenerator[List[Any], Commands]:
        connection = self._connection(address)
        await connection.__anext__()
        return connection

    async def _connection(self, address: str) -> AsyncGenerator[List[Any], Commands]:
        """A connection, which takes commands and gives their replies, and ends when it fails. It logs in first, but not at
        Sentinels, which have no password."""
        import hiredis  # Helps and manual pages need no Redis.

        host, _, port = address.rpartition(":")
        reader, writer = await asyncio.open_connection(host.strip("[]"), int(port), ssl=self._tls, limit=1 << 20)
        parser = hiredis.Reader(encoding="utf-8", errors="replace", replyError=Fault, protocolError=OSError)
        commands: Commands = [] if self._master and address in self._addresses else self._login
        try:
            while True:
                timer = asyncio.get_running_loop().call_later(_ANSWER, writer.transport.abort)
                writer.write(b"".join(map(_packed, commands)))
                replies: List[Any] = []
                size = 0
                while len(replies) < len(commands):
                    some = await reader.read(1 << 16)
                    size += len(some)
                    if not some:
                        raise ConnectionResetError("the node has ended the connection, or is silent")
                    if size > REPLY:
                        raise TooMuch(f"a reply of more than {REPLY} bytes")
                    parser.feed(some)
                    while (reply := parser.gets()) is not False:  # No reply yet: a node never sends this.
                        replies.append(reply)
                timer.cancel()
                commands = yield list(map(whole, replies)) if commands is self._login else replies
        finally:
            writer.transport.abort()

    async def close(self) -> None:
        """Ends all connections."""
        for free in self._free.values():
            while free:
                await free.pop().aclose()
        # The loop closes their sockets in its next turn.
        await asyncio.sleep(0)


def _packed(words: Sequence[Word]) -> bytes:
    """The bytes of a command."""
    told = [word.encode("utf-8", "replace") if isinstance(word, str) else b"%d" % word for word in words]
    return b"*%d\r\n%b" % (len(told), b"".join(b"$%d\r\n%b\r\n" % (len(word), word) for word in told))


def whole(reply: Any) -> Any:
    """A reply that is no error."""
    if isinstance(reply, Fault):
        raise reply
    return reply
