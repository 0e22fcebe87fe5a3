"""Lanes on many machines, over Redis: each row gets one answer, in order, whichever machine dies.

    >>> async def sell(rows):
    ...     shop = Shop(["10.0.0.5:6379", "10.0.0.6:6379"])
    ...     till = Till(shop, "north.3")
    ...     return [await till.read(row) for row in rows]

docs/REDIS.md has the rules of this module, why they are enough, and what Redis must guarantee. Needs python3-hiredis.
"""
from __future__ import annotations

import asyncio
import hashlib
import re
import secrets
import time
import zlib
from collections import defaultdict, deque
from itertools import accumulate, groupby, islice
from typing import Any, AsyncIterator, Awaitable, Callable, DefaultDict, Deque, Dict, Iterable, List, Optional, Sequence, Tuple

from ._redis import FAULTS, Fault, Redis as Shop, TooMuch, Word, whole

__all__ = ["Fault", "NoAnswer", "Shop", "Till", "Worker", "answers", "lanes_at", "mark", "rows"]

SHARDS, GROUP = 16, "workers"
"""One command of a worker reads all lanes of a shard. Every program must have the same number."""
IDLE, LOOK, DAY = 1500, 0.5, 86_400_000
"""Milliseconds after which a worker claims rows that another has read and not answered; seconds between its looks; and
milliseconds after which it removes a consumer that has done nothing."""
BATCH, CUT, BYTES = 256, 65_537, 1 << 17
"""The most rows of an entry; the length to which a row is cut, which the hub refuses as too long anyway; and the most
characters of an entry, except for its first row."""
HELD, QUOTA, SERIES = 4096, 32 << 20, 40
"""Entries of answers that Redis keeps at most; bytes of a stream, half as many at each look at a node that is full; and
characters of a series."""
_LANE = re.compile(r"[A-Za-z0-9._:-]{1,64}")
_FINAL = ("NOPERM", "WRONGPASS", "NOAUTH", "WRONGTYPE")
"""Errors that an operator must remove before a till can go on."""


class NoAnswer(TimeoutError):
    """A till had no answer in the time that its program allowed."""


def tag(shard: int) -> str:
    """What the keys of a shard begin with. It stands in braces, so all are on one node."""
    return f"nl:{{{shard}}}"


def rows(lane: str) -> str:
    """The stream of a lane's rows.

    :raises ValueError: this is no name of a lane.
    """
    if not _LANE.fullmatch(lane):
        raise ValueError(f"{lane!r} is no name of a lane, which has 1 to 64 of A-Z, a-z, 0-9, '.', '_', ':' and '-'")
    return f"{tag(zlib.crc32(lane.encode()) % SHARDS)}:rows:{lane}"


def answers(lane: str) -> str:
    """The stream of a lane's answers."""
    return _answers_of(rows(lane))


def mark(text: str) -> str:
    """The mark of a row, which its answer repeats, so no till takes it for the answer to another row."""
    return hashlib.blake2b(text.encode("utf-8", "replace"), digest_size=6).hexdigest()


async def lanes_at(shop: Shop, shard: int) -> List[str]:
    """The streams of rows that are in a shard."""
    begin = f"{tag(shard)}:rows:"
    return sorted(it for it in await shop.streams(begin, f"{begin}*") if _LANE.fullmatch(it, len(begin)))


def _answers_of(stream: str) -> str:
    return stream.replace("}:rows:", "}:answers:", 1)


def _fields(words: Sequence[Any]) -> Dict[str, Any]:
    return dict(zip(words[::2], words[1::2]))


class Worker:
    """Answers the rows of all lanes, beside any number of other workers, and those that another has read and not
    answered.

    ``answer`` gives the answers to some rows, in their order.
    """

    def __init__(self, shop: Shop, name: str, answer: Callable[[Sequence[str]], Awaitable[List[str]]]) -> None:
        self.shop, self.name, self.answer, self.stopping = shop, name, answer, False
        self.given = self.claimed = self.dropped = 0
        self.turns: DefaultDict[str, asyncio.Semaphore] = defaultdict(lambda: asyncio.Semaphore(2))
        """By node, so a silent node stops no other. It reads no more than it can answer before others claim it."""

    async def run(self) -> None:
        """Works until it must stop, or ``answer`` fails, and then ends what it has begun. It runs once."""
        try:
            await asyncio.gather(*(_Shard(self, shard).serve() for shard in range(SHARDS)))
        finally:
            self.stopping = True


class _Shard:
    """The lanes of a shard, as a worker answers them."""

    def __init__(self, worker: Worker, shard: int) -> None:
        self._of, self._shop, self._shard, self._tag = worker, worker.shop, shard, tag(shard)
        self._clock, self._idle, self._most = 0, 0, QUOTA
        """The node's clock at the last look, in seconds; the milliseconds after which the next one claims rows; and the
        bytes that a stream may have."""
        self._first, self._count = ">", 1
        """What it reads: rows that nobody has read, or `0`, those that it had read before a fault. And how many entries of
        each lane at once: about 256 rows, by what the last ones had."""

    async def serve(self) -> None:
        """Reads and answers rows, and looks at its lanes now and then."""
        looked = 0.0
        while not self._of.stopping:
            try:
                if time.monotonic() > looked + LOOK:
                    lanes, looked = await self._look(), time.monotonic()
                async with self._of.turns[await self._shop.address(self._tag)]:
                    is_idle = not (lanes and await self._read(lanes))
                if is_idle:
                    # It waits for rows without a turn.
                    self._first = ">"
                    await (self._read(lanes, "BLOCK", int(LOOK * 1000)) if lanes else asyncio.sleep(LOOK))
            except TooMuch:
                # They are this worker's now. An entry that is too long by itself waits until it is claimed.
                self._first, self._count = ">" if self._count == 1 else "0", 1
            except FAULTS as fault:
                self._first = "0"
                await self._shop.rest(fault)

    async def _look(self) -> List[str]:
        """Finds the lanes that it may answer, empties streams that have too many bytes, and claims the rows that nobody
        has answered for a while. At first, and if the node's clock has stepped back, it claims all, since their times
        may be in the future."""
        lanes, mine = await lanes_at(self._shop, self._shard), []
        if not lanes:
            # The shard may have moved to another node.
            await self._shop.renew()
        replies = await self._shop.ask_all(self._tag, [*(words for lane in lanes for words in (
            ["XGROUP", "CREATE", lane, GROUP, "0"], ["XTRIM", _answers_of(lane), "MAXLEN", "~", str(HELD)],
            ["XAUTOCLAIM", lane, GROUP, self._of.name, str(self._idle), "0-0", "COUNT", "64", "JUSTID"],
            ["MEMORY", "USAGE", lane], ["MEMORY", "USAGE", _answers_of(lane)])), ["TIME"]])
        now = int(whole(replies.pop())[0])
        # The tills submit again what was in streams that are emptied.
        self._most = self._most // 2 if any(str(it).startswith("OOM") for it in replies) else QUOTA
        for lane, _, kept, taken, *sizes in zip(lanes, *[iter(replies)] * 5):
            for stream, size in zip((lane, _answers_of(lane)), sizes):
                if isinstance(size, int) and size > self._most:
                    self._of.dropped += await self._shop.ask(stream, "XTRIM", stream, "MAXLEN", 0)
                    self._shop.tell(f"{stream} is emptied: it had {size} bytes, and may have {self._most}")
            if fault := next((it for it in (kept, taken) if isinstance(it, Fault)), None):
                self._shop.tell(f"{lane} is not answered: {fault}")
                continue
            mine.append(lane)
            for name in taken[1]:
                await self._take(lane, name)
        if not self._idle:
            await self._tidy(mine)
        self._clock, self._idle = now, IDLE if now >= self._clock - 1 else 0
        return mine

    async def _tidy(self, lanes: Sequence[str]) -> None:
        """Looks for lanes of an earlier version, and removes consumers that have done nothing for a day. What one of
        them has read is delivered again."""
        for old in sorted(await self._shop.streams(self._tag, "shop:{*}:rows"))[:1]:
            self._shop.tell(f"{old} is a lane of version 1.1, which no worker of this version answers: docs/REDIS.md says how")
        for lane in lanes:
            its = map(_fields, await self._shop.ask(lane, "XINFO", "CONSUMERS", lane, GROUP))
            gone = [["XGROUP", "DELCONSUMER", lane, GROUP, of["name"]] for of in its if of["idle"] > DAY]
            await self._shop.ask_all(lane, [*gone, ["XGROUP", "SETID", lane, GROUP, "0"]] if gone else [])

    async def _read(self, lanes: Sequence[str], *wait: Word) -> bool:
        """Reads rows and answers them. Returns whether there were any."""
        found = await self._shop.ask(self._tag, "XREADGROUP", "GROUP", GROUP, self._of.name, "COUNT", self._count, *wait,
                                     "STREAMS", *lanes, *[self._first] * len(lanes))
        if some := [it for it in found or () if it[1]]:
            await self._give(some)
        return bool(some)

    async def _take(self, lane: str, name: str) -> None:
        """Answers an entry that it has claimed, by itself, since it may be too long: then it is dropped unread."""
        self._of.claimed += 1
        try:
            found = await self._shop.ask(lane, "XRANGE", lane, name, name)
        except TooMuch:
            found = [(name, ())]
            self._of.dropped += 1
            self._shop.tell(f"{lane} has an entry that is too long, and is dropped: {name}")
        if found:
            await self._give([(lane, found)])

    async def _give(self, found: Sequence[Tuple[str, Sequence[Tuple[str, Optional[Sequence[str]]]]]]) -> None:
        """Writes the answers to entries and removes their rows, all or none. What was read before a fault may be gone, and
        what has no number is dropped."""
        asked = [(lane, of.get("s", "")[:SERIES], int(of["n"][:20]) + at, text[:CUT])
                 for lane, some in found for _, words in some for of in [_fields(words or ())]
                 if of.get("n", "")[:20].isdecimal() for at, text in enumerate(of.get("t", "").split("\n", BATCH)[:BATCH])]
        said = await self._of.answer([text for *_, text in asked]) if asked else []
        commands: List[List[Word]] = []
        # The answers to rows that follow each other in a series share an entry.
        for (lane, series, n, _), part in groupby(enumerate(asked), lambda it: (*it[1][:2], it[1][2] - it[0], it[0] // BATCH)):
            its = [at for at, _ in part]
            lines = "\n".join(f"{mark(asked[at][3])} {said[at]}" for at in its)
            commands.append(["XADD", _answers_of(lane), "*", "s", series, "n", n + its[0], "a", lines])
        for lane, some in found:
            names = [name for name, _ in some]
            commands += [["XACK", lane, GROUP, *names], ["XDEL", lane, *names]]
        *_, done = map(whole, await self._shop.ask_all(self._tag, [["MULTI"], *commands, ["EXEC"]]))
        list(map(whole, done))
        self._of.given += len(asked)
        # 2 kB take as long as a row, and so do 16 fields.
        weight = len(asked) + sum(len(word) + 64 for _, some in found for _, words in some for word in words or ()) // 2048
        self._count = max(1, min(BATCH, 2 * self._count, BATCH * sum(len(some) for _, some in found) // (weight or 1)))


class Till:
    """A till: submits the rows of a lane and gives their answers, in order and each once.

    Its rows are numbered from 0, in a series of its own, so a lane may have several tills. With ``series`` and
    ``start`` it continues an earlier till, from the first row whose answer that till did not give. At most ``most`` rows
    wait for their answers. If no answer comes for 2 seconds, the till calls ``note``. If none comes for ``patience``
    seconds, the call raises :class:`NoAnswer`; without ``patience`` it waits. After such an error, or after you cancel a
    call, the till cannot be used again.

    :raises ValueError: this is no name of a lane, the series has more than 40 characters, or the start is below 0.
    """

    def __init__(self, shop: Shop, lane: str, series: Optional[str] = None, start: int = 0, *, most: int = 1024,
                 patience: Optional[float] = None, note: Callable[[str], None] = lambda said: None) -> None:
        self.shop, self.lane, self.most, self._patience, self._note = shop, lane, most, patience, note
        self.series, self.number = series or secrets.token_hex(8), start
        """The number is that of the first row that has no answer yet."""
        if len(self.series) > SERIES or start < 0:
            raise ValueError(f"no worker answers a series with more than {SERIES} characters, or a number below 0")
        self.repeated = self.lost = self.strange = 0
        """Rows that were submitted again; that Redis had lost; and answers to other rows of these names."""
        self._rows, self._answers = rows(lane), answers(lane)
        self._kept: Deque[str] = deque()
        self._sent: Deque[str] = deque()
        """The rows without an answer, and the IDs of the entries in which the first of them are submitted."""
        self._got: Dict[int, str] = {}
        self._passed = ["0-0"] if series else []
        """The IDs of the entries of answers that it has read last."""

    async def read(self, text: str) -> str:
        """The answer to a row."""
        return [answer async for _, answer in self.read_all([text])][-1]

    async def read_all(self, texts: Iterable[str]) -> AsyncIterator[Tuple[int, str]]:
        """The number of each row and its answer, in the order of the rows.

        :raises NoAnswer: none has come in time.
        :raises Fault: the till has no right to the lane, or a key of it has another type.
        :raises LookupError: no IDs are left for its rows.
        """
        rest = iter(texts)
        while True:
            self._kept.extend(text.replace("\n", "?")[:CUT] for text in islice(rest, self.most - len(self._kept)))
            if not self._kept:
                return
            heard = looked = time.monotonic()
            alarm = 2.0
            while self.number not in self._got:
                silent = time.monotonic() - heard
                if self._patience is not None and silent >= self._patience:
                    raise NoAnswer(f"lane {self.lane}: no answer for {self._patience:g} seconds")
                if silent >= alarm:
                    self._note(f"lane {self.lane}: no worker answers")
                    # Rows that only wait are not submitted again before 12 seconds: that would be more work for workers that
                    # have too much.
                    if alarm > 2:
                        self._repeat()
                    alarm = max(12, 2 * alarm)
                try:
                    if time.monotonic() > looked + IDLE / 1000:
                        await self._look()
                        looked = time.monotonic()
                    await self._submit()
                    await self._read("BLOCK", 500)
                except FAULTS as fault:
                    if "exhausted" in str(fault):
                        raise LookupError(f"lane {self.lane}: somebody has used up the IDs of its stream: delete {self._rows}")
                    if str(fault).startswith(_FINAL):
                        raise
                    looked = 0.0
                    await self.shop.rest(fault)
            self._kept.popleft()
            self._sent.popleft()
            self.number += 1
            yield self.number - 1, self._got.pop(self.number - 1)

    def _repeat(self) -> None:
        """Submits all rows again."""
        self.repeated += len(self._sent)
        self._sent.clear()
        self._got.clear()

    async def _submit(self) -> None:
        """Submits the rows that have not been submitted, entry by entry."""
        texts = list(islice(self._kept, len(self._sent), None))
        sizes = list(accumulate(map(len, texts)))
        entries = [list(part) for _, part in groupby(range(len(texts)), lambda at: (sizes[at] // BYTES, at // BATCH))]
        commands: List[List[Word]] = [["XADD", self._rows, "*", "s", self.series, "n", self.number + len(self._sent) + its[0],
                                       "t", "\n".join(texts[at] for at in its)] for its in entries]
        for its, reply in zip(entries, await self.shop.ask_all(self._rows, commands)):
            self._sent.extend([whole(reply)] * len(its))
        # The clock of this node gives the answers their IDs too.
        self._passed = self._passed or [f"{int(self._sent[0].partition('-')[0]) - 1}-0"]

    async def _read(self, *wait: Word) -> bool:
        """Reads answers: takes each that names a row which waits, once. Removes what was read a while ago."""
        found = await self.shop.ask(self._answers, "XREAD", "COUNT", 64, *wait, "STREAMS", self._answers, self._passed[-1])
        for name, words in found[0][1] if found else []:
            self._passed.append(name)
            of = _fields(words)
            if of.get("s") == self.series and (begin := of.get("n", "")[:20]).isdecimal():
                self._accept(int(begin), of.get("a", "").split("\n"))
        if len(self._passed) >= 128:
            await self.shop.ask(self._answers, "XTRIM", self._answers, "MINID", self._passed[-64])
            del self._passed[:-64]
        return bool(found)

    def _accept(self, begin: int, lines: List[str]) -> None:
        """Takes the answers from a number on, of rows that wait for them."""
        for n in range(max(begin, self.number), min(begin + len(lines), self.number + len(self._sent))):
            its, _, answer = lines[n - begin].partition(" ")
            if n in self._got or its == mark(self._kept[n - self.number]):
                self._got.setdefault(n, answer)
            else:
                self.strange += 1

    async def _look(self) -> None:
        """After an error or a silence: asks for the entry of the first row, if Redis had acknowledged it, and then reads
        all answers that are there, since their IDs may be below this till's place. What is neither a row nor answered is
        lost: it is submitted again, with all after it."""
        first = self._sent[0] if self._sent else "+"
        there = await self.shop.ask(self._rows, "XRANGE", self._rows, first, first)
        self._passed = ["0-0"]
        while await self._read():
            pass
        if self._sent and self.number not in self._got and _fields(there[0][1] if there else []).get("s") != self.series:
            self.lost += self._sent.count(first)
            self._note(f"lane {self.lane}: Redis has lost rows or answers from {self.number} on; they are submitted again")
            self._repeat()
