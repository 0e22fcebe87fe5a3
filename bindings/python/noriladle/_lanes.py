"""What an operator sees of lanes over Redis: numbers of each lane, and how long a row takes through each node."""
from __future__ import annotations

import asyncio
import contextlib
import time
from functools import partial
from typing import Dict, Tuple

from ._health import Metrics
from ._redis import FAULTS, TooMuch
from .streams import SHARDS, Shop, Till, lanes_at, rows, tag

_PATIENCE = 5
"""A worker is ready if each node gives an answer to a row of its own within these seconds."""
_ROW, _ANSWER = "]E09501101530003", "]E0 (01)09501101530003"


class Watch:
    """Asks Redis about its lanes, and sends rows through each node; any worker may answer them."""

    def __init__(self, shop: Shop, metrics: Metrics) -> None:
        self._shop, self._lost = shop, 0
        self._lanes: Dict[str, Tuple[float, int, int]] = {}
        self._trips: Dict[str, float] = {}
        """By node, how long a row of the worker's own took."""
        for place, (name, about) in enumerate((
            ("oldest_seconds", "For how long the oldest row without an answer has waited, by lane."),
            ("entries", "Entries of rows without an answer, by lane."),
            ("pending", "Entries of rows that a worker has read and not answered, by lane."),
        )):
            metrics.gauge(f"noriladle_{name}", about, partial(self._numbers, place), "lane")
        metrics.gauge("noriladle_round_trip_seconds", "How long a row of the worker's own took, by node; +Inf if it had no answer.",
                      lambda: self._trips, "node")
        metrics.count_of("noriladle_rows_lost_total", "Rows of the worker's own that Redis has lost.", lambda: self._lost)

    def _numbers(self, place: int) -> Dict[str, float]:
        return {lane: its[place] for lane, its in self._lanes.items()}

    async def keep(self) -> None:
        """Looks each second, until it is cancelled."""
        while True:
            with contextlib.suppress(*FAULTS):
                probes = {await self._shop.address(rows(it)): it for it in (f"probe.{n}" for n in range(64))}
                self._trips = dict(zip(probes, await asyncio.gather(*map(self._trip, probes.values()))))
            told = await asyncio.gather(*map(self._look, range(SHARDS)), return_exceptions=True)
            self._lanes = {lane: its for of in told if isinstance(of, dict) for lane, its in of.items()}
            await asyncio.sleep(1)

    async def trip(self) -> str:
        """Why no row goes through, or nothing."""
        slow = [f"no answer through {node} for {_PATIENCE} seconds" for node, took in self._trips.items() if took > _PATIENCE]
        return "; ".join(slow) or ("" if self._trips else "no row has gone through Redis yet")

    async def _trip(self, lane: str) -> float:
        """How long a row takes through a lane."""
        till, begin = Till(self._shop, lane, patience=_PATIENCE), time.monotonic()
        with contextlib.suppress(*FAULTS, LookupError):
            is_right = await till.read(_ROW) == _ANSWER
            self._lost += till.lost
            return time.monotonic() - begin if is_right else float("inf")
        return float("inf")

    async def _look(self, shard: int) -> Dict[str, Tuple[float, int, int]]:
        """What Redis has of each lane of a shard: for how many seconds its oldest row without an answer has waited (0 if
        there is none), the entries of rows without an answer, and how many of these a worker has read."""
        lanes, found = await lanes_at(self._shop, shard), {}
        (seconds, micro), *told = await self._shop.ask_all(
            tag(shard), [["TIME"], *(words for it in lanes for words in (["XLEN", it], ["XINFO", "GROUPS", it]))])
        for lane, entries, groups in zip(lanes, told[::2], told[1::2]):
            oldest = 0.0
            with contextlib.suppress(TooMuch):
                for name, _ in await self._shop.ask(lane, "XRANGE", lane, "-", "+", "COUNT", 1) if entries else []:
                    oldest = max(0, int(seconds) + int(micro) / 1e6 - int(name.partition("-")[0]) / 1000)
            found[lane.partition(":rows:")[2]] = oldest, entries, sum(it[it.index("pending") + 1] for it in groups)
        return found
