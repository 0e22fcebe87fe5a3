"""Whether a service works, and its numbers for Prometheus: ``/healthz``, ``/readyz`` and ``/metrics`` over HTTP."""
from __future__ import annotations

import asyncio
import contextlib
import importlib
import re
from bisect import bisect_left
from itertools import accumulate
from typing import Any, Awaitable, Callable, Dict, Iterator, List, Mapping, Optional, Tuple, Union

from . import __version__, _fault_in
from ._log import lines_dropped

PATIENCE = 1.0
"""A service is ready if its own round trip takes at most this many seconds."""
BOUNDS = (0.0005, 0.001, 0.0025, 0.005, 0.01, 0.025, 0.05, 0.1, 0.25, 0.5, 1.0, 2.0)
"""The bounds of histograms, in seconds."""
MOST = 16
"""How many clients of the port are served at a time."""
MISSING = "/metrics needs prometheus_client: apt-get install python3-prometheus-client"
_HEAD = 8192
_HOST = re.compile(rb"(localhost|127\.0\.0\.1|\[::1\])(:\d{1,5})?", re.IGNORECASE)

Labels = Tuple[str, ...]
Value = Union[float, Mapping[str, float]]
"""A number, or one for each value of the label."""


class Counter:
    """A number that only grows; with labels, one for each of their values."""

    def __init__(self, labels: Labels) -> None:
        self.values: Dict[Labels, float] = {} if labels else {(): 0.0}

    def add(self, *labels: str, by: float = 1) -> None:
        """Adds to the number of these labels."""
        self.values[labels] = self.values.get(labels, 0) + by


class Histogram:
    """How many times lie in each of the bounds, and their sum, in seconds."""

    def __init__(self) -> None:
        self.counts = [0] * (len(BOUNDS) + 1)
        self.sum = 0.0

    def see(self, seconds: float) -> None:
        """Counts a time."""
        self.counts[bisect_left(BOUNDS, seconds)] += 1
        self.sum += seconds

    def buckets(self) -> List[Tuple[str, int]]:
        """How many times are at most each bound."""
        return list(zip([*map(str, BOUNDS), "+Inf"], accumulate(self.counts)))


class Metrics:
    """The numbers of a service by their names; prometheus_client writes them."""

    def __init__(self) -> None:
        self._about: Dict[str, Tuple[str, str, Labels, Callable[[], Any]]] = {}
        self.gauge("noriladle_build_info", "The version of the service.", lambda: {__version__: 1}, "version")
        self.count_of("noriladle_log_lines_dropped_total", "Lines of logs that nobody took, or that had no room.", lines_dropped)

    def counter(self, name: str, about: str, *labels: str) -> Counter:
        """Declares a number that only grows, whose name ends with ``_total``."""
        made = Counter(labels)
        self._about[name] = "counter", about, labels, lambda: made.values
        return made

    def count_of(self, name: str, about: str, value: Callable[[], Value], *labels: str) -> None:
        """Declares a number that only grows, and that a function gives when somebody reads it."""
        self._about[name] = "counter", about, labels, lambda: _by_labels(value())

    def gauge(self, name: str, about: str, value: Callable[[], Value], *labels: str) -> None:
        """Declares a number that a function gives when somebody reads it."""
        self._about[name] = "gauge", about, labels, lambda: _by_labels(value())

    def histogram(self, name: str, about: str) -> Histogram:
        """Declares a histogram of times, whose name ends with ``_seconds``."""
        made = Histogram()
        self._about[name] = "histogram", about, (), lambda: made
        return made

    def text(self) -> bytes:
        """All of them, in the text format of Prometheus."""
        import prometheus_client  # Not every service has numbers that are read.

        text: bytes = prometheus_client.generate_latest(self)
        return text

    def collect(self) -> Iterator[Any]:
        """All of them, as prometheus_client takes them."""
        from prometheus_client import ProcessCollector, core

        for name, (kind, about, labels, values) in self._about.items():
            if kind == "histogram":
                found = values()
                yield core.HistogramMetricFamily(name, about, found.buckets(), found.sum)
                continue
            made = (core.CounterMetricFamily if kind == "counter" else core.GaugeMetricFamily)(name, about, labels=labels)
            for label, value in values().items():
                made.add_metric(label, value)
            yield made
        yield from ProcessCollector(registry=None).collect()


def _by_labels(value: Value) -> Dict[Labels, float]:
    return {(label,): number for label, number in value.items()} if isinstance(value, Mapping) else {(): value}


class Answers:
    """How many answers a service has given, and how many of them were refusals, by their number."""

    def __init__(self, metrics: Metrics) -> None:
        self._answers = metrics.counter("noriladle_answers_total", "Rows and texts that were answered, refusals among them.")
        self._refusals = metrics.counter(
            "noriladle_refusals_total", "Rows and texts that were refused, by the number of the refusal.", "number")

    def add(self, *answers: str) -> None:
        """Counts some answers."""
        self._answers.add(by=len(answers))
        for said in answers:
            if number := _fault_in(said):
                self._refusals.add(str(number))


class Health:
    """Whether a service works: it makes a round trip of its own, each second and whenever somebody asks.

    ``trip`` returns why the service does not work, in a line for its operator, or nothing if it does.
    """

    def __init__(self, trip: Callable[[], Awaitable[str]], metrics: Metrics) -> None:
        self.why = "it starts"
        """What the last round trip found; empty if all is well."""
        self._trip = trip
        metrics.gauge("noriladle_ready", "1 if a round trip of the service's own took at most a second, else 0.", lambda: not self.why)

    async def look(self) -> str:
        """Makes a round trip, and returns why the service does not work, or nothing."""
        try:
            self.why = await asyncio.wait_for(self._trip(), PATIENCE)
        except asyncio.TimeoutError:
            self.why = f"no answer in {PATIENCE:g} second"
        return self.why

    async def keep(self) -> None:
        """Makes a round trip each second, for ever."""
        while True:
            await self.look()
            await asyncio.sleep(PATIENCE)


async def serve(
    port: Optional[int], health: Health, metrics: Metrics, fault: Callable[[str], None] = lambda said: None
) -> List[asyncio.AbstractServer]:
    """Serves ``/healthz``, ``/readyz`` (503 with the reason while it is not) and ``/metrics`` on a port of 127.0.0.1, if there is
    one. That it is taken is a fault to report, and stops no service."""
    if port is None:
        return []
    try:
        importlib.import_module("prometheus_client")  # Now: later it would hold up the lanes.
    except ImportError:
        fault(MISSING)
    clients = 0

    async def connected(reader: asyncio.StreamReader, writer: asyncio.StreamWriter) -> None:
        nonlocal clients
        clients += 1
        with contextlib.suppress(OSError, asyncio.TimeoutError, asyncio.IncompleteReadError, asyncio.LimitOverrunError):
            if clients <= MOST:
                head = await asyncio.wait_for(reader.readuntil(b"\r\n\r\n"), 5)
                writer.write(await _answer(head, health, metrics))
                await asyncio.wait_for(writer.drain(), 5)
        clients -= 1
        writer.close()

    try:
        return [await asyncio.start_server(connected, "127.0.0.1", port, limit=_HEAD)]
    except OSError as taken:
        fault(f"no metrics: --metrics {port}: {taken.strerror}")
        return []


async def _answer(head: bytes, health: Health, metrics: Metrics) -> bytes:
    """The answer to the head of a request."""
    first, *lines = head.split(b"\r\n")
    method, _, path = first.partition(b" ")
    hosts = [line[5:].strip() for line in lines if line[:5].lower() == b"host:"]
    if len(hosts) != 1 or not _HOST.fullmatch(hosts[0]):
        # A page of another site may have its name stand for this machine.
        status, body = "403 Forbidden", b"this port is for programs of this machine: 127.0.0.1 or localhost\n"
    elif method != b"GET":
        status, body = "405 Method Not Allowed", b"GET /healthz, /readyz or /metrics\n"
    else:
        status, body = await _page(path.partition(b" ")[0], health, metrics)
    return (f"HTTP/1.1 {status}\r\nContent-Type: text/plain; version=0.0.4; charset=utf-8\r\nContent-Length: {len(body)}\r\n"
            "Connection: close\r\n\r\n").encode() + body


async def _page(path: bytes, health: Health, metrics: Metrics) -> Tuple[str, bytes]:
    if path == b"/healthz":
        return "200 OK", b"ok\n"
    if path == b"/readyz":
        why = await health.look()
        return ("503 Service Unavailable", f"{why}\n".encode()) if why else ("200 OK", b"ready\n")
    if path == b"/metrics":
        try:
            return "200 OK", metrics.text()
        except ImportError:
            return "501 Not Implemented", f"{MISSING}\n".encode()
    return "404 Not Found", b"/healthz, /readyz or /metrics\n"
