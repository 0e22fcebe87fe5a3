"""Machines with their own addresses, for tests: each is a network namespace. A process carries the packets between them, late or not at all.
Needs root and iproute2."""
from __future__ import annotations

import contextlib
import ctypes
import fcntl
import heapq
import multiprocessing
import os
import random
import select
import struct
import subprocess
import threading
import time
from typing import Any, Iterator

NEW_NET = 0x40000000  # CLONE_NEWNET
SET_TUN, TUN_OF_PACKETS = 0x400454CA, 0x1001  # TUNSETIFF; IFF_TUN | IFF_NO_PI
LIBC = ctypes.CDLL(None, use_errno=True)
DELAY, LOSS, CARRIED, LOST = range(4)


def _call(number: int) -> None:
    if number:
        raise OSError(ctypes.get_errno(), os.strerror(ctypes.get_errno()))


class Network:
    """Machines by their names, all on one network until some are cut off."""

    def __init__(self, *names: str) -> None:
        self.names = names
        self.addresses = {name: f"10.77.0.{number}" for number, name in enumerate(names, 1)}
        # The delay in seconds, the share of lost packets, two counts, and the side of each machine.
        self._rules = multiprocessing.RawArray("d", 4 + len(names))
        self._files: dict[str, int] = {}
        self._devices: list[int] = []

    def __enter__(self) -> Network:
        for name in self.names:
            making = threading.Thread(target=self._make, args=(name,))
            making.start()
            making.join()
        assert len(self._devices) == len(self.names), "no network namespace could be made"
        self._router = multiprocessing.get_context("fork").Process(target=_route, args=(self._devices, self._rules), daemon=True)
        self._router.start()
        return self

    def __exit__(self, *_: object) -> None:
        self._router.kill()
        self._router.join()
        for file in [*self._devices, *self._files.values()]:
            os.close(file)

    def _make(self, name: str) -> None:
        """Makes a machine, in its own thread, which has that network from then on."""
        _call(LIBC.unshare(NEW_NET))
        self._files[name] = os.open("/proc/thread-self/ns/net", os.O_RDONLY)
        device = os.open("/dev/net/tun", os.O_RDWR | os.O_NONBLOCK)
        fcntl.ioctl(device, SET_TUN, struct.pack("16sH22x", b"net0", TUN_OF_PACKETS))
        for words in (["link", "set", "lo", "up"], ["address", "add", f"{self.addresses[name]}/24", "dev", "net0"], ["link", "set", "net0", "up"]):
            subprocess.run(["ip", *words], check=True)
        self._devices.append(device)

    @contextlib.contextmanager
    def inside(self, name: str) -> Iterator[None]:
        """What this thread opens and starts within is on a machine."""
        here = os.open("/proc/thread-self/ns/net", os.O_RDONLY)
        _call(LIBC.setns(self._files[name], NEW_NET))
        try:
            yield
        finally:
            _call(LIBC.setns(here, NEW_NET))
            os.close(here)

    def worsen(self, delay: float, loss: float) -> None:
        """From now on packets take about this many seconds, in any order, and this share of them is lost."""
        self._rules[DELAY], self._rules[LOSS] = delay, loss

    def cut_off(self, *names: str) -> None:
        """Cuts these off from the others, but not from each other; the others are together again. Nobody gets a notice."""
        for number, name in enumerate(self.names):
            self._rules[4 + number] = name in names

    def told(self) -> str:
        """What the network has done, in words."""
        return f"{self._rules[CARRIED]:.0f} packets carried, {self._rules[LOST]:.0f} lost"


def _route(devices: list[int], rules: Any) -> None:
    """Carries packets between the machines, whose addresses end with their numbers from 1."""
    ways, count = {device: number for number, device in enumerate(devices)}, 0
    waiting: list[tuple[float, int, int, bytes]] = []
    poll = select.epoll()
    for device in devices:
        poll.register(device, select.EPOLLIN)
    while True:
        now = time.monotonic()
        while waiting and waiting[0][0] <= now:
            with contextlib.suppress(OSError):
                os.write(devices[waiting[0][2]], heapq.heappop(waiting)[3])
        for device, _ in poll.poll(waiting[0][0] - now if waiting else None):
            packet, number = os.read(device, 65_536), ways[device]
            to = packet[19] - 1
            if packet[0] >> 4 != 4 or not 0 <= to < len(devices):
                continue
            if rules[4 + number] != rules[4 + to] or random.random() < rules[LOSS]:
                rules[LOST] += 1
                continue
            rules[CARRIED] += 1
            count += 1
            heapq.heappush(waiting, (now + rules[DELAY] * random.uniform(0.5, 1.5), count, to, packet))
