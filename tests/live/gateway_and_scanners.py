"""The parts of a shop for tests: a gateway, clients of its sockets, scanners on pseudo terminals, and tills."""
from __future__ import annotations

import fcntl
import os
import pty
import re
import select
import socket
import struct
import subprocess
import sys
import termios
import threading
import time
import urllib.request
from pathlib import Path
from typing import Any, Sequence, TypeVar

from program_and_rows import EAN13, READ, ROOT

ROW = EAN13.encode() + b"\n"
NORILADLE = [sys.executable, "-m", "noriladle"]


class Client:
    """A connection that reads line by line."""

    def __init__(self, address: tuple[str, int] | str, family: socket.AddressFamily = socket.AF_INET) -> None:
        self.socket: Any = socket.socket(family)
        self.socket.connect(address)
        self.socket.settimeout(20)
        self.lines = self.socket.makefile("rb")

    def __enter__(self) -> Client:
        return self

    def __exit__(self, *_: object) -> None:
        # A socket stays open as long as its file does.
        self.lines.close()
        self.socket.close()

    def send(self, text: bytes) -> None:
        self.socket.sendall(text)

    def line(self) -> str:
        return self.lines.readline().decode()

    def ask(self, row: bytes) -> str:
        self.send(row)
        return self.line()

    def ends(self) -> str:
        """Sends rows, and returns everything that comes until the end."""
        self.socket.shutdown(socket.SHUT_WR)
        return self.lines.read().decode()

    def reset(self) -> None:
        """Breaks the connection off."""
        self.socket.setsockopt(socket.SOL_SOCKET, socket.SO_LINGER, struct.pack("ii", 1, 0))
        self.__exit__()


class Gateway:
    """A gateway on a free port, and on a socket in a folder. `said` has the lines that it logs."""

    def __init__(self, folder: Path, *words: str, port: bool = True, command: list[str] = NORILADLE) -> None:
        self.unix = str(folder / "hub")
        ports = ["--port", "0"] if port else []
        self.process = subprocess.Popen([*command, "gateway", "--year", "2026", "--kept", "0", *ports, "--unix", self.unix, *words],
                                        stderr=subprocess.PIPE, text=True)
        self.ports = {}
        for name in [word[2:] for word in ("--port", *words) if word in ("--port", "--web", "--metrics") and (word != "--port" or port)]:
            line = self.process.stderr.readline()
            found = re.fullmatch("([a-z]+) ([0-9]+)\n", line)
            if not found:
                self.process.kill()
            assert found, line + self.process.stderr.read()
            self.ports[found[1]] = int(found[2])
        until = time.monotonic() + 20
        while not self.is_open():
            assert self.process.poll() is None and time.monotonic() < until
            time.sleep(0.02)

    def is_open(self) -> bool:
        with socket.socket(socket.AF_UNIX) as tried:
            return tried.connect_ex(self.unix) == 0

    def __enter__(self) -> Gateway:
        return self

    def __exit__(self, *_: object) -> None:
        self.process.terminate()
        assert self.process.communicate(timeout=20)[1] == "", "it wrote to standard error"

    def connect(self) -> Client:
        return Client(("127.0.0.1", self.ports["port"]))

    def unix_client(self) -> Client:
        return Client(self.unix, socket.AF_UNIX)

    def watch(self, lane: str) -> Client:
        """A till of a lane."""
        client = self.unix_client()
        client.send(f"watch {lane}\n".encode())
        return client

    def free_lane(self, wanted: str = f"0 {READ}\n") -> Client:
        """A connection that has a lane, after its first row."""
        until = time.monotonic() + 30
        while time.monotonic() < until:
            client = self.connect()
            answer = client.ask(ROW)
            if answer == wanted:
                return client
            client.__exit__()
            assert answer.startswith("closed: ")
            time.sleep(0.02)
        raise AssertionError("no lane came free")

    def numbers(self) -> dict[str, str]:
        """Its numbers for Prometheus, by name and labels."""
        with urllib.request.urlopen(f"http://127.0.0.1:{self.ports['metrics']}/metrics", timeout=10) as told:
            values = dict(line.rsplit(" ", 1) for line in told.read().decode().splitlines() if not line.startswith("#"))
        return {name: re.sub(r"\.0$", "", value) for name, value in values.items()}

    def waits_for(self, **wanted: int) -> None:
        """Waits until its numbers are these; names lack their first part."""
        until = time.monotonic() + 20
        while any(self.numbers()[f"noriladle_{name}"] != str(number) for name, number in wanted.items()):
            assert time.monotonic() < until, wanted
            time.sleep(0.05)

    def hub(self) -> int:
        return int(subprocess.run(["pgrep", "-P", str(self.process.pid)], capture_output=True).stdout)

    def most_memory(self) -> int:
        return most_memory(self.process)


def most_memory(process: subprocess.Popen[Any]) -> int:
    """The most memory that a process has had, in kB."""
    with open(f"/proc/{process.pid}/status") as status:
        return next(int(line.split()[1]) for line in status if line.startswith("VmHWM"))


Self = TypeVar("Self", bound="Scanner")


class Scanner:
    """`noriladle scanner` on a device, and the lines that it prints."""

    def __init__(self, device: str, *words: str, command: Sequence[str] = (*NORILADLE, "scanner"), out: int = subprocess.PIPE) -> None:
        self.process = subprocess.Popen([*command, device, "--year", "2026", *words], bufsize=0, stdin=subprocess.DEVNULL,
                                        stdout=out, stderr=subprocess.PIPE if out == subprocess.PIPE else out)

    def __enter__(self: Self) -> Self:
        return self

    def __exit__(self, *_: object) -> None:
        self.process.kill()
        self.process.communicate()

    def line(self, seconds: float = 10) -> str:
        """The next line, or nothing if none comes."""
        comes, _, _ = select.select([self.process.stdout], [], [], seconds)
        return self.process.stdout.readline().decode() if comes else ""

    def most_memory(self) -> int:
        return most_memory(self.process)

    def ended(self) -> tuple[str, str, int]:
        """What it prints on standard output and error after the device is gone, and its status."""
        out, error = self.process.communicate(timeout=10)
        return out.decode(), error.decode(), self.process.returncode


class Serial(Scanner):
    """`noriladle scanner` on a pty, which it has made raw."""

    def __init__(self, *words: str, **how: Any) -> None:
        self.ours, self.its = pty.openpty()
        self.device = os.ttyname(self.its)
        super().__init__(self.device, *words, **how)
        until = time.monotonic() + 20
        # Before that the line discipline would change what is sent.
        while b"-icanon" not in subprocess.run(["stty", "-a"], stdin=self.its, capture_output=True, check=True).stdout:
            assert time.monotonic() < until
            time.sleep(0.02)

    def send(self, sent: bytes, size: int = 7, one_by_one: bool = False) -> None:
        """Sends pieces; `one_by_one`, each when the program has read the one before it."""
        for place in range(0, len(sent), size):
            until = time.monotonic() + 20
            while one_by_one and self.unread():
                assert time.monotonic() < until
                time.sleep(0.001)
            os.write(self.ours, sent[place:place + size])

    def unread(self) -> int:
        """How many bytes the program has not read."""
        return int.from_bytes(fcntl.ioctl(self.its, termios.FIONREAD, bytes(4)), sys.byteorder)

    def unplug(self) -> None:
        os.close(self.its)
        os.close(self.ours)


class Till:
    """examples/till/till.py, and the lines that it prints."""

    def __init__(self, socket_path: str, lane: str, script: Path = ROOT / "examples/till/till.py") -> None:
        self.process = subprocess.Popen([sys.executable, "-u", script, socket_path, lane], stdout=subprocess.PIPE,
                                        text=True)
        self.lines: list[str] = []
        self._reading = threading.Thread(target=lambda: self.lines.extend(self.process.stdout))
        self._reading.start()

    def __enter__(self) -> Till:
        return self

    def __exit__(self, *_: object) -> None:
        self.process.kill()
        self._reading.join()
        self.process.wait()
        self.process.stdout.close()
