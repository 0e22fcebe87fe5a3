"""Read an ordinary scanner, and give its texts to a gateway or check them

The scanner is on a serial line, or types as a keyboard. It must send CR, LF, Tab or Enter after each text, and should send
the symbology identifier before it (docs/SCANNERS.md). A line is printed for each text: its number, from 0, and what it
says, or why it is refused or unread. The command ends when the scanner is unplugged.

With --gateway the texts go to the tills that watch the lane; without it they are checked here, to try a scanner.

  $ noriladle scanner /dev/ttyACM0
"""
from __future__ import annotations

import argparse
import contextlib
import os
import re
import select
import signal
import stat
import termios
import time
import tty
from typing import List, Optional, Tuple

from .. import Ais, Answer, Refusal, _said_in, _service, _terms, read_scan
from .._keys import EVENT, FOREIGN, LOST, Keyboard, events_of, grab, make_keyboard
from .._link import Link, now
from .._log import writer
from .._scans import SECONDS, is_name
from .._service import notify
from . import REFUSED, RIGHT, WrongWords, add_ais, add_year, tell

CUT = 1_024
"""A longer text is cut to this many bytes: no symbol has as many, and the hub refuses it anyway."""
ENDLESS = 2.0
"""A text that has not ended this many seconds after its last byte has no end."""
WAKES = 0.5
"""The program checks the device for input at least once in this many seconds."""
PATIENCE = 3.0
"""How many seconds at most remain, after the scanner is unplugged, to report to the till what was lost."""

_INPUT = 13  # The major number of event devices.
_NO_END = "no CR, LF, Tab or Enter came behind the text: set the scanner to send one"
_SLEPT = "the program of the scanner slept while the text came"
_LOST = "keys were lost: the machine was too busy"
_FOREIGN = "it types as a keyboard of another country: set the scanner to the United States, or to Alt and numbers"


def add_arguments(parser: argparse.ArgumentParser) -> None:
    """Adds the arguments of ``noriladle scanner``."""
    parser.add_argument("device", metavar="DEVICE", help="A serial line, such as /dev/ttyACM0, or an event device, such as /dev/input/event5")
    parser.add_argument("--gateway", metavar="PATH", help="Give the texts to the gateway at this UNIX socket")
    parser.add_argument("--lane", metavar="NAME", help="Lane of the scanner [default: the device's name, such as ttyACM0]")
    parser.set_defaults(lanes={})  # A table of the option file: the lanes of devices.
    parser.add_argument("--keyboard", action="store_true", help="Take the device for a keyboard, whatever its name")
    parser.add_argument("--baud", type=_baud, default=9600, metavar="RATE", help="Bits a second of a serial line [default: 9600]")
    parser.add_argument("--type", choices=("gtin", "elements"), metavar="WHAT",
                        help="Type the gtin or the elements of each text that is not refused, and Enter, as a keyboard does")
    add_year(parser)
    add_ais(parser)
    _service.add_config(parser)


def _baud(word: str) -> int:
    if not (word.isdecimal() and hasattr(termios, f"B{word}")):
        raise argparse.ArgumentTypeError(f"{word!r} is no rate of a serial line, as 9600 or 115200")
    return int(word)


def run(words: argparse.Namespace) -> int:
    """Reads the scanner until somebody unplugs it, or a signal stops the command."""
    lane = words.lane or _lane_of(words.device, words.lanes)
    if not is_name(lane):
        raise WrongWords(f"{lane!r} is no name of a lane: up to 64 letters, digits and . _ : -")
    try:
        device = os.open(words.device, os.O_RDONLY | os.O_NOCTTY | os.O_NONBLOCK)
        is_keyboard = words.keyboard or os.major(os.fstat(device).st_rdev) == _INPUT
        grab(device) if is_keyboard else _make_raw(device, words.baud)
        typist = _open_typist() if words.type else None
    except (OSError, termios.error) as fault:
        tell(f"{words.device}: {fault.args[-1] if isinstance(fault, termios.error) else fault.strerror}")
        return REFUSED
    return _Scanner(words, device, Keyboard() if is_keyboard else None, lane, typist).run()


def _lane_of(device: str, lanes: object) -> str:
    """The lane of a device by the table of the option file, whose names may be links to it; else the device's name."""
    assert isinstance(lanes, dict)
    named = [lane for path, lane in lanes.items() if os.path.realpath(path) == os.path.realpath(device)]
    return str(named[0]) if named else os.path.basename(device)


def _make_raw(device: int, rate: int) -> None:
    """Sets a serial line to this rate and 8 bits a byte, with no byte changed."""
    if not stat.S_ISCHR(os.fstat(device).st_mode):
        raise OSError(0, "this is no serial line")
    tty.setraw(device)
    mode = termios.tcgetattr(device)
    mode[2] |= termios.CLOCAL | termios.CREAD
    mode[4] = mode[5] = getattr(termios, f"B{rate}")
    termios.tcsetattr(device, termios.TCSANOW, mode)


def _open_typist() -> int:
    try:
        device = os.open("/dev/uinput", os.O_WRONLY)
        make_keyboard(device)
    except OSError as fault:
        raise OSError(0, f"--type needs /dev/uinput (modprobe uinput): {fault.strerror}") from fault
    return device


class Texts:
    """Puts the texts of a scanner together from the pieces in which they come."""

    def __init__(self) -> None:
        self.rest = b""
        self.since = 0.0
        """When the last byte of the rest came."""
        self._is_old = False

    def take(self, piece: bytes, is_old: bool = False) -> List[Tuple[bytes, bool]]:
        """The texts that have ended with one more piece, and whether each is old: a part of it is from an old piece."""
        *ended, rest = re.split(b"[\r\n\t]", self.rest + piece)
        old = [is_old or self._is_old] + [is_old] * len(ended)
        self.rest, self.since, self._is_old = rest[:CUT], now(), bool(rest) and old[len(ended)]
        return [(text[:CUT], its) for text, its in zip(ended, old) if text]

    def is_endless(self) -> bool:
        """Whether the rest has waited too long for its end. Then it is dropped."""
        if not self.rest or now() < self.since + ENDLESS:
            return False
        self.rest, self._is_old = b"", False
        return True


class _Scanner:
    """A scanner's device, and where its texts go."""

    def __init__(self, words: argparse.Namespace, device: int, keyboard: Optional[Keyboard], lane: str, typist: Optional[int]) -> None:
        self._words, self._device, self._keyboard, self._typist = words, device, keyboard, typist
        self._texts = Texts()
        self._number = 0
        self._is_plugged, self._ended = True, 0.0
        self._quiet = now()
        """When the device had nothing that was not read: what comes next came later."""
        self._link = Link(words.gateway, lane, self._said, self._note) if words.gateway else None

    def run(self) -> int:
        """Serves until the scanner is unplugged or a signal comes, and then until all scans are answered."""
        woken, wake = os.pipe()
        os.set_blocking(wake, False)
        signal.set_wakeup_fd(wake)
        for number in (signal.SIGTERM, signal.SIGINT):
            signal.signal(number, lambda *_: self._end())
        alive = _service.watchdog()
        notify("READY=1")
        while self._is_plugged or (self._link and self._link.is_waiting and now() < self._ended + PATIENCE):
            self._wait(woken, (alive or 30) / 3)
            if alive:
                notify("WATCHDOG=1")
        notify("STOPPING=1")
        if self._link:
            self._link.close()
        return RIGHT

    def _end(self) -> None:
        self._is_plugged, self._ended = False, now()

    def _wait(self, woken: int, most: float) -> None:
        """Waits for the device, the gateway, a signal or a time, and handles it."""
        if self._link:
            self._link.step()
        link, ends = self._link, select.poll()
        ends.register(woken, select.POLLIN)
        if self._is_plugged:
            ends.register(self._device, select.POLLIN)
        if link and link.socket:
            ends.register(link.socket, select.POLLIN | (select.POLLOUT if link.wants_to_write else 0))
        begin = now()
        found = ends.poll(max(0.0, self._until(most) - begin) * 1000)
        if self._device not in dict(found):
            self._quiet = begin
        for end, events in found:
            if end == self._device:
                self._read()
            elif link and link.socket and end == link.socket.fileno():
                if events & select.POLLOUT:
                    link.write()
                if link.socket and events & ~select.POLLOUT:
                    link.take_answers()
        if self._texts.is_endless():
            self._unread(_NO_END)

    def _until(self, most: float) -> float:
        steps = [now() + min(most, WAKES)]
        if self._link:
            steps.append(self._link.next_step())
        if self._texts.rest:
            steps.append(self._texts.since + ENDLESS)
        return min(steps)

    def _read(self) -> None:
        """Reads from the device. What may have waited too long, because the program or the machine slept, is old."""
        size, begin = 100 * EVENT.size, now()
        try:
            some = os.read(self._device, size)
        except BlockingIOError:
            return
        except OSError:
            some = b""
        at, age = time.time(), now() - self._quiet
        if len(some) < size:
            self._quiet = begin
        if not some:
            self._end()
            writer(2)(f"{self._words.device}: unplugged")
            return
        for text, is_old in self._texts.take(self._keyboard.typed(some) if self._keyboard else some, age > SECONDS):
            if is_old:
                self._unread(_SLEPT)
            else:
                self._scan(text, at)

    def _scan(self, text: bytes, at: float) -> None:
        if self._keyboard and LOST.encode() in text:
            self._unread(_LOST)
        elif self._keyboard and FOREIGN.encode() in text:
            self._unread(_FOREIGN)
        elif self._link:
            self._link.scan(text, at)
        else:
            self._said(self._number, _checked(text, self._words.year, self._words.ais), text)
            self._number += 1

    def _unread(self, why: str) -> None:
        if self._link:
            self._link.unread(why)
        else:
            self._said(self._number, f"unread: {why}", b"")
            self._number += 1

    def _said(self, number: int, said: str, text: bytes) -> None:
        """Prints the answer to a text, and types what it says. If nobody reads it any more, only a till needs the scanner."""
        writer(1)(f"{number} {said}")
        if writer(1).is_broken and not self._link:
            self._end()
        if self._typist is not None and not said.startswith(("refused ", "unread: ")):
            if typed := _typed(self._words, said, text):
                os.write(self._typist, events_of(f"{typed}\r"))

    def _note(self, why: str) -> None:
        writer(2)(f"noriladle scanner: {why}")


def _checked(text: bytes, year: int, ais: Ais) -> str:
    """What a text says, or why it is refused."""
    try:
        return str(read_scan(text, year, ais=ais))
    except Refusal as refusal:
        return str(refusal)


def _typed(words: argparse.Namespace, said: str, text: bytes) -> str:
    """What is typed of the answer to a text: its elements, or the digits of its GTIN, if it has one."""
    return said.partition(" ")[2] if words.type == "elements" else digits_of(_gtin_of(said, text, words.year))


def _gtin_of(said: str, text: bytes, year: int) -> str:
    """The GTIN of the answer to a text, wherever it stands in it; empty if there is none, or two that differ. An answer for people does not
    tell its elements apart, since a value may look like some: then it is the GTIN of the text, if that says the same here."""
    told = _said_in(said.encode(), _terms(year, "all"))
    if isinstance(told, Answer):
        return told.gtin or ""
    with contextlib.suppress(Refusal):
        answer = read_scan(text, year)
        if str(answer) == said:
            return answer.gtin or ""
    return ""


def digits_of(gtin: str) -> str:
    """The digits of a GTIN as tills look them up: 8 for a GTIN-8, else 13, or 14 if the first is not 0."""
    return gtin[6:] if gtin.startswith("000000") else gtin[1:] if gtin.startswith("0") else gtin

