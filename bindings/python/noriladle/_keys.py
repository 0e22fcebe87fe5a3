"""Turns the events of a keyboard into text, and text into events: Linux, layout of the United States."""
from __future__ import annotations

import fcntl
import struct
import time
from typing import Dict, Iterator, Set, Tuple

EVENT = struct.Struct("llHHi")
"""An input event of Linux: seconds, microseconds, type, code, value."""
SYNCHRONIZE, KEY = 0, 1
DROPPED = 3
RELEASED, PRESSED = 0, 1
FOREIGN, LOST = "\x1a", "\x18"
"""A text has these characters instead of a key that the layout lacks, and of keys that the kernel dropped for lack of room."""
SHIFTS, CONTROLS, ALT, OTHER_ALT, BRACKET = {42, 54}, {29, 97}, 56, 100, 27

_GRAB = 0x40044590  # EVIOCGRAB
_HAS_EVENT, _HAS_KEY, _SETUP, _CREATE = 0x40045564, 0x40045565, 0x405C5503, 0x5501  # UI_SET_EVBIT and so on
_VIRTUAL = struct.Struct("HHHH80sI")


def _keys() -> Dict[int, Tuple[str, str]]:
    """What keys type, without and with shift, by their codes. F8 is the separator of element strings."""
    typed = {28: ("\r", "\r"), 96: ("\r", "\r"), 15: ("\r", "\r"), 57: (" ", " "), 66: ("\x1d", "\x1d"), 83: (".", ".")}
    for first, plain, shifted in (
        (2, "1234567890-=", "!@#$%^&*()_+"),
        (16, "qwertyuiop[]", "QWERTYUIOP{}"),
        (30, "asdfghjkl;'`", 'ASDFGHJKL:"~'),
        (43, "\\zxcvbnm,./", "|ZXCVBNM<>?"),
        (71, "789-456+1230", "789-456+1230"),  # The keypad.
    ):
        typed.update(enumerate(zip(plain, shifted), first))
    return typed


KEYS = _keys()


class Keyboard:
    """Turns the events of a keyboard into the text that it types.

    It reads the layout of the United States, Ctrl-] or F8 for the separator, and characters that are typed by their
    numbers on the keypad while Alt is held. AltGr, which that layout does not have, is ``FOREIGN``.
    """

    def __init__(self) -> None:
        self._held: Set[int] = set()
        self._rest = b""
        self._number = ""

    def typed(self, events: bytes) -> bytes:
        """What some more events type."""
        events = self._rest + events
        whole = len(events) // EVENT.size * EVENT.size
        self._rest = events[whole:]
        typed = (self._event(kind, code, value) for _, _, kind, code, value in EVENT.iter_unpack(events[:whole]))
        return "".join(typed).encode("latin-1")

    def _event(self, kind: int, code: int, value: int) -> str:
        if kind == SYNCHRONIZE and code == DROPPED:
            self._held.clear()
            self._number = ""
            return LOST
        return self._key(code, value) if kind == KEY else ""

    def _key(self, code: int, value: int) -> str:
        if value == RELEASED:
            self._held.discard(code)
            return self._by_number() if code == ALT else ""
        if value != PRESSED:
            return ""  # The key is held down and repeats.
        if code in SHIFTS | CONTROLS | {ALT, OTHER_ALT}:
            self._held.add(code)
            return FOREIGN if code == OTHER_ALT else ""
        if ALT in self._held:
            self._number += KEYS[code][0] if 71 <= code <= 82 else ""
            return ""
        if self._held & CONTROLS:
            return "\x1d" if code == BRACKET else ""
        return KEYS[code][bool(self._held & SHIFTS)] if code in KEYS else ""

    def _by_number(self) -> str:
        """The character whose number was typed while Alt was held."""
        number, self._number = self._number, ""
        return chr(int(number)) if number.isdecimal() and int(number) < 256 else ""


def grab(device: int) -> None:
    """Takes an event device for this program alone, so no window gets its keys too.

    :raises OSError: another program has it, or it is no event device.
    """
    fcntl.ioctl(device, _GRAB, 1)


def make_keyboard(device: int) -> None:
    """Makes a keyboard of an open ``/dev/uinput``.

    :raises OSError: it is no such device.
    """
    fcntl.ioctl(device, _HAS_EVENT, KEY)
    for code in [*KEYS, min(SHIFTS)]:
        fcntl.ioctl(device, _HAS_KEY, code)
    fcntl.ioctl(device, _SETUP, _VIRTUAL.pack(6, 0, 0, 1, b"noriladle scanner", 0))  # 6 is a virtual bus.
    fcntl.ioctl(device, _CREATE)
    time.sleep(0.2)  # A desktop needs a moment to open a new keyboard.


_CODES = {char: (code, place) for code in sorted(KEYS, reverse=True) for place in (1, 0) for char in [KEYS[code][place]]}
_CODES["\r"] = 28, 0


def events_of(text: str) -> bytes:
    """The events that type a text.

    :raises KeyError: it has no key for a character.
    """
    return b"".join(_events(text))


def _events(text: str) -> Iterator[bytes]:
    for char in text:
        code, shifted = _CODES[char]
        keys = [(42, PRESSED)] * shifted + [(code, PRESSED), (code, RELEASED)] + [(42, RELEASED)] * shifted
        for key, value in keys:
            yield EVENT.pack(0, 0, KEY, key, value) + EVENT.pack(0, 0, SYNCHRONIZE, 0, 0)
