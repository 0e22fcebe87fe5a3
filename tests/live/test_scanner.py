"""The scanner, whose device is a pty, or a pipe of a keyboard's events; texts are checked by the library."""
from __future__ import annotations

import argparse
import os
import re
import stat
import subprocess
import sys
import termios
import time
from contextlib import contextmanager
from pathlib import Path
from typing import BinaryIO, Iterator

import pytest

from gateway_and_scanners import NORILADLE, Scanner, Serial
from noriladle._keys import EVENT, KEYS, Keyboard, events_of
from noriladle.commands.scanner import _checked, _typed, digits_of
from program_and_rows import noise
from test_gateway import Notified

LIMIT = 180
TEXTS = [
    (b"]E09501101530003", "]E0 (01)09501101530003"),
    (b"]E00012345000065", "]E0 (01)00012345000065"),  # A UPC-A, of 13 digits.
    (b"]E0012345000065", "]E0 (01)00012345000065"),  # The same, as some scanners send it.
    (b"]E496385074", "]E4 (01)00000096385074"),
    (b"]I109501101530003", "]I1 (01)09501101530003"),
    (b"]C101095011015300031726123110AB\x1d21X", "]C1 (01)09501101530003(17)261231(10)AB(21)X"),
    (b"]e00109501101530003", "]e0 (01)09501101530003"),
    (b"]d2010950110153000310AB\x1d17261231", "]d2 (01)09501101530003(10)AB(17)261231"),
    (b"]Q3010950110153000321x%y", "]Q3 (01)09501101530003(21)x%y"),
    (b"]J10109501101530003", "]J1 (01)09501101530003"),
    (b"]E09501101530004", "refused 3 CheckDigit"),
    (b"]E0950110153000", "refused 3 CheckDigit"),
    (b"]E0950110153000X", "refused 2 NotDigit 12"),
    (b"]C1", "refused 4 Empty"),
    (b"]C110A#", "refused 7 ValueCharacter 0"),
    (b"]C1(01)09501101530003", "refused 5 UnknownAi 0"),
    (b"]C10109501101530004", "refused 8 ValueCheckDigit 0"),
    (b"]C191" + b"A" * 200, "refused 11 TooLong"),
    (b"]C0ABC", "refused 40 Kind"),  # Code 128 that is not GS1's.
    (b"]d1ABC", "refused 40 Kind"),
    (b"9501101530003", "- (01)09501101530003"),  # The identifier is not switched on.
    (b"9501101530004", "refused 3 CheckDigit"),
    (b"]E001234565", "]E0 (01)00012345000065"),  # A UPC-E, as scanners send it that do not expand it.
    (b"01234565", "refused 40 Kind"),  # An EAN-8, or a UPC-E: nobody can say.
    (b"96385074", "- (01)00000096385074"),
    (b"^0109501101530003", "- (01)09501101530003"),  # FNC1 in first place.
    (b"\x1d0109501101530003", "- (01)09501101530003"),
    (b"]C1\x1d0109501101530003\x1d", "]C1 (01)09501101530003"),  # Byte 29 at both ends.
    (b"]C110AB^21C", "]C1 (10)AB(21)C"),
    (b"]Q1https://id.gs1.org/01/09501101530003/10/AB?17=261231", "]Q1 (01)09501101530003(10)AB(17)261231"),
    (b"https://id.gs1.org/01/9501101530003", "- (01)09501101530003"),
    (b"https://id.gs1.org/01/9501101530003/10/%4", "refused 40 Kind"),
    (b"https://[2001:db8::1]:8080/01/09501101530003", "- (01)09501101530003"),
    (b"https://id.gs1.org/01/09501101530003?10=A&10=B", "- (01)09501101530003(10)A(10)B"),
    (b"https://id.gs1.org/01/09501101530003/10/\xc3\xa9", "refused 40 Kind"),
    (b"]", "refused 40 Kind"),
    (b"\xff\x00\x1b[2J", "refused 40 Kind"),
]


@pytest.mark.parametrize("text, wanted", TEXTS)
def test_check(text: bytes, wanted: str) -> None:
    assert _checked(text, 2026, "all") == wanted


@pytest.mark.parametrize("gtin, digits", [
    ("09501101530003", "9501101530003"), ("00000096385074", "96385074"), ("00012345000065", "0012345000065"),
    ("19501101530000", "19501101530000"),
])
def test_digits_that_are_typed(gtin: str, digits: str) -> None:
    assert digits_of(gtin) == digits


@pytest.mark.parametrize("said, text, gtin", [
    ("]E0 (01)09501101530003", b"]E09501101530003", "9501101530003"),
    ("]C1 (01)09501101530003(10)A", b"]C1010950110153000310A", "9501101530003"),
    ("]C1 (10)A(01)19501101530000", b"]C110A\x1d0119501101530000", "19501101530000"),  # 01 is not first.
    ("]C1 10=A\t01=19501101530000", b"]C110A\x1d0119501101530000", "19501101530000"),
    ("]C1 (10)(01)09501101530003", b"]C110(01)09501101530003", ""),  # A batch that looks like a GTIN.
    ("]C1 (01)09501101530003(10)A(01)09501101530010", b"]C1010950110153000310A\x1d0109501101530010", ""),  # Two that differ.
    ("]C1 (10)AB", b"]C110AB", ""),
    # What a gateway of another version reads otherwise.
    ("]C1 (01)09501101530003(09)A", b"]C10109501101530003" b"09A", ""),
    ("]C1 01=09501101530003\t09=A", b"]C10109501101530003" b"09A", ""),
    ("]C1 01=09501101530003\t10=A", b"]C10109501101530003" b"09A", "9501101530003"),
    ("]C1 (10)AB", b"]C10109501101530003", ""),
])
def test_the_gtin_that_is_typed(said: str, text: bytes, gtin: str) -> None:
    words = argparse.Namespace(type="gtin", year=2026, ais="all")
    assert _typed(words, said, text) == gtin
    words.type = "elements"
    assert _typed(words, said, text) == said[4:]


@pytest.mark.parametrize("end", [b"\r", b"\n", b"\r\n"])
def test_a_serial_line(end: bytes) -> None:
    with Serial() as scanner:
        for number, (text, wanted) in enumerate(TEXTS):
            scanner.send(text + end, one_by_one=True)
            assert scanner.line() == f"{number} {wanted}\n"
        # A text that had not ended when the scanner was unplugged is none.
        scanner.send(b"]E09501101530003")
        time.sleep(0.1)
        scanner.unplug()
        assert scanner.ended() == ("", f"{scanner.device}: unplugged\n", 0)


def test_the_rate_of_a_serial_line() -> None:
    with Serial("--baud", "115200") as scanner:
        until = time.monotonic() + 20
        while termios.tcgetattr(scanner.its)[4:6] != [termios.B115200] * 2:
            assert time.monotonic() < until


def test_systemd_is_told_of_a_scanner(tmp_path: Path, monkeypatch: pytest.MonkeyPatch) -> None:
    """When it is ready, that it lives, though nothing is scanned, and that it stops."""
    systemd = Notified(tmp_path)
    monkeypatch.setenv("NOTIFY_SOCKET", systemd.path)
    monkeypatch.setenv("WATCHDOG_USEC", "600000")
    with Serial() as scanner:
        assert [systemd.next() for _ in range(5)] == ["READY=1", *["WATCHDOG=1"] * 4]
        scanner.process.terminate()
        while (said := systemd.next()) != "STOPPING=1":
            assert said == "WATCHDOG=1"
        assert scanner.ended() == ("", "", 0)


def test_several_texts_at_once() -> None:
    with Serial() as scanner:
        scanner.send(b"\r\n\r]E496385074\r\r]E496385074\n\r\n", size=100)
        assert [scanner.line(), scanner.line()] == ["0 ]E4 (01)00000096385074\n", "1 ]E4 (01)00000096385074\n"]
        scanner.unplug()


def test_10_mb_without_a_line_end() -> None:
    with Serial() as scanner:
        before = scanner.most_memory()
        for _ in range(100):
            for _ in range(25):
                scanner.send(b"]E0" + b"9" * 3_997, size=4_000)
            assert scanner.most_memory() - before < 2_000
        scanner.send(b"\r]E496385074\r")
        assert [scanner.line(), scanner.line()] == ["0 refused 1 Length\n", "1 ]E4 (01)00000096385074\n"]
        scanner.unplug()


def test_noise() -> None:
    """Random bytes on a line: each text has its line, and the next text is read."""
    sent = noise(200_000)
    texts = [text for text in re.split(b"[\r\n\t]", sent) if text]
    with Serial() as scanner:
        scanner.send(sent, size=1_000)
        scanner.send(b"\r]E496385074\r")
        for number in range(len(texts)):
            assert scanner.line().startswith(f"{number} refused ")
        assert scanner.line() == f"{len(texts)} ]E4 (01)00000096385074\n"
        scanner.unplug()


def test_a_text_without_an_end() -> None:
    """Two seconds after its last byte it is unread, and the next text is read."""
    with Serial() as scanner:
        scanner.send(b"]E09501101530003")
        assert scanner.line() == "0 unread: no CR, LF, Tab or Enter came behind the text: set the scanner to send one\n"
        scanner.send(b"]E496385074\t")
        assert scanner.line() == "1 ]E4 (01)00000096385074\n"


KEYBOARD = """
import fcntl, sys
from noriladle.__main__ import main
# A pipe stands for the event device, and no pipe can be grabbed.
real = fcntl.ioctl
fcntl.ioctl = lambda device, request, *more: 0 if request == 0x40044590 else real(device, request, *more)
sys.exit(main(["scanner", "--keyboard", *sys.argv[1:]]))
"""


@contextmanager
def keyboard(folder: Path, *words: str) -> Iterator[tuple[Scanner, BinaryIO]]:
    """The scanner's program on a keyboard, and the pipe of its events."""
    device = str(folder / "event")
    os.mkfifo(device)
    with Scanner(device, *words, command=[sys.executable, "-c", KEYBOARD]) as scanner, open(device, "wb", buffering=0) as pipe:
        yield scanner, pipe


def key(code: int, value: int) -> bytes:
    return EVENT.pack(0, 0, 4, 4, code) + EVENT.pack(0, 0, 1, code, value) + EVENT.pack(0, 0, 0, 0, 0)


def strokes(text: str, shift_key: int = 42, control_key: int = 29) -> bytes:
    """The events of a keyboard that types a text, held keys among them; the separator as Ctrl-]."""
    codes = {char: (code, shift) for code, both in KEYS.items() if code < 71 and code != 15 for shift, char in enumerate(both)}
    out = b""
    for char in text:
        code, shifted = (27, False) if char == "\x1d" else codes[char]
        held = control_key if char == "\x1d" else shift_key if shifted and char not in " \r" else None
        out += key(held, 1) if held else b""
        out += key(code, 1) + key(code, 2) + key(code, 0)
        out += key(held, 0) if held else b""
    return out


def test_a_keyboard(tmp_path: Path) -> None:
    texts = [(text.decode(), wanted) for text, wanted in TEXTS if len(text) < 100 and all(byte == 29 or 32 <= byte < 127 for byte in text)]
    with keyboard(tmp_path) as (scanner, pipe):
        for number, (text, wanted) in enumerate(texts):
            pipe.write(strokes(text + "\r"))
            assert scanner.line() == f"{number} {wanted}\n"
        pipe.write(strokes("]C110AB") + key(66, 1) + key(66, 0) + strokes("21C\r"))
        assert scanner.line() == f"{len(texts)} ]C1 (10)AB(21)C\n"
        # By the right Shift and Ctrl.
        pipe.write(strokes("]C110AB\x1d21C\r", 54, 97))
        assert scanner.line() == f"{len(texts) + 1} ]C1 (10)AB(21)C\n"
        # Half an event, and its rest.
        sent = strokes("]E496385074\r")
        pipe.write(sent[:1001])
        time.sleep(0.1)
        pipe.write(sent[1001:])
        assert scanner.line() == f"{len(texts) + 2} ]E4 (01)00000096385074\n"
        pipe.write(strokes("]E496385074"))
        pipe.close()
        assert scanner.ended() == ("", f"{tmp_path}/event: unplugged\n", 0)


def by_numbers(text: str) -> bytes:
    """The events of a scanner in ALT mode: each character by its number on the keypad."""
    keypad = {"7": 71, "8": 72, "9": 73, "4": 75, "5": 76, "6": 77, "1": 79, "2": 80, "3": 81, "0": 82}
    return b"".join(key(56, 1) + b"".join(key(keypad[digit], 1) + key(keypad[digit], 0) for digit in f"{ord(char):03}") + key(56, 0)
                    for char in text)


def test_a_keyboard_that_types_numbers(tmp_path: Path) -> None:
    """Whatever its country: with Alt and the keypad, and digits of the keypad alone."""
    with keyboard(tmp_path) as (scanner, pipe):
        pipe.write(by_numbers("]C110AB\x1d21C") + strokes("\r"))
        assert scanner.line() == "0 ]C1 (10)AB(21)C\n"
        pipe.write(b"".join(key(code, 1) + key(code, 0) for code in (73, 77, 81, 72, 76, 82, 71, 75, 96)))
        assert scanner.line() == "1 - (01)00000096385074\n"


def test_a_keyboard_of_another_country(tmp_path: Path) -> None:
    """That of Germany has ] by AltGr and 9: the answer says so, and the next text is read."""
    with keyboard(tmp_path) as (scanner, pipe):
        pipe.write(key(100, 1) + key(10, 1) + key(10, 0) + key(100, 0) + strokes("E496385074\r"))
        assert scanner.line() == "0 unread: it types as a keyboard of another country: set the scanner to the United States, or to Alt and numbers\n"
        pipe.write(strokes("]E496385074\r"))
        assert scanner.line() == "1 ]E4 (01)00000096385074\n"


def test_keys_that_were_lost(tmp_path: Path) -> None:
    """The kernel had no room for them, and says so: that text is unread, and the next is read."""
    with keyboard(tmp_path) as (scanner, pipe):
        pipe.write(strokes("]E4963") + EVENT.pack(0, 0, 0, 3, 0) + strokes("74\r]E496385074\r"))
        assert scanner.line() == "0 unread: keys were lost: the machine was too busy\n"
        assert scanner.line() == "1 ]E4 (01)00000096385074\n"
        # Half the number of a character is lost with them.
        pipe.write(key(56, 1) + key(79, 1) + key(79, 0) + EVENT.pack(0, 0, 0, 3, 0) + strokes("\r") + by_numbers("]E496385074") + strokes("\r"))
        assert scanner.line() == "2 unread: keys were lost: the machine was too busy\n"
        assert scanner.line() == "3 ]E4 (01)00000096385074\n"


def test_what_is_typed_is_read_back() -> None:
    for text in ("9501101530003\r", "(01)09501101530003(10)a-Z/%\r", "\x1d^]\\`~\r"):
        assert Keyboard().typed(events_of(text)) == text.encode()


def test_a_device_that_cannot_be_taken_alone(tmp_path: Path) -> None:
    """What is no event device is not read, since what it types would go into a window too."""
    os.mkfifo(tmp_path / "event")
    with open(os.open(tmp_path / "event", os.O_RDWR), "wb"), Scanner(str(tmp_path / "event"), "--keyboard") as scanner:
        assert scanner.ended() == ("", f"{tmp_path}/event: Inappropriate ioctl for device\n", 1)


def test_a_keyboard_of_the_kernel(tmp_path: Path) -> None:
    """What is typed on a virtual keyboard is read, and goes nowhere else."""
    path = Path("/dev/uinput")
    if not (path.exists() and stat.S_ISCHR(path.stat().st_mode)):
        # Of the kernel here `zgrep UINPUT /proc/config.gz` says that it has none.
        pytest.skip("the kernel has no /dev/uinput")
    device = os.open(path, os.O_WRONLY)
    from noriladle._keys import make_keyboard
    make_keyboard(device)
    made = max(Path("/dev/input").glob("event*"), key=lambda it: it.stat().st_ctime)
    with Scanner(str(made)) as scanner:
        time.sleep(1)
        os.write(device, events_of("]E496385074\r"))
        assert scanner.line() == "0 ]E4 (01)00000096385074\n"
        with open(made, "rb") as other:
            os.set_blocking(other.fileno(), False)
            os.write(device, events_of("]E496385074\r"))
            assert scanner.line() == "1 ]E4 (01)00000096385074\n"
            assert other.read() is None
    os.close(device)


def test_the_typing_keyboard_is_not_there(tmp_path: Path) -> None:
    if Path("/dev/uinput").exists():
        pytest.skip("there is a /dev/uinput")
    with Serial.__new__(Serial) as scanner:
        ours, its = os.openpty()
        scanner.process = subprocess.Popen([*NORILADLE, "scanner", os.ttyname(its), "--type", "gtin"], stdout=subprocess.PIPE, stderr=subprocess.PIPE)
        assert scanner.ended() == ("", f"{os.ttyname(its)}: --type needs /dev/uinput (modprobe uinput): No such file or directory\n", 1)
        os.close(ours), os.close(its)


@pytest.mark.parametrize("words", [["no/such/device"], ["no/such/device", "--keyboard"], [__file__]])
def test_no_device(words: list[str]) -> None:
    with Scanner(*words) as scanner:
        out, error, status = scanner.ended()
        assert (out, status) == ("", 1) and error.startswith(f"{words[0]}: ")
