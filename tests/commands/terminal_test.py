"""What a person sees if standard error is a terminal: after an error its cause and what to do, as docs/FAULTS.md says it,
and after refused words what clap says of them. Where standard error is no terminal, the one line stands alone."""

from __future__ import annotations

import os
import re
import subprocess
import tty
from typing import Any

import program
from program import CommandTest, ran, room_for
from rows import EAN8_ROW
from sheets import LOW, RECORD, image

GRID = "--module 1 --width 113 --height 3 --columns 1 --rows 1 --year 2026"
CHECK = "check --year 2026"
PRINT = f"print {GRID}"
LANES = "lanes --lanes 3 --workers 1 --year 2026"
SCAN = f"scan {GRID} --workers 1"

# A command with an input that provokes each refusal of a whole input, and the line of it.
REFUSALS = [
    (PRINT, b"ean13,123", "record 0: refused 1 Length"),
    (PRINT, b"ean13,950110153000X", "record 0: refused 2 NotDigit 12"),
    (PRINT, b"ean13,9501101530004", "record 0: refused 3 CheckDigit"),
    (PRINT, b"gs1128,", "record 0: refused 4 Empty"),
    (PRINT, b"gs1128,10AB^^21C", "record 0: refused 5 UnknownAi 5"),
    (PRINT, b"gs1128,0109501101530", "record 0: refused 6 ValueLength 0"),
    (PRINT, b"gs1128,10A#", "record 0: refused 7 ValueCharacter 0"),
    (PRINT, b"gs1128,0109501101530004", "record 0: refused 8 ValueCheckDigit 0"),
    (PRINT, b"gs1128,17250229", "record 0: refused 9 ValueDate 0"),
    (PRINT, b"gs1128,4225281", "record 0: refused 10 MissingSeparator 0"),
    (PRINT, b"gs1128," + 193 * b"1", "record 0: refused 11 TooLong"),
    (LANES, b"0,0\n0,65536", "record 1: refused 17 TooWide"),
    (LANES, b"0,5 3", "record 0: refused 18 BadRuns"),
    (PRINT.replace("--height 3", "--height 2"), b"", "refused 25 BadGrid"),
    (PRINT, b"upce,9501101530003", "refused 26 LabelKind 0"),
    (PRINT.replace("--width 113", "--width 112"), RECORD.encode(), "refused 27 LabelWidth 0"),
    (SCAN, b"P1", "refused 28 NotP4"),
    (SCAN, b"P4\nx", "refused 29 PbmHeader"),
    (SCAN, image(LOW, 1, 0)[:-1], "refused 30 Truncated"),
    (SCAN, b"P4\n0 2\n", "refused 31 PbmSize"),
    (CHECK, b"0", "record 0: refused 39 Csv"),
    (CHECK, b"sku,1", "record 0: refused 40 Kind"),
    (LANES, b"3,100", "record 0: refused 41 BadLane"),
]

# Words that are refused, and what clap says of them: the word, and what it expected.
WORDS = [
    ("", ["Usage: ", "<COMMAND>"]),
    ("chekc", ["error: ", "'chekc'", "'check'"]),
    ("check", ["error: ", "--year <YEAR>", "Usage: "]),
    ("check --yaer 2026", ["error: ", "'--yaer'", "'--year'"]),
    ("check --year 1950", ["error: ", "'1950'", "'--year <YEAR>'", "1951..=2149"]),
    ("check --year twenty", ["error: ", "'twenty'", "'--year <YEAR>'"]),
    ("check --year 2026 --year 2027", ["error: ", "'--year <YEAR>'", "multiple times"]),
    ("check --year", ["error: ", "'--year <YEAR>'"]),
    ("check --year 2026 more", ["error: ", "'more'"]),
    ("check --year 2026 --ais every", ["error: ", "'every'", "'--ais <AIS>'", "profile, all"]),
    ("check --year 2026 --ais all --ais all", ["error: ", "'--ais <AIS>'", "multiple times"]),
    ("lanes --lanes 17 --workers 1 --year 2026", ["error: ", "'17'", "'--lanes <COUNT>'", "1..=16"]),
    ("print --text=yes --year 2026", ["error: ", "'yes'", "'--text'"]),
]


def remedies() -> dict[str, str]:
    """What docs/FAULTS.md says of each number: the cause, and what to do."""
    with open(os.path.join(os.path.dirname(__file__), "..", "..", "docs", "FAULTS.md"), encoding="utf-8") as it:
        rows = re.findall(r"^\| (\d+) [A-Z][A-Za-z0-9()]* \| ([^|]*) \| ([^|]*) \|", it.read(), re.MULTILINE)
    found: dict[str, str] = {}
    for number, cause, remedy in rows:
        found.setdefault(number, re.sub(r"\[([^]]*)\]\([^)]*\)", r"\1", f"{cause}: {remedy}".replace("`", "")))
    return found


def at_a_terminal(command: str, given: program.Given, **how: Any) -> tuple[int, bytes | None, str]:
    """The exit status, the output and what a terminal shows, where standard error is one."""
    ours, theirs = os.openpty()
    tty.setraw(theirs)
    try:
        how.setdefault("stdout", subprocess.PIPE)
        how["input" if isinstance(given, bytes) else "stdin"] = given
        words = [program.PATH, *command.split()]
        it = subprocess.run(words, stderr=theirs, timeout=program.SECONDS, **how)
    finally:
        os.close(theirs)
    shown = b""
    try:
        while part := os.read(ours, 65536):
            shown += part
    except OSError:
        pass
    os.close(ours)
    return it.returncode, it.stdout, shown.decode()


class TerminalTest(CommandTest):
    def test_refusals_with_what_to_do(self) -> None:
        said = remedies()
        for command, given, line in REFUSALS:
            with self.subTest(line):
                number = re.search(r"refused (\d+)", line)[1]
                self.assertEqual(at_a_terminal(command, given), (1, b"", f"{line}\n{said[number]}\n"))
                self.is_refused(ran(command, given), line)

    def test_what_the_machine_refuses(self) -> None:
        said = remedies()
        folder = os.open("/", os.O_RDONLY)
        with open("/dev/full", "wb") as full, open("/dev/zero", "rb") as zeros:
            cases: list[tuple[str, program.Given, dict[str, Any], str]] = [
                (CHECK, folder, {}, "refused 37 ReadFault"),
                (CHECK, b"digit,12", {"stdout": full}, "refused 38 WriteFault"),
                ("--help", b"", {"stdout": full}, "refused 38 WriteFault"),
                (LANES.replace("--workers 1", "--workers 16"), f"0,{EAN8_ROW}".encode(), room_for(40), "refused 36 NoThread"),
                (CHECK, 1_500_000 * b"digit,123\n", room_for(8), "refused 43 NoMemory"),
                (CHECK, zeros, {}, "refused 44 InputSize"),
            ]
            for command, given, how, line in cases:
                with self.subTest(line):
                    number = re.search(r"refused (\d+)", line)[1]
                    status, _, shown = at_a_terminal(command, given, **how)
                    self.assertEqual((status, shown), (1, f"{line}\n{said[number]}\n"))
        os.close(folder)

    def test_words_with_what_clap_says(self) -> None:
        for command, wanted in WORDS:
            with self.subTest(command):
                status, output, shown = at_a_terminal(command, b"")
                line, _, said = shown.partition("\n")
                self.assertEqual((status, output, line), (2, b"", "refused 42 Words"))
                for part in wanted:
                    self.assertIn(part, said)
                self.assertEqual(ran(command, b"").outcome(), (2, b"", "refused 42 Words\n"))

    def test_what_is_not_refused(self) -> None:
        for command, given in [(CHECK, b"digit,12\ngtin,1"), ("--help", b""), ("check --help", b""), ("--version", b"")]:
            with self.subTest(command):
                it = ran(command, given)
                self.assertEqual(it.error, b"")
                self.assertEqual(at_a_terminal(command, given), (0, it.output, ""))
