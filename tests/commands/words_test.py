"""Command lines: what they ask for, which are refused, and which ask for help."""

from __future__ import annotations

import os
import re

from program import CommandTest, ran, ran_to
from sheets import LOW, RECORD, image

with open(os.path.join(os.path.dirname(__file__), "..", "..", "VERSION"), encoding="utf-8") as it:
    VERSION = rf"gs1_hub {re.escape(it.read().strip())} \(sources [0-9a-f]{{12}}, rattle logic dac8208d650f15bf\)\n"

YEAR = "--year <YEAR> Reference year 1951 to 2149"
AIS = "--ais <AIS> AIs profile all GS1 General Specifications [default: profile] [possible values: profile, all]"
WORKERS = "--workers <COUNT> workers 1 to 16"
GRID = [
    "--module <DOTS> module 1 to 8 dots",
    "--width <DOTS> cell 1 to 4096 dots",
    "--height <DOTS> cell 1 to 1024 dots",
    "--columns <COUNT> Cells sheet 1 to 16",
    "--rows <COUNT> Cells sheet 1 to 64",
]


class WordsTest(CommandTest):
    def test_words_in_any_order(self) -> None:
        label = image(LOW, 1, 0)
        for words, given, wanted in [
            ("lanes --lanes 3 --workers=16 --year 2026", b"2,0", b"2 0 refused 19 Blank\n"),
            ("lanes --year 1951 --workers 1 --lanes 16", b"15,0", b"15 0 refused 19 Blank\n"),
            ("live --lanes 3 --workers=16 --year 2026", b"2,0", b"2 0 refused 19 Blank\n"),
            ("live --elements --year 1951 --workers 1 --lanes 16", b"15,0", b"15 0 refused 19 Blank\n"),
            ("live --lanes=1 --elements --workers 1 --year=2149", b"1,0", b"- - refused 41 BadLane\n"),
            ("check --year 2149", b"digit,12", b"digit 3\n"),
            ("check --year=1951", b"digit,12", b"digit 3\n"),
            ("print --rows 1 --year 2026 --columns=1 --height 3 --width 113 --module 1", RECORD.encode(), label),
            (
                "print --text --year=1951 --rows 16 --columns 4 --height 1024 --width 4096 --module 8",
                RECORD.encode(),
                b"0 0 ean13 (01)09501101530003\n",
            ),
            (
                "print --module 2 --width 226 --text --height 5 --columns 1 --rows 1 --year 2149",
                RECORD.encode(),
                b"0 0 ean13 (01)09501101530003\n",
            ),
            (
                "scan --workers=16 --year=1951 --rows 1 --columns 1 --height 3 --width 113 --module 1",
                label,
                b"0 0 ]E0 (01)09501101530003\n",
            ),
        ]:
            with self.subTest(words):
                self.assertEqual(ran(words, given).outcome(), (0, wanted, ""))

    def test_the_ends_of_ranges(self) -> None:
        for words in [
            "print --module 8 --width 4096 --height 256 --columns 4 --rows 64 --year 2149",
            "print --module 1 --width 1024 --height 1024 --columns 16 --rows 16 --year 1951",
            "scan --module 8 --width 4096 --height 1024 --columns 1 --rows 16 --workers 16 --year 2149",
            "scan --module 1 --width 1024 --height 3 --columns 16 --rows 64 --workers 1 --year 1951",
            "lanes --lanes 16 --workers 16 --year 2149",
            "live --lanes 16 --workers 16 --year 2149",
            "live --lanes 1 --workers 1 --year 1951 --elements",
        ]:
            with self.subTest(words):
                self.assertEqual(ran(words, b"").outcome(), (0, b"", ""))

    def are_refused(self, command: str, options: list[str]) -> None:
        """That the program refuses each of these words of a command."""
        for words in options:
            with self.subTest(words):
                it = ran(f"{command} {words}", b"")
                self.assertEqual(it.outcome(), (2, b"", "refused 42 Words\n"))

    def test_refused_words(self) -> None:
        self.are_refused("", [
            "",
            "gs1_hub",
            "gs1_hub check --year 2026",
            "Check --year 2026",
            "checks --year 2026",
            "help",
            "print",
            "check",
            "check --year 1950",
            "check --year 2150",
            "check --year 2026 --lanes 1",
            "lanes",
            "lanes --lanes 1 --workers 1",
            "lanes --lanes 0 --workers 1 --year 2026",
            "lanes --lanes 17 --workers 1 --year 2026",
            "lanes --lanes 1 --workers 17 --year 2026",
            "lanes --lanes 1 --workers 1 --year 1950",
            "lanes --lanes 1 --workers 1 --year 2150",
            "lanes --lanes 1 --lanes 1 --workers 1 --year 2026",
            "lanes --lanes 1 --workers 1 --year 2026 more",
            "live",
            "live --lanes 1 --workers 1",
            "live --lanes 1 --year 2026",
            "live --workers 1 --year 2026",
            "live --lanes 0 --workers 1 --year 2026",
            "live --lanes 17 --workers 1 --year 2026",
            "live --lanes 1 --workers 0 --year 2026",
            "live --lanes 1 --workers 17 --year 2026",
            "live --lanes 1 --workers 1 --year 1950",
            "live --lanes 1 --workers 1 --year 2150",
            "live --lanes 1 --lanes 1 --workers 1 --year 2026",
            "live --lanes 1 --workers 1 --year 2026 --elements --elements",
            "live --lanes 1 --workers 1 --year 2026 --elements 1",
            "live --lanes 1 --workers 1 --year 2026 --text",
            "live --lanes 1 --workers 1 --year 2026 more",
            "lanes --lanes 1 --workers 1 --year 2026 --elements",
            "print --module 1 --width 113 --height 3 --columns 1 --rows 1",
            "print --module 9 --width 113 --height 3 --columns 1 --rows 1 --year 2026",
            "print --module 1 --width 4097 --height 3 --columns 1 --rows 1 --year 2026",
            "print --module 1 --width 113 --height 0 --columns 1 --rows 1 --year 2026",
            "print --module 1 --width 113 --height 3 --columns 17 --rows 1 --year 2026",
            "print --module 1 --width 113 --height 3 --columns 1 --rows 65 --year 2026",
            "print --module 1 --width 113 --height 3 --columns 1 --rows 1 --year 2150",
            "print --module 1 --width 113 --height 3 --columns 1 --rows 1 --year 2026 --text 1",
        ])

    def test_refused_words_of_scan(self) -> None:
        self.are_refused("scan", [
            "",
            " --width 113 --height 3 --columns 1 --rows 1 --workers 1 --year 2026",
            " --module 1 --height 3 --columns 1 --rows 1 --workers 1 --year 2026",
            " --module 1 --width 113 --columns 1 --rows 1 --workers 1 --year 2026",
            " --module 1 --width 113 --height 3 --rows 1 --workers 1 --year 2026",
            " --module 1 --width 113 --height 3 --columns 1 --workers 1 --year 2026",
            " --module 1 --width 113 --height 3 --columns 1 --rows 1 --year 2026",
            " --module 1 --width 113 --height 3 --columns 1 --rows 1 --workers 1",
            " --module 0 --width 113 --height 3 --columns 1 --rows 1 --workers 1 --year 2026",
            " --module 1 --width 0 --height 3 --columns 1 --rows 1 --workers 1 --year 2026",
            " --module 1 --width 113 --height 1025 --columns 1 --rows 1 --workers 1 --year 2026",
            " --module 1 --width 113 --height 3 --columns 17 --rows 1 --workers 1 --year 2026",
            " --module 1 --width 113 --height 3 --columns 1 --rows 65 --workers 1 --year 2026",
            " --module 1 --width 113 --height 3 --columns 1 --rows 1 --workers 0 --year 2026",
            " --module 1 --width 113 --height 3 --columns 1 --rows 1 --workers 17 --year 2026",
            " --module 1 --width 113 --height 3 --columns 1 --rows 1 --workers 1 --year 2150",
            " --module 1 --width 113 --height 3 --columns 1 --rows 1 --workers 1 --year 2026 more",
            " --module 1 --width 113 --height 3 --columns 1 --rows 1 --workers 1 --year 2026 --text",
        ])

    def test_refused_numbers_of_a_grid(self) -> None:
        for module, width, height, columns, rows, year in [
            (0, 1, 1, 1, 1, 2026),
            (9, 1, 1, 1, 1, 2026),
            (1, 0, 1, 1, 1, 2026),
            (1, 4097, 1, 1, 1, 2026),
            (1, 1, 0, 1, 1, 2026),
            (1, 1, 1025, 1, 1, 2026),
            (1, 1, 1, 0, 1, 2026),
            (1, 1, 1, 17, 1, 2026),
            (1, 1, 1, 1, 0, 2026),
            (1, 1, 1, 1, 65, 2026),
            (1, 1, 1, 1, 1, 1950),
            (1, 1, 1, 1, 1, 2150),
        ]:
            grid = f"--module {module} --width {width} --height {height} --columns {columns} --rows {rows} --year {year}"
            self.are_refused("print", [grid, f"{grid} --text"])
            self.are_refused("scan", [f"{grid} --workers 1"])
        grid = "--module 1 --width 1 --height 1 --columns 1 --rows 1 --year 2026"
        self.are_refused("scan", [f"{grid} --workers 0", f"{grid} --workers 17", f"{grid} --workers 255"])

    def help_of(self, words: str) -> str:
        """The help that these words ask for."""
        it = ran(words, b"")
        self.assertEqual((it.status, it.error), (0, b""))
        return it.output.decode()

    def test_units_and_ranges(self) -> None:
        for command, options in [
            ("check", [YEAR, AIS]),
            ("lanes", ["--lanes <COUNT> lanes 1 to 16", WORKERS, YEAR, AIS]),
            ("live", ["--lanes <COUNT> lanes 1 to 16", WORKERS, YEAR, AIS, "--elements element AI value"]),
            ("print", [*GRID, YEAR, AIS, "--text line label"]),
            ("scan", [*GRID, WORKERS, YEAR, AIS]),
        ]:
            lines = self.help_of(f"{command} --help").split("\n")
            for option in options:
                with self.subTest(command=command, option=option):
                    self.assertTrue(any(all(word in line for word in option.split()) for line in lines))

    def test_examples(self) -> None:
        for command in ["check", "lanes", "live", "print", "scan"]:
            shown = self.help_of(f"{command} --help")
            self.assertRegex(shown, rf"(?m)^  \$ .*gs1_hub {re.escape(command)} --")
            self.assertEqual(self.help_of(f"{command} -h"), shown)

    def test_help_of_the_program(self) -> None:
        shown = self.help_of("--help")
        for part in ["check", "print", "lanes", "scan", "live", "--help", "--version", "Exit status"]:
            self.assertIn(part, shown)

    def test_the_version(self) -> None:
        for words in ["--version", "-V"]:
            status, output, error = ran(words, b"").outcome()
            self.assertEqual((status, error), (0, ""))
            self.assertRegex(output.decode(), rf"^{VERSION}$")
        self.is_refused(ran_to(7, "--version", b""), "refused 38 WriteFault", b"gs1_hub")
