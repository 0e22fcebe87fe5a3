"""Which AIs each command accepts: those of the profile, or with `--ais all` every one of the GS1 General Specifications.

AI 235 has a value of at most 28 characters and 716 one of at most 20, both of GS1's set of 82; neither is of the profile.
"""

from __future__ import annotations

from code128 import C, FNC1, encoded, row, symbol
from program import CommandTest, ran
from sheets import dots_of, packed

# The options of each command, without `--ais`.
GRID = "--module 1 --width 160 --height 3 --columns 1 --rows 1"
COMMANDS = {
    "check": "--year 2026",
    "print": f"{GRID} --year 2026 --text",
    "lanes": "--lanes 1 --workers 1 --year 2026",
    "scan": f"{GRID} --workers 1 --year 2026",
    "live": "--lanes 1 --workers 1 --year 2026",
}

# Element strings beyond the profile with their elements, and where the first AI stands that is not of it.
BEYOND = [
    ("235ABC", "(235)ABC", 0),
    ("716AB/1", "(716)AB/1", 0),
    ("10A^235B", "(10)A(235)B", 4),
]

# What both take, and what both refuse.
ALIKE = [
    ("10A^17261231", "(10)A(17)261231"),
    ("10A^17261331", "refused 9 ValueDate 4"),
    ("10A^^235B", "refused 5 UnknownAi 4"),
    ("9991", "(99)91"),
]


def groups(text: str) -> str:
    """The widths of the symbol of an element string."""
    return symbol(C, [FNC1, *encoded(text)])


def scanned(text: str) -> bytes:
    """An image of a cell of 160 by 3 dots with this symbol in its middle row."""
    light = packed(160 * "0")
    return b"P4\n160 3\n" + light + packed(dots_of(10, groups(text), 160)) + light


def widths(text: str) -> bytes:
    """A record of lane 0 with the row of this symbol."""
    return f"0,{' '.join(map(str, row(groups(text))))}\n".encode()


class AisTest(CommandTest):
    def answers(self, command: str, given: bytes | str, line: str) -> None:
        """That the profile gives this line, left out or asked for."""
        for ais in ["", " --ais profile", " --ais=profile"]:
            with self.subTest(command=command, ais=ais):
                self.gives(f"{command} {COMMANDS[command]}{ais}", given, line)

    def every(self, command: str, given: bytes | str, line: str) -> None:
        """That every AI gives this line, wherever the option stands."""
        for words in [f"{command} --ais all {COMMANDS[command]}", f"{command} {COMMANDS[command]} --ais=all"]:
            with self.subTest(words):
                self.gives(words, given, line)

    def test_beyond_the_profile(self) -> None:
        for text, elements, place in BEYOND:
            refused = f"refused 5 UnknownAi {place}"
            for command, given, ending in [
                ("check", f"text,{text}\n".encode(), "{}\n"),
                ("lanes", widths(text), "0 0 {}\n"),
                ("live", widths(text), "0 0 {}\n"),
                ("scan", scanned(text), "0 0 {}\n"),
            ]:
                self.answers(command, given, ending.format(refused))
                prefix = "hri " if command == "check" else "]C1 "
                self.every(command, given, ending.format(prefix + elements))
            message = f"0,]C1{text}\n".encode()
            self.answers("live", message, f"0 - {refused}\n")
            self.every("live", message, f"0 - ]C1 {elements}\n")
            label = f"gs1128,{text}\n".encode()
            self.answers("print", label, f"record 0: {refused}")
            self.every("print", label, f"0 0 gs1128 {elements}\n")

    def test_a_printed_label(self) -> None:
        words = f"print {GRID} --year 2026 --ais all"
        self.assertEqual(ran(words, b"gs1128,235ABC\n").output[:9], b"P4\n160 3\n")
        self.every("scan", ran(words, b"gs1128,235ABC\n").output, "0 0 ]C1 (235)ABC\n")

    def test_elements_of_every_ai(self) -> None:
        words = f"live {COMMANDS['live']} --elements --ais all"
        self.gives(words, b"0,]C110A^235B\n", "0 - ]C1 10=A\t235=B\n")

    def test_what_the_profile_reads_every_ai_reads_the_same(self) -> None:
        for text, answer in ALIKE:
            line = answer if answer.startswith("refused") else f"hri {answer}"
            self.answers("check", f"text,{text}\n", f"{line}\n")
            self.every("check", f"text,{text}\n", f"{line}\n")

    def test_refused_words(self) -> None:
        for command, options in COMMANDS.items():
            for ais in [
                "--ais",
                "--ais=",
                "--ais every",
                "--ais All",
                "--ais 407",
                "--ais all --ais all",
                "--ais profile --ais all",
                "--ais all profile",
                "--ai all",
                "-a all",
            ]:
                with self.subTest(command=command, ais=ais):
                    it = ran(f"{command} {options} {ais}", b"")
                    self.assertEqual(it.outcome(), (2, b"", "refused 42 Words\n"))
