"""Inputs that fail or end at each byte, outputs that fail at each byte, and too little memory."""

import subprocess

import program
from program import Breaking, CommandTest, Ran, ran, ran_to, room_for
from rows import EAN8_ROW
from sheets import LOW, RECORD, image

GRID = "--module 1 --width 113 --height 3 --columns 1 --rows 1 --year 2026"
CHECK = "check --year 2026"
PRINT = f"print {GRID}"
LANES = "lanes --lanes 1 --workers 2 --year 2026"
SCAN = f"scan {GRID} --workers 2"

# In mebibytes.
ROOM = 40

IMAGE = image(LOW, 1, 0)
LINE = "0 0 ean13 (01)09501101530003\n"

# Commands with an input, and what they answer to its prefixes: to one the last that stands at its length or before it.
PREFIXES = [
    (CHECK, b"digit,12\ntext,10A\n", [
        (0, ""),
        (1, "record 0: refused 39 Csv"),
        (6, "refused 1 Length\n"),
        (7, "digit 7\n"),
        (8, "digit 3\n"),
        (10, "record 1: refused 39 Csv"),
        (14, "digit 3\nrefused 4 Empty\n"),
        (15, "digit 3\nrefused 5 UnknownAi 0\n"),
        (16, "digit 3\nrefused 6 ValueLength 0\n"),
        (17, "digit 3\nhri (10)A\n"),
    ]),
    (f"{PRINT} --text", RECORD.encode(), [
        (0, ""),
        (1, "record 0: refused 39 Csv"),
        (6, "record 0: refused 1 Length"),
        (14, "record 0: refused 3 CheckDigit"),
        (15, "record 0: refused 1 Length"),
        (18, "record 0: refused 3 CheckDigit"),
        (19, "0 0 ean13 (01)09501101530003\n"),
    ]),
    (LANES, b"0,1\n0,0 1 0\n", [
        (0, ""),
        (1, "record 0: refused 39 Csv"),
        (2, "record 0: refused 18 BadRuns"),
        (3, "0 0 refused 19 Blank\n"),
        (5, "record 1: refused 39 Csv"),
        (6, "record 1: refused 18 BadRuns"),
        (7, "0 0 refused 19 Blank\n0 1 refused 19 Blank\n"),
        (8, "record 1: refused 18 BadRuns"),
        (11, "0 0 refused 19 Blank\n0 1 refused 20 RunCount\n"),
    ]),
    (SCAN, 2 * IMAGE, [
        (0, ""),
        (1, "refused 30 Truncated"),
        (54, "0 0 ]E0 (01)09501101530003\n"),
        (55, "refused 30 Truncated"),
        (
            108,
            "0 0 ]E0 (01)09501101530003\n0 1 ]E0 (01)09501101530003\n",
        ),
    ]),
]

# The same with the output of the whole input, and `print` with images.
WHOLE = [(command, given, prefixes[-1][1].encode()) for command, given, prefixes in PREFIXES] + [
    (PRINT, RECORD.encode(), IMAGE),
]


class FailuresTest(CommandTest):
    def test_an_input_that_fails_at_any_byte_leaves_no_output(self) -> None:
        for command, given, _ in WHOLE:
            for count in range(len(given) + 1):
                with self.subTest(command, count=count), Breaking(given[:count]) as broken:
                    self.is_refused(ran(command, broken), "refused 37 ReadFault")

    def test_an_output_that_fails_at_any_byte_took_those_before_it(self) -> None:
        for command, given, output in WHOLE:
            for room in range(len(output)):
                with self.subTest(command, room=room):
                    self.is_refused(ran_to(room, command, given), "refused 38 WriteFault", output[:room])
            self.assertEqual(ran_to(len(output), command, given).outcome(), (0, output, ""))

    def test_an_input_that_ends_at_any_byte_is_answered(self) -> None:
        for command, given, prefixes in PREFIXES:
            for count in range(len(given) + 1):
                wanted = [answer for least, answer in prefixes if least <= count][-1]
                with self.subTest(command, count=count):
                    self.gives(command, given[:count], wanted)

    def test_an_input_that_comes_byte_by_byte(self) -> None:
        for command, given, output in WHOLE:
            it = subprocess.Popen(
                [program.PATH, *command.split()],
                bufsize=0,
                stdin=subprocess.PIPE,
                stdout=subprocess.PIPE,
                stderr=subprocess.PIPE,
            )
            for place in range(len(given)):
                it.stdin.write(given[place : place + 1])
            self.assertEqual((*it.communicate(timeout=program.SECONDS), it.returncode), (output, b"", 0))

    def test_a_full_output(self) -> None:
        for command, given, _ in WHOLE:
            with open("/dev/full", "wb") as full:
                it = ran(command, given, stdout=full)
            self.assertEqual((it.status, it.error), (1, b"refused 38 WriteFault\n"))

    def test_an_output_of_failures_and_answers(self) -> None:
        for command, given, output in [
            (LANES, b"0,1\n0,0 1 0\n", b"0 0 refused 19 Blank\n0 1 refused 20 RunCount\n"),
            (CHECK, b"digit,12\ngtin,12\ntext,10AB^21C\n", b"digit 3\nrefused 1 Length\nhri (10)AB(21)C\n"),
            (PRINT, RECORD.encode(), IMAGE),
            (f"{PRINT} --text", RECORD.encode(), LINE.encode()),
        ]:
            self.assertEqual(ran_to(100, command, given).outcome(), (0, output, ""))
            self.is_refused(ran_to(25, command, given), "refused 38 WriteFault", output[:25])

    def test_an_input_without_end(self) -> None:
        for command in [CHECK, PRINT, f"{PRINT} --text", LANES]:
            with open("/dev/zero", "rb") as zeros:
                self.is_refused(ran(command, zeros), "refused 44 InputSize")

    def limited(self, command: str, given: bytes, mebibytes: int) -> Ran:
        """A run with this much room."""
        return ran(command, given, **room_for(mebibytes))

    def test_too_little_memory(self) -> None:
        # 15 MB of records do not go into 8 MiB.
        records = 1_500_000 * b"digit,123\n"
        self.is_refused(self.limited(CHECK, records, 8), "refused 43 NoMemory")

    def test_memory_of_what_is_held(self) -> None:
        # One row takes 12 MiB, a thread's stack of 8 MiB among them. If all of these 16 MB were held, 20 MiB would be too little.
        rows = 4_000 * (b"0," + 1_998 * b"1 " + b"1\n")
        lines = "".join(f"0 {number} refused 20 RunCount\n" for number in range(4_000))
        sheets = 15 * (b"P4\n2240 3840\n" + bytes(2_240 // 8 * 3_840))
        scan = "scan --module 2 --width 560 --height 120 --columns 4 --rows 32 --workers 1 --year 2026"
        cells = "".join(f"{column} {number} refused 19 Blank\n" for column in range(4) for number in range(15 * 32))
        options = "--lanes 1 --workers 1 --year 2026"
        for command, given, output in [(f"lanes {options}", rows, lines), (f"live {options}", rows, lines), (scan, sheets, cells)]:
            with self.subTest(command):
                self.assertEqual(self.limited(command, given, 20).outcome(), (0, output.encode(), ""))

    def test_an_image_takes_the_memory_of_its_bytes(self) -> None:
        # Its header announces 512 MiB, and no byte of them comes.
        self.is_refused(self.limited(f"scan {GRID} --workers 1", b"P4 65535 65535 ", ROOM), "refused 30 Truncated")

    def test_a_thread_for_each_worker(self) -> None:
        # There is room for a thread, and none for sixteen.
        for command, given, output in [
            ("lanes --lanes 1 --year 2026", f"0,{EAN8_ROW}\n".encode(), "0 0 ]E4 (01)00000096385074\n"),
            (f"scan {GRID}", IMAGE, "0 0 ]E0 (01)09501101530003\n"),
        ]:
            with self.subTest(command):
                it = self.limited(f"{command} --workers 1", given, ROOM)
                self.assertEqual(it.outcome(), (0, output.encode(), ""))
                it = self.limited(f"{command} --workers 16", given, ROOM)
                self.is_refused(it, "refused 36 NoThread")

    def test_an_output_of_many_writes(self) -> None:
        # Eight images of 32,779 bytes, which are written in parts of at most 65,536.
        command = "print --module 8 --width 4096 --height 64 --columns 1 --rows 1 --year 2026"
        given = 8 * RECORD.encode()
        output = ran(command, given).output
        self.assertEqual(len(output), 8 * (len("P4\n4096 64\n") + 512 * 64))
        for room in [1, 65_535, 65_536, 65_537, 131_072, 200_000, len(output) - 1]:
            with self.subTest(room=room):
                self.is_refused(ran_to(room, command, given), "refused 38 WriteFault", output[:room])
        self.assertEqual(ran_to(len(output), command, given).outcome(), (0, output, ""))
