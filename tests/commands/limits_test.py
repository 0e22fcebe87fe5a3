"""The greatest numbers that are taken, and one past each."""

from code128 import C, FNC1, encoded, row, symbol
from program import CommandTest
from rows import EAN8_ROW, RowTest, runs
from sheets import LABEL, LOW, grid, image
from symbols import EAN8, EAN13, ITF14, UPCE

SCAN = "scan --module 1 --width 113 --height 3 --columns 1 --rows 1 --workers 2 --year 2026"


class TextsTest(CommandTest):
    def test_48_elements(self) -> None:
        self.gives_lines("check --year 2026", [
            ("text," + 48 * "2007", "hri " + 48 * "(20)07"),
            ("text," + 49 * "2007", "refused 11 TooLong"),
        ])

    def test_192_bytes_count_separators(self) -> None:
        text = 38 * "2007^"
        self.gives_lines("check --year 2026", [
            (f"text,{text}20", "refused 6 ValueLength 190"),
            (f"text,{text}200", "refused 11 TooLong"),
            (f"text,{text[5:]}2007^", "hri " + 38 * "(20)07"),
        ])

    def test_192_bytes_of_a_label(self) -> None:
        command = grid(600, 3, 1, 1) + " --text"
        self.gives(command, "gs1128," + 48 * "2007", "refused 26 LabelKind 0")
        self.gives(command, "gs1128," + 48 * "2007" + "2", "record 0: refused 11 TooLong")

    def test_48_characters_of_a_label(self) -> None:
        # As they are printed: separators that are needed count, and others do not.
        command = grid(600, 3, 1, 1) + " --text"
        for text, hri in [
            ("91" + 46 * "7", "(91)" + 46 * "7"),
            ("91" + 47 * "7", None),
            (12 * "2007", 12 * "(20)07"),
            (12 * "2007^", 12 * "(20)07"),
            (11 * "2007" + "30123", None),
            ("10A^91" + 42 * "z", "(10)A(91)" + 42 * "z"),
            ("10A^91" + 43 * "z", None),
            ("2007^91" + 42 * "z", "(20)07(91)" + 42 * "z"),
            ("2007^91" + 43 * "z", None),
            ("91" + 46 * "z" + "^", "(91)" + 46 * "z"),
        ]:
            with self.subTest(text):
                if hri:
                    self.gives(command, f"gs1128,{text}", f"0 0 gs1128 {hri}\n")
                else:
                    self.gives(command, f"gs1128,{text}", "refused 26 LabelKind 0")


class RowsTest(RowTest):
    def test_the_numbers_of_runs(self) -> None:
        # Runs of nine dots are no number of modules of an EAN-13 or a UPC-E, and two modules of a GS1-128. ITF-14, with 77
        # runs, has widths of its own.
        wanted = {33: "refused 22 Modules", 59: "refused 22 Modules"}
        wanted.update((6 * k + 7, "refused 23 Pattern") for k in range(3, 99))
        self.reads([
            ([100, *count * [9], 100], wanted.get(count, "refused 20 RunCount"))
            for count in range(1, 1_001, 2)
            if count != 77
        ])

    def test_light_ends_of_five_modules(self) -> None:
        cases = []
        for groups, answer in [
            (EAN13[3][1], f"]E0 (01)0{EAN13[3][0]}"),
            (UPCE[6][2], f"]E0 (01)00{UPCE[6][1]}"),
            (ITF14[2][1], f"]I1 (01){ITF14[2][0]}"),
            (symbol(C, [FNC1, *encoded("0109501101530003")]), "]C1 (01)09501101530003"),
        ]:
            for dots in [1, 3]:
                inner = runs(groups, dots)
                wide, low = 5 * dots, 5 * dots - 1
                cases.append(([wide, *inner, wide], answer))
                for left, right in [(low, wide), (wide, low), (0, wide), (wide, 0), (low, 100)]:
                    cases.append(([left, *inner, right], "refused 21 QuietZone"))
        self.reads(cases)

    def test_light_ends_of_ean8(self) -> None:
        # A row of as many runs as a GS1-128 of 79 modules has, whose light ends are wide enough from 13 dots on: then it is
        # the widths that this one lacks.
        number, groups = EAN8[1]
        self.reads([
            ([left, *runs(groups, dots), right], answer)
            for dots, left, right, answer in [
                (1, 5, 5, f"]E4 (01)000000{number}"),
                (1, 4, 5, "refused 21 QuietZone"),
                (3, 15, 15, f"]E4 (01)000000{number}"),
                (3, 14, 15, "refused 22 Modules"),
                (3, 13, 13, "refused 22 Modules"),
                (3, 12, 15, "refused 21 QuietZone"),
            ]
        ])

    def test_16_lanes(self) -> None:
        command = "lanes --lanes 16 --workers 16 --year 2026"
        self.gives(command, f"15,{EAN8_ROW}\n0,0\n", "0 0 refused 19 Blank\n15 0 ]E4 (01)00000096385074\n")
        self.gives(command, f"15,{EAN8_ROW}\n16,0\n", "record 1: refused 41 BadLane")

    def test_16777216_bytes_of_records(self) -> None:
        for command in ["lanes --lanes 1 --workers 1 --year 2026", grid(113, 3, 1, 1), grid(113, 3, 1, 1) + " --text"]:
            with self.subTest(command):
                self.gives(command, 16_777_216 * b"\n", "")
                self.gives(command, 16_777_217 * b"\n", "refused 44 InputSize")


class SheetsTest(CommandTest):
    def test_16384_dots_of_a_sheet(self) -> None:
        for width, height, columns, rows, wanted in [
            (1024, 3, 16, 1, ""),
            (4096, 3, 4, 1, ""),
            (3276, 3, 5, 1, ""),
            (3277, 3, 5, 1, "refused 25 BadGrid"),
            (4096, 3, 5, 1, "refused 25 BadGrid"),
            (113, 1024, 1, 16, ""),
            (113, 256, 1, 64, ""),
            (113, 564, 1, 29, ""),
            (113, 565, 1, 29, "refused 25 BadGrid"),
            (113, 1024, 1, 17, "refused 25 BadGrid"),
        ]:
            with self.subTest(width=width, height=height):
                self.gives(grid(width, height, columns, rows), b"", wanted)
                words = f"--module 1 --width {width} --height {height} --columns {columns} --rows {rows}"
                self.gives(f"scan {words} --workers 1 --year 2026", b"", wanted)

    def test_4096_bytes_of_a_header(self) -> None:
        line = "0 0 ]E0 (01)09501101530003\n"
        for count, wanted in [(4096, line), (4097, "refused 29 PbmHeader"), (5000, "refused 29 PbmHeader")]:
            for front, after in [(b"P4\n#", b"\n113 3\n"), (b"P4 113#", b"\r3 "), (b"P4\t113 #", b"\n3\r")]:
                with self.subTest(count=count, front=front):
                    header = front + (count - len(front) - len(after)) * b"c" + after
                    self.gives(SCAN, header + LABEL, wanted)
            for header in [b"P4 113" + (count - 8) * b" " + b"3 ", b"P4 %0*d 3 " % (count - 6, 113)]:
                with self.subTest(count=count, front=header[:8]):
                    self.assertEqual(len(header), count)
                    self.gives(SCAN, header + LABEL, wanted)

    def test_the_header_counts_for_each_image(self) -> None:
        header = b"P4\n#" + 4_086 * b"c" + b"\n113 3\n"
        self.assertEqual(len(header), 4_097)
        self.gives(SCAN, image(LOW, 1, 0) + header + LABEL, "refused 29 PbmHeader")
        header = header.replace(b"cc", b"c", 1)
        lines = "".join(f"0 {number} ]E0 (01)09501101530003\n" for number in range(3))
        self.gives(SCAN, 3 * (header + LABEL), lines)

    def test_4096_images(self) -> None:
        command = SCAN.replace("--width 113", "--width 1")
        images = 4_096 * b"P4\n1 3\n\0\0\0"
        lines = [f"0 {number} refused 19 Blank\n" for number in range(4_096)]
        self.writes_lines(command, images, lines)
        for more in [b"P4\n1 3\n\0\0\0", b"P", b"x", b"\n"]:
            self.gives(command, images + more, "refused 31 PbmSize")

    def test_65535_dots_of_an_image(self) -> None:
        for size, wanted in [
            ("65535 1", "refused 30 Truncated"),
            ("65536 1", "refused 31 PbmSize"),
            ("1 65535", "refused 30 Truncated"),
            ("1 65536", "refused 31 PbmSize"),
            ("99999999999999999999 1", "refused 31 PbmSize"),
        ]:
            with self.subTest(size):
                self.gives(SCAN, f"P4\n{size}\n", wanted)

    def test_a_cell_of_one_dot(self) -> None:
        self.gives(grid(1, 3, 1, 1), b"", "")
        self.gives(grid(1, 3, 1, 1), "ean8,96385074", "refused 27 LabelWidth 0")
