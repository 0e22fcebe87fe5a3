"""Images that are scanned: the lines of their columns, each refusal, and inputs and outputs that fail."""

from program import Breaking, CommandTest, ran, ran_to
from sheets import BAR_ROW, HIGH, LABEL, LOW, image

# One label of each kind.
LABELS = (
    b"ean13,9501101530003\nupca,012345000065\nean8,96385074\nupce,012345000065\n"
    b"gs1128,0109501101530003^17261231\nitf14,09501101530003\n"
)

# The line of the label that is drawn by hand.
LINE = "0 0 ]E0 (01)09501101530003\n"


def scan(width: int, height: int, columns: int, rows: int, module: int = 1, workers: int = 1, year: int = 2026) -> str:
    """The command `scan` of such cells."""
    return (
        f"scan --module {module} --width {width} --height {height} --columns {columns} --rows {rows}"
        f" --workers {workers} --year {year}"
    )


class ScanTest(CommandTest):
    def images(self, columns: int, rows: int, labels: bytes) -> bytes:
        """The images of labels in cells of 211 by 3 dots, as they are printed."""
        it = ran(f"print --module 1 --width 211 --height 3 --columns {columns} --rows {rows} --year 2026", labels)
        self.assertEqual((it.status, it.error), (0, b""))
        return it.output

    def test_printed_labels(self) -> None:
        for rows, header, sheets, labelled, empty, wanted in [
            (1, LOW, 0, 0, 0, ""),
            (1, LOW, 1, 1, 0, LINE),
            (1, LOW, 1, 0, 1, "0 0 refused 19 Blank\n"),
            (2, HIGH, 1, 1, 1, "0 0 ]E0 (01)09501101530003\n0 1 refused 19 Blank\n"),
            (
                2,
                HIGH,
                2,
                2,
                0,
                "0 0 ]E0 (01)09501101530003\n0 1 ]E0 (01)09501101530003\n"
                    "0 2 ]E0 (01)09501101530003\n0 3 ]E0 (01)09501101530003\n",
            ),
        ]:
            with self.subTest(rows=rows, sheets=sheets):
                self.gives(scan(113, 3, 1, rows), sheets * image(header, labelled, empty), wanted)

    def test_the_middle_rows_of_cells(self) -> None:
        for height, header, place, wanted in [
            (3, "P4\n113 3\n", 0, "0 0 refused 20 RunCount\n"),
            (3, "P4\n113 3\n", 1, LINE),
            (3, "P4\n113 3\n", 2, "0 0 refused 20 RunCount\n"),
            (4, "P4\n113 4\n", 1, "0 0 refused 20 RunCount\n"),
            (4, "P4\n113 4\n", 2, LINE),
            (5, "P4\n113 5\n", 2, LINE),
        ]:
            with self.subTest(height=height, place=place):
                rows = [BAR_ROW if row == place else 15 * b"\xff" for row in range(height)]
                self.gives(scan(113, height, 1, 1), header.encode() + b"".join(rows), wanted)

    def test_dates_by_the_year(self) -> None:
        images = self.images(1, 1, b"gs1128,17000229\n")
        for year, wanted in [
            (2026, "0 0 ]C1 (17)000229\n"),
            (2060, "0 0 refused 9 ValueDate 0\n"),
        ]:
            self.gives(scan(211, 3, 1, 1, year=year), images, wanted)

    def test_order_by_column_and_number(self) -> None:
        for columns, rows, wanted in [
            (
                2,
                2,
                "0 0 ]E0 (01)09501101530003\n"
                    "0 1 ]E4 (01)00000096385074\n"
                    "0 2 ]C1 (01)09501101530003(17)261231\n"
                    "0 3 refused 19 Blank\n"
                    "1 0 ]E0 (01)00012345000065\n"
                    "1 1 ]E0 (01)00012345000065\n"
                    "1 2 ]I1 (01)09501101530003\n"
                    "1 3 refused 19 Blank\n",
            ),
            (
                4,
                1,
                "0 0 ]E0 (01)09501101530003\n"
                    "0 1 ]C1 (01)09501101530003(17)261231\n"
                    "1 0 ]E0 (01)00012345000065\n"
                    "1 1 ]I1 (01)09501101530003\n"
                    "2 0 ]E4 (01)00000096385074\n"
                    "2 1 refused 19 Blank\n"
                    "3 0 ]E0 (01)00012345000065\n"
                    "3 1 refused 19 Blank\n",
            ),
            (
                1,
                5,
                "0 0 ]E0 (01)09501101530003\n"
                    "0 1 ]E0 (01)00012345000065\n"
                    "0 2 ]E4 (01)00000096385074\n"
                    "0 3 ]E0 (01)00012345000065\n"
                    "0 4 ]C1 (01)09501101530003(17)261231\n"
                    "0 5 ]I1 (01)09501101530003\n"
                    "0 6 refused 19 Blank\n"
                    "0 7 refused 19 Blank\n"
                    "0 8 refused 19 Blank\n"
                    "0 9 refused 19 Blank\n",
            ),
        ]:
            images = self.images(columns, rows, LABELS)
            for workers in [1, 2, 3, 16]:
                with self.subTest(columns=columns, workers=workers):
                    self.gives(scan(211, 3, columns, rows, workers=workers), images, wanted)

    def test_refused_images(self) -> None:
        for header, count, wanted in [
            ("P1\n113 3\n", 45, "refused 28 NotP4"),
            ("p4\n113 3\n", 45, "refused 28 NotP4"),
            ("\nP4\n113 3\n", 45, "refused 28 NotP4"),
            ("P4\n113 3\n", 46, "refused 28 NotP4"),
            ("P4113 3\n", 45, "refused 29 PbmHeader"),
            ("P4\n113,3\n", 45, "refused 29 PbmHeader"),
            ("P4\n113 -3\n", 45, "refused 29 PbmHeader"),
            ("P4\n113 3", 45, "refused 29 PbmHeader"),
            ("P", 0, "refused 30 Truncated"),
            ("P4\n113 3", 0, "refused 30 Truncated"),
            ("P4\n113 3\n", 0, "refused 30 Truncated"),
            ("P4\n113 3\n", 44, "refused 30 Truncated"),
            ("P4\n0 3\n", 45, "refused 31 PbmSize"),
            ("P4\n113 0\n", 45, "refused 31 PbmSize"),
            ("P4\n65536 3\n", 45, "refused 31 PbmSize"),
            ("P4\n114 3\n", 45, "refused 31 PbmSize"),
            ("P4\n112 3\n", 42, "refused 31 PbmSize"),
            ("P4\n113 4\n", 60, "refused 31 PbmSize"),
            ("P4\n113 2\n", 30, "refused 31 PbmSize"),
            ("P4\n3 113\n", 113, "refused 31 PbmSize"),
            ("P4\n226 3\n", 87, "refused 31 PbmSize"),
        ]:
            with self.subTest(header):
                bad = header.encode() + bytes(count)
                self.gives(scan(113, 3, 1, 1), bad, wanted)
                self.gives(scan(113, 3, 1, 1), image(LOW, 1, 0) + bad, wanted)

    def test_white_space_in_headers(self) -> None:
        for space, wanted in [
            (" ", LINE),
            ("\t", LINE),
            ("\n", LINE),
            ("\r", LINE),
            ("\r\n", LINE),
            ("\v", "refused 29 PbmHeader"),
            ("\f", "refused 29 PbmHeader"),
        ]:
            # One byte ends the height; the next is one of dots.
            for header in [f"P4{space}113 3\n", f"P4\n113{space}3\n", f"P4\n113 3{space[0]}"]:
                with self.subTest(header=header):
                    self.gives(scan(113, 3, 1, 1), header.encode() + LABEL, wanted)

    def test_all_images_are_read_before_their_sizes_count(self) -> None:
        for header, count, wanted in [
            ("P4\n113 3\n", 45, "refused 31 PbmSize"),
            ("P4\n113 3\n", 44, "refused 30 Truncated"),
            ("P4\n113 x\n", 45, "refused 29 PbmHeader"),
            ("P1\n113 3\n", 45, "refused 28 NotP4"),
        ]:
            with self.subTest(wanted):
                images = b"P4\n113 4\n" + bytes(60) + header.encode() + bytes(count)
                self.gives(scan(113, 3, 1, 1), images, wanted)

    def test_grids_before_reading(self) -> None:
        for module, width, height, columns, rows in [
            (1, 113, 2, 1, 1),
            (2, 226, 4, 1, 1),
            (8, 904, 16, 1, 1),
            (1, 1025, 3, 16, 1),
            (1, 113, 257, 1, 64),
        ]:
            with self.subTest(width=width, height=height):
                command = scan(width, height, columns, rows, module)
                self.gives(command, b"", "refused 25 BadGrid")
                self.gives(command, b"P1", "refused 25 BadGrid")
                with Breaking(b"") as broken:
                    self.is_refused(ran(command, broken), "refused 25 BadGrid")

    def test_failed_reads(self) -> None:
        images = 2 * image(LOW, 1, 0)
        # Before the first image, in its header, in its dots, and after its last byte.
        for count in [0, 1, 8, 9, 40, 54, 55, 108]:
            with self.subTest(count=count), Breaking(images[:count]) as broken:
                self.is_refused(ran(scan(113, 3, 1, 1), broken), "refused 37 ReadFault")

    def test_failed_writes(self) -> None:
        for room in [0, 1, 26]:
            it = ran_to(room, scan(113, 3, 1, 1), image(LOW, 1, 0))
            self.is_refused(it, "refused 38 WriteFault", LINE.encode()[:room])
        it = ran_to(27, scan(113, 3, 1, 1), image(LOW, 1, 0))
        self.assertEqual(it.outcome(), (0, LINE.encode(), ""))
