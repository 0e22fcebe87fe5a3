"""Labels that are printed: the bytes of their sheets, their lines, each refusal and their order."""

from kinds import KINDS
from program import Breaking, CommandTest, ran
from sheets import HIGH, LOW, RECORD, grid, image


def first_dark_dot(printed: bytes, width: int, y: int) -> int:
    """Where row `y` of an image of such a width, of whole bytes, has its first dark dot."""
    dots = printed[printed.index(b"\n", len("P4\n")) + 1 :][y * width // 8 : (y + 1) * width // 8]
    return width - int.from_bytes(dots, "big").bit_length()


class PrintTest(CommandTest):
    def test_sheets(self) -> None:
        for rows, header, records, images, labelled, light in [
            (1, LOW, 0, 0, 0, 0),
            (1, LOW, 1, 1, 1, 0),
            (1, LOW, 2, 2, 1, 0),
            (2, HIGH, 1, 1, 1, 1),
            (2, HIGH, 2, 1, 2, 0),
        ]:
            with self.subTest(rows=rows, records=records):
                it = ran(grid(113, 3, 1, rows), records * RECORD.encode())
                self.assertEqual(it.outcome(), (0, images * image(header, labelled, light), ""))

    def test_lines(self) -> None:
        self.gives(grid(113, 3, 1, 1) + " --text", RECORD, "0 0 ean13 (01)09501101530003\n")
        self.gives(
            grid(200, 3, 2, 1) + " --text",
            "ean13,00012345000065\nupca,012345000065\nean8,96385074\nupce,0012345000065\n"
            "gs1128,10AB^17261231\nitf14,09501101530003\n",
            "0 0 ean13 (01)00012345000065\n0 1 upca (01)00012345000065\n"
            "1 0 ean8 (01)00000096385074\n1 1 upce (01)00012345000065\n"
            "2 0 gs1128 (10)AB(17)261231\n"
            "2 1 itf14 (01)09501101530003\n",
        )

    def test_refused_records(self) -> None:
        for given, wanted in [
            ("ean13", "record 0: refused 39 Csv"),
            ("ean13,9501101530003,", "record 0: refused 39 Csv"),
            ("sku,1", "record 0: refused 40 Kind"),
            ("gtin,9501101530003", "record 0: refused 40 Kind"),
            ("EAN13,9501101530003", "record 0: refused 40 Kind"),
            ("ean13,123", "record 0: refused 1 Length"),
            ("upce,0123456X", "record 0: refused 2 NotDigit 7"),
            ("upca,950110153000X", "record 0: refused 2 NotDigit 12"),
            ("ean8,9501101530004", "record 0: refused 3 CheckDigit"),
            ("gs1128,", "record 0: refused 4 Empty"),
            ("gs1128,10AB^^21C", "record 0: refused 5 UnknownAi 5"),
            ("gs1128,0109501101530", "record 0: refused 6 ValueLength 0"),
            ("gs1128,10A#", "record 0: refused 7 ValueCharacter 0"),
            ("gs1128,0109501101530004", "record 0: refused 8 ValueCheckDigit 0"),
            ("gs1128,10A^17250229", "record 0: refused 9 ValueDate 4"),
            ("gs1128,4225281", "record 0: refused 10 MissingSeparator 0"),
            ("upce,9501101530003\n\nean8,96385074\ngs1128,x\nsku\n", "record 2: refused 5 UnknownAi 0"),
            ("upce,9501101530003\nsku,1\n", "record 1: refused 40 Kind"),
            ("upce,9501101530003", "refused 26 LabelKind 0"),
            ("ean13,9501101530003\nean8,9501101530003\n", "refused 26 LabelKind 1"),
            ("gs1128,17261231\ngs1128,0109501101530003\nupce,9501101530003\n", "refused 27 LabelWidth 1"),
            ("gs1128," + 193 * "1", "record 0: refused 11 TooLong"),
        ]:
            with self.subTest(given):
                for output in ["", " --text"]:
                    self.gives(grid(113, 3, 2, 2) + output, given, wanted)

    def test_the_narrowest_cells(self) -> None:
        # The GS1-128 has 79 modules, the others as many as each of their kind.
        for kind in KINDS.values():
            record, line = f"{kind.word},{kind.sample}", f"{kind.word} {kind.says}"
            width = kind.left + (kind.modules if kind.digits else 79) + kind.right
            for module, dots, wanted in [
                (1, width, f"0 0 {line}\n"),
                (1, width - 1, "refused 27 LabelWidth 0"),
                (3, 3 * width, f"0 0 {line}\n"),
                (3, 3 * width - 1, "refused 27 LabelWidth 0"),
            ]:
                with self.subTest(record, width=dots):
                    self.gives(grid(dots, 2 * module + 1, 1, 1, module) + " --text", record, wanted)

    def test_symbols_begin_after_their_left_quiet_zones(self) -> None:
        for kind in KINDS.values():
            record = f"{kind.word},{kind.sample}"
            for module in [1, 3]:
                with self.subTest(record, module=module):
                    it = ran(grid(480, 2 * module + 1, 1, 1, module), record.encode())
                    self.assertEqual(it.outcome()[::2], (0, ""))
                    self.assertEqual(first_dark_dot(it.output, 480, module), kind.left * module)

    def test_what_does_not_fit(self) -> None:
        ean13 = "0 0 ean13 (01)09501101530003\n"
        itf14 = "0 0 itf14 (01)09501101530003\n"
        # 48 characters are the most that are printed.
        for module, width, height, columns, given, wanted in [
            (1, 594, 3, 1, f"gs1128,91{46 * 'A'}", f"0 0 gs1128 (91){46 * 'A'}\n"),
            (1, 593, 3, 1, f"gs1128,91{46 * 'A'}", "refused 27 LabelWidth 0"),
            (1, 4096, 3, 1, f"gs1128,91{47 * 'A'}", "refused 26 LabelKind 0"),
            (2, 226, 5, 1, RECORD, ean13),
            (2, 225, 5, 1, RECORD, "refused 27 LabelWidth 0"),
            (1, 155, 3, 1, "itf14,09501101530003", itf14),
            (1, 154, 3, 1, "itf14,09501101530003", "refused 27 LabelWidth 0"),
            (1, 113, 2, 1, RECORD, "refused 25 BadGrid"),
            (1, 1025, 3, 16, RECORD, "refused 25 BadGrid"),
            (1, 113, 2, 1, "sku", "refused 25 BadGrid"),
        ]:
            with self.subTest(width=width, height=height):
                self.gives(grid(width, height, columns, 1, module) + " --text", given, wanted)

    def test_grids_before_reading(self) -> None:
        with Breaking(b"0") as broken:
            self.is_refused(ran(grid(113, 2, 1, 1), broken), "refused 25 BadGrid")
