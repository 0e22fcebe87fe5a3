"""Inputs and outputs of several megabytes: sixteen lanes and columns, and as many workers."""

from code128 import B, C, FNC1, TO_A, encoded, symbol
from element_strings import PARTS, lengths, value
from program import CommandTest, field, ran
from rows import runs
from sheets import dots_of, grid, packed
from symbols import EAN8, EAN13, ITF14, OTHER_UPCE, UPCE

# Symbols as groups of widths, with their answers.
NUMBERS = [
    *((groups, f"]E0 (01)0{number}") for number, groups in EAN13),
    *((groups, f"]E4 (01)000000{number}") for number, groups in EAN8),
    *((groups, f"]E0 (01)00{number}") for _, number, groups in UPCE + OTHER_UPCE),
    *((groups, f"]I1 (01){number}") for number, groups in ITF14),
]
TEXTS = [
    (symbol(C, [FNC1, *encoded(text)]), f"]C1 {hri}")
    for text, hri in [
        ("422528", "(422)528"),
        ("0109501101530003", "(01)09501101530003"),
        ("10AB^17261231", "(10)AB(17)261231"),
        ("91" + 40 * "z", "(91)" + 40 * "z"),
        (20 * "2011", 20 * "(20)11"),
        (45 * "2011", 45 * "(20)11"),
    ]
]
REFUSED = [
    (symbol(C, [FNC1]), "refused 4 Empty"),
    (symbol(C, [12]), "refused 14 NotGs1"),
    (symbol(C, [FNC1], 0), "refused 13 CheckCharacter"),
    (symbol(B, [FNC1, 97]), "refused 15 FunctionCharacter"),
    (symbol(B, [FNC1, TO_A, 98]), "refused 16 CodeSet"),
    (symbol(C, [FNC1, 3, 12]), "refused 5 UnknownAi 0"),
    (EAN13[0][1].replace(" 1132 111", " 1231 111"), "refused 24 SymbolCheckDigit"),
    (UPCE[0][2].replace(" 1132 111111", " 1231 111111"), "refused 24 SymbolCheckDigit"),
]

# The kinds of labels, with the light modules left of them.
LABELS = [
    *((f"ean13,{number}", groups, 11, f"(01)0{number}") for number, groups in EAN13),
    *((f"upca,{number[1:]}", groups, 9, f"(01)0{number}") for number, groups in EAN13[:1]),
    *((f"ean8,{number}", groups, 7, f"(01)000000{number}") for number, groups in EAN8),
    *((f"upce,{number}", groups, 9, f"(01)00{number}") for _, number, groups in UPCE),
    *((f"itf14,{number}", groups, 10, f"(01){number}") for number, groups in ITF14),
    ("gs1128,10AB^422528", symbol(C, [FNC1, *encoded("10AB^422528")]), 10, "(10)AB(422)528"),
]

# The width of their cells: that of the widest.
WIDTH = 165


class SizesTest(CommandTest):
    def test_lanes(self) -> None:
        symbols = NUMBERS + TEXTS + REFUSED
        rows = [
            (" ".join(map(str, turned)), f"{answer}\n")
            for groups, answer in symbols
            for widths in [[12, *runs(groups), 11]]
            for turned in [widths, widths[::-1]]
        ]
        count = 5_500
        order = [[(7 * number + 3 * lane) % len(rows) for number in range(count)] for lane in range(16)]
        given = "".join(f"{lane},{rows[order[lane][number]][0]}\n" for number in range(count) for lane in range(16))
        lines = [f"{lane} {number} {rows[it][1]}" for lane in range(16) for number, it in enumerate(order[lane])]
        self.writes_lines("lanes --lanes 16 --workers 16 --year 2026", given.encode(), lines)

    def test_scan(self) -> None:
        # A damaged symbol and a cell without one are among the labels.
        cells = [(dots_of(10, groups, WIDTH), answer) for groups, answer in NUMBERS]
        cells += [(dots_of(10, groups, WIDTH), answer) for groups, answer in REFUSED[-2:]]
        cells += [(WIDTH * "0", "refused 19 Blank")]
        light = bytes(2 * WIDTH)
        strips = []
        for row in range(len(cells)):
            bars = packed("".join(cells[(row + 3 * column) % len(cells)][0] for column in range(16)))
            strips.append(light + bars + light)
        header = b"P4\n%d 192\n" % (16 * WIDTH)
        sheets = 110
        given = b"".join(
            header + b"".join(strips[(sheet + row) % len(cells)] for row in range(64)) for sheet in range(sheets)
        )
        lines = [
            f"{column} {64 * sheet + row} {cells[(sheet + row + 3 * column) % len(cells)][1]}\n"
            for column in range(16)
            for sheet in range(sheets)
            for row in range(64)
        ]
        command = f"scan --module 1 --width {WIDTH} --height 3 --columns 16 --rows 64 --workers 16 --year 2026"
        self.writes_lines(command, given, lines)

    def test_print(self) -> None:
        count = len(LABELS)
        records = 5 * 1_024 + 1_000
        height = 30
        dots = [dots_of(left, groups, WIDTH) for _, groups, left, _ in LABELS]
        light = bytes(2 * WIDTH)
        header = b"P4\n%d %d\n" % (16 * WIDTH, 64 * height)
        wanted = []
        for first in range(0, 6 * 1_024, 16):
            if first % 1_024 == 0:
                wanted.append(header)
            row = [dots[it % count] if it < records else WIDTH * "0" for it in range(first, first + 16)]
            wanted.append(light + (height - 2) * packed("".join(row)) + light)
        given = "".join(f"{LABELS[it % count][0]}\n" for it in range(records))
        it = ran(grid(WIDTH, height, 16, 64), given.encode())
        self.assertEqual((it.status, it.error), (0, b""))
        self.assertTrue(it.output == b"".join(wanted))

    def test_print_text(self) -> None:
        count = len(LABELS)
        records = 100_000
        given = "".join(f"{LABELS[it % count][0]}\n" for it in range(records))
        lines = []
        for it in range(records):
            record, _, _, hri = LABELS[it % count]
            lines.append(f"{it // 1_024} {it % 1_024} {record[:record.index(',')]} {hri}\n")
        self.writes_lines(grid(WIDTH, 3, 16, 64) + " --text", given.encode(), lines)

    def test_check(self) -> None:
        cases = [(f"gtin,{number}", f"gtin 0{number}\n") for number, _ in EAN13]
        cases += [(f"upce,0{six}{number[-1]}", f"gtin 00{number}\n") for six, number, _ in UPCE]
        cases += [(f"digit,{number[:-1]}", f"digit {number[-1]}\n") for number, _ in EAN8]
        cases += [(f"text,91{90 * it}^92{90 * it}", f"hri (91){90 * it}(92){90 * it}\n") for it in "Az/9"]
        for ai in list(PARTS)[::9]:
            text = value(ai, lengths(ai)[-1])
            cases.append((f"text,{field(ai + text)}", f"hri ({ai}){text}\n"))
        cases += [("gtin,9501101530004", "refused 3 CheckDigit\n"), ("text,0309501101530003", "refused 5 UnknownAi 0\n")]
        times = 1_400
        given = times * "".join(f"{record}\n" for record, _ in cases)
        self.writes_lines("check --year 2026", given.encode(), times * [line for _, line in cases])
