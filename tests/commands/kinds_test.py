"""The kinds of records: each that a command takes, and words that are nearly one, of the other command or of none."""

from typing import Iterator

from kinds import KINDS
from program import CommandTest, ran
from sheets import grid

CHECK = "check --year 2026"
PRINT = grid(200, 3, 1, 1) + " --text"

# Each kind with a second field, and what is written of it.
CHECKED = {
    "digit": ("950110153000", "digit 3\n"),
    "gtin": ("9501101530003", "gtin 09501101530003\n"),
    "upce": ("01234565", "gtin 00012345000065\n"),
    "text": ("422528", "hri (422)528\n"),
}
PRINTED = {kind.word: (kind.sample, f"0 0 {kind.word} {kind.says}\n") for kind in KINDS.values()}

# Words that no command takes.
OTHERS = """
    gtin8 gtin12 gtin13 gtin14 gtin-8 gtin-12 gtin-13 gtin-14 isbn isbn10 isbn13 issn ismn ean ean2 ean5 ean-8
    ean-13 ean14 ean128 upc upc-a upc-e upcb upcd jan jan8 jan13 itf itf-14 itf6 itf16 i2of5 interleaved2of5 code128
    code39 code93 codabar gs1 gs1-128 gs1_128 ucc128 databar gs1databar datamatrix gs1datamatrix qr qrcode pdf417
    aztec sscc sscc18 gln gsin grai giai gsrn gdti gcn ai ais hri element elements elementstring string number
    digits check checkdigit payload kind label row lane scan print lanes help year none null 0 1 01 00 e0 c1
""".split()


def near(kind: str) -> Iterator[str]:
    """Words that are nearly this kind."""
    yield from [kind.upper(), kind.capitalize(), kind.swapcase()[:1] + kind[1:], kind[:-1] + kind[-1].upper()]
    for sign in [" ", "\t", "\u00a0", "-", "\x00", "s", "0"]:
        yield from [f"{sign}{kind}", f"{kind}{sign}"]
    yield from (kind[:place] + kind[place + 1 :] for place in range(len(kind)))
    yield from (kind[:place] + kind[place] + kind[place:] for place in range(len(kind)))
    yield from [kind + kind, kind[::-1]]


class KindsTest(CommandTest):
    def test_each_kind(self) -> None:
        for command, kinds in [(CHECK, CHECKED), (PRINT, PRINTED)]:
            for kind, (text, line) in kinds.items():
                with self.subTest(command=command, kind=kind):
                    self.gives(command, f"{kind},{text}\n", line)
                    self.gives(command, f'"{kind}","{text}"\n', line)

    def test_other_words(self) -> None:
        for command, kinds, others in [(CHECK, CHECKED, PRINTED), (PRINT, PRINTED, CHECKED)]:
            words = {"", *OTHERS, *others, *(it for kind in kinds for it in near(kind))} - set(kinds)
            for word in sorted(words):
                with self.subTest(command=command, word=word):
                    self.is_refused(ran(command, f"{word},9501101530003\n".encode()), "record 0: refused 40 Kind")

    def test_each_label_has_its_numbers(self) -> None:
        # Any number has an ITF-14. With a zero before it has an EAN-13, with two a UPC-A, and a UPC-E where its other zeros
        # allow it, and with six an EAN-8.
        for number, kinds in [
            ("19501101530000", ["itf14"]),
            ("09501101530003", ["ean13", "itf14"]),
            ("00614141000036", ["ean13", "itf14", "upca"]),
            ("00012345000065", ["ean13", "itf14", "upca", "upce"]),
            ("00012345600005", ["ean13", "itf14", "upca"]),
            ("00000096385074", ["ean13", "ean8", "itf14", "upca"]),
            ("00000000000000", ["ean13", "ean8", "itf14", "upca", "upce"]),
        ]:
            for kind in PRINTED:
                if KINDS[kind].digits:
                    with self.subTest(number=number, kind=kind):
                        line = f"0 0 {kind} (01){number}\n" if kind in kinds else "refused 26 LabelKind 0"
                        self.gives(PRINT, f"{kind},{number}\n", line)
            # In fewer digits it is the same number.
            for count in [13, 12, 8]:
                if number[:-count] == (14 - count) * "0":
                    self.gives(PRINT, f"itf14,{number[-count:]}\n", f"0 0 itf14 (01){number}\n")
