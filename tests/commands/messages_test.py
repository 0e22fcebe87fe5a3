"""Texts of scanners that read symbols themselves, as records of `live`: each line of the grammar, each identifier, Digital Links, and
where a text is cut or too long."""

from __future__ import annotations

import itertools
import string

from element_strings import PARTS, check_digit, is_predefined, lengths, value
from program import CommandTest, ran
from symbols import OTHER_UPCE, UPCE

LIVE = "live --lanes 1 --workers 1 --year 2026"
GTIN, ELEMENT = "09501101530003", "(01)09501101530003"
LINK = f"https://id.gs1.org/01/{GTIN}"

# Symbology identifiers that an element string stands behind.
STRINGS = ["]C1", "]e0", "]d2", "]Q3", "]J1"]
TAKEN = ["]E0", "]E4", "]I1", "]d1", "]Q1", *STRINGS]

MOST = 65_536


class MessagesTest(CommandTest):
    def are_answered(self, cases: list[tuple[str, str]], command: str = LIVE) -> None:
        """That messages have these answers, which stand in their place and have no number."""
        self.gives_lines(command, [(f"0,{message}", f"0 - {answer}") for message, answer in cases])

    def test_digits(self) -> None:
        self.are_answered([
            # EAN-13 and UPC-A.
            ("]E09501101530003", "]E0 (01)09501101530003"),
            ("]E04012345678901", "]E0 (01)04012345678901"),
            ("]E0012345000065", "]E0 (01)00012345000065"),
            ("]E00012345000065", "]E0 (01)00012345000065"),
            ("]E0", "refused 1 Length"),
            ("]E0950110153000", "refused 3 CheckDigit"),
            ("]E095011015300", "refused 1 Length"),
            ("]E009501101530003", "refused 1 Length"),
            ("]E0950110153000300012", "refused 1 Length"),
            ("]E0950110153000X", "refused 2 NotDigit 12"),
            ("]E0 501101530003", "refused 2 NotDigit 0"),
            ("]E0^501101530003", "refused 2 NotDigit 0"),
            ("]E09501101530004", "refused 3 CheckDigit"),
            # EAN-8.
            ("]E496385074", "]E4 (01)00000096385074"),
            ("]E401234565", "]E4 (01)00000001234565"),
            ("]E49638507", "refused 1 Length"),
            ("]E49501101530003", "refused 1 Length"),
            ("]E4012345000065", "refused 1 Length"),
            ("]E409501101530003", "refused 1 Length"),
            ("]E49638507X", "refused 2 NotDigit 7"),
            ("]E496385075", "refused 3 CheckDigit"),
            # ITF-14.
            ("]I109501101530003", "]I1 (01)09501101530003"),
            ("]I1", "refused 1 Length"),
            ("]I196385074", "refused 1 Length"),
            ("]I1012345000065", "refused 1 Length"),
            ("]I19501101530003", "refused 1 Length"),
            ("]I10950110153000X", "refused 2 NotDigit 13"),
            ("]I109501101530004", "refused 3 CheckDigit"),
        ])

    def test_upce(self) -> None:
        # The digits that the symbol shows: 0, six of them and the check digit of the GTIN-12, as `check` takes them.
        self.are_answered([
            *((f"]E00{six}{gtin[-1]}", f"]E0 (01)00{gtin}") for six, gtin, _ in UPCE + OTHER_UPCE),
            ("]E001234565", "]E0 (01)00012345000065"),
            ("]E001234505", "]E0 (01)00012000003455"),
            ("]E001234531", "]E0 (01)00012300000451"),
            ("]E001234543", "]E0 (01)00012340000053"),
            ("]E001234596", "]E0 (01)00012345000096"),
            ("]E001200003", "]E0 (01)00012000000003"),
            ("]E001200033", "]E0 (01)00012000000003"),
            ("]E001234564", "refused 3 CheckDigit"),
            ("]E011234565", "refused 1 Length"),
            ("]E096385074", "refused 1 Length"),
            ("]E01123456X", "refused 2 NotDigit 7"),
            ("]E0X1234565", "refused 2 NotDigit 0"),
        ])

    def test_digits_without_an_identifier(self) -> None:
        self.are_answered([
            ("9501101530003", "- (01)09501101530003"),
            ("012345000065", "- (01)00012345000065"),
            ("09501101530003", "- (01)09501101530003"),
            ("96385074", "- (01)00000096385074"),
            # An EAN-8 or a UPC-E: both have this check digit, and different GTINs.
            ("01234565", "refused 40 Kind"),
            ("00000000", "refused 40 Kind"),
            ("123456789", "refused 1 Length"),
            ("12345678901", "refused 1 Length"),
            ("095011015300030", "refused 1 Length"),
            # An element string needs a separator before it.
            ("0109501101530003", "refused 1 Length"),
            ("010950110153000310AB", "refused 1 Length"),
            ("12345678 1 1 1", "refused 2 NotDigit 8"),
            ("123456789012X", "refused 2 NotDigit 12"),
            ("9501101530004", "refused 3 CheckDigit"),
        ])
        # Fewer than eight digits are the widths of a row.
        self.gives_lines(LIVE, [("0,1234567", "0 - refused 18 BadRuns"), ("0,40112", "0 0 refused 19 Blank")])

    def test_each_first_digit_of_a_bare_gtin(self) -> None:
        # Eight digits that begin with 0 may be a UPC-E too.
        cases = []
        for length, first in itertools.product((8, 12, 13, 14), range(10)):
            payload = f"{first}234567890123"[: length - 1]
            gtin = payload + check_digit(payload)
            cases.append((gtin, "refused 40 Kind" if length == 8 and first == 0 else f"- (01){gtin:0>14}"))
        self.are_answered(cases)

    def test_element_strings(self) -> None:
        for word, front in [(it, it) for it in STRINGS] + [("-", "^"), ("-", "\x1d")]:
            self.are_answered([(front + text, answer if answer.startswith("refused") else f"{word} {answer}") for text, answer in [
                ("0109501101530003", "(01)09501101530003"),
                ("10AB^17261231", "(10)AB(17)261231"),
                ("10AB\x1d17261231", "(10)AB(17)261231"),
                ("10A,B", "(10)A,B"),
                ('10"A"', '(10)"A"'),
                ("10AB^", "(10)AB"),
                ("010950110153000310AB^21C\x1d", "(01)09501101530003(10)AB(21)C"),
                ("", "refused 4 Empty"),
                ("(01)09501101530003", "refused 5 UnknownAi 0"),
                ("10AB^^21C", "refused 5 UnknownAi 5"),
                ("10AB^^", "refused 5 UnknownAi 5"),
                ("8003095011015300031", "refused 5 UnknownAi 0"),
                ("0109501101530", "refused 6 ValueLength 0"),
                ("10AB^800826010215304", "refused 6 ValueLength 5"),
                ("10A#", "refused 7 ValueCharacter 0"),
                ("10A B", "refused 7 ValueCharacter 0"),
                ("10AB^10\u00e9", "refused 7 ValueCharacter 5"),
                ("0109501101530004", "refused 8 ValueCheckDigit 0"),
                ("17260231", "refused 9 ValueDate 0"),
                ("10AB^17251301", "refused 9 ValueDate 5"),
                ("4225281", "refused 10 MissingSeparator 0"),
            ]])

    def test_a_separator_in_front(self) -> None:
        # One is passed over, and a place counts from behind it.
        for front, word in [("]C1", "]C1"), ("]d2", "]d2"), ("", "-")]:
            self.are_answered([
                (f"{front}^10AB", f"{word} (10)AB"),
                (f"{front}\x1d10AB", f"{word} (10)AB"),
                (f"{front}^", "refused 4 Empty"),
                (f"{front}^^", "refused 5 UnknownAi 0"),
                (f"{front}\x1d^10AB", "refused 5 UnknownAi 0"),
                (f"{front}^10A#", "refused 7 ValueCharacter 0"),
                (f"{front}^10AB^17260231", "refused 9 ValueDate 5"),
            ])

    def test_each_ai(self) -> None:
        told = [(ai, value(ai, length)) for ai in PARTS for length in {min(lengths(ai)), max(lengths(ai))}]
        for form, shown in [("", "({}){}"), (" --elements", "{}={}")]:
            self.are_answered([(f"]C1{ai}{text}", f"]C1 {shown.format(ai, text)}") for ai, text in told], LIVE + form)
        behind = [(ai, text, "" if is_predefined(ai) else "^") for ai, text in told]
        self.are_answered([(f"]d2{ai}{text}{end}20A1", f"refused 7 ValueCharacter {len(ai + text + end)}") for ai, text, end in behind])

    def test_each_identifier(self) -> None:
        # None but these, whatever a text says behind it; a letter in the other case is another.
        others = [f"]{letter}{digit}" for letter in string.ascii_letters for digit in string.digits]
        self.are_answered([(f"{it}0109501101530003", "refused 40 Kind") for it in others if it not in TAKEN])
        self.are_answered([(it, "refused 40 Kind") for it in ["]", "]E", "]]", "]0", "]E\u00e9", "]C^0109501101530003", "] C10109501101530003"]])

    def test_ends_of_a_text(self) -> None:
        for front, answer in [("]E09501101530003", "]E0 (01)09501101530003"), ("96385074", "- (01)00000096385074"),
                              ("]C110AB", "]C1 (10)AB"), ("^10AB", "- (10)AB"), (LINK, f"- {ELEMENT}")]:
            self.are_answered([(front + end, answer) for end in ["", " ", "\t", "\f", "\r", "\r\r", " \t\f\r  "]])
        self.are_answered([
            ("]C110AB^ ", "]C1 (10)AB"),
            ("]C110AB ^", "refused 7 ValueCharacter 0"),
            ("]C110AB\v", "refused 7 ValueCharacter 0"),
            ("]C110AB\0", "refused 7 ValueCharacter 0"),
            ("]C1   ", "refused 4 Empty"),
            ("01234565 ", "refused 40 Kind"),
            (f"{LINK}\v", "refused 40 Kind"),
        ])
        # A blank in front is a part of a field that is none.
        self.gives_lines(LIVE, [(f"0, {LINK}", "0 - refused 18 BadRuns"), ("0, ]C110AB", "0 - refused 18 BadRuns")])

    def test_lanes_and_commas(self) -> None:
        self.gives_lines(LIVE, [
            ("1,]C110A,B", "- - refused 41 BadLane"),
            (",]E09501101530003", "- - refused 41 BadLane"),
            ("x,]C1", "- - refused 41 BadLane"),
            ("00,]C110A,B,,", "0 - ]C1 (10)A,B,,"),
            ("0,]E0,9501101530003", "0 - refused 1 Length"),
            ("0,1,]E09501101530003", "- - refused 39 Csv"),
            ("0,,]E09501101530003", "- - refused 39 Csv"),
            ("]E09501101530003", "- - refused 39 Csv"),
            ("9501101530003", "- - refused 39 Csv"),
            ('0,"]E09501101530003"', "0 - refused 18 BadRuns"),
            ("0,}E09501101530003", "0 - refused 18 BadRuns"),
            ("0,gs1.org/01/09501101530003", "0 - refused 18 BadRuns"),
            ("0,]E09501101530003", "0 - ]E0 (01)09501101530003"),
        ])

    def test_the_year(self) -> None:
        for year, answer in [(2026, "]C1 (17)000229"), (2060, "refused 9 ValueDate 0")]:
            self.are_answered([("]C117000229", answer)], f"live --lanes 1 --workers 1 --year {year}")
        self.are_answered([(f"{LINK}?17=000229", "refused 9 ValueDate 1")], "live --lanes 1 --workers 1 --year 2060")

    def test_lengths(self) -> None:
        full, hri = "91" + 90 * "A" + "^92" + 90 * "A" + "^10ABCD", "(91)" + 90 * "A" + "(92)" + 90 * "A" + "(10)ABCD"
        self.assertEqual(len(full), 192)
        self.are_answered([
            (f"]C1{full}", f"]C1 {hri}"),
            (f"]C1^{full}  ", f"]C1 {hri}"),
            (f"^{full}", f"- {hri}"),
            (f"]C1{full}E", "refused 11 TooLong"),
            (f"]C1{full}^", "refused 11 TooLong"),
            (f"^^{full}", "refused 11 TooLong"),
            ("]C1" + 193 * "#", "refused 11 TooLong"),
            # The longest lines.
            ("]E0" + (MOST - 5) * "9", "refused 1 Length"),
            ("]C1" + (MOST - 5) * "A", "refused 11 TooLong"),
            ((MOST - 2) * "9", "refused 1 Length"),
            ("]C110AB" + (MOST - 9) * " ", "]C1 (10)AB"),
            ("]" + (MOST - 3) * "]", "refused 40 Kind"),
            ("https://" + (MOST - 10 - len(f"/01/{GTIN}")) * "h" + f"/01/{GTIN}", f"- {ELEMENT}"),
        ])
        for message in ["]E0" + (MOST - 4) * "9", (MOST - 1) * "9", "https://h/" + MOST * "/"]:
            self.gives_lines(LIVE, [(f"0,{message}", "- - refused 44 InputSize"), ("0,^10AB", "0 - - (10)AB")])

    def test_a_text_that_is_cut_at_any_byte(self) -> None:
        for message, answers in [
            # Of the widths of a row there are none.
            ("]E09501101530003", ["refused 18 BadRuns", *2 * ["refused 40 Kind"], *12 * ["refused 1 Length"], "refused 3 CheckDigit",
                                  "]E0 (01)09501101530003"]),
            ("]C10109501101530003^10AB", ["refused 18 BadRuns", *2 * ["refused 40 Kind"], "refused 4 Empty", "refused 5 UnknownAi 0",
                                          *14 * ["refused 6 ValueLength 0"], *2 * [f"]C1 {ELEMENT}"], "refused 5 UnknownAi 17",
                                          "refused 6 ValueLength 17", f"]C1 {ELEMENT}(10)A", f"]C1 {ELEMENT}(10)AB"]),
            (f"{LINK}?17=261231", [*8 * ["refused 18 BadRuns"], *15 * ["refused 40 Kind"], *7 * ["refused 6 ValueLength 0"],
                                   "refused 8 ValueCheckDigit 0", *3 * ["refused 6 ValueLength 0"], *2 * ["refused 8 ValueCheckDigit 0"],
                                   *2 * [f"- {ELEMENT}"], "refused 5 UnknownAi 1", *7 * ["refused 6 ValueLength 1"],
                                   f"- {ELEMENT}(17)261231"]),
        ]:
            self.assertEqual(len(answers), len(message) + 1)
            cases = [(message[:count], answer) for count, answer in enumerate(answers)]
            self.are_answered(cases)
            # The last line may lack its end.
            for text, answer in cases:
                with self.subTest(text):
                    self.assertEqual(ran(LIVE, f"0,{text}".encode()).outcome(), (0, f"0 - {answer}\n".encode(), ""))
