"""Texts that are checked: one of each answer and of each refusal, with the line that is printed."""

from __future__ import annotations

from program import CommandTest


class CheckTest(CommandTest):
    def checks(self, given: str, wanted: str, year: int = 2026) -> None:
        self.gives(f"check --year {year}", given, wanted)

    def has_lines(self, cases: list[tuple[str, str]]) -> None:
        """That each record alone has this line."""
        for record, line in cases:
            with self.subTest(record):
                self.checks(record, f"{line}\n")

    def test_digits(self) -> None:
        self.has_lines([
            ("digit,950110153000", "digit 3"),
            ("digit,0", "digit 0"),
            ("digit,10614141234567890", "digit 8"),
            ("digit,", "refused 1 Length"),
            ("digit,106141412345678908", "refused 1 Length"),
            ("digit,12 4", "refused 2 NotDigit 2"),
            ("gtin,9501101530003", "gtin 09501101530003"),
            ("gtin,96385074", "gtin 00000096385074"),
            ("gtin,012345000065", "gtin 00012345000065"),
            ("gtin,09501101530003", "gtin 09501101530003"),
            ("gtin,", "refused 1 Length"),
            ("gtin,123", "refused 1 Length"),
            ("gtin,950110153000X", "refused 2 NotDigit 12"),
            ("gtin,9501101530004", "refused 3 CheckDigit"),
            ("upce,01234505", "gtin 00012000003455"),
            ("upce,01234531", "gtin 00012300000451"),
            ("upce,01234543", "gtin 00012340000053"),
            ("upce,01234596", "gtin 00012345000096"),
            ("upce,01234565", "gtin 00012345000065"),
            ("upce,01200003", "gtin 00012000000003"),
            ("upce,01200033", "gtin 00012000000003"),
            ("upce,01234564", "refused 3 CheckDigit"),
            ("upce,", "refused 1 Length"),
            ("upce,1234565", "refused 1 Length"),
            ("upce,012345650", "refused 1 Length"),
            ("upce,11234565", "refused 1 Length"),
            ("upce,11234564", "refused 1 Length"),
            ("upce,1123456X", "refused 2 NotDigit 7"),
            ("upce,X1234565", "refused 2 NotDigit 0"),
        ])

    def test_element_strings(self) -> None:
        self.has_lines([
            ("text,0109501101530003", "hri (01)09501101530003"),
            ("text,10AB^17261231", "hri (10)AB(17)261231"),
            ("text,10AB\u001d17261231", "hri (10)AB(17)261231"),
            ("text,1726123110AB", "hri (17)261231(10)AB"),
            ("text,10AB17261231", "hri (10)AB17261231"),
            ("text,10A^", "hri (10)A"),
            ("text,10A\u001d", "hri (10)A"),
            ("text,0109501101530003^10A", "hri (01)09501101530003(10)A"),
            ("text,\"10A,B\"", "hri (10)A,B"),
            ("text,422528", "hri (422)528"),
            ("text,17260200", "hri (17)260200"),
            ("text,17240229", "hri (17)240229"),
            ("text,", "refused 4 Empty"),
            ("text,^", "refused 5 UnknownAi 0"),
            ("text,^10A", "refused 5 UnknownAi 0"),
            ("text,10AB^^21C", "refused 5 UnknownAi 5"),
            ("text,10A^^", "refused 5 UnknownAi 4"),
            ("text,0109501101530003^^10A", "refused 5 UnknownAi 17"),
            ("text,0309501101530003", "refused 5 UnknownAi 0"),
            ("text,0109501101530", "refused 6 ValueLength 0"),
            ("text,10", "refused 6 ValueLength 0"),
            ("text,10^", "refused 6 ValueLength 0"),
            ("text,10A#", "refused 7 ValueCharacter 0"),
            ("text,10A B", "refused 7 ValueCharacter 0"),
            ("text,10A\x00", "refused 7 ValueCharacter 0"),
            ("text,10A\u007f", "refused 7 ValueCharacter 0"),
            ("text,10\u00e9", "refused 7 ValueCharacter 0"),
            ("text,010950110153000X", "refused 7 ValueCharacter 0"),
            ("text,010950110153000310A#", "refused 7 ValueCharacter 16"),
            ("text,0109501101530004", "refused 8 ValueCheckDigit 0"),
            ("text,17250229", "refused 9 ValueDate 0"),
            ("text,10AB^17261301", "refused 9 ValueDate 5"),
            ("text,4225281", "refused 10 MissingSeparator 0"),
            ("text,70032601021530", "hri (7003)2601021530"),
            ("text,800826010215", "hri (8008)26010215"),
            ("text,80082601021530", "hri (8008)2601021530"),
            ("text,8008260102153045", "hri (8008)260102153045"),
            ("text,70032601021530^10A", "hri (7003)2601021530(10)A"),
            ("text,8008260102", "refused 6 ValueLength 0"),
            ("text,8008260102153", "refused 6 ValueLength 0"),
            ("text,800826010215304", "refused 6 ValueLength 0"),
            ("text,7003260102153", "refused 6 ValueLength 0"),
            ("text,700326010215301", "refused 10 MissingSeparator 0"),
            ("text,80082601021530451", "refused 10 MissingSeparator 0"),
            ("text,7003260102153X", "refused 7 ValueCharacter 0"),
            ("text,70032601001530", "refused 9 ValueDate 0"),
            ("text,70032601022400", "refused 9 ValueDate 0"),
            ("text,8008260102153060", "refused 9 ValueDate 0"),
            ("text,80082601021560", "refused 9 ValueDate 0"),
        ])

    def test_192_bytes_of_text(self) -> None:
        front = "text,91" + 90 * "A" + "^92" + 90 * "A" + "^1"
        hri = "hri (91)" + 90 * "A" + "(92)" + 90 * "A" + "(10)ABCD"
        self.assertEqual(len(front + "0ABCD"), len("text,") + 192)
        self.has_lines([
            (front + "0ABCD", hri),
            (front + "0ABCDE", "refused 11 TooLong"),
            (front + "##^^##", "refused 11 TooLong"),
        ])

    def test_dates_by_the_year(self) -> None:
        self.checks("text,17000229", "hri (17)000229\n", 2026)
        self.checks("text,17000229", "refused 9 ValueDate 0\n", 2060)

    def test_16777216_bytes_of_input(self) -> None:
        self.checks(16_777_216 * "\n", "")
        self.checks(16_777_217 * "\n", "refused 44 InputSize")

    def test_records_in_order(self) -> None:
        for given, wanted in [
            ("", ""),
            ("\n\n", ""),
            ("\ufeffdigit,12\r\n\n\"gtin\",123\ntext,10A\ndigit,12", "digit 3\nrefused 1 Length\nhri (10)A\ndigit 3\n"),
            ("digit", "record 0: refused 39 Csv"),
            ("digit,1,", "record 0: refused 39 Csv"),
            ("sku,1,", "record 0: refused 39 Csv"),
            ("sku,1", "record 0: refused 40 Kind"),
            (",1", "record 0: refused 40 Kind"),
            ("Digit,1", "record 0: refused 40 Kind"),
            ("digit ,1", "record 0: refused 40 Kind"),
            ("digits,1", "record 0: refused 40 Kind"),
            ("gtin,123\n\nsku,1\ndigit\n", "record 1: refused 40 Kind"),
            ("gtin,123\ndigit\nsku,1\n", "record 1: refused 39 Csv"),
        ]:
            with self.subTest(given):
                self.checks(given, wanted)
