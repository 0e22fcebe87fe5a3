"""Numbers: check digits of every length, the lengths of a GTIN, and the six digits of UPC-E."""

from __future__ import annotations

from element_strings import check_digit
from program import CommandTest

# The twelve digits that a to f, the six of UPC-E, stand for, without the check digit, by the last of the six.
EXPANSIONS = {
    "0": "0abf0000cde",
    "1": "0abf0000cde",
    "2": "0abf0000cde",
    "3": "0abc00000de",
    "4": "0abcd00000e",
    "5": "0abcde0000f",
    "6": "0abcde0000f",
    "7": "0abcde0000f",
    "8": "0abcde0000f",
    "9": "0abcde0000f",
}


def expanded(six: str) -> str:
    """The twelve digits of six digits of UPC-E."""
    payload = EXPANSIONS[six[5]].translate(str.maketrans("abcdef", six))
    return payload + check_digit(payload)


class DigitsTest(CommandTest):
    def checks(self, cases: list[tuple[str, str]]) -> None:
        """That records have these lines."""
        self.gives_lines("check --year 2026", cases)

    def test_check_digits_of_each_length(self) -> None:
        # Worked by hand from the weights 3, 1, 3, .. from the right.
        self.checks([
            ("digit,7", "digit 9"),
            ("digit,42", "digit 0"),
            ("digit,123", "digit 6"),
            ("digit,1234", "digit 8"),
            ("digit,12345", "digit 7"),
            ("digit,123456", "digit 5"),
            ("digit,1234567", "digit 0"),
            ("digit,12345678", "digit 4"),
            ("digit,123456789", "digit 5"),
            ("digit,1234567890", "digit 5"),
            ("digit,01234567890", "digit 5"),
            ("digit,950110153000", "digit 3"),
            ("digit,0950110153000", "digit 3"),
            ("digit,99999999999999", "digit 8"),
            ("digit,111111111111111", "digit 9"),
            ("digit,9999999999999999", "digit 2"),
            ("digit,10614141234567890", "digit 8"),
        ])

    def test_the_weight_of_each_digit(self) -> None:
        # One digit among zeros, at each place of each length.
        cases = []
        for length in range(1, 18):
            for place in range(length):
                for digit, checks in [(1, "79"), (2, "48"), (5, "55"), (9, "31")]:
                    cases.append((f"digit,{digit * 10**place:0{length}}", f"digit {checks[place % 2]}"))
        self.checks(cases)

    def test_the_lengths_of_digits(self) -> None:
        self.checks([
            (f"digit,{length * '0'}", "digit 0" if 1 <= length <= 17 else "refused 1 Length") for length in range(40)
        ])
        self.checks([
            (f"gtin,{length * '0'}", "gtin 00000000000000" if length in (8, 12, 13, 14) else "refused 1 Length")
            for length in range(40)
        ])
        self.checks([
            (f"upce,{length * '0'}", "gtin 00000000000000" if length == 8 else "refused 1 Length")
            for length in range(40)
        ])

    def test_the_lengths_come_first(self) -> None:
        self.checks([
            ("digit,X12345678901234567", "refused 1 Length"),
            ("digit,X2345678901234567", "refused 2 NotDigit 0"),
            ("gtin,1234567890X", "refused 1 Length"),
            ("gtin,12345678901X", "refused 2 NotDigit 11"),
            ("upce,X123456", "refused 1 Length"),
            ("upce,1X234565", "refused 2 NotDigit 1"),
            ("upce,11234564", "refused 1 Length"),
        ])

    def test_a_byte_that_is_no_digit(self) -> None:
        # At each place, and each byte that stands beside the digits, or is one of another kind.
        others = ["/", ":", " ", "-", "+", "a", "\u0660", "\uff11"]
        self.checks([
            (f"{kind},{text[:place]}{it}{text[place + 1:]}", f"refused 2 NotDigit {place}")
            for kind, text in [
                ("digit", "950110153000"),
                ("gtin", "9501101530003"),
                ("gtin", "96385074"),
                ("gtin", "09501101530003"),
                ("upce", "01234565"),
            ]
            for place in range(len(text) - 3)
            for it in others[:6]
        ])
        self.checks([(f"digit,{it}", "refused 2 NotDigit 0") for it in others])

    def test_each_check_digit_of_a_gtin(self) -> None:
        cases = []
        for payload in ["9638507", "01234500006", "950110153000", "1950110153000"]:
            for digit in "0123456789":
                text = payload + digit
                is_right = digit == check_digit(payload)
                cases.append((f"gtin,{text}", f"gtin {text.zfill(14)}" if is_right else "refused 3 CheckDigit"))
        self.checks(cases)

    def test_the_six_digits_of_upce(self) -> None:
        cases = []
        for number in range(0, 1_000_000, 1_009):
            six = f"{number:06}"
            twelve = expanded(six)
            wrong = "0123456789"[int(twelve[-1]) - 1]
            cases.append((f"upce,0{six}{twelve[-1]}", f"gtin 00{twelve}"))
            cases.append((f"upce,0{six}{wrong}", "refused 3 CheckDigit"))
            cases.append((f"upce,1{six}{twelve[-1]}", "refused 1 Length"))
        self.checks(cases)
