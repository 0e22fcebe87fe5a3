"""Each byte in an element string: the 82 characters of a value, the two separators, and all else."""

from __future__ import annotations

from element_strings import X
from program import CommandTest, field

SEPARATORS = "^\x1d"

ASCII = [chr(number) for number in range(128)]

# Letters of other languages and signs of 2, 3 and 4 bytes in UTF-8.
OTHER = [chr(number) for number in range(128, 256)] + list("\u0100\u07ff\u0800\u20ac\uff21\U00010000\U0001f600")


class CharactersTest(CommandTest):
    def checks(self, cases: list[tuple[str, str]]) -> None:
        """That texts have these lines."""
        self.gives_lines("check --year 2026", [(f"text,{field(text)}", line) for text, line in cases])

    def test_there_are_82(self) -> None:
        self.assertEqual((len(X), len(set(X))), (82, 82))

    def test_within_a_value(self) -> None:
        cases = []
        for it in ASCII + OTHER:
            if it in X:
                line = f"hri (10)A{it}21B"
            else:
                line = "hri (10)A(21)B" if it in SEPARATORS else "refused 7 ValueCharacter 0"
            cases.append((f"10A{it}21B", line))
        self.checks(cases)

    def test_first_in_a_value(self) -> None:
        cases = []
        for it in ASCII + OTHER:
            fault = "refused 6 ValueLength 0" if it in SEPARATORS else "refused 7 ValueCharacter 0"
            cases.append((f"10{it}A", f"hri (10){it}A" if it in X else fault))
        self.checks(cases)

    def test_last_in_a_value(self) -> None:
        cases = []
        for it in ASCII + OTHER:
            fault = "hri (10)A" if it in SEPARATORS else "refused 7 ValueCharacter 0"
            cases.append((f"10A{it}", f"hri (10)A{it}" if it in X else fault))
        self.checks(cases)

    def test_in_digits(self) -> None:
        for front, after, fault in [
            ("4225", "8", "refused 6 ValueLength 0"),
            ("30", "", "refused 6 ValueLength 0"),
            ("11261", "23", "refused 6 ValueLength 0"),
        ]:
            cases = []
            for it in ASCII:
                if it in "012":
                    ai = "422" if front[0] == "4" else front[:2]
                    line = f"hri ({ai}){front[len(ai):]}{it}{after}"
                elif it in "3456789":
                    continue
                else:
                    line = fault if it in SEPARATORS else "refused 7 ValueCharacter 0"
                cases.append((f"{front}{it}{after}", line))
            self.checks(cases)

    def test_in_place_of_an_identifier(self) -> None:
        others = [it for it in ASCII + OTHER if not it.isascii() or not it.isdigit()]
        self.checks([
            case
            for it in others
            for case in [
                (f"{it}0A", "refused 5 UnknownAi 0"),
                (f"1{it}A", "refused 5 UnknownAi 0"),
                (f"41{it}9501101530003", "refused 5 UnknownAi 0"),
                (f"310{it}123456", "refused 5 UnknownAi 0"),
                (f"2011{it}{it}10A", f"refused 5 UnknownAi {5 if it in SEPARATORS else 4}"),
            ]
        ])

    def test_separators(self) -> None:
        cases = []
        for it in SEPARATORS:
            cases += [
                (it, "refused 5 UnknownAi 0"),
                (f"{it}10A", "refused 5 UnknownAi 0"),
                (f"10A{it}{it}21B", "refused 5 UnknownAi 4"),
                (f"10A{it}21B{it}", "hri (10)A(21)B"),
                (f"10A{it}21B{it}{it}", "refused 5 UnknownAi 8"),
                # After a value whose length is known as well.
                (f"2011{it}10A", "hri (20)11(10)A"),
                (f"2011{it}", "hri (20)11"),
                (f"2011{it}{it}", "refused 5 UnknownAi 5"),
                (f"20{it}11", "refused 6 ValueLength 0"),
                (f"201{it}1", "refused 6 ValueLength 0"),
                (f"2{it}011", "refused 5 UnknownAi 0"),
            ]
        self.checks(cases)

    def test_bytes_that_are_no_utf_8(self) -> None:
        records = b"".join(b"text,10A%c21B\n" % byte for byte in range(128, 256))
        self.gives("check --year 2026", records, 128 * "refused 7 ValueCharacter 0\n")
