"""Element strings: each AI with its lengths, its characters and its check digits, alone and beside others."""

from __future__ import annotations

from typing import Iterator

from code128 import C, FNC1, encoded, row, symbol
from element_strings import ANY, CHECKED, PARTS, TIME, check_digit, is_predefined, lengths, value
from program import CommandTest, field
from rows import RowTest
from sheets import SymbolTest, dots_of

# The greatest length of a part with a check digit, by AI: the part is the first.
CHECKED_PARTS = {ai: parts[0].greatest for ai, parts in PARTS.items() if parts[0].format == CHECKED}


class TextsTest(CommandTest):
    """A test of texts."""

    def checks(self, cases: list[tuple[str, str]]) -> None:
        """That texts have these lines."""
        self.gives_lines("check --year 2026", [(f"text,{field(text)}", line) for text, line in cases])


class TableTest(TextsTest):
    def test_the_beginnings_of_texts(self) -> None:
        # No text of one to four digits has another AI, first or after an element.
        texts = [f"{number:0{count}}" for count in range(1, 5) for number in range(10**count)]
        others = [it for it in texts if not any(it[:count] in PARTS for count in (2, 3, 4))]
        self.checks([(it, "refused 5 UnknownAi 0") for it in others])
        self.checks([(f"2011{it}", "refused 5 UnknownAi 4") for it in others])

    def test_each_length(self) -> None:
        cases = []
        for ai in PARTS:
            taken = lengths(ai)
            for length in range(taken[-1] + 2):
                text = ai + value(ai, length)
                if length in taken:
                    line = f"hri ({ai}){text[len(ai):]}"
                elif length < taken[-1]:
                    line = "refused 6 ValueLength 0"
                elif is_predefined(ai):
                    line = f"refused 5 UnknownAi {len(text) - 1}"
                else:
                    line = "refused 10 MissingSeparator 0"
                cases.append((text, line))
        self.checks(cases)

    def test_each_check_digit(self) -> None:
        cases = []
        for ai, length in CHECKED_PARTS.items():
            payload = "64198250371420579"[: length - 1]
            for digit in "0123456789":
                for rest in ["", "A"] if len(PARTS[ai]) == 2 else [""]:
                    text = payload + digit + rest
                    is_right = digit == check_digit(payload)
                    cases.append((ai + text, f"hri ({ai}){text}" if is_right else "refused 8 ValueCheckDigit 0"))
        self.checks(cases)

    def test_the_weight_of_each_digit(self) -> None:
        # A one among zeros weighs 3 or 1, by its place from the right.
        cases = []
        for ai, length in CHECKED_PARTS.items():
            for place in range(length - 1):
                digits = f"{10**place:0{length - 1}}" + ("9" if place % 2 else "7")
                cases.append((ai + digits, f"hri ({ai}){digits}"))
        self.checks(cases)

    def test_a_letter_in_place_of_each_digit(self) -> None:
        cases = []
        for ai, parts in PARTS.items():
            length = sum(it.greatest for it in parts if it.format != ANY)
            text = value(ai, length) if length else ""
            for place in range(length):
                cases.append((ai + text[:place] + "A" + text[place + 1 :], "refused 7 ValueCharacter 0"))
        self.checks(cases)

    def test_a_letter_in_each_other_value(self) -> None:
        self.checks([
            (f"{ai}{front}z", f"hri ({ai}){front}z")
            for ai, parts in PARTS.items()
            if parts[-1].format == ANY
            for front in [value(ai, 13) if len(parts) == 2 else ""]
        ])

    def test_the_order_of_faults(self) -> None:
        self.checks([
            # The length, the characters, the check digit or the date.
            ("01X", "refused 6 ValueLength 0"),
            ("0109501101530X04", "refused 7 ValueCharacter 0"),
            ("17261X01", "refused 7 ValueCharacter 0"),
            ("17X", "refused 6 ValueLength 0"),
            ("422X281", "refused 10 MissingSeparator 0"),
            ("422X", "refused 6 ValueLength 0"),
            ("8018X", "refused 6 ValueLength 0"),
            ("80180123456789012345678", "refused 10 MissingSeparator 0"),
            ("253X", "refused 6 ValueLength 0"),
            ("2539501101530004#", "refused 7 ValueCharacter 0"),
            ("70032613021530X", "refused 10 MissingSeparator 0"),
            ("700326130215X0", "refused 7 ValueCharacter 0"),
            # The first element with a fault.
            ("010950110153000417261301", "refused 8 ValueCheckDigit 0"),
            ("0109501101530003172613010", "refused 9 ValueDate 16"),
            ("2011X", "refused 5 UnknownAi 4"),
            ("10A#^X", "refused 7 ValueCharacter 0"),
        ])


class NeighboursTest(TextsTest):
    def test_before_another_element(self) -> None:
        cases = []
        for ai in PARTS:
            text = value(ai, lengths(ai)[-1])
            line = f"hri ({ai}){text}(20)11"
            cases.append((f"{ai}{text}^2011", line))
            cases.append((f"{ai}{text}2011", line if is_predefined(ai) else "refused 10 MissingSeparator 0"))
            cases.append((f"{ai}{text}^^2011", f"refused 5 UnknownAi {len(ai + text) + 1}"))
            cases.append((f"{ai}{text}^", f"hri ({ai}){text}"))
        self.checks(cases)

    def test_before_digits_that_go_with_the_value(self) -> None:
        self.checks([
            (f"{ai}{value(ai, lengths(ai)[0])}2011", f"hri ({ai}){value(ai, lengths(ai)[0])}2011")
            for ai, parts in PARTS.items()
            if not is_predefined(ai) and parts[0].format != TIME and lengths(ai)[-1] >= lengths(ai)[0] + 4
        ])

    def test_after_another_element(self) -> None:
        cases = []
        for ai in PARTS:
            text = value(ai, lengths(ai)[0])
            for front, element in [("2011", "(20)11"), ("2011^", "(20)11"), ("10A^", "(10)A"), ("422528^", "(422)528")]:
                cases.append((f"{front}{ai}{text}", f"hri {element}({ai}){text}"))
                cases.append((f"{front}{ai}{text[:-1]}", f"refused 6 ValueLength {len(front)}"))
        self.checks(cases)


class SymbolsTest(RowTest, SymbolTest):
    def symbols(self) -> Iterator[tuple[str, str]]:
        """For each AI a text of it and of (20)11, as it is printed, and what is answered to its symbol."""
        for ai in PARTS:
            text = value(ai, lengths(ai)[0])
            separator = "" if is_predefined(ai) else "^"
            yield f"{ai}{text}{separator}2011", f"]C1 ({ai}){text}(20)11"

    def test_separators_are_read_where_they_are_needed(self) -> None:
        self.reads([(row(symbol(C, [FNC1, *encoded(text)])), answer) for text, answer in self.symbols()])

    def test_separators_are_printed_where_they_are_needed(self) -> None:
        self.prints(480, [
            (f"gs1128,{text.removesuffix('2011').rstrip('^')}^2011", dots_of(10, symbol(C, [FNC1, *encoded(text)]), 480))
            for text, _ in self.symbols()
        ])
