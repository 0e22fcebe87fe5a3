"""That the example in each docstring is the body of a test of crates/acceptance/src/examples.rt, and the other way round."""

from __future__ import annotations

import re
import textwrap
import unittest
from pathlib import Path

ROOT = Path(__file__).resolve().parents[2]
TESTS = ROOT / "crates" / "acceptance" / "src" / "examples.rt"
TEST = re.compile(r"^/// `(\S+)`\n#\[test\]\nfn \w+\(rt: HostRuntime\) -> Result<\(\), Fail> \{\n(.*?)\n    Ok\(\(\)\)\n\}$", re.M | re.S)
EXAMPLE = re.compile(r"/// # Examples\n(.*?)^ *pub fn (\w+)", re.M | re.S)
FENCED = re.compile(r"^ */// ```\n(.*?)^ */// ```$", re.M | re.S)


def tested(text: str) -> dict[str, str]:
    """The lines of each test, by the call that it names."""
    return {call: textwrap.dedent(body) for call, body in TEST.findall(text)}


def shown(crate: str, text: str) -> dict[str, str]:
    """The lines of each example in the docstrings of a file, by the call that they stand above."""
    found = {}
    for example in EXAMPLE.finditer(text):
        types = re.findall(r"^impl (\w+) \{$|^(\})$", text[:example.start()], re.M)
        holder = types[-1][0] + "::" if types and types[-1][0] else ""
        for lines in FENCED.findall(example[1]):
            found[f"{crate}::{holder}{example[2]}"] = re.sub(r"^ */// ?", "", lines, flags=re.M).rstrip("\n")
    return found


def laid_out_alike(examples: dict[str, str]) -> dict[str, str]:
    """The examples on one line each: `rt fmt` lays out tests, and not docstrings."""
    return {call: re.sub(r",? \}", " }", " ".join(lines.split())) for call, lines in examples.items()}


def all_shown() -> dict[str, str]:
    found = {}
    for file in sorted((ROOT / "crates").glob("*/src/**/*.rt")):
        found.update(shown(file.relative_to(ROOT / "crates").parts[0], file.read_text(encoding="utf-8")))
    return found


class ExamplesTest(unittest.TestCase):
    maxDiff = None

    def test_each_example_is_a_test(self) -> None:
        tests = tested(TESTS.read_text(encoding="utf-8"))
        self.assertEqual(laid_out_alike(all_shown()), laid_out_alike(tests))

    def test_no_test_and_no_heading_is_passed_over(self) -> None:
        self.assertEqual(len(tested(TESTS.read_text(encoding="utf-8"))), TESTS.read_text(encoding="utf-8").count("#[test]"))
        headings = sum(file.read_text(encoding="utf-8").count("/// # Examples") for file in (ROOT / "crates").glob("*/src/**/*.rt"))
        self.assertEqual(len(all_shown()), headings)

    def test_an_example_has_three_to_ten_lines(self) -> None:
        for call, lines in all_shown().items():
            with self.subTest(call):
                self.assertIn(lines.count("\n") + 1, range(3, 11))

    def test_a_changed_line_is_noticed(self) -> None:
        text = TESTS.read_text(encoding="utf-8")
        self.assertNotEqual(tested(text.replace("digit, 3", "digit, 4")), tested(text))
        source = "impl One {\n    /// Adds.\n    ///\n    /// # Examples\n    ///\n    /// ```\n    /// add();\n    /// ```\n    pub fn add() {\n"
        self.assertEqual(shown("a", source), {"a::One::add": "add();"})


if __name__ == "__main__":
    unittest.main()
