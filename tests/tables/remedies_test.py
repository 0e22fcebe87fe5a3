"""The texts that tables/remedies writes of tables/remedies.tsv, that others are noticed, and what the script refuses."""

from __future__ import annotations

import json
import pathlib
import shutil
import subprocess
import sys
import tempfile
import unittest
from pathlib import Path

ROOT = pathlib.Path(__file__).resolve().parents[2]
FILES = ["docs/FAULTS.md", "tables/shop/en.json", "tables/shop/de.json", "crates/gs1_hub/src/remedies.rt"]
# That with the names alone.
NAMES = "page/gs1.js"
# What is replaced in the table, by what, and what is said then.
WRONG = [
    ("\tthere is no text: type it\t", "\t-\t", "tables/remedies.tsv:11: a sentence is missing"),
    ("\tgive the program more memory\t", "\t", "tables/remedies.tsv:53: not 8 fields, each with a text"),
    ("scan at a lower resolution\t-", "-", "tables/remedies.tsv:7: not 8 fields, each with a text"),
    ("make it smaller, or cut it\t-\t-\t-", "make it smaller, or cut it\t-\ta\tb",
     "tables/remedies.tsv:46: sentences stand in the first line of a number, or have a key"),
    ("\tzeros\t", "\tisbn\t", "tables/remedies.tsv:65: another line has the key 'isbn'"),
    ("identifier\t`]I0`", "identifier\tI0", "tables/remedies.tsv:118: no number and name: 'I0'"),
    ("text\t4 Empty\t", "text\tEmpty\t", "tables/remedies.tsv:11: no number and name: 'Empty'"),
    ("row\t24 SymbolCheckDigit", "row\t45 SymbolCheckDigit", "tables/remedies.tsv: no line of 24"),
    ("library\t", "machine\t", "docs/FAULTS.md: 11 tables of faults, not 10"),
]


def copied(folder: str) -> Path:
    """A copy of the files that the script reads and writes."""
    copy = pathlib.Path(folder)
    for file in [*FILES, NAMES, "tables/remedies", "tables/remedies.tsv"]:
        (copy / file).parent.mkdir(parents=True, exist_ok=True)
        shutil.copy(ROOT / file, copy / file)
    return copy


class RemediesTest(unittest.TestCase):
    def ran(self, root: Path, *words: str) -> subprocess.CompletedProcess[str]:
        return subprocess.run([sys.executable, root / "tables" / "remedies", *words], capture_output=True, text=True, check=False)

    def replace(self, path: Path, old: str, new: str) -> None:
        text = path.read_text(encoding="utf-8")
        self.assertTrue(old in text, old)
        path.write_text(text.replace(old, new), encoding="utf-8")

    def test_the_files_have_them(self) -> None:
        said = self.ran(ROOT, "--check")
        self.assertEqual((said.returncode, said.stdout, said.stderr), (0, "", ""))

    def test_a_changed_remedy_is_noticed_and_written(self) -> None:
        with tempfile.TemporaryDirectory() as name:
            copy = copied(name)
            table = copy / "tables" / "remedies.tsv"
            self.replace(table, "type the text\tthere is no text\tthere is no text: type it\tder Text fehlt: bitte eintippen",
                         "type `a` [text](START.md)\tthere is no text\ttype \"a\" text\tbitte einen Text eintippen")
            self.replace(table, "identifier\t`]I0`\titfDigit\tITF whose check", "identifier\t`]I0` to `]I2`\titfDigit\tITF whose check")
            said = self.ran(copy, "--check")
            self.assertEqual((said.returncode, [line.split(":")[0] for line in said.stdout.splitlines()]), (1, [*FILES, NAMES]))
            self.assertEqual(self.ran(copy).returncode, 0)
            said = self.ran(copy, "--check")
            self.assertEqual((said.returncode, said.stdout), (0, ""))
            self.assertIn("| 4 Empty | the field was left empty | type `a` [text](START.md) |", (copy / FILES[0]).read_text(encoding="utf-8"))
            self.assertEqual([json.loads((copy / file).read_text(encoding="utf-8"))["faults"]["4"] for file in FILES[1:3]], ['type "a" text', "bitte einen Text eintippen"])
            self.assertIn("| `]I0` to `]I2` | ITF whose check digit the scanner ignored | switch", (copy / FILES[0]).read_text(encoding="utf-8"))
            self.assertIn('"]I2": "itfDigit"', (copy / NAMES).read_text(encoding="utf-8"))
            self.assertIn('"the field was left empty: type a text",', (copy / FILES[3]).read_text(encoding="utf-8"))

    def test_each_file_is_compared(self) -> None:
        for file in [*FILES, NAMES]:
            with self.subTest(file), tempfile.TemporaryDirectory() as name:
                copy = copied(name)
                self.replace(copy / file, "eintippen" if "de." in file else "type it" if "en." in file else "ValueDate" if file == NAMES else "type the text", "other")
                said = self.ran(copy, "--check")
                self.assertEqual((said.returncode, said.stdout), (1, f"{file}: its remedies are not those of tables/remedies.tsv\n"))

    def test_how_the_source_breaks_its_lines_is_free(self) -> None:
        with tempfile.TemporaryDirectory() as name:
            copy = copied(name)
            self.replace(copy / FILES[3], "left empty: type", "left empty: \\\n         type")
            self.assertEqual(self.ran(copy, "--check").returncode, 0)

    def test_the_files_of_the_libraries(self) -> None:
        with tempfile.TemporaryDirectory() as name:
            folder = pathlib.Path(name)
            for file in ["it.json", "it.js"]:
                self.assertEqual(self.ran(ROOT, "--to", str(folder / file)).returncode, 0)
            told = json.loads((folder / "it.json").read_text(encoding="utf-8"))
            self.assertEqual((sorted(map(int, told["faults"])), told["faults"]["4"]), (list(range(1, 45)), ["Empty", "there is no text"]))
            self.assertEqual((told["causes"]["addOn"], told["identifiers"]["]E3"], told["identifiers"].get("]A0")), ("EAN or UPC with an add-on", "addOn", None))
            self.assertIn('\n  "4": "there is no text: type it",\n', (folder / "it.js").read_text(encoding="utf-8"))

    def test_what_is_refused(self) -> None:
        for old, new, line in WRONG:
            with self.subTest(old), tempfile.TemporaryDirectory() as name:
                copy = copied(name)
                self.replace(copy / "tables" / "remedies.tsv", old, new)
                said = self.ran(copy, "--check")
                self.assertEqual((said.returncode, said.stderr), (1, f"{line}\n"))
