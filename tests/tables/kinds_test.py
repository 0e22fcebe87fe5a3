"""The lists of kinds that tables/kinds writes of tables/kinds.tsv, that another list is noticed, and the places that it prints."""

from __future__ import annotations

import contextlib
import pathlib
import shutil
import subprocess
import sys
import tempfile
import unittest
from pathlib import Path
from typing import Iterator

ROOT = pathlib.Path(__file__).resolve().parents[2]
FILES = """
    tables/kinds tables/kinds.tsv tests/commands/kinds.py crates/gs1_c/gs1.h bindings/python/noriladle/__init__.py bindings/python/noriladle/commands/labels.py
    bindings/npm/index.d.ts page/gs1.js page/symbol.js tests/embed/library_calls.c tables/remedies.tsv crates/csv_records/src/print/labels.rt
    bindings/npm/README.md bindings/python/README.md tests/alike/npm_answers.mjs
""".split()

# A seventh kind.
JAN9 = "jan9\tJAN-9\t6\t]E9\t9\t70\t7\t7\tJAN9\tJAN-9\tJAN-9\t963850746\t(01)00000963850746\n"


def read(file: Path) -> str:
    return file.read_text(encoding="utf-8")


def change(file: Path, old: str, new: str) -> None:
    file.write_text(read(file).replace(old, new), encoding="utf-8")


class KindsTest(unittest.TestCase):
    def ran(self, root: Path, *words: str) -> subprocess.CompletedProcess[str]:
        return subprocess.run([sys.executable, root / "tables" / "kinds", *words], stdout=subprocess.PIPE, stderr=subprocess.PIPE, text=True, check=False)

    @contextlib.contextmanager
    def copied(self) -> Iterator[tuple[Path, Path]]:
        """A folder with the table and the files that have lists."""
        with tempfile.TemporaryDirectory() as name:
            copy = pathlib.Path(name)
            for file in FILES:
                (copy / file).parent.mkdir(parents=True, exist_ok=True)
                shutil.copy(ROOT / file, copy / file)
            yield copy, copy / "tables" / "kinds.tsv"

    def has_all(self, root: Path) -> None:
        said = self.ran(root, "--check")
        self.assertEqual((said.returncode, said.stdout), (0, ""))

    def test_the_files_have_them(self) -> None:
        self.has_all(ROOT)

    def test_a_changed_kind_is_noticed_and_written(self) -> None:
        with self.copied() as (copy, table):
            change(table, "ean8\tEAN-8\t2\t]E4", "jan8\tJAN-8\t2\t]E3")
            said = self.ran(copy, "--check")
            differ = {line.split(":")[0] for line in said.stdout.splitlines()}
            self.assertEqual((said.returncode, differ), (1, {*FILES[3:]}))
            self.assertEqual(self.ran(copy).returncode, 0)
            self.has_all(copy)
            self.assertIn("GS1_JAN8 = 2", read(copy / "crates" / "gs1_c" / "gs1.h"))

    def test_nothing_is_written_if_a_list_is_not_there(self) -> None:
        with self.copied() as (copy, table):
            table.write_text(read(table) + JAN9, encoding="utf-8")
            change(copy / "bindings" / "npm" / "README.md", "in Node and in the browser: ", "")
            before = [read(copy / file) for file in FILES]
            said = self.ran(copy)
            self.assertNotEqual(said.returncode, 0)
            self.assertIn("bindings/npm/README.md: 0 lists", said.stderr)
            self.assertEqual([read(copy / file) for file in FILES], before)

    def test_places(self) -> None:
        said = self.ran(ROOT, "--places").stdout.splitlines()
        self.assertTrue(any(line.startswith("crates/sheet_core/src/kind.rt: ") for line in said))
        self.assertRegex(said[-1], r"^\d+ files, \d+ lines$")

    def test_what_is_left_of_a_new_kind(self) -> None:
        with self.copied() as (copy, table):
            table.write_text(read(table) + JAN9, encoding="utf-8")
            for words in ["init -q", "add ."]:
                subprocess.run(["git", *words.split()], cwd=copy, check=True)
            self.assertIn("\npage/gs1.js: ", self.ran(copy, "--left").stdout)
            self.assertEqual(self.ran(copy).returncode, 0)
            said = self.ran(copy, "--left").stdout
            self.assertNotIn("page/gs1.js: ", said)
