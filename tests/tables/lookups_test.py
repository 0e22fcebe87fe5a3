"""The lookup tables that tables/lookups writes, and that a changed one is noticed."""

from __future__ import annotations

import pathlib
import shutil
import subprocess
import sys
import tempfile
import unittest
from pathlib import Path

ROOT = pathlib.Path(__file__).resolve().parents[2]


class LookupsTest(unittest.TestCase):
    def compare(self, root: Path) -> subprocess.CompletedProcess[str]:
        return subprocess.run([sys.executable, root / "tables" / "lookups", "--compare"], stdout=subprocess.PIPE, text=True, check=False)

    def test_the_sources_have_them(self) -> None:
        said = self.compare(ROOT)
        self.assertEqual((said.returncode, said.stdout), (0, ""))

    def test_a_changed_entry_is_noticed(self) -> None:
        with tempfile.TemporaryDirectory() as name:
            copy = pathlib.Path(name)
            shutil.copytree(ROOT / "tables", copy / "tables")
            for crate in ["ean_code", "code128_code", "csv_records"]:
                shutil.copytree(ROOT / "crates" / crate / "src", copy / "crates" / crate / "src")
            source = copy / "crates" / "code128_code" / "src" / "lookup.rt"
            source.write_text(source.read_text(encoding="utf-8").replace(" 92, ", " 93, ", 1), encoding="utf-8")
            said = self.compare(copy)
            self.assertEqual((said.returncode, said.stdout), (1, "code128_code/src/lookup.rt: VALUES is not what tables/lookups makes\n"))
