"""The table of AIs: the files that tables/ais writes of it, and what the script refuses."""

from __future__ import annotations

import os
import subprocess
import tempfile
import unittest

ROOT = os.path.join(os.path.dirname(os.path.abspath(__file__)), "..", "..")
HEAD = "ai\tpredefined\tformat\tassociations\ttitle\tprofile\n"
GOOD = "00\tyes\tN18,csum,key\t-\tSSCC\tsame\n10\tno\tX..20\treq=01\tBATCH/LOT\tsame\n240\tno\tX..30\t-\t-\tsame\n"

# A line behind these, and what is said of it.
WRONG = [
    ("10\tno\tX..20\t-\tBATCH/LOT\tsame", "AI 10 stands in line 3 too"),
    ("101\tno\tX..20\t-\tBATCH/LOT\tsame", "AI 101 begins with AI 10 of line 3"),
    ("000-005\tno\tX..20\t-\tBATCH/LOT\tsame", "AI 000 begins with AI 00 of line 2"),
    ("24\tno\tX..20\t-\t-\t-", "AI 24 is the beginning of AI 240 of line 4"),
    ("21\tno\tX..20,pcnec\t-\tSERIAL\tsame", "unknown rule: 'pcnec'"),
    ("21\tno\tW..20\t-\tSERIAL\tsame", "no part: 'W..20'"),
    ("21\tno\tX..20,csum,pcenc,nonzero\t-\tSERIAL\tsame", "no rule of one part: 'pcenc,nonzero'"),
    ("21\tno\tX..20 N2\t-\tSERIAL\tsame", "a part before the last has several lengths"),
    ("20\tyes\tN..2\t-\tVARIANT\tsame", "a predefined length, and parts of several lengths"),
    ("21\tmaybe\tX..20\t-\tSERIAL\tsame", "predefined is neither yes nor no: 'maybe'"),
    ("2x\tno\tX..20\t-\tSERIAL\tsame", "no AI: '2x'"),
    ("29-21\tno\tX..20\t-\tSERIAL\tsame", "no AI: '29-21'"),
    ("21\tno\tX..20\t01\tSERIAL\tsame", "no association: '01'"),
    ("21\tno\tX..20\t-\tSERIAL\talmost", "no place in the profile: 'almost'"),
    ("21\tno\tX..20\t-\tSERIAL", "5 fields, not 6"),
]


def made(*words: str) -> tuple[int, str, str]:
    """What tables/ais says: its status, its output and its errors."""
    it = subprocess.run([os.path.join(ROOT, "tables", "ais"), "--check", *words], capture_output=True, text=True, timeout=60)
    return it.returncode, it.stdout, it.stderr


class TableTest(unittest.TestCase):
    def test_the_files_are_what_is_made(self) -> None:
        self.assertEqual(made(), (0, "", ""))

    def test_what_is_refused(self) -> None:
        with tempfile.TemporaryDirectory() as folder:
            path = os.path.join(folder, "ais.tsv")
            for line, said in WRONG:
                with self.subTest(line), open(path, "w", encoding="utf-8") as file:
                    file.write(HEAD + GOOD + line + "\n")
                    file.close()
                    self.assertEqual(made("--table", path), (1, "", f"{path}:5: {said}\n"))

    def test_a_line_that_does_not_end(self) -> None:
        with tempfile.NamedTemporaryFile("w", suffix=".tsv") as file:
            file.write(HEAD + GOOD.rstrip("\n"))
            file.flush()
            self.assertEqual(made("--table", file.name), (1, "", f"{file.name}: the last line does not end\n"))
