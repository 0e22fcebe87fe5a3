#!/usr/bin/env python3
"""Tries the must-fail edits of the scripts: makes each in a copy, where the tests that it names must fail.

Usage: try_edits.py [FILE..]. Without files it takes tests/live/must-fail/*.edit. An edit in them is

    edit: NAME
    test: WORDS             the tests, as arguments of pytest, from the root of the repository
    file: PATH              a script, from the root
    old: TEXT               text that is there once; it may have several lines
    new: TEXT               what replaces it

with more of the last three if it changes several places. Tests that exceed their time have failed. The last line is
'N edits: F found, M missed', and the status is 0 if M is 0.
"""
from __future__ import annotations

import contextlib
import os
import re
import shlex
import shutil
import signal
import subprocess
import sys
import tempfile
from concurrent.futures import ThreadPoolExecutor
from dataclasses import dataclass
from pathlib import Path
from typing import Dict, Iterator, List, Tuple

ROOT = Path(__file__).resolve().parents[2]
COPIED = ("bindings/python", "examples/till", "tests/live", "tests/page/browser.py", "bench/rows.py")
SECONDS = "100"
EDIT = re.compile(r"edit: ([^\n]*)\ntest: ([^\n]*)\n(.*?)(?=\nedit: |\Z)", re.DOTALL)
PAIR = re.compile(r"file: ([^\n]*)\nold: (.*?)\nnew: ?(.*?)(?=\nfile: |\s*\Z)", re.DOTALL)


@dataclass(frozen=True)
class Edit:
    """An edit: its name, the arguments of its tests, and the changes, each a script with its old and new text."""

    name: str
    test: str
    changes: List[Tuple[str, str, str]]

    def changed(self) -> Dict[str, str]:
        """The scripts with this edit, by their paths; they must be programs still."""
        texts: Dict[str, str] = {}
        for path, old, new in self.changes:
            text = texts.get(path) or (ROOT / path).read_text()
            if text.count(old) != 1:
                sys.exit(f"{self.name}: its old text is in {path} {text.count(old)} times, and not once: {old}")
            texts[path] = text.replace(old, new)
        for path, text in texts.items():
            if path.endswith(".py"):
                try:
                    compile(text, path, "exec")
                except SyntaxError as fault:
                    sys.exit(f"{self.name}: {fault}")
        return texts

    def is_found(self) -> bool:
        """Whether its tests fail in a copy with this edit."""
        with tempfile.TemporaryDirectory(prefix="edit-") as folder:
            for path in COPIED:
                Path(folder, path).parent.mkdir(parents=True, exist_ok=True)
                if (ROOT / path).is_dir():
                    shutil.copytree(ROOT / path, Path(folder, path))
                else:
                    shutil.copy(ROOT / path, Path(folder, path))
            for path, text in self.changed().items():
                Path(folder, path).write_text(text)
            words = ["timeout", "-s", "INT", "-k", "10", SECONDS, sys.executable, "-m", "pytest", "-q", "-x", f"--basetemp={folder}/tmp"]
            paths = os.pathsep.join([f"{folder}/python", f"{folder}/tests/live"])
            more = {"PYTHONPATH": paths, "SCANS": "6000", "JOURNAL_SCANS": "6000", "REPOSITORY": str(ROOT)}
            with subprocess.Popen([*words, *shlex.split(self.test)], cwd=folder, env={**os.environ, **more}, stdin=subprocess.DEVNULL,
                                  stdout=subprocess.PIPE, stderr=subprocess.PIPE, text=True, start_new_session=True) as tests:
                out, error = tests.communicate()
                with contextlib.suppress(ProcessLookupError):
                    os.killpg(tests.pid, signal.SIGKILL)  # Services that a test has left when it failed.
        # If a test passed and then had an error, a service wrote to standard error.
        wrong = " failed" in out or (" passed" in out and " error" in out)
        is_late = tests.returncode in (124, 137, -9)
        found = tests.returncode == 1 and wrong or is_late
        print(f"{'found' if found else 'MISSED'}: {self.name}{', by its time' if is_late else ''}", flush=True)
        if not found:
            print(out[-500:] + error[-500:], file=sys.stderr)
        return found


def edits_of(file: Path) -> Iterator[Edit]:
    for name, test, changes in EDIT.findall(file.read_text()):
        yield Edit(name, test, PAIR.findall(changes))


def main() -> int:
    files = [Path(word) for word in sys.argv[1:]] or sorted(ROOT.glob("tests/live/must-fail/*.edit"))
    edits = [edit for file in files for edit in edits_of(file)]
    for edit in edits:
        edit.changed()
    with ThreadPoolExecutor(4) as pool:
        found = list(pool.map(Edit.is_found, edits))
    print(f"{len(found)} edits: {sum(found)} found, {len(found) - sum(found)} missed")
    return 0 if found and all(found) else 1


if __name__ == "__main__":
    sys.exit(main())
