"""Tests spreadsheets: saved_ways.py LISTS WORK. LibreOffice and openpyxl made the files of saved/ (saved/make.py).

One list, saved in many ways, must give the same labels byte for byte. Other spreadsheets are read, or refused with what
saved/expected.csv says. Archives that are made to harm are refused within 2 seconds of processor time and 200 MB, and
damaged ones are read rightly or refused. Its last line is the counts.
"""
from __future__ import annotations

import csv
import glob
import io
import os
import random
import resource
import shutil
import subprocess
import sys
import zipfile
from typing import Callable

from printed import Run, labels_of, run

LISTS, WORK = sys.argv[1:3]
SAVED = os.path.join(LISTS, "saved")
SECONDS, MEGABYTES = 2, 200
FAULTS = []

# ---- one list in many ways

WANTED = [
    ("4012345010008", "Oat biscuits", 290),
    ("012345000065", "Cola 0,5 l", 105),
    ("96385074", "Müsli „Großer Hof“, ungesüßt", 1200),
    ("9783161484100", 'A "quoted" name; with separators, both', 2495),
    ("4012345010374", "4711", 99),
    ("8712345000127", "Crème fraîche", 349),
    ("4012345010749", "Apfelsaft", 123450),
]


def made_from(path: str, end: str) -> tuple[bytes | None, Run]:
    """The file that the command makes of a list, and what it said.

    A PDF file has its list's name, so each way gets the same one.
    """
    path = shutil.copy(path, os.path.join(WORK, f"list{os.path.splitext(path)[1]}"))
    output = os.path.join(WORK, f"labels.{end}")
    if os.path.exists(output):
        os.remove(output)
    done = run(["labels", path, "-o", output, "--stock", "2x5:99x57", "--year", "2026"], WORK)
    if not os.path.exists(output):
        return None, done
    with open(output, "rb") as file:
        return file.read(), done


def says_the_list(done: Run) -> bool:
    """Whether the labels say what the list says, in its order."""
    if len(done.labels) != len(WANTED):
        return False
    return all(
        label.number == number and name in label.text and label.prices(name) == [cents]
        for label, (number, name, cents) in zip(done.labels, WANTED)
    )


def try_ways() -> tuple[int, int]:
    paths = sorted(glob.glob(os.path.join(SAVED, "ways", "*")))
    alike = 0
    first: dict[str, bytes] = {}
    for path in paths:
        is_alike = True
        for end in ("svg", "pdf", "zpl"):
            data, done = made_from(path, end)
            is_right = (
                data is not None and data == first.setdefault(end, data) and (end != "svg" or says_the_list(done))
            )
            if not is_right:
                is_alike = False
                FAULTS.append(
                    f"{os.path.basename(path)} as .{end}: status {done.status}: {done.said[:3]}; "
                    f"labels {[label.texts for label in done.labels[:2]]}"
                )
        alike += is_alike
    print(f"one list in {len(paths)} ways: {alike} give the same labels as .svg, .pdf and .zpl")
    return alike, len(paths)


# ---- spreadsheets as programs write them

SHORT = {
    "4012345010008": ("Oat biscuits", 290), "4012345010374": ("Rye bread", 319), "4012345010749": ("Apple juice", 149),
}


def what_is_wrong(done: Run, row: dict[str, str]) -> str:
    counts = [int(count) for count in row["labels"].split(" / ")]
    if len(done.labels) not in counts or done.status != (0 if done.labels else 1):
        return f"{row['labels']} labels are wanted, and there are {len(done.labels)}"
    for label in done.labels:
        name, cents = SHORT.get(label.number, ("", None))
        if name not in label.text or label.prices() != [cents]:
            return "a label is wrong"
    said = "\n".join(done.said)
    if row["says"] and not any(words.lower() in said.lower() for words in row["says"].split(" / ")):
        return f"it does not say '{row['says']}'"
    if not done.labels and len(done.said) > 4:
        return f"it says {len(done.said)} lines"
    return ""


def try_spreadsheets() -> tuple[int, int]:
    right = count = 0
    with open(os.path.join(SAVED, "expected.csv"), encoding="utf-8", newline="") as file:
        rows = list(csv.DictReader(file, delimiter=";"))
    for row in rows:
        for path in sorted(glob.glob(os.path.join(SAVED, f"{row['file']}.*"))):
            done = labels_of(path, WORK)
            wrong = what_is_wrong(done, row)
            right, count = right + (not wrong), count + 1
            if wrong:
                FAULTS.append(
                    f"{os.path.basename(path)}: {wrong}: status {done.status}: {done.said[:3]}; "
                    f"labels {[label.texts for label in done.labels]}"
                )
    print(f"spreadsheets: {right} of {count} are read or refused as they must be")
    return right, count


# ---- archives that are damaged, or made to harm


def changed(name: str, part: str, change: Callable[[bytes], bytes]) -> bytes:
    """A spreadsheet of saved/ with one of its parts changed, or left out."""
    made = io.BytesIO()
    with zipfile.ZipFile(os.path.join(SAVED, name)) as old, zipfile.ZipFile(made, "w", zipfile.ZIP_DEFLATED) as new:
        for info in old.infolist():
            data = old.read(info)
            data = change(data) if info.filename == part else data
            if data is not None:
                new.writestr(info.filename, data)
    return made.getvalue()


SHEET, CONTENT = "xl/worksheets/sheet1.xml", "content.xml"
LAUGHS = (
    b'<!DOCTYPE x [<!ENTITY a "'
    + b"ha" * 500
    + b'">'
    + b"".join(b'<!ENTITY %c "%s">' % (98 + at, b"&%c;" % (97 + at) * 20) for at in range(8))
    + b"]>"
)
FILE = b'<!DOCTYPE x [<!ENTITY a SYSTEM "file:///etc/hostname">]>'


def declared(doctype: bytes) -> Callable[[bytes], bytes]:
    """Puts a DOCTYPE behind the XML declaration, and one of its entities into a text."""

    def change(data: bytes) -> bytes:
        at = data.index(b"?>") + 2
        return data[:at] + doctype + data[at:].replace(b"Oat biscuits", b"&a;" if doctype is FILE else b"&i;")

    return change


def padded(data: bytes) -> bytes:
    """300 MB of blanks in a part, which take 300 kB in the archive."""
    at = data.index(b"?>") + 2
    return data[:at] + b" " * 300_000_000 + data[at:]


def many_rows(data: bytes) -> bytes:
    """An article's line that stands there a million times."""
    first = data.index(b"<table:table-row", data.index(b"Oat biscuits") - 1000)
    at = data.rindex(b"<table:table-row", 0, data.index(b"Oat biscuits"))
    return data[: max(first, at)] + data[max(first, at) :].replace(
        b"<table:table-row", b'<table:table-row table:number-rows-repeated="1000000"', 1
    )


def many_columns(data: bytes) -> bytes:
    at = data.rindex(b"<table:table-cell", 0, data.index(b"Oat biscuits"))
    return data[:at] + data[at:].replace(
        b"<table:table-cell", b'<table:table-cell table:number-columns-repeated="16000"', 1
    )


def far_cell(data: bytes) -> bytes:
    return data.replace(
        b"</sheetData>", b'<row r="1048576"><c r="XFD1048576" t="inlineStr"><is><t>far</t></is></c></row></sheetData>'
    )


def far_cells(data: bytes) -> bytes:
    """Twenty thousand lines whose only cell is in the last column."""
    cell = b'<row r="%d"><c r="XFD%d" t="inlineStr"><is><t>far</t></is></c></row>'
    return data.replace(b"</sheetData>", b"".join(cell % (line, line) for line in range(1_000, 21_000)) + b"</sheetData>")


HARMFUL = {
    "bomb.xlsx": ("two-sheets.xlsx", SHEET, padded),
    "bomb.ods": ("two-sheets.ods", CONTENT, padded),
    "doctype.ods": ("two-sheets.ods", CONTENT, declared(LAUGHS)),
    "doctype.xlsx": ("two-sheets.xlsx", "xl/sharedStrings.xml", declared(LAUGHS)),
    "file.ods": ("two-sheets.ods", CONTENT, declared(FILE)),
    "file.xlsx": ("two-sheets.xlsx", "xl/sharedStrings.xml", declared(FILE)),
    "rows.ods": ("two-sheets.ods", CONTENT, many_rows),
    "columns.ods": ("two-sheets.ods", CONTENT, many_columns),
    "far.xlsx": ("two-sheets.xlsx", SHEET, far_cell),
    "gaps.xlsx": ("two-sheets.xlsx", SHEET, far_cells),
    "no-sheet.xlsx": ("two-sheets.xlsx", SHEET, lambda data: None),
    "no-content.ods": ("two-sheets.ods", CONTENT, lambda data: None),
    "half-a-sheet.xlsx": ("two-sheets.xlsx", SHEET, lambda data: data[: len(data) // 2]),
    "no-workbook.xlsx": ("two-sheets.xlsx", "xl/workbook.xml", lambda data: None),
    "no-xml.ods": ("two-sheets.ods", CONTENT, lambda data: b"\0" * 99),
}


def within_limits(path: str) -> tuple[Run, bool, str]:
    """Runs the command in a process of its own: the run, whether it kept its limits, and its seconds and megabytes."""
    words = [
        sys.executable, __file__, "", WORK, "run", path, "-o", os.path.join(WORK, "harm.svg"), "--stock", "2x5:99x57",
    ]
    done = subprocess.run(
        words, stdout=subprocess.DEVNULL, stderr=subprocess.PIPE, timeout=120, env={**os.environ, "LC_ALL": "C.UTF-8"}
    )
    *said, used = done.stderr.decode("utf-8", "replace").splitlines()
    seconds, megabytes = map(float, used.split())
    return Run(done.returncode, said, []), seconds <= SECONDS and megabytes <= MEGABYTES, used


def try_harmful() -> tuple[int, int]:
    right = 0
    for name, (source, part, change) in HARMFUL.items():
        path = os.path.join(WORK, name)
        with open(path, "wb") as file:
            file.write(changed(source, part, change))
        done, is_within, used = within_limits(path)
        is_right = (
            done.status == 1
            and 1 <= len(done.said) <= 3
            and is_within
            and not any("Traceback" in line for line in done.said)
        )
        right += is_right
        if not is_right:
            FAULTS.append(f"{name}: status {done.status} in {used} (s, MB): {[line[-300:] for line in done.said[-3:]]}")
        os.remove(path)
    print(f"harmful archives: {right} of {len(HARMFUL)} refused within {SECONDS} s and {MEGABYTES} MB")
    return right, len(HARMFUL)


def try_damaged(count: int) -> tuple[int, int]:
    """Bytes of an archive are changed, or its end is missing: it is read rightly or refused, and nothing is raised."""
    chance, right = random.Random(4), 0
    sources = [os.path.join(SAVED, "ways", name) for name in ("libreoffice.xlsx", "libreoffice.ods", "openpyxl.xlsx")]
    for number in range(count):
        with open(sources[number % 3], "rb") as file:
            data = bytearray(file.read())
        if number % 4 == 0:
            del data[chance.randrange(len(data)) :]
        for _ in range(chance.randrange(1, 4) if number % 4 else 0):
            data[chance.randrange(len(data))] = chance.randrange(256)
        path = os.path.join(WORK, f"damaged{os.path.splitext(sources[number % 3])[1]}")
        with open(path, "wb") as file:
            file.write(data)
        try:
            done = labels_of(path, WORK)
            is_right = (
                done.status == 1 and not done.labels and bool(done.said) or done.status == 0 and says_the_list(done)
            )
            if not is_right:
                FAULTS.append(f"damaged archive {number}: status {done.status}: {done.said[:3]}")
        except Exception as error:  # Nothing may be raised, whatever it is.
            is_right = False
            FAULTS.append(f"damaged archive {number}: {type(error).__name__}: {error}")
        right += is_right
    print(f"damaged archives: {right} of {count} are read rightly or refused")
    return right, count


def main() -> None:
    ways, sheets, harmful, damaged = try_ways(), try_spreadsheets(), try_harmful(), try_damaged(300)
    print("\n".join(FAULTS[:60]), file=sys.stderr, end="\n" if FAULTS else "")
    print(
        f"saved: {ways[0]} of {ways[1]} ways, {sheets[0]} of {sheets[1]} spreadsheets, "
        f"{harmful[0]} of {harmful[1]} harmful and {damaged[0]} of {damaged[1]} damaged archives as they must be"
    )
    sys.exit(1 if FAULTS else 0)


def run_once(words: list[str]) -> None:
    """Makes labels, and reports processor seconds and megabytes as the last line of standard error."""
    done = subprocess.run([sys.executable, "-m", "noriladle", "labels", *words], stdout=subprocess.DEVNULL)
    used = resource.getrusage(resource.RUSAGE_CHILDREN)
    sys.stderr.write(f"{used.ru_utime + used.ru_stime:.2f} {used.ru_maxrss / 1024:.0f}\n")
    sys.exit(done.returncode)


if sys.argv[3:4] == ["run"]:
    run_once(sys.argv[4:])
main()
