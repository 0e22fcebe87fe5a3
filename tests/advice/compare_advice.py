"""Asks Python, the npm package, the page and the commands what to do about random texts. Usage: compare_advice.py PACKAGE SCANS PRINTED SEED.

No remedy may speak of another command, each text that one names in place of the text must be read by the call that was asked, and Python and the
npm package, and the page and the commands, must say the same. Its last line is the counts.
"""
from __future__ import annotations

import csv
import io
import json
import os
import pathlib
import pty
import random
import re
import select
import subprocess
import sys
import tempfile
import tty
from typing import Any, Callable

HERE = pathlib.Path(__file__).resolve().parent
ROOT = HERE.parents[1]
sys.path[:0] = [str(ROOT / "bindings" / "python"), str(HERE)]
sys.dont_write_bytecode = True
import noriladle  # noqa: E402
from noriladle import Refusal
import random_scans  # noqa: E402
from noriladle import _shop  # noqa: E402
from noriladle._advice import remedy_of  # noqa: E402
from noriladle._texts import read_text  # noqa: E402
from random_scans import YEAR  # noqa: E402

PACKAGE, SCANS, PRINTED, SEED = sys.argv[1], *map(int, sys.argv[2:5])
COMMAND = [sys.executable, "-m", "noriladle"]
# Words of a command with records, of one with a grid, and of options; the texts asked here are in no file.
OF_PROGRAM = r"gs1_hub|--[a-z]|`|\bin (check|print|lanes|live)\b|\b(digit|upce|gtin|text) (takes|and all)|\b(field|record|lane|option|grid|sheet)s?\b"
OF_LISTS = r"|\b(line|cell|heading|kind)s?\b|noriladle|the other command"
OF_PICTURES = r"|\b(picture|dots|row|pixel|camera)s?\b"
IN_LIBRARIES = re.compile(OF_PROGRAM + OF_LISTS + OF_PICTURES)
IN_LISTS = re.compile(OF_PROGRAM + OF_PICTURES + r"|noriladle|the other command")
OF_LABELS = re.compile(OF_PROGRAM.replace("|sheet", "") + r"|the other command|\b(line|cell|heading)s?\b" + OF_PICTURES)
OF_ROWS = re.compile(OF_PROGRAM + OF_LISTS + r"|\b(picture|pixel|camera)s?\b")
OF_A_PICTURE = re.compile(OF_PROGRAM + OF_LISTS)
MOST_SHOWN = 10


class Count:
    """What is wrong, and how many remedies were seen of each caller."""

    def __init__(self) -> None:
        self.fixes = 0
        self.wrong: dict[str, int] = {}
        self.seen: dict[str, int] = {}

    def note(self, what: str, shown: object) -> None:
        self.wrong[what] = self.wrong.get(what, 0) + 1
        if self.wrong[what] <= MOST_SHOWN:
            print(f"{what}: {shown}", file=sys.stderr)

    def look(self, caller: str, words: re.Pattern[str], asked: object, remedy: str) -> None:
        """Looks for words of another command that do not stand in what was asked."""
        self.seen[caller] = self.seen.get(caller, 0) + 1
        found = [it[0] for it in words.finditer(remedy) if it[0] not in str(asked)]
        if found or not remedy:
            self.note(f"{caller} speaks of another command", f"{asked!r}: {remedy!r}: {found}")


def refusal_of(call: Callable[..., object], *words: Any) -> Refusal | None:
    try:
        call(*words)
    except noriladle.Refusal as refusal:
        return refusal
    return None


def answer_of(pairs: list[list[str]]) -> noriladle.Answer:
    return noriladle.Answer(None, tuple(noriladle.Element(ai, value) for ai, value in pairs))


CALLS: dict[str, Callable[..., object]] = {
    "scan": lambda text: noriladle.read_scan(text, YEAR), "elements": lambda text: noriladle.parse_elements(text, YEAR),
    "gtin": noriladle.read_gtin, "digit": noriladle.check_digit, "label": lambda kind, text: noriladle.label_symbol(kind, text, YEAR),
    "compose": lambda ai, value: noriladle.compose([(ai, value)], YEAR), "row": lambda widths: noriladle.read_row(widths, YEAR),
    "text": lambda text: noriladle.read_text(text, YEAR), "scanned": lambda pairs, identifier: answer_of(pairs).scan(identifier, YEAR),
    "link": lambda pairs, stem: answer_of(pairs).link(stem, YEAR), "conflicts": lambda pairs: noriladle.conflicts(answer_of(pairs))}


def questions(chance: random.Random, texts: list[str]) -> list[tuple[Any, ...]]:
    """Calls of the libraries: each text as a scan, and some as what other calls take."""
    asked: list[tuple[Any, ...]] = [("scan", text) for text in texts]
    for text in chance.sample(texts, len(texts) // 5):
        behind = re.sub(r"^(\][A-Za-z][0-9]|\^|\x1d)", "", text)
        asked.append((chance.choice(["elements", "gtin", "digit"]), chance.choice([text, behind])))
        asked.append(("label", chance.choice(["ean13", "upca", "ean8", "upce", "gs1128", "itf14", "qr"]), behind))
        asked.append(("label", "gs1128", chance.choice(["4012345010008", "96385074", behind])))
        asked.append(("compose", behind[:chance.choice([2, 3, 4])], behind[4:].replace("^", "")))
        asked.append(("text", chance.choice([text, behind])))
        # Whole elements, and wrong ones.
        read = refusal_of(noriladle.read_scan, text, YEAR) is None
        pairs = [[it.ai, it.value] for it in noriladle.read_scan(text, YEAR)] if read else [[behind[:2], behind[2:].replace("\0", "")]]
        pairs *= chance.choice([0, 1, 1, 1, 1, 1, 1, 9])
        asked.append(("scanned", pairs, chance.choice(["]C1", "]d2", "]E0", "C1", ""])))
        asked.append(("link", pairs, chance.choice(["https://id.gs1.org", "http://example.com/a", "ftp://example.com", "https://example.com/?a", ""])))
        asked.append(("conflicts", pairs))
    for _ in range(len(texts) // 20):
        widths = [chance.choice([10, *noriladle.label_symbol("ean13", "4012345010008", YEAR).widths, 0, 70_000][:chance.randrange(1, 64)])
                  for _ in range(chance.choice([3, 31, 61, 4, 47]))]
        asked.append(("row", widths))
    return asked


def of_libraries(count: Count, asked: list[tuple[Any, ...]]) -> None:
    """What Python and the npm package say."""
    lines = "".join(f"{json.dumps(it)}\n" for it in asked)
    npm = subprocess.run(["node", HERE / "npm_advice.mjs", PACKAGE], input=lines, stdout=subprocess.PIPE, check=True, text=True).stdout.split("\n")
    for question, line in zip(asked, npm):
        call, *words = question
        refusal, told = refusal_of(CALLS[call], *words), json.loads(line)
        python = refusal and [str(refusal), refusal.remedy, list(refusal.fixes)]
        if told != python:
            count.note("Python and npm differ", f"{question}: {python} {told}")
        if not refusal:
            continue
        own = {"label": OF_LABELS, "row": OF_ROWS}.get(call, IN_LIBRARIES)
        count.look(call, own, words, refusal.remedy)
        count.look(call, own, words, refusal.cause)
        for fix in refusal.fixes:
            count.fixes += 1
            if refusal_of(CALLS[call], *words[:-1], fix) or fix.replace("\x1d", "\\x1d") not in refusal.remedy + str(refusal.fixes):
                count.note(f"{call} does not read what it names", f"{question}: {fix!r}")


def of_lists(count: Count, texts: list[str]) -> list[str]:
    """What the page, `noriladle check` and `noriladle labels` say of texts as people type them."""
    page = subprocess.run(["node", HERE / "page_advice.js"], input="".join(f"{json.dumps(it)}\n" for it in texts), stdout=subprocess.PIPE, check=True, text=True)
    refused = []
    for text, line in zip(texts, page.stdout.split("\n")):
        refusal, told = refusal_of(read_text, text, YEAR), json.loads(line)
        advice = refusal and remedy_of(text, refusal, YEAR)
        if told != (refusal and [str(refusal), str(advice), list(advice.fixes)]):
            count.note("Python and page differ", f"{text!r}: {refusal} {advice and str(advice)} {told}")
        if refusal:
            refused.append(text)
            count.look("page", IN_LISTS, text, str(advice))
            for fix in advice.fixes:
                count.fixes += 1
                if refusal_of(read_text, fix, YEAR):
                    count.note("the page does not read what it names", f"{text!r}: {fix!r}")
    return refused


def listed(texts: list[str]) -> bytes:
    """A list of these texts, with a heading."""
    out = io.StringIO()
    csv.writer(out, delimiter=";", quoting=csv.QUOTE_ALL).writerows([["gtin", "name"], *([text, "Oats"] for text in texts)])
    return out.getvalue().encode()


def of_commands(count: Count, refused: list[str]) -> None:
    """What `noriladle check` and `noriladle labels` print of texts that are refused."""
    refused = [text for text in refused if text.strip() and not re.search("[\r\n\0]", text)]
    env = {**os.environ, "PYTHONPATH": str(ROOT / "bindings" / "python"), "LC_ALL": "C.UTF-8"}
    told = subprocess.run([*COMMAND, "check", "--json", "--year", str(YEAR), "--column", "gtin=gtin"], input=listed(refused), capture_output=True, env=env, check=False)
    lines = [json.loads(line) for line in told.stdout.decode().splitlines()]
    for line in lines:
        if line.get("refused", 0) is None or not line.get("name"):
            count.note("check has no number", line)
        count.look("check", IN_LISTS, line["text"], line["remedy"])
        refusal = refusal_of(read_text, line["text"], YEAR)
        if not refusal or line["remedy"] != str(remedy_of(line["text"], refusal, YEAR)):
            count.note("check and Python differ", line)
    if len(lines) < 0.9 * len(refused):
        count.note("check has left out texts", f"{len(lines)} of {len(refused)}: {told.stderr.decode()[-300:]}")
    with tempfile.TemporaryDirectory() as folder:
        words = ["labels", "--leave-out", "--no-price", "--year", str(YEAR), "--column", "gtin=gtin", "-o", f"{folder}/labels.svg"]
        told = subprocess.run([*COMMAND, *words], input=listed([*refused[:4000], "4012345010008"]), capture_output=True, env=env, check=False)
    found = re.findall(r"^standard input:(\d+): (.*)$", told.stderr.decode(), re.MULTILINE)
    for line, said in found:
        if re.search(": refused ", said):
            text = refused[int(line) - 2]
            count.look("labels", IN_LISTS, [text, text.replace("\x1d", "^")], said.rpartition(": refused ")[2])
    if count.seen.get("labels", 0) < 0.5 * min(4000, len(refused)):
        count.note("labels has left out texts", told.stderr.decode()[-300:])


def of_scanner(count: Count, texts: list[str]) -> None:
    """What `noriladle scanner` prints of texts on a serial line."""
    ours, theirs = pty.openpty()
    tty.setraw(theirs)
    env = {**os.environ, "PYTHONPATH": str(ROOT / "bindings" / "python")}
    with subprocess.Popen([*COMMAND, "scanner", os.ttyname(theirs), "--year", str(YEAR)], stdout=subprocess.PIPE, bufsize=0, env=env) as scanner:
        # What comes before the line is set is lost.
        while not select.select([scanner.stdout], [], [], 0.5)[0]:
            os.write(ours, b"ready\r")
        for text in ["end", *(it for it in texts if it and not re.search("[\r\n\t]", it))]:
            os.write(ours, f"{text}\r".encode())
            line = scanner.stdout.readline()
            while text == "end" and select.select([scanner.stdout], [], [], 1)[0]:
                line = scanner.stdout.readline()
            refusal = refusal_of(noriladle.read_scan, text, YEAR)
            count.look("scanner", IN_LIBRARIES, text, line.decode())
            if refusal and line.split(b" ", 1)[1] != f"{refusal}\n".encode():
                count.note("scanner and Python differ", f"{text!r}: {line!r}")
        scanner.terminate()
    os.close(ours)
    os.close(theirs)


def of_pictures(count: Count, chance: random.Random) -> None:
    """What `noriladle read` says of damaged labels."""
    import numpy
    from PIL import Image
    with tempfile.TemporaryDirectory() as folder:
        for number in range(24):
            with Image.open(io.BytesIO(noriladle.draw_label(*chance.choice([("ean13", "4012345010008"), ("gs1128", "10AB"), ("itf14", "14012345010005")]), YEAR))) as image:
                grey = numpy.asarray(image.convert("L")).copy()
            at = chance.randrange(10, 200)
            grey[:, at:at + chance.choice([3, 9, 40])] = chance.choice([0, 255])
            Image.fromarray(grey[:, chance.choice([0, 0, 30]):]).save(f"{folder}/{number}.png")
        env = {**os.environ, "PYTHONPATH": str(ROOT / "bindings" / "python"), "LC_ALL": "C.UTF-8"}
        told = subprocess.run([*COMMAND, "read", *sorted(map(str, pathlib.Path(folder).iterdir()))], capture_output=True, env=env, check=False).stderr.decode()
    for line in told.splitlines():
        count.look("read", OF_A_PICTURE, "", line.partition(": ")[2])


def main() -> bool:
    count, chance, made = Count(), random.Random(SEED), random_scans.Texts(SEED)
    scans, printed = [made.scan() for _ in range(SCANS)], [made.printed() for _ in range(PRINTED)]
    of_libraries(count, questions(chance, [*scans, *printed]))
    refused = of_lists(count, [*scans, *printed])
    of_commands(count, refused)
    of_scanner(count, scans[:400])
    of_pictures(count, chance)
    _shop.speak("de")
    for text in refused[:2000]:
        count.look("German", re.compile(OF_PROGRAM), text, str(remedy_of(text, refusal_of(read_text, text, YEAR), YEAR)))
    print(f"{SCANS} scans, {PRINTED} printed lines; remedies seen: {', '.join(f'{name} {number}' for name, number in count.seen.items())}")
    print(f"{sum(count.seen.values())} remedies, {count.fixes} texts put in place; wrong: {count.wrong or 0}")
    return bool(count.wrong) or len(count.seen) < 11 or count.fixes < SCANS / 20


if __name__ == "__main__":
    sys.exit(main())
