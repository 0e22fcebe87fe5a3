"""Asks C, Python, the npm package, the page's scripts and the program the same questions, and prints what differs.

Usage: compare_answers.py LINES PACKAGE PROGRAM WORK COUNT. LINES is the program of c_answers.c, PACKAGE the npm package and PROGRAM gs1_hub. Its last line is the
counts.
"""
from __future__ import annotations

import importlib.machinery
import importlib.util
import json
import os
import random
import subprocess
import sys
from typing import Any, Callable, Iterable, Iterator, Sequence

HERE = os.path.dirname(os.path.abspath(__file__))
ROOT = os.path.dirname(os.path.dirname(HERE))
sys.path.insert(0, os.path.join(ROOT, "bindings", "python"))
sys.dont_write_bytecode = True
import noriladle

LINES, PACKAGE, PROGRAM, WORK = sys.argv[1:5]
COUNT = int(sys.argv[5])
YEAR = 2026
SEPARATOR = "\x1d"
SYMBOLS = [None, "ean13", "upca", "upce", "ean8", "itf14", "gs1128", "databar", "datamatrix", "qr_code", "dotcode"]
KINDS = [kind.name.lower() for kind in noriladle.Kind]
DIGITS = {"ean13": (13, 12), "upca": (12,), "ean8": (8,), "upce": (12,), "itf14": (14, 13)}
LETTERS = {"N": "0123456789", "X": "ABCabc019-./%&", "Y": "ABC0123-/#", "Z": "ABCabc019-_="}
# Values for rules that random characters hardly meet.
KNOWN = {
    "iso3166": ["276", "528", "281"], "iso3166999": ["276", "999"], "iso4217": ["978", "840", "000"], "iso3166alpha2": ["DE", "NL", "ZZ"],
    "posinseqslash": ["1/2", "9/3"], "hyphen": ["-"], "zero": ["0"], "yesno": ["0", "1"], "pieceoftotal": ["0102", "1201"], "hhmm": ["0000", "2359", "2400"],
    "hh": ["23"], "mi": ["59"], "ss": ["00"], "latitude": ["1800000000", "0562000000"], "longitude": ["3600000000", "0035000000"],
    "mediatype": ["01", "80"], "winding": ["0", "9"], "iso5218": ["1", "2"], "yymmdd": ["261231", "270229"], "yymmd0": ["261200", "261231", "261331"],
    "yyyymmdd": ["20261231", "20261232"],
}


def table() -> tuple[list[Any], Callable[[str], Iterator[tuple[bool, str, int, int, list[str]]]]]:
    """The rows of tables/ais.tsv, and what takes a format apart."""
    loader = importlib.machinery.SourceFileLoader("ais", os.path.join(ROOT, "tables", "ais"))
    ais = importlib.util.module_from_spec(importlib.util.spec_from_loader("ais", loader))
    sys.modules["ais"] = ais
    loader.exec_module(ais)
    return ais.read(os.path.join(ROOT, "tables", "ais.tsv")), ais.tokens


ROWS, TOKENS = table()


def checked(digits: str) -> str:
    """The digits, the last replaced by their check digit."""
    total = sum(int(it) * (3, 1)[at % 2] for at, it in enumerate(reversed(digits[:-1])))
    return digits[:-1] + str(-total % 10)


def some(chance: random.Random, letters: str, count: int) -> str:
    return "".join(chance.choice(letters) for _ in range(count))


def part(chance: random.Random, letter: str, least: int, greatest: int, rules: list[str]) -> str:
    for rule in rules:
        if rule in KNOWN:
            return chance.choice(KNOWN[rule])
    text = some(chance, LETTERS[letter], chance.choice([greatest, chance.randint(least, greatest)]))
    return checked(text) if "csum" in rules else text


def element(chance: random.Random) -> tuple[str, str, bool]:
    """The AI and the value of an element of any AI, mostly a good one, and whether it is of a predefined length."""
    row = chance.choice(ROWS)
    value = "".join(part(chance, *it[1:]) for it in TOKENS(row.format) if not it[0] or chance.random() < 0.5)
    if chance.random() < 0.1:
        at = chance.randrange(len(value) + 1)
        value = value[:at] + chance.choice(["", "0", "A", "*", "~"]) + value[at + chance.randrange(2):]
    return chance.choice(row.ais()), value, row.predefined


def element_string(chance: random.Random, most: int) -> str:
    text = ""
    for _ in range(chance.randint(1, most)):
        ai, value, predefined = element(chance)
        text += ai + value + ("" if predefined == (chance.random() < 0.97) else SEPARATOR)
    return text.rstrip(SEPARATOR) if chance.random() < 0.9 else text


def label(chance: random.Random) -> str:
    """A line that asks for the symbol of a label, and mostly gets it."""
    kind = chance.choice(KINDS)
    if kind == "gs1128":
        return f"{KINDS.index(kind)} {element_string(chance, 2)}"
    count = chance.choice(DIGITS[kind])
    # Few numbers have a UPC-E.
    body = f"0{some(chance, '0123456789', 2)}{chance.choice('012')}0000{some(chance, '0123456789', 3)}" if kind == "upce" else some(chance, "0123456789", count - 1)
    digits = checked(body + "0")
    if chance.random() < 0.08:
        at = chance.randrange(len(digits))
        digits = digits[:at] + chance.choice("0123456789 x") + digits[at + 1:]
    return f"{KINDS.index(chance.choice(KINDS) if chance.random() < 0.05 else kind)} {digits}"


def scan(chance: random.Random) -> str:
    """A text as a scanner sends it, mostly a good one, with a GTIN at any place or none."""
    gtin = checked(some(chance, "0123456789", 14))
    if chance.random() < 0.2:
        digits = checked(some(chance, "01", 1) + some(chance, "0123456789", chance.choice([7, 11, 12])))
        return f"{chance.choice([']E0', ']E0', ']E4', ']I1', ''])}{chance.choice([digits, gtin])}"
    if chance.random() < 0.1:
        return f"{chance.choice([']Q1', ']d1', ''])}https://id.gs1.org/01/{gtin}/10/A{some(chance, '019', 2)}"
    parts = [element_string(chance, 1) for _ in range(chance.randrange(3))]
    for at in range(chance.choice([0, 1, 1, 2])):
        parts.insert(chance.randrange(len(parts) + 1), "01" + (gtin if at == 0 or chance.random() < 0.5 else checked(gtin + "0")[1:]))
    return chance.choice(["]C1", "]e0", "]d2", "]Q3", "]J1", "^"]) + "^".join(parts)


def printed(chance: random.Random) -> str:
    """A text as people print or type it: elements with blanks around them, or a number with hyphens."""
    if chance.random() < 0.2:
        digits = checked(some(chance, "0123456789", 13))
        return chance.choice("- ").join((digits[:3], digits[3:4], digits[4:12], digits[12:]))
    before, behind = chance.choice([("(", ")"), ("(", ")"), ("[", "]")])
    parts = [element(chance) for _ in range(chance.randint(1, 3))]
    return "".join(f"{before}{ai}{behind}{chance.choice(['', '', ' '])}{value}{chance.choice(['', '', ' '])}" for ai, value, _ in parts)


def made() -> tuple[list[str], list[str], list[str]]:
    chance = random.Random(17)
    return ([label(chance) for _ in range(COUNT)], ["- " + element_string(chance, 4) for _ in range(COUNT)],
            ["~ " + printed(chance) if at % 3 == 0 else "= " + scan(chance) for at in range(COUNT)])


def pairs(elements: Iterable[noriladle.Element]) -> str:
    return "\t".join(f"{it.ai}={it.value}" for it in elements)


def as_json(it: object) -> str:
    return json.dumps(it, ensure_ascii=False, separators=(",", ":"))


def said_of(element: noriladle.Element) -> dict[str, Any]:
    """What Python says about an element; npm names the parts of a place."""
    told = element.to_dict()
    if "place" in told:
        told["place"] = dict(zip(("latitude", "longitude"), told["place"]))
    return told


def by_python(line: str) -> tuple[str, str]:
    """The line that the C call gives, and what the values say."""
    text = line[2:]
    try:
        if line[0] == "-":
            elements = noriladle.parse_elements(text, YEAR)
            return f"data {pairs(elements)}", as_json([said_of(it) for it in elements])
        if line[0] in "=~":
            answer = (noriladle.read_text if line[0] == "~" else noriladle.read_scan)(text, YEAR)
            carrier = SYMBOLS.index(answer.symbol)
            return f"scan {answer.identifier or '-'} {carrier} {answer.gtin or '-'} {pairs(answer.elements)}", ""
        kind = KINDS[int(line[0])]
        # With a mark, since the digits of a GTIN may be elements too.
        symbol = noriladle.label_symbol(kind, f"^{text}" if kind == "gs1128" else text, YEAR)
        return f"symbol {symbol.text} {symbol.quiet_left} {symbol.quiet_right} {''.join(map(str, symbol.widths))}", ""
    except noriladle.Refusal as refusal:
        return str(refusal), as_json([pairs(refusal.before), refusal.ai])


def asked_of(words: Sequence[str], lines: Iterable[str]) -> list[str]:
    done = subprocess.run(words, input="".join(f"{it}\n" for it in lines).encode("latin-1"), stdout=subprocess.PIPE, check=True)
    return done.stdout.decode("utf-8").split("\n")[:-1]


def by_program(texts: Iterable[str]) -> list[str]:
    """What `check` says about the texts, with elements in the form for people."""
    records = [f'text,"{it[2:]}"'.replace(SEPARATOR, "^") for it in texts]
    return asked_of([PROGRAM, "check", "--year", str(YEAR), "--ais", "all"], records)


def human(line: str) -> str:
    """The line of the program for a line of elements."""
    if line.startswith("refused"):
        return line
    return "hri " + "".join(f"({ai}){value}" for ai, _, value in (it.partition("=") for it in line[5:].split("\t")))


class Count:
    differing = 0

    def compare(self, name: str, asked: Sequence[str], wanted: Sequence[str], got: Sequence[str]) -> int:
        """Counts the lines that differ."""
        wrong = [at for at in range(len(wanted)) if at >= len(got) or got[at] != wanted[at]] + list(range(len(wanted), len(got)))
        self.differing += len(wrong)
        for at in wrong[:3]:
            print(f"differs: {asked[at:at + 1]!r}: {name} {got[at:at + 1]!r}, Python {wanted[at:at + 1]!r}", file=sys.stderr)
        return len(wanted) - len(wrong)


def main() -> bool:
    labels, texts, scans = made()
    lines, count = labels + texts + scans, Count()
    wanted, values = zip(*map(by_python, lines))
    npm, told = zip(*(it.partition("\tvalues ")[::2] for it in asked_of(["node", f"{HERE}/npm_answers.mjs", PACKAGE], lines)))
    alike = {
        "C": count.compare("C", lines, wanted, asked_of([LINES], lines)),
        "npm": count.compare("npm", lines, wanted, npm),
        "page": count.compare("page", lines, wanted, asked_of(["node", f"{HERE}/page_answers.js"], lines)),
        "program": count.compare("program", texts, [human(it) for it in wanted[COUNT:-COUNT]], by_program(texts)),
        "values": count.compare("values of npm", texts, values[COUNT:-COUNT], told[COUNT:-COUNT]),
    }
    parts = [wanted[:COUNT], wanted[COUNT:-COUNT], wanted[-COUNT:]]
    drawn, read, scanned = (sum(not it.startswith("refused") for it in part) for part in parts)
    later = sum(" 01=" not in it and "\t01=" in it for it in parts[2])
    print(f"{len(labels)} labels, of which {drawn} have a symbol; {len(texts)} texts, of which {read} are read")
    print(f"{len(scans)} scans, of which {scanned} are read, {later} with a GTIN that is not first")
    print(f"as Python answers: {', '.join(f'{name} {number}' for name, number in alike.items())}; {count.differing} differ")
    return (count.differing != 0 or not 0.5 < drawn / COUNT < 0.99 or not 0.2 < read / COUNT < 0.99
            or not 0.2 < scanned / COUNT < 0.99 or not 0.02 < later / COUNT)


if __name__ == "__main__":
    sys.exit(main())
