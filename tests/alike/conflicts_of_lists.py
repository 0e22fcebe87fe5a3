"""Compares the conflicts that C, Python and the npm package find in random lists of elements with a plain model of the rules, which reads
tables/ais.tsv and tables/codes.tsv by itself:

    python3 tests/alike/conflicts_of_lists.py LIBRARY PACKAGE COUNT

LIBRARY is libgs1.so and PACKAGE the npm package. A list has up to six elements of any AIs, some of them twice, with values that need not be right:
the library looks at AIs and codes alone. The last line is the counts.
"""
from __future__ import annotations

import ctypes
import itertools
import json
import pathlib
import random
import struct
import subprocess
import sys
from ctypes import CDLL
from typing import Iterable, Iterator

ROOT = pathlib.Path(__file__).resolve().parents[2]
TABLES = ROOT / "tables"
sys.path.insert(0, str(ROOT / "bindings" / "python"))
sys.dont_write_bytecode = True
import noriladle

KINDS = ("", "needs", "excludes", "differs", "country", "currency", "prefix", "trade_item")


def ais_of(span: str) -> list[str]:
    least, _, greatest = span.partition("-")
    digits = (range(int(a), int(z) + 1) for a, z in zip(least, greatest or least))
    return ["".join(map(str, ai)) for ai in itertools.product(*digits)]


def tables() -> tuple[dict[str, list[str]], set[str], set[str], set[str]]:
    """The associations of each AI, and the numbers and letters of countries and the numbers of currencies."""
    rows = [line.split("\t") for line in (TABLES / "ais.tsv").read_text("utf-8").splitlines()[1:]]
    codes = [line.split("\t") for line in (TABLES / "codes.tsv").read_text("utf-8").splitlines()[1:]]
    associations = {ai: [] if row[3] == "-" else row[3].split() for row in rows for ai in ais_of(row[0])}
    countries = {number: letters for kind, number, letters in codes if kind == "country"}
    return associations, set(countries), set(countries.values()), {number for kind, number, _ in codes if kind == "currency"}


ASSOCIATIONS, COUNTRIES, LETTERS, CURRENCIES = tables()


def is_like(ai: str, pattern: str) -> bool:
    return len(ai) == len(pattern) and all(want in ("n", digit) for digit, want in zip(ai, pattern))


def asked(at: int, elements: list[tuple[str, str]]) -> Iterator[tuple[int, str, int, str]]:
    """What the AI of an element asks of the others."""
    ai = elements[at][0]
    if any(other == ai for other, _ in elements[:at]):
        return
    for rule in ASSOCIATIONS.get(ai, []):
        kind, _, patterns = rule.partition("=")
        like = [i for i, (other, _) in enumerate(elements) if other != ai and any(is_like(other, it) for it in patterns.split(","))]
        if kind == "req" and not like:
            yield at, "needs", 255, patterns
        if kind == "ex" and like:
            yield at, "excludes", like[0], ""


def is_no_item(gtin: str) -> bool:
    """Whether 14 digits are those of a shop or a coupon, by the figures of the GS1 General Specifications, section 1.4.2, or zeros alone."""
    if len(gtin) != 14 or not gtin.strip("0"):
        return len(gtin) == 14
    if gtin[1:6] == "00000":
        return gtin[6:9] < "100" or "200" <= gtin[6:9] <= "299"
    prefix = gtin[1:4]
    return any(first <= prefix <= last for first, last in (("020", "029"), ("040", "059"), ("200", "299"), ("980", "984"), ("990", "999")))


def code_of(ai: str, value: str) -> tuple[str, str] | None:
    """The first code of a value that is in no list, and what it should be."""
    if ai in ("423", "425"):
        codes = [value[at:at + 3] for at in range(0, len(value), 3)]
    else:
        codes = [value[:3]] if ai in ("421", "422", "424", "426") or len(ai) == 4 and ai.startswith("703") else []
    for code in codes:
        if code not in COUNTRIES and not (code == "999" and ai.startswith("703")):
            return "country", code
    if ai in ("4307", "4317") and value not in LETTERS:
        return "country", value
    if len(ai) == 4 and ai[:3] in ("391", "393") and value[:3] not in CURRENCIES:
        return "currency", value[:3]
    if ai in ("01", "02", "03", "8006", "8026") and is_no_item(value[:14]):
        return "trade_item", value[:14]
    if ai == "401" and not (len(value) >= 4 and value[:4].isdecimal()):
        return "prefix", value[:4]
    return None


def model(elements: list[tuple[str, str]]) -> list[tuple[int, str, int, str]]:
    found: list[tuple[int, str, int, str]] = []
    for at, (ai, value) in enumerate(elements):
        found += asked(at, elements)
        before = [i for i, (other, said) in enumerate(elements[:at]) if other == ai and said != value]
        if before:
            found.append((at, "differs", before[0], ""))
        code = code_of(ai, value)
        if code:
            found.append((at, code[0], 255, code[1]))
    return found


def by_c(library: CDLL, elements: list[tuple[str, str]]) -> list[tuple[int, str, int, str]]:
    text, places = "", b""
    for ai, value in elements:
        places += struct.pack("<3B15x", len(text), len(text + ai), len(text + ai + value))
        text += ai + value
    raw = struct.pack("<2H4B4s192s", 0, 65535, 0, len(elements), len(text), 255, b"", text.encode("ascii")) + places.ljust(864, b"\xa5")
    out = ctypes.create_string_buffer(b"\xa5" * 48 * 60, 48 * 60)
    count = library.gs1_conflicts(raw, out, 60)
    told = [struct.unpack_from("<3B45s", out, 48 * i) for i in range(count)]
    assert out.raw[48 * count:] == b"\xa5" * 48 * (60 - count), "what stands behind is not written"
    return [(at, KINDS[kind], other, words.rstrip(b"\0").decode("ascii")) for kind, at, other, words in told]


def by_python(elements: list[tuple[str, str]]) -> list[tuple[int, str, int, str]]:
    listed = [noriladle.Element(ai, value) for ai, value in elements]
    index = {id(element): at for at, element in enumerate(listed)}
    return [(index[id(it.element)], it.kind, index[id(it.other)] if it.other else 255, it.text) for it in noriladle.conflicts(listed)]


def by_npm(package: str, every: list[list[tuple[str, str]]]) -> list[list[tuple[int, str, int, str]]]:
    """The conflicts of some lists, found by the npm package."""
    lines = "".join(f"{json.dumps(elements)}\n" for elements in every)
    said = subprocess.run(["node", str(ROOT / "tests/alike/npm_conflicts.mjs"), package], input=lines, stdout=subprocess.PIPE, text=True, check=True)
    return [[(at, kind, other, text) for at, kind, other, text in json.loads(line)] for line in said.stdout.splitlines()]


def lists(chance: random.Random) -> Iterator[list[tuple[str, str]]]:
    ais = list(ASSOCIATIONS)
    codes = [*COUNTRIES, *CURRENCIES, "000", "999", "281"]
    asking = [ai for ai in ais if ASSOCIATIONS[ai]]
    coded = ["421", "422", "423", "424", "425", "426", "4307", "4317", "7030", "7039", "3910", "3932", "401"]
    while True:
        elements: list[tuple[str, str]] = []
        for _ in range(chance.randrange(1, 7)):
            ai = chance.choice([chance.choice(ais), chance.choice(asking), chance.choice(coded), chance.choice(["01", "02", "37", "00"]), chance.choice(elements or [("01", "")])[0]])
            if ai in ("4307", "4317"):
                value = chance.choice([chance.choice(list(LETTERS)), "ZZ", "de"])
            elif ai in coded:
                value = "".join(chance.choice(codes) for _ in range(chance.choice([1, 1, 2, 3] if ai in ("423", "425") else [1])))
                value = chance.choice([value, "A1", "9521A"]) if ai == "401" else value
            elif ai in ("01", "02", "03", "8006", "8026") and chance.random() < 0.7:
                front = chance.choice(["0", "1", "9"]) + chance.choice([f"{chance.randrange(10_000):04d}", "9790", "00000" + f"{chance.randrange(10_000):04d}"])
                value = chance.choice([front.ljust(14, "0"), front.ljust(14, "5"), "0" * 14, front]) + ("0102" if len(ai) == 4 else "")
            else:
                value = chance.choice(["1", "2", "12", "n,n"])
            elements.append((ai, value))
        yield elements


def asked_of_npm(package: str, every: Iterable[list[tuple[str, str]]]) -> Iterator[tuple[list[tuple[str, str]], list[tuple[int, str, int, str]]]]:
    """Each list, and the conflicts that the npm package finds in it."""
    while some := list(itertools.islice(every, 50_000)):
        found = by_npm(package, some)
        assert len(found) == len(some), "npm answers each list"
        yield from zip(some, found)


def in_order(found: list[tuple[int, str, int, str]]) -> list[tuple[int, str, int, str]]:
    """Rules of one element may stand in any order."""
    return sorted(found)


def main(path: str, package: str, count: int) -> int:
    library = ctypes.CDLL(path)
    library.gs1_conflicts.restype = ctypes.c_size_t
    library.gs1_conflicts.argtypes = [ctypes.c_char_p, ctypes.c_char_p, ctypes.c_size_t]
    kinds, wrong = dict.fromkeys(KINDS[1:], 0), dict.fromkeys(("model", "python", "npm"), 0)
    for elements, said in asked_of_npm(package, itertools.islice(lists(random.Random(7)), count)):
        wanted, got = model(elements), by_c(library, elements)
        for it in wanted:
            kinds[it[1]] += 1
        right = in_order(got) == in_order(wanted) and [it[0] for it in got] == sorted(it[0] for it in got)
        for name, is_wrong in (("model", not right), ("python", by_python(elements) != got), ("npm", said != got)):
            if is_wrong:
                wrong[name] += 1
                print(f"{name}: {elements}: C has {got}", file=sys.stderr)
    assert all(kinds.values()), kinds
    print(f"{count} lists, {sum(kinds.values())} conflicts ({', '.join(f'{n} {kind}' for kind, n in kinds.items())});"
          f" C beside {', '.join(f'{name}: {n} wrong' for name, n in wrong.items())}")
    return 1 if any(wrong.values()) else 0


if __name__ == "__main__":
    sys.exit(main(sys.argv[1], sys.argv[2], int(sys.argv[3])))
