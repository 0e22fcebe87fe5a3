"""Compares how the page and `noriladle labels` read lists: they must find the same articles, and report the same errors.

Usage: same_lists.py COUNT. Makes this many lists, most of them damaged, takes those of tests/labels and 1,000 that its generator
damages, asks both, and prints what differs. Some are asked in German, too. Its last line is the counts.
"""
from __future__ import annotations

import base64
import csv
import glob
import io
import json
import os
import random
import re
import subprocess
import sys
from typing import Any, Iterable, Iterator, Sequence

ROOT = os.path.dirname(os.path.dirname(os.path.dirname(os.path.abspath(__file__))))
LISTS = os.path.join(ROOT, "tests", "labels")
sys.path[:0] = [os.path.join(ROOT, "bindings", "python"), LISTS]
from damaged_lists import damaged
from noriladle import Refusal, _shop
from noriladle._columns import table_of
from noriladle._fixing import fixed
from noriladle._lists import Faults
from noriladle._texts import read_text
from noriladle.labels._articles import articles_of

GERMAN = 1_000
"""How many of the lists that are made are asked in German, too."""

NUMBERS = ["4012345010008", "4012345010374", "96385074", "012345000065", "09501101530003", "978-3-16-148410-0", "4012345010375", "4,01235E+12",
           "12345000065", "1234565", "01234565", "4012345010008.0", "123", "", "401234501000x", "0109501101530003", "٤٠١٢٣٤٥٠١٠٠٠٨",
           "=\"4012345010008\"", "'4012345010008", "EAN: 4012345010008", "0-306-40615-2", "080442957X", "４０１２３４５０１０００８", "4O12345010008",
           "4,012345010008E+12", "401234501000", "9780306406", "0000000000000", "4.012.345.010.008", "#4012345010008.", "4012345010008 (EAN)",
           "(01)09501101530003(17)261231(10)LOT7", "(01)9501101530003", "(01)09501101530003(17)261331", "[10]A(B)C", "(10)A(B)", "(98765)1", "(9999)x", "(20)123", "4674009",
           "^10AB^17261231", "9501101530003", "^9501101530003", "10AB\x1d17261231", "]C110AB^17261231", "]E04012345010008", "]E001234565", "]E04012345010375", "]E3abc",
           "https://id.gs1.org/01/09501101530003", "https://example.com/x", "]Q1https://id.gs1.org/01/09501101530003"]
NAMES = ["Haferkekse", "Rye bread", "Käse, jung", "Blütenhonig \"cremig\"", "EAN reader", "", "שלום", "🍎 Apfel", "x" * 400, "a\nb", "u\u0308ber"]
PRICES = ["2,90", "2.90 €", "€ 1.10", "1,10 €/Stk", "", "12345,67", "CHF 3.50", "x", "1.299", "1.299,00", "2,9", "2", "-1,00", "0,00", "3.–", "2,905", "1'234.50", "02. Sep",
          "007", "1,00-"]
HEADINGS = [["EAN", "GTIN", "Strichcode", "Code-barres", "Artikelnummer", "gs1", "EAN Karton", "Nummer", ""], ["Name", "Artikel", "Bezeichnung", "Libellé", "Towar", "x"],
            ["Preis", "price", "Prix TTC", "Cena brutto", "VK (EUR)", "EK", "UVP", "Preis in Cent", "Prix (JPY)", "Preis je kg", "Preis [Kiosk]"], ["copies", "Etiketten", "Anzahl"], ["kind", "Art", "Codeart"], ["Zeile 1", "line2", "Text"],
            ["alter Preis", "Was", "Prix barré", "Alter Preis EUR"], ["Grundpreis", "Preis pro kg", "Prix au litre", "Preis je kg"], ["Pfand", "Consigne", "Pfand-Nr"],
            ["MHD", "best before", "Haltbar"], ["Chargennummer", "Lot", "Charge"], ["Inhalt", "Content", "Poids net", "Inhalt (g)"]]
OTHERS = [["1", "3", "", "0", "1001", "-1", "²"], ["", "ean13", "EAN-8", "upce", "qr", "gs1128", "itf14"], ["1 kg = 4,79 €", "", "neu"],
          [*PRICES, "3,50", "99,00 €"], ["5,80 €/kg", "1 kg = 5,80 €", "5,8", "", "5.80 / 100 g", "x", "0"], ["0,25", "0,00", "", "0,25 €", "x", "1.299"], ["31.12.2026", "2026-12-31", "46387", "", "12/26", "Dez"],
          ["L7", "", "0042", "ü"], ["500 g", "0,75 l", "6 x 0,33 l", "1.500 g", "kg", "", "0 g", "12 Stück", "500", "0,375 L", "500 g e"]]
PIECES = ['"', ";", ",", "\t", "\r", "\n", "(01)", "^", "ü", "u\u0308", "9" * 30, "E+12", "€", " ", "\xa0", "-", "=" * 300, "\x1d", "copies", "2000", "{}", "<&>",
          "]E0", "[10]", "https://", "\x1f", "sep=;\n", "gtin", "\0", "\ufeff", "ß", "ł", "²", "\u2007"]


def listed(chance: random.Random) -> str:
    """A list as people may have one, with or without a heading, in one of the ways that it is saved."""
    delimiter, end = chance.choice([";", "\t", ",", ";"]), chance.choice(["\n", "\r\n", "\n", "\r"])
    columns = chance.choice([[0], [0, 1], [0, 1, 2], [1, 0, 2], [0, 1, 2, 3], [0, 1, 2, 3, 4, 5], [2, 1, 0], [0, 0, 1], [0, 1, 2, 2], [0, 1, 2, 6, 7, 8], [0, 2, 11, 9, 10], [0, 2, 11, 7, 6], [0, 2, 6, 6]])
    cells = [NUMBERS if it == 0 else NAMES if it == 1 else PRICES if it == 2 else OTHERS[it - 3] for it in columns]
    rows = [[chance.choice(it[:5] if it is NUMBERS and chance.random() < 0.6 else it) for it in cells] for _ in range(chance.randrange(1, 7))]
    if chance.random() < 0.7:
        rows.insert(0, [chance.choice(HEADINGS[it]) for it in columns])
    if chance.random() < 0.1:
        rows.insert(0, ["Preisliste"] + [""] * (len(columns) - 1))

    def quoted(cell: str) -> str:
        return '"' + cell.replace('"', '""') + '"' if set(cell) & {delimiter, '"', "\n", "\r"} or chance.random() < 0.1 else cell
    text = "".join(delimiter.join(map(quoted, row)) + end for row in rows)
    return f"sep={delimiter}{end}{text}" if chance.random() < 0.05 else text


def made(count: int) -> Iterator[bytes]:
    chance = random.Random(11)
    for number in range(count):
        text = listed(chance)
        for _ in range(chance.choice([0, 0, 1, 2, 4])):
            at = chance.randrange(len(text) + 1)
            text = text[:at] + chance.choice(PIECES) + text[at:] if chance.random() < 0.7 else text[:at] + text[at + chance.randrange(1, 6):]
        encoding = chance.choice(["utf-8", "utf-8", "utf-8-sig", "utf-16", "cp1252"])
        data = text.encode(encoding, "replace")
        if chance.random() < 0.05:
            at = chance.randrange(len(data) + 1)
            data = data[:at] + bytes([chance.randrange(256)]) + data[at:]
        yield chance.choice([b"PK\x03\x04", b"%PDF-", b"\x89PNG", b"\x1f\x8b"]) + data if number % 500 == 7 else data


def long_lists() -> Iterator[bytes]:
    """Lists whose errors have numbers above a thousand: of cells, and of a line."""
    yield b"EAN;Name\n4012345010008" + b";x" * 1_200 + b"\n"
    yield b"EAN;Name\n4012345010008;x\n" + b";y\n" * 1_200 + b"4012345010008;z\n"


def of_shops() -> Iterator[bytes]:
    """The lists of tests/labels, and 1,000 that its generator damages."""
    for path in sorted(glob.glob(f"{LISTS}/lists/*") + glob.glob(f"{LISTS}/saved/ways/*.csv")):
        with open(path, "rb") as file:
            yield file.read()
    with open(f"{LISTS}/remarks.csv", encoding="utf-8", newline="") as file:
        for row in csv.DictReader(file):
            text = row["list"].replace("|", "\n")
            yield from (text.encode(), text.encode("utf-16-be"), b"\xfe\xff" + text.encode("utf-16-be"))
    with open(f"{LISTS}/mistakes.csv", encoding="utf-8", newline="") as file:
        for row in csv.DictReader(file, delimiter=";"):
            text = io.StringIO()
            csv.writer(text, delimiter=";").writerows([["EAN", "Name", "Preis"], [row["cell"], "x", "2,49"]])
            yield text.getvalue().encode()
    for number in range(1_000):
        yield damaged(92, number).saved()


def by_python(data: bytes) -> dict[str, Any]:
    """The command's answer in the page's form, without its options; and what `check --fix` corrects."""
    fixes, unused, passed, opened = [], [], [], []
    try:
        table = table_of(data, 2026)
        articles, faults = articles_of(table, 2026, units=("kg", "100ml") if "content" in table.places else ())
        doubled = {record.line for record in table.records if table.cell(record, "gs1").strip()}
        # The page corrects a number only if nothing stands in the way of it.
        no_kind = _shop.said("noKind", "\0", "").partition("\0")[0]
        other = doubled | {it.line for it in faults if it.said.startswith(no_kind)}
        fixes = [[it.line, it.after] for it in fixed(table, 2026)[1] if is_unreadable(it.before) and it.line not in other]
        unused, passed, opened = list(table.unused), list(table.passed), list(table.opened)
        faults = sorted([*([table.question] if table.question else []), *faults])
    except Faults as error:
        articles, faults = [], sorted(error.faults)
    told = [[it.line, it.kind.name.lower(), it.text, it.name, it.price, list(it.fields), list(it.lines), it.copies] for it in articles]
    return {"articles": told, "faults": [[it.line, plainly(it.said)] for it in faults], "fixes": fixes, "unused": unused, "passed": passed, "opened": opened}


def is_unreadable(text: str) -> bool:
    """Whether the page has advice for a cell: it is no number, and no element string with separators."""
    try:
        read_text(text, 2026)
    except Refusal:
        return "\x1d" not in text
    return False


def plainly(said: str) -> str:
    """An error without the command's options."""
    return re.sub(r", (as in|etwa mit) --(column|no-price|encoding) ?.*|: noriladle read (takes it|liest sie)$| \(--free\)$", "", said, flags=re.DOTALL)


def lines_of(lists: Iterable[bytes]) -> bytes:
    """The lists as lists_in_node.js takes them."""
    return b"".join(base64.b64encode(it) + b"\n" for it in lists)


def differing(lists: Sequence[bytes], language: str) -> tuple[int, int, int]:
    """How many lists the page and the command answer in different words of a language, and how many articles and errors they have."""
    told = subprocess.run(["node", f"{ROOT}/tests/page/lists_in_node.js", language], input=lines_of(lists), stdout=subprocess.PIPE, check=True).stdout.decode().split("\n")[:-1]
    differ = abs(len(lists) - len(told))
    good = faulty = 0
    _shop.speak(language)
    for data, line, wanted in zip(lists, told, map(by_python, lists)):
        page = json.loads(line)
        good, faulty = good + len(wanted["articles"]), faulty + len(wanted["faults"])
        if page != wanted:
            differ += 1
            if differ <= 20:
                print(f"differs: {data!r}\n  page   {page}\n  Python {wanted}", file=sys.stderr)
    return differ, good, faulty


def main() -> bool:
    shops, others = list(of_shops()), [*long_lists(), *made(int(sys.argv[1]))]
    lists, in_german = shops + others, shops + others[:GERMAN]
    (differ, good, faulty), (other, _, _) = differing(lists, "en"), differing(in_german, "de")
    print(f"{len(lists)} lists, {len(shops)} of them of shops, {good} articles and {faulty} faulty lines: page and command differ in {differ}; "
          f"{len(in_german)} in German, {other} differ")
    return differ + other != 0 or len(shops) < 1_060 or good < len(lists) / 2 or faulty < len(lists) / 2


if __name__ == "__main__":
    sys.exit(main())
