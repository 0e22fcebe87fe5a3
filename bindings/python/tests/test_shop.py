"""The commands of a shop: ``noriladle labels``, ``check`` and ``read``, as they are typed."""
from __future__ import annotations

import errno
import io
import json
import os
import resource
import signal
import struct
import subprocess
import sys
import threading
import time
import zlib
from pathlib import Path
from typing import Any, NoReturn

import pytest

from noriladle.__main__ import main
from noriladle import Symbols, _plain, commands
from noriladle.commands import _lists, check, write_files

LIST = "ean;name;price\n4012345010008;Haferkekse;2,90\n96385074;Kaugummi;0,90\n"


@pytest.fixture
def folder(tmp_path: Path, monkeypatch: pytest.MonkeyPatch) -> Path:
    monkeypatch.chdir(tmp_path)
    return tmp_path


def told(words: list[str], capsys: pytest.CaptureFixture[str]) -> tuple[int, list[str], list[str]]:
    """The status of a command, and the lines that it wrote on standard output and on standard error."""
    status = main([*words, "--year", "2026"])
    out, err = capsys.readouterr()
    return status, out.splitlines(), err.splitlines()


def save(name: str, text: str | bytes, encoding: str = "utf-8") -> str:
    with open(name, "wb") as file:
        file.write(text if isinstance(text, bytes) else text.encode(encoding))
    return name


# ---- check

# What a batch asks for.
ALONE = "10 needs 01 or 02 or 03 or 8006 or 8026"


def test_check(folder: Path, capsys: pytest.CaptureFixture[str]) -> None:
    save("a", "978-3-16-148410-0\n\n96385075\n(10)A\n]C110A\n^10A^17261231\n(20)A)\n")
    assert told(["check", "a"], capsys) == (1, [
        "1\t978-3-16-148410-0\t(01)09783161484100\tISBN",
        "3\t96385075\trefused 3 CheckDigit\ta digit is wrong; if it is the last one, 96385074 is right",
        f"4\t(10)A\t(10)A\twarning: {ALONE}", f"5\t]C110A\t]C1 (10)A\twarning: {ALONE}",
        f"6\t^10A^17261231\t(10)A(17)261231\twarning: {ALONE}; 17 needs 01 or 02 or 03 or 255 or 8006 or 8026",
        "7\t(20)A)\trefused 5 UnknownAi\tparentheses stand around Application Identifiers alone, as in (01)09501101530003(10)AB; if a value has one in "
        "parentheses, write [01]09501101530003[10]A(17)"], ["a: 2 of 6 lines refused"])
    assert told(["check", "a", "--refused"], capsys)[1] == told(["check", "a"], capsys)[1][1:2] + told(["check", "a"], capsys)[1][5:]


def test_check_of_a_list(folder: Path, capsys: pytest.CaptureFixture[str]) -> None:
    save("a.csv", "Artikelnummer;Bezeichnung\n4012345010008;Haferkekse\n4012345010375;Brot\n\"x\"y\n")
    status, out, err = told(["check", "a.csv"], capsys)
    assert status == 1 and err == ["a.csv: took 'Artikelnummer' for the gtin, 'Bezeichnung' for the name; if that is wrong, say it by --column",
                                   "a.csv: 2 of 3 lines refused"]
    assert out[:2] == ["2\t4012345010008\t(01)04012345010008",
                       "3\t4012345010375\trefused 3 CheckDigit\ta digit is wrong; if it is the last one, 4012345010374 is right\tBrot"]
    assert out[2].startswith("4\t\trefused 39 Csv\tthis line is not CSV")
    assert [json.loads(line).get("article") for line in told(["check", "a.csv", "--json"], capsys)[1]] == ["Haferkekse", "Brot", None]


def test_a_gtin_in_a_column_of_element_strings_is_asked_about(folder: Path, capsys: pytest.CaptureFixture[str]) -> None:
    save("a.csv", "gs1;name\n9501101530003;Oats\n^9501101530003;Oats\n109501;Oats\n(01)09501101530003;Oats\n")
    status, out, _ = told(["check", "a.csv"], capsys)
    assert status == 1 and out == [
        "2\t9501101530003\trefused 40 Kind\tis this a GTIN, or are these elements? write (01)09501101530003 or ^9501101530003\tOats",
        "3\t^9501101530003\t(95)01101530003", f"4\t^109501\t(10)9501\twarning: {ALONE}", "5\t(01)09501101530003\t(01)09501101530003"]
    assert told(["labels", "a.csv", "--no-price", "-o", "a.svg"], capsys)[2][-2:] == [
        "a.csv:2: 9501101530003: refused 40 Kind: is this a GTIN, or are these elements? write (01)09501101530003 or ^9501101530003",
        "a.csv: 1 line refused, so nothing was written"]


def test_check_of_a_list_without_numbers_has_no_sum(folder: Path, capsys: pytest.CaptureFixture[str]) -> None:
    save("a.csv", "EAN;Name\n;Getränke\n")
    assert told(["check", "a.csv"], capsys) == (0, [], ["a.csv: 1 line without a number is passed over: 2"])


def test_check_as_json(folder: Path, capsys: pytest.CaptureFixture[str]) -> None:
    save("a", "]C110A\x1d17261231\n96385075\n(20)A)\n")
    status, out, _ = told(["check", "a", "--json"], capsys)
    assert status == 1
    assert [json.loads(line) for line in out][:2] == [
        {"line": 1, "text": "]C110A\x1d17261231", "identifier": "]C1", "gtin": None, "elements": [
            {"ai": "10", "value": "A"}, {"ai": "17", "value": "261231", "date": "2026-12-31"}],
         "conflicts": [ALONE, "17 needs 01 or 02 or 03 or 255 or 8006 or 8026"]},
        {"line": 2, "text": "96385075", "refused": 3, "name": "CheckDigit", "place": None,
         "remedy": "a digit is wrong; if it is the last one, 96385074 is right", "fixes": ["96385074"]}]
    assert [json.loads(out[2])[key] for key in ("refused", "name", "place", "fixes")] == [5, "UnknownAi", None, []]


@pytest.mark.parametrize("front", ["", "9501101530003\n" * 30])
def test_numbers_of_no_trade_item_are_named(front: str, folder: Path, capsys: pytest.CaptureFixture[str]) -> None:
    """In a list that is read at once, and in one that is read block by block."""
    numbers = ["2012345678903", "9812345678902", "978-3-16-148410-0", "9783161484100", "9790260000438", "9770317847001", "(01)00000000000000", "9501101530003"]
    save("a", front + "\n".join([*numbers, ""]))
    shop = "warning: 01: 02012345678903 is a number that a shop or a company gave for itself, and identifies no trade item elsewhere"
    coupon = "warning: 01: 09812345678902 is the number of a coupon or a receipt, and of no trade item"
    zeros = "warning: 01: 00000000000000 is zeros alone, and the number of no trade item"
    status, out, _ = told(["check", "a"], capsys)
    assert (status, [line.split("\t")[3:] for line in out[-8:]]) == (0, [[shop], [coupon], ["ISBN"], ["ISBN"], ["ISMN"], ["ISSN"], [zeros], []])
    status, out, _ = told(["check", "a", "--strict", "--refused"], capsys)
    assert (status, [line.split("\t")[1] for line in out]) == (1, [numbers[0], numbers[1], numbers[6]])
    status, out, _ = told(["check", "a", "--json"], capsys)
    uses = [(json.loads(line).get("use"), json.loads(line).get("conflicts", [])) for line in out[-8:]]
    assert [use for use, _ in uses] == [None, None, "isbn", "isbn", "ismn", "issn", None, None]
    assert [said for _, said in uses if said] == [[f"01: {number} is no number of a trade item"] for number in ("02012345678903", "09812345678902", "0" * 14)]


def test_conflicts_are_warnings_unless_check_is_strict(folder: Path, capsys: pytest.CaptureFixture[str], monkeypatch: pytest.MonkeyPatch) -> None:
    save("a", "9501101530003\n(01)09501101530003(37)5\n(17)261231(01)09501101530003(17)271231(401)A1\n(01)09501101530003(422)281(3912)0011(8020)1(415)9501101530003\n")
    found = ["01 excludes 37; 37 needs 02 or 8026", "17: 261231 and 271231 differ; 401: A1 is no GS1 Company Prefix",
             "422: 281 is no country; 3912: 001 is no currency"]
    status, out, err = told(["check", "a"], capsys)
    assert (status, [line.split("\t")[3:] for line in out], err) == (0, [[], *([f"warning: {it}"] for it in found)], ["a: all 4 lines are right"])
    assert told(["check", "a", "--refused"], capsys)[:2] == (0, [])
    status, out, err = told(["check", "a", "--strict", "--refused"], capsys)
    assert (status, [line.split("\t")[3:] for line in out], err) == (1, [[f"refused: {it}"] for it in found], ["a: 3 of 4 lines refused"])
    status, out, _ = told(["check", "a", "--strict", "--json"], capsys)
    assert (status, [json.loads(line).get("conflicts") for line in out]) == (1, [None, *(it.split("; ") for it in found)])
    monkeypatch.setenv("LC_ALL", "de_DE.UTF-8")
    assert [line.split("\t")[3:] for line in told(["check", "a"], capsys)[1]][1:] == [
        ["warning: 01 schließt 37 aus; 37 braucht 02 oder 8026"], ["warning: 17: 261231 und 271231 widersprechen sich; 401: A1 ist keine GS1-Basisnummer"],
        ["warning: 422: 281 ist kein Land; 3912: 001 ist keine Währung"]]


PLAIN = "".join(f"{it}\n" for it in [
    *["9501101530003"] * 300, "", " 9501101530003 ", "9501101530004", "96385074", "01234565", "00000000", "0" * 14, "\x1d", "12", "(01)09501101530003(10)A,B;C",
    "]C110A\x1d17261231", "(01)09501101530003(37)5\r", "950110153000x\r4012345010008", "https://id.gs1.org/01/09501101530003"])


@pytest.mark.parametrize("text, is_plain", [
    (PLAIN, True), (PLAIN + "9501101530003", True), (PLAIN * 70, True), ("EAN\n" + PLAIN, False), (PLAIN + "Öl\n", False), (PLAIN + '"\n', False),
    ("x;y\n" * 9 + PLAIN, False), (PLAIN[:1400], False),
], ids=["plain", "no end", "long", "heading", "letters", "quotation mark", "columns", "short"])
def test_a_long_list_is_read_as_a_short_one(text: str, is_plain: bool, folder: Path, capsys: pytest.CaptureFixture[str],
                                            monkeypatch: pytest.MonkeyPatch) -> None:
    save("a", text)
    words: Any
    for words in ([], ["--json"], ["--refused"], ["--strict"], ["--ais", "profile", "--strict", "--refused", "--json"]):
        seen, here = [], check.is_plain
        monkeypatch.setattr(check, "is_plain", lambda *given: seen.append(here(*given)) or seen[0])
        fast = told(["check", "a", *words], capsys)
        monkeypatch.setattr(check, "is_plain", lambda *given: False)
        assert fast == told(["check", "a", *words], capsys) and seen == [is_plain]
        monkeypatch.setattr(check, "is_plain", here)


def test_a_list_of_numbers_alone_may_have_any_length(folder: Path, capsys: pytest.CaptureFixture[str], monkeypatch: pytest.MonkeyPatch) -> None:
    for module in (_plain, _lists):
        monkeypatch.setattr(module, "LIMIT", 300_000)
    save("a", "9501101530003\n" * 50_000)
    status, out, err = told(["check", "a"], capsys)
    assert (status, len(out), out[-1], err) == (0, 50_000, "50000\t9501101530003\t(01)09501101530003", ["a: all 50,000 lines are right"])
    save("a", "9501101530003\n" * 50_000 + "Öl\n")
    status, out, err = told(["check", "a"], capsys)
    assert status == 1 and err == [f"a:{len(out) + 1}: the list has more than 300,000 bytes: split it"]


def test_check_of_standard_input(folder: Path, capsys: pytest.CaptureFixture[str], monkeypatch: pytest.MonkeyPatch) -> None:
    monkeypatch.setattr("sys.stdin", io.TextIOWrapper(io.BytesIO(b"96385074\n")))
    assert told(["check"], capsys) == (0, ["1\t96385074\t(01)00000096385074"], ["standard input: 1 line, and it is right"])


@pytest.mark.parametrize("command", [["check"], ["labels", "-o", "a.pdf"]])
@pytest.mark.parametrize("data, status, said", [
    (b"", 1, "a.csv:1: the list is empty"),
    (b"PK\x03\x04", 1, "a.csv:1: this spreadsheet is damaged: open it, and save it again"),
    (b"x\0", 1, "a.csv:1: there is a byte 0, so this is not text: save the list as CSV in UTF-8"),
    (b"1" * 16_777_217, 1, "a.csv:1: the list has more than 16,777,216 bytes: split it"),
])
def test_what_is_no_list(command: list[str], data: bytes, status: int, said: str, folder: Path,
                         capsys: pytest.CaptureFixture[str]) -> None:
    save("a.csv", data)
    found, out, err = told([*command, "a.csv"], capsys)
    assert (found, out, err[0]) == (status, [], said)
    assert os.listdir() == ["a.csv"]


@pytest.mark.parametrize("words, said", [
    (["check", "b.csv"], "noriladle: b.csv: No such file or directory"),
    (["check", "."], "noriladle: .: Is a directory"),
    (["check", "a.csv", "--column", "ean=x"], "noriladle: --column ean=x: write one of gtin, gs1, name, price, old-price, "
     "unit-price, deposit, best-before, batch, content, copies, kind, line, = and a heading, as in --column name=Bezeichnung"),
    (["labels", "b.csv"], "noriladle: b.csv: No such file or directory"),
    (["labels", "a.csv", "-o", "no/a.pdf"], "noriladle: no/a.pdf: there is no folder no"),
    (["labels", "a.csv", "-o", "a.doc"], "noriladle: a.doc: the end of the name says no form: write .pdf, .svg, .png, .zpl, .epl, .tspl, or "
     "--to FORM"),
    (["labels", "a.csv", "--stock", "L716"], "noriladle: there is no stock 'L716' (did you mean L7165 or L7163 or L7162?): --stocks lists "
     "those that are known; else write its measures in mm, as 3x8:70x37 (a sheet of A4), 5x13:38.1x21.2+2.54+0 (with gaps) or 57x32 (a roll)"),
    (["labels", "a.csv", "--start", "25"], "noriladle: the first label is to be in one of the cells 1 to 24, and not in 25"),
    (["labels", "a.csv", "--font", "a.csv"], None),
    (["labels", "a.csv", "--dpi", "301"], None),
    (["labels", "a.csv", "--shift", "1"], None),
    (["labels", "a.csv", "--bars", "high"], None),
    (["read", "b.png"], "b.png: No such file or directory"),
])
def test_wrong_words(words: list[str], said: str | None, folder: Path, capsys: pytest.CaptureFixture[str]) -> None:
    save("a.csv", LIST)
    status, out, err = told(words, capsys)
    assert (status, out, len(err)) == (2, [], 1) and (said is None or err == [said])
    assert os.listdir() == ["a.csv"]


# ---- labels

@pytest.mark.parametrize("form, begins", [
    ("pdf", b"%PDF-"), ("svg", b"<svg "), ("png", b"\x89PNG"), ("zpl", b"~DG"), ("epl", b"\nN\n"), ("tspl", b"SIZE 70 mm,37 mm")])
def test_labels_in_each_form(form: str, begins: bytes, folder: Path, capsys: pytest.CaptureFixture[str]) -> None:
    pytest.importorskip("reportlab")
    save("a.csv", LIST)
    status, out, err = told(["labels", "a.csv", "-o", f"b.{form}", "--currency", "€"], capsys)
    pages = "" if form in ("zpl", "epl", "tspl") else " on 1 page"
    assert (status, out, err[-1]) == (0, [], f"2 labels{pages} in b.{form}")
    assert sorted(os.listdir()) == ["a.csv", f"b.{form}"]
    with open(f"b.{form}", "rb") as file:
        assert file.read().startswith(begins)


def test_pages_of_pictures_are_files(folder: Path, capsys: pytest.CaptureFixture[str]) -> None:
    pytest.importorskip("reportlab")
    save("a.csv", LIST)
    assert told(["labels", "a.csv", "-o", "b.png", "--stock", "57x32"], capsys)[2][-1] == "2 labels on 2 pages in b-1.png to b-2.png"
    assert sorted(os.listdir()) == ["a.csv", "b-1.png", "b-2.png"]
    assert told(["labels", "a.csv", "-o", "-", "--to", "png", "--stock", "57x32"], capsys)[0] == 2


def test_a_list_of_excel(folder: Path, capsys: pytest.CaptureFixture[str]) -> None:
    pytest.importorskip("reportlab")
    save("a.csv", "sep=;\r\nEAN;Bezeichnung;VK\r\n9501101530003;Größe;12,99\r\n", "cp1252")
    status, _, err = told(["labels", "a.csv", "-o", "a.svg", "--currency", "€"], capsys)
    assert status == 0 and err[0] == "a.csv: read as Windows-1252"
    with open("a.svg", encoding="utf-8") as file:
        text = file.read()
    assert ">Größe<" in text and ">12,99\xa0€<" in text


def test_nothing_is_written_of_a_list_with_a_fault(folder: Path, capsys: pytest.CaptureFixture[str]) -> None:
    pytest.importorskip("reportlab")
    save("a.csv", "gtin\n96385074\n96385075\n96385075\n1\n")
    assert told(["labels", "a.csv", "-o", "a.pdf", "--no-price"], capsys) == (1, [], [
        "a.csv:3: 96385075: refused 3 CheckDigit: a digit is wrong; if it is the last one, 96385074 is right (and 1 more line)",
        "a.csv:5: 1: refused 1 Length: a GTIN has 8, 12, 13 or 14 digits", "a.csv: 3 lines refused, so nothing was written"])
    assert os.listdir() == ["a.csv"]


def test_a_list_without_labels(folder: Path, capsys: pytest.CaptureFixture[str]) -> None:
    pytest.importorskip("reportlab")
    for text in ("gtin,copies\n96385074,0\n", "ean;name;EK;VK\n"):
        save("a.csv", text)
        assert told(["labels", "a.csv", "-o", "a.pdf", "--no-price"], capsys) == (1, [], ["a.csv:1: the list has no labels to print"])
    assert told(["labels", "a.csv", "-o", "a.pdf"], capsys) == (1, [], ["a.csv:1: the list has no labels to print"])


def test_of_many_faults_the_first_are_told(folder: Path, capsys: pytest.CaptureFixture[str]) -> None:
    pytest.importorskip("reportlab")
    save("a.csv", "gtin\n" + "".join(f"x{number}\n" for number in range(100)))
    _, _, err = told(["labels", "a.csv", "-o", "a.pdf", "--no-price"], capsys)
    assert len(err) == 52 and err[50:] == ["a.csv: and 50 more faults; noriladle check prints all of the numbers",
                                           "a.csv: 100 lines refused, so nothing was written"]


# ---- prices, questions, and lists that are put right

PRICES = "EAN;Artikel;Preis;UVP\n4012345010008;Haferkekse;2,9;3,50\n96385074;Kaugummi;0,90;1,10\n"


def test_a_question_about_the_price(folder: Path, capsys: pytest.CaptureFixture[str]) -> None:
    pytest.importorskip("reportlab")
    save("a.csv", PRICES)
    question = "a.csv:1: 'Preis', 'UVP' may each be the price on the shelf: say which it is, as in --column price='Preis', or --no-price"
    assert told(["labels", "a.csv", "-o", "a.svg"], capsys) == (1, [], [question]) and os.listdir() == ["a.csv"]
    for words, price, note in ((["--column", "price=UVP"], "3,50", "a.csv: not printed: 'Preis'"),
                               (["--column", "price=3"], "2,90", "a.csv: not printed: 'UVP'"), (["--no-price"], None, "a.csv: not printed: 'Preis', 'UVP'")):
        status, out, err = told(["labels", "a.csv", "-o", "a.svg", *words], capsys)
        assert (status, out, err[0]) == (0, [], note)
        with open("a.svg", encoding="utf-8") as file:
            assert (f">{price}<" in (text := file.read())) is bool(price) and ("3,50" in text) is (price == "3,50")


@pytest.mark.parametrize("words, said", [
    (["--column", "price=VK"], "a.csv:1: no column is headed 'VK'; there are 'EAN', 'Artikel', 'Preis', 'UVP'"),
    (["--column", "price=9"], "a.csv:1: there is no column 9 for price: the list has 4"),
    (["--no-price", "--column", "price=UVP"], "noriladle: --no-price and --column price do not go together: leave one out"),
    (["--column", "price=UVP", "--column", "price=Preis"], "noriladle: --column price=Preis: the price is already 'UVP'"),
    (["--encoding", "klingon"], "noriladle labels: argument --encoding: 'klingon' is none of utf-8, utf-16, cp1252, cp1250, cp850, mac_roman; "
     "see noriladle labels --help"),
])
def test_wrong_answers(words: list[str], said: str, folder: Path, capsys: pytest.CaptureFixture[str]) -> None:
    pytest.importorskip("reportlab")
    save("a.csv", PRICES)
    assert told(["labels", "a.csv", "-o", "a.pdf", *words], capsys)[2] == [said] and os.listdir() == ["a.csv"]


def test_free_articles(folder: Path, capsys: pytest.CaptureFixture[str]) -> None:
    pytest.importorskip("reportlab")
    save("a.csv", "ean;price\n96385074;0\n")
    assert told(["labels", "a.csv", "-o", "a.svg"], capsys)[2][0] == (
        "a.csv:2: '0' is a price of zero: correct it, or say that zeros are printed (--free)")
    assert told(["labels", "a.csv", "-o", "a.svg", "--free"], capsys)[0] == 0


def test_lines_that_are_left_out(folder: Path, capsys: pytest.CaptureFixture[str]) -> None:
    pytest.importorskip("reportlab")
    save("a.csv", "ean;name;price\n4012345010008;Kekse;2,90\n96385075;a;1\n96385074;שלום;1\n9501101530003;b;x\n012345000065;c;1\n012345000065;d;1\n")
    status, out, err = told(["labels", "a.csv", "-o", "a.svg", "--leave-out"], capsys)
    assert (status, out) == (1, [])
    assert [line.split(": ")[0] for line in err if "warning" not in line] == ["a.csv:3", "a.csv:4", "a.csv:5", "a.csv:6", "a.csv:7", "a.csv", "1 label on 1 page in a.svg"]
    assert err[-2] == "a.csv: 5 lines left out"
    save("a.csv", "ean;price\n96385075;1\n")
    assert told(["labels", "a.csv", "-o", "b.svg", "--leave-out"], capsys)[2][-1] == "a.csv: 1 line refused, so nothing was written"
    assert sorted(os.listdir()) == ["a.csv", "a.svg"]


def test_a_list_is_corrected(folder: Path, capsys: pytest.CaptureFixture[str]) -> None:
    cells = ['"=""4012345010008"""', "'4012345010008", "EAN: 4012345010008", "4,012345010008E+12", "12345000065", "3-16-148410-X", "４０１２３４５０１０００８",
             "978-3-16-148410-0", '="00000000"', "4012345010375"]
    save("a.csv", "Preisliste;\nEAN;Name\n" + "".join(f"{cell};x\n" for cell in cells) + "Summe;\n")
    status, out, err = told(["check", "a.csv", "--fix", "-o", "b.csv"], capsys)
    assert (status, out) == (1, [])
    assert err[-2:] == ["a.csv:12: 4012345010375 (x): refused 3 CheckDigit: a digit is wrong; if it is the last one, 4012345010374 is right", "8 lines corrected in b.csv"]
    assert "a.csv:6: '4,012345010008E+12' is 4012345010008" in err and "a.csv: 1 line without a number is passed over: 13" in err
    with open("b.csv", encoding="utf-8-sig") as file:
        rows = [line.split(";")[0] for line in file.read().splitlines()]
    assert rows == ["Preisliste", "EAN", *["4012345010008"] * 4, "012345000065", "9783161484100", "4012345010008", "9783161484100", '"=""00000000"""', "4012345010375", "Summe"]
    assert told(["check", "b.csv", "--fix", "-o", "-"], capsys)[1][2] == "4012345010008;x"
    for words in (["--fix"], ["-o", "b.csv"]):
        assert told(["check", "a.csv", *words], capsys) == (2, [], ["noriladle: --fix and -o FILE go together: write both, as in --fix -o fixed.csv"])


def test_links_of_a_list(folder: Path, capsys: pytest.CaptureFixture[str]) -> None:
    save("a.csv", "4012345010008\n(10)AB\n(01)09501101530003(10)A/1\n4012345010009\n")
    status, out, _ = told(["check", "a.csv", "--link", "https://x.de/"], capsys)
    assert status == 1 and [line.split("\t")[3] for line in out[:3]] == ["https://x.de/01/04012345010008", "", "https://x.de/01/09501101530003/10/A%2F1"]
    links = [json.loads(line).get("link") for line in told(["check", "a.csv", "--link", "https://x.de", "--json"], capsys)[1]]
    assert links == ["https://x.de/01/04012345010008", None, "https://x.de/01/09501101530003/10/A%2F1", None]
    assert told(["check", "a.csv", "--link", "x.de"], capsys) == (2, [], ["noriladle: --link takes the beginning of a web address, as https://id.gs1.org"])


@pytest.mark.parametrize("text, told_of", [
    ("401234500002", "it may be 4012345000023, if its check digit is missing; 401234500005, if the last digit is wrong"),
    ("4O12345010008", "'O' is the letter O: write a zero, as in 4012345010008"), ("316148410X", "an ISBN of ten digits: write 9783161484100"),
    ("9638507", "the check digit is missing: compare 96385074 with the box"), ("EAN: 4012345010008", "write 4012345010008"),
    ("1234565", "]E401234565 is right; it may also be 12345656, if its check digit is missing"), ("0000000000000", "a number of zeros alone"),
    ("4012345010009", "a digit is wrong; if it is the last one, 4012345010008 is right"), ("4.01234501E+12", "has rounded it"),
])
def test_advice(text: str, told_of: str, folder: Path, capsys: pytest.CaptureFixture[str]) -> None:
    save("a", f"{text}\n")
    status, (line,), _ = told(["check", "a"], capsys)
    assert status == 1 and told_of in line


def test_german_where_the_machine_speaks_it(folder: Path, capsys: pytest.CaptureFixture[str], monkeypatch: pytest.MonkeyPatch) -> None:
    pytest.importorskip("reportlab")
    monkeypatch.setenv("LC_ALL", "de_AT.UTF-8")
    save("a.csv", PRICES.replace("96385074", "96385075"))
    assert told(["labels", "a.csv", "-o", "a.pdf"], capsys)[2] == [
        "a.csv:1: „Preis“, „UVP“ können jeweils der Preis am Regal sein: bitte auswählen, etwa mit --column price='Preis' oder --no-price"]
    assert told(["labels", "a.csv", "-o", "a.pdf", "--no-price"], capsys)[2][-2:] == [
        "a.csv:3: 96385075: refused 3 CheckDigit: eine Ziffer ist falsch; falls es die letzte ist, ist 96385074 richtig",
        "a.csv: 1 Zeile abgelehnt, darum ist nichts geschrieben"]
    assert told(["labels", "a.csv", "-o", "a.pdf", "--no-price", "--leave-out"], capsys)[2][-2:] == [
        "a.csv: 1 Zeile weggelassen", "1 Etikett auf 1 Seite in a.pdf"]
    _, out, err = told(["check", "a.csv"], capsys)
    assert out[1].endswith("falls es die letzte ist, ist 96385074 richtig\tKaugummi") and err == ["a.csv: 1 von 2 Zeilen abgelehnt"]
    save("b.png", b"no picture")
    assert told(["read", "b.png"], capsys)[2] == ["b.png: das ist kein Bild, das gelesen wird: JPEG, PNG, TIFF, PBM, PGM, PPM, BMP, GIF, WebP und PDF sind es"]
    monkeypatch.setenv("LC_ALL", "fr_FR.UTF-8")
    assert told(["labels", "a.csv", "-o", "a.pdf"], capsys)[2][0].startswith("a.csv:1: 'Preis', 'UVP' may each")


def test_stocks(capsys: pytest.CaptureFixture[str]) -> None:
    status, out, _ = told(["labels", "--stocks"], capsys)
    assert status == 0 and "L7160\t3x7:63.5x38.1+2.54+0" in out and "11354\t57x32" in out


def test_all_files_or_none_are_written(folder: Path) -> None:
    from pathlib import Path
    save("b", "old")
    # The third file has no folder.
    with pytest.raises(OSError):
        write_files([(Path("a"), b"1"), (Path("b"), b"2"), (Path("no/c"), b"3")])
    assert os.listdir() == ["b"] and open("b").read() == "old"
    # The second file is larger than a file may be.
    before = resource.getrlimit(resource.RLIMIT_FSIZE)
    signal.signal(signal.SIGXFSZ, signal.SIG_IGN)
    resource.setrlimit(resource.RLIMIT_FSIZE, (1_000, before[1]))
    try:
        with pytest.raises(OSError) as raised:
            write_files([(Path("a"), b"1"), (Path("b"), b"2" * 5_000)])
    finally:
        resource.setrlimit(resource.RLIMIT_FSIZE, before)
    assert raised.value.errno == errno.EFBIG and os.listdir() == ["b"] and open("b").read() == "old"
    write_files([(Path("a"), b"1"), (Path("b"), b"2")])
    assert [open(name).read() for name in "ab"] == ["1", "2"] and sorted(os.listdir()) == ["a", "b"]


def test_links_and_devices_stay_what_they_are(folder: Path) -> None:
    from pathlib import Path
    save("a", "old")
    os.symlink("a", "link")
    os.symlink("/dev/null", "device")
    write_files([(Path("link"), b"1"), (Path("device"), b"2")])
    assert open("a").read() == "1" and os.path.islink("link") and os.path.islink("device")
    os.mkdir("folder.pdf")
    with pytest.raises(IsADirectoryError):
        write_files([(Path("folder.pdf"), b"1")])


def test_a_full_disk(folder: Path) -> None:
    pytest.importorskip("reportlab")
    save("a.csv", LIST)
    how: dict[str, Any] = {"stderr": subprocess.PIPE, "text": True, "env": {**os.environ, "PYTHONPATH": os.pathsep.join(sys.path)}}
    with open("/dev/full", "wb") as full:
        done = subprocess.run([sys.executable, "-m", "noriladle", "labels", "a.csv", "--to", "pdf", "-o", "-"], stdout=full, **how)
    assert done.returncode == 1 and done.stderr.endswith("No space left on device\n")
    done = subprocess.run([sys.executable, "-m", "noriladle", "labels", "a.csv", "-o", "/proc/a.pdf"], **how)
    assert done.returncode == 1 and done.stderr.splitlines()[-1].startswith("noriladle: /proc/a.pdf: ") and "nothing was written" in done.stderr


# ---- read

@pytest.fixture
def picture(folder: Path) -> Any:
    """A picture of an EAN-13, as Pillow's image."""
    pytest.importorskip("numpy")
    Image = pytest.importorskip("PIL.Image")
    from noriladle import draw_label
    data = draw_label("ean13", "9501101530003", 2026, width=400)
    return Image.open(io.BytesIO(data)).convert("L")


LINE = "]E0\t(01)09501101530003"


@pytest.mark.parametrize("name", ["a.png", "a.jpg", "a.tif", "a.bmp", "a.gif", "a.webp", "a.pgm", "a.ppm"])
def test_reads_each_format(name: str, picture: Any, capsys: pytest.CaptureFixture[str]) -> None:
    picture.save(name)
    status, out, err = told(["read", name], capsys)
    assert (status, err) == (0, []) and [line.rsplit("\t", 1)[0] for line in out] == [f"{name}\t{LINE}"]
    left, top, right, bottom = (int(it) for it in out[0].rsplit("\t", 1)[1].split(","))
    # 11 light modules of two pixels, and 95 of the symbol.
    assert abs(left - 22) < 3 and abs(right - 212) < 3 and top < 10 and bottom > 100


def test_reads_the_pages_of_a_tiff(picture: Any, capsys: pytest.CaptureFixture[str]) -> None:
    picture.save("a.tif", save_all=True, append_images=[picture.rotate(180), picture])
    assert [line.rsplit("\t", 1)[0] for line in told(["read", "a.tif"], capsys)[1]] == [f"a.tif:{page}\t{LINE}" for page in (1, 2, 3)]


def test_after_a_damaged_page_no_other_is_told(picture: Any, capsys: pytest.CaptureFixture[str]) -> None:
    picture.save("a.tif", save_all=True, append_images=[picture] * 4, compression="tiff_deflate")
    with pytest.importorskip("PIL.Image").open("a.tif") as image:
        image.seek(2)
        place, count = image.tag_v2[273][0], image.tag_v2[279][0]
    data = bytearray(open("a.tif", "rb").read())
    data[place:place + count] = bytes(count)
    save("a.tif", bytes(data))
    status, out, err = told(["read", "a.tif"], capsys)
    assert [line.rsplit("\t", 1)[0] for line in out] == [f"a.tif:{page}\t{LINE}" for page in (1, 2)]
    assert (status, err) == (2, ["a.tif: the picture is damaged, or cut"])


@pytest.mark.parametrize("processors, room, at_once", [(1, 100, 1), (3, 100, 3), (8, 2.5, 2), (8, 1.5, 1)])
def test_reads_pages_side_by_side_in_the_room_of_one_picture(processors: int, room: float, at_once: int, picture: Any,
                                                             capsys: pytest.CaptureFixture[str], monkeypatch: pytest.MonkeyPatch) -> None:
    picture.save("a.pdf", resolution=72, save_all=True, append_images=[picture] * 9)
    pixels = picture.width * picture.height * (300 / 72) ** 2
    running, most, turn = [], [], threading.Condition()

    def read(image: object, year: float | str, ais: str) -> Symbols:
        with turn:
            running.append(image)
            most.append(len(running))
            turn.notify_all()
            turn.wait_for(lambda: max(most) >= at_once, 5)
        time.sleep(0.01)
        with turn:
            running.remove(image)
        return Symbols()

    monkeypatch.setattr("noriladle.picture.read", read)
    monkeypatch.setattr("noriladle.picture.MOST_PIXELS", room * pixels)
    monkeypatch.setattr("os.cpu_count", lambda: processors)
    assert [line.split(": ")[0] for line in told(["read", "a.pdf"], capsys)[2]] == [f"a.pdf:{page}" for page in range(1, 11)]
    assert max(most) == at_once


def test_reads_a_pdf_file(picture: Any, capsys: pytest.CaptureFixture[str]) -> None:
    picture.save("a.pdf", resolution=72)
    status, out, err = told(["read", "a.pdf"], capsys)
    assert (status, err) == (0, []) and out[0].startswith(f"a.pdf:1\t{LINE}\t")


def test_read_as_json(picture: Any, capsys: pytest.CaptureFixture[str]) -> None:
    picture.save("a.png")
    status, out, _ = told(["read", "--json", "a.png"], capsys)
    it = json.loads(out[0])
    assert status == 0 and (it["file"], it["identifier"], it["gtin"]) == ("a.png", "]E0", "09501101530003")
    assert it["elements"] == [{"ai": "01", "value": "09501101530003"}] and len(it["box"]) == 4 and len(it["corners"]) == 4 and it["rows"] > 50
    assert "page" not in it


def png(width: int, height: int) -> bytes:
    """The head of a PNG that says it has this many pixels."""
    def chunk(name: bytes, data: bytes) -> bytes:
        return struct.pack(">I", len(data)) + name + data + struct.pack(">I", zlib.crc32(name + data))
    return b"\x89PNG\r\n\x1a\n" + chunk(b"IHDR", struct.pack(">IIBBBBB", width, height, 8, 0, 0, 0, 0)) + chunk(b"IDAT", zlib.compress(b"\0" * 100))


@pytest.mark.parametrize("data, status, said", [
    (b"", 2, "this is no picture that is read"),
    (b"text", 2, "this is no picture that is read"),
    (b"%!PS-Adobe-3.0 EPSF-3.0\n%%BoundingBox: 0 0 100 100\nshowpage\n", 2, "this is no picture that is read"),
    (b"%PDF-1.4\nnothing", 2, "pdfinfo does not open it: "),
    (b"\0\0\0\x18ftypheic\0\0\0\0", 2, "this is a HEIC or AVIF photograph"),
    (png(100, 100), 2, "the picture is damaged, or cut"),
    (png(20_000, 20_000), 1, "refused 44 InputSize: a picture of more than 100,000,000 pixels is not read"),
    (png(10_001, 10_000), 1, "refused 44 InputSize"),
])
def test_what_is_no_picture(data: bytes, status: int, said: str, picture: Any, capsys: pytest.CaptureFixture[str]) -> None:
    save("a", data)
    found, out, err = told(["read", "a"], capsys)
    assert (found, out, len(err)) == (status, [], 1) and err[0].startswith(f"a: {said}")


def test_no_other_program_runs_for_a_picture(picture: Any, capsys: pytest.CaptureFixture[str], monkeypatch: pytest.MonkeyPatch) -> None:
    from PIL import EpsImagePlugin

    def run(*_: tuple[str, int]) -> NoReturn:
        raise AssertionError("Ghostscript was asked for")
    monkeypatch.setattr(EpsImagePlugin, "Ghostscript", run)
    picture.convert("RGB").save("a.eps")
    assert told(["read", "a.eps"], capsys)[0] == 2
    import noriladle
    with pytest.raises(OSError):
        noriladle.read_picture("a.eps", 2026)


def test_a_cut_picture_does_not_stop_the_others(picture: Any, capsys: pytest.CaptureFixture[str]) -> None:
    picture.save("a.png")
    with open("a.png", "rb") as file:
        data = file.read()
    for name, end in (("cut.png", len(data) // 2), ("head.png", 40)):
        save(name, data[:end])
    picture.crop((0, 0, 100, 20)).save("white.png")
    status, out, err = told(["read", "cut.png", "a.png", "head.png", "white.png"], capsys)
    assert status == 2 and [line.rsplit("\t", 1)[0] for line in out] == [f"a.png\t{LINE}"]
    assert [line.partition(":")[0] for line in err] == ["cut.png", "head.png", "white.png"]
    assert told(["read", "white.png"], capsys) == (1, [], [
        "white.png: no barcode was read: EAN, UPC, ITF-14 and GS1-128 are read, QR Codes and DataMatrix are not; "
        "docs/PICTURES.md says what a picture needs"])


def test_damaged_pictures_are_told(picture: Any, capsys: pytest.CaptureFixture[str]) -> None:
    import random
    chance = random.Random(1)
    for name in ("a.png", "a.jpg", "a.tif", "a.gif", "a.bmp", "a.webp"):
        picture.save(name)
        with open(name, "rb") as file:
            whole = file.read()
        for _ in range(25):
            data = bytearray(whole)
            for _ in range(chance.randrange(1, 20)):
                data[chance.randrange(len(data))] = chance.randrange(256)
            save("b", bytes(data[:chance.choice([len(data), chance.randrange(len(data))])]))
            status, out, err = told(["read", "b"], capsys)
            assert status in (0, 1, 2) and len(out) + len(err) >= 1
            assert all(line.split("\t")[2] == "(01)09501101530003" for line in out)


def test_a_pdf_without_poppler(picture: Any, capsys: pytest.CaptureFixture[str], monkeypatch: pytest.MonkeyPatch) -> None:
    picture.save("a.pdf")
    monkeypatch.setattr("shutil.which", lambda name: None)
    assert told(["read", "a.pdf"], capsys) == (2, [], ["a.pdf: pages of PDF files are drawn by pdftoppm: apt-get install poppler-utils"])


def test_progress_is_for_terminals(monkeypatch: pytest.MonkeyPatch, capsys: pytest.CaptureFixture[str]) -> None:
    progress = commands.Progress()
    progress("half", at_once=True)
    assert capsys.readouterr().err == ""
    monkeypatch.setattr(sys.stderr, "isatty", lambda: True)
    progress("half")  # A second has not gone by.
    progress("one", at_once=True)
    progress.end()
    assert capsys.readouterr().err == "\rone\r   \r"


def test_progress_from_the_second_page_on(picture: Any, capsys: pytest.CaptureFixture[str], monkeypatch: pytest.MonkeyPatch) -> None:
    picture.save("a.tif", save_all=True, append_images=[picture])
    monkeypatch.setattr(sys.stderr, "isatty", lambda: True)
    assert main(["read", "a.tif"]) == 0
    assert "reading a.tif:2 (1 of 1)" in capsys.readouterr().err
