"""Lists as people save them, and what is found in them: the texts, the columns, and the remedies."""
from __future__ import annotations

import json
from typing import Any, Callable

import pytest

import noriladle
from noriladle import Kind, Refusal
from noriladle._columns import table_of
from noriladle._lists import LIMIT, Faults
from noriladle._advice import remedy_of
from noriladle._texts import digits_of, element_string, looks_right, read_text

OATS, RYE, GUM, COLA = "4012345010008", "4012345010374", "96385074", "012345000065"


@pytest.mark.parametrize("text, identifier, said", [
    (OATS, None, f"(01)0{OATS}"),
    ("96385074", None, "(01)00000096385074"),
    ("0 12345 00006 5", None, "(01)00012345000065"),
    ("978-3-16-148410-0", None, "(01)09783161484100"),
    ("04012345010008", None, "(01)04012345010008"),
    ("(01)09501101530003(17)261231", None, "(01)09501101530003(17)261231"),
    ("(01) 09501101530003 (10) AB", None, "(01)09501101530003(10)AB"),
    ("[01]09501101530003[10]A(B)C", None, "(01)09501101530003(10)A(B)C"),
    ("^10AB^17261231", None, "(10)AB(17)261231"),
    ("10AB^17261231", None, "(10)AB(17)261231"),
    ("10AB\x1d17261231", None, "(10)AB(17)261231"),
    ("]C110AB\x1d17261231", "]C1", "(10)AB(17)261231"),
    ("]E04012345010008", "]E0", f"(01)0{OATS}"),
    ("]E001234565", "]E0", "(01)00012345000065"),
    ("]E496385074", "]E4", "(01)00000096385074"),
    ("]I104012345010008", "]I1", "(01)04012345010008"),
    ("https://id.gs1.org/01/09501101530003/10/AB", None, "(01)09501101530003(10)AB"),
])
def test_reads_a_text(text: str, identifier: str | None, said: str) -> None:
    answer = read_text(f" {text} ", 2026)
    assert (answer.identifier, answer.text) == (identifier, said)


@pytest.mark.parametrize("text, refused, remedy", [
    ("4012345010375", (3, None), "a digit is wrong; if it is the last one, 4012345010374 is right"),
    ("4674009", (1, None), "a GTIN has 8, 12, 13 or 14 digits; a spreadsheet may have removed zeros: ]E404674009 is right; it may also be 46740090"),
    ("EAN: 04674009", (2, 0), "write ]E404674009"),
    ("12345000065", (1, None), "a GTIN has 8, 12, 13 or 14 digits; a spreadsheet may have removed zeros: 012345000065 is right"),
    ("4,01235E+12", (1, None), "the spreadsheet has rounded it"),
    ("4.01235e+12", (1, None), "the spreadsheet has rounded it"),
    ("010950110153000317261231", (1, None), "a GTIN has 8, 12, 13 or 14 digits; if this is an element string, write ^0109501101"),
    ("4012345010008.0", (1, None), "a number has no decimals: write 4012345010008"),
    ("123", (1, None), "a GTIN has 8, 12, 13 or 14 digits"),
    ("", (1, None), "a GTIN has 8, 12, 13 or 14 digits"),
    ("401234501000x", (2, 12), "'x' is no digit: take it out"),
    ("01234565", (40, None), "eight digits that begin with 0 may be a GTIN-8 or a UPC-E: write ]E401234565 or ]E001234565"),
    ("(01)09501101530003(17)261331", (9, 17), "at (17)261331: write YYMMDD"),
    ("(01)9501101530003", (6, 0), "at (01)9501101530003: a GTIN has 14 digits here: (01)09501101530003"),
    ("(01)09501101530003(9999)x", (5, 17), "at (9999)x: there is no such Application Identifier"),
    ("(10)A B#C", (7, 0), "at (10)A B#C: the value has a character that is not allowed: take it out"),
    ("(01)0950110153000310AB", (6, 0), "at (01)0950110153000310AB: the value has another length"),
    ("(20)123", (6, 0), "at (20)123: the value has another length than its Application Identifier asks for"),
    ("[10]AB[98765]1", (5, None), "brackets stand around Application Identifiers alone"),
    ("(20)A(B)C", (5, None), "parentheses stand around Application Identifiers alone"),
    ("0000000000000", (40, None), "a number of zeros alone belongs to no article"),
    ("10AB^17261331", (9, 5), "at 17261331: write YYMMDD"),
    ("^10AB^17261331", (9, 5), "at 17261331: write YYMMDD"),
    ("^7003261332", (6, 0), "at 7003261332: the value is too short"),
    ("^70032613311200", (9, 0), "at 70032613311200: there is no such day or time: a day is YYMMDD"),
    ("]E3abc", (40, None), "]E3 marks an EAN or UPC with an add-on: switch supplementals off"),
    ("]I009501101530003", (40, None), "]I0 marks an ITF whose check digit the scanner has ignored"),
    ("]A0abc", (40, None), "]A0 marks a barcode without a GS1 number"),
    ("]Q1https://example.com/x", (40, None), "this is not a GS1 Digital Link"),
    ("]E040123450103", (1, None), "behind ]E0 there are 12 or 13 digits"),
    ("]E04012345010375", (3, None), "a digit is wrong; if it is the last one, ]E04012345010374 is right"),
    ("https://id.gs1.org/01/09501101530003?10=A+B", (7, 1), "element 2 of the link: the value has a character that is not allowed"),
    ("https://example.com/x", (40, None), "this is not a GS1 Digital Link"),
])
def test_refuses_a_text_and_says_what_to_do(text: str, refused: tuple[int, int | None], remedy: str) -> None:
    with pytest.raises(Refusal) as raised:
        read_text(text, 2026)
    fault = raised.value
    assert (fault.number, fault.place) == refused
    advice = remedy_of(text, fault, 2026)
    assert str(advice).startswith(remedy)
    for fix in advice.fixes:
        read_text(fix, 2026)


def test_puts_texts_in_place_of_those_that_are_refused() -> None:
    def fixes(text: str) -> tuple[str, ...]:
        with pytest.raises(Refusal) as raised:
            read_text(text, 2026)
        return remedy_of(text, raised.value, 2026).fixes
    assert fixes("(01)9501101530003(17)261231") == ("(01)09501101530003(17)261231",)
    assert fixes("010950110153000317261231") == ("^010950110153000317261231",)
    assert fixes("01234565") == ("]E401234565", "]E001234565")
    assert fixes("123456789012345") == ()


def test_never_guesses_an_element_string_of_digits() -> None:
    for text in ("4012345010008;Haferkekse;2,90", "0109501101530003", "00123456789012345675"):
        with pytest.raises(Refusal):
            read_text(text, 2026)


def test_each_refusal_has_a_cause_and_a_remedy() -> None:
    for number in range(1, 45):
        refusal = Refusal(number, "Name")
        assert refusal.cause and refusal.remedy and not set("`|{}") & set(refusal.cause + refusal.remedy)
    assert Refusal(4, "Empty").remedy == "there is no text: type it"
    assert noriladle.Refusal(3, "CheckDigit").cause.startswith("a digit was misread or mistyped")


def test_a_gtin_is_no_element_string_unless_it_has_a_mark() -> None:
    text: Any
    call: Any
    for text in ("9501101530003", b"9501101530003", "96385074", "012345000065", "09501101530003"):
        for call in (noriladle.draw_label, noriladle.label_symbol):
            assert refused(call, noriladle.Kind.GS1128, text, 2026).number == 40
    for text in ("^9501101530003", "\x1d9501101530003", b"^9501101530003"):
        assert noriladle.label_symbol("gs1128", text, 2026).text == "(95)01101530003"
    assert noriladle.label_symbol("gs1128", "9501101530004", 2026).text == "(95)01101530004"
    assert noriladle.label_symbol("gs1128", "10AB^17261231", 2026) == noriladle.label_symbol("gs1128", "10AB\x1d17261231", 2026)
    assert noriladle.draw_label("gs1128", "^10AB", 2026) == noriladle.draw_label("gs1128", "10AB", 2026)
    assert refused(noriladle.label_symbol, "gs1128", "^10AB^17261331", 2026).place == 5


def refused(call: Callable[..., object], *words: object) -> Refusal:
    with pytest.raises(Refusal) as raised:
        call(*words)
    return raised.value


def test_a_remedy_is_of_the_call_that_was_asked() -> None:
    import pickle
    call: Any
    for call, words, remedy, fixes in [
        (noriladle.read_scan, ("(01)09501101530003(17)261231", 2026), "write ^0109501101530003^17261231", ["^0109501101530003^17261231"]),
        (noriladle.read_scan, ("abc", 2026), "a scanner's text is digits alone, or a GS1 Digital Link, or begins with ] or ^", []),
        (noriladle.read_scan, (b"]E09501101530004", 2026), "a digit is wrong; if it is the last one, ]E09501101530003 is right", ["]E09501101530003"]),
        (noriladle.read_scan, ("]C1" + "10A" * 80, 2026), "there are more than 192 characters or 48 elements: put fewer elements into one symbol", []),
        (noriladle.parse_elements, ("10AB^17261231", 2026), "the separator is byte 29 here: write 10AB\\x1d17261231", ["10AB17261231"]),
        (noriladle.read_elements, ("(21)A(B)C", 2026), "write 21A(B)C", ["21A(B)C"]),
        (noriladle.read_gtin, ("4674009",), "a GTIN has 8, 12, 13 or 14 digits; a spreadsheet may have removed zeros: 04674009 is right; it may also be "
         "46740090, if its check digit is missing", ["04674009", "46740090"]),
        (noriladle.check_digit, ("1" * 18,), "a check digit is of 1 to 17 digits", []),
        (noriladle.check_digit, ("12 3",), "write 123", ["123"]),
        (noriladle.compose, ([("10", "A"), ("01", "9501101530003")],), "at (01)9501101530003: a GTIN has 14 digits here: (01)09501101530003", []),
        (noriladle.compose, ([("", "")],), "there is no such Application Identifier", []),
        (noriladle.label_symbol, ("qr", "1", 2026), "there is no kind 'qr': it is one of ean13, upca, ean8, upce, gs1128, itf14", []),
        (noriladle.draw_label, ("gs1128", "9501101530003", 2026), "is this a GTIN, or are these elements? write 0109501101530003 or ^9501101530003",
         ["0109501101530003", "^9501101530003"]),
        (noriladle.draw_label, ("ean13", "4012345010375", 2026), "a digit is wrong; if it is the last one, 4012345010374 is right", ["4012345010374"]),
        (noriladle.read_row, ([10, 70_000, 10], 2026), "the row has more than 65,535 dots: scan at a lower resolution", []),
        (noriladle.read_dots, (b"", 9, 2026), "give the widths of light and dark in turn, an odd count of them and 0 only at the ends, or as many "
         "dots as you say", []),
        (noriladle.read_row, ([10], 2026), "scan again", []),
        (noriladle.read_scan, ("]C110A", 1900), "the year must be from 1951 to 2149", []),
    ]:
        fault = refused(call, *words)
        assert (fault.remedy, list(fault.fixes)) == (remedy, fixes)
        assert pickle.loads(pickle.dumps(fault)).remedy == remedy and fault.cause
    symbol = noriladle.label_symbol("gs1128", "10AB", 2026)
    assert refused(noriladle.read_row, [10, *symbol.widths[:-2], 10], 2026).remedy == "show one whole symbol"
    assert refused(noriladle.read_scan, "]E3123", 2026).cause == "EAN or UPC with an add-on"


def test_words_of_texts() -> None:
    assert digits_of("978-3-16\xa0148410\u20110") == "9783161484100"
    for text in ("10AB^17261231", "(10)AB(17)261231", "]C110AB\x1d17261231"):
        assert element_string(read_text(text, 2026)) == "10AB\x1d17261231"
    assert [looks_right(text) for text in ("4012345010008", "1234567", "4,01235E+12", "(01)x", "]C1", "https://a", "^10A")] == [True] * 7
    assert not any(map(looks_right, ("", "Haferkekse", "2,90", "123456", "(mild)", "]", "123456789012345")))


def table(text: bytes | str, **named: Any) -> tuple[list[tuple[int | str, ...]], list[str], str]:
    """The cells of the columns that are found in a list, line by line, and the note."""
    found = table_of(text if isinstance(text, bytes) else text.encode(), 2026, **named)
    meanings = [meaning for meaning in ("gtin", "gs1", "name", "price", "copies", "kind") if meaning in found.places]
    return [(it.line, *(found.cell(it, meaning) for meaning in meanings)) for it in found.records], meanings, found.note


@pytest.mark.parametrize("heading", [
    "ean;name;price", "EAN-13;Item;Retail price", "GTIN;Bezeichnung;VK", "Strichcode;Artikelbezeichnung;Preis (EUR)",
    "Code-barres;Libellé;Prix TTC", "Gencod;Désignation;Prix de vente", "Código de barras;Descripción;PVP",
    "Codice a barre;Descrizione;Prezzo", "Streepjescode;Omschrijving;Verkoopprijs", "Kod kreskowy;Nazwa towaru;Cena brutto",
    "EAN/UPC;Produktname;UVP", "\ufeffean;NAME;PRICE", '"ean";"name";"price"',
])
def test_headings_in_seven_languages(heading: str) -> None:
    assert table(f"{heading}\n{OATS};Haferkekse;2,90\n") == ([(2, OATS, "Haferkekse", "2,90")], ["gtin", "name", "price"], "")


def test_other_columns_by_their_headings() -> None:
    rows, meanings, _ = table(f"Etiketten;Art;gs1;EAN;Zeile 1;Zeile 2\n3;;;{OATS};a;b\n1;;(10)AB;;c\n")
    assert (rows, meanings) == ([(2, OATS, "", "3"), (3, "", "(10)AB", "1")], ["gtin", "gs1", "copies"])
    assert table_of(f"ean;line 1;line2\n{OATS};a;b\n".encode(), 2026).places["line"] == [1, 2]


def test_the_best_heading_of_a_name_is_taken() -> None:
    assert table(f"EAN;Beschreibung;Artikel-Nr;Bezeichnung\n{OATS};lang;77;kurz\n")[0] == [(2, OATS, "kurz")]


@pytest.mark.parametrize("text, wanted, note", [
    (f"Artikelnummer;Bezeichnung;Preis\n{OATS};Haferkekse;2,90\n{RYE};Brot;3,59\n",
     [(2, OATS, "Haferkekse", "2,90"), (3, RYE, "Brot", "3,59")],
     "took 'Artikelnummer' for the gtin, 'Bezeichnung' for the name, 'Preis' for the price; if that is wrong, say it by --column"),
    (f"{OATS};Haferkekse;2,90\n", [(1, OATS, "Haferkekse", "2,90")],
     "took column 1 for the gtin, column 2 for the name, column 3 for the price; if that is wrong, say it by --column"),
    (f"Haferkekse\t{OATS}\nBrot, dunkel, grob\t{RYE}\n", [(1, OATS, "Haferkekse"), (2, RYE, "Brot, dunkel, grob")],
     "took column 2 for the gtin, column 1 for the name; if that is wrong, say it by --column"),
    (f"10011234,{OATS},\"Kekse; mild\"\n10011235,{RYE},Brot\n", [(1, OATS, "Kekse; mild"), (2, RYE, "Brot")],
     "took column 2 for the gtin, column 3 for the name; if that is wrong, say it by --column"),
    (f"Nummern\n{OATS}\n", [(2, OATS)], "took 'Nummern' in line 1 for a heading"),
    (f"{OATS}\n\n{RYE}\n", [(1, OATS), (3, RYE)], ""),
    ("(10)A,B\n(10)C;D\n", [(1, "(10)A,B"), (2, "(10)C;D")], ""),
    ("abc\n", [(1, "abc")], ""),
])
def test_columns_by_their_cells(text: str, wanted: list[tuple[int | str, ...]], note: str) -> None:
    rows, _, told = table(text)
    assert (rows, told) == (wanted, note)


def test_titles_may_stand_above_the_heading() -> None:
    assert table(f"Preisliste;;\nStand: 1.11.2026;;\n\nEAN;Bezeichnung;VK\n{OATS};Kekse;2,90\n") == (
        [(5, OATS, "Kekse", "2,90")], ["gtin", "name", "price"], "took line 4 for the heading, and nothing above it")


def test_a_line_with_a_number_is_no_heading() -> None:
    rows = f"{OATS};Barcode scanner;99,00\n{RYE};Labels;1,10\n"
    assert table(rows)[0] == [(1, OATS, "Barcode scanner", "99,00"), (2, RYE, "Labels", "1,10")]
    assert table(f"EAN;Name\n{OATS};EAN reader\n{RYE};GTIN\n")[0] == [(2, OATS, "EAN reader"), (3, RYE, "GTIN")]


def test_a_longer_heading_gives_way() -> None:
    assert table(f"EAN Karton;EAN;Preis je kg;Preis\n{RYE};{OATS};9,99;2,90\n")[0] == [(2, OATS, "2,90")]


def test_a_word_of_the_first_line_is_no_heading_beside_a_number() -> None:
    assert table(f"{OATS};Etiketten;2,90\n{RYE};Text;1,10\n")[0] == [(1, OATS, "Etiketten", "2,90"), (2, RYE, "Text", "1,10")]
    assert table(f"{OATS};Etiketten;2,90\n")[0] == [(1, OATS, "Etiketten", "2,90")]


def test_a_bad_number_does_not_hide_its_column() -> None:
    assert table("Nummer;Bezeichnung\n4012345010375;Kekse\n")[0] == [(2, "4012345010375", "Kekse")]
    assert table("4012345010375;Kekse\n")[0] == [(1, "4012345010375", "Kekse")]


def test_columns_that_are_asked_for() -> None:
    rows = f"a;b;c\n{OATS};{RYE};x\n"
    assert table(rows, columns={"gtin": "B", "name": "C"})[0] == [(2, RYE, "x")]
    assert table(rows, columns={"gtin": "2", "name": "3"})[0] == [(2, RYE, "x")]
    assert table(f"{OATS};{RYE};x\n", columns={"gtin": "2"})[0][0][:2] == (1, RYE)
    assert table(f"EAN;EAN Karton\n{OATS};{RYE}\n", columns={"gtin": "EAN Karton"})[0] == [(2, RYE)]


SAVED = [("kürbis", "2,90 €"), ("a\nb", "x;y")]


@pytest.mark.parametrize("delimiter, encoding, end, first", [
    (";", "utf-8", "\n", ""), (";", "utf-8-sig", "\r\n", ""), (";", "cp1252", "\r\n", ""), ("\t", "utf-16", "\r\n", ""),
    (",", "utf-8", "\n", ""), (";", "cp1252", "\r\n", "sep=;\r\n"), (",", "utf-8", "\n", "sep=,\n"), (";", "utf-8", "\r", ""),
])
def test_files_of_spreadsheets(delimiter: str, encoding: str, end: str, first: str) -> None:
    def quoted(cell: str) -> str:
        return f'"{cell}"' if set(";,\t\n") & set(cell) else cell
    rows = [("ean", "name", "price"), *((OATS, *cells) for cells in SAVED)]
    text = first + "".join(end.join([delimiter.join(map(quoted, row)), ""]) for row in rows)
    lines = [2 + bool(first), 3 + bool(first)]
    assert table(text.encode(encoding))[0] == [(line, OATS, *cells) for line, cells in zip(lines, SAVED)]


def test_one_damaged_line_is_one_fault() -> None:
    found = table_of(f'ean;name\n{OATS};"a"b\n{RYE};c\n'.encode(), 2026)
    assert [it.line for it in found.records] == [3] and [it.line for it in found.faults] == [2]
    found = table_of(f'ean;name\n{OATS};a\n{RYE};"c\n{GUM};d\n'.encode(), 2026)
    assert [it.line for it in found.records] == [2] and [it.line for it in found.faults] == [3]


@pytest.mark.parametrize("data, line, told", [
    (b"", 1, "the list is empty"), (b"\n \n", 1, "the list is empty"), (b"\xef\xbb\xbf", 1, "the list is empty"),
    (b"PK\x03\x04...", 1, "this spreadsheet is damaged"), (b"\xd0\xcf\x11\xe0...", 1, "save it as .xlsx"), (b"%PDF-1.4", 1, "noriladle read takes it"), (b"\x89PNG", 1, "a picture"),
    (b"a\nb\0c\n", 2, "there is a byte 0"), (b"a" * (LIMIT + 1), 1, "more than 16,777,216 bytes"),
    (b"Artikel;Preis\nKekse;2,90\n", 1, "--column gtin='Artikel'"),
    (b"ean;gtin\n1;2\n", 1, "'ean' and 'gtin' are both gtin"),
])
def test_what_is_no_list(data: bytes, line: int, told: str) -> None:
    with pytest.raises(Faults) as raised:
        table_of(data, 2026)
    fault, = raised.value.faults
    assert fault.line == line and told in fault.said


def test_a_column_that_is_not_there() -> None:
    with pytest.raises(Faults, match="there is no column 4 for gtin: the list has 2"):
        table_of(f"{OATS};a\n".encode(), 2026, {"gtin": "4"})


def once(pairs: list[tuple[str, dict[str, str] | str]]) -> dict[str, dict[str, str] | str]:
    """An object of JSON whose names all differ."""
    assert len({name for name, _ in pairs}) == len(pairs)
    return dict(pairs)


def test_each_number_has_a_text_in_each_language() -> None:
    import pathlib
    import re
    repository = pathlib.Path(__file__).parents[3]
    if (repository / "tables" / "shop").exists():
        languages = {path.stem: json.loads(path.read_text("utf-8"), object_pairs_hook=once) for path in (repository / "tables" / "shop").glob("??.json")}
        numbers = set(re.findall(r"^\| (\d+) [A-Z]", (repository / "docs" / "FAULTS.md").read_text("utf-8"), re.MULTILINE))
        assert {"en", "de"} <= languages.keys() and len(numbers) == 44
        for name, told in languages.items():
            assert numbers <= told["faults"].keys() and told["decimal"] in (".", ","), name
            for part, texts in ((part, texts) for part, texts in languages["en"].items() if part != "decimal"):
                assert told[part].keys() == texts.keys(), (name, part)
                for key, text in texts.items():
                    assert told[part][key].strip() and set(re.findall(r"{.}", told[part][key])) == set(re.findall(r"{.}", text)), (name, key)
