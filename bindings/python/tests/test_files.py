"""Files of lists: how texts are encoded, and what spreadsheets say. Files of other programs: tests/labels/run."""
from __future__ import annotations

import io
import zipfile

import pytest

from noriladle._encodings import decoded, encoding_of
from noriladle._files import opened_list
from noriladle._lists import Faults
from noriladle._numbers import format_of, written

GERMAN = "Artikel;Preis\nKäse;2,90 €\nMüsli;3,00\nÖl;1\nSüße Grüße;2\n"
POLISH = "Nazwa;Cena\nŁosoś;2\nŻółty ser;3\nMięso;2 zł\n"
FRENCH = "Libellé;Prix\nPâté;2\nCrème;3\nL’œuf;2\nGarçon;2\n"


@pytest.mark.parametrize("text, encodings", [
    (GERMAN, ["cp1252", "cp1250", "cp850", "mac_roman"]), (POLISH, ["cp1250"]), (FRENCH, ["cp1252", "mac_roman"]),
    ("Descrizione;Prezzo\nCaffè;2\nCosì;3\n", ["cp1252"]), ("name;price\nKekse;2,90 €\n", ["cp1252", "cp1250"]),
    ("Název;Cena\nSýr tvrdý;2\nřízek;3\n", ["cp1250"]), ("Libellé;Prix\nBruyère;2\n", ["cp1252"]),
])
def test_a_code_page_by_evidence(text: str, encodings: list[str]) -> None:
    for encoding in encodings:
        try:
            data = text.encode(encoding)
        except UnicodeEncodeError:  # cp850 has no euro.
            data = text.replace("€", "E").encode(encoding)
        shown = {"cp1252": ("Windows-1252",), "cp1250": ("Windows-1250", "Windows-1252"), "cp850": ("CP850",), "mac_roman": ("Mac Roman",)}
        found = decoded(data)
        assert found.text == data.decode(encoding) and found.note in [f"read as {name}" for name in shown[encoding]]


@pytest.mark.parametrize("text, encoding, said", [
    ("name;price\nčočka;2\n", "cp1250", "the accents of this list may be those of Windows-1252, Windows-1250: save the list as UTF-8, or say "
     "which it is, as in --encoding cp1252"),
    ("name;price\nmięso;2\n", "cp1250", "may be those of Windows-1252, Windows-1250"), ("name;price\nMöhren;1\n", "cp850", "may be those of"),
    ("name;price\nŠkoda ¤ ¬\n", "cp1250", "fit no known encoding"),
])
def test_a_code_page_that_is_asked_about(text: str, encoding: str, said: str) -> None:
    with pytest.raises(Faults) as raised:
        decoded(text.encode(encoding))
    assert said in raised.value.faults[0].said
    assert decoded(text.encode(encoding), encoding).text == text


def test_unicode() -> None:
    for encoding in ("utf-8", "utf-8-sig", "utf-16", "utf-16-le", "utf-16-be"):
        assert decoded(POLISH.encode(encoding)).text == POLISH
    assert decoded(POLISH.encode("utf-16-le")).note == "read as UTF-16" and not decoded(POLISH.encode("utf-8")).note
    damaged = POLISH.encode().replace("Żółty".encode(), b"\xaf\xf3\xb3ty", 1)
    assert decoded(damaged).damaged == [3]
    assert [it.line for it in opened_list(damaged).sheets[1].faults] == [3]
    with pytest.raises(Faults, match="its byte 81 has no sign there"):
        decoded(b"M\x81sli", "cp1252")
    assert encoding_of("Windows-1250") == "cp1250" and encoding_of("x") is None


# ---- spreadsheets

@pytest.mark.parametrize("code, value, text", [
    ("0.00", "2.9", "2.90"), ("0.00", "3.195", "3.195"), ("0", "3.19", "3.19"), ("#,##0.00", "1234.5", "1,234.50"), ("General", "0.1", "0.1"),
    ("General", "3.1900000000000004", "3.19"), ('#,##0.00\\ "€"', "2.9", "2.90 €"), ("[$€-407]\\ #,##0.00", "2.9", "€ 2.90"),
    ("0000000000000", "12345000065", "0012345000065"), ("0%", "0.19", "19%"), ("dd/mm/yyyy", "46022", "2025-12-31"),
    ("0.00E+00", "4012345010008", "4012345010008"), ("0.00", "4012345010008", "4012345010008"), ("General", "4.012345010008E+12", "4012345010008"),
    ('_-* #,##0.00\\ "€"_-;-* #,##0.00\\ "€"_-', "2.9", "2.90 €"), ("@", "5", "5"), ("h:mm", "46022.5", "2025-12-31 12:00:00"),
])
def test_numbers_in_full(code: str, value: str, text: str) -> None:
    assert written(value, format_of(164, code)) == text


SHEET = ('<worksheet xmlns="http://schemas.openxmlformats.org/spreadsheetml/2006/main"><sheetData>{}</sheetData></worksheet>')
WORKBOOK = ('<workbook xmlns="http://schemas.openxmlformats.org/spreadsheetml/2006/main" xmlns:r="http://r"><sheets>'
            '<sheet name="A" r:id="a"/><sheet name="B" r:id="b" state="{}"/></sheets></workbook>')
LINKS = ('<Relationships><Relationship Id="a" Target="worksheets/a.xml"/><Relationship Id="b" Target="/xl/worksheets/b.xml"/></Relationships>')


def book(rows: str, others: str = "", state: str = "visible", **parts: str) -> bytes:
    """An .xlsx file with these rows on its sheets A and B."""
    file = io.BytesIO()
    with zipfile.ZipFile(file, "w", zipfile.ZIP_DEFLATED) as made:
        for name, text in {"xl/workbook.xml": WORKBOOK.format(state), "xl/_rels/workbook.xml.rels": LINKS, "xl/worksheets/a.xml": SHEET.format(rows),
                           "xl/worksheets/b.xml": SHEET.format(others), **parts}.items():
            made.writestr(name, text)
    return file.getvalue()


def rows_of(data: bytes) -> tuple[list[tuple[int, list[str]]], list[str], list[tuple[int, str]]]:
    opened = opened_list(data)
    return [(it.line, list(it.cells)) for it in opened.sheets[0].records], [*opened.notes], [(it.line, it.said) for it in opened.sheets[0].faults]


def test_cells_of_each_kind() -> None:
    strings = '<sst><si><r><t>a</t></r><r><t>b</t></r><rPh><t>no</t></rPh></si></sst>'
    data = book('<row r="2"><c r="B2" t="s"><v>0</v></c><c r="C2" t="inlineStr"><is><t>x_x000A_y</t><rPh><t>no</t></rPh></is></c><c t="b"><v>1</v></c></row>'
                '<row r="4" hidden="1"><c r="A4"><v>2.9</v></c><c r="B4" t="e"><v>#N/A</v></c><c r="C4" t="str"><f>x</f><v></v></c></row>'
                '<row r="5"><c r="AA5"><f>1+1</f></c></row>', '<row><c><v>1</v></c></row>', **{"xl/sharedStrings.xml": strings})
    assert rows_of(data) == (
        [(2, ["", "ab", "x\ny", "TRUE"]), (4, ["2.9", "#N/A", ""])],
        ["took sheet 'A', and not 'B'", "hidden rows are printed, too: 4"],
        [(5, "column AA has a formula without its value: open the spreadsheet, and save it again")])


def test_the_sheet_that_is_taken() -> None:
    cell = "<row><c><v>1</v></c></row>"
    assert rows_of(book("", cell))[1] == ["took sheet 'B', and not 'A'"]
    assert rows_of(book(cell, cell, "hidden"))[1] == ["took sheet 'A', and not 'B' (hidden)"]
    with pytest.raises(Faults, match="no visible sheet"):
        rows_of(book("", cell, "veryHidden"))


CONTENT = ('<d xmlns:table="t" xmlns:office="o" xmlns:text="x"><table:table table:name="A">{}</table:table></d>')


def ods(rows: str, **parts: str) -> bytes:
    file = io.BytesIO()
    with zipfile.ZipFile(file, "w", zipfile.ZIP_DEFLATED) as made:
        for name, text in {"content.xml": CONTENT.format(rows), **parts}.items():
            made.writestr(name, text)
    return file.getvalue()


def test_cells_of_an_ods() -> None:
    def number(value: str, shown: str, kind: str = "float") -> str:
        return f'<table:table-cell office:value-type="{kind}" office:value="{value}"><text:p>{shown}</text:p></table:table-cell>'
    data = ods('<table:table-row table:number-rows-repeated="3"><table:table-cell table:number-columns-repeated="1024"/></table:table-row>'
               f'<table:table-row>{number("4012345010008", "4.01E+12")}{number("2.9", "3 €", "currency")}{number("12345000065", "012345000065")}'
               f'{number("2.9", "2,90 €", "currency")}{number("3.195", "3.20")}</table:table-row>'
               '<table:table-row table:visibility="filter"><table:table-cell table:number-columns-repeated="2"/><table:table-cell>'
               '<office:annotation><text:p>no</text:p></office:annotation><text:p>a<text:s text:c="2"/>b</text:p><text:p>c</text:p>'
               '</table:table-cell></table:table-row>')
    assert rows_of(data) == ([(4, ["4012345010008", "2.9 €", "012345000065", "2,90 €", "3.195"]), (5, ["", "", "a  b\nc"])],
                             ["hidden rows are printed, too: 5"], [])


@pytest.mark.parametrize("data, said", [
    (book("".join(f'<row r="{line}"><c r="XFD{line}"><v>1</v></c></row>' for line in range(1, 200))), "too large"),
    (b"PK\x03\x04 no archive", "damaged"), (book("<row"), "damaged"), (book('<row><c r="ZZZZ1"><v>1</v></c></row>'), "damaged"),
    (book('<row><c t="s"><v>7</v></c></row>'), "damaged"), (ods("", **{"content.xml": "<!DOCTYPE d><d/>"}), "damaged"),
    (book("").replace(b"xl/workbook.xml", b"xl/nothing.xmlx"[:15]), "compressed file"),
    (ods("", **{"META-INF/manifest.xml": "<manifest:encryption-data/>"}), "password"),
    (b"\xd0\xcf\x11\xe0" + "EncryptedPackage".encode("utf-16-le"), "password"), (b"\xd0\xcf\x11\xe0", "old format"),
    (book(" " * 70_000_000), "too large"), (book(" " * 20_000_000), "too large"),
    (ods('<table:table-row table:number-rows-repeated="1000000"><table:table-cell table:number-columns-repeated="9"><text:p>x</text:p>'
         '</table:table-cell></table:table-row>'), "too large"),
])
def test_spreadsheets_that_are_refused(data: bytes, said: str) -> None:
    with pytest.raises(Faults) as raised:
        opened_list(data)
    (line, told), = raised.value.faults
    assert line == 1 and said in told
