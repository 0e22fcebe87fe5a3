"""Writes large spreadsheets with one sheet, for the limits of time. LibreOffice opens them."""
from __future__ import annotations

import xml.sax.saxutils
import zipfile

DECLARATION = '<?xml version="1.0" encoding="UTF-8"?>'
SHEETS = "http://schemas.openxmlformats.org/spreadsheetml/2006/main"
PACKAGE = "http://schemas.openxmlformats.org/package/2006"
RELATIONS = "http://schemas.openxmlformats.org/officeDocument/2006/relationships"
TYPE = "application/vnd.openxmlformats-officedocument.spreadsheetml"


def relations(kind: str, target: str) -> str:
    """The part that says what a part refers to."""
    return (
        f'<Relationships xmlns="{PACKAGE}/relationships">'
        f'<Relationship Id="r1" Type="{RELATIONS}/{kind}" Target="{target}"/></Relationships>'
    )


# The parts beside the sheet (ECMA-376, part 1, 12.2).
PARTS = {
    "[Content_Types].xml": (
        f'<Types xmlns="{PACKAGE}/content-types">'
        '<Default Extension="rels" ContentType="application/vnd.openxmlformats-package.relationships+xml"/>'
        f'<Override PartName="/xl/workbook.xml" ContentType="{TYPE}.sheet.main+xml"/>'
        f'<Override PartName="/xl/worksheets/sheet1.xml" ContentType="{TYPE}.worksheet+xml"/></Types>'
    ),
    "_rels/.rels": relations("officeDocument", "xl/workbook.xml"),
    "xl/workbook.xml": (
        f'<workbook xmlns="{SHEETS}" xmlns:r="{RELATIONS}">'
        '<sheets><sheet name="Prices" sheetId="1" r:id="r1"/></sheets></workbook>'
    ),
    "xl/_rels/workbook.xml.rels": relations("worksheet", "worksheets/sheet1.xml"),
}


def cell(place: str, text: str) -> str:
    """A cell: digits in the first column as a number, all else as a text."""
    if text.isdecimal() and place.startswith("A"):
        return f'<c r="{place}"><v>{text}</v></c>'
    return f'<c r="{place}" t="inlineStr"><is><t>{xml.sax.saxutils.escape(text)}</t></is></c>'


def write_xlsx(path: str, rows: list[list[str]]) -> None:
    """Writes rows of texts, at most 26 in a row."""
    data = "".join(
        f'<row r="{line}">{"".join(cell(f"{chr(65 + at)}{line}", text) for at, text in enumerate(row))}</row>'
        for line, row in enumerate(rows, 1)
    )
    sheet = f'<worksheet xmlns="{SHEETS}"><sheetData>{data}</sheetData></worksheet>'
    with zipfile.ZipFile(path, "w", zipfile.ZIP_DEFLATED) as file:
        for name, text in {**PARTS, "xl/worksheets/sheet1.xml": sheet}.items():
            file.writestr(name, DECLARATION + text)
