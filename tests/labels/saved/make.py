"""Makes the spreadsheets of this folder again, by LibreOffice and openpyxl: make.py. The tests need neither.

  apt-get install --no-install-recommends libreoffice-calc python3-uno python3-openpyxl
"""
from __future__ import annotations

import datetime
import hashlib
import os
import subprocess
import sys
import tempfile
import time
import zipfile
from typing import Any, Callable, Sequence

import openpyxl
import uno
from com.sun.star.beans import NamedValue, PropertyValue
from com.sun.star.connection import NoConnectException
from openpyxl.comments import Comment

HERE = os.path.dirname(os.path.abspath(__file__))
FILTERS = {"xlsx": "Calc MS Excel 2007 XML", "xls": "MS Excel 97", "ods": "calc8", "csv": "Text - txt - csv (StarCalc)"}
DAY = datetime.date(2027, 3, 31)
HEADINGS = ["EAN", "Name", "Price", "Cost price", "Line 1", "Best before"]
# A number is stored as a number, with the format beside it; all else is a text.
Cell = Any
"""A value, or a value and its format."""
ARTICLES: list[list[Cell]] = [
    [(4012345010008, "0"), "Oat biscuits", (2.9, "0.00"), (1.5, "0.00"), "100 g = 1.16", (DAY, "yyyy-mm-dd")],
    [(12345000065, "000000000000"), "Cola 0,5 l", (1.05, "0.00"), (0.4, "0.00"), None, (DAY, "yyyy-mm-dd")],
    ["96385074", "Müsli „Großer Hof“, ungesüßt", (12, "0.00"), (7.25, "0.00"), "new", None],
    ["978-3-16-148410-0", 'A "quoted" name; with separators, both', (24.95, "0.00"), (14.97, "0.00"), None, None],
    [(4012345010374, "0"), (4711, "0"), (0.99, "0.00"), (0.31, "0.00"), None, None],
    ["8712345000127", "Crème fraîche", "3.49", "1.99", None, (DAY, "yyyy-mm-dd")],
    [(4012345010749, "0"), "Apfelsaft", (1234.5, "0.00"), (800, "0.00"), None, None],
]
SHORT: list[list[Cell]] = [
    ["EAN", "Name", "Price"], [(4012345010008, "0"), "Oat biscuits", (2.9, "0.00")],
    [(4012345010374, "0"), "Rye bread", (3.19, "0.00")], [(4012345010749, "0"), "Apple juice", (1.49, "0.00")],
]


def put(sheet: Any, rows: Sequence[Sequence[Cell]], top: int = 1) -> None:
    """Puts rows into a sheet, from the row `top` on."""
    for down, cells in enumerate(rows):
        for right, cell in enumerate(cells):
            value, form = cell if isinstance(cell, tuple) else (cell, None)
            place = sheet.cell(top + down, right + 1, value)
            if form:
                place.number_format = form


def book(rows: Sequence[Sequence[Cell]] = SHORT, top: int = 1, title: str = "Prices") -> openpyxl.Workbook:
    made = openpyxl.Workbook()
    made.active.title = title
    put(made.active, rows, top)
    return made


def with_price(value: object, form: str | None = "0.00") -> openpyxl.Workbook:
    """The short list, with another value and format as the price of its second article."""
    rows = [list(row) for row in SHORT]
    rows[2][2] = (value, form) if form else value
    return book(rows)


def merged() -> openpyxl.Workbook:
    made = book([["Price list", None, None], *SHORT[:2], ["Bread", None, None], *SHORT[2:]])
    made.active.merge_cells("A1:C1")
    made.active.merge_cells("A4:C4")
    return made


def two_sheets(first: Sequence[Sequence[Cell]] = SHORT) -> openpyxl.Workbook:
    made = book(first)
    put(
        made.create_sheet("Old prices"), [[*row[:2], (9.99, "0.00") if at else "Price"] for at, row in enumerate(SHORT)]
    )
    return made


def notes_first() -> openpyxl.Workbook:
    made = book([], title="Notes")
    put(made.create_sheet("Prices"), SHORT)
    return made


def hidden(what: str) -> openpyxl.Workbook:
    made = (
        two_sheets()
        if what == "sheet"
        else book([[*row, (1.5, "0.00") if at else "Cost price"] for at, row in enumerate(SHORT)])
    )
    if what == "sheet":
        made["Old prices"].sheet_state = "hidden"
    elif what == "rows":
        made.active.row_dimensions[3].hidden = True
    else:
        made.active.column_dimensions["D"].hidden = True
    return made


def wide() -> openpyxl.Workbook:
    """1,000 columns: the list's three, and 997 of attributes."""
    rows = [[*row, *(f"attribute {at}" if row is SHORT[0] else "x" for at in range(997))] for row in SHORT]
    return book(rows)


def with_name(value: str) -> openpyxl.Workbook:
    """The short list, with another name for its second article."""
    rows = [list(row) for row in SHORT]
    rows[2][1] = value
    return book(rows)


def with_comment() -> openpyxl.Workbook:
    """A comment at a price: its text is no part of the cell."""
    made = book()
    made.active["C3"].comment = Comment("was 3.49 until May", "shop")
    return made


def offset() -> openpyxl.Workbook:
    """The list begins in the third column and row."""
    return book([[None, None, *row] for row in SHORT], 3)


BOOKS: dict[str, Callable[[], openpyxl.Workbook]] = {
    "merged": merged,
    "two-sheets": two_sheets,
    "notes-first": notes_first,
    "hidden-sheet": lambda: hidden("sheet"),
    "hidden-rows": lambda: hidden("rows"),
    "hidden-column": lambda: hidden("column"),
    "tenth-row": lambda: book(SHORT, 10),
    "wide": wide,
    "no-lines": lambda: book(SHORT[:1]),
    "empty": lambda: book([]),
    "decimals-hidden": lambda: with_price(3.19, "0"),
    "half-a-cent": lambda: with_price(3.195, "0.00"),
    "date-for-price": lambda: with_price(DAY, "dd. mmm"),
    "error-for-price": lambda: with_price("#REF!", None),
    "true-for-price": lambda: with_price(True, None),
    "percent-for-price": lambda: with_price(0.19, "0%"),
    "below-zero": lambda: with_price(-3.19),
    "currency-format": lambda: with_price(3.19, "#,##0.00 [$€-407]"),
    "line-break": lambda: with_name("Rye bread\nfrom the Eifel"),
    "name-formula": lambda: with_name('="Rye"&" bread"'),
    "comment": with_comment,
    "offset": offset,
    "formulas": lambda: with_price("=ROUND(2.98*1.07,2)"),
}


def named(**values: Any) -> Any:
    return uno.Any("[]com.sun.star.beans.NamedValue", tuple(NamedValue(name, value) for name, value in values.items()))


# The password "secret", as each format wants it.
KEYS = {
    "xlsx": named(OOXPassword="secret", CryptoType="Standard"),
    "ods": named(
        PackageSHA256UTF8EncryptionKey=uno.ByteSequence(hashlib.sha256(b"secret").digest()),
        PackageSHA1UTF8EncryptionKey=uno.ByteSequence(hashlib.sha1(b"secret").digest()),
    ),
}


class Office:
    """LibreOffice without a window, reached by a pipe."""

    def __init__(self, profile: str) -> None:
        pipe = f"noriladle{os.getpid()}"
        self.process = subprocess.Popen(
            [
                "soffice", "--headless", "--norestore", f"-env:UserInstallation=file://{profile}",
                f"--accept=pipe,name={pipe};urp;",
            ],
            stdout=subprocess.DEVNULL,
            stderr=subprocess.DEVNULL,
        )
        local = uno.getComponentContext()
        resolver = local.ServiceManager.createInstanceWithContext("com.sun.star.bridge.UnoUrlResolver", local)
        for _ in range(120):
            try:
                context = resolver.resolve(f"uno:pipe,name={pipe};urp;StarOffice.ComponentContext")
                break
            except NoConnectException:
                time.sleep(0.5)
        self.desktop = context.ServiceManager.createInstanceWithContext("com.sun.star.frame.Desktop", context)

    def save(self, source: str, target: str, **options: Any) -> None:
        """Saves one file as another, as the end of its name says."""
        document = self.desktop.loadComponentFromURL(
            f"file://{source}", "_blank", 0, (PropertyValue("Hidden", 0, True, 0),)
        )
        document.calculateAll()
        values = {"FilterName": FILTERS[target.rsplit(".", 1)[1]], **options}
        document.storeToURL(
            f"file://{target}", tuple(PropertyValue(name, 0, value, 0) for name, value in values.items())
        )
        document.close(True)

    def close(self) -> None:
        self.desktop.terminate()
        self.process.wait(60)


def save_ten_ways(office: Office) -> None:
    """One list: the spreadsheets of both programs, and LibreOffice's CSV in four encodings with two separators."""
    path = os.path.join(HERE, "ways")
    os.makedirs(path, exist_ok=True)
    book([HEADINGS, *ARTICLES]).save(f"{path}/openpyxl.xlsx")
    office.save(f"{path}/openpyxl.xlsx", f"{path}/libreoffice.ods")
    office.save(f"{path}/libreoffice.ods", f"{path}/libreoffice.xlsx")
    for name, code in (("semicolon", 59), ("tab", 9)):
        # Separator, quotation mark, encoding (76 is UTF-8, 1 Windows-1252, 65535 UTF-16), and cells as shown.
        for encoding, number in (("utf-8", 76), ("cp1252", 1), ("utf-16", 65535)):
            office.save(
                f"{path}/libreoffice.ods",
                f"{path}/{name}-{encoding}.csv",
                FilterOptions=f"{code},34,{number},1,,0,false,true,true",
            )
        with open(f"{path}/{name}-utf-8.csv", "rb") as plain, open(f"{path}/{name}-utf-8-bom.csv", "wb") as marked:
            marked.write(b"\xef\xbb\xbf" + plain.read())


def change(source: str, target: str, old: bytes, new: bytes) -> None:
    """Copies a spreadsheet, with some bytes of its first sheet changed."""
    with zipfile.ZipFile(source) as before, zipfile.ZipFile(target, "w", zipfile.ZIP_DEFLATED) as after:
        for name in before.namelist():
            data = before.read(name)
            after.writestr(name, data.replace(old, new) if name == "xl/worksheets/sheet1.xml" else data)


def main() -> None:
    with tempfile.TemporaryDirectory() as work:
        office = Office(f"{work}/profile")
        save_ten_ways(office)
        for name, make in BOOKS.items():
            make().save(f"{work}/{name}.xlsx")
            for kind in ("xlsx", "ods"):
                office.save(f"{work}/{name}.xlsx", os.path.join(HERE, f"{name}.{kind}"))
        # openpyxl writes formulas without their values. Excel writes all digits of a sum.
        BOOKS["formulas"]().save(os.path.join(HERE, "formulas-openpyxl.xlsx"))
        change(
            f"{work}/decimals-hidden.xlsx", os.path.join(HERE, "all-digits.xlsx"), b"<v>3.19</v>",
            b"<v>3.1900000000000004</v>",
        )
        for kind, key in KEYS.items():
            office.save(f"{work}/merged.xlsx", os.path.join(HERE, f"encrypted.{kind}"), EncryptionData=key)
        office.save(f"{work}/merged.xlsx", os.path.join(HERE, "old-format.xls"))
        office.close()


if __name__ == "__main__":
    sys.exit(main())
