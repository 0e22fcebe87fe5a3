"""Makes lists as shops have them, and damages them by a seed. What labels may say of each line is noted in it."""
from __future__ import annotations

import csv
import io
import random
import re
from typing import Iterable


def checked(digits: str) -> str:
    return digits + str(-sum(int(digit) * (3, 1)[at % 2] for at, digit in enumerate(reversed(digits))) % 10)


def is_gtin(text: str) -> bool:
    return re.fullmatch(r"\d{8}|\d{12,14}", text) is not None and checked(text[:-1]) == text and int(text) > 0


# Headings of lists that shops have, with what stands in each column.
FORMS = [
    (["EAN", "Artikel", "VK", "EK"], ["gtin", "name", "price", "cost"]),
    (["EAN", "Artikel", "EK", "VK", "Charge", "MHD"], ["gtin", "name", "cost", "price", "batch", "day"]),
    (["Barcode", "Description", "Price"], ["gtin", "name", "price"]),
    (["EAN", "Name", "Price", "batch", "expiry", "remarks"], ["gtin", "name", "price", "batch", "day", "remark"]),
    (["Code EAN", "Libellé", "Prix HT", "Prix TTC"], ["gtin", "name", "cost", "price"]),
    (["Kod kreskowy", "Nazwa", "Cena zakupu", "Cena sprzedaży"], ["gtin", "name", "cost", "price"]),
    (["Preis", "Bezeichnung", "EAN", "Lieferant"], ["price", "name", "gtin", "remark"]),
]
NAMES = [
    "Haferkekse", "Roggenbrot hell", "Müsli Früchte", "Käse, jung", "Crème fraîche", "Apfelsaft", "Öl", "Smörgås",
    "Jalapeños", "Essig", "Żurek", 'Tee "Earl Grey"', "Nudeln; breit", "Reis", "Łosoś wędzony", "Butter",
    "Pâté de campagne", "Salz",
]
REMARKS = ["", "", "Regal rechts", "neu", "Aktion im Mai", "siehe Rückseite"]


class Row:
    """A line of the list: its cells, and the prices that its label may have.

    `under` is the line whose open quotation mark may have swallowed it. `is_unclear` says that another line has its
    number with another name or price.
    """

    def __init__(self, cells: Iterable[str], kind: str = "article", prices: Iterable[int] = ()) -> None:
        self.cells, self.kind, self.prices = list(cells), kind, set(prices)
        self.line, self.under, self.is_unclear = 0, None, False


class List:
    """A list before and after its damages."""

    def __init__(self, chance: random.Random) -> None:
        self.chance = chance
        self.headings, self.kinds = chance.choice(FORMS)
        self.headings, self.delimiter = list(self.headings), chance.choice([";", ";", "\t", ","])
        self.decimal = "." if self.delimiter == "," and chance.random() < 0.7 else ","
        self.encoding = chance.choice(["utf-8", "utf-8-sig", "utf-16"])
        self.ends, self.trailing = ["\r\n"], 0
        self.damages: list[str] = []
        self.rows = [self.article(number) for number in range(chance.randrange(3, 9))]
        self.raw_quote: Row | None = None
        self.other_line: int | None = None

    def article(self, number: int) -> Row:
        chance, cents = self.chance, self.chance.randrange(120, 2000)
        said = {
            "gtin": checked(f"40123{chance.randrange(10 ** 5):05}{number:02}"),
            "name": f"{chance.choice(NAMES)} {'abcdefghijk'[number]}",
            "price": self.money(cents),
            "cost": self.money(cents // 2 + 1),
            "batch": f"L{chance.randrange(1000, 10000)}",
            "day": f"2027-0{chance.randrange(1, 10)}-1{chance.randrange(10)}",
            "remark": chance.choice(REMARKS),
        }
        return Row([said[kind] for kind in self.kinds], prices=[cents])

    def money(self, cents: int) -> str:
        return f"{cents // 100}{self.decimal}{cents % 100:02}"

    def place(self, kind: str) -> int:
        return self.kinds.index(kind)

    def an_article(self) -> Row:
        return self.chance.choice([row for row in self.rows if row.kind == "article"])

    def text(self) -> list[str]:
        """The list's lines. Notes in each row its line, and the line with an open quotation mark before it."""
        lines, open_at, end = [], None, ""
        for line, row in enumerate([Row(self.headings, "heading"), *self.rows], 1):
            row.line, row.under = line, open_at
            saved = io.StringIO()
            csv.writer(saved, delimiter=self.delimiter, lineterminator="").writerow(row.cells)
            text = saved.getvalue() if row.cells != [""] else ""
            if row is self.raw_quote:
                at = text.index(self.delimiter) + 1
                text, open_at = f'{text[:at]}"{text[at:]}', line
            text += self.delimiter * self.trailing
            # An empty line's end must not join the one before it.
            end = self.chance.choice([it for it in self.ends if text or it != "\n" or end != "\r"] or ["\r"])
            lines.append(text + end)
        return lines

    def saved(self) -> bytes:
        parts = self.text()
        data = [
            part.encode(self.encoding.replace("utf-16", "utf-16-le").replace("-sig", ""), "replace") for part in parts
        ]
        if self.other_line is not None:
            data[self.other_line] = parts[self.other_line].encode("cp1252", "replace")
        mark = {"utf-8-sig": b"\xef\xbb\xbf", "utf-16": b"\xff\xfe"}.get(self.encoding, b"")
        return mark + b"".join(data)


# ---- the damages: each changes a list, and notes what may no longer be printed


def beyond(a_list: List) -> None:
    a_list.an_article().cells.extend(a_list.chance.choice([["note"], ["", "note"], ["1,20"], ["a", "b", "c"]]))


def dropped(a_list: List) -> None:
    """A cell is missing, so the cells behind it stand one column to the left."""
    row, price = a_list.an_article(), a_list.place("price")
    at = a_list.chance.randrange(len(row.cells))
    del row.cells[at]
    if at <= price:
        row.prices = (
            set() if price < len(row.cells) and row.cells[price] else {None} | (row.prices if at < price else set())
        )


def split_comma(a_list: List) -> None:
    """A price with a decimal comma, not quoted, in a list with commas between the cells."""
    row, at = a_list.an_article(), a_list.place("price")
    if a_list.delimiter == a_list.decimal and at < len(row.cells):
        row.cells[at : at + 1] = row.cells[at].split(",")
        row.prices = set()


NO_PRICES = [
    "02. Sep", "2027-09-02", "02.09.2026", "Sep 02", "#N/V", "#REF!", "#NAME?", "#DIV/0!", "#N/A", "auf Anfrage",
    "n. a.", "x", "-1,00", "-2.50", "0,00", "0", "0.00 €", "1,2,3", "1.1.1", "12:30", "∞", "NaN", "1e3", "10 %",
]


def no_price(a_list: List) -> None:
    row, at = a_list.an_article(), a_list.place("price")
    if at < len(row.cells):
        row.cells[at], row.prices = a_list.chance.choice(NO_PRICES), set()


def doubled(a_list: List) -> None:
    """The same number twice, with another name or another price: which one is right, nobody knows."""
    row = a_list.an_article()
    other, kind = Row(row.cells), a_list.chance.choice(["name", "price"])
    if a_list.place(kind) < len(row.cells):
        other.cells[a_list.place(kind)] = "Anderes" if kind == "name" else a_list.money(2222)
        other.is_unclear = row.is_unclear = True
        a_list.rows.insert(a_list.chance.randrange(len(a_list.rows) + 1), other)


def repeated(a_list: List) -> None:
    """The same line twice: nothing is unclear."""
    row = a_list.an_article()
    a_list.rows.append(Row(row.cells, prices=row.prices))


def blank_rows(a_list: List) -> None:
    for _ in range(a_list.chance.randrange(1, 4)):
        a_list.rows.insert(
            a_list.chance.randrange(len(a_list.rows) + 1),
            Row([""] * a_list.chance.choice([1, len(a_list.headings)]), "blank"),
        )


def totals(a_list: List) -> None:
    cells = [""] * len(a_list.headings)
    cells[a_list.chance.choice([a_list.place("gtin"), a_list.place("name")])] = a_list.chance.choice(
        ["Summe", "Total", "Gesamt", "3 Artikel"]
    )
    cells[a_list.place("price")] = a_list.money(12345)
    a_list.rows.append(Row(cells, "other"))


def categories(a_list: List) -> None:
    for _ in range(a_list.chance.randrange(1, 3)):
        cells = [""] * len(a_list.headings)
        cells[a_list.chance.choice([a_list.place("gtin"), a_list.place("name")])] = a_list.chance.choice(
            ["Getränke", "Bread", "-- Non Food --", "Regal 3"]
        )
        a_list.rows.insert(a_list.chance.randrange(len(a_list.rows) + 1), Row(cells, "other"))


def code_page(a_list: List) -> None:
    a_list.encoding = a_list.chance.choice(["cp1252", "cp1252", "cp1250", "cp850", "mac_roman"])
    for row in a_list.rows:
        row.cells = [cell.encode(a_list.encoding, "replace").decode(a_list.encoding) for cell in row.cells]
    a_list.headings = [cell.encode(a_list.encoding, "replace").decode(a_list.encoding) for cell in a_list.headings]


def mixed_encoding(a_list: List) -> None:
    """One line of another encoding, as when two lists are put together."""
    if a_list.encoding.startswith("utf-8"):
        a_list.other_line = a_list.chance.randrange(1, len(a_list.rows) + 1)
        row = a_list.rows[a_list.other_line - 1]
        row.cells = [cell.encode("cp1252", "replace").decode("cp1252") for cell in row.cells]


def open_quote(a_list: List) -> None:
    if a_list.kinds[0] == "gtin":
        row = a_list.an_article()
        if len(row.cells) > 1 and not set(row.cells[1]) & set('"' + a_list.delimiter):
            a_list.raw_quote = row


def line_ends(a_list: List) -> None:
    a_list.ends = a_list.chance.choice([["\r", "\n", "\r\n"], ["\r"], ["\n"], ["\n", "\r\n"]])


def trailing(a_list: List) -> None:
    a_list.trailing = a_list.chance.randrange(1, 4)


def leading(a_list: List) -> None:
    """A blank cell before the others shifts a line."""
    row = a_list.an_article()
    row.cells.insert(0, "")
    row.prices = set()


def wrong_number(a_list: List) -> None:
    row, at = a_list.an_article(), a_list.place("gtin")
    if at < len(row.cells):
        row.cells[at] = a_list.chance.choice(
            [
                "4012345010009", "4,01235E+12", "0000000000000", "12", "siehe unten", "40123450100O8",
                "4012345010008 4012345010374",
            ]
        )


def nameless(a_list: List) -> None:
    """A column without a heading, which is not printed."""
    at = next((at for at, kind in enumerate(a_list.kinds) if kind in ("cost", "batch", "day", "remark")), None)
    if at is not None:
        a_list.headings[at] = ""


DAMAGES = [
    beyond, beyond, dropped, dropped, split_comma, split_comma, no_price, no_price, no_price, doubled, doubled,
    repeated, blank_rows, totals, categories, code_page, code_page, mixed_encoding, open_quote, line_ends, trailing,
    leading, wrong_number, nameless,
]


def damaged(seed: int, number: int) -> List:
    """A list with none to three damages. What swallows lines or moves the code page comes last."""
    chance = random.Random(seed * 1_000_003 + number)
    a_list = List(chance)
    chosen = chance.sample(DAMAGES, chance.choice([0, 1, 1, 1, 2, 3]))
    for damage in sorted(chosen, key=lambda it: (it in (code_page, mixed_encoding), it is open_quote)):
        if any(row.kind == "article" for row in a_list.rows):
            damage(a_list)
            a_list.damages.append(damage.__name__)
    return a_list
