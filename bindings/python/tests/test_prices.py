"""Which column is the price on the shelf, and how its cells are printed. More headings and lists: tests/labels/run."""
from __future__ import annotations

import re
from typing import Sequence

import pytest

from noriladle import _shop
from noriladle._amounts import Amounts
from noriladle._columns import table_of
from noriladle._lists import Faults
from noriladle._prices import folded, price_of
from noriladle.labels import Faults as ListFaults
from noriladle.labels import Look, make, read_list, stock_of

OATS, RYE, GUM = "4012345010008", "4012345010374", "96385074"


def found(headings: str, cells: list[str] | None = None) -> str:
    """The headings that a list of one line asks about, or the one that is taken, which stands alone."""
    heads = headings.split(";")
    line = cells or [f"{1 + at},99" for at in range(len(heads))]
    table = table_of(f"EAN;{headings}\n{OATS};{';'.join(line)}\n".encode(), 2026)
    if "price" in table.places:
        return heads[table.places["price"][0] - 1]
    return table.question.said


@pytest.mark.parametrize("headings, price", [
    ("Preis EK;Preis VK", "Preis VK"), ("RRP;Unit price", "RRP"), ("Price excl. VAT;Price incl. VAT", "Price incl. VAT"),
    ("Preis netto;Preis inkl. MwSt.", "Preis inkl. MwSt."), ("Preis pro kg;Endpreis", "Endpreis"),
    ("Cost price;Price group;Our price", "Our price"), ("Prix d'achat;Prix de vente TTC", "Prix de vente TTC"),
    ("Prijs excl. btw;Prijs incl. btw", "Prijs incl. btw"), ("Preis je Karton;Preis je Stueck", "Preis je Stueck"),
    ("Regular price;Sale price", "Regular price"), ("Was;Now", "Now"), ("Brutto-VK;Netto-VK", "Brutto-VK"),
    ("Preis inkl. 19 % MwSt.;Preis ohne MwSt.", "Preis inkl. 19 % MwSt."), ("Preis ohne Pfand;Pfand", "Preis ohne Pfand"),
    ("P.V.P.;Precio de coste", "P.V.P."), ("VK;Preis inkl. MwSt.", "Preis inkl. MwSt."), ("Preis;Preis CHF", "Preis"), ("regularPrice;salePrice", "regularPrice"),
    ("Cena zakupu;Cena brutto", "Cena brutto"), ("Preis;UVP;EK", "Preis"), ("Inköpspris;Försäljningspris", "Försäljningspris"),
    ("Preis USt;Preis", "Preis"), ("Prix sans TVA;Prix", "Prix"),
    ("Preço de custo;Preço de venda", "Preço de venda"), ("Nákupní cena;Cena s DPH", "Cena s DPH"), ("Kostpris;Salgspris", "Salgspris"),
])
def test_the_price_on_the_shelf(headings: str, price: str) -> None:
    assert found(headings) == price


@pytest.mark.parametrize("headings, said", [
    ("Preis;UVP", "'Preis', 'UVP' may each be the price on the shelf: say which it is, as in --column price='Preis', or --no-price"),
    ("Preis EUR;Preis CHF", "'Preis EUR', 'Preis CHF' may each"), ("VK 1;VK 2", "'VK 1', 'VK 2' may each"),
    ("Preis AT;Preis DE", "'Preis AT', 'Preis DE' may each"), ("VK CHF;Preis EUR", "'VK CHF', 'Preis EUR' may each"),
    ("List Price;Cost;Standard price", "'List Price', 'Standard price' may each"),
    ("SalePrice;EatOutPrice", "'SalePrice', 'EatOutPrice' may each"),
    ("Preis;Preis", "'Preis', 'Preis' may each be the price on the shelf: say which it is, as in --column price=2, or --no-price"),
    ("EK", "no column is headed as the price on the shelf, only 'EK' (purchase price): say which it is, or that the labels have none, "
     "as in --column price='EK', or --no-price"),
    ("Preis/kg;Pfand", "no column is headed as the price on the shelf, only 'Preis/kg' (price of a unit), 'Pfand': say"),
    ("Name", "no column is headed as the price on the shelf: say which it is, or that the labels have none, as in --no-price"),
])
def test_a_question(headings: str, said: str) -> None:
    assert found(headings).startswith(said)


@pytest.mark.parametrize("text, said", [
    ("Alle Preise zzgl. MwSt.;;\nEAN;Name;Preis\nG;N;2,99", (1, "'Alle Preise zzgl. MwSt.' may mean that 'Preis' is not the price on the shelf: say "
     "which it is, or that the labels have none, as in --column price='Preis', or --no-price")),
    ("EAN;Name;Preis\n;;netto\nG;N;2,99", (2, "'netto' may mean that 'Preis'")), ("EAN;Name;Preis;ME\nG;N;2,99;Karton", (2, "'ME: Karton' may")),
    ("EAN;Name;Preis;PE\nG;N;2,99;100", (2, "'PE: 100' may")), ("EAN;Name;Preis;Währung\nG;N;2,99;EUR\n;x;;\nH;N;3,99;CHF", (4, "'Währung: CHF' may")),
    ("EAN;Name;Preis\nG;N;2,99\nSumme netto;;", None), ("EAN;Name;Preis;PE\nG;N;2,99;1 St", None), ("EAN;Name;Preis;ME\nG;N;2,99;500 g", None),
])
def test_a_remark(text: str, said: tuple[int, str] | None) -> None:
    data = text.replace("G;", f"{OATS};").replace("H;", f"{RYE};").encode()
    question = table_of(data, 2026).question
    assert (said is None) == (question is None)
    assert said is None or question.line == said[0] and question.said.startswith(said[1])
    assert table_of(data, 2026, {"price": "Preis"}).question is table_of(data, 2026, {"price": ""}).question is None


def test_an_empty_column_is_no_price() -> None:
    assert found("Preis;UVP", ["2,99", ""]) == "Preis"
    assert found("Preis;VK", ["2,99", " "]) == "Preis"


def test_folded_headings() -> None:
    assert folded("regularPrice (€)") == " regular price eur " and folded("P.V.P. / Stück") == " pvp stuck "
    assert folded("Stu\u0308ck-Preis") == " stuck preis " and folded("") == "  "
    assert price_of("x" * 150 + " Preis") and price_of("x" * 250 + " Preis") is None and price_of("Bezeichnung") is None


def test_a_column_that_the_list_has_not() -> None:
    for columns, said in (({"price": "VK-Preis"}, "no column is headed 'VK-Preis'; there are 'EAN', 'Preis'"), ({"price": "3"}, "no column 3")):
        with pytest.raises(Faults, match=said):
            table_of(f"EAN;Preis\n{OATS};2,90\n".encode(), 2026, columns)
    with pytest.raises(Faults, match="two columns are headed 'preis'"):
        table_of(f"EAN;Preis;Preis\n{OATS};2,90;3\n".encode(), 2026, {"price": "preis"})
    with pytest.raises(Faults, match="no heading"):
        table_of(f"{OATS};2,90\n{RYE};3,00\n".encode(), 2026, {"price": "Preis"})


def test_the_number_of_the_article_and_not_of_its_case() -> None:
    table = table_of(f"EAN VE;Stück-EAN;Name;Preis\n1{OATS[:12]}5;{OATS};Kekse;2,90\n".encode(), 2026)
    assert table.places["gtin"] == [1] and table.unused == ["'EAN VE'"]
    assert table_of(f"EAN;GTIN;Preis\n;{OATS};2,90\n".encode(), 2026).places["gtin"] == [1]


# ---- cells

def printed(cell: str, others: Sequence[str] = ("2,90",), heading: str = "Preis", currency: str = "", is_free: bool = False) -> str:
    return Amounts([*others, cell], price_of(heading), currency, is_free).printed(cell)


@pytest.mark.parametrize("cell, text", [
    ("2,9", "2,90"), ("3", "3,00"), ("€ 1.10", "€ 1.10"), ("CHF 3.5", "CHF 3.50"), ("1.1 EUR", "1.10 EUR"), ("2,90 €/kg", "2,90 €/kg"),
    ("1.299", "1.299,00"), ("1.299,5", "1.299,50"), ("1 299,00", "1 299,00"), ("1'299", "1'299,00"), ("2,9900", "2,99"), ("5,–", "5,–"),
    ("300 ¥", "300 ¥"), ("1.990 Ft", "1.990 Ft"), ("0,5 KWD", "0,500 KWD"), ("12345,67", "12345,67"), ("2,90 je Stück", "2,90 je Stück"),
])
def test_prices_with_the_decimals_of_their_currency(cell: str, text: str) -> None:
    assert printed(cell) == text


@pytest.mark.parametrize("cell, told", [
    ("auf Anfrage", "is no price"), ("02. Sep", "is no price"), ("#N/V", "is no price"), ("10 %", "is no price"), ("2-in-1", "is no price"),
    ("08.01.2027", "is no price"), ("4012345010008", "is no price"), ("1e3", "is no price"), ("007", "is no price"), ("€2€", "is no price"),
    ("-1,00", "below zero"), ("1,00-", "below zero"), ("€ -1,00", "below zero"), ("0,00", "a price of zero"), ("0", "a price of zero"),
    ("2,905", "may be 2905,00 or 2,90"), ("2,9051", "has more than 2 decimals: round it, as in 2,91"), ("2,8988", "as in 2,90"), ("12345,678", "more than 2 decimals"),
])
def test_what_is_no_price(cell: str, told: str) -> None:
    with pytest.raises(ValueError, match=told):
        printed(cell)


def test_what_other_cells_and_words_say_of_a_price() -> None:
    assert printed("1,299", others=["2.90"]) == "1,299.00" and printed("3", others=["2.90"]) == "3.00"
    with pytest.raises(ValueError, match="may be 1299.00 or 1.29"):
        printed("1.299", others=[])
    assert printed("1.299.000", others=[]) == "1.299.000,00" and printed("1'299'000", others=[]) == "1'299'000.00"
    assert printed("3", currency="¥") == "3" and printed("0", is_free=True) == "0,00"
    assert printed("290", others=[], heading="price_cents") == "2.90" and printed("5", others=[], heading="Preis (Cent)") == "0.05"
    with pytest.raises(ValueError, match="cents"):
        printed("2.90", others=[], heading="Preis in Cent")


# ---- lines

@pytest.mark.parametrize("text, faults", [
    (f"EAN,Artikel,Preis\n{OATS},Kekse,1,20\n", {2: "the price '1' may go on in the next cell, '20'"}),
    (f"EAN,Artikel,Preis,Notiz\n{OATS},Kekse,1,20\n{RYE},Brot,3,59\n", {2: "may go on", 3: "may go on"}),
    (f'EAN,Artikel,Preis\n{OATS},Kekse,"1,20"\n{RYE},Brot,3\n', {3: "'3' may be half of a price"}),
    (f"EAN;Artikel;Preis\n{OATS};Shampoo; 2-in-1;3,90\n", {2: "'3,90' stands beyond the heading: this line has 4 cells"}),
    (f"EAN;Artikel;VK;EK\n{OATS};Kekse;2,90;1,20\n{RYE};Brot;1,50\n{GUM};Gum;1,00;0,20\n", {3: "a cell is missing: this line has 3 cells"}),
    (f"EAN;Artikel;Preis\n{OATS};Kekse;2,90\n{RYE};3,59\n{GUM};Gum;1,00\n", {3: "a cell is missing"}),
    (f"EAN;Artikel;Preis\n{OATS};2,90;1,45\n", {2: "'2,90' stands where the name is"}),
    (f"EAN;Artikel;Preis\n{OATS};Kekse;2,90\n{RYE};Brot;3\n{OATS};Kekse;2,50\n", {2: "line 4 has the same number", 4: "line 2 has the same"}),
    (f"EAN;Artikel;Preis\n{OATS};Kekse;2,90\n;{OATS};Kekse;2,90\n", {2: "line 3 has the same number", 3: "this line has no number"}),
    (f'EAN;Artikel;Preis\n{OATS};Kekse;2,90\n{OATS};"x"y;1,00\n', {2: "line 3 has the same number", 3: "this line is not CSV"}),
    (f"EAN;Artikel;Preis\n{OATS};Kekse;2,90\n;Summe;;9,00\n", {3: "this line has no number"}),
    ("EAN;Artikel;Preis\n0000000000000;x;1,00\n", {2: "a number of zeros alone"}),
    (f"EAN;Artikel;Preis\n#N/V;x;1,00\n{OATS};y;1,00\n", {2: "refused 1 Length"}),
])
def test_lines_that_are_refused(text: str, faults: dict[int, str]) -> None:
    told = {fault.line: fault.said for fault in read_list(text.encode(), 2026).faults}
    assert told.keys() == faults.keys() and all(faults[line] in told[line] for line in faults)


def test_lines_that_are_told() -> None:
    text = f"EAN;Artikel;Preis;Lager;;Regal\nGetränke;;;;;\n{OATS};Kekse;2,9;4;z;\n{OATS};Kekse;2,9;;;\n{GUM};Gum;;;;\n;Summe;9,00;;;\n"
    prices = read_list(text.encode(), 2026)
    assert [(it.line, it.price) for it in prices.articles] == [(3, "2,90"), (4, "2,90"), (5, "")] and not prices.faults
    assert prices.notes == ["2 lines without a number are passed over: 2, 6", "not printed: 'Lager', column 5, 'Regal'",
                            "1 line has an empty price, and its label has none: 5"]


def test_an_answered_question() -> None:
    text = f"EAN;Preis;UVP\n{OATS};2,90;3,50\n".encode()
    with pytest.raises(ListFaults):
        read_list(text, 2026)
    assert not read_list(f"EAN;Preis\n{OATS};2,90\n".encode(), 2026, {"price": ""}).articles[0].price
    for columns, price in (({"price": "UVP"}, "3,50"), ({"price": "2"}, "2,90"), ({"price": ""}, "")):
        article, = read_list(text, 2026, columns).articles
        assert article.price == price


@pytest.mark.parametrize("heading, cell, shown", [
    ("alter Preis", "3,5", "3,50 €"), ("Was", "0,00", ""), ("Preis pro kg", "5,8", "5,80 €/kg"), ("Prix au litre", "5.80 €", "5.80 €/litre"),
    ("Grundpreis", "1 kg = 5,80 €", "1 kg = 5,80 €"), ("Grundpreis", "5,80/100 g", "'5,80/100 g' is no price"), ("Grundpreis", "5,80", ""), ("Prezzo al kg", "x", "'x' is no price"),
    ("Pfand", "0,25", "Pfand 0,25 €"), ("Pfand", "0", ""), ("Pfand", "ja", "'ja' is no price"), ("Pfand-Nr", "4", ""), ("MHD", "31.12.2026", "MHD 31.12.2026"),
    ("MHD", "46387", "'46387' is no day"), ("Chargennummer", "L 7", "Chargennummer L 7"), ("Prix barré", "2,90", "not above the price"), ("Stara cena", "x", "'x' is no price"),
])
def test_fields(heading: str, cell: str, shown: str) -> None:
    prices = read_list(f"EAN;Preis;{heading}\n{OATS};2,90;{cell}\n".encode(), 2026, currency="€")
    told = [text.replace("\xa0", " ") for article in prices.articles for text in article.fields if text] + [fault.said for fault in prices.faults]
    assert told == [shown] if shown and not prices.faults else not shown and not told or shown in told[0]
    assert bool(prices.notes) == (heading == "Pfand-Nr" or (heading, cell) == ("Grundpreis", "5,80"))


@pytest.mark.parametrize("price, content, shown", [
    ("2,90", "500 g", "1 kg = 5,80"), ("1.54 €", "6 x 0,33 l", "100 ml = 0.08 €"), ("1,00", "0,375 kg", "1 kg = 2,67"), ("CHF 3.50", "1,5 KG", "1 kg = CHF 2.33"),
    ("2,90", "1.500 g", None), ("2,90", "kg", None), ("2,90", "0 g", None), ("2,90", "12 Stück", None), ("2,90/kg", "500 g", None), ("2,90", "", ""), ("", "500 g", ""),
])
def test_the_price_of_a_unit(price: str, content: str, shown: str | None) -> None:
    prices = read_list(f"EAN;Preis;Inhalt\n{OATS};{price};{content}\n{RYE};1,00;1 kg\n".encode(), 2026, units=["kg", "100ml"])
    assert prices.articles[0].fields[1] == shown if shown is not None else "is no content" in prices.faults[0].said
    assert ("1 line has no content, and its label no price of a unit: 2" in prices.notes) == (content == "")
    with pytest.raises(Faults, match="no column has the content.*--column content="):
        read_list(f"EAN;Preis\n{OATS};1,00\n".encode(), 2026, units=["kg"])


def test_a_language_has_its_numbers() -> None:
    try:
        _shop.speak("de")
        assert printed("290", others=[], heading="Preis in Cent") == "2,90" and _shop.said("noLabels").startswith("die Liste")
        with pytest.raises(Faults, match="mehr als 20[.]000 Zeilen"):
            read_list(("EAN;Preis\n" + f"{OATS};2,90\n" * 20_000).encode(), 2026)
        with pytest.raises(ListFaults, match="50,0 mm breit, und der Strichcode braucht mit Ruhezonen .* mm: .*; oder weniger"):
            make(read_list(b"gs1;name\n(01)09501101530003(10)A;Kiste\n", 2026, {"price": ""}), stock_of("50x20"), 2026, look=Look(203))
        _shop.speak("xx")
        assert _shop.said("noLabels") == "the list has no labels to print"
    finally:
        _shop.speak("en")


@pytest.mark.parametrize("text, told", [
    (f"EAN;Unit Cost;Unit Price\n{OATS};1,20;2,90\n", "as in --column price='Unit Price'"),
    (f"EAN;Valuation Rate;Selling Rate\n{OATS};1,20;2,90\n", "'Valuation Rate' (purchase price), 'Selling Rate': say"),
    ("EAN;Preis\n" + f"{OATS};2,90\n" * 20_000, "more than 20,000 lines"), ("EAN;Preis\n" + ";" * 1_000_000, "too large"),
])
def test_questions_and_limits(text: str, told: str) -> None:
    with pytest.raises(Faults, match=re.escape(told)):
        read_list(text.encode(), 2026)


def test_amounts_of_three_decimals_say_nothing_of_tax() -> None:
    table = table_of(f"EAN;Preis;Gesamt\n{OATS};1.000;1.200\n{RYE};3.10;3.10\n".encode(), 2026)
    assert table.question is None
