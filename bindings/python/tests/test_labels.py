"""Labels of lists: what is refused, what is drawn, and what the files say. Readers of other makes: tests/labels/run."""
from __future__ import annotations

import io
import re
from copy import copy
from dataclasses import replace
from pathlib import Path
from typing import Any

import pytest

pytest.importorskip("reportlab")

import noriladle
from noriladle import Kind, find_dots, label_symbol, labels
from noriladle.labels import Faults, Labels, Look, fonts_of, make, read_list, stock_of
from noriladle.labels import _stocks
from noriladle.labels._dots import Image as Dots
from noriladle.labels._dots import _zpl_row, image_of
from noriladle.labels._letters import dots_of
from PIL import Image

LIST = "ean;name;price;copies\n9501101530003;Müsli;1,95 €;\n96385074;Kaugummi;0,90 €;3\n012345000065;Cola;1,10 €;0\n".encode()
YEAR = 2026
NO_PRICE, BARS = {"price": ""}, Look(is_price_first=False)


def made(data: bytes = LIST, stock: str = "L7160", **named: Any) -> Labels:
    columns = None if b"price" in data else NO_PRICE
    return make(read_list(data, YEAR, columns), stock_of(stock), YEAR, **named)


def faults(data: str, stock: str = "L7160", **named: Look) -> list[tuple[int, str]]:
    with pytest.raises(Faults) as raised:
        made(data if isinstance(data, bytes) else data.encode(), stock, **named)
    return [(fault.line, fault.said) for fault in raised.value.faults]


# In mm, from memory: the makers' data sheets are to confirm them.
@pytest.mark.parametrize("name, cells, first, last", [
    ("L7160", 21, (7.21, 15.15), (139.29, 243.75)),
    ("avery l7163", 14, (4.63, 15.15), (106.27, 243.75)),
    ("L7651", 65, (4.67, 10.7), (167.23, 265.1)),
    ("3474", 24, (0, 0.5), (140, 259.5)),
    ("Avery Zweckform 3474", 24, (0, 0.5), (140, 259.5)),
    ("5160", 30, (4.76, 12.7), (144.46, 241.3)),
    ("2x7:99.1x38.1+2.54+0", 14, (4.63, 15.15), (106.27, 243.75)),
    ("57x32", 1, (0, 0), (0, 0)),
    ("Dymo 11354", 1, (0, 0), (0, 0)),
    ("2x3:60x40+5+2@a5", 6, (11.5, 43), (76.5, 127)), ("2x7:90x38@a4/7.5/15", 14, (7.5, 15), (97.5, 243)), ("2x1:50x25+2+0@104x25", 2, (1, 0), (53, 0)),
    ("1x2:100x60/10/20&2x1:100x60/5/200", 4, (10, 20), (105, 200)),
])
def test_stock(name: str, cells: int, first: tuple[float, float], last: tuple[float, float]) -> None:
    stock = stock_of(name)
    assert stock.cells == cells
    assert stock.place(0) == pytest.approx(first, abs=0.006) and stock.place(cells - 1) == pytest.approx(last, abs=0.006)


@pytest.mark.parametrize("name, told", [
    ("", "there is no stock ''"), ("L7999", "did you mean "), ("L716", "did you mean L7165 or L7163 or L7162?"), ("3x8", "no labels of 5"),
    ("4x8:70x37", "larger than their page"), ("0x1:70x37", "no labels of 5 to 1000 mm"), ("3x8:70x37@a0", "there is no page 'a0'"),
    ("3x8:1x1", "no labels"), ("1x2:100x60&1x2:90x60", "no labels"), ("1x2:100x60/150/20", "larger than their page"), ("1x1:50x30@20x20", "larger"), ("70x37\n\n", None), ("2000x20", "no labels"),
])
def test_no_stock(name: str, told: str | None) -> None:
    if told is None:
        assert stock_of(name).cells == 1
    else:
        with pytest.raises(ValueError, match=re.escape(told)):
            stock_of(name)


def test_stock_of_glabels(tmp_path: Path, monkeypatch: pytest.MonkeyPatch) -> None:
    monkeypatch.setattr(_stocks, "_TEMPLATES", tmp_path)
    (tmp_path / "paper-sizes.xml").write_text('<P><Paper-size id="A6" width="105mm" height="148mm"/></P>')
    label = '<Label-rectangle id="0" width="2in" height="30mm"><Markup-margin size="5"/><Layout nx="2" ny="4" x0="1mm" y0="36pt" dx="52mm" dy="30mm"/></Label-rectangle>'
    (tmp_path / "a-templates.xml").write_text(f'<T><Template brand="One" part="X1" size="A6">{label}</Template><Template brand="One" part="X2" equiv="X1"/></T>')
    stock = stock_of("one x2")
    assert stock == stock_of("X1") and stock.cells == 8 and stock.place(7) == pytest.approx((53, 102.7)) and stock.page == (105, 148)
    (tmp_path / "b-templates.xml").write_text(f'<T><Template brand="Two" part="X1" size="A6">{label.replace("2in", "40mm")}</Template></T>')
    with pytest.raises(ValueError, match="did you mean One X1 or Two X1"):
        stock_of("X1")


def test_edges_and_rows() -> None:
    look = Look(203)
    (_, drawing), = labels.outlines(stock_of("3474"), look).drawings
    assert labels.outlines(stock_of("3474"), look).sheets == 1 and len(drawing.boxes) == 4 and max(it[0] + it[2] for it in drawing.boxes) == drawing.width
    row = made(stock="2x1:60x30+2+0@124x30", look=look)
    assert row.zpl().count(b"^PW992") == 2 and row.tspl().startswith(b"SIZE 124 mm,30 mm") and row.sheets == 2
    with pytest.raises(ValueError, match="not turned"):
        made(stock="2x1:60x60@124x60", look=Look(203, turned=True)).zpl()


@pytest.mark.parametrize("data, line, told", [
    ("gtin\n4012345010375\n", 2, "4012345010374 is right"),
    ("gtin\n\n\n\"4,01235E+12\"\n", 4, "the spreadsheet has rounded it"),
    ("gtin\n12345000065\n", 2, "012345000065 is right"),
    ("gtin,name,price\n,96385074,1.00\n", 2, "this line has no number"),
    ("gtin,gs1\n96385074,(10)A\n", 2, "this line has a number and an element string"),
    ("gtin,copies\n96385074,1001\n", 2, "'1001' is not a number of copies: write 0 to 1,000"),
    ("gtin,copies\n96385074,²\n", 2, "is not a number of copies"),
    ("gtin,kind\n96385074,qr\n", 2, "there is no kind 'qr'"),
    ("gtin,kind\n9501101530003,ean8\n", 2, "refused 26 LabelKind 0: print it as another kind"),
    ("gtin,kind\n(10)AB,ean13\n", 2, "this is not a GTIN alone"),
    ("gtin,kind\n9501101530003,upce\n", 2, "refused 26 LabelKind 0: print it as another kind"),
    ("gtin,kind\n96385074,upce\n", 2, "refused 26 LabelKind 0: print it as another kind"),
    ("gtin\n01234565\n", 2, "may be a GTIN-8 or a UPC-E"),
    ("gtin,name\n96385074,\U000f1234\n", 2, "'\\U000f1234' cannot be set"),
    ("gtin,name\n96385074,שלום\n", 2, "from right to left"), ("gtin,name\n96385074,\u0301\n", 2, "cannot be set"),
    ("gs1\n(01)09501101530003(17)261331\n", 2, "refused 9 ValueDate 17: at (17)261331: write YYMMDD"),
    ("gs1\n(01)09501101530003(20)A(B)C\n", 2, "parentheses stand around Application Identifiers alone"),
    ("gtin\nhttps://id.gs1.org/01/09501101530003\n", 2, "a QR code, which is not drawn here: write its elements, as (01)09501101530003"),
    ('gtin,name\n96385074,"a\nb"\n1,c\n', 4, "1: refused 1 Length"),
    ('gtin,name\n96385074,"a"b\n', 2, "this line is not CSV"),
])
def test_faults_of_lists(data: str, line: int, told: str) -> None:
    told_lines = faults(data)
    assert [number for number, _ in told_lines] == [line] and told in told_lines[0][1]


def test_all_faults_are_told() -> None:
    assert [line for line, _ in faults("gtin;name\n1;a\n96385074;b\n2;c\n")] == [2, 4]


@pytest.mark.parametrize("cells, kind, text", [
    ("9501101530003,", Kind.EAN13, "09501101530003"), ("012345000065,", Kind.UPCA, "00012345000065"),
    ("96385074,", Kind.EAN8, "00000096385074"), ("09501101530003,", Kind.ITF14, "09501101530003"),
    ("9501101530003,itf14", Kind.ITF14, "09501101530003"), ("012345000065,UPC-E", Kind.UPCE, "00012345000065"),
    ("01234565,upce", Kind.UPCE, "00012345000065"), ("]E001234565,", Kind.UPCE, "00012345000065"),
    ("]E496385074,", Kind.EAN8, "00000096385074"), ("]I109501101530003,", Kind.ITF14, "09501101530003"),
    ("]E09501101530003,", Kind.EAN13, "09501101530003"), ("]E0012345000065,", Kind.UPCA, "00012345000065"),
    ("(10)AB(17)261231,", Kind.GS1128, "10AB\x1d17261231"), ("]C110AB^17261231,", Kind.GS1128, "10AB\x1d17261231"),
    ("^10AB^17261231,", Kind.GS1128, "10AB\x1d17261231"), ("[10]AB[17]261231,", Kind.GS1128, "10AB\x1d17261231"),
    ("9501101530003,gs1128", Kind.GS1128, "0109501101530003"), ("(01)09501101530003,ean13", Kind.EAN13, "09501101530003"),
])
def test_kinds(cells: str, kind: Kind, text: str) -> None:
    article, = read_list(f"gtin,kind\n{cells}\n".encode(), YEAR, NO_PRICE).articles
    assert (article.kind, article.text) == (kind, text)


def test_an_element_string_of_its_column_needs_no_mark() -> None:
    article, = read_list(b"gs1\n010950110153000310AB\n", YEAR, NO_PRICE).articles
    assert (article.kind, article.text) == (Kind.GS1128, "010950110153000310AB")


def test_bars_that_have_no_room() -> None:
    (line, told), = faults("gs1\n(01)09501101530003(17)261231(10)LOT7\n", "3474")
    assert line == 2 and "needs 89.4 mm with its quiet zones" in told and "use labels of 92 mm or more (L7162, L7163, L7165)" in told and "--turn" not in told
    assert "--turn" in faults("gs1\n(01)09501101530003(17)261231(10)LOT7\n", "1x1:70x148")[0][1]
    assert "--dpi 600" in faults("gtin\n9501101530003\n", "L7651")[0][1]
    assert "are left for the bars" in faults("gtin,name\n9501101530003,x\n", "60x10")[0][1]


def test_modules_are_whole_dots_next_to_what_is_wanted() -> None:
    def dots(stock: str, **named: Any) -> int:
        (_, drawing), = made(b"gtin\n9501101530003\n", stock, look=Look(**named)).drawings
        return min(width for _, _, width, _ in drawing.boxes)
    assert [dots("L7160", resolution=it) for it in (203, 300, 600)] == [3, 4, 8]  # 0.375, 0.339, 0.339 mm
    assert [dots("L7160", resolution=600, module_mm=it) for it in (0.264, 0.3, 0.4)] == [7, 7, 9]
    assert dots("L7651", resolution=600) == 7
    assert dots("L7163", resolution=300, module_mm=0.66) == 7  # 0.593 mm: the largest up to 0.66.


@pytest.mark.parametrize("look, data, told", [
    (Look(module_mm=0.1), "gtin\n9501101530003\n", "its modules are 0.264 to 0.66 mm wide"),
    (Look(module_mm=0.8), "gtin\n9501101530003\n", "its modules are 0.264 to 0.66 mm wide"),
    (Look(module_mm=9), "gs1\n(10)A\n", "its modules are 0.264 to 1.016 mm wide"),
    (Look(bars_mm=4.9), "gtin\n9501101530003\n", "bars are 5 to 100 mm high"),
    (Look(bars_mm=101), "gtin\n9501101530003\n", "bars are 5 to 100 mm high"),
    (BARS, "gtin,name,price\n9501101530003,x,1 234 567.95 Euro / Familienpack\n", "or fewer lines"),
    (Look(bars_mm=30), "gtin,name,price\n9501101530003,x,1.95\n", "or the look of large bars (--look bars)"),
    (Look(), f"gtin,{','.join(f'line {n}' for n in range(1, 10))}\n9501101530003{',x' * 9}\n", "at most 8 further lines"),
])
def test_what_no_label_shows_is_refused(look: Look, data: str, told: str) -> None:
    (line, said), = faults(data, "L7160", look=look)
    assert line == 2 and told in said


def test_warnings() -> None:
    data = b"gtin,name\n9501101530003,x\n96385074,y\n9501101530010,z\n"
    told = "the bars are {} mm high; the standard asks for {} mm, and lower bars are harder to hit: use higher labels"
    assert [(it.lines, it.said) for it in made(data, "L7651", look=Look(600)).warnings] == [
        ((2, 4, 3), told.format("11.9", "20.5"))]
    assert not made(data, "L7163", look=Look(bars_mm=30)).warnings
    (_, said), = made(f"gtin,name\n9501101530003,{'W' * 10_000}\n".encode(), "2x4:99.1x67.7").warnings
    assert said.startswith("a text is cut, since the label has no room for it: WWWW") and len(said) < 300


def test_a_name_that_shows_nothing_does_no_harm() -> None:
    for sign in "\u200b\u200e\xad\u2060":
        try:
            assert made(f"gtin,name\n96385074,{sign}\n".encode(), "3474").count == 1
        except Faults as error:
            assert "cannot be set" in str(error)


def test_a_long_name_leaves_room_for_the_price() -> None:
    name = "Blütenhonig aus der Lüneburger Heide, cremig gerührt, aus kontrolliert biologischer Imkerei, 500 g im Glas mit Schraubdeckel"
    for stock in ("50x19", "57x19", "70x20", "L7651", "57x32"):
        labels = made(f"gtin;name;price\n4012345010008;{name};12,90 €\n".encode(), stock, look=Look(600))
        (_, drawing), = labels.drawings
        sizes = {text.font.is_bold and text.text == "12,90 €": text.size for text in drawing.texts if text.font.is_bold}
        assert sizes[True] > sizes[False] and any(text.text.endswith("…") for text in drawing.texts) == any("is cut" in it.said for it in labels.warnings)


@pytest.mark.parametrize("headings, cells, is_beside", [
    ("", "", True), (";old price;price per kg;best before;batch;line 1", ";3.90;5.80/kg;31.12.2026;L1;from Assam", False),
])
def test_the_price_of_a_low_label_is_beside_its_bars_if_all_texts_have_room(headings: str, cells: str, is_beside: bool) -> None:
    (_, drawing), = made(f"gtin;name;price{headings}\n4012345010008;Tea;2.90{cells}\n".encode(), "70x20", look=Look(203)).drawings
    price, = (text for text in drawing.texts if text.text == "2.90")
    assert (price.base > drawing.boxes[0][1]) == is_beside


def test_one_long_price_does_not_make_all_small() -> None:
    def size(extra: str) -> float:
        drawings = made(f"gtin,price\n9501101530003,1.95\n96385074,2.95\n012345000065,{extra}\n".encode(), "3474").drawings
        return max(text.size for text in drawings[0][1].texts)
    assert size("3.95") == size("1 234 567.95 Euro")


def test_prices_of_one_width_fill_their_column() -> None:
    (_, drawing), *_ = made(b"gtin,price\n9501101530003,1.95\n012345000065,3.95\n", "3474", look=BARS).drawings
    price = next(text for text in drawing.texts if text.text == "1.95")
    end = max(left + width for left, _, width, _ in drawing.boxes)
    # A quiet zone of 7 modules, a millimetre, and a hundredth of the price.
    assert end + 7 * 4 + 11 < price.left < end + 7 * 4 + 12 + 0.01 * price.wide


def test_copies_and_the_first_cell() -> None:
    pages = list(made(start=20).pages())
    assert [[(placed.left, placed.top) for placed in page] for page in pages] == [[(865, 2879), (1645, 2879)], [(85, 179), (865, 179)]]
    assert made(start=20).sheets == 2 and made().sheets == 1 and made().count == 4
    moved = [(placed.left, placed.top) for placed in next(made(shift=(2.0, -1.0)).pages())]
    assert moved[0] == (109, 167)
    for start in (0, 22):
        with pytest.raises(ValueError):
            made(start=start)
    with pytest.raises(ValueError, match="more than 100,000 labels"):
        made(b"gtin,copies\n" + b"96385074,1000\n" * 101)


def test_rows_of_a_label_with_its_letters_say_its_article() -> None:
    data = ("gtin,name,price,line 1\n9501101530003,Ůgaj |ĤŔ Ģy,1.95,j|Ģ\n012345000065,Öl,2.95,\n96385074,,3.95,\n"
            "]E001234565,,,\n09501101530003,Kiste,,\n^10AB^17261231,Los,,\n")
    for resolution, stock, is_first in ((203, "100x50", False), (203, "100x50", True), (300, "L7163", False), (600, "L7163", True)):
        for article, drawing in made(data.encode(), stock, look=Look(resolution, bearers=True, is_price_first=is_first)).drawings:
            image, shown = image_of(drawing, False), "".join(text.text for text in drawing.texts)
            symbol = label_symbol(article.kind, article.text, YEAR)
            wide, rows = image.packed(light=0)
            top, high = drawing.boxes[1][1], drawing.boxes[1][3]
            assert {found.answer.text for row in rows[top:top + high] for found in find_dots(row, drawing.width, YEAR)} == {article.answer.text}
            module = min(box[2] for box in drawing.boxes)
            assert [box[2] for box in drawing.boxes][:len(symbol.widths) // 2 + 1] == [module * it for it in symbol.widths[::2]]
            assert sorted(shown.replace(" ", "")) == sorted("".join((article.name, article.price, *article.lines, symbol.text)).replace(" ", ""))


def test_letters_lie_in_their_rectangles() -> None:
    data = "gtin,name,price,line 1\n9501101530003,ŮgajÖÅ|ĤŔ Ģy@W$,1.95 €,j|Ģ(Ŵ)\n^10ABCgj^17261231,Qj[]{},,(ÿ)\n".encode()
    for resolution in (203, 300, 600):
        for _, drawing in made(data, "2x4:99.1x67.7", look=Look(resolution)).drawings:
            for text in drawing.texts:
                inside, outside = (Dots(drawing.width, [0] * drawing.height) for _ in range(2))
                left, top, width, height = text.box
                inside.write(text._replace(box=(left - 1, top - 1, width + 2, height + 2)))
                outside.write(text._replace(box=(0, 0, drawing.width, drawing.height)))
                assert any(inside.rows) and inside.rows == outside.rows, text


def test_letters_that_a_font_lacks_come_from_the_next() -> None:
    fonts = fonts_of()
    poor = replace(fonts.bold, widths=copy(fonts.bold.widths), borrowed={})
    del poor.widths["Ż"]
    (_, drawing), = made("gtin,name\n96385074,Żur\ufe0f\n".encode(), "57x32", fonts=fonts._replace(bold=poor)).drawings
    name, = [text for text in drawing.texts if text.text == "Żur"]
    paths = [name.font.path_of(letter) for letter in name.text]
    assert paths == [fonts.regular.path, fonts.bold.path, fonts.bold.path] and name.font.ink("Ż").top > name.font.ink("u").top
    assert name.wide < name.box[2] + 1 and dots_of(paths[0], "Ż", name.size).rows


def test_files() -> None:
    it = made("gtin,name\n9501101530003,<&>^~_\\\n".encode(), "57x32")
    assert it.pdf() == it.pdf() and it.pdf()[:5] == b"%PDF-"
    assert "&lt;&amp;&gt;^~_\\</text>" in next(it.svgs())
    assert Image.open(io.BytesIO(next(it.pngs()))).size == (673, 378)
    many = made(stock="57x32")
    assert re.findall(rb"\^PQ\d+", many.zpl()) == [b"^PQ1", b"^PQ3"]
    assert re.findall(rb"\nP\d+", many.epl()) == [b"\nP1", b"\nP3"]
    assert re.findall(rb"PRINT 1,\d+", many.tspl()) == [b"PRINT 1,1", b"PRINT 1,3"]


@pytest.mark.parametrize("row, before, told", [  # ZPL II Programming Guide, appendix on the compression of graphics.
    ("00", "ff", ","), ("ff", "ff", ":"), ("f0", "ff", "F,"), ("ff" * 10, "", "gF"), ("ffffff00", "", "LF,"), ("0aaaaa", "", "0KA"),
    ("11" * 200, "", "z1"), ("11" * 213, "", "zgL1"), ("a1b2", "", "A1B2"), ("0000ff", "", "J0FF"),
])
def test_rows_of_zpl(row: str, before: str, told: str) -> None:
    assert _zpl_row(bytes.fromhex(row), bytes.fromhex(before)) == told


def test_doctest_of_the_module() -> None:
    import doctest
    assert doctest.testmod(labels) == (0, 3)


def test_it_says_what_is_not_installed(monkeypatch: pytest.MonkeyPatch, capsys: pytest.CaptureFixture[str]) -> None:
    import sys

    from noriladle.__main__ import main
    for name in [name for name in sys.modules if name.startswith("noriladle.labels")]:
        monkeypatch.delitem(sys.modules, name)
    monkeypatch.delattr(noriladle, "labels", raising=False)
    monkeypatch.setitem(sys.modules, "reportlab", None)
    assert main(["labels", "a.csv", "-o", "a.pdf"]) == 2
    assert "PDF needs reportlab: apt-get install python3-reportlab" in capsys.readouterr().err
