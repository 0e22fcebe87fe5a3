"""The module's answers to worked cases, and what it raises."""
from __future__ import annotations

import base64
import copy
import dataclasses
import datetime
import pickle
import random
import threading
from datetime import time
from typing import Any, Callable

import pytest

import noriladle
from noriladle import Answer, Element, Found, Kind, Refusal

EAN13 = [int(width) for width in """11 1 1 1 1 2 3 1 1 1 2 3 1 2 2 2 2 2 2 1 1 1 2 3 2 2 2 1 1 1 1 1 1 1 2 3 1 1 4
1 1 3 2 1 1 3 2 1 1 3 2 1 1 1 4 1 1 1 1 1 7""".split()]
FRAMED = [3, 2] + EAN13 + [2, 3]
DATED = Element("17", "261231", datetime.date(2026, 12, 31))
READ = Answer("]E0", (Element("01", "09501101530003"),))
# The pickle of an answer that version 1.1 made: of "]C10109501101530003\x1d17261231\x1d10LOT7" in 2026.
OLD_PICKLE = base64.b64decode(
    "gASV+AAAAAAAAACMCW5vcmlsYWRsZZSMBkFuc3dlcpSTlCmBlH2UKIwKaWRlbnRpZmllcpSMA11DMZSMCGVsZW1lbnRzlGgAjAdFbGVtZW50lJOUKYGUfZQojAJhaZSMAjAx"
    "lIwFdmFsdWWUjA4wOTUwMTEwMTUzMDAwM5SMBGRhdGWUTowEdGltZZROjAV1bnRpbJROdWJoCSmBlH2UKGgMjAIxN5RoDowGMjYxMjMxlGgQjAhkYXRldGltZZSMBGRhdGWU"
    "k5RDBAfqDB+UhZRSlGgRTmgSTnViaAkpgZR9lChoDIwCMTCUaA6MBExPVDeUaBBOaBFOaBJOdWKHlHViLg==")
IMAGE = b"P4\n113 3\n" + bytes(15) + bytes.fromhex("00158A7666539954E85CB972854000") + bytes(15)


def refusal(call: Callable[..., object], *words: object, **named: object) -> tuple[int, str, int | None]:
    with pytest.raises(Refusal) as raised:
        call(*words, **named)
    fault = raised.value
    return fault.number, fault.name, fault.place


def test_reads_a_row_either_way() -> None:
    assert noriladle.read_row(EAN13, 2026) == READ
    assert noriladle.read_row(EAN13[::-1], 2026) == READ
    assert noriladle.read_row(tuple(EAN13), year=1951).gtin == "09501101530003"
    assert READ.text == "(01)09501101530003"
    assert str(READ) == "]E0 (01)09501101530003"


@pytest.mark.parametrize("widths, year, wanted", [
    ([4] + EAN13[1:], 2026, (21, "QuietZone", None)),
    ([100], 2026, (19, "Blank", None)),
    ([], 2026, (18, "BadRuns", None)),
    ([5, 3], 2026, (18, "BadRuns", None)),
    ([5, 70_000], 2026, (18, "BadRuns", None)),
    ([0, 65_535, 0], 2026, (20, "RunCount", None)),
    ([0, 65_536, 0], 2026, (17, "TooWide", None)),
    ([70_000], 2026, (17, "TooWide", None)),
    ([70_000], 1950, (42, "Words", None)),
    (EAN13, 1950, (42, "Words", None)),
    (EAN13, 2150, (42, "Words", None)),
    (EAN13, -1, (42, "Words", None)),
    (EAN13, 65_536 + 2026, (42, "Words", None)),
    ([1] * 65_537, 2026, (17, "TooWide", None)),
])
def test_refuses_a_row(widths: list[int], year: int, wanted: tuple[int, str, None]) -> None:
    assert refusal(noriladle.read_row, widths, year) == wanted


@pytest.mark.parametrize("year", [2026.0, "2026"])
def test_a_year_that_is_no_whole_number(year: Any) -> None:
    for call in (lambda: noriladle.read_row(EAN13, year), lambda: noriladle.read_scan("]E496385074", year)):
        with pytest.raises(TypeError):
            call()


@pytest.mark.parametrize("call", [noriladle.read_row, noriladle.find])
def test_refuses_a_width_below_0(call: Callable[..., object]) -> None:
    with pytest.raises(ValueError) as raised:
        call([5, -1, 5], 2026)
    assert raised.type is ValueError


def test_finds_each_symbol_of_a_row() -> None:
    assert noriladle.find(EAN13, 2026) == [Found(0, 61, READ)]
    assert noriladle.find(FRAMED, 2026) == [Found(2, 61, READ)]
    assert noriladle.find(EAN13[:-1] + EAN13, 2026) == [Found(0, 61, READ), Found(60, 61, READ)]
    assert noriladle.find([100], 2026) == []
    many = noriladle.find((EAN13[:-1]) * 100 + [7], 2026)
    assert [(found.first, found.count, found.answer) for found in many] == [(60 * i, 61, READ) for i in range(100)]


@pytest.mark.parametrize("widths, year, wanted", [
    ([5, 3], 2026, (18, "BadRuns", None)),
    ([70_000], 2026, (17, "TooWide", None)),
    (EAN13, 1950, (42, "Words", None)),
])
def test_finds_nothing_in_what_is_no_row(widths: list[int], year: int, wanted: tuple[int, str, None]) -> None:
    assert refusal(noriladle.find, widths, year) == wanted


def test_reads_packed_dots() -> None:
    wanted = READ
    row = IMAGE[9 + 15:9 + 30]
    assert noriladle.read_dots(row, 113, 2026) == wanted
    assert noriladle.read_dots(bytearray(row), width=113, year=2149) == wanted
    assert noriladle.read_dots(memoryview(IMAGE)[24:39], 113, 2026) == wanted
    assert noriladle.read_dots(row[:-1] + b"\x7f", 113, 2026) == wanted
    turned = int(f"{int.from_bytes(row, 'big') >> 7:0113b}"[::-1], 2) << 7
    assert noriladle.read_dots(turned.to_bytes(15, "big"), 113, 2026) == wanted


@pytest.mark.parametrize("dots, width, year, wanted", [
    (b"", 0, 2026, (19, "Blank", None)),
    (b"\0", 8, 2026, (19, "Blank", None)),
    (b"\x80", 1, 2026, (20, "RunCount", None)),
    (b"", 1, 2026, (18, "BadRuns", None)),
    (b"\0", 9, 2026, (18, "BadRuns", None)),
    (b"\0", 2 ** 32, 2026, (18, "BadRuns", None)),
    (b"\0", 2 ** 32 + 8, 2026, (18, "BadRuns", None)),
    (b"\xff" * 8192, 65_535, 2026, (20, "RunCount", None)),
    (b"\xff" * 8192, 65_536, 2026, (17, "TooWide", None)),
    (b"\xff" * 9000, 72_000, 2026, (17, "TooWide", None)),
    (b"\0", 9, 1950, (42, "Words", None)),
    (b"\0", 8, 2150, (42, "Words", None)),
    (b"\0", 8, 65_536 + 2026, (42, "Words", None)),
])
def test_refuses_packed_dots(dots: bytes, width: int, year: int, wanted: tuple[int, str, None]) -> None:
    assert refusal(noriladle.read_dots, dots, width, year) == wanted


def packed(widths: list[int]) -> tuple[bytes, int]:
    """The dots of a row, eight of them a byte; those behind the last are dark."""
    bits = "".join("01"[i % 2] * width for i, width in enumerate(widths))
    return int("0" + bits + "1" * (-len(bits) % 8), 2).to_bytes((len(bits) + 7) // 8, "big"), len(bits)


def test_finds_each_symbol_of_packed_dots() -> None:
    row = IMAGE[9 + 15:9 + 30]
    assert noriladle.find_dots(row, 113, 2026) == [Found(0, 61, READ)]
    assert noriladle.find_dots(bytearray(row), width=113, year=2149) == [Found(0, 61, READ)]
    assert noriladle.find_dots(memoryview(IMAGE)[24:39], 113, 2026) == [Found(0, 61, READ)]
    assert noriladle.find_dots(*packed(FRAMED), 2026) == [Found(2, 61, READ)]
    assert noriladle.find_dots(*packed([0, 3] + FRAMED[2:]), 2026) == [Found(2, 61, READ)]
    assert noriladle.find_dots(b"", 0, 2026) == []
    assert noriladle.find_dots(b"\x80", 1, 2026) == []
    assert noriladle.find_dots(b"\xff" * 8192, 65_535, 2026) == []


@pytest.mark.parametrize("seed", range(20))
def test_finds_in_packed_dots_what_it_finds_in_their_widths(seed: int) -> None:
    # Symbols and noise with so many runs that the search takes several parts.
    chance = random.Random(seed)
    widths = [0, 40]
    while len(widths) < 5000:
        widths += EAN13 + [40] if chance.random() < 0.5 else [chance.randint(1, 8) for _ in range(2 * chance.randint(1, 400))]
    widths += [chance.randint(0, 1)]
    found = noriladle.find(widths, 2026)
    assert found and noriladle.find_dots(*packed(widths), 2026) == found


@pytest.mark.parametrize("dots, width, year, wanted", [
    (b"", 1, 2026, (18, "BadRuns", None)),
    (b"\0", 2 ** 32 + 8, 2026, (18, "BadRuns", None)),
    (b"\xff" * 8192, 65_536, 2026, (17, "TooWide", None)),
    (b"\0", 8, 2150, (42, "Words", None)),
])
def test_finds_nothing_in_dots_that_are_no_row(dots: bytes, width: int, year: int, wanted: tuple[int, str, None]) -> None:
    assert refusal(noriladle.find_dots, dots, width, year) == wanted


@pytest.mark.parametrize("call", [noriladle.read_dots, noriladle.find_dots])
def test_refuses_a_number_of_dots_below_0(call: Callable[..., object]) -> None:
    with pytest.raises(ValueError) as raised:
        call(b"", -1, 2026)
    assert raised.type is ValueError


def test_reads_what_it_draws() -> None:
    image = noriladle.draw_label(Kind.GS1128, "10AB\x1d17261231", 2026, width=480, height=120)
    row = image[-60 * 60:-60 * 59]
    assert str(noriladle.read_dots(row, 480, 2026)) == "]C1 (10)AB(17)261231"


LOT = "]C10109501101530003\x1d17261231\x1d10LOT7"
LOT_ELEMENTS = (Element("01", "09501101530003"), DATED, Element("10", "LOT7"))


def test_an_answer_is_a_value() -> None:
    """Its elements are made when they are first asked for, and nobody notices."""
    def made() -> Answer:
        return noriladle.read_scan(LOT, 2026)

    wanted = Answer("]C1", LOT_ELEMENTS)
    assert made() == wanted and hash(made()) == hash(wanted) and repr(made()) == repr(wanted) and made() != Answer("]d2", LOT_ELEMENTS)
    assert {made(), wanted} == {wanted} and made().elements == LOT_ELEMENTS and [hash(it) for it in made()] == [hash(it) for it in LOT_ELEMENTS]
    assert dataclasses.asdict(made()) == {**dataclasses.asdict(wanted), "symbol": "gs1128"}
    assert dataclasses.replace(made(), identifier="]d2") == Answer("]d2", LOT_ELEMENTS)
    same: Any
    for same in (copy.copy, copy.deepcopy, *(lambda it, n=n: pickle.loads(pickle.dumps(it, n)) for n in range(pickle.HIGHEST_PROTOCOL + 1))):
        again = same(made())
        assert (again, again.symbol, again.elements[1].date) == (wanted, "gs1128", datetime.date(2026, 12, 31))
    with pytest.raises(dataclasses.FrozenInstanceError):
        setattr(made(), "elements", ())
    with pytest.raises(AttributeError, match="'Answer' object has no attribute 'element'"):
        getattr(made(), "element")


def test_an_answer_of_version_1_1_is_read() -> None:
    old = pickle.loads(OLD_PICKLE)
    assert (old, old.symbol, old.gtin) == (noriladle.read_scan(LOT, 2026), None, "09501101530003")


def test_two_threads_ask_for_the_elements() -> None:
    answers, found = [noriladle.read_scan(LOT, 2026) for _ in range(2000)], []
    begun = threading.Barrier(4)

    def ask() -> None:
        begun.wait()
        found.append([it.elements for it in answers])

    threads = [threading.Thread(target=ask) for _ in range(4)]
    for thread in threads:
        thread.start()
    for thread in threads:
        thread.join()
    assert found == [[LOT_ELEMENTS] * 2000] * 4


@pytest.mark.parametrize("kind, number, symbol", [
    ("ean13", "4006381333931", "ean13"), ("upca", "012345678905", "upca"), ("ean13", "0012345678905", "upca"), ("upce", "00012345000065", "upce"),
    ("ean8", "96385074", "ean8"), ("itf14", "09501101530003", "itf14"), ("gs1128", "10AB", "gs1128"),
])
def test_the_symbol_of_a_row_is_exact(kind: str, number: str, symbol: str) -> None:
    image = noriladle.draw_label(kind, number, 2026, module=1, width=240, height=10)
    row = image[-30 * 5:-30 * 4]
    assert noriladle.read_dots(row, 240, 2026).symbol == symbol
    found, = noriladle.find_dots(row, 240, 2026)
    assert found.answer.symbol == symbol


@pytest.mark.parametrize("text, symbol", [
    ("]E04006381333931", "ean13"), ("]E0012345678905", "upca"), ("]E00012345678905", "upca"), ("]E001234565", "upce"), ("]E0012345000065", "upca"),
    ("]E496385074", "ean8"), ("]I109501101530003", "itf14"), ("]C110AB", "gs1128"), ("]e010AB", "databar"), ("]d210AB", "datamatrix"),
    ("]Q310AB", "qr_code"), ("]J110AB", "dotcode"), ("]Q1https://id.gs1.org/01/09501101530003", "qr_code"),
    ("]d1https://id.gs1.org/01/09501101530003", "datamatrix"), ("https://id.gs1.org/01/09501101530003", None), ("^10AB", None), ("9501101530003", None),
])
def test_the_symbol_of_a_scan_is_what_the_identifier_says(text: str, symbol: str | None) -> None:
    assert noriladle.read_scan(text, 2026).symbol == symbol


@pytest.mark.parametrize("text, gtin", [
    ("]C10109501101530003", "09501101530003"), ("]C110AB^0109501101530003", "09501101530003"), ("]C110AB", None), ("]C10209501101530003" + "375", None),
    ("]C101095011015300030109501101530003", "09501101530003"), ("]C1010950110153000310A^0109501101530010", None), ("]C110(01)09501101530003", None),
])
def test_the_gtin_wherever_it_stands(text: str, gtin: str | None) -> None:
    answer = noriladle.read_scan(text, 2026)
    assert answer.gtin == gtin == Answer("]C1", answer.elements).gtin
    assert Answer(None, ()).gtin is None


@pytest.mark.parametrize("text, said", [
    ("(01)09501101530003(17)261231", "(01)09501101530003(17)261231"), ("(01)09501101530003 (17)261231\n", "(01)09501101530003(17)261231"),
    ("[10]A(1)[17]261231", "(10)A(1)(17)261231"), ("10AB^17261231", "(10)AB(17)261231"), ("^10AB\x1d17261231", "(10)AB(17)261231"),
    ("]C110AB", "(10)AB"), ("https://id.gs1.org/01/09501101530003/10/AB", "(01)09501101530003(10)AB"), ("HTTPS://id.gs1.org/01/09501101530003", "(01)09501101530003"),
    ("978-3-16-148410-0", "(01)09783161484100"), ("977-1144875-00-7", "(01)09771144875007"), (" 9 501101 530003 ", "(01)09501101530003"), ("96385074", "(01)00000096385074"),
    ("(01)09501101530003(10)", "refused 5 UnknownAi"), ("(10)A(1)", "(10)A(1)"), ("(310)3 001250", "refused 5 UnknownAi 0"),
    ("(01) 0 9501101\xa053000\u20093 (10) AB ", "(01)09501101530003(10)AB"), ("(10)AB 12", "refused 7 ValueCharacter 0"), ("(10)AB\x1d(17)261231", "(10)AB(17)261231"),
    ("(10)A(17)", "refused 5 UnknownAi"), ("[10]A(17)", "(10)A(17)"), ("(20)A(1)", "refused 5 UnknownAi"), ("(01)09501101530003(9999)x", "refused 5 UnknownAi 17"),
    ("(10)" + "A" * 21, "refused 6 ValueLength 0"), ("(10)" + "A" * 200, "refused 11 TooLong"), ("(11)260101" * 24, "(11)260101" * 24), ("(11)260101" * 25, "refused 11 TooLong"), ("(17)261331", "refused 9 ValueDate 0"),
    ("9501101530004", "refused 3 CheckDigit"), ("00000000", "refused 40 Kind"), ("01234565", "refused 40 Kind"), ("]E3123", "refused 40 Kind"), ("", "refused 1 Length"),
])
def test_texts_as_they_are_printed_and_typed(text: str, said: str) -> None:
    try:
        assert noriladle.read_text(text, 2026).text == said
    except Refusal as error:
        assert str(error) == said and error.remedy
        for fix in error.fixes:
            assert noriladle.read_text(fix, 2026).elements


def test_printed_elements_are_read_as_the_same() -> None:
    chance = random.Random(7)
    elements = [Element(*it) for it in (
        ("00", "340123450000000017"), ("01", "09501101530003"), ("02", "09501101530003"), ("10", "AB"), ("10", "A-1/2"), ("17", "261231"), ("20", "11"), ("21", "x+1"),
        ("37", "5"), ("3103", "001250"), ("3932", "978000195"), ("410", "9501101530003"), ("422", "276"), ("423", "276528"), ("7003", "2612312359"), ("8008", "26123112"),
        ("8020", "R%1"), ("99", "a;b_c"), ("240", "(X)"), ("91", "(01)"))]
    for _ in range(2_000):
        listed = chance.sample(elements, chance.randrange(1, 5))
        answer = noriladle.read_scan("]C1" + noriladle.compose(listed, 2026), 2026)
        is_plain = not any("(01)" in it.value for it in listed)
        for text in (answer.text, answer.text.replace("(", " (")):
            if is_plain:
                assert noriladle.read_text(text, 2026).elements == answer.elements
            else:
                assert refusal(noriladle.read_text, text, 2026)[0] in (5, 6)


@pytest.mark.parametrize("text, forms", [
    ("]E496385074", {8: "96385074", 12: "000096385074", 13: "0000096385074", 14: "00000096385074"}),
    ("]E0012345000065", {8: None, 12: "012345000065", 13: "0012345000065", 14: "00012345000065"}),
    ("]E09501101530003", {8: None, 12: None, 13: "9501101530003", 14: "09501101530003"}),
    ("]I119501101530000", {8: None, 12: None, 13: None, 14: "19501101530000"}),
    ("]C110AB", {8: None, 12: None, 13: None, 14: None}),
])
def test_the_gtin_without_zeros_in_front(text: str, forms: dict[int, str | None]) -> None:
    answer = noriladle.read_scan(text, 2026)
    assert {digits: answer.gtin_as(digits) for digits in forms} == forms
    wrong: Any
    for wrong in (0, 11, 15, "13"):
        with pytest.raises(ValueError):
            answer.gtin_as(wrong)


def test_reads_numbers() -> None:
    assert noriladle.read_gtin("9501101530003") == "09501101530003"
    assert noriladle.read_gtin(b"96385074") == "00000096385074"
    assert noriladle.check_digit("950110153000") == 3
    assert refusal(noriladle.read_gtin, "9501101530004") == (3, "CheckDigit", None)
    assert refusal(noriladle.read_gtin, "950110153000X") == (2, "NotDigit", 12)
    assert refusal(noriladle.read_gtin, "") == (1, "Length", None)
    assert refusal(noriladle.check_digit, "1" * 18) == (1, "Length", None)
    assert refusal(noriladle.check_digit, "12\ud800") == (2, "NotDigit", 2)


def test_reads_elements() -> None:
    assert noriladle.read_elements("10AB\x1d17261231", 2026) == "(10)AB(17)261231"
    assert refusal(noriladle.read_elements, "17250229", 2026) == (9, "ValueDate", 0)
    assert refusal(noriladle.read_elements, "10AB\x1d\x1d21C", 2026) == (5, "UnknownAi", 5)
    assert refusal(noriladle.read_elements, "", 2026) == (4, "Empty", None)
    assert refusal(noriladle.read_elements, "1" * 193, 2026) == (11, "TooLong", None)
    assert refusal(noriladle.read_elements, "10AB", 0) == (42, "Words", None)


def test_tells_elements_apart() -> None:
    one, two = "10A(17)261231", "10A\x1d17261231"
    assert noriladle.read_elements(one, 2026) == noriladle.read_elements(two, 2026)
    assert noriladle.parse_elements(one, 2026) == (Element("10", "A(17)261231"),)
    assert noriladle.parse_elements(two, 2026) == (Element("10", "A"), DATED)
    assert refusal(noriladle.parse_elements, "17250229", 2026) == (9, "ValueDate", 0)


def test_tells_dates_and_times() -> None:
    def told(text: str, year: int = 2026) -> tuple[datetime.date | None, time | None]:
        element, = noriladle.parse_elements(text, year)
        return element.date, element.time

    day = datetime.date(2026, 12, 31)
    assert told("11261231") == (day, None)
    assert told("15280200") == (datetime.date(2028, 2, 29), None)
    assert told("17770101") == (datetime.date(1977, 1, 1), None)
    assert told("17770101", 2027) == (datetime.date(2077, 1, 1), None)
    assert told("70032612312359") == (day, datetime.time(23, 59))
    assert told("800826123107") == (day, datetime.time(7))
    assert told("8008261231070809") == (day, datetime.time(7, 8, 9))
    assert told("10261231") == (None, None)
    assert told("0109501101530003") == (None, None)
    assert DATED == Element(ai="17", value="261231", date=day, time=None) != Element("17", "261231")
    old = Element("17", "261231", datetime.date(1926, 12, 31))
    assert noriladle.read_scan("]C11726123110AB", 1960).elements == (old, Element("10", "AB"))
    image = noriladle.draw_label(Kind.GS1128, "17261231", 2026, width=480, height=120)
    assert noriladle.read_dots(image[-60 * 60:-60 * 59], 480, 2026).elements == (DATED,)


def test_reads_what_scanners_send() -> None:
    assert noriladle.read_scan("]E09501101530003", 2026) == READ
    assert noriladle.read_scan(b"]E496385074", 2026) == Answer("]E4", (Element("01", "00000096385074"),))
    elements = (Element("10", "A=B"), DATED)
    for identifier in ("]C1", "]e0", "]d2", "]Q3", "]J1"):
        assert noriladle.read_scan(identifier + "10A=B\x1d17261231", 2026) == Answer(identifier, elements)
        assert noriladle.read_scan(identifier + "^10A=B^17261231\r\n", 2026) == Answer(identifier, elements)
    assert noriladle.read_scan("]I109501101530003", 2026) == Answer("]I1", READ.elements)


def test_reads_a_upce_as_a_scanner_sends_it() -> None:
    """Its eight digits; some are also a GTIN-8, but the product is that of the symbol."""
    assert noriladle.read_scan("]E001234565", 2026) == Answer("]E0", (Element("01", "00012345000065"),))
    assert noriladle.read_scan("]E001200003", 2026).gtin == "00012000000003"
    assert noriladle.read_gtin("01234565") == "00000001234565"


@pytest.mark.parametrize("text", ["https://id.gs1.org/01/9501101530003/10/A%3DB?17=261231", "HTTP://[::1]:80/a/b/01/09501101530003/10/A=B?x=1&17=261231#y"])
def test_reads_digital_links(text: str) -> None:
    elements = (*READ.elements, Element("10", "A=B"), DATED)
    for identifier in (None, "]Q1", "]d1"):
        answer = noriladle.read_scan((identifier or "") + text, 2026)
        assert answer == Answer(identifier, elements)
        assert str(answer) == f"{identifier or '-'} (01)09501101530003(10)A=B(17)261231"


def test_reads_what_has_no_identifier() -> None:
    assert noriladle.read_scan("9501101530003\r", 2026) == Answer(None, READ.elements)
    assert noriladle.read_scan(b"96385074", 2026) == Answer(None, (Element("01", "00000096385074"),))
    for separator in ("^", "\x1d"):
        assert noriladle.read_scan(f"{separator}10A=B{separator}17261231", 2026) == Answer(None, (Element("10", "A=B"), DATED))
    assert str(noriladle.read_scan("^10AB", 2026)) == "- (10)AB"


@pytest.mark.parametrize("text, wanted", [
    ("]E09501101530004", (3, "CheckDigit", None)),
    ("]E009501101530003", (1, "Length", None)),
    ("]E49501101530003", (1, "Length", None)),
    ("]I19501101530003", (1, "Length", None)),
    ("]E0950110153000X", (2, "NotDigit", 12)),
    ("]C117250229", (9, "ValueDate", 0)),
    ("]C1^10A^^", (5, "UnknownAi", 4)),
    ("]C1", (4, "Empty", None)),
    ("]C1" + 193 * "A", (11, "TooLong", None)),
    ("]A010AB", (40, "Kind", None)),
    ("]", (40, "Kind", None)),
    ("", (40, "Kind", None)),
    ("100", (40, "Kind", None)),
    ("01234565", (40, "Kind", None)),
    ("0109501101530003", (1, "Length", None)),
    ("https://id.gs1.org/", (40, "Kind", None)),
    ("https://id.gs1.org/01/09501101530003?10=A+B", (7, "ValueCharacter", 1)),
    ("]Q1gs1.org/01/09501101530003", (40, "Kind", None)),
    ("]Q3https://id.gs1.org/01/09501101530003", (5, "UnknownAi", 0)),
    ("https://id.gs1.org/01/09501101530003/10/\u00e9", (40, "Kind", None)),
])
def test_refuses_what_scanners_send(text: str, wanted: tuple[int, str, int | None]) -> None:
    assert refusal(noriladle.read_scan, text, 2026) == wanted
    assert refusal(noriladle.read_scan, text, 1950) == (42, "Words", None)


@pytest.mark.parametrize("call", [noriladle.read_gtin, noriladle.check_digit])
@pytest.mark.parametrize("text", [9501101530003, None, ["9"], 12])
def test_takes_no_text_but_text(call: Callable[..., object], text: list[str] | int | None) -> None:
    with pytest.raises(TypeError):
        call(text)


def test_draws_a_label_by_its_kinds_name() -> None:
    for kind, text in [("ean13", "9501101530003"), ("itf14", "09501101530003"), ("gs1128", "10AB")]:
        assert noriladle.draw_label(kind, text, 2026) == noriladle.draw_label(Kind[kind.upper()], text, 2026)
    assert refusal(noriladle.draw_label, "ean14", "9501101530003", 2026) == (40, "Kind", None)


def test_draws_a_label() -> None:
    assert noriladle.draw_label(Kind.EAN13, "9501101530003", 2026, module=1, width=113, height=3) == IMAGE
    assert len(noriladle.draw_label(Kind.UPCA, "012345000065", 2026)) == 11 + 60 * 120
    assert len(noriladle.draw_label(Kind.ITF14, "09501101530003", 2026)) == 11 + 60 * 120
    assert refusal(noriladle.draw_label, Kind.UPCE, "9501101530003", 2026) == (26, "LabelKind", 0)
    assert refusal(noriladle.draw_label, Kind.EAN13, "9501101530003", 2026, width=112) == (27, "LabelWidth", 0)
    assert refusal(noriladle.draw_label, Kind.EAN13, "9501101530003", 2026, width=70_000) == (25, "BadGrid", None)
    assert refusal(noriladle.draw_label, Kind.EAN13, "9501101530003", 2026, height=4) == (25, "BadGrid", None)
    assert refusal(noriladle.draw_label, Kind.GS1128, "10A#", 2026) == (7, "ValueCharacter", 0)


def test_a_refusal_says_itself() -> None:
    assert str(Refusal(2, "NotDigit", 12)) == "refused 2 NotDigit 12"
    assert str(Refusal(19, "Blank")) == "refused 19 Blank"
    assert isinstance(Refusal(19, "Blank"), ValueError)
