"""What values say as data, and second looks at lists. Expected values are the standard's examples and codes by hand."""
from __future__ import annotations

import datetime
import json
from decimal import Decimal
from typing import Any, Callable

import pytest

from noriladle import Answer, Element, Refusal, compose, conflicts, draw_label, parse_elements, read_elements, read_gtins, read_scan, read_scans

YEAR = 2026


@pytest.mark.parametrize("ai, value, number, unit, currency", [
    ("3103", "001250", "1.250", "kg", None),
    ("3100", "000002", "2", "kg", None),
    ("3115", "012345", "0.12345", "m", None),
    ("3142", "000250", "2.50", "m²", None),
    ("3201", "000015", "1.5", "lb", None),
    ("3302", "001250", "12.50", "kg", None),
    ("3361", "000012", "1.2", "m³", None),
    ("3372", "000250", "2.50", "kg/m²", None),
    ("3560", "000001", "1", "t oz", None),
    ("3610", "000003", "3", "gal", None),
    ("3695", "100000", "1.00000", "yd³", None),
    ("3902", "1995", "19.95", None, None),
    ("3912", "978001995", "19.95", None, "EUR"),
    ("3920", "5", "5", None, None),
    ("3933", "8401", "0.001", None, "USD"),
    ("3930", "0010", "0", None, None),
    ("3941", "0155", "15.5", "%", None),
    ("3952", "000199", "1.99", None, None),
    ("4330", "009860", "98.60", "°F", None),
    ("4331", "001850-", "-18.50", "°C", None),
    ("10", "123456", None, None, None),
    ("37", "12", "12", None, None),
    ("30", "00000007", "7", None, None),
    ("37", "0", "0", None, None),
    ("310", "123456", None, None, None),
    ("400", "978", None, None, None),
])
def test_numbers(ai: str, value: str, number: str | None, unit: str | None, currency: str | None) -> None:
    element = Element(ai, value)
    assert (element.number, element.unit, element.currency) == (number and Decimal(number), unit, currency)
    # A Decimal keeps its last zeros.
    assert number is None or str(element.number) == number


@pytest.mark.parametrize("ai, value, countries", [
    ("421", "2761AB", ("DE",)), ("422", "528", ("NL",)), ("423", "276528056", ("DE", "NL", "BE")), ("424", "840", ("US",)),
    ("425", "040", ("AT",)), ("426", "756", ("CH",)), ("4307", "FR", ("FR",)), ("4317", "GB", ("GB",)), ("7031", "276ABC", ("DE",)),
    ("422", "281", ()), ("4307", "ZZ", ()), ("7030", "999A", ()), ("427", "BY", ()), ("703", "276", ()),
])
def test_countries(ai: str, value: str, countries: tuple[str, ...]) -> None:
    assert Element(ai, value).countries == countries


@pytest.mark.parametrize("ai, title", [
    ("00", "SSCC"), ("17", "USE BY or EXPIRY"), ("3103", "NET WEIGHT (kg)"), ("95", "INTERNAL"), ("7239", "CERT # s"), ("8110", ""), ("04", ""),
])
def test_titles(ai: str, title: str) -> None:
    assert Element(ai, "1").title == title


def test_a_place() -> None:
    place = Element("4309", "05620000003500000000").place
    assert place == (Decimal("-33.8"), Decimal("-10")) and Element("01", "09501101530003").place is None


def test_answers_are_looked_up() -> None:
    answer = read_scan("]C10109501101530003310300125017261231", YEAR)
    assert answer["17"].date == datetime.date(2026, 12, 31) and answer["3103"].number == Decimal("1.250")
    assert [it.ai for it in answer] == ["01", "3103", "17"] and "01" in answer and "10" not in answer
    with pytest.raises(KeyError):
        answer["10"]
    assert json.loads(answer.to_json()) == {"identifier": "]C1", "gtin": "09501101530003", "elements": [
        {"ai": "01", "title": "GTIN", "value": "09501101530003"},
        {"ai": "3103", "title": "NET WEIGHT (kg)", "value": "001250", "number": "1.250", "unit": "kg"},
        {"ai": "17", "title": "USE BY or EXPIRY", "value": "261231", "date": "2026-12-31"},
    ]}
    told = Answer(None, (Element("423", "276528"), Element("4309", "05620000003500000000"))).to_json()
    assert json.loads(told)["elements"][0]["countries"] == ["DE", "NL"] and json.loads(told)["elements"][1]["place"] == ["-33.8000000", "-10.0000000"]


@pytest.mark.parametrize("pairs, text", [
    ([("01", "09501101530003"), ("10", "AB"), ("17", "261231")], "010950110153000310AB\x1d17261231"),
    ([("10", "AB"), ("01", "09501101530003")], "10AB\x1d0109501101530003"),
    ([Element("10", "AB")], "10AB"),
    ([("20", "11"), ("422", "276"), ("20", "12")], "2011422276\x1d2012"),
])
def test_composed(pairs: list[tuple[str, str] | Element], text: str) -> None:
    assert compose(pairs, YEAR) == text
    assert [(it.ai, it.value) for it in parse_elements(text, YEAR)] == [tuple(it)[:2] if isinstance(it, tuple) else (it.ai, it.value) for it in pairs]


def test_written_for_a_scanner() -> None:
    answer = read_scan("]E09501101530003", YEAR)
    assert answer.scan("]C1") == "]C10109501101530003" and read_scan(answer.scan("]Q3"), YEAR) == Answer("]Q3", answer.elements)
    for identifier in ("]E0", "]d1", "C1", ""):
        with pytest.raises(Refusal, match="refused 40 Kind"):
            answer.scan(identifier)
    made = Answer(None, (Element("10", "A/1"), Element("17", "261231")))
    assert made.scan("]d2", YEAR) == "]d210A/1\x1d17261231"
    with pytest.raises(Refusal, match="refused 6 ValueLength 1"):
        Answer(None, (Element("10", "A"), Element("01", "123"))).scan("]d2")


@pytest.mark.parametrize("text, stem, link", [
    ("]C10109501101530003", "https://id.gs1.org", "https://id.gs1.org/01/09501101530003"),
    ("]C117261231" "10A/1%\x1d" "0109501101530003", "https://example.com/", "https://example.com/01/09501101530003/10/A%2F1%25?17=261231"),
    ("]C10109501101530003" "21S\x1d" "10L\x1d" "22V\x1d" "10M", "http://x.de/01/a", "http://x.de/01/a/01/09501101530003/22/V/10/L/21/S?10=M"),
    ("]C10109501101530003" "235TPX\x1d" "37" "5", "https://x.de", "https://x.de/01/09501101530003/235/TPX?37=5"),
    ("]C10109501101530003" "235TPX\x1d" "10L", "https://x.de", "https://x.de/01/09501101530003/10/L?235=TPX"),
    ("]C14140614141000005" "0109501101530003", "https://x.de", "https://x.de/414/0614141000005?01=09501101530003"),
])
def test_links(text: str, stem: str, link: str) -> None:
    answer = read_scan(text, YEAR)
    assert answer.link(stem) == link
    read = read_scan(link, YEAR)
    assert sorted((it.ai, it.value) for it in read) == sorted((it.ai, it.value) for it in answer)


@pytest.mark.parametrize("text, stem", [
    ("]C110AB", "https://id.gs1.org"), ("]C10109501101530003", ""), ("]C10109501101530003", "ftp://x.de"), ("]C10109501101530003", "https://"),
    ("]C10109501101530003", "https://x.de/?a=1"), ("]C10109501101530003", "https://x.de#a"), ("]C10109501101530003", "https://é.de"),
])
def test_no_link(text: str, stem: str) -> None:
    with pytest.raises(Refusal, match="refused 40 Kind"):
        read_scan(text, YEAR).link(stem)


def test_many_texts() -> None:
    texts: list[str | bytes] = ["]C110AB", b"]E09501101530003", "]C117261331", "10AB\n17", "", "]C110A\r"]
    told = list(read_scans(iter(texts), YEAR))
    assert [str(it) for it in told] == ["]C1 (10)AB", "]E0 (01)09501101530003", "refused 9 ValueDate 0", "refused 40 Kind", "refused 40 Kind", "]C1 (10)A"]
    assert isinstance(told[2], Refusal) and told[2].ai == "17" and told[2].remedy
    assert [str(it) for it in read_gtins(["96385074", "1", "9501101530003\r", "9501101530003"] * 1000)] == [
        "00000096385074", "refused 1 Length", "refused 2 NotDigit 13", "09501101530003"] * 1000
    assert [str(it) for it in read_scans(["]C110AB"], 1900)] == ["refused 42 Words"] and not list(read_scans([]))


@pytest.mark.parametrize("pairs, told", [
    ([], "refused 4 Empty"),
    ([("10", "AB"), ("17", "261331")], "refused 9 ValueDate 1"),
    ([("10", "AB"), ("04", "1"), ("10", "C")], "refused 5 UnknownAi 1"),
    ([("01", "0950110153000")], "refused 6 ValueLength 0"),
    ([("01", "09501101530003"), ("20", "113"), ("10", "A")], "refused 6 ValueLength 1"),
    ([("17", "2612311"), ("10", "A")], "refused 6 ValueLength 0"),
    ([("10", "A\x1d17261231")], "refused 7 ValueCharacter 0"),
    ([("10", "A\x1d")], "refused 7 ValueCharacter 0"),
    ([("20", "11"), ("1", "0AB")], "refused 5 UnknownAi 1"),
    ([("", "")], "refused 5 UnknownAi 0"),
    ([("10", "A" * 21)], "refused 6 ValueLength 0"),
    ([("10", "A" * 191)], "refused 6 ValueLength 0"),
    ([("91", "A" * 90), ("92", "A" * 90), ("93", "A" * 9)], "refused 11 TooLong"),
])
def test_not_composed(pairs: list[tuple[str, str]], told: str) -> None:
    with pytest.raises(Refusal) as raised:
        compose(pairs, YEAR)
    assert str(raised.value) == told


@pytest.mark.parametrize("text, ais, ai", [
    ("0109501101530003" + "17261331", ["01"], "17"),
    ("10AB\x1d04", ["10"], None),
    ("17261331", [], "17"),
    ("10AB\x1d3103", ["10"], "3103"),
    ("", [], None),
])
@pytest.mark.parametrize("read", [read_elements, parse_elements])
def test_what_stands_before_a_fault(read: Callable[[str, int], object], text: str, ais: list[str], ai: str | None) -> None:
    with pytest.raises(Refusal) as raised:
        read(text, YEAR)
    assert ([it.ai for it in raised.value.before], raised.value.ai) == (ais, ai)
    assert raised.value.remedy


@pytest.mark.parametrize("text, ais, ai", [
    ("]C110AB^17261331", ["10"], "17"), ("]C1^10AB^17261331", ["10"], "17"), ("]C1^10A^^", ["10"], None), ("]d210AB\x1d17261331", ["10"], "17"), ("]Q304", [], None), ("]E09501101530004", [], None),
    ("https://id.gs1.org/01/09501101530003/10/AB?17=261331", [], None),
])
def test_what_stands_before_a_fault_of_a_scan(text: str, ais: list[str], ai: str | None) -> None:
    with pytest.raises(Refusal) as raised:
        read_scan(text, YEAR)
    assert ([it.ai for it in raised.value.before], raised.value.ai) == (ais, ai)


@pytest.mark.parametrize("ais, told", [
    (["01", "10", "17"], []),
    (["02", "37"], []),
    (["02"], ["02 needs 37"]),
    (["01", "37"], ["01 excludes 37", "37 needs 02 or 8026"]),
    (["01", "3103", "3102"], ["3103 excludes 3102", "3102 excludes 3103"]),
    (["01", "250", "21"], []),
    (["01", "250"], ["250 needs 21"]),
    (["254"], ["254 needs 414"]),
    (["01", "3922"], ["3922 needs 30 or 31nn or 32nn or 35nn or 36nn"]),
    (["01", "3922", "3103"], []),
    (["8020"], ["8020 needs 415"]),
    (["415", "8020"], []),
    (["99", "99"], []),
    (["04"], []),
])
def test_what_elements_ask_of_others(ais: list[str], told: list[str]) -> None:
    assert [str(it) for it in conflicts(Element(ai, "1") for ai in ais)] == told


@pytest.mark.parametrize("ai, value, told", [
    ("422", "276", []), ("422", "281", ["422: 281 is no country"]), ("423", "276281", ["423: 281 is no country"]),
    ("4307", "DE", []), ("4307", "ZZ", ["4307: ZZ is no country"]), ("7030", "999A", []), ("7030", "281A", ["7030: 281 is no country"]),
    ("3912", "9781", []), ("3912", "0011", ["3912: 001 is no currency"]), ("401", "9521A", []), ("401", "A1", ["401: A1 is no GS1 Company Prefix"]),
    ("01", "09501101530003", []), ("99", "281", []), ("01", "09783161484100", []), ("01", "09770317847001", []),
    ("01", "02012345678903", ["01: 02012345678903 is no number of a trade item"]), ("02", "09812345678902", ["02: 09812345678902 is no number of a trade item"]),
    ("8006", "000000000000000102", ["8006: 00000000000000 is no number of a trade item"]),
])
def test_codes_in_no_list(ai: str, value: str, told: list[str]) -> None:
    assert [str(it) for it in conflicts([Element(ai, value)]) if it.kind != "needs"] == told


def test_conflicts_of_an_answer() -> None:
    answer = read_scan("]C1" "17261231" "0109501101530003" "17271231" "17261231" "10" + "A" * 20, YEAR)
    found = conflicts(answer)
    assert [str(it) for it in found] == ["17: 261231 and 271231 differ", "17: 271231 and 261231 differ"]
    assert [(it.kind, it.element, it.other, it.text) for it in found] == [
        ("differs", answer.elements[2], answer.elements[0], ""), ("differs", answer.elements[3], answer.elements[2], "")]
    assert conflicts(answer.elements) == found and conflicts([]) == [] and conflicts(Answer(None, ())) == []
    assert conflicts([Element("02", "1")]) == [("needs", Element("02", "1"), None, "37")]
    for long in ([Element("10", "A")] * 49, [Element("10", "A" * 95)] * 2):
        with pytest.raises(Refusal) as raised:
            conflicts(long)
        assert raised.value.name == "TooLong"
    with pytest.raises(Refusal) as raised:
        conflicts([Element("01", "1"), Element("10", "é")])
    assert (raised.value.name, raised.value.place) == ("ValueCharacter", 1)


def test_the_year_is_this_year_unless_one_is_given() -> None:
    import datetime
    import noriladle
    year = datetime.date.today().year
    text = f"17{(year + 30) % 100:02}1231"
    for answer in (noriladle.read_scan(f"]C1{text}"), noriladle.read_scan(f"]C1{text}", year), noriladle.read_scan(f"]C1{text}", None)):
        assert answer["17"].date == datetime.date(year + 30, 12, 31)
    assert noriladle.parse_elements(text)[0].date == datetime.date(year + 30, 12, 31)
    symbol = noriladle.label_symbol("gs1128", text)
    row = [symbol.quiet_left, *symbol.widths, symbol.quiet_right]
    assert noriladle.read_row(row) == noriladle.find(row)[0].answer == noriladle.read_row(row, year)
    assert noriladle.draw_label("gs1128", text) == noriladle.draw_label("gs1128", text, year)
    assert noriladle.read_elements(text) == f"(17){text[2:]}"
    wrong: Any = "2026"
    with pytest.raises(TypeError):
        noriladle.read_scan(f"]C1{text}", wrong)


def test_a_missing_extra_is_named() -> None:
    import subprocess
    import sys
    script = "import sys; sys.modules['reportlab'] = None\ntry:\n    import noriladle.labels._pdf\nexcept ImportError as error:\n    print(error)"
    told = subprocess.run([sys.executable, "-c", script], capture_output=True, text=True, check=True)
    assert told.stdout == "labels as PDF need reportlab: pip install 'noriladle[labels]'\n"
