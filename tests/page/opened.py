"""Opens files in the page, in Chromium and Firefox: spreadsheets, lists in other encodings, lists that ask, and lists to correct.

Usage: opened.py WORK. What the page takes from a file is compared with what the command takes; one list that was saved in
many ways must give the same outputs, byte for byte. Its last line is the counts.
"""
from __future__ import annotations

import base64
import csv
import glob
import io
import json
import os
import random
import sys
import time
import zipfile
from typing import Any, Callable, Iterable, Mapping

import openpyxl

from browser import Browser
from comparisons import before_others, ended, same, texts
from firefox import Firefox
from readback import ROOT, articles, listed
from same_lists import by_python

WORK = sys.argv[1]
URL = f"file://{ROOT}/page/index.html"
SAVED = f"{ROOT}/tests/labels/saved"
TEXTS = texts()
SECONDS, MEGABYTES = 2, 200


def page_text(language: str, key: str, *values: object) -> str:
    text = TEXTS[language]["page"].get(key) or TEXTS[language]["faults"][key]
    for at, value in enumerate(values):
        text = text.replace(f"{{{at}}}", str(value))
    return text


def data_of(path: str) -> bytes:
    with open(path, "rb") as file:
        return file.read()


def called(page: Browser | Firefox, call: str, data: bytes) -> Any:
    """What a function of the page answers to bytes."""
    return page.value(f"{call}(Uint8Array.from(atob('{base64.b64encode(data).decode()}'), (sign) => sign.charCodeAt(0)))")


def drawn(person: Browser | Firefox, what: Callable[[], object]) -> None:
    """Does something, and waits until the page has drawn its labels or says what is wrong with a file."""
    person.value("document.getElementById('labels-told').textContent = '…', document.getElementById('list-fault').textContent = ''")
    what()
    person.until("document.getElementById('labels-told').textContent !== '…' || document.getElementById('list-fault').textContent", 60)
    person.until("!/…$/.test(document.getElementById('labels-told').textContent) || document.getElementById('list-fault').textContent", 120)


def take(person: Browser | Firefox, path: str) -> None:
    """Opens a file."""
    drawn(person, lambda: person.files("#list-file", path))


def enter(person: Browser | Firefox, text: str) -> None:
    """Pastes a list over the one that stands there."""
    drawn(person, lambda: person.fill("#list", text))


# ---- what the page takes from a file

def as_the_command(page: Browser | Firefox) -> list[str]:
    """All saved spreadsheets: the page and the command take the same articles, and say the same of the others."""
    paths = sorted(path for path in glob.glob(f"{SAVED}/**", recursive=True) if path.endswith((".xlsx", ".ods", ".xls", ".csv")))
    files = [path for path in paths if not path.endswith("expected.csv")]
    for path in files:
        data = data_of(path)
        same(f"{os.path.basename(path)}, beside the command", called(page, "toldOf", data), by_python(data))
    return files


def outputs(page: Browser | Firefox) -> Any:
    return page.value("""(async () => {
        const { stock, dpi, cell, labels } = shop.made, dots = DOTS_IN_MM[dpi], pages = allPages();
        const png = await pngOfPage(pages[0], stock, dpi), pdf = await pdfOf(pages, stock, dots);
        const said = [...pages.map((one) => svgOfPage(one, stock, dots)), ...labels.map((one) => zplOfPage([{ left: 0, top: 0, drawing: one }], cell, one.item.copies))];
        return [said.join('\\n'), ...[png, pdf].map((bytes) => Array.from(bytes, (byte) => String.fromCharCode(byte)).join(''))];
    })()""")


def ways(page: Browser | Firefox) -> None:
    """One list saved in many ways: the page's SVG, ZPL, PNG and PDF equal each other byte for byte."""
    paths, first = sorted(glob.glob(f"{SAVED}/ways/*")), None
    same("ways to save a list", len(paths) >= 10, True)
    for path in paths:
        take(page, path)
        made = outputs(page)
        first = first or made
        same(f"the outputs of {os.path.basename(path)}", [one == other for one, other in zip(made, first)], [True, True, True])
        same(f"the labels of {os.path.basename(path)}", page.value("[shop.made.labels.length, shop.made.faults.length]"), [7, 0])


def packed(parts: Mapping[str, bytes]) -> bytes:
    made = io.BytesIO()
    with zipfile.ZipFile(made, "w", zipfile.ZIP_DEFLATED) as file:
        for name, data in parts.items():
            file.writestr(name, data)
    return made.getvalue()


def changed(path: str, part: str, change: Callable[[bytes], bytes | None]) -> bytes:
    """A spreadsheet with one of its parts changed, or left out."""
    with zipfile.ZipFile(path) as file:
        parts = {name: change(file.read(name)) if name == part else file.read(name) for name in file.namelist()}
    return packed({name: data for name, data in parts.items() if data is not None})


def with_doctype(data: bytes) -> bytes:
    at = data.index(b"?>") + 2
    return data[:at] + b'<!DOCTYPE x [<!ENTITY a SYSTEM "file:///etc/hostname">]>' + data[at:]


def repeated(element: bytes, times: int) -> Callable[[bytes], bytes]:
    """Puts a repetition into the last such element before an article's name."""
    def change(data: bytes) -> bytes:
        at = data.rindex(b"<table:table-" + element, 0, data.index(b"Oat biscuits"))
        name = b"rows" if element == b"row" else b"columns"
        end = at + len(b"<table:table-" + element)
        return data[:end] + b' table:number-%s-repeated="%d"' % (name, times) + data[end:]
    return change


def far_cells(data: bytes) -> bytes:
    """Twenty thousand lines whose only cell is in the last column."""
    cell = b'<row r="%d"><c r="XFD%d" t="inlineStr"><is><t>far</t></is></c></row>'
    return data.replace(b"</sheetData>", b"".join(cell % (line, line) for line in range(1_000, 21_000)) + b"</sheetData>")


def harmful() -> dict[str, tuple[bytes, str]]:
    """Archives that are made to harm, with what the page says of each."""
    xlsx, ods, sheet = f"{SAVED}/two-sheets.xlsx", f"{SAVED}/two-sheets.ods", "xl/worksheets/sheet1.xml"
    padded = lambda data: data[:data.index(b"?>") + 2] + b" " * 300_000_000 + data[data.index(b"?>") + 2:]
    return {
        "bomb.xlsx": (changed(xlsx, sheet, padded), "sheetLarge"), "bomb.ods": (changed(ods, "content.xml", padded), "sheetLarge"),
        "gaps.xlsx": (changed(xlsx, sheet, far_cells), "sheetLarge"), "doctype.xlsx": (changed(xlsx, "xl/sharedStrings.xml", with_doctype), "sheetDamaged"),
        "doctype.ods": (changed(ods, "content.xml", with_doctype), "sheetDamaged"),
        "rows.ods": (changed(ods, "content.xml", repeated(b"row", 1_000_000)), "sheetLarge"),
        "columns.ods": (changed(ods, "content.xml", repeated(b"cell", 16_384)), "sheetDamaged"),
        "no-sheet.xlsx": (changed(xlsx, sheet, lambda data: None), "sheetDamaged"),
        "half.xlsx": (changed(xlsx, sheet, lambda data: data[:len(data) // 2]), "sheetDamaged"),
        "no-xml.ods": (changed(ods, "content.xml", lambda data: bytes(99)), "sheetDamaged"),
        "other.zip": (packed({"a.txt": b"x"}), "packed"),
    }


def refused(page: Browser, slower: float) -> None:
    """Harmful archives: refused by name, within limits of time and memory."""
    for name, (data, key) in harmful().items():
        path = os.path.join(WORK, name)
        with open(path, "wb") as file:
            file.write(data)
        begun = time.time()
        take(page, path)
        said, passed = page.text("list-fault"), time.time() - begun
        wanted = page_text("en", key)
        same(f"what is said of {name}", said, f"{name}: {wanted[0].upper()}{wanted[1:]}.")
        used = {it["name"]: it["value"] for it in page.call("Performance.getMetrics")["metrics"]}["JSHeapTotalSize"] / 1e6
        same(f"{name}, within the limits", (passed <= SECONDS * slower, used <= MEGABYTES), (True, True))
        os.remove(path)


def damaged(page: Browser | Firefox, count: int) -> None:
    """Archives with damaged bytes: read as the command reads them, or as if they were whole, or refused. Nothing else is thrown."""
    names = ("libreoffice.xlsx", "libreoffice.ods", "openpyxl.xlsx")
    chance, sources = random.Random(4), [data_of(f"{SAVED}/ways/{name}") for name in names]
    whole, read = [by_python(source) for source in sources], 0
    for number in range(count):
        data = bytearray(sources[number % 3])
        if number % 4 == 0:
            del data[chance.randrange(len(data)):]
        for _ in range(chance.randrange(1, 4) if number % 4 else 0):
            data[chance.randrange(len(data))] = chance.randrange(256)
        told, wanted = called(page, "toldOf", bytes(data)), by_python(bytes(data))
        is_same = told in (wanted, whole[number % 3]) or not told["articles"] and bool(told["faults"])
        read += bool(told["articles"])
        if not is_same:
            same(f"damaged archive {number}", told, wanted)
    same("damaged archives, of which some are read", (0 < read < count, count), (True, count))


def with_limits() -> None:
    """What has limits of time and memory, in a browser that goes before other work of the machine."""
    with before_others() as slower:
        page = Browser(URL)
        try:
            page.call("Performance.enable")
            in_time(page, slower)
            refused(page, slower)
        finally:
            page.close()


def long_sheet() -> str:
    """A spreadsheet of 5,000 articles with six columns."""
    book = openpyxl.Workbook()
    sheet = book.active
    sheet.append(["EAN", "Artikel", "Preis", "EK", "Bestand", "Lieferant"])
    for number in range(5_000):
        digits = f"40123450{number:04}"
        check = -sum(int(digit) * (3 if at % 2 else 1) for at, digit in enumerate(digits)) % 10
        sheet.append([int(f"{digits}{check}"), f"Artikel {number}", 1 + number / 100, 0.5, number % 50, f"Lieferant {number % 9}"])
    path = os.path.join(WORK, "long.xlsx")
    book.save(path)
    return path


def in_time(page: Browser | Firefox, slower: float) -> None:
    """5,000 lines of .xlsx are read within 3 s."""
    data, times = data_of(long_sheet()), []
    for _ in range(6):
        count, passed = called(page, """(async (bytes) => {
            const from = performance.now(), all = articlesOf(tableOf(await fileRead(bytes)));
            return [all.filter(({ fault }) => !fault).length, performance.now() - from];
        })""", data)
        times.append(passed / 1000)
        same("articles of a long spreadsheet", count, 5_000)
    print(f"5,000 lines of .xlsx: {min(times):.1f} s; load {os.getloadavg()[0]:.0f}")
    same("5,000 lines within 3 s", min(times) <= 3 * slower, True)


# ---- questions and corrections, as a person meets them

ASKS = "EAN;Artikel;Preis A;Preis B\n4012345010008;Haferkekse;2,90;2,70\n4012345010374;Roggenbrot;3,59;3,49\n"


def questions(person: Browser | Firefox, language: str) -> None:
    """A list with two prices: by the keyboard alone a person chooses the second, and then says that labels have none."""
    said = lambda key, *values: page_text(language, key, *values)
    person.click(f"#languages [lang={language}]")
    person.click("#tab-labels")
    enter(person, ASKS)
    same(f"the question, {language}", "Preis A" in person.text("question-text") and "Preis B" in person.text("question-text"), True)
    same(f"what stands at the sheet, {language}", person.text("labels-told"), said("oneQuestion"))
    same(f"what can be printed, {language}", person.value("document.getElementById('print').disabled"), True)
    person.value("document.getElementById('question-select').focus(), 1")
    same(f"the name of the choice, {language}", person.value("document.getElementById('question-select').labels[0].innerText.trim().split('\\n')[0]"), said("columnChoice"))
    for key in ("ArrowDown", "ArrowDown", "Tab", "Enter"):
        person.press(key)
    person.until("!document.getElementById('print').disabled")
    same(f"the prices of the chosen column, {language}", prices_on(person), ["2,70", "3,49"])
    same(f"the question is gone, {language}", person.value("document.getElementById('asks').hidden"), True)
    enter(person, ASKS.replace("Preis B", "Preis C"))
    same(f"another heading asks again, {language}", "Preis C" in person.text("question-text"), True)
    person.click("#no-price")
    person.until("!document.getElementById('print').disabled")
    same(f"labels without a price, {language}", prices_on(person), [])
    person.click("#no-price")
    person.until("document.getElementById('print').disabled")
    enter(person, "EAN;Artikel;EK\n4012345010008;Haferkekse;1,20\n")
    same(f"a purchase price is none, {language}", ("EK" in person.text("question-text"), person.value("document.getElementById('print').disabled")), (True, True))
    enter(person, "EAN;Artikel;Preis\n4012345010008;Probe;0,00\n")
    same(f"a price of zero, {language}", person.value("document.getElementById('fault-list').children.length"), 1)
    person.click("#free")
    person.until("!document.getElementById('print').disabled")
    same(f"a free article, {language}", prices_on(person), ["0,00"])


def prices_on(person: Browser | Firefox) -> list[str]:
    """The prices on the sheet that is shown."""
    texts_shown = person.value("[...document.querySelectorAll('#paper text')].map((one) => one.textContent)")
    return [text for text in texts_shown if "," in text]


def encodings(person: Browser | Firefox, language: str) -> None:
    """A list whose bytes fit two code pages: the page shows a line in each, and reads it as a person says."""
    path = os.path.join(WORK, "asks.csv")
    with open(path, "wb") as file:
        file.write("4012345010008;Jalape\xf1o;2,90\n".encode("cp1252"))
    take(person, path)
    options = person.value("[...document.getElementById('question-select').options].map((one) => one.text)")
    same(f"the lines to choose from, {language}", [any(word in option for option in options) for word in ("Jalapeño", "Windows-1252")], [True, True])
    drawn(person, lambda: person.value("""(() => {
        const list = document.getElementById('question-select');
        list.value = 'cp1252';
        document.getElementById('question').requestSubmit();
    })()"""))
    same(f"the list in the chosen encoding, {language}", "Jalapeño" in person.value("document.getElementById('list').value"), True)
    with open(path, "wb") as file:
        file.write("EAN;Nazwa;Cena\n4012345010008;Łosoś wędzony żółty;12,90\n".encode("cp1250"))
    take(person, path)
    same(f"a Polish list, {language}", ("Łosoś wędzony żółty" in person.value("document.getElementById('list').value"),
                                        page_text(language, "readAs", "Windows-1250")[1:] in person.text("list-notes")), (True, True))
    os.remove(path)


def corrections(person: Browser | Firefox, language: str, folder: str) -> None:
    """Lists to correct: what is left out is saved, all numbers that are clearly meant are put right, and the list is saved."""
    made = articles(5)
    wrong = made[3][0][:-1] + str((int(made[3][0][-1]) + 1) % 10)
    rest = listed(made).replace(made[3][0], wrong) + "96385074;Kaugummi;auf Anfrage\n"
    mistakes = {made[0][0]: f'"=""{made[0][0]}"""', made[1][0]: f"EAN: {made[1][0]}", made[2][0]: made[2][0].replace("0", "O", 1)}
    text = rest
    for number, mistake in mistakes.items():
        text = text.replace(number, mistake)
    enter(person, text)
    same(f"what is left out, {language}", person.value("document.getElementById('fault-list').children.length"), 5)
    data = saved(person, "#save-faults", os.path.join(folder, "left-out.csv"))
    rows = list(csv.reader(io.StringIO(data.decode("utf-8-sig"))))[1:]
    same(f"the lines that are saved, {language}", [row[0] for row in rows], ["2", "3", "4", "5", "7"])
    same(f"the numbers that are saved, {language}", [row[1].lstrip("'") for row in rows],
         [f'="{made[0][0]}"', *list(mistakes.values())[1:], wrong, "96385074"])
    person.click("#fix-all")
    person.until("document.getElementById('fault-list').children.length === 2")
    same(f"the corrected list, {language}", person.value("document.getElementById('list').value").replace('"', ""), rest)
    kept = saved(person, "#save-list", os.path.join(folder, "list.csv")).decode("utf-8-sig")
    same(f"the saved list, {language}", kept.replace("\r\n", "\n").replace('"', ""), rest)


def saved(person: Browser | Firefox, button: str, path: str) -> bytes:
    """What a button saves. Removes the file."""
    person.click(button)
    limit = time.time() + 60
    while not (os.path.exists(path) and os.path.getsize(path)):
        if time.time() > limit:
            raise TimeoutError(path)
        time.sleep(0.1)
    time.sleep(0.5)
    data = data_of(path)
    os.remove(path)
    return data


def shown(person: Browser | Firefox, paths: Iterable[str]) -> list[list[str]]:
    """What a person reads of each file."""
    told = []
    for path in paths:
        drawn(person, lambda: person.value("document.getElementById('clear').click(), 1"))
        take(person, path)
        told.append([person.text(name) for name in ("labels-told", "list-fault", "list-notes", "fault-list")])
    return told


def main() -> bool:
    folder = os.path.join(os.path.abspath(WORK), "saved")
    os.makedirs(folder, exist_ok=True)
    page = Browser(URL, width=1280, height=900)
    try:
        page.value(f"core.year = 2026, {data_of(f'{ROOT}/tests/page/told.js').decode()}; 1")
        page.downloads(folder)
        files = as_the_command(page)
        ways(page)
        damaged(page, 300)
        for language in TEXTS:
            questions(page, language)
            encodings(page, language)
            corrections(page, language, folder)
        page.click("#languages [lang=en]")
        wanted = shown(page, files)
        same("what scripts complained of", page.complaints, [])
    finally:
        page.close()
    with_limits()
    other = Firefox(URL, folder=folder, width=1280, height=900)
    try:
        for language in TEXTS:
            questions(other, language)
            encodings(other, language)
            corrections(other, language, folder)
        other.click("#languages [lang=en]")
        for path, one, two in zip(files, shown(other, files), wanted):
            same(f"{os.path.basename(path)} in Firefox, as in Chromium", one, two)
    finally:
        other.close()
    return ended()


if __name__ == "__main__":
    sys.exit(main())
