"""Does the three tasks in Chromium and Firefox as a person does, by keys, mouse and files, in both languages, at a desk and on a telephone.

Usage: tasks.py WORK. Other programs read back the printed and saved labels. Its last line is the counts.
"""
from __future__ import annotations

import csv
import io
import json
import os
import re
import sys
import time
from typing import Any, Sequence

from browser import Browser
from comparisons import ended, same, texts
from firefox import Firefox
from readback import ROOT, STOCKS, articles, files_of, listed, pages_of_pdf, pages_of_svg, pages_of_zpl, read_back, read_by_command
from PIL import Image

WORK = sys.argv[1]
URL = f"file://{ROOT}/page/index.html"
TEXTS = texts()
COUNT = 20


def filled(text: str, *values: object) -> str:
    for i, value in enumerate(values):
        text = text.replace(f"{{{i}}}", str(value))
    return text


class Person:
    """A person who does the tasks in a browser, and reads its answers in a language."""

    def __init__(self, browser: Browser | Firefox, name: str, language: str) -> None:
        self.browser, self.name, self.language, self.folder = browser, name, language, os.path.join(WORK, re.sub(r"\W+", "-", name))
        os.makedirs(self.folder, exist_ok=True)
        browser.downloads(self.folder)
        self.browser.click(f"#languages [lang={language}]")

    def same(self, what: str, got: object, wanted: object) -> None:
        same(f"{self.name}: {what}", got, wanted)

    def page(self, key: str, *values: object) -> str:
        return filled(TEXTS[self.language]["page"][key], *values)

    def fault(self, key: str, *values: object) -> str:
        text = filled(TEXTS[self.language]["faults"][key], *values)
        return text[0].upper() + text[1:] + "."

    def waits(self, what: str, name: str, wanted: str, seconds: float = 60) -> None:
        """Waits until an element says something, and compares what it says in the end."""
        limit = time.time() + seconds
        while True:
            said = self.browser.text(name).strip()
            if said == wanted or time.time() > limit:
                return self.same(what, said, wanted)
            time.sleep(0.1)

    def saved(self, button: str, name: str) -> str:
        """What a button saves. Removes the file."""
        path = os.path.join(self.folder, name)
        self.browser.click(button)
        limit = time.time() + 240
        while not (os.path.exists(path) and os.path.getsize(path)):
            if time.time() > limit:
                raise TimeoutError(f"{self.name}: {path}")
            time.sleep(0.1)
        # The browser may still be writing.
        time.sleep(0.5)
        kept = os.path.join(self.folder, f"kept-{len(os.listdir(self.folder))}-{name}")
        os.rename(path, kept)
        return kept

    def chooses(self, name: str, value: str) -> None:
        """Chooses an entry of a list."""
        self.browser.value(f"""(() => {{
            const list = document.getElementById({json.dumps(name)});
            list.value = {json.dumps(value)};
            list.dispatchEvent(new Event('change', {{ bubbles: true }}));
        }})()""")


def labels(person: Person, stocks: Sequence[str]) -> None:
    """A list with errors: the page reports them, the person corrects them, and prints, saves and reads back the sheets."""
    browser, made = person.browser, articles(COUNT)
    right, wrong = made[3][0], made[3][0][:-1] + str((int(made[3][0][-1]) + 1) % 10)
    browser.click("#tab-labels")
    text = listed(made).replace(right, wrong) + "4,01235E+12;Saft;1,00\n;ohne;2,00\n"
    browser.fill("#list", text)
    person.waits("labels of a list with faults", "labels-told", f"{person.page('labelCount', COUNT - 1)} {person.page('onSheets1')} · {person.page('leftOut', 2)}")
    person.same("a line without a number", browser.text("list-notes"), person.fault("passed1", 1, COUNT + 3))
    told = browser.text("fault-list")
    for what, fault in (("a wrong digit", person.fault("checkDigit", right)), ("a rounded number", person.fault("rounded"))):
        person.same(f"what is told of {what}", fault in told, True)
    browser.click("#fault-list button.small")
    person.waits("a number that was put right", "labels-told", f"{person.page('labelCount', COUNT)} {person.page('onSheets1')} · {person.page('leftOut1')}")
    browser.fill("#list", listed(made))
    for stock in stocks:
        *_, (wide, high), dpi = STOCKS[stock]
        is_roll, first = stock == "57x32", 1 if stock == "57x32" else 2
        person.chooses("stock", stock)
        person.chooses("dpi", "600" if dpi == 600 else "0")
        # Small labels have no room for a large price.
        person.chooses("look", "bars" if stock == "L7651" else "price")
        if not is_roll:
            browser.fill("#first", "2")
        sheets = person.page("onRoll") if is_roll else person.page("onSheets1")
        # What stands there may be what was told of the stock before. (Firefox shows a test no promise of the page.)
        browser.value("document.made?.then(() => true)")
        person.waits(f"labels on {stock}", "labels-told", f"{person.page('labelCount', COUNT)} {sheets}")
        wanted = f"noriladle {COUNT}, zbarimg {COUNT}"
        printed = browser.printed(wide, high)
        person.same(f"labels printed on {stock}", read_back(stock, pages_of_pdf(printed, dpi), made, first), wanted)
        pdf = files_of(person.saved("#pdf", "labels.pdf"))[0]
        person.same(f"labels saved as PDF for {stock}", read_back(stock, pages_of_pdf(pdf, dpi), made, first), wanted)
        person.same(f"`noriladle read` of the PDF for {stock}", read_by_command(pdf), sorted(number.zfill(14) for number, _, _ in made))
        pngs = files_of(person.saved("#png", "labels-png.zip" if is_roll else "labels.png"))
        person.same(f"labels saved as PNG for {stock}", read_back(stock, [Image.open(io.BytesIO(png)).convert("L") for png in pngs], made, first), wanted)
        svgs = files_of(person.saved("#svg", "labels-svg.zip" if is_roll else "labels.svg"))
        person.same(f"labels saved as SVG for {stock}", read_back(stock, pages_of_svg(svgs, dpi), made, first), wanted)
        if is_roll:
            zpl = files_of(person.saved("#zpl", "labels.zpl"))[0].decode()
            person.same("labels saved as ZPL", read_back(stock, pages_of_zpl(zpl), made), wanted)
    two_across(person, made)
    person.chooses("stock", "3474")
    person.chooses("dpi", "0")


def two_across(person: Person, made: list[tuple[str, str, str]]) -> None:
    """A roll with two labels across, by its measures; and a page of edges."""
    browser = person.browser
    for name, value in (("stock", "own"), ("own-page", "roll"), ("dpi", "0")):
        person.chooses(name, value)
    for name, value in zip(("columns", "rows", "width", "height", "gap-x", "gap-y"), ("2", "1", "50", "25", "2", "0")):
        browser.fill(f"#own-{name}", value)
    person.waits("labels on a roll with two across", "sizes", person.page("sizeRoll", "50", "25", 203))
    browser.value("document.made?.then(() => true)")
    person.waits("how many they are", "labels-told", f"{person.page('labelCount', COUNT)} {person.page('onRoll')}")
    zpl = files_of(person.saved("#zpl", "labels.zpl"))[0].decode()
    person.same("rows of labels saved as ZPL", read_back("own", pages_of_zpl(zpl), made), f"noriladle {COUNT}, zbarimg {COUNT}")
    if isinstance(browser, Firefox):
        return  # It does not let a test take the place of its printing.
    browser.value("(window.print = () => { preparePrint(); window.seen = document.querySelectorAll('#printed path').length; }, 1)")
    browser.value("at('align').closest('details').open = true")
    browser.click("#align")
    person.same("the edges that are printed", browser.value("[window.seen, document.querySelector('#printed path').getAttribute('d').split('M').length - 1].join()"), "2,4")
    browser.value("(document.getElementById('printed').replaceChildren(), 1)")


def checks(person: Person) -> None:
    """A code of a box, a Digital Link and a list: what each says, as it is shown and as it is saved."""
    browser, titles = person.browser, TEXTS[person.language]["elements"]
    browser.click("#tab-check")
    browser.fill("#texts", "(01)09501101530003(17)261231(10)LOT7(3103)001250(422)276")
    person.waits("a code of a box", "check-told", person.page("rightCount1"))
    told = browser.text("answers")
    country, weight = ("Deutschland", "1,250 kg") if person.language == "de" else ("Germany", "1.250 kg")
    for word in (titles["01"], "EAN-13 9501101530003", titles["17"], "2026", titles["10"], "LOT7", titles["310"], weight, titles["422"], country):
        person.same(f"{word} in words", word in told, True)
    browser.fill("#texts", "4012345010008\n4012345010375\n]C110AB^17261231\nhttps://id.gs1.org/01/09501101530003/10/LOT7?17=261231\n+C110AB\nhttps://example.com/x\n")
    person.waits("a list", "check-told", f"{person.page('rightCount', 3)} · {person.page('wrongCount', 3)}")
    told = browser.text("answers")
    for fault in (person.fault("checkDigit", "4012345010374"), person.fault("layout"), person.fault("noLink")):
        person.same(f"what to do: {fault}", fault in told, True)
    with open(person.saved("#check-json", "checked.json"), encoding="utf-8") as file:
        saved = json.load(file)
    pairs = [[(it["ai"], it["value"], it.get("date")) for it in one.get("elements", [])] for one in saved]
    person.same("the elements that are saved", pairs, [[("01", "04012345010008", None)], [], [("10", "AB", None), ("17", "261231", "2026-12-31")],
                [("01", "09501101530003", None), ("10", "LOT7", None), ("17", "261231", "2026-12-31")], [], []])
    person.same("the GTINs that are saved", [one.get("gtin") for one in saved], ["04012345010008", None, None, "09501101530003", None, None])
    with open(person.saved("#check-csv", "checked.csv"), encoding="utf-8-sig", newline="") as file:
        rows = list(csv.reader(file))
    person.same("the lines that are saved", [row[0] for row in rows[1:]], ["1", "2", "3", "3", "4", "4", "4", "5", "6"])
    browser.click("#answers .bad button")
    person.waits("a number that was put right", "check-told", f"{person.page('rightCount', 4)} · {person.page('wrongCount', 2)}")


def reads(person: Person, pictures: Sequence[str]) -> None:
    """Several pictures at once, one of them no picture: as cards, as a table and as a file."""
    browser = person.browser
    browser.click("#tab-read")
    browser.files("#file", *pictures)
    codes, many = person.page("codeCount", 6 + COUNT), person.page("pictureCount", 2)
    person.waits("what the pictures say", "told", person.page("readCount", codes, many))
    person.same("the file that is none", "words.txt" in browser.text("read-fault"), True)
    browser.click("#view-table")
    rows = browser.value("[...document.querySelectorAll('#read-rows tr')].map((row) => row.innerText)")
    person.same("the rows of the table", len(rows), 6 + COUNT)
    with open(person.saved("#read-csv", "read.csv"), encoding="utf-8-sig", newline="") as file:
        numbers = {row[5] for row in csv.reader(file)}
    person.same("the numbers that are saved", {number.zfill(14) for number, _, _ in articles(COUNT)} <= numbers, True)
    browser.click("#view-cards")


def keyboard(person: Person) -> None:
    """The task "check" by keys alone; the focus ring is always visible."""
    browser = person.browser
    browser.value("document.activeElement.blur(), scrollTo(0, 0)")
    browser.value("document.querySelector('.skip').focus()")
    seen, rings = [], set()
    for _ in range(9):
        browser.press("Tab")
        seen.append(browser.value("document.activeElement.id || document.activeElement.lang || document.activeElement.tagName"))
        rings.add(browser.value("getComputedStyle(document.activeElement).outlineStyle + ' ' + getComputedStyle(document.activeElement).outlineWidth"))
        if seen[-1].startswith("tab-"):
            for _ in range(3):
                if browser.value("document.activeElement.id") != "tab-check":
                    browser.press("ArrowRight")
        if seen[-1] == "texts":
            break
    person.same("the way by keys", (seen[0].startswith("tab-"), seen[-1]), (True, "texts"))
    person.same("the ring of what has the keyboard", rings, {"solid 3px"})
    browser.value("document.getElementById('texts').value = '', document.getElementById('texts').dispatchEvent(new Event('input'))")
    for sign in "96385074":
        browser.press(sign)
    person.waits("a number that is typed", "check-told", person.page("rightCount1"))


def scanner(browser: Browser, person: Person) -> None:
    """A scanner that types: its newest answer comes first, and the field keeps its order."""
    browser.click("#tab-check")
    browser.click("#check-clear") if browser.value("!document.getElementById('check-clear').hidden") else None
    browser.click("#texts")
    when = time.time()
    for code in ("4012345010008", "4012345010375", "]C110AB\x1d17261231"):
        for sign in code:
            when += 0.005
            browser.press("]", 221, modifiers=2, when=when) if sign == "\x1d" else browser.press(sign, when=when)
        browser.press("Enter", when=when + 0.005)
    person.waits("three scans", "check-told", f"{person.page('rightCount', 2)} · {person.page('wrongCount1')}")
    person.same("the switch that a scanner turns on", browser.value("document.getElementById('scans').checked"), True)
    shown = browser.value("[...document.querySelectorAll('#answers .typed')].map((one) => one.textContent)")
    person.same("the newest scan first", shown, ["]C110AB^17261231", "4012345010375", "4012345010008"])
    browser.click("#scans")
    browser.click("#check-clear")
    browser.click("#texts")
    for sign in (*"96385074", "Enter"):
        when += 0.2
        browser.press(sign, when=when)
    person.waits("a number that is typed by hand", "check-told", person.page("rightCount1"))
    person.same("the switch that a person does not turn on", browser.value("document.getElementById('scans').checked"), False)


def main() -> bool:
    made = articles(COUNT)
    with open(f"{WORK}/words.txt", "w", encoding="utf-8") as file:
        file.write("no picture\n")
    size: Any
    known = [name for name in STOCKS if name != "own"]
    chromium = [("Chromium, desk, English", "en", {"width": 1280, "height": 900}, known), ("Chromium, telephone, German", "de", {"width": 390, "height": 844, "mobile": True}, ["57x32"])]
    firefox = [("Firefox, desk, German", "de", {"width": 1280, "height": 900}, known), ("Firefox, telephone, English", "en", {"width": 450, "height": 844}, ["3474"])]
    sheet = None
    for name, language, size, stocks in chromium + firefox:
        begun, is_firefox = time.time(), (name, language, size, stocks) in firefox
        folder = os.path.join(WORK, re.sub(r"\W+", "-", name))
        os.makedirs(folder, exist_ok=True)
        browser: Any = Firefox(URL, folder=folder, **size) if is_firefox else Browser(URL, **size)
        try:
            person = Person(browser, name, language)
            labels(person, stocks)
            if sheet is None:
                sheet = f"{WORK}/sheet.png"
                os.replace(person.saved("#png", "labels.png"), sheet)
            checks(person)
            reads(person, [f"{ROOT}/examples/labels.png", f"{WORK}/words.txt", sheet])
            keyboard(person)
            person.same("wider than the screen", browser.value("document.documentElement.scrollWidth <= innerWidth"), True)
            if not is_firefox:
                scanner(browser, person)
                person.same("what scripts complained of", browser.complaints, [])
                person.same("what was asked of a network", [it for it in browser.asked if not re.match("file:|data:|blob:", it)], [])
        finally:
            browser.close()
        print(f"{name}: {time.time() - begun:.0f} s", flush=True)
    return ended()


if __name__ == "__main__":
    sys.exit(main())
