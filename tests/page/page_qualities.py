"""Tests the page in headless Chromium: damaged and hostile lists, old browsers, a server, its network requests, accessibility (axe-core) and
time. Makes the pictures of the documents.

Usage: page_qualities.py PROGRAM WORK EXAMPLES. PROGRAM is gs1_hub, and EXAMPLES the folder for the pictures. Its last line is the counts.
"""
from __future__ import annotations

import base64
import csv
import functools
import gzip
import http.server
import io
import itertools
import json
import os
import random
import re
import struct
import subprocess
import sys
import threading
import zipfile
from typing import Any, Iterator, Sequence

import brotli
from browser import Browser
from comparisons import before_others, ended, same, texts
from PIL import Image, ImageFilter
from readback import ROOT, articles, listed

PROGRAM, WORK, EXAMPLES = sys.argv[1:4]
URL = f"file://{ROOT}/page/index.html"
TEXTS = texts()
MOST_BYTES = 390_000
DIAGONAL = """(01)09501101530003(17)261231(10)LOT7(3103)001250(422)276"""

LABELS = [
    ("ean13", "9501101530003"), ("upca", "012345000065"), ("ean8", "96385074"), ("upce", "012345000065"),
    ("itf14", "09501101530003"), ("gs1128", "010950110153000317261231"), ("gs1128", "10AB^17261231"), ("gs1128", "10AB^21C^17261231"), ("gs1128", "422528"),
    ("ean13", "9501101530004"), ("ean13", "950110153000X"), ("ean13", ""), ("upce", "9501101530003"),
    ("ean8", "9501101530003"), ("gs1128", "17250229"), ("gs1128", "10A#"), ("gs1128", "(01)\N{SNOWMAN}"),
]


def answer(*words: str, text: bytes = b"") -> bytes:
    done = subprocess.run([PROGRAM, *words], input=text, stdout=subprocess.PIPE, stderr=subprocess.PIPE)
    return done.stdout if done.returncode == 0 else done.stderr


def sentence(key: str, *values: object, language: str = "en") -> str:
    text = TEXTS[language]["faults"][key]
    for i, value in enumerate(values):
        text = text.replace(f"{{{i}}}", str(value))
    return f"{text[0].upper()}{text[1:]}."


def make(page: Browser, text: str, priced: bool = True) -> None:
    """Enters a list, perhaps of labels without a price, and waits until everything is drawn."""
    page.value(f"showTask('labels'), setList({json.dumps(text)}), document.made")
    if not priced:
        page.value("at('no-price').click(), document.made")


def told(page: Browser) -> tuple[str, str]:
    return page.text("labels-told"), page.text("fault-list")


def choose(page: Browser, field: str, path: str) -> None:
    """Chooses a list's file, and waits until the page has read it."""
    page.value("document.taken = null")
    page.files(field, path)
    page.until("document.taken !== null")
    page.value("document.taken")


# ---- lists

def bad_lists(page: Browser) -> None:
    """The page reports files that are no lists, and keeps what was typed."""
    typed = listed(articles(3))
    make(page, typed)
    files = {"large.csv": (b"4012345010008;x\n" * 7_000_000, sentence("tooLarge", "16,777,216")), "book.xlsx": (b"PK\x03\x04" + bytes(99), sentence("sheetDamaged")),
             "book.xls": (b"\xd0\xcf\x11\xe0\xa1\xb1\x1a\xe1", sentence("sheetOld")), "list.pdf": (b"%PDF-1.4", sentence("pdf")), "list.gz": (b"\x1f\x8b\x08", sentence("packed")),
             "list.bin": (bytes(range(256)) * 9, sentence("noText")), "photo.csv": (b"\x89PNG\r\n\x1a\n", sentence("picture"))}
    for name, (data, wanted) in files.items():
        with open(f"{WORK}/{name}", "wb") as file:
            file.write(data)
        for task, field, fault, kept in (("labels", "#list-file", "list-fault", "list"), ("check", "#check-file", "check-fault", "texts")):
            page.value(f"showTask('{task}')")
            choose(page, field, f"{WORK}/{name}")
            same(f"{name} in {task}", page.text(fault), f"{name}: {wanted}")
            same(f"what was typed before {name} in {task}", page.value(f"at('{kept}').value"), typed if task == "labels" else "")
    os.remove(f"{WORK}/large.csv")
    said = page.value("(() => { try { tableOf({ text: '4012345010008;x\\n'.repeat(1100000) }); } catch (error) { return remedyText(error.faults[0].fault); } })()")
    same("a list that is too large, pasted", said, sentence("tooLarge", "16,777,216"))
    same("the labels before them", page.value("showTask('labels'), at('labels-told').innerText"), "3 labels on 1 sheet")
    with open(f"{WORK}/windows.csv", "wb") as file:
        file.write("EAN;Bezeichnung;Preis\r\n4012345010008;Käse;2,90 €\r\n".encode("cp1252"))
    choose(page, "#list-file", f"{WORK}/windows.csv")
    same("a list of Windows", page.value("[shop.made.labels[0].item.name, shop.made.labels[0].item.price].join()"), "Käse,2,90 €")


def hard_lists(page: Browser) -> None:
    """Long names, other scripts, copies, a label that is too narrow, columns corrected by hand."""
    make(page, f"ean;name\n96385074;{'W' * 10_000}\n", priced=False)
    same("a name of 10,000 letters", (told(page)[0], sentence("cut", "")[:40] in page.text("warnings")), ("1 label on 1 sheet", True))
    make(page, "ean;name;price\n96385074;שלום עולם;₪ 3.50\n4012345010008;冷たい緑茶 500ml;¥150\n4012345010374;Żółta gęś 🍎;3,50 zł\n")
    same("labels of other scripts", told(page)[0], "3 labels on 1 sheet")
    pdf = page.value("pdfOf(allPages(), shop.made.stock, DOTS_IN_MM[300]).then((bytes) => bytes.length)")
    same("their PDF", pdf > 2000, True)
    make(page, "ean;copies\n96385074;0\n4012345010008;1000\n4012345010374;\n", priced=False)
    same("copies", told(page)[0], "1,001 labels on 42 sheets")
    make(page, "ean;copies\n" + "96385074;1000\n" * 11, priced=False)
    same("more labels than the page makes", (told(page)[0], sentence("manyLabels", "10,000") in told(page)[1]), ("10,000 labels on 417 sheets · 1 line left out", True))
    make(page, "gs1;name\n(01)09501101530003(17)261231(10)LOT7;Kiste\n", priced=False)
    same("a label that is too narrow", "The label is 69.9 mm wide, and the barcode needs 89.4 mm with its quiet zones: use labels of 92 mm or more (L7162, L7163, L7165); or print fewer elements." in told(page)[1], True)
    make(page, f"a;b;c\n{articles(1)[0][0]};{articles(2)[1][0]};x\n", priced=False)
    page.value("at('column-gtin').value = 1, at('column-gtin').dispatchEvent(new Event('change')), document.made")
    same("another column of numbers", page.value("shop.made.labels[0].item.text"), articles(2)[1][0].zfill(14))
    make(page, "Artikel;Preis\nKekse;2,90\n")
    same("no column of numbers", page.text("question-text"), sentence("noNumbers"))
    make(page, "EAN;GTIN;Name\n4012345010008;4012345010374;x\n")
    same("two columns of numbers", page.text("question-text"), sentence("twice", "EAN", "GTIN", "gtin"))
    page.value("at('question-select').value = 1, at('question').requestSubmit(), document.made")
    page.value("at('no-price').click(), document.made")
    same("the one that is chosen", page.value("shop.made.labels[0].item.text"), "04012345010374")
    make(page, "ean;name\n" + "4012345010375;x\n" * 100, priced=False)
    same("a hundred faults", (told(page)[0], page.text("faults-more")), ("100 lines left out", "and 60 more"))
    make(page, listed(articles(30)))
    page.value("document.querySelector('[data-cell=\"4\"]').dispatchEvent(new MouseEvent('click', { bubbles: true })), document.made")
    same("the first free label, by a tap", (page.value("at('first').value"), told(page)[0]), ("5", "30 labels on 2 sheets"))
    page.value("at('first').value = 1, document.made = makeLabels(), document.made")


PIECES = ['"', ";", ",", "\t", "\n", "\0", "\ufeff", "(01)", "^", "ü", "9" * 30, "E+12", "€", "中", "-", "=" * 300, "🍎", "\x1d", "copies", "<b>", "{0}", "$&", "]E0", "https://", "sep=;\n", "gtin", "\u202e"]


def damaged_lists(page: Browser, count: int) -> None:
    """Damaged lists on all stock: the page reads again what it draws, has a text for each other line, and throws nothing."""
    chance, lists = random.Random(5), []
    for _ in range(count):
        text = listed(chance.sample(articles(40), 4)) if chance.random() < 0.7 else "gs1;name;copies;kind\n(01)09501101530003(10)A;Kiste;2;\n]C110AB^17261231;b;;gs1128\n"
        for _ in range(chance.randrange(5)):
            at = chance.randrange(len(text) + 1)
            text = text[:at] + chance.choice(PIECES) + text[at:] if chance.random() < 0.7 else text[:at] + text[at + chance.randrange(1, 6):]
        lists.append(text)
    found: dict[str, Any] = {"drawn": 0, "faults": 0, "checks": 0, "textless": [], "thrown": []}
    for first in range(0, count, 100):
        for key, more in tried(page, lists[first:first + 100], first).items():
            found[key] += more
    print(f"{count} damaged lists: {found['drawn']} drawn, {found['faults']} faults, {found['checks']} wrong answers of Check")
    same("faults without a text", found["textless"][:5], [])
    same("what damaged lists throw", found["thrown"][:3], [])
    same("damaged lists that are drawn, and that are not", (found["drawn"] > count, found["faults"] > count / 3), (True, True))


def tried(page: Browser, lists: Sequence[str], first: int) -> Any:
    """What the page draws of damaged lists, the first of which has this number: labels, errors, those without a text, and what it throws."""
    return json.loads(page.value("""(async (lists, first) => {
        const stocks = Object.keys(STOCKS), dpis = Object.keys(DOTS_IN_MM), found = { drawn: 0, faults: 0, textless: [], thrown: [], checks: 0 };
        for (const [place, text] of lists.entries()) {
            const i = first + place;
            try {
                at('stock').value = stocks[i %% stocks.length], at('dpi').value = dpis[i %% dpis.length];
                setList(text), asked.columns = i %% 3 ? {} : { price: -1 };
                await makeLabels();
                found.drawn += new Set(shop.made.labels).size;
                const faults = shop.made.faults.map(({ fault }) => remedyText(fault)), answers = answersTo(text).filter(({ fault }) => fault).map(({ fault }) => remedyText(fault));
                found.faults += faults.length;
                found.checks += answers.length;
                found.textless.push(...[...faults, ...answers].filter((said) => said.length < 9 || /^\\d|undefined|\\[object/.test(said)));
            } catch (error) { found.thrown.push(`${error} ${JSON.stringify(text)}`); }
        }
        at('stock').value = '3474', at('dpi').value = '0';
        return JSON.stringify(found);
    })(%s, %d)""" % (json.dumps(lists), first)))


def remembers(page: Browser) -> None:
    """Each error has a text in each language; the page remembers the language and the task."""
    with open(f"{ROOT}/docs/FAULTS.md", encoding="utf-8") as file:
        numbers = sorted(set(re.findall(r"^\| (\d+) [A-Z]", file.read(), re.MULTILINE)), key=int)
    for language in TEXTS:
        page.value(f"changeLanguage('{language}'), document.made")
        said = json.loads(page.value(f"JSON.stringify({json.dumps(numbers)}.map((key) => remedyText({{ key: Number(key), values: ['x'] }})))"))
        same(f"numbers without a text in {language}", [number for number, text in zip(numbers, said) if len(text) < 9 or "{" in text], [])
        lacking = page.value("[...document.querySelectorAll('[data-t], [data-t-label], [data-t-hint]')].filter(({ dataset: { t, tLabel, tHint } }) => [t, tLabel, tHint].some((key) => key && !TEXTS[language].page[key])).length")
        same(f"elements without a text in {language}", lacking, 0)
    page.value("document.querySelector('#languages [lang=de]').click(), showTask('check')")
    page.go(URL)
    same("what is remembered", page.value("[language, location.hash, document.documentElement.lang, at('tab-check').ariaSelected].join()"), "de,#check,de,true")
    page.value("document.querySelector('#languages [lang=en]').click(), showTask('labels'), document.made")


def listed_ais() -> Iterator[str]:
    """The AIs of tables/ais.tsv: from one to another that differ in digits alone."""
    with open(f"{ROOT}/tables/ais.tsv", encoding="utf-8") as file:
        ranges = [line.split("\t")[0].partition("-") for line in file.read().splitlines()[1:]]
    for least, _, greatest in ranges:
        digits = [range(int(low), int(high) + 1) for low, high in zip(least, greatest or least)]
        yield from ("".join(map(str, ai)) for ai in itertools.product(*digits))


def in_words(page: Browser) -> None:
    """Each AI has a title of its own in each language, and what it measures is said."""
    ais = sorted(listed_ais())
    same("the AIs of the page", page.value("[...AIS.keys()].sort()"), ais)
    for language in TEXTS:
        titles = TEXTS[language]["elements"]
        same(f"AIs without a title in {language}", [ai for ai in ais if not (titles.get(ai) or titles.get(ai[:3]) or re.fullmatch("9[1-9]", ai))], [])
        page.value(f"changeLanguage('{language}'), document.made")
        same(f"titles in {language}", page.value("['01', '3102', '7033', '4331', '97'].map(titleOf)"), [titles[key] for key in ("01", "310", "703", "4331", "91-99")])
    page.value("changeLanguage('en'), document.made")
    for element, wanted in {("3102", "001250"): "12.50 kg", ("3203", "001250"): "1.250 lb", ("3572", "001250"): "12.50 oz", ("3370", "000012"): "12 kg/m²", ("3690", "000012"): "12 yd³",
                            ("3922", "1095"): "10.95", ("3932", "9781095"): "10.95 EUR", ("3912", "7561095"): "10.95 CHF", ("422", "528"): "Netherlands", ("422", "000"): "",
                            ("30", "12"): "12 pieces", ("17", "261200"): "Dec 31, 2026", ("7003", "2612312359"): "Dec 31, 2026, 23:59:00", ("01", "00000096385074"): "EAN-8 96385074",
                            ("02", "00012345000065"): "UPC-A 012345000065", ("10", "LOT7"): "", ("4331", "001850-"): "-18.50 °C", ("3941", "0125"): "12.5 %", ("3953", "001250"): "1.250",
                            ("423", "276528"): "Germany, Netherlands", ("4309", "05620000003500000000"): "-33.8000000, -10.0000000", ("7007", "261231270131"): "Dec 31, 2026 – Jan 31, 2027",
                            ("7007", "261231"): "Dec 31, 2026", ("4326", "261231"): "Dec 31, 2026"}.items():
        same(f"{element} in words", page.value(f"meaningOfElement(core.said(']C1 {element[0]}={element[1]}').elements[0])"), wanted)


# ---- browsers

def old_browsers() -> None:
    """Browsers without 64-bit memory, without WebAssembly, and older ones; and a folder without the module."""
    for bits, works in ((32, True), (0, False)):
        old = Browser("about:blank#", started="true")
        try:
            old.call("Page.enable")
            old.call("Page.addScriptToEvaluateOnNewDocument", source=f"""
                const validate = WebAssembly.validate;
                WebAssembly.validate = (bytes) => (bytes[11] & 4 ? 64 : 32) <= {bits} && validate(bytes);""")
            old.go(URL)
            same(f"a browser with memory of {bits} bits", old.value("[at('problem').hidden, document.querySelector('main').hidden].join()"), "true,false" if works else "false,true")
            if works:
                same("what it runs", old.value("gs1.bits"), bits)
                make(old, listed(articles(20)))
                same("the labels that it draws", told(old)[0], "20 labels on 1 sheet")
            else:
                same("what it is told", old.text("problem"), TEXTS["en"]["page"]["oldBrowser"])
        finally:
            old.close()
    for what, source, wanted in (("no WebAssembly", "delete globalThis.WebAssembly", "oldBrowser"), ("no newer arrays", "delete Array.prototype.toSorted", "oldBrowser")):
        old = Browser("about:blank#", started="true")
        try:
            old.call("Page.enable")
            old.call("Page.addScriptToEvaluateOnNewDocument", source=source)
            old.go(URL)
            same(f"a browser with {what}", old.text("problem"), TEXTS["en"]["page"][wanted])
        finally:
            old.close()


def is_packed() -> None:
    """The zip has the page and all files that it names, is small, and opens from a folder. Without its module the page says so."""
    stick = os.path.join(os.path.abspath(WORK), "USB stick ü")
    with zipfile.ZipFile(f"{ROOT}/page/out/noriladle-page.zip") as packed:
        packed.extractall(stick)
    folder = f"{stick}/noriladle-page"
    with open(f"{folder}/index.html", encoding="utf-8") as file:
        named = {name for name in re.findall(r'(?:src|href)="(.*?)"', file.read()) if not name.startswith("#")}
    same("the files of the zip", sorted(os.listdir(folder)), sorted({"index.html", "manifest.json", "worker.js", "icon-512.png"} | named))
    size = sum(os.path.getsize(f"{folder}/{name}") for name in os.listdir(folder) if name != "gs1.module.js")
    print(f"the page without its module: {size} bytes")
    same("the page is small", size < MOST_BYTES, True)
    url = "file://" + folder.replace(" ", "%20")
    page = Browser(f"{url}/index.html#read")
    try:
        page.choose(f"{ROOT}/examples/labels.png")
        same("the symbols that the packed page reads", page.text("told"), "6 codes in 1 picture")
        page.value("showTask('labels'), at('example').click(), document.made")
        same("the labels that it draws", told(page)[0], "8 labels on 1 sheet")
    finally:
        page.close()
    # A third language is one file more.
    with open(f"{folder}/shop.js", "a", encoding="utf-8") as file:
        file.write("TEXTS.fr = { ...TEXTS.en, page: { ...TEXTS.en.page, name: 'Français', labels: 'Étiquettes' } };\n")
    page = Browser(f"{url}/index.html")
    try:
        page.click("#languages [lang=fr]")
        page.value("showTask('labels'), at('example').click(), document.made")
        same("a third language", (page.value("at('tab-labels').innerText.trim()"), told(page)[0]), ("Étiquettes", "8 labels on 1 sheet"))
    finally:
        page.close()
    os.remove(f"{folder}/gs1.module.js")
    page = Browser(f"{url}/index.html")
    try:
        same("a folder without the module", page.text("problem"), TEXTS["en"]["page"]["noModule"])
    finally:
        page.close()


def symbol_drawn(image: bytes) -> str:
    """The left quiet zone and the widths of the bars of a label that is drawn, at a dot a module, in three rows of 640 dots."""
    row = "".join(f"{byte:08b}" for byte in image[-160:-80])
    light, *runs = (len(run) for run in re.findall("0+|1+", row))
    return f"{light} {''.join(map(str, runs[:-1]))}"


def runs_in_node() -> None:
    """The same calls by the 32-bit module in Node, compared with what the program answers."""
    calls: list[list[str]] = []
    wanted: list[str | list[str]] = []
    for kind, typed in LABELS:
        image = answer("print", *"--columns 1 --rows 1 --module 1 --width 640 --height 3 --year 2026".split(), text=f"{kind},{typed}\n".encode())
        text = typed.replace("^", "\x1d")
        calls.append(["symbol", kind, text])
        wanted.append(symbol_drawn(image) if image.startswith(b"P4") else image.decode().strip().removeprefix("record 0: "))
        name, check = ("elements", "text") if kind == "gs1128" else ("gtin", "gtin")
        calls.append([name, text])
        wanted.append(answer("check", "--year", "2026", text=f"{check},{typed}\n".encode()).decode().strip())
    with open(f"{ROOT}/examples/labels.pbm", "rb") as file:
        image = file.read()
    calls.append(["read", base64.b64encode(image).decode()])
    lines = answer("scan", *"--columns 2 --rows 3 --module 2 --width 480 --height 120 --workers 1 --year 2026".split(), text=image).decode().splitlines()
    wanted.append(sorted(line.split(" ", 2)[2] for line in lines))
    done = subprocess.run(["node", f"{ROOT}/tests/page/calls_in_node.js"], input=json.dumps(calls).encode(), stdout=subprocess.PIPE, check=True)
    for call, got, want in zip(calls, json.loads(done.stdout)["answers"], wanted):
        if call[0] == "symbol" and got.startswith("symbol"):
            _, _, left, _, widths = got.split(" ")
            got = f"{left} {widths}"
        elif call[0] == "read":
            got = sorted(re.sub("[ \t](\\w+)=", r" (\1)", it).replace(" (", "(").replace("(", " (", 1) for it in got)
        same(f"in Node, {call[:3]}", got, want)


# ---- the network

class Handler(http.server.SimpleHTTPRequestHandler):
    asked: list[str] = []

    def log_message(self, *words: object) -> None:
        pass

    def do_GET(self) -> None:
        Handler.asked.append(self.path)
        super().do_GET()


def served() -> None:
    """From a server the page can be installed, and opens after the server is gone. It requests only its own files."""
    server = http.server.ThreadingHTTPServer(("127.0.0.1", 0), functools.partial(Handler, directory=f"{ROOT}/page"))
    threading.Thread(target=server.serve_forever, daemon=True).start()
    url = f"http://127.0.0.1:{server.server_port}/index.html"
    page = Browser(url)
    try:
        page.value("navigator.serviceWorker.ready.then(() => new Promise((done) => setTimeout(done, 500)))")
        manifest = page.call("Page.getAppManifest")
        same("faults of the manifest", manifest["errors"], [])
        reasons = page.call("Page.getInstallabilityErrors")["installabilityErrors"]
        same("what keeps it from being installed", [it["errorId"] for it in reasons if it["errorId"] != "in-incognito"], [])
        make(page, listed(articles(20)))
        page.value(f"showTask('check'), at('texts').value = {json.dumps(DIAGONAL)}, check()")
        files = {f"/{name}" for name in os.listdir(f"{ROOT}/page")}
        same("what was asked of the server, beside files of the page", sorted(set(Handler.asked) - files), [])
        same("what was asked of others", [it for it in page.asked if not it.startswith((url.rpartition("/")[0], "data:", "blob:"))], [])
        server.shutdown()
        server.server_close()
        page.go(f"{url}#labels")
        make(page, listed(articles(20)))
        same("labels without the server", told(page)[0], "20 labels on 1 sheet")
        same("what scripts complained of", page.complaints, [])
    finally:
        page.close()


def keeps_to_itself(page: Browser) -> None:
    """The page makes no network requests, and its policy allows only its own files."""
    same("what is asked of a network", [it for it in page.asked if not re.match("file:|data:|blob:", it)], [])
    policy = page.value("document.querySelector('meta[http-equiv=Content-Security-Policy]').content")
    same("the policy", policy, "default-src 'none'; script-src 'self' 'wasm-unsafe-eval'; style-src 'self'; img-src 'self' data: blob:; media-src blob:; manifest-src 'self'; worker-src 'self'; base-uri 'none'; form-action 'none'")
    for what, script in (("a fetch", "fetch('http://127.0.0.1:9/').then(() => 'done', () => 'refused')"),
                         ("a beacon", "Promise.resolve(new Promise((done) => { addEventListener('securitypolicyviolation', () => done('refused'), { once: true }); navigator.sendBeacon('http://127.0.0.1:9/', 'x'); setTimeout(done, 500, 'done'); }))"),
                         ("a socket", "new Promise((done) => { try { const s = new WebSocket('ws://127.0.0.1:9/'); s.onerror = () => done('refused'); } catch { done('refused'); } })"),
                         ("a script of its own words", "(() => { const s = document.createElement('script'); s.textContent = 'globalThis.ran = 1'; document.head.append(s); return globalThis.ran ? 'done' : 'refused'; })()"),
                         ("a picture of another place", "new Promise((done) => { const i = new Image(); i.onload = () => done('done'); i.onerror = () => done('refused'); i.src = 'http://127.0.0.1:9/a.png'; })")):
        same(f"{what}, by the policy", page.value(script), "refused")


# ---- for everybody

def axe_core() -> str:
    """axe-core as Chromium's own Lighthouse has it: a text between backticks in one of its packed resources."""
    with open("/usr/lib/chromium/resources.pak", "rb") as file:
        data = file.read()
    count = struct.unpack_from("<H", data, 8)[0]
    for i in range(count):
        (start,), (end,) = (struct.unpack_from("<I", data, 14 + 6 * at) for at in (i, i + 1))
        part = data[start:end]
        unpacked = gzip.decompress(part) if part[:2] == b"\x1f\x8b" else brotli.decompress(part[8:]) if part[:2] == b"\x1e\x9b" else b""
        at = unpacked.find(b"`/*! axe v")
        if at >= 0:
            text = unpacked[at:].decode("utf-8")
            literal = text[:re.compile(r"(?<!\\)(?:\\\\)*`").search(text, 1).end()]
            done = subprocess.run(["node", "-e", "process.stdout.write(eval(require('fs').readFileSync(0, 'utf8')))"], input=literal.encode(), stdout=subprocess.PIPE, check=True)
            return done.stdout.decode()
    sys.exit("no axe-core in /usr/lib/chromium/resources.pak")


STATES = {
    "labels, empty": "showTask('labels'), setList(''), document.made", "labels": "showTask('labels'), setList(LIST), document.made",
    "labels, question": "showTask('labels'), setList('EAN;Artikel;Preis A;Preis B;Lager\\n4012345010008;Brot;1,20;1,30;7\\n'), document.made",
    "labels, notes": "showTask('labels'), setList('EAN;Artikel;Preis;' + Array.from({ length: 30 }, (_, i) => `Spalte ${i}`).join(';') + '\\n4012345010008;Brot;1,20' + ';x'.repeat(30) + '\\n;Summe;1,20' + ';'.repeat(30) + '\\n'), document.made",
    "labels, faults": "showTask('labels'), setList('EAN;Artikel;Preis\\n4012345010375;Brot;1,00\\n4,01235E+12;Saft;1,00\\n=4012345010008;Tee;0,00\\nEAN 4012345010374;Salz;1,00\\n' + LIST.split('\\n').slice(1).join('\\n')), at('stock').value = 'own', changeStock(), document.querySelectorAll('details').forEach((one) => { one.open = true; }), document.made",
    "check, empty": "at('stock').value = '3474', changeStock(), showTask('check'), at('check-clear').click()", "check": "at('try-box').click()", "check, list": "at('try-list').click()",
    "read, empty": "showTask('read'), at('read-clear').click()",
    "read": "document.made.then(() => pngOfPage(pageOf(0), shop.made.stock, 203)).then((png) => take(new File([png], 'sheet.png'), new File(['x'], 'x.png'), new File([png], 'b.png')))",
    "read, table": "showTable(true)",
}


def for_everybody() -> None:
    """axe-core finds nothing in any state, on a desk and a telephone, in light and dark, in each language; taken apart, it does."""
    axe, runs = axe_core(), 0
    print(re.search(r"axe v[\d.]+", axe)[0])
    for width in (1280, 390):
        for dark in (False, True):
            page = Browser(URL, width, 900, dark)
            try:
                page.value(f"{axe}; globalThis.LIST = {json.dumps(listed(articles(40)))}; 0")
                for language in TEXTS:
                    page.value(f"document.querySelector('#languages [lang={language}]').click()")
                    for name, script in STATES.items():
                        page.value(f"(async () => {{ await ({script}); }})()")
                        found = page.value("new Promise((done) => setTimeout(done, 200)).then(() => axe.run(document)).then(({ violations }) => violations.map(({ id, nodes }) => `${id} ${nodes.length} ${nodes[0].html.slice(0, 90)}`))")
                        same(f"axe-core: {name}, {width}, {'dark' if dark else 'light'}, {language}", found, [])
                        same(f"wider than the screen: {name}, {width}, {language}", page.value("document.documentElement.scrollWidth <= innerWidth"), True)
                        runs += 1
                page.value("showTask('labels'), document.querySelector('label:has(#stock)').replaceWith(at('stock'))")
                same("axe-core, of a field without its label", page.value("axe.run(document).then(({ violations }) => violations.map(({ id }) => id).join())"), "select-name")
            finally:
                page.close()
    print(f"axe-core: {runs} runs")


def takes_its_time() -> None:
    """Times, of the quickest of some tries."""
    with before_others() as slower:
        times_taken(slower)


def times_taken(slower: float) -> None:
    page, times, text = Browser(URL), [], json.dumps(listed(articles(1000)))
    try:
        for _ in range(6):
            page.go(URL)
            times.append(json.loads(page.value("""(async () => {
                const { domContentLoadedEventEnd } = performance.getEntriesByType('navigation')[0];
                showTask('labels'); at('stock').value = '3474'; changeStock(); await document.made;
                let from = performance.now(), first;
                new MutationObserver(() => { if (!first && document.querySelectorAll('#paper svg g').length > 20) first = performance.now() - from; }).observe(at('paper'), { childList: true });
                setList(%s); await document.made;
                const all = performance.now() - from;
                showTask('check'); at('texts').value = %s; from = performance.now(); check();
                return JSON.stringify([domContentLoadedEventEnd, first, all, performance.now() - from].map(Math.round));
            })()""" % (text, text))))
    finally:
        page.close()
    begun, first, every, checked = (min(column) for column in zip(*times))
    print(f"ms: started {begun}, first sheet of 1,000 lines {first}, all {every}, 1,000 lines checked {checked}; load {os.getloadavg()[0]:.0f}")
    for what, passed, limit in (("the page starts", begun, 300), ("the first sheet", first, 500), ("all sheets", every, 1000), ("1,000 lines are checked", checked, 500)):
        same(f"{what} within {limit} ms", passed <= limit * slower, True)


# ---- pictures

def photographed(sheet: Image.Image) -> Image.Image:
    """A part of a sheet as a telephone takes it: a little turned and soft, on a dark desk."""
    part = sheet.convert("L").crop((0, 438, 1654, 1320)).resize((1100, 587)).convert("RGB")
    desk = Image.new("RGB", (1400, 900), (86, 82, 74))
    mask = Image.new("L", part.size, 255).rotate(4, expand=True, resample=Image.BICUBIC)
    desk.paste(part.rotate(4, expand=True, resample=Image.BICUBIC), (140, 110), mask)
    return desk.filter(ImageFilter.GaussianBlur(0.8))


def leaves_pictures() -> None:
    """The pictures of the documents: each task on a desk and on a telephone."""
    with open(f"{ROOT}/examples/shelf.csv", encoding="utf-8", newline="") as file:
        goods = [(it["name"], f"{it['price']} €") for it in csv.DictReader(file)]
    rows = [(number, *it) for (number, _, _), it in zip(articles(22), [*goods, ("Milk 1 l", "1.19 €")])]
    rows[3] = (f"{rows[3][0][:-1]}5", *rows[3][1:])
    text = listed([*rows, ("4.01235E+12", "Orange juice", "1.00 €")])
    size: Any
    for name, language, size in (("desk", "en", {"width": 1280, "height": 860}), ("telephone", "en", {"width": 390, "height": 844, "mobile": True})):
        page = Browser(URL, **size)
        try:
            page.value(f"document.querySelector('#languages [lang={language}]').click()")
            page.call("Emulation.setScrollbarsHidden", hidden=True)
            make(page, text.replace("EAN;Artikel;Preis", "EAN;Item;Price"))
            page.value("at('first').value = 2, document.activeElement.blur(), document.made = makeLabels(), document.made")
            shot(page, f"{EXAMPLES}/page.png" if name == "desk" else f"{EXAMPLES}/page-labels-telephone.png", None if name == "desk" else ".sheet")
            png = base64.b64decode(page.value("pngOfPage(pageOf(0), shop.made.stock, 300).then((x) => { let s = ''; for (let i = 0; i < x.length; i += 32768) s += String.fromCharCode(...x.subarray(i, i + 32768)); return btoa(s); })"))
            page.value(f"showTask('check'), at('texts').value = {json.dumps(DIAGONAL + chr(10) + '4012345010008' + chr(10) + '4012345010375' + chr(10) + ']C110AB^17261231' + chr(10) + 'https://id.gs1.org/01/09501101530003/10/LOT7')}, check()")
            shot(page, f"{EXAMPLES}/page-check-{name}.png")
            page.value("showTask('read')")
            photographed(Image.open(io.BytesIO(png))).save(f"{WORK}/shelf.jpg", quality=88)
            page.choose(f"{WORK}/shelf.jpg")
            same(f"the photograph of the pictures, {name}", page.value("pictures[0].symbols.length >= 4"), True)
            shot(page, f"{EXAMPLES}/page-read-{name}.png")
        finally:
            page.close()


def shot(page: Browser, path: str, top: str | None = None) -> None:
    """Leaves a picture of the window as it is seen from an element on, in few colours."""
    page.value(f"scrollTo(0, {json.dumps(top)} ? Math.max(0, document.querySelector({json.dumps(top)}).getBoundingClientRect().top + scrollY - 100) : 0), new Promise((done) => setTimeout(done, 4500))")
    data = base64.b64decode(page.call("Page.captureScreenshot", format="png")["data"])
    Image.open(io.BytesIO(data)).convert("RGB").quantize(128, Image.Quantize.FASTOCTREE, dither=Image.Dither.NONE).save(path, optimize=True)


def main() -> bool:
    page = Browser(URL)
    try:
        bad_lists(page)
        hard_lists(page)
        damaged_lists(page, 1500)
        in_words(page)
        remembers(page)
        same("what scripts complained of", page.complaints, [])
        keeps_to_itself(page)
    finally:
        page.close()
    for part in (old_browsers, is_packed, runs_in_node, served, for_everybody, takes_its_time, leaves_pictures):
        part()
    return ended()


if __name__ == "__main__":
    sys.exit(main())
