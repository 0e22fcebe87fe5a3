"""Compares what the page reads from pictures, the clipboard and a camera, in headless Chromium, with the program's answers.

Usage: reading.py PROGRAM WORK. PROGRAM is gs1_hub. Its last line is the counts.
"""
from __future__ import annotations

import base64
import json
import os
import random
import struct
import subprocess
import sys
import time
import zlib
from typing import Any, Callable, Iterable, Sequence

from browser import Browser
from comparisons import before_others, ended, same, texts

ROOT = os.path.dirname(os.path.dirname(os.path.dirname(os.path.abspath(__file__))))
PROGRAM, WORK = sys.argv[1:3]
Frame = Callable[[int], bytes]
"""The rows of a picture, by their numbers from the top."""
GRID = "--columns 2 --rows 3 --module 2 --width 480 --height 120".split()
TEXTS = texts()["en"]
FRAME = 4
"""How many milliseconds a frame of the camera may take."""


def answer(*words: str, text: bytes = b"") -> bytes:
    done = subprocess.run([PROGRAM, *words], input=text, stdout=subprocess.PIPE, stderr=subprocess.PIPE)
    return done.stdout if done.returncode == 0 else done.stderr


def scanned(image: bytes, *words: str) -> list[str]:
    """What `scan` says of an image, without lanes and numbers."""
    lines = answer("scan", *words, *"--workers 1 --year 2026".split(), text=image).decode().splitlines()
    return sorted(line.split(" ", 2)[2] for line in lines)


def shown(page: Browser) -> str:
    """What the newest picture says: its line, or how many it has, or its error."""
    return page.value("pictures[0].refused ?? (pictures[0].symbols.length === 1 ? pictures[0].symbols[0].line : `${pictures[0].symbols.length} symbols`)")


def choose(page: Browser, path: str) -> None:
    """Chooses a file instead of all earlier ones."""
    page.value("at('read-clear').click()")
    page.choose(path)


def answers(page: Browser) -> list[str]:
    return [symbol["line"] for symbol in json.loads(page.value("JSON.stringify(pictures[0]?.symbols ?? [])"))]


def said(key: int | str) -> str:
    text = TEXTS["faults"][str(key)]
    return f"{text[0].upper()}{text[1:]}."


def png(path: str, width: int, height: int, row_of: Callable[[int], bytes]) -> None:
    """Writes a grey picture, row by row."""
    def chunk(name: bytes, data: bytes) -> bytes:
        return struct.pack(">I", len(data)) + name + data + struct.pack(">I", zlib.crc32(name + data))

    packer = zlib.compressobj(1)
    rows = b"".join(packer.compress(b"\0" + row_of(y)) for y in range(height)) + packer.flush()
    with open(path, "wb") as file:
        file.write(b"\x89PNG\r\n\x1a\n" + chunk(b"IHDR", struct.pack(">IIBBBBB", width, height, 8, 0, 0, 0, 0))
                   + chunk(b"IDAT", rows) + chunk(b"IEND", b""))


def gif(*frames: Sequence[bytes]) -> bytes:
    """An animated GIF of black and white frames: codes of a dot each, cleared before the table grows."""
    width, height = len(frames[0][0]), len(frames[0])
    data = b"GIF89a" + struct.pack("<HHBBB", width, height, 0x80, 0, 0) + b"\0\0\0\xff\xff\xff"
    data += b"!\xff\x0bNETSCAPE2.0\x03\x01\0\0\0"
    for frame in frames:
        bits = ""
        for i, value in enumerate(b"".join(frame)):
            # The code 4 clears; codes have three bits as long as fewer than two dots follow it.
            bits = (f"{value & 1:03b}" + ("100" if i % 2 == 0 else "")) + bits
        bits = "101" + bits
        packed = bytes(int(bits[max(0, end - 8):end], 2) for end in range(len(bits), 0, -8))
        data += b"!\xf9\x04\0\x0a\0\0\0," + struct.pack("<HHHHB", 0, 0, width, height, 0) + b"\x02"
        data += b"".join(bytes((len(packed[i:i + 255]),)) + packed[i:i + 255] for i in range(0, len(packed), 255)) + b"\0"
    return data + b";"


def films(path: str, frames: Sequence[Frame]) -> None:
    """Writes a film of 640 by 480 dots for the browser's fake camera, each frame a function of its rows."""
    with open(path, "wb") as file:
        file.write(b"YUV4MPEG2 W640 H480 F10:1 Ip A1:1 C420jpeg\n")
        for row_of in frames:
            file.write(b"FRAME\n" + b"".join(row_of(y) for y in range(480)) + b"\x80" * (640 * 480 // 2))


def symbol_row(dots: int, last: str = "1 4 1 1") -> list[int]:
    """9501101530003 as an EAN-13 in its quiet zones, or with another last digit, 1 where light."""
    widths = "11 1 1 1 1 2 3 1 1 1 2 3 1 2 2 2 2 2 2 1 1 1 2 3 2 2 2 1 1 1 1 1 1 1 2 3 1 1 4 1 1 3 2 1 1 3 2 1 1 3 2 1 1 " + last + " 1 1 1 7"
    return [light for i, width in enumerate(widths.split()) for light in [1 - i % 2] * (int(width) * dots)]


def reads(page: Browser) -> None:
    """The pictures of the examples, dropped, pasted and of the clipboard, and what is no picture or has no symbol."""
    with open(f"{ROOT}/examples/labels.pbm", "rb") as file:
        wanted = scanned(file.read(), *GRID)
    for name in ("labels.png", "labels.pbm"):
        choose(page, f"{ROOT}/examples/{name}")
        same(f"the symbols of {name}", sorted(answers(page)), wanted)
    boxes = [symbol["corners"][0] for symbol in json.loads(page.value("JSON.stringify(pictures[0].symbols)"))]
    same("what is told of them", page.text("told"), "6 codes in 1 picture")
    marks = page.value("""(() => {
        const pen = document.querySelector('.photo canvas').getContext('2d'), [picture] = pictures, wide = Math.max(2, Math.round(Math.max(16, Math.round(picture.width / 30)) / 7));
        const colour = ({ x, y }) => pen.getImageData(Math.floor(x), Math.floor(y), 1, 1).data.join(), inside = ({ x, y }) => x >= 0 && y >= 0 && x < picture.width && y < picture.height;
        const middle = (a, b) => ({ x: (a.x + b.x) / 2, y: (a.y + b.y) / 2 });
        return picture.symbols.flatMap((symbol) => widened(symbol.corners, wide).map((corner, i, all) => middle(corner, all[(i + 1) % 4]))).filter(inside).map(colour).join(' ');
    })()""")
    same("the marks on the picture", set(marks.split()), {"11,110,79,255"})
    order = [(box["y"] // 100, box["x"]) for box in boxes]
    same("the marks in the order of reading", order, sorted(order))
    with open(f"{ROOT}/examples/labels.png", "rb") as file:
        blob = """Promise.resolve(new Blob([Uint8Array.from(atob('%s'), (c) => c.charCodeAt(0))], { type: 'image/png' }))""" % base64.b64encode(file.read()).decode()
    for what, event in (("pasted", "dispatchEvent(new ClipboardEvent('paste', { clipboardData: data }))"),
                        ("dropped", "document.body.dispatchEvent(new DragEvent('drop', { dataTransfer: data, cancelable: true, bubbles: true }))")):
        page.value("at('read-clear').click()")
        page.value(blob + """.then((blob) => {
            const data = new DataTransfer();
            data.items.add(new File([blob], 'given.png', { type: 'image/png' }));
            %s;
            return document.taken;
        })""" % event)
        same(f"the symbols that are {what}", sorted(answers(page)), wanted)
    page.value("at('read-clear').click()")
    page.call("Browser.grantPermissions", permissions=["clipboardReadWrite", "clipboardSanitizedWrite"])
    page.call("Page.bringToFront")
    page.value(blob + ".then((blob) => navigator.clipboard.write([new ClipboardItem({ 'image/png': blob })]))")
    page.value("at('paste').click(), document.taken")
    same("the symbols of the clipboard", sorted(answers(page)), wanted)
    page.value("at('read-copy').click(), document.copied")
    same("what is copied", page.value("navigator.clipboard.readText()").splitlines()[0], "9501101530003")
    page.value("navigator.clipboard.writeText('no picture')")
    page.value("at('paste').click(), document.taken")
    same("a clipboard of words", page.text("told"), TEXTS["page"]["noPictureClipboard"])

    before = answers(page)
    with open(f"{WORK}/words.txt", "w") as file:
        file.write("no picture\n")
    with open(f"{WORK}/cut.png", "wb") as file:
        file.write(open(f"{ROOT}/examples/labels.png", "rb").read()[:40])
    with open(f"{WORK}/cut.pbm", "wb") as file:
        file.write(open(f"{ROOT}/examples/labels.pbm", "rb").read()[:-1])
    for name in ("words.txt", "cut.png", "cut.pbm"):
        page.choose(f"{WORK}/{name}")
        same(f"what is told of {name}", page.text("read-fault"), TEXTS["page"]["notPictures"].replace("{0}", name))
        same(f"the picture before {name}", answers(page), before)


def refuses(page: Browser) -> None:
    """Pictures without a symbol, each with what to do; and symbols in other grey values, borders and colours."""
    png(f"{WORK}/one.png", 1, 1, lambda y: b"\0")
    choose(page, f"{WORK}/one.png")
    same("a picture of 1 by 1", (shown(page), answers(page)), ("none", []))
    with open(f"{WORK}/one.pbm", "wb") as file:
        file.write(b"P4 1 1\n\x80")
    choose(page, f"{WORK}/one.pbm")
    same("an image of 1 by 1", (shown(page), answers(page)), ("none", []))
    png(f"{WORK}/blank.png", 300, 20, lambda y: b"\xff" * 300)
    choose(page, f"{WORK}/blank.png")
    same("a blank picture", shown(page), "none")
    same("what to do about it", said("noSymbol") in page.text("pictures"), True)
    row = symbol_row(2)
    png(f"{WORK}/turned.png", len(row), 9, lambda y: bytes(220 if light else 90 for light in row[::-1]))
    choose(page, f"{WORK}/turned.png")
    same("a turned symbol in two greys", answers(page), ["]E0 (01)09501101530003"])
    png(f"{WORK}/close.png", len(row), 9, lambda y: bytes(128 if light else 127 for light in row))
    choose(page, f"{WORK}/close.png")
    same("a symbol in two greys side by side", answers(page), ["]E0 (01)09501101530003"])
    bordered = [0] * 3 + row + [0] * 3
    png(f"{WORK}/bordered.png", len(bordered), 9, lambda y: bytes(255 * light for light in bordered))
    choose(page, f"{WORK}/bordered.png")
    same("a symbol in a dark border", answers(page), ["]E0 (01)09501101530003"])
    framed = [0] * 3 + row + [0] * 3 + row[::-1] + [0] * 3
    png(f"{WORK}/framed.png", len(framed), 9, lambda y: bytes(255 * light for light in framed))
    choose(page, f"{WORK}/framed.png")
    places = page.value("pictures[0].symbols.map(({ line, corners }) => [line, corners[0].x, corners[1].x].join(' ')).join()")
    same("two symbols in frames side by side, one turned", places,
         f"]E0 (01)09501101530003 {3 + 22} {3 + len(row) - 14},]E0 (01)09501101530003 {6 + len(row) + 14} {6 + 2 * len(row) - 22}")
    wrong = [0] * 3 + symbol_row(2, "1 1 3 2") + [0] * 3
    png(f"{WORK}/digit.png", len(wrong), 9, lambda y: bytes(255 * light for light in wrong))
    choose(page, f"{WORK}/digit.png")
    same("a wrong check digit in a dark border", (shown(page), answers(page)), ("refused 24 SymbolCheckDigit", []))
    for ink, ground in (("black", ""), ("rgba(0, 0, 0, 0.7)", ""), ("rgb(0, 0, 200)", "rgb(255, 220, 0)"), ("rgb(0, 90, 0)", "rgb(255, 60, 60)"),
                        ("rgb(120, 0, 0)", "rgb(0, 100, 0)")):
        page.value("""(() => {
            const row = %s, canvas = new OffscreenCanvas(row.length, 9), pen = canvas.getContext('2d');
            pen.fillStyle = '%s';
            if (pen.fillStyle !== '#000000') pen.fillRect(0, 0, row.length, 9);
            pen.fillStyle = '%s';
            row.forEach((light, x) => light || pen.fillRect(x, 0, 1, 9));
            return canvas.convertToBlob().then((blob) => take(blob));
        })()""" % (row, ground, ink))
        same(f"{ink} on {ground or 'nothing'}", answers(page), ["]E0 (01)09501101530003"])
    narrow = row[22 - 8:]
    png(f"{WORK}/narrow.png", len(narrow), 9, lambda y: bytes(255 * light for light in narrow) if y < 3 else b"\xff" * len(narrow))
    choose(page, f"{WORK}/narrow.png")
    same("a quiet zone that is too narrow, above more rows that are blank", (shown(page), answers(page)), ("refused 21 QuietZone", []))
    crowded = [255 * light for light in row[22 - 4:-14 + 4]]
    tall = [b"\xff" * 600] * 40 + [b"\xff" * 100 + bytes([0] * 20 + crowded + [0] * 20) + b"\xff" * 360] * 80 + [b"\xff" * 600] * 40
    png(f"{WORK}/crowded.png", 600, 160, lambda y: tall[y][:600])
    choose(page, f"{WORK}/crowded.png")
    same("a symbol between frames two modules away", (shown(page), answers(page)), ("none", []))
    same("what to do about it", "white on both sides" in page.text("pictures"), True)
    png(f"{WORK}/greys.png", len(row), 9, lambda y: bytes(200 if light else 120 for light in row))
    choose(page, f"{WORK}/greys.png")
    for level, wanted in ((100, "none"), (121, "]E0 (01)09501101530003"), (200, "]E0 (01)09501101530003"), (201, "none")):
        page.value(f"readAgain(pictures[0], {level})")
        same(f"two greys by the level {level}", shown(page), wanted)
    # The right one stands a little higher than the left one beside it, and a third one below both.
    light, blank = bytes(255 * it for it in row), b"\xff" * len(row)
    png(f"{WORK}/beside.png", 2 * len(row), 200,
        lambda y: (light if 10 <= y < 90 or y >= 120 else blank) + (light if y < 80 else blank))
    choose(page, f"{WORK}/beside.png")
    places = page.value("pictures[0].symbols.map(({ corners: [{ x, y }] }) => `${x} ${y}`).join()")
    same("the order of reading", places, f"22 10,{22 + len(row)} 0,22 120")


def takes_the_last(page: Browser) -> None:
    """A picture that takes longer than one that is taken after it; and many at once, shown as a table, the older ones without their picture."""
    choose(page, f"{ROOT}/examples/labels.png")
    page.value("""(() => {
        const slow = take({ arrayBuffer: () => new Promise((done) => setTimeout(() => done(Uint8Array.of(0x50).buffer), 300)) });
        return Promise.all([slow, pngOfDots().then((blob) => take(new File([blob], 'last.png')))]);
        function pngOfDots() {
            const canvas = new OffscreenCanvas(9, 9);
            canvas.getContext('2d').fillRect(0, 0, 9, 9);
            return canvas.convertToBlob();
        }
    })()""")
    same("the last that is taken", page.value("pictures.map(({ name }) => name).join()"), "last.png,labels.png")
    row, paths = symbol_row(2), [f"{WORK}/many-{i:02}.png" for i in range(60)]
    for path in paths:
        png(path, len(row), 9, lambda y: bytes(255 * light for light in row))
    page.value("at('read-clear').click()")
    page.choose(*paths)
    same("sixty pictures", page.text("told"), "60 codes in 60 pictures")
    same("their table", page.value("[at('read-table').hidden, at('read-rows').rows.length, pictures.filter(({ grey }) => grey).length].join()"), "false,60,40")
    page.value("at('view-cards').click(), at('read-clear').click()")


def row_of(text: str, module: int = 4) -> list[int]:
    """The row of a label that the program draws: 1 where it is light."""
    image = answer("print", *f"--columns 1 --rows 1 --module {module} --width 520 --height 40 --year 2026".split(), text=text.encode() + b"\n")
    dots = image[-65 * 20:-65 * 19]
    return [1 - (byte >> bit & 1) for byte in dots for bit in range(7, -1, -1)]


def frame_of(row: Iterable[int]) -> Frame:
    """A frame of 640 by 480 in which a label stands a little aslant, so no two rows are the same."""
    line = (b"\xe0" * 60 + bytes(40 + 180 * light for light in row) + b"\xe0" * 640)[:640]
    return lambda y: (line[-(y // 16):] + line[:-(y // 16)]) if 100 < y < 380 else b"\xe0" * 640


def blank(_: int) -> bytes:
    return b"\xe0" * 640


def reads_by_camera(url: str) -> None:
    """The browser's fake camera shows nothing, and then one label after another; a camera that is refused, that goes away, and none."""
    codes = ["ean13,9501101530003", "ean8,96385074", "upca,012345000065"]
    frames = [blank] * 5 + [frame for code in codes for frame in [frame_of(row_of(code))] * 14 + [blank] * 4]
    films(f"{WORK}/film.y4m", frames)
    switches = ["--use-fake-device-for-media-stream", f"--use-file-for-fake-video-capture={os.path.abspath(WORK)}/film.y4m"]
    page = Browser(f"{url}#read", switches=[*switches, "--use-fake-ui-for-media-stream"])
    lines = ["]E0 (01)09501101530003", "]E4 (01)00000096385074", "]E0 (01)00012345000065"]
    try:
        page.value("at('camera').click(), document.read")
        same("what the camera shows", (len(answers(page)), answers(page)[0] in lines), (1, True))
        same("the camera ends with it", page.value("[stream, at('view').hidden, at('camera-text').textContent].join()"), f",true,{TEXTS['page']['useCamera']}")
        passed = quickest(page, FRAME)
        print(f"a frame of 640 by 480 pixels: {passed:.1f} ms")
        same(f"a frame of 640 by 480 in {FRAME} ms", passed <= FRAME, True)
        page.value("at('read-clear').click(), at('scan-on').click(), globalThis.tones = 0, beep = () => { tones++; }, at('camera').click()")
        page.until("pictures[0]?.symbols.length === 3", 60)
        # All come again, since the film starts again.
        page.value("new Promise((done) => setTimeout(done, 3000))")
        same("codes one after another, each once", sorted(answers(page)), sorted(lines))
        same("what is told of them", page.text("told"), "3 codes")
        first = page.value("document.querySelector('.symbols strong').textContent")
        same("the newest first", first.zfill(14), answers(page)[0][-14:])
        same("a tone for each", page.value("tones"), 3)
        same("the camera goes on", page.value("!!stream && !at('view').hidden"), True)
        page.picture(f"{WORK}/camera.png")
        page.value("at('scan-on').click(), at('camera').click()")
        same("the camera is stopped by its button", page.value("!stream && at('view').hidden"), True)
        same("what is saved of them", len(json.loads(page.value("readJson()"))[0]["symbols"]), 3)
        page.value("at('scan-on').click(), at('camera').click()")
        page.until("!!stream && !at('view').hidden")
        page.value("stream.getVideoTracks()[0].dispatchEvent(new Event('ended'))")
        same("a camera that goes away", page.text("read-fault"), TEXTS["page"]["cameraGone"])
        page.value("Object.defineProperty(navigator, 'mediaDevices', { value: undefined, configurable: true }), at('camera').click(), document.read")
        same("a browser that keeps cameras from files", page.text("read-fault"), TEXTS["page"]["cameraNoServer"])
        same("the codes are still there", len(answers(page)), 3)
    finally:
        page.close()
    refused = Browser(f"{url}#read", switches=switches)
    try:
        refused.call("Browser.setPermission", permission={"name": "camera"}, setting="denied")
        refused.value("at('camera').click(), document.read")
        same("a camera that is refused", refused.text("read-fault"), TEXTS["page"]["cameraNotAllowedError"])
    finally:
        refused.close()
    without = Browser(f"{url}#read", switches=["--use-fake-ui-for-media-stream"])
    try:
        without.value("at('camera').click(), document.read")
        same("no camera", without.text("read-fault"), TEXTS["page"]["cameraNotFoundError"])
    finally:
        without.close()


def quickest(page: Browser, limit: float) -> float:
    """The milliseconds of the quickest of at least five tries to read the picture, and of more where other work on the machine
    takes longer than the limit."""
    times: list[float] = []
    while len(times) < 5 or (min(times) >= limit and len(times) < (30 if limit > 100 else 200)):
        times.append(page.value("readPicture(pictures[0]), pictures[0].passed"))
    return min(times)


def counts_symbols(page: Browser) -> None:
    """The same label again and again, sheet by sheet; rows that are damaged; single rows; and noise."""
    sheet = "--module 2 --width 300 --height 40 --columns 2 --rows 3".split()
    image = answer("print", *sheet, "--year", "2026", text=b"ean13,9501101530003\n" * 8 + b"ean8,96385074\n" * 3)
    wanted = [line for line in scanned(image, *sheet) if line != "refused 19 Blank"]
    same("labels of two sheets", len(wanted), 11)
    for name, text in (("sheets.pbm", image), ("comments.pbm", image.replace(b"P4\n", b"P4# one\n # two\r"))):
        with open(f"{WORK}/{name}", "wb") as file:
            file.write(text)
        choose(page, f"{WORK}/{name}")
        same(f"the symbols of {name}", sorted(answers(page)), wanted)

    row = symbol_row(2)
    light = bytes(255 * light for light in row)
    streak = light[:60] + bytes(40) + light[100:]
    png(f"{WORK}/streaks.png", len(row), 60, lambda y: streak if y % 7 in (2, 3) else light)
    choose(page, f"{WORK}/streaks.png")
    same("a symbol with streaks", [(s["line"], s["corners"][0]["y"], s["corners"][2]["y"], s["rows"]) for s in json.loads(page.value("JSON.stringify(pictures[0].symbols)"))],
         [("]E0 (01)09501101530003", 0, 58, 42)])
    lines: Any
    for height, lines in ((1, ["]E0 (01)09501101530003"]), (9, [])):
        png(f"{WORK}/single-{height}.png", len(row), height, lambda y: light if y == height // 2 else b"\xff" * len(row))
        choose(page, f"{WORK}/single-{height}.png")
        same(f"a symbol in one of {height} rows", answers(page), lines)

    noise = random.Random(7)
    png(f"{WORK}/noise.png", 1000, 750, lambda y: bytes(noise.choices((0, 255), k=1000)))
    choose(page, f"{WORK}/noise.png")
    same("noise", (shown(page), answers(page)), ("refused 21 QuietZone", []))
    same("noise in a second", quickest(page, 1000) < 1000, True)
    png(f"{WORK}/fence.png", 640, 480, lambda y: (b"\0\0" + b"\xff" * 10) * 53 + b"\xff" * 4)
    choose(page, f"{WORK}/fence.png")
    same("thin stripes, all alike", (shown(page), answers(page)), ("none", []))
    same("thin stripes in two seconds", quickest(page, 2000) < 2000, True)


def large(page: Browser) -> None:
    """Large pictures, and the time for them."""
    row = symbol_row(3)
    line = bytearray(b"\xff" * 4000)
    for at in (20, 1000, 2000, 3000):
        line[at:at + len(row)] = bytes(255 * light for light in row)
    # No two rows that follow each other have the same runs, so each is read.
    shifted = [bytes(line[k:] + line[:k]) for k in range(7)]
    png(f"{WORK}/large.png", 4000, 3000, lambda y: shifted[y % 7])
    choose(page, f"{WORK}/large.png")
    same("the symbols of 4,000 by 3,000", answers(page), ["]E0 (01)09501101530003"] * 4)
    passed = quickest(page, 600)
    print(f"4,000 by 3,000 pixels: {passed:.0f} ms")
    same("4,000 by 3,000 in 0.6 seconds", passed < 600, True)
    photograph(page)
    png(f"{WORK}/huge.png", 8000, 8000, lambda y: b"\xff" * 8000)
    choose(page, f"{WORK}/huge.png")
    same("8,000 by 8,000", shown(page), "none")
    png(f"{WORK}/full.png", 8000, 8000, lambda y: shifted[y % 7] * 2)
    choose(page, f"{WORK}/full.png")
    same("the symbols of 8,000 by 8,000", answers(page), ["]E0 (01)09501101530003"] * 8)


def photograph(page: Browser) -> None:
    """A photograph of 4,000 by 3,000: the label is turned, the light falls, and there is a grain."""
    page.value("""(async () => {
        const canvas = new OffscreenCanvas(4000, 3000), pen = canvas.getContext('2d');
        pen.fillStyle = '#777';
        pen.fillRect(0, 0, 4000, 3000);
        pen.translate(2000, 1500);
        pen.rotate(12 * Math.PI / 180);
        pen.fillStyle = '#eee';
        pen.fillRect(-1100, -700, 2200, 1400);
        pen.fillStyle = '#222';
        %s.forEach((light, x) => light || pen.fillRect(x * 8 - 452, -300, 8, 500));
        pen.font = '90px sans-serif';
        pen.fillText('Noriladle, 500 g, best before the end of the year', -1000, -400);
        pen.fillText('9 501101 530003', -400, 320);
        const image = pen.getImageData(0, 0, 4000, 3000), { data } = image;
        for (let i = 0, seed = 1; i < data.length; i += 4) {
            seed = seed * 1664525 + 1013904223 >>> 0;
            const value = data[i] * (1 - 0.4 * (i / 4 %% 4000) / 4000) + (seed >>> 24) / 8 - 16;
            data[i] = data[i + 1] = data[i + 2] = value;
        }
        pen.putImageData(image, 0, 0);
        await take(new File([await canvas.convertToBlob({ type: 'image/jpeg', quality: 0.85 })], 'photograph.jpg'));
    })()""" % symbol_row(1))
    same("a photograph of 4,000 by 3,000", answers(page), ["]E0 (01)09501101530003"])
    passed = quickest(page, 1000)
    print(f"a photograph of 4,000 by 3,000 pixels: {passed:.0f} ms")
    same("a photograph of 4,000 by 3,000 in a second", passed < 1000, True)


def reads_odd_pictures(page: Browser) -> None:
    """Pictures that are transparent, animated, of 16 bits a channel: the symbol is read in each."""
    row = symbol_row(2)
    line = bytes(255 * light for light in row)
    deep = b"".join(bytes((value, value)) for value in line)
    with open(f"{WORK}/deep.png", "wb") as file:
        rows = zlib.compress(b"".join(b"\0" + deep for _ in range(9)))
        chunks = (b"IHDR", struct.pack(">IIBBBBB", len(row), 9, 16, 0, 0, 0, 0)), (b"IDAT", rows), (b"IEND", b"")
        file.write(b"\x89PNG\r\n\x1a\n" + b"".join(struct.pack(">I", len(data)) + name + data + struct.pack(">I", zlib.crc32(name + data))
                                                   for name, data in chunks))
    choose(page, f"{WORK}/deep.png")
    same("a picture of 16 bits a channel", answers(page), ["]E0 (01)09501101530003"])
    with open(f"{WORK}/moving.gif", "wb") as file:
        file.write(gif([line] * 9, [b"\xff" * len(row)] * 9))
    choose(page, f"{WORK}/moving.gif")
    same("an animated picture, its first frame", answers(page), ["]E0 (01)09501101530003"])


def main() -> bool:
    url = f"file://{ROOT}/page/index.html"
    page = Browser(f"{url}#read")
    try:
        print(page.call("Browser.getVersion")["product"])
        reads(page)
        refuses(page)
        reads_odd_pictures(page)
        takes_the_last(page)
        same("what scripts complained of", page.complaints, [])
    finally:
        page.close()
    with before_others():
        page = Browser(f"{url}#read")
        try:
            counts_symbols(page)
            large(page)
            same("what scripts complained of when they were large", page.complaints, [])
        finally:
            page.close()
        reads_by_camera(url)
    return ended()


if __name__ == "__main__":
    sys.exit(main())
