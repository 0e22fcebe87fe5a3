"""Compares the labels of the page with those of the command: the stock of 2,000 texts, and the parts of the labels of 1,000 lists. In 300 drawings
of the page, on its screen and as PNG, and as many of the command, as PNG and as PDF, it looks for dark dots that lie in no part.

Usage: drawn.py WORK. The parts are the rectangles that the proved library returns. Its last line is the counts.
"""
from __future__ import annotations

import base64
import ctypes
import io
import json
import os
import random
import subprocess
import sys
from typing import Any, Dict, Iterator, List, Optional, Sequence, Tuple

from browser import Browser
from comparisons import ended, same
from readback import ROOT
from noriladle import labels
from noriladle.labels._drawing import DOTS_IN_MM, cell_of
from noriladle.labels._layout import Layout
from PIL import Image, ImageDraw

WORK = sys.argv[1]
STOCKS = ["L7160", "3474", "5160", "L7163", "L7165", "3x3:65x90"]
EACH = 25
"""The labels of a look and a resolution on each of two kinds of stock: 2 looks, 3 resolutions and 2 kinds of stock make 300."""
NAMES = ["Öl", "Jagdwurst, jung, gejagt", "ÅNGSTRÖM Ůčinný", "Blütenhonig aus der Lüneburger Heide, cremig, 500 g", "Żółta gęś, świeża", "Ελαιόλαδο εξαιρετικό παρθένο 750 ml",
         "Квашеная капуста", "jjj fff ¥€@", "(Ǻ) {ŷ} [Ģ]", "Käse | 48 % _ Fett i. Tr. ~ Ǿ", "W" * 60, "fjord-jäger, je 100 g"]
LINES = ["jung & frisch", "Ůsti nad Labem", "1 kg = 12,90 €", "(j) ÇŞ", ""]
FORMS = ["4012345{:05}", "0{:010}", "9638{:03}"]
"""Numbers without their check digits, of EAN-13, UPC-A and EAN-8."""
STOCK_TEXTS, LISTS = 2_000, 1_000
HELPERS = """
    const usualFont = fontOf;
    globalThis.drawn = async (text, stock, dpi, look) => {
        const table = tableOf(await fileRead(new TextEncoder().encode(text)));
        const cell = cellOf(stockOf(STOCKS[stock] ?? stock), DOTS_IN_MM[dpi]), articles = articlesOf(table).filter(({ fault }) => !fault);
        const layout = new Layout(articles, cell, look, 0), faults = articles.map((article) => layout.measure(article));
        layout.plan();
        return { cell, drawings: articles.map((article, i) => faults[i] ? { fault: faults[i] } : layout.draw(article)) };
    };
    globalThis.draw = async (text, stock, dpi, look) => {
        const { cell, drawings: all } = await drawn(text, stock, dpi, look), { width, height, dots } = cell, drawings = all.filter(({ fault }) => !fault);
        globalThis.kept = { cell, dpi, drawings, stock: { page: { width: width / dots, height: height / dots } } };
        return { ...cell, parts: drawings.map(({ boxes, texts }) => [...boxes, ...texts.map(({ box }) => box)]) };
    };
    globalThis.parts = async (fonts, ...asked) => {
        const given = fonts.map(({ widths, ...others }) => ({ ...others, widths: new Uint16Array(Uint8Array.from(atob(widths), (byte) => byte.charCodeAt(0)).buffer) }));
        fontOf = (signs, isBold) => given[Number(isBold)];
        const { drawings } = await drawn(...asked);
        fontOf = usualFont;
        return drawings.map(({ fault, boxes, texts }) => fault ? null
            : [boxes, texts.map(({ text, size, base, cell, box, isBold, isStruck }) => [text, size, base, cell, box, isBold, isStruck])]);
    };
    globalThis.stocks = (texts) => texts.map((text) => {
        const stock = stockOf(text);
        return stock && [stock.width, stock.height, stock.page.width, stock.page.height, stock.aside, stock.above, stock.isRoll && stock.cells > 1, stock.cells,
            ...[0, stock.cells >> 1, stock.cells - 1].flatMap((cell) => Object.values(stock.place(cell)))];
    });
    const pageOfOne = (number) => [{ left: 0, top: 0, drawing: kept.drawings[number] }];
    globalThis.show = (number) => {
        const sheet = svgElement(svgOfPage(pageOfOne(number), kept.stock, kept.cell.dots));
        for (const side of ["width", "height"]) sheet.setAttribute(side, kept.cell[side]);
        sheet.style.cssText = "position: absolute; left: 0; top: 0; max-width: none; max-height: none";
        document.body.replaceChildren(sheet);
    };
    globalThis.pngOf = async (number) =>
        btoa(Array.from(await pngOfPage(pageOfOne(number), kept.stock, kept.dpi), (byte) => String.fromCharCode(byte)).join(""));
"""
Box = Tuple[int, int, int, int]


def checked(text: str) -> str:
    return text + str(-sum(int(digit) * (1 if at % 2 else 3) for at, digit in enumerate(reversed(text))) % 10)


def listed(chance: random.Random, count: int = 4 * EACH) -> str:
    """A list of articles with all texts that a label may have."""
    rows = ["ean;name;price;old price;price per kg;deposit;batch;line 1;line 2"]
    for number in range(count):
        cents = chance.choice([chance.randrange(5, 2_000), chance.randrange(5, 200_000)])
        fields = [("", f"{cents / 100 + 3:.2f} €"), ("", "12.90 €"), ("", "0.25 €"), ("", "Lj42"), LINES, LINES]
        cells = [chance.choice(NAMES), f"{cents / 100:.2f} €", *(chance.choice(it) for it in fields)]
        rows.append(";".join([checked(chance.choice(FORMS).format(number + 100)), *cells]))
    return "\n".join(rows) + "\n"


def stock_told(chance: random.Random) -> str:
    """A text that may say what a stock is."""
    def length(least: int, most: int) -> str:
        return chance.choice([str(chance.randrange(least, most)), f"{chance.uniform(least, most):.{chance.randrange(1, 5)}f}"])
    size = f"{length(3, 110)}x{length(3, 120)}"
    text = f"{chance.randrange(7)}x{chance.randrange(14)}:{size}" if chance.random() < 0.8 else size
    text += f"+{length(0, 6)}+{length(0, 6)}" if chance.random() < 0.5 else ""
    text += f"@{chance.choice(['a4', 'letter', 'a5', 'a6', 'a7', f'{length(40, 300)}x{length(40, 400)}'])}" if chance.random() < 0.6 else ""
    text += f"/{length(0, 20)}/{length(0, 20)}" if chance.random() < 0.3 else ""
    other = size if chance.random() < 0.8 else f"{length(3, 110)}x{length(3, 120)}"
    text += f"&{chance.randrange(4)}x{chance.randrange(4)}:{other}{chance.choice(['', '@a5', '/5/100', '@100x200'])}" if chance.random() < 0.2 else ""
    return text.replace("x", "*", 1) if chance.random() < 0.05 else text


def stock_by_command(text: str) -> Optional[List[float]]:
    try:
        stock = labels.stock_of(text)
    except ValueError:
        return None
    places = [length for cell in (0, stock.cells >> 1, stock.cells - 1) for length in stock.place(cell)]
    return [stock.width, stock.height, *stock.page, *stock.padding, stock.has_row, stock.cells, *places]


def stocks_alike(page: Browser, chance: random.Random) -> None:
    texts = [*labels.KNOWN.values(), *(stock_told(chance) for _ in range(STOCK_TEXTS))]
    told = page.value(f"stocks({json.dumps(texts)})")
    wanted = [stock_by_command(text) for text in texts]
    for text, one, other in zip(texts, told, wanted):
        same(f"the stock {text}", one and [round(length, 6) for length in one], other and [round(length, 6) for length in other])
    same("enough of the texts are stock", sum(map(bool, wanted)) > STOCK_TEXTS / 8, True)


def font_told(lent: Any) -> Dict[str, Any]:
    """A font as it is lent to the library, as the page has it."""
    widths = ctypes.string_at(ctypes.c_void_p.from_buffer(lent).value or 0, 2 * lent.widths.count)
    return {"widths": base64.b64encode(widths).decode(), "other": lent.other, "up": lent.ascent, "down": lent.descent, "digits": lent.digits}


def parts_alike(page: Browser, chance: random.Random, stocks: Sequence[str]) -> int:
    """Compares the parts of the labels of a list, and returns how many labels it has."""
    text, stock, dpi, look = listed(chance, chance.randrange(1, 7)), chance.choice(stocks), chance.choice([203, 300, 600]), chance.choice(["price", "bars"])
    own = labels.Look(resolution=dpi, is_price_first=look == "price")
    articles = labels.read_list(text.encode(), 2026).articles
    layout = Layout(cell_of(labels.stock_of(stock), own), labels.fonts_of(), own, 2026, articles)
    told = page.value(f"parts({json.dumps([font_told(lent) for lent in layout._look.fonts])}, {', '.join(map(json.dumps, (text, stock, dpi, look)))})")
    items = [tried(layout.item, article) for article in articles]
    layout.plan([item for item in items if item])
    drawn = [item and tried(layout.drawn, item) for item in items]
    wanted = [it and [list(map(list, it.boxes)), [[text.text, text.size, text.base, text.cell, list(text.box), text.font.is_bold, text.is_struck] for text in it.texts]]
              for it in drawn]
    same(f"the parts of {text!r} on {stock} at {dpi} dpi, {look}", told, wanted)
    return sum(map(bool, drawn))


def tried(call: Any, given: Any) -> Any:
    """What a call returns, or nothing if there is no such label."""
    try:
        return call(given)
    except ValueError:
        return None


def beside(image: Image.Image, parts: Sequence[Box]) -> int:
    """How many dots of an image are dark, and lie in no part."""
    rest = image.convert("L")
    pen = ImageDraw.Draw(rest)
    for left, top, wide, high in parts:
        pen.rectangle((left, top, left + wide - 1, top + high - 1), fill=255)
    return sum(rest.histogram()[:128])


def by_page(page: Browser, text: str, *asked: Any) -> int:
    """Looks at labels that the page draws, and returns how many they are."""
    told = page.value(f"draw({', '.join(map(json.dumps, (text, *asked)))})")
    clip = {"x": 0, "y": 0, "width": told["width"], "height": told["height"], "scale": 1}
    for number, parts in enumerate(told["parts"][:EACH]):
        page.value(f"show({number})")
        shown = page.call("Page.captureScreenshot", format="png", captureBeyondViewport=True, clip=clip)["data"]
        for what, data in (("on the screen", shown), ("as PNG", page.value(f"pngOf({number})"))):
            image = Image.open(io.BytesIO(base64.b64decode(data))).convert("L")
            same(f"dots beside the parts of label {number} {what}, {asked}", beside(image, parts), 0)
            left, top, wide, high = parts[0]
            same(f"the first bar of label {number} {what}", image.crop((left, top, left + wide, top + high)).getextrema()[1] < 128, True)
    return min(EACH, len(told["parts"]))


def pages_by_command(text: str, stock: str, dpi: int, look: str) -> Iterator[Tuple[str, Image.Image, Any]]:
    """The pages of the command as PNG and as PDF, with their labels."""
    own = labels.Look(resolution=dpi, is_price_first=look == "price")
    made = labels.make(labels.read_list(text.encode(), 2026), labels.stock_of(stock), 2026, look=own, leave_out=True)
    path = os.path.join(WORK, "letters.pdf")
    with open(path, "wb") as file:
        file.write(made.pdf())
    subprocess.run(["pdftoppm", "-r", str(25.4 * DOTS_IN_MM[dpi]), "-gray", path, path], check=True)
    names = sorted(name for name in os.listdir(WORK) if name.startswith("letters.pdf-"))
    for page, png, name in zip(made.pages(), made.pngs(), names):
        yield "PNG", Image.open(io.BytesIO(png)), page
        with Image.open(os.path.join(WORK, name)) as image:
            yield "PDF", image.copy(), page
        os.remove(os.path.join(WORK, name))


def by_command(text: str, *asked: Any) -> int:
    """Looks at pages that the command makes, and returns how many labels they have."""
    count = 0
    for what, image, page in pages_by_command(text, *asked):
        parts = [(at.left + left, at.top + top, wide, high) for at in page
                 for left, top, wide, high in [*at.drawing.boxes, *(text.box for text in at.drawing.texts)]]
        if what == "PDF":
            # pdftoppm moves large letters to whole dots.
            parts = [(left - 1, top - 1, wide + 2, high + 2) for left, top, wide, high in parts]
        same(f"dots beside the parts of a {what} of the command, {asked}", beside(image, parts), 0)
        count += len(page) if what == "PNG" else 0
    return count


def main() -> bool:
    chance, drawn, made = random.Random(5), 0, 0
    page = Browser(f"file://{ROOT}/page/index.html")
    try:
        page.value(HELPERS)
        stocks_alike(page, chance)
        kinds = [*STOCKS, "57x32", "99010", "2x1:50x25+2+0@104x25", "3x3:60x90"]
        alike = sum(parts_alike(page, chance, kinds) for _ in range(LISTS))
        same("enough labels of the lists", alike > LISTS, True)
        for number, (look, dpi) in enumerate((look, dpi) for look in ("price", "bars") for dpi in (203, 300, 600)):
            for stock in (STOCKS[number], STOCKS[(number + 1) % len(STOCKS)]):
                text = listed(chance)
                drawn += by_page(page, text, stock, dpi, look)
                made += by_command(text, stock, dpi, look)
    finally:
        page.close()
    same("drawings of the page", drawn, 300)
    same("as many of the command", made >= 300, True)
    print(f"{STOCK_TEXTS} texts of stock; {alike} labels of {LISTS} lists; {drawn} drawings of the page, {made} of the command")
    return ended()


if __name__ == "__main__":
    sys.exit(main())
