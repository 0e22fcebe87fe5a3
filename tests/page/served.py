"""Opens the page of `./noriladle page --share` as people do: on a telephone with a camera over https, whose browser does not know the certificate,
and on this machine; in headless Chromium and Firefox. The list is kept, scans become labels, and this machine's page opens when the command has ended.

Usage: served.py PROGRAM WORK. PROGRAM is gs1_hub. Its last line is the counts.
"""
from __future__ import annotations

import os
import signal
import subprocess
import sys
import time
from typing import Any

from browser import Browser
from comparisons import ended, same
from firefox import Firefox
from reading import PROGRAM, ROOT, TEXTS, WORK, blank, films, frame_of, row_of

SHARED = "127.0.0.2"
"""An address of this machine that stands for one in a local network."""
PAGE = TEXTS["page"]
LIST = "EAN;Article;Price\n9501101530003;Oat biscuits;1.95\n9501101530010;Rye bread;2.40\n96385074;Chewing gum;0.90\n"
LABELS = "document.getElementById('labels-told').innerText"
FOOT = "document.querySelector('footer strong').innerText"
KEPT = "navigator.serviceWorker.ready.then(() => new Promise((done) => setTimeout(() => done(true), 1000)))"


class Served:
    """The command, with its addresses on this machine and in the local network, and what it says."""

    def __init__(self) -> None:
        self.told = open(f"{WORK}/told", "w+", encoding="utf-8")
        env = {**os.environ, "XDG_CACHE_HOME": f"{WORK}/cache", "XDG_DATA_HOME": f"{WORK}/data"}
        self._process = subprocess.Popen([f"{ROOT}/noriladle", "page", "--share", "--address", SHARED, "--port", "0"], env=env,
                                         stdout=subprocess.PIPE, stderr=self.told, text=True)
        self.here, self.shared = (self._process.stdout.readline().strip() for _ in range(2))

    def says(self, words: str) -> bool:
        """Whether it says this within some seconds."""
        for _ in range(100):
            self.told.seek(0)
            if words in self.told.read():
                return True
            time.sleep(0.1)
        return False

    def close(self) -> int:
        self._process.send_signal(signal.SIGINT)
        return self._process.wait(30)


def scans(page: Browser) -> None:
    """Scans with the camera, one code after another, and makes labels of them."""
    page.click("#tab-read")
    page.value("at('scan-on').checked || at('scan-on').click(), at('camera').click()")
    page.until("pictures[0]?.symbols.length === 3", 120)
    page.value("at('camera').click()")
    page.click("#read-labels")
    page.until("!at('labels').hidden")
    page.value("document.made")


def on_a_telephone(served: Served) -> None:
    """The browser refuses the certificate until the person goes on. Then the camera works, and scans become labels."""
    films(f"{WORK}/walk.y4m", [blank] * 5 + [frame for code in ("ean13,9501101530003", "ean8,96385074", "upca,012345000065")
                                             for frame in [frame_of(row_of(code))] * 14 + [blank] * 4])
    switches = ["--use-fake-device-for-media-stream", f"--use-file-for-fake-video-capture={os.path.abspath(WORK)}/walk.y4m", "--use-fake-ui-for-media-stream"]
    page = Browser("about:blank", 390, 844, started="true", switches=switches, mobile=True)
    try:
        same("a browser that does not know the certificate", page.call("Page.navigate", url=served.shared).get("errorText"), "net::ERR_CERT_AUTHORITY_INVALID")
        same("what the command says of it", served.says("127.0.0.1 does not know the certificate: press there as said above"), True)
        page.until("location.protocol === 'chrome-error:' && document.readyState === 'complete'")
        # The browser's own page takes these letters for its button.
        for letter in "thisisunsafe":
            page.press(letter)
        page.until("document.readyState === 'complete' && !!document.started")
        page.value("document.started")
        page.until(f"{FOOT} === {PAGE['online']!r}")
        scans(page)
        same("without a list the codes are the list", sorted(page.value("at('list').value").split()), ["012345000065", "9501101530003", "96385074"])
        same("their labels", page.value(LABELS), "3 labels on 1 sheet")
        page.value("at('clear').click(), at('tab-read').click(), at('read-clear').click(), at('tab-labels').click()")
        page.fill("#list", LIST)
        page.until(f"{LABELS} === '3 labels on 1 sheet'")
        scans(page)
        same("labels of what was scanned", page.value("shop.made.labels.map(({ item }) => item.name).join()"), "Oat biscuits,Chewing gum")
        same("what says so", page.value("[at('scanned-told'), at('not-listed')].map((it) => it.innerText).join(' ')"),
             f"{PAGE['scannedOnly'].format(3)} {PAGE['notListed'].format('012345000065')}")
        page.picture(f"{WORK}/scanned.png")
        page.click("#scanned-all")
        page.until(f"{LABELS} === '3 labels on 1 sheet'")
        same("all articles again", page.value("at('scanned').hidden"), True)
        page.go(served.shared)
        same("the list is kept", page.value("at('list').value"), LIST)
        same("and so are its labels", page.value(LABELS), "3 labels on 1 sheet")
        page.value("at('clear').click()")
        page.go(served.shared)
        same("a list that was cleared", page.value("at('list').value"), "")
        same("what scripts complained of", [it for it in page.complaints if "ERR_CERT" not in it and "SSL" not in it], [])
        same("what was asked of others", [it for it in page.asked if not it.startswith((served.shared, "blob:", "data:", "about:"))], [])
    finally:
        page.close()


def in_firefox(served: Served) -> None:
    """The page over https, and the list that it keeps."""
    page = Firefox(served.shared, insecure=True)
    try:
        page.fill("#list", LIST)
        page.until(f"{LABELS} === '3 labels on 1 sheet'")
        page.go(served.shared)
        same("Firefox keeps the list", page.value("document.getElementById('list').value"), LIST)
    finally:
        page.close()


def here(served: Served) -> None:
    """On this machine the page opens with its list after the command has ended."""
    chromium, firefox = Browser(served.here), Firefox(served.here)
    try:
        page: Any
        for page in (chromium, firefox):
            page.fill("#list", LIST)
            page.until(f"{LABELS} === '3 labels on 1 sheet'")
            page.value(KEPT)
        same("its end", served.close(), 130)
        for name, page in (("Chromium", chromium), ("Firefox", firefox)):
            page.go(served.here)
            same(f"the list without the command in {name}", page.value("document.getElementById('list').value"), LIST)
            same(f"its labels in {name}", page.value(LABELS), "3 labels on 1 sheet")
            same(f"what it says at its foot in {name}", page.value(FOOT), PAGE["offline"])
    finally:
        chromium.close()
        firefox.close()


def main() -> bool:
    served = Served()
    same("its addresses", (served.here.startswith("http://127.0.0.1:"), served.shared.startswith(f"https://{SHARED}:")), (True, True))
    try:
        on_a_telephone(served)
        in_firefox(served)
        here(served)
    finally:
        if served._process.poll() is None:
            served.close()
    return ended()


if __name__ == "__main__":
    sys.exit(main())
