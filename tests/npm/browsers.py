"""Reads drawn labels by the package in Chromium and Firefox, under the Content Security Policy of its README. Usage: browsers.py PACKAGE WORK.

The last line is the counts. A browser that is not installed is skipped, and counted.
"""
from __future__ import annotations

import http.server
import json
import os
import re
import shutil
import signal
import subprocess
import sys
import threading
from typing import Sequence

HERE = os.path.dirname(os.path.abspath(__file__))
PACKAGE, WORK = (os.path.abspath(word) for word in sys.argv[1:3])
SECONDS = 120
BROWSERS = {
    "chromium": ["--headless", "--no-sandbox", "--disable-gpu", "--user-data-dir={}"],
    "firefox": ["--headless", "--no-remote", "--profile", "{}"],
}


class Site(http.server.SimpleHTTPRequestHandler):
    """The package, the page that tests it, and what the page says."""

    told: list[str] | None = None
    done = threading.Event()

    def translate_path(self, path: str) -> str:
        name = path.partition("?")[0]
        return os.path.join(PACKAGE, name[len("/package/"):]) if name.startswith("/package/") else os.path.join(HERE, "browser.js")

    def end_headers(self) -> None:
        with open(os.path.join(PACKAGE, "README.md"), encoding="utf-8") as file:
            policy = re.search(r"needs `(script-src [^`]*)`, and `(worker-src [^`]*)`", file.read())
        self.send_header("Content-Security-Policy", f"default-src 'none'; connect-src 'self'; img-src data: blob:; {policy[1]}; {policy[2]}")
        super().end_headers()

    def do_GET(self) -> None:
        if self.path != "/":
            super().do_GET()
            return
        self.send_response(200)
        self.send_header("Content-Type", "text/html")
        self.end_headers()
        self.wfile.write(b'<!doctype html><script type="module" src="/browser.js"></script>')

    def do_POST(self) -> None:
        type(self).told = json.loads(self.rfile.read(int(self.headers["Content-Length"])))
        self.send_response(204)
        self.end_headers()
        self.done.set()

    def log_message(self, *_: object) -> None:
        pass


def told_by(browser: str, words: Sequence[str]) -> list[str]:
    """What the page says in a browser."""
    with http.server.ThreadingHTTPServer(("127.0.0.1", 0), Site) as server:
        Site.done, Site.told = threading.Event(), None
        threading.Thread(target=server.serve_forever, daemon=True).start()
        profile = os.path.join(WORK, browser)
        os.makedirs(profile)
        address = f"http://127.0.0.1:{server.server_port}/"
        run = subprocess.Popen([browser, *(word.format(profile) for word in words), address], stdout=subprocess.DEVNULL, stderr=subprocess.DEVNULL, start_new_session=True)
        Site.done.wait(SECONDS)
        os.killpg(run.pid, signal.SIGKILL)
        run.wait()
        server.shutdown()
    return Site.told if Site.told is not None else [f"it said nothing in {SECONDS} seconds"]


def main() -> bool:
    passed = wrong = skipped = 0
    for browser, words in BROWSERS.items():
        if not shutil.which(browser):
            skipped += 1
            continue
        told = told_by(browser, words)
        passed, wrong = passed + told.count(""), wrong + len(told) - told.count("")
        print("".join(f"{browser}: {it}\n" for it in told if it), end="", file=sys.stderr)
    print(f"{passed} passed in browsers, {wrong} failed, {skipped} skipped")
    return wrong > 0


sys.exit(main())
