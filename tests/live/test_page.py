"""A till that is a web page, in headless Chromium, with a simulated scanner. Needs chromium and python3-websockets."""
from __future__ import annotations

import argparse
import asyncio
import functools
import http.server
import json
import os
import re
import signal
import socket
import sys
import threading
import time
from pathlib import Path
from typing import Any, Iterator

import pytest
import websockets

from gateway_and_scanners import ROW, Gateway, Serial
from noriladle import _gateway, _web
from noriladle._door import Places
from noriladle._health import Metrics
from noriladle._log import Log
from noriladle.live import Hub
from program_and_rows import ROOT

sys.path.insert(0, str(ROOT / "tests/page"))
from browser import Browser  # noqa: E402

LIMIT = 200
READY = "document.getElementById('state')?.textContent === 'ready'"
SHOWN = "[...document.querySelectorAll('#sold tr')].map(row => [...row.cells].map(cell => cell.textContent).join('|'))"
MESSAGE = "document.getElementById('message').textContent"


@pytest.fixture
def gateway(tmp_path: Path) -> Iterator[Gateway]:
    with Gateway(tmp_path, "--web", "0", port=False) as it:
        yield it


class Quiet(http.server.SimpleHTTPRequestHandler):
    def log_message(self, *_: object) -> None:
        pass


@pytest.fixture
def page() -> Iterator[str]:
    """The address of the page, on a server of this machine."""
    with http.server.ThreadingHTTPServer(("127.0.0.1", 0), functools.partial(Quiet, directory=str(ROOT / "examples/till"))) as server:
        threading.Thread(target=server.serve_forever, daemon=True).start()
        yield f"http://127.0.0.1:{server.server_port}/till.html"
        server.shutdown()


def test_a_page_sells_what_is_scanned(gateway: Gateway, page: str, tmp_path: Path) -> None:
    """Articles with their prices and the total; what is refused, has no price or is lost is said; and it goes on with the next gateway.

    With PICTURE in the environment it leaves a picture of the page there."""
    browser = Browser(f"{page}?port={gateway.ports['web']}&lane=till-1", width=760, height=560, started=READY)
    try:
        with Serial("--gateway", gateway.unix, "--lane", "till-1") as scanner:
            def scan(text: bytes, message: str) -> None:
                scanner.send(text + b"\r")
                browser.until(f"{MESSAGE} === {message!r}", 10)

            scan(b"]E09501101530003", "Oat biscuits 1.95")
            scan(b"]E496385074", "Chewing gum 0.90")
            scan(b"]C10109501101530034" + b"10LOT7", "Butter 2.95")
            scan(b"]E09501101530044", "Scan again, please: refused 3 CheckDigit")
            scan(b"]E09501101530041", "Honey 5.50")
            scan(b"https://id.gs1.org/01/09501101530027", "Apple juice 1.60")
            assert browser.value(SHOWN) == [
                "Oat biscuits|09501101530003|1.95", "Chewing gum|00000096385074|0.90", "Butter|09501101530034|2.95",
                "Honey|09501101530041|5.50", "Apple juice|09501101530027|1.60",
            ]
            assert browser.value("document.getElementById('total').textContent") == "12.90"
            if "PICTURE" in os.environ:
                browser.picture(os.environ["PICTURE"])
            scan(b"]E04012345010008", "No price: 04012345010008")
            # The gateway goes, and what is scanned meanwhile is lost; the page says so when the next one is there.
            gateway.process.kill()
            gateway.process.communicate()
            browser.until(f"!({READY})")
            scanner.send(b"]E496385074\r")
            time.sleep(2.5)
            port = gateway.ports["web"]
            gateway.process = Gateway(tmp_path, "--web", str(port), port=False).process
            browser.until("!!document.querySelector('#sold tr.lost')")
            assert browser.value(SHOWN)[-1] == "Lost: 1. Scan again, please.||"
            scan(b"]E496385074", "Chewing gum 0.90")
            assert browser.value("document.getElementById('total').textContent") == "13.80"
    finally:
        browser.close()


def told(gateway: Gateway, path: str, **more: Any) -> Any:
    """The first line that a page of an origin gets, or the reason why it is closed."""
    async def ask() -> Any:
        try:
            async with websockets.connect(f"ws://127.0.0.1:{gateway.ports['web']}{path}", **more) as page:
                return await asyncio.wait_for(page.recv(), 1)
        except asyncio.TimeoutError:
            return "it waits"
        except websockets.ConnectionClosed as closed:
            return closed.reason
        except websockets.InvalidStatusCode as refused:
            return refused.status_code
    return asyncio.run(ask())


@pytest.mark.parametrize("origin, wanted", [
    (None, "it waits"), ("http://localhost:8000", "it waits"), ("https://127.0.0.1", "it waits"), ("file://", 403),
    ("https://evil.example", 403), ("null", 403),
    ("http://localhost.evil.example", 403),
])
def test_pages_of_others_may_not_watch(gateway: Gateway, origin: str | None, wanted: int | str) -> None:
    assert told(gateway, "/till-1", origin=origin) == wanted


def test_pages_of_a_named_origin_may_watch(tmp_path: Path) -> None:
    with Gateway(tmp_path, "--web", "0", "--origin", "https://till.example", port=False) as gateway:
        assert told(gateway, "/till-1", origin="https://till.example") == "it waits"
        assert told(gateway, "/till-1", origin="https://tills.example") == 403


def test_what_a_reload_changes(tmp_path: Path) -> None:
    """Whose pages may watch, how many lanes are kept, and what is logged."""
    file = tmp_path / "gateway.toml"
    file.write_text('lanes = 3\nkept = 1\norigin = ["https://one.example", "https://two.example"]\n')
    gateway = Gateway(tmp_path, "--web", "0", "--kept", "4", "--config", str(file))
    assert [told(gateway, "/till-1", origin=f"https://{name}.example") for name in ("one", "two", "three")] == ["it waits", "it waits", 403]
    with gateway.free_lane(), gateway.free_lane(), gateway.connect() as late:
        assert late.ask(ROW) == "closed: all 2 lanes for TCP are taken\n"
    file.write_text('lanes = 3\nkept = 2\norigin = ["https://three.example"]\nlog = "all"\njson = true\n')
    gateway.process.send_signal(signal.SIGHUP)
    assert json.loads(gateway.process.stderr.readline())["what"] == "loaded"
    assert [told(gateway, "/till-1", origin=f"https://{name}.example") for name in ("one", "two", "three")] == [403, 403, "it waits"]
    with gateway.free_lane(), gateway.connect() as late:
        assert late.ask(ROW) == "closed: all 1 lanes for TCP are taken\n"
    gateway.process.terminate()
    gateway.process.communicate(timeout=20)


def test_the_form_of_a_page(gateway: Gateway) -> None:
    """It has the time if the page says form=2, and no other word. The lane's name may be quoted."""
    for lane in ("till-1", "till%2D1"):
        assert re.fullmatch(r"- \d+\.\d{3} next -", told(gateway, f"/{lane}?form=2"))
    assert [told(gateway, f"/till-1{words}") for words in ("", "?form=1", "?form=3", "?form=2&form=2")] == ["it waits"] * 4


def test_a_page_stays(gateway: Gateway) -> None:
    """It has five seconds to ask for its lane, and then as long as it likes."""
    async def test() -> None:
        async with websockets.connect(f"ws://127.0.0.1:{gateway.ports['web']}/till-1?form=2") as page:
            for _ in range(3):
                assert re.fullmatch(r"- \d+\.\d{3} next -", await page.recv())

    asyncio.run(asyncio.wait_for(test(), 30))


def test_a_page_that_has_gone_is_forgotten() -> None:
    async def test() -> None:
        async with Hub(1, 1, 2026) as hub:
            gateway = _gateway.Gateway(hub, 60, 0, Places(10, 10), Log(), Metrics())
            server = await _web.serve(gateway, 0, argparse.Namespace(origin=[]))
            address = f"ws://127.0.0.1:{server.sockets[0].getsockname()[1]}/till-1?form=2"
            for _ in range(3):
                async with websockets.connect(address) as page:
                    assert "next" in await page.recv() and len(gateway.pages) == 1
                while gateway.pages:
                    await asyncio.sleep(0.01)
            server.close()
            await server.wait_closed()

    asyncio.run(asyncio.wait_for(test(), 30))


@pytest.mark.parametrize("path", ["/", "/../hub", "/a%20b", "/" + "x" * 65])
def test_no_name_of_a_lane(gateway: Gateway, path: str) -> None:
    assert told(gateway, path) == "a lane's name has up to 64 letters, digits and . _ : -"


def test_a_page_that_takes_nothing_holds_up_no_other(tmp_path: Path) -> None:
    """And is no till any more, once the buffers of its socket are full."""
    async def test(gateway: Gateway) -> None:
        small = socket.socket()
        small.setsockopt(socket.SOL_SOCKET, socket.SO_RCVBUF, 4_096)
        small.connect(("127.0.0.1", gateway.ports["web"]))
        slow = await websockets.connect(f"ws://127.0.0.1:{gateway.ports['web']}/till-1", sock=small, max_queue=1)
        quick = await websockets.connect(f"ws://127.0.0.1:{gateway.ports['web']}/till-1")
        reader, writer = await asyncio.open_unix_connection(gateway.unix)
        writer.write(b"scan till-1\n0\n")
        assert await reader.readline() == b"0 next\n" and await quick.recv() == "0 next"
        for begin in range(0, 20_000, 100):
            writer.write(b"".join(b"%d\t%s\n" % (number, b"x" * 200) for number in range(begin, begin + 100)))
            for number in range(begin, begin + 100):
                assert await quick.recv() == f"{number} unread: {'x' * 200}"
                await reader.readline()
        assert gateway.numbers()["noriladle_tills"] == "1"
        for end in (slow, quick):
            end.transport.abort()
        writer.close()

    with Gateway(tmp_path, "--web", "0", "--metrics", "0", port=False) as gateway:
        asyncio.run(asyncio.wait_for(test(gateway), 60))
