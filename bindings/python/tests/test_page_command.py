"""``noriladle page``: what it serves and to whom, over HTTP and HTTPS, its limits, its certificate and its words."""
from __future__ import annotations

import http.client
import http.server
import os
import socket
import ssl
import subprocess
import threading
import time
from concurrent.futures import ThreadPoolExecutor
from http.client import HTTPMessage
from pathlib import Path
from ssl import SSLContext
from typing import Any, Callable, Iterator, NoReturn, Sequence

import pytest

from noriladle import _certificate, _page_server
from noriladle.__main__ import main
from noriladle._certificate import Certificate, NoCertificate, certificate_of
from noriladle._page_server import PageFile, PageServer, files_of
from noriladle.commands import WrongWords, page

SHARED = "127.0.0.2"
"""An address of this machine that stands for one in a local network."""


@pytest.fixture(name="files")
def _files(tmp_path: Path) -> dict[str, PageFile]:
    folder = tmp_path / "page"
    (folder / "out").mkdir(parents=True)
    (folder / "index.html").write_text("<!doctype html>page")
    (folder / "page.js").write_text("'use strict';")
    (folder / "notes.txt").write_text("not of the page")
    (folder / "out" / "inner.js").write_text("not of the page")
    return files_of(folder)


@pytest.fixture(name="data")
def _data(tmp_path: Path, monkeypatch: pytest.MonkeyPatch) -> Path:
    monkeypatch.setenv("XDG_DATA_HOME", str(tmp_path / "data"))
    return tmp_path / "data" / "noriladle"


@pytest.fixture(name="serve")
def _serve(files: dict[str, PageFile]) -> Iterator[Callable[..., PageServer]]:
    servers = []

    def serve(address: str = "127.0.0.1", hosts: Sequence[str] = ("127.0.0.1", "localhost"), **more: Any) -> PageServer:
        server = PageServer((address, 0), files, hosts, **more)
        threading.Thread(target=server.serve_forever, args=(0.02,), daemon=True).start()
        servers.append(server)
        return server

    yield serve
    for server in servers:
        server.shutdown()
        server.server_close()


def asked(server: PageServer, method: str = "GET", path: str = "/", headers: Sequence[tuple[str, str]] = (),
          body: bytes | None = None) -> tuple[int, HTTPMessage, bytes]:
    """The status, the headers and the body of an answer."""
    connection = http.client.HTTPConnection("127.0.0.1", server.port, timeout=5)
    connection.putrequest(method, path, skip_host=True)
    for name, value in headers or [("Host", f"127.0.0.1:{server.port}")]:
        connection.putheader(name, value)
    connection.endheaders(body)
    answer = connection.getresponse()
    told = answer.status, answer.headers, answer.read()
    connection.close()
    return told


def test_it_serves_the_files_of_the_page(serve: Callable[..., PageServer]) -> None:
    server = serve()
    status, headers, body = asked(server)
    assert (status, body, headers["Content-Type"]) == (200, b"<!doctype html>page", "text/html; charset=utf-8")
    assert (headers["X-Content-Type-Options"], headers["X-Frame-Options"]) == ("nosniff", "DENY")
    assert asked(server, path="/page.js?now=1")[2] == b"'use strict';"
    assert asked(server, headers=[("Host", f"LocalHost:{server.port}")])[0] == 200
    known = [("Host", f"localhost:{server.port}"), ("If-None-Match", headers["ETag"])]
    assert (asked(server, headers=known)[0], asked(server, headers=known)[2]) == (304, b"")
    assert asked(server, path="/page.js", headers=known)[0] == 200


def test_head_has_the_length_and_no_body(serve: Callable[..., PageServer]) -> None:
    status, headers, body = asked(serve(), "HEAD")
    assert (status, headers["Content-Length"], body) == (200, "19", b"")


@pytest.mark.parametrize("path", [
    "/notes.txt", "/out/inner.js", "/out", "/out/", "/../page/page.js", "/%2e%2e/page.js", "/index.html/", "/./page.js",
    "/Index.html", "/etc/passwd", "http://127.0.0.1/page.js", "page.js", "*",
])
def test_it_serves_nothing_else(serve: Callable[..., PageServer], path: str) -> None:
    assert asked(serve(), path=path)[0] == 404


@pytest.mark.parametrize("method", ["POST", "PUT", "DELETE", "OPTIONS", "TRACE", "PATCH", "CONNECT", "get", "QUIT"])
def test_get_and_head_alone(serve: Callable[..., PageServer], method: str) -> None:
    status, headers, _ = asked(serve(), method)
    assert (status, headers["Connection"]) == (501, "close")


@pytest.mark.parametrize("hosts", [
    [], ["evil.example"], ["127.0.0.1"], ["127.0.0.1:1"], ["127.0.0.1:PORT", "127.0.0.1:PORT"], ["127.0.0.1:PORT.evil.example"], [""],
])
def test_the_host_is_looked_at(serve: Callable[..., PageServer], hosts: list[str]) -> None:
    server = serve()
    headers = [("Host", host.replace("PORT", str(server.port))) for host in hosts] or [("Accept", "*/*")]
    status, _, body = asked(server, headers=headers)
    assert status == 421 and b"doctype html>page" not in body


def test_a_body_ends_the_connection(serve: Callable[..., PageServer]) -> None:
    """What stands after it is no second request."""
    server = serve()
    with socket.create_connection(("127.0.0.1", server.port), 5) as plain:
        head = f"Host: 127.0.0.1:{server.port}\r\n"
        plain.sendall(f"GET / HTTP/1.1\r\n{head}Content-Length: 40\r\n\r\nGET /page.js HTTP/1.1\r\n{head}\r\n".encode())
        told = b"".join(iter(lambda: plain.recv(65536), b""))
    assert told.count(b"HTTP/1.1 ") == 1 and b"use strict" not in told


def test_one_connection_takes_many_requests(serve: Callable[..., PageServer]) -> None:
    server = serve()
    connection = http.client.HTTPConnection("127.0.0.1", server.port, timeout=5)
    for path in ("/", "/page.js", "/none", "/"):
        connection.request("GET", path)
        assert connection.getresponse().read()
    connection.close()


def test_connections_are_bounded(serve: Callable[..., PageServer], monkeypatch: pytest.MonkeyPatch) -> None:
    monkeypatch.setattr(_page_server, "MOST_OF_ONE", 3)
    server = serve()
    held = [socket.create_connection(("127.0.0.1", server.port), 5) for _ in range(3)]
    _until(lambda: len(server._open) == 3)
    with socket.create_connection(("127.0.0.1", server.port), 5) as fourth:
        assert fourth.recv(1) == b""
    # Another address has its own.
    with socket.create_connection(("127.0.0.1", server.port), 5, (SHARED, 0)) as other:
        other.sendall(f"HEAD / HTTP/1.1\r\nHost: 127.0.0.1:{server.port}\r\n\r\n".encode())
        assert other.recv(12) == b"HTTP/1.1 200"
    held.pop().close()
    _until(lambda: len(server._open) == 2)
    assert asked(server)[0] == 200
    monkeypatch.setattr(_page_server, "MOST", 2)
    with pytest.raises(OSError):
        asked(server)
    for one in held:
        one.close()


def test_no_connection_lasts(serve: Callable[..., PageServer], monkeypatch: pytest.MonkeyPatch) -> None:
    monkeypatch.setattr(_page_server, "LIFE", 0.2)
    server = serve()
    with socket.create_connection(("127.0.0.1", server.port), 5) as slow:
        assert slow.recv(1) == b""
    _until(lambda: not server._open)


def test_it_waits_for_nobody(serve: Callable[..., PageServer], monkeypatch: pytest.MonkeyPatch) -> None:
    monkeypatch.setattr(_page_server, "WAIT", 0.2)
    with socket.create_connection(("127.0.0.1", serve().port), 5) as slow:
        slow.sendall(b"GET / HT")
        assert slow.recv(1) == b""


def _until(holds: Callable[..., object]) -> None:
    for _ in range(250):
        if holds():
            return
        time.sleep(0.02)
    raise AssertionError("it took more than five seconds")


def test_https_from_a_machine_that_trusts_the_certificate(serve: Callable[..., PageServer], data: Path) -> None:
    certificate = certificate_of(SHARED)
    server = serve(SHARED, [SHARED], context=certificate.context())
    trusting = ssl.create_default_context(cafile=str(certificate.certificate))
    with ThreadPoolExecutor(8) as pool:
        assert {*pool.map(lambda _: _fetched(server, trusting), range(24))} == {(200, b"<!doctype html>page")}
    with socket.create_connection((SHARED, server.port), 5) as plain, pytest.raises(ssl.SSLCertVerificationError):
        trusting.wrap_socket(plain, server_hostname="127.0.0.3")


def _fetched(server: PageServer, context: SSLContext) -> tuple[int, bytes]:
    connection = http.client.HTTPSConnection(SHARED, server.port, timeout=10, context=context)
    connection.request("GET", "/")
    answer = connection.getresponse()
    told = answer.status, answer.read()
    connection.close()
    return told


def test_https_to_a_telephone_that_does_not(serve: Callable[..., PageServer], data: Path) -> None:
    refused: list[str] = []
    server = serve(SHARED, [SHARED], context=certificate_of(SHARED).context(), refused=refused.append)
    with pytest.raises(ssl.SSLCertVerificationError):
        _fetched(server, ssl.create_default_context())
    _until(lambda: refused == [SHARED] or refused == ["127.0.0.1"])
    _until(lambda: not server._open)


def test_http_where_https_is_served_leads_there(serve: Callable[..., PageServer], data: Path) -> None:
    server = serve(SHARED, [SHARED], context=certificate_of(SHARED).context())
    connection = http.client.HTTPConnection(SHARED, server.port, timeout=5)
    connection.request("GET", "/page.js", headers={"Host": "evil.example"})
    answer = connection.getresponse()
    assert (answer.status, answer.headers["Location"]) == (301, f"https://{SHARED}:{server.port}/")
    connection.close()
    with socket.create_connection((SHARED, server.port), 5) as empty:
        empty.shutdown(socket.SHUT_WR)
        assert empty.recv(1) in (b"", b"H")


def test_the_certificate_is_made_once_and_its_key_is_the_users(data: Path) -> None:
    first = certificate_of(SHARED)
    assert [path.stat().st_mode & 0o777 for path in (data, first.key)] == [0o700, 0o600]
    told = first.certificate.read_bytes(), first.key.read_bytes()
    assert b"KEY" not in told[0]
    shown = subprocess.run(["openssl", "x509", "-in", str(first.certificate), "-noout", "-fingerprint", "-sha256", "-text"],
                           capture_output=True, text=True, check=True).stdout
    assert f"Fingerprint={first.fingerprint()}\n" in shown and f"IP:{SHARED}/255.255.255.255\n" in shown
    again = certificate_of(SHARED)
    assert (again.certificate.read_bytes(), again.key.read_bytes()) == told
    assert certificate_of("127.0.0.3").fingerprint() != first.fingerprint()
    assert sorted(path.name for path in data.iterdir()) == sorted(
        f"page-{address}.{end}" for address in (SHARED, "127.0.0.3") for end in ("crt", "key"))


def _spoil_key(made: Certificate) -> None:
    made.key.write_text("no key")


def _swap(made: Certificate) -> None:
    made.key.write_bytes(certificate_of("127.0.0.3").key.read_bytes())


def _show(made: Certificate) -> None:
    made.key.chmod(0o644)


def _drop(made: Certificate) -> None:
    made.certificate.unlink()


@pytest.mark.parametrize("spoil", [_spoil_key, _swap, _show, _drop])
def test_a_certificate_that_does_not_serve_is_made_anew(data: Path, spoil: Callable[[Certificate], None]) -> None:
    made = certificate_of(SHARED)
    before = made.fingerprint()
    spoil(made)
    again = certificate_of(SHARED)
    assert again.fingerprint() != before and again.context()
    assert again.key.stat().st_mode & 0o777 == 0o600


@pytest.mark.parametrize("days, is_kept", [(0, True), (769, True), (771, False), (900, False), (-2, False)])
def test_a_certificate_that_ends_soon_is_made_anew(data: Path, monkeypatch: pytest.MonkeyPatch, days: int, is_kept: bool) -> None:
    before, now = certificate_of(SHARED).fingerprint(), time.time() + 60
    monkeypatch.setattr(_certificate.time, "time", lambda: now + days * 86400)
    assert (certificate_of(SHARED).fingerprint() == before) is is_kept


def test_without_openssl(data: Path, monkeypatch: pytest.MonkeyPatch) -> None:
    monkeypatch.setenv("PATH", str(data))
    with pytest.raises(NoCertificate, match="apt-get install openssl"):
        certificate_of(SHARED)
    assert not [*data.iterdir()]


@pytest.mark.parametrize("words, said", [
    (["--port", "65536"], "'65536' is no port from 0 to 65535"),
    (["--port", "-1"], "'-1' is no port from 0 to 65535"),
    (["--address", "192.168.1.5"], "--address is for --share"),
    (["--share", "--address", "8.8.8.8"], "8.8.8.8 is no address of a local network"),
    (["--share", "--address", "0.0.0.0"], "0.0.0.0 is no address of a local network"),
    (["--share", "--address", "127.0.0.1"], "127.0.0.1 is no address of a local network"),
    (["--share", "--address", "shop"], "'shop' is no IPv4 address"),
])
def test_wrong_words(words: list[str], said: str, capsys: pytest.CaptureFixture[str]) -> None:
    assert main(["page", *words]) == 2
    assert said in capsys.readouterr().err


def test_without_the_page(capsys: pytest.CaptureFixture[str], monkeypatch: pytest.MonkeyPatch, tmp_path: Path) -> None:
    monkeypatch.setattr(page, "_module", str(tmp_path / "__init__.py"))
    assert main(["page"]) == 2
    assert "the page is not in" in capsys.readouterr().err


@pytest.mark.parametrize("address, port, said", [
    ("127.0.0.1", None, "the port is busy: name another by --port"),
    ("127.0.0.1", 1, "this port is for root alone: name one from 1024 on by --port"),
    ("192.0.2.7", 0, "this is no address of this machine: name one by --address"),
])
def test_a_port_that_cannot_be_had(files: dict[str, PageFile], monkeypatch: pytest.MonkeyPatch, address: str, port: int | None,
                                   said: str, serve: Callable[..., PageServer]) -> None:
    if port == 1:
        monkeypatch.setattr(page, "PageServer", _forbidden)
    with pytest.raises(OSError) as caught:
        page._bound(address, serve().port if port is None else port, files, ["127.0.0.1"])
    assert caught.value.strerror == said and caught.value.filename.startswith(f"{address}:")


def _forbidden(*_: object) -> NoReturn:
    raise PermissionError(13, "Permission denied")


def test_the_usual_port_is_busy(files: dict[str, PageFile], monkeypatch: pytest.MonkeyPatch, serve: Callable[..., PageServer],
                                capsys: pytest.CaptureFixture[str]) -> None:
    busy = serve().port
    monkeypatch.setattr(page, "PORT", busy)
    server = page._bound("127.0.0.1", None, files, ["127.0.0.1"])
    assert server.port != busy and f"port {busy} is busy" in capsys.readouterr().err
    server.server_close()


def test_share(files: dict[str, PageFile], data: Path, monkeypatch: pytest.MonkeyPatch, capsys: pytest.CaptureFixture[str]) -> None:
    """The whole command, up to where it would run for good."""
    made = []
    monkeypatch.setattr(page, "_files", lambda: files)
    monkeypatch.setattr(PageServer, "serve_forever", lambda self, *_: made.append(self))
    assert main(["page", "--share", "--address", SHARED, "--port", "0"]) == 0
    out, err = capsys.readouterr()
    ports = {server.port for server in made}
    assert len(made) == 2 and len(ports) == 1 and out == f"http://127.0.0.1:{min(ports)}/\nhttps://{SHARED}:{min(ports)}/\n"
    assert {server.server_address[0] for server in made} == {"127.0.0.1", SHARED}
    for said in ("Safari            Show Details", certificate_of(SHARED).fingerprint(), str(data / f"page-{SHARED}.crt"), "Ctrl-C"):
        assert said in err
    for server in made:
        server.server_close()


def test_without_share_only_this_machine_is_served(files: dict[str, PageFile], data: Path, monkeypatch: pytest.MonkeyPatch,
                                                   capsys: pytest.CaptureFixture[str]) -> None:
    made = []
    monkeypatch.setattr(page, "_files", lambda: files)
    monkeypatch.setattr(PageServer, "serve_forever", lambda self, *_: made.append(self))
    assert main(["page", "--port", "0"]) == 0
    assert [server.server_address[0] for server in made] == ["127.0.0.1"] and not data.exists()
    assert "https" not in "".join(capsys.readouterr())
    made[0].server_close()


def test_the_address_in_the_network(monkeypatch: pytest.MonkeyPatch) -> None:
    class Probe:
        """A socket without a network, or with this address in it."""
        def __init__(self, found: str) -> None:
            self.found = found

        def __enter__(self) -> Probe:
            return self

        def __exit__(self, *_: object) -> None:
            pass

        def connect(self, _: tuple[str, int]) -> None:
            if not self.found:
                raise OSError(101, "Network is unreachable")

        def getsockname(self) -> tuple[str, int]:
            return self.found, 1

    for found in ("192.168.1.5", "10.0.0.2", "172.20.3.4"):
        monkeypatch.setattr(page.socket, "socket", lambda *_, found=found: Probe(found))
        assert page._own_address() == found
    for found, said in (("", "in no network"), ("8.8.8.8", "an address of the internet")):
        monkeypatch.setattr(page.socket, "socket", lambda *_, found=found: Probe(found))
        with pytest.raises(WrongWords, match=said):
            page._own_address()


def test_a_refusal_is_said_once(capsys: pytest.CaptureFixture[str]) -> None:
    refused = page._Refused()
    for peer in ["192.168.1.7", "192.168.1.7", *(f"10.0.0.{place}" for place in range(200))]:
        refused.tell(peer)
    lines = capsys.readouterr().err.splitlines()
    assert len(lines) == 100 and lines[0].startswith("192.168.1.7 does not know the certificate")


def test_the_square(monkeypatch: pytest.MonkeyPatch, capsys: pytest.CaptureFixture[str]) -> None:
    if os.environ.get("NORILADLE_NO_QR") is None:
        pytest.importorskip("qrcode")
    monkeypatch.setattr("sys.stderr.isatty", lambda: True)
    assert page._square("https://192.168.1.5:8316/") == []
    lines = capsys.readouterr().err.splitlines()
    assert len({line.count("\u2580") + line.count("\u2584") + line.count("\u2588") + line.count("\xa0") for line in lines if line}) <= 2
    monkeypatch.setattr("sys.stderr.isatty", lambda: False)
    assert page._square("https://192.168.1.5:8316/") == [] and capsys.readouterr().err == ""
    monkeypatch.setitem(__import__("sys").modules, "qrcode", None)
    assert page._square("https://192.168.1.5:8316/") == ["for the address as a QR code: apt-get install python3-qrcode"]


def test_it_opens_the_browser(files: dict[str, PageFile], monkeypatch: pytest.MonkeyPatch) -> None:
    """At the port that it serves; if another start serves the usual port already, there, and then it ends."""
    opened, served = threading.Event(), []
    monkeypatch.setattr(page, "_files", lambda: files)
    monkeypatch.setattr(page, "PORT", 0)
    monkeypatch.setattr(page.webbrowser, "open", lambda url: served.append(url) or opened.set() or True)
    monkeypatch.setattr(PageServer, "serve_forever", lambda self: opened.wait(5) and self.server_close())
    assert main(["page", "--open"]) == 0 and len(served) == 1 and served[0].startswith("http://127.0.0.1:")


def test_it_opens_the_page_that_is_served_already(serve: Callable[..., PageServer], monkeypatch: pytest.MonkeyPatch,
                                                  capsys: pytest.CaptureFixture[str]) -> None:
    server, served = serve(), []
    monkeypatch.setattr(page, "PORT", server.port)
    monkeypatch.setattr(page, "_files", pytest.fail)
    monkeypatch.setattr(page.webbrowser, "open", lambda url: served.append(url) or False)
    assert main(["page", "--open"]) == 0 and served == [f"http://127.0.0.1:{server.port}/"]
    assert "there is no browser to open" in capsys.readouterr().err


def test_another_server_at_the_usual_port_is_not_the_page(monkeypatch: pytest.MonkeyPatch) -> None:
    class Other(http.server.BaseHTTPRequestHandler):
        def do_HEAD(self) -> None:
            self.send_response(200)
            self.end_headers()

        def log_message(self, *values: str) -> None:
            pass

    with http.server.HTTPServer(("127.0.0.1", 0), Other) as other:
        threading.Thread(target=other.serve_forever, args=(0.02,), daemon=True).start()
        monkeypatch.setattr(page, "PORT", other.server_port)
        assert not page._is_served()
        other.shutdown()
    assert not page._is_served()
