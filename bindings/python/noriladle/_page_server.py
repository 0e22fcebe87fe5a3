"""Serves the files of the page over HTTP, or over HTTPS with a certificate: only GET and HEAD, and no other file."""
from __future__ import annotations

import hashlib
import socket
import socketserver
import ssl
import sys
import threading
import time
from http import HTTPStatus
from http.server import BaseHTTPRequestHandler, ThreadingHTTPServer
from pathlib import Path
from typing import Any, Callable, Collection, Dict, List, Mapping, NamedTuple, Optional, Tuple

MOST, MOST_OF_ONE = 64, 24
"""The most connections at a time, and the most from one address. Another is closed at once."""
WAIT = 10
"""How many seconds the server waits for the other side."""
LIFE = 60
"""How many seconds a connection lasts at most. Browsers open the next one by themselves."""
TYPES = {
    ".css": "text/css; charset=utf-8", ".html": "text/html; charset=utf-8", ".js": "text/javascript; charset=utf-8",
    ".json": "application/json", ".png": "image/png", ".svg": "image/svg+xml", ".wasm": "application/wasm",
}
"""The types of the page's files by the ends of their names. Other files are not served."""
SERVER = "noriladle"
"""By this name a server of the page is known."""
_HANDSHAKE = b"\x16"
"""The first byte of a connection by TLS."""


class PageFile(NamedTuple):
    """A file that is served."""

    data: bytes
    kind: str
    tag: str
    """What says to a browser that it has this very file."""


def files_of(folder: Path) -> Dict[str, PageFile]:
    """The files of the page by their names.

    :raises OSError: the folder or a file cannot be read.
    """
    made: Dict[str, PageFile] = {}
    for path in sorted(folder.iterdir()):
        if path.suffix in TYPES and path.is_file():
            data = path.read_bytes()
            made[path.name] = PageFile(data, TYPES[path.suffix], f'"{hashlib.sha256(data).hexdigest()[:32]}"')
    return made


class PageServer(ThreadingHTTPServer):
    """Serves files at an address to requests for these hosts; by TLS if there is a context. A port of 0 is a free one.

    ``refused`` is called with the address of a telephone or browser that refuses the certificate.

    :raises OSError: the port is busy, or the address is not of this machine.
    """

    daemon_threads = True
    request_queue_size = 16

    def __init__(self, address: Tuple[str, int], files: Mapping[str, PageFile], hosts: Collection[str],
                 context: Optional[ssl.SSLContext] = None, refused: Callable[[str], None] = lambda peer: None) -> None:
        super().__init__(address, _Handler)
        self.files = files
        self.port: int = self.server_address[1]
        usual = 443 if context else 80
        self.hosts = {f"{host}:{self.port}" for host in hosts} | ({*hosts} if self.port == usual else set())
        self._at = f"https://{address[0]}:{self.port}/"
        self._context, self._refused = context, refused
        self._lock = threading.Lock()
        self._open: Dict[Any, Tuple[str, float, socket.socket]] = {}

    def server_bind(self) -> None:
        """Binds without asking the network for the name of the address, which may take long."""
        socketserver.TCPServer.server_bind(self)
        self.server_name, self.server_port = str(self.server_address[0]), int(self.server_address[1])

    def process_request(self, request: Any, client_address: Any) -> None:
        """Serves a connection, unless there are too many."""
        with self._lock:
            peers = [peer for peer, _, _ in self._open.values()]
            is_full = len(peers) >= MOST or peers.count(client_address[0]) >= MOST_OF_ONE
            if not is_full:
                self._open[request] = client_address[0], time.monotonic(), request
        if is_full:
            self.shutdown_request(request)
        else:
            super().process_request(request, client_address)

    def finish_request(self, request: Any, client_address: Any) -> None:
        """Answers the requests of a connection."""
        request.settimeout(WAIT)
        if not self._context:
            _Handler(request, client_address, self)
            return
        if request.recv(1, socket.MSG_PEEK) != _HANDSHAKE:
            request.sendall(f"HTTP/1.1 301 Moved Permanently\r\nLocation: {self._at}\r\nContent-Length: 0\r\n"
                            "Connection: close\r\n\r\n".encode())
            return
        with self._context.wrap_socket(request, server_side=True) as secure:
            with self._lock:
                self._open[request] = (*self._open[request][:2], secure)
            _Handler(secure, client_address, self)

    def close_request(self, request: Any) -> None:
        """Forgets a connection."""
        with self._lock:
            self._open.pop(request, None)
        super().close_request(request)

    def service_actions(self) -> None:
        """Ends connections that have lasted too long."""
        with self._lock:
            old = [it for _, since, it in self._open.values() if time.monotonic() - since > LIFE]
        for it in old:
            try:
                it.shutdown(socket.SHUT_RDWR)
            except OSError:
                pass

    def handle_error(self, request: Any, client_address: Any) -> None:
        """Passes over connections that break; one that refuses the certificate is reported."""
        error = sys.exc_info()[1]
        if isinstance(error, ssl.SSLError) and "ALERT" in str(error.reason):
            self._refused(client_address[0])
        elif not isinstance(error, OSError):
            super().handle_error(request, client_address)


class _Handler(BaseHTTPRequestHandler):
    """Answers the requests of a connection."""

    server: PageServer
    protocol_version = "HTTP/1.1"
    server_version, sys_version = SERVER, ""

    def do_GET(self) -> None:
        """Sends a file."""
        file = self._file()
        if file:
            self.wfile.write(file.data)

    def do_HEAD(self) -> None:
        """Sends the headers of a file."""
        self._file()

    def _file(self) -> Optional[PageFile]:
        """Sends the head of the answer, and returns the file if it has not been refused and the browser lacks it."""
        # What a request brings along is not read, so nothing may come after it.
        if self.headers.get("Content-Length", "0") != "0" or self.headers.get("Transfer-Encoding"):
            self.close_connection = True
        hosts: List[str] = self.headers.get_all("Host", [])
        if len(hosts) != 1 or hosts[0].lower() not in self.server.hosts:
            self.send_error(HTTPStatus.MISDIRECTED_REQUEST, "This address is not served here")
            return None
        file = self.server.files.get(self.path.partition("?")[0][1:] or "index.html") if self.path[:1] == "/" else None
        if not file:
            self.send_error(HTTPStatus.NOT_FOUND, "The page has no such file")
            return None
        is_known = self.headers.get("If-None-Match") == file.tag
        self.send_response(HTTPStatus.NOT_MODIFIED if is_known else HTTPStatus.OK)
        for name, value in (("Content-Type", file.kind), ("ETag", file.tag), ("Cache-Control", "no-cache")):
            self.send_header(name, value)
        if not is_known:
            self.send_header("Content-Length", str(len(file.data)))
        if self.close_connection:
            self.send_header("Connection", "close")
        self.end_headers()
        return None if is_known else file

    def end_headers(self) -> None:
        """Adds what keeps pages of others away."""
        for name, value in (("X-Content-Type-Options", "nosniff"), ("X-Frame-Options", "DENY"),
                            ("Referrer-Policy", "no-referrer"), ("Cross-Origin-Resource-Policy", "same-origin")):
            self.send_header(name, value)
        super().end_headers()

    def log_message(self, format: str, *values: Any) -> None:
        """Writes no line for each request."""
