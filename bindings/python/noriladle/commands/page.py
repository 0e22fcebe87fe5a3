"""Serve the web page to this machine, or to telephones in the local network

It prints the address of the page, and runs until Ctrl-C. The page does everything in the browser: no list, number or
picture is sent to this command or elsewhere. With --share it also serves the page in the local network, over HTTPS, which
the cameras of telephones need. The certificate is this machine's own, so a telephone asks before it opens the page.

  $ noriladle page --share
"""
from __future__ import annotations

import argparse
import errno
import ipaddress
import socket
import sys
import threading
import webbrowser
from http.client import HTTPConnection, HTTPException
from pathlib import Path
from typing import Collection, Dict, List, Optional, Set

from . import WrongWords, tell
from .. import __file__ as _module
from .._certificate import Certificate, NoCertificate, certificate_of
from .._page_server import SERVER, PageFile, PageServer, files_of

PORT = 8316
"""The usual port. It stays the same, since a browser keeps lists and installed pages by address and port."""
_HERE = "127.0.0.1"
_NAMES = ("127.0.0.1", "localhost")
# No packet is sent to this address, which is for examples (RFC 5737).
_FAR = ("192.0.2.1", 9)

_HELP = """\
On a telephone in the same network, point the camera at the square or type the address.
If the telephone says that the connection is not private, it does not know this machine's certificate yet. Press:
  Chrome and Edge   Advanced, then Proceed
  Safari            Show Details, then visit this website
  Firefox           Advanced, then Accept the Risk and Continue
Labels, checks and the camera then work. To install the page or open it offline, use {here} on this machine,
or make the telephone trust {certificate}
SHA-256 of the certificate: {fingerprint}"""


def add_arguments(parser: argparse.ArgumentParser) -> None:
    """Adds the arguments of ``noriladle page``."""
    parser.add_argument("--port", type=_port, metavar="PORT",
                        help=f"Port to serve at, or 0 for a free one [default: {PORT}, or a free one if that is busy]")
    parser.add_argument("--open", action="store_true", help="Open the page in this machine's browser, as the entry in the menu does")
    parser.add_argument("--share", action="store_true", help="Serve telephones in the local network too, over HTTPS")
    parser.add_argument("--address", type=_address, metavar="ADDRESS",
                        help="This machine's IPv4 address in the local network [default: that of its usual network]")


def _port(word: str) -> int:
    if not (word.isascii() and word.isdecimal() and int(word) <= 65535):
        raise argparse.ArgumentTypeError(f"{word!r} is no port from 0 to 65535")
    return int(word)


def _address(word: str) -> str:
    try:
        address = ipaddress.IPv4Address(word)
    except ValueError as error:
        raise argparse.ArgumentTypeError(f"{word!r} is no IPv4 address, as 192.168.1.5") from error
    if not address.is_private or address.is_unspecified or str(address) == _HERE:
        raise argparse.ArgumentTypeError(f"{word} is no address of a local network")
    return word


def run(words: argparse.Namespace) -> int:
    """Serves the page until somebody ends it."""
    if words.address and not words.share:
        raise WrongWords("--address is for --share")
    if words.open and words.port is None and not words.share and _is_served():
        _open(PORT)
        return 0
    files = _files()
    address = (words.address or _own_address()) if words.share else None
    certificate = _certificate(address) if address else None
    here = _bound(_HERE, words.port, files, _NAMES)
    servers = [here]
    print(f"http://{_HERE}:{here.port}/", flush=True)
    if address and certificate:
        servers.append(_shared(address, here.port, files, certificate))
    tell("Ctrl-C ends it.")
    if words.open:
        threading.Thread(target=_open, args=(here.port,), daemon=True).start()
    for server in servers[1:]:
        threading.Thread(target=server.serve_forever, daemon=True).start()
    here.serve_forever()
    return 0


def _is_served() -> bool:
    """Whether this command serves the page already at the usual port."""
    connection = HTTPConnection(_HERE, PORT, timeout=2)
    try:
        connection.request("HEAD", "/")
        answer = connection.getresponse()
        return answer.status == 200 and answer.getheader("Server", "").strip() == SERVER
    except (OSError, HTTPException):
        return False
    finally:
        connection.close()


def _open(port: int) -> None:
    url = f"http://{_HERE}:{port}/"
    if not webbrowser.open(url):
        tell(f"there is no browser to open: go to {url}")


def _files() -> Dict[str, PageFile]:
    """The files of the page, which stand beside the module.

    :raises WrongWords: they are not there.
    """
    folder = Path(_module).with_name("page")
    try:
        files = files_of(folder)
    except OSError:
        files = {}
    if "gs1.module.js" not in files:
        raise WrongWords(f"the page is not in {folder}: install the package anew, or use ./noriladle page in a clone")
    return files


def _own_address() -> str:
    """This machine's address in the network that it usually uses.

    :raises WrongWords: it has none, or one of the internet.
    """
    with socket.socket(socket.AF_INET, socket.SOCK_DGRAM) as probe:
        try:
            probe.connect(_FAR)
            found: str = probe.getsockname()[0]
        except OSError as error:
            raise WrongWords("this machine is in no network: name its address by --address") from error
    if not ipaddress.IPv4Address(found).is_private:
        raise WrongWords(f"{found} is an address of the internet, not of a local network: name another by --address")
    return found


def _certificate(address: str) -> Certificate:
    try:
        return certificate_of(address)
    except NoCertificate as error:
        raise WrongWords(str(error)) from error


def _bound(
    address: str, port: Optional[int], files: Dict[str, PageFile], hosts: Collection[str],
    certificate: Optional[Certificate] = None
) -> PageServer:
    """A server at a port; without one at the usual port, or at a free one if that is busy.

    :raises OSError: the port is busy or not allowed, or the address is not of this machine.
    """
    context, refused = certificate.context() if certificate else None, _Refused()
    try:
        return PageServer((address, PORT if port is None else port), files, hosts, context, refused.tell)
    except OSError as error:
        if error.errno == errno.EADDRINUSE and port is None:
            tell(f"port {PORT} is busy, so this is another address: what the page has kept at the usual one is not here")
            return PageServer((address, 0), files, hosts)
        raise OSError(error.errno, f"{_WHY.get(error.errno or 0, error.strerror)}", f"{address}:{port}") from error


_WHY = {
    errno.EADDRINUSE: "the port is busy: name another by --port",
    errno.EACCES: "this port is for root alone: name one from 1024 on by --port",
    errno.EADDRNOTAVAIL: "this is no address of this machine: name one by --address",
}


class _Refused:
    """Says once of each telephone that it has refused the certificate."""

    def __init__(self) -> None:
        self._told: Set[str] = set()

    def tell(self, peer: str) -> None:
        """Says it, of the first 100."""
        if peer not in self._told and len(self._told) < 100:
            self._told.add(peer)
            tell(f"{peer} does not know the certificate: press there as said above")


def _shared(address: str, port: int, files: Dict[str, PageFile], certificate: Certificate) -> PageServer:
    """Serves the local network, and says how a telephone opens the page."""
    server = _bound(address, port, files, [address], certificate)
    url = f"https://{address}:{port}/"
    print(url, flush=True)
    for line in _square(url):
        tell(line)
    here = f"http://{_HERE}:{port}/"
    tell(_HELP.format(here=here, certificate=certificate.certificate, fingerprint=certificate.fingerprint()))
    return server


def _square(url: str) -> List[str]:
    """The QR code of an address for a terminal; what installs it, if it is missing."""
    try:
        import qrcode
    except ImportError:
        return ["for the address as a QR code: apt-get install python3-qrcode"]
    if not sys.stderr.isatty():
        return []
    code = qrcode.QRCode(border=2)
    code.add_data(url)
    code.print_ascii(out=sys.stderr, tty=True)
    return []
