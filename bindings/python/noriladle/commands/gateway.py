"""Give scanners and tills the answers of one hub, over sockets

The first line of a connection says what it is for:

  scan LANE     the scanner of a lane: noriladle scanner is one
  watch LANE    a till: it gets a line for each scan of the lane, as 17 ]E0 (01)09501101530003 or 17 refused 3 CheckDigit;
                18 next says that the next scan is 18; if the till has no line for 17, that scan is lost
  anything else is a row of widths or a text: the connection has a lane of its own, and gets a line for each line

With --web a till may be a web page, and watches a lane by a WebSocket: ws://127.0.0.1:PORT/LANE.

Whoever reaches a socket may do all of that, unless the option file has a table of rights, by users, groups, tokens and certificates:

  [rights]
  "group noriladle" = "scan *, watch *"
  "token 15ab.." = "watch till-1"      # noriladle gateway --token makes one

A client that has a token sends token TOKEN before its first line; a page adds ?token=TOKEN. With --cert and --key the port speaks TLS.

  $ noriladle gateway --unix shop.sock
"""
from __future__ import annotations

import argparse
import asyncio
import contextlib
import errno
import fcntl
import ipaddress
import os
import resource
import signal
import socket
import stat
from typing import Any, Coroutine, Iterator, List, Optional, Set

from .. import _service
from .._door import Door, Places
from .._gateway import Gateway
from .._health import Health, Metrics, serve
from .._journal import Journal
from .._log import Log, writer
from .._rights import all_rights, new_token
from .._service import notify
from .._tls import Tls, expiry
from ..live import Hub
from . import REFUSED, RIGHT, WrongWords

_AT_WORK = ("idle", "kept", "connections", "each", "log", "json", "origin", "rights")
"""The options that SIGHUP changes while a gateway runs."""
_WARNED = 14 * 86_400.0
"""How many seconds before its end a certificate is logged at each start and reload."""


def add_arguments(parser: argparse.ArgumentParser) -> None:
    """Adds the arguments of ``noriladle gateway``."""
    parser.add_argument("--unix", metavar="PATH", help="Serve on a UNIX socket, for its owner and group only")
    parser.add_argument("--port", type=_service.port, metavar="PORT", help="Serve on a TCP port; 0 picks a free one and prints it")
    parser.add_argument("--host", default="127.0.0.1", metavar="HOST", help="Address of the port [default: 127.0.0.1]")
    parser.add_argument("--cert", metavar="FILE", help="Speak TLS on the port, with this certificate")
    parser.add_argument("--key", metavar="FILE", help="Key of the certificate")
    parser.add_argument("--ca", metavar="FILE", help="Accept only clients on the port with a certificate of these authorities")
    parser.add_argument("--web", type=_service.port, metavar="PORT",
                        help="Serve tills that are web pages on this port of 127.0.0.1; needs python3-websockets")
    parser.add_argument("--origin", action="append", default=[], metavar="ORIGIN",
                        help="Also let pages of this origin watch, such as https://till.example; may be repeated")
    parser.add_argument("--lanes", type=_service.count(1, 16), default=16, metavar="N",
                        help="Connections with a lane of their own, 1 to 16 [default: 16]")
    parser.add_argument("--kept", type=_service.count(0, 16), default=4, metavar="N",
                        help="Lanes that TCP connections leave to the UNIX socket [default: 4]")
    parser.add_argument("--connections", type=_service.count(1, 10_000), default=256, metavar="N",
                        help="Connections at a time, a quarter of them for the UNIX socket alone [default: 256]")
    parser.add_argument("--each", type=_service.count(1, 10_000), default=64, metavar="N",
                        help="Connections of one user of the UNIX socket, or of one address [default: 64]")
    parser.add_argument("--anyone", action="store_true",
                        help="Let --host be reached by other machines without a table of rights or without TLS")
    parser.add_argument("--idle", type=_service.seconds, default=60.0, metavar="SECONDS",
                        help="Close a connection that sends no whole line, or takes nothing, for this long [default: 60]")
    parser.add_argument("--journal", metavar="DIR", help="Write each scan and its answer into files of this folder, before the answer is sent")
    parser.add_argument("--journal-most", type=_service.count(1, 1_000_000), default=1024, metavar="MB",
                        help="Size of all these files; the oldest are removed [default: 1024]")
    parser.add_argument("--journal-full", choices=("stop", "go-on"), default="stop", metavar="WHAT",
                        help="While they cannot be written: stop answering, or go on and say so [default: stop]")
    parser.add_argument("--elements", action="store_true", help="Write elements as gs1_hub live --elements does")
    parser.add_argument("--token", action=_NewToken, help="Print a new token and its line for the table of rights, and exit")
    parser.set_defaults(rights=all_rights())  # A table of the option file.
    _service.add_arguments(parser)


class _NewToken(argparse.Action):
    """Prints a token for its holder, and its line for the table of rights."""

    def __init__(self, **words: Any) -> None:
        super().__init__(nargs=0, **words)

    def __call__(self, parser: argparse.ArgumentParser, *_: object) -> None:
        token, name = new_token()
        print(f'{token}\n"{name}" = "watch LANE"')
        parser.exit()


def run(words: argparse.Namespace) -> int:
    """Serves until a signal stops it, or the hub ends."""
    if words.port is None and not words.unix:
        raise WrongWords("name a socket by --unix or --port")
    words.tls = _tls_of(words)
    _refuse_anyone(words)
    _raise_limit(2 * words.connections + 512)
    with _taken(words.unix):
        return _service.run(words, _run)


def _tls_of(words: argparse.Namespace) -> Optional[Tls]:
    """The TLS of the port, if it has one."""
    if not (words.cert and words.key):
        if words.cert or words.key or words.ca:
            raise WrongWords("--cert and --key belong together, and --ca to both")
        return None
    return Tls(words.cert, words.key, words.ca)


def _refuse_anyone(words: argparse.Namespace) -> None:
    """Refuses a port for other machines that is open to everyone, or whose tokens everyone can read."""
    missing = [said for is_there, said in ((words.tls, "TLS (--cert and --key)"),
                                           (words.ca or words.rights != all_rights(), "a table of rights, or --ca")) if not is_there]
    if missing and not (words.port is None or words.anyone or _is_near(words.host)):
        raise WrongWords(f"other machines reach {words.host}: it needs {' and '.join(missing)}; with --anyone it goes without")


def _is_near(host: str) -> bool:
    """Whether only this machine reaches an address."""
    found = [ipaddress.ip_address(str(address[0]).partition("%")[0]) for *_, address in _addresses(host, 0)]
    return all(it.is_loopback for it in found)


def _addresses(host: str, port: int) -> List[Any]:
    try:
        return socket.getaddrinfo(host, port, type=socket.SOCK_STREAM, flags=socket.AI_PASSIVE)
    except OSError as fault:
        raise WrongWords(f"--host {host}: {fault.strerror}") from fault


def _raise_limit(wanted: int) -> None:
    """Lets the process have this many descriptors, if the system does."""
    soft, hard = resource.getrlimit(resource.RLIMIT_NOFILE)
    most = wanted if hard == resource.RLIM_INFINITY else min(hard, wanted)
    if soft != resource.RLIM_INFINITY and soft < most:
        resource.setrlimit(resource.RLIMIT_NOFILE, (most, hard))


@contextlib.contextmanager
def _taken(path: Optional[str]) -> Iterator[None]:
    """Holds a lock beside the socket, so no second gateway takes its place. Follows no link, and changes no file."""
    if not path:
        yield
        return
    name = f"{path}.lock"
    try:
        lock = os.open(name, os.O_RDWR | os.O_CREAT | os.O_NOFOLLOW | os.O_NONBLOCK | os.O_CLOEXEC, 0o600)
    except OSError as fault:
        if fault.errno == errno.ELOOP:
            raise WrongWords(f"{name} is a symbolic link: remove it, or name another socket") from fault
        raise
    try:
        fcntl.flock(lock, fcntl.LOCK_EX | fcntl.LOCK_NB)
        yield
    except BlockingIOError:
        raise WrongWords(f"another gateway has {path}; end it, or name another socket") from None
    finally:
        os.close(lock)


async def _run(words: argparse.Namespace, log: Log) -> int:
    hub, metrics = Hub(words.lanes, words.workers, words.year, ais=words.ais, elements=words.elements), Metrics()
    async with hub:
        ended = asyncio.ensure_future(hub.ended())
        _service.when_told_to_stop(ended.cancel)
        gateway = Gateway(hub, words.idle, _kept(words), Places(words.connections, words.each), log, metrics, words.rights)
        if words.journal:
            gateway.scans.journal = Journal(words.journal, words.journal_most << 20, words.journal_full == "go-on", log, metrics)
        health = Health(gateway.trip, metrics)
        servers = await _listen(gateway, words, health)
        _tell_of_certificate(words.tls, log)
        beside = [gateway.sweep(), gateway.scans.beat(), health.keep(), *([_load_again_when_told(gateway, words)] if words.config else [])]
        async with _service.at_work(lambda: hub.lane(0).read(""), *beside):
            await asyncio.wait([ended])
        for server in servers:
            server.close()
        why = "" if ended.cancelled() else str(ended.result())
        if why:
            log.fault(why)
        await gateway.close(why or "the gateway stops")
        if gateway.scans.journal:
            gateway.scans.journal.close()
        if words.unix:
            with contextlib.suppress(FileNotFoundError):
                os.unlink(words.unix)
    return REFUSED if why else RIGHT


def _kept(words: argparse.Namespace) -> int:
    """How many lanes TCP connections leave to the UNIX socket."""
    return int(min(words.kept, words.lanes - 1)) if words.unix and words.port is not None else 0


def _tell_of_certificate(tls: Optional[Tls], log: Log) -> None:
    """Logs a certificate that has expired or expires soon."""
    if tls and tls.is_due(_WARNED):
        log.fault(f"{expiry(tls.ends)}: renew it, and reload the service")


async def _listen(gateway: Gateway, words: argparse.Namespace, health: Health) -> List[Any]:
    """Opens the sockets. Only owner and group may use that in the file system."""
    tls: Optional[Tls] = words.tls

    def door(its: socket.socket) -> Door:
        return Door(its, gateway.places, gateway.connected, gateway.log, lambda: tls.context if tls else None)

    doors = [door(_unix_socket(words.unix))] if words.unix else []
    if words.port is not None:
        doors += [_named("port", door(its)) for its in _tcp_sockets(words.host, words.port)]
    servers: List[Any] = list(doors)
    if words.web is not None:
        from .._web import serve as serve_pages
        servers.append(_named("web", await serve_pages(gateway, words.web, words)))
    gateway.metrics.count_of("noriladle_places_refused_total", "Connections for which there was no place.",
                             lambda: float(sum(it.refused for it in servers)))
    if tls:
        gateway.metrics.gauge("noriladle_certificate_end_timestamp_seconds", "When the certificate expires, in seconds since 1970.",
                              lambda: tls.ends if tls else 0)
    return [*servers, *(_named("metrics", it) for it in await serve(words.metrics, health, gateway.metrics, gateway.log.fault))]


def _unix_socket(path: str) -> socket.socket:
    """A socket in the file system, in place of one that was left there."""
    with contextlib.suppress(FileNotFoundError):
        if stat.S_ISSOCK(os.lstat(path).st_mode):
            os.unlink(path)
    its = socket.socket(socket.AF_UNIX)
    mask = os.umask(0o117)
    try:
        its.bind(path)
    except OSError as fault:
        raise OSError(fault.errno, fault.strerror, path) from fault
    finally:
        os.umask(mask)
    its.listen(256)
    return its


def _tcp_sockets(host: str, port: int) -> Iterator[socket.socket]:
    for family, _, _, _, address in _addresses(host, port):
        try:
            yield socket.create_server(address, family=family, backlog=256)
        except OSError as fault:
            if fault.errno != errno.EAFNOSUPPORT:
                raise


def _named(name: str, server: Any) -> Any:
    """Prints the port of a server, since the system may have chosen it."""
    writer(2)(f"{name} {server.sockets[0].getsockname()[1]}")
    return server


def _load_again_when_told(gateway: Gateway, words: argparse.Namespace) -> Coroutine[Any, Any, None]:
    """Reads the option file and the certificate again at each SIGHUP."""
    is_right, is_told = True, asyncio.Event()
    given = {name for name, value in words.loaded.items() if getattr(words, name, value) != value}

    async def load_again() -> None:
        nonlocal is_right
        while await is_told.wait():
            is_told.clear()
            notify("RELOADING=1")
            is_right = await _load_again(gateway, words, given)
            notify("READY=1")

    asyncio.get_running_loop().add_signal_handler(signal.SIGHUP, is_told.set)
    gateway.metrics.gauge("noriladle_config_last_reload_successful", "1 if the last reload took the option file and the certificate, else 0.",
                          lambda: is_right)
    return load_again()


async def _load_again(gateway: Gateway, words: argparse.Namespace, given: Set[str]) -> bool:
    """Applies what it can of the option file while the gateway runs, except for the options that the command line has given.
    Returns whether nothing was refused."""
    faults: List[str] = []
    try:
        found = {name: value for name, value in words.load_again().items() if name not in given}
        _refuse_anyone(argparse.Namespace(**{**vars(words), "rights": found.get("rights", words.rights)}))
        for name, value in found.items():
            if name in _AT_WORK:
                setattr(words, name, value)
            elif getattr(words, name) != value:
                faults.append(f"{name} changes when the gateway is started again")
    except WrongWords as fault:
        faults.append(str(fault))
    gateway.idle, gateway.kept = words.idle, _kept(words)
    gateway.places.most, gateway.places.each = words.connections, words.each
    _raise_limit(2 * words.connections + 512)
    gateway.change_rights(words.rights)
    gateway.log.all, gateway.log.json = words.log == "all", words.json
    if words.tls:
        try:
            # In a thread: it makes a handshake.
            await asyncio.get_running_loop().run_in_executor(None, words.tls.load_again)
        except WrongWords as fault:
            faults.append(f"{fault}; the gateway keeps the certificate that it has")
        _tell_of_certificate(words.tls, gateway.log)
    for said in faults:
        gateway.log.fault(said)
    if not faults:
        gateway.log.note("loaded", file=words.config)
    return not faults
