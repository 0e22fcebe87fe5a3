"""What the services share: options from a file, and messages to systemd."""
from __future__ import annotations

import argparse
import asyncio
import contextlib
import difflib
import os
import re
import signal
import socket
import sys
from typing import Any, AsyncIterator, Awaitable, Callable, Coroutine, Dict, Optional, Sequence, Union

if sys.version_info >= (3, 11):
    import tomllib
else:
    import tomli as tomllib

from ._log import Log as Log, take_libraries
from .commands import WrongWords, add_ais, add_year

Loaded = Dict[str, object]
"""The values of an option file, by their names in :mod:`argparse`."""


class _Load(argparse.Action):
    """Takes from an option file what is not among the arguments."""

    def __call__(
        self, parser: argparse.ArgumentParser, words: argparse.Namespace, value: Union[str, Sequence[Any], None],
        option: Optional[str] = None,
    ) -> None:
        path = str(value)
        found = load(parser, path)
        for name, loaded in found.items():
            if getattr(words, name, None) == parser.get_default(name):
                setattr(words, name, loaded)
        setattr(words, self.dest, path)
        # What SIGHUP reads again, and what would hold without the command line.
        words.load_again, words.loaded = lambda: load(parser, path), {**{it.dest: it.default for it in parser._actions}, **found}


def add_config(parser: argparse.ArgumentParser) -> None:
    """Adds the option that names an option file."""
    parser.add_argument("--config", action=_Load, metavar="FILE",
                        help="Take options from a TOML file, each by its name; an option on the command line wins")


def add_arguments(parser: argparse.ArgumentParser) -> None:
    """Adds the options that all services with a hub have."""
    parser.add_argument("--workers", type=count(1, 16), default=2, metavar="N", help="Workers of the hub, 1 to 16 [default: 2]")
    add_year(parser)
    add_ais(parser)
    add_config(parser)
    parser.add_argument("--log", choices=("faults", "all"), default="faults", metavar="WHAT",
                        help="Log faults, or all: connections, takeovers and refused senders too [default: faults]")
    parser.add_argument("--json", action="store_true", help="Write log lines as JSON objects")
    parser.add_argument("--metrics", type=port, metavar="PORT",
                        help="Serve /healthz, /readyz and /metrics on this port of 127.0.0.1")


def port(word: str) -> int:
    """The number of a port."""
    if not (word.isascii() and word.isdecimal() and int(word) <= 65_535):
        raise argparse.ArgumentTypeError(f"{word!r} is no port from 0 to 65535")
    return int(word)


def seconds(word: str) -> float:
    """A time above 0."""
    try:
        number = float(word)
    except ValueError:
        number = 0
    if not 0 < number < 1e9:
        raise argparse.ArgumentTypeError(f"{word!r} is no number of seconds above 0")
    return number


def count(least: int, most: int) -> Callable[[str], int]:
    """Reads a whole number between two."""
    def read(word: str) -> int:
        if not (word.isascii() and word.isdecimal() and least <= int(word) <= most):
            raise argparse.ArgumentTypeError(f"{word!r} is no number from {least} to {most}")
        return int(word)
    return read


def load(parser: argparse.ArgumentParser, path: str) -> Loaded:
    """The options of a file.

    :raises WrongWords: it cannot be read, or a line of it is wrong; the message names the line.
    """
    try:
        with open(path, encoding="utf-8") as file:
            text = file.read()
        found = tomllib.loads(text)
    except OSError as fault:
        raise WrongWords(f"{path}: {fault.strerror}") from fault
    except ValueError as fault:  # Bytes that are no UTF-8, or no TOML.
        raise WrongWords(f"{path}: {fault}") from fault
    # An option that acts at once, such as --help, is none of a file.
    options = {name[2:]: action for action in parser._actions for name in action.option_strings
               if name.startswith("--") and action.dest != "config" and (action.nargs != 0 or isinstance(action, argparse._StoreTrueAction))}
    tables = [name for name, value in parser._defaults.items() if isinstance(value, dict)]
    loaded: Loaded = {}
    for name, value in found.items():
        line = _line_of(text, name)
        if name in tables:
            loaded[name] = _table(parser, path, text, name, value)
            continue
        if name not in options:
            near = difflib.get_close_matches(name, options, 1)
            meant = f" (did you mean {near[0]}?)" if near else f"; it takes {', '.join(sorted(options))}"
            raise WrongWords(f"{path}:{line}: there is no option {name!r}{meant}")
        try:
            loaded[options[name].dest] = _value_of(options[name], value)
        except (argparse.ArgumentTypeError, ValueError) as fault:
            raise WrongWords(f"{path}:{line}: {name}: {fault}") from fault
    return loaded


def _table(parser: argparse.ArgumentParser, path: str, text: str, name: str, value: object) -> Dict[str, str]:
    """A table of an option file; its default says what an entry may be."""
    if not (isinstance(value, dict) and all(isinstance(it, str) for it in value.values())):
        raise WrongWords(f"{path}:{_line_of(text, name)}: {name}: it is a table of texts")
    table: Dict[str, str] = type(parser.get_default(name))()
    for key, said in value.items():
        try:
            table[key] = said
        except ValueError as fault:
            raise WrongWords(f"{path}:{_line_of(text, key)}: {key}: {fault}") from fault
    return table


def _line_of(text: str, name: str) -> int:
    """The number of the line in which an option stands."""
    found = re.search(rf"^\s*\[*[\"']?{re.escape(name)}[\"']?\s*[=\].]", text, re.MULTILINE)
    return 1 + text.count("\n", 0, found.end()) if found else 1


def _value_of(action: argparse.Action, value: object) -> object:
    """A value of a file, as the option needs it."""
    if isinstance(action, argparse._StoreTrueAction):
        if not isinstance(value, bool):
            raise ValueError("it is true or false")
        return value
    if isinstance(action, argparse._AppendAction):
        if not isinstance(value, list):
            raise ValueError('it is a list, as ["one", "two"]')
        return [_one(action, it) for it in value]
    return _one(action, value)


def _one(action: argparse.Action, value: object) -> object:
    if isinstance(value, bool) or not isinstance(value, (str, int, float)):
        raise ValueError("it is one text or number")
    read = action.type if callable(action.type) else str
    taken: object = read(str(value))
    if action.choices is not None and taken not in action.choices:
        raise ValueError(f"{value!r} is none of {', '.join(map(str, action.choices))}")
    return taken


def keep_buffers() -> None:
    """Makes the C library keep the 256 kB buffers of asyncio.

    Otherwise each read may map and unmap its buffer, which takes as long as everything else for a row. The library maps
    memory from a size on that grows to that of the largest mapped piece that was freed.
    """
    bytes(1 << 20)


def run(words: argparse.Namespace, serve: Callable[[argparse.Namespace, Log], Coroutine[Any, Any, int]]) -> int:
    """Runs a service with its log, and returns its status."""
    keep_buffers()
    log = Log(words.log, words.json)
    take_libraries(log)
    return asyncio.run(serve(words, log))


def notify(said: str) -> None:
    """Sends systemd a message such as ``READY=1``, if it waits for one."""
    address = os.environ.get("NOTIFY_SOCKET", "")
    if address:
        with socket.socket(socket.AF_UNIX, socket.SOCK_DGRAM) as to, contextlib.suppress(OSError):
            to.settimeout(0.1)  # systemd may be busy; a service does not wait for it.
            to.connect("\0" + address[1:] if address.startswith("@") else address)
            to.sendall(said.encode())


def when_told_to_stop(call: Callable[..., object], *words: object) -> None:
    """Has SIGTERM and SIGINT call something, and not end the process."""
    for number in (signal.SIGTERM, signal.SIGINT):
        asyncio.get_running_loop().add_signal_handler(number, call, *words)


def watchdog() -> Optional[float]:
    """How many seconds may pass between two signs of life for systemd; None if it wants none."""
    word = os.environ.get("WATCHDOG_USEC", "")
    mine = os.environ.get("WATCHDOG_PID", str(os.getpid())) == str(os.getpid())
    return int(word) / 1e6 if word.isdecimal() and int(word) and mine else None


async def keep_alive(is_well: Callable[[], Any]) -> None:
    """Sends systemd signs of life, each after a check. If the check hangs, systemd ends the service."""
    most = watchdog()
    while most:
        await is_well()
        notify("WATCHDOG=1")
        await asyncio.sleep(most / 3)


@contextlib.asynccontextmanager
async def at_work(is_well: Callable[[], Any], *beside: Awaitable[Any]) -> AsyncIterator[None]:
    """Tells systemd that a service is ready, lives, and at the end of the block that it stops. Meanwhile other coroutines run."""
    running = [asyncio.ensure_future(it) for it in (keep_alive(is_well), *beside)]
    notify("READY=1")
    try:
        yield
    finally:
        notify("STOPPING=1")
        for task in running:
            task.cancel()
