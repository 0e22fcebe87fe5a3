"""The command ``noriladle``, also ``python3 -m noriladle``."""
from __future__ import annotations

import gc
import importlib
import os
import sys
from typing import TYPE_CHECKING, Any, List, NamedTuple, Optional, Sequence

from . import __version__, _sources
from ._shop import machine_language, speak, translated
from .commands import REFUSED, RIGHT, WRONG_WORDS, WrongWords, tell

if TYPE_CHECKING:
    from .commands._parser import Parser


class Command(NamedTuple):
    """A subcommand: its name, its line of the help, and the module that has its arguments and runs it."""

    name: str
    help: str
    module: str


COMMANDS = (
    Command("labels", "Make labels from a list: names, prices and barcodes on label stock", "noriladle.commands.labels"),
    Command("check", "Check a list of numbers, element strings and scanned texts", "noriladle.commands.check"),
    Command("read", "Read the barcodes of photographs, scans and PDF files", "noriladle.commands.read"),
    Command("page", "Serve the web page to this machine, or to telephones in the local network", "noriladle.commands.page"),
    Command("gateway", "Give scanners and tills the answers of one hub, over sockets", "noriladle.commands.gateway"),
    Command("scanner", "Read an ordinary scanner, and give its texts to a gateway or check them", "noriladle.commands.scanner"),
    Command("journal", "Print and check the journal of a gateway: each scan and its answer", "noriladle.commands.journal"),
    Command("worker", "Answer the rows that tills submit to Redis", "noriladle.commands.worker"),
    Command("till", "Submit rows to Redis, and print their answers", "noriladle.commands.till"),
)
"""All subcommands, in the order of the help. A module is imported only when its command is asked for."""

_FOR_SHOPS = ("labels", "check", "read")
"""The commands that speak the language of the machine. The others serve programs and administrators."""

_ABOUT = "Make labels, check numbers and read pictures: GS1 barcodes for a shop"
_AFTER = "noriladle COMMAND --help prints the options of a command and an example."


def parser_of(name: Optional[str] = None) -> Parser:
    """The parser of the program, or of a subcommand, whose module is imported."""
    from .commands._parser import Parser  # --version needs none.

    if name is None:
        parser = Parser("noriladle", _ABOUT, _AFTER, [(it.name, it.help) for it in COMMANDS])
        parser.add_argument("--version", action="store_true", help="Print version")
        return parser
    module = _module_of(name)
    about, _, after = (module.__doc__ or "").partition("\n")
    parser = Parser(f"noriladle {name}", translated(about.rstrip(".")), translated(after))
    module.add_arguments(parser)
    return parser


def _module_of(name: str) -> Any:
    return importlib.import_module(next(command.module for command in COMMANDS if command.name == name))


def main(words: Optional[Sequence[str]] = None) -> int:
    """Runs the command of these arguments, or of the process's own, and returns its status: 0, 1 or 2."""
    if words is None and hasattr(gc, "freeze"):
        # What is imported stays. At the end of the process Python would look for garbage in all of it, which takes a tenth of a start.
        gc.freeze()
    given = list(sys.argv[1:] if words is None else words)
    try:
        status = _run(given)
        sys.stdout.flush()
        return status
    except SystemExit as ended:
        return ended.code if isinstance(ended.code, int) else RIGHT if ended.code is None else REFUSED
    except (WrongWords, ImportError) as wrong:
        tell(f"noriladle: {wrong}")
        return WRONG_WORDS
    except BrokenPipeError:
        # The reader of the output has closed it. At the end Python would write the rest, and fail again.
        os.dup2(os.open(os.devnull, os.O_WRONLY), sys.stdout.fileno())
        return REFUSED
    except KeyboardInterrupt:
        return 130
    except OSError as error:
        tell(f"noriladle: {f'{error.filename}: ' if error.filename else ''}{error.strerror or error}")
        return REFUSED


def _run(words: List[str]) -> int:
    if not words:
        sys.stderr.write(parser_of().format_help())
        return WRONG_WORDS
    if words[0] == "--version":
        print(f"noriladle {__version__} (sources {_sources()})")
        return RIGHT
    names = [command.name for command in COMMANDS]
    speak(machine_language() if words[0] in _FOR_SHOPS else "en")
    if words[0] in names:
        status: int = _module_of(words[0]).run(parser_of(words[0]).parse_args(words[1:]))
        return status
    if words[0].startswith("-"):
        parser_of().parse_args(words[:1])
    from .commands._parser import meant  # Only used here.

    raise WrongWords(f"there is no command {words[0]!r}{meant(words[0], names)}; see noriladle --help")


if __name__ == "__main__":
    sys.exit(main())
