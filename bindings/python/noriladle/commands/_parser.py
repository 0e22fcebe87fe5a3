"""The parser of the program's arguments and of each subcommand's."""
from __future__ import annotations

import argparse
import re
from functools import partial
from typing import List, NoReturn, Sequence, Tuple

from .._shop import translated
from . import WRONG_WORDS

# argparse has no better way to translate its errors than that of gettext, which needs compiled files.
setattr(argparse, "_", translated)


class Parser(argparse.ArgumentParser):
    """A parser whose help has the form of ``gs1_hub``'s, so that one script makes the manual pages of both."""

    def __init__(self, prog: str, about: str, after: str = "", commands: Sequence[Tuple[str, str]] = ()) -> None:
        # Without a width argparse measures the terminal, by modules that take time.
        super().__init__(prog, description=about, epilog=after, allow_abbrev=False, add_help=False,
                         formatter_class=partial(argparse.HelpFormatter, width=80))
        self.commands = commands
        self.add_argument("-h", "--help", action="help", help=translated("Print help"))

    def format_help(self) -> str:
        """What the command is for, its usage, arguments and options, and the rest of its text."""
        words, options = self._get_positional_actions(), self._get_optional_actions()
        rest = ["COMMAND .."] if self.commands else [translated("[OPTIONS]"), *map(_shown, words)]
        blocks = [self.description or "", f"{translated('Usage')}: {' '.join([self.prog, *rest])}"]
        for heading, pairs in (("Commands", self.commands),
                               ("Arguments", [(_shown(action), translated(action.help or "")) for action in words]),
                               ("Options", [(_names(action), translated(action.help or "")) for action in options])):
            if pairs:
                blocks.append("\n".join([f"{translated(heading)}:", *_columns(pairs)]))
        return "\n\n".join(filter(None, [*blocks, (self.epilog or "").strip()])) + "\n"

    def error(self, message: str) -> NoReturn:
        """Reports what is wrong with the arguments, with the option that was probably meant, and ends."""
        known = [name for action in self._actions for name in action.option_strings]
        wrong = re.match(translated("unrecognized arguments: %s") % r"(--?[\w-]+)", message)
        question = meant(wrong[1], known) if wrong else ""
        self.exit(WRONG_WORDS, f"{translated('{0}: {1}; see {0} --help', self.prog, message + question)}\n")


def meant(word: str, known: Sequence[str]) -> str:
    """A question about the word that was probably meant."""
    import difflib  # Only used here.

    near = difflib.get_close_matches(word, known, 1)
    return translated(" (did you mean {0}?)", near[0]) if near else ""


def _shown(action: argparse.Action) -> str:
    """An argument as the usage shows it."""
    name = str(action.metavar)
    return f"[{name}]" if action.nargs == "?" else f"{name}.." if action.nargs == "+" else name


def _columns(pairs: Sequence[Tuple[str, str]]) -> List[str]:
    """The lines below a heading, in two columns."""
    wide = max(len(name) for name, _ in pairs)
    return [f"  {name:<{wide}}  {about}" for name, about in pairs]


def _names(action: argparse.Action) -> str:
    """The names of an option, with its value."""
    names = ", ".join(action.option_strings)
    value = f" <{action.metavar}>" if action.metavar and action.nargs != 0 else ""
    return f"{names if len(action.option_strings) > 1 or len(names) == 2 else '    ' + names}{value}"
