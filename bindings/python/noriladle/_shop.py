"""What the page and the commands share: the forms of barcodes, label stock, headings of lists, and the texts of errors.

bindings/python/build puts the files of the repository's folder tables/shop/ beside this module.
"""
from __future__ import annotations

import os
import re
from functools import lru_cache
from typing import Any, Dict, List, Sequence


def _path_of(name: str) -> str:
    return os.path.join(os.path.dirname(__file__), "shop", f"{name}.json")


@lru_cache(maxsize=None)
def file_of(name: str) -> Dict[str, Any]:
    """A file of tables/shop/ without its end .json."""
    import json  # Not at every start.

    with open(_path_of(name), encoding="utf-8") as file:
        told: Dict[str, Any] = json.load(file)
    return told


def shared(name: str) -> Any:
    """A part of tables/shop/shop.json."""
    return file_of("shop")[name]


_language = "en"


def speak(language: str) -> None:
    """Gives the errors in this language from now on, if tables/shop/ has it."""
    global _language
    _language = language if os.path.isfile(_path_of(language)) else "en"


def machine_language() -> str:
    """The language of this machine, such as de, or en if tables/shop/ does not have it."""
    name = os.environ.get("LC_ALL") or os.environ.get("LC_MESSAGES") or os.environ.get("LANG") or ""
    return name[:2] if re.match("[a-z]{2}(?![a-z])", name) else "en"


def decimal_sign() -> str:
    """The sign before the decimals of a price, if the list does not show it."""
    sign: str = file_of(_language)["decimal"]
    return sign


def localized(number: str) -> str:
    """A number with commas between thousands and a point before decimals, as the language writes it: in German 20.000 and 8,3."""
    return number.translate(str.maketrans(",.", ".,")) if decimal_sign() == "," else number


def count_text(number: int) -> str:
    """A whole number, as the language writes it."""
    return localized(f"{number:,}")


def told(name: str, *values: object) -> str:
    """A sentence of the commands, with these values in it."""
    sentence: str = file_of(_language)["command"][name]
    return sentence.format(*values)


def translated(text: str, *values: object) -> str:
    """An English text of the help, or of an error of options, in the language that is spoken, with these values in it."""
    if _language == "de":
        from ._german import TEXTS  # Imported only here, since it takes time.

        text = TEXTS.get(text, text)
    return text.format(*values) if values else text


def counted(name: str, number: int, *values: object) -> str:
    """A sentence of the commands that begins with a number of things."""
    return told(name if number != 1 else f"{name}1", count_text(number), *values)


def said(fault: object, *values: object) -> str:
    """The text of an error, by its name or number, with these values in it."""
    text: str = file_of(_language)["faults"][str(fault)]
    return text.format(*values)


def runs_of(lines: Sequence[int]) -> str:
    """Numbers of lines as a person writes them, such as 2, 4-9."""
    runs: List[List[int]] = []
    for line in lines:
        if runs and runs[-1][-1] + 1 == line:
            runs[-1].append(line)
        else:
            runs.append([line])
    return ", ".join(f"{run[0]}-{run[-1]}" if len(run) > 1 else str(run[0]) for run in runs)


def sentence_of_lines(fault: str, lines: Sequence[int]) -> List[str]:
    """A sentence that counts some lines and names them, or nothing if there are none."""
    return [said(fault if len(lines) > 1 else f"{fault}1", count_text(len(lines)), runs_of(lines))] if lines else []
