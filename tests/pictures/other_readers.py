"""Reads a picture's file with zbarimg and ZXingReader; answers have the form of pictures.Symbol.says.

They are asked for the library's kinds alone. `newest` gives those that fetch_readers has put into a folder.
"""
from __future__ import annotations

import os
import re
import subprocess
from typing import Callable, List

import pictures

Reader = Callable[[str], List[str]]
"""Reads a picture's file: what each symbol says."""
ZBAR_KINDS = ("-Sdisable", *(f"-S{kind}.enable" for kind in ("ean13", "ean8", "upca", "upce", "i25", "code128")))
ZXING_KINDS = "EAN13,EAN8,UPCA,UPCE,ITF,Code128"


def run(*words: str) -> str:
    return subprocess.run(words, stdout=subprocess.PIPE, stderr=subprocess.DEVNULL).stdout.decode("latin-1")


def said(name: str, read: str) -> str:
    """Writes a number with 14 digits, without the add-on that may stand beside it, and removes separators."""
    if "128" in name:
        return read.replace("\x1d", "")
    read = read.partition(" ")[0][:13] if name == "EAN-13" else read
    if name.startswith("UPC") and len(read) == 8:
        read = pictures.gtin12(read)
    return read.zfill(14)


def by_zbarimg(path: str, program: str = "zbarimg") -> list[str]:
    lines = run(program, "--quiet", "--nodbus", *ZBAR_KINDS, path).split("\n")
    return [said(*line.partition(":")[::2]) for line in lines if ":" in line]


def by_zxing(path: str, program: str = "ZXingReader", option: str = "-format") -> list[str]:
    told = run(program, option, ZXING_KINDS, path)
    names, texts = (re.findall(rf"^{word}: +(.*?) *$", told, re.MULTILINE) for word in ("Format", "Bytes"))
    return [said(name, bytes.fromhex(text).decode("latin-1")) for name, text in zip(names, texts) if name != "None"]


OTHERS: dict[str, Reader] = {"zbarimg": by_zbarimg, "ZXingReader": by_zxing}


def newest(folder: str) -> dict[str, Reader]:
    """Those of a folder, by their names, or the system's if it is not there."""
    if not os.path.isdir(folder):
        return OTHERS
    zbarimg, zxing = (os.path.join(folder, name) for name in OTHERS)
    return {"zbarimg": lambda path: by_zbarimg(path, zbarimg),
            "ZXingReader": lambda path: by_zxing(path, zxing, "-formats")}
