"""What a command needs that is not installed, and the commands that install it."""
from __future__ import annotations

import importlib.util
import shutil
import sys
from typing import NamedTuple, Sequence


class Need(NamedTuple):
    """What people call it, its package of Debian, and if it is a module of Python its name and its package of pip."""

    said: str
    debian: str
    module: str = ""
    pip: str = ""

    def is_there(self) -> bool:
        """Whether it is installed."""
        return (importlib.util.find_spec(self.module) if self.module else shutil.which(self.said)) is not None


REPORTLAB = Need("reportlab", "python3-reportlab", "reportlab", "reportlab")
NUMPY = Need("numpy", "python3-numpy", "numpy", "numpy")
PILLOW = Need("Pillow", "python3-pil", "PIL", "Pillow")
PDFTOPPM = Need("pdftoppm", "poppler-utils")
HIREDIS = Need("hiredis", "python3-hiredis", "hiredis", "hiredis")
FONT = Need("a font", "fonts-liberation")


def sentence(what: str, lacking: Sequence[Need]) -> str:
    """What is missing for something and what installs it, in one line; empty if nothing is missing.

    In an environment of pip modules come by pip, since Debian's are not seen there.
    """
    if not lacking:
        return ""
    *first, last = (it.said for it in lacking)
    by_pip = [it for it in lacking if it.pip and sys.prefix != sys.base_prefix]
    by_apt = [it.debian for it in lacking if it not in by_pip]
    commands = [f"{sys.executable} -m pip install {' '.join(it.pip for it in by_pip)}"] if by_pip else []
    commands += [f"apt-get install {' '.join(by_apt)}"] if by_apt else []
    return f"{what} needs {', '.join(first)}{' and ' if first else ''}{last}: {'; '.join(commands)}"
