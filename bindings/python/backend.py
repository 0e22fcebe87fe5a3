"""Makes the wheel, by Python alone: pip calls it for ./bindings/python of a clone, and package/build for both processors. pyproject.toml says the rest."""
from __future__ import annotations

import ast
import base64
import hashlib
import platform
import re
import sys
from functools import lru_cache
from pathlib import Path
from typing import Any, Dict, List, Optional

HERE = Path(__file__).resolve().parent
sys.path.insert(0, str(HERE.parents[1] / "package"))
from files import NoFile  # noqa: E402
from parts import Files, licences, module_files, zipped  # noqa: E402


def build_wheel(wheel_directory: str, config_settings: Optional[Dict[str, Any]] = None, metadata_directory: Optional[str] = None) -> str:
    """What pip calls: makes the wheel for this machine, and returns its name."""
    try:
        name, data = wheel(platform.machine())
    except NoFile as error:
        sys.exit(f"noriladle: {error}")
    Path(wheel_directory, name).write_bytes(data)
    return name


def wheel(target: str) -> "tuple[str, bytes]":
    """The name and the bytes of the wheel for x86_64 or aarch64.

    :raises NoFile: there is no library of these sources for this processor.
    """
    told = _project()
    return f"{told['name']}-{told['version']}-{_tag(target)}.whl", zipped(wheel_files(target))


@lru_cache(maxsize=None)
def wheel_files(target: str) -> Files:
    """The files of the wheel."""
    told = _project()
    top = f"{told['name']}-{told['version']}.dist-info"
    files = {f"noriladle/{name}": data for name, data in module_files(target).items()}
    files.update({f"{top}/{name}": data for name, data in _information(told, _tag(target)).items()})
    record = "".join(f"{name},sha256={_digest(data)},{len(data)}\n" for name, data in files.items())
    return {**files, f"{top}/RECORD": f"{record}{top}/RECORD,,\n".encode()}


def _tag(target: str) -> str:
    """Every Python 3, since the library is read by ctypes; and both C libraries of Linux."""
    return f"py3-none-manylinux2014_{target}.musllinux_1_1_{target}"


def _project() -> Dict[str, Any]:
    """[project] of pyproject.toml and what is below it. Python before 3.11 reads no TOML, but its values are literals of Python too."""
    told: Dict[str, Any] = {}
    for heading, body in re.findall(r"^\[project\.?(.*)\]\n((?:(?!\[).*\n)*)", (HERE / "pyproject.toml").read_text("utf-8"), re.MULTILINE):
        table = told.setdefault(heading, {}) if heading else told
        for name, value in re.findall(r"^([\w-]+) = ((?:.*?)(?=\n[\w-]+ = |\n*\Z))", body, re.MULTILINE | re.DOTALL):
            table[name] = ast.literal_eval(re.sub(r"(?<=\{ )(\w+) = ", r"'\1': ", value))
    return told


def _information(told: Dict[str, Any], tag: str) -> Files:
    """The files of dist-info, except RECORD."""
    lines: List[str] = ["Metadata-Version: 2.1"]
    for field, values in (
        ("Name", [told["name"]]), ("Version", [told["version"]]), ("Summary", [told["description"]]),
        ("Author", [it["name"] for it in told["authors"]]), ("License", [told["license"]["text"]]),
        ("Project-URL", [f"{name}, {url}" for name, url in told["urls"].items()]), ("Keywords", [",".join(told["keywords"])]),
        ("Classifier", told["classifiers"]), ("Requires-Python", [told["requires-python"]]),
        ("Description-Content-Type", ["text/markdown"]), ("License-File", sorted(licences())),
    ):
        lines += [f"{field}: {value}" for value in values]
    for extra, needs in told["optional-dependencies"].items():
        lines += [f"Provides-Extra: {extra}", *(f"Requires-Dist: {need} ; extra == '{extra}'" for need in needs)]
    scripts = "".join(f"{name} = {function}\n" for name, function in told["scripts"].items())
    python, abi, systems = tag.split("-")
    tags = "".join(f"Tag: {python}-{abi}-{system}\n" for system in systems.split("."))
    return {**licences(), "METADATA": "\n".join([*lines, "", (HERE / told["readme"]).read_text("utf-8")]).encode(),
            "WHEEL": f"Wheel-Version: 1.0\nGenerator: noriladle\nRoot-Is-Purelib: false\n{tags}".encode(),
            "entry_points.txt": f"[console_scripts]\n{scripts}".encode(), "top_level.txt": b"noriladle\n"}


def _digest(data: bytes) -> str:
    return base64.urlsafe_b64encode(hashlib.sha256(data).digest()).decode().rstrip("=")
