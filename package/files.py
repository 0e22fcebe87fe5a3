"""The files of the program and of the library: those of release/, or others that the Rattle kit builds; and what everything else is made of.

The scripts of package/, bindings/embed/, page/, bindings/python/ and bindings/npm/ that build something use it, and so do ./gs1_hub and ./noriladle at first use.
"""
from __future__ import annotations

import gzip
import hashlib
import os
import re
import shutil
import struct
import subprocess
import sys
import tempfile
import zlib
from functools import lru_cache
from pathlib import Path
from typing import Callable, Dict, List, Tuple

ROOT = Path(__file__).resolve().parent.parent
VERSION = (ROOT / "VERSION").read_text("ascii").strip()
SONAME = "libgs1.so.1"
"""By this name programs find the library; bindings/embed/link gives it. Its number changes only when a call does, so it is not that of the version."""
NO_INPUT, NO_FILE, NO_ROOM = 64, 69, 73
"""The statuses of the scripts: no such name, no file, no room or right to put it there."""
_LOWER = ("--enable-memory64", "--memory64-lowering", "--enable-bulk-memory", "--enable-sign-ext", "--enable-mutable-globals")
"""How wasm-opt makes a module with addresses of 32 bits. The other features are those that the module already uses."""
_TEXTS = ("--enable-bulk-memory", "--enable-sign-ext", "--enable-mutable-globals", "--graph-file", str(ROOT / "package" / "texts.graph.json"))
"""How wasm-metadce keeps what the calls about texts need of a module."""
_BACK = "git checkout -- release brings it back"


class NoFile(Exception):
    """Why there is no file, in a line, and the status that says so."""

    def __init__(self, why: str, status: int = NO_FILE) -> None:
        super().__init__(why)
        self.status = status


def manifest() -> Dict[str, List[str]]:
    """The words of each line of release/MANIFEST by its first.

    :raises NoFile: it is missing or damaged.
    """
    try:
        lines = (ROOT / "release" / "MANIFEST").read_text("ascii").splitlines()
        told = {words[0]: words[1:] for words in map(str.split, lines) if words}
    except (OSError, UnicodeDecodeError):
        told = {}
    if not (told.get("sources") and told.get("version")):
        raise NoFile(f"release/MANIFEST is missing or damaged; {_BACK}")
    return told


def unpacked(name: str) -> bytes:
    """A file of the release, which is the one that the manifest names.

    :raises NoFile: it is missing or damaged, or the release has none of this name.
    """
    told = manifest()
    if name not in told:
        raise NoFile(f"release/ has no {name}")
    try:
        data = gzip.decompress((ROOT / "release" / f"{name}.gz").read_bytes())
    except (OSError, EOFError, zlib.error):
        data = b""
    if [hashlib.sha256(data).hexdigest()] != told[name][:1]:
        raise NoFile(f"release/{name}.gz is missing or damaged; {_BACK}")
    return data


def sum_of_sources() -> str:
    """The checksum of all that a build of the program and of the library reads."""
    # From a zip it has no right to be run.
    return subprocess.run(["bash", str(ROOT / "package" / "sources")], check=True, stdout=subprocess.PIPE, text=True).stdout.strip()


@lru_cache(maxsize=None)
def is_current() -> bool:
    """Whether the release is of these sources.

    :raises NoFile: there is no release.
    """
    told = manifest()
    return told["version"] == [VERSION] and told["sources"] == [sum_of_sources()]


def has_kit() -> bool:
    """Whether the Rattle kit is there."""
    return shutil.which("rt") is not None


def file_of(name: str) -> bytes:
    """A file of these sources by its name in release/. It comes from there, if that is of these sources. Otherwise the kit builds it.

    :raises NoFile: there is none.
    """
    try:
        if is_current():
            return unpacked(name)
        why = f"release/ has no {name} of these sources"
    except NoFile as error:
        why = str(error)
    if not has_kit():
        raise NoFile(f"{why}; there is no Rattle kit to build it, of which CONTRIBUTING.md says more")
    return built(name)


def built(name: str) -> bytes:
    """The same, built by the kit in any case.

    :raises NoFile: the kit does not build it, and has said why; a tool is missing; or there is none of this name.
    """
    target, _, file = name.partition("/")
    crate, made = {"gs1_hub": ("gs1_hub", "gs1_hub"), "gs1_c.wasm": ("gs1_c", "gs1_c.wasm")}.get(file, ("gs1_c", "libgs1_c.a"))
    if name == "wasm32/gs1_c.wasm":
        return _changed(built("wasm64/gs1_c.wasm"), "wasm-opt", *_LOWER)
    if name == "wasm32/gs1_texts.wasm":
        return _emptied(_changed(built("wasm32/gs1_c.wasm"), "wasm-metadce", *_TEXTS))
    if not re.fullmatch(r"(x86_64|aarch64)/(gs1_hub|libgs1\.a|libgs1\.so)|x86_64_v2/gs1_hub|wasm64/gs1_c\.wasm", name):
        raise NoFile(f"there is no {name}", NO_INPUT)
    _run("package/prove", crate, target)
    path = ROOT / "crates" / crate / "out" / target / made
    step = {"libgs1.a": "bindings/embed/archive", "libgs1.so": "bindings/embed/link"}.get(file)
    if not step:
        return path.read_bytes()
    with tempfile.TemporaryDirectory() as folder:
        _run(step, target, str(path), f"{folder}/{file}")
        return Path(folder, file).read_bytes()


def _run(script: str, *words: str) -> None:
    if subprocess.run([str(ROOT / script), *words], check=False, stdout=sys.stderr).returncode:
        raise NoFile(f"{script} could not build it, as it says above", 70)


def _number(module: bytes, at: int) -> Tuple[int, int]:
    """The number that begins here in a module, and the index behind it."""
    value, shift = 0, 0
    while module[at] & 128:
        value, shift, at = value | (module[at] & 127) << shift, shift + 7, at + 1
    return value | module[at] << shift, at + 1


def _emptied(module: bytes) -> bytes:
    """A module of texts with zeros for the lists of conflicts and of units, which no call about texts reads, since zeros pack to nothing.

    :raises NoFile: the lists are not in it as they are in the sources.
    """
    sources = "".join((ROOT / "crates" / "answer_core" / "src" / name).read_text("utf-8") for name in ("association.rt", "code.rt", "gtin_use.rt", "unit.rt"))
    lists = {it.encode("ascii").decode("unicode_escape").encode("latin-1") for it in re.findall(r'b"([^"]+)"', sources)}
    # The section of data has one segment, at an address.
    at = 8
    while module[at] != 11:
        size, at = _number(module, at + 1)
        at += size
    count, at = _number(module, _number(module, at + 1)[1])
    address, at = _number(module, at + 2)
    first, changed, found = _number(module, at + 1)[1], bytearray(module), 0
    marked = {it: module.find(it, first) for it in lists if re.search(rb"[0-9]n|,", it)}
    end = max(marked.values())
    for it, at in marked.items():
        changed[at:at + len(it)] = bytes(len(it))
    # Each list has its address and its length in an array before the last of them.
    for at in range(first, end):
        here, length = struct.unpack_from("<QQ", module, at)
        here += first - address
        if length and first <= here < end + 1000 and module[here:here + length] in lists:
            changed[at:at + 16], found = bytes(16), found + 1
    wanted = 2 * len(re.findall(r"  (?:Association|Measured) \{ ", sources)) + len(re.findall(r"  (?:CodedAis|NumberPrefixes) \{ ", sources))
    if count != 1 or found != wanted or -1 in marked.values():
        raise NoFile(f"the lists of conflicts stand {found} times in the module of texts, and not {wanted}", 70)
    return bytes(changed)


def _changed(module: bytes, tool: str, *words: str) -> bytes:
    """A module of WebAssembly as a tool of binaryen changes it.

    :raises NoFile: there is no such tool.
    """
    if not shutil.which(tool):
        raise NoFile(f"there is no {tool}: apt-get install binaryen")
    with tempfile.TemporaryDirectory() as folder:
        before, after = Path(folder, "before.wasm"), Path(folder, "after.wasm")
        before.write_bytes(module)
        subprocess.run([tool, *words, str(before), "-o", str(after)], check=True, stdout=subprocess.DEVNULL)
        return after.read_bytes()


def put(path: Path, make: Callable[[str], object]) -> None:
    """Puts a file or a link in its place by a rename, so nobody ever sees half of it.

    :raises OSError: it cannot be put there.
    """
    new = tempfile.mktemp(prefix=f".{path.name}.", dir=path.parent)
    try:
        make(new)
        os.replace(new, path)
    except BaseException:
        if os.path.lexists(new):
            os.unlink(new)
        raise


def put_file(path: Path, data: bytes, mode: int = 0o644) -> None:
    """Puts a file in its place with this mode."""
    def make(new: str) -> None:
        Path(new).write_bytes(data)
        os.chmod(new, mode)
    put(path, make)


def put_files(folder: Path, files: Dict[str, bytes]) -> None:
    """Puts files into a folder by their names below it. One that is there with these bytes stays as it is."""
    for name, data in files.items():
        path = folder / name
        path.parent.mkdir(parents=True, exist_ok=True)
        if not path.is_file() or path.read_bytes() != data:
            put_file(path, data)


def ended(run: Callable[[], object], name: str) -> int:
    """Runs a script of this name, and returns its status. A fault is a line on standard error."""
    try:
        run()
        return 0
    except NoFile as error:
        print(f"{name}: {error}", file=sys.stderr)
        return error.status
    except OSError as error:
        print(f"{name}: {error.filename or ''}: {error.strerror}", file=sys.stderr)
        return NO_ROOM
