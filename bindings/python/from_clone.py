"""Runs the command ``noriladle`` of a clone without installation: ``./noriladle`` calls it.

At first use it unpacks the library of release/, and puts the module together in a folder of the user's cache: links to
the files of the clone, and beside them what bindings/python/build makes. The clone is only read.
"""
from __future__ import annotations

import os
import sys
from binascii import crc32
from functools import partial
from typing import List, NoReturn, Sequence

ROOT = os.path.dirname(os.path.dirname(os.path.dirname(os.path.realpath(__file__))))
MODULE = os.path.join(ROOT, "bindings", "python", "noriladle")


def fail(why: str) -> NoReturn:
    """Ends with a line that says what to do."""
    print(f"noriladle: {why}", file=sys.stderr)
    sys.exit(69)


def cache() -> str:
    """The folder of this clone in the user's cache."""
    base = os.environ.get("XDG_CACHE_HOME") or os.path.expanduser("~/.cache")
    # The record of the folder has the clone's name in full.
    return os.path.join(base, "noriladle", "clones", f"{crc32(os.fsencode(ROOT)):08x}")


def read_record(path: str) -> str:
    """What the last start has written; nothing if it cannot be read."""
    try:
        with open(path, "rb") as file:
            return os.fsdecode(file.read())
    except OSError:
        return ""


def looked(*folders: str) -> List[str]:
    """What says whether files of these folders have changed: their names, sizes and times."""
    names = [os.path.join(ROOT, folder) for folder in folders]
    files = [it for name in names if os.path.isdir(name) for it in sorted(os.scandir(name), key=lambda it: it.name) if it.is_file()]
    return [f"{it.path} {it.stat().st_size} {it.stat().st_mtime_ns} {it.stat().st_ctime_ns}" for it in files]


def own_names() -> List[str]:
    """The files of the module, without those that are made and git ignores."""
    with open(os.path.join(MODULE, ".gitignore"), encoding="utf-8") as file:
        made = [".gitignore", *(line.strip("/\n") for line in file)]
    names = [os.path.join(folder, name)[len(MODULE) + 1:] for folder, _, names in os.walk(MODULE) if "__pycache__" not in folder for name in names]
    return sorted(name for name in names if name.split(os.sep)[0] not in made)


def put_links(folder: str, names: Sequence[str]) -> None:
    """Links each file of the module, so Python keeps its bytecode here and not in the clone, and takes away links to files that are gone."""
    from pathlib import Path

    from files import put

    for name in names:
        path, to = Path(folder, name), os.path.join(MODULE, name)
        path.parent.mkdir(parents=True, exist_ok=True)
        if not path.is_symlink() or os.readlink(path) != to:
            put(path, partial(os.symlink, to))
    for path in Path(folder).rglob("*"):
        # Another start may be about to put what begins with a dot in its place.
        if path.is_symlink() and not path.name.startswith(".") and str(path.relative_to(folder)) not in names:
            path.unlink(missing_ok=True)


def prepare(place: str) -> bool:
    """Makes the folder ready, as far as it is not yet; the answer is whether the release is of these sources.

    :raises OSError: the folder cannot be written.
    """
    record, names = os.path.join(place, "record.txt"), own_names()
    now = "\n".join([ROOT, *names, *looked("tables/shop", "tables", "release")])
    told, _, before = read_record(record).partition("\n")
    if before == now:
        return told == "same"
    from pathlib import Path
    from platform import machine

    from files import NoFile, is_current, put_file, put_files, unpacked
    from parts import module_made

    try:
        folder, same = os.path.join(place, "noriladle"), is_current()
        os.makedirs(folder, exist_ok=True)
        put_links(folder, names)
        put_files(Path(folder), module_made(machine(), unpacked))
    except NoFile as error:
        fail(str(error))
    put_file(Path(record), os.fsencode("\n".join(["same" if same else "other", now])))
    return same


def prepare_page(place: str) -> None:
    """Makes the page ready, if it is not yet.

    :raises OSError: the folder cannot be written.
    """
    record, now = os.path.join(place, "page.txt"), "\n".join(looked("page", "tables/shop", "release"))
    if read_record(record) != now:
        from pathlib import Path

        from files import put_file, put_files, unpacked
        from parts import page_files

        files, folder = page_files(unpacked), Path(place, "noriladle", "page")
        put_files(folder, files)
        for path in folder.iterdir():
            if path.name not in files and not path.name.startswith("."):
                path.unlink(missing_ok=True)
        put_file(Path(record), os.fsencode(now))


def main() -> int:
    """Runs the command, and returns its status."""
    if sys.version_info < (3, 8):
        fail("this needs Python 3.8 or newer")
    place = cache()
    sys.path[0], sys.dont_write_bytecode = os.path.join(ROOT, "package"), True
    try:
        same = prepare(place)
        if sys.argv[1:2] == ["page"]:
            prepare_page(place)
    except OSError as error:
        fail(f"{place}: {error.strerror}; set XDG_CACHE_HOME to a folder that can be written and has room for 2 MB")
    if not same:
        print("noriladle: the library is that of the last release; the sources here differ; bindings/python/build makes one of them with the Rattle kit",
              file=sys.stderr)
    sys.path[0], sys.dont_write_bytecode = place, bool(os.environ.get("PYTHONDONTWRITEBYTECODE"))
    # The services find the program of the clone behind an installed one.
    os.environ["PATH"] = f"{os.environ.get('PATH', os.defpath)}{os.pathsep}{ROOT}"
    try:
        from noriladle.__main__ import main as run
    except OSError as error:
        fail(f"the library of the release does not load here (it needs Linux with glibc 2.17 or newer): {error}")
    return run()


if __name__ == "__main__":
    sys.exit(main())
