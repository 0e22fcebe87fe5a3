"""Makes Debian packages, archives and a folder from which apt installs, by Python alone. Two runs make the same bytes."""
from __future__ import annotations

import email.utils
import hashlib
import io
import re
import tarfile
from pathlib import Path
from typing import Dict, Mapping, NamedTuple, Union

from files import ROOT
from parts import gzipped

HERE = ROOT / "package" / "debian"
_CHANGELOG = (HERE / "changelog").read_text("utf-8")
RELEASE = re.findall(r"\Anoriladle \(([^)]*)\)", _CHANGELOG)[0]
"""The version of the packages: that of the newest entry of their changelog."""
DATE = re.findall(r"^ -- .*>  (.*)$", _CHANGELOG, re.MULTILINE)[0]
"""The date of that entry, and of all files."""
WHEN = int(email.utils.parsedate_to_datetime(DATE).timestamp())
"""The same in seconds since 1970."""


class File(NamedTuple):
    """A file of a package: its bytes and its mode; or what it is a link to."""

    data: Union[bytes, str]
    mode: int = 0o644


Tree = Dict[str, File]
"""Files by their names below the root."""


class Deb(NamedTuple):
    """A Debian package: what its control file says, and its bytes."""

    control: str
    data: bytes


def packed(tree: Mapping[str, File], top: str = "") -> bytes:
    """A packed tar of files and the folders above them, sorted, with one date, owned by root."""
    folders = {folder.as_posix() for name in tree for folder in Path(name).parents} - {"."}
    out = io.BytesIO()
    with tarfile.open(fileobj=out, mode="w", format=tarfile.GNU_FORMAT) as made:
        for name in [*([""] if top else []), *sorted([*tree, *folders])]:
            told = tarfile.TarInfo(f"{top}{name}")
            told.mtime, told.mode, told.uname, told.gname = WHEN, 0o755, "root", "root"
            file = tree.get(name)
            if not file:
                told.type = tarfile.DIRTYPE
                made.addfile(told)
            elif isinstance(file.data, str):
                told.type, told.linkname, told.mode = tarfile.SYMTYPE, file.data, 0o777
                made.addfile(told)
            else:
                told.size, told.mode = len(file.data), file.mode
                made.addfile(told, io.BytesIO(file.data))
    return gzipped(out.getvalue(), 6)


def control(name: str, machine: str, tree: Mapping[str, File]) -> str:
    """The part of a package of package/debian/control, with what depends on its files."""
    parts = (HERE / "control").read_text("utf-8").split("\n\n")
    source = dict(re.findall(r"^(\w+): (.*)$", parts[0], re.MULTILINE))
    part = next(it for it in parts if it.startswith(f"Package: {name}\n")).rstrip("\n")
    # Each file takes whole kilobytes, and so does each folder.
    size = sum(-(-len(it.data) // 1024) if isinstance(it.data, bytes) else 1 for it in tree.values()) + len({Path(it).parent for it in tree})
    told = (f"Source: noriladle\nArchitecture: {machine}\nVersion: {RELEASE}\nPriority: {source['Priority']}\nMaintainer: {source['Maintainer']}\n"
            f"Installed-Size: {size}")
    for word, value in (("${binary:Version}", RELEASE), ("${source:Version}", RELEASE), ("${shlibs:Depends}", _libc(tree))):
        part = part.replace(word, value)
    return re.sub(r"^Architecture: .*$", told, part, flags=re.MULTILINE) + "\n"


def _libc(tree: Mapping[str, File]) -> str:
    """The C library that the ELF files need: the newest version that a symbol of theirs names."""
    names = {name for it in tree.values() if it.data[:4] == b"\x7fELF" for name in re.findall(rb"\0GLIBC_([0-9.]+)(?=\0)", it.data)}  # type: ignore
    versions = sorted(tuple(map(int, name.split(b"."))) for name in names)
    return f"libc6 (>= {'.'.join(map(str, versions[-1]))})" if versions else ""


def deb(name: str, machine: str, tree: Tree) -> Deb:
    """A Debian package of these files, with the scripts and lists of package/debian that have its name."""
    documents = f"usr/share/doc/{name}"
    tree = {**tree, f"{documents}/copyright": File((HERE / "copyright").read_bytes()),
            f"{documents}/changelog.Debian.gz": File(gzipped(_CHANGELOG.encode())),
            f"{documents}/changelog.gz": File(gzipped((ROOT / "CHANGELOG.md").read_bytes()))}
    says = control(name, machine, tree)
    sums = "".join(f"{hashlib.md5(it.data).hexdigest()}  {path}\n" for path, it in sorted(tree.items()) if isinstance(it.data, bytes))
    told: Tree = {"control": File(says.encode()), "md5sums": File(sums.encode())}
    conffiles = "".join(f"/{path}\n" for path in sorted(tree) if path.startswith("etc/"))
    if conffiles:
        told["conffiles"] = File(conffiles.encode())
    for path in HERE.glob(f"{name}.*"):
        told[path.suffix[1:]] = File(path.read_bytes(), 0o755 if path.suffix in (".postinst", ".prerm", ".postrm") else 0o644)
    members = {"debian-binary": b"2.0\n", "control.tar.gz": packed(told, "./"), "data.tar.gz": packed(tree, "./")}
    made = [b"!<arch>\n"]
    for member, data in members.items():
        made += [f"{member:<16}{WHEN:<12}{0:<6}{0:<6}{100644:<8}{len(data):<10}`\n".encode(), data, b"\n" * (len(data) % 2)]
    return Deb(says, b"".join(made))


def apt_index(debs: Mapping[str, Deb]) -> Dict[str, bytes]:
    """Packages and Release of a folder with these packages by their names."""
    packages = "\n".join(f"{control}Filename: ./{name}\nSize: {len(data)}\nSHA256: {hashlib.sha256(data).hexdigest()}\n"
                         for name, (control, data) in sorted(debs.items())).encode()
    sums = f"SHA256:\n {hashlib.sha256(packages).hexdigest()} {len(packages)} Packages\n"
    return {"Packages": packages, "Release": f"Date: {DATE}\nLabel: Noriladle\nOrigin: Noriladle\n{sums}".encode()}
