#!/usr/bin/env python3
"""Tests which program ./gs1_hub runs, on a small tree with its own release, and what it says if the release cannot be used; and package/release.

    tests/release/choices.py

The program of the release is a script that prints its arguments, and the kit proves nothing, so this takes seconds. Cases that need
their own file system (full, noexec, read-only) run in a namespace of mounts. If this machine has none, they are skipped, and a line
before the last one counts them. The last line is 'N passed, M failed'.
"""
from __future__ import annotations

import gzip
import hashlib
import os
import pathlib
import shutil
import subprocess
import sys
import tempfile
import time
from typing import Any, Tuple

ROOT = pathlib.Path(__file__).resolve().parents[2]
COPIED = ["gs1_hub", "VERSION", "bindings/embed", "package/aarch64", *(f"package/{it}" for it in ("file", "files.py", "prove", "prove.mk", "release", "sources"))]
VERSION = (ROOT / "VERSION").read_text(encoding="ascii").strip()

# Programs that say which they are. Long enough that gzip writes several blocks of the file.
STUB = "#!/bin/sh\n" + "# a program of the release\n" * 3000 + f'[ "$1" = --version ] && echo "gs1_hub {VERSION}" || echo "released $*"\n'
BUILT = '#!/bin/sh\necho "built $*"\n'
PUT = 'while [ $# -gt 0 ]; do case $1 in -o) out=$2 ;; esac; shift; done\n'
KIT = {
    "bin/rattle": f'{PUT}case $out in *.rlib) mkdir -p "$out" ;; *) echo >"$out" ;; esac\n',
    "bin/rattle-link": f"{PUT}cat >\"$out\" <<'END' && chmod +x \"$out\"\n{BUILT}END\n",
    "bin/rt": "echo kit logic 0\n",
    "toolchain/bin/clang": "exit 0\n",
}
BACK = "git checkout -- release brings it back"
LACKS = "and there is no Rattle kit to build it, of which CONTRIBUTING.md says more"
OTHER = f"gs1_hub: this is the program of the last release; the sources here differ, {LACKS}\n"
KEPT = ["gs1_hub", "gs1_hub.beside"]
Ran = Tuple[int, str, str]


class Tree:
    """A tree with a release of its sources, a home, and a kit beside it."""

    def __init__(self, folder: pathlib.Path) -> None:
        self.folder, self.home, self.kit = folder / "tree", folder / "home", folder / "kit"
        self.home.mkdir()
        for name, text in KIT.items():
            self.write(self.kit / name, f"#!/bin/sh\n{text}")
        for name in COPIED:
            (self.folder / name).parent.mkdir(parents=True, exist_ok=True)
            copy: Any = shutil.copytree if (ROOT / name).is_dir() else shutil.copy
            copy(ROOT / name, self.folder / name)
        self.write(self.folder / "crates.txt", "low:\ngs1_hub: low\n")
        self.source = self.folder / "crates" / "low" / "src" / "lib.rt"
        self.write(self.source, "one\n")
        self.write(self.folder / "crates" / "gs1_hub" / "src" / "main.rt", "main\n")
        self.out = self.folder / "crates" / "gs1_hub" / "out"
        self.packed, self.manifest = self.folder / "release" / "x86_64" / "gs1_hub.gz", self.folder / "release" / "MANIFEST"
        self.release(STUB)

    @staticmethod
    def write(path: pathlib.Path, text: str) -> None:
        """Writes a file that can be run."""
        path.parent.mkdir(parents=True, exist_ok=True)
        path.write_text(text, encoding="utf-8")
        path.chmod(0o755)

    def release(self, program: str) -> None:
        """Makes a release of the sources as they are, with this program."""
        self.packed.parent.mkdir(parents=True, exist_ok=True)
        self.packed.write_bytes(gzip.compress(program.encode(), mtime=0))
        sources = subprocess.run([str(self.folder / "package" / "sources")], stdout=subprocess.PIPE, check=True, text=True).stdout
        sums = hashlib.sha256(program.encode()).hexdigest()
        self.manifest.write_text(f"version {VERSION}\nlogic 0\nsources {sources}x86_64/gs1_hub {sums} {len(program)}\n", encoding="ascii")

    def run(self, *words: str, start: str = "./gs1_hub", kit: bool = False, before: str = "", **more: str) -> Ran:
        """The status of a script, its output and its errors, in an environment of its own, after these commands of a shell."""
        path = f"{self.kit}/bin:/usr/bin:/bin" if kit else "/usr/bin:/bin"
        ran = subprocess.run(["sh", "-c", f'set -e\n{before}\nexec "$@"', "sh", start, *words], cwd=self.folder, stdin=subprocess.DEVNULL,
                             env={"PATH": path, "HOME": str(self.home), **more}, capture_output=True, text=True, check=False)
        return ran.returncode, ran.stdout, ran.stderr

    def run_in(self, mounts: str, command: str = "./gs1_hub a") -> "Ran | None":
        """The same after these commands in a namespace of mounts, or None if there is none."""
        unshare = ["unshare", "--mount", *([] if os.geteuid() == 0 else ["--map-root-user"])]
        script = f"mount -t tmpfs none /mnt || exit 99\nset -e\nmkdir -p \"$HOME\"\n{mounts}\ncd '{self.folder}'\nexec {command}\n"
        status, output, error = self.run("-c", script, start="sh", before=f'set -- {" ".join(unshare)} "$@"')
        return None if status == 99 or "unshare" in error else (status, output, error)

    def left(self) -> list[str]:
        """What lies in the folder of the program, and in the cache."""
        return sorted(it.name for folder in (self.out, self.home) if folder.exists() for it in folder.rglob("*") if it.is_file())


class Tests:
    """Counts."""

    def __init__(self) -> None:
        self.passed, self.failed, self.skipped = 0, 0, 0

    def expect(self, what: str, found: object, wanted: object) -> None:
        """That both are the same; there may be no namespace of mounts."""
        if found is None:
            self.skipped += 1
        elif found == wanted:
            self.passed += 1
        else:
            self.failed += 1
            print(f"./gs1_hub, {what}:\nwanted {wanted}\nfound  {found}", file=sys.stderr)


def try_current(tests: Tests, tree: Tree) -> None:
    """The release of these sources."""
    answer = (0, "released a b\n", "")
    tests.expect("the first run", tree.run("a", "b"), answer)
    tests.expect("what it left", tree.left(), KEPT)
    tests.expect("the second, with blanks in a word", tree.run("a  b"), (0, "released a  b\n", ""))
    tests.expect("with a kit, which is not asked", tree.run("a", "b", kit=True, NORILADLE_ANEW="1"), answer)
    (tree.out / "gs1_hub").chmod(0o644)
    tests.expect("after a copy that keeps no permissions", tree.run("a", "b"), answer)
    (tree.folder.parent / "link").symlink_to("tree/gs1_hub")
    tests.expect("through a link", tree.run("a", "b", start="../link"), answer)
    tests.expect("from elsewhere", tree.run("a", "b", start=f"{tree.folder}/gs1_hub", before="cd /"), answer)
    tests.expect("by its name", tree.run("gs1_hub", "a", "b", start="sh"), answer)
    few = (69, "", "gs1_hub: the stack may have 191 KiB, and the program needs 192; raise the limit: ulimit -s 8192\n")
    for kib, wanted in (("191", few), ("192", answer), ("unlimited", answer)):
        tests.expect(f"a stack of {kib}", tree.run("a", "b", before=f"ulimit -s {kib}"), wanted)
    tree.source.write_text("again\n", encoding="ascii")
    tree.release(STUB.replace("released", "again"))
    tests.expect("after a new release", tree.run("a", "b"), (0, "again a b\n", ""))


def try_other(tests: Tests, tree: Tree) -> None:
    """Sources that are not those of the release."""
    stale = (0, "released a b\n", OTHER)
    tree.source.write_text("two\n", encoding="ascii")
    tests.expect("other sources, no kit", tree.run("a", "b"), stale)
    tests.expect("the same again", tree.run("a", "b"), stale)
    status, output, error = tree.run("a", "b", kit=True, NORILADLE_ANEW="1")
    tests.expect("./do build, with a kit", (status, output, "proved" in error), (0, "built a b\n", True))
    tests.expect("after it, without a kit", tree.run("a", "b"), (0, "built a b\n", ""))
    tree.source.write_text("one\n", encoding="ascii")
    (tree.folder / "crates" / "low" / "README.md").write_text("a page", encoding="ascii")
    tests.expect("./do build at the sources of the release, and a page is no source", tree.run("a", "b", NORILADLE_ANEW="1"), (0, "released a b\n", ""))
    tree.write(tree.folder / "crates" / "low" / "src" / "more.rt", "more\n")
    tests.expect("./do build after a file more, which is one", tree.run("a", "b", NORILADLE_ANEW="1"), stale)
    tests.expect("after it", tree.run("a", "b"), stale)


def try_damage(tests: Tests, tree: Tree) -> None:
    """A release that is damaged, or has no program for this machine."""
    whole, manifest = tree.packed.read_bytes(), tree.manifest.read_text(encoding="ascii")
    changed = bytearray(whole)
    changed[len(changed) // 2] ^= 1
    swapped = gzip.compress(b"#!/bin/sh\necho another\n", mtime=0)
    damaged = (69, "", f"gs1_hub: release/x86_64/gs1_hub.gz is missing or damaged; {BACK}\n")
    for what, packed in [("cut", whole[: len(whole) // 2]), ("empty", b""), ("changed", bytes(changed)), ("another", swapped), ("missing", None)]:
        tree.packed.unlink()
        if packed is not None:
            tree.packed.write_bytes(packed)
        for kit in (False, True):
            tests.expect(f"a release file that is {what}, with a kit: {kit}", tree.run("a", kit=kit), damaged)
        tests.expect(f"what it left, {what}", tree.left(), [])
        tree.packed.write_bytes(whole)
    tree.manifest.write_text(manifest.replace(manifest.splitlines()[-1], "x86_64/gs1_hub 12"), encoding="ascii")
    tests.expect("a manifest without a sum", tree.run("a"), damaged)
    tree.manifest.write_text(manifest, encoding="ascii")
    tree.write(tree.folder.parent / "bin" / "uname", "#!/bin/sh\necho riscv64\n")
    tests.expect("another processor", tree.run("a", before=f"PATH={tree.folder.parent}/bin:$PATH"),
                 (69, "", f"gs1_hub: release/ has no program for riscv64, {LACKS}\n"))
    tree.release(STUB.replace('[ "$1" =', 'echo "GLIBC_2.99 not found" >&2; exit 1; [ "$1" ='))
    tests.expect("where it does not start", tree.run("a"),
                 (69, "", "gs1_hub: the program of the release does not start here (it needs Linux with glibc 2.34 or newer): GLIBC_2.99 not found\n"))
    for remove in (lambda: tree.manifest.unlink(), lambda: shutil.rmtree(tree.folder / "release")):
        remove()
        tests.expect("no manifest, or no release", tree.run("a"), (69, "", f"gs1_hub: release/MANIFEST is missing or damaged; {BACK}\n"))
    status, output, error = tree.run("a", kit=True)
    tests.expect("no release, with a kit", (status, output, "proved" in error), (0, "built a\n", True))


def try_levels(tests: Tests, tree: Tree) -> None:
    """A release with a faster program for newer processors, which MANIFEST has first."""
    faster = STUB.replace("released", "faster").encode()
    (tree.folder / "release" / "x86_64_v2").mkdir()
    (tree.folder / "release" / "x86_64_v2" / "gs1_hub.gz").write_bytes(gzip.compress(faster, mtime=0))
    *first, last = tree.manifest.read_text(encoding="ascii").splitlines()
    line = f"x86_64_v2/gs1_hub {hashlib.sha256(faster).hexdigest()} {len(faster)}"
    tree.manifest.write_text("".join(f"{it}\n" for it in [*first, line, last]), encoding="ascii")
    newer = "fpu sse2 ss ht syscall nx lm pni pclmulqdq ssse3 fma cx16 sse4_1 sse4_2 movbe popcnt aes hypervisor lahf_lm abm"
    for flags, answer in ((newer, "faster"), (newer.replace(" sse4_2", ""), "released"), (newer.replace(" ssse3", ""), "released")):
        shutil.rmtree(tree.out, ignore_errors=True)
        mounts = f"echo 'flags : {flags}' >/mnt/flags\nmount --bind /mnt/flags /proc/cpuinfo"
        tests.expect(f"a processor with {flags}", tree.run_in(mounts), (0, f"{answer} a\n", ""))


def try_places(tests: Tests, tree: Tree) -> None:
    """Folders that cannot be written, are full, or run nothing."""
    cache, answer = f"{tree.home}/.cache/noriladle{tree.folder}", (0, "released a\n", "")
    read_only = f"mount --bind '{tree.folder}' '{tree.folder}'\nmount -o remount,bind,ro '{tree.folder}'"
    for what in ("a read-only clone", "a read-only clone again"):
        tests.expect(what, tree.run_in(read_only), answer)
    tests.expect("what it left in it", tree.run_in(read_only, "sh -c './gs1_hub a && ls crates/gs1_hub'"), (0, "released a\nsrc\n", ""))
    shutil.rmtree(tree.home)
    tree.out.mkdir()
    for option, reason in (("noexec", "is mounted noexec, so no program runs there"), ("size=16k", f"has no room for the {len(STUB)} bytes of x86_64/gs1_hub")):
        here, everywhere = (f"mount -t tmpfs -o {option} none '{folder}'" for folder in (tree.out, tree.home))
        refused = f"gs1_hub: ./crates/gs1_hub/out {reason}, and {cache} {reason}; set XDG_CACHE_HOME to a folder that serves\n"
        tests.expect(f"a clone with {option}", tree.run_in(here), answer)
        shutil.rmtree(tree.home)
        tests.expect(f"{option} everywhere", tree.run_in(f"{here}\n{everywhere}"), (69, "", refused))
        left = f"sh -c './gs1_hub a; find crates/gs1_hub/out \"$HOME\" -type f'"
        tests.expect(f"what it left with {option}", tree.run_in(f"{here}\n{everywhere}", left), (0, "", refused))


def try_files(tests: Tests, tree: Tree) -> None:
    """package/file, which takes files for all that is built of them, and package/release."""
    name, made, more = "x86_64/gs1_hub", tree.home / "made" / "file", "there is no Rattle kit to build it, of which CONTRIBUTING.md says more"

    def refused(what: str, name: str, why: str, status: int = 69, kit: bool = False) -> None:
        tests.expect(what, tree.run(name, str(made), start="package/file", kit=kit), (status, "", f"package/file: {why}\n"))
        tests.expect(f"{what}: nothing is made", made.exists(), False)

    tests.expect("package/file", (tree.run(name, str(made), start="package/file"), made.read_text(encoding="ascii"), os.access(made, os.X_OK)),
                 ((0, "", ""), STUB, True))
    made.unlink()
    refused("package/file without one for arm64", "aarch64/libgs1.so", f"release/ has no aarch64/libgs1.so; {more}")
    tree.release(BUILT)
    told = tree.manifest.read_text(encoding="ascii")
    for manifest, counts in ((told, "1 passed, 9 failed"), (told.replace(f" {len(BUILT)}\n", " 1\n"), "0 passed, 10 failed")):
        tree.manifest.write_text(manifest, encoding="ascii")
        tests.expect("package/release --compare", tree.run("--compare", start="package/release", kit=True)[:2], (1, f"{counts}\n"))
    tree.release(STUB)
    whole = tree.packed.read_bytes()
    for damaged in (whole[:100], gzip.compress(b"another program")):
        tree.packed.write_bytes(damaged)
        refused("package/file of a damaged release", name, f"release/{name}.gz is missing or damaged; {BACK}; {more}")
    tree.packed.write_bytes(whole)
    for path, text in ((tree.folder / "VERSION", "0.0.1\n"), (tree.source, "two\n")):
        before = path.read_text(encoding="ascii")
        path.write_text(text, encoding="ascii")
        refused(f"package/file with another {path.name}, no kit", name, f"release/ has no {name} of these sources; {more}")
        path.write_text(before, encoding="ascii")
    tree.source.write_text("two\n", encoding="ascii")
    refused("package/file of what is nothing", "x86_64/other", "there is no x86_64/other", 64, True)
    tests.expect("package/release --compare, other sources", tree.run("--compare", start="package/release")[:2],
                 (0, "release/ is older than the sources, so it is not compared; package/release makes it anew\n0 passed, 0 failed\n"))
    tests.expect("package/release, no kit", tree.run(start="package/release"), (69, "", f"package/release: {more}\n"))


def try_many(tests: Tests, tree: Tree) -> None:
    """Several first runs at once, and how long a run takes."""
    command = [str(tree.folder / "gs1_hub"), "a"]
    runs = [subprocess.Popen(command, env={"PATH": "/usr/bin:/bin", "HOME": str(tree.home)}, stdout=subprocess.PIPE, stderr=subprocess.STDOUT, text=True)
            for _ in range(12)]
    tests.expect("twelve first runs at once", [(it.communicate()[0], it.returncode) for it in runs], [("released a\n", 0)] * 12)
    tests.expect("what they left", tree.left(), KEPT)
    more = added_by(tree.folder / "gs1_hub", tree.out / "gs1_hub")
    tests.expect(f"./gs1_hub adds at most 5 ms to the program: {more * 1000:.1f} ms", more <= 0.005, True)


def added_by(launcher: pathlib.Path, program: pathlib.Path) -> float:
    """The seconds between the fastest runs of both, in turn. Other work on this machine slows these the least."""
    best = {launcher: 60.0, program: 60.0}
    for count in range(300):
        for it in best:
            begun = time.monotonic()
            subprocess.run([str(it)], stdout=subprocess.DEVNULL, check=True)
            best[it] = min(best[it], time.monotonic() - begun)
        if count > 50 and best[launcher] - best[program] <= 0.005:
            break
    return best[launcher] - best[program]


def main() -> int:
    tests = Tests()
    for attempt in [try_current, try_other, try_damage, try_levels, try_places, try_files, try_many]:
        with tempfile.TemporaryDirectory() as folder:
            attempt(tests, Tree(pathlib.Path(folder).resolve()))
    if tests.skipped:
        print(f"{tests.skipped} skipped: they need mounts of their own")
    print(f"{tests.passed} passed, {tests.failed} failed")
    return int(tests.failed > 0)


if __name__ == "__main__":
    sys.exit(main())
