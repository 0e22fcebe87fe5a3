#!/usr/bin/env python3
"""Runs package/prove on a tree of empty crates, with a fake kit that notes what it must prove: tests/using/prove_script.py ROOT

It compares these notes with what must be proved: at first, after an edit, after a crate that is not proved, after an
interrupted run, with another kit, and after a gate. The last line has the count of runs.
"""
from __future__ import annotations

import os
import re
import shutil
import signal
import subprocess
import sys
import tempfile
import time
from typing import Any

ROOT = sys.argv[1]
RATTLE = """#!/bin/sh
while [ $# -gt 0 ]; do
    case $1 in --crate-name) name=$2 ;; -o) out=$2 ;; esac
    shift
done
echo "$name" >>"$NOTES/asked"
sleep "${NAP:-0}"
[ "$name" != "${FAILS:-}" ] || { echo "not proved"; exit 1; }
case $out in *.rlib) mkdir -p "$out" ;; *) echo "$name" >"$out" ;; esac
"""
SCRIPTS = ["prove", "prove.mk", "sources"]
LINK = """#!/bin/sh
while [ $# -gt 0 ]; do
    case $1 in -o) printf '#!/bin/sh\\necho "ran $*"\\nexit 3\\n' >"$2" && chmod +x "$2" ;; esac
    shift
done
"""


def listed() -> dict[str, list[str]]:
    """For each crate, the crates of the repository that it uses."""
    with open(os.path.join(ROOT, "crates.txt"), encoding="utf-8") as lines:
        read = [re.fullmatch(r"(\w+)(?: staticlib)?:(.*)", line.rstrip("\n")) for line in lines if not line.startswith("#")]
    crates = {it[1]: it[2].split() for it in read}
    return {name: [other for other in others if other in crates] for name, others in crates.items()}


def below(crates: dict[str, list[str]], name: str) -> set[str]:
    """All crates below one."""
    return {it for other in crates[name] for it in {other} | below(crates, other)}


class Tree:
    """A tree of empty crates, and a kit that notes what it must prove."""

    def __init__(self, folder: str, crates: dict[str, list[str]]) -> None:
        self.folder, self.crates = folder, crates
        self.kit = os.path.join(folder, "kit", "bin")
        os.makedirs(self.kit)
        clang = os.path.join(folder, "kit", "toolchain", "bin")
        os.makedirs(clang)
        self.write(os.path.join(clang, "clang"), "#!/bin/sh\n")
        for name, text in [("rattle", RATTLE), ("rattle-link", LINK), ("rt", "#!/bin/sh\necho kit one\n")]:
            self.write(os.path.join(self.kit, name), text)
        for name in crates:
            os.makedirs(self.at("crates", name, "src"))
            self.write(self.at("crates", name, "src", "main.rt" if name in ("gs1_hub", "refused_memory") else "lib.rt"), "")
        os.mkdir(self.at("package"))
        os.makedirs(self.at("bindings/embed"))
        shutil.copytree(os.path.join(ROOT, "package", "aarch64"), self.at("package", "aarch64"))
        for name in ["crates.txt", "VERSION", "gs1_hub", "bindings/embed/archive", "bindings/embed/exports", "bindings/embed/gs1.c", *(f"package/{it}" for it in SCRIPTS)]:
            shutil.copy(os.path.join(ROOT, name), self.at(name))

    def at(self, *parts: str) -> str:
        """A path in the tree."""
        return os.path.join(self.folder, *parts)

    @staticmethod
    def write(path: str, text: str) -> None:
        """Writes a file that can be run."""
        with open(path, "w", encoding="utf-8") as file:
            file.write(text)
        os.chmod(path, 0o755)

    def start(self, *words: str, **how: str) -> subprocess.Popen[str]:
        """Starts a script of the tree, in a group of its own."""
        environment = {"PATH": f"{self.kit}:/usr/bin:/bin", "NOTES": self.folder, **how}
        return subprocess.Popen([self.at(words[0]), *words[1:]], env=environment, stdin=subprocess.DEVNULL,
                                stdout=subprocess.PIPE, stderr=subprocess.STDOUT, text=True, start_new_session=True)

    def run(self, *words: str, **how: str) -> tuple[int, str, list[str]]:
        """The status of a script, what it printed, and the crates that it proved."""
        with self.start(*words, **how) as ran:
            said = ran.stdout.read()
        return ran.returncode, said, self.asked()

    def asked(self) -> list[str]:
        """The crates that the kit had to prove since the last call, in their order."""
        path = self.at("asked")
        if not os.path.exists(path):
            return []
        with open(path, encoding="utf-8") as file:
            names = file.read().split()
        os.remove(path)
        return names

    def gate(self, names: set[str]) -> None:
        """Leaves what .ci/run leaves when rt has proved these crates."""
        sources = subprocess.run([self.at("package", "sources")], stdout=subprocess.PIPE, check=True, text=True).stdout
        shutil.rmtree(self.at("out", "gate"), ignore_errors=True)
        for name in names:
            os.makedirs(self.at("out", "gate", f"{name}.rlib"))
        self.write(self.at("out", "gate", "sources"), sources)

    def edit(self, name: str) -> None:
        """Changes a file of a crate, but not its time: package/prove goes by contents."""
        path = self.at("crates", name, "src", "lib.rt")
        times = os.stat(path)
        with open(path, "a", encoding="utf-8") as file:
            file.write("// edited\n")
        os.utime(path, ns=(times.st_atime_ns, times.st_mtime_ns))


def main() -> bool:
    # A script cannot trap a signal that is ignored when it starts, as SIGINT is in the background of another script.
    signal.signal(signal.SIGINT, signal.default_int_handler)
    crates = listed()
    hub = below(crates, "gs1_hub") | {"gs1_hub"}
    over = {name: {it for it in hub if name in below(crates, it)} for name in hub}
    runs, wrong = 0, 0

    def expect(what: str, is_so: bool, seen: tuple[list[str] | int | str, ...]) -> None:
        nonlocal runs, wrong
        runs += 1
        if not is_so:
            wrong += 1
            print(f"package/prove, {what}: {seen}", file=sys.stderr)

    def in_order(names: list[str]) -> bool:
        return all(names.index(other) < names.index(name) for name in names for other in crates[name] if other in names)

    with tempfile.TemporaryDirectory() as folder:
        tree = Tree(folder, crates)
        status, said, asked = tree.run("gs1_hub", "--version")
        is_so = status == 3 and "ran" in said and sorted(asked) == sorted(hub) and in_order(asked)
        expect("a first run", is_so, (status, said, asked))
        status, said, asked = tree.run("gs1_hub", NORILADLE_ANEW="1")
        expect("a second", status == 3 and said.startswith("ran") and not asked, (status, said, asked))
        tree.edit("acceptance")
        status, said, asked = tree.run("gs1_hub", NORILADLE_ANEW="1")
        expect("a crate that it does not stand on, though it says the sum of all", status == 3 and asked == ["gs1_hub"], (status, said, asked))
        os.rename(tree.kit, f"{tree.kit}.away")
        status, said, asked = tree.run("gs1_hub")
        os.rename(f"{tree.kit}.away", tree.kit)
        expect("the run after it, without a kit", status == 3 and said.startswith("ran"), (status, said, asked))
        tree.edit("scan_core")
        status, said, asked = tree.run("package/prove", "gs1_hub", FAILS="lane_core")
        is_so = status == 70 and "lane_core: not proved or not built" in said and "not proved\n" in said
        is_so = is_so and {"scan_core", "lane_core"} <= {*asked} and not {*asked} & over["lane_core"]
        expect("one that is not proved", is_so, (status, said, asked))
        kept = {*asked} - {"lane_core"}
        status, said, asked = tree.run("package/prove", "gs1_hub")
        is_so = status == 0 and {*asked} == (over["scan_core"] | {"scan_core"}) - kept and in_order(asked)
        expect("the run after it", is_so, (status, said, asked))
        # Crates that only the library uses are proved once.
        alone = below(crates, "gs1_c") - hub
        kind: Any
        for kind, made in [([], "libgs1_c.a"), (["x86_64"], "x86_64/libgs1_c.a"), (["wasm64"], "wasm64/gs1_c.wasm")]:
            status, said, asked = tree.run("package/prove", "gs1_c", *kind)
            is_so = status == 0 and {*asked} == alone | {"gs1_c"} and in_order(asked) and os.path.exists(tree.at("crates", "gs1_c", "out", made))
            expect(made, is_so, (status, said, asked))
            alone = set()
        words: Any
        for words, sentence in [(["hub_core"], "neither a program nor a static library"), ([], "the crate is missing")]:
            status, said, asked = tree.run("package/prove", *words)
            expect(f"with {words}", status != 0 and sentence in said and not asked, (status, said, asked))

        tree.edit("digits_core")
        for sign in [signal.SIGINT, signal.SIGTERM]:
            with tree.start("gs1_hub", NAP="1", NORILADLE_ANEW="1") as ran:
                said = ""
                while not re.search(r"(digits|element)_core: proved", said) and (line := ran.stdout.readline()):
                    said += line
                os.kill(ran.pid, sign)
                said += ran.stdout.read()
            asked = tree.asked()
            lost = subprocess.run(["pgrep", "-f", tree.kit], stdout=subprocess.PIPE, text=True, check=False).stdout
            is_so = ran.returncode == 130 and "the next run goes on" in said and not lost
            expect(f"interrupted by {sign.name}", is_so, (ran.returncode, said, asked, lost))
        done = re.findall(r"(\w+): proved", said)
        with tree.start("package/prove", "gs1_hub", NAP="0.1") as one:
            while (line := one.stdout.readline()) and "proving" not in line:
                pass
            status, said, _ = tree.run("package/prove", "gs1_hub")
            first = one.stdout.read()
        is_so = status == 0 and one.returncode == 0 and "waiting for another run" in said and "proving" not in said
        expect("two at once", is_so, (status, said, first))
        proved = re.findall(r"(\w+): proved", first)
        is_so = "digits_core" not in proved and not {*proved} & {*done} and {*proved} <= over["digits_core"]
        expect("the run after those that were interrupted", is_so, (done, proved))

        tree.edit("hub_core")
        with tree.start("package/prove", "gs1_hub", NAP="0.5") as ran:
            while not os.path.exists(tree.at("asked")) and ran.poll() is None:
                time.sleep(0.02)
            tree.edit("hub_core")
            said = ran.stdout.read()
        before = tree.asked()
        status, said, asked = tree.run("package/prove", "gs1_hub")
        is_so = status == 0 and {*before} == {*asked} == over["hub_core"] | {"hub_core"}
        expect("a file that changes while it is proved", is_so, (status, before, said, asked))

        tree.write(os.path.join(tree.kit, "rt"), "#!/bin/sh\necho kit two\n")
        status, said, asked = tree.run("package/prove", "gs1_hub")
        expect("with another kit", status == 0 and sorted(asked) == sorted(hub), (status, said, asked))

        # What rt proved in a gate of these very sources.
        tree.edit("digits_core")
        tree.gate(hub - {"gs1_hub"})
        status, said, asked = tree.run("package/prove", "gs1_hub")
        expect("after a gate", status == 0 and asked == ["gs1_hub"], (status, said, asked))
        status, said, asked = tree.run("package/prove", "gs1_hub")
        expect("after a gate, again", status == 0 and not asked, (status, said, asked))
        tree.edit("digits_core")
        status, said, asked = tree.run("package/prove", "gs1_hub")
        expect("after a gate and an edit", status == 0 and sorted(asked) == sorted(hub), (status, said, asked))
    print(f"package/prove: {runs} runs, {wrong} wrong")
    return wrong > 0


if __name__ == "__main__":
    sys.exit(main())
