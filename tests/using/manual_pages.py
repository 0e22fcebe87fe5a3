"""Compares the manual pages and the completions that package/pages.py makes with the program's help.

Usage: manual_pages.py PROGRAM FOLDER; package/pages.py makes them in FOLDER. A page, as `man` prints it, must have each line of the help, in
its order, and no other options. bash and zsh must offer exactly the commands as the first word, and after it exactly the options of the
command. bash must not offer an option again that is there already, nor any word in place of a number.
"""
from __future__ import annotations

import os
import pty
import re
import subprocess
import sys
from pathlib import Path
from typing import Any, Iterator

sys.path.insert(0, str(Path(__file__).resolve().parents[2] / "package"))
from files import put_files  # noqa: E402
from pages import files_of, helps_of  # noqa: E402

PROGRAM, FOLDER = os.path.abspath(sys.argv[1]), os.path.abspath(sys.argv[2])
NAME = os.path.basename(PROGRAM)
HEADINGS = {"Commands:", "Arguments:", "Options:"}
EMPTY = os.path.join(FOLDER, "empty")
OPTION = re.compile(r"(?<![\w-])(--?[a-zA-Z][a-zA-Z-]*)")


def printed(words: list[str], **how: Any) -> str:
    return subprocess.run(words, stdout=subprocess.PIPE, check=True, text=True, **how).stdout


def squeezed(text: str) -> str:
    return " ".join(text.split())


def options_of(text: str) -> set[str]:
    """The options that a help lists."""
    block = re.search(r"^Options:\n((?:  .*\n)+)", text, re.MULTILINE)[1]
    return {name for line in block.splitlines() for name in OPTION.findall(line.strip().split("  ")[0])}


def commands_of(text: str) -> set[str]:
    block = re.search(r"^Commands:\n((?:  .*\n)+)", text, re.MULTILINE)[1]
    return {line.split()[0] for line in block.splitlines()}


def page_faults(name: str, text: str) -> Iterator[str]:
    """What a page lacks of its help, and the options that it has beyond it."""
    environment = {**os.environ, "MANWIDTH": "1000", "LC_ALL": "C.UTF-8"}
    page = squeezed(printed(["man", "-l", "--nh", "--nj", f"{FOLDER}/{name}.1"], env=environment))
    place = 0
    for line in text.splitlines():
        line = squeezed(line.removeprefix("Usage: "))
        if line and line not in HEADINGS:
            found = page.find(line, place if not line.startswith(f"{NAME} ") else 0)
            if found < 0:
                yield f"{name}.1 lacks: {line}"
            else:
                place = max(place, found)
    for beyond in set(re.findall(r"(?<![\w-])--[a-z]+", page)) - set(re.findall(r"--[a-z]+", text)):
        yield f"{name}.1 has {beyond}, and the help has not"


def bash_offers(*words: str) -> set[str]:
    script = f'. "{FOLDER}/{NAME}.bash"; COMP_WORDS=("$@"); COMP_CWORD=$(($# - 1)); _{NAME}; printf "%s\\n" "${{COMPREPLY[@]}}"'
    return set(printed(["bash", "-c", script, "bash", NAME, *words], cwd=EMPTY).split())


ZSH = """
fpath=({folder} $fpath); autoload -Uz compinit; compinit -u -D; unset zle_bracketed_paste; unsetopt prompt_cr prompt_sp
compadd() {{
    if [[ ${{@[1,(i)(-|--)]}} == *-(O|A|D)\\ * ]]; then builtin compadd "$@"; return; fi
    local -a hits; builtin compadd -A hits "$@"; local hit; for hit in $hits; do print -r -- "<<$hit>>"; done
}}
bindkey '^I' complete-word; zle -C complete-word complete-word _generic
autoload -Uz _{name}; compdef _{name} {name}; PS1='rea''dy> '
"""


def zsh_offers(*words: str) -> set[str]:
    """What zsh offers, typed at a terminal."""
    os.makedirs(f"{FOLDER}/zsh", exist_ok=True)
    with open(f"{FOLDER}/{NAME}.zsh", encoding="utf-8") as its, open(f"{FOLDER}/zsh/_{NAME}", "w", encoding="utf-8") as copy:
        copy.write(its.read())
    with open(f"{FOLDER}/zsh/start", "w", encoding="utf-8") as it:
        it.write(ZSH.format(folder=f"{FOLDER}/zsh", name=NAME))
    child, terminal = pty.fork()
    if child == 0:
        os.environ.update(TERM="dumb", COLUMNS="200")
        os.execvp("zsh", ["zsh", "-f", "-i"])
    os.write(terminal, f"source {FOLDER}/zsh/start\n".encode())
    shown = read_until(terminal, b"ready> ")
    os.write(terminal, (" ".join([NAME, *words]) + "\t").encode())
    # The line is killed, and the next command says that all was shown.
    os.write(terminal, b"\x15print do''ne; exit\n")
    shown = read_until(terminal, b"done")
    os.close(terminal)
    os.waitpid(child, 0)
    return set(re.findall(r"<<([^<>]*)>>", shown.decode()))


def read_until(terminal: int, end: bytes) -> bytes:
    shown = b""
    while end not in shown:
        try:
            shown += os.read(terminal, 65536)
        except OSError:
            break
    return shown


def main() -> None:
    made = files_of(helps_of(PROGRAM), "2026-01-01", "2.0.0")
    put_files(Path(FOLDER), {name: text.encode() for name, text in made.items()})
    texts = {NAME: printed([PROGRAM, "--help"])}
    commands = commands_of(texts[NAME])
    texts |= {f"{NAME}-{it}": printed([PROGRAM, it, "--help"]) for it in commands}
    os.makedirs(EMPTY, exist_ok=True)
    faults = [it for name, text in texts.items() for it in page_faults(name, text)]
    pages = {it for it in made if it.endswith(".1")}
    faults += [f"{it} is no page of a command, or is not there" for it in pages ^ {f"{name}.1" for name in texts}]
    asked = 0

    def offers(shell: str, words: list[str], found: set[str], wanted: set[str]) -> None:
        nonlocal asked
        asked += 1
        if found != wanted:
            faults.append(f"{shell} offers {sorted(found)} for {words}, and not {sorted(wanted)}")

    offers("bash", [""], bash_offers(""), commands | options_of(texts[NAME]))
    offers("zsh", [""], zsh_offers(""), commands)
    for command in sorted(commands):
        text = texts[f"{NAME}-{command}"]
        options = options_of(text)
        offers("bash", [command, ""], bash_offers(command, ""), options)
        offers("bash", [command, "--year"], bash_offers(command, "--year", ""), set())
        offers("bash", [command, "--year", "2026"], bash_offers(command, "--year", "2026", ""), options - {"--year"})
        offers("bash", [command, "--year", "=", "2026"], bash_offers(command, "--year", "=", "2026", ""), options - {"--year"})
        offers("zsh", [command, "-"], {it.rstrip("=") for it in zsh_offers(command, "-")}, options)
    print("\n".join(faults), file=sys.stderr, end="\n" if faults else "")
    print(f"{NAME}: {len(texts)} manual pages, {asked} completions, {len(faults)} differ")
    sys.exit(1 if faults else 0)


main()
