"""Makes manual pages and completions of a program's own help. All that they say of commands and options stands in `--help`."""
from __future__ import annotations

import os
import re
import subprocess
import sys

FILES = {"FILE", "TTF", "LIST", "PICTURE"}
"""What stands for the name of a file."""


class Help:
    """The parts of a help: what it is about, its usage, its commands, arguments and options, and the text after these."""

    def __init__(self, text: str) -> None:
        self.text = text
        blocks = text.rstrip("\n").split("\n\n")
        self.about = blocks[0]
        self.usage = re.sub(r"^Usage: ", "", blocks[1])
        parts = {heading: lines for heading, *lines in (block.split("\n") for block in blocks[2:])}
        self.commands, self.arguments = ([re.match(r"  (\S+) +(.*)", line).groups() for line in parts.pop(heading, ())]
                                         for heading in ("Commands:", "Arguments:"))
        self.options = [option(line) for line in parts.pop("Options:", ())]
        self.after = [[heading, *lines] for heading, lines in parts.items()]
        if not self.options:
            sys.exit(f"a help of another form: {text}")

    def takes_files(self) -> bool:
        """Whether an argument is a file."""
        return any(name.strip("[].") in FILES for name, _ in self.arguments)


def option(line: str) -> tuple[list[str], str | None, str]:
    """An option of a help: its names, its value or none, and what is said of it."""
    names, value, about = re.match(r" +(-.*?)(?: <(\S+)>)?(?:  +(.*))?$", line).groups()
    return names.split(", "), value, about or ""


def roff(text: str) -> str:
    """A text as roff prints it unchanged."""
    text = text.replace("\\", "\\e").replace("-", "\\-").replace("^", "\\(ha").replace("`", "\\(ga").replace("'", "\\(aq")
    return re.sub(r"^(?=[.'])", r"\\&", text, flags=re.MULTILINE)


def told(lines: list[str]) -> list[str]:
    """Lines of the text after a help: sentences are filled, and lines that begin with two spaces stand as they are."""
    made, as_it_is, before = [], False, ""
    for line in lines:
        if line.startswith("  ") != as_it_is:
            as_it_is = not as_it_is
            made += [".PP", ".in +2n", ".nf"] if as_it_is else [".fi", ".in", ".PP"]
        elif not as_it_is and before.endswith(".") and line[:1].isupper():
            made.append(".PP")
        before = line
        made.append(roff(line[2:] if as_it_is else line))
    return made + ([".fi", ".in"] if as_it_is else [])


def manual(name: str, its: Help, others: list[str], date: str, version: str) -> str:
    """The manual page of the program or of a command."""
    made = [f'.TH {roff(name.upper())} 1 "{date}" "Noriladle {roff(version)}" "User commands"']
    made += [".SH NAME", f"{roff(name)} \\- {roff(its.about)}"]
    made += [".SH SYNOPSIS", f".B {roff(its.usage)}"]
    for heading, face, rows in (("COMMANDS", "B", its.commands), ("ARGUMENTS", "I", its.arguments)):
        made += [f".SH {heading}"] if rows else []
        for word, about in rows:
            made += [".TP", f".{face} {roff(word)}", roff(about)]
    made.append(".SH OPTIONS")
    for names, value, about in its.options:
        value = f" \\fI<{roff(value)}>\\fR" if value else ""
        made += [".TP", ", ".join(f"\\fB{roff(it)}\\fR" for it in names) + value, roff(about)]
    made.append(".SH DESCRIPTION")
    for lines in its.after:
        made += [".PP", *told(lines)]
    made += [".SH SEE ALSO", ",\n".join(f".BR {roff(it)} (1)" for it in others)]
    made += [".PP", "The pages of the project in", ".IR /usr/share/doc/noriladle ,", "among them what to do about each refusal."]
    return "\n".join(made) + "\n"


def bash(name: str, hub: Help, commands: list[tuple[str, Help]]) -> str:
    """The completion for bash: commands, then the options that are not given yet; files if a file may stand there, and no
    word if another value does."""
    first = [it for it, _ in hub.commands] + [it for names, _, _ in hub.options for it in names]
    options = [it for _, its in commands for it in its.options]
    files = {it for names, value, _ in options if value in FILES for it in names}
    values = {it for names, value, _ in options if value for it in names} - files
    takes_files = bool(files) or any(its.takes_files() for _, its in commands)
    made = [
        f"# Completion of {name} for bash, made of its help.",
        f"_{name}() {{",
        '    local word=${COMP_WORDS[COMP_CWORD]} before=${COMP_WORDS[COMP_CWORD - 1]} option options="" given' + (' files=""' if takes_files else ""),
        '    given=" ${COMP_WORDS[*]:2:COMP_CWORD-2} "',
        "    COMPREPLY=()",
        '    if [ "$COMP_CWORD" -eq 1 ]; then',
        f'        mapfile -t COMPREPLY < <(compgen -W "{" ".join(first)}" -- "$word")',
        "        return",
        "    fi",
        "    case ${COMP_WORDS[1]} in",
    ]
    for command, its in commands:
        names = " ".join(it for names, _, _ in its.options for it in names)
        made.append(f'        {command}) options="{names}"{" files=yes" if its.takes_files() else ""} ;;')
    made += ["    esac", "    case $before in", f'        = | {" | ".join(sorted(values))}) return ;;']
    made += [f'        {" | ".join(sorted(files))}) options="" files=yes ;;'] if files else []
    made += [
        "    esac",
        "    for option in $options; do",
        '        if [[ $given != *" $option "* ]]; then',
        '            mapfile -t -O "${#COMPREPLY[@]}" COMPREPLY < <(compgen -W "$option" -- "$word")',
        "        fi",
        "    done",
    ]
    if takes_files:
        made += [
            '    if [ -n "$files" ]; then',
            "        compopt -o filenames 2>/dev/null",
            '        mapfile -t -O "${#COMPREPLY[@]}" COMPREPLY < <(compgen -f -- "$word")',
            "    fi",
        ]
    return "\n".join([*made, "}", f"complete -F _{name} {name}"]) + "\n"


def quoted(text: str) -> str:
    return "'" + text.replace("'", "'\\''") + "'"


def zsh_option(names: list[str], value: str | None, about: str) -> str:
    """An option as `_arguments` takes it."""
    about = re.sub(r"([\[\]:])", r"\\\1", about)
    if value:
        what = f"{value.replace(':', '')}:{'_files' if value in FILES else ' '}"
        if len(names) > 1:
            its = ",".join(f"{it}{'=' if it.startswith('--') else '+'}" for it in names)
            return quoted(f"({' '.join(names)})") + "{" + its + "}" + quoted(f"[{about}]:{what}")
        return quoted(f"{names[0]}=[{about}]:{what}")
    if len(names) > 1:
        return quoted("(- *)") + "{" + ",".join(names) + "}" + quoted(f"[{about}]")
    return quoted(f"{names[0]}[{about}]")


def zsh(name: str, hub: Help, commands: list[tuple[str, Help]]) -> str:
    """The completion for zsh."""
    made = [f"#compdef {name}", f"# Completion of {name} for zsh, made of its help.", "", "local context state state_descr line", "typeset -A opt_args", ""]
    made.append("_arguments -C \\")
    made += [f"    {zsh_option(*it)} \\" for it in hub.options]
    made += ["    '1:command:->command' \\", "    '*::option:->option'", "", "case $state in", "    (command)", "        local -a commands", "        commands=("]
    made += [f"            {quoted(it + ':' + about.replace(':', chr(92) + ':'))}" for it, about in hub.commands]
    made += ["        )", "        _describe command commands", "        ;;", "    (option)", "        case $words[1] in"]
    for command, its in commands:
        made.append(f"            ({command})")
        made.append("                _arguments \\")
        made += [f"                    {zsh_option(*it)} \\" for it in its.options]
        if its.takes_files():
            made.append("                    '*:file:_files' \\")
        made[-1] = made[-1].removesuffix(" \\")
        made.append("                ;;")
    made += ["        esac", "        ;;", "esac"]
    return "\n".join(made) + "\n"


def files_of(helps: dict[str, str], date: str, version: str) -> dict[str, str]:
    """The pages and completions of a program by their names, of its helps: first its own, then those of its commands."""
    (name, hub), *commands = ((name, Help(text)) for name, text in helps.items())
    pages = {name: hub, **{f"{name}-{it}": its for it, its in commands}}
    files = {f"{page}.1": manual(page, its, [it for it in pages if it != page], date, version) for page, its in pages.items()}
    return {**files, f"{name}.bash": bash(name, hub, commands), f"{name}.zsh": zsh(name, hub, commands)}


def helps_of(program: str) -> dict[str, str]:
    """The helps of a program, by its name and those of its commands."""
    def told(*words: str) -> str:
        english = {**os.environ, "LC_ALL": "C.UTF-8"}
        return subprocess.run([program, *words, "--help"], stdout=subprocess.PIPE, check=True, text=True, env=english).stdout
    whole = told()
    return {os.path.basename(program): whole, **{command: told(command) for command, _ in Help(whole).commands}}
