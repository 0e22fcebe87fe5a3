"""The command ``noriladle``: its table of subcommands, its help, and what it says of wrong words."""
from __future__ import annotations

import argparse
import os
import re
import subprocess
import sys
from pathlib import Path
from typing import NoReturn

import pytest

from noriladle import __version__, _german, _sources
from noriladle import __main__ as command
from noriladle.__main__ import COMMANDS, main, parser_of
from noriladle.commands import WrongWords


PATHS = {**os.environ, "PYTHONPATH": os.pathsep.join(sys.path)}


def told(words: list[str], capsys: pytest.CaptureFixture[str]) -> tuple[int, str, str]:
    """The status of a command, and what it wrote on standard output and on standard error."""
    status = main(words)
    out, err = capsys.readouterr()
    return status, out, err


def test_without_a_word_it_prints_its_help(capsys: pytest.CaptureFixture[str]) -> None:
    status, out, err = told([], capsys)
    assert (status, out) == (2, "")
    assert told(["--help"], capsys) == (0, err, "")
    for it in COMMANDS:
        assert f"  {it.name} " in err and it.help in err


def test_version(capsys: pytest.CaptureFixture[str]) -> None:
    assert told(["--version"], capsys) == (0, f"noriladle {__version__} (sources {_sources()})\n", "")


@pytest.mark.parametrize("words, said", [
    (["raed"], "noriladle: there is no command 'raed' (did you mean read?); see noriladle --help\n"),
    (["quux"], "noriladle: there is no command 'quux'; see noriladle --help\n"),
    (["--vresion"], "noriladle: unrecognized arguments: --vresion (did you mean --version?); see noriladle --help\n"),
    (["read"], "noriladle read: the following arguments are required: PICTURE; see noriladle read --help\n"),
    (["read", "a.png", "--jsn"],
     "noriladle read: unrecognized arguments: --jsn (did you mean --json?); see noriladle read --help\n"),
    (["read", "a.png", "--year", "1950"],
     "noriladle read: argument --year: '1950' is no year from 1951 to 2149; see noriladle read --help\n"),
])
def test_wrong_words(words: list[str], said: str, capsys: pytest.CaptureFixture[str]) -> None:
    assert told(words, capsys) == (2, "", said)


@pytest.mark.parametrize("option, value", [
    ("--module", "0.04"), ("--module", "nan"), ("--bars", "501"), ("--bars", "inf"), ("--dpi", "150"), ("--shift", "21,0"), ("--shift", "0,-21"),
    ("--shift", "nan,0"), ("--darkness", "31"), ("--darkness", "-1"), ("--speed", "0"), ("--speed", "15"), ("--media", "tape"), ("--look", "large"),
    ("--unit-price", "x"), ("--start", "x"), ("--year", "2150"),
])
def test_options_out_of_their_range(option: str, value: str, capsys: pytest.CaptureFixture[str]) -> None:
    status, out, err = told(["labels", "a.csv", option, value], capsys)
    assert (status, out) == (2, "") and err.startswith(f"noriladle labels: argument {option}: ")


@pytest.mark.parametrize("name", [it.name for it in COMMANDS])
def test_help_of_each_command(name: str, capsys: pytest.CaptureFixture[str]) -> None:
    status, out, err = told([name, "--help"], capsys)
    assert (status, err) == (0, "")
    assert f"Usage: noriladle {name}" in out and "\n  $ noriladle " in out
    assert out.splitlines()[0] == next(it.help for it in COMMANDS if it.name == name)
    assert not any(line.endswith(" None") for line in out.splitlines())


@pytest.mark.parametrize("raised, status, said", [
    (WrongWords("say it otherwise"), 2, "noriladle: say it otherwise\n"),
    (ImportError("labels need reportlab"), 2, "noriladle: labels need reportlab\n"),
    (OSError(28, "No space left on device"), 1, "noriladle: No space left on device\n"),
    (FileNotFoundError(2, "No such file", "a.csv"), 1, "noriladle: a.csv: No such file\n"),
    (KeyboardInterrupt(), 130, ""),
    (SystemExit(2), 2, ""),
    (SystemExit(None), 0, ""),
])
def test_what_a_command_raises(raised: BaseException, status: int, said: str, capsys: pytest.CaptureFixture[str],
                               monkeypatch: pytest.MonkeyPatch) -> None:
    def run(words: list[str]) -> NoReturn:
        raise raised
    monkeypatch.setattr(command, "_run", run)
    assert told(["read"], capsys) == (status, "", said)


def test_each_command_is_imported_when_it_is_asked_for() -> None:
    asked = ("import sys, noriladle.__main__ as it\n"
             "print(sorted(name for name in sys.modules if name.startswith('noriladle.commands.')))\n"
             "it.parser_of('read')\n"
             "print('noriladle.commands.read' in sys.modules, 'numpy' in sys.modules)\n")
    run = subprocess.run([sys.executable, "-c", asked], stdout=subprocess.PIPE, check=True, text=True, env=PATHS)
    assert run.stdout.splitlines() == ["[]", "True False"]


def test_a_closed_pipe_ends_it_quietly() -> None:
    run = subprocess.run([sys.executable, "-m", "noriladle", "--help"], stdout=open("/dev/full", "w"),
                         stderr=subprocess.PIPE, text=True, env=PATHS)
    assert (run.returncode, run.stderr) == (1, "noriladle: No space left on device\n")
    reader, writer = os.pipe()
    os.close(reader)
    run = subprocess.run([sys.executable, "-m", "noriladle", "--help"], stdout=writer, stderr=subprocess.PIPE, text=True,
                         env=PATHS)
    os.close(writer)
    assert (run.returncode, run.stderr) == (1, "")


def test_it_starts_soon() -> None:
    """The processor's time of a start, since others may use the machine; the best of five."""
    def start() -> float:
        before = os.times()
        subprocess.run([sys.executable, "-I", "-S", "-c", f"import sys; sys.path[:0] = {sys.path!r}\n"
                        "from noriladle.__main__ import main\nsys.exit(main(['read', '--help']))"],
                       stdout=subprocess.DEVNULL, check=True)
        after = os.times()
        return after.children_user + after.children_system - before.children_user - before.children_system
    assert min(start() for _ in range(5)) < 0.15


SLOW = {"argparse", "hashlib", "ipaddress", "json", "pathlib", "platform", "shutil", "subprocess", "tempfile", "textwrap"}
"""Modules of Python that take long, and that not every start needs."""


def started(words: list[str], then: str) -> set[str]:
    """The words that Python writes behind a command, in a process of its own."""
    script = f"import sys\nsys.path[:0] = {sys.path!r}\nfrom noriladle.__main__ import main\nassert main({words!r}) == 0\n{then}"
    run = subprocess.run([sys.executable, "-I", "-S", "-c", script], stdout=subprocess.PIPE, check=True, text=True)
    return {*run.stdout.rpartition("\n--\n")[2].split()}


@pytest.mark.parametrize("words, needed", [(["--version"], set()), (["--help"], {"argparse"}), (["check", "LIST"], {"argparse", "json"})])
def test_a_start_imports_little(words: list[str], needed: set[str], tmp_path: Path) -> None:
    (tmp_path / "list").write_text("9501101530003\n")
    assert started([word.replace("LIST", str(tmp_path / "list")) for word in words], "print('--', *sys.modules, sep='\\n')") & SLOW == needed


def test_words_of_prices_are_compiled_when_they_are_looked_for(tmp_path: Path) -> None:
    """All of them take longer than all imports."""
    then = ("from noriladle import _prices as it\nwords = {name: its for name, its in vars(it).items() if isinstance(its, it.Words)}\n"
            "print('--', *[name for name, its in words.items() if '_expression' in vars(its)], sep='\\n')")
    (tmp_path / "list").write_text("9501101530003\n")
    assert started(["check", str(tmp_path / "list")], then) == set()
    (tmp_path / "list").write_text("gtin,name\n9501101530003,Oat biscuits\n")
    assert {"_PRICE"} <= started(["check", str(tmp_path / "list")], then) < {"_IGNORED", "_PRICE", "_TAXES", "_WITHOUT", "_WITH", "CARTON", "DEPOSIT"}


SHOPS = ("labels", "check", "read")


def test_shops_get_german_help_and_the_services_english(capsys: pytest.CaptureFixture[str], monkeypatch: pytest.MonkeyPatch) -> None:
    english = {it.name: told([it.name, "--help"], capsys)[1] for it in COMMANDS}
    monkeypatch.setenv("LC_ALL", "de_DE.UTF-8")
    for it in COMMANDS:
        status, out, err = told([it.name, "--help"], capsys)
        assert (status, err, out == english[it.name]) == (0, "", it.name not in SHOPS)
        if it.name in SHOPS:
            assert {*out.splitlines()} & {*english[it.name].splitlines()} == {""}


@pytest.mark.parametrize("words, said", [
    (["labels", "--stoks"], "noriladle labels: unbekannte Option: --stoks (gemeint ist wohl --stocks?); Hilfe zeigt noriladle labels --help"),
    (["read"], "noriladle read: hier fehlt noch: PICTURE; Hilfe zeigt noriladle read --help"),
    (["labels", "--start", "x"], "noriladle labels: Option --start: 'x' ist keine ganze Zahl; Hilfe zeigt noriladle labels --help"),
    (["labels", "--module", "x"], "noriladle labels: Option --module: 'x' ist keine Länge in mm; Hilfe zeigt noriladle labels --help"),
    (["check", "--year", "1"], "noriladle check: Option --year: '1' ist kein Jahr von 1951 bis 2149; Hilfe zeigt noriladle check --help"),
    (["check", "--encoding", "x"], "noriladle check: Option --encoding: 'x' gibt es nicht, nur utf-8, utf-16, cp1252, cp1250, cp850, mac_roman; "
     "Hilfe zeigt noriladle check --help"),
    (["check", "--fix"], "noriladle: --fix und -o FILE gehören zusammen: bitte beides schreiben, etwa --fix -o neu.csv"),
    (["labels", "-o", "x.doc"], "noriladle: x.doc: das Ende des Namens sagt kein Format: bitte .pdf, .svg, .png, .zpl, .epl, .tspl schreiben, "
     "oder --to FORM"),
    (["till", "--x"], "noriladle till: the following arguments are required: LANE; see noriladle till --help"),
])
def test_option_errors_in_german(words: list[str], said: str, capsys: pytest.CaptureFixture[str], monkeypatch: pytest.MonkeyPatch) -> None:
    monkeypatch.setenv("LC_ALL", "de_DE.UTF-8")
    assert told(words, capsys) == (2, "", f"{said}\n")


def test_no_german_text_is_left_over() -> None:
    """Each is the German of a text that stands in a source, or in argparse."""
    sources = [Path(argparse.__file__)] + [path for path in Path(command.__file__).parent.rglob("*.py") if path.name != "_german.py"]
    written = " ".join(re.sub('"\n *"', "", path.read_text("utf-8")) for path in sources)
    for text in _german.TEXTS:
        plain = text.strip("\n")
        assert plain in written or plain.replace("'", "\\'") in written, text


def test_all_options_are_explained() -> None:
    for it in COMMANDS:
        for action in parser_of(it.name)._actions:
            assert action.help, (it.name, action)
