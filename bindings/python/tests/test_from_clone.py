"""``./noriladle`` of a clone: read-only, by another user, from a zip, with a stale or damaged release, and on a bare Debian."""
from __future__ import annotations

import gzip
import hashlib
import importlib.util
import os
import platform
import re
import shutil
import subprocess
import sys
import tempfile
import time
import zipfile
from pathlib import Path
from typing import Any, Sequence

import pytest

ROOT = Path(__file__).resolve().parents[3]
SHELF = "examples/shelf.csv"
NOBODY = 65534
RIGHT = "standard input: 1 line, and it is right\n"
NEEDED = ("VERSION", "crates.txt", "crates/digits_core/", "bindings/embed/", "examples/shelf.csv", "gs1_hub", "noriladle", "package/",
          "page/", "bindings/python/", "release/", "tables/shop/", "tables/remedies")
"""What copies have of the clone. Their release says that it is of these few sources."""


def _names() -> list[str]:
    if not (ROOT / ".git").exists():
        pytest.skip("this is no clone")
    words = ["git", "-C", str(ROOT), "ls-files", "-z", "--cached", "--others", "--exclude-standard"]
    told = subprocess.run(words, check=True, stdout=subprocess.PIPE).stdout.decode().split("\0")
    return [name for name in told if name.startswith(NEEDED) and (ROOT / name).exists()]


@pytest.fixture(scope="module", name="whole")
def _whole(tmp_path_factory: pytest.TempPathFactory) -> Path:
    """A copy of the clone that is never changed."""
    folder = tmp_path_factory.mktemp("whole") / "clone"
    for name in _names():
        (folder / name).parent.mkdir(parents=True, exist_ok=True)
        shutil.copy2(ROOT / name, folder / name, follow_symlinks=False)
    told, manifest = sources_of(folder), folder / "release" / "MANIFEST"
    manifest.write_text(re.sub("^sources .*$", f"sources {told}", manifest.read_text("ascii"), flags=re.MULTILINE), "ascii")
    return folder


def sources_of(clone: Path) -> str:
    """The sum of a clone's sources, by its script."""
    return subprocess.run([str(clone / "package" / "sources")], check=True, stdout=subprocess.PIPE, text=True).stdout.strip()


@pytest.fixture(name="clone")
def _clone(whole: Path, tmp_path: Path) -> Path:
    """A copy that a test may change."""
    shutil.copytree(whole, tmp_path / "clone", symlinks=True)
    return tmp_path / "clone"


@pytest.fixture(name="bare")
def _bare(tmp_path_factory: pytest.TempPathFactory) -> dict[str, str]:
    """The environment of a Python without any module of others."""
    folder = tmp_path_factory.mktemp("bare")
    subprocess.run(["/usr/bin/python3" if Path("/usr/bin/python3").exists() else sys.executable, "-m", "venv", "--without-pip", str(folder)],
                   check=True)
    return {"VIRTUAL_ENV": str(folder), "PATH": f"{folder}/bin:/usr/bin:/bin"}


def ran(clone: Path, *words: str, cache: Path, shell: Sequence[str] = (), **more: Any) -> subprocess.CompletedProcess[str]:
    """What the command of a clone answers."""
    env = {"PATH": os.environ["PATH"], "LC_ALL": "C.UTF-8", "HOME": "/nonexistent", "XDG_CACHE_HOME": str(cache), **more.pop("env", {})}
    return subprocess.run([*shell, str(clone / "noriladle"), *words], cwd=clone, env=env, stdout=subprocess.PIPE,
                          stderr=subprocess.PIPE, text=True, check=False, **more)


def listing(folder: Path) -> list[tuple[str, int, int]]:
    """The files of a folder with their sizes and times."""
    return sorted((str(path), path.lstat().st_size, path.lstat().st_mtime_ns) for path in folder.rglob("*"))


def test_it_answers_and_leaves_the_clone_as_it_is(whole: Path, tmp_path: Path) -> None:
    before = listing(whole)
    path = tmp_path / "my list"
    path.write_text("9501101530003\n")
    for _ in range(2):
        run = ran(whole, "check", str(path), cache=tmp_path)
        assert (run.returncode, run.stderr) == (0, RIGHT.replace("standard input", str(path))) and run.stdout.endswith("(01)09501101530003\n")
    (tmp_path / "bin").mkdir()
    (tmp_path / "bin" / "noriladle").symlink_to(whole / "noriladle")
    assert ran(tmp_path / "bin", "--version", cache=tmp_path).stdout.startswith("noriladle ")
    run = ran(whole, "page", "--address", "192.168.1.5", cache=tmp_path)
    assert run.returncode == 2 and "--address is for --share" in run.stderr
    assert len([*next(tmp_path.glob("noriladle/clones/*/noriladle/page")).iterdir()]) > 20
    assert listing(whole) == before


def test_a_start_imports_little(whole: Path, tmp_path: Path) -> None:
    """The first unpacks the library, by modules that take long."""
    def slow() -> set[str]:
        words = [sys.executable, "-S", "-X", "importtime", str(whole / "bindings" / "python" / "from_clone.py"), "--version"]
        run = subprocess.run(words, check=True, env={"XDG_CACHE_HOME": str(tmp_path)}, stdout=subprocess.PIPE, stderr=subprocess.PIPE, text=True)
        assert run.stdout.startswith("noriladle ")
        return {*re.findall(r"(\w+)$", run.stderr, re.MULTILINE)} & {"argparse", "hashlib", "json", "pathlib", "platform", "shutil", "tempfile"}

    assert "hashlib" in slow() and slow() == set()


def test_a_read_only_clone_of_another_user(whole: Path) -> None:
    if os.getuid():
        pytest.skip("only root can become another user")
    with tempfile.TemporaryDirectory() as top:
        os.chmod(top, 0o755)
        clone, cache = Path(top, "clone"), Path(top, "cache")
        shutil.copytree(whole, clone, symlinks=True)
        cache.mkdir()
        os.chown(cache, NOBODY, NOBODY)
        before = listing(clone)
        run = ran(clone, "check", "-", cache=cache, input="9501101530003\n", user=NOBODY, group=NOBODY, extra_groups=[])
        assert (run.returncode, run.stderr) == (0, RIGHT)
        assert listing(clone) == before and {path.lstat().st_uid for path in cache.rglob("*")} == {NOBODY}


def test_a_clone_from_a_zip(whole: Path, tmp_path: Path) -> None:
    """A zip keeps no permissions, if Python unpacks it."""
    with zipfile.ZipFile(tmp_path / "clone.zip", "w") as packed:
        for path in whole.rglob("*"):
            packed.write(path, path.relative_to(whole))
    with zipfile.ZipFile(tmp_path / "clone.zip") as packed:
        packed.extractall(tmp_path / "zipped")
    run = ran(tmp_path / "zipped", "--version", cache=tmp_path / "cache", shell=["sh"])
    assert run.returncode == 0 and run.stdout.startswith("noriladle ") and run.stderr == ""


def test_without_modules(whole: Path, tmp_path: Path, bare: dict[str, str]) -> None:
    """Only PDF needs more than Python and a font; what it needs is named with one command."""
    def made(form: str, *more: str) -> tuple[int, str, bool]:
        out = tmp_path / f"labels.{form}"
        run = ran(whole, "labels", SHELF, "-o", str(out), *more, cache=tmp_path / "cache", env=bare)
        return run.returncode, run.stderr.splitlines()[-1], out.exists()

    pip = f"{bare['VIRTUAL_ENV']}/bin/python3 -m pip install"
    assert made("pdf") == (2, f"noriladle: PDF needs reportlab: {pip} reportlab", False)
    run = ran(whole, "read", "none.png", cache=tmp_path / "cache", env=bare)
    assert (run.returncode, run.stderr) == (2, f"noriladle: reading needs numpy and Pillow: {pip} numpy Pillow\n")
    for form in ("svg", "png", "zpl", "epl", "tspl"):
        pages = " on 1 page" if form in ("svg", "png") else ""
        assert made(form) == (0, f"21 labels{pages} in {tmp_path}/labels.{form}", True)


def test_helps_need_no_modules(whole: Path, tmp_path: Path, bare: dict[str, str]) -> None:
    """package/build makes manual pages of them, and needs Python alone."""
    helps = ran(whole, "--help", cache=tmp_path, env=bare).stdout
    names = re.findall(r"^  (\w+)  ", helps.partition("Commands:\n")[2].partition("\n\n")[0], re.MULTILINE)
    assert {"labels", "worker", "till"} <= {*names}
    for name in names:
        assert ran(whole, name, "--help", cache=tmp_path, env=bare).returncode == 0, name
    run = ran(whole, "till", "--redis", "127.0.0.1:1", "north", cache=tmp_path, env=bare, input="")
    assert (run.returncode, run.stderr) == (2, f"noriladle: Redis needs hiredis: {bare['VIRTUAL_ENV']}/bin/python3 -m pip install hiredis\n")


def test_without_a_font(monkeypatch: pytest.MonkeyPatch) -> None:
    from noriladle.labels import _fonts, missing

    monkeypatch.setattr(_fonts, "_FOLDERS", ())
    monkeypatch.setattr(_fonts, "_of_reportlab", lambda: [])
    monkeypatch.setattr(importlib.util, "find_spec", lambda name: None)
    assert missing("pdf", False) == "PDF needs reportlab and a font: apt-get install python3-reportlab fonts-liberation"
    assert missing("zpl", False) == "ZPL needs a font: apt-get install fonts-liberation"
    assert missing("svg", True) == ""
    monkeypatch.setattr(sys, "prefix", "/venv")
    assert missing("pdf", False) == (f"PDF needs reportlab and a font: {sys.executable} -m pip install reportlab; "
                                     "apt-get install fonts-liberation")


def test_a_stale_release_is_said_in_one_line(clone: Path, tmp_path: Path) -> None:
    source = clone / "crates" / "digits_core" / "src" / "lib.rt"
    before = source.read_bytes()
    source.write_bytes(before + b"\n")
    for _ in range(2):
        run = ran(clone, "--version", cache=tmp_path / "cache")
        assert run.returncode == 0 and run.stderr.count("\n") == 1 and "the sources here differ" in run.stderr
    (clone / "crates" / "digits_core" / "README.md").write_text("a page is no source")
    source.write_bytes(before)
    assert ran(clone, "--version", cache=tmp_path / "new").stderr == ""


@pytest.mark.parametrize("spoil", ["cut", "other", "gone", "manifest"])
def test_a_damaged_release(clone: Path, tmp_path: Path, spoil: str) -> None:
    packed = clone / "release" / os.uname().machine / "libgs1.so.gz"
    if spoil == "cut":
        packed.write_bytes(packed.read_bytes()[:5000])
    elif spoil == "other":
        shutil.copy(packed.with_name("gs1_hub.gz"), packed)
    else:
        (packed if spoil == "gone" else clone / "release" / "MANIFEST").unlink()
    run = ran(clone, "--version", cache=tmp_path / "cache")
    assert (run.returncode, run.stdout) == (69, "")
    assert run.stderr.count("\n") == 1 and "git checkout -- release brings it back" in run.stderr


def test_a_new_release_and_a_new_module_are_taken(clone: Path, tmp_path: Path) -> None:
    ran(clone, "--version", cache=tmp_path / "cache")
    (clone / "bindings" / "python" / "noriladle" / "_new.py").write_text("")
    remedies = clone / "tables" / "remedies.tsv"
    remedies.write_text(remedies.read_text("utf-8").replace("a digit", "some digit"), "utf-8")
    (clone / "bindings" / "python" / "noriladle" / "streams.py").unlink()
    assert ran(clone, "--version", cache=tmp_path / "cache").returncode == 0
    folder = next((tmp_path / "cache" / "noriladle" / "clones").iterdir()) / "noriladle"
    assert (folder / "_new.py").exists() and not (folder / "streams.py").is_symlink()
    assert "some digit" in (folder / "remedies.json").read_text("utf-8")
    name, manifest = f"{platform.machine()}/libgs1.so", clone / "release" / "MANIFEST"
    newer = gzip.decompress((clone / "release" / f"{name}.gz").read_bytes()) + b"\0"
    (clone / "release" / f"{name}.gz").write_bytes(gzip.compress(newer))
    line = f"{name} {hashlib.sha256(newer).hexdigest()} {len(newer)}"
    manifest.write_text(re.sub(f"^{name} .*$", line, manifest.read_text("ascii"), flags=re.MULTILINE), "ascii")
    assert ran(clone, "--version", cache=tmp_path / "cache").returncode == 0
    assert (folder / "libgs1.so").read_bytes() == newer


def test_the_services_find_the_program_of_the_clone(clone: Path, tmp_path: Path) -> None:
    words = [str(clone / "noriladle"), "gateway", "--unix", str(tmp_path / "hub")]
    env = {"PATH": "/usr/bin:/bin", "HOME": str(tmp_path), "XDG_CACHE_HOME": str(tmp_path / "cache")}
    with subprocess.Popen(words, env=env, stderr=subprocess.DEVNULL) as gateway:
        while gateway.poll() is None and not (tmp_path / "hub").exists():
            time.sleep(0.05)
        assert gateway.poll() is None
        gateway.terminate()


def test_a_cache_that_cannot_be_written(whole: Path, tmp_path: Path) -> None:
    (tmp_path / "file").write_text("")
    run = ran(whole, "--version", cache=tmp_path / "file")
    assert run.returncode == 69 and run.stderr.count("\n") == 1 and "set XDG_CACHE_HOME" in run.stderr


def test_a_full_disk(whole: Path, tmp_path: Path) -> None:
    run = ran(whole, "--version", cache=tmp_path / "cache", preexec_fn=_small)
    assert run.returncode == 69 and run.stderr.count("\n") == 1 and "File too large; set XDG_CACHE_HOME" in run.stderr
    assert ran(whole, "--version", cache=tmp_path / "cache").returncode == 0


def _small() -> None:
    import resource
    import signal

    signal.signal(signal.SIGXFSZ, signal.SIG_IGN)
    resource.setrlimit(resource.RLIMIT_FSIZE, (100_000, 100_000))


def test_without_python(whole: Path, tmp_path: Path) -> None:
    (tmp_path / "bin").mkdir()
    for tool in ("readlink", "dirname"):
        (tmp_path / "bin" / tool).symlink_to(shutil.which(tool))
    run = ran(whole, "--version", cache=tmp_path / "cache", shell=[shutil.which("sh")],
              env={"PATH": str(tmp_path / "bin"), "VIRTUAL_ENV": str(tmp_path)})
    assert (run.returncode, run.stderr) == (69, "noriladle: there is no python3: apt-get install python3\n")


def test_several_starts_at_once(whole: Path, tmp_path: Path) -> None:
    env = {**os.environ, "XDG_CACHE_HOME": str(tmp_path)}
    runs = [subprocess.Popen([str(whole / "noriladle"), "--version"], stdout=subprocess.PIPE, stderr=subprocess.PIPE, env=env) for _ in range(6)]
    assert {(run.communicate()[1], run.returncode) for run in runs} == {(b"", 0)}
