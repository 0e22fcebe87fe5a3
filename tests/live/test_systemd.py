"""The services under a real systemd, in a container of a clean Debian: started, reloaded, stopped, killed, and as their units confine them.

Needs root, debootstrap and systemd-container; it is skipped where a container cannot be had, and the reason is told. The Debian is made
once and kept in the folder that CONTAINER names in the environment, or made anew.
"""
from __future__ import annotations

import os
import shutil
import socket
import subprocess
import time
from pathlib import Path
from typing import Any, Iterator, Sequence

import pytest

from gateway_and_scanners import ROW
from program_and_rows import PROGRAM, READ, ROOT

LIMIT = 900
NEEDED = "systemd,systemd-sysv,dbus,python3,udev,procps,python3-hiredis,python3-prometheus-client,openssl"


def install(root: Path) -> None:
    """Puts in what the packages have, by package/build's own list."""
    modules = root / "usr/lib/python3/dist-packages/noriladle"
    shutil.rmtree(modules, ignore_errors=True)
    shutil.copytree(ROOT / "bindings/python/noriladle", modules, ignore=shutil.ignore_patterns("__pycache__"))
    file: Any
    for file, into in [(ROOT / "package/noriladle", "usr/bin/noriladle"), (shutil.which(PROGRAM), "usr/bin/gs1_hub"),
                       (ROOT / "package/noriladle.sysusers", "usr/lib/sysusers.d/noriladle.conf"),
                       (ROOT / "package/70-noriladle-scanner.rules", "usr/lib/udev/rules.d/70-noriladle-scanner.rules"),
                       *((file, f"etc/noriladle/{file.name}") for file in (ROOT / "package/etc").iterdir() if file.name != "scanner.toml")]:
        (root / into).parent.mkdir(parents=True, exist_ok=True)
        shutil.copy(file, root / into)
    shutil.copytree(ROOT / "package/systemd", root / "usr/lib/systemd/system", dirs_exist_ok=True)
    for name in ("noriladle", "gs1_hub"):
        (root / "usr/bin" / name).chmod(0o755)


class Container:
    """A Debian that systemd has started."""

    def __init__(self, root: Path) -> None:
        self.root = root
        words = ["systemd-nspawn", "--quiet", f"--directory={root}", "--boot", "--register=no", "--keep-unit", "--console=pipe"]
        self.said = open(root.parent / "console", "wb+")
        self.process = subprocess.Popen(words, stdin=subprocess.DEVNULL, stdout=self.said, stderr=self.said,
                                        env={**os.environ, "SYSTEMD_NSPAWN_UNIFIED_HIERARCHY": "0"})
        self.leader = ""

    def wait(self) -> str:
        """Until it is up; the reason, if it does not come up."""
        until = time.monotonic() + 60
        while time.monotonic() < until and self.process.poll() is None:
            children = Path(f"/proc/{self.process.pid}/task/{self.process.pid}/children").read_text().split()
            if children:
                self.leader = children[0]
                state = self.run("systemctl", "is-system-running").stdout.strip()
                if state in ("running", "degraded"):
                    return ""
            time.sleep(0.3)
        self.said.seek(0)
        return self.said.read().decode("utf-8", "replace")[-300:] or "it does not come up"

    def run(self, *words: object, **more: Any) -> subprocess.CompletedProcess[str]:
        return subprocess.run(["nsenter", "-t", self.leader, "-a", "env", "-i", "PATH=/usr/sbin:/usr/bin:/sbin:/bin", *map(str, words)],
                              capture_output=True, text=True, timeout=60, **more)

    def shown(self, unit: str, name: str) -> str:
        return self.run("systemctl", "show", "-P", name, unit).stdout.strip()

    def end(self) -> None:
        if self.leader:
            self.run("systemctl", "poweroff")
        try:
            self.process.wait(30)
        except subprocess.TimeoutExpired:
            self.process.kill()
            self.process.wait()
        self.said.close()


@pytest.fixture(scope="module")
def container(tmp_path_factory: pytest.TempPathFactory) -> Iterator[Container]:
    if os.geteuid() or not shutil.which("systemd-nspawn") or not shutil.which("debootstrap"):
        pytest.skip("a container needs root, debootstrap and systemd-container")
    root = Path(os.environ.get("CONTAINER") or tmp_path_factory.mktemp("container") / "root")
    if not (root / "usr/lib/systemd/systemd").exists():
        ran = subprocess.run(["debootstrap", "--variant=minbase", f"--include={NEEDED}", "bookworm", root], capture_output=True, text=True)
        if ran.returncode:
            pytest.skip(f"debootstrap: {ran.stdout.splitlines()[-1:]}")
    install(root)
    it = Container(root)
    why = it.wait()
    if why:
        it.end()
        pytest.skip(f"no container: {why}")
    assert it.run("systemd-sysusers", "noriladle.conf").returncode == 0
    it.run("systemctl", "daemon-reload")
    yield it
    it.end()


ASK = "import socket,sys; it=socket.socket(socket.AF_UNIX); it.connect('/run/noriladle/hub'); it.sendall(sys.argv[1].encode()+b'\\n'); " \
      "print(it.makefile().readline(), end='')"


def ask(container: Container) -> str:
    """What the gateway answers to a row."""
    ran = container.run("python3", "-c", ASK, ROW.decode().strip())
    return ran.stdout or ran.stderr


def test_the_gateway(container: Container) -> None:
    """It is ready when systemctl returns; then it reloads its options, is killed and restarted, and stops."""
    unit = "noriladle-gateway"
    ran = container.run("systemctl", "start", unit)
    assert ran.returncode == 0, container.run("journalctl", "-u", unit, "--no-pager").stdout[-2000:]
    assert ask(container) == f"0 {READ}\n"
    assert container.shown(unit, "ActiveState") == "active" and container.shown(unit, "NRestarts") == "0"
    assert container.run("stat", "-c", "%a %G", "/run/noriladle/hub").stdout == "660 noriladle\n"
    pid = container.shown(unit, "MainPID")
    assert container.run("systemctl", "reload", unit).returncode == 0
    assert container.shown(unit, "MainPID") == pid and ask(container) == f"0 {READ}\n"
    health = "import urllib.request as it; print(it.urlopen('http://127.0.0.1:4712/readyz').read().decode(), end='')"
    assert container.run("python3", "-c", health).stdout == "ready\n"
    # A second one on the same socket refuses.
    second = container.run("noriladle", "gateway", "--unix", "/run/noriladle/hub")
    assert second.returncode == 2 and "another gateway has /run/noriladle/hub" in second.stderr
    # It runs as a user of its own, and may write nowhere.
    assert container.run("ps", "-o", "user=", "-p", pid).stdout.strip() not in ("root", "")
    container.run("kill", "-9", pid)
    until = time.monotonic() + 20
    while ask(container) != f"0 {READ}\n":
        assert time.monotonic() < until
        time.sleep(0.2)
    assert container.shown(unit, "NRestarts") == "1"
    # Its hub alone is stopped: the watchdog ends both.
    hub = container.run("pgrep", "gs1_hub").stdout.split()[0]
    container.run("kill", "-STOP", hub)
    until = time.monotonic() + 60
    while container.shown(unit, "NRestarts") != "2" or ask(container) != f"0 {READ}\n":
        assert time.monotonic() < until
        time.sleep(0.5)
    begin = time.monotonic()
    assert container.run("systemctl", "stop", unit).returncode == 0 and time.monotonic() - begin < 8
    assert container.shown(unit, "Result") == "success" and not container.run("pgrep", "gs1_hub").stdout


SPEAK = "import socket,ssl; it=ssl._create_unverified_context().wrap_socket(socket.create_connection(('127.0.0.1', 4710), 5)); " \
        "it.sendall(b']E09501101530003\\n'); print(it.makefile().readline(), end=''); import hashlib; print(hashlib.sha256(it.getpeercert(True)).hexdigest())"


def test_a_renewed_certificate(container: Container) -> None:
    """As docs/OPERATIONS.md says: the service reads the key by its group, a pair that is not whole changes nothing, and a reload takes the new one."""
    unit, folder = "noriladle-gateway", container.root / "etc/noriladle"
    before = (folder / "gateway.toml").read_text()
    (folder / "gateway.toml").write_text(before + 'port = 4710\ncert = "/etc/noriladle/gateway.pem"\nkey = "/etc/noriladle/gateway.key"\n')

    def make(name: str) -> None:
        made = container.run("openssl", "req", "-x509", "-newkey", "rsa:2048", "-nodes", "-keyout", f"/etc/noriladle/{name}.key", "-out",
                             f"/etc/noriladle/{name}.pem", "-days", "30", "-subj", "/CN=localhost")
        assert made.returncode == 0, made.stderr

    def put(*words: str) -> None:
        assert container.run("install", *words).returncode == 0

    def seen() -> str:
        ran = container.run("python3", "-c", SPEAK)
        assert ran.stdout.startswith(f"- {READ}\n"), ran.stdout + ran.stderr
        return ran.stdout.splitlines()[1]

    for name in ("old", "new"):
        make(name)
    put("-m", "644", "/etc/noriladle/old.pem", "/etc/noriladle/gateway.pem")
    put("-m", "640", "-g", "noriladle-key", "/etc/noriladle/old.key", "/etc/noriladle/gateway.key")
    assert container.run("systemctl", "start", unit).returncode == 0, container.run("journalctl", "-u", unit, "--no-pager").stdout[-2000:]
    first = seen()
    put("-m", "644", "/etc/noriladle/new.pem", "/etc/noriladle/gateway.pem")
    assert container.run("systemctl", "reload", unit).returncode == 0
    time.sleep(1)
    assert seen() == first
    put("-m", "640", "-g", "noriladle-key", "/etc/noriladle/new.key", "/etc/noriladle/gateway.key")
    assert container.run("systemctl", "reload", unit).returncode == 0
    time.sleep(1)
    assert seen() != first
    (folder / "gateway.toml").write_text(before)
    container.run("systemctl", "stop", unit)


def test_the_journal_of_scans(container: Container) -> None:
    """The service may write it, and nothing else."""
    unit, file = "noriladle-gateway", container.root / "etc/noriladle/gateway.toml"
    before = file.read_text()
    container.run("rm", "-rf", "/var/lib/noriladle/journal", "/var/lib/private/noriladle/journal")
    file.write_text(before + 'journal = "/var/lib/noriladle/journal"\n')
    assert container.run("systemctl", "start", unit).returncode == 0, container.run("journalctl", "-u", unit, "--no-pager").stdout[-2000:]
    assert ask(container) == f"0 {READ}\n"
    ran = container.run("noriladle", "journal", "/var/lib/noriladle/journal")
    assert ran.returncode == 0 and READ in ran.stdout and ran.stderr == "1 records in 1 files, 0 faults\n"
    file.write_text(before)
    container.run("systemctl", "stop", unit)


def test_rights(container: Container) -> None:
    """Within its confinement too the gateway knows the users and groups of its clients."""
    unit, file = "noriladle-gateway", container.root / "etc/noriladle/gateway.toml"
    before = file.read_text()
    file.write_text(before + '[rights]\n"user daemon" = "rows"\n"group games" = "rows"\n')
    assert container.run("systemctl", "start", unit).returncode == 0

    def asked(user: str, group: str, more: Sequence[str]) -> str:
        words = ["setpriv", f"--reuid={user}", f"--regid={group}", *more, "python3", "-c", ASK, ROW.decode().strip()]
        ran = container.run(*words)
        return ran.stdout or ran.stderr

    assert asked("daemon", "noriladle", ["--clear-groups"]) == f"0 {READ}\n"
    assert asked("bin", "noriladle", ["--clear-groups"]) == "closed: no right to rows\n"
    assert asked("bin", "noriladle", ["--groups=games"]) == f"0 {READ}\n"
    file.write_text(before)
    container.run("systemctl", "restart", unit)
    container.run("systemctl", "stop", unit)


def test_a_wrong_file_of_options(container: Container) -> None:
    """The start fails, and the journal has the line."""
    file = container.root / "etc/noriladle/gateway.toml"
    before = file.read_text()
    file.write_text(before + "lanez = 3\n")
    assert container.run("systemctl", "start", "noriladle-gateway").returncode != 0
    said = container.run("journalctl", "-u", "noriladle-gateway", "-o", "cat", "--no-pager").stdout
    assert f"gateway.toml:{before.count(chr(10)) + 1}: there is no option 'lanez' (did you mean lanes?)" in said
    container.run("systemctl", "stop", "noriladle-gateway")
    container.run("systemctl", "reset-failed", "noriladle-gateway")
    file.write_text(before)


def test_a_scanner_without_its_file_is_left_alone(container: Container) -> None:
    assert container.run("systemctl", "start", "--no-block", "noriladle-scanner@dev-null").returncode == 0
    time.sleep(1)
    assert container.shown("noriladle-scanner@dev-null", "ActiveState") == "inactive"


def test_a_worker(container: Container) -> None:
    """It has its rights and its node from the option files, and ends when systemd stops it."""
    if not shutil.which("redis-server"):
        pytest.skip("there is no redis-server")
    with socket.socket() as free:
        free.bind(("127.0.0.1", 0))
        port = free.getsockname()[1]
    folder = container.root.parent
    with subprocess.Popen(["redis-server", "--port", str(port), "--save", "", "--dir", str(folder), "--requirepass", "open"],
                          stdout=subprocess.DEVNULL) as node:
        try:
            # The container has the network of the machine.
            (container.root / "etc/noriladle/worker.toml").write_text(f'redis = ["127.0.0.1:{port}"]\n')
            (container.root / "etc/noriladle/worker.secret").write_text("REDIS_PASSWORD=open\n")
            assert container.run("systemctl", "start", "noriladle-worker@1").returncode == 0
            words = ["env", "REDIS_PASSWORD=open", "noriladle", "till", "--redis", f"127.0.0.1:{port}", "north.0", "--patience", "20"]
            assert container.run(*words, input=ROW.decode()).stdout == f"0 {READ}\n"
            begin = time.monotonic()
            assert container.run("systemctl", "stop", "noriladle-worker@1").returncode == 0 and time.monotonic() - begin < 10
            assert container.shown("noriladle-worker@1", "Result") == "success"
        finally:
            node.terminate()
