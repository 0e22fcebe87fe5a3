"""A Redis Cluster for tests, on loopback or on machines of a network. Tests start, kill and restart its nodes."""
from __future__ import annotations

import os
import random
import shutil
import socket
import subprocess
import tempfile
import time
from pathlib import Path
from typing import Sequence, TypeVar

CONFIGURATION = """bind {host}
port {port}
dir {folder}
logfile {folder}/log
save ""
cluster-enabled yes
cluster-node-timeout 2000
cluster-require-full-coverage no
appendonly yes
appendfsync always
maxmemory-policy noeviction
repl-diskless-sync-delay 0
proto-max-bulk-len 1mb
"""


def ask(port: int, *words: int | Path | str, host: str = "127.0.0.1") -> str:
    """A command to a node, and its reply as redis-cli prints it."""
    command = ["redis-cli", "-h", host, "-p", str(port), *map(str, words)]
    return subprocess.run(command, capture_output=True, text=True, timeout=10).stdout.strip()


Self = TypeVar("Self", bound="Cluster")


class Cluster:
    """Nodes of a cluster, by their ports; `more` are further lines of their configuration. With `replicas` each has one."""

    def __init__(self, nodes: int = 3, more: str = "", folders: Sequence[Path] | None = None, replicas: bool = False) -> None:
        self.root = Path(tempfile.mkdtemp(prefix="redis-"))
        self.ports = free_ports(2 * nodes if replicas else nodes)
        self.masters = nodes
        self.folders = dict(zip(self.ports, folders or [self.root / str(port) for port in self.ports]))
        self.more = more
        self.processes: dict[int, subprocess.Popen[bytes]] = {}

    @property
    def address(self) -> str:
        return f"{self.host(self.ports[0])}:{self.ports[0]}"

    def host(self, port: int) -> str:
        """The address of a node's machine."""
        return "127.0.0.1"

    def bus(self, port: int) -> list[int]:
        """The ports by which other nodes reach a node."""
        return [port]

    def ask(self, port: int, *words: int | Path | str) -> str:
        """A command to a node, from its own machine."""
        return ask(port, *words)

    def run(self, port: int, words: list[str]) -> subprocess.Popen[bytes]:
        """Starts a program on a node's machine."""
        return subprocess.Popen(words)

    def __enter__(self: Self) -> Self:
        try:
            for i, port in enumerate(self.ports):
                self.start(port)
                first, end = (16384 * n // self.masters for n in (i, i + 1))
                if i < self.masters:
                    assert self.ask(port, "CLUSTER", "ADDSLOTSRANGE", first, end - 1) == "OK"
                self.ask(port, "CLUSTER", "MEET", self.host(self.ports[0]), *self.bus(self.ports[0]))
            self.wait()
            for master, replica in zip(self.ports, self.ports[self.masters:]):
                assert self.ask(replica, "CLUSTER", "REPLICATE", self.ask(master, "CLUSTER", "MYID")) == "OK"
            while not all(self.follows(replica) for replica in self.ports[self.masters:]):
                time.sleep(0.1)
        except BaseException:
            self.__exit__()
            raise
        return self

    def __exit__(self, *_: object) -> None:
        for port in self.processes:
            self.kill(port)
        shutil.rmtree(self.root)

    def start(self, port: int) -> None:
        """Starts a node, or starts it again, and waits until it answers."""
        folder = self.folders[port]
        folder.mkdir(exist_ok=True)
        (folder / "configuration").write_text(CONFIGURATION.format(host=self.host(port), port=port, folder=folder) + self.more)
        self.processes[port] = self.run(port, ["redis-server", str(folder / "configuration")])
        while self.ask(port, "PING") != "PONG":
            assert self.processes[port].poll() is None, (folder / "log").read_text()[-500:]
            time.sleep(0.05)

    def kill(self, port: int) -> None:
        self.processes[port].kill()
        self.processes[port].wait()

    def wait(self) -> None:
        """Waits until the nodes know that all run: a restarted node answers CLUSTERDOWN for a while."""
        while not all("cluster_state:ok" in self.ask(port, "CLUSTER", "INFO")
                      and self.ask(port, "CLUSTER", "NODES").count(" connected") == len(self.ports) for port in self.ports):
            time.sleep(0.1)

    def role(self, port: int) -> str:
        """Whether a node is a master or a slave; None if it does not answer."""
        return self.ask(port, "ROLE").partition("\n")[0]

    def follows(self, port: int) -> bool:
        """Whether a node is a replica that has what its master has."""
        return "master_link_status:up" in self.ask(port, "INFO", "replication")

    def holder(self, key: str) -> int:
        """The port of the node that has a key."""
        return next(port for port in self.ports if not self.ask(port, "EXISTS", key).startswith("MOVED"))

    def cut(self, port: int, most: int) -> None:
        """Kills a node, cuts up to this many bytes off the end of its file, and starts it again: it has lost what it
        acknowledged last."""
        self.kill(port)
        file = max((self.folders[port] / "appendonlydir").glob("*.incr.aof"), key=lambda path: path.stat().st_mtime)
        size = file.stat().st_size
        with file.open("r+b") as kept:
            kept.truncate(size - min(size // 3, most))
        self.start(port)


def make_certificates(folder: Path) -> Path:
    """An authority, and certificates by it of a node and of a client; and those of another authority."""
    def make(*words: str) -> None:
        subprocess.run(["openssl", *words], cwd=folder, check=True, capture_output=True)

    (folder / "names").write_text("subjectAltName=IP:127.0.0.1\n")
    for authority in ("ca", "other"):
        make("req", "-x509", "-newkey", "ec", "-pkeyopt", "ec_paramgen_curve:prime256v1", "-nodes", "-keyout", f"{authority}.key", "-out", f"{authority}.pem", "-days", "2",
             "-subj", f"/CN={authority}", "-addext", "keyUsage=critical,keyCertSign")
    for name in ("node", "client"):
        make("req", "-newkey", "ec", "-pkeyopt", "ec_paramgen_curve:prime256v1", "-nodes", "-keyout", f"{name}.key", "-out", f"{name}.csr", "-subj", f"/CN={name}")
        make("x509", "-req", "-in", f"{name}.csr", "-CA", "ca.pem", "-CAkey", "ca.key", "-CAcreateserial", "-days", "2", "-out", f"{name}.pem",
             "-extfile", "names")
    return folder


class Secured(Cluster):
    """A cluster over TLS; clients reach each node by a port that is 20,000 above its own."""

    def __init__(self, nodes: int = 3) -> None:
        super().__init__(nodes)
        make_certificates(self.root)

    def start(self, port: int) -> None:
        of = self.root
        self.more = (f"tls-port {port + 20_000}\ntls-cluster yes\ncluster-port {port + 10_000}\ntls-auth-clients yes\ntls-cert-file {of}/node.pem\n"
                     f"tls-key-file {of}/node.key\ntls-ca-cert-file {of}/ca.pem\n")
        super().start(port)

    def bus(self, port: int) -> list[int]:
        return [port + 20_000, port + 10_000]


class Preloaded(Cluster):
    """A node with functions in C instead of the system's; a folder has the build."""

    def __init__(self, folder: Path, source: str, **environment: str) -> None:
        super().__init__(nodes=1)
        (folder / "preloaded.c").write_text(source)
        library = folder / "preloaded.so"
        subprocess.run(["gcc", "-shared", "-fPIC", "-O1", "-o", library, folder / "preloaded.c"], check=True)
        self.environment = {**os.environ, "LD_PRELOAD": str(library), **environment}

    def run(self, port: int, words: list[str]) -> subprocess.Popen[bytes]:
        return subprocess.Popen(words, env=self.environment)


def free_ports(count: int) -> list[int]:
    """Free ports whose ports for the cluster's bus and for TLS, 10,000 and 20,000 above, are free too."""
    found: set[int] = set()
    while len(found) < count:
        port = random.randrange(10_000, 20_000)
        try:
            for number in (port, port + 10_000, port + 20_000):
                with socket.socket() as tried:
                    tried.bind(("127.0.0.1", number))
            found.add(port)
        except OSError:
            pass
    return sorted(found)
