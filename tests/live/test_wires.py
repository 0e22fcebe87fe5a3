"""What somebody on each wire can do and cannot: each sentence of SECURITY.md's table is played, here or by a test that it names. Needs openssl,
chromium, redis-server, and root and iproute2 for another machine; else it skips these."""
from __future__ import annotations

import contextlib
import http.server
import os
import re
import shutil
import socket
import ssl
import subprocess
import sys
import threading
import time
from pathlib import Path
from typing import Any, Callable, Iterator

import pytest

from gateway_and_scanners import NORILADLE, ROW, Client, Gateway, Serial
from network import Network
from noriladle._journal import FORM, _sum
from program_and_rows import PROGRAM, READ, ROOT, noise
from redis_cluster import Cluster, ask, free_ports, make_certificates
from test_gateway import page
from test_journal import check, scan_all
from test_redis_bad import locked
from test_rights import Authority, may_not, new_token, rights
from workers_and_tills import keys

sys.path.insert(0, str(ROOT / "tests/page"))
from browser import Browser  # noqa: E402

LIMIT = 300
EAN = b"]E09501101530003"
OTHER, OTHERS_ANSWER = b"]E09501101530010", "]E0 (01)09501101530010"
NEEDS_ROOT = pytest.mark.skipif(os.geteuid() != 0 or not os.path.exists("/dev/net/tun"), reason="only root makes machines of network namespaces")

USERS, LIMITS, BAD_JOURNAL = "test_rights.py::test_users_and_groups", "test_limits.py", "test_journal.py::test_a_journal_that_was_changed"
TILL_S_PASSWORD = "test_redis_bad.py::test_what_the_password_of_a_till_may_do"
PAGE_COMMAND = "../../bindings/python/tests/test_page_command.py"
PLAYS = {
    "a scanner's cable or radio": {
        "type any text as a scan, and read each": "test_a_cable", "reach another lane": "test_a_cable", "make a wrong text a right one": "test_a_cable",
        "delay another lane by more than its turn": f"{LIMITS}::test_a_scanner_that_floods"},
    "the gateway's UNIX socket": {
        "do what the rights of its user, groups and token allow": USERS, "take lanes and connections up to the limit of its user": f"{LIMITS}::test_a_user_who_takes_all",
        "pass for another user": USERS, "reach a lane without the right to it": USERS,
        "take the place of a scanner": f"{LIMITS}::test_scanners_have_a_place_when_there_is_no_other"},
    "its TCP port without TLS": {
        "read and change everything sent over it, tokens too": "test_a_port_without_tls", "take the places of its address": f"{LIMITS}::test_a_user_or_an_address_has_its_limit",
        "do more than the tokens sent there allow": "test_a_port_without_tls", "take the places of the UNIX socket": f"{LIMITS}::test_tcp_leaves_places_to_the_unix_socket"},
    "its port with TLS": {
        "see when something is sent": "test_a_port_with_tls", "end connections": "test_a_port_with_tls", "read or change it": "test_a_port_with_tls",
        "use a token or a certificate of somebody else": "test_a_port_with_tls"},
    "its port for web pages": {
        "watch lanes, as a program of this machine with the right": "test_rights.py::test_pages",
        "watch from another machine, or from a page of another origin": "test_another_machine test_page.py::test_pages_of_others_may_not_watch"},
    "a page of another site, in a browser of this machine": {
        "send a request to each port": "test_a_page_of_another_site", "take a lane": "test_a_page_of_another_site",
        "read a number of `/metrics`, under any name": "test_a_page_of_another_site", "watch a lane": "test_a_page_of_another_site"},
    "the port of `noriladle page`": {
        "read the files of the page": f"{PAGE_COMMAND}::test_it_serves_the_files_of_the_page",
        "send anything, reach another file, or open the page under another host name":
            f"{PAGE_COMMAND}::test_get_and_head_alone {PAGE_COMMAND}::test_it_serves_nothing_else {PAGE_COMMAND}::test_the_host_is_looked_at"},
    "`/metrics`": {
        "read the numbers, as a program of this machine": "test_metrics", "change anything, or read a scan": "test_metrics",
        "read them from another machine": "test_another_machine"},
    "the folder of the journal": {
        "read all scans, with the right to the files": "test_the_folder_of_the_journal", "delete them": BAD_JOURNAL, "write them anew with new sums": "test_the_folder_of_the_journal",
        "change one record of many and leave the sums right": BAD_JOURNAL},
    "Redis with TLS and rights, with a till's password": {
        "write anything as rows of its lane, so that the lane stops": "test_redis_bad.py::test_a_till_of_another_type_or_without_ids",
        "read its rows and answers, and remove its answers": TILL_S_PASSWORD, "make others wait for up to a second": "test_redis_faults.py::test_an_evil_till",
        "take all connections of a node": "test_connections_of_a_node", "write an answer": TILL_S_PASSWORD, "see or change another lane": TILL_S_PASSWORD,
        "run a script or a MULTI": TILL_S_PASSWORD, "fill the node: a lane over 32 MB is emptied": "test_tills.py::test_a_lane_that_has_too_many_rows"},
    "the same, with the workers' password": {
        "read all rows, write any answer, remove rows": "test_the_password_of_the_workers", "read or change other keys": "test_the_password_of_the_workers",
        "change users or settings": "test_the_password_of_the_workers"},
    "the same, on the network between": {
        "see when something is sent": "test_redis_with_tls", "end connections: tills and workers connect again": "test_redis_with_tls",
        "read or change it, with `ca` set": "test_redis_with_tls"},
    "Redis without these": {"read and write everything": "test_redis_without_rights"},
}


def sentences() -> dict[str, list[str]]:
    """The sentences of SECURITY.md by their wires."""
    table = (ROOT / "SECURITY.md").read_text().split("## Who is on a wire")[1].split("\n## ")[0]
    rows = [re.sub(r"\[([^]]*)\]\([^)]*\)", r"\1", line).strip("| ").split(" | ") for line in table.splitlines() if line.startswith("| ")]
    return {cells[0]: [it for cell in cells[1:] for it in cell.split("; ") if it] for cells in rows[1:]}


def test_each_sentence_is_played() -> None:
    found = sentences()
    assert found == {wire: list(plays) for wire, plays in PLAYS.items()}
    for plays in PLAYS.values():
        for play in " ".join(plays.values()).split():
            file, _, name = play.rpartition("::")
            assert f"\ndef {name}(" in (ROOT / "tests/live" / (file or "test_wires.py")).read_text(), play


class Wire(threading.Thread):
    """A wire to a port of this machine, and somebody on it, who sees all bytes of both directions, may change them, or cut it."""

    def __init__(self, port: int) -> None:
        super().__init__(daemon=True)
        self._to = port
        self._listening = socket.create_server(("127.0.0.1", 0))
        self.port = self._listening.getsockname()[1]
        self.sent: list[tuple[float, bytes]] = []
        self.came: list[tuple[float, bytes]] = []
        """What clients sent, and what they got, in pieces with their times."""
        self.change = lambda piece: piece
        """What becomes of a piece that a client sends."""
        self._ends: list[socket.socket] = []
        self.start()

    def run(self) -> None:
        with contextlib.suppress(OSError):
            while True:
                near, _ = self._listening.accept()
                far = socket.create_connection(("127.0.0.1", self._to))
                self._ends += [near, far]
                for of, to, seen, change in ((near, far, self.sent, lambda piece: self.change(piece)), (far, near, self.came, lambda piece: piece)):
                    threading.Thread(target=self._carry, args=(of, to, seen, change), daemon=True).start()

    @staticmethod
    def _carry(of: socket.socket, to: socket.socket, seen: list[tuple[float, bytes]], change: Callable[[bytes], bytes]) -> None:
        with contextlib.suppress(OSError):
            while piece := of.recv(65_536):
                seen.append((time.monotonic(), piece))
                to.sendall(change(piece))
        for it in (of, to):
            with contextlib.suppress(OSError):
                it.shutdown(socket.SHUT_RDWR)

    def has_seen(self, text: bytes) -> bool:
        return any(text in b"".join(piece for _, piece in seen) for seen in (self.sent, self.came))

    def cut(self) -> None:
        """Ends all connections."""
        for it in self._ends:
            with contextlib.suppress(OSError):
                it.shutdown(socket.SHUT_RDWR)
        self._ends.clear()

    def __enter__(self) -> Wire:
        return self

    def __exit__(self, *_: object) -> None:
        self._listening.close()
        self.cut()


def answers_of(texts: list[bytes]) -> list[str]:
    """What the program answers to texts of a scanner."""
    ran = subprocess.run([PROGRAM, "live", "--lanes", "1", "--workers", "1", "--year", "2026", "--ais", "all"], input=b"".join(b"0,%s\n" % it for it in texts),
                         capture_output=True, check=True)
    return [line.split(" ", 2)[2] for line in ran.stdout.decode().splitlines()]


WRONG = [b"]E09501101530004", b"]E0 (01)09501101530003", b"0 ]E09501101530003", b"0 1764493234.123 ]E09501101530003", b"scan till-2", b"watch till-2", b"scan till-2 2 0123abcd",
         b"next", b"18 next", b"closed: the gateway stops", b"token x", b"sold: 0 ]E0 (01)09501101530003", b"0,]E09501101530003", b"\x00]E09501101530003",
         b"]E0950110153000\x7f3", b"]e0(01)09501101530003", b"unread: x", b"- - (01)09501101530003", b"]E0\xd9\xa095011015300"]


def test_a_cable(tmp_path: Path) -> None:
    """A right text is sold, a wrong one never is, whatever it looks like, and the other lane hears nothing; nor does it of noise."""
    with Gateway(tmp_path, port=False) as gateway, gateway.watch("till-1") as till, gateway.unix_client() as other:
        other.send(b"watch till-2 2\n")
        assert other.line().startswith("- ")
        with Serial("--gateway", gateway.unix, "--lane", "till-1", "--ais", "all") as scanner:
            texts = [EAN, *WRONG, OTHER]
            wanted = answers_of(texts)
            assert wanted[0] == READ and wanted[-1] == OTHERS_ANSWER and all(it.startswith("refused ") for it in wanted[1:-1]), wanted
            assert till.line() == "0 next\n"
            for number, (text, its) in enumerate(zip(texts, wanted)):
                scanner.send(text + b"\r", size=200)
                assert till.line() == f"{number} {its}\n", text
            scanner.send(noise(20_000), size=500, one_by_one=True)
            scanner.send(b"\r" + EAN + b"\r", size=100)
            numbers = []
            for line in iter(till.line, ""):
                its_number, _, said = line.rstrip("\n").partition(" ")
                numbers.append(int(its_number))
                if said == READ:
                    break
                assert said.startswith(("refused ", "unread: ")), line
            assert numbers == list(range(len(texts), len(texts) + len(numbers))) and len(numbers) > 50
            assert all(re.fullmatch(r"- \d+\.\d{3} next -\n", line) for line in lines_until_now(other))


def lines_until_now(client: Client) -> Iterator[str]:
    """The lines that have come."""
    client.socket.settimeout(0.5)
    with contextlib.suppress(OSError):
        while line := client.lines.readline():
            yield line.decode()


def test_a_port_without_tls(tmp_path: Path) -> None:
    """Who is on it reads the token and another's scans, changes a scan, and uses the token: for what it allows, and for nothing else."""
    token, name = new_token()
    with Gateway(tmp_path, *rights(tmp_path, f'{name} = "scan till-1, watch till-1"')) as gateway, Wire(gateway.ports["port"]) as wire:
        with Client(("127.0.0.1", wire.port)) as scanner:
            scanner.send(f"token {token}\nscan till-1\n".encode())
            assert scanner.line() == "0 next\n"
            wire.change = lambda piece: piece.replace(EAN, OTHER)
            scanner.send(b"0\n0 " + EAN + b"\n")
            assert scanner.line() == f"0 {OTHERS_ANSWER}\n"
        assert wire.has_seen(EAN) and wire.has_seen(OTHERS_ANSWER.encode())
        stolen = re.match(rb"token (\S+)\n", wire.sent[0][1])[1].decode()
        assert stolen == token
        for line, wanted in (("watch till-1\n", "1 next\n"), ("watch till-2\n", may_not("watch till-2")), ("scan till-2\n", may_not("scan till-2")),
                             (ROW.decode(), may_not("rows"))):
            with gateway.connect() as client:
                assert client.ask(f"token {stolen}\n{line}".encode()) == wanted


def over_tls(wire: Wire, authority: Authority) -> Client:
    """A client of a wire, which trusts an authority."""
    it = Client(("127.0.0.1", wire.port))
    it.lines.close()
    it.socket = ssl.create_default_context(cafile=authority.file).wrap_socket(it.socket, server_hostname="localhost")
    it.lines = it.socket.makefile("rb")
    return it


def test_a_port_with_tls(tmp_path: Path) -> None:
    """Who is on it sees when a scan is sent, and may cut the line. It reads neither a token nor a scan; a changed byte ends the connection without
    an answer; what was sent is worth nothing a second time; and a certificate is worth nothing without its key."""
    authority = Authority(tmp_path, "shop")
    key, file = authority.issue("gateway")
    _, certificate = authority.issue("till-1")
    token, name = new_token()
    words = rights(tmp_path, f'{name} = "scan till-1, watch till-1"', '"certificate till-1" = "watch till-1"')
    with Gateway(tmp_path, "--key", str(key), "--cert", str(file), *words) as gateway, Wire(gateway.ports["port"]) as wire:
        with over_tls(wire, authority) as scanner, Client(gateway.unix, socket.AF_UNIX):
            scanner.send(f"token {token}\nscan till-1\n".encode())
            assert scanner.line() == "0 next\n"
            scanner.send(b"0\n0 " + EAN + b"\n")
            assert scanner.line() == f"0 {READ}\n"
            pieces = len(wire.sent)
            time.sleep(1)
            assert len(wire.sent) == pieces
            begin = time.monotonic()
            scanner.send(b"1 " + EAN + b"\n")
            assert scanner.line() == f"1 {READ}\n"
            assert 0 <= wire.sent[-1][0] - begin < 1
            for secret in (token.encode(), EAN, READ.encode(), b"till-1", b"next"):
                assert not wire.has_seen(secret)
            wire.change = lambda piece: piece[:-20] + bytes([piece[-20] ^ 1]) + piece[-19:]
            scanner.send(b"2 " + EAN + b"\n")
            try:
                assert scanner.line() == ""
            except OSError:
                pass
        wire.change = lambda piece: piece
        # All that a client has sent, once more.
        with gateway.connect() as thief:
            with contextlib.suppress(OSError):
                for _, piece in wire.sent[:pieces]:
                    thief.send(piece)
                thief.socket.shutdown(socket.SHUT_WR)
                assert b"next" not in thief.lines.read()
        with over_tls(wire, authority) as till:
            till.send(f"token {token}\nwatch till-1\n".encode())
            assert till.line() == "2 next\n"
            wire.cut()
            try:
                assert till.line() == ""
            except OSError:
                pass
    context = ssl.create_default_context(cafile=authority.file)
    with pytest.raises(ssl.SSLError, match="KEY_VALUES_MISMATCH"):
        context.load_cert_chain(certificate, key)


@NEEDS_ROOT
def test_another_machine(tmp_path: Path) -> None:
    """The ports for pages and for numbers are not there for it."""
    with Network("shop", "far") as network:
        with network.inside("shop"):
            gateway = Gateway(tmp_path, "--web", "0", "--metrics", "0", "--host", network.addresses["shop"], "--anyone")
        with gateway:
            for name, is_there in (("port", True), ("web", False), ("metrics", False)):
                with network.inside("far"), socket.socket() as its:
                    its.settimeout(5)
                    assert (its.connect_ex((network.addresses["shop"], gateway.ports[name])) == 0) == is_there, name


class Evil(http.server.BaseHTTPRequestHandler):
    """The server of another site."""

    def do_GET(self) -> None:
        self.send_response(200)
        self.end_headers()
        self.wfile.write(b"<p>a game")

    def log_message(self, *_: str) -> None:
        pass


# Each returns what the page's script sees.
POST = "fetch('http://127.0.0.1:%d/', {method: 'POST', mode: 'no-cors', body: 'scan till-1\\n0\\n0 ]E09501101530003\\n'}).then(it => it.text(), () => '')"
READS = "fetch('http://127.0.0.1:%d/metrics').then(it => it.text(), () => '')"
WATCHES = "new Promise(done => { const it = new WebSocket('ws://127.0.0.1:%d/till-1'); it.onmessage = one => done(one.data); it.onclose = () => done('') })"


@pytest.mark.skipif(not shutil.which("chromium"), reason="there is no chromium")
@pytest.mark.parametrize("named", ["localhost.evil.example", "evil.example"])
def test_a_page_of_another_site(tmp_path: Path, named: str) -> None:
    """Its requests reach the ports, and get it nothing: no lane, no number, also if its own name stands for this machine, and no line of a till."""
    with Gateway(tmp_path, "--web", "0", "--metrics", "0") as gateway, gateway.watch("till-1") as till, \
            http.server.ThreadingHTTPServer(("127.0.0.1", 0), Evil) as site:
        threading.Thread(target=site.serve_forever, daemon=True).start()
        loaded = "document.readyState === 'complete' && location.hostname !== ''"
        browser = Browser(f"http://{named}:{site.server_port}/", started=loaded, switches=[f"--host-resolver-rules=MAP {named} 127.0.0.1"])
        try:
            assert browser.value("location.hostname") == named
            closed = int(gateway.numbers()["noriladle_closed_total"])
            for port in (gateway.ports["port"], gateway.ports["metrics"], gateway.ports["web"]):
                assert browser.value(POST % port) == ""
            assert int(gateway.numbers()["noriladle_closed_total"]) == closed + 1  # It has come.
            assert gateway.numbers()["noriladle_lanes_free"] == "16" and gateway.numbers()["noriladle_scanners"] == "0"
            assert browser.value(READS % gateway.ports["metrics"]) == ""
            browser.go(f"http://{named}:{gateway.ports['metrics']}/metrics", loaded)
            assert "this port is for programs of this machine" in browser.value("document.body.innerText") and "noriladle_" not in browser.value("document.body.innerText")
            browser.go(f"http://{named}:{site.server_port}/", loaded)
            assert browser.value(WATCHES % gateway.ports["web"]) == ""
            assert list(lines_until_now(till)) == []
        finally:
            browser.close()
            site.shutdown()


def test_metrics(tmp_path: Path) -> None:
    """No request changes a number or the service, and none shows what was scanned."""
    with Gateway(tmp_path, "--metrics", "0", port=False) as gateway, gateway.unix_client() as client:
        assert scan_all(client, "till-1", [EAN, b"]C110SECRET"]) == [f"0 {READ}\n", "1 ]C1 (10)SECRET\n"]
        before = {name: value for name, value in gateway.numbers().items() if name.startswith("noriladle_scan")}
        for method in ("POST", "PUT", "DELETE", "PATCH", "OPTIONS", "HEAD", "get"):
            for path in ("/metrics", "/readyz", "/-/reload", "/metrics?scan=1"):
                with Client(("127.0.0.1", gateway.ports["metrics"])) as its:
                    its.send(f"{method} {path} HTTP/1.1\r\nHost: localhost\r\nContent-Length: 0\r\n\r\n".encode())
                    assert its.lines.read().startswith(b"HTTP/1.1 405 ")
        told = page(gateway, "/metrics")[1]
        assert "9501101530003" not in told and "SECRET" not in told and 'noriladle_scans_total{lane="till-1"} 2' in told
        assert {name: value for name, value in gateway.numbers().items() if name.startswith("noriladle_scan")} == before
        assert page(gateway, "/readyz") == (200, "ready\n")


def test_the_folder_of_the_journal(tmp_path: Path) -> None:
    """Owner and group read it, and nobody else. Who writes all sums anew leaves nothing for the check to find."""
    folder = tmp_path / "journal"
    with Gateway(tmp_path, "--journal", str(folder), port=False) as gateway, gateway.unix_client() as client:
        assert len(scan_all(client, "till-1", [EAN] * 3)) == 3
    assert oct(folder.stat().st_mode & 0o777) == "0o750" and {oct(it.stat().st_mode & 0o777) for it in folder.iterdir()} == {"0o640"}
    file, = folder.glob("scans-*.tsv")
    header, *lines = file.read_text().splitlines()
    assert header.startswith(FORM) and EAN.decode() in lines[1]
    before = header.split("\t")[2]
    for number, line in enumerate(lines):
        line = line.rpartition("\t")[0].replace("09501101530003", "09501101530010")
        before = _sum(line, before)
        lines[number] = f"{line}\t{before}"
    file.write_text("\n".join([header, *lines, ""]))
    said, counts, status = check(folder)
    assert (counts, status) == ("3 records in 1 files, 0 faults\n", 0) and said.count(OTHERS_ANSWER) == 3


@contextlib.contextmanager
def guarded(**more: int) -> Iterator[tuple[Cluster, int]]:
    """A node with the users of `noriladle worker --acl`, all with the password open, and its port."""
    cluster = Cluster(nodes=1, more="")
    locked(cluster, "3")
    cluster.more = f"aclfile {cluster.root}/users.acl\n" + "".join(f"{name} {value}\n" for name, value in more.items())
    nodes: Any = cluster
    nodes.ask = lambda port, *words: ask(port, "--no-auth-warning", "--user", "admin", "--pass", "open", *words)
    with cluster:
        yield cluster, cluster.ports[0]


def test_connections_of_a_node() -> None:
    """A till's password takes them all: others are refused until it lets them go."""
    with guarded(maxclients=40) as (cluster, port):
        held = []
        try:
            for _ in range(60):
                held.append(socket.create_connection(("127.0.0.1", port), 5))
                held[-1].sendall(b"*3\r\n$4\r\nAUTH\r\n$6\r\ntill.3\r\n$4\r\nopen\r\n")
            with socket.create_connection(("127.0.0.1", port), 5) as other:
                assert other.recv(100).startswith(b"-ERR max number of clients")
        finally:
            for it in held:
                it.close()
        until = time.monotonic() + 10
        while cluster.ask(port, "PING") != "PONG":
            assert time.monotonic() < until


def test_the_password_of_the_workers() -> None:
    """As Redis itself judges: rows and answers of every lane, and no other key, user or setting."""
    with guarded() as (cluster, port):
        def may(*words: str) -> bool:
            said = cluster.ask(port, "ACL", "DRYRUN", "worker", *words)
            assert said == "OK" or "has no permissions" in said, said
            return said == "OK"

        assert keys.rows("north.0") == "nl:{5}:rows:north.0"  # As docs/REDIS.md has it.
        for lane in ("3", "any"):
            rows, answers = keys.rows(lane), keys.answers(lane)
            assert may("XREADGROUP", "GROUP", "workers", "x", "STREAMS", rows, ">") and may("XDEL", rows, "1-1") and may("XADD", answers, "*", "a", "b")
        for key in ("other", "shop:{3}:rows", "nlx"):
            assert not any(may(*words) for words in (["GET", key], ["SET", key, "x"], ["DEL", key], ["XADD", key, "*", "a", "b"], ["XRANGE", key, "-", "+"], ["XDEL", key, "1-1"]))
        for words in (["ACL", "SETUSER", "x"], ["ACL", "LIST"], ["CONFIG", "SET", "maxmemory", "1"], ["CONFIG", "GET", "*"], ["FLUSHALL"], ["SHUTDOWN"], ["DEBUG", "SLEEP", "9"],
                      ["EVAL", "return 1", "0"], ["REPLICAOF", "x", "1"], ["MODULE", "LIST"], ["KEYS", "*"]):
            assert not may(*words), words


def test_redis_without_rights() -> None:
    """Everybody reads and writes everything."""
    with Cluster(nodes=1) as cluster:
        port = cluster.ports[0]
        assert "-" in ask(port, "XADD", keys.answers("3"), "*", "a", "b") and ask(port, "XLEN", keys.answers("3")) == "1"
        assert ask(port, "CONFIG", "SET", "maxmemory", "100mb") == "OK" and ask(port, "FLUSHALL") == "OK"


@pytest.mark.limit(120)
def test_redis_with_tls(tmp_path: Path) -> None:
    """Who is on the network sees when a row is sent, and reads neither it nor its answer; what it cuts or changes costs a till time, and no answer."""
    make_certificates(tmp_path)
    port, = free_ports(1)
    words = ["redis-server", "--port", "0", "--tls-port", str(port), "--save", "", "--dir", str(tmp_path), "--tls-cert-file", "node.pem", "--tls-key-file", "node.key",
             "--tls-ca-cert-file", "ca.pem", "--tls-auth-clients", "yes"]
    client: list[str | Path] = ["--tls", "--ca", tmp_path / "ca.pem", "--cert", tmp_path / "client.pem", "--key", tmp_path / "client.key"]
    with subprocess.Popen(words, cwd=tmp_path, stdout=subprocess.DEVNULL) as node, Wire(port) as wire:
        address = f"127.0.0.1:{wire.port}"
        parts: list[subprocess.Popen[Any]] = [
            subprocess.Popen([*NORILADLE, "worker", "--redis", address, "--year", "2026", *client], stderr=subprocess.DEVNULL),
            subprocess.Popen([*NORILADLE, "till", "--redis", address, "3", *client], stdin=subprocess.PIPE, stdout=subprocess.PIPE, stderr=subprocess.DEVNULL, text=True)]
        till = parts[1]
        numbers = iter(range(100))

        def asks() -> None:
            till.stdin.write(EAN.decode() + "\n")
            till.stdin.flush()
            assert till.stdout.readline() == f"{next(numbers)} {READ}\n"

        def spoil(piece: bytes) -> bytes:
            if len(piece) > 40:
                wire.change = lambda it: it
                return piece[:-20] + bytes([piece[-20] ^ 1]) + piece[-19:]
            return piece

        try:
            asks()
            begin = time.monotonic()
            asks()
            assert any(begin <= at for at, _ in wire.sent) and not wire.has_seen(b"9501101530003") and not wire.has_seen(b"XADD")
            for _ in range(3):
                wire.cut()
                asks()
                wire.change = spoil
                asks()
        finally:
            for it in parts:
                it.kill()
                it.communicate()
            node.terminate()
