"""Who may do what at a gateway: users and groups over the UNIX socket, tokens, certificates of TLS, and pages. Needs openssl and root, since
it asks as other users; else that part is skipped."""
from __future__ import annotations

import asyncio
import os
import pwd
import signal
import socket
import ssl
import subprocess
import sys
import tempfile
import time
from pathlib import Path
from typing import Iterator

import pytest

from gateway_and_scanners import NORILADLE, ROW, Client, Gateway
from program_and_rows import READ

LIMIT = 120
NEXT = "0 next\n"
ASK = "import socket, sys; it = socket.socket(socket.AF_UNIX); it.connect(sys.argv[1]); it.sendall(sys.argv[2].encode() + b'\\n'); " \
      "print(it.makefile().readline(), end='')"


@pytest.fixture
def open_folder() -> Iterator[Path]:
    """A folder that every user reaches."""
    with tempfile.TemporaryDirectory(dir="/tmp") as folder:
        os.chmod(folder, 0o755)
        yield Path(folder)


def rights(folder: Path, *lines: str) -> list[str]:
    """A file of options with these lines of its table."""
    file = folder / "gateway.toml"
    file.write_text("\n".join(["[rights]", *lines, ""]))
    return ["--config", str(file)]


def may_not(what: str) -> str:
    return f"closed: no right to {what}\n"


@pytest.mark.skipif(os.geteuid() != 0, reason="only root asks as other users")
def test_users_and_groups(open_folder: Path) -> None:
    """By the kernel's word, whatever a client says of itself; groups beside the first one count too."""
    words = rights(open_folder, '"user 4711" = "watch till-1"', '"group 4712" = "scan till-*"', '"user nobody" = "rows, watch *"')
    with Gateway(open_folder, *words) as gateway:
        os.chmod(gateway.unix, 0o666)

        def asked(user: int, group: int, groups: list[int], line: str) -> str:
            told = subprocess.run([sys.executable, "-c", ASK, gateway.unix, line], stdout=subprocess.PIPE, text=True, timeout=20,
                                  user=user, group=group, extra_groups=groups)
            return told.stdout

        nobody = pwd.getpwnam("nobody").pw_uid
        # Somebody scans there first, so a till that watches gets the next number at once.
        assert asked(4714, 4712, [], "scan till-1\n0") == NEXT
        cases: list[tuple[int, int, list[int], str, str]] = [
            (4711, 4713, [], "watch till-1", NEXT),
            (4711, 4713, [], "watch till-2", may_not("watch till-2")),
            (4711, 4713, [], "scan till-1", may_not("scan till-1")),
            (4711, 4713, [], ROW.decode().strip(), may_not("rows")),
            (4714, 4713, [4715, 4712], "scan till-9", NEXT),
            (4714, 4713, [4715], "scan till-9", may_not("scan till-9")),
            (4714, 4712, [], "scan other", may_not("scan other")),
            (4712, 4711, [], "watch till-1", may_not("watch till-1")),
            (4712, 4711, [], "scan till-1", may_not("scan till-1")),
            (nobody, 4713, [], ROW.decode().strip(), f"0 {READ}\n"),
            (nobody, 4713, [], "watch till-1", NEXT),
            (0, 0, [], "watch till-1", may_not("watch till-1")),
        ]
        for user, group, groups, line, wanted in cases:
            assert asked(user, group, groups, line) == wanted, (user, group, groups, line)


def new_token() -> tuple[str, str]:
    """A token, and its name in the table."""
    token, line = subprocess.run([*NORILADLE, "gateway", "--token"], capture_output=True, text=True, check=True).stdout.splitlines()
    name, _, what = line.partition(" = ")
    assert what == '"watch LANE"'
    return token, name


def first_line(gateway: Gateway, *pieces: str) -> str:
    """The first line that a client over TCP gets after it has sent these."""
    with gateway.connect() as client:
        for piece in pieces:
            client.send(piece.encode())
            time.sleep(0.05)
        return client.line()


def test_tokens(tmp_path: Path) -> None:
    (one, its), (two, other) = new_token(), new_token()
    assert one != two and one not in its
    with Gateway(tmp_path, *rights(tmp_path, f'{its} = "rows, scan till-1, watch *"', f'{other} = "watch till-1"')) as gateway:
        row = ROW.decode()
        with gateway.connect() as scanner:
            scanner.send(f"token {one}\nscan till-1\n0\n".encode())
            assert scanner.line() == NEXT
            for pieces, wanted in [
                ([f"token {one}\n{row}"], f"0 {READ}\n"),
                ([f"token {one}\r\n", row], f"0 {READ}\n"),
                ([f"token {one[:5]}", f"{one[5:]}\n", "watch till-1\n"], NEXT),
                ([f"token {two}\nwatch till-1\n"], NEXT),
                ([f"token {two}\nwatch till-2\n"], may_not("watch till-2")),
                ([f"token {two}\n{row}"], may_not("rows")),
                ([f"token {two}\ntoken {one}\n{row}"], may_not("rows")),  # The second is no row.
                ([row], may_not("rows")),
                (["watch till-1\n"], may_not("watch till-1")),
                (["token \nwatch till-1\n"], "closed: this token has no rights\n"),
                ([f"token {its[7:-1]}\nwatch till-1\n"], "closed: this token has no rights\n"),
                ([f"token {one}x\n{row}"], "closed: this token has no rights\n"),
            ]:
                assert first_line(gateway, *pieces) == wanted, pieces


def test_rights_that_are_taken_back(tmp_path: Path) -> None:
    """SIGHUP closes who has lost them, and no other; who has got some may use them at once."""
    (one, its), (two, other) = new_token(), new_token()
    words = rights(tmp_path, f'{its} = "watch till-1"', f'{other} = "watch till-1"')
    with Gateway(tmp_path, *words) as gateway, gateway.connect() as leaves, gateway.connect() as stays:
        leaves.send(f"token {one}\nwatch till-1\n".encode())
        stays.send(f"token {two}\nwatch till-1\n".encode())
        time.sleep(0.2)
        rights(tmp_path, f'{other} = "watch till-1, scan till-1"')
        gateway.process.send_signal(signal.SIGHUP)
        assert leaves.line() == may_not("watch till-1")
        with gateway.connect() as scanner:
            assert scanner.ask(f"token {two}\nscan till-1\n0\n".encode()) == NEXT
        assert stays.line() == NEXT


def test_pages(tmp_path: Path) -> None:
    """A page has the rights of its token."""
    websockets = pytest.importorskip("websockets")
    token, name = new_token()
    with Gateway(tmp_path, "--web", "0", *rights(tmp_path, f'{name} = "watch till-1, scan till-1"')) as gateway:
        async def told(path: str) -> str:
            """The first line, or why the page is closed."""
            async with websockets.connect(f"ws://127.0.0.1:{gateway.ports['web']}{path}") as page:
                try:
                    return await asyncio.wait_for(page.recv(), 10)
                except websockets.ConnectionClosed as closed:
                    return closed.reason if hasattr(closed, "reason") else closed.rcvd.reason

        async def taken_back() -> str:
            async with websockets.connect(f"ws://127.0.0.1:{gateway.ports['web']}/till-1?token={token}") as page:
                assert await page.recv() == "0 next"
                rights(tmp_path, '"user 0" = "rows"')
                gateway.process.send_signal(signal.SIGHUP)
                await asyncio.wait_for(page.wait_closed(), 10)
                return page.close_reason

        with gateway.connect() as scanner:
            assert scanner.ask(f"token {token}\nscan till-1\n0\n".encode()) == NEXT
            assert asyncio.run(told(f"/till-1?token={token}")) == "0 next"
            assert asyncio.run(told("/till-1")) == "no right to watch till-1"
            assert asyncio.run(told(f"/till-2?token={token}")) == "no right to watch till-2"
            assert asyncio.run(told("/till-1?token=x")) == "this token has no rights"
            assert asyncio.run(told(f"/{'%E2%82%AC' * 60}")) == f"no right to watch {'€' * 34}"
            assert asyncio.run(taken_back()) == "no right to watch till-1"


class Authority:
    """An authority of certificates, by openssl."""

    def __init__(self, folder: Path, name: str) -> None:
        self.folder, self.file = folder, folder / f"{name}.pem"
        self._make(name, "-x509", "-days", "2")

    def _make(self, name: str, *words: str) -> tuple[Path, Path]:
        key, file = self.folder / f"{name}.key", self.folder / f"{name}.pem"
        subprocess.run(["openssl", "req", "-newkey", "ec", "-pkeyopt", "ec_paramgen_curve:prime256v1", "-nodes", "-keyout", key, "-out", file,
                        "-subj", f"/CN={name}", *words], check=True, capture_output=True)
        return key, file

    def issue(self, name: str) -> tuple[Path, Path]:
        """The key of a certificate of it for a name, and its file."""
        key, request = self._make(name, "-addext", "subjectAltName=DNS:localhost")
        made = subprocess.run(["openssl", "x509", "-req", "-in", request, "-CA", self.file, "-CAkey", self.file.with_suffix(".key"),
                               "-CAcreateserial", "-copy_extensions", "copy"], check=True, capture_output=True)
        request.write_bytes(made.stdout)
        return key, request


def speaks(gateway: Gateway, authority: Authority, client: tuple[Path, Path] | None = None, is_old: bool = False) -> Client:
    """A client over TLS, which trusts an authority and may have a key and a certificate; an old one knows TLS 1.1 at most."""
    context = ssl.create_default_context(cafile=authority.file)
    if is_old:
        context.set_ciphers("ALL:@SECLEVEL=0")
        context.minimum_version, context.maximum_version = ssl.TLSVersion.TLSv1, ssl.TLSVersion.TLSv1_1
    if client:
        context.load_cert_chain(client[1], client[0])
    it = Client(("127.0.0.1", gateway.ports["port"]))
    it.lines.close()
    it.socket = context.wrap_socket(it.socket, server_hostname="localhost")
    it.lines = it.socket.makefile("rb")
    return it


def serial(gateway: Gateway, authority: Authority, client: tuple[Path, Path] | None = None) -> str:
    """The number of the certificate that a client gets."""
    with speaks(gateway, authority, client) as its:
        return its.socket.getpeercert()["serialNumber"]


@pytest.fixture
def authority(tmp_path: Path) -> Authority:
    return Authority(tmp_path, "shop")


@pytest.mark.filterwarnings("ignore::DeprecationWarning")
def test_tls(tmp_path: Path, authority: Authority) -> None:
    """Rows and answers as without; nobody else is answered, and the UNIX socket needs none."""
    key, file = authority.issue("gateway")
    with Gateway(tmp_path, "--key", str(key), "--cert", str(file)) as gateway:
        with speaks(gateway, authority) as client, gateway.unix_client() as here:
            for number in range(500):
                assert client.ask(ROW) == f"{number} {READ}\n"
            assert here.ask(ROW) == f"0 {READ}\n"
            assert client.socket.version() in ("TLSv1.2", "TLSv1.3")
        with pytest.raises(ssl.SSLCertVerificationError):
            speaks(gateway, Authority(tmp_path, "another"))
        with pytest.raises(ssl.SSLError, match="EOF|ALERT_PROTOCOL_VERSION"):
            speaks(gateway, authority, is_old=True)
        # Whoever speaks no TLS is answered nothing.
        for sent in (ROW, b"\x16\x03\x01" + b"\xff" * 1000, b""):
            with gateway.connect() as client:
                client.send(sent)
                client.socket.shutdown(socket.SHUT_WR)
                try:
                    assert READ.encode() not in client.lines.read()
                except OSError:
                    pass


def test_a_certificate_is_renewed(tmp_path: Path, authority: Authority) -> None:
    key, file = authority.issue("gateway")
    options = tmp_path / "gateway.toml"
    options.write_text(f'key = "{key}"\ncert = "{file}"\n')
    with Gateway(tmp_path, "--config", str(options)) as gateway, speaks(gateway, authority) as client:
        first = serial(gateway, authority)
        authority.issue("gateway")
        gateway.process.send_signal(signal.SIGHUP)
        until = time.monotonic() + 10
        while serial(gateway, authority) == first:
            assert time.monotonic() < until
        assert client.ask(ROW) == f"0 {READ}\n"


def test_certificates_of_clients(tmp_path: Path, authority: Authority) -> None:
    """With --ca none is let in without one, and the name in it is a name in the table of rights."""
    key, file = authority.issue("gateway")
    till, another = authority.issue("till-1"), authority.issue("till-2")
    words = ["--key", str(key), "--cert", str(file), "--ca", str(authority.file)]
    with Gateway(tmp_path, *words, *rights(tmp_path, '"certificate till-1" = "scan till-1"')) as gateway:
        first = serial(gateway, authority, till)
        with speaks(gateway, authority, till) as client:
            assert client.ask(b"scan till-1\n") == NEXT
        with speaks(gateway, authority, another) as client:
            assert client.ask(b"scan till-1\n") == may_not("scan till-1")
        foreign = Authority(tmp_path, "another").issue("till-1")
        for its in (None, foreign):
            with pytest.raises(OSError), speaks(gateway, authority, its) as client:
                assert client.ask(b"scan till-1\n") == ""
                raise OSError("closed without a word")
        # A renewed certificate asks for theirs too.
        authority.issue("gateway")
        gateway.process.send_signal(signal.SIGHUP)
        until = time.monotonic() + 10
        while serial(gateway, authority, till) == first:
            assert time.monotonic() < until
        with pytest.raises(OSError), speaks(gateway, authority) as client:
            assert client.ask(b"scan till-1\n") == ""
            raise OSError("closed without a word")


@pytest.mark.limit(40)
def test_clients_that_never_begin_tls(tmp_path: Path, authority: Authority) -> None:
    """They hold up no other, and are closed after five seconds."""
    key, file = authority.issue("gateway")
    with Gateway(tmp_path, "--key", str(key), "--cert", str(file), "--each", "500", "--connections", "500") as gateway:
        silent = [gateway.connect() for _ in range(300)]
        with speaks(gateway, authority) as client, gateway.unix_client() as here:
            assert client.ask(ROW) == f"0 {READ}\n" and here.ask(ROW) == f"0 {READ}\n"
        begin = time.monotonic()
        for client in silent:
            assert client.lines.read() == b""
            client.__exit__()
        assert time.monotonic() - begin < 15


def test_handshakes_that_fail_keep_no_place(tmp_path: Path, authority: Authority) -> None:
    """And who has no place over TLS gets no line, which would be no TLS."""
    key, file = authority.issue("gateway")
    with Gateway(tmp_path, "--key", str(key), "--cert", str(file), "--each", "4", "--metrics", "0") as gateway:
        for _ in range(8):
            with gateway.connect() as client:
                client.send(b"no handshake\n")
                assert b"closed" not in client.lines.read()
            gateway.waits_for(connections=0)
        held = [gateway.connect() for _ in range(4)]
        with gateway.connect() as late:
            assert late.lines.read() == b""
        for client in held:
            client.__exit__()
        gateway.waits_for(connections=0)
        with speaks(gateway, authority) as client:
            assert client.ask(ROW) == f"0 {READ}\n"


@pytest.mark.parametrize("words, wanted", [
    (["--cert", "gateway.pem"], "noriladle: --cert and --key belong together, and --ca to both\n"),
    (["--ca", "shop.pem"], "noriladle: --cert and --key belong together, and --ca to both\n"),
    (["--cert", "none.pem", "--key", "none.key"], "noriladle: none.pem, none.key: No such file or directory\n"),
    (["--cert", "/dev/null", "--key", "/dev/null"], "noriladle: /dev/null, /dev/null: "),
])
def test_words_of_tls(words: list[str], wanted: str) -> None:
    ran = subprocess.run([*NORILADLE, "gateway", "--port", "0", *words], capture_output=True, text=True)
    assert ran.returncode == 2 and ran.stderr.startswith(wanted) and "Traceback" not in ran.stderr
