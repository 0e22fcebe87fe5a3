"""Certificates of a gateway that are renewed: whatever the files have meanwhile, every client that connects is answered. Needs openssl."""
from __future__ import annotations

import os
import shutil
import signal
import ssl
import subprocess
import time
from pathlib import Path
from typing import Iterator

import pytest

from gateway_and_scanners import ROW, Gateway
from program_and_rows import READ
from test_rights import Authority, speaks

LIMIT = 120


@pytest.fixture
def authority(tmp_path: Path) -> Authority:
    return Authority(tmp_path, "shop")


def pair(authority: Authority, folder: Path, name: str, days: str = "30") -> tuple[Path, Path]:
    """A certificate and its key for localhost, in a folder; with days below 0 it has expired."""
    folder.mkdir()
    key, file, request = folder / "key", folder / "pem", folder / "request"
    subprocess.run(["openssl", "req", "-newkey", "rsa:2048", "-nodes", "-keyout", key, "-out", request, "-subj", f"/CN={name}",
                    "-addext", "subjectAltName=DNS:localhost"], check=True, capture_output=True)
    subprocess.run(["openssl", "x509", "-req", "-in", request, "-CA", authority.file, "-CAkey", authority.file.with_suffix(".key"), "-days", days,
                    "-CAcreateserial", "-copy_extensions", "copy", "-out", file], check=True, capture_output=True)
    return key, file


class Renewed:
    """A gateway whose certificate and key are replaced, and whose standard error is kept."""

    def __init__(self, folder: Path, authority: Authority, days: str = "30") -> None:
        self.authority, self.key, self.file, self.config = authority, folder / "key", folder / "pem", folder / "gateway.toml"
        self.put(*pair(authority, folder / "first", "first", days))
        self.config.write_text(f'key = "{self.key}"\ncert = "{self.file}"\n')
        self.gateway = Gateway(folder, "--metrics", "0", "--config", str(self.config))

    def put(self, key: Path, file: Path) -> None:
        shutil.copy(key, self.key)
        shutil.copy(file, self.file)

    def reload(self) -> None:
        self.gateway.process.send_signal(signal.SIGHUP)
        time.sleep(0.3)

    def name(self) -> str:
        """The name in the certificate that a client gets; a row is answered."""
        with speaks(self.gateway, self.authority) as client:
            assert client.ask(ROW) == f"0 {READ}\n"
            return dict(part[0] for part in client.socket.getpeercert()["subject"])["commonName"]

    def ends(self) -> str:
        """What it has logged."""
        self.gateway.process.terminate()
        said = self.gateway.process.stderr.read()
        self.gateway.process.wait(20)
        return said


@pytest.fixture
def renewed(tmp_path: Path, authority: Authority) -> Iterator[Renewed]:
    it = Renewed(tmp_path, authority)
    yield it
    it.gateway.process.kill()
    it.gateway.process.wait()


def broken(folder: Path, key: Path, file: Path, how: str) -> tuple[Path, Path]:
    """Files of a renewal that is not whole."""
    half = folder / "half"
    half.write_bytes(file.read_bytes()[:400])
    return {"the new certificate and the old key": (folder / "first/key", file), "the new key and the old certificate": (key, folder / "first/pem"),
            "half a certificate": (key, half), "half a key": (half, file), "no certificate": (key, Path("/dev/null")),
            "no key": (Path("/dev/null"), file)}[how]


@pytest.mark.parametrize("how", ["the new certificate and the old key", "the new key and the old certificate", "half a certificate", "half a key",
                                 "no certificate", "no key"])
def test_a_renewal_that_is_not_whole(renewed: Renewed, authority: Authority, tmp_path: Path, how: str) -> None:
    """The old certificate stays, the log and a number say what is wrong; with the other file the new one is there."""
    key, file = pair(authority, tmp_path / "second", "second")
    renewed.put(*broken(tmp_path, key, file, how))
    renewed.reload()
    renewed.gateway.waits_for(config_last_reload_successful=0)
    assert [renewed.name() for _ in range(5)] == ["first"] * 5
    renewed.put(key, file)
    renewed.reload()
    renewed.gateway.waits_for(config_last_reload_successful=1)
    assert [renewed.name() for _ in range(5)] == ["second"] * 5
    said = renewed.ends()
    assert said.count("\n") == 1 and f"{renewed.file}, {renewed.key}: " in said and "the gateway keeps the certificate that it has" in said


def test_a_renewal_that_has_expired(renewed: Renewed, authority: Authority, tmp_path: Path) -> None:
    renewed.put(*pair(authority, tmp_path / "second", "second", "-1"))
    renewed.reload()
    renewed.gateway.waits_for(config_last_reload_successful=0)
    assert renewed.name() == "first"
    assert f"{renewed.file}: the certificate expired on " in renewed.ends()


def test_a_renewal_that_ends_earlier(renewed: Renewed, authority: Authority, tmp_path: Path) -> None:
    """It is taken, and the number of its end with it."""
    renewed.put(*pair(authority, tmp_path / "second", "second", "20"))
    renewed.reload()
    until = time.monotonic() + 20
    while renewed.name() != "second":
        assert time.monotonic() < until
    end = float(renewed.gateway.numbers()["noriladle_certificate_end_timestamp_seconds"])
    assert abs(end - time.time() - 20 * 86_400) < 100


def test_connections_stay_and_no_handshake_fails_while_it_is_renewed(renewed: Renewed, authority: Authority, tmp_path: Path) -> None:
    """Twenty renewals, each by files that do not belong together for a while."""
    pairs = [pair(authority, tmp_path / name, name) for name in ("second", "third")]
    with speaks(renewed.gateway, authority) as stays:
        for number in range(20):
            key, file = pairs[number % 2]
            shutil.copy(file, renewed.file)
            renewed.gateway.process.send_signal(signal.SIGHUP)
            renewed.name()
            shutil.copy(key, renewed.key)
            renewed.gateway.process.send_signal(signal.SIGHUP)
            renewed.name()
        time.sleep(0.3)
        assert renewed.name() == "third"
        assert stays.ask(ROW) == f"0 {READ}\n"


def test_a_renewal_that_comes_slowly(renewed: Renewed, authority: Authority, tmp_path: Path) -> None:
    """Its key lies on a disk that hangs: clients are answered meanwhile, with the certificate that is there."""
    key, file = pair(authority, tmp_path / "second", "second")
    renewed.put(key, file)
    renewed.key.unlink()
    os.mkfifo(renewed.key)
    renewed.reload()
    assert [renewed.name() for _ in range(3)] == ["first"] * 3
    renewed.key.write_bytes(key.read_bytes())
    until = time.monotonic() + 20
    while renewed.name() != "second":
        assert time.monotonic() < until


@pytest.mark.parametrize("days, word", [("-1", "expired"), ("10", "expires")])
def test_an_expired_certificate_is_logged(tmp_path: Path, authority: Authority, days: str, word: str) -> None:
    """At the start and at each reload; a number has its end."""
    renewed = Renewed(tmp_path, authority, days)
    end = float(renewed.gateway.numbers()["noriladle_certificate_end_timestamp_seconds"])
    assert abs(end - time.time() - float(days) * 86_400) < 100
    if days == "-1":
        with pytest.raises(ssl.SSLCertVerificationError, match="expired"):
            renewed.name()
    renewed.reload()
    said = renewed.ends()
    assert said.count(f"the certificate {word} on ") == 2 and "renew it, and reload the service" in said
