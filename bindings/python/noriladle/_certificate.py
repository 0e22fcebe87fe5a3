"""The certificate by which this machine serves the page in the local network. It is made once for each address."""
from __future__ import annotations

import hashlib
import os
import shutil
import ssl
import subprocess
import time
from pathlib import Path
from typing import NamedTuple

DAYS = 800
"""How long a certificate is valid. Telephones refuse one of more than 825 days."""
_LEFT = 30 * 86400
"""A certificate that ends within these seconds is made anew."""

# It is its own authority, since only such a certificate can be installed on telephones, and only for this address.
_REQUEST = """\
[req]
distinguished_name = name
x509_extensions = extensions
prompt = no
[name]
CN = Noriladle on {address}
[extensions]
basicConstraints = critical, CA:TRUE, pathlen:0
keyUsage = critical, digitalSignature, keyCertSign
extendedKeyUsage = serverAuth
subjectAltName = IP:{address}
nameConstraints = critical, permitted;IP:{address}/255.255.255.255
subjectKeyIdentifier = hash
"""


class NoCertificate(Exception):
    """Why there is no certificate, and what to do."""


class Certificate(NamedTuple):
    """The files of a certificate and of its key."""

    certificate: Path
    key: Path

    def fingerprint(self) -> str:
        """The SHA-256 of the certificate, as telephones and browsers show it."""
        told = hashlib.sha256(ssl.PEM_cert_to_DER_cert(self.certificate.read_text("ascii"))).hexdigest().upper()
        return ":".join(told[at:at + 2] for at in range(0, len(told), 2))

    def context(self) -> ssl.SSLContext:
        """What serves TLS by it.

        :raises OSError: the files do not fit, or cannot be read.
        """
        context = ssl.SSLContext(ssl.PROTOCOL_TLS_SERVER)
        context.minimum_version = ssl.TLSVersion.TLSv1_2
        context.load_cert_chain(self.certificate, self.key)
        return context


def data_folder() -> Path:
    """The folder of the user's data."""
    return Path(os.environ.get("XDG_DATA_HOME") or os.path.expanduser("~/.local/share"), "noriladle")


def certificate_of(address: str) -> Certificate:
    """The certificate of an address of IPv4. If there is none that serves, it is made and kept, its key with mode 0600.

    :raises NoCertificate: it cannot be made.
    :raises OSError: it cannot be kept.
    """
    folder = data_folder()
    folder.mkdir(0o700, parents=True, exist_ok=True)
    found = Certificate(folder / f"page-{address}.crt", folder / f"page-{address}.key")
    if not _serves(found):
        made = _made(address)
        for path, text in ((found.key, made[0]), (found.certificate, made[1])):
            _put(path, text)
    return found


def _serves(found: Certificate) -> bool:
    """Whether a certificate is there, fits its key, which others cannot read, and is valid for a while."""
    try:
        found.context()
        told = ssl.create_default_context(cafile=str(found.certificate)).get_ca_certs()
        begins, ends = (ssl.cert_time_to_seconds(str(told[0][name])) for name in ("notBefore", "notAfter"))
        return begins <= time.time() < ends - _LEFT and not found.key.stat().st_mode & 0o077
    except (OSError, IndexError, KeyError, ValueError):
        return False


def _made(address: str) -> "tuple[str, str]":
    """A new key and its certificate."""
    if not shutil.which("openssl"):
        raise NoCertificate("--share needs openssl for a certificate: apt-get install openssl")
    words = ["openssl", "req", "-x509", "-newkey", "ec", "-pkeyopt", "ec_paramgen_curve:P-256", "-nodes", "-days", str(DAYS),
             "-config", "/dev/stdin", "-keyout", "/dev/stdout", "-out", "/dev/stdout"]
    run = subprocess.run(words, input=_REQUEST.format(address=address), capture_output=True, text=True, check=False)
    key, mark, certificate = run.stdout.partition("-----BEGIN CERTIFICATE-----")
    if run.returncode or not mark:
        raise NoCertificate(f"openssl made no certificate: {(run.stderr.strip().splitlines() or ['it said nothing'])[-1]}")
    return key, mark + certificate


def _put(path: Path, text: str) -> None:
    """Puts a file in its place by a rename, which nobody else can read."""
    new = path.with_name(f".{path.name}.{os.getpid()}")
    try:
        with open(os.open(new, os.O_WRONLY | os.O_CREAT | os.O_EXCL, 0o600), "w", encoding="ascii") as file:
            file.write(text)
        os.replace(new, path)
    except BaseException:
        new.unlink(missing_ok=True)
        raise
