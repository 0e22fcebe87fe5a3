"""TLS of a port: its certificate and key, which can be renewed while the port is open."""
from __future__ import annotations

import contextlib
import ssl
import time
from typing import Optional, Tuple

from .commands import WrongWords

_PARTIAL_CHAIN, _NO_CHECK_TIME = 0x80000, 0x200000
"""Flags of OpenSSL: a certificate may be trusted by itself, and may have expired."""


class Tls:
    """The TLS of a port. New connections take ``context``.

    :raises WrongWords: the files cannot be read, or are no pair.
    """

    def __init__(self, cert: str, key: str, ca: Optional[str]) -> None:
        self._files = cert, key, ca
        self.context, self.ends = _loaded(*self._files)
        """``ends`` is when the certificate expires, in seconds since 1970."""

    def load_again(self) -> None:
        """Takes the renewed certificate and key, if they work; otherwise keeps those that it has.

        :raises WrongWords: they cannot be read, are no pair, or have expired before those that it has.
        """
        context, ends = _loaded(*self._files)
        if ends < time.time() and ends < self.ends:
            raise WrongWords(f"{self._files[0]}: {expiry(ends)}")
        self.context, self.ends = context, ends

    def is_due(self, seconds: float) -> bool:
        """Whether the certificate expires within this time, or has."""
        return self.ends < time.time() + seconds


def expiry(ends: float) -> str:
    """When a certificate expires or has expired, in words."""
    day = time.strftime("%Y-%m-%d %H:%M UTC", time.gmtime(ends))
    return f"the certificate {'expired' if ends < time.time() else 'expires'} on {day}"


def context_of(
    cert: Optional[str], key: Optional[str], ca: Optional[str], purpose: ssl.Purpose = ssl.Purpose.SERVER_AUTH,
) -> ssl.SSLContext:
    """A context of a client, or for the purpose of a server. A client trusts these authorities, or those of the system.

    :raises WrongWords: the files cannot be read, or certificate and key are no pair.
    """
    try:
        context = ssl.create_default_context(purpose, cafile=ca)
        context.minimum_version = ssl.TLSVersion.TLSv1_2
        if cert:
            context.load_cert_chain(cert, key)
    except OSError as fault:  # ssl.SSLError is one.
        pair = ", ".join(filter(None, (cert, key)))
        raise WrongWords(f"{' or '.join(filter(None, (pair, ca)))}: {fault.strerror or fault}") from fault
    return context


def _loaded(cert: str, key: str, ca: Optional[str]) -> Tuple[ssl.SSLContext, float]:
    """A context of its own, which has made a handshake, and when its certificate expires."""
    context = context_of(cert, key, ca, ssl.Purpose.CLIENT_AUTH)
    try:
        ends = _end_of(context, cert)
    except OSError as fault:
        raise WrongWords(f"{cert}: {fault.strerror or fault}") from fault
    if ca:
        context.verify_mode = ssl.CERT_REQUIRED
    return context, ends


def _end_of(server: ssl.SSLContext, cert: str) -> float:
    """When the certificate of a context expires, by a handshake in memory.

    :raises ssl.SSLError: the handshake fails.
    """
    context = ssl.SSLContext(ssl.PROTOCOL_TLS_CLIENT)
    context.check_hostname = False
    context.verify_flags = ssl.VerifyFlags(_PARTIAL_CHAIN | _NO_CHECK_TIME)
    context.load_verify_locations(cert)
    to_client, to_server = ssl.MemoryBIO(), ssl.MemoryBIO()
    client = context.wrap_bio(to_client, to_server)
    ends = client, server.wrap_bio(to_server, to_client, server_side=True)
    for _ in range(3):
        for end in ends:
            with contextlib.suppress(ssl.SSLWantReadError):
                end.do_handshake()
    found = client.getpeercert() or {}
    return float(ssl.cert_time_to_seconds(str(found["notAfter"])))
