"""Who may do what at a gateway: by the user at the other end of a UNIX socket, by a token, or by a certificate of TLS."""
from __future__ import annotations

import array
import contextlib
import grp
import hashlib
import pwd
import re
import secrets
import socket
import struct
from fnmatch import fnmatchcase
from typing import Dict, Iterator, Set, Tuple

_WHO = re.compile(r"anyone|(user|group|certificate) \S+|token [0-9a-f]{64}")
_WHAT = re.compile(r"()rows|(scan|watch) ([A-Za-z0-9._:*-]{1,64})")
_PEER_GROUPS = 59  # SO_PEERGROUPS, which the module socket does not name.


class Rights(Dict[str, str]):
    """What each client may do, by the table ``rights`` of an option file: ``"user anna" = "rows, watch till-*"``.

    A key is ``anyone``, ``user NAME`` or ``group NAME`` (or its number), ``certificate NAME``, or ``token SUM``; SUM is the
    SHA-256 of the token. A value has ``rows``, ``scan LANE`` and ``watch LANE``; ``*`` in a lane stands for any characters.

    :raises ValueError: an entry is of another form.
    """

    def __setitem__(self, who: str, what: str) -> None:
        if not _WHO.fullmatch(who):
            raise ValueError('who is "anyone", "user NAME", "group NAME", "certificate NAME" or "token SUM"')
        if not all(_WHAT.fullmatch(it.strip()) for it in what.split(",")):
            raise ValueError('what is "rows", "scan LANE" or "watch LANE", with commas between')
        super().__setitem__(who, what)

    def grants(self, names: Set[str], word: str, lane: str = "") -> bool:
        """Whether one of these names has the right, such as ``scan``, in a lane."""
        asked = word if word == "rows" else f"{word} {lane}"
        return any(fnmatchcase(asked, it) for name in names for it in self._of(name))

    def _of(self, name: str) -> Iterator[str]:
        return (it.strip() for it in self.get(name, "").split(","))


def all_rights() -> Rights:
    """The rights without a table: everyone who reaches the gateway may do everything."""
    return Rights(anyone="rows, scan *, watch *")


def new_token() -> Tuple[str, str]:
    """A random token, and its name in a table of rights, which does not reveal it."""
    token = secrets.token_urlsafe(24)
    return token, name_of_token(token)


def name_of_token(token: str) -> str:
    """The name of a token in a table of rights."""
    return f"token {hashlib.sha256(token.encode('utf-8', 'replace')).hexdigest()}"


def unix_peer(its: socket.socket) -> str:
    """Who is at the other end of a UNIX socket, for log lines, as the kernel reports it."""
    pid, user, _ = _credentials(its)
    return f"pid-{pid}:uid-{user}"


def unix_names(its: socket.socket) -> Set[str]:
    """The names in a table of rights of who is at the other end of a UNIX socket: its user and groups when it connected, as the
    kernel reports them."""
    _, user, group = _credentials(its)
    groups = {group}
    with contextlib.suppress(OSError):  # Of a user in more than 256 groups only the first group counts.
        groups |= set(array.array("I", its.getsockopt(socket.SOL_SOCKET, _PEER_GROUPS, 1024)))
    names = {f"user {user}", *(f"group {it}" for it in groups)}
    with contextlib.suppress(KeyError):
        names.add(f"user {pwd.getpwuid(user).pw_name}")
    for number in groups:
        with contextlib.suppress(KeyError):
            names.add(f"group {grp.getgrgid(number).gr_name}")
    return names


def _credentials(its: socket.socket) -> Tuple[int, int, int]:
    """The process, the user and the group at the other end."""
    pid, user, group = struct.unpack("3i", its.getsockopt(socket.SOL_SOCKET, socket.SO_PEERCRED, struct.calcsize("3i")))
    return pid, user, group
