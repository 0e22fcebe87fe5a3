#!/usr/bin/env python3
"""A program that has the password of a till, and writes what no till writes: evil_till.py PORT USER STREAM WHAT SECONDS

WHAT is a word of ENTRIES, which it writes one after the other; `commands`, which asks for whatever stops a node; or `flood SIZE`, rows
of that many bytes by four connections as fast as they go. It prints how many it has written, or how many commands were not refused.
"""
from __future__ import annotations

import random
import socket
import sys
import threading
import time

CHANCE = random.Random(7)
ODD = ["", "-1", "9" * 21, "\n" * 5000, "x" * 1000, "é", "\x00"]
ENTRIES = {
    "odd": lambda: [word for name in "sntx" for word in (name, CHANCE.choice(ODD))],
    "megabyte": lambda: ["s", "e", "n", "0", "t", "x" * 1_000_000],
    "sixty": lambda: [word for n in range(60) for word in (f"f{n}", "x" * 1_000_000)],
    "fields": lambda: [word for n in range(20_000) for word in (f"f{n}", "x")],
    "empty": lambda: ["s", "e", "n", "0", "t", "\n" * 255],
}
COMMANDS = [line.split() for line in """
EVAL while(true)do(end)end 0;EVAL_RO return(1) 0;FUNCTION LIST;SCRIPT FLUSH;DEBUG SLEEP 10;KEYS *;SCAN 0;FLUSHALL;FLUSHDB;SHUTDOWN NOSAVE
CONFIG SET maxmemory 1;CONFIG GET *;CLIENT KILL TYPE normal;CLIENT PAUSE 10000;CLIENT NO-EVICT on;MONITOR;SUBSCRIBE x;WAIT 1 0;MULTI;EXEC
SAVE;BGREWRITEAOF;REPLICAOF NO ONE;FAILOVER;CLUSTER RESET;CLUSTER FORGET x;ACL LIST;ACL SETUSER default on;MIGRATE h 1 x 0 10;SWAPDB 0 1
DEL ROWS;DEL ANSWERS;XADD ANSWERS * s x;XTRIM ROWS MAXLEN 0;XGROUP DESTROY ROWS workers;XGROUP SETID ROWS workers $;XACK ROWS workers 1
XREADGROUP GROUP workers x STREAMS ROWS >;XAUTOCLAIM ROWS workers x 0 0;XDEL ROWS 1;XSETID ROWS 9-9;SET ROWS x;RENAME ROWS x;COPY ROWS x
EXPIRE ROWS 1;DUMP ROWS;RESTORE x 0 x;SORT ROWS;XRANGE ROWS - +;XRANGE ANSWERS - +;XREAD STREAMS ANSWERS 0;XREAD STREAMS ROWS 0
XTRIM ANSWERS MAXLEN 0;XADD ROWS MAXLEN 0 * s e n 0 t 1;XADD ROWS * s e n 0 t 1;CLUSTER SLOTS;PING""".replace("\n", ";").split(";")]
"""Of these, a till may give PING, CLUSTER SLOTS, XADD and XRANGE of its rows, and XREAD and XTRIM of its answers."""


def packed(*words: str) -> bytes:
    """The bytes of a command."""
    parts = [word.encode() for word in words]
    return b"*%d\r\n%b" % (len(parts), b"".join(b"$%d\r\n%b\r\n" % (len(part), part) for part in parts))


def connected(port: str, user: str) -> socket.socket:
    client = socket.create_connection(("127.0.0.1", int(port)))
    client.sendall(packed("AUTH", user, "secret"))
    assert client.recv(100).startswith(b"+OK")
    return client


def flood(port: str, user: str, stream: str, size: int, end: float, told: list[int]) -> None:
    one = packed("XADD", stream, "*", "s", "e", "n", "0", "t", "x" * size)
    block = one * max(1, 65_536 // len(one))
    client = connected(port, user)
    threading.Thread(target=lambda: all(iter(lambda: client.recv(1 << 20), b"")), daemon=True).start()
    while time.monotonic() < end:
        client.sendall(block)
        told.append(len(block) // len(one))


def main() -> None:
    port, user, stream, what, *size, seconds = sys.argv[1:]
    end = time.monotonic() + float(seconds)
    told: list[int] = []
    if what == "flood":
        for _ in range(4):
            threading.Thread(target=flood, args=(port, user, stream, int(size[0]), end, told), daemon=True).start()
        time.sleep(float(seconds))
    else:
        with connected(port, user) as client:
            names = {"ROWS": stream, "ANSWERS": stream.replace(":rows:", ":answers:")}
            some = ([packed(*(names.get(word, word) for word in words)) for words in COMMANDS if words] if what == "commands" else
                    [packed("XADD", stream, "*", *ENTRIES[what]()) for _ in range(20 if what == "odd" else 1)])
            while time.monotonic() < end:
                try:
                    client.sendall(CHANCE.choice(some))
                    told.append(client.recv(1 << 20).startswith((b"$", b"*", b":", b"+")))
                except OSError:  # The node has had enough of it.
                    client = connected(port, user)
                time.sleep(0.0005)
    print(sum(told))


if __name__ == "__main__":
    main()
