#!/usr/bin/env python3
"""A till: prints a line for each scan of its lane. Usage: till.py SOCKET LANE [SECONDS]

SOCKET is the UNIX socket of `noriladle gateway`, or HOST:PORT. A scan that is older than SECONDS (5 unless you give others) is not sold:
its customer may have gone.
"""
import socket
import sys
import time
from typing import Iterator

SILENCE = 8  # The gateway sends a line each 5 seconds. Without one for so long it has gone.


def connect(address: str) -> socket.socket:
    """A connection to a UNIX socket, or to HOST:PORT."""
    host, _, port = address.rpartition(":")
    if host and port.isdecimal():
        return socket.create_connection((host.strip("[]"), int(port)), SILENCE)
    gateway = socket.socket(socket.AF_UNIX)
    gateway.settimeout(SILENCE)
    gateway.connect(address)
    return gateway


def lines(address: str, lane: str) -> Iterator[str]:
    """The lines of the gateway, for ever: connects again whenever the connection ends. A blank line says that it was silent."""
    while True:
        try:
            with connect(address) as gateway:
                gateway.sendall(f"watch {lane} 2\n".encode())
                yield from (line[:-1] for line in gateway.makefile() if line.endswith("\n"))
        except socket.timeout:
            yield ""
        except OSError:
            pass  # It is not there, or has gone.
        time.sleep(0.1)


def main(address: str, lane: str, most: str = "5") -> None:
    next_number = series = None
    for line in lines(address, lane):
        number, _, rest = line.partition(" ")
        at, _, said = rest.partition(" ")
        if not line:
            print(f"again, please: the gateway has said nothing for {SILENCE} seconds", flush=True)
        elif number == "closed:":
            print(line, flush=True)
        if not number.isdecimal():
            continue  # Also of a lane that has had no scanner yet: its number is -.
        age = time.time() - float(at)
        is_next, its_series = said.startswith("next "), said[5:]
        is_other = is_next and series is not None and its_series != series
        if next_number is not None and (int(number) != next_number or is_other):
            lost = 0 if is_other else int(number) - next_number
            print(f"again, please: {lost if lost > 0 else 'some'} scans were lost", flush=True)
        next_number, series = int(number) + (not is_next), its_series if is_next else series
        if is_next:
            continue
        if age > float(most):
            print(f"again, please: {number} is {age:.0f} seconds old: {said}", flush=True)
        elif age < -float(most):
            print(f"again, please: {number}: the clock of this till is {-age:.0f} seconds behind: set it", flush=True)
        elif said.startswith(("refused ", "unread: ")):
            print(f"again, please: {number} {said}", flush=True)
        else:
            print(f"sold: {number} {said}", flush=True)


if __name__ == "__main__":
    main(*sys.argv[1:])
