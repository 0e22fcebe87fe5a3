"""Submit rows to Redis, and print their answers

Each line of standard input is a row or the text of a scanner; each line of output is its number, from 0, and its answer.
The password of Redis is in the environment's REDIS_PASSWORD.

  $ noriladle till --redis 10.0.0.5:6379 north.0 < rows
"""
from __future__ import annotations

import argparse
import asyncio
import os
from itertools import chain

from .. import _service
from ..streams import Fault, NoAnswer, Till
from . import REFUSED, RIGHT, tell
from .worker import add_redis, lane, shop_of


def add_arguments(parser: argparse.ArgumentParser) -> None:
    """Adds the arguments of ``noriladle till``."""
    parser.add_argument("lane", type=lane, metavar="LANE", help="Lane of the till, a word such as north.3")
    add_redis(parser)
    parser.add_argument("--patience", type=_service.seconds, metavar="SECONDS",
                        help="Exit with status 1 if no answer comes for this long [default: wait]")


def run(words: argparse.Namespace) -> int:
    """Submits each line, and prints its answer."""
    _service.keep_buffers()
    try:
        return asyncio.run(_run(words))
    except (LookupError, NoAnswer, Fault) as fault:
        tell(f"noriladle till: {fault}")
        return REFUSED


async def _run(words: argparse.Namespace) -> int:
    """Submits the rows that are there and waits for their answers, turn by turn, so no answer waits for a later row."""
    log, rest = _service.Log(), b""
    till = Till(shop_of(words, log), words.lane, patience=words.patience, note=log.fault)
    for some in chain(iter(lambda: os.read(0, 65_536), b""), [b"\n"]):  # The last line may have no end.
        *lines, rest = (rest + some).split(b"\n")
        texts = (line.decode("utf-8", "replace").rstrip("\r") for line in lines)
        async for number, answer in till.read_all(filter(None, texts)):
            print(number, answer, flush=True)
    return RIGHT
