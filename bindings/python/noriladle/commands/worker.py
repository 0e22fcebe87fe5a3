"""Answer the rows that tills submit to Redis

Any number of workers share the rows of all lanes, and one takes over what another has read and not answered. A till is
noriladle till, or a program with noriladle.streams. docs/REDIS.md says what is promised and what Redis must keep, and
docs/OPERATIONS.md how to run it. The password of Redis is in the environment's REDIS_PASSWORD.

  $ noriladle worker --redis 10.0.0.5:6379 --name one
"""
from __future__ import annotations

import argparse
import os
import re
from typing import List, Sequence

from .. import _service
from .._health import Answers, Health, Metrics, serve
from .._lanes import Watch
from .._log import Log
from .._tls import context_of
from ..live import Hub, HubEnded
from ..streams import Shop, Worker, answers, rows
from . import REFUSED, RIGHT, WrongWords

_RIGHTS = """user default off ~* &* +@all
user admin on #HASH ~* &* +@all
user replica on #HASH +psync +replconf +ping
user sentinel on #HASH &* +multi +slaveof +ping +exec +subscribe +config|rewrite +role +publish +info +client|setname +client|kill +script|kill
user worker on #HASH resetchannels ~nl:* +ping +cluster|slots +scan +time +multi +exec +memory|usage +xadd +xlen +xrange +xread \
+xtrim +xack +xdel +xreadgroup +xautoclaim +xgroup|create +xgroup|setid +xgroup|delconsumer +xinfo|groups +xinfo|consumers"""
_RIGHTS_OF_A_TILL = "user till.{lane} on #HASH resetchannels +ping +cluster|slots (+xadd +xrange ~{rows}) (+xread +xtrim ~{answers})"


def add_redis(parser: argparse.ArgumentParser) -> None:
    """Adds the options that say where Redis is."""
    parser.add_argument("--redis", action="append", default=[], metavar="HOST:PORT", help="A node of Redis; name several in case one is down")
    parser.add_argument("--master", metavar="NAME", help="Ask Sentinels: --redis names them, and this the master")
    parser.add_argument("--user", metavar="NAME", help="User of Redis, whose password is in REDIS_PASSWORD [default: REDIS_USER]")
    parser.add_argument("--tls", action="store_true", help="Speak TLS to Redis")
    parser.add_argument("--ca", metavar="FILE", help="Certificates of the authorities to trust for Redis [default: those of the system]")
    parser.add_argument("--cert", metavar="FILE", help="Certificate of this client, for TLS")
    parser.add_argument("--key", metavar="FILE", help="Key of this client, for TLS")


def lane(word: str) -> str:
    """The name of a lane."""
    try:
        rows(word)
    except ValueError as fault:
        raise argparse.ArgumentTypeError(str(fault)) from fault
    return word


def shop_of(words: argparse.Namespace, log: Log) -> Shop:
    """The Redis that the arguments name.

    :raises WrongWords: they name none, or name a file that cannot be read.
    """
    if not words.redis or not all(re.fullmatch(r"\S+:\d{1,5}", it) and int(it.rpartition(":")[2]) < 65_536 for it in words.redis):
        raise WrongWords("name a node of Redis: --redis HOST:PORT")
    if not words.tls and (words.ca or words.cert or words.key):
        raise WrongWords("--ca, --cert and --key are of TLS: add --tls")
    tls = context_of(words.cert, words.key, words.ca) if words.tls else None
    return Shop(words.redis, words.user or os.environ.get("REDIS_USER"), os.environ.get("REDIS_PASSWORD"), tls, log.fault, words.master)


def add_arguments(parser: argparse.ArgumentParser) -> None:
    """Adds the arguments of ``noriladle worker``."""
    add_redis(parser)
    parser.add_argument("--name", default=os.uname().nodename, metavar="NAME", help="The worker's own name [default: the machine's name]")
    parser.add_argument("--acl", nargs="+", type=lane, metavar="LANE", help="Print an ACL file of Redis for workers and these tills, and exit")
    _service.add_arguments(parser)


def run(words: argparse.Namespace) -> int:
    """Works until it is told to stop, or its hub ends."""
    if words.acl:
        print("\n".join([_RIGHTS, *(_RIGHTS_OF_A_TILL.format(lane=it, rows=rows(it), answers=answers(it)) for it in words.acl)]))
        return RIGHT
    return _service.run(words, _run)


async def _run(words: argparse.Namespace, log: Log) -> int:
    shop, hub, of = shop_of(words, log), Hub(1, words.workers, words.year, ais=words.ais, elements=False), Metrics()
    watch, counts = Watch(shop, of), Answers(of)
    worker = Worker(shop, words.name, lambda texts: _answers_to(texts, hub, counts))
    of.count_of("noriladle_rows_dropped_total", "Entries that the worker has removed because they were too long, or for want of room.",
                lambda: worker.dropped)
    _service.when_told_to_stop(setattr, worker, "stopping", True)
    try:
        async with hub:
            health = Health(watch.trip, of)
            is_watched = await serve(words.metrics, health, of, log.fault)
            async with _service.at_work(lambda: hub.lane(0).read(""), *([health.keep(), watch.keep()] if is_watched else [])):
                await worker.run()
        log.note("stopped", worker=worker.name, answers=worker.given, claimed=worker.claimed, dropped=worker.dropped)
        return RIGHT
    except HubEnded as fault:
        log.fault(str(fault))
        return REFUSED


async def _answers_to(texts: Sequence[str], hub: Hub, counts: Answers) -> List[str]:
    """The answers of a hub, which are counted."""
    said = [reply.said async for reply in hub.lane(0).read_all(texts, len(texts))]
    if "refused 35 Spent" in said:
        raise HubEnded("the hub has used all numbers of its lane; start the worker again")
    counts.add(*said)
    return said
