"""Bad input and full stores: what Redis, `noriladle worker` and tills do."""
from __future__ import annotations

import asyncio
import hashlib
import os
import re
import socket
import subprocess
import threading
import time
from pathlib import Path
from typing import Any, Callable, Iterator, Sequence

import pytest

from workers_and_tills import LANES, NORILADLE, Shop, Till, Worker, Workers, entries, keys, nothing_left, read_lane, read_lanes, rows_of
from redis_cluster import Cluster, Preloaded, ask
from noriladle.streams import Fault
from program_and_rows import EAN13, READ, noise

LIMIT = 600
ROWS, ANSWERS = keys.rows("3"), keys.answers("3")
NO_ROWS = {
    "": "18 BadRuns", "3,100": "39 Csv", "no row": "18 BadRuns", "5 3": "18 BadRuns", "70000": "17 TooWide",
    "1\n2": "18 BadRuns", "\u20ac": "18 BadRuns", "1 " * 40_000: "44 InputSize", "1 " * 5_000_000: "44 InputSize",
    "100": "19 Blank",
}
TEXTS = {"]C110A,B^21C": "]C1 (10)A,B(21)C", "9501101530003": "- (01)09501101530003", "]E09501101530004": "refused 3 CheckDigit"}


def beside(lane: str) -> list[str]:
    """Other lanes in the shard of a lane."""
    return [it for it in map(str, range(200)) if keys.rows(it)[:6] == keys.rows(lane)[:6] and it != lane]


@pytest.mark.limit(40)
def test_what_is_no_row_has_one_answer_too() -> None:
    with Cluster() as cluster, Workers(cluster.address, 1) as workers:
        got = asyncio.run(read_lane(cluster.address, "3", [EAN13, *NO_ROWS, *TEXTS, EAN13]))
        assert got == [READ, *(f"refused {fault}" for fault in NO_ROWS.values()), *TEXTS.values(), READ]
        workers.end()


@pytest.mark.limit(40)
def test_many_long_rows() -> None:
    """An entry of Redis takes 1 MB: rows of the largest length go in entries of their own."""
    texts = ["]E0" + "9" * 65_000 for _ in range(300)] + ["\U0001f600" * 65_537] * 3 + [EAN13]
    with Cluster(nodes=1) as cluster, Workers(cluster.address, 1) as workers:
        got = asyncio.run(read_lane(cluster.address, "3", texts))
        assert got == ["refused 1 Length"] * 300 + ["refused 44 InputSize"] * 3 + [READ]
        workers.end()


@pytest.mark.limit(40)
def test_entries_that_are_no_rows() -> None:
    """Behind the till's back: other fields, bytes that are no text, fields of one name, numbers that are none. Each is answered or
    dropped, none stops the lane, and the till is given none of the answers."""
    strange: list[list[Any]] = [["x", "y"], ["t", b"\xff\xfe\x01"], ["t", "100", "t", EAN13], ["s", "", "n", "", "t", ""], ["n", "-1", "t", "100"],
               ["s", "9" * 1000, "n", "9" * 1000, "t", "100"], ["s", "e", "n", "0", "t", "\n" * 5000], ["s", "e", "n", "\u00b2", "t", "1"]]
    with Cluster(nodes=1) as cluster, Workers(cluster.address, 1) as workers:
        async def test() -> None:
            shop = Shop(cluster.address)
            till = Till(shop, "3")
            assert await till.read(EAN13) == READ
            strange.append(["s", till.series, "n", "1", "t", "100"])  # Another row under the name of its next one.
            strange.append(["s", till.series, "n", "9" * 19, "t", "100"])
            for words in strange:
                add = ["redis-cli", "-p", str(cluster.ports[0]), "XADD", ROWS, "*", *words]
                assert subprocess.run(add, capture_output=True, check=True).stdout.strip()
            # And what is no answer, as if by somebody with the password of the workers.
            for words in (["x", "y"], ["s", till.series], ["s", till.series, "n", "1"], ["s", till.series, "n", "\u0661", "a", ""]):
                ask(cluster.ports[0], "XADD", ANSWERS, "*", *words)
            assert [await till.read(EAN13) for _ in range(5)] == [READ] * 5 and till.number == 6
            await asyncio.sleep(1)
            await shop.close()

        asyncio.run(test())
        nothing_left(cluster.address, ["3"])
        said = [of.get("a", "").split("\n") for _, of in asyncio.run(entries(cluster.address, ANSWERS))]
        assert max(map(len, said)) == 256 and sum(map(len, said)) < 300
        workers.end()


@pytest.mark.limit(40)
def test_no_answer_waits_for_a_later_row() -> None:
    """The command gets each row after the answer to the one before, and a blank line; the last has no line end."""
    with Cluster(nodes=1) as cluster, Workers(cluster.address, 1):
        words = [*NORILADLE, "till", "--redis", cluster.address, "3"]
        with subprocess.Popen(words, stdin=subprocess.PIPE, stdout=subprocess.PIPE, text=True) as till:
            for number in range(20):
                till.stdin.write(f"{EAN13}\r\n\r\n")
                till.stdin.flush()
                assert till.stdout.readline() == f"{number} {READ}\n"
            assert till.communicate("100", timeout=10)[0] == "20 refused 19 Blank\n"
        ran = subprocess.run(words, input=b"\xff\n100\r\n", capture_output=True, timeout=10)
        assert (ran.returncode, ran.stdout) == (0, b"0 refused 18 BadRuns\n1 refused 19 Blank\n")


def locked(cluster: Cluster, *lanes: str) -> str:
    """Gives the nodes the users of `noriladle worker --acl`, with the password open, as a file that survives a restart."""
    told = subprocess.run([*NORILADLE, "worker", "--acl", *lanes], capture_output=True, text=True, check=True).stdout
    file = cluster.root / "users.acl"
    file.write_text(told.replace("#HASH", "#" + hashlib.sha256(b"open").hexdigest()))
    return told


def let_in(cluster: Cluster, *lanes: str) -> None:
    """Gives a node that runs these users."""
    for line in locked(cluster, *lanes).splitlines()[1:]:
        words = line.replace("#HASH", ">open").replace("(", " (").split("(")
        rules = [*words[0].split(), *("(" + it.strip() for it in words[1:])]
        assert ask(cluster.ports[0], "ACL", "SETUSER", *rules[1:]) == "OK", rules


@pytest.mark.limit(60)
def test_users_write_what_is_theirs() -> None:
    """By the rights of `noriladle worker --acl`, also after the nodes are started again; nobody else does anything."""
    cluster = Cluster(more="")
    told = locked(cluster, "3")
    cluster.more = f"aclfile {cluster.root}/users.acl\n"
    assert [line.split()[1] for line in told.splitlines()] == ["default", "admin", "replica", "sentinel", "worker", "till.3"]
    assert told.startswith("user default off ")
    real_ask = ask
    nodes: Any = cluster
    nodes.ask = lambda port, *words: real_ask(port, "--no-auth-warning", "--user", "admin", "--pass", "open", *words)
    with cluster:
        async def test() -> None:
            worker, till = (keys.Shop([cluster.address], name, "open", note=notes.append) for name in ("worker", "till.3"))

            async def answer(texts: Sequence[str]) -> list[str]:
                return [READ] * len(texts)

            one = Worker(worker, "one", answer)
            running = asyncio.create_task(one.run())
            assert len([answer async for _, answer in Till(till, "3").read_all(["100"] * 600)]) == 600
            # A lane that its till may not write.
            with pytest.raises(Fault, match="^NOPERM"):
                await Till(till, "4").read(EAN13)
            with pytest.raises(Fault, match="^WRONGPASS"):
                await Till(Shop(cluster.address, "till.3", "wrong"), "3").read(EAN13)
            with pytest.raises(Fault, match="^NOAUTH"):
                await Till(Shop(cluster.address), "3").read(EAN13)
            one.stopping = True
            await running
            await till.close()
            await worker.close()

        def lengths() -> list[str]:
            """How many entries of rows and of answers there are."""
            return [cluster.ask(cluster.holder(ROWS), "XLEN", it) for it in (ROWS, ANSWERS)]

        notes: list[str] = []
        asyncio.run(test())
        before = lengths()
        assert before[0] == "0" != before[1]
        for port in cluster.ports:
            assert ask(port, "PING") == "NOAUTH Authentication required."
            cluster.kill(port)
            cluster.start(port)
            assert ask(port, "PING") == "NOAUTH Authentication required."
        cluster.wait()
        assert lengths() == before
        asyncio.run(test())
        assert notes == []


@pytest.mark.limit(60)
def test_what_the_password_of_a_till_may_do() -> None:
    """Of all commands, with the lane's own keys and with those of another, as Redis itself judges: what a till needs."""
    other = "nl:{5}:rows:4", "nl:{5}:answers:4", "shop:{3}:rows", "nl:x"
    with Cluster(nodes=1) as cluster:
        port = cluster.ports[0]
        let_in(cluster, "3")
        asked: list[tuple[str, str, Any]] = [
            (command, key, words) for command in ask(port, "COMMAND", "LIST").split() for key in (ROWS, ANSWERS, *other)
            for words in ([key, "*", "a", "b"], [key, "1", "2", "3"], ["STREAMS", key, "0"], ["1", key], [key], [])]

        async def test() -> set[tuple[str, str]]:
            shop = Shop(cluster.address)
            dry = [["ACL", "DRYRUN", "till.3", *command.split("|"), *words] for command, _, words in asked]
            told = [said for at in range(0, len(dry), 500) for said in await shop.ask_all(ROWS, dry[at:at + 500])]
            await shop.close()
            return {(command, key if words else "") for (command, key, words), said in zip(asked, told)
                    if said == "OK" and (command != "xread" or words[:1] == ["STREAMS"])}

        allowed = asyncio.run(test())
        assert {(name, key) for name, key in allowed if key in other and name not in ("ping", "auth", "hello", "quit", "reset")} == set()
        mine = {(name, key) for name, key in allowed if key in (ROWS, ANSWERS) and name not in ("ping", "auth", "hello", "quit", "reset")}
        assert mine == {("xadd", ROWS), ("xrange", ROWS), ("xread", ANSWERS), ("xtrim", ANSWERS)}
        assert {name for name, key in allowed if not key} <= {"ping", "auth", "hello", "quit", "reset", "cluster|slots"}


def test_what_the_password_of_a_worker_may_not_do() -> None:
    """It reaches streams of lanes alone, and neither removes a key nor changes, stops or searches the node."""
    with Cluster(nodes=1) as cluster:
        let_in(cluster, "3")
        for words in """FLUSHALL;DEL ROWS;UNLINK ROWS;SET ROWS x;GET ROWS;EXPIRE ROWS 1;RENAME ROWS x;KEYS *;CONFIG GET *;SHUTDOWN;EVAL x 0;ACL LIST;
                CLIENT LIST;MONITOR;DEBUG SLEEP 1;REPLICAOF NO ONE;XADD x * a b;XGROUP DESTROY ROWS workers;XSETID ROWS 9-9""".split(";"):
            said = ask(cluster.ports[0], "ACL", "DRYRUN", "worker", *words.replace("ROWS", ROWS).split())
            assert "has no permissions to" in said, (words, said)
        for words in """XACK ROWS workers 1-0;XGROUP CREATE ROWS workers 0;XGROUP SETID ROWS workers 0;XGROUP DELCONSUMER ROWS workers one
                XINFO GROUPS ROWS;XINFO CONSUMERS ROWS workers;XLEN ROWS;MEMORY USAGE ROWS;SCAN 0;TIME;MULTI;EXEC;XREAD STREAMS ROWS 0
                XAUTOCLAIM ROWS workers one 0 0;XTRIM ROWS MAXLEN 0;XDEL ROWS 1-0""".replace("\n", ";").split(";"):
            assert ask(cluster.ports[0], "ACL", "DRYRUN", "worker", *words.replace("ROWS", ROWS).split()) == "OK", words


@pytest.mark.limit(60)
def test_one_lane_without_a_right() -> None:
    """Its rows wait, an operator is told, and the other lanes go on; also if a worker may read it, and not write its answers."""
    with Cluster(nodes=1) as cluster:
        port = cluster.ports[0]
        common = ["+@all", "resetchannels", "on", ">open"]
        lane, half, good = twins = beside("3")[:3]
        told: list[str] = []

        async def test() -> None:
            worker = keys.Shop([cluster.address], "worker", "open", note=told.append)

            async def answer(texts: Sequence[str]) -> list[str]:
                return [READ] * len(texts)

            made = {name: Till(Shop(cluster.address), name) for name in twins}
            tills = {name: asyncio.ensure_future(till.read(EAN13)) for name, till in made.items()}
            one = Worker(worker, "one", answer)
            running = asyncio.ensure_future(one.run())
            assert await tills[good] == READ
            till = Till(Shop(cluster.address), good)
            for _ in range(20):
                assert await till.read(EAN13) == READ
                await asyncio.sleep(0.1)
            assert not tills[lane].done() and not tills[half].done()
            # And none of their rows has gone.
            assert made[lane].lost == made[half].lost == 0
            one.stopping = True
            await running
            for task in tills.values():
                task.cancel()
            await asyncio.gather(*tills.values(), return_exceptions=True)

        ask(port, "ACL", "SETUSER", "worker", "reset", *common, f"~{keys.rows(good)}", f"~{keys.answers(good)}", f"~{keys.rows(half)}")
        asyncio.run(test())
        assert any(keys.rows(lane) in it and "NOPERM" in it for it in told) and any(keys.rows(half) in it and "NOPERM" in it for it in told)


@pytest.mark.limit(60)
def test_a_right_is_taken_back() -> None:
    """While a worker has rows: it writes all answers to what it has read and removes the rows, or does neither."""
    with Cluster(nodes=1) as cluster:
        port = cluster.ports[0]

        async def test() -> None:
            shop, reads, goes_on = Shop(cluster.address), asyncio.Event(), asyncio.Event()

            async def answer(texts: Sequence[str]) -> list[str]:
                reads.set()
                await goes_on.wait()
                return [READ] * len(texts)

            till, one = Till(shop, "3"), Worker(Shop(cluster.address, "worker", "open"), "one", answer)
            running, reading = asyncio.ensure_future(one.run()), asyncio.ensure_future(till.read(EAN13))
            await reads.wait()
            ask(port, "ACL", "SETUSER", "worker", "resetkeys", f"~{ROWS}", "~nl:{*}")
            goes_on.set()
            await asyncio.sleep(3)
            assert await shop.ask(ROWS, "XLEN", ROWS) == 1 and not reading.done() and one.given == 0
            ask(port, "ACL", "SETUSER", "worker", "~*")
            assert await reading == READ and till.lost == 0
            one.stopping = True
            await running

        ask(port, "ACL", "SETUSER", "worker", "on", ">open", "+@all", "~*")
        asyncio.run(test())


@pytest.mark.limit(60)
def test_an_answer_that_cannot_be_written() -> None:
    """The worker reports why, and goes on with other lanes of the shard."""
    told: list[str] = []
    other = beside("3")[0]
    with Cluster(nodes=1) as cluster:
        async def test() -> None:
            shop = Shop(cluster.address)
            await shop.ask(ANSWERS, "XADD", ANSWERS, f"{2 ** 64 - 1}-{2 ** 64 - 1}", "x", "y")

            async def answer(texts: Sequence[str]) -> list[str]:
                return [READ] * len(texts)

            one = Worker(keys.Shop([cluster.address], note=told.append), "one", answer)
            running = asyncio.ensure_future(one.run())
            waiting = asyncio.ensure_future(Till(Shop(cluster.address), "3").read(EAN13))
            till = Till(shop, other)
            for _ in range(10):
                assert await till.read(EAN13) == READ
                await asyncio.sleep(0.1)
            one.stopping = True
            await running
            waiting.cancel()
            await shop.close()

        asyncio.run(test())
        assert any("exhausted" in it for it in told), told


@pytest.mark.limit(60)
def test_answers_to_rows_that_a_full_node_refuses() -> None:
    """The answers to a series that is taken again may be there before its rows are submitted."""
    with Cluster(nodes=1) as cluster, Workers(cluster.address, 1):
        async def test() -> None:
            shop, texts = Shop(cluster.address), [EAN13, "100", EAN13]
            first = Till(shop, "3")
            wanted = [it async for it in first.read_all(texts)]
            await shop.ask("", "CONFIG", "SET", "maxmemory", 1)
            second, got = Till(shop, "3", first.series), []

            async def read() -> None:
                async for it in second.read_all(texts):
                    got.append(it)

            reading = asyncio.ensure_future(read())
            await asyncio.sleep(1)
            await shop.ask("", "CONFIG", "SET", "maxmemory", 0)
            await reading
            assert got == wanted
            await shop.close()

        asyncio.run(test())


def test_the_limit_of_a_reply_is_for_each() -> None:
    """One of 2 MB is no fault, and 20 of them by one connection are none."""
    async def test(shop: keys.Shop) -> None:
        for _ in range(20):
            assert len(await shop.ask(ROWS, "GET", ROWS)) == 2_000_000
        with pytest.raises(keys.TooMuch):
            await shop.ask_all(ROWS, [["GET", ROWS]] * 5)
        assert await shop.ask(ROWS, "STRLEN", ROWS) == 2_000_000
        await shop.close()

    with Cluster(nodes=1) as cluster:
        ask(cluster.ports[0], "CONFIG", "SET", "proto-max-bulk-len", "4mb")
        ask(cluster.ports[0], "SETRANGE", ROWS, 1_999_999, "x")
        asyncio.run(test(Shop(cluster.address)))


def test_answers_that_nobody_reads() -> None:
    """Of a till that has gone, Redis keeps some 4,096 entries."""
    with Cluster(nodes=1) as cluster, Workers(cluster.address, 1) as workers:
        asyncio.run(read_lane(cluster.address, "3", [EAN13]))
        # None follows another, so each has an entry of answers.
        add: list[list[str | int]] = [["XADD", ROWS, "*", "s", "e", "n", 2 * n, "t", EAN13] for n in range(6000)]

        async def test() -> None:
            shop = Shop(cluster.address)
            for at in range(0, len(add), 1000):
                await shop.ask_all(ROWS, add[at:at + 1000])
            while await shop.ask(ROWS, "XLEN", ROWS):
                await asyncio.sleep(0.2)
            await asyncio.sleep(2)
            assert 4000 < await shop.ask(ANSWERS, "XLEN", ANSWERS) < 4300
            await shop.close()

        asyncio.run(test())
        workers.end()


@pytest.mark.limit(120)
def test_a_password_that_is_wrong_for_a_while() -> None:
    """A worker goes on by itself when its user is there again."""
    with Cluster(nodes=1) as cluster, Workers(cluster.address, 0, more=["--user", "worker"]) as workers:
        os.environ["REDIS_PASSWORD"] = "open"
        try:
            workers.start("worker0")
        finally:
            del os.environ["REDIS_PASSWORD"]
        time.sleep(3)
        assert workers.running["worker0"].poll() is None
        ask(cluster.ports[0], "ACL", "SETUSER", "worker", "on", ">open", "~*", "+@all")
        assert asyncio.run(read_lane(cluster.address, "3", [EAN13], patience=40)) == [READ]
        ask(cluster.ports[0], "ACL", "DELUSER", "worker")
        time.sleep(3)
        ask(cluster.ports[0], "ACL", "SETUSER", "worker", "on", ">open", "~*", "+@all")
        assert asyncio.run(read_lane(cluster.address, "3", [EAN13], patience=40)) == [READ]
        assert "WRONGPASS" in workers.kill("worker0")


@pytest.mark.limit(60)
def test_a_till_of_another_type_or_without_ids() -> None:
    """It says what is wrong, and does not try for ever."""
    with Cluster(nodes=1) as cluster, Workers(cluster.address, 1):
        port = cluster.ports[0]

        async def read(lane: str) -> str:
            shop = Shop(cluster.address)
            try:
                return await Till(shop, lane, patience=20).read(EAN13)
            finally:
                await shop.close()

        ask(port, "SET", keys.rows("1"), "x")
        with pytest.raises(Fault, match="^WRONGTYPE"):
            asyncio.run(read("1"))
        ask(port, "XADD", ROWS, f"{2 ** 64 - 1}-{2 ** 64 - 1}", "t", "x")
        with pytest.raises(LookupError, match=f"lane 3: somebody has used up the IDs of its stream: delete {re.escape(ROWS)}"):
            asyncio.run(read("3"))
        assert asyncio.run(read("4")) == READ
        ran = subprocess.run([*NORILADLE, "till", "--redis", cluster.address, "3"], input=EAN13, capture_output=True, text=True, timeout=30)
        assert ran.returncode == 1 and ran.stderr.splitlines()[-1].startswith("noriladle till: lane 3: somebody has used up the IDs")
        assert ask(port, "DEL", ROWS) == "1" and asyncio.run(read("3")) == READ
        ran = subprocess.run([*NORILADLE, "till", "--redis", cluster.address, "1"], input=EAN13, capture_output=True, text=True, timeout=30)
        assert ran.returncode == 1 and "noriladle till: WRONGTYPE" in ran.stderr


@pytest.mark.limit(60)
def test_consumers_that_do_nothing_are_removed() -> None:
    """Names of machines that come and go do not stay for ever; all that one of them had read is answered."""
    with Cluster(nodes=1) as cluster:
        port = cluster.ports[0]
        for number in range(100):
            ask(port, "XADD", ROWS, "*", "s", "e", "n", number, "t", EAN13)
        ask(port, "XGROUP", "CREATE", ROWS, "workers", "0")
        ask(port, "XREADGROUP", "GROUP", "workers", "gone", "STREAMS", ROWS, ">")
        ask(port, "XGROUP", "CREATECONSUMER", ROWS, "workers", "idle")
        keys.DAY, before = 2000, keys.DAY
        try:
            async def test() -> set[str]:
                shop = Shop(cluster.address)

                async def answer(texts: Sequence[str]) -> list[str]:
                    return [READ] * len(texts)

                await asyncio.sleep(2.5)
                await shop.ask(ROWS, "XGROUP", "CREATECONSUMER", ROWS, "workers", "fresh")
                one = Worker(shop, "one", answer)
                running = asyncio.ensure_future(one.run())
                await asyncio.sleep(2)
                told = await shop.ask(ROWS, "XINFO", "CONSUMERS", ROWS, "workers")
                one.stopping = True
                await running
                await shop.close()
                return {it[1] for it in told}

            assert asyncio.run(test()) == {"fresh", "one"}
            assert asyncio.run(entries(cluster.address, ROWS)) == []
        finally:
            keys.DAY = before


def test_noise() -> None:
    """1 MB of noise, 10 MB without an end, a value of 10 MB, and half a command: no row comes of it."""
    head = b"*5\r\n$4\r\nXADD\r\n$%d\r\n%s\r\n$1\r\n*\r\n$1\r\nt\r\n" % (len(ROWS), ROWS.encode())
    with Cluster() as cluster, Workers(cluster.address, 1):
        assert asyncio.run(read_lane(cluster.address, "3", [EAN13])) == [READ]
        before = asyncio.run(entries(cluster.address, ANSWERS))
        long, half = head + b"$10000000\r\n" + b"1" * 10_000_000, head + b"$300\r\n1 1 1"
        for data in (noise(1_000_000), b"x" * 10_000_000, long, half):
            for port in cluster.ports:
                with socket.create_connection(("127.0.0.1", port)) as client:
                    try:
                        client.sendall(data)
                    except OSError:
                        pass
        assert asyncio.run(entries(cluster.address, ANSWERS)) == before and asyncio.run(entries(cluster.address, ROWS)) == []
        assert asyncio.run(read_lane(cluster.address, "3", [EAN13])) == [READ]


def when(seen: Callable[[], object], then: Callable[[], object]) -> threading.Thread:
    """Starts a thread that waits until something is seen, and then does something."""
    def wait() -> None:
        while not seen():
            time.sleep(0.1)
        then()

    thread = threading.Thread(target=wait, daemon=True)
    thread.start()
    return thread


def test_full_memory() -> None:
    """The nodes take no more; the tills wait, and go on by themselves when there is room."""
    asked, wanted = rows_of(20_000)
    with Cluster() as cluster, Workers(cluster.address, 2):
        def limit(size: int) -> None:
            for port in cluster.ports:
                ask(port, "CONFIG", "SET", "maxmemory", size)

        def free() -> None:
            time.sleep(2)
            limit(0)

        limit(1)
        thread = when(lambda: any("errorstat_OOM" in ask(port, "INFO", "errorstats") for port in cluster.ports), free)
        got, tills = asyncio.run(read_lanes(cluster.address, asked))
        thread.join()
        assert got == wanted
        print(f"rows submitted again {sum(till.repeated for till in tills)}")


async def fill(shop: keys.Shop, stream: str, size: int, count: int) -> None:
    """Writes what is no answer into a stream."""
    for _ in range(0, count, 50):
        await shop.ask_all(stream, [["XADD", stream, "*", "a", "x" * size]] * 50)


def test_a_full_node_loses_its_largest_stream_alone() -> None:
    """It is emptied if the node stays full; the answers of lanes in other shards, which their tills may not have read, stay."""
    *small, large = {keys.rows(lane)[:6]: keys.answers(lane) for lane in map(str, range(100))}.values()
    with Cluster(nodes=1) as cluster, Workers(cluster.address, 0) as workers:
        async def test() -> None:
            shop = Shop(cluster.address)
            for stream in (*small, large):
                await fill(shop, stream, *((10_000, 1000) if stream == large else (100, 200)))
                await shop.ask(ROWS, "XGROUP", "CREATE", stream.replace("answers", "rows"), "workers", "0", "MKSTREAM")
            used = re.search(r"used_memory:(\d+)", await shop.ask(ROWS, "INFO", "memory"))
            await shop.ask(ROWS, "CONFIG", "SET", "maxmemory", int(used[1]) - 5_000_000)
            workers.start("one")
            assert await Till(shop, "4").read(EAN13) == READ
            assert [await shop.ask(it, "XLEN", it) for it in (*small, large)] == [200] * len(small) + [0]
            await shop.close()

        asyncio.run(test())
        assert f"{large} is emptied" in workers.kill("one")


def test_answers_that_a_full_node_refuses() -> None:
    """The worker answers what it had read as soon as there is room, and waits for no claim. In a moment no stream is emptied."""
    other = beside("3")[0]
    with Cluster(nodes=1) as cluster:
        port = cluster.ports[0]
        took: list[float] = []

        async def test() -> None:
            shop = Shop(cluster.address)
            begun: list[float] = []

            async def answer(texts: Sequence[str]) -> list[str]:
                if len(begun) == len(took):
                    begun.append(time.monotonic())
                    ask(port, "CONFIG", "SET", "maxmemory", 1)
                    asyncio.get_running_loop().call_later(0.2, ask, port, "CONFIG", "SET", "maxmemory", 0)
                return [READ] * len(texts)

            await fill(shop, keys.answers(other), 10_000, 100)
            await shop.ask(ROWS, "XGROUP", "CREATE", keys.rows(other), "workers", "0", "MKSTREAM")
            till, one = Till(shop, "3"), Worker(shop, "one", answer)
            running = asyncio.ensure_future(one.run())
            for _ in range(3):
                assert await till.read(EAN13) == READ
                took.append(time.monotonic() - begun[-1])
            assert till.repeated == till.lost == 0
            assert await shop.ask(ROWS, "XLEN", keys.answers(other)) == 100
            one.stopping = True
            await running
            await shop.close()

        asyncio.run(test())
        assert 0.2 <= min(took) < 1.4, took


def test_rows_beside_long_entries() -> None:
    """Lanes of a shard are read together. If the reply is too long, the worker reads fewer entries at once; the other lane's rows
    do not wait until they are claimed."""
    long, other = beside("3")[:2]
    with Cluster(nodes=1) as cluster:
        async def test() -> list[float]:
            shop, reads, goes_on, took = Shop(cluster.address), asyncio.Event(), asyncio.Event(), []

            async def answer(texts: Sequence[str]) -> list[str]:
                reads.set()
                await goes_on.wait()
                return [READ] * len(texts)

            one, till = Worker(Shop(cluster.address), "one", answer), Till(shop, other)
            running = asyncio.ensure_future(one.run())
            for _ in range(3):
                goes_on.set()
                for _ in range(20):
                    assert await till.read(EAN13) == READ
                reads.clear(), goes_on.clear()
                reading = asyncio.ensure_future(till.read(EAN13))
                await reads.wait()
                await shop.ask_all(keys.rows(long), [["XADD", keys.rows(long), "*", "t", "1 " * 450_000]] * 20)
                beside, begin = asyncio.ensure_future(Till(shop, other).read(EAN13)), time.monotonic()
                await asyncio.sleep(0.2)
                goes_on.set()
                assert await beside == READ
                took.append(time.monotonic() - begin)
                assert await reading == READ
                while await shop.ask(ROWS, "XLEN", keys.rows(long)):
                    await asyncio.sleep(0.1)
            one.stopping = True
            await running
            await shop.close()
            return took

        took = asyncio.run(test())
        assert min(took) < 1.4, took


@pytest.mark.limit(60)
def test_rows_beside_entries_of_many_fields() -> None:
    """A worker reads few of these at once, so the other lanes of the shard have their turn between them."""
    with Cluster(nodes=1) as cluster, Workers(cluster.address, 0) as workers:
        async def test() -> int:
            shop, answered = Shop(cluster.address), 0
            for _ in range(60):
                await shop.ask(ROWS, "XADD", ROWS, "*", *[word for n in range(20_000) for word in (f"f{n}", "x")])
            other = Till(Shop(cluster.address), beside("3")[0])
            workers.start("one")
            while await shop.ask(ROWS, "XLEN", ROWS):
                assert await other.read(EAN13) == READ
                answered += 1
            await shop.close()
            return answered

        assert asyncio.run(test()) > 20


def test_little_memory_for_long() -> None:
    """40,000 rows go through nodes of 4 MB: they are 7 MB, and their answers."""
    asked, wanted = rows_of(40_000)
    with Cluster() as cluster, Workers(cluster.address, 2):
        for port in cluster.ports:
            ask(port, "CONFIG", "SET", "maxmemory", 4_000_000)
        got, _ = asyncio.run(read_lanes(cluster.address, asked, most=256))
        assert got == wanted
        nothing_left(cluster.address, LANES)


@pytest.fixture
def small_disk(tmp_path: Path) -> Iterator[Path]:
    """A file system of 1 MB."""
    folder = tmp_path / "small"
    folder.mkdir()
    if os.geteuid() or subprocess.run(["mount", "-t", "tmpfs", "-o", "size=1m", "none", folder]).returncode:
        pytest.skip("only root mounts a file system")
    yield folder
    subprocess.run(["umount", folder])


@pytest.mark.parametrize("fsync", ["always", "everysec"])
def test_full_disk(small_disk: Path, fsync: str) -> None:
    """`everysec`: the node refuses until there is room. `always`: it ends, and is started again with room."""
    asked, wanted = rows_of(20_000)
    folders = [small_disk, small_disk.parent / "second", small_disk.parent / "third"]
    more = f"appendfsync {fsync}\nauto-aof-rewrite-percentage 0\n"
    with Cluster(folders=folders, more=more) as cluster, Workers(cluster.address, 2):
        port, seen = cluster.ports[0], []

        def is_full() -> list[str]:
            if cluster.processes[port].poll() is not None:
                seen.append("ended")
            elif "errorstat_MISCONF" in ask(port, "INFO", "errorstats"):
                seen.append("refused")
            return seen

        def free() -> None:
            time.sleep(2)
            subprocess.run(["mount", "-o", "remount,size=100m", small_disk], check=True)
            if seen == ["ended"]:
                cluster.start(port)

        thread = when(is_full, free)
        got, tills = asyncio.run(read_lanes(cluster.address, asked))
        thread.join()
        assert got == wanted
        print(f"{fsync}: the node {seen[0]}; rows submitted again {sum(till.repeated for till in tills)}")
        assert seen == [{"always": "ended", "everysec": "refused"}[fsync]]


SLOW = r"""
#define _GNU_SOURCE
#include <sys/syscall.h>
#include <time.h>
#include <unistd.h>
int fdatasync(int file) {
    static int calls;
    struct timespec some = {0, 50000000}, long_time = {6, 0};
    nanosleep(++calls % 40 ? &some : &long_time, 0);
    return syscall(SYS_fdatasync, file);
}
"""
"""Each sync takes 50 milliseconds, and one of 40 six seconds: longer than a till or a worker waits for a reply."""


@pytest.mark.limit(240)
def test_a_slow_disk(tmp_path: Path) -> None:
    """What was taken for lost is written all the same, and submitted again; the till gives each answer once."""
    asked, wanted = rows_of(8_000)
    with Preloaded(tmp_path, SLOW) as cluster, Workers(cluster.address, 2) as workers:
        got, tills = asyncio.run(read_lanes(cluster.address, asked, most=64))
        assert got == wanted
        workers.end()
        print(f"rows submitted again {sum(till.repeated for till in tills)}")
