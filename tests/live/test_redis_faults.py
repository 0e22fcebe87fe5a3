"""The scenarios of lane_faults.py, each for a short time, with the bounds that docs/REDIS.md gives. tests/live/faults runs them for longer.

Silences grow with what else the machine does, and the bounds with its load for each processor."""
from __future__ import annotations

import asyncio
import os
import signal
from typing import Any

import pytest

import lane_faults
from lane_faults import Record
from program_and_rows import SEED

LIMIT = 700


def run(scenario: str, answers: int) -> tuple[Any, Record]:
    """What a scenario returns, with its record, in which nothing is wrong."""
    record = lane_faults.Record(answers, SEED)
    told = asyncio.run(getattr(lane_faults, scenario)(record))
    print(f"\n{scenario}: {record}", told)
    assert record.wrong == [] and record.right >= answers
    return told, record


def most(seconds: float, busy: float) -> float:
    """A bound of time on this machine now; the second one if it is very busy."""
    return min(busy, seconds * max(1, os.getloadavg()[0] / os.cpu_count()))


@pytest.mark.limit(120)
@pytest.mark.parametrize("scenario", ["killed", "killed_over_tls", "clocks"])
def test_workers_are_killed_and_sleep(scenario: str) -> None:
    """Redis loses nothing, so no till is told that it has; and none waits until it submits its rows again."""
    longest, record = run(scenario, 60_000)
    assert (record.lost, record.repeated) == (0, 0) and (longest or 0) < most(4, 9)


@pytest.mark.limit(120)
def test_takeover() -> None:
    told, record = run("takeover", 20_000)
    assert max(told[signal.SIGKILL]) < most(4, 9) and max(told[signal.SIGTERM]) < most(1.5, 4)
    assert (record.lost, record.repeated) == (0, 0)


@pytest.mark.limit(120)
def test_a_replica_that_is_behind() -> None:
    longest, record = run("behind", 100_000)
    assert record.lost and longest < most(5, 9)


@pytest.mark.limit(120)
@pytest.mark.parametrize("scenario", ["sentinels", "sentinels_over_tls"])
def test_sentinels(scenario: str) -> None:
    told, _ = run(scenario, 1_000)
    assert max(told) < most(5, 14)


@pytest.mark.limit(120)
@pytest.mark.parametrize("scenario", ["hung", "hung_over_tls"])
def test_a_node_hangs(scenario: str) -> None:
    (_, alone, with_kill), _ = run(scenario, 1_000)
    assert max(alone) < most(0.5, 2) and max(with_kill) < most(4, 9)


@pytest.mark.limit(120)
def test_two_tills_and_series_taken_again() -> None:
    run("two_tills", 60_000)


@pytest.mark.limit(120)
def test_somebody_deletes_keys() -> None:
    _, record = run("deleted", 100_000)
    assert record.lost


@pytest.mark.limit(240)
def test_an_evil_till() -> None:
    told, record = run("evil", 1_000)
    del told["before"]
    assert told.pop("worker MB") < 100 and record.lost == 0
    assert max(silence for _, silence in told.values()) < most(1, 3)


@pytest.mark.limit(120)
def test_many_lanes_fill_the_memory() -> None:
    longest, _ = run("full", 20_000)
    assert longest < most(5, 9)


@pytest.mark.limit(120)
@pytest.mark.parametrize("scenario", ["slow", "slow_of_one_name"])
def test_too_much_work_is_not_done_twice(scenario: str) -> None:
    work, _ = run(scenario, 20_000)
    assert work < 1.25


@pytest.mark.limit(120)
def test_a_thousand_lanes() -> None:
    (median, longest, new, alone, rest), _ = run("thousand", 15_000)
    assert median < most(1, 3) and longest < most(2, 6) and new < most(2, 6) and alone < most(0.01, 0.1) and max(rest) < 0.3
