"""A time limit for each test of this folder: 90 seconds, or that of its mark `limit`."""
import signal
from typing import Iterator

import pytest


def pytest_configure(config: pytest.Config) -> None:
    config.addinivalue_line("markers", "limit(seconds): how long the test may take")


@pytest.fixture(autouse=True)
def limit(request: pytest.FixtureRequest) -> Iterator[None]:
    mark = request.node.get_closest_marker("limit")
    seconds = mark.args[0] if mark else 90

    def end(*_: object) -> None:
        pytest.fail(f"not done after {seconds} seconds")

    before = signal.signal(signal.SIGALRM, end)
    # Again and again: asyncio only logs what a call of its loop raises.
    signal.setitimer(signal.ITIMER_REAL, seconds, 10)
    yield
    signal.setitimer(signal.ITIMER_REAL, 0)
    signal.signal(signal.SIGALRM, before)
