"""Devices that speak MQTT, joined to `live` by mosquitto's own clients, as docs/HUB.md says. Needs mosquitto, mosquitto-clients."""
from __future__ import annotations

import contextlib
import os
import select
import signal
import socket
import subprocess
import time
from typing import Iterator

import pytest

from program_and_rows import EAN13, PROGRAM, ROOT

LIMIT = 60


@pytest.fixture
def port() -> Iterator[str]:
    """The port of a broker on loopback."""
    with socket.socket() as free:
        free.bind(("127.0.0.1", 0))
        port = str(free.getsockname()[1])
    with subprocess.Popen(["/usr/sbin/mosquitto", "-p", port], stdout=subprocess.DEVNULL, stderr=subprocess.DEVNULL) as broker:
        yield port
        broker.terminate()


def publish(port: str, topic: str, text: str, *more: str) -> None:
    while subprocess.run(["mosquitto_pub", "-p", port, "-q", "1", "-t", topic, "-m", text, *more], stderr=subprocess.DEVNULL).returncode:
        time.sleep(0.05)


def commands(port: str) -> tuple[str, str]:
    """The two command lines of docs/HUB.md, for this broker: what answers, and what counts retained messages."""
    lines = [line.strip() for line in (ROOT / "docs/HUB.md").read_text().splitlines() if line.startswith("    mosquitto_sub ")]
    answers, counts = [line.replace("./gs1_hub", PROGRAM).replace("mosquitto_sub", f"mosquitto_sub -p {port}") for line in lines]
    return answers.replace("mosquitto_pub", f"mosquitto_pub -p {port}").replace("--workers 2", "--workers 1"), counts


@contextlib.contextmanager
def joined(port: str) -> Iterator[Iterator[str]]:
    """The clients and the hub, and the answers that are published."""
    words = ["mosquitto_sub", "-p", port, "-q", "1", "-t", "shop/answers"]
    with subprocess.Popen(["bash", "-c", commands(port)[0]], start_new_session=True) as line, \
            subprocess.Popen(words, stdout=subprocess.PIPE, text=True) as answers:
        try:
            # Until all have subscribed; a record that is none, whose answers are passed over.
            while not select.select([answers.stdout], [], [], 0.1)[0]:
                publish(port, "shop/rows", "begin")
            yield filter("- - refused 39 Csv\n".__ne__, answers.stdout)
        finally:
            # The clients of the line are in its group.
            os.killpg(line.pid, signal.SIGTERM)
            answers.terminate()


def test_rows_that_are_published(port: str) -> None:
    """Each is answered before the next is published."""
    publish(port, "shop/begun", "")
    with joined(port) as answers:
        follow(port, answers)


def test_rows_that_are_retained(port: str) -> None:
    """The broker sends them again at each start; they are passed over then, and a command counts them."""
    publish(port, "shop/rows", f"2,{EAN13}", "-r")
    for number in range(2):
        with joined(port) as answers:
            publish(port, "shop/rows", "0,100")
            assert next(answers) == "0 0 refused 19 Blank\n", number
    assert subprocess.run(commands(port)[1], shell=True, capture_output=True, text=True).stdout == "1\n"


def follow(port: str, answers: Iterator[str]) -> None:
    """Publishes records one by one, and reads what is answered to each."""
    for record, wanted in [
        (f"2,{EAN13}", "2 0 ]E0 01=09501101530003"),
        ("0,100", "0 0 refused 19 Blank"),
        (f"2,{EAN13}", "2 1 ]E0 01=09501101530003"),
        ("0,5 3", "0 - refused 18 BadRuns"),
        ("7,100", "- - refused 41 BadLane"),
    ]:
        publish(port, "shop/rows", record)
        assert next(answers) == f"{wanted}\n"
