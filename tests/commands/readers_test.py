"""That workers read the rows, as many workers as were asked for.

A calling thread that reads rows too fails `one_worker_reads_the_rows_of_a_lane` of crates/acceptance."""

from __future__ import annotations

import os
import subprocess
import time
import unittest

import program
from program import CommandTest
from rows import SYMBOL

# Rows that take some tenths of a second to answer, and hardly fit the input.
ROWS = 100_000


def ticks(process: int) -> dict[int, int]:
    """The processor time of each thread of the process that has not ended, in ticks of a hundredth of a second."""
    found = {}
    for thread in os.listdir(f"/proc/{process}/task"):
        with open(f"/proc/{process}/task/{thread}/stat", encoding="utf-8") as file:
            fields = file.read().rpartition(")")[2].split()
        found[int(thread)] = int(fields[11]) + int(fields[12])
    return found


class ReadersTest(CommandTest):
    def of_a_run(self, workers: int) -> tuple[int, int]:
        """The ticks of the calling thread, and those of the workers together, for all rows but the last few."""
        words = f"lanes --lanes 1 --workers {workers} --year 2026".split()
        with subprocess.Popen([program.PATH, *words], stdin=subprocess.PIPE, stdout=subprocess.DEVNULL) as it:
            it.stdin.write(f"0,11 {SYMBOL} 7\n".encode() * ROWS)
            it.stdin.flush()
            # Until its input ends, no thread of it does. Here it waits for more, with hardly a row left to read.
            time.sleep(0.05)
            found = ticks(it.pid)
            it.stdin.close()
        self.assertEqual(it.returncode, 0)
        calling = found.pop(it.pid)
        self.assertEqual(len(found), workers, "threads beside the calling one")
        return calling, sum(found.values())

    @unittest.skipIf(program.EMULATED, "an emulator has threads of its own")
    def test_workers_read_the_rows(self) -> None:
        for workers in [1, 3, 5, 9]:
            with self.subTest(workers):
                # A third of the work is to read the rows; a worker that reads none takes no time. Ticks are coarse, so a run may show less.
                runs: list[tuple[float, float]] = []
                while not any(reading > (calling + reading) / 10 for calling, reading in runs):
                    self.assertLess(len(runs), 5, runs)
                    runs.append(self.of_a_run(workers))
