#!/usr/bin/python3
"""Answers the rows of a folder of files of lanes on a Dask cluster, a task for each file.

Usage: by_dask.py LANES YEAR FOLDER [ADDRESS]

Starts a cluster on this machine, a process for each processor, or asks the scheduler at ADDRESS;
its machines see the folder and the program under the same names. Prints one report: file by file in
the order of their names, on each line the file's name without its ending, a tab and the answer. A
file that is refused has such a line on standard error, and the status is 1; the others are answered.

The program is $GS1_HUB, or ./gs1_hub. Needs apt-get install python3-distributed
"""
from __future__ import annotations

import os
import pathlib
import subprocess
import sys

from distributed import Client, LocalCluster


def answer(program: str, lanes: str, year: str, path: str) -> tuple[int, bytes, bytes]:
    """The program's answers to a file of lanes, and its error."""
    with open(path, "rb") as rows:
        ran = subprocess.run([program, "lanes", "--lanes", lanes, "--workers", "1", "--year", year],
                             stdin=rows, stdout=subprocess.PIPE, stderr=subprocess.PIPE)
    return ran.returncode, ran.stdout, ran.stderr


def tagged(path: pathlib.Path, lines: bytes) -> bytes:
    """The lines, each after the file's name without its ending and a tab."""
    tag = path.stem.encode() + b"\t"
    return b"".join(tag + line for line in lines.splitlines(keepends=True))


def report(client: Client, program: str, lanes: str, year: str, paths: list[pathlib.Path]) -> bool:
    """Writes the report of the files, and says whether all were answered."""
    tasks = [client.submit(answer, program, lanes, year, str(path), pure=False) for path in paths]
    taken = True
    for path, (status, answers, refusal) in zip(paths, client.gather(tasks)):
        sys.stdout.buffer.write(tagged(path, answers))
        sys.stderr.buffer.write(tagged(path, refusal))
        taken = taken and status == 0
    return taken


def main() -> None:
    lanes, year, folder = sys.argv[1:4]
    program = os.path.abspath(os.environ.get("GS1_HUB", "./gs1_hub"))
    paths = sorted(pathlib.Path(folder).resolve().glob("*.csv"))
    cluster = sys.argv[4] if len(sys.argv) > 4 else LocalCluster(threads_per_worker=1, dashboard_address=None)
    with Client(cluster) as client:
        taken = report(client, program, lanes, year, paths)
    sys.exit(0 if taken else 1)


if __name__ == "__main__":
    main()
