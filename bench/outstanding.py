#!/usr/bin/env python3
"""Prints how many requests a run has outstanding, by its journal, and how long it takes.

  bench/outstanding.py PROGRAM.. [--jobs N] [--workers N..] [--rounds N]

PROGRAM.. are built programs, as crates/ahci/out/rlib/ahci/ahci; with several of them the timed runs alternate. Each run has as many slots as
workers, and the jobs of job_list.py. A request is outstanding from its submission to its collection; the mean is over the journal's
entries. Times are of whole runs without the journal, in milliseconds: best and median.
"""
from __future__ import annotations

import argparse
import statistics
import subprocess
import time
from typing import List, Tuple

from job_list import as_list

SECTORS = 64
STEPS = {"write": 1, "read": 1, "collect": -1, "accept": 0, "serve": 0, "fail": 0}


def words_of(program: str, workers: int) -> List[str]:
    return [program, "run", "--workers", str(workers), "--depth", str(workers), "--sectors", str(SECTORS)]


def outstanding(journal: str) -> Tuple[float, int]:
    """The mean number of requests outstanding over the entries of a journal as a script, and the most."""
    now = total = most = entries = 0
    for line in journal.splitlines():
        step = STEPS.get(line.split(" ", 1)[0])
        if step is None:
            continue
        now += step
        entries += 1
        total += now
        most = max(most, now)
    return total / max(entries, 1), most


def run(words: List[str], jobs: str) -> str:
    return subprocess.run(words, input=jobs, capture_output=True, text=True, check=True).stdout


def timed(words: List[str], jobs: str) -> float:
    begun = time.monotonic()
    run(words, jobs)
    return 1000 * (time.monotonic() - begun)


def main() -> None:
    words = argparse.ArgumentParser(description=__doc__, formatter_class=argparse.RawDescriptionHelpFormatter)
    words.add_argument("programs", nargs="+", metavar="PROGRAM")
    words.add_argument("--jobs", type=int, default=10_000, metavar="N")
    words.add_argument("--workers", type=int, nargs="+", default=[1, 2, 4, 8, 32], metavar="N")
    words.add_argument("--rounds", type=int, default=9, metavar="N")
    given = words.parse_args()
    jobs = "\n".join(as_list(given.jobs, SECTORS, 1)) + "\n"
    print("| workers | program | mean outstanding | most | best, ms | median, ms |\n|---|---|---|---|---|---|")
    for workers in given.workers:
        times: List[List[float]] = [[] for _ in given.programs]
        for _ in range(given.rounds):
            for program, taken in zip(given.programs, times):
                taken.append(timed(words_of(program, workers), jobs))
        for program, taken in zip(given.programs, times):
            mean, most = outstanding(run([*words_of(program, workers), "--journal"], jobs))
            print(f"| {workers} | {program} | {mean:.1f} | {most} | {min(taken):.1f} | {statistics.median(taken):.1f} |", flush=True)


if __name__ == "__main__":
    main()
