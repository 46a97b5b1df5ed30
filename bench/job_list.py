#!/usr/bin/env python3
"""Prints a job list for `ahci run`, or the same commands as a script for `ahci replay`.

Job i writes one sector at LBA i mod SECTORS with the byte i mod 251, or, where i mod 3 is 2, reads it.

  bench/job_list.py JOBS [--sectors N] [--count N] [--script]

--sectors  sectors that the jobs go over (default 64)
--count    sectors of each job (default 1); its LBA is then a multiple of it
--script   a script of one tag in place of a job list: issue, accept, serve, collect
"""
import argparse
import sys


def jobs(total, sectors, count):
    for i in range(total):
        lba = i * count % sectors
        yield lba, None if i % 3 == 2 else i % 251


def as_list(total, sectors, count):
    for lba, byte in jobs(total, sectors, count):
        yield f"read {lba} {count}" if byte is None else f"write {lba} {count} {byte:02x}"


def as_script(total, sectors, count):
    yield f"disk {sectors} 1"
    for i, (lba, byte) in enumerate(jobs(total, sectors, count)):
        issue = f"read 0 {lba} {count}" if byte is None else f"write 0 {lba} {count} {byte:02x}"
        yield f"{issue}\naccept 0\nserve 0\ncollect 0 {4 * i}"


def main():
    words = argparse.ArgumentParser(description=__doc__.splitlines()[0])
    words.add_argument("jobs", type=int)
    words.add_argument("--sectors", type=int, default=64)
    words.add_argument("--count", type=int, default=1)
    words.add_argument("--script", action="store_true")
    asked = words.parse_args()
    lines = as_script if asked.script else as_list
    sys.stdout.writelines(line + "\n" for line in lines(asked.jobs, asked.sectors, asked.count))


if __name__ == "__main__":
    main()
