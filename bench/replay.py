#!/usr/bin/env python3
"""Times `ahci replay` on long scripts and prints a table. It is no test: nothing fails here.

    bench/replay.py [ROUNDS]        each script is run ROUNDS times (3 if not given); the fastest run counts

Each script keeps 32 commands in flight: 32 are issued, by turns a write and a read, all are accepted, served from
the highest tag to the lowest, and collected. The program has to be built before, by `./ahci --build`.
"""
import os
import subprocess
import sys
import tempfile
import time

DEPTH = 32
TOP = os.path.dirname(os.path.dirname(os.path.abspath(__file__)))
PROGRAM = os.path.join(TOP, "crates", "ahci", "out", "rlib", "ahci", "ahci")

# how many commands, how many sectors each of them has, and after how many the journal is trimmed, if it is
SCRIPTS = [(10_000, 1, 0), (100_000, 1, 0), (1_000_000, 1, 0), (1_000_000, 1, 1_024), (2_000, 256, 0), (20, 65_536, 0)]

# the most sectors of a disk
MOST = 131_072


def write_script(out, commands, sectors, trimmed):
    """Writes the script, and answers how many lines it has."""
    places = min(128, MOST // sectors)
    out.write(f"disk {places * sectors} {DEPTH}\n")
    lines = 1
    entry = 0
    for first in range(0, commands, DEPTH):
        tags = range(min(DEPTH, commands - first))
        for tag in tags:
            lba = (first + tag) % places * sectors
            if tag % 2:
                out.write(f"read {tag} {lba} {sectors}\n")
            else:
                out.write(f"write {tag} {lba} {sectors} {first // DEPTH % 256:02x}\n")
        out.writelines(f"accept {tag}\n" for tag in tags)
        out.writelines(f"serve {tag}\n" for tag in reversed(tags))
        out.writelines(f"collect {tag} {entry + tag}\n" for tag in tags)
        entry += 4 * len(tags)
        lines += 4 * len(tags)
        if trimmed and (first + DEPTH) % trimmed == 0:
            out.write("trim\n")
            lines += 1
    return lines


def cost_of(path):
    """The time of one run, with its answers thrown away, and the most memory that it had, in KiB."""
    with open(path, "rb") as script, open(os.devnull, "wb") as answers:
        begun = time.perf_counter()
        program = subprocess.Popen([PROGRAM, "replay"], stdin=script, stdout=answers)
        _, status, used = os.wait4(program.pid, 0)
        seconds = time.perf_counter() - begun
    if status:
        sys.exit("bench: the program has failed")
    return seconds, used.ru_maxrss


def main():
    rounds = int(sys.argv[1]) if len(sys.argv) > 1 else 3
    if not os.path.exists(PROGRAM):
        sys.exit("bench: the program is not built yet: run ./ahci --build first")
    print("| commands | sectors each | trimmed after | lines | seconds | microseconds a command | MB of data a second | MiB of memory |")
    print("|---|---|---|---|---|---|---|---|")
    for commands, sectors, trimmed in SCRIPTS:
        with tempfile.TemporaryDirectory() as folder:
            path = os.path.join(folder, "script")
            with open(path, "w", encoding="ascii") as out:
                lines = write_script(out, commands, sectors, trimmed)
            best, memory = min(cost_of(path) for _ in range(rounds))
        rate = commands * sectors * 512 / best / 1e6
        often = f"{trimmed:,}" if trimmed else ""
        times = f"{best:.3f} | {best / commands * 1e6:.2f} | {rate:,.0f}"
        print(f"| {commands:,} | {sectors} | {often} | {lines:,} | {times} | {memory / 1024:,.0f} |", flush=True)


if __name__ == "__main__":
    main()
