#!/usr/bin/env python3
"""Plays the scripts of many seeds through the library and through `ahci replay`, and stops at the first difference; then those of a fifth
as many with `raw` lines in them.

    random_scripts.py COUNT AHCI PLAY
"""
import os
import subprocess
import sys

TOP = os.path.dirname(os.path.dirname(os.path.realpath(__file__)))


def said(words, script):
    return subprocess.run(words, input=script, stdout=subprocess.PIPE, stderr=subprocess.PIPE, check=False)


def compare(count, ahci, play, *words):
    """Compares the scripts of the seeds below a count, which these words ask for, and answers how many answers they have."""
    lines = 0
    for seed in range(count):
        maker = [sys.executable, os.path.join(TOP, "bench", "scripts_of.py"), *words, str(seed)]
        script = subprocess.run(maker, stdout=subprocess.PIPE, check=True).stdout
        model, library = said([ahci, "replay"], script), said([play], script)
        if (model.stdout, model.returncode) != (library.stdout, library.returncode):
            where = " ".join([*words, str(seed)])
            sys.exit(f"seed {where}: the library answers otherwise than ahci replay (status {library.returncode})\n{library.stderr.decode()[-2000:]}")
        lines += model.stdout.count(b"\n")
    return lines


def main():
    if len(sys.argv) != 4 or not sys.argv[1].isdecimal():
        sys.exit(__doc__)
    count, ahci, play = int(sys.argv[1]), sys.argv[2], sys.argv[3]
    print(f"{count} random scripts with {compare(count, ahci, play)} answers: no difference", flush=True)
    print(f"{count // 5} random scripts with windows of any bytes, with {compare(count // 5, ahci, play, '--raw')} answers: no difference")


if __name__ == "__main__":
    main()
