"""Runs checks/probe.c, which has the calls of host/ as lines of input."""
from __future__ import annotations

import os
import subprocess
import sys
from typing import Any, List

HERE = os.path.dirname(os.path.dirname(os.path.realpath(__file__)))
PROBE = os.path.join(HERE, "out", "probe")
PLAYER = os.path.join(HERE, "out", "play")
SECTOR = 512
SECONDS = 60

sys.dont_write_bytecode = True
sys.path.insert(0, HERE)

import pace  # noqa: E402
from suite import Failed  # noqa: E402


def probed(words: List[str], lines: List[str], status: int = 0, **more: Any) -> List[str]:
    """What the program prints for some lines of input. The sanitizers print to standard error, which has to be empty."""
    done = pace.ran([PROBE, *words], SECONDS, input="".join(f"{it}\n" for it in lines), stdout=subprocess.PIPE, stderr=subprocess.PIPE, text=True, **more)
    if done.returncode != status or done.stderr:
        raise Failed(f"probe {' '.join(words)[:200]}: status {done.returncode}, not {status}: {done.stdout[-500:]}{done.stderr[-2000:]}")
    return str(done.stdout).splitlines()


class Probe:
    """The program while it runs."""

    def __init__(self, words: List[str], **more: Any) -> None:
        self.process: "subprocess.Popen[str]" = subprocess.Popen([PROBE, *words], stdin=subprocess.PIPE, stdout=subprocess.PIPE, text=True, **more)

    def send(self, line: str) -> None:
        assert self.process.stdin
        self.process.stdin.write(f"{line}\n")
        self.process.stdin.flush()

    def answer(self) -> str:
        assert self.process.stdout
        return str(self.process.stdout.readline()).rstrip("\n")

    def ask(self, line: str) -> str:
        self.send(line)
        return self.answer()

    def end(self) -> int:
        """Closes its input, and returns its status."""
        assert self.process.stdin and self.process.stdout
        self.process.stdin.close()
        self.process.stdout.read()
        self.process.stdout.close()
        return self.process.wait()

    def kill(self) -> None:
        assert self.process.stdin and self.process.stdout
        self.process.kill()
        self.process.wait()
        self.process.stdout.close()
        try:
            self.process.stdin.close()
        except BrokenPipeError:
            pass
