"""How busy the machine is, so that a limit of seconds holds for it.

A limit is in seconds of an idle machine. Before it counts, a fixed piece of work is measured in a process of its own: as many times as that takes
longer than on an idle machine, so many times longer the limit is. It is measured again before a limit has passed for good, since load changes.
"""
from __future__ import annotations

import contextlib
import os
import signal
import subprocess
import sys
import threading
import time
from typing import Any, List, Optional

WORK = "import hashlib\nfor _ in range(100): hashlib.sha256(bytes(1 << 18)).digest()"
IDLE = 0.2  # seconds of that work on an idle machine
OLD = 5.0  # seconds after which a measurement is made again

_lock = threading.Lock()
_times = 1.0
_when = -OLD


def times(is_new: bool = False) -> float:
    """How many times longer things take here and now, at least 1."""
    global _times, _when
    with _lock:
        if is_new or time.monotonic() - _when > OLD:
            begun = time.monotonic()
            subprocess.run([sys.executable, "-c", WORK], stdin=subprocess.DEVNULL, check=True)
            _when = time.monotonic()
            _times = max(1.0, (_when - begun) / IDLE)
        return _times


class Limit:
    """So many seconds of an idle machine, from now on."""

    def __init__(self, seconds: float) -> None:
        self.seconds, self.begun = seconds, time.monotonic()
        self.most = seconds * times()

    def left(self) -> float:
        """How many seconds of this machine are left; not more than 0 once the limit has passed."""
        passed = time.monotonic() - self.begun
        if passed >= self.most:
            self.most = max(self.most, self.seconds * times(True))
        return self.most - passed

    def has_passed(self) -> bool:
        return self.left() <= 0


def ended(process: "subprocess.Popen[Any]", seconds: float) -> bool:
    """Waits for the end of a process; false if the limit has passed first."""
    limit = Limit(seconds)
    while limit.left() > 0:
        try:
            process.wait(max(0.01, limit.left()))
            return True
        except subprocess.TimeoutExpired:
            pass
    return False


def ran(words: List[str], seconds: float, input: Any = None, **more: Any) -> "subprocess.CompletedProcess[Any]":
    """As subprocess.run, with a limit of an idle machine. Without `input` and `stdin` the program reads nothing. Past the limit it is killed with all
    that it has started."""
    limit = Limit(seconds)
    more.setdefault("stdin", subprocess.DEVNULL if input is None else subprocess.PIPE)
    with subprocess.Popen(words, start_new_session=True, **more) as process:
        try:
            return finished(process, words, limit, input)
        except BaseException:
            with contextlib.suppress(ProcessLookupError):
                os.killpg(process.pid, signal.SIGKILL)
            raise


def finished(process: "subprocess.Popen[Any]", words: List[str], limit: Limit, given: Optional[Any]) -> "subprocess.CompletedProcess[Any]":
    """Waits for the end of a process, and collects what it prints."""
    while limit.left() > 0:
        try:
            out, err = process.communicate(given, timeout=max(0.01, limit.left()))
            return subprocess.CompletedProcess(words, process.returncode, out, err)
        except subprocess.TimeoutExpired:
            given = None
    raise subprocess.TimeoutExpired(words, limit.most)


if __name__ == "__main__":
    print(f"{times():.2f} times as long as on an idle machine, load {os.getloadavg()[0]:.1f}")
