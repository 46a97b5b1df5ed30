"""Files for the checks, and what keeps a program from writing them."""
from __future__ import annotations

import contextlib
import os
import random
import resource
import signal
import subprocess
from typing import Iterator

from suite import Skipped

MIB = 1 << 20


def made(path: str, size: int, seed: int = 4) -> bytes:
    """A file of random bytes."""
    data = random.Random(seed).randbytes(size)
    with open(path, "wb") as file:
        file.write(data)
    return data


def contents(path: str) -> bytes:
    with open(path, "rb") as file:
        return file.read()


@contextlib.contextmanager
def small_room(room: str, size: str) -> Iterator[str]:
    """A file system of a few MiB."""
    if os.geteuid() != 0:
        raise Skipped("a file system of its own can be mounted by root alone")
    place = os.path.join(room, "small")
    os.mkdir(place)
    subprocess.run(["mount", "-t", "tmpfs", "-o", f"size={size}", "none", place], check=True)
    try:
        yield place
    finally:
        subprocess.run(["umount", place], check=True)


def limited() -> None:
    """For a program that begins: a limit of 1 MiB for each file, beyond which a write fails and no signal comes."""
    signal.signal(signal.SIGXFSZ, signal.SIG_IGN)
    resource.setrlimit(resource.RLIMIT_FSIZE, (MIB, resource.RLIM_INFINITY))
