"""Which list of known differences is a QEMU's."""
import os
import re
import subprocess
from typing import Dict, NamedTuple, Tuple

SECONDS = 20  # in which a QEMU says its version
NAMED = re.compile(r"qemu-([0-9]+)\.([0-9]+)\.json")
# Versions that have no list of their own, by the one whose list they were judged with: nothing differs outside it.
JUDGED_WITH: Dict[Tuple[int, ...], Tuple[int, ...]] = {(10, 0): (11, 1)}


class Listed(NamedTuple):
    """A list's path, and what is to be said before it is used, or nothing."""

    path: str
    notice: str


def version_of(program: str) -> Tuple[int, ...]:
    """Major and minor version of a QEMU; nothing if it isn't known."""
    try:
        said = subprocess.run([program, "--version"], stdout=subprocess.PIPE, stderr=subprocess.DEVNULL, timeout=SECONDS, check=False).stdout.decode("utf-8", "replace")
    except (OSError, subprocess.SubprocessError):
        return ()
    found = re.search(r"version ([0-9]+)\.([0-9]+)", said)
    return (int(found[1]), int(found[2])) if found else ()


def list_for(folder: str, program: str) -> Listed:
    """The list of a QEMU: that of its version, or the one that it was judged with, else that of the next older version that has a list."""
    lists: Dict[Tuple[int, ...], str] = {(int(it[1]), int(it[2])): it[0] for it in map(NAMED.fullmatch, os.listdir(folder)) if it}
    there = version_of(program)
    wanted = JUDGED_WITH.get(there, there)
    own = wanted if wanted in lists else max((it for it in lists if it <= there), default=min(lists))
    notice = "" if own == wanted or not there else (
        f"this is QEMU {there[0]}.{there[1]}, and the list of known differences is that of QEMU {own[0]}.{own[1]}: what QEMU {there[0]}.{there[1]} does otherwise is reported as a new difference")
    return Listed(os.path.join(folder, lists[own]), notice)
