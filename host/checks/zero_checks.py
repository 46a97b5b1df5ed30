"""Checks of records in which DATA SET MANAGEMENT has made sectors zeros: what `stretch` makes of them."""
from __future__ import annotations

import os
from typing import List

from loss_checks import entry, letters, recorded, step
from playing import scripted, stretch
from probe import SECTOR
from records import SECTORS, ZERO
from suite import Check, expect

LARGE = 1 << 20  # sectors


def disk_after(folder: str, image: str, *words: str) -> bytes:
    """The first sectors of the disk after a record."""
    with open(image, "wb") as file:
        done = stretch(["sectors", folder, *words], stdout=file)
    expect(done.returncode == 0, f"status {done.returncode}: {done.stderr!r}")
    with open(image, "rb") as file:
        return file.read(32 * SECTOR)


def zeros_by_stretch(room: str) -> str:
    """Sectors that became zeros are zeros in the disk after a record, whatever FILE has there, and a script writes them by a command of its own; those beside them stay."""
    trim: List[bytes] = [step("w 3 1 ab"), step("s 3"), step("c 3"), entry(ZERO, lba=2, count=5), step("w 3 4 c"), step("s 3"), step("c 3")]
    folder, image, base = (os.path.join(room, it) for it in ("small", "image", "base"))
    recorded(folder, trim)
    expect(disk_after(folder, image) == letters("oa..c..o"), "the small disk has other sectors")
    with open(scripted(folder, os.path.join(room, "script"), "--all-sectors"), encoding="ascii") as file:
        lines = file.read().splitlines()
    at = lines.index("# DATA SET MANAGEMENT makes 5 sectors zeros")
    expect(lines[at + 1] == "write 0 2 5 00", f"the script goes on with {lines[at + 1]}")
    folder = os.path.join(room, "large")
    recorded(folder, [entry(SECTORS, count=8, lba=8, data=letters("pppppppp")), entry(ZERO, lba=12, count=12)], LARGE)
    with open(base, "wb") as file:
        file.write(letters("b" * 32))
    expect(disk_after(folder, image, "--base", base) == letters("b" * 8 + "pppp" + "." * 12 + "b" * 8), "the large disk has other sectors")
    return "a small disk and a large one"


CHECKS = [Check(zeros_by_stretch, title="zeros in a record")]
