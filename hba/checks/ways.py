"""Which checks run in which way: by vfio-user, as a current QEMU has the controller, and by the proxy, as QEMU before 10.1 has it."""
from __future__ import annotations

from typing import List

import booting
import debian
import errors
import firmware
import images
import judging
import losing
import others
import provoked
import recording
import recovered
import rough
import served
import shipped
import surviving
import tools
import trimming
from harness import by
from images import PROXY, VFIO_USER
from suite import Check, Skipped

# these have no guest of QEMU, or a way of their own
WITHOUT = ["Command lines", "Arguments of QEMU", "Files that can't be written", "User Mode Linux", "A peer of the proxy that is wrong", "Events, step by step",
           "Events and options", "Events that never happen", "Scripts that are judged",
           "Power losses that can't be", "Recoveries, step by step", "Recoveries, steps that are left out", "Recoveries, answers", "Recoveries, two events",
           "Outcomes that are refused", "Linux and each script that is shipped",
           "Complaints of the tools", "Another disk, step by step", "Other disks that can't be"]
# these have a driver of our own instead of a QEMU
BARE = ["Garbage", "Memory that never comes", "Reads that fail", "Rules", "Much that is written", "A disk of 2 TiB", "10 GiB that are written", "A limit of the record", "A limit of a slow record",
        "A kill after an answer", "A kill after an answer, with a slow record", "A slow record", "A record without room", "The judge, faults of a driver",
        "The judge, drivers without a fault", "The judge, from a stretch on", "Power losses, with a cache", "Power losses, without a cache",
        "Power losses, a large disk", "Power losses that are wrong", "Power losses and a kill", "Power losses without an image that can be written",
        "Power losses, 2,000", "Trims", "Trims without memory", "Trims, as they are reported", "Trims that are not in the image", "Trims and a kill",
        "Trims that fail", "Trims and a delay", "A trim of 2 TiB", "Trims and a limit of the record"]
# these run by the proxy, too
ALSO = ["SeaBIOS and a boot sector", "SeaBIOS and an error", "Linux, flushes and a kill", "Garbage", "A killed guest", "Rules", "Reads that fail", "A kill after an answer",
        "The judge, faults of a driver", "The judge, drivers without a fault"]
# and these by the proxy in the long checks
ALSO_LONG = ["GRUB on BIOS", "U-Boot"]


def missing_qemu(_: str) -> str:
    """Whether there is a QEMU with vfio-user; without one its checks run by the proxy, and some don't run."""
    images.qemu_of(VFIO_USER)
    return "there is one"


def has_qemu(way: str) -> bool:
    try:
        return bool(images.qemu_of(way))
    except Skipped:
        return False


def ways_of(check: Check, has_new: bool) -> List[Check]:
    """The check in each of its ways."""
    if check.name in WITHOUT:
        return [check]
    by_vfio_user = [by(VFIO_USER, check)] if has_new or check.name in BARE else []
    if check.name in ALSO_LONG and by_vfio_user:
        return [*by_vfio_user, by(PROXY, check)._replace(is_long=True)]
    return by_vfio_user + ([by(PROXY, check)] if check.name in ALSO or not by_vfio_user else [])


def checks() -> List[Check]:
    has_new = has_qemu(VFIO_USER)
    both = [*rough.CHECKS, *recording.CHECKS, *booting.CHECKS, *errors.CHECKS, *debian.CHECKS, *judging.CHECKS, *provoked.CHECKS, *recovered.CHECKS, *surviving.CHECKS,
            *shipped.CHECKS, *firmware.CHECKS, *losing.CHECKS, *others.CHECKS, *tools.CHECKS, *trimming.CHECKS]
    found = [it for check in both for it in ways_of(check, has_new)] + served.CHECKS
    return found if has_new else [Check(missing_qemu, title="A QEMU with vfio-user"), *found]
