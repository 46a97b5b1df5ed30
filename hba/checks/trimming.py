"""Checks of DATA SET MANAGEMENT with TRIM: which sectors are zeros afterwards, in the guest, in the image and in the record, and what it costs."""
from __future__ import annotations

import hashlib
import json
import os
import re
import subprocess
from typing import Any, List, NamedTuple, Sequence, Tuple

import pace
import playing
from harness import HERE, PROGRAM, SANITIZED, SECTOR, STARVED, UNMARKED, Guest, blank, contents, digest, environment, file_of_ext4, linux, makes, way_of
from images import pattern
from records import WRITE, ZERO, Record
from rough import STARVES
from suite import Check, expect

TRIMMER = os.path.join(HERE, "checks", "trimmer")
SMALL, LARGE = 8192, 140_000  # sectors of a disk that is in memory, and of one that is over its image
AREA = 8192  # sectors that are not zeros at first
ABORTED = ": error 04"  # what the driver prints of a command that is aborted, as a trim with a range that is not on the disk is (ACS-3, "DATA SET MANAGEMENT"): ABRT,
NO_MEMORY = ": no memory"  # and of one whose answer finds no memory
DRAT_AND_RZAT = 1 << 14 | 1 << 5  # of word 69 of IDENTIFY DEVICE
Ranges = Sequence[Tuple[int, int]]


class Step(NamedTuple):
    """A step of the driver: its words, and what it prints; of a read the sectors, of which it prints the sum."""
    words: List[Any]
    prints: str = ""


def trim(entries: Ranges, prints: str = "") -> Step:
    return Step(["trim", list(entries)], prints)


def steps_of(sectors: int) -> List[Step]:
    """Trims of a disk, and a write into what was trimmed. Of those that fail no sector changes."""
    return [trim([(100, 8)]), trim([(300, 0), (310, 1), (305, 10), (17, 70)]), trim([(16 * at + 1, 3) for at in range(100, 228)]), trim([(0, 0)]), trim([(sectors - 5, 5)]),
            trim([(400, 8), (sectors - 4, 5)], ABORTED), trim([(400, 8), ((1 << 48) - 1, 1)], ABORTED), trim([(408, 8), (sectors, 0)]), Step(["write", 103, 2, 0x5A]),
            trim([(5000, 3000), (5100, 50)]), Step(["write", 6001, 1, 0xA5]), Step(["read", 0, AREA]), Step(["flush"])]


def after(data: bytes, steps: Sequence[Step], zeros: bool = True) -> bytes:
    """The sectors after some steps, if trims make zeros or not."""
    disk = bytearray(data)
    for words, prints in steps:
        name, rest = words[0], words[1:]
        for lba, count in rest[0] if name == "trim" and zeros and prints != ABORTED else ():
            disk[SECTOR * lba:SECTOR * (lba + count)] = bytes(SECTOR * count)
        if name == "write":
            disk[SECTOR * rest[0]:SECTOR * (rest[0] + rest[1])] = bytes([rest[2]]) * (SECTOR * rest[1])
    return bytes(disk)


def image_of(room: str, sectors: int, data: bytes) -> str:
    path = blank(room, sectors)
    with open(path, "r+b") as file:
        file.write(data)
    return path


def driven(room: str, options: Sequence[str], steps: Sequence[Step], binary: str = PROGRAM, status: int = 0, said: str = "") -> List[str]:
    """What checks/trimmer prints of some steps."""
    path = os.path.join(room, "steps.json")
    with open(path, "w", encoding="ascii") as file:
        json.dump([it.words for it in steps], file)
    words = [binary, "run", "--transport", way_of(room), *options, "--", TRIMMER, path]
    done = pace.ran(words, 240, stdout=subprocess.PIPE, stderr=subprocess.PIPE, text=True, env=environment(room))
    expect(done.returncode == status and done.stderr == said, f"{options}: status {done.returncode}: {done.stdout[-300:]}{done.stderr[-2000:]}")
    return str(done.stdout).splitlines()


def printed(steps: Sequence[Step], data: bytes, zeros: bool = True) -> List[str]:
    """What it has to print."""
    lines = []
    for at, (words, prints) in enumerate(steps):
        if words[0] == "read":
            disk = after(data, steps[:at], zeros)
            prints = f" {hashlib.sha256(disk[SECTOR * words[1]:SECTOR * (words[1] + words[2])]).hexdigest()}"
        lines.append(words[0] + prints)
    return lines


def sectors_of(image: str) -> bytes:
    """The first sectors of an image, and its last eight."""
    with open(image, "rb") as file:
        first = file.read(AREA * SECTOR)
        file.seek(-8 * SECTOR, os.SEEK_END)
        return first + file.read()


def trimmed(room: str, sectors: int, name: str, options: Sequence[str] = (), zeros: bool = True) -> int:
    """Trims a disk, with a record. How many ranges became zeros."""
    data, folder, steps = pattern(AREA * SECTOR, "trims"), os.path.join(room, f"record-{name}"), steps_of(sectors)
    image = image_of(room, sectors, data)
    wanted = after(data.ljust(sectors * SECTOR, b"\0"), steps, zeros)
    found = driven(room, ["--image", image, "--record", folder, *options], steps, SANITIZED)
    expect(found == printed(steps, data, zeros), f"{name}: the driver prints {found}")
    expect(sectors_of(image) == wanted[:AREA * SECTOR] + wanted[-8 * SECTOR:], f"{name}: the image has other sectors")
    if sectors <= 131072:
        makes(folder, image, room)
    else:
        playing.far_plays(folder, os.path.join(room, "script"), image, os.path.join(HERE, "out", "play"))
    ranges = [(it.lba, it.count) for it in Record(folder).entries() if it.kind == ZERO]
    named = [it for step in steps if step.words[0] == "trim" and not step.prints and zeros for it in step.words[1] if it[1]]
    expect(ranges == named, f"{name}: the record has the ranges {ranges}")
    return len(ranges)


def small_and_large(room: str) -> str:
    """A driver trims ranges that overlap, are empty, have a part of a page, are the disk's last ones or are not on it: they are zeros when it reads them, in the image and in the record,
    also if the disk is over its image. With --trim advice all stays."""
    counts = [trimmed(room, SMALL, "small"), trimmed(room, LARGE, "large"), trimmed(room, SMALL, "advice", ["--trim", "advice"], False)]
    return f"{', '.join(map(str, counts))} ranges became zeros"


def starved(room: str) -> str:
    """One allocation in forty fails: each trim ends well all the same."""
    data = pattern(AREA * SECTOR, "trims")
    for sectors in (SMALL, LARGE):
        image, steps = image_of(room, sectors, data), steps_of(sectors) * 8
        found = driven(room, ["--image", image], steps, STARVED, said=f"{STARVES}\n")
        wanted = after(data.ljust(sectors * SECTOR, b"\0"), steps)
        expect(found == printed(steps, data), f"the driver prints {found}")
        expect(sectors_of(image) == wanted[:AREA * SECTOR] + wanted[-8 * SECTOR:], "the image has other sectors")
    return f"{len(steps)} steps of each disk"


def reported(room: str) -> str:
    """IDENTIFY DEVICE: word 169 has TRIM in any case, and bits 14 (DRAT) and 5 (RZAT) of word 69 are 1 if trimmed sectors are zeros (ACS-3, "IDENTIFY DEVICE")."""
    for options, bits in (((), DRAT_AND_RZAT), (("--trim", "zeros"), DRAT_AND_RZAT), (("--trim", "advice"), 0)):
        found = driven(room, ["--sectors", "8", *options], [Step(["word", 69]), Step(["word", 169])])
        word = re.fullmatch(r"word ([0-9a-f]{4})", found[0])
        expect(word is not None and int(word[1], 16) & DRAT_AND_RZAT == bits and found[1] == "word 0001", f"{options}: {found}")
    return "words 69 and 169"


def unmarked(room: str) -> str:
    """A program that doesn't write pages into the image that became zeros is found: the image has what was there before."""
    data, steps = pattern(AREA * SECTOR, "trims"), [trim([(800, 800)]), Step(["read", 0, AREA]), Step(["flush"])]
    image = image_of(room, SMALL, data)
    found = driven(room, ["--image", image], steps, UNMARKED)
    expect(found == printed(steps, data), f"the driver prints {found}")
    expect(contents(image) == data, "the fault makes no difference")
    return "the image has the old sectors"


def killed(room: str) -> str:
    """The program is killed once a flush is answered: what was trimmed before it is zeros in the image."""
    for sectors in (SMALL, LARGE):
        data, steps = pattern(AREA * SECTOR, "trims"), steps_of(sectors)
        image = image_of(room, sectors, data)
        found = driven(room, ["--image", image], [*steps, Step(["kill"])], status=-9)[:len(steps)]
        expect(found == printed(steps, data), f"the driver prints {found}")
        wanted = after(data.ljust(sectors * SECTOR, b"\0"), steps)
        expect(sectors_of(image) == wanted[:AREA * SECTOR] + wanted[-8 * SECTOR:], "the image has other sectors")
    return "two images"


def failing(room: str) -> str:
    """A trim that a script fails changes no sector, and one whose answer finds no memory has made all of its ranges zeros."""
    data = pattern(AREA * SECTOR, "trims")
    script = os.path.join(room, "trims.events")
    with open(script, "w", encoding="ascii") as file:
        file.write("on 1st DATA SET MANAGEMENT do fail 04\non 2nd DATA SET MANAGEMENT do no_memory\non 3rd DATA SET MANAGEMENT do slow 20ms\n")
    steps = [trim([(40, 8), (60, 1)], ABORTED), trim([(80, 8), (90, 9)], NO_MEMORY), trim([(120, 8)]), Step(["read", 0, AREA])]
    image = image_of(room, SMALL, data)
    found = driven(room, ["--image", image, "--script", script], steps)
    expect(found == printed(steps, data) and contents(image) == after(data, steps), f"the driver prints {found}, or the image has other sectors")
    return "one fails, one has no memory, one is slow"


def delayed(room: str) -> str:
    """A second of --delay comes before a trim's answer, and not before each of its 512 ranges."""
    data, steps = pattern(AREA * SECTOR, "trims"), [trim([(8 * at, 1) for at in range(512)])]
    image = image_of(room, SMALL, data)
    found = driven(room, ["--image", image, "--delay", "1000000"], steps)
    expect(found == ["trim"] and contents(image) == after(data, steps), f"the driver prints {found}, or the image has other sectors")
    return "512 ranges"


def all_of_a_large_disk(room: str) -> str:
    """Each sector of a disk of 2 TiB is trimmed, whose image has data in its first 4 MiB alone: memory is that of the data, and the image is a hole."""
    sectors, data = (1 << 32) - 1, pattern(AREA * SECTOR, "trims")
    spans = [(lba, min(65535, sectors - lba)) for lba in range(0, sectors, 65535)]
    image = image_of(room, sectors, data)
    steps = [*(trim(spans[at:at + 512]) for at in range(0, len(spans), 512)), Step(["read", 0, 1024]), Step(["flush"]), Step(["memory"])]
    found = driven(room, ["--image", image, "--log", os.path.join(room, "log")], steps)
    expect(found[:-3] == ["trim"] * (len(steps) - 3) and found[-3] == f"read {digest(bytes(1024 * SECTOR))}" and found[-2] == "flush", f"the driver prints {found[-5:]}")
    blocks, memory = os.stat(image).st_blocks * 512 >> 10, int(found[-1].split()[1])
    expect(blocks < 64 and os.path.getsize(image) == sectors * SECTOR and memory < 128, f"{blocks} KiB of the image, {memory} MiB of memory")
    return f"{len(spans)} ranges; {blocks} KiB of the image, {memory} MiB of memory"


def limited(room: str) -> str:
    """A record of a large disk has the pages that trims touch, and never more bytes than its limit."""
    mib, limit = 160, 138_821_728  # the least limit of such a disk: host/README.md
    pages, folder = mib * 256, os.path.join(room, "record")
    image = image_of(room, 8 * pages, pattern(1 << 20, "pages") * mib)
    steps = [trim([(8 * page + 3, 1) for page in range(at, min(at + 512, pages))]) for at in range(0, pages, 512)]
    found = driven(room, ["--image", image, "--record", folder, "--record-limit", str(limit)], steps)
    expect(found == ["trim"] * len(steps), f"the driver prints {found[-3:]}")
    record = Record(folder)
    size, first = sum(len(it.bytes) for it in record.parts), record.parts[0].first
    expect(limit // 2 < size <= limit and len(record.parts) == 2 and first > 0, f"{size} bytes in {len(record.parts)} parts, from entry {first} on")
    return f"{size} bytes of at most {limit}, from entry {first} on"


# ---- Linux

MARK, MARKS = b"this was trimmed\n", 1 << 19  # the line of the two files that are removed, and how many each has


def linux_trims(room: str) -> str:
    """Linux makes ext4 and discards what a file had that is removed, by fstrim, and by itself when mounted with `discard`: nothing of it is left, in the guest and in the image, and the
    other file stays. blkdiscard makes a MiB zeros, and those beside it stay."""
    data, image = pattern(1 << 20, "kept"), blank(room, 65536)
    guest = Guest(room, ["--image", image], linux(room, "trims", data), recorded=image)
    guest.end(240)
    guest.log_is_usual()
    guest.linux_is_usual()
    results = guest.results()
    written = sum(bytes(it.data).count(MARK) for it in Record(guest.record_path).entries() if it.kind == WRITE)
    expect(written > MARKS, f"Linux has written {written} lines of two files that have {MARKS} each")
    for name in ("fstrim", "discard"):
        expect(results[f"left_{name}"] == "0", f"after {name} {results[f'left_{name}']} lines are left")
        expect(results[f"kept_{name}"].split()[0] == digest(data), f"after {name} the file that stays is another")
    zeros = [(it.lba, it.count) for it in Record(guest.record_path).entries() if it.kind == ZERO]
    expect(results["discarded"].split()[0] == digest(bytes(1 << 20)) and zeros[-1] == (30 << 11, 1 << 11), f"blkdiscard: {results['discarded']}, the last trim of {zeros[-1]}")
    found = contents(image)
    expect(found[29 << 20:] == data + bytes(1 << 20) + data, "the image has not what was written beside what was discarded")
    expect(MARK not in found and results["disk"].split()[0] == digest(found), "the image has what was trimmed, or other sectors than Linux has read")
    expect(file_of_ext4(room, image, "kept") == data, "the image has another file")
    return f"{guest.codes().get(6, 0)} trims, {guest.has_recorded}"


CHECKS = [Check(small_and_large, title="Trims"), Check(starved, title="Trims without memory"), Check(reported, title="Trims, as they are reported"),
          Check(unmarked, title="Trims that are not in the image"), Check(killed, title="Trims and a kill"), Check(failing, title="Trims that fail"), Check(delayed, title="Trims and a delay"),
          Check(all_of_a_large_disk, title="A trim of 2 TiB"), Check(limited, title="Trims and a limit of the record"), Check(linux_trims, title="Linux, trims")]
