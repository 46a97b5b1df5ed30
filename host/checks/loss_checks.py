"""Checks of the judge of losses of power: what README.md, "Power loss", allows, case by case, by records that are made here."""
from __future__ import annotations

import os
import struct
from typing import Callable, List, Sequence, Tuple

from power_loss import judge_end, judge_losses
from records import ACCEPT, COLLECT, ENTRY, FAIL, FLUSH, HEADER, LEFT, LOSS, MAGIC, RESET, SECTOR, SERVE, WRITE, ZERO, Record
from suite import Check, expect

SECTORS = 8

# The steps: "w TAG LBA CONTENTS" issues a write, a letter for each of its sectors, "f .." one with FUA; "s TAG.." carries out, "c TAG" answers, "flush", "reset"; "x TAG" fails it; "z LBA COUNT"
# makes sectors zeros, which are dots. The disk begins with the letter `o` in each sector. Then what a loss has left of sectors 0 to 7, whether there is a cache, and whether the rule allows it.
Case = Tuple[str, str, bool, bool]
CASES: Sequence[Case] = (
    # a write that was answered: kept or lost as a whole, with a cache; else kept
    ("w 1 2 aa; s 1; c 1", "ooaaoooo", True, True), ("w 1 2 aa; s 1; c 1", "oooooooo", True, True), ("w 1 2 aa; s 1; c 1", "ooaooooo", True, False),
    ("w 1 2 aa; s 1; c 1", "oooaoooo", True, False), ("w 1 2 aa; s 1; c 1", "ooaaoooo", False, True), ("w 1 2 aa; s 1; c 1", "oooooooo", False, False),
    # other sectors stay, and nothing comes that nobody wrote
    ("w 1 2 aa; s 1; c 1", "aoaaoooo", True, False), ("w 1 2 aa; s 1; c 1", "oobboooo", True, False),
    # a flush, and one before the write
    ("w 1 2 aa; s 1; c 1; flush", "oooooooo", True, False), ("w 1 2 aa; s 1; c 1; flush", "ooaaoooo", True, True), ("flush; w 1 2 aa; s 1; c 1", "oooooooo", True, True),
    ("w 1 0 a; s 1; c 1; flush; w 1 0 b; s 1; c 1", "aooooooo", True, True), ("w 1 0 a; s 1; c 1; flush; w 1 0 b; s 1; c 1", "oooooooo", True, False),
    # FUA is about its own sectors
    ("f 1 2 aa; s 1; c 1", "oooooooo", True, False), ("f 1 2 aa; s 1; c 1", "ooaaoooo", True, True), ("w 1 0 a; s 1; c 1; f 1 2 b; s 1; c 1", "oobooooo", True, True),
    ("w 1 2 aa; s 1; c 1; f 1 2 b; s 1; c 1", "oobooooo", True, True), ("w 1 2 aa; s 1; c 1; f 1 2 b; s 1; c 1", "oobaoooo", True, True),
    ("w 1 2 aa; s 1; c 1; f 1 2 b; s 1; c 1", "ooaaoooo", True, False), ("f 1 2 aa; s 1", "oooooooo", True, True), ("f 1 2 a; s 1; c 1; w 1 2 b; s 1; c 1", "ooaooooo", True, True),
    ("f 1 2 a; s 1; c 1; w 1 2 b; s 1; c 1", "oooooooo", True, False),
    # the order in which writes are carried out, and the later one first
    ("w 1 0 aa; s 1; c 1; w 1 1 bb; s 1; c 1", "abbooooo", True, True), ("w 1 0 aa; s 1; c 1; w 1 1 bb; s 1; c 1", "obbooooo", True, True),
    ("w 1 0 aa; s 1; c 1; w 1 1 bb; s 1; c 1", "aaoooooo", True, True), ("w 1 0 aa; s 1; c 1; w 1 1 bb; s 1; c 1", "aabooooo", True, False),
    ("w 1 0 a; w 2 0 b; s 2; s 1; c 1; c 2", "aooooooo", True, True), ("w 1 0 a; w 2 0 b; s 2; s 1; c 1; c 2", "booooooo", False, False),
    ("w 1 0 a; w 2 0 b; s 1 2; c 1; c 2", "booooooo", False, True), ("w 1 0 a; w 2 0 b; s 1 2; c 1; c 2", "aooooooo", False, False),
    # the same contents twice
    ("w 1 0 aa; s 1; c 1; w 1 1 ab; s 1; c 1", "aabooooo", True, True), ("w 1 0 aa; s 1; c 1; w 1 1 ab; s 1; c 1", "oabooooo", True, True),
    ("w 1 0 aa; s 1; c 1; w 1 1 ab; s 1; c 1", "oaoooooo", True, False), ("w 1 0 aa; s 1; c 1; w 1 1 ab; s 1; c 1", "aaoooooo", True, True),
    # one that was not answered may be cut, whether it was carried out or not
    ("w 1 2 aaa; s 1", "ooaooooo", True, True), ("w 1 2 aaa; s 1", "oooaaooo", False, True), ("w 1 2 aaa", "oooaoooo", False, True), ("w 1 2 aaa; s 1", "oobooooo", True, False),
    ("w 1 0 a; s 1; c 1; w 2 0 b", "aooooooo", False, True), ("w 1 0 a; s 1; c 1; w 2 0 b", "booooooo", False, True), ("w 1 0 a; s 1; c 1; w 2 0 b", "oooooooo", False, False),
    ("w 1 0 a; w 2 0 b", "aooooooo", False, True), ("w 1 0 a; w 2 0 b", "booooooo", False, True),
    # what was dropped or has failed has written nothing; what was carried out before is unflushed
    ("w 1 2 aa; reset", "ooaaoooo", True, False), ("w 1 2 aa; reset", "oooooooo", True, True), ("w 1 2 aa; s 1; reset", "ooaooooo", False, True), ("w 1 2 aa; x 1", "ooaaoooo", True, False),
    # a trim: each sector by itself is zeros or as before with a cache, until a flush; else zeros
    ("z 2 2", "oo..oooo", True, True), ("z 2 2", "oooooooo", True, True), ("z 2 2", "oo.ooooo", True, True), ("z 2 2", "oo..o.oo", True, False), ("z 2 2", "oob.oooo", True, False),
    ("z 2 2", "oo..oooo", False, True), ("z 2 2", "oooooooo", False, False), ("z 2 2", "ooo.oooo", False, False), ("z 2 2; reset", "oooooooo", True, True),
    ("z 2 2; reset", "oooooooo", False, False), ("z 2 2; flush", "oo..oooo", True, True), ("z 2 2; flush", "oooooooo", True, False), ("flush; z 2 2", "oooooooo", True, True),
    # a trim and a write, in the order in which they were carried out
    ("w 1 2 aa; s 1; c 1; z 2 2", "ooaaoooo", True, True), ("w 1 2 aa; s 1; c 1; z 2 2", "oooooooo", True, True), ("w 1 2 aa; s 1; c 1; z 2 2", "oo..oooo", True, True),
    ("w 1 2 aa; s 1; c 1; z 2 1", "oo.aoooo", True, True), ("w 1 2 aa; s 1; c 1; z 2 1", "oo.ooooo", True, True), ("w 1 2 aa; s 1; c 1; z 2 1", "ooaooooo", True, False),
    ("w 1 2 aa; s 1; c 1; z 2 1", "ooaaoooo", False, False), ("z 2 2; w 1 2 a; s 1; c 1", "ooa.oooo", True, True), ("z 2 2; w 1 2 a; s 1; c 1", "ooaooooo", True, True),
    ("z 2 2; w 1 2 a; s 1; c 1", "oo.ooooo", True, True), ("z 2 2; w 1 2 a; s 1; c 1", "oo..oooo", False, False), ("z 2 2; f 1 2 a; s 1; c 1", "oo..oooo", True, False),
    ("z 2 2; z 3 2", "oo.o.ooo", True, True), ("z 2 2; flush; z 3 2", "oo...ooo", True, True), ("z 2 2; flush; z 3 2", "oo.ooooo", True, False),
    # zeros that become zeros stay, and come back as what was before them if they were unflushed
    ("w 1 2 ..; s 1; c 1; flush; z 2 2", "oo..oooo", True, True), ("w 1 2 ..; s 1; c 1; flush; z 2 2", "oooooooo", True, False), ("w 1 2 ..; s 1; c 1; z 2 2", "oooooooo", True, True),
)


def entry(kind: int, tag: int = 0, flag: int = 0, count: int = 0, lba: int = 0, data: bytes = b"") -> bytes:
    return ENTRY.pack(kind, tag, flag, 0, count, lba, 0) + data


def letters(text: str) -> bytes:
    return b"".join((bytes(1) if it == "." else it.encode("ascii")) * SECTOR for it in text)


def step(text: str) -> bytes:
    """The entries of a step."""
    words = text.split()
    if words[0] in ("w", "f"):
        data = letters(words[3])
        return entry(WRITE, int(words[1]), words[0] == "f", len(words[3]), int(words[2]), data) + entry(ACCEPT, int(words[1]))
    if words[0] == "s":
        tags = bytes(map(int, words[1:]))
        return entry(SERVE, count=len(tags), data=tags.ljust(8, b"\0"))
    if words[0] == "x":
        return entry(FAIL, int(words[1]), 0x10)
    if words[0] == "z":
        return entry(ZERO, lba=int(words[1]), count=int(words[2]))
    return entry({"c": COLLECT, "flush": FLUSH, "reset": RESET}[words[0]], int(words[1]) if words[1:] else 0)


def recorded(folder: str, entries: List[bytes], sectors: int = SECTORS) -> Record:
    """A record of a disk that begins with the letter `o` in the first eight sectors."""
    os.makedirs(folder)
    with open(os.path.join(folder, "part.000001"), "wb") as file:
        file.write(HEADER.pack(MAGIC, sectors, 32, 0, 0) + entry(0, count=SECTORS, data=letters("o" * SECTORS)) + b"".join(entries))
    return Record(folder)


def reader(image: bytes) -> Callable[[int], bytes]:
    return lambda lba: image[SECTOR * lba:SECTOR * (lba + 1)]


def cases(room: str) -> str:
    """Each line of the rule, by what it allows and what it doesn't: as the record's loss, and as what an image has after a record."""
    for at, (steps, left, has_cache, is_allowed) in enumerate(CASES):
        reported = f"`{steps}` with{'' if has_cache else 'out'} a cache, and {left}"
        entries, image = [step(it.strip()) for it in steps.split(";")], letters(left)
        ended = judge_end(recorded(os.path.join(room, f"end{at}"), entries), has_cache, reader(image))
        expect((not ended) == is_allowed, f"{reported}: {ended or 'nothing is wrong'}")
        later: List[List[bytes]] = [[], [entry(FLUSH), step("w 3 0 zzzz"), step("s 3")]]
        for more in later:
            record = recorded(os.path.join(room, f"loss{at}{len(more)}"), [*entries, entry(LOSS), entry(LEFT, count=SECTORS, data=image), *more])
            losses = judge_losses(record, has_cache)
            expect(len(losses) == 1 and (not losses[0].fault) == is_allowed, f"{reported}: {losses}")
    return f"{len(CASES)} cases"


def far(room: str) -> str:
    """A trim of 32 GiB all over a disk of 2 TiB: what is zeros already needs no memory, and the disk's first sectors are judged as those of a small disk are."""
    sectors = (1 << 32) - 1
    trims = [entry(ZERO, lba=lba, count=65535) for lba in range(0, sectors - 65535, 64 * 65535)]
    found = (("........", True, True), ("o.oo....", True, True), ("bbbbbbbb", True, False), ("........", False, True), ("ooo.oooo", False, False))
    for at, (left, has_cache, is_allowed) in enumerate(found):
        record = recorded(os.path.join(room, f"far{at}"), [*trims, entry(LOSS), entry(LEFT, count=SECTORS, data=letters(left))], sectors)
        losses = judge_losses(record, has_cache)
        expect(len(losses) == 1 and (not losses[0].fault) == is_allowed, f"{left} with{'' if has_cache else 'out'} a cache: {losses}")
    return f"{len(trims)} ranges"


CHECKS = [Check(cases, title="losses of power"), Check(far, title="a trim of a large disk, and a loss of power")]
