"""Checks of Linux whose commands fail, or get no answer: which requests fail, which come right, and what Linux says of it."""
from __future__ import annotations

import os
import re
from typing import List, Sequence, Tuple

import images
from harness import Guest, contents, counted, linux
from suite import Check, Failed, expect


# the log's line of a read that fails for sector 1000
FAILS_1000 = r"fail \d+ with 40 at sector 1000, by the rule for 1000"

# what Linux says of commands that did not come right, and of those that failed by UNC at sector 1000
# SDBS of the failure is gone where Linux clears that of an answer before, which it has read: it reads PxIS, and then writes what it read
ENDED = [r"ata1(\.00)?: (exception Emask .*|irq_stat 0x4000000[08]|failed command: READ FPDMA QUEUED|cmd 60/.*|status: \{ DRDY (ERR )?\}|EH complete|device reported .*)"]
MEDIUM = [r"ata1\.00: (error: \{ UNC \}|.*NCQ.*)", r"(blk_update_request: )?(I/O|critical medium) error, dev sda, sector 1000 .*",
          r"sd 0:0:0:0: \[sda\] tag#\d+ (FAILED Result: .*|Sense Key : Medium Error \[current\] ?|Add\. Sense: Unrecovered read error - auto reallocate failed|CDB: Read\(10\) .*)",
          r"Buffer I/O error on dev sda, logical block 125, async page read"]


def numbered(room: str) -> str:
    """An image whose blocks say where they are."""
    image = os.path.join(room, "disk.img")
    with open(image, "wb") as file:
        file.write(images.numbered_blocks(512, 4096))
    return image


def linux_error(room: str) -> str:
    """One of the commands in the queue fails: its request fails, and all others come right."""
    image = numbered(room)
    before = contents(image)
    guest = Guest(room, ["--image", image, "--fail", "1000:40", "--delay", "2000"], linux(room, "error"), recorded=image)
    guest.end(240)
    guest.log_is_usual([FAILS_1000, r"the queue's journal of \d+ entries was handed out"])
    guest.linux_is_usual([*ENDED, *MEDIUM])
    results = guest.results()
    expect(results["reads"] == "requests 5000 compared 4999 errors 1 wrong 0", f"reads: {results['reads']}")
    expect(results["again"] == "512", "the sector can't be read afterwards")
    expect(results["depth"] == "32", "NCQ was given up")
    expect(contents(image) == before, "the image has changed, and nobody wrote")
    logs = sum(guest.codes().get(code, 0) for code in (0x2F, 0x47))  # READ LOG EXT, READ LOG DMA EXT
    expect(logs == 1, f"the log of the failed command was not read once: {counted(guest.codes())}")
    return "1 of 5,000 reads failed, 4,999 right, log 10h read"


def troubled(room: str, test: str, options: Sequence[str], logged: Sequence[str], linux_says: Sequence[str]) -> Guest:
    """Reads on a disk that goes wrong. Nobody writes, so the image stays."""
    image = numbered(room)
    before = contents(image)
    guest = Guest(room, ["--image", image, "--delay", "2000", *options], linux(room, test), recorded=image)
    guest.end(300)
    guest.log_is_usual([*logged, r"the queue's journal of \d+ entries was handed out"])
    guest.linux_is_usual(linux_says)
    expect(contents(image) == before, "the image has changed, and nobody wrote")
    return guest


def linux_lasting(room: str) -> str:
    """A sector fails always: so do its requests, and all others come right."""
    guest = troubled(room, "lasting", ["--fail", "1000:40:1000000"], [FAILS_1000], [*ENDED, *MEDIUM])
    results = guest.results()
    reads = re.fullmatch(r"requests 5000 compared (\d+) errors ([1-9]\d*) wrong 0", results["reads"])
    if not reads:
        raise Failed(f"reads: {results['reads']}")
    expect(int(reads[1]) + int(reads[2]) == 5000, f"reads: {results['reads']}")
    expect((results["first"], results["again"], results["beside"]) == ("0", "0", "512"), f"first, again and beside: {results}")
    return f"{reads[2]} of 5,000 reads failed, {reads[1]} right"


FAILING = 26  # the rules are about this sector of a command's 32: it belongs to the last request
# the lines of guests/merged.sh: the code of the command that Linux makes of four requests, its first block, and the sector of it that an error names: a
# read's is the rule's, and the requests before it succeed; a write's is its first one
MERGED = {"read": (0x60, 200, None), "write": (0x61, 300, None), "failed_read": (0x60, 100, FAILING), "failed_write": (0x61, 500, 0),
          "failed_dma_read": (0xC8, 152, FAILING), "failed_dma_write": (0xCA, 400, 0)}
# what Linux says of the commands that fail
MERGED_ENDED = [r"ata1\.00: (irq_stat 0x40000001|failed command: (WRITE FPDMA QUEUED|READ DMA|WRITE DMA)|cmd (61|c8|ca)/.*)",
                r"(blk_update_request: )?(I/O|critical medium) error, dev sda, sector (826|4000|1242|3200) .*", r"sd 0:0:0:0: \[sda\] tag#\d+ CDB: Write\(10\) .*"]


def linux_merged(room: str) -> str:
    """Four requests are one command, which fails for a sector of the last one. Of a read the three requests before are right. No request is answered
    whose block was not read, or is not stored."""
    image = numbered(room)
    wanted = bytearray(contents(image))
    failing = [(8 * block + named, 8 * block + FAILING) for _, block, named in MERGED.values() if named is not None]
    rules = [word for _, sector in failing for word in ("--fail", f"{sector}:40:1")]
    guest = Guest(room, ["--image", image, *rules], linux(room, "merged"), recorded=image)
    guest.end(120)
    results = guest.results()
    are_merged(guest)
    answers = ", ".join(f"{name} {results[name]}" for name in MERGED)
    for name, (_, block, named) in MERGED.items():
        form = "r{4}" if named is None else "(?=.*e)[re]{4}" if named == 0 else "r{3}e"
        expect(bool(re.fullmatch(form, results[name])), f"right (r), wrong (w) or failed (e): {answers}")
        for it in range(4):
            if "write" in name and results[name][it] == "r":
                wanted[4096 * (block + it):4096 * (block + it + 1)] = images.block_text(block + it, 2, 4096)
    expect(contents(image) == wanted, f"the image is not what was answered: {answers}")
    guest.log_is_usual([r"the queue's journal of \d+ entries was handed out", *(rf"fail \d+ with 40 at sector {named}, by the rule for {sector}" for named, sector in failing)])
    guest.linux_is_usual([*ENDED, *MEDIUM, *MERGED_ENDED])
    return answers


def are_merged(guest: Guest) -> None:
    """Linux has made one command of each four requests."""
    issued = commands(guest)
    for name, (code, block, _) in MERGED.items():
        found = [(lba, sectors) for it, lba, sectors in issued if it == code and lba // 32 == block // 4]
        expect(found[:1] == [(8 * block, 32)], f"{name}: Linux has not merged the requests from sector {8 * block} on, but issued (LBA, sectors) {found}")


def commands(guest: Guest) -> List[Tuple[int, int, int]]:
    """The code, the LBA and the number of sectors of each command that was read. A disk of 64 MiB needs no bit of an LBA that `device` has."""
    found = []
    for line in guest.log():
        if line.startswith("command "):
            fis = bytes.fromhex(line.split()[2])
            low, high = (3, 11) if fis[2] in (0x60, 0x61) else (12, 13)
            found.append((fis[2], int.from_bytes(fis[4:7] + fis[8:11], "little"), fis[low] | fis[high] << 8))
    return found


def linux_refused_log(room: str) -> str:
    """A command of the queue fails, and the log that names it can't be read: Linux asks all again, and loses none."""
    says = [r"ata1: failed to read log page 10h \(errno=-5\)", r"ata1\.00: (Read log 0x10 page 0x00 failed, Emask 0x1|revalidation failed \(errno=-2\))", r"ata1: hard resetting link"]
    guest = troubled(room, "error", ["--fail", "1000:40", "--refuse-log"], [FAILS_1000, r"the log is refused to \d+"], [*ENDED, *says])
    results = guest.results()
    expect(results["reads"] == "requests 5000 compared 5000 errors 0 wrong 0", f"reads: {results['reads']}")
    expect(any(line.startswith("the log is refused") for line in guest.log()), "the log was not asked for")
    return "5,000 reads right"


def linux_stalled(room: str) -> str:
    """A command of the queue is never answered: Linux resets the link, asks all again, and loses none. The device picks at random, since by
    the lowest slot others wait for longer than Linux does."""
    guest = troubled(room, "stall", ["--stall", "1000", "--pick", "random"], [r"stall \d+ at sector 1000"], [*ENDED, r"ata1: hard resetting link"])
    results = guest.results()
    expect(results["reads"] == "requests 5000 compared 5000 errors 0 wrong 0", f"reads: {results['reads']}")
    expect(any(line.startswith("stall ") for line in guest.log()), "no command was stalled")
    expect(bool(re.search(r"ata1: hard resetting link", guest.serial())), "Linux has not reset the link")
    return "5,000 reads right after a reset of the link"


CHECKS = [Check(linux_error, title="Linux, an error in the queue"), Check(linux_lasting, title="Linux, a lasting error", is_long=True),
          Check(linux_merged, title="Linux, merged requests over a failing sector"), Check(linux_refused_log, title="Linux, a log that is refused", is_long=True),
          Check(linux_stalled, title="Linux, a command without an answer")]
