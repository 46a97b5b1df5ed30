"""Checks of another disk that is plugged in where one was pulled out: each disk has its own sectors, name, image and record, and nothing of one comes to the other."""
from __future__ import annotations

import os
import re
import subprocess
from typing import List, Sequence, Tuple

import errors
import images
from harness import PROGRAM, SANITIZED, SECTOR, Guest, contents, digest, linux, makes
from images import VFIO_USER
import pace
import playing
from provoked import EVENTFUL, FINE
from suite import Check, expect

SECONDS = 60
FILL = b"\x5a" * (4 * SECTOR) + bytes(4 * SECTOR)  # what the driver writes, and what it trims of that


def written(room: str, name: str, content: bytes) -> str:
    path = os.path.join(room, name)
    with open(path, "wb") as file:
        file.write(content)
    return path


def filled(content: bytes) -> bytes:
    """A disk's sectors after the driver's write of sectors 100 to 107 and its trim of the last four."""
    return content[:100 * SECTOR] + FILL + content[108 * SECTOR:]


def run(options: Sequence[str], steps: Sequence[str], status: int = 0) -> Tuple[List[str], List[str]]:
    words = [SANITIZED, "run", "--transport", VFIO_USER, "--hold", "0", *options, "--", EVENTFUL, *steps]
    done = pace.ran(words, SECONDS, stdout=subprocess.PIPE, stderr=subprocess.PIPE, text=True)
    expect(done.returncode == status, f"{' '.join(options)}: status {done.returncode}: {done.stdout[-300:]}{done.stderr[-1000:]}")
    return done.stdout.splitlines(), done.stderr.splitlines()


def exchanged(room: str) -> str:
    """A driver writes to three disks, one after the other in the same slot, and trims: the second one has an image, and the third none. Each has its own name, sectors, image and record."""
    before = [images.pattern(2048 * SECTOR, "first"), images.pattern(1000 * SECTOR, "second"), bytes(1000 * SECTOR)]
    first, second = (written(room, f"{name}.img", content) for name, content in zip(("first", "second"), before))
    script = written(room, "it.events", (f"on first READ FPDMA QUEUED do unplug\non 3rd write PxSCTL do plug another {second}\n"
                                         "on 2nd READ FPDMA QUEUED do unplug\non 7th write PxSCTL do plug another\n").encode())
    record = os.path.join(room, "record")
    wanted: List[str] = []
    for number, content in enumerate(before, 1):
        wanted += [f"named: {number:08d}, {len(content) // SECTOR} sectors", f"held: {content[100 * SECTOR:][:4].hex()}, {FINE}", f"fill: {FINE}", f"trim: {FINE}", f"held: 5a5a5a5a, {FINE}"]
        if number < len(before):
            wanted += ["unanswered: no answer", "link: DET 0", "comreset: 0 messages"]
    printed, said = run(["--image", first, "--script", script, "--record", record], [it.split(":")[0] for it in wanted])
    wrong = [f"`{came}`, and `{it}` is right" for came, it in zip([*printed, *["nothing"] * len(wanted)], wanted) if came != it]
    expect(printed == wanted and not said, f"{(wrong or printed)[0]}; {said}")
    for path, content in ((first, before[0]), (second, before[1])):
        expect(contents(path) == filled(content), f"{path} has not what was written to its disk, and nothing else")
    entries = [makes(record, first, room), makes(f"{record}.2", second, room)]
    expect(playing.sectors_of(f"{record}.3") == filled(before[2]), "the record of the third disk ends with another one")
    return f"three disks; records of {' and '.join(entries)}"


def refused(room: str) -> str:
    """A script whose file isn't there, or that loses the power of a disk without one, is refused; and where a disk is in, or another server has the file, none is plugged in."""
    line, none = "on first READ FPDMA QUEUED do plug another", os.path.join(room, "none.img")
    script = os.path.join(room, "it.events")
    image = written(room, "disk.img", bytes(2048 * SECTOR))
    cases: Sequence[Tuple[str, List[str], List[str]]] = (
        (f"{line} {none}", [], [f"--image {none}: No such file or directory", f"{script}:1: plug another: its file can't be plugged in"]),
        (f"{line} {room}", [], [f"--image {room}: this is no regular file", f"{script}:1: plug another: its file can't be plugged in"]),
        (f"on time 9s do power_loss\n{line}", ["--image", image], [f"{script}:2: plug another: another disk needs a file if there is a power_loss, for the sectors that it leaves"]))
    for text, options, wanted in cases:
        written(room, "it.events", f"{text}\n".encode())
        done = pace.ran([PROGRAM, "run", "--script", script, *options, "--", "true"], SECONDS, stdout=subprocess.PIPE, stderr=subprocess.PIPE, text=True)
        expect(done.returncode == 2 and done.stderr.splitlines() == [f"ahci-hba: {it}" for it in wanted], f"{text}: status {done.returncode}, {done.stderr}")
    log = os.path.join(room, "log")
    written(room, "it.events", f"{line}\n".encode())
    printed, said = run(["--sectors", "2048", "--script", script, "--log", log], ["named", "read", "named"])
    expect(printed == ["named: 00000001, 2048 sectors", f"read: {FINE}", "named: 00000001, 2048 sectors"] and not said, f"{printed}, {said}")
    expect(b"no other disk is plugged in, since one is" in contents(log), "the log doesn't say that a disk is in")
    # the image of the disk that was pulled out is still its own
    written(room, "it.events", f"on first READ FPDMA QUEUED do unplug then plug another {image} then plug\n".encode())
    printed, said = run(["--image", image, "--script", script], ["named", "unanswered", "comreset", "named"], status=1)
    expect(printed[-1] == "named: 00000001, 2048 sectors"
           and said == [f"ahci-hba: --image {image}: another server has it", f"ahci-hba: {image} can't be plugged in: there is no disk"], f"{printed}, {said}")
    return f"{len(cases) + 2} scripts"


def linux_exchanged(room: str) -> str:
    """Linux reads and writes in a full queue when its disk is pulled out and another one plugged in: it finds another serial number, its user sees each request that fails, and no
    write for the first disk comes to the second one."""
    image, other, record = errors.numbered(room), written(room, "other.img", images.pattern(1 << 21, "other")), os.path.join(room, "record")
    before = contents(other)
    script = written(room, "it.events", f"on every READ FPDMA QUEUED do slow 20ms\non 1000th any do unplug then wait 2s then plug another {other}\n".encode())
    guest = Guest(room, ["--image", image, "--script", script, "--record", record, "--delay", "2000", "--pick", "random"], linux(room, "other"))
    guest.end(300)
    results = guest.results()
    expect((results.get("first"), results.get("second")) == ("00000001", "00000002"), f"the serial numbers are {results.get('first')} and {results.get('second')}: {guest.serial()[-1500:]}")
    found = re.fullmatch(r"requests \d+ compared \d+ errors (\d+) wrong (\d+)", results.get("mixed", ""))
    expect(bool(found) and found is not None and int(found[1]) > 0 and found[2] == "0", f"of the first disk's requests: {results.get('mixed')}")
    expect(results["found"].split()[0] == digest(before), "the second disk isn't as it was plugged in")
    expect(bool(re.fullmatch(r"requests 800 compared \d+ errors 0 wrong 0", results["again"])), f"of the second disk's requests: {results['again']}")
    expect(results["disk"].split()[0] == digest(contents(other)), "the second image isn't the disk that Linux read last")
    entries = [makes(record, image, room), makes(f"{record}.2", other, room)]
    return f"{found[1] if found else 0} requests failed; records of {' and '.join(entries)}"


CHECKS = [Check(exchanged, title="Another disk, step by step"), Check(refused, title="Other disks that can't be"), Check(linux_exchanged, title="Linux, another disk")]
