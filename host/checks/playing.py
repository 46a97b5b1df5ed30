"""Scripts of records, played again: by a player over the library, and by `ahci replay` if it is built."""
from __future__ import annotations

import os
import re
import subprocess
import sys
from typing import Any, Dict, List, Set

import pace
from suite import Failed, Skipped, expect

TOP = os.path.dirname(os.path.dirname(os.path.dirname(os.path.realpath(__file__))))
STRETCH = os.path.join(TOP, "host", "stretch")
PROGRAM = os.path.join(TOP, "crates", "ahci", "out", "rlib", "ahci", "ahci")
SECTOR = 512
MOST_SCRIPT = 64 << 20
SECONDS = 240

sys.dont_write_bytecode = True
sys.path.insert(0, os.path.dirname(STRETCH))

from records import COLLECT, LEFT, LOSS, READ, RESET, WRITE, ZERO, Entry, Record  # noqa: E402


def stretch(words: List[str], **more: Any) -> "subprocess.CompletedProcess[Any]":
    """Runs `stretch`, whatever comes of it."""
    return pace.ran([STRETCH, *words], SECONDS, stderr=subprocess.PIPE, **more)


def scripted(record: str, path: str, *words: str) -> str:
    """Makes a script of a stretch of a record, and returns its path."""
    with open(path, "wb") as file:
        done = stretch(["script", record, *words], stdout=file)
    if done.returncode or done.stderr:
        raise Failed(f"stretch script {' '.join(words)}: status {done.returncode}, {done.stderr.decode()}")
    return path


def sectors_of(record: str, *words: str) -> bytes:
    """The disk after an entry of a record, by its bytes alone."""
    done = stretch(["sectors", record, *words], stdout=subprocess.PIPE)
    if done.returncode or done.stderr:
        raise Failed(f"stretch sectors {' '.join(words)}: status {done.returncode}, {done.stderr.decode()}")
    return bytes(done.stdout)


def replayed(script: str, player: str) -> bytes:
    """The disk after a script. No line of it may be refused."""
    if not os.path.exists(player):
        raise Skipped(f"there is no {player}")
    image = f"{script}.image"
    with open(script, "rb") as text:
        done = pace.ran([player, "--image", image], SECONDS, stdin=text, stdout=subprocess.PIPE, stderr=subprocess.PIPE)
    refused = [line for line in done.stdout.split(b"\n") if line.startswith(b"refused")]
    if done.returncode or refused:
        raise Failed(f"{script} is not played to its end: {done.stderr.decode()}, {len(refused)} lines are refused")
    with open(image, "rb") as file:
        sectors = file.read()
    by_program(script, sectors)
    return sectors


def by_program(script: str, image: bytes) -> None:
    """Replays a script by the program, which shows each sector by its first byte."""
    if not os.access(PROGRAM, os.X_OK):
        return
    with open(script, "rb") as file:
        text = file.read() + b"".join(b"show %d\n" % lba for lba in range(len(image) // SECTOR))
    if len(text) > MOST_SCRIPT:
        return
    done = pace.ran([PROGRAM, "replay"], SECONDS, input=text, stdout=subprocess.PIPE, stderr=subprocess.PIPE)
    shown = [line for line in done.stdout.decode().split("\n") if line.startswith("sector ")]
    wanted = [f"sector {lba} {image[SECTOR * lba]:02x}" for lba in range(len(image) // SECTOR)]
    if done.returncode or shown != wanted:
        raise Failed(f"ahci replay: status {done.returncode}, {done.stderr.decode()}; its sectors are {'the same' if shown == wanted else 'others'}")


def touched(record: Record, first: int, last: int) -> Set[int]:
    """The sectors that the commands of a stretch name."""
    found: Set[int] = set()
    for it in record.entries(record.before(first)):
        if it.number > last:
            break
        if it.kind in (READ, WRITE, ZERO) and it.number >= first:
            found.update(range(it.lba, it.lba + it.count))
    return found


def must_play(folder: str, room: str, first: int, last: int, player: str) -> int:
    """A stretch plays to the sectors that the disk had after it; how many sectors it named."""
    script = scripted(folder, os.path.join(room, f"stretch-{first}.ahci"), "--from", str(first), "--to", str(last))
    played, wanted = replayed(script, player), sectors_of(folder, "--to", str(last))
    names = touched(Record(folder), first, last)
    wrong = [lba for lba in names if played[SECTOR * lba:SECTOR * (lba + 1)] != wanted[SECTOR * lba:SECTOR * (lba + 1)]]
    if wrong:
        raise Failed(f"entries {first} to {last}: {len(wrong)} of {len(names)} sectors play to others: {wrong[:5]}")
    return len(names)


# ---- large disks


def image_of(record: str, path: str, *words: str) -> None:
    """A sparse file of a large disk after an entry of its record: what the record has of it, or with --base all."""
    with open(path, "wb") as file:
        done = stretch(["sectors", record, *words], stdout=file)
    said = r"" if "--base" in words else r"stretch: the record has \d+ of the disk's \d+ sectors; the others are holes, and --base FILE takes them from a file\n"
    expect(done.returncode == 0 and bool(re.fullmatch(said, done.stderr.decode())), f"stretch sectors {' '.join(words)}: status {done.returncode}, {done.stderr.decode()}")


def names_of(record: Record, script: str) -> List[int]:
    """The sectors of a large disk that a script has, in its order: those of the commands of its stretch, and of what was outstanding before it."""
    with open(script, "rb") as text:
        head = re.search(rb"^# entries (\d+) to (\d+) of a record", text.read(4096), re.MULTILINE)
    if not head:
        raise Failed(f"{script} does not say which entries it has")
    first, last = int(head[1]), int(head[2])
    outstanding: Dict[int, Entry] = {}
    named: Set[int] = set()
    for it in record.entries(record.before(first)):
        if it.number > last:
            break
        if it.number == first:
            named.update(lba for command in outstanding.values() for lba in range(command.lba, command.lba + command.count))
        if it.kind in (LEFT, ZERO) and it.number >= first:
            named.update(range(it.lba, it.lba + it.count))
        elif it.kind in (READ, WRITE):
            outstanding[it.tag] = it
            named.update(range(it.lba, it.lba + it.count) if it.number >= first else ())
        elif it.kind == COLLECT:
            outstanding.pop(it.tag, None)
        elif it.kind in (RESET, LOSS):
            outstanding.clear()
    return sorted(lba for lba in named if lba < record.sectors)


def far_plays(record: str, script: str, image: str, player: str, *words: str) -> List[int]:
    """A script of a large disk plays to the sectors that an image of the whole disk has. Which ones these are."""
    played, names = replayed(scripted(record, script, *words), player), names_of(Record(record), script)
    with open(image, "rb") as file:
        wrong = [lba for at, lba in enumerate(names) if played[SECTOR * at:SECTOR * (at + 1)] != os.pread(file.fileno(), SECTOR, SECTOR * lba)]
    expect(len(played) == SECTOR * len(names) and not wrong, f"{script}: a disk of {len(played) // SECTOR} sectors; {len(wrong)} of {len(names)} play to others: {wrong[:5]}")
    return names
