"""Checks of a record that is slow, has a limit, or has no room: registers are read meanwhile, and nothing is answered before the record has it."""
from __future__ import annotations

import contextlib
import os
import random
import re
import struct
import subprocess
from typing import Dict, List, Tuple

import playing
from harness import PLAYER, PROGRAM, SANITIZED, SECTOR, STALLED, answered, blank, environment, makes, way_of
from files import limited
from records import FAIL, Record, bounds
from rough import READER, WRITER, written
from suite import Check, Failed, expect


def stalled(room: str, millis: int) -> Dict[str, str]:
    """The environment in which each write to the record takes so long, with the program STALLED."""
    return {**environment(room), "AHCI_STALL": str(millis)}


def slow_record(room: str) -> str:
    """Each write to the record takes a second, and no register is read as late. What the machine lets an answer wait for a processor is not counted; its own host may
    stop it, so there are three runs at most."""
    longest = 0.0
    for at in range(3):
        folder = os.path.join(room, f"record{at}")
        printed = answered([STALLED, "run", "--transport", way_of(room), "--image", blank(room, 64), "--record", folder], 2, env=stalled(room, 1000))
        longest = float(printed.partition("the longest took ")[2].split()[0])
        if longest < 500:
            return f"{printed}; {makes(folder, os.path.join(room, 'disk.img'), room)}"
    raise Failed(f"a register was read after {longest} ms, while the record was written")


def limited_record(room: str, limit: int, options: List[str], words: List[str], binary: str, millis: int) -> Tuple[str, str]:
    """Writes without end beside a record that never has more MiB: its folder, and what it has."""
    folder = os.path.join(room, "record")
    command = [binary, "run", "--transport", way_of(room), *options, "--record", folder, "--record-limit", f"{limit}M", "--pick", "random", "--", WRITER, *words]
    largest, process = 0, subprocess.Popen(command, stdin=subprocess.DEVNULL, stdout=subprocess.DEVNULL, stderr=subprocess.PIPE, text=True, env=stalled(room, millis))
    while process.poll() is None:
        largest = max(largest, size_of(folder))
    _, said = process.communicate()
    expect(process.returncode == 0 and not said, f"status {process.returncode}: {said}")
    first, last, cut = bounds(Record(folder))
    expect(limit << 19 < largest <= limit << 20 and 0 < first and not cut, f"{largest} bytes at most, entries {first} to {last}")
    return folder, f"{largest} bytes at most, entries {first} to {last} are left"


def a_limit(room: str, binary: str = PROGRAM, millis: int = 0) -> str:
    """--record-limit: the record never has more bytes, while the queue is full all the time, and what is left plays."""
    folder, printed = limited_record(room, 80, ["--sectors", "8192", "--image", blank(room, 8192)], ["256", "64", "8192", "32", "-"], binary, millis)
    makes(folder, os.path.join(room, "disk.img"), room)
    return printed


def a_slow_limit(room: str) -> str:
    """The same while each write to the record takes a millisecond, those of a part's first sectors too."""
    return a_limit(room, STALLED, 1)


def size_of(folder: str) -> int:
    total = 0
    with contextlib.suppress(FileNotFoundError):  # the folder, or a part, is not there yet or not any more
        for name in os.listdir(folder):
            total += os.stat(os.path.join(folder, name)).st_size
    return total


def answered_and_killed(room: str, binary: str = PROGRAM, millis: int = 0) -> str:
    """kill -9: what the driver has its answer for is in the record."""
    for at in range(1, 4):
        folder = os.path.join(room, f"record{at}")
        written(room, ["--sectors", "1024", "--record", folder], [str(at), "16", "1024", "8", "kill"], status=-9, binary=binary, env=stalled(room, millis))
        disk = playing.sectors_of(folder)
        rounds = [struct.unpack_from("<I", disk, SECTOR * lba)[0] for lba in range(1024)]
        last = (at << 20) // (16 * SECTOR * 8) - 1
        expect(rounds.count(last) == 16 * 8, f"{rounds.count(last)} of 128 sectors of the last round are in the record")
    return "three records have all that was answered"


def slowly_killed(room: str) -> str:
    """The same while each write to the record takes ten milliseconds."""
    return answered_and_killed(room, STALLED, 10)


def without_room(room: str) -> str:
    """A record beyond RLIMIT_FSIZE ends at a whole entry and says so once; the driver writes on, and the status is 1."""
    folder = os.path.join(room, "record")
    said = rf"ahci-hba: --record {re.escape(folder)}: it can't be written: File too large; the record ends after (\d+) entries\n"
    words = [PROGRAM, "run", "--transport", way_of(room), "--sectors", "256", "--record", folder, "--", WRITER, "4", "16", "256", "8", "-"]
    done = subprocess.run(words, stdin=subprocess.DEVNULL, capture_output=True, text=True, check=False, env=environment(room), preexec_fn=limited, restore_signals=False)
    found = re.fullmatch(said, done.stderr)
    if done.returncode != 1 or not found or not done.stdout.startswith("memory "):
        raise Failed(f"status {done.returncode}: {done.stdout}{done.stderr}")
    first, last, cut = bounds(Record(folder))
    expect(first == 0 and last + 1 == int(found[1]) and last > 100 and not cut, f"the record has entries {first} to {last}, and {cut} bytes more: {done.stderr}")
    return f"{last + 1} entries"


# ---- large disks

LARGEST = (1 << 32) - 1  # sectors
FAR = 16_000_001  # a sector that the reader's 24 bits can name


def large_image(room: str, first: int, data: bytes) -> str:
    """A sparse image of the largest disk, with some bytes from a sector on."""
    path = blank(room, LARGEST)
    with open(path, "r+b") as file:
        os.pwrite(file.fileno(), data, SECTOR * first)
    return path


def far_area(image: str, first: int, count: int) -> bytes:
    with open(image, "rb") as file:
        return os.pread(file.fileno(), SECTOR * count, SECTOR * first)


def a_large_record(room: str) -> str:
    """The record of a disk of 2 TiB over an image: writes of 63 sectors up to its last one. The record has the old bytes of the pages that they touch, and plays to the saved image."""
    folder, first, then = os.path.join(room, "record"), LARGEST - 8192, os.path.join(room, "then")
    old = random.Random(31).randbytes(SECTOR * 8192)
    image = large_image(room, first, old)
    written(room, ["--image", image, "--record", folder, "--pick", "random"], ["2", "63", "8192", "8", str(first)])
    new = far_area(image, first, 8192)
    kept = [at for at in range(8192) if new[SECTOR * at:SECTOR * (at + 1)] == old[SECTOR * at:SECTOR * (at + 1)]]
    expect(0 < len(kept) < 8192, f"{len(kept)} of 8192 sectors were not written")
    names = playing.far_plays(folder, os.path.join(room, "script"), image, PLAYER)
    playing.image_of(folder, then)
    touched = {lba - lba % 8 + at for lba in names for at in range(8)} - {LARGEST}
    wrong = [lba for lba in touched if far_area(then, lba, 1) != far_area(image, lba, 1)]
    expect(not wrong and len(touched) > len(names), f"{len(wrong)} of {len(touched)} sectors are others in the record: {wrong[:5]}")
    playing.image_of(folder, then, "--to", "4", "--base", image)
    expect(far_area(then, first, 8193) == old, "after five entries, of which none serves a command, the record has other sectors than the image had")
    playing.far_plays(folder, os.path.join(room, "script"), then, PLAYER, "--to", "4")
    return f"{len(names)} sectors in {len(touched) // 8} pages"


def far_failures(room: str) -> str:
    """Reads that fail on a large disk, queued, by DMA and by PIO, under the sanitizers: a script has their failures at the sectors where it has those that the commands name."""
    folder, fails = os.path.join(room, "record"), FAR + 5
    image = large_image(room, FAR, b"".join(struct.pack("<Q", FAR + at) * (SECTOR // 8) for at in range(8)))
    words = [SANITIZED, "run", "--transport", way_of(room), "--image", image, "--record", folder, "--fail", f"{fails}:40:ever", "--", READER, str(FAR), "60"]
    done = subprocess.run(words, stdin=subprocess.DEVNULL, capture_output=True, text=True, check=False, env=environment(room))
    failing = re.findall(r"^([0-9A-F]{2})h: 5 sectors, PRDBC \d+, error 40 at (\d+): 20$", done.stdout, re.MULTILINE)
    expect(done.returncode == 0 and not done.stderr and failing == [(code, str(fails)) for code in ("20", "60", "C8")], f"status {done.returncode}: {done.stdout}{done.stderr}")
    failures = [it.lba for it in Record(folder).entries() if it.kind == FAIL]
    script = os.path.join(room, "script")
    names = playing.far_plays(folder, script, image, PLAYER)
    with open(script, encoding="ascii") as text:
        lines = text.read().split("\n")
    expect(names == list(range(FAR, FAR + 8)) and f"# sectors {FAR}..{FAR + 7} of the disk are 0..7 here" in lines, f"the script has sectors {names}")
    scripted = [line.split()[3] for line in lines if re.fullmatch(r"fail \d+ 40 \d+", line)]
    expect(set(failures) == {fails} and scripted == ["5"] * len(failures), f"the record has failures at {set(failures)}, and the script at {set(scripted)}")
    return f"{len(failures)} failures"


def far_and_killed(room: str) -> str:
    """kill -9, with a large disk over an image: what the driver has its answer for is in the record, and it plays."""
    first, then = LARGEST - 1024, os.path.join(room, "then")
    for at in range(1, 4):
        folder = os.path.join(room, f"record{at}")
        image = large_image(room, first, random.Random(at).randbytes(SECTOR * 1024))
        written(room, ["--image", image, "--record", folder], [str(at), "16", "1024", "8", str(first), "kill"], status=-9)
        playing.image_of(folder, then, "--base", image)
        rounds = [struct.unpack_from("<I", far_area(then, first + lba, 1))[0] for lba in range(1024)]
        last = (at << 20) // (16 * SECTOR * 8) - 1
        expect(rounds.count(last) == 16 * 8, f"{rounds.count(last)} of 128 sectors of the last round are in the record")
        playing.far_plays(folder, os.path.join(room, "script"), then, PLAYER)
    return "three records have all that was answered"


def a_far_limit(room: str, binary: str = PROGRAM, millis: int = 0) -> str:
    """--record-limit of a large disk: the record never has more bytes, and a part has the pages that its commands touch."""
    first, then = (1 << 31) + 3, os.path.join(room, "then")
    image = large_image(room, first, random.Random(33).randbytes(SECTOR * 8192))
    folder, printed = limited_record(room, 136, ["--image", image], ["256", "63", "8192", "32", str(first)], binary, millis)
    record = Record(folder)
    _, last, _ = bounds(record)
    playing.far_plays(folder, os.path.join(room, "script"), image, PLAYER, "--from", str(last - 2999))
    begins = record.parts[-1].first
    for start, end in ((begins - 1000, min(begins + 1000, last - 1)), (begins, begins + 40)):  # requests of which most have no answer need old bytes
        playing.image_of(folder, then, "--to", str(end), "--base", image)
        playing.far_plays(folder, os.path.join(room, "script"), then, PLAYER, "--from", str(start), "--to", str(end))
    return f"{printed}; its last part begins with {begins}"


def a_slow_far_limit(room: str) -> str:
    """The same while each write to the record takes a millisecond."""
    return a_far_limit(room, STALLED, 1)


CHECKS = [Check(a_limit, title="A limit of the record"), Check(a_slow_limit, title="A limit of a slow record"), Check(answered_and_killed, title="A kill after an answer"),
          Check(slowly_killed, title="A kill after an answer, with a slow record"), Check(slow_record, title="A slow record"), Check(without_room, title="A record without room"),
          Check(a_large_record, title="A record of 2 TiB"), Check(far_failures, title="Reads that fail on a large disk"), Check(far_and_killed, title="A kill after an answer, with a large disk"),
          Check(a_far_limit, title="A limit of the record of a large disk"), Check(a_slow_far_limit, title="A limit of a slow record of a large disk")]
