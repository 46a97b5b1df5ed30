"""Checks of an image that is mapped: its pages are written in place, under a journal, and a kill at any moment leaves a whole write-back or the one before."""
from __future__ import annotations

import os
import random
import resource
import signal
import stat
import subprocess
import time
from typing import List, Sequence, Tuple

import pace
from files import MIB, contents, limited, made, small_room
from probe import PROBE, SECONDS, Probe, probed
from suite import Check, Failed, expect

PAGE = 4096
ZEROED = -1  # in the place of a fill's byte: the sectors become zeros, without bytes


def filled(data: bytes, *fills: Tuple[int, int, int]) -> bytes:
    """These bytes after some fills: LBA, count and byte."""
    new = bytearray(data)
    for lba, count, byte in fills:
        new[lba * 512:(lba + count) * 512] = bytes((max(byte, 0),)) * (count * 512)
    return bytes(new)


def line(fill: Tuple[int, int, int]) -> str:
    lba, count, byte = fill
    return f"zero {lba} {count}" if byte == ZEROED else f"fill {lba} {count} {byte:x}"


def names(image: str) -> List[str]:
    """The files beside an image that have its name at their beginning."""
    folder, name = os.path.split(image)
    return sorted(it for it in os.listdir(folder) if it.startswith(name) and it != name)


def runs(_: str) -> str:
    """The runs of written pages: of writes at random, at the disk's ends, one after the other; their memory is that of what was written."""
    draw = random.Random(3)
    lines, found, wanted = [], [], set()
    for at in range(4000):
        lba = draw.choice((draw.randrange(1 << 20), draw.randrange(2000), (1 << 32) - 2 - draw.randrange(900)))
        count = min(draw.choice((1, 8, 300)), (1 << 32) - 1 - lba)
        lines.append(f"add {lba} {count}")
        wanted |= set(range(lba // 8, (lba + count - 1) // 8 + 1))
        if at % 500 == 499:
            lines.append("settle")
            found.append(len(wanted))
    said = probed(["pages"], lines)
    expect([int(it.split(" ")[0]) for it in said] == found, "other numbers of pages")
    spans = [tuple(int(part) for part in it.split("+")) for it in said[-1].split(" ")[3:]]
    expect([page for first, count in spans for page in range(first, first + count)] == sorted(wanted), "other pages")
    expect(all(a[0] + a[1] < b[0] for a, b in zip(spans, spans[1:])), "runs touch each other")
    again = probed(["pages"], ["add 77 1", "add 90000 1"] * 100_000 + ["settle"])
    expect(again == ["2 of 64 9+1 11250+1"], f"{again}")
    return f"{len(wanted)} pages in {len(spans)} runs"


def sizes_of_mapped(room: str) -> str:
    """The disk has as many sectors as were asked for, or as the image has; a last sector that is cut short is filled with zeros; the file grows to the
    disk's size at the first write-back; more sectors than the disk has, none, and files that are no image are refused."""
    image = os.path.join(room, "disk")
    data = made(image, 300_000)
    found = probed(["mapped", image, "0"], ["show 585", line((0, 1, 0x77))])
    expect(found == [f"said --image {image}: 300000 bytes are no whole sectors; the last one is filled up with zeros", "disk 586", f"{data[585 * 512]:02x}"], f"{found}")
    expect(contents(image) == b"\x77" * 512 + data[512:] + bytes(586 * 512 - 300_000), "the image has other bytes")
    probed(["mapped", image, "601"], [line((600, 1, 1))])
    expect(contents(image)[586 * 512:] == bytes(14 * 512) + b"\1" * 512, "the image did not grow to its last sector")
    made(image, 0)
    probed(["mapped", image, "9"], [line((8, 1, 1))])
    expect(contents(image) == bytes(4096) + b"\1" * 512, "an empty image did not grow")
    for size, sectors, says in ((513, 1, "the image has 2 sectors, and the disk 1 to 1"), (0, 0, "the image has 0 sectors, and the disk 1 to 4294967295"),
                                (2 << 40, 0, "the image has 4294967296 sectors, and the disk 1 to 4294967295")):
        with open(image, "wb") as file:
            file.truncate(size)
        found = probed(["mapped", image, str(sectors)], [], status=1)
        expect(found == [f"said --image {image}: {says}"], f"{found}")
    for path, says in ((f"{room}/none", "No such file or directory"), (room, "this is no regular file"), ("/dev/null", "this is no regular file")):
        expect(probed(["mapped", path, "0"], [], status=1) == [f"said --image {path}: {says}"], path)
    return "9 images"


def in_place(room: str) -> str:
    """FILE stays the file that it is, with mode, owner and links; only changed pages are written; pages of zeros become holes; without a write nothing is."""
    image, link = os.path.join(room, "disk"), os.path.join(room, "link")
    data = made(image, MIB)
    os.symlink("disk", link)
    os.chmod(image, 0o640)
    before = os.stat(image)
    expect(probed(["mapped", link, "0"], ["save"]) == ["disk 2048", "saved 0"], "it was not saved")
    expect(os.stat(image).st_mtime_ns == before.st_mtime_ns, "the image was written, though no command wrote")
    fills = ((1, 1, 3), (100, 600, 0), (2040, 8, 4))
    probed(["mapped", link, "0"], [line(it) for it in fills])
    after = os.stat(image)
    expect((after.st_ino, stat.S_IMODE(after.st_mode), after.st_uid) == (before.st_ino, 0o640, before.st_uid), "it is another file, or has another mode")
    expect(contents(image) == filled(data, *fills) and names(image) == [], f"the image has other sectors, or left {names(image)}")
    expect(os.path.islink(link) and after.st_blocks <= before.st_blocks - 8 * 45, f"zeros took {after.st_blocks} blocks, and there were {before.st_blocks}")
    return f"{before.st_blocks} blocks before, {after.st_blocks} after"


def zeroed(room: str) -> str:
    """Sectors that become zeros take no room in the journal, and their pages become holes; sectors beside them stay, and so do those that are written there later. Where there are no
    holes, zeros are written."""
    image = os.path.join(room, "disk")
    data = made(image, 4 * MIB)
    before = os.stat(image).st_blocks
    fills = ((1000, 3, 1), (13, 7003, ZEROED), (2000, 1, 2), (1500, 2, 3), (1500, 1, ZEROED), (8184, 8, ZEROED))  # what is written is in the first MiB, to which a limit is
    said = probed(["mapped", image, "0"], [line(it) for it in fills], preexec_fn=limited, restore_signals=False)
    expect(said == ["disk 8192"] and contents(image) == filled(data, *fills) and names(image) == [], f"the image has other sectors: {said}")
    after = os.stat(image).st_blocks
    expect(after <= before - 8 * 870, f"zeros took {after} blocks, and there were {before}")
    made(image, 4 * MIB)
    words = ["strace", "-f", "-o", "/dev/null", "-e", "inject=fallocate:error=EOPNOTSUPP", PROBE, "mapped", image, "8200"]
    done = pace.ran(words, SECONDS, input="".join(f"{line(it)}\n" for it in fills), stdout=subprocess.PIPE, stderr=subprocess.PIPE, text=True,
                    env={**os.environ, "ASAN_OPTIONS": "detect_leaks=0"})
    expect(done.returncode == 0 and contents(image) == filled(data, *fills) + bytes(8 * 512), f"without holes the image has other sectors: {done.stderr}")
    return f"{before} blocks before, {after} after"


def one_server(room: str) -> str:
    """A second server doesn't start with the same image, and a file that would be in the way of a journal is neither overwritten nor removed."""
    image = os.path.join(room, "disk")
    made(image, 8192)
    probe = Probe(["mapped", image, "0"])
    expect(probe.answer() == "disk 16", "it did not start")
    expect(probed(["mapped", image, "0"], [], status=1) == [f"said --image {image}: another server has it"], "a second one has started")
    probe.end()
    for name in ("disk.journal", "disk.journal.new"):
        path = os.path.join(room, name)
        other = made(path, 100)
        found = probed(["mapped", image, "0"], [], status=1)
        expect(found == [f"said --image {image}: {path} is in the way: a journal would have its name, and it is none"] and contents(path) == other, f"{found}")
        os.remove(path)
        os.symlink("nowhere", path)
        expect("is in the way" in probed(["mapped", image, "0"], [], status=1)[0] and os.path.islink(path), "a link was followed or removed")
        os.remove(path)
    made(f"{image}.new", 100)
    expect("is left by a server that did not end well" in probed(["mapped", image, "0"], [], status=1)[0], "it starts beside FILE.new")
    return "a lock, and five files"


def left(image: str, data: bytes, fills: Sequence[Tuple[int, int, int]], pages: int) -> bytes:
    """Leaves a whole journal of so many pages beside an image of 2 MiB. A limit of 1 MiB ends the write-back at the last fill, which is beyond that. Returns what the image should become."""
    probe = Probe(["mapped", image, "0"], preexec_fn=limited, restore_signals=False)
    expect(probe.answer() == "disk 4096", "it did not start")
    for it in fills:
        probe.send(line(it))
    said = probe.ask("save")
    expect(said == f"said --image {image}: it can't be written back: File too large; {image}.journal has the {pages} pages, for the next write-back or the next server", said)
    expect(probe.answer() != "saved 0", "the write-back counts as done")
    probe.kill()
    expect(names(image) == ["disk.journal"] and contents(image) == filled(data, *fills[:-1]), "the image is not half written")
    return filled(data, *fills)


def a_left_journal(room: str) -> str:
    """A whole journal is applied at the start, with pages that become zeros or without. One that is cut off anywhere, or has a wrong byte anywhere, is removed instead. One of an image of another
    size is refused, and stays."""
    fills = ((0, 2, 5), (1000, 9, 5), (4000, 96, 5))
    count = is_applied(room, fills, 15) + is_applied(room, ((2504, 96, ZEROED), (8, 16, ZEROED), *fills), 15 + 12 + 2)
    return f"two whole journals and {count} others"


def is_applied(room: str, fills: Sequence[Tuple[int, int, int]], pages: int) -> int:
    """Leaves a journal, and makes others of it. How many."""
    image = os.path.join(room, "disk")
    data = made(image, 2 * MIB)
    wanted = left(image, data, fills, pages)
    half, journal = contents(image), contents(f"{image}.journal")
    draw = random.Random(8)
    torn = [journal[:at] for at in (0, 1, 7, 8, 63, 64, 65, 4096, len(journal) - 9, len(journal) - 1)] + [journal + b"\0", bytes(len(journal))]
    for at in (8, 20, 30, 38, 64, 70, 4096, 8000, len(journal) - 1, *(draw.randrange(64, len(journal)) for _ in range(20))):
        torn.append(journal[:at] + bytes((journal[at] ^ 0x40,)) + journal[at + 1:])
    for it in torn:
        with open(f"{image}.journal", "wb") as file:
            file.write(it)
        found = probed(["mapped", image, "0"], [])
        expect(len(found) == 2 and f"{image}.journal is removed" in found[0] and names(image) == [] and contents(image) == half, f"{found}")
    with open(f"{image}.journal", "wb") as file:
        file.write(journal)
    os.truncate(image, MIB)
    found = probed(["mapped", image, "0"], [], status=1)
    expect(len(found) == 1 and f"is of an image of {2 * MIB} bytes, and this one has {MIB}" in found[0] and contents(f"{image}.journal") == journal, f"{found}")
    made(image, 2 * MIB)
    found = probed(["mapped", image, "0"], [])
    expect(found[0] == f"said --image {image}: {image}.journal had {pages} pages that a killed server was writing back; they are in the image now", f"{found}")
    expect(contents(image) == wanted and names(image) == [], "the journal was not applied, or stays")
    return len(torn)


def mapped_beyond_a_limit(room: str) -> str:
    """A write-back that ends on the way is reported, and the next one writes its pages and newer ones; no older journal comes back over them."""
    image = os.path.join(room, "disk")
    data = made(image, 2 * MIB)
    probe = Probe(["mapped", image, "0"], preexec_fn=limited, restore_signals=False)
    probe.answer()
    for byte in (1, 2):
        probe.send(line((3000, 10, byte)))
        probe.send(line((byte, 1, byte)))
        expect("has the" in probe.ask("save") and probe.answer() != "saved 0", "the write-back counts as done")
        expect(names(image) == ["disk.journal"], f"{names(image)}")
    resource.prlimit(probe.process.pid, resource.RLIMIT_FSIZE, (resource.RLIM_INFINITY, resource.RLIM_INFINITY))
    expect(probe.ask("save") == "saved 0" and names(image) == [], "with room it is not written either")
    expect(contents(image) == filled(data, (3000, 10, 2), (1, 1, 1), (2, 1, 2)) and probe.end() == 0, "the image has not what was written")
    return "two failures, and a success"


def no_room_for_a_journal(room: str) -> str:
    """Without room for the journal the image stays as it was, and no file is left; with room it is written."""
    with small_room(room, "3m") as place:
        image, filler = os.path.join(place, "disk"), os.path.join(place, "filler")
        data = made(image, 2 * MIB)
        made(filler, MIB - 8192)
        probe = Probe(["mapped", image, "0"])
        probe.answer()
        probe.send(line((0, 4096, 3)))
        said = probe.ask("save")
        expect(said == f"said --image {image}: it can't be written back: {image}.journal.new: No space left on device; 512 pages have changed, and it is as it was", said)
        expect(probe.answer() != "saved 0" and names(image) == [] and contents(image) == data, "the image has changed, or a file is left")
        os.remove(filler)
        probe.send(line((0, 2000, 4)))
        expect(probe.ask("save") != "saved 0", "there is room for 2 MiB twice in 3 MiB")
        probe.answer()
        subprocess.run(["mount", "-o", "remount,size=8m", place], check=True)
        expect(probe.ask("save") == "saved 0" and probe.end() == 0, "with room it is not written either")
        expect(contents(image) == filled(data, (0, 4096, 3), (0, 2000, 4)), "the image has not what was written")
    return "two failures, and a success"


def shorter_and_replaced(room: str) -> str:
    """FILE that has become shorter is not written, and its pages are in the journal; FILE that is another one is not written either; a file that can't be
    written is reported at the first write-back."""
    image = os.path.join(room, "disk")
    data = made(image, MIB)
    probe = Probe(["mapped", image, "0"])
    probe.answer()
    probe.send(line((0, 1, 9)))
    os.truncate(image, MIB - 1)
    said = probe.ask("save")
    expect(f"it has become shorter, {MIB - 1} bytes instead of {MIB}; {image}.journal has the 1 pages" in said and probe.answer() != "saved 0", said)
    expect(contents(image) == data[:-1] and probe.end() == 2, "it was written, or the status is 0")
    expect("is of an image of" in probed(["mapped", image, "0"], [], status=1)[0], "the journal is applied to a shorter file")
    with open(image, "ab") as file:
        file.write(data[-1:])
    probed(["mapped", image, "0"], [])
    expect(contents(image) == filled(data, (0, 1, 9)) and names(image) == [], "the journal was not applied")
    probe = Probe(["mapped", image, "0"])
    probe.answer()
    probe.send(line((0, 1, 8)))
    os.rename(image, f"{image}.moved")
    other = made(image, MIB, 7)
    expect("this is no longer the file of the start; 1 pages have changed" in probe.ask("save") and probe.answer() != "saved 0", "it was written")
    expect(probe.end() == 2 and contents(image) == other and names(image) == ["disk.moved"], "the other file was written, or the status is 0")
    return "shorter, and another"


CALLS = ("openat", "pwrite64", "fsync", "fdatasync", "ftruncate", "fallocate", "rename", "unlink")  # those that change a file or its names, or wait for the disk


def killed_at_each_call(room: str) -> str:
    """A kill at each system call of a write-back that changes a file, and then at each of a start that applies what is left: the image has all of the old
    sectors or all of the new ones."""
    image = os.path.join(room, "disk")
    data = made(image, 100 * PAGE)
    fills = [(8, 1, 1), (30, 300, 0), (395, 150, ZEROED), (400, 8, 2), (700, 96, ZEROED), (1000, 24, 3)]
    new = filled(data + bytes(1024 * 512 - len(data)), *fills)
    ends = {"old": 0, "new": 0, "starts": 0}
    for call in CALLS:
        for at in range(1, 100):
            with open(image, "wb") as file:
                file.write(data)
            is_whole = is_killed_at(["mapped", image, "1024"], [line(it) for it in fills] + ["save"], call, at)
            ends["starts"] += started_again(image, call)
            found = contents(image)
            expect(found in (data, new) and names(image) == [], f"{call} {at}: old and new sectors are mixed, or {names(image)} is left")
            if is_whole:
                expect(found == new, "a whole write-back is not there")
                break
            ends["new" if found == new else "old"] += 1
    return f"{ends['old']} kills left the old sectors, {ends['new']} the new ones; {ends['starts']} starts were killed too"


def started_again(image: str, call: str) -> int:
    """Starts the probe until it has applied or removed what is there, and kills it at the first, the second, .. of the calls. How often."""
    starts = 0
    while names(image):
        starts += 1
        is_killed_at(["mapped", image, "0"], [], call, starts)
    return starts


def is_killed_at(words: List[str], lines: List[str], call: str, at: int) -> bool:
    """Runs the probe, and kills it when it enters the nth of these calls about the image or its journal. True if there are fewer."""
    trace = os.path.join(os.path.dirname(words[1]), "trace")
    files = [word for path in (words[1], f"{words[1]}.journal", f"{words[1]}.journal.new", os.path.dirname(words[1])) for word in ("-P", path)]
    done = pace.ran(["strace", "-o", trace, "-e", f"trace={call}", *files, "-e", f"inject={call}:signal=KILL:when={at}", PROBE, *words], SECONDS,
                    input="".join(f"{it}\n" for it in lines), stdout=subprocess.DEVNULL, stderr=subprocess.PIPE, text=True, env={**os.environ, "ASAN_OPTIONS": "detect_leaks=0"})
    if done.returncode not in (0, -signal.SIGKILL, 128 + signal.SIGKILL):
        raise Failed(f"{call} {at}: status {done.returncode}, {done.stderr[-1000:]}")
    return done.returncode == 0


def killed_at_random(room: str) -> str:
    """kill -9 at random moments of a write-back, 100 times: the image has all of the old sectors or all of the new ones."""
    image, draw, took = os.path.join(room, "disk"), random.Random(12), 0.05
    whole = made(image, 4 * MIB)
    counts = {"old": 0, "new": 0, "applied": 0, "removed": 0}
    for at in range(100):
        fills = [(draw.randrange(7500), draw.randrange(1, 700), draw.choice((ZEROED, at % 255 + 1))) for _ in range(draw.choice((1, 8, 60)))]
        probe = Probe(["mapped", image, "0"])
        probe.answer()
        for it in fills:
            probe.send(line(it))
        begun = time.monotonic()
        probe.send("save")
        if at % 10 == 0:
            probe.answer()
            took = time.monotonic() - begun
        time.sleep(draw.random() * took)
        probe.kill()
        said = probed(["mapped", image, "0"], [])[:-1]
        counts["applied"] += sum("they are in the image now" in it for it in said)
        counts["removed"] += sum("is removed" in it for it in said)
        found, new = contents(image), filled(whole, *fills)
        expect(found in (whole, new) and names(image) == [] and (at % 10 != 0 or found == new), f"seed 12, kill {at}: old and new sectors are mixed, or {names(image)} is left")
        counts["new" if found == new else "old"] += 1
        whole = found
    return ", ".join(f"{count} {what}" for what, count in counts.items())


CHECKS = [Check(runs), Check(sizes_of_mapped), Check(in_place), Check(zeroed, ["strace"]), Check(one_server), Check(a_left_journal), Check(mapped_beyond_a_limit),
          Check(no_room_for_a_journal, ["mount"]), Check(shorter_and_replaced), Check(killed_at_each_call, ["strace"]), Check(killed_at_random)]
