"""Checks of the record of a large disk: a part has each page that its commands touch, as the part found it, and a script has the sectors that its stretch names."""
from __future__ import annotations

import os
import re
import signal
import subprocess
import time
from typing import Dict, List, NamedTuple, Sequence, Set, Tuple

from playing import replayed, scripted, stretch
from probe import PLAYER, SECTOR, Probe, probed
from record_checks import Life, size_of
from records import ACCEPT, COLLECT, READ, RESET, SECTORS, WRITE, Entry, Record, bounds
from suite import Check, Failed, expect

MIB = 1 << 20
LARGEST = (1 << 32) - 1  # sectors
PAGE = 8  # sectors
AREAS = ((0, 90), ((1 << 31) - 77, 300), (3_000_000_005, 123), (LARGEST - 200, 200))  # the first sector, and how many
BLANK = bytes(SECTOR)


class Command(NamedTuple):
    """A command of a life: the number of its entry, and what it names."""
    number: int
    lba: int
    sectors: int
    data: bytes  # of a write


class FarLife(Life):
    """A life on a large disk, with what the disk has after each entry. Its commands are in some areas, and some pass the end of the disk."""

    def __init__(self, probe: Probe, seed: int, parts: float = 0.05) -> None:
        """`parts` is how often an idle queue begins another part."""
        super().__init__(probe, seed, most=30)
        self.chance = parts
        self.first: Dict[int, bytes] = {}  # what the disk has at the start, by sector
        self.commands: List[Command] = []
        self.by_tag: Dict[int, Command] = {}
        self.ends: Dict[int, int] = {}  # by the number of a command: when its tag was free again
        self.written: List[Tuple[int, Command]] = []  # the writes that were served, and by which entry
        self.parts: List[int] = [0]  # the numbers of their first entries
        for area, count in AREAS:
            for lba in range(area, area + count, 7):
                self.fill(lba, self.draw.randrange(1, 6), self.draw.randrange(1, 256))

    def fill(self, lba: int, count: int, byte: int) -> None:
        count = min(count, LARGEST - lba)
        self.probe.send(f"fill {lba} {count} {byte}")
        self.first.update({it: bytes((byte,)) * SECTOR for it in range(lba, lba + count)})

    def place(self, count: int) -> int:
        area, sectors = self.draw.choice(AREAS)
        if area + sectors == LARGEST:
            return area + self.draw.randrange(sectors + 20)  # some commands pass the end, and some are behind it
        return area + self.draw.randrange(sectors - count)

    def send(self, line: str) -> None:
        words = line.split()
        if words[0] in ("read", "write"):
            tag, lba, count = map(int, words[1:4])
            data = b""
            if words[0] == "write":
                data = bytes((int(words[4]) + (at // 7 if int(words[5]) else 0)) & 255 for at in range(SECTOR * count))
            self.by_tag[tag] = Command(self.count, lba, count, data)
            self.commands.append(self.by_tag[tag])
        elif words[0] == "serve":
            self.written += [(self.count, self.by_tag[int(tag)]) for tag in words[1:]]
        elif words[:2] == ["entry", str(COLLECT)]:
            self.ends[self.by_tag.pop(int(words[2])).number] = self.count
        elif words[:2] == ["entry", str(RESET)]:
            self.ends.update({it.number: self.count for it in self.by_tag.values()})
            self.by_tag = {}
        super().send(line)

    def accept(self, tag: int) -> None:
        """A command that passes the end of the disk fails then."""
        if sum(self.sectors[tag]) <= LARGEST:
            super().accept(tag)
            return
        self.issued.remove(tag)
        self.accepted.append(tag)
        self.fail(tag)

    def idle(self) -> None:
        super().idle()
        if self.draw.random() < self.chance:
            self.probe.send(f"room {1 << 40}")
            self.parts.append(self.count)

    def disk(self, number: int) -> Dict[int, bytes]:
        """The sectors that aren't zeros, after an entry."""
        found = dict(self.first)
        for served, it in self.written:
            if served > number:
                break
            found.update({it.lba + at: it.data[SECTOR * at:SECTOR * (at + 1)] for at in range(len(it.data) // SECTOR)})
        return {lba: data for lba, data in found.items() if data != BLANK}

    def named(self, first: int, last: int) -> List[int]:
        """The sectors of the commands of a stretch and of those that are outstanding at its beginning."""
        found: Set[int] = set()
        for it in self.commands:
            if it.number <= last and self.ends.get(it.number, last + 1) >= first:
                found.update(range(min(it.lba, LARGEST), min(it.lba + it.sectors, LARGEST)))
        return sorted(found)


def lived(room: str, entries: int, seed: int) -> Tuple[str, FarLife]:
    """A record of a life on the largest disk."""
    folder = os.path.join(room, f"record{seed}")
    probe = Probe(["record", folder, "0", str(LARGEST)])
    expect(probe.answer() == "begun", "the record did not begin")
    life = FarLife(probe, seed)
    life.live(entries)
    expect(probe.end() == 0, "the record ended before")
    first, last, cut = bounds(Record(folder))
    expect(first == 0 and last + 1 == life.count and not cut, f"{life.count} entries were recorded, and the record has {first} to {last} and {cut} bytes")
    return folder, life


def pages_of(lba: int, count: int) -> Set[int]:
    return set(range(lba // PAGE, (min(lba + count, LARGEST) + PAGE - 1) // PAGE)) if lba < LARGEST else set()


def first_touches(room: str) -> str:
    """Each part has the pages that its commands touch, once and before the first such command, as the part found them and without zeros; and no others."""
    pages, parts, passing = 0, 0, 0
    for seed in range(3):
        folder, life = lived(room, 4000, seed)
        record = Record(folder)
        expect([it.first for it in record.parts] == life.parts and len(life.parts) > 3, f"parts from {[it.first for it in record.parts]}, not {life.parts}")
        for part in record.parts:
            pages += looked_at(part.path, list(part.entries()), life.disk(part.first - 1))
        parts += len(life.parts)
        passing += sum(it.lba + it.sectors > LARGEST for it in life.commands)
    expect(passing > 20, f"{passing} commands passed the end")
    return f"{pages} pages in {parts} parts; {passing} commands passed the end"


def looked_at(path: str, entries: Sequence[Entry], disk: Dict[int, bytes]) -> int:
    """How many pages the entries of a part have, if they are right. `disk` is what the part found."""
    given: Dict[int, bytes] = {}
    touched: Set[int] = set()
    for it in entries:
        if it.kind == SECTORS:
            expect(0 < it.count <= 64 and not any(it.lba + at in given for at in range(it.count)), f"{path}: {it.count} sectors from {it.lba} on are there twice, or too many")
            given.update({it.lba + at: bytes(it.data[SECTOR * at:SECTOR * (at + 1)]) for at in range(it.count)})
        elif it.kind in (READ, WRITE):
            touched |= pages_of(it.lba, it.count)
            wanted = {at: disk[at] for page in touched for at in range(PAGE * page, PAGE * page + PAGE) if at in disk}
            expect(given == wanted, f"{path}: before the command at {it.lba} it has sectors {sorted(set(given) ^ set(wanted))[:5]} or their bytes wrongly")
    return len(touched)


def must_play(folder: str, room: str, life: FarLife, asked: int, last: int) -> Tuple[int, int]:
    """A stretch plays to the sectors that the disk had after it, which are in the order of the disk. How many runs and sectors it has."""
    path = scripted(folder, os.path.join(room, f"stretch-{asked}.ahci"), "--from", str(asked), "--to", str(last))
    with open(path, encoding="ascii") as file:
        text = file.read()
    head = re.search(r"^# entries (\d+) to (\d+) of a record", text, re.MULTILINE)
    if not head or int(head[2]) != last:
        raise Failed(f"the script begins with {text[:200]}")
    names = life.named(int(head[1]), last)
    said = [tuple(map(int, it)) for it in re.findall(r"^# sectors (\d+)\.\.(\d+) of the disk are (\d+)\.\.(\d+) here$", text, re.MULTILINE)]
    runs = [at for at, lba in enumerate(names) if at == 0 or names[at - 1] != lba - 1]
    wanted = [(names[at], names[end - 1], at, end - 1) for at, end in zip(runs, [*runs[1:], len(names)])]
    expect(said == wanted, f"entries {asked} to {last}: the comments say {said[:5]}, not {wanted[:5]}")
    expect(text.startswith(f"disk {max(len(names), 1)} "), f"the disk of the script is {text[:20]}, and the stretch names {len(names)} sectors")
    played, disk = replayed(path, PLAYER), life.disk(last)
    wrong = [lba for at, lba in enumerate(names) if played[SECTOR * at:SECTOR * (at + 1)] != disk.get(lba, BLANK)]
    expect(not wrong, f"entries {asked} to {last}: {len(wrong)} of {len(names)} sectors play to others: {wrong[:5]}")
    return len(runs), len(names)


def far_stretches(room: str) -> str:
    """Any stretch of a life on the largest disk, over several parts and with commands that pass its end, plays to the same sectors, and comments say where they are."""
    runs, names = 0, 0
    for seed in range(3, 6):
        folder, life = lived(room, 4000, seed)
        starts = [life.draw.randrange(3500) for _ in range(5)] + [it - 30 for it in life.parts[1:4]]
        for first in starts:
            found = must_play(folder, room, life, max(first, 0), first + life.draw.randrange(50, 500))
            runs, names = runs + found[0], names + found[1]
        must_play(folder, room, life, 0, life.count - 1)
    return f"27 stretches, of {names} sectors in {runs} runs"


def far_images(room: str) -> str:
    """`stretch sectors` of a large disk: a sparse file of its size with the sectors that are known; with --base all of them; and no pipe."""
    folder, life = lived(room, 1500, 6)
    last, image, base = 800, os.path.join(room, "image"), os.path.join(room, "base")
    known = {PAGE * page + at for it in life.commands for page in pages_of(it.lba, it.sectors) for at in range(PAGE)} - {LARGEST}
    disk, late = life.disk(last), life.disk(life.count)
    with open(base, "wb") as file:
        file.truncate(SECTOR * LARGEST)
        for lba, data in late.items():
            os.pwrite(file.fileno(), data, SECTOR * lba)
    cases: List[Tuple[List[str], Dict[int, bytes], str]] = [
        ([], {lba: data for lba, data in disk.items() if lba in known}, f"stretch: the record has {len(known)} of the disk's {LARGEST} sectors; "), (["--base", base], disk, "")]
    for more, wanted, said in cases:
        with open(image, "wb") as file:
            done = stretch(["sectors", folder, "--to", str(last), *more], stdout=file)
        expect(done.returncode == 0 and done.stderr.decode().startswith(said) and bool(done.stderr) == bool(said), f"{more}: status {done.returncode}, {done.stderr!r}")
        expect(os.path.getsize(image) == SECTOR * LARGEST and os.stat(image).st_blocks < 1 << 13, f"the image has {os.path.getsize(image)} bytes in {os.stat(image).st_blocks} blocks")
        must_be(image, wanted)
    piped = stretch(["sectors", folder], stdout=subprocess.PIPE)
    expect(piped.returncode == 1 and b"standard output has to be a file" in piped.stderr, f"a pipe: {piped.stderr!r}")
    return f"{len(known)} sectors are known, of {len(disk)} with bytes"


def must_be(image: str, wanted: Dict[int, bytes]) -> None:
    """An image has these sectors in the areas of a life, and else zeros."""
    with open(image, "rb") as file:
        for area, count in AREAS:
            for lba in range(max(area - 20, 0), min(area + count + 50, LARGEST)):
                found = os.pread(file.fileno(), SECTOR, SECTOR * lba)
                expect(found == wanted.get(lba, BLANK), f"sector {lba} of {image} has {found[:4]!r}.., not {wanted.get(lba, BLANK)[:4]!r}..")


def too_many_sectors(room: str) -> str:
    """A stretch that names 131,072 sectors of a large disk is a script, and one that names one more is refused in one sentence."""
    folder = os.path.join(room, "record")
    probe = Probe(["record", folder, "0", str(LARGEST)])
    probe.answer()
    for at, (lba, count) in enumerate(((1 << 31, 65536), (7, 65536), (1 << 30, 1), (9, 1))):
        for line in (f"read 0 {lba} {count}", f"entry {ACCEPT} 0", "serve 0", f"entry {COLLECT} 0"):
            probe.send(line)
    expect(probe.end() == 0, "the record ended before")
    path = scripted(folder, os.path.join(room, "script"), "--to", "7")
    with open(path, encoding="ascii") as file:
        expect(file.readline() == "disk 131072 32\n", "the disk of the script has not 131072 sectors")
    done = stretch(["script", folder], stdout=subprocess.PIPE)
    says = b"stretch: the commands of the stretch name 131073 sectors, and the disk of a script has 131072 at most: a shorter stretch would fit (--from, --to)\n"
    expect(done.returncode == 1 and done.stderr == says and not done.stdout, f"status {done.returncode}: {done.stderr!r}")
    return "131,073 sectors are refused"


def far_limit(room: str) -> str:
    """The least limit of a large disk: writes whose pages have no zeros, and which touch as many pages as they can, never make a larger record."""
    folder, count, largest = os.path.join(room, "record"), 1001, 0
    limit = int(probed(["least", str(LARGEST), str(count)], [])[0])
    probe = Probe(["record", folder, str(limit), str(LARGEST)])
    probe.answer()
    for at in range(40):
        lba = 2000 * at + 7
        probe.send(f"fill {2000 * at} 2000 5")
        probe.send(f"space 1 {count}")
        for line in (f"write 0 {lba} {count} {at} 1 0", f"entry {ACCEPT} 0", "serve 0", f"entry {COLLECT} 0"):
            probe.send(line)
        probe.ask("sync")
        largest = max(largest, size_of(folder))
    expect(probe.end() == 0, "the record ended before")
    first, last, _ = bounds(Record(folder))
    expect(limit // 2 < largest <= limit and 0 < first < last == 159, f"{largest} bytes at most of {limit}, entries {first} to {last}")
    return f"{largest} bytes at most of {limit}"


def killed_far_record(room: str) -> str:
    """kill -9: what a record of a large disk has by then plays, up to its last whole entry."""
    cuts = []
    for at in range(4):
        folder = os.path.join(room, f"record{at}")
        probe = Probe(["record", folder, "0", str(LARGEST)])
        probe.answer()
        life = FarLife(probe, 20 + at, 0)
        life.live(1500)
        probe.ask("sync")
        written = life.count
        life.live(1500 + 300 * at)
        time.sleep(0.01 * at)
        probe.process.send_signal(signal.SIGKILL)
        probe.kill()
        _, last, _ = bounds(Record(folder))
        expect(last + 1 >= written, f"{written} entries were written, and the record ends with {last}")
        path = os.path.join(folder, "part.000001")
        os.truncate(path, os.path.getsize(path) - 11 * at)  # as if it had been killed earlier
        _, last, cut = bounds(Record(folder))
        cuts.append(cut)
        must_play(folder, room, life, last - 300, last)
    expect(all(cuts[1:]), f"the records end with {cuts} bytes of another entry")
    return f"four records play, with {cuts} bytes of another entry"


CHECKS = [Check(it) for it in (first_touches, far_stretches, far_images, too_many_sectors, far_limit, killed_far_record)]
