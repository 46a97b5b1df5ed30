"""Checks of the record and of `stretch`: a record has all that happened, and any stretch of it is a script that plays to the same sectors."""
from __future__ import annotations

import os
import random
import signal
import subprocess
import time
from typing import Any, Dict, List, Tuple

from files import limited, small_room
from playing import STRETCH, must_play, replayed, scripted, sectors_of, stretch
from probe import PLAYER, SECTOR, Probe
from records import ACCEPT, COLLECT, FLUSH, IDENTIFY, READ_LOG, RECOVER, REISSUE, RESET, TRIM, Record, bounds
from suite import Check, Failed, expect

MIB = 1 << 20
SECTORS = 4096


class Life:
    """A port that does things at random, as lines of the probe."""

    def __init__(self, probe: Probe, seed: int, most: int = 40, resets: float = 0.01) -> None:
        self.probe, self.draw, self.most, self.resets = probe, random.Random(seed), most, resets
        self.issued: List[int] = []
        self.accepted: List[int] = []
        self.sectors: Dict[int, Tuple[int, int]] = {}  # by tag: where its command begins, and how many it has
        self.count = 0  # of entries

    def send(self, line: str) -> None:
        self.probe.send(line)
        self.count += 1

    def entry(self, kind: int, tag: int = 0) -> None:
        self.send(f"entry {kind} {tag}")

    def issue(self) -> None:
        draw = self.draw
        tag = next(it for it in range(32) if it not in self.issued + self.accepted)
        count = draw.choice([1, 2, 3, 4, 8, draw.randrange(1, self.most)])
        lba = self.place(count)
        self.sectors[tag] = (lba, count)
        if draw.random() < 0.4:
            self.send(f"read {tag} {lba} {count}")
        else:
            self.send(f"write {tag} {lba} {count} {draw.randrange(256)} {int(draw.random() < 0.7)} {int(draw.random() < 0.1)}")
        self.issued.append(tag)

    def place(self, count: int) -> int:
        """Where a command of so many sectors begins."""
        return self.draw.randrange(SECTORS - count)

    def accept(self, tag: int) -> None:
        self.issued.remove(tag)
        self.accepted.append(tag)
        self.entry(ACCEPT, tag)

    def fail(self, tag: int) -> None:
        """A command fails; then the port recovers and the rest is issued again, or a reset drops it."""
        lba, count = self.sectors[tag]
        self.send(f"fail {tag} 40 {lba + self.draw.randrange(count)}")
        if self.draw.random() < 0.2:
            self.reset()
            return
        self.entry(RECOVER)
        self.accepted.remove(tag)
        held = self.issued + self.accepted
        self.issued, self.accepted = held, []
        if self.draw.random() < 0.3:
            self.entry(COLLECT, tag)
            self.reset()
            return
        for it in held:
            self.entry(REISSUE, it)
        self.entry(COLLECT, tag)

    def reset(self) -> None:
        self.entry(RESET)
        self.issued, self.accepted = [], []

    def serve(self) -> None:
        tags = self.draw.sample(self.accepted, min(len(self.accepted), self.draw.choice([1, 1, 2, 5])))
        self.send("serve " + " ".join(map(str, tags)))
        self.accepted = [it for it in self.accepted if it not in tags]
        if self.draw.random() < self.resets:
            self.reset()
            return
        for tag in tags:
            self.entry(COLLECT, tag)

    def idle(self) -> None:
        """What needs a queue without requests."""
        self.entry(self.draw.choice([FLUSH, IDENTIFY, TRIM, READ_LOG]))
        self.probe.send(f"room {MIB}")

    def step(self) -> None:
        chance = self.draw.random()
        if chance < self.resets:
            self.reset()
        elif not self.issued and not self.accepted and chance < 0.3:
            self.idle()
        elif chance < 0.45 and len(self.issued + self.accepted) < 32:
            self.issue()
        elif chance < 0.7 and self.issued:
            self.accept(self.draw.choice(self.issued))
        elif chance < 0.72 and self.accepted:
            self.fail(self.draw.choice(self.accepted))
        elif self.accepted:
            self.serve()

    def live(self, entries: int) -> None:
        while self.count < entries:
            self.step()


def lived(room: str, entries: int, seed: int, limit: int = 0) -> str:
    """A record of a life: its folder."""
    folder = os.path.join(room, f"record{seed}")
    probe = Probe(["record", folder, str(limit), str(SECTORS)])
    expect(probe.answer() == "begun", "the record did not begin")
    life = Life(probe, seed)
    life.live(entries)
    expect(probe.end() == 0, "the record ended before")
    first, last, cut = bounds(Record(folder))
    expect(last + 1 == life.count and not cut, f"{life.count} entries were recorded, and the record has {first} to {last} and {cut} bytes")
    return folder


def stretches(room: str) -> str:
    """Any stretch of a life with failures, resets, trims and several tags at once plays to the same sectors, and so does all of it."""
    named, resets = 0, 0
    for seed in range(3):
        folder = lived(room, 4000, seed)
        draw = random.Random(seed)
        for _ in range(5):
            first = draw.randrange(3500)
            named += must_play(folder, room, first, first + draw.randrange(10, 500), PLAYER)
        whole = scripted(folder, os.path.join(room, "whole.ahci"))
        expect(replayed(whole, PLAYER) == sectors_of(folder), f"seed {seed}: the whole record plays to other sectors")
        with open(whole, encoding="ascii") as text:
            said = [line for line in text if line.startswith("# a reset drops")]
        dropped = [it for it in Record(folder).entries() if it.kind == RESET]
        expect(len(said) == len(dropped) > 5, f"{len(dropped)} resets, and the script names {len(said)}")
        resets += len(dropped)
    return f"15 stretches of {named} sectors, three whole records with {resets} resets"


def parts(room: str) -> str:
    """record-limit: the record never has more bytes, the oldest part is dropped, and what is left plays; the parts' numbers go on."""
    limit = 2 * (SECTORS * SECTOR + 8 * MIB)
    folder, largest = os.path.join(room, "record"), 0
    probe = Probe(["record", folder, str(limit), str(SECTORS)])
    probe.answer()
    life = Life(probe, 5, most=900, resets=0)
    while life.count < 8000:
        life.live(life.count + 50)
        while life.issued or life.accepted:  # a part begins while the queue has no request
            if life.issued:
                life.accepted.append(life.issued.pop())
                life.entry(ACCEPT, life.accepted[-1])
            else:
                life.serve()
        probe.send(f"room {4 * MIB}")
        probe.ask("sync")
        largest = max(largest, size_of(folder))
    expect(probe.end() == 0, "the record ended before")
    record = Record(folder)
    first, last, _ = bounds(record)
    expect(limit // 2 < largest <= limit and 0 < first < last + 1 == life.count, f"{largest} bytes at most of {limit}, entries {first} to {last}")
    expect(len(record.parts) == 2 and record.parts[1].first > record.parts[0].first, "there are not two parts")
    must_play(folder, room, max(first, record.parts[1].first - 200), record.parts[1].first + 200, PLAYER)
    done = stretch(["script", folder, "--from", "0"], stdout=subprocess.DEVNULL)
    expect(done.returncode == 1 and b"the record has entries" in done.stderr, f"a dropped entry was not refused: {done.stderr!r}")
    return f"{largest} bytes at most, entries {first} to {last} are left"


def size_of(folder: str) -> int:
    return sum(os.stat(os.path.join(folder, name)).st_size for name in os.listdir(folder))


def without_room(room: str, place: str, **more: Any) -> str:
    """A record for which there is no room ends at a whole entry, says so once, and what it has plays."""
    folder = os.path.join(place, "record")
    probe = Probe(["record", folder, "0", str(SECTORS)], **more)
    probe.answer()
    life, said = Life(probe, 6, resets=0), []
    for _ in range(100):
        life.live(life.count + 100)
        line = probe.ask("sync")
        if line != "synced":
            said.append(line)
            expect(probe.answer() == "synced", "it did not go on")
    expect(probe.end() == 2, "the record counts as whole")
    _, last, cut = bounds(Record(folder))
    expect(len(said) == 1 and not cut and said[0].endswith(f"; the record ends after {last + 1} entries") and last > 500, f"the record ends with entry {last} and {cut} more bytes: {said}")
    must_play(folder, room, max(0, last - 400), last, PLAYER)
    return said[0][5:]


def a_full_disk(room: str) -> str:
    """On a file system without room, and beyond RLIMIT_FSIZE."""
    limits = without_room(room, room, preexec_fn=limited, restore_signals=False)
    expect("File too large" in limits, limits)
    with small_room(room, "3m") as place:
        space = without_room(room, place)
    expect("No space left on device" in space, space)
    return space


def killed_record(room: str) -> str:
    """kill -9: all that was written before is in the record, and a last entry that is cut is reported."""
    for at in range(6):
        folder = os.path.join(room, f"record{at}")
        probe = Probe(["record", folder, "0", str(SECTORS)])
        probe.answer()
        life = Life(probe, at)
        life.live(1500)
        probe.ask("sync")
        written = life.count
        life.live(1500 + 300 * at)
        time.sleep(0.01 * at)
        probe.process.send_signal(signal.SIGKILL)
        probe.kill()
        _, last, _ = bounds(Record(folder))
        expect(last + 1 >= written, f"{written} entries were written, and the record ends with {last}")
        must_play(folder, room, last - 300, last, PLAYER)
    path = os.path.join(folder, "part.000001")
    with open(path, "ab") as file:
        file.write(bytes((1, 0, 0, 0, 8)))
    listed = stretch(["list", folder], stdout=subprocess.PIPE).stdout.decode()
    expect("the last 5 bytes are no whole entry" in listed, listed)
    return "six records play"


def stretch_words(room: str) -> str:
    """stretch: lists parts, names entries by number, by the last and by time, and refuses what there is not."""
    folder = os.path.join(room, "record")
    probe = Probe(["record", folder, "0", "64"])
    probe.answer()
    for pause, (lba, byte) in ((0.0, (0, 1)), (1.2, (1, 2)), (0.0, (0, 3))):
        time.sleep(pause)
        for line in (f"write 0 {lba} 1 {byte} 0 0", f"entry {ACCEPT} 0", "serve 0", f"entry {COLLECT} 0"):
            probe.send(line)
        probe.ask("sync")
    probe.end()

    def printed(*words: str, status: int = 0) -> str:
        done = stretch(list(words), stdout=subprocess.PIPE)
        if done.returncode != status:
            raise Failed(f"{words}: status {done.returncode}, {done.stderr.decode()}")
        return str(done.stdout.decode() + done.stderr.decode())

    listed = printed("list", folder)
    expect("a disk of 64 sectors, 32 slots; entries 0 to 11" in listed and "part.000001: entries 0 to 11" in listed, listed)
    by_time, until = printed("script", folder, "--from-second", "1"), printed("script", folder, "--to-second", "1")
    expect("write 0 1 1 02" in by_time and "write 0 0 1 01" not in by_time and "write 0 1 1 02" not in until and "write 0 0 1 01" in until, f"{by_time}\n{until}")
    expect(printed("script", folder, "--last", "4") == printed("script", folder, "--from", "8"), "--last names other entries")
    for words, why in ((["--from", "12"], "the record has entries"), (["--from", "3", "--to", "2"], "the record has entries"), (["--from-second", "99"], "no entry is after")):
        expect(why in printed("script", folder, *words, status=1), why)
    expect("there is no record" in printed("list", room, status=1), "a folder without a record is not refused")
    expect("usage" in printed("--help").lower() and os.access(STRETCH, os.X_OK), "there is no help")
    return "12 entries"


def folders(room: str) -> str:
    """A record needs a folder of its own: one that has a record, one that has other files, a file, and one whose parent is not there are refused."""
    folder, file = os.path.join(room, "record"), os.path.join(room, "file")
    expect(Probe(["record", folder, "0", "8"]).end() == 0, "the first record was refused")
    expect(sectors_of(folder) == bytes(8 * SECTOR), "a record without entries has no sectors")
    with open(file, "wb"):
        pass
    for path, says in ((folder, "the folder has a record already; remove it, or name another folder"),
                       (room, "the folder has other files; name an empty one, or one that isn't there"), (file, "Not a directory"), (f"{room}/no/record", "No such file or directory")):
        probe = Probe(["record", path, "0", "8"])
        said = probe.answer()
        expect(said == f"said --record {path}: {says}" and probe.end() == 1, said)
    return "four are refused"


def a_long_script(room: str) -> str:
    """A stretch whose script would have over 64 MiB ends at a whole entry and says so; what it has plays."""
    folder, script = os.path.join(room, "record"), os.path.join(room, "script")
    probe = Probe(["record", folder, "0", "131072"])
    probe.answer()
    for at in range(700):
        for line in (f"write 0 {128 * at} 128 {at % 256} 1 0", f"entry {ACCEPT} 0", "serve 0", f"entry {COLLECT} 0"):
            probe.send(line)
    expect(probe.end() == 0, "the record ended before")
    with open(script, "wb") as file:
        done = stretch(["script", folder], stdout=file)
    expect(done.returncode == 1 and b"the script ends after entry" in done.stderr and os.path.getsize(script) <= 64 * MIB, f"{os.path.getsize(script)} bytes: {done.stderr!r}")
    replayed(script, PLAYER)
    return str(done.stderr.decode().strip())


CHECKS = [Check(it) for it in (stretches, parts, a_full_disk, killed_record, stretch_words, folders)] + [Check(a_long_script, is_long=True)]
