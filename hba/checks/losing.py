"""Checks of power losses: what is left is what host/README.md, "Power loss", allows, and a file system has what was synced."""
from __future__ import annotations

import os
import random
import re
import shutil
import subprocess
from typing import Dict, List, NamedTuple, Sequence, Set, Tuple

import images
import pace
import playing
from harness import FORGETFUL, HERE, PROGRAM, SANITIZED, SECTOR, Guest, blank, contents, environment, linux, makes, way_of
from images import program
from power_loss import Loss, judge_losses
from records import FLUSH, LEFT, LOSS, SERVE, WRITE, ZERO, Entry, Record, State
from suite import Check, Failed, expect

LOSER = os.path.join(HERE, "checks", "loser")
SECONDS = 120


def script_of(room: str, text: str) -> str:
    path = os.path.join(room, "losses.events")
    with open(path, "w", encoding="utf-8") as file:
        file.write(f"{text}\n")
    return path


def image_of(room: str, sectors: int) -> str:
    """An image whose first sectors are no zeros."""
    path = blank(room, sectors)
    with open(path, "r+b") as file:
        file.write(random.Random(5).randbytes(60 * SECTOR))
    return path


def lost(room: str, seed: int, losses: int, options: Sequence[str] = (), binary: str = SANITIZED, sectors: int = 1024, how: str = "") -> str:
    """The record of a driver that writes at random through so many losses, `how` as checks/loser has it; the image is disk.img."""
    folder, image = os.path.join(room, f"record{seed}"), image_of(room, sectors)
    script = script_of(room, f"on every write PxSIG do power_loss seed {seed}")
    words = [binary, "run", "--transport", way_of(room), "--image", image, "--script", script, "--record", folder, "--pick", "random", "--seed", str(seed), *options,
             "--", LOSER, str(seed), str(losses), *([how] if how else [])]
    done = pace.ran(words, SECONDS, stdout=subprocess.PIPE, stderr=subprocess.PIPE, text=True, env=environment(room))
    expect(done.returncode == (-9 if how == "kill" else 0) and not done.stderr, f"status {done.returncode}: {done.stdout[-300:]}{done.stderr[-1000:]}")
    return folder


def judged(folder: str, losses: int, has_cache: bool) -> List[Loss]:
    found = judge_losses(Record(folder), has_cache)
    expect(len(found) == losses, f"{folder} has {len(found)} losses, and {losses} were asked for")
    return found


def faults(found: Sequence[Loss]) -> List[str]:
    return [f"the loss at entry {it.number}: {it.fault}" for it in found if it.fault]


def sectors_of(it: Entry) -> range:
    return range(it.lba, it.lba + it.count)


def changes(folder: str) -> Dict[str, int]:
    """How many losses have changed sectors, and how many have changed none."""
    record, count = Record(folder), {"changed": 0, "unchanged": 0}
    state, before, under_way = State(record), b"", False
    for it in record.entries():
        if under_way and it.kind != LEFT:
            count["unchanged" if state.disk.get(0, 128) == before else "changed"] += 1
        if it.kind == LOSS:
            before = state.disk.get(0, 128)
        under_way = it.kind in (LOSS, LEFT)
        state.take(it)
    return count


def returned(folder: str) -> int:
    """How many sectors came back at a loss that a trim had made zeros."""
    record, count = Record(folder), 0
    state = State(record)
    before: Dict[int, bytes] = {}  # what a sector had that was trimmed since the last flush, and not written after that
    was_lost = False
    for it in record.entries():
        if it.kind == FLUSH or (was_lost and it.kind != LEFT):
            before.clear()
        written = [state.commands[tag] for tag in it.data[:it.count]] if it.kind == SERVE else []
        for lba in (lba for command in written if command.kind == WRITE for lba in sectors_of(command)):
            before.pop(lba, None)
        if it.kind == ZERO:
            before.update({lba: state.disk.get(lba) for lba in state.disk.filled(it.lba, it.count)})
        state.take(it)
        was_lost = it.kind in (LOSS, LEFT)
        count += sum(state.disk.get(lba) == before.get(lba) for lba in sectors_of(it)) if it.kind == LEFT else 0
    return count


def random_losses(room: str, options: Sequence[str], has_cache: bool, seeds: int, losses: int, sectors: int = 1024) -> str:
    writes, trims, back, count = 0, 0, 0, {"changed": 0, "unchanged": 0}
    for seed in range(1, seeds + 1):
        folder = lost(room, seed, losses, options, sectors=sectors)
        found = judged(folder, losses, has_cache)
        wrong = faults(found)
        expect(not wrong, f"seed {seed}: {'; '.join(wrong[:3])}")
        image = os.path.join(room, "disk.img")
        if sectors <= 131072:
            makes(folder, image, room)
        else:
            playing.far_plays(folder, os.path.join(room, "script"), image, os.path.join(HERE, "out", "play"))
        writes += sum(it.writes for it in found)
        kinds = [it.kind for it in Record(folder).entries()]
        trims += kinds[kinds.index(LOSS):].count(ZERO)
        back += returned(folder)
        for how, times in changes(folder).items():
            count[how] += times
    expect(min(trims, *count.values()) > 0, f"of {sum(count.values())} losses {count}; {trims} ranges became zeros after the first")
    expect(back > 0 or not has_cache, "no sector came back that was trimmed")
    return f"{seeds * losses} losses after {writes} writes and trims without a flush; {count['changed']} have changed sectors; {trims} ranges became zeros, {back} sectors came back"


def with_cache(room: str) -> str:
    """A driver writes and trims at random, and the power of a disk with a write cache is lost again and again: what is left is allowed by the rule, the record plays to it, and
    the next controller has it."""
    return random_losses(room, ["--write-cache"], True, 6, 20)


def without_cache(room: str) -> str:
    """The same without a cache: no write is lost that was answered."""
    return random_losses(room, [], False, 4, 20)


def written_through(room: str) -> str:
    """The driver disables the cache each time: no write is lost that was answered before or after that. A disk that doesn't flush then loses some."""
    wrong = faults(judged(lost(room, 1, 100, ["--write-cache"], how="through"), 100, False))
    expect(not wrong, f"{wrong[:3]}")
    forgotten = faults(judged(lost(room, 2, 50, ["--write-cache"], binary=FORGETFUL, how="through"), 50, False))
    expect(bool(forgotten), "no loss of a disk that doesn't flush is found")
    return f"100 losses; {len(forgotten)} of 50 without a flush"


def many_losses(room: str) -> str:
    """The same with a cache, 2,000 times."""
    return random_losses(room, ["--write-cache"], True, 40, 50)


def on_a_large_disk(room: str) -> str:
    """The same on a disk of 1 TiB over a sparse image."""
    return random_losses(room, ["--write-cache"], True, 3, 20, sectors=1 << 31)


def is_strict(room: str) -> str:
    """The judge of losses finds a disk that answers flushes without doing them, and one that has a cache where it should have none; it says nothing of the same losses
    by a right disk."""
    wrong = faults(judged(lost(room, 1, 200, ["--write-cache"], binary=FORGETFUL), 200, True))
    expect(bool(wrong), "no loss of a disk that flushes nothing is found")
    cached = faults(judged(lost(room, 2, 50, ["--write-cache"]), 50, False))
    expect(bool(cached), "no loss of a disk with a cache is found")
    return f"{len(wrong)} of 200 losses without flushes, {len(cached)} of 50 with a cache; {wrong[0]}"


def killed(room: str) -> str:
    """The program is killed right after a loss: the image has what the record says that is left, with --sync end and with --sync flush."""
    for seed, sync in ((1, "end"), (2, "flush"), (3, "end")):
        folder = lost(room, seed, 10, ["--write-cache", "--sync", sync], binary=PROGRAM, how="kill")
        wrong = faults(judged(folder, 10, True))
        expect(not wrong, f"{wrong[:3]}")
        expect(contents(os.path.join(room, "disk.img")) == playing.sectors_of(folder), f"with --sync {sync} the image has other sectors than the record")
    return "three images"


def refused(room: str) -> str:
    """A script with a loss of power needs an image, and a record without a limit."""
    script = script_of(room, "on time 1s do power_loss")
    cases: Sequence[Tuple[List[str], str]] = (([], "power_loss needs --image, where the sectors are that it leaves"),
             (["--image", blank(room, 64), "--record", os.path.join(room, "record"), "--record-limit", "1G"],
              "power_loss and --record-limit: what it leaves of the sectors is in the record, and may have more bytes"))
    for options, why in cases:
        done = pace.ran([SANITIZED, "run", "--script", script, *options, "--", "true"], SECONDS, stdout=subprocess.PIPE, stderr=subprocess.PIPE, text=True)
        expect(done.returncode == 2 and done.stderr == f"ahci-hba: --script {script}: {why}\n", f"status {done.returncode}: {done.stderr}")
    return f"{len(cases)} command lines"


def unwritten(room: str) -> str:
    """The image is gone when the power is lost: the program says so, and ends."""
    image, script = image_of(room, 1024), script_of(room, "on every write PxSIG do power_loss")
    driver = ["sh", "-c", f"rm {image}; exec {LOSER} 1 5 \"$@\"", "loser"]
    done = pace.ran([SANITIZED, "run", "--transport", way_of(room), "--image", image, "--script", script, "--", *driver], SECONDS, stdout=subprocess.PIPE, stderr=subprocess.PIPE, text=True,
                    env=environment(room))
    said = rf"ahci-hba: --image {re.escape(image)}: it can't be written back: .*\nahci-hba: the image can't be written as a loss of power leaves it, and the program ends\n(the program is gone\n?)?"
    expect(done.returncode == 1 and bool(re.fullmatch(said, done.stderr)), f"status {done.returncode}: {done.stderr}")
    return "it ends with status 1"


# ---- file systems

# the command that makes a file system, what it says after the image's name, its package, and the disk's sectors: the last MiB is not the file system's
MAKERS: Dict[str, Tuple[List[str], List[str], str, int]] = {"ext4": (["mkfs.ext4", "-q", "-F"], ["64512k"], "e2fsprogs", 131072),
                                                            "xfs": (["mkfs.xfs", "-q", "-f", "-d", "size=319m"], [], "xfsprogs", 655360)}


def made(room: str, system: str) -> str:
    """An image with an empty file system."""
    words, behind, package, sectors = MAKERS[system]
    image = blank(room, sectors)
    images.ran([program(words[0], package), *words[1:], image, *behind])
    return image


def is_sound(room: str, image: str) -> None:
    """An ext4 image is sound once e2fsck has replayed its journal."""
    copy = os.path.join(room, "copy.img")
    shutil.copy(image, copy)
    for words, right in ((["-fy"], (0, 1)), (["-fn"], (0,))):
        done = subprocess.run([program("e2fsck", "e2fsprogs"), *words, copy], stdin=subprocess.DEVNULL, capture_output=True, text=True, check=False)
        expect(done.returncode in right and "UNEXPECTED" not in done.stdout, f"e2fsck {words[0]}: status {done.returncode}: {done.stdout[-800:]}")


class Round(NamedTuple):
    """From one boot to the next: the files that the boot has found, whether the file system was sound, and the files that were synced then."""
    right: Set[str]
    wrong: Set[str]
    sound: List[str]
    synced: Set[str]


def rounds_of(serial: str) -> List[Round]:
    found = []
    for text in serial.split("CHECK boot\n")[1:]:
        lines = [line.split() for line in re.findall(r"^CHECK (.*)$", text, re.MULTILINE)]
        of: Dict[str, List[str]] = {name: [line[1] for line in lines if line[0] == name and len(line) == 2] for name in ("right", "wrong", "sound", "synced")}
        found.append(Round(set(of["right"]), set(of["wrong"]), of["sound"], set(of["synced"])))
    return found


def boots(times: int) -> str:
    """A pattern of so many boots on the serial line, which is looked for in a time that grows with the text alone."""
    return rf"(?s)\A(?:(?:(?!CHECK boot\n).)*CHECK boot\n){{{times}}}"


def filled(room: str, system: str, times: int, seed: int, binary: str = PROGRAM) -> List[Round]:
    """What Linux reports of a file system through so many losses. From each to the next the image is as it has left it, and is looked at as well."""
    image, last = made(room, system), MAKERS[system][3] - 8
    script = script_of(room, f"on every read sectors {last}-{last + 7} do power_loss seed {seed}")
    options = ["--image", image, "--sync", "end", "--write-cache", "--script", script, "--record", os.path.join(room, "record")]
    guest = Guest(room, options, linux(room, "losses", more=f"fs={system}"), binary=binary, log=False)
    try:
        for at in range(times + 1):
            guest.wait_for(boots(at + 1), 120)
            if at and system == "ext4" and binary == PROGRAM:
                is_sound(room, image)
        guest.wait_for(rf"{boots(times + 1)}.*?CHECK sound \d", 120)
    finally:
        guest.kill()
    return rounds_of(guest.serial())[:times + 1]


def faults_of(rounds: Sequence[Round]) -> List[str]:
    """What is wrong after the losses, the first of which is between the first two rounds."""
    found = []
    for at, (before, after) in enumerate(zip(rounds, rounds[1:])):
        gone = sorted(before.synced - after.right)
        found += [f"loss {at}: {len(gone)} of {len(before.synced)} files that were synced are not right, such as {gone[0]}"] if gone else []
        found += [f"loss {at}: the file system is not sound, status {after.sound}"] if after.sound != ["0"] else []
    return found


def survives(room: str, system: str, times: int, seed: int) -> str:
    rounds, record = filled(room, system, times, seed), Record(os.path.join(room, "record"))
    wrong, files = faults_of(rounds), sum(len(it.synced) for it in rounds[:-1])
    wrong += faults(judge_losses(record, True))
    trims = sum(it.kind == ZERO for it in record.entries())
    expect(not wrong, f"from seed {seed} on: {'; '.join(wrong[:3])}")
    expect(files >= times and trims > 0, f"only {files} files were synced before {times} losses, and {trims} ranges trimmed")
    return f"{times} losses, {files} files that were synced are right, {trims} ranges were trimmed"


def ext4(room: str) -> str:
    """Linux fills ext4 and removes what was there, which trims, and the disk loses its power under it, three times: the file system is sound, by its own journal and by e2fsck, each file that was synced is right, and what was left
    is allowed by the record."""
    return survives(room, "ext4", 3, 1)


def xfs(room: str) -> str:
    """The same with xfs and xfs_repair."""
    return survives(room, "xfs", 3, 1)


def ext4_often(room: str) -> str:
    """The same with ext4, 50 times, each by another seed."""
    return survives(room, "ext4", 50, 1)


def xfs_often(room: str) -> str:
    """The same with xfs, 50 times."""
    return survives(room, "xfs", 50, 1)


def ext4_unflushed(room: str) -> str:
    """A disk that answers flushes without doing them loses files of ext4 that were synced, or the file system itself."""
    try:
        wrong = faults_of(filled(room, "ext4", 3, 1, FORGETFUL))
    except Failed as why:
        wrong = [str(why)] if re.search("CHECK failed: (second )?mount", str(why)) else []
    expect(bool(wrong), "nobody has seen that flushes were lost")
    return f"it is seen: {wrong[0][:200]}"


CHECKS = [Check(with_cache, title="Power losses, with a cache"), Check(without_cache, title="Power losses, without a cache"),
          Check(written_through, title="Power losses, a cache that is disabled"), Check(on_a_large_disk, title="Power losses, a large disk"),
          Check(is_strict, title="Power losses that are wrong"), Check(killed, title="Power losses and a kill"), Check(refused, title="Power losses that can't be"),
          Check(unwritten, title="Power losses without an image that can be written"),
          Check(many_losses, title="Power losses, 2,000", is_long=True), Check(ext4, title="Linux, power losses of ext4"), Check(xfs, title="Linux, power losses of xfs", is_long=True),
          Check(ext4_unflushed, title="Linux, power losses of ext4 without flushes", is_long=True),
          Check(ext4_often, title="Linux, 50 power losses of ext4", is_long=True), Check(xfs_often, title="Linux, 50 power losses of xfs", is_long=True)]
