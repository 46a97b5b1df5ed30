"""Checks of record= and stretch: a record has all that happened, and any stretch of it is a script that plays to the same sectors."""
from __future__ import annotations

import os
import random
import signal
import subprocess
import time
from typing import List, Tuple

from harness import MIB, PLAYER, PLUGIN, Check, Failed, Server, fio, must_be_clean, out, ran, replayed, scripted, sectors_of, serving, summary_of
import pace
import playing
from records import COLLECT, READ, WRITE, Record, bounds


def must_play(folder: str, room: str, first: int, last: int) -> int:
    """A stretch plays to the sectors that the disk had after it, and names some."""
    names = playing.must_play(folder, room, first, last, PLAYER)
    if not names:
        raise Failed(f"entries {first} to {last} name no sector")
    return names


def a_long_record(room: str) -> str:
    """A GiB of random writes: the record has each of them, and three stretches play to the same sectors."""
    folder = os.path.join(room, "record")
    with serving(room, f"record={folder}", "pick=random") as server:
        must_be_clean(fio(server, "long", "--rw=randwrite", "--bs=4k", "--iodepth=32", "--size=64m", "--io_size=1g", "--norandommap", "--randseed=12"))
        found = out(server, os.path.join(room, "back"))
    record = Record(folder)
    first, last, cut = bounds(record)
    if cut or first or sectors_of(folder) != found:
        raise Failed("the record ends with other sectors than the client read")
    if sum(it.kind == WRITE for it in record.entries()) != 262_144:
        raise Failed("some write is missing")
    written = max(it.number for it in record.entries() if it.kind == WRITE)
    starts = [0, written // 2, written - 6000]
    names = [must_play(folder, room, it, it + 6000 - 1) for it in starts]
    if len(record.parts) < 2:
        raise Failed("the record has one part alone")
    return f"{last + 1} entries in {len(record.parts)} parts; stretches of {names} sectors"


def outstanding_commands(room: str) -> str:
    """Stretches that begin while commands are outstanding, of reads and writes of 1 to 40 sectors, several completed together, with failures."""
    folder = os.path.join(room, "record")
    with serving(room, "sectors=4096", f"record={folder}", "pick=random", "together=5", "delay=50", "fail=any:40:ever,rate=1/50") as server:
        fio(server, "mixed", "--rw=randrw", "--bsrange=512-20k", "--iodepth=32", "--size=2m", "--io_size=16m", "--numjobs=2", "--continue_on_error=all",
            "--error_dump=0", "--randseed=13", "--norandommap")
        found = out(server, os.path.join(room, "back"))
    if sectors_of(folder) != found:
        raise Failed("the record ends with other sectors than the client read")
    _, last, _ = bounds(Record(folder))
    draw = random.Random(14)
    began = 0
    for _ in range(6):
        first = draw.randrange(last - 400)
        must_play(folder, room, first, first + draw.randrange(50, 400))
        began += outstanding_before(Record(folder), first) > 0
    if began < 3:
        raise Failed(f"{began} stretches of 6 began while commands were outstanding")
    played = replayed(scripted(folder, os.path.join(room, "all.ahci")))
    if played != found:
        raise Failed("the whole record plays to other sectors")
    return f"{began} of 6 stretches began while commands were outstanding; {last + 1} entries"


def outstanding_before(record: Record, number: int) -> int:
    count = 0
    for it in record.entries():
        if it.number >= number:
            break
        count += (it.kind in (READ, WRITE)) - (it.kind == COLLECT)
    return count


def an_image_recorded(room: str) -> str:
    """The record of a disk with an image begins with its sectors: a script has those that the stretch reads."""
    image, folder = os.path.join(room, "disk"), os.path.join(room, "record")
    data = random.Random(15).randbytes(MIB)
    with open(image, "wb") as file:
        file.write(data)
    with serving(room, f"image={image}", f"record={folder}") as server:
        ran(["qemu-io", "-f", "raw", "-c", "read 100k 8k", "-c", "write -P 5 104k 2k", server.uri])
        found = out(server, os.path.join(room, "back"))
    if sectors_of(folder) != found:
        raise Failed("the record has other sectors than the client read")
    script = scripted(folder, os.path.join(room, "short.ahci"), "--to", "7")
    played = replayed(script)
    if played[100 * 1024:104 * 1024] != data[100 * 1024:104 * 1024] or played[104 * 1024:106 * 1024] != b"\5" * 2048 or any(played[:100 * 1024]):
        raise Failed("the script has not the sectors that it needs, or has others")
    if replayed(scripted(folder, os.path.join(room, "all.ahci"), "--to", "7", "--all-sectors")) != sectors_of(folder, "--to", "7"):
        raise Failed("with --all-sectors some sector differs")
    return summary_of(server)


def a_limit(room: str) -> str:
    """record-limit=: the record never has more bytes, the oldest are dropped, and what is left plays to the same sectors."""
    folder, limit = os.path.join(room, "record"), 40 * MIB
    largest = 0
    with serving(room, "sectors=8192", f"record={folder}", f"record-limit={limit}") as server:
        job = subprocess.Popen(["fio", "--name=limit", "--ioengine=nbd", f"--uri={server.uri}", "--rw=randwrite", "--bs=16k", "--iodepth=32", "--size=4m", "--io_size=300m", "--norandommap"],
                               stdin=subprocess.DEVNULL, stdout=subprocess.DEVNULL, stderr=subprocess.DEVNULL, cwd=room)
        while job.poll() is None:
            largest = max(largest, size_of(folder))
            time.sleep(0.005)
        if job.returncode:
            raise Failed(f"fio: status {job.returncode}")
        found = out(server, os.path.join(room, "back"))
    largest = max(largest, size_of(folder))
    first, last, _ = bounds(Record(folder))
    if largest > limit or largest < limit // 2 or first == 0:
        raise Failed(f"{largest} bytes at most, entries {first} to {last}")
    if sectors_of(folder) != found:
        raise Failed("the record ends with other sectors than the client read")
    must_play(folder, room, first + 1000, first + 2000)
    return f"{largest} bytes at most, entries {first} to {last} are left"


def size_of(folder: str) -> int:
    total = 0
    for name in os.listdir(folder):
        try:
            total += os.stat(os.path.join(folder, name)).st_size
        except FileNotFoundError:  # it was dropped meanwhile
            pass
    return total


def killed(room: str) -> str:
    """kill -9 in the middle of writes: every write that was answered is in the record, and it plays."""
    folder = os.path.join(room, "record")
    server = Server(room, PLUGIN, ["sectors=8192", f"record={folder}", "pick=random"])
    log = os.path.join(room, "answered")
    job = subprocess.Popen(["fio", "--name=cut", "--ioengine=nbd", f"--uri={server.uri}", "--rw=randwrite", "--bs=4k", "--iodepth=32", "--size=4m", "--time_based", "--runtime=60",
                            f"--write_iolog={log}"], stdin=subprocess.DEVNULL, stdout=subprocess.DEVNULL, stderr=subprocess.DEVNULL, cwd=room)
    limit = pace.Limit(20)
    while not limit.has_passed() and (not os.path.exists(folder) or size_of(folder) < 8 * MIB):
        time.sleep(0.02)
    server.stop(signal.SIGKILL)
    job.kill()
    job.wait()
    first, last, cut = bounds(Record(folder))
    if last < 1000 or first:
        raise Failed(f"entries {first} to {last}")
    must_play(folder, room, last - 2000, last)
    return f"{last + 1} entries, and {cut} bytes of another"


def answered_and_killed(room: str) -> str:
    """What a client has its answer for is in the record when the server is killed at once."""
    for at in range(5):
        folder = os.path.join(room, f"record{at}")
        server = Server(room, PLUGIN, ["sectors=8192", f"record={folder}"])
        client = subprocess.Popen(["stdbuf", "-oL", "qemu-io", "-f", "raw", "-c", f"write -P {at + 1} 0 16k", "-c", "sleep 60000", server.uri],
                                  stdin=subprocess.DEVNULL, stdout=subprocess.PIPE, text=True)
        assert client.stdout
        client.stdout.readline()
        server.stop(signal.SIGKILL)
        client.kill()
        client.wait()
        if sectors_of(folder)[:16384] != bytes((at + 1,)) * 16384:
            raise Failed("an answered write is not in the record")
    return "five answered writes were in the records of killed servers"


def same_commands(room: str) -> str:
    """A record does not change the work: the same requests become the same commands with and without it."""
    counts_of: List[Tuple[int, ...]] = []
    for given in ([], [f"record={room}/record"]):
        with serving(room, "sectors=8192", *given) as server:
            must_be_clean(fio(server, "same", "--rw=randwrite", "--bs=64k", "--iodepth=32", "--size=4m", "--randseed=16"))
        counts_of.append(tuple(int(it.strip().partition(" ")[0]) for it in summary_of(server).split(",")[:2]))
    if counts_of[0] != counts_of[1] or counts_of[0][0] != 64:
        raise Failed(f"commands and tags: {counts_of}")
    return f"{counts_of[0][0]} commands each"


CHECKS = [Check(a_long_record, ["fio", "nbdcopy"]), Check(outstanding_commands, ["fio", "nbdcopy"]), Check(an_image_recorded, ["qemu-io", "nbdcopy"]),
          Check(a_limit, ["fio", "nbdcopy"]), Check(killed, ["fio"]), Check(answered_and_killed, ["qemu-io"]), Check(same_commands, ["fio"])]
