"""Checks of large disks: what they cost is what was written, and not their size."""
from __future__ import annotations

import os
import random
import re
import resource
import signal
import subprocess
import time
from typing import List

from harness import MIB, PLAYER, PLUGIN, SECTOR, Check, Failed, Server, counted, fio, must_be_clean, ran, serving, summary_of, tool
import pace
from playing import far_plays, image_of
from recording import size_of
from records import Record, bounds
from systems import fused

GIB = 1 << 30
TIB = 1 << 40


def sparse(path: str, size: int) -> None:
    """A file that is one hole."""
    with open(path, "wb") as file:
        file.truncate(size)


def a_terabyte(room: str) -> str:
    """A sparse image of 1 TiB: mkfs.ext4 on all of it but the last GiB, where fio writes 256 MiB at random and verifies them; memory is that of the pages that were
    written. Then the file has it all: e2fsck -f, and fio verifies once more on another server."""
    image = os.path.join(room, "disk")
    sparse(image, TIB)
    job = ["--rw=randwrite", "--bsrange=4k-64k", "--iodepth=32", f"--offset={TIB - GIB}", "--size=256m", "--verify=crc32c", "--randseed=5", "--randrepeat=1"]
    with serving(room, f"image={image}", "most-journal=16M", "pick=random") as server:
        early = server.own_memory()
        with fused(room, server) as disk:
            ran(["mkfs.ext4", "-q", "-F", "-E", "lazy_itable_init=1,lazy_journal_init=1", disk, f"{TIB // 1024 - GIB // 1024}k"])
        formatted = server.own_memory()
        must_be_clean(fio(server, "large", *job, "--do_verify=1", "--verify_fatal=1"))
        late = server.own_memory()
    written, counts = os.stat(image).st_blocks * 512, summary_of(server)
    if os.path.exists(f"{image}.journal") or os.path.getsize(image) != TIB or written < 256 * MIB:
        raise Failed(f"{os.listdir(room)}, of {os.path.getsize(image)} bytes with {written} on the disk")
    if late - early > 1.3 * written + 128 * MIB:
        raise Failed(f"{late - early} bytes of memory, and {written} were written")
    ran(["e2fsck", "-fn", image])
    with serving(room, f"image={image}") as again:
        must_be_clean(fio(again, "large", *job, "--verify_only", "--verify_fatal=1"))
    return f"{early // MIB} MiB of memory, {formatted // MIB} after mkfs, {late // MIB} after fio, {written // MIB} MiB were written; {counts}"


def a_terabyte_of_xfs(room: str) -> str:
    """A sparse image of 1 TiB with XFS: its headers stand at four places of the whole disk. xfs_repair finds nothing on the served disk, nor in the file afterwards."""
    image = os.path.join(room, "disk")
    sparse(image, TIB)
    with serving(room, f"image={image}", "most-journal=16M", "pick=random") as server:
        with fused(room, server) as disk:
            ran(["mkfs.xfs", "-q", "-f", disk])
            ran(["xfs_repair", "-n", "-f", disk])
    ran(["xfs_repair", "-n", "-f", image])
    with open(image, "rb") as file:
        if file.read(4) != b"XFSB" or os.path.getsize(image) != TIB:
            raise Failed(f"the file is no file system of {os.path.getsize(image)} bytes")
    return f"{os.stat(image).st_blocks // 2} KiB were written; {summary_of(server)}"


def both_ends(room: str) -> str:
    """The largest disk over zeros: its first and last sectors are written and read, rules apply to them, and the sector behind it is not there."""
    last = 4294967294 * 512
    with serving(room, "sectors=4294967295", "fail=4294967294:40:1,reads", "fail=4294967290-4294967291:40:1,writes") as server:
        said = ran(["qemu-io", "-f", "raw", "-c", "write -P 1 0 512", "-c", f"write -f -P 2 {last} 512", "-c", "read -P 1 0 512", "-c", "read -P 0 512 512", "-c", f"read {last} 512",
                    "-c", f"read -P 2 {last} 512", "-c", f"write {last - 4096} 4608", "-c", f"read -P 0 {last - 512} 512", "-c", f"read {last + 512} 512", server.uri], status=1)
    if said.count("Input/output error") != 3 or said.count("read 512/512") != 4 or "Pattern verification failed" in said or server.said().count("2 failures") != 1:
        raise Failed(said)
    return summary_of(server)


def no_memory(room: str) -> str:
    """A write for whose pages there is no memory fails, and is not stored in part; others go on, and what is stored is read."""
    server = Server(room, PLUGIN, ["size=1T", "most-journal=4M"])
    try:
        with open(f"/proc/{server.process.pid}/status", encoding="ascii") as text:
            size = next(int(it.split()[1]) * 1024 for it in text if it.startswith("VmSize:"))
        most = size + 32 * 8 * MIB + 200 * MIB  # with the stacks of nbdkit's threads
        resource.prlimit(server.process.pid, resource.RLIMIT_AS, (most, most))
        words = [word for at in range(600) for word in ("-c", f"write -P {at % 255 + 1} {at}G 1M")]
        said = tool(["qemu-io", "-f", "raw", *words, server.uri]).stdout
        stored = [int(it) >> 30 for it in re.findall(r"wrote 1048576/1048576 bytes at offset (\d+)", said)]
        if "Cannot allocate memory" not in said or not 20 < len(stored) < 600:
            raise Failed(f"{len(stored)} writes were done: {said[-500:]}")
        words = [word for at in range(600) for word in ("-c", f"read -P {at % 255 + 1 if at in stored else 0} {at}G 1M")]
        said = tool(["qemu-io", "-f", "raw", *words, server.uri]).stdout
        if said.count("read 1048576/1048576") != 600 or "Pattern verification failed" in said:
            raise Failed(f"{said.count('read 1048576/1048576')} reads were done, and what was stored is not what is read")
    finally:
        server.stop()
    if server.process.returncode:
        raise Failed(f"status {server.process.returncode}: {server.said()}")
    return f"{len(stored)} of 600 MiB were stored; {summary_of(server)}"


def flat(room: str) -> str:
    """The same work on disks of 64 MiB to 1 TiB over sparse images, with sixteen trims and flushes of 4 MiB: its times are printed, and its memory doesn't grow with the disk."""
    times, memory = [], []
    for size in (64 * MIB, GIB, 64 * GIB, TIB):
        image = os.path.join(room, f"disk{size}")
        sparse(image, size)
        begun = time.monotonic()
        with serving(room, f"image={image}", "sync=flush", "most-journal=1M") as server:
            started = time.monotonic()
            words = [word for at in range(16)
                     for word in ("-c", f"write -P {at + 1} {at * size // 16 // 4096 * 4096} 1M", "-c", f"write -P 3 {at * size // 16 // 4096 * 4096 + MIB} 3M", "-c", "flush")]
            ran(["qemu-io", "-t", "writeback", "-f", "raw", *words, server.uri])
            memory.append(server.own_memory())
        times.append(f"{size // MIB} MiB: start {1000 * (started - begun):.0f} ms, all {time.monotonic() - begun:.2f} s, {counted(server, 'trims')} trims, {memory[-1] // MIB} MiB of memory")
        if counted(server, "trims") < 16 or os.stat(image).st_blocks * 512 < 60 * MIB:
            raise Failed(f"{summary_of(server)}, {os.stat(image).st_blocks} blocks")
        os.remove(image)
    if memory[-1] > memory[0] + 64 * MIB:
        raise Failed(f"{memory} bytes of memory")
    return "; ".join(times)


# ---- records

AREAS = ((0, 64), (500 * GIB, 256), (TIB - 128 * 1024, 128))  # bytes from the start, and KiB
FAILS = 700 * GIB // SECTOR + 3


def areas_of(path: str) -> List[bytes]:
    with open(path, "rb") as file:
        return [os.pread(file.fileno(), kib << 10, at) for at, kib in AREAS]


def read_by_client(server: Server, room: str, at: int, kib: int) -> bytes:
    """What a client reads, in 4 KiB from a place on."""
    path = os.path.join(room, "read")
    ran(["qemu-img", "dd", "-f", "raw", "-O", "raw", "bs=4096", f"skip={at // 4096}", f"count={at // 4096 + kib // 4}", f"if={server.uri}", f"of={path}"])
    with open(path, "rb") as file:
        return file.read()


def a_recorded_terabyte(room: str) -> str:
    """The record of a disk of 1 TiB over an image: fio reads and writes at random at its beginning, in its middle and up to its last sector, and a read fails. The whole record and
    stretches of it play to what the client has read; `stretch sectors --base` has the disk after each entry, the first one too."""
    image, folder, draw = os.path.join(room, "disk"), os.path.join(room, "record"), random.Random(21)
    sparse(image, TIB)
    with open(image, "r+b") as file:
        for at, kib in (*AREAS, (FAILS * SECTOR - 4096, 8)):
            os.pwrite(file.fileno(), draw.randbytes(kib << 10), at)
    before = areas_of(image)
    with serving(room, f"image={image}", f"record={folder}", "pick=random", "together=3", f"fail={FAILS}:40:1,reads") as server:
        for number, (at, kib) in enumerate(AREAS):
            must_be_clean(fio(server, f"far{number}", "--rw=randrw", "--bsrange=512-12k", "--iodepth=16", f"--offset={at}", f"--size={kib}k", "--io_size=1m", "--norandommap",
                              f"--randseed={number}"))
        reads = [word for _ in range(2) for word in ("-c", f"read {(FAILS - 1) * SECTOR} 2k")]
        said = ran(["qemu-io", "-f", "raw", *reads, "-c", f"write -P 9 {TIB - SECTOR} 512", "-c", f"read -P 9 {TIB - SECTOR} 512", server.uri], status=1)
        if said.count("Input/output error") != 1 or said.count("read 2048/2048") != 1 or "Pattern verification failed" in said:
            raise Failed(said)
        found = [read_by_client(server, room, at, kib) for at, kib in AREAS]
    if found != areas_of(image) or found == before:
        raise Failed("the client has read other sectors than the image has")
    return must_be_recorded(room, folder, image, before)


def must_be_recorded(room: str, folder: str, image: str, before: List[bytes]) -> str:
    """The record is that of an image, which had other bytes before."""
    script, then = os.path.join(room, "script"), os.path.join(room, "then")
    names = far_plays(folder, script, image, PLAYER)
    with open(script, encoding="ascii") as file:
        failures = re.findall(r"^fail \d+ 40 (\d+)$", file.read(), re.MULTILINE)
    if failures != [str(names.index(FAILS))]:
        raise Failed(f"the script has failures at {failures}, and sector {FAILS} is {names.index(FAILS)} there")
    image_of(folder, then, "--to", "0", "--base", image)
    if areas_of(then) != before or os.path.getsize(then) != TIB:
        raise Failed("after the first entry, a request, the disk has other sectors than at the start")
    _, last, _ = bounds(Record(folder))
    draw = random.Random(22)
    for _ in range(5):
        first = draw.randrange(last - 300)
        image_of(folder, then, "--to", str(first + 300), "--base", image)
        far_plays(folder, script, then, PLAYER, "--from", str(first), "--to", str(first + 300))
    return f"{last + 1} entries, {len(names)} sectors"


def a_killed_terabyte(room: str) -> str:
    """kill -9 in the middle of writes to a disk of 1 TiB: what the record has plays."""
    folder, then = os.path.join(room, "record"), os.path.join(room, "then")
    server = Server(room, PLUGIN, ["size=1T", f"record={folder}", "pick=random"])
    job = subprocess.Popen(["fio", "--name=cut", "--ioengine=nbd", f"--uri={server.uri}", "--rw=randrw", "--bsrange=512-8k", "--iodepth=32", "--offset=900g",
                            "--size=4m", "--time_based", "--runtime=60"],
                           stdin=subprocess.DEVNULL, stdout=subprocess.DEVNULL, stderr=subprocess.DEVNULL, cwd=room)
    limit = pace.Limit(20)
    while not limit.has_passed() and (not os.path.exists(folder) or size_of(folder) < 8 * MIB):
        time.sleep(0.02)
    server.stop(signal.SIGKILL)
    job.kill()
    job.wait()
    first, last, cut = bounds(Record(folder))
    if last < 1000 or first:
        raise Failed(f"entries {first} to {last}")
    image_of(folder, then)
    names = far_plays(folder, os.path.join(room, "script"), then, PLAYER, "--from", str(last - 2000))
    return f"{last + 1} entries, and {cut} bytes of another; {len(names)} sectors"


def a_limited_terabyte(room: str) -> str:
    """record-limit= of a disk of 1 TiB: the record never has more bytes, the oldest part is dropped, and the others have the pages that their commands touch."""
    folder, limit, largest, then = os.path.join(room, "record"), 24 * MIB, 0, os.path.join(room, "then")
    with serving(room, "size=1T", f"record={folder}", "record-limit=24M") as server:
        job = subprocess.Popen(["fio", "--name=limit", "--ioengine=nbd", f"--uri={server.uri}", "--rw=randwrite", "--bs=16k", "--iodepth=32", "--offset=300g",
                                "--size=4m", "--io_size=100m", "--norandommap"],
                               stdin=subprocess.DEVNULL, stdout=subprocess.DEVNULL, stderr=subprocess.DEVNULL, cwd=room)
        while job.poll() is None:
            largest = max(largest, size_of(folder))
            time.sleep(0.005)
        if job.returncode:
            raise Failed(f"fio: status {job.returncode}")
        found = read_by_client(server, room, 300 * GIB, 4096)
    largest = max(largest, size_of(folder))
    record = Record(folder)
    first, last, _ = bounds(record)
    if largest > limit or largest < limit // 3 or first == 0 or len(record.parts) != 2:
        raise Failed(f"{largest} bytes at most, entries {first} to {last} in {len(record.parts)} parts")
    image_of(folder, then)
    with open(then, "rb") as file:
        if os.pread(file.fileno(), 4 * MIB, 300 * GIB) != found:
            raise Failed("the record ends with other sectors than the client read")
    for asked in (record.parts[1].first - 100, record.parts[1].first):  # over a part's beginning, and from there
        image_of(folder, then, "--to", str(asked + 300))
        far_plays(folder, os.path.join(room, "script"), then, PLAYER, "--from", str(asked), "--to", str(asked + 300))
    return f"{largest} bytes at most, entries {first} to {last} are left"


CHECKS = [Check(a_terabyte, ["fio", "mkfs.ext4", "e2fsck", "nbdfuse"]), Check(a_terabyte_of_xfs, ["mkfs.xfs", "xfs_repair", "nbdfuse"]),
          Check(both_ends, ["qemu-io"]), Check(no_memory, ["qemu-io"]), Check(flat, ["qemu-io"]),
          Check(a_recorded_terabyte, ["fio", "qemu-io", "qemu-img"]), Check(a_killed_terabyte, ["fio"]), Check(a_limited_terabyte, ["fio", "qemu-img"])]
