"""Checks of image= and sync=: the sectors at the start, and where they go at the end, whatever fails on the way."""
from __future__ import annotations

import contextlib
import os
import random
import signal
import subprocess
import time
from typing import Dict, Iterator, List

from harness import MIB, PLUGIN, Check, Failed, Server, Skipped, fio, must_be_clean, out, ran, serving, summary_of, tool
from files import contents, made
import pace


def an_image(room: str) -> str:
    """The image is loaded without a command and written back at the end; what the client read is what it has then. A last sector that is cut
    short is reported, and filled with zeros."""
    image = os.path.join(room, "disk")
    data = made(image, 300_000)
    with serving(room, f"image={image}", says="300000 bytes are no whole sectors") as server:
        ran(["qemu-io", "-f", "raw", "-c", "write -P 0x77 0 4k", server.uri])
        found = out(server, os.path.join(room, "back"))
    if contents(image) != found or found != b"\x77" * 4096 + data[4096:] + bytes(586 * 512 - 300_000):
        raise Failed("the image is not what the client read, or that is not what it was")
    commands = int(summary_of(server).partition(" ")[0])
    with serving(room, f"image={image}") as server:
        ran(["qemu-io", "-f", "raw", "-c", "read 0 512", server.uri])
    if int(summary_of(server).partition(" ")[0]) != 1 or sorted(os.listdir(room)) != ["back", "disk", "log"]:
        raise Failed(f"one command was issued, and the port counts others: {summary_of(server)}")
    return f"{commands} commands"


def image_with_a_failing_sector(room: str) -> str:
    """fail= at a sector of the image that is not blank: the server starts, and the first command that touches the sector fails."""
    image = os.path.join(room, "disk")
    data = made(image, MIB)
    with serving(room, f"image={image}", "fail=100:40:1", "pick=random") as server:
        said = tool(["qemu-io", "-f", "raw", "-c", "read 51200 512", "-c", "read 51200 512", "-c", "write -P 1 0 512", server.uri]).stdout
        found = out(server, os.path.join(room, "back"))
    if said.count("Input/output error") != 1 or said.count("read 512/512 bytes") != 1 or found[512:] != data[512:] or found != contents(image):
        raise Failed(said)
    return summary_of(server)


@contextlib.contextmanager
def small_room(room: str, size: str) -> Iterator[str]:
    """A file system of a few MiB."""
    if os.geteuid() != 0:
        raise Skipped("a file system of its own can be mounted by root alone")
    place = os.path.join(room, "small")
    os.mkdir(place)
    ran(["mount", "-t", "tmpfs", "-o", f"size={size}", "none", place])
    try:
        yield place
    finally:
        ran(["umount", place])


def no_space_at_a_flush(room: str) -> str:
    """sync=flush without room: the flush fails and the client sees it; with room again the next one succeeds, and nothing is lost."""
    with small_room(room, "5m") as place:
        image, filler = os.path.join(place, "disk"), os.path.join(place, "filler")
        data = made(image, 2 * MIB)
        with contextlib.suppress(OSError), open(filler, "wb", buffering=0) as file:
            while True:
                file.write(bytes(4096))
        with serving(room, f"image={image}", "sync=flush", says="it can't be written back: .*No space left on device") as server:
            first = tool(["qemu-io", "-t", "writeback", "-f", "raw", "-c", "write -P 3 0 512", "-c", "flush", server.uri])
            if first.returncode != 1 or contents(image) != data:
                raise Failed(f"the flush was to fail, and has status {first.returncode}")
            os.remove(filler)
            ran(["qemu-io", "-t", "writeback", "-f", "raw", "-c", "flush", server.uri])
            if contents(image) != b"\x03" * 512 + data[512:]:
                raise Failed("the second flush did not write the image")
    return summary_of(server)


def flushed_and_killed(room: str) -> str:
    """With sync=flush a kill loses nothing that was flushed or written with FUA; without it the image is as it was at the start."""
    image = os.path.join(room, "disk")
    data = made(image, MIB)
    for given, write, wanted in (([], ["write -P 1 0 512", "flush"], data), (["sync=flush"], ["write -P 2 0 512", "flush", "write -P 3 512 512"], b"\x02" * 512 + data[512:]),
                                 (["sync=flush"], ["write -f -P 4 1024 512"], b"\x02" * 512 + data[512:1024] + b"\x04" * 512 + data[1536:])):
        server = Server(room, PLUGIN, [f"image={image}", *given])
        words = [word for it in write for word in ("-c", it)]
        client = subprocess.Popen(["stdbuf", "-oL", "qemu-io", "-t", "writeback", "-f", "raw", *words, "-c", "sleep 60000", server.uri], stdin=subprocess.DEVNULL, stdout=subprocess.PIPE, text=True)
        assert client.stdout
        for _ in range(sum("write" in it for it in write)):  # a write has two lines; a flush has none, and is done before the next command
            client.stdout.readline()
            client.stdout.readline()
        if write[-1] == "flush":
            wait_for(image, wanted)
        server.stop(signal.SIGKILL)
        client.kill()
        client.wait()
        if contents(image) != wanted:
            raise Failed(f"{' '.join(given) or 'sync=end'}: the image has other sectors after {write}")
    return "flushed sectors are there, others are not"


def wait_for(path: str, wanted: bytes) -> None:
    """Waits some seconds at most until a file has these bytes."""
    limit = pace.Limit(5)
    while contents(path) != wanted and not limit.has_passed():
        time.sleep(0.05)


def sync_of_many(room: str) -> str:
    """sync=flush with a job that flushes all the time, and reads back what the image has: with a disk in memory, and with one over the image."""
    image = os.path.join(room, "disk")
    for sectors in (8192, 131073):
        data = made(image, 4 * MIB)
        with serving(room, f"image={image}", f"sectors={sectors}", "sync=flush", "pick=random") as server:
            must_be_clean(fio(server, "sync", "--rw=randwrite", "--bssplit=4k/80:512/10:9k/10", "--iodepth=32", "--offset=100k", "--size=3m", "--fsync=16",
                              "--verify=crc32c", "--do_verify=1", "--randseed=2"))
            ran(["qemu-io", "-t", "writeback", "-f", "raw", "-c", "flush", server.uri])
            found = out(server, os.path.join(room, "back"))
            if found != contents(image) or len(found) != 512 * sectors or found[:100 << 10] != data[:100 << 10]:
                raise Failed("the image is not what the client reads")
    return summary_of(server)


def killed_while_flushing(room: str) -> str:
    """kill -9 at random moments while a client writes and flushes: after a start the image has all that the last flush covers, or all of the one that was
    on its way, and nothing between the two."""
    image, draw, counts = os.path.join(room, "disk"), random.Random(31), {"old": 0, "new": 0, "applied": 0}
    places = [at * 3 * MIB + 77 * 512 * at for at in range(20)]
    made(image, 0)
    for at in range(30):
        if at in (0, 10):
            os.truncate(image, 64 * MIB + 512 * at)  # a disk that is in memory, and one that is over the image
        given = ["together=4", "pick=random"] if at % 2 else []
        server = Server(room, PLUGIN, [f"image={image}", "sync=flush", *given])
        words = [word for generation in range(1, 200) for place in places for word in ("-c", f"write -P {generation} {place} 64k", *(("-c", "flush") if place == places[-1] else ()))]
        client = subprocess.Popen(["stdbuf", "-oL", "qemu-io", "-t", "writeback", "-f", "raw", *words, server.uri], stdin=subprocess.DEVNULL,
                                  stdout=subprocess.PIPE, stderr=subprocess.DEVNULL, text=True)
        assert client.stdout
        wait, lines = draw.randrange(1, 7), 2 * len(places)  # a flush is done once a line of the next write is there
        for _ in range(lines * wait + draw.choice((draw.randrange(1, lines), lines, lines))):
            client.stdout.readline()
        time.sleep(draw.random() * 0.02)
        server.stop(signal.SIGKILL)
        more = client.communicate()[0].count("wrote ")
        counts[what_is_left(room, image, places, wait, more, counts)] += 1
    return ", ".join(f"{count} {what}" for what, count in counts.items())


def what_is_left(room: str, image: str, places: List[int], flushed: int, writes: int, counts: Dict[str, int]) -> str:
    """Starts a server on the image of a killed one, and looks at the generation that the image has: one that is flushed, or the next one."""
    server = Server(room, PLUGIN, [f"image={image}"])
    said = server.stop()
    counts["applied"] += "they are in the image now" in said
    data = contents(image)
    found = {bytes(data[at:at + 65536]) for at in places}
    generation = data[places[0]]
    if server.process.returncode or found != {bytes((generation,)) * 65536} or os.path.exists(f"{image}.journal"):
        raise Failed(f"the image has sectors of {len(found)} kinds, after {flushed} flushes and {writes} writes more: {said}")
    if any(data[places[0] + 65536:places[1]]) or len(data) not in (64 * MIB, 64 * MIB + 5120):
        raise Failed("other sectors were written")
    last = flushed + 1 + (writes + len(places) - 1) // len(places)
    if not flushed <= generation <= last:
        raise Failed(f"the image is that of flush {generation}, and {flushed} to {last} were done or on their way")
    return "old" if generation == flushed else "new"


CHECKS = [Check(an_image, ["qemu-io", "nbdcopy"]), Check(image_with_a_failing_sector, ["qemu-io", "nbdcopy"]), Check(no_space_at_a_flush, ["qemu-io", "mount"]),
          Check(flushed_and_killed, ["qemu-io"]), Check(killed_while_flushing, ["qemu-io", "stdbuf"]), Check(sync_of_many, ["fio", "qemu-io", "nbdcopy"])]
