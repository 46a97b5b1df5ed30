"""Checks that run block tools on the plugin: what is written comes back, in the order and by the commands that the parameters say."""
from __future__ import annotations

import os
import random
import subprocess
from typing import Dict, List

from harness import MIB, PLUGIN, RACES_PLUGIN, Check, Failed, counted, fio, must_be_clean, out, ran, replayed, scripted, serving, summary_of, tool
from records import ACCEPT, COLLECT, FLUSH, SERVE, WRITE, Record


def wrong_words(room: str) -> str:
    """Each wrong parameter is refused by name, and nothing is served."""
    image = os.path.join(room, "image")
    with open(image, "wb") as file:
        file.truncate(1025)
    number, size = "expected a decimal number from", "expected a number of bytes from 1 on"
    wrong = [
        *((f"{key}={value}", f'{key}: {number}') for key, value in (("sectors", "0"), ("sectors", "4294967296"), ("depth", "33"), ("together", "0"), ("seed", "x"))),
        *((f"size={value}", f'size: expected whole sectors of 512 bytes, at most 2199023255040 bytes in all, such as 2097152, 64M, 100G or 1T, got "{value}"')
          for value in ("0", "513", "2T", "1TB")),
        *((f"{key}={value}", f'{key}: {size}, such as 4096, 512K, 64M or 1G, got "{value}"') for key, value in (("most-journal", "0"), ("record-limit", "64MB"))),
        ("delay=1+", 'delay: expected MICROSECONDS or MICROSECONDS+JITTER, each a decimal number up to 10000000, got "1+"'),
        ("pick=some", 'pick: expected low, high, all, random or roundrobin, got "some"'), ("sync=never", 'sync: expected end or flush, got "never"'),
        ("fail=1:4", "fail: expected WHERE:EE"), ("slow=1", "slow: expected WHERE:MICROSECONDS"), ("stall=1", "stall: there is no such parameter"),
        ("fail=131072:40", "fail=131072..: the disk has 131072 sectors"), ("slow=131072:1", "slow=131072..: the disk has 131072 sectors"),
        ("what=1", "what: there is no such parameter"), ("image=/nowhere/image", "image=/nowhere/image: No such file"), ("image=/", "no regular file"),
        ("record=/nowhere/record", "No such file"), (f"record={image}", "Not a directory"), ("sync=flush", "there is no image="), ("record-limit=1", "there is no record="),
    ]
    several = [(["16Q"], 'size: expected whole sectors'), (["sectors=8", "4K"], "both say how large the disk is"),
               ([f"image={image}", "sectors=2"], "the image has 3 sectors"), (["fail=1:40"] * 65, "64 times at most"),
               (["sectors=8", "fail=8:40"], "the disk has 8 sectors"),
               (["sectors=8", "sectors=8"], "sectors= is given twice"), (["sectors=8", "size=4K"], "both say how large the disk is"), (["size=4K", "sectors=8"], "both say how large the disk is"),
               (["size=2199023255040", "fail=4294967295:40"], "the disk has 4294967295 sectors"), (["pick=low", "pick=high"], "pick= is given twice"),
               ([f"record={room}/record", "record-limit=1K"], "at least"),
               ([f"record={room}/record", "record-limit=20M", "size=1T"], "record-limit: a disk of 2147483648 sectors needs 21037152 bytes at least")]
    for words, counts_of in [*(([word], text) for word, text in wrong), *several]:
        done = tool(["nbdkit", "-f", "-U", os.path.join(room, "socket"), PLUGIN, *words, "--run", "true"])
        if done.returncode != 1 or counts_of not in done.stdout:
            raise Failed(f"{' '.join(words[:2])}: status {done.returncode}, {done.stdout}")
    found = tool(["nbdkit", "-f", "-U", os.path.join(room, "socket"), PLUGIN, "16M", "--run", 'nbdinfo --size "$uri"'])
    if "16777216" not in found.stdout:
        raise Failed(f"16M alone: {found.stdout}")
    return f"{len(wrong) + len(several)} are refused"


def verified_writes(room: str) -> str:
    """fio: random writes of 4k to 64k at depth 32 over 64 MiB, each verified by its crc32c."""
    with serving(room, "pick=random", "seed=7") as server:
        must_be_clean(fio(server, "verify", "--rw=randwrite", "--bsrange=4k-64k", "--iodepth=32", "--size=64m", "--verify=crc32c",
                          "--do_verify=1", "--verify_fatal=1", "--randseed=5"))
    return summary_of(server)


def mixed_jobs(room: str) -> str:
    """fio: two jobs that read and write, several tags completed at once, out of order. The queue is full once: the device waits longer and longer
    until it is."""
    for delay in (20, 200, 2000, 20000):
        with serving(room, "pick=random", "seed=3", "together=4", f"delay={delay}") as server:
            must_be_clean(fio(server, "mixed", "--rw=randrw", "--bs=4k", "--iodepth=32", "--size=64m", f"--io_size={max(1, 320 // delay)}m", "--numjobs=2", "--group_reporting"))
        if not counted(server, "lists of several tags") or not counted(server, "of them out of order"):
            raise Failed(f"no tags were completed together, or out of order: {summary_of(server)}")
        if "32 tags at most" in summary_of(server):
            return summary_of(server)
    raise Failed(f"the queue was never full: {summary_of(server)}")


def long_requests(room: str) -> str:
    """Requests of 5 and of 16 MiB become several commands each, and every part comes back, with FUA too."""
    path, back = os.path.join(room, "data"), os.path.join(room, "back")
    data = random.Random(6).randbytes(32 * MIB)
    with open(path, "wb") as file:
        file.write(data)
    with serving(room, f"record={room}/record") as server:
        ran(["qemu-io", "-f", "raw", "-c", f"write -s {path} 0 5M", "-c", f"write -s {path} 0 16M", "-c", f"write -f -s {path} 16M 9M", server.uri])
        ran(["nbdcopy", "--requests=1", f"--request-size={16 * MIB}", server.uri, back])
    with open(back, "rb") as file:
        found = file.read()
    if found[:16 * MIB] != data[:16 * MIB] or found[16 * MIB:25 * MIB] != data[:9 * MIB] or any(found[25 * MIB:]):
        raise Failed("other sectors came back")
    most = max(it.count for it in Record(f"{room}/record").entries() if it.kind == WRITE)
    if most != 8192:
        raise Failed(f"a command had {most} sectors, and 8192 are the most")
    return summary_of(server)


def chosen_tags(room: str) -> str:
    """The device goes on with the tags that `pick` says, as many at once as `together` says: each entry of the records is looked at."""
    looked = 0
    for pick, given, together in (("low", [], 1), ("low", ["together=3"], 3), ("high", ["together=2"], 2), ("all", [], 32), ("random", ["together=4"], 4), ("roundrobin", ["together=2"], 2)):
        record = os.path.join(room, f"record-{pick}-{together}")
        with serving(room, "sectors=2048", f"record={record}", f"pick={pick}", "delay=2000", *given) as server:
            must_be_clean(fio(server, "chosen", "--rw=randwrite", "--bs=512", "--iodepth=32", "--size=1m", "--number_ios=400", "--randseed=9"))
        looked += looked_at(Record(record), pick, together)
    return f"{looked} choices among several tags"


def looked_at(record: Record, pick: str, together: int) -> int:
    """How many entries of a record had to choose, if all of them chose as they should."""
    accepted: List[int] = []
    several, middle, first = 0, 0, 0
    for it in record.entries():
        if it.kind == ACCEPT:
            accepted.append(it.tag)
        if it.kind != SERVE:
            continue
        tags, rising = list(it.data[:it.count]), sorted(accepted)
        going_round = sorted(rising, key=lambda tag: (tag - first) % 32)
        wanted = (rising[::-1] if pick == "high" else going_round if pick == "roundrobin" else rising)[:together]
        is_chosen = len(tags) == len(wanted) and set(tags) <= set(rising) if pick == "random" else tags == wanted
        if not is_chosen:
            raise Failed(f"pick={pick}: {tags}, of the tags {rising}")
        several += len(rising) > 1
        middle += tags[0] not in (rising[0], rising[-1])
        accepted, first = [tag for tag in accepted if tag not in tags], tags[-1] + 1
    if several < 10 or pick in ("random", "roundrobin") and not middle:
        raise Failed(f"pick={pick}: {several} entries had a choice, and {middle} began with a tag between the others")
    return several


def bits_and_flushes(room: str) -> str:
    """FUA is the bit of the command, and a flush is FLUSH CACHE EXT after what came before it: the script of the record has both."""
    record = os.path.join(room, "record")
    with serving(room, "sectors=64", f"record={record}") as server:
        ran(["qemu-io", "-t", "writeback", "-f", "raw", "-c", "write -P 0x11 0 512", "-c", "write -f -P 0x22 512 1024", "-c", "flush", "-c", "write -P 0x33 0 512", server.uri])
        found = out(server, os.path.join(room, "back"))
    with open(scripted(record, f"{record}.ahci"), encoding="ascii") as text:
        lines = text.read().split("\n")
    raw = [line for line in lines if line.startswith("raw ")]
    # READ or WRITE FPDMA QUEUED in the command table: the code in byte 2, the count in 3, the LBA from 4 on, FUA as bit 7 of byte 7
    if len(raw) != 1 or raw[0].split(" ")[3][:16] != "2780610201" "0000c0" or found[:1536] != b"\x33" * 512 + b"\x22" * 1024:
        raise Failed(f"one write was to have FUA: {[line[:100] for line in raw]}")
    kinds = [it.kind for it in Record(record).entries() if it.kind in (WRITE, SERVE, FLUSH)][:6]
    if kinds != [WRITE, SERVE, WRITE, SERVE, FLUSH, WRITE]:
        raise Failed(f"the flush is not there, or elsewhere: {kinds}")
    if replayed(f"{record}.ahci") != found:
        raise Failed("the record plays to other sectors")
    return summary_of(server)


def waiting_flushes(room: str) -> str:
    """A flush waits until every command before it is done, and no later one is issued before it, with 32 outstanding."""
    record = os.path.join(room, "record")
    with serving(room, "sectors=8192", f"record={record}", "delay=20", "pick=random") as server:
        must_be_clean(fio(server, "flushes", "--rw=randwrite", "--bs=4k", "--iodepth=32", "--size=4m", "--fsync=7", "--numjobs=3", "--group_reporting"))
    outstanding, flushes = 0, 0
    for it in Record(record).entries():
        outstanding += (it.kind == WRITE) - (it.kind == COLLECT)
        flushes += it.kind == FLUSH
        if it.kind == FLUSH and outstanding:
            raise Failed(f"entry {it.number}: a flush with {outstanding} commands outstanding")
    if flushes < 100:
        raise Failed(f"there were {flushes} flushes")
    return f"{flushes} flushes; {summary_of(server)}"


def a_file_system(room: str) -> str:
    """mkfs.ext4 with files, in and out by nbdcopy, checked by e2fsck."""
    image, back = (os.path.join(room, it) for it in ("fs", "back"))
    with open(image, "wb") as file:
        file.truncate(16 * MIB)
    ran(["mkfs.ext4", "-q", "-F", "-E", "lazy_itable_init=0", image])
    with serving(room, f"sectors={32768}", "pick=high") as server:
        ran(["nbdcopy", "--requests=32", image, server.uri])
        with_files = written_files(room, image)
        ran(["nbdcopy", "--requests=32", image, server.uri])
        out(server, back)
    ran(["e2fsck", "-fn", back])
    for name, data in with_files.items():
        took = os.path.join(room, "took")
        ran(["debugfs", "-R", f"dump {name} {took}", back])
        with open(took, "rb") as file:
            if file.read() != data:
                raise Failed(f"{name} came back otherwise")
    return summary_of(server)


def written_files(room: str, image: str) -> Dict[str, bytes]:
    """Puts a few files into a file system."""
    draw = random.Random(11)
    files = {f"file{at}": draw.randbytes(draw.randrange(1, 200_000)) for at in range(4)}
    for name, data in files.items():
        path = os.path.join(room, name)
        with open(path, "wb") as file:
            file.write(data)
        ran(["debugfs", "-w", "-R", f"write {path} {name}", image])
    return files


def by_qemu(room: str) -> str:
    """qemu-img: a random image converted onto the disk and compared; qemu-io: a pattern."""
    image = os.path.join(room, "random")
    with open(image, "wb") as file:
        file.write(random.Random(2).randbytes(64 * MIB))
    with serving(room, "pick=all") as server:
        ran(["qemu-img", "convert", "-n", "-f", "raw", "-O", "raw", image, server.uri])
        ran(["qemu-img", "compare", "-f", "raw", "-F", "raw", image, server.uri])
        ran(["qemu-io", "-f", "raw", "-c", "write -f -P 0x5a 1M 256k", "-c", "read -P 0x5a 1M 256k", "-c", "flush", server.uri])
    return summary_of(server)


def bounded_memory(room: str) -> str:
    """Ten GiB of writes, and then reads alone: the journal is trimmed, and memory stays."""
    with serving(room, "most-journal=16777216") as server:
        must_be_clean(fio(server, "warm", "--rw=randwrite", "--bs=64k", "--iodepth=32", "--size=64m", "--io_size=256m"))
        early = server.memory()
        must_be_clean(fio(server, "long", "--rw=randwrite", "--bs=256k", "--iodepth=32", "--size=64m", "--io_size=10g"))
        must_be_clean(fio(server, "reads", "--rw=randread", "--bs=4k", "--iodepth=32", "--size=64m", "--number_ios=500000", "--io_size=2g"))
        late = server.memory()
    if late > early + 64 * MIB:
        raise Failed(f"{early // MIB} MiB after 256 MiB of writes, {late // MIB} MiB after 10 GiB and 500,000 reads")
    return f"{early // MIB} MiB, then {late // MIB} MiB; {summary_of(server)}"


def parts_among_others(room: str) -> str:
    """Requests of several commands among short ones of four clients, so that the threads of some play the device more than once."""
    with serving(room) as server:
        must_be_clean(fio(server, "parts", "--rw=randwrite", "--bssplit=4k/90:9m/10", "--iodepth=32", "--size=63m", "--number_ios=400", "--numjobs=4", "--norandommap", "--group_reporting"))
    return summary_of(server)


def no_races(room: str) -> str:
    """The plugin under ThreadSanitizer, without and with a thread of the device's own."""
    library = subprocess.run(["gcc", "-print-file-name=libtsan.so"], stdout=subprocess.PIPE, text=True, check=True).stdout.strip()
    environment = {"LD_PRELOAD": library, "TSAN_OPTIONS": "exitcode=66 report_signal_unsafe=0"}
    last = ""
    for given in ([], ["slow=200-300:500+500"]):
        record = os.path.join(room, f"record{len(given)}")
        with serving(room, "sectors=8192", "fail=100:40:3", "pick=random", "together=3", f"record={record}", *given, plugin=RACES_PLUGIN, environment=environment) as server:
            fio(server, "races", "--rw=randrw", "--bs=4k", "--iodepth=32", "--size=4m", "--io_size=8m", "--numjobs=3", "--continue_on_error=all", "--fsync=64", "--error_dump=0")
        last = summary_of(server)
    return last


CHECKS = [Check(wrong_words, []), Check(verified_writes, ["fio"]), Check(mixed_jobs, ["fio"]), Check(long_requests, ["qemu-io", "nbdcopy"]), Check(chosen_tags, ["fio"]),
          Check(bits_and_flushes, ["qemu-io", "nbdcopy"]), Check(waiting_flushes, ["fio"]), Check(a_file_system, ["nbdcopy", "mkfs.ext4", "debugfs"]), Check(by_qemu, ["qemu-img", "qemu-io"]),
          Check(bounded_memory, ["fio"]), Check(parts_among_others, ["fio"]), Check(no_races, ["fio", "gcc"])]
