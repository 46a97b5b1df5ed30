"""Checks that treat the program badly: wrong command lines, garbage from the guest, ends in the middle, and files that can't be written."""
from __future__ import annotations

import os
import re
import signal
import struct
import subprocess
from typing import Any, List, Tuple

import images
from harness import BROKE_A_RULE, HERE, PROGRAM, SANITIZED, SECTOR, STARVED, Guest, blank, contents, digest, environment, linux, makes, qemu, way_of
from images import pattern
import pace
from records import ACCEPT, FAIL, RESET, SERVE, WRITE, ZERO, Record
from suite import Check, expect

GARBAGE = os.path.join(HERE, "checks", "garbage")
READER = os.path.join(HERE, "checks", "reader")
WRITER = os.path.join(HERE, "checks", "writer")
PEER = os.path.join(HERE, "checks", "peer")


def program(*words: str) -> "subprocess.CompletedProcess[str]":
    """Runs the program without a guest."""
    return pace.ran([PROGRAM, *words], 20, stdout=subprocess.PIPE, stderr=subprocess.PIPE, text=True)


def refused(words: List[str], says: str) -> None:
    """A command line that is refused with status 2 and one line."""
    done = program(*words)
    expect(done.returncode == 2 and done.stdout == "" and done.stderr == f"ahci-hba: {says}\n", f"{words}: status {done.returncode}, {done.stdout}{done.stderr}")


PROXY_DEVICE = "-device x-pci-proxy-dev,id=ahci-hba,fd=40 -chardev socket,id=ahci-hba-messages,fd=41 -object qtest,id=ahci-hba-qtest,chardev=ahci-hba-messages,log=none"


def memory_of(size: int) -> str:
    return f" -object memory-backend-memfd,id=ahci-hba-memory,size={size},share=on -machine memory-backend=ahci-hba-memory"


def vfio_device(path: str) -> str:
    return '-device {"driver":"vfio-user-pci","id":"ahci-hba","socket":{"type":"unix","path":"%s"},"x-msg-timeout":60000}' % path


def started(way: str, path: str, words: str, added: str) -> None:
    """A command line of QEMU gets these arguments, and no others."""
    done = program("run", "--transport", way, "--socket", path, "--sectors", "8", "--", "sh", "-c", 'echo "$*"', "sh", *words.split())
    expect(done.stdout == f"{words} {added}".strip() + "\n" and done.returncode == 0, f"{words}: {done.stdout}{done.stderr}")


def arguments(room: str) -> str:
    """What `run` adds to the arguments of QEMU."""
    single, path = "-accel tcg,thread=single ", os.path.join(room, "socket")
    device = vfio_device(path)
    cases = [
        ("proxy", "-m 1G", single + PROXY_DEVICE + memory_of(1 << 30)),
        ("proxy", "-m size=512M,slots=2,maxmem=2G", single + PROXY_DEVICE + memory_of(512 << 20)),
        ("proxy", "-smp 2", single + PROXY_DEVICE + memory_of(128 << 20)),
        ("proxy", "-accel kvm -m 5g", PROXY_DEVICE + memory_of(5 << 30)),
        ("proxy", "-machine q35,accel=kvm,memory-backend=x", PROXY_DEVICE),
        ("proxy", "-enable-kvm -M q35,memory-backend=x -device x-pci-proxy-dev,fd=40,addr=5", PROXY_DEVICE[PROXY_DEVICE.index("-chardev"):]),
        ("vfio-user", "-m 256", device + memory_of(256 << 20)),
        ("vfio-user", "-accel kvm -smp 2", device + memory_of(128 << 20)),
        ("vfio-user", "-M virt,memory-backend=x", device),
        ("vfio-user", "-M q35,memory-backend=x -device " + device.split(" ")[1].replace("}", ',"addr":"5"}'), ""),
    ]
    for way, words, added in cases:
        started(way, path, words, added)
    done = program("run", "--transport", "proxy", "--sectors", "8", "--", "qemu-system-x86_64", "-m", "0.5G")
    expect(done.returncode == 1 and done.stderr == "ahci-hba: -m 0.5G: the size of the guest's memory can't be read\n", f"-m 0.5G: {done.stderr}")
    return f"{len(cases)} command lines"


def versions(room: str) -> str:
    """A QEMU without vfio-user that is known to crash by the proxy isn't started, and of one that was not tried it is said."""
    path = os.path.join(room, "qemu-system-old")
    cases = [("10.0.7 (Debian 1:10.0.7+ds-0)", "QEMU 10.0 crashes with the device of --transport proxy; QEMU 7.2 has the controller by it, and QEMU 10.1 or later by vfio-user", 1),
             ("9.2.1", "QEMU 9.2 was not tried with the device of --transport proxy; QEMU 7.2 was", 0), ("7.2.18", "", 0)]
    for version, says, status in cases:
        with open(path, "w", encoding="utf-8") as file:
            file.write(f'#!/bin/sh\ntest "$1" != --version || echo "QEMU emulator version {version}"\n')
        os.chmod(path, 0o755)
        done = program("run", "--sectors", "8", "--", path, "-m", "512M")
        expect(done.returncode == status and done.stderr == (f"ahci-hba: {says}\n" if says else ""), f"{version}: status {done.returncode}, {done.stderr}")
    return f"{len(cases)} versions"


def command_lines(room: str) -> str:
    """Each wrong option is refused by its name."""
    image = os.path.join(room, "small.img")
    with open(image, "wb") as file:
        file.write(bytes(3 * SECTOR + 1))
    run = ["--", "true"]
    number, size = "expected a decimal number from", "expected a number of bytes from 1 on, such as 4096, 512K, 64M or 1G"
    rest = "[:COUNT][,reads|writes][,commands=A-B][,seconds=A-B][,rate=N/M][,seed=S], where WHERE is LBA, LBA-LBA or any, COUNT a number from 1 on or ever"
    fields = "expected FIELD=NUMBER, where FIELD is ncs, iss, s64a, sncq, sss, sclo, salp or pmd"
    small = ["run", "--sectors", "8"]
    cases: List[Tuple[List[str], str]] = [
        ([], 'expected run, serve or uml, got ""; see ahci-hba --help'),
        (["walk"], 'expected run, serve or uml, got "walk"; see ahci-hba --help'),
        (["serve"], "expected --socket PATH"),
        (["serve", "--socket", "s", "--", "true"], 'serve starts no command, got "true"'),
        (["run", "--socket", "", *run], '--socket: expected a path, got ""'),
        (["run", "--transport", "ide", *run], '--transport: expected vfio-user or proxy, got "ide"'),
        (["run", "--hold", "2000:300:16:1", *run], '--hold: expected MICROSECONDS[:GAP[:COUNT]], each a decimal number up to 1000000, got "2000:300:16:1"'),
        (["run", "--hold", "1000001", *run], '--hold: expected MICROSECONDS[:GAP[:COUNT]], each a decimal number up to 1000000, got "1000001"'),
        (["run"], "expected a command after `--`"),
        (["run", "--"], "expected a command after `--`"),
        (["run", "--sectors", "0", *run], f'--sectors: {number} 1 to 4294967295, got "0"'),
        (["run", "--sectors=8x", *run], f'--sectors: {number} 1 to 4294967295, got "8x"'),
        (["run", "--size", "2T", *run], '--size: expected whole sectors of 512 bytes, at most 2199023255040 bytes in all, such as 2097152, 64M, 100G or 1T, got "2T"'),
        ([*small, "--size", "4096", *run], "--size 4096: --sectors and --size are given, and both say how large the disk is"),
        (["run", "--depth", "33", *run], f'--depth: {number} 1 to 32, got "33"'),
        (["run", "--cap", "sss=1,ncs=33", *run], '--cap sss=1,ncs=33: ncs: expected a decimal number from 1 to 32, got "33"'),
        (["run", "--cap", "iss=4", *run], '--cap iss=4: iss: expected a decimal number from 1 to 3, got "4"'),
        (["run", "--cap", "s64a=no", *run], '--cap s64a=no: s64a: expected a decimal number from 0 to 1, got "no"'),
        (["run", "--cap", "sss=1,,sclo=0", *run], f'--cap sss=1,,sclo=0: {fields}, got ""'),
        (["run", "--cap", "sxs=1", *run], f'--cap sxs=1: {fields}, got "sxs=1"'),
        (["run", "--cap", "sss=1,sss=0", *run], "--cap sss=1,sss=0: sss is given twice"),
        (["run", "--model", 41 * "m", *run], f'--model: expected at most 40 characters of ASCII, got "{41 * "m"}"'),
        (["run", "--serial", 21 * "s", *run], f'--serial: expected at most 20 characters of ASCII, got "{21 * "s"}"'),
        (["run", "--rpm", "1024", *run], '--rpm: expected 0, 1, or 1025 to 65534, got "1024"'),
        (["run", "--pick", "all", *run], '--pick: expected low, high, random or roundrobin, got "all"'),
        (["run", "--sync", "never", *run], '--sync: expected end or flush, got "never"'),
        (["run", "--trim", "ones", *run], '--trim: expected zeros or advice, got "ones"'),
        ([*small, "--trim", "advice", "--trim", "zeros", *run], "--trim zeros: --trim is given twice"),
        (["run", "--seed", "18446744073709551616", *run], f'--seed: {number} 0 to 18446744073709551615, got "18446744073709551616"'),
        (["run", "--delay", "1+", *run], '--delay: expected MICROSECONDS or MICROSECONDS+JITTER, each a decimal number up to 10000000, got "1+"'),
        (["run", "--fail", "1:4", *run], f'--fail: expected WHERE:EE{rest}, and EE two hexadecimal digits, got "1:4"'),
        (["run", "--slow", "1", *run], f'--slow: expected WHERE:MICROSECONDS[+JITTER]{rest}, and both times 10000000 at most, got "1"'),
        (["run", "--stall", "1:40:2", *run], f'--stall: expected WHERE{rest}, got "1:40:2"'),
        ([*small, "--fail", "8:40", *run], "--fail 8..: the disk has 8 sectors"),
        ([*small, "--slow", "2-8:1", *run], "--slow 8..: the disk has 8 sectors"),
        ([*small, "--stall", "8", *run], "--stall 8..: the disk has 8 sectors"),
        ([*small, "--sectors", "8", *run], "--sectors 8: --sectors is given twice"),
        (["run", "--most-journal", "64MB", *run], f'--most-journal: {size}, got "64MB"'),
        (["run", "--record-limit", "64M", *run], "--record-limit: there is no --record"),
        ([*small, "--record", f"{room}/record", "--record-limit", "1M", *run], "--record-limit: a disk of 8 sectors needs 71311360 bytes at least"),
        (["run", "--size", "65M", "--record", f"{room}/record", "--record-limit", "132M", *run], "--record-limit: a disk of 133120 sectors needs 138821728 bytes at least"),
        (["run", "--image", image, "--sectors", "3", *run], f"--image {image}: the image has 4 sectors, and the disk 1 to 3"),
        (["run", "--image", f"{room}/none", *run], f"--image {room}/none: No such file or directory"),
        (["run", "--image", room, *run], f"--image {room}: this is no regular file"),
        (["run", "--record", "", *run], '--record: expected a folder, got ""'), (["run", "--record", "-", *run], '--record: expected a folder, got "-"'),
        (["run", "--log", "-", *run], '--log: expected a file, got "-"'),
        (["run", "--speed", "3", *run], "--speed: there is no such option"),
        (["run", "--depth"], "--depth: expected a value"),
        (["run", "qemu-system-x86_64"], 'expected an option, or `--` and a command, got "qemu-system-x86_64"'),
    ]
    for words, says in cases:
        refused(words, says)
    return f"{len(cases)} are refused"


def record(room: str) -> str:
    """What Linux did, with an error in the queue, is played again from the record: the disk is the same."""
    image = os.path.join(room, "disk.img")
    with open(image, "wb") as file:
        file.write(images.numbered_blocks(512, 4096))
    guest = Guest(room, ["--image", image, "--fail", "1000:40", "--pick", "random", "--delay", "500"], linux(room, "record", pattern(65536, "record")), recorded=image)
    guest.end(240)
    results = guest.results()
    expect(results["reads"] == "requests 2000 compared 1999 errors 1 wrong 0", f"reads: {results['reads']}")
    expect(contents(image)[-65536:] == pattern(65536, "record"), "the image has not what Linux wrote")
    failures = [(it.flag, it.lba) for it in Record(guest.record_path).entries() if it.kind == FAIL]
    expect(failures == [(0x40, 1000)], f"the record has the failures {failures}")
    return guest.has_recorded


def garbage(room: str) -> str:
    """Random accesses over random tables, under the sanitizers; the record makes the image that was saved, over all resets and trims."""
    steps, resets, trims, entries = 0, 0, 0, 0
    for seed in range(5):
        image, folder = blank(room, 256), os.path.join(room, f"record{seed}")
        rules = ["--fail", "5:40:3", "--fail", "any:04,rate=1/50,seed=3", "--slow", "30-40:200+200:20,writes", "--stall", "17:3"]
        guest = Guest(room, ["--image", image, "--record", folder, "--pick", "random", "--most-journal", "256K", *rules], [GARBAGE, str(seed), "20000"], binary=SANITIZED)
        guest.end(200)
        steps += 20000
        makes(folder, image, room)
        kinds = [it.kind for it in Record(folder).entries()]
        resets += kinds.count(RESET)
        trims += kinds.count(ZERO)
        entries += len(kinds)
    expect(resets > 20 and trims > 20, f"the records have {resets} resets, and {trims} ranges became zeros")
    return f"{steps} accesses, {entries} entries, {resets} resets, {trims} ranges that became zeros"


def wrong_peer(room: str) -> str:
    """A peer of the proxy that sends what no QEMU does, under the sanitizers: what is no message ends the run with status 1, and all else is answered."""
    ended, unknown = "the guest's program ended in the middle of a message", "QEMU sent a message of "
    cases = [("sizes", 0, ""), ("short_file", 0, "(the guest's memory at [0-9a-f]+ of 1048576 bytes can't be used: Invalid argument ?)+"), ("shortened", 0, ""),
             ("full_pipe", 0, ""), ("past_the_end", 0, ""),
             ("unknown", 1, unknown + "kind 99, which is not known here"), ("long", 1, unknown + "1048576 bytes, of which [0-9]+ are known here"), ("half", 1, ended), ("half_data", 1, ended)]
    for what, status, said in cases:
        words = [SANITIZED, "run", "--transport", "proxy", "--judge", "--sectors", "64", "--", PEER, what]
        done = pace.ran(words, 60, stdout=subprocess.PIPE, stderr=subprocess.PIPE, text=True)
        lines = [line[len("ahci-hba: "):] for line in done.stderr.splitlines() if line.startswith("ahci-hba: ") and "judge:" not in line]
        expect(bool(re.fullmatch(said, " ".join(lines))), f"{what}: {done.stderr}")
        expect(done.returncode in (status, status or BROKE_A_RULE), f"{what}: status {done.returncode}: {done.stderr}")
    return f"{len(cases)} peers"


STARVES = "ahci-hba: there is no memory; the device tries again every 10 ms"


def refused_memory(room: str) -> str:
    """One request for memory in forty is refused: the device waits and goes on, and nothing is lost."""
    image = blank(room, 32768)
    guest = Guest(room, ["--image", image], linux(room, "memory"), binary=STARVED)
    guest.end(240, said=f"{STARVES}\n")
    guest.linux_is_usual()
    results = guest.results()
    expect(bool(re.fullmatch(r"requests 4000 compared [1-9]\d* errors 0 wrong 0", results["small"])), f"small: {results['small']}")
    expect(results["disk"].split()[0] == digest(contents(image)), "the image is not the disk that Linux read last")
    return results["small"]


def failed_reads(room: str) -> str:
    """A read that fails has moved the sectors before the one that it names, queued, by DMA or by PIO; PRDBC says so of one that is not queued. No rule
    is lost while there is no memory."""
    image = os.path.join(room, "disk.img")
    with open(image, "wb") as file:
        file.write(b"".join(struct.pack("<Q", lba) * (SECTOR // 8) for lba in range(64)))
    wanted = [f"{code}: 5 sectors, PRDBC {counted}, error 40 at 21: 200" for code, counted in (("20h", 5 * SECTOR), ("60h", 0), ("C8h", 5 * SECTOR))]
    for binary, said in ((PROGRAM, ""), (STARVED, f"{STARVES}\n")):
        words = [binary, "run", "--transport", way_of(room), "--image", image, "--fail", "21-63:40:ever,reads", "--", READER, "16", "600"]
        done = pace.ran(words, 120, stdout=subprocess.PIPE, stderr=subprocess.PIPE, text=True)
        expect(done.returncode == 0 and done.stderr == said, f"status {done.returncode}: {done.stderr}")
        expect(done.stdout.split("\n")[:-1] == wanted, f"{os.path.basename(binary)}: the reads came to {done.stdout}")
    return "1,200 reads moved five sectors and failed at the sixth"


def given_up(room: str) -> str:
    """No request for memory is granted any more: with --memory-wait the program ends, and says so."""
    image = blank(room, 64)
    words = [STARVED, "run", "--transport", way_of(room), "--image", image, "--memory-wait", "2", "--", READER, "16", "600"]
    done = pace.ran(words, 120, env={**os.environ, "STARVES": "1"}, stdout=subprocess.PIPE, stderr=subprocess.PIPE, text=True)
    expect(done.returncode == 1 and done.stderr == f"{STARVES}, for 2 s at most\nahci-hba: there has been no memory for 2 s, and the program ends\n",
           f"status {done.returncode}: {done.stderr}")
    return "status 1, and it is said"


def killed_guest(room: str) -> str:
    """QEMU is killed: the program says so, and the image has what was written."""
    image, _ = images.sector_image(room)
    guest = Guest(room, ["--image", image], qemu(room))
    guest.wait_for("^end$", 60)
    os.kill(guest.child(), signal.SIGKILL)
    guest.end(30, status=1, said="ahci-hba: the guest's program was ended by signal 9\n")
    expect(contents(image)[200 * SECTOR:202 * SECTOR] == b"\x5a" * (2 * SECTOR), "the image has not what was written")
    return "status 1, the image is written"


def unkept(room: str) -> str:
    """If the image can't be written at a flush, the flush fails, and Linux says so to who asked for it. A file of somebody else in the
    journal's place is not touched, and no later server starts beside it."""
    image = blank(room, 2048)
    before, new = contents(image), f"{image}.journal.new"
    guest = Guest(room, ["--image", image], linux(room, "keep"))
    guest.wait_for(".", 60)
    with open(new, "w", encoding="ascii") as file:
        file.write("kept")
    guest.end(240, status=1, said=f"(ahci-hba: --image {re.escape(image)}: it can't be written back: {re.escape(new)}: File exists; [0-9]+ pages have changed, and it is as it was\n)+")
    expect(guest.results()["flush"] == "wrong", "Linux takes the write for kept")
    expect(contents(image) == before and contents(new) == b"kept", "the image has changed though it could not be written, or what was beside it")
    done = program("run", "--image", image, "--", "true")
    expect(done.returncode == 2 and f"{new} is in the way" in done.stderr, f"it starts beside {new}: {done.stderr}")
    return "Linux sees the error"


def written_at_the_end(room: str) -> str:
    """With --sync end a flush writes no image, and the end does."""
    image = blank(room, 2048)
    before = contents(image)
    guest = Guest(room, ["--image", image, "--sync", "end"], linux(room, "keep"))
    guest.wait_for("^CHECK flush", 240)
    expect(contents(image) == before or guest.process.poll() is not None, "the image was written at a flush")
    guest.end(60)
    expect(guest.results()["flush"] == "right", "the flush failed")
    return "the flush is answered, the image is written at the end"


def full(room: str) -> str:
    """A record or a log that can't be written is named, and the guest goes on."""
    image, _ = images.sector_image(room)
    guest = Guest(room, ["--image", image, "--record", "/dev/full"], qemu(room))
    guest.end(30, status=1, said="ahci-hba: --record /dev/full: Not a directory\n")
    done = program("run", "--sectors", "8", "--log", "/dev/full", "--", "true")
    expect(done.returncode == 1 and done.stderr == "ahci-hba: --log /dev/full: it could not be written\n", f"status {done.returncode}: {done.stderr}")
    return "record and log"


def written(room: str, options: List[str], words: List[str], status: int = 0, said: str = "", binary: str = PROGRAM, **more: Any) -> str:
    """Runs checks/writer, and returns what it printed."""
    more = {"env": environment(room), **more}
    done = pace.ran([binary, "run", "--transport", way_of(room), *options, "--", WRITER, *words], 240, stdout=subprocess.PIPE, stderr=subprocess.PIPE, text=True, **more)
    expect(done.returncode == status and done.stderr == said, f"{options} {words}: status {done.returncode}: {done.stderr}")
    return str(done.stdout)


def rules(room: str) -> str:
    """--fail and --slow are about the commands that their conditions name: by number, direction and sector. Writes have 64 sectors, and fail at the first."""
    ended, taken = "a write failed\nahci-hba: the guest's program ended with status 1\n", 0
    for number, (options, failures) in enumerate([(["--fail", "any:40,commands=3"], [128]), (["--fail", "70-127:04,writes"], [64]),
                                                  (["--fail", "70:04:ever,reads"], []), (["--fail", "any:40,rate=1/1,seconds=90-99"], [])]):
        folder = os.path.join(room, f"record{number}")
        written(room, ["--sectors", "256", "--record", folder, *options], ["1", "64", "256", "1", "-"], 1 if failures else 0, ended if failures else "")
        found = [it.lba for it in Record(folder).entries() if it.kind == FAIL]
        expect(found == failures, f"{options}: failures at {found}")
        taken += len(found)
    folder = os.path.join(room, "slow")
    written(room, ["--sectors", "256", "--record", folder, "--slow", "64-127:100000+50000:3"], ["1", "64", "256", "1", "-"])
    slow = times_of(folder, range(64, 128))[:3]
    expect(min(slow) >= 100_000, f"the first three commands that touch the sectors took {slow} microseconds")
    return f"{taken} failures, slow commands of {slow} microseconds"


def times_of(folder: str, sectors: range) -> List[int]:
    """How many microseconds each command took from its acceptance on that touches some sectors; there is one at a time."""
    times, since, touches = [], 0, False
    for it in Record(folder).entries():
        if it.kind == WRITE:
            touches = it.lba < sectors.stop and it.lba + it.count > sectors.start
        elif it.kind == ACCEPT:
            since = it.time
        elif it.kind == SERVE and touches:
            times.append(it.time - since)
    return times


def much_written(room: str, mib: int = 2048) -> str:
    """Writes without end: the journal is trimmed, and memory stays."""
    said = written(room, ["--most-journal", "128M"], [str(mib), "16384", "131072", "16", "-"])
    before, after = map(int, said.split()[1:])
    expect(after < before + 64, f"{before} MiB after a tenth of the writes, {after} after {mib} MiB")
    return f"{before} MiB, then {after} MiB"


def very_much_written(room: str) -> str:
    """The same with 10 GiB."""
    return much_written(room, 10240)


def large(room: str) -> str:
    """A disk of 2 TiB over a sparse image: its last 64 MiB are written in place, and memory is that of what was written."""
    image, first, size = os.path.join(room, "disk.img"), (1 << 32) - 1 - 131072, (1 << 32) - 1
    with open(image, "wb") as file:
        file.truncate(size * SECTOR)
    said = written(room, ["--image", image], ["64", "1024", "131072", "16", str(first)])
    with open(image, "rb") as file:
        file.seek(first * SECTOR)
        for at in range(8):
            command = b"".join(struct.pack("<II", at, mark).ljust(SECTOR, b"\0") for mark in range(0, 1024 * SECTOR, SECTOR))
            expect(file.read(16 * len(command)) == 16 * command, f"the image has not what round {at} wrote")
        expect(not file.read(), "the image has grown")
    blocks, memory = os.stat(image).st_blocks * 512 >> 20, int(said.split()[2])
    expect(blocks <= 65 and memory < 256, f"{blocks} MiB of the image, {memory} MiB of memory")
    return f"{blocks} MiB of the image, {memory} MiB of memory"


CHECKS = [Check(command_lines, title="Command lines"), Check(arguments, title="Arguments of QEMU"), Check(versions, title="Versions of QEMU"),
          Check(record, title="Record of Linux"), Check(garbage, title="Garbage"), Check(wrong_peer, title="A peer of the proxy that is wrong"),
          Check(refused_memory, title="Refused memory"), Check(given_up, title="Memory that never comes"), Check(failed_reads, title="Reads that fail"),
          Check(killed_guest, title="A killed guest"), Check(unkept, title="A flush that can't be kept"),
          Check(written_at_the_end, title="An image that is written at the end"), Check(full, title="Files that can't be written"), Check(rules, title="Rules"),
          Check(much_written, title="Much that is written"), Check(large, title="A disk of 2 TiB"),
          Check(very_much_written, title="10 GiB that are written", is_long=True)]
