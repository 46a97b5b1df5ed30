"""The program with a guest, and what is looked at of both."""
from __future__ import annotations

import atexit
import contextlib
import hashlib
import json
import os
import re
import shutil
import signal
import subprocess
import time
from typing import Any, Dict, List, Optional, Sequence

import images
from images import program  # it knows where the shared checks are
import pace
import playing
from records import WRITE, ZERO, Record, bounds
from suite import Check, Failed, expect

HERE = os.path.dirname(os.path.dirname(os.path.realpath(__file__)))
PROGRAM = os.path.join(HERE, "out", "ahci-hba")
SANITIZED = PROGRAM + ".sanitized"
STARVED = PROGRAM + ".starved"
STALLED = PROGRAM + ".stalled"
FORGETFUL = PROGRAM + ".forgetful"
UNMARKED = PROGRAM + ".unmarked"
LATENCY = os.path.join(HERE, "checks", "latency")
PLAYER = os.path.join(HERE, "out", "play")
SECTOR = 512

# what a log has in any run
USUAL = [r"(read|write) \S+ [0-9a-f]+", r"config (read|write) [0-9a-f]+/\d [0-9a-f]+", r"command \d+ [0-9a-f]{40}",
         r"memory [0-9a-f]+ to [0-9a-f]+(, to be read)?(, without a file)?", r"no memory any more [0-9a-f]+ to [0-9a-f]+", r"vfio-user 0\.\d \{.*\}",
         r"interrupts [01], flags [0-9a-f]{2}, [01] from 0 on", r"interrupt line [01]", r"a message of command 16 is refused", r"the PCI function is unplugged",
         r"interrupt message [0-9a-f]+ [0-9a-f]{4}", r"signature", r"reset of the PCI function", r"starts .*", r"the same, \d+ times more", r"judge: .*"]

# what Linux says of a disk that works
USUAL_OF_LINUX = [r"ahci 0000:00:..\.0: (version 3\.0|AHCI 0001\.0301 32 slots 1 ports 3 Gbps 0x1 impl SATA mode|flags: 64bit ncq clo only pio)",
                  r"ahci 0000:00:..\.0: .*(bus master|enabling device|legacy IRQ|PCI->APIC).*", r"scsi host0: ahci",
                  r"ata1: SATA max UDMA/133 abar m4096@0x[0-9a-f]+ port 0x[0-9a-f]+ irq \d+", r"ata1: SATA link up 3\.0 Gbps \(SStatus 123 SControl 300\)",
                  r"ata1\.00: ATA-10: SOFTWARE NCQ DISK, 1\.0, max UDMA/100", r"ata1\.00: \d+ sectors, multi 0: LBA48 NCQ \(depth \d+\)", r"ata1\.00: configured for UDMA/100",
                  r"scsi 0:0:0:0: Direct-Access     ATA      SOFTWARE NCQ DIS 1\.0  PQ: 0 ANSI: 5", r"sd 0:0:0:0: Attached scsi generic sg0 type 0",
                  r"sd 0:0:0:0: \[sda\] (\d+ 512-byte logical blocks: .*|Write Protect is off|Mode Sense: .*|Write cache: .*|Preferred minimum I/O size 512 bytes|Attached SCSI disk|Stopping disk)",
                  r"EXT4-fs \(sda\): (mounted filesystem with ordered data mode\. .*|unmounting filesystem.*)"]


WAYS: Dict[str, str] = {}  # how QEMU has the controller, by a check's room; by the proxy if nothing is said
JUDGED: List[str] = []  # the options by which each guest's driver is judged; then status 3 is as good as 0
BROKE_A_RULE = 3


def way_of(room: str) -> str:
    return WAYS.get(room, images.PROXY)


def by(way: str, check: Check) -> Check:
    """A check in which QEMU has the controller in this way."""
    def run(room: str) -> str:
        WAYS[room] = way
        try:
            return check.run(room)
        finally:
            del WAYS[room]

    run.__doc__ = check.run.__doc__
    return check._replace(run=run, title=f"{check.name}, by {way}")


def environment(room: str) -> Dict[str, str]:
    """A program that is killed leaves the folder of its socket in the check's room."""
    return {**os.environ, "TMPDIR": room}


def go_first() -> None:
    """Takes a process before others, if that is allowed."""
    with contextlib.suppress(PermissionError):
        os.nice(-10)


WHOLE = 8 << 20  # bytes of writes up to which a whole record is played
LAST = 3000  # else so many of its last entries


def makes(record: str, image: str, room: str) -> str:
    """The record ends with the sectors of an image, by its bytes alone and by a script of it. What the record has."""
    wanted = contents(image)
    expect(playing.sectors_of(record) == wanted, f"{record} ends with another disk than the one that was saved")
    found = Record(record)
    first, last, cut = bounds(found)
    expect(not cut, f"the record has entries {first} to {last}, and {cut} bytes more")
    entries = list(found.entries())
    written = sum(it.count * SECTOR for it in entries if it.kind == WRITE)
    if last >= 0:
        part = [] if written <= WHOLE and first == 0 else ["--from", str(max(first, last - LAST + 1))]
        more = part or ["--all-sectors"]
        played = playing.replayed(playing.scripted(record, os.path.join(room, "played.ahci"), *more), PLAYER)
        named = {lba for it in entries if it.kind in (WRITE, ZERO) and (not part or it.number > last - LAST) for lba in range(it.lba, min(it.lba + it.count, len(wanted) // SECTOR))}
        wrong = [lba for lba in named if played[SECTOR * lba:SECTOR * (lba + 1)] != wanted[SECTOR * lba:SECTOR * (lba + 1)]]
        expect(not wrong and (bool(part) or played == wanted), f"{record} plays to other sectors: {wrong[:5]}")
    return f"{last + 1} entries"


def serial_of(path: str) -> str:
    """What a guest has written to its serial port, without what only moves a cursor."""
    try:
        with open(path, encoding="utf-8", errors="replace") as file:
            text = file.read()
    except FileNotFoundError:
        return ""
    return re.sub(r"\x1b\[[0-9;?=]*[A-Za-z]", "", text).replace("\r", "")


def results_of(path: str) -> Dict[str, str]:
    """A guest's lines `CHECK NAME TEXT`."""
    found = re.findall(r"CHECK (\S+) ?(.*)$", serial_of(path), re.MULTILINE)
    for name, text in found:
        expect(name != "failed:", f"the guest failed: {text}")
    return dict(found)


class Guest:
    """The program with a guest."""

    def __init__(self, room: str, options: Sequence[str], command: Sequence[str], mode: str = "run", binary: str = PROGRAM, log: bool = True, first: bool = False,
                 recorded: str = "") -> None:
        """`recorded` is the image, which the record has to make too once the guest has ended."""
        self.serial_path, self.log_path, self.said_path = (os.path.join(room, it) for it in ("serial", "log", "said"))
        for path in (self.serial_path, self.log_path):
            with contextlib.suppress(OSError):
                os.remove(path)
        self.recorded, self.room = "" if JUDGED else recorded, room
        self.record_path = os.path.join(room, "record")
        kept = [*(["--log", self.log_path] if log else []), *(["--record", self.record_path] if self.recorded else [])]
        way = ["--transport", way_of(room)] if mode == "run" else []
        words = [binary, mode, *way, *kept, *JUDGED, *options, "--", *command]
        with open(self.said_path, "wb") as said:
            self.process = subprocess.Popen(words, stdin=subprocess.DEVNULL, stdout=said, stderr=said, env=environment(room), preexec_fn=go_first if first else None)
        atexit.register(self.kill)

    def serial(self) -> str:
        return serial_of(self.serial_path)

    def said(self) -> str:
        with open(self.said_path, encoding="utf-8", errors="replace") as file:
            return file.read()

    def log(self) -> List[str]:
        if not os.path.exists(self.log_path):
            return []
        with open(self.log_path, encoding="utf-8") as file:
            return [re.sub(r"^ *[\d.]* ", "", line.rstrip("\n")).strip() for line in file]

    def wait_for(self, text: str, seconds: int) -> None:
        """Waits until the guest has written a text."""
        limit = pace.Limit(seconds)
        while not re.search(text, self.serial(), re.MULTILINE):
            late = limit.has_passed()
            if late or self.process.poll() is not None:
                why = "didn't come in time" if late else f"didn't come before the end, status {self.process.returncode}"
                self.kill()
                raise Failed(f"`{text}` {why}; the last lines:\n{self.said()[-500:]}{self.serial()[-1500:]}")
            time.sleep(0.1)

    def kill(self) -> None:
        self.process.kill()
        self.process.wait()

    def end(self, seconds: int, how: Optional[signal.Signals] = None, status: int = 0, said: str = "") -> None:
        """Waits for the end, and looks at the status and at what was said."""
        if how:
            self.process.send_signal(how)
        if not pace.ended(self.process, seconds):
            self.kill()
            raise Failed(f"it did not end in {seconds} s of an idle machine; the last lines:\n{self.serial()[-1500:]}")
        if JUDGED and self.process.returncode == BROKE_A_RULE:
            return
        expect(self.process.returncode == status, f"status {self.process.returncode}, not {status}: {self.said()[-1500:]}{self.serial()[-1000:]}")
        printed = re.sub(r"qemu-system-\w+: terminating on signal 15 from pid \d+ \(.*\)\n", "", self.said()) if how else self.said()
        expect(bool(JUDGED) or bool(re.fullmatch(said, printed, re.DOTALL)), f"it said: {printed}")
        if self.recorded:
            self.has_recorded = makes(self.record_path, self.recorded, self.room)

    def log_is_usual(self, more: Sequence[str] = ()) -> None:
        """Each line of the log is one that such a run has."""
        forms = re.compile("|".join([*USUAL, *more]))
        for line in self.log():
            expect(bool(forms.fullmatch(line)), f"the log has a line that nobody expects: {line}")

    def linux_is_usual(self, more: Sequence[str] = (), text: Optional[str] = None) -> None:
        """Each line of Linux that names the disk is one that such a run has; in a part of what it wrote, or in all of it."""
        text = self.serial() if text is None else text
        forms = re.compile("|".join([*USUAL_OF_LINUX, *more]))
        lines = [line.strip() for line in re.findall(r"^(?:\[ *[\d.]+\] )?(?!CHECK)(.*)$", text, re.MULTILINE)]
        strange = [line for line in lines if re.search(r"\bata\d|\bahci \d|\bsd[a ]|scsi|EXT4|I/O error|blk_|Buffer", line) and not forms.fullmatch(line)]
        expect(not strange, "Linux says what nobody expects: " + "; ".join(strange[:8]))

    def results(self) -> Dict[str, str]:
        """The guest's lines `CHECK NAME TEXT`."""
        return results_of(self.serial_path)

    def child(self) -> int:
        """The process of the guest's program."""
        children = subprocess.run(["ps", "-o", "pid=", "--ppid", str(self.process.pid)], capture_output=True, text=True, check=True).stdout.split()
        expect(len(children) == 1, f"the program has the children {children}")
        return int(children[0])

    def codes(self) -> Dict[int, int]:
        """How many commands of each code were read."""
        codes: Dict[int, int] = {}
        for line in self.log():
            if line.startswith("command "):
                code = int(line.split()[2][4:6], 16)
                codes[code] = codes.get(code, 0) + 1
        return codes


def answered(words: Sequence[str], flushes: int, **more: Any) -> str:
    """Registers are read while the flushes of checks/latency are outstanding, and are answered meanwhile. What it has printed."""
    done = pace.ran([*words, "--", LATENCY, str(flushes)], 120, stdout=subprocess.PIPE, stderr=subprocess.PIPE, text=True, **more)
    expect(done.returncode == 0 and not done.stderr, f"status {done.returncode}: {done.stderr}{done.stdout}")
    found = re.fullmatch(r"\d+ flushes, (\d+) reads while they were outstanding; .*\n", done.stdout)
    if not found:
        raise Failed(f"it printed {done.stdout}")
    expect(int(found[1]) >= 20 * flushes, f"only {found[1]} reads were answered while flushes were outstanding")
    return str(done.stdout).strip()


def qemu(room: str, *more: str, memory: str = "512M") -> List[str]:
    """A machine with no other disk."""
    return [images.qemu_of(way_of(room)), "-nodefaults", "-display", "none", "-machine", "q35,sata=off", "-cpu", "max", "-m", memory,
            "-serial", f"file:{room}/serial", *more]


def vfio_device(path: str, **more: str) -> str:
    """The device of a QEMU at a socket."""
    return json.dumps({"driver": "vfio-user-pci", "id": "ahci-hba", "socket": {"type": "unix", "path": path}, "x-msg-timeout": 60000, **more})


def linux(room: str, test: str, data: bytes = b"", memory: str = "512M", folder: str = "kernel", more: str = "") -> List[str]:
    """A machine with a kernel of a folder of out/, which runs guests/TEST.sh; `more` is for its command line."""
    image, modules = images.kernel(folder)
    words = " ".join(["console=ttyS0 loglevel=7 panic=1 no_timer_check", *([more] if more else [])])
    return qemu(room, "-kernel", image, "-initrd", images.initrd(room, test, data, modules), "-append", words, memory=memory)


def contents(path: str) -> bytes:
    with open(path, "rb") as file:
        return file.read()


def digest(content: bytes) -> str:
    return hashlib.sha256(content).hexdigest()


def blank(room: str, sectors: int) -> str:
    path = os.path.join(room, "disk.img")
    with open(path, "wb") as file:
        file.truncate(sectors * SECTOR)
    return path


def file_of_ext4(room: str, image: str, name: str) -> bytes:
    """A file of an ext4 image, which has to be sound after its journal was replayed."""
    copy, out = os.path.join(room, "copy.img"), os.path.join(room, "dumped")
    shutil.copy(image, copy)
    fsck = subprocess.run([program("e2fsck", "e2fsprogs"), "-fy", copy], stdin=subprocess.DEVNULL, capture_output=True, text=True, check=False)
    expect(fsck.returncode in (0, 1), f"e2fsck: status {fsck.returncode}: {fsck.stdout}")
    images.ran([program("debugfs", "e2fsprogs"), "-R", f"dump {name} {out}", copy])
    return contents(out)


def counted(codes: Dict[int, int]) -> str:
    return " ".join(f"{code:02X}h:{codes[code]}" for code in sorted(codes))
