"""Checks of what vfio-user has beside the proxy: interrupts by the line, several threads of the emulation, memory without a file, hot plug, other machines, any
client, and clients that go wrong."""
from __future__ import annotations

import contextlib
import json
import os
import re
import shlex
import signal
import socket
import subprocess
import sys
from typing import Any, Dict, List, Optional

import booting
import images
from harness import HERE, PROGRAM, SANITIZED, SECTOR, Guest, answered, blank, by, contents, digest, linux, qemu, results_of, serial_of, vfio_device
from images import VFIO_USER, file_of, pattern, qemu_of
import pace
from suite import Check, Failed, Skipped, expect

MESSAGES = os.path.join(HERE, "checks", "messages")
HELD = os.path.join(HERE, "checks", "held")
COMPARED = r"requests \d+ compared [1-9]\d* errors 0 wrong 0"


# ---- Linux ----


def linux_line(room: str) -> str:
    """Interrupts come by INTA#, since Linux is started with messages off, on two processors."""
    image = blank(room, 32768)
    guest = Guest(room, ["--image", image], [*linux(room, "line", more="pci=nomsi"), "-smp", "2"])
    guest.end(240)
    guest.log_is_usual()
    guest.linux_is_usual([r"ahci 0000:00:..\.0: can't derive routing for PCI INT A", r"ahci 0000:00:..\.0: PCI INT A: .*"])
    results = guest.results()
    expect(bool(re.fullmatch(COMPARED, results["small"])), f"small: {results['small']}")
    expect("IO-APIC" in results["interrupts"], f"the interrupts came by {results['interrupts']}")
    expect(results["disk"].split()[0] == digest(contents(image)), "the image is not the disk that Linux read last")
    return f"{results['small']}; {' '.join(results['interrupts'].split())}"


def linux_messages(room: str) -> str:
    """The guest's memory comes without a file: all of it is read and written by messages."""
    image = blank(room, 32768)
    backend = ["-object", "memory-backend-ram,id=plain,size=512M", "-machine", "memory-backend=plain"]
    guest = Guest(room, ["--image", image], [*linux(room, "memory"), *backend])
    guest.end(240)
    guest.log_is_usual()
    guest.linux_is_usual()
    results = guest.results()
    expect(bool(re.fullmatch(COMPARED, results["small"])), f"small: {results['small']}")
    expect(any(line.endswith(", without a file") for line in guest.log()), "the memory has a file")
    expect(results["disk"].split()[0] == digest(contents(image)), "the image is not the disk that Linux read last")
    return results["small"]


# what Linux 7 says besides
CURRENT = [r"ahci 0000:00:..\.0: (AHCI vers 0001\.0301, 32 command slots, 3 Gbps, SATA mode|1/1 ports implemented \(port mask 0x1\)|flags: 64bit ncq clo only pio ?)",
           r"ata1: SATA max UDMA/133 abar m4096@0x[0-9a-f]+ port 0x[0-9a-f]+ irq \d+ lpm-pol \d.*", r"ata1\.00: (Features: .*|LPM.*)", r"EXT4-fs \(sda\): .*mounted filesystem.*"]


def linux_current(room: str) -> str:
    """The files' check on Debian's newest kernel, on two processors with 5 GiB."""
    return booting.linux_files(room, "5G", machine=["-smp", "2"], more=CURRENT, folder="current")


def virt(room: str, *more: str) -> List[str]:
    """A machine for arm64, whose processors and interrupt controller are others."""
    return [qemu_of(VFIO_USER, "aarch64"), "-nodefaults", "-display", "none", "-machine", "virt", "-cpu", "cortex-a57", "-smp", "2", "-m", "512M", "-serial", f"file:{room}/serial", *more]


def uboot_arm(room: str) -> str:
    """U-Boot for arm64 loads a file, reads sectors, writes two and reads them again."""
    return booting.uboot_right(room, virt(room, "-bios", file_of("/usr/lib/u-boot/qemu_arm64/u-boot.bin", "u-boot-qemu")))


def linux_arm(room: str) -> str:
    """Linux for arm64 adds up the disk, and writes and reads."""
    image, data = os.path.join(room, "disk.img"), pattern(1 << 20, "arm")
    with open(image, "wb") as file:
        file.write(images.numbered_blocks(2048, 4096))
    before = contents(image)
    kernel, modules = images.kernel("arm")
    busybox = file_of(os.path.join(images.OUT, "arm/usr/bin/busybox"), "busybox-static, ./fetch --arm")
    words = virt(room, "-kernel", kernel, "-initrd", images.initrd(room, "copy", data, modules, busybox), "-append", "console=ttyAMA0 loglevel=7 panic=1")
    guest = Guest(room, ["--image", image], words, recorded=image)
    guest.end(300)
    guest.log_is_usual()
    results = guest.results()
    expect(results["uname"].startswith("aarch64"), f"this is {results['uname']}")
    expect(results["before"].split()[0] == digest(before), "Linux has read another disk than the image")
    expect(results["data"].split()[0] == digest(data), "Linux has read back other bytes than it wrote")
    expect(contents(image) == before[:-len(data)] + data, "the image is not what Linux wrote")
    expect(results["after"].split()[0] == digest(contents(image)), "the image is not the disk that Linux read last")
    return results["uname"]


def resets(room: str) -> str:
    """The machine is reset ten times in the middle of requests."""
    image, times = blank(room, 32768), 10
    guest = Guest(room, ["--image", image], [*linux(room, "reboots", more=f"times={times}"), "-smp", "2"])
    guest.end(100 * times)
    guest.log_is_usual([r"the queue's journal of \d+ entries was handed out"])
    results = guest.results()
    expect(results["resets"] == str(times) and bool(re.fullmatch(COMPARED, results["again"])), f"{results}")
    return f"{times} resets; {results['again']}"


# ---- hot plug ----


class Monitor:
    """QEMU's monitor by QMP."""

    def __init__(self, path: str) -> None:
        limit = pace.Limit(30)
        self.socket = socket.socket(socket.AF_UNIX)
        while self.socket.connect_ex(path):
            expect(not limit.has_passed(), "QEMU's monitor doesn't come")
            self.socket.close()
            self.socket = socket.socket(socket.AF_UNIX)
        self.socket.settimeout(60 * pace.times())
        self.file = self.socket.makefile("rw", encoding="utf-8")
        self.events: List[str] = []
        self.file.readline()
        self.ask("qmp_capabilities")

    def message(self) -> Dict[str, Any]:
        """The next message; an event is kept."""
        found: Dict[str, Any] = json.loads(self.file.readline())
        if "event" in found and found.get("data", {}).get("device", "ahci-hba") == "ahci-hba":
            self.events.append(found["event"])
        return found

    def ask(self, what: str, **arguments: Any) -> None:
        self.file.write(json.dumps({"execute": what, "arguments": arguments}) + "\n")
        self.file.flush()
        answer = self.message()
        while "event" in answer:
            answer = self.message()
        expect("return" in answer, f"{what}: {answer}")

    def wait_for(self, event: str) -> None:
        """Waits for an event that nobody has waited for."""
        while event not in self.events:
            self.message()
        self.events.remove(event)


def plugged(room: str, times: int = 2) -> str:
    """The controller is taken out of the running machine under load, and put in again."""
    image, path = blank(room, 32768), os.path.join(room, "socket")
    port = ["-device", "pcie-root-port,id=plug,bus=pcie.0,chassis=1", "-device", vfio_device(path, bus="plug")]
    guest = Guest(room, ["--image", image, "--socket", path], [*linux(room, "plug", more=f"times={times}"), *port, "-qmp", f"unix:{room}/qmp,server=on,wait=off"])
    monitor = Monitor(f"{room}/qmp")
    device: Dict[str, Any] = json.loads(vfio_device(path, bus="plug"))
    for at in range(times):
        guest.wait_for(f"^CHECK up{at}$", 120)
        monitor.ask("device_del", id="ahci-hba")
        guest.wait_for(f"^CHECK gone{at}$", 60)
        monitor.wait_for("DEVICE_DELETED")
        monitor.ask("device_add", **device)
    guest.end(120)
    guest.log_is_usual([r"the queue's journal of \d+ entries was handed out"])
    results = guest.results()
    expect(bool(re.fullmatch(COMPARED, results["again"])), f"again: {results['again']}")
    expect(results["disk"].split()[0] == digest(contents(image)), "the image is not the disk that Linux read last")
    found = sum(line == "the PCI function is unplugged" for line in guest.log())
    expect(found >= times, f"the function was unplugged {found} times")
    return f"{times} times; {results['again']}"


def often_plugged(room: str) -> str:
    """The same 20 times."""
    return plugged(room, 20)


# ---- a server of its own ----


class Server:
    """`ahci-hba serve`."""

    def __init__(self, room: str, options: List[str], binary: str = PROGRAM, path: str = "") -> None:
        self.path, self.said_path = path or os.path.join(room, "socket"), os.path.join(room, "said")
        with open(self.said_path, "wb") as said:
            self.process = subprocess.Popen([binary, "serve", "--socket", self.path, *options], stdin=subprocess.DEVNULL, stdout=subprocess.PIPE, stderr=said, text=True)
        assert self.process.stdout
        self.arguments = self.process.stdout.readline()

    def said(self) -> str:
        with open(self.said_path, encoding="utf-8", errors="replace") as file:
            return file.read()

    def files(self) -> int:
        return len(os.listdir(f"/proc/{self.process.pid}/fd"))

    def end(self) -> None:
        self.process.send_signal(signal.SIGTERM)
        if not pace.ended(self.process, 30):
            self.process.kill()
            raise Failed("the server doesn't end")
        expect(self.process.returncode == 0, f"status {self.process.returncode}: {self.said()[-1500:]}")
        expect(not os.path.exists(self.path), "the socket is left")


def wait_for(path: str, text: str, seconds: int, process: "subprocess.Popen[bytes]") -> None:
    """Waits until a guest without a program of ours has written a text."""
    limit = pace.Limit(seconds)
    while not re.search(text, serial_of(path), re.MULTILINE):
        if limit.has_passed() or process.poll() is not None:
            process.kill()
            raise Failed(f"`{text}` doesn't come: {serial_of(path)[-800:]}")


def served(room: str) -> str:
    """Two QEMUs come one after the other by the arguments that `serve` prints; the first is killed while it writes. The image has what each wrote."""
    image = blank(room, 32768)
    server = Server(room, ["--image", image])
    started = None
    for test in ("flush", "memory"):
        words = [*linux(room, test, pattern(1 << 20, "served")), *shlex.split(server.arguments)]
        with contextlib.suppress(FileNotFoundError):
            os.remove(os.path.join(room, "serial"))
        started = subprocess.Popen(words, stdin=subprocess.DEVNULL)
        if test == "flush":
            wait_for(os.path.join(room, "serial"), "^CHECK flushed", 120, started)
            started.kill()
        expect(pace.ended(started, 240), "QEMU doesn't end")
    expect(started is not None and started.returncode == 0, "QEMU has not ended well")
    results = results_of(os.path.join(room, "serial"))
    server.end()
    expect(bool(re.fullmatch(COMPARED, results["small"])), f"small: {results['small']}")
    expect(results["disk"].split()[0] == digest(contents(image)), "the image is not the disk that Linux read last")
    return results["small"]


def paths(room: str) -> str:
    """A socket that a server has left is replaced; one that is served, a file, and a path that is too long are refused."""
    left, file, long = os.path.join(room, "left"), os.path.join(room, "file"), os.path.join(room, "x" * 108)
    with socket.socket(socket.AF_UNIX) as other:
        other.bind(left)
    with open(file, "w", encoding="ascii") as text:
        text.write("kept")
    server = Server(room, ["--sectors", "8"])
    cases = [(server.path, "no socket can be made at {}: Address already in use"), (file, "no socket can be made at {}: Address already in use"),
             (long, "--socket {}: a socket's path has 107 bytes at most"), (os.path.join(room, "it's"), "the socket's path {} can't be written in an argument of QEMU")]
    for path, says in cases:
        done = pace.ran([PROGRAM, "serve", "--sectors", "8", "--socket", path], 20, stdout=subprocess.PIPE, stderr=subprocess.PIPE, text=True)
        expect(done.returncode == 1 and done.stderr == f"ahci-hba: {says.format(path)}\n", f"{path}: status {done.returncode}: {done.stderr}")
    expect(contents(file) == b"kept", "the file is gone")
    expect(os.stat(server.path).st_mode & 0o777 == 0o600, "others can come to the socket")
    server.end()
    again = Server(room, ["--sectors", "8"], path=left)
    again.end()
    return f"{len(cases)} are refused"


def wrong_messages(room: str) -> str:
    """100,000 messages and accesses of clients that have gone mad, under the sanitizers: each is answered, no file is left open, and the image is whole."""
    steps = 0
    for seed in range(5):
        image = blank(room, 256)
        server = Server(room, ["--image", image, "--pick", "random", "--most-journal", "256K", "--fail", "any:04,rate=1/50,seed=3", "--stall", "17:3"], binary=SANITIZED)
        before = server.files()
        done = pace.ran([sys.executable, MESSAGES, server.path, str(seed), "20000"], 240, stdout=subprocess.PIPE, stderr=subprocess.STDOUT, text=True)
        expect(done.returncode == 0, f"seed {seed}: {done.stdout}{server.said()[-3000:]}")
        limit = pace.Limit(20)
        while server.files() > before + 2:  # a write-back has two eventfds from the first one on
            expect(not limit.has_passed(), f"{server.files()} files are open, and {before} were")
        server.end()
        strange = [line for line in server.said().splitlines() if not re.fullmatch(r"ahci-hba: the guest's program (ended in the middle of a message|sent a message of command .*)", line)]
        expect(not strange, f"it said: {strange[:5]}")
        expect(os.path.getsize(image) == 256 * SECTOR, "the image has another size")
        steps += 20000
    return f"{steps} messages and accesses"


def never_late(room: str) -> str:
    """Registers are read while a disk of 64 MiB is written back for each flush: reads are answered meanwhile."""
    image = os.path.join(room, "disk.img")
    with open(image, "wb") as file:
        file.write(images.numbered_blocks(16384, 4096))
    return answered([PROGRAM, "run", "--transport", VFIO_USER, "--image", image], 5)


def held(room: str) -> str:
    """A message waits for as long as --hold says, and brings the answers of several commands; PxIS has their cause before it."""
    for options, commands, least in ((["--hold", "0"], 1, 0), (["--hold", "300000:300000:1000"], 1, 300000), (["--hold", "300000:300000:1000"], 3, 300000), (["--hold", "1000000:50000"], 3, 50000)):
        words = [PROGRAM, "run", "--transport", VFIO_USER, "--sectors", "64", *options, "--", HELD, str(commands)]
        done = pace.ran(words, 60, stdout=subprocess.PIPE, stderr=subprocess.PIPE, text=True)
        found = re.fullmatch(r"(\d+) us, 1 messages, (a message|PxIS) first\n", done.stdout)
        expect(done.returncode == 0 and found is not None, f"{options}: status {done.returncode}: {done.stderr}{done.stdout}")
        if found:
            expect(int(found[1]) >= least, f"{options}: the message came after {found[1]} us")
    return "no message is early, one brings three answers"


# ---- interrupts without an operating system ----


def interrupts_image(room: str) -> str:
    """An image that begins with guests/interrupts.S."""
    path = images.assembled(room, "interrupts")
    image = blank(room, 8192)
    with open(image, "r+b") as file:
        file.write(contents(path))
    return image


def interrupts(room: str, accelerator: str) -> str:
    image = interrupts_image(room)
    guest = Guest(room, ["--image", image, "--hold", "0"], [*qemu(room, memory="64M"), "-accel", accelerator])
    guest.wait_for("^end$", 60)
    guest.end(20, signal.SIGTERM)
    guest.log_is_usual()
    found = re.search(r"^INTx handled (\d{8})\n without a cause \d{8}\n model 0000534F\nMSI handled (\d{8})\n without a cause 00000000\n model 0000534F\nend$", guest.serial(), re.MULTILINE)
    if not found:
        raise Failed(f"the program said: {guest.serial()[-600:]}")
    expect((found[1], found[2]) == ("00000003", "00000003"), f"not three of each came: {guest.serial()[-600:]}")
    return "three interrupts by INTA#, three messages"


def interrupts_tcg(room: str) -> str:
    """A program without an operating system takes three interrupts by INTA#, then three messages."""
    return interrupts(room, "tcg")


def kvm() -> Optional[str]:
    """Why there is no KVM; None if there is."""
    try:
        os.close(os.open("/dev/kvm", os.O_RDWR))
    except OSError as why:
        return f"/dev/kvm: {why.strerror}"
    return None


def interrupts_kvm(room: str) -> str:
    """The same under KVM."""
    why = kvm()
    if why:
        raise Skipped(why)
    return interrupts(room, "kvm")


def linux_kvm(room: str) -> str:
    """Linux under KVM, on a machine whose processors have vmx or svm: elsewhere KVM emulates each instruction, and Linux doesn't come up."""
    why = kvm()
    with open("/proc/cpuinfo", encoding="ascii", errors="replace") as file:
        flags = file.read()
    if why or not re.search(r"^flags\s*:.*\b(vmx|svm)\b", flags, re.MULTILINE):
        raise Skipped(why or "the processors have neither vmx nor svm")
    return booting.linux_files(room, machine=["-accel", "kvm", "-cpu", "host"])


CHECKS = [by(VFIO_USER, it) for it in (
    Check(linux_line, title="Linux, interrupts by INTA#"), Check(linux_messages, title="Linux, memory without a file"), Check(linux_current, title="Linux 7, two processors and 5 GiB"),
    Check(linux_arm, title="Linux on arm64"), Check(uboot_arm, title="U-Boot on arm64", is_long=True), Check(resets, title="Ten resets of the machine", is_long=True),
    Check(plugged, title="Hot plug"), Check(often_plugged, title="Hot plug 20 times", is_long=True), Check(served, title="A server of its own"), Check(paths, title="Paths of sockets"),
    Check(wrong_messages, title="Wrong messages"), Check(never_late, title="Never late"), Check(held, title="Held interrupts"), Check(interrupts_tcg, title="Interrupts"),
    Check(interrupts_kvm, title="Interrupts under KVM"), Check(linux_kvm, title="Linux under KVM"))]
