"""Checks with real firmware, boot loaders and kernels: each saved image is compared with what the guest wrote."""
from __future__ import annotations

import os
import re
import shutil
import signal
import subprocess
import time
import zlib
from typing import List, Sequence, Tuple

import images
from harness import SECTOR, Guest, blank, contents, counted, digest, file_of_ext4, linux, qemu, vfio_device, way_of
from images import file_in, file_of, pattern
import pace
import playing
from suite import Check, Failed, Skipped, expect


def sector(room: str) -> str:
    """SeaBIOS boots a sector that reads, writes and reads again."""
    image, summed = images.sector_image(room)
    before = bytearray(contents(image))
    guest = Guest(room, ["--image", image], qemu(room), recorded=image)
    guest.wait_for("^end$", 60)
    guest.end(20, signal.SIGTERM)
    guest.log_is_usual()
    expect(guest.serial().endswith(f"sector 1\nsum {summed:04X}\nsame\nend\n"), f"the sector said: {guest.serial()}")
    before[200 * SECTOR:202 * SECTOR] = b"\x5a" * (2 * SECTOR)
    expect(contents(image) == before, "the image is not what the sector wrote")
    return "sum right, 2 sectors written"


def sector_error(room: str) -> str:
    """The disk fails the sector's second read, and INT 13h says so."""
    image, _ = images.sector_image(room)
    before = contents(image)
    guest = Guest(room, ["--image", image, "--fail", "70:40"], qemu(room), recorded=image)
    guest.wait_for("^INT 13h failed: AX (?!00)[0-9A-F]{4}$", 60)
    guest.end(20, signal.SIGTERM)
    guest.log_is_usual([r"fail 0 with 40 at sector 70, by the rule for 70"])
    expect(contents(image) == before, "the image has changed, and nobody wrote")
    return guest.serial().strip().split("\n")[-1]


def grub(room: str, firmware: Sequence[str], platform: str, root: str) -> str:
    image = images.grub_image(room, "grub.cfg", {})
    before = contents(image)
    large = file_in(image, "large.bin")
    guest = Guest(room, ["--image", image], qemu(room, *firmware), recorded=image)
    guest.wait_for("^CHECK end$", 240)
    guest.end(60)
    guest.log_is_usual()
    serial = guest.serial()
    expect(f"CHECK root {root}\n" in serial and "hello from the disk\n" in serial, f"GRUB found no disk: {serial[-800:]}")
    expect(digest(large) in serial, f"GRUB's sum of 4 MiB is another: {serial[-800:]}")
    expect(f"written=by_grub_on_{platform}\n" in serial, f"GRUB did not read what it wrote: {serial[-800:]}")
    env = file_in(image, "env.bin")
    expect(env.startswith(f"# GRUB Environment Block\nwritten=by_grub_on_{platform}\n#".encode()), "the image has not what GRUB wrote")
    after = contents(image)
    changed = [at for at in range(0, len(before), SECTOR) if before[at:at + SECTOR] != after[at:at + SECTOR]]
    expect(0 < len(changed) <= 2, f"{len(changed)} sectors have changed, and the file has 2")
    return "sum of 4 MiB right, save_env in the image; commands " + counted(guest.codes())


def uefi(room: str, folder: str = "/usr/share/OVMF") -> List[str]:
    """The arguments of a machine with EDK2."""
    code, variables = file_of(f"{folder}/OVMF_CODE_4M.fd", "ovmf"), os.path.join(room, "variables.fd")
    shutil.copy(f"{folder}/OVMF_VARS_4M.fd", variables)
    return ["-drive", f"if=pflash,unit=0,format=raw,readonly=on,file={code}", "-drive", f"if=pflash,unit=1,format=raw,file={variables}"]


def boot(room: str, firmware: Sequence[str]) -> str:
    """Firmware, GRUB and Linux take the disk one after the other."""
    kernel, modules = images.kernel()
    files = {"vmlinuz": contents(kernel), "initrd": contents(images.initrd(room, "boot", b"", modules))}
    image = images.grub_image(room, "boot.cfg", files)
    before = contents(image)
    guest = Guest(room, ["--image", image], qemu(room, *firmware), recorded=image)
    guest.end(240)
    guest.log_is_usual()
    guest.linux_is_usual([r"sda: sda1"])
    expect(guest.results()["disk"].split()[0] == digest(before), "Linux has read another disk than the one that it came from")
    expect(contents(image) == before, "the image has changed, and nobody wrote")
    return counted(guest.codes())


def boot_bios(room: str) -> str:
    """SeaBIOS, GRUB with its own driver, Linux."""
    return boot(room, [])


def boot_uefi(room: str) -> str:
    """EDK2, GRUB with the firmware's driver, Linux."""
    return boot(room, uefi(room))


def grub_bios(room: str) -> str:
    """SeaBIOS boots GRUB, whose own driver takes the disk."""
    return grub(room, [], "pc", "ahci0,msdos1")


def grub_uefi(room: str) -> str:
    """EDK2 boots GRUB, which reads and writes by the firmware's driver."""
    return grub(room, uefi(room), "efi", "hd0,msdos1")


def uboot_right(room: str, words: Sequence[str]) -> str:
    """U-Boot on a machine loads a file, reads sectors, writes two and reads them again."""
    image = images.uboot_image(room)
    before = bytearray(contents(image))
    guest = Guest(room, ["--image", image, "--socket", os.path.join(room, "socket")], words, recorded=image)
    guest.wait_for("^CHECK end$", 60)
    guest.end(20, signal.SIGTERM)
    guest.log_is_usual()
    written = b"\x5a" * (2 * SECTOR)
    sums = [zlib.crc32(it) for it in (file_in(image, "large.bin"), before[2048 * SECTOR:3072 * SECTOR], written)]
    printed = [int(it, 16) for it in re.findall(r"^crc32 for .* ==> ([0-9a-f]{8})$", guest.serial(), re.MULTILINE)]
    expect(printed == sums, f"U-Boot's sums are {printed}, not {sums}: {guest.serial()[-800:]}")
    before[32 * SECTOR:34 * SECTOR] = written
    expect(contents(image) == before, "the image is not what U-Boot wrote")
    return "sums right, 2 sectors written; commands " + counted(guest.codes())


def uboot(room: str) -> str:
    """U-Boot loads a file, reads sectors, writes two and reads them again; it looks at nothing but PxCI, so it runs without interrupts."""
    firmware = file_of("/usr/lib/u-boot/qemu-x86_64/u-boot.rom", "u-boot-qemu")
    # its device tree has an ISA bridge at the first place
    place = "x-pci-proxy-dev,fd=40,addr=5" if way_of(room) == images.PROXY else vfio_device(os.path.join(room, "socket"), addr="5")
    return uboot_right(room, qemu(room, "-bios", firmware, "-device", place))


def files_right(room: str, guest: Guest, image: str, data: bytes) -> None:
    results = guest.results()
    for name in ("first", "second"):
        expect(results[name].split()[0] == digest(data), f"Linux read back another /{name}")
        expect(file_of_ext4(room, image, name) == data, f"the image has another /{name}")
    expect(results["many"] == "200", f"Linux read back {results['many']} of 200 files")
    expect(results["disk"].split()[0] == digest(contents(image)), "the image is not the disk that Linux read last")


def linux_files(room: str, memory: str = "512M", options: Sequence[str] = (), machine: Sequence[str] = (), said: str = "", depth: str = "32",
                more: Sequence[str] = (), folder: str = "kernel", sectors: int = 131072) -> str:
    """Linux makes ext4, writes files, mounts it again and reads them. `more` is what it says that others don't."""
    data, image = pattern(8 << 20, "files"), blank(room, sectors)
    guest = Guest(room, ["--image", image, *options], [*linux(room, "files", data, memory, folder), *machine], recorded=image if sectors <= 131072 else "")
    guest.end(240, said=said)
    guest.log_is_usual()
    guest.linux_is_usual(more)
    files_right(room, guest, image, data)
    expect(guest.results()["depth"] == depth, f"the queue's depth is not {depth}")
    return counted(guest.codes())


def linux_large(room: str) -> str:
    """The same on a disk that is over the image: what Linux flushes is written in place, page by page."""
    return linux_files(room, sectors=300_000)


def linux_alone(room: str) -> str:
    """The same on qboot, a firmware without a driver for disks: Linux alone has the controller, and breaks no rule, as the status says. CR, FR, CLO
    and HR are slow."""
    qboot = file_of("/usr/share/qemu/qboot.rom", "qemu-system-data")
    return linux_files(room, options=["--judge", "--slow-bits", "2"], machine=["-bios", qboot], said=".*")


# what Linux says when queued commands are aborted whose tag is not below the depth
ABOVE_DEPTH = [r"ata1: failed to read log page 10h \(errno=-2\)", r"ata1: EH complete", r"ata1\.00: NCQ disabled due to excessive errors",
               r"ata1\.00: (exception Emask 0x1 .*|irq_stat 0x40000001|failed command: READ FPDMA QUEUED|cmd 60/.*|status: \{ DRDY ERR \}|error: \{ ABRT \})"]


def linux_shallow(room: str) -> str:
    """The same on qboot with a queue of 8 commands. Linux uses all 32 tags all the same; those above the depth are aborted, so it gives the queue up."""
    qboot = file_of("/usr/share/qemu/qboot.rom", "qemu-system-data")
    codes = linux_files(room, options=["--depth", "8"], machine=["-bios", qboot], depth="8", more=ABOVE_DEPTH)
    with open(os.path.join(room, "serial"), encoding="utf-8", errors="replace") as file:
        serial = file.read()
    aborted = serial.count("error: { ABRT }")
    expect(aborted > 0 and serial.count("NCQ disabled due to excessive errors") == 1, f"Linux has not given the queue up: {aborted} commands were aborted")
    return f"{aborted} queued commands aborted, then the queue is given up; {codes}"


def linux_high(room: str) -> str:
    """The same with 5 GiB of memory, so that most of it is above 4 GiB."""
    codes = linux_files(room, "5G")
    with open(os.path.join(room, "log"), encoding="utf-8") as file:
        expect(bool(re.search(r"write PxCLBU 0000000[1-9]", file.read())), "the command list is not above 4 GiB")
    return codes


def linux_with(room: str, cap: str, says: str, more: Sequence[str]) -> Guest:
    """Linux writes and reads files on a controller that can do this, and finds the link as `says` has it; `more` is what it says then of the rest."""
    data, image = pattern(8 << 20, "files"), blank(room, 131072)
    guest = Guest(room, ["--image", image, "--cap", cap], linux(room, "files", data), recorded=image)
    guest.end(240)
    guest.log_is_usual()
    guest.linux_is_usual([rf"ata1: {re.escape(says)}", *more])
    files_right(room, guest, image, data)
    expect(says in guest.serial(), f"Linux has not found {says}")
    return guest


def linux_small(room: str) -> str:
    """The controller has 32-bit addresses, no queued commands and a link of generation 1. (With fewer than 32 slots Linux still uses all 32.)"""
    found = [r"ahci 0000:00:..\.0: (AHCI 0001\.0301 32 slots 1 ports 1\.5 Gbps 0x1 impl SATA mode|flags: clo only pio)", r"ata1\.00: \d+ sectors, multi 0: LBA48 NCQ \(depth 0/32\)"]
    guest = linux_with(room, "s64a=0,sncq=0,iss=1", "SATA link up 1.5 Gbps (SStatus 113 SControl 300)", found)
    codes = guest.codes()
    expect(not codes.keys() & {0x60, 0x61}, f"Linux queued commands, and the controller has no SNCQ: {counted(codes)}")
    expect(not any(re.match(r"write Px(CLBU|FBU) (?!00000000)", line) for line in guest.log()), "an address is above 4 GiB")
    return counted(codes)


def linux_staggered(room: str) -> str:
    """The disk waits until Linux sets PxCMD.SUD."""
    guest = linux_with(room, "sss=1", "SATA link up 3.0 Gbps (SStatus 123 SControl 300)", [r"ahci 0000:00:..\.0: (flags: 64bit ncq stag clo only pio|SSS flag set, parallel bus scan disabled)"])
    expect(guest.results()["depth"] == "32", "the queue's depth is not 32")
    return counted(guest.codes())


def linux_queue(room: str, more: Sequence[str] = ()) -> str:
    """Random requests of Linux at depth 32, in a random order of the device."""
    image = blank(room, 131072)
    guest = Guest(room, ["--image", image, "--pick", "random", "--seed", "7", "--delay", str(int(1000 * pace.times()))], linux(room, "queue") + list(more))
    guest.end(300)
    guest.log_is_usual()
    guest.linux_is_usual()
    right, deep = queue_right(guest, image), deepest(guest)
    expect(deep >= 24, f"only {deep} commands were in the queue at once")
    return f"{right}; {deep} at once"


def linux_two(room: str) -> str:
    """The same on two processors."""
    said = linux_queue(room, ["-smp", "2"])
    with open(os.path.join(room, "serial"), encoding="utf-8", errors="replace") as file:
        expect("Brought up 1 node, 2 CPUs" in file.read(), "Linux has not started two processors")
    return said


def queue_right(guest: Guest, image: str) -> str:
    """What guests/queue.sh has printed is right."""
    results = guest.results()
    expect(results["depth"] == "32", "the queue's depth is not 32")
    for name in ("small", "large", "alone"):
        expect(bool(re.fullmatch(r"requests \d+ compared [1-9]\d* errors 0 wrong 0", results[name])), f"{name}: {results[name]}")
    expect(results["disk"].split()[0] == digest(contents(image)), "the image is not the disk that Linux read last")
    return f"{results['small']}; {results['large']}"


def deepest(guest: Guest) -> int:
    """How many queued commands were outstanding at most when PxSACT was read."""
    most = 0
    for line in guest.log():
        if line.startswith("read PxSACT"):
            most = max(most, bin(int(line.split()[2], 16)).count("1"))
    return most


def linux_reset(room: str) -> str:
    """The machine is reset while the queue is full, and boots again."""
    image = blank(room, 32768)
    guest = Guest(room, ["--image", image, "--delay", "200"], linux(room, "reset"))
    guest.end(240)
    guest.log_is_usual([r"the queue's journal of \d+ entries was handed out"])
    results = guest.results()
    first, _, rest = guest.serial().partition("CHECK first done\n")
    _, reset, second = rest.partition("reboot: machine restart\n")
    expect(bool(reset), "the machine was not reset")
    # between the two it may warn of a command that is done when its port is frozen already (ata_pci_shutdown_one)
    guest.linux_is_usual(text=first)
    guest.linux_is_usual(text=second)
    expect(bool(re.fullmatch(r"requests 2000 compared [1-9]\d* errors 0 wrong 0", results["again"])), f"again: {results['again']}")
    return "the second boot finds what the first one wrote"


def is_running(process: int) -> bool:
    state = subprocess.run(["ps", "-o", "stat=", "-p", str(process)], capture_output=True, text=True, check=False).stdout
    return state.strip()[:1] not in ("", "Z")


def linux_flush(room: str) -> str:
    """The program is killed while a file system is busy: what was flushed before is in the image."""
    data, image, disk = pattern(2 << 20, "flush"), blank(room, 32768), os.path.join(room, "recorded.img")
    guest = Guest(room, ["--image", image, "--record", os.path.join(room, "record")], linux(room, "flush", data))
    guest.wait_for("^CHECK flushed", 120)
    time.sleep(2)
    child, limit = guest.child(), pace.Limit(10)
    guest.kill()
    while is_running(child):
        expect(not limit.has_passed(), "QEMU goes on without the program")
        time.sleep(0.1)
    expect(file_of_ext4(room, image, "first") == data, "what was flushed is not in the image")
    with open(disk, "wb") as file:
        file.write(playing.sectors_of(os.path.join(room, "record")))
    expect(file_of_ext4(room, disk, "first") == data, "what was flushed is not in the record")
    flushes = guest.codes().get(0xE7, 0) + guest.codes().get(0xEA, 0)
    expect(flushes > 0, "no flush came")
    return f"{flushes} flushes, the file is in the image"


def run_uml(room: str, kernel: str, image: str) -> Guest:
    """One run of guests/queue.sh, with 100,000 requests of one page."""
    words = ["mem=256M", f"initrd={images.initrd(room, 'queue', b'', None)}", "con=null", "con0=null,fd:1", "loglevel=7", "panic=1", "small=100000"]
    guest = Guest(room, ["--image", image, "--pick", "high"], [kernel, *words], mode="uml", log=False, first=True)
    if not pace.ended(guest.process, 150):
        guest.kill()
    with open(os.path.join(room, "serial"), "w", encoding="utf-8") as file:
        file.write(guest.said())
    return guest


def user_mode_linux(room: str) -> str:
    """A kernel of User Mode Linux finds the controller on its own PCI bus. It gives a read 40 ms, and goes wrong after that; so there is no log,
    and a run on a machine that is too busy for that is made again."""
    kernel = os.path.join(images.OUT, "uml/linux")
    if not os.path.exists(kernel):
        raise Skipped(f"there is no {os.path.relpath(kernel)} (./uml_kernel out/uml makes it)")
    for _ in range(4):
        image = blank(room, 131072)
        guest = run_uml(room, kernel, image)
        if "um virt-pci delay" not in guest.serial():
            guest.end(1, said=".*")
            # at the end this kernel takes the device away before the disk has gone to sleep
            guest.linux_is_usual([r"ata1\.00: (Entering standby power mode|STANDBY IMMEDIATE failed \(err_mask=0x40\)|disable device)",
                                  r"ata1: failed to stop engine \(-19\)", r"ahci 0000:00:00\.0: AHCI controller unavailable!"])
            return queue_right(guest, image)
    raise Skipped("the machine was too busy in four runs: a read took more than 40 ms")


CHECKS = [Check(sector, title="SeaBIOS and a boot sector"), Check(sector_error, title="SeaBIOS and an error"), Check(grub_bios, title="GRUB on BIOS"),
          Check(grub_uefi, title="GRUB on UEFI"), Check(uboot, title="U-Boot"), Check(boot_bios, title="GRUB boots Linux on BIOS", is_long=True),
          Check(boot_uefi, title="GRUB boots Linux on UEFI"), Check(linux_files, title="Linux, files"),
          Check(linux_large, title="Linux, a larger disk", is_long=True), Check(linux_alone, title="Linux, without firmware's driver", is_long=True),
          Check(linux_shallow, title="Linux, a short queue"), Check(linux_high, title="Linux, memory above 4 GiB"),
          Check(linux_small, title="Linux, few capabilities"), Check(linux_staggered, title="Linux, staggered spin-up", is_long=True),
          Check(linux_queue, title="Linux, queue", is_long=True), Check(linux_two, title="Linux, two processors", is_long=True),
          Check(linux_reset, title="Linux, a reset of the machine"), Check(linux_flush, title="Linux, flushes and a kill"),
          Check(user_mode_linux, title="User Mode Linux", is_long=True, is_alone=True)]  # its reads wait 40 ms at most
