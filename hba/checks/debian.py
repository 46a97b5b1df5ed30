"""Debian on a disk of 2 GiB, which is over its image."""
from __future__ import annotations

import os
import subprocess
from typing import List

import images
from harness import Guest, qemu, results_of, way_of
from images import program
import pace
from suite import Check, Skipped, expect

ROOT = os.path.join(images.OUT, "debian")
LOGIN = "ahci login:"


def copied(room: str, name: str) -> str:
    """A copy of the disk that `./fetch --root` has made, with its holes."""
    path = os.path.join(room, name)
    if not os.path.exists(f"{ROOT}/disk.img"):
        raise Skipped("there is no out/debian, which ./fetch --root makes")
    images.ran(["cp", "--sparse=always", f"{ROOT}/disk.img", path])
    return path


def by_qemu(room: str, image: str, words: List[str]) -> None:
    """The same machine with QEMU's own controller and disk."""
    machine = [images.qemu_of(way_of(room)), "-nodefaults", "-display", "none", "-machine", "q35", "-cpu", "max", "-m", "1G", "-serial", f"file:{room}/other",
               "-drive", f"file={image},format=raw,if=none,id=disk", "-device", "ide-hd,drive=disk", *words]
    done = pace.ran(machine, 900, stdout=subprocess.PIPE, stderr=subprocess.STDOUT, text=True)
    expect(done.returncode == 0 and not done.stdout, f"QEMU alone: status {done.returncode}: {done.stdout}")


def is_sound(image: str) -> None:
    done = subprocess.run([program("e2fsck", "e2fsprogs"), "-fn", image], stdin=subprocess.DEVNULL, capture_output=True, text=True, check=False)
    expect(done.returncode == 0, f"e2fsck: status {done.returncode}: {done.stdout}")


def debian(room: str) -> str:
    """Debian boots to a login, installs a package, compiles a program and reboots; then it runs both and sums up its files. On QEMU's own disk they are the same."""
    mine, other = copied(room, "disk.img"), copied(room, "other.img")
    words = ["-kernel", f"{ROOT}/vmlinuz", "-initrd", f"{ROOT}/initrd.img", "-append", "root=/dev/sda console=ttyS0 panic=1 no_timer_check"]
    guest = Guest(room, ["--image", mine], qemu(room, *words, memory="1G"))
    guest.end(900)
    guest.linux_is_usual([r"(Kernel c|C)ommand line: root=/dev/sda .*", r"EXT4-fs \(sda\): re-mounted\. Quota mode: none\."])
    results = guest.results()
    expect(guest.serial().count(LOGIN) == 2, f"there were {guest.serial().count(LOGIN)} logins, not 2")
    expect(results["first"] == results["second"] == "Hello, world!; 9592 primes", f"the package and the program say {results}")
    is_sound(mine)
    by_qemu(room, other, words)
    expect(results_of(f"{room}/other") == results, f"on QEMU's own disk: {results_of(f'{room}/other')}, and not {results}")
    return f"{results['files']} files, the same as on QEMU's own disk"


CHECKS = [Check(debian, title="Debian, from a disk of 2 GiB", is_long=True)]
