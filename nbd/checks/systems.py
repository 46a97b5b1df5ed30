"""Checks with whole systems on the disk: Linux's ext4 and btrfs, sqlite, a guest's kernel, and the page's own commands."""
from __future__ import annotations

import contextlib
import glob
import hashlib
import os
import random
import re
import shutil
import subprocess
import tempfile
import time
from typing import Iterator, List, Tuple

from harness import HERE, MIB, TOP, Check, Failed, Server, Skipped, ran, serving, summary_of, tool
import pace


@contextlib.contextmanager
def fused(room: str, server: Server) -> Iterator[str]:
    """The disk as a file, by nbdfuse."""
    if os.geteuid() != 0 or not os.path.exists("/dev/fuse"):
        raise Skipped("nbdfuse needs root and /dev/fuse")
    place = os.path.join(room, "fuse")
    os.mkdir(place)
    process = subprocess.Popen(["nbdfuse", place + "/disk", server.uri], stdin=subprocess.DEVNULL, stdout=subprocess.DEVNULL, stderr=subprocess.DEVNULL)
    try:
        limit = pace.Limit(10)
        while not os.path.exists(place + "/disk"):
            if process.poll() is not None or limit.has_passed():
                raise Failed("nbdfuse did not start")
            time.sleep(0.05)
        yield place + "/disk"
    finally:
        with contextlib.suppress(Failed):
            ran(["umount", place])
        process.terminate()
        process.wait()
        os.rmdir(place)


@contextlib.contextmanager
def looped(room: str, server: Server) -> Iterator[str]:
    """The disk as a loop device, by nbdfuse."""
    if not os.path.exists("/dev/loop-control"):
        raise Skipped("a file system is mounted by root alone, with /dev/fuse and loop devices")
    with fused(room, server) as path:
        device = ran(["losetup", "--find", "--show", path]).strip()
        try:
            yield device
        finally:
            ran(["losetup", "--detach", device])


@contextlib.contextmanager
def mounted(device: str, place: str) -> Iterator[None]:
    os.makedirs(place, exist_ok=True)
    ran(["mount", device, place])
    try:
        yield
    finally:
        ran(["umount", place])


def with_files(room: str, device: str, place: str) -> int:
    """Copies a tree of files into a mounted file system, and compares it after it was mounted again."""
    draw = random.Random(21)
    sums = {}
    with mounted(device, place):
        for at in range(60):
            path = os.path.join(place, f"folder{at % 7}", f"file{at}")
            os.makedirs(os.path.dirname(path), exist_ok=True)
            data = draw.randbytes(draw.randrange(1, 300_000))
            with open(path, "wb") as file:
                file.write(data)
                file.flush()
                os.fsync(file.fileno())
            sums[path] = hashlib.sha256(data).digest()
    with mounted(device, place):
        for path, wanted in sums.items():
            with open(path, "rb") as file:
                if hashlib.sha256(file.read()).digest() != wanted:
                    raise Failed(f"{path} came back otherwise")
    return len(sums)


def mounted_ext4(room: str) -> str:
    """ext4 by Linux itself, on a loop device: files that are synced, mounted again, and e2fsck."""
    with serving(room, "pick=random", "delay=10", "together=4") as server:
        with looped(room, server) as device:
            ran(["mkfs.ext4", "-q", "-F", device])
            count = with_files(room, device, os.path.join(room, "mount"))
            ran(["e2fsck", "-fn", device])
    return f"{count} files; {summary_of(server)}"


def mounted_btrfs(room: str) -> str:
    """btrfs by Linux itself, with its checksums, and btrfs check."""
    with serving(room, "pick=random") as server:
        with looped(room, server) as device:
            ran(["mkfs.btrfs", "-q", "-f", "--mixed", device])
            count = with_files(room, device, os.path.join(room, "mount"))
            ran(["btrfs", "check", device])
    return f"{count} files; {summary_of(server)}"


def a_database(room: str) -> str:
    """sqlite in WAL mode on ext4: 2,000 transactions, and its own check."""
    place = os.path.join(room, "mount")
    with serving(room, "pick=random", "seed=5") as server:
        with looped(room, server) as device:
            ran(["mkfs.ext4", "-q", "-F", device])
            base = os.path.join(place, "base")
            with mounted(device, place):
                lines = ["pragma journal_mode=wal;", "create table t (a integer primary key, b text);", *(f"insert into t values ({at}, hex(randomblob(100)));" for at in range(2000)),
                         "delete from t where a % 3 = 0;"]
                ran(["sqlite3", base, "\n".join(lines)])
            with mounted(device, place):
                if ran(["sqlite3", base, "pragma integrity_check; select count(*), sum(length(b)) from t;"]).split() != ["ok", "1333|266600"]:
                    raise Failed("the database is not what was written")
            ran(["e2fsck", "-fn", device])
    return summary_of(server)


UNPACKED = os.path.join(TOP, "hba", "out", "kernel")  # where hba/fetch unpacks Debian's kernel


def kernel() -> Tuple[str, str, str]:
    """A Linux that QEMU can boot: its file, its release, and the folder below which lib/modules has its modules."""
    for root in ("/", UNPACKED):
        for image in sorted(glob.glob(os.path.join(root, "boot", "vmlinuz-*")), reverse=True):
            release = os.path.basename(image).partition("vmlinuz-")[2]
            if os.path.isdir(os.path.join(root, "lib", "modules", release)):
                return image, release, root
    raise Skipped("there is no kernel with its modules, in /boot or from hba/fetch (Debian's package linux-image-amd64)")


GUEST = """#!/bin/busybox sh
/bin/busybox mkdir -p /proc /sys /dev /mnt
/bin/busybox mount -t proc none /proc
/bin/busybox mount -t sysfs none /sys
/bin/busybox mount -t devtmpfs none /dev
for it in $(/bin/busybox cat /modules/order); do /bin/busybox insmod /modules/$it; done
/bin/busybox mount -t ext4 /dev/vda /mnt && {
    /bin/busybox dd if=/dev/urandom of=/mnt/data bs=64k count=128
    /bin/busybox sync
    /bin/busybox sha256sum /mnt/data > /mnt/sum
    /bin/busybox umount /mnt
    /bin/busybox echo 3 > /proc/sys/vm/drop_caches
    /bin/busybox mount -t ext4 /dev/vda /mnt && /bin/busybox sha256sum -c /mnt/sum && /bin/busybox umount /mnt && /bin/busybox echo GUEST WELL
}
/bin/busybox poweroff -f
"""


def initrd(room: str, release: str, modules: str) -> str:
    """busybox, and the modules of a virtio disk with ext4 in the order in which they are needed."""
    root = os.path.join(room, "root")
    os.makedirs(os.path.join(root, "modules"))
    os.makedirs(os.path.join(root, "bin"))
    busybox = shutil.which("busybox") or ""
    shutil.copy(busybox, os.path.join(root, "bin", "busybox"))
    # the shared libraries of one that is not static, and its loader
    shown = subprocess.run(["ldd", busybox], stdout=subprocess.PIPE, stderr=subprocess.DEVNULL, text=True, check=False).stdout
    for path in (word for word in shown.split() if word.startswith("/")):
        os.makedirs(root + os.path.dirname(path), exist_ok=True)
        shutil.copy(path, root + path)
    order: List[str] = []
    if not os.path.exists(os.path.join(modules, "lib", "modules", release, "modules.dep")):
        ran(["depmod", "-b", modules, release])
    for name in ("virtio_pci", "virtio_blk", "crc32c_generic", "ext4"):
        shown = subprocess.run(["modprobe", "--dirname", modules, "--set-version", release, "--show-depends", name], stdout=subprocess.PIPE, text=True, check=False).stdout
        for path in re.findall(r"^insmod (\S+)", shown, re.MULTILINE):
            if os.path.basename(path) not in order:
                order.append(os.path.basename(path))
                shutil.copy(path, os.path.join(root, "modules"))
    with open(os.path.join(root, "modules", "order"), "w", encoding="ascii") as text:
        text.write("\n".join(order) + "\n")
    with open(os.path.join(root, "init"), "w", encoding="ascii") as text:
        text.write(GUEST)
    os.chmod(os.path.join(root, "init"), 0o755)
    path = os.path.join(room, "initrd")
    ran(["sh", "-c", f"cd {root} && find . | cpio --quiet -o -H newc > {path}"])
    return path


def a_guest(room: str) -> str:
    """A guest's kernel mounts the disk by QEMU's virtio, writes 8 MiB, and reads them again; e2fsck afterwards."""
    image, release, modules = kernel()
    disk, back = os.path.join(room, "disk"), os.path.join(room, "back")
    with open(disk, "wb") as file:
        file.truncate(64 * MIB)
    ran(["mkfs.ext4", "-q", "-F", disk])
    with serving(room, f"image={disk}", "pick=random", "delay=10", f"record={room}/record") as server:
        console = ran(["qemu-system-x86_64", "-accel", "tcg", "-m", "512", "-display", "none", "-serial", "stdio", "-no-reboot", "-kernel", image, "-initrd", initrd(room, release, modules),
                       "-append", "console=ttyS0 quiet panic=-1", "-drive", f"file={server.uri},format=raw,if=virtio"])
        if "GUEST WELL" not in console:
            raise Failed(console[-1500:])
        ran(["nbdcopy", server.uri, back])
    ran(["e2fsck", "-fn", back])
    with open(disk, "rb") as written, open(back, "rb") as read:
        if written.read() != read.read():
            raise Failed("the image is not what was read")
    return summary_of(server)


def page_commands(room: str) -> str:
    """The blocks of commands in README.md, each pasted as a whole into a shell in a scratch folder, do what the page says and leave no file in
    the repository."""
    with open(os.path.join(HERE, "README.md"), encoding="utf-8") as text:
        blocks = re.findall(r"```sh\n(.*?)```", text.read(), re.DOTALL)
    blocks = [it for it in blocks if "apt-get" not in it and "qemu-system" not in it and "make -C" not in it]
    if len(blocks) < 2:
        raise Failed(f"README.md has {len(blocks)} blocks to paste")
    before = ran(["git", "-C", TOP, "status", "--short", "--ignored"]) if os.path.exists(os.path.join(TOP, ".git")) else ""
    for at, block in enumerate(blocks):
        done = tool(["bash"], input=block, cwd=TOP, env={**os.environ, "TMPDIR": tempfile.mkdtemp(dir=room)})
        wanted = [line[2:].strip() for line in block.splitlines() if line.startswith("#=")]
        lost = [it for it in wanted if not re.search(it, done.stdout)]
        if done.returncode or lost:
            raise Failed(f"block {at + 1}: status {done.returncode}, without {lost}\n{done.stdout[-1500:]}")
    after = ran(["git", "-C", TOP, "status", "--short", "--ignored"]) if before else before
    if after != before:
        raise Failed(f"the commands leave files in the repository: {after}")
    return f"{len(blocks)} blocks"


CHECKS = [Check(mounted_ext4, ["nbdfuse", "losetup", "mkfs.ext4"]), Check(mounted_btrfs, ["nbdfuse", "losetup", "mkfs.btrfs", "btrfs"]),
          Check(a_database, ["nbdfuse", "losetup", "mkfs.ext4", "sqlite3"]),
          Check(a_guest, ["qemu-system-x86_64", "busybox", "modprobe", "cpio", "mkfs.ext4", "nbdcopy"]), Check(page_commands, ["bash", "fio", "nbdcopy", "mkfs.ext4"])]
