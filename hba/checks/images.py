"""What the checks run on the controller: disk images, and a Linux with its initial RAM disk, made of Debian's packages."""
from __future__ import annotations

import functools
import glob
import gzip
import hashlib
import lzma
import os
import re
import shutil
import struct
import subprocess
import sys
from typing import Any, Dict, List, Optional, Sequence, Tuple

HERE = os.path.dirname(os.path.dirname(os.path.realpath(__file__)))
sys.dont_write_bytecode = True
sys.path += [os.path.join(os.path.dirname(HERE), "host"), os.path.join(os.path.dirname(HERE), "host", "checks")]

import pace  # noqa: E402
from suite import Skipped  # noqa: E402

OUT = os.environ.get("AHCI_HBA_OUT") or os.path.join(HERE, "out")  # what ./fetch has got
GUESTS = os.path.join(HERE, "guests")
SECTOR = 512
VFIO_USER, PROXY = "vfio-user", "proxy"  # the ways in which QEMU has the controller
PARTITION = 2048  # the first sector of a GRUB image's partition

# what some test of guests/ needs besides: modules, which it loads itself by /modules/more; programs by their packages; and those of guests/
MORE_MODULES = {"losses": ["xfs"], "tools": ["sg", "xfs"]}
MORE_PROGRAMS = {"losses": {"e2fsck": "e2fsprogs", "xfs_repair": "xfsprogs"},
                 "tools": {"smartctl": "smartmontools", "hdparm": "hdparm", "sg_sat_identify": "sg3-utils", "sg_sat_read_gplog": "sg3-utils", "sg_sat_phy_event": "sg3-utils",
                           "sg_raw": "sg3-utils",
                           "fstrim": "util-linux", "blkdiscard": "util-linux", "lsblk": "util-linux", "mkfs.xfs": "xfsprogs"},
                 "trims": {"fstrim": "util-linux", "blkdiscard": "util-linux"}}
MORE_COMPILED = {"losses": ["synced"]}

# the modules of a kernel that the disk and a file system want; those that they use come with them. A kernel may have no such module, or have it built in
MODULES = ["crc32c_generic", "crc64_rocksoft_generic", "crct10dif_generic", "sd_mod", "ahci", "ext4"]


def program(name: str, package: str) -> str:
    """Where a program is."""
    found = shutil.which(name, path=os.environ.get("PATH", "") + ":/usr/sbin:/sbin")
    if not found:
        raise Skipped(f"there is no {name} (package {package})")
    return found


@functools.lru_cache(maxsize=None)
def has_vfio_user(qemu: str) -> bool:
    """Whether a QEMU has the device vfio-user-pci, as from 10.1 on."""
    done = pace.ran([qemu, "-device", "vfio-user-pci,help"], 20, stdout=subprocess.PIPE, stderr=subprocess.STDOUT, text=True)
    return "vfio-user-pci options" in str(done.stdout)


def qemu_of(way: str, machine: str = "x86_64") -> str:
    """A QEMU that has the controller in this way: the machine's own, or that of ./fetch --qemu."""
    name, fetched = f"qemu-system-{machine}", os.path.join(OUT, "qemu", "bin", f"qemu-system-{machine}")
    own = shutil.which(name)
    if own and has_vfio_user(own) == (way == VFIO_USER):
        return own
    if way == VFIO_USER and os.path.exists(fetched):
        return fetched
    raise Skipped(f"there is no {name} with {way} (./fetch --qemu makes one)" if way == VFIO_USER else f"there is no {name} before 10.1 (package qemu-system-x86 of Debian 12)")


def file_of(path: str, package: str) -> str:
    """A file of a package."""
    if not os.path.exists(path):
        raise Skipped(f"there is no {path} (package {package})")
    return path


def ran(words: Sequence[str], **more: Any) -> str:
    """What a program of this machine printed, if it ended with status 0."""
    done = pace.ran(list(words), 120, stdout=subprocess.PIPE, stderr=subprocess.STDOUT, text=True, errors="replace", **more)
    if done.returncode:
        raise RuntimeError(f"{' '.join(words)}: status {done.returncode}\n{done.stdout[-2000:]}")
    return str(done.stdout)


def read(path: str) -> bytes:
    with open(path, "rb") as file:
        return file.read()


def pattern(count: int, seed: str) -> bytes:
    """So many bytes that don't repeat, the same for the same seed."""
    out, at = bytearray(), 0
    while len(out) < count:
        out += hashlib.sha256(f"{seed} {at}".encode()).digest()
        at += 1
    return bytes(out[:count])


# ---- a boot sector ----


def assembled(room: str, name: str, *more: str) -> str:
    """The program of guests/NAME.S, as the BIOS loads it."""
    objects, boot = os.path.join(room, f"{name}.o"), os.path.join(room, f"{name}.bin")
    ran([program("as", "binutils"), "--32", *more, "-o", objects, os.path.join(GUESTS, f"{name}.S")])
    ran([program("ld", "binutils"), "-m", "elf_i386", "-Ttext", "0x7c00", "--oformat", "binary", "-o", boot, objects])
    return boot


def sector_image(room: str, tries: int = 1) -> Tuple[str, int]:
    """An image of 8 MiB that begins with guests/sector.S, and the sum of the bytes that it adds up, below 2^16."""
    image = bytearray(8 << 20)
    image[:SECTOR] = read(assembled(room, "sector", "--defsym", f"TRIES={tries}"))[:SECTOR]
    image[SECTOR:2 * SECTOR] = b"sector 1\n".ljust(SECTOR, b"\0")
    summed = pattern(64 * SECTOR, "sum")
    image[64 * SECTOR:128 * SECTOR] = summed
    path = os.path.join(room, "sector.img")
    with open(path, "wb") as file:
        file.write(image)
    return path, sum(summed) & 0xFFFF


# ---- a disk with GRUB ----


def grub_files(room: str, config: str) -> Dict[str, bytes]:
    """The files of a GRUB image with a configuration of guests/."""
    environment = b"# GRUB Environment Block\n"
    files = {"hello.txt": b"hello from the disk\n", "large.bin": pattern(4 << 20, "large"), "env.bin": environment.ljust(1024, b"#"), 
             "boot/grub/grub.cfg": read(os.path.join(GUESTS, config))}
    for platform, package in (("i386-pc", "grub-pc-bin"), ("x86_64-efi", "grub-efi-amd64-bin")):
        folder = file_of(f"/usr/lib/grub/{platform}", package)
        for path in glob.glob(f"{folder}/*.mod") + glob.glob(f"{folder}/*.lst"):
            with open(path, "rb") as file:
                files[f"boot/grub/{platform}/{os.path.basename(path)}"] = file.read()
    efi = os.path.join(room, "grub.efi")
    ran([program("grub-mkimage", "grub-common"), "-O", "x86_64-efi", "-o", efi, "-p", "/boot/grub", "part_msdos", "fat", "normal"])
    with open(efi, "rb") as file:
        files["EFI/BOOT/BOOTX64.EFI"] = file.read()
    return files


def fill_partition(path: str, room: str, files: Dict[str, bytes]) -> None:
    """A FAT file system with these files."""
    at = f"{path}@@{PARTITION * SECTOR}"
    tree = os.path.join(room, "tree")
    for name, content in files.items():
        os.makedirs(os.path.dirname(os.path.join(tree, name)), exist_ok=True)
        with open(os.path.join(tree, name), "wb") as file:
            file.write(content)
    sectors = os.path.getsize(path) // SECTOR - PARTITION
    ran([program("mformat", "mtools"), "-i", at, "-T", str(sectors), "-h", "16", "-s", "63", "-H", str(PARTITION), "-c", "4", "::"])
    ran([program("mcopy", "mtools"), "-i", at, "-s", *sorted(os.path.join(tree, it) for it in os.listdir(tree)), "::"])
    shutil.rmtree(tree)


def grub_image(room: str, config: str, more: Dict[str, bytes]) -> str:
    """An image of 64 MiB with one partition, GRUB for BIOS in front of it, and in it GRUB for UEFI and some files more."""
    path, core = os.path.join(room, "grub.img"), os.path.join(room, "core.img")
    ran([program("grub-mkimage", "grub-common"), "-O", "i386-pc", "-o", core, "-p", "(hd0,msdos1)/boot/grub", "biosdisk", "part_msdos", "fat", "normal"])
    with open(file_of("/usr/lib/grub/i386-pc/boot.img", "grub-pc-bin"), "rb") as file:
        boot = bytearray(file.read(SECTOR))
    write_disk(path, bytes(boot), read(core))
    fill_partition(path, room, {**grub_files(room, config), **more})
    return path


def write_disk(path: str, boot: bytes, text: bytes) -> None:
    """A disk of 64 MiB with one partition: its first sector, with a partition table, and what follows it."""
    sectors = (64 << 20) // SECTOR
    table = struct.pack("<B3sB3sII48x", 0x80, b"\xfe\xff\xff", 0x0C, b"\xfe\xff\xff", PARTITION, sectors - PARTITION)
    with open(path, "wb") as file:
        file.truncate(sectors * SECTOR)
        file.write(boot[:446].ljust(446, b"\0") + table + b"\x55\xaa" + text)


def uboot_image(room: str) -> str:
    """An image with a partition in which U-Boot finds guests/uboot.cmd as its script, and a file of 4 MiB."""
    path, script = os.path.join(room, "uboot.img"), os.path.join(room, "boot.scr")
    ran([program("mkimage", "u-boot-tools"), "-T", "script", "-C", "none", "-n", "boot", "-d", os.path.join(GUESTS, "uboot.cmd"), script])
    write_disk(path, b"", b"")
    fill_partition(path, room, {"boot.scr": read(script), "large.bin": pattern(4 << 20, "large")})
    return path


def file_in(path: str, name: str) -> bytes:
    """A file of a GRUB image."""
    done = subprocess.run([program("mtype", "mtools"), "-i", f"{path}@@{PARTITION * SECTOR}", f"::{name}"], stdin=subprocess.DEVNULL, capture_output=True, check=False)
    if done.returncode:
        raise RuntimeError(f"{path} has no {name}: {done.stderr.decode(errors='replace')}")
    return done.stdout


# ---- Linux ----


def kernel(folder: str = "kernel") -> Tuple[str, str]:
    """A kernel of Debian and the folder of its modules: those of ./fetch, or of another folder of out/."""
    root = os.path.join(OUT, folder)
    images, modules = glob.glob(os.path.join(root, "boot/vmlinuz-*")) + glob.glob(os.path.join(root, "usr/lib/modules/*/vmlinuz")), glob.glob(os.path.join(root, "**/modules/*/kernel"), recursive=True)
    if not images or not modules:
        raise Skipped(f"there is no out/{folder} (./fetch{'' if folder == 'kernel' else ' --' + folder} makes it)")
    return images[0], modules[0]


def module(path: str) -> bytes:
    content = read(path)
    return lzma.decompress(content) if path.endswith(".xz") else content


def modules_of(folder: str, names: Sequence[str] = MODULES) -> Dict[str, bytes]:
    """The modules that the disk and a file system want, or others, each after those that it uses."""
    paths = {os.path.basename(it).split(".ko")[0].replace("-", "_"): it for it in glob.glob(os.path.join(folder, "**/*.ko*"), recursive=True)}
    out: Dict[str, bytes] = {}
    seen = set()

    def take(name: str) -> None:
        if name in seen or name not in paths:
            return
        seen.add(name)
        content = module(paths[name])
        for key in (rb"depends=", rb"softdep=pre: "):
            for used in re.findall(rb"\0" + key + rb"([^\0]+)\0", content)[:1]:
                for it in re.split(r"[, ]", used.decode()):
                    take(it.replace("-", "_"))
        out[name] = content

    for name in names:
        take(name)
    return out


def libraries(path: str) -> List[str]:
    """The shared libraries of a program, and its loader; none of a static one, at which `ldd` ends with 1."""
    shown = subprocess.run(["ldd", path], stdin=subprocess.DEVNULL, stdout=subprocess.PIPE, stderr=subprocess.DEVNULL, text=True, check=False).stdout
    return [word for line in shown.splitlines() for word in line.split() if word.startswith("/")]


def entry(name: str, mode: int, content: bytes) -> bytes:
    """One file of a cpio archive ("newc")."""
    fields = [0, mode, 0, 0, 1, 0, len(content), 0, 0, 0, 0, len(name) + 1, 0]
    head = b"070701" + b"".join(b"%08x" % it for it in fields) + name.encode() + b"\0"
    return head + b"\0" * (-len(head) % 4) + content + b"\0" * (-len(content) % 4)


def archive(files: Dict[str, bytes]) -> bytes:
    """A cpio archive of programs and data, with their folders."""
    folders = {"/".join(name.split("/")[:i]) for name in files for i in range(1, name.count("/") + 1)}
    out = b"".join(entry(name, 0o040755, b"") for name in sorted(folders, key=lambda it: (it.count("/"), it)))
    out += b"".join(entry(name, 0o100755, content) for name, content in sorted(files.items()))
    return out + entry("TRAILER!!!", 0, b"")


def compiled(room: str, name: str) -> bytes:
    """The static program of guests/NAME.c."""
    path = os.path.join(room, name)
    if not os.path.exists(path):
        ran([program("gcc", "gcc"), "-O2", "-Wall", "-Wextra", "-Werror", "-static", "-o", path, os.path.join(GUESTS, f"{name}.c")])
    return read(path)


def programs(room: str, test: str) -> Dict[str, bytes]:
    """What a script of guests/ runs, for this machine."""
    packages = {"mkfs.ext4": "e2fsprogs", **MORE_PROGRAMS.get(test, {})}
    paths = {name: program(name, package) for name, package in packages.items()}
    busybox = program("busybox", "busybox")
    files = {"bin/busybox": read(busybox), **{f"sbin/{name}": read(path) for name, path in paths.items()}}
    files.update({f"bin/{name}": compiled(room, name) for name in ["requests", "merged", *MORE_COMPILED.get(test, [])]})
    for path in [it for of in [busybox, *paths.values()] for it in libraries(of)]:
        files[path.lstrip("/")] = read(os.path.realpath(path))
    return files


def initrd(room: str, test: str, data: bytes, modules: Optional[str], busybox: str = "") -> str:
    """An initial RAM disk that runs guests/TEST.sh, with `data` as /data; with the modules of a folder if one is named. `busybox` is all that it has of programs
    for another machine."""
    files = {"init": read(os.path.join(GUESTS, "init")), "test": read(os.path.join(GUESTS, f"{test}.sh")), "data": data}
    files.update({"bin/busybox": read(busybox)} if busybox else programs(room, test))
    if modules:
        taken, more = modules_of(modules), modules_of(modules, MORE_MODULES.get(test, []))
        files.update({f"modules/{name}.ko": content for name, content in [*taken.items(), *more.items()]})
        files["modules/more"] = "".join(f"{name}.ko\n" for name in more).encode()
        files["modules/order"] = "".join(f"{name}.ko\n" for name in taken).encode()
    path = os.path.join(room, f"{test}.initrd")
    with gzip.open(path, "wb", compresslevel=1) as file:
        file.write(archive(files))
    return path


def block_text(block: int, version: int, size: int) -> bytes:
    """A text of a block, as guests/text.h has it."""
    return struct.pack(f"<{size // 8}Q", *(block << 40 | version << 24 | place for place in range(size // 8)))


def numbered_blocks(blocks: int, size: int) -> bytes:
    """The first text of each block."""
    return b"".join(block_text(block, 1, size) for block in range(blocks))
