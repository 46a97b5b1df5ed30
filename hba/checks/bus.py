"""The other end of a QEMU: a guest's memory of two regions, and accesses to the controller by vfio-user, or by x-pci-proxy-dev on file 40 as QEMU before
10.1 has it. The arguments that the program adds to a driver's command say which."""
from __future__ import annotations

import ctypes
import mmap
import os
import re
import socket
import struct
import sys
from typing import List, NamedTuple, Sequence, Union

BYTES = 1 << 20
COMMAND, MEMORY, MASTER = 0x04, 0x02, 0x06  # of configuration space, and its bits: memory space, bus master too
BASES = [0, 1 << 32]  # the guest's addresses of its two regions
ACCESS_READ, ACCESS_WRITE, CONFIG_READ, CONFIG_WRITE, RESET = range(5)


class Access(NamedTuple):
    """What a guest asks of the function."""
    kind: int
    at: int = 0
    size: int = 4
    value: int = 0


def resident() -> int:
    """MiB of the program that has started this one."""
    with open(f"/proc/{os.getppid()}/statm", encoding="ascii") as text:
        return int(text.read().split()[1]) * os.sysconf("SC_PAGE_SIZE") >> 20


def gone() -> None:
    sys.exit("the program is gone")


def eventfd() -> int:
    """A file of eventfd(2), which Python has from 3.10 on."""
    return int(ctypes.CDLL(None, use_errno=True).eventfd(0, os.O_NONBLOCK | os.O_CLOEXEC))


def receive(link: socket.socket, count: int) -> bytes:
    """Exactly so many bytes."""
    out = b""
    while len(out) < count:
        part = link.recv(count - len(out))
        if not part:
            gone()
        out += part
    return out


class Proxy:
    """The messages of x-pci-proxy-dev."""

    SYNC_SYSMEM = 0
    forgives = False
    KINDS = {CONFIG_WRITE: 2, CONFIG_READ: 3, ACCESS_WRITE: 4, ACCESS_READ: 5, RESET: 7}

    def __init__(self) -> None:
        self.socket = socket.socket(fileno=40)
        self.interrupts = socket.socket(fileno=41)
        self.interrupts.setblocking(False)

    def give_memory(self, files: Sequence[int]) -> None:
        table = struct.pack("<8Q8Q8q", *(BASES + [0] * 6), *([BYTES] * len(BASES) + [0] * 6), *([0] * 8))
        socket.send_fds(self.socket, [struct.pack("<iIQ", self.SYNC_SYSMEM, 0, len(table)) + table], files)

    def encoded(self, it: Access) -> bytes:
        data = b""
        if it.kind in (CONFIG_READ, CONFIG_WRITE):
            data = struct.pack("<III", it.at, it.value, it.size)
        elif it.kind != RESET:
            data = struct.pack("<QQIxxxx", 0xFEBF0000 + it.at, it.value, it.size)
        return struct.pack("<iIQ", self.KINDS[it.kind], 0, len(data)) + data

    def send(self, accesses: Sequence[Access]) -> None:
        self.socket.sendall(b"".join(self.encoded(it) for it in accesses))

    def answer(self) -> int:
        return int(struct.unpack("<iIQQ", receive(self.socket, 24))[3])

    def drain(self) -> None:
        """Throws away the interrupts that have come."""
        try:
            self.interrupts.recv(65536)
        except BlockingIOError:
            pass


class VfioUser:
    """The messages of vfio-user."""

    VERSION, DMA_MAP, SET_IRQS, REGION_READ, REGION_WRITE, DEVICE_RESET = 1, 2, 8, 9, 10, 13
    BAR5, CONFIG = 5, 7
    ERROR = 0x20
    INTX, MSI, EVENTFD_TRIGGER = 0, 1, 0x24
    forgives = False  # messages that are refused

    def __init__(self, path: str) -> None:
        self.socket = socket.socket(socket.AF_UNIX)
        self.socket.connect(path)
        self.number = 0
        self.call(self.VERSION, struct.pack("<HH", 0, 1) + b'{"capabilities":{"max_data_xfer_size":65536}}\0')
        self.interrupts = [eventfd() for _ in range(2)]
        for index, file in enumerate(self.interrupts):
            self.call(self.SET_IRQS, struct.pack("<5I", 20, self.EVENTFD_TRIGGER, index, 0, 1), [file])

    def message(self, command: int, data: bytes) -> bytes:
        self.number = self.number + 1 & 0xFFFF
        return struct.pack("<HHIII", self.number, command, 16 + len(data), 0, 0) + data

    def reply(self) -> bytes:
        """The data of the next reply; none if it is an error, and that is forgiven."""
        _, _, count, flags, error = struct.unpack("<HHIII", receive(self.socket, 16))
        data = receive(self.socket, count - 16)
        if flags & self.ERROR and not self.forgives:
            sys.exit(f"the program has refused a message: {os.strerror(error)}")
        return data

    def call(self, command: int, data: bytes, files: Sequence[int] = ()) -> bytes:
        socket.send_fds(self.socket, [self.message(command, data)], files)
        return self.reply()

    def give_memory(self, files: Sequence[int]) -> None:
        for base, file in zip(BASES, files):
            self.call(self.DMA_MAP, struct.pack("<IIQQQ", 32, 3, 0, base, BYTES), [file])

    def encoded(self, it: Access) -> bytes:
        if it.kind == RESET:
            return self.message(self.DEVICE_RESET, b"")
        access = struct.pack("<QII", it.at, self.CONFIG if it.kind in (CONFIG_READ, CONFIG_WRITE) else self.BAR5, it.size)
        if it.kind in (ACCESS_READ, CONFIG_READ):
            return self.message(self.REGION_READ, access)
        return self.message(self.REGION_WRITE, access + it.value.to_bytes(it.size, "little"))

    def send(self, accesses: Sequence[Access]) -> None:
        self.socket.sendall(b"".join(self.encoded(it) for it in accesses))

    def answer(self) -> int:
        return int.from_bytes(self.reply()[16:], "little")

    def drain(self) -> None:
        """Throws away the interrupts that have come."""
        for file in self.interrupts:
            try:
                os.read(file, 8)
            except BlockingIOError:
                pass


def connected() -> Union[Proxy, VfioUser]:
    """The way to the program that its arguments say."""
    for word in sys.argv:
        path = re.search(r'"vfio-user-pci".*"path":"([^"]*)"', word)
        if path:
            return VfioUser(path[1])
    return Proxy()


class Guest:
    """A guest: its memory, and the way to the program."""

    def __init__(self) -> None:
        self.way = connected()
        self.files = [os.memfd_create(f"memory{i}") for i in range(len(BASES))]
        self.memory: List[mmap.mmap] = []
        for file in self.files:
            os.ftruncate(file, BYTES)
            self.memory.append(mmap.mmap(file, BYTES))

    def give_memory(self) -> None:
        """Sends the program where the guest's memory is."""
        self.way.give_memory(self.files)

    def ask(self, *accesses: Access) -> int:
        """Makes accesses at once, so that the program has all of them when it takes the first. The answer is the last one's."""
        answer = 0
        self.way.send(accesses)
        for _ in accesses:
            answer = self.way.answer()
        return answer

    def write(self, at: int, value: int, size: int = 4) -> None:
        self.ask(Access(ACCESS_WRITE, at, size, value))

    def read(self, at: int, size: int = 4) -> int:
        return self.ask(Access(ACCESS_READ, at, size))

    def config(self, at: int, value: int, size: int) -> None:
        self.ask(Access(CONFIG_WRITE, at, size, value & (1 << 8 * size) - 1))

    def master(self, is_on: bool) -> None:
        """Makes the function a bus master, or none: then the device takes no step."""
        self.config(COMMAND, MASTER if is_on else MEMORY, 2)

    def put(self, at: int, content: bytes) -> None:
        """Writes to the guest's memory, if it is all there."""
        for base, memory in zip(BASES, self.memory):
            if base <= at and at + len(content) <= base + BYTES:
                memory[at - base:at - base + len(content)] = content
