"""What a driver that has gone mad does: tables of random commands all over the guest's memory, and random writes to the function."""
from __future__ import annotations

import random
import struct
from typing import Callable, List, NamedTuple, Sequence

from bus import BYTES
from port import DATA_SET_MANAGEMENT, SECTOR, ranges

CODES = [0x60, 0x61, 0x60, 0x61, 0x20, 0x24, 0xC8, 0x25, 0x30, 0x34, 0xCA, 0x35, 0x40, 0x42, 0xEC, 0x2F, 0x47, 0xE7, 0xEA, 0xEF, 0xE5, 0xF8, 0x27, 0x90, 0xA1, 0xC4, 0xC5, 0x29, 0x39, 0xCE, 0xC6, 0x06, 0x06]
REGISTERS = [0x04, 0x08, 0x100, 0x104, 0x108, 0x10C, 0x110, 0x114, 0x118, 0x12C, 0x130, 0x134, 0x138]


class Write(NamedTuple):
    """A write to a register, or to configuration space."""
    at: int
    value: int
    size: int = 4
    is_config: bool = False


class Mad:
    """The choices of the driver; `put` writes to the guest's memory, which has a region at each base."""

    def __init__(self, choose: random.Random, put: Callable[[int, bytes], None], bases: Sequence[int]) -> None:
        self.choose, self.put, self.bases = choose, put, bases

    def address(self) -> int:
        """Some address, mostly one of the memory."""
        if self.choose.random() < 0.05:
            return self.choose.choice([BYTES - 64, self.bases[1] + BYTES - 2, 1 << 40, (1 << 64) - 64, self.bases[1] - 8, self.choose.getrandbits(64)])
        return self.choose.choice(self.bases) + self.choose.randrange(0, BYTES - 0x4000)

    def trim(self, fis: bytearray) -> bytes:
        """Makes a command a trim of some sectors, one in ten of which are not on a disk of 256. The PRDT's entry."""
        choose, place = self.choose, self.address() & ~1
        end = 256 if choose.random() < 0.9 else 1 << 48
        self.put(place, ranges([(choose.choice([0, 5, 100, 216, end - 40]), choose.choice([0, 1, 8, 40])) for _ in range(choose.randrange(65))]))
        fis[3], fis[12], fis[13] = 1, 1, 0
        return struct.pack("<QII", place, 0, SECTOR - 1)

    def table(self, entries: int) -> bytes:
        """CFIS of a random command, and a PRDT of so many random entries."""
        choose = self.choose
        lba, count = choose.choice([0, 5, 100, 250, 255, 256, choose.getrandbits(48)]), choose.choice([1, 1, 2, 8, 8, 64, 0, choose.getrandbits(16)])
        fis = bytearray(64)
        fis[0:4] = bytes([0x27, 0x80, choose.choice(CODES), count & 255])
        fis[4:12] = bytes([lba & 255, lba >> 8 & 255, lba >> 16 & 255, 0x40, lba >> 24 & 255, lba >> 32 & 255, lba >> 40 & 255, count >> 8])
        fis[12:16] = bytes([count & 255, count >> 8, 0, choose.choice([0, 8])])
        if choose.random() < 0.2:
            fis[choose.randrange(20)] = choose.randrange(256)
        is_trim = fis[2] == DATA_SET_MANAGEMENT and choose.random() < 0.8
        first = self.trim(fis) if is_trim else b""
        out = bytes(fis).ljust(0x80, b"\0") + first
        for _ in range(entries):
            length = choose.choice([511, 4095, 4095, 65535, 0x3FFFFF, 1, 0, choose.getrandbits(32)])
            out += struct.pack("<QII", self.address() & ~choose.choice([0, 1]), 0, length)
        return out

    def command_list(self, base: int) -> None:
        """A command list with a table for each header."""
        for slot in range(32):
            place = self.address() & ~0x7F
            entries = self.choose.choice([0, 1, 1, 1, 1, 2, 4, 4, 40])
            flags = 5 if self.choose.random() < 0.95 else self.choose.getrandbits(16)
            self.put(base + 32 * slot, struct.pack("<HHIQ16x", flags, entries, 0, place))
            self.put(place, self.table(entries))

    def start(self) -> List[Write]:
        """What a driver does before its first command, more or less; the list is laid out."""
        base = self.address() & ~0x3FF
        self.command_list(base)
        return [*(Write(at, value, size, True) for at, value, size in ((0x04, 0x06, 2), (0x44, 0xFEE00000, 4), (0x42, 1, 2))),
                *(Write(at, value) for at, value in (
                    (0x118, 0), (0x12C, 0x300), (0x100, base & 0xFFFFFFFF), (0x104, base >> 32), (0x108, (base & 0xFFFFFFFF) + 0x400 & 0xFFFFFFFF), (0x10C, base >> 32),
                    (0x130, 0xFFFFFFFF), (0x110, 0xFFFFFFFF), (0x08, 1), (0x04, 0x80000002), (0x114, 0xFFFFFFFF), (0x118, 0x10), (0x118, 0x11)))]

    def issue(self) -> List[Write]:
        """Commands of some slots, queued or not."""
        bits = 1 << self.choose.randrange(32) if self.choose.random() < 0.8 else self.choose.getrandbits(32)
        return [*([Write(0x134, bits)] if self.choose.random() < 0.7 else []), Write(0x138, bits)]

    def write(self) -> Write:
        """Any write to a register."""
        size = self.choose.choice([1, 2, 4, 8])
        return Write(self.choose.choice(REGISTERS) if self.choose.random() < 0.8 else self.choose.randrange(0x1000), self.choose.getrandbits(8 * size), size)

    def configure(self) -> Write:
        """Any write to configuration space."""
        size = self.choose.choice([1, 2, 4])
        return Write(self.choose.randrange(256), self.choose.getrandbits(8 * size), size, True)
