"""The driver of one port that the small drivers here have in common: it starts the port, issues a command at a time, and recovers."""
from __future__ import annotations

import struct
from typing import Iterable, Sequence

from bus import MASTER, Guest

GHC, IS, PXCLB, PXFB, PXIS, PXIE, PXCMD, PXTFD, PXSIG, PXSSTS, PXSCTL, PXSERR, PXSACT, PXCI = (
    0x04, 0x08, 0x100, 0x108, 0x110, 0x114, 0x118, 0x120, 0x124, 0x128, 0x12C, 0x130, 0x134, 0x138)
LIST, RECEIVED, TABLES, DATA, LOG = 0x1000, 0x400, 0x4000, 0x8000, 0xC000
ST, FRE, CR, TFES, HBFS, HBDS = 1, 0x10, 0x8000, 0x40000000, 0x20000000, 0x10000000
READ_QUEUED, WRITE_QUEUED, READ_DMA, WRITE_DMA, READ_SECTORS, READ_LOG, FLUSH, IDENTIFY, DATA_SET_MANAGEMENT = 0x60, 0x61, 0xC8, 0xCA, 0x20, 0x2F, 0xEA, 0xEC, 0x06
QUEUED, WRITES = (READ_QUEUED, WRITE_QUEUED), (WRITE_QUEUED, WRITE_DMA, DATA_SET_MANAGEMENT)
SECTOR = 512


class Port(Guest):
    """The driver of one port."""

    def get(self, at: int, count: int) -> bytes:
        return self.memory[0][at:at + count]

    def start(self) -> None:
        self.config(0x04, MASTER, 2)
        for at, value in ((GHC, 0x80000000), (PXCLB, LIST), (PXFB, RECEIVED), (PXCMD, FRE)):
            self.write(at, value)
        while self.read(PXTFD) & 0x88:
            pass
        self.restart()

    def restart(self) -> None:
        """Stops the port, clears its errors, and starts it (section 6.2.2.1)."""
        self.write(PXCMD, FRE)
        while self.read(PXCMD) & CR:
            pass
        self.write(PXSERR, 0xFFFFFFFF)
        self.write(PXIS, 0xFFFFFFFF)
        self.write(PXCMD, ST | FRE)

    def reset_link(self) -> None:
        """Stops the port, and resets the link, which ends what the device is busy with (section 10.4.2)."""
        self.write(PXCMD, FRE)
        while self.read(PXCMD) & CR:
            pass
        self.write(PXSCTL, 0x301)
        self.write(PXSCTL, 0x300)
        while self.read(PXSSTS) & 0xF != 3 or self.read(PXTFD) & 0x88:
            pass

    def lay(self, slot: int, code: int, lba: int, count: int, data: int) -> None:
        """Lays out a command of a table of its own; one of 0 sectors has no data. DATA SET MANAGEMENT is one with TRIM, and `count` its blocks."""
        table, writes = TABLES + 0x100 * slot, code in WRITES
        fis = bytearray((0x27, 0x80, code, 0)) + lba.to_bytes(3, "little") + b"\x40" + bytes(12)
        fis[3 if code in QUEUED else 12] = count
        fis[3] |= code == DATA_SET_MANAGEMENT
        fis[12] |= slot << 3 if code in QUEUED else 0
        self.put(LIST + 32 * slot, struct.pack("<HHIQ16x", 5 | writes << 6, count > 0, 0, table))
        self.put(table, bytes(fis).ljust(0x80, b"\0") + struct.pack("<QII", data, 0, max(count, 1) * SECTOR - 1))

    def issue(self, slots: int, is_queued: bool) -> None:
        if is_queued:
            self.write(PXSACT, slots)
        self.write(PXCI, slots)

    def perform(self, slot: int, code: int, lba: int, count: int, data: int) -> None:
        """Issues a command, and waits until it is answered or the port halts."""
        self.lay(slot, code, lba, count, data)
        self.issue(1 << slot, code in QUEUED)
        while self.is_outstanding():
            pass

    def is_outstanding(self) -> bool:
        return bool(self.read(PXCI) | self.read(PXSACT)) and not self.read(PXIS) & (TFES | HBFS | HBDS)


def ranges(entries: Iterable[Sequence[int]]) -> bytes:
    """The blocks of DATA SET MANAGEMENT with TRIM: LBA Range Entries, each an LBA and a number of sectors (ACS-3, "DATA SET MANAGEMENT"), filled up with entries without sectors."""
    data = b"".join(struct.pack("<Q", count << 48 | lba) for lba, count in entries)
    return data.ljust(max(1, -(-len(data) // SECTOR)) * SECTOR, b"\0")


def lba_of(fis: bytes) -> int:
    """The LBA of a Register FIS, and of a page of log 10h (ACS-3, "NCQ Command Error log")."""
    return int.from_bytes(fis[4:7] + fis[8:11], "little")
