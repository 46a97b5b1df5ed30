"""QEMU's AHCI port: the q35 machine has an ICH9 controller, and memory at all places of the model."""
import shutil
from base64 import b64decode, b64encode
from itertools import accumulate
from typing import List, Optional, Sequence, Set, Tuple

from . import layout
from .adapter import Adapter, EmulatorFault, Place
from .nbd import IO_ERROR
from .qtest import Qtest

PROGRAM = "qemu-system-x86_64"
ABAR = 0xE0000000  # above the machine's memory, below what it maps itself
CONTROLLER = 0x8000FA00  # PCI 00:1f.2, by the ports CF8h and CFCh
PART = 48 << 10  # bytes of memory in one command: QEMU looks through the whole command at each part of it that comes


class Qemu(Adapter):
    """Debian's QEMU: the processor never runs, and the disk's requests wait at breakpoints before they reach the disk."""

    title = "QEMU"
    guest_memory = ((0x10000000, 0x80000000), (0x100000000, 0x10000000))
    most_entries = 1024  # with more QEMU's request to the host has too many parts, and fails

    def __init__(self, program: str = PROGRAM) -> None:
        self.program = program
        self.run: Optional[Qtest] = None
        self.held: Set[int] = set()  # tags whose requests wait at a breakpoint

    @property
    def qtest(self) -> Qtest:
        if self.run is None:
            raise EmulatorFault("QEMU isn't started")
        return self.run

    def start(self, sectors: int, depth: int) -> None:
        if not shutil.which(self.program):
            raise EmulatorFault(f"there is no {self.program}: Debian's package is qemu-system-x86")
        self.run = Qtest(self.program, sectors, ["-machine", "q35,max-ram-below-4g=2304M", "-m", "2560", "-device", "ide-hd,drive=d0,bus=ide.0"])
        self.configure(0x24, ABAR)  # BAR 5
        self.configure(0x04, 0x6)  # memory space, and bus master

    def configure(self, offset: int, value: int) -> None:
        self.qtest.ask(f"outl 0xcf8 {CONTROLLER | offset:#x}", f"outl 0xcfc {value:#x}")

    def stop(self) -> None:
        if self.run:
            self.run.stop()
        self.run, self.held = None, set()

    def read_memory(self, address: int, length: int) -> bytes:
        return self.read_places([(address, length)])[0]

    def write_memory(self, address: int, data: bytes) -> None:
        self.write_places([(address, data)])

    def read_places(self, places: Sequence[Place]) -> List[bytes]:
        parts = [(address + at, min(PART, length - at)) for address, length in places for at in range(0, length, PART)]
        found = b"".join(map(b64decode, self.qtest.ask(*(f"b64read {address:#x} {length:#x}" for address, length in parts))))
        ends = list(accumulate(length for _, length in places))
        return [found[end - length : end] for end, (_, length) in zip(ends, places)]

    def write_places(self, places: Sequence[Tuple[int, bytes]]) -> None:
        parts = [(address + at, data[at : at + PART]) for address, data in places for at in range(0, len(data), PART)]
        self.qtest.ask(*(f"b64write {address:#x} {len(data):#x} {b64encode(data).decode()}" for address, data in parts))

    def read_register(self, offset: int) -> int:
        return self.read_registers([offset])[0]

    def read_registers(self, offsets: Sequence[int]) -> List[int]:
        return [int(word, 16) for word in self.qtest.ask(*(f"readl {ABAR + offset:#x}" for offset in offsets))]

    def write_register(self, offset: int, value: int) -> None:
        if offset == layout.PX_CI:
            for tag in range(32):
                if value >> tag & 1 and tag not in self.held:
                    self.hold(tag)
        self.qtest.ask(f"writel {ABAR + offset:#x} {value:#x}")

    def hold(self, tag: int) -> None:
        """A breakpoint for the request that a slot's command will make; one that passes the disk's end makes none."""
        place = int.from_bytes(self.read_memory(layout.header_place(tag) + 8, 8), "little") & ~0x7F
        cfis = self.read_memory(place, 16)
        event = {0x60: "read_aio", 0x61: "write_aio"}.get(cfis[2])
        lba = int.from_bytes(cfis[4:7] + cfis[8:11], "little")
        count = int.from_bytes(bytes([cfis[3], cfis[11]]), "little") or 65_536
        if event and lba + count <= len(self.qtest.disk.image) // layout.SECTOR:
            self.qtest.debug_disk(f"break {event} t{tag}")
            self.held.add(tag)

    def let_go(self, tag: int, error: int) -> bool:
        if tag not in self.held:
            return False
        self.held.discard(tag)
        disk = self.qtest.disk
        done, disk.error = disk.done, error
        self.qtest.debug_disk(f"resume t{tag}")
        served = self.qtest.wait_for_disk(done + 1)
        disk.error = 0
        return served

    def complete(self, tag: int) -> bool:
        return self.let_go(tag, 0)

    def complete_together(self, tags: Sequence[int]) -> bool:
        """QEMU completes each by a FIS of its own, also when they end together: the received FIS area has that of the last."""
        for tag in tags:
            if not self.complete(tag):
                return False
            for _ in range(1000):
                if not self.read_register(layout.PX_SACT) >> tag & 1:
                    break
        return True

    def fail(self, tag: int, error: int, lba: int) -> bool:
        return self.let_go(tag, IO_ERROR)  # QEMU makes ABRT of any error, with no LBA

    def sector(self, lba: int) -> Optional[bytes]:
        return bytes(self.qtest.disk.image[lba * layout.SECTOR : (lba + 1) * layout.SECTOR])

    def sectors(self, lba: int, count: int) -> Optional[bytes]:
        return bytes(self.qtest.disk.image[lba * layout.SECTOR : (lba + count) * layout.SECTOR])

    def put_sector(self, lba: int, data: bytes) -> None:
        self.qtest.disk.image[lba * layout.SECTOR : (lba + 1) * layout.SECTOR] = data

    def give_up(self) -> None:
        """QEMU carries outstanding requests on when ST is cleared; here they end with an error, and change nothing."""
        for tag in sorted(self.held):
            self.let_go(tag, IO_ERROR)
            self.settle()

    def way_back(self) -> bool:
        """QEMU's port takes commands again when one that isn't queued has succeeded: a FLUSH CACHE EXT."""
        header, cfis = bytes([5]) + bytes(7) + layout.PLAIN_TABLE.to_bytes(4, "little") + bytes(20), bytes([0x27, 0x80, 0xEA])
        for value in (layout.FRE, layout.FRE | layout.ST):
            self.write_register(layout.PX_CMD, value)
        self.write_memory(layout.header_place(0), header)
        self.write_memory(layout.PLAIN_TABLE, cfis.ljust(128, b"\0"))
        self.write_register(layout.PX_CI, 1)
        for _ in range(1000):
            if not self.read_register(layout.PX_CI):
                return True
        raise EmulatorFault("QEMU doesn't end the FLUSH CACHE EXT that is its way back from an error")

    def settle(self) -> None:
        """QEMU does what it has put off between two of its answers."""
        for _ in range(3):
            self.qtest.ask(f"readl {ABAR:#x}")
