"""A controller on a PCI function, by VFIO: a real one, or an emulator's that a guest has. conform/controller/HARDWARE.md says what it takes.

It is looked at once nothing has changed for a while. The disk can't be seen beside it: it is written before a program and read after it, by the
controller itself, from memory that no program reaches."""
import mmap
import time
from typing import Iterator, Optional, Tuple

from judge.adapter import EmulatorFault

from . import layout
from .adapter import Controller, Died
from .program import Command, Entry, put_command
from .vfio_device import Function

OWN = 0x40000000  # where the function finds the memory by which the disk is written and read
OWN_AREA, OWN_TABLE, OWN_DATA = OWN + 0x400, OWN + 0x1000, OWN + 0x2000
OWN_BYTES = 0x10000
MOST = 64  # sectors of a command
READ, WRITE = 0x25, 0x35  # READ DMA EXT, WRITE DMA EXT
SECONDS = 60.0  # for a link, a command, a stop
QUIET = 0.02  # with nothing changed, no command outstanding
PATIENCE = 1.0  # the same while one is
INTERRUPT = 10.0
AE, HR, CAN_START, STARTED_BITS = 1 << 31, 1, 0x16, 0x17  # GHC; PxCMD: SUD, POD and FRE, and ST with them


class Vfio(Controller):
    title = "a PCI function"
    sees_disk = False

    def __init__(self, function: str) -> None:
        self.function = Function(function)
        self.ram: Optional[mmap.mmap] = None

    def start(self) -> None:
        self.function.open()
        self.ram = mmap.mmap(-1, 2 * layout.MEMORY + OWN_BYTES)
        for at, address, length in ((0, 0, layout.MEMORY), (layout.MEMORY, layout.HIGH.base, layout.MEMORY), (2 * layout.MEMORY, OWN, OWN_BYTES)):
            self.function.map_memory(self.ram, at, address, length)
        self.stuck = (0, 0)

    def stop(self) -> None:
        self.function.close()

    # ---- power-on, and the disk ----

    def reset(self, image: bytes) -> None:
        self.power_on()
        self.begin()
        for first, count in spans():
            if not self.moved(WRITE, first, image[first * layout.SECTOR : (first + count) * layout.SECTOR]):
                raise EmulatorFault(f"sectors {first} to {first + count - 1} of the disk can't be written")
        self.power_on()

    def power_on(self) -> None:
        if not self.function.reset():
            self.write(layout.GHC, 4, HR)
            self.until("GHC.HR is 0", layout.GHC, HR, 0)
        for offset in (layout.PX_CLB, layout.PX_CLBU, layout.PX_FB, layout.PX_FBU):
            self.write(offset, 4, 0)
        self.stuck, self.written = (0, 0), 0

    def begin(self) -> None:
        """Starts the port with lists of its own."""
        self.write(layout.GHC, 4, AE)
        for offset, value in ((layout.PX_CLB, OWN), (layout.PX_FB, OWN_AREA), (layout.PX_SERR, layout.ONES), (layout.PX_CMD, CAN_START)):
            self.write(offset, 4, value)
        self.until("the link is up", layout.PX_SSTS, 15, 3)
        self.until("the disk is ready", layout.PX_TFD, layout.BSY | layout.DRQ, 0)
        self.write(layout.PX_CMD, 4, STARTED_BITS)

    def until(self, what: str, offset: int, bits: int, value: int) -> None:
        end = time.monotonic() + SECONDS
        while self.read(offset, 4) & bits != value:
            if time.monotonic() > end:
                raise Died(f"{layout.register_name(offset)} is {self.read(offset, 4):08x}, and after {SECONDS:.0f} seconds still not: {what}")
            time.sleep(0.001)

    def moved(self, code: int, first: int, data: bytes) -> bool:
        """Whether a command could be carried out. Its data are at OWN_DATA."""
        count = len(data) // layout.SECTOR
        self.put_own(OWN_DATA, data)
        fis = bytes([0x27, 0x80, code, 0, first, 0, 0, 0x40, 0, 0, 0, 0, count, 0, 0, 0, 0, 0, 0, 0])
        put_command(self.put_own, Command(OWN, OWN_TABLE, fis, (Entry(OWN_DATA, len(data)),), 5 | (code == WRITE) << 6))
        self.write(layout.PX_CI, 4, 1)
        end = time.monotonic() + SECONDS
        while self.read(layout.PX_CI, 4) & 1 and not self.read(layout.PX_TFD, 4) & layout.ERR and time.monotonic() < end:
            time.sleep(0.0005)
        return not self.read(layout.PX_CI, 4) & 1 and not self.read(layout.PX_TFD, 4) & layout.ERR

    def disk(self) -> bytes:
        """All sectors. One that can't be read counts as one of the image."""
        self.power_on()
        self.begin()
        found = bytearray(layout.IMAGE)
        for first, count in spans():
            if not self.moved(READ, first, bytes(count * layout.SECTOR)):
                raise Died(f"sectors {first} to {first + count - 1} of the disk can't be read after the program")
            found[first * layout.SECTOR : (first + count) * layout.SECTOR] = self.own(OWN_DATA, count * layout.SECTOR)
        return bytes(found)

    # ---- accesses ----

    def read(self, offset: int, size: int) -> int:
        return self.function.read(offset, size)

    def write(self, offset: int, size: int, value: int) -> None:
        self.written = offset & ~3
        self.function.write(offset, size, value)

    def level(self) -> bool:
        line = self.function.line(INTERRUPT)
        if line is None:
            raise Died(f"PCI's status has INTx asserted, and no interrupt has come within {INTERRUPT:.0f} seconds")
        return line

    @property
    def memory(self) -> mmap.mmap:
        assert self.ram
        return self.ram

    def get(self, address: int, length: int) -> bytes:
        at = layout.place(address, length)
        assert at is not None
        return self.memory[at : at + length]

    def put(self, address: int, data: bytes) -> None:
        at = layout.place(address, len(data))
        assert at is not None
        self.memory[at : at + len(data)] = data

    def own(self, address: int, length: int) -> bytes:
        at = address - OWN + 2 * layout.MEMORY
        return self.memory[at : at + length]

    def put_own(self, address: int, data: bytes) -> None:
        at = address - OWN + 2 * layout.MEMORY
        self.memory[at : at + len(data)] = data

    # ---- rest ----

    def settled(self, moved: bool) -> Tuple[bytes, bytes, bool]:
        """A look after which nothing has changed for a while."""
        last = self.registers()
        if moved:
            last = self.rest(last)
        return (*last, self.level())

    def rest(self, last: Tuple[bytes, bytes]) -> Tuple[bytes, bytes]:
        ignored = self.stuck if self.written != layout.PX_CI else (0, 0)
        memory, since = self.moving(), time.monotonic()
        until = since + SECONDS
        while time.monotonic() < until:
            time.sleep(QUIET / 4)
            now, moving = self.registers(), self.moving()
            if now != last or moving != memory:
                last, memory, since = now, moving, time.monotonic()
            waits = waiting(last[1])
            if time.monotonic() - since > (QUIET if waits in ((0, 0), ignored) else PATIENCE):
                break
        self.stuck = waiting(last[1])
        return last

    def moving(self) -> Tuple[bytes, ...]:
        """The places of data."""
        return self.get(layout.DATA, layout.LOW.base + layout.LOW.bytes - layout.DATA), self.get(layout.HIGH_DATA, layout.HIGH.base + layout.HIGH.bytes - layout.HIGH_DATA)


def waiting(port: bytes) -> Tuple[int, int]:
    """PxSACT and PxCI of a port that runs."""
    sact, issued = layout.words(port[0x34:0x3C])
    return (sact, issued) if port[0x18] & 1 else (0, 0)


def spans() -> Iterator[Tuple[int, int]]:
    """The sectors that can be read and written, as first ones and counts of a command."""
    for low, high in ((0, layout.BAD.start), (layout.BAD.stop, layout.SECTORS)):
        for first in range(low, high, MOST):
            yield first, min(MOST, high - first)
