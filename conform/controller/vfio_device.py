"""A PCI function by Linux's VFIO: its registers, memory that it can reach, and its interrupt. Nothing is needed but Python and /dev/vfio."""
import ctypes
import fcntl
import mmap
import os
import select
import struct
from typing import Dict, Optional, Tuple, Type, Union

from judge.adapter import EmulatorFault

# the calls of <linux/vfio.h>: _IO(';', 100 + number)
CHECK_EXTENSION, SET_IOMMU, GROUP_STATUS, SET_CONTAINER, GET_DEVICE = 0x3B65, 0x3B66, 0x3B67, 0x3B68, 0x3B6A
DEVICE_INFO, REGION_INFO, SET_IRQS, RESET, MAP_DMA = 0x3B6B, 0x3B6C, 0x3B6E, 0x3B6F, 0x3B71
TYPE1V2 = 3  # the kind of IOMMU
VIABLE, CAN_RESET, CAN_MAP = 1, 1, 4
BAR5, CONFIGURATION = 5, 7  # regions
INTX = 0  # an index of interrupts
UNMASK, EVENT = 0x01 | 0x10, 0x04 | 0x20  # no data and unmask; an eventfd and trigger
COMMAND, STATUS = 4, 6  # of the configuration space
MEMORY_AND_MASTER = 0x6
ASSERTED = 1 << 3  # Interrupt Status (PCI 3.0, section 6.2.3)
NONBLOCKING, CLOSED_AT_EXEC = 0o4000, 0o2000000  # of eventfd
Word = Union[ctypes.c_uint8, ctypes.c_uint16, ctypes.c_uint32, ctypes.c_uint64]
WORDS: Dict[int, Type[Word]] = {1: ctypes.c_uint8, 2: ctypes.c_uint16, 4: ctypes.c_uint32, 8: ctypes.c_uint64}


class Function:
    """A PCI function that is bound to vfio-pci, as 0000:03:00.0."""

    def __init__(self, name: str) -> None:
        self.name = name
        self.container = self.group = self.device = self.event = -1
        self.bar: Optional[mmap.mmap] = None

    def open(self) -> None:
        try:
            group = os.path.basename(os.readlink(f"/sys/bus/pci/devices/{self.name}/iommu_group"))
        except OSError as why:
            raise EmulatorFault(f"there is no PCI function {self.name} behind an IOMMU: {why.strerror}") from why
        try:
            self.attach(f"/dev/vfio/{group}")
            self.map_registers()
            self.event = ctypes.CDLL(None, use_errno=True).eventfd(0, NONBLOCKING | CLOSED_AT_EXEC)
            self.set_irqs(EVENT, struct.pack("i", self.event))
        except OSError as why:
            raise EmulatorFault(f"VFIO refuses {self.name} (group {group}): {why.strerror}; conform/controller/HARDWARE.md says what it needs") from why

    def attach(self, path: str) -> None:
        """The function's group in a container with an IOMMU."""
        self.container, self.group = os.open("/dev/vfio/vfio", os.O_RDWR), os.open(path, os.O_RDWR)
        if not fcntl.ioctl(self.container, CHECK_EXTENSION, TYPE1V2):
            raise EmulatorFault("VFIO has no IOMMU of type 1, version 2")
        status = struct.unpack("II", fcntl.ioctl(self.group, GROUP_STATUS, struct.pack("II", 8, 0)))
        if not status[1] & VIABLE:
            raise EmulatorFault(f"not every function of {path} is bound to vfio-pci")
        fcntl.ioctl(self.group, SET_CONTAINER, struct.pack("i", self.container))
        fcntl.ioctl(self.container, SET_IOMMU, TYPE1V2)
        self.device = fcntl.ioctl(self.group, GET_DEVICE, bytearray(self.name.encode() + b"\0"))  # of a bytearray ioctl returns the call's own answer

    def region(self, index: int) -> Tuple[int, int, int]:
        """Flags, size and place of a region of the device's file."""
        _, flags, _, _, size, at = struct.unpack("IIIIQQ", fcntl.ioctl(self.device, REGION_INFO, struct.pack("IIIIQQ", 32, 0, index, 0, 0, 0)))
        return flags, size, at

    def map_registers(self) -> None:
        flags, self.bytes, at = self.region(BAR5)
        if not flags & CAN_MAP:
            raise EmulatorFault(f"BAR 5 of {self.name} can't be mapped")
        self.bar = mmap.mmap(self.device, self.bytes, offset=at)
        self.configuration = self.region(CONFIGURATION)[2]

    def close(self) -> None:
        for file in (self.event, self.device, self.group, self.container):
            if file >= 0:
                os.close(file)
        self.container = self.group = self.device = self.event = -1
        self.bar = None

    def map_memory(self, memory: mmap.mmap, at: int, address: int, length: int) -> None:
        """Lets the function reach a part of a buffer, at an address of its own."""
        begin = ctypes.addressof(ctypes.c_char.from_buffer(memory, at))
        try:
            fcntl.ioctl(self.container, MAP_DMA, struct.pack("IIQQQ", 32, 3, begin, address, length))
        except OSError as why:
            raise EmulatorFault(f"VFIO can't map {length:#x} bytes at {address:#x}: {why.strerror}") from why

    # ---- accesses ----

    def word(self, offset: int, size: int) -> Word:
        """A word of BAR 5. Reading or writing its value is one access of this size: ctypes copies it by one instruction."""
        assert self.bar
        return WORDS[size].from_buffer(self.bar, offset)

    def read(self, offset: int, size: int) -> int:
        return self.word(offset, size).value if offset + size <= self.bytes else 0

    def write(self, offset: int, size: int, value: int) -> None:
        if offset + size <= self.bytes:
            self.word(offset, size).value = value

    # ---- power-on, and the interrupt ----

    def reset(self) -> bool:
        """Resets the function, by whatever Linux knows for it. False: it knows nothing."""
        _, flags, _, _ = struct.unpack("IIII", fcntl.ioctl(self.device, DEVICE_INFO, struct.pack("IIII", 16, 0, 0, 0)))
        can = bool(flags & CAN_RESET)
        if can:
            fcntl.ioctl(self.device, RESET)
        os.pwrite(self.device, struct.pack("<H", MEMORY_AND_MASTER), self.configuration + COMMAND)
        return can

    def set_irqs(self, flags: int, data: bytes = b"") -> None:
        fcntl.ioctl(self.device, SET_IRQS, struct.pack("IIIII", 20 + len(data), flags, INTX, 0, 1) + data)

    def line(self, seconds: float) -> Optional[bool]:
        """Whether INTx is asserted. None: it is by the status of PCI, and within these seconds no interrupt has come."""
        status = struct.unpack("<H", os.pread(self.device, 2, self.configuration + STATUS))[0]
        if status & ASSERTED:
            return True if select.select([self.event], [], [], seconds)[0] else None
        self.take_event()
        self.set_irqs(UNMASK)
        return False

    def take_event(self) -> None:
        try:
            os.read(self.event, 8)
        except BlockingIOError:
            pass  # there was none
