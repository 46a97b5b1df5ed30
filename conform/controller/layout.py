"""Where things are: registers by name, the FISes of the received FIS area, the driver's memory, the disk."""
import random
import struct
from typing import Dict, NamedTuple, Optional, Tuple

SECTOR = 512
SECTORS = 128  # of the disk
BAD = range(96, 100)  # sectors whose reads and writes fail

HOST = {0x00: "CAP", 0x04: "GHC", 0x08: "IS", 0x0C: "PI", 0x10: "VS", 0x14: "CCC_CTL", 0x18: "CCC_PORTS", 0x1C: "EM_LOC", 0x20: "EM_CTL", 0x24: "CAP2", 0x28: "BOHC"}
PORT = {
    0x100: "PxCLB", 0x104: "PxCLBU", 0x108: "PxFB", 0x10C: "PxFBU", 0x110: "PxIS", 0x114: "PxIE", 0x118: "PxCMD", 0x11C: "11C", 0x120: "PxTFD", 0x124: "PxSIG",
    0x128: "PxSSTS", 0x12C: "PxSCTL", 0x130: "PxSERR", 0x134: "PxSACT", 0x138: "PxCI", 0x13C: "PxSNTF", 0x140: "PxFBS", 0x144: "PxDEVSLP", 0x148: "148", 0x14C: "14C",
}
NAMES: Dict[int, str] = {**HOST, **PORT}
OFFSETS: Dict[str, int] = {name: offset for offset, name in NAMES.items()}
HOST_BYTES, PORT_BASE, PORT_BYTES = 0x2C, 0x100, 0x50

GHC, IS = 0x04, 0x08
PX_CLB, PX_CLBU, PX_FB, PX_FBU, PX_IS, PX_IE, PX_CMD, PX_TFD = 0x100, 0x104, 0x108, 0x10C, 0x110, 0x114, 0x118, 0x120
PX_SIG, PX_SSTS, PX_SCTL, PX_SERR, PX_SACT, PX_CI = 0x124, 0x128, 0x12C, 0x130, 0x134, 0x138
ST, FRE, FR, CR = 0x1, 0x10, 0x4000, 0x8000
ERR, DRQ, BSY = 0x01, 0x08, 0x80
DHRS, SDBS, TFES = 0x1, 0x8, 0x40000000
ONES = 0xFFFFFFFF

FISES = ((0x00, 0x1C, "DMA Setup FIS"), (0x20, 0x14, "PIO Setup FIS"), (0x40, 0x14, "D2H Register FIS"), (0x58, 8, "Set Device Bits FIS"))
AREA_BYTES, LIST_BYTES = 0x100, 0x400


class Part(NamedTuple):
    """A part of the driver's memory that is looked at after each operation."""

    base: int
    bytes: int


LOW, HIGH, ZERO = Part(0x01000000, 0x40000), Part(0x100000000, 0x20000), Part(0, 0x1000)
PARTS = (LOW, HIGH, ZERO)
MEMORY = 32 << 20  # bytes of memory from 0 on, and as many from 4 GiB on
LIST, AREA, TABLES, DATA = LOW.base, LOW.base + 0x400, LOW.base + 0x1000, LOW.base + 0x8000
HIGH_LIST, HIGH_AREA, HIGH_TABLES, HIGH_DATA = HIGH.base, HIGH.base + 0x400, HIGH.base + 0x1000, HIGH.base + 0x8000
NOWHERE = 0x20000000  # no memory is there

_NOISE = random.Random(7).getrandbits(8 * 0x40000).to_bytes(0x40000, "little")


def _filled(part: Part, data: int, noise: bytes) -> bytes:
    """Zeros where the command list is, C5h up to the data, and noise where data go: each byte of a run that is not written shows."""
    return (bytes(LIST_BYTES) + b"\xC5" * (data - part.base - LIST_BYTES) + noise)[: part.bytes]


FILLING = (_filled(LOW, DATA, _NOISE), _filled(HIGH, HIGH_DATA, _NOISE[0x1234:]), bytes(ZERO.bytes))
IMAGE = b"".join(bytes([lba, 0xA5]) + _NOISE[lba * SECTOR + 2 : (lba + 1) * SECTOR] for lba in range(SECTORS))


def place(address: int, length: int) -> Optional[int]:
    """Where a run of memory is in a buffer that has the lower part first; None if it is no memory."""
    if 0 <= address and address + length <= MEMORY:
        return address
    if HIGH.base <= address and address + length <= HIGH.base + MEMORY:
        return address - HIGH.base + MEMORY
    return None


def register_at(text: str) -> Optional[int]:
    """The offset that a text such as `PxCMD`, `PxCMD+2` or `1f8` names."""
    name, plus, more = text.partition("+")
    try:
        base = OFFSETS[name] if name in OFFSETS else int(name, 16)
        return base + (int(more, 16) if plus else 0)
    except ValueError:
        return None


def register_name(offset: int) -> str:
    base = offset & ~3
    name = NAMES.get(base, f"{base:03x}")
    return name + (f"+{offset - base}" if offset != base else "")


def words(data: bytes) -> Tuple[int, ...]:
    return struct.unpack(f"<{len(data) // 4}I", data)
