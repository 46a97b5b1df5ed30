"""What can be seen of a controller at one moment."""
from typing import NamedTuple, Optional, Tuple

from . import layout

UNSEEN = b""  # a disk that can't be seen at this moment


class Look(NamedTuple):
    """Registers, the interrupt line, the driver's memory, the disk; and what a read answered."""

    host: bytes
    port: bytes
    line: bool
    memory: Tuple[bytes, ...]  # as layout.PARTS
    disk: bytes
    read: Optional[int] = None

    def reg(self, offset: int) -> int:
        part, at = (self.host, offset) if offset < layout.PORT_BASE else (self.port, offset - layout.PORT_BASE)
        return int.from_bytes(part[at : at + 4], "little")

    def bytes_at(self, address: int, length: int) -> Optional[bytes]:
        """A run of the memory that is looked at; None if it isn't all there."""
        for part, data in zip(layout.PARTS, self.memory):
            if part.base <= address and address + length <= part.base + part.bytes:
                return data[address - part.base : address - part.base + length]
        return None

    @property
    def list_base(self) -> int:
        return (self.reg(layout.PX_CLB) | self.reg(layout.PX_CLBU) << 32) & ~0x3FF

    @property
    def area_base(self) -> int:
        return (self.reg(layout.PX_FB) | self.reg(layout.PX_FBU) << 32) & ~0xFF
