"""A driver program: a list of operations. `text.py` has its text."""
from typing import Callable, List, NamedTuple, Optional, Tuple, Union

FIS_BYTES, TABLE_HEAD = 20, 0x80


class Write(NamedTuple):
    """A register is written."""

    offset: int
    value: int
    size: int = 4


class Read(NamedTuple):
    """A register is read, and the value is compared."""

    offset: int
    size: int = 4


class Memory(NamedTuple):
    """The driver writes bytes into its memory."""

    address: int
    data: bytes


class Entry(NamedTuple):
    """An entry of a PRDT."""

    address: int
    length: int
    interrupt: bool = False


class Command(NamedTuple):
    """A command header at an address, its command table, and the PRDT: they go into memory, and nothing is issued."""

    at: int
    table: int
    fis: bytes
    entries: Tuple[Entry, ...] = ()
    flags: int = 5  # bits 15:0 of the header's first dword
    prdtl: Optional[int] = None  # as many as there are entries
    prdbc: int = 0
    reserved: bytes = bytes(16)  # dwords 4 to 7 of the header

    @property
    def code(self) -> Optional[int]:
        """The command's code; None for a control FIS."""
        return self.fis[2] if self.fis[1] & 0x80 else None

    @property
    def place(self) -> int:
        """Where the command table is."""
        return self.table & ~0x7F


class Hold(NamedTuple):
    """The next read or write of the disk stops there, for the command of this slot."""

    slot: int
    way: str


class Go(NamedTuple):
    """What was held goes on."""

    slot: int


Op = Union[Write, Read, Memory, Command, Hold, Go]
Program = List[Op]


def put_command(put: Callable[[int, bytes], None], it: Command) -> None:
    """Writes a command into memory."""
    entries = len(it.entries) if it.prdtl is None else it.prdtl
    header = (it.flags | entries << 16).to_bytes(4, "little") + it.prdbc.to_bytes(4, "little") + it.table.to_bytes(8, "little") + it.reserved
    put(it.at, header)
    put(it.place, it.fis.ljust(64, b"\0"))
    for at, entry in enumerate(it.entries):
        last = (entry.length - 1) & 0x3FFFFF | entry.interrupt << 31
        put(it.place + TABLE_HEAD + 16 * at, (entry.address & (1 << 64) - 1).to_bytes(8, "little") + bytes(4) + last.to_bytes(4, "little"))
