"""What differs at a line: a place, its expected bytes, those that were got, and which bits aren't the same."""
from typing import List, NamedTuple, Tuple

from . import layout


class Difference(NamedTuple):
    place: str  # a register, a FIS, `data of tag 3`, `disk, sector 9`, `identify word 49`, ..
    expected: bytes  # a register's word has its high byte first
    got: bytes
    mask: bytes  # the bits that differ and aren't explained yet
    note: str = ""
    excused: Tuple[Tuple[str, bytes], ...] = ()  # entries of the list, and the bits that each explains

    @property
    def names(self) -> List[str]:
        return layout.fields_of(self.place, self.mask)

    def without(self, entry: str, bits: bytes) -> "Difference":
        """The same, where an entry explains some bits."""
        return self._replace(mask=bytes(a & ~b for a, b in zip(self.mask, bits)), excused=(*self.excused, (entry, bits)))


def differs(expected: bytes, got: bytes) -> bytes:
    """The bits that aren't the same, over the longer of both."""
    size = max(len(expected), len(got))
    before, after = expected.ljust(size, b"\0"), got.ljust(size, b"\0")
    return (int.from_bytes(before, "little") ^ int.from_bytes(after, "little")).to_bytes(size, "little")


def masked(value: bytes, mask: bytes) -> bytes:
    return bytes(a & b for a, b in zip(value.ljust(len(mask), b"\0"), mask))
