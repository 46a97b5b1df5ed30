"""What the disk should hold, and which of its sectors don't."""
from typing import Dict, Iterator, List, Sequence, Tuple

from .adapter import Adapter
from .layout import SECTOR
from .window import Window

WHOLE = 1024  # a disk of so many sectors is compared as a whole after each line that may change it
AROUND = 8  # of a larger one the sectors of the command, and so many on both sides


class Image:
    """The sectors as the completed writes left them."""

    def __init__(self, sectors: int) -> None:
        self.count = sectors
        self.data = bytearray(sectors * SECTOR)
        self.written: List[range] = []
        self.reported: Dict[int, bytes] = {}  # sectors that differ since an earlier line, as they were then

    def sector(self, lba: int) -> bytes:
        return bytes(self.data[lba * SECTOR : (lba + 1) * SECTOR])

    def effect(self, window: Window) -> bytes:
        """What a command does: the disk is changed, or its bytes at this moment are read."""
        first, end = window.lba * SECTOR, (window.lba + window.sectors) * SECTOR
        if window.write:
            self.data[first:end] = window.text
            self.written.append(range(window.lba, window.lba + window.sectors))
        return bytes(self.data[first:end])

    def near(self, lba: int, count: int) -> List[range]:
        """What is looked at after a command: of a large disk also those sectors to which a part of the LBA would lead."""
        if self.count <= WHOLE:
            return [range(self.count)]
        firsts = ((lba, count), (0, 1), (self.count - 1, 1), (lba & 0xFF, 1), (lba & 0xFFFF, 1))
        return [range(max(0, at - AROUND), min(self.count, at + many + AROUND)) for at, many in firsts]

    def all(self, fast: bool) -> List[range]:
        """What is looked at at a script's end: everything, or of a large disk that is slow what was written, and the sectors around it."""
        if fast or self.count <= 4096:
            return [range(self.count)]
        return [range(max(0, it.start - AROUND), min(self.count, it.stop + AROUND)) for it in self.written]

    def apart(self, adapter: Adapter, ranges: Sequence[range]) -> Iterator[Tuple[int, bytes]]:
        """The sectors that differ now and didn't, or not in this way, when they were last looked at."""
        for sectors in merged(ranges):
            got = adapter.sectors(sectors.start, len(sectors))
            if got is None:
                return
            if got == self.data[sectors.start * SECTOR : sectors.stop * SECTOR] and not self.reported:
                continue
            for at, lba in enumerate(sectors):
                there = got[at * SECTOR : (at + 1) * SECTOR]
                if there == self.sector(lba):
                    self.reported.pop(lba, None)
                elif self.reported.get(lba) != there:
                    self.reported[lba] = there
                    yield lba, there


def merged(ranges: Sequence[range]) -> List[range]:
    """The same sectors, each once."""
    found: List[range] = []
    for it in sorted(ranges, key=lambda it: it.start):
        if found and it.start <= found[-1].stop:
            found[-1] = range(found[-1].start, max(found[-1].stop, it.stop))
        elif len(it):
            found.append(it)
    return found
