"""Scripts of `ahci replay` as they are printed, line by line: the commands of the port, and writes of any bytes."""
from __future__ import annotations

import bisect
from typing import BinaryIO, Dict, Iterable, Iterator, List, Tuple

from records import MOST_SECTORS, SECTOR, Wrong

MOST_SCRIPT = 67_108_864  # bytes
LINE_SECTORS = 3  # of a raw line
MOST_COUNT = 65_536  # sectors of a command
MOST_LINES = 200  # comments that say which sectors are where


class Full(Exception):
    """The script would have more bytes than `ahci replay` takes."""


class Places:
    """Where the sectors of a disk are on the disk of a script. A small disk is there as it is. Of a large one the script has the runs of sectors that its commands name, one
    after the other."""

    def __init__(self, sectors: int, spans: Iterable[Tuple[int, int]]) -> None:
        """The spans have a first sector, and the one behind the last; they may overlap."""
        self.end, self.is_large = sectors, sectors > MOST_SECTORS
        self.runs = merged(spans) if self.is_large else [(0, sectors)]
        self.places: List[int] = []  # by run
        total = 0
        for first, end in self.runs:
            self.places.append(total)
            total += end - first
        self.sectors = max(total, 1)  # of the script's disk
        if total > MOST_SECTORS:
            raise Wrong(f"the commands of the stretch name {total} sectors, and the disk of a script has {MOST_SECTORS} at most: a shorter stretch would fit (--from, --to)")

    def of(self, lba: int) -> int:
        """The place of a sector. What is so far behind the disk's end is as far behind that of the script's disk."""
        if lba >= self.end:
            return self.sectors + lba - self.end
        at = bisect.bisect_right(self.runs, (lba, self.end)) - 1
        if at < 0 or lba >= self.runs[at][1]:
            raise Wrong(f"sector {lba} is in no command of the stretch")
        return self.places[at] + lba - self.runs[at][0]

    def all(self) -> Iterator[int]:
        """The sectors of the disk that have a place."""
        for first, end in self.runs:
            yield from range(first, end)

    def comments(self) -> Iterator[str]:
        """What a script of a large disk says of its sectors."""
        if not self.is_large:
            return
        yield f"# a disk of {self.end} sectors, of which this one has those that the commands name"
        for (first, end), place in list(zip(self.runs, self.places))[:MOST_LINES]:
            yield f"# sectors {first}..{end - 1} of the disk are {place}..{place + end - first - 1} here"
        if len(self.runs) > MOST_LINES:
            yield f"# and so on, {len(self.runs) - MOST_LINES} runs of sectors more in the order of the disk"


def merged(spans: Iterable[Tuple[int, int]]) -> List[Tuple[int, int]]:
    """Spans that are in order, and neither overlap nor touch."""
    found: List[Tuple[int, int]] = []
    for first, end in sorted(it for it in spans if it[0] < it[1]):
        if found and first <= found[-1][1]:
            found[-1] = (found[-1][0], max(end, found[-1][1]))
        else:
            found.append((first, end))
    return found


class Script:
    """A script that is printed: what the port is like after its lines."""

    def __init__(self, out: BinaryIO, sectors: int, depth: int) -> None:
        self.out, self.left = out, MOST_SCRIPT - 200
        self.next = 0  # the number of the port's next entry
        self.numbers: Dict[int, int] = {}  # by tag: that of its request
        self.lines: List[bytes] = []  # what is not printed yet: a group is printed whole or not at all
        self.add(f"disk {sectors} {depth}", 0)

    def add(self, line: str, entries: int = 1) -> None:
        self.lines.append(line.encode("ascii") + b"\n")
        self.next += entries

    def print(self) -> None:
        """Prints the lines of a group."""
        text = b"".join(self.lines)
        if len(text) > self.left:
            raise Full
        self.left -= len(text)
        self.out.write(text)
        self.lines = []

    def end(self, why: str) -> None:
        self.lines = []
        self.out.write(f"# {why}\n".encode("ascii"))

    def write(self, tag: int, lba: int, data: memoryview, fua: bool = False) -> None:
        """Issues a write of bytes that have room in a line."""
        self.numbers[tag] = self.next
        if is_uniform(data) and not fua:
            self.add(f"write {tag} {lba} {len(data) // SECTOR} {data[0]:02x}")
            return
        header, window = window_of(tag, lba, data, fua)
        self.add(f"raw {tag} {header.hex()} {window.hex()}")

    def collect(self, tag: int) -> None:
        self.add(f"collect {tag} {self.numbers.pop(tag)}")

    def put(self, tag: int, lba: int, data: memoryview) -> None:
        """Writes bytes of any number by whole commands of a free slot."""
        for at, count in pieces(data):
            self.write(tag, lba + at, data[SECTOR * at:SECTOR * (at + count)])
            self.add(f"accept {tag}")
            self.add(f"serve {tag}")
            self.collect(tag)


def is_uniform(data: memoryview) -> bool:
    return bytes(data).count(data[0]) == len(data)


def window_of(tag: int, lba: int, data: memoryview, fua: bool) -> Tuple[bytes, bytes]:
    """A header, and a command table with one PRDT entry and its data (AHCI 1.3.1, sections 4.2.2 and 4.2.3)."""
    base, sectors = 0x10000000 + 0x04000000 * tag, len(data) // SECTOR
    address = lba.to_bytes(6, "little")
    fis = bytes((0x27, 0x80, 0x61, sectors & 255)) + address[:3] + bytes((0xc0 if fua else 0x40,)) + address[3:] + bytes((sectors >> 8, tag << 3))
    entry = (base + 0x90).to_bytes(4, "little") + bytes(8) + (len(data) - 1).to_bytes(4, "little")
    header = bytes((0x45, 0, 1, 0, 0, 0, 0, 0)) + base.to_bytes(4, "little") + bytes(20)
    return header, fis.ljust(0x80, b"\0") + entry + bytes(data)


def pieces(data: memoryview) -> Iterator[Tuple[int, int]]:
    """How bytes are divided among lines: runs of sectors that are filled with one byte, and up to three others."""
    at, sectors = 0, len(data) // SECTOR
    while at < sectors:
        fill, count = bytes((data[SECTOR * at],)) * SECTOR, 0
        while at + count < sectors and count < MOST_COUNT and data[SECTOR * (at + count):SECTOR * (at + count + 1)] == fill:
            count += 1
        if count == 0:
            count = min(LINE_SECTORS, sectors - at)
        yield at, count
        at += count
