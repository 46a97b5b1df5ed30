"""Reads the records that the block device and `ahci-hba` make (record.h has their format)."""
from __future__ import annotations

import bisect
import mmap
import os
import struct
from typing import Dict, Iterator, List, NamedTuple, Optional, Set, Tuple

SECTOR = 512
PAGE = 4096  # bytes
MOST_SECTORS = 131_072  # of a disk whose parts begin with all of its sectors, and of a script; one that has more is large
HEADER = struct.Struct("<8sIIQQ32x")
ENTRY = struct.Struct("<BBBBIQQ")
MAGIC = b"ahcirec1"
SECTORS, READ, WRITE, ACCEPT, SERVE, FAIL, RECOVER, REISSUE, COLLECT, FLUSH, TRIM, RESET, IDENTIFY, READ_LOG, LOSS, LEFT, ZERO = range(17)
NAMES = ("sectors", "read", "write", "accept", "serve", "fail", "recover", "reissue", "collect", "flush", "trim", "reset", "identify", "read log", "loss", "left", "zero")


class Wrong(Exception):
    """What is wrong with a record, or with what is asked of it."""


class Entry(NamedTuple):
    """One entry: `number` counts from the record's beginning, and is -1 for sectors as the part found them."""
    number: int
    kind: int
    tag: int
    flag: int
    count: int  # type: ignore[assignment]  # also a method of tuples
    lba: int
    time: int
    data: memoryview


def rest_of(kind: int, count: int) -> int:
    """How many bytes an entry has behind it."""
    if kind in (SECTORS, WRITE, LEFT):
        return SECTOR * count
    return (count + 7) // 8 * 8 if kind == SERVE else 0


class Part:
    """One file of a record."""

    def __init__(self, path: str) -> None:
        self.path = path
        with open(path, "rb") as file:
            size = os.fstat(file.fileno()).st_size
            if size < HEADER.size:
                raise Wrong(f"{path}: it ends in its header, at byte {size}")
            self.bytes = mmap.mmap(file.fileno(), 0, access=mmap.ACCESS_READ)
        magic, self.sectors, self.depth, self.first, self.time = HEADER.unpack_from(self.bytes, 0)
        if magic != MAGIC:
            raise Wrong(f"{path}: this is no part of a record")
        self.cut = 0  # bytes of an entry that is not whole, once entries() has come to the end

    def entries(self) -> Iterator[Entry]:
        """The entries that are whole: a killed server may leave a part of one."""
        view, at, size, number = memoryview(self.bytes), HEADER.size, len(self.bytes), self.first
        while at + ENTRY.size <= size:
            kind, tag, flag, zero, count, lba, time = ENTRY.unpack_from(self.bytes, at)
            if kind >= len(NAMES) or zero or tag > 31:
                raise Wrong(f"{self.path}: byte {at}: this is no entry")
            end = at + ENTRY.size + rest_of(kind, count)
            if end > size:
                break
            yield Entry(-1 if kind == SECTORS else number, kind, tag, flag, count, lba, time, view[at + ENTRY.size:end])
            number += kind != SECTORS
            at = end
        self.cut = size - at


class Record:
    """A folder of parts, the oldest first."""

    def __init__(self, folder: str) -> None:
        names = sorted(it for it in os.listdir(folder) if it.startswith("part."))
        if not names:
            raise Wrong(f"{folder}: there is no record")
        self.parts: List[Part] = []
        for name in names:
            try:
                self.parts.append(Part(os.path.join(folder, name)))
            except (Wrong, ValueError):  # a server was killed when it had begun a part
                if name != names[-1] or not self.parts:
                    raise
        self.sectors, self.depth = self.parts[0].sectors, self.parts[0].depth

    def before(self, number: int) -> Part:
        """The last part that begins at or before an entry."""
        found = [it for it in self.parts if it.first <= number]
        if not found:
            raise Wrong(f"entry {number} was dropped: the record begins with entry {self.parts[0].first}")
        return found[-1]

    def entries(self, part: Optional[Part] = None) -> Iterator[Entry]:
        """The entries from a part on (without one, from the oldest on), with the sectors that this part begins with. A later part of a large disk has some that
        no part before it has."""
        at = self.parts.index(part) if part else 0
        yield from self.parts[at].entries()
        for later in self.parts[at + 1:]:
            yield from (it for it in later.entries() if it.kind != SECTORS or self.sectors > MOST_SECTORS)


class Spans:
    """A set of numbers as runs of neighbours: the first one of each, and the one behind its last. A trim of a large disk names more pages than a set has room for."""

    def __init__(self) -> None:
        self.firsts: List[int] = []
        self.ends: List[int] = []

    def add(self, first: int, end: int) -> None:
        at, to = bisect.bisect_left(self.ends, first), bisect.bisect_right(self.firsts, end)  # the runs that the new one overlaps or touches
        if at < to:
            first, end = min(first, self.firsts[at]), max(end, self.ends[to - 1])
        self.firsts[at:to], self.ends[at:to] = [first], [end]

    def __contains__(self, number: int) -> bool:
        at = bisect.bisect_right(self.firsts, number) - 1
        return at >= 0 and number < self.ends[at]

    def runs(self) -> Iterator[Tuple[int, int]]:
        return zip(self.firsts, self.ends)

    def gaps(self, end: int) -> Iterator[Tuple[int, int]]:
        """The runs of other numbers, up to an end."""
        return ((first, last) for first, last in zip([0, *self.ends], [*self.firsts, end]) if first < last)


class Disk:
    """A disk's sectors. Of a large disk those are known whose page a command has named; each of the others is zeros here."""

    def __init__(self, sectors: int) -> None:
        self.sectors, self.is_large = sectors, sectors > MOST_SECTORS
        self.pages: Dict[int, bytearray] = {}  # those in which something was put
        self.known = Spans()  # pages of a large disk

    def put(self, lba: int, data: memoryview) -> None:
        for page, first, part in pieces_of(lba, data):
            if page not in self.pages:
                self.pages[page] = bytearray(PAGE)
            self.pages[page][first:first + len(part)] = part

    def zero(self, lba: int, count: int) -> None:
        """Makes sectors zeros. A page all of which is zeros takes no memory."""
        first, end = SECTOR * lba, SECTOR * (lba + count)
        for page in self.pages_in(lba, count):
            begin, last = max(first - PAGE * page, 0), min(end - PAGE * page, PAGE)
            if last - begin == PAGE:
                del self.pages[page]
            else:
                self.pages[page][begin:last] = bytes(last - begin)

    def pages_in(self, lba: int, count: int) -> List[int]:
        """The pages of some sectors in which something was put."""
        span = range(SECTOR * lba // PAGE, (SECTOR * (lba + count) + PAGE - 1) // PAGE)
        return [it for it in span if it in self.pages] if len(span) < len(self.pages) else sorted(it for it in self.pages if it in span)

    def filled(self, lba: int, count: int) -> List[int]:
        """Those of some sectors that are not all zeros."""
        sectors = range(lba, lba + count)
        return [at for page in self.pages_in(lba, count) for at in range(PAGE // SECTOR * page, PAGE // SECTOR * (page + 1)) if at in sectors and not self.is_blank(at)]

    def get(self, lba: int, count: int = 1) -> bytes:
        first, end = SECTOR * lba, SECTOR * (lba + count)
        found = b"".join(self.page(it) for it in range(first // PAGE, (end + PAGE - 1) // PAGE))
        return found[first % PAGE:first % PAGE + end - first]

    def page(self, number: int) -> bytes:
        return bytes(self.pages.get(number, bytes(PAGE)))

    def is_blank(self, lba: int) -> bool:
        return SECTOR * lba // PAGE not in self.pages or not any(self.get(lba))

    def learn(self, it: Entry) -> None:
        """Takes sectors as a part found them, unless their page is known. That of a command is known from there on."""
        if it.kind == SECTORS:
            for page, first, part in pieces_of(it.lba, it.data):
                if page not in self.known:
                    self.put((PAGE * page + first) // SECTOR, part)
        elif it.kind in (READ, WRITE, ZERO) and self.is_large:
            first, end = self.span_of(it)
            if first < end:
                self.known.add(SECTOR * first // PAGE, (SECTOR * end + PAGE - 1) // PAGE)

    def span_of(self, command: Entry) -> Tuple[int, int]:
        """The first sector of a command, and the one behind its last on the disk: the same if it has none there."""
        end = min(command.lba + command.count, self.sectors)
        return min(command.lba, end), end


def pieces_of(lba: int, data: memoryview) -> Iterator[Tuple[int, int, memoryview]]:
    """The bytes from a sector on by pages: the page, where in it they begin, and they."""
    at, place = 0, SECTOR * lba
    while at < len(data):
        page, first = divmod(place + at, PAGE)
        yield page, first, data[at:at + PAGE - first]
        at += PAGE - first


class State:
    """The disk's sectors, and the commands that are outstanding."""

    def __init__(self, record: Record) -> None:
        self.disk = Disk(record.sectors)
        self.commands: Dict[int, Entry] = {}  # by tag: what issued it; tags in the order in which they were issued
        self.accepted: List[int] = []
        self.held: Set[int] = set()  # a failure has ended their commands
        self.done: Set[int] = set()  # they wait to be collected, or to be recovered
        self.is_halted = False  # a command has failed, and the port has not recovered

    def take(self, it: Entry) -> None:
        """What an entry does."""
        self.disk.learn(it)
        if it.kind in (READ, WRITE):
            self.commands.pop(it.tag, None)
            self.commands[it.tag] = it
        elif it.kind == ACCEPT:
            self.accepted.append(it.tag)
        elif it.kind == SERVE:
            for tag in it.data[:it.count]:
                self.serve(tag)
        elif it.kind == FAIL:
            self.done.add(it.tag)
            self.is_halted = True
            self.accepted = []
            self.held = set(self.commands) - self.done
        elif it.kind == RECOVER:
            self.is_halted = False
        elif it.kind == REISSUE:
            self.held.discard(it.tag)
        elif it.kind == COLLECT:
            self.done.discard(it.tag)
            self.commands.pop(it.tag, None)
        elif it.kind in (RESET, LOSS):
            self.drop()
        elif it.kind == LEFT:
            self.disk.put(it.lba, it.data)
        elif it.kind == ZERO:
            self.disk.zero(it.lba, it.count)

    def drop(self) -> None:
        """A reset, or a loss of power: nothing is outstanding any more."""
        self.commands, self.accepted, self.is_halted = {}, [], False
        self.held.clear()
        self.done.clear()

    def serve(self, tag: int) -> None:
        """A command is carried out."""
        it = self.commands[tag]
        if it.kind == WRITE:
            self.disk.put(it.lba, it.data)
        self.accepted.remove(tag)
        self.done.add(tag)

    def is_between_steps(self) -> bool:
        """Whether a stretch can begin here: no answer waits to be collected, and no failure for its recovery."""
        return not self.done and not self.held


def bounds(record: Record) -> Tuple[int, int, int]:
    """The numbers of the first and of the last entry, and the bytes of a last one that is cut."""
    last = record.parts[0].first - 1
    for last_entry in record.parts[-1].entries():
        last = max(last, last_entry.number)
    if last < record.parts[-1].first:
        last = record.parts[-1].first - 1
    return record.parts[0].first, last, record.parts[-1].cut
