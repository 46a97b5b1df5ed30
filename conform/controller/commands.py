"""Random commands: header, command FIS and PRDT, in the driver's memory."""
import random
from typing import List, NamedTuple, Optional, Tuple

from . import layout
from .ata import asked
from .program import Command, Entry

KINDS = {
    "clean": ["queued"] * 8 + ["dma"] * 6 + ["pio"] * 3 + ["identify", "identify", "verify", "flush", "features", "power", "native"],
    "all": ["queued"] * 8 + ["dma"] * 6 + ["pio"] * 3 + ["identify", "identify", "verify", "flush", "features", "log", "log", "power", "native", "diagnostic", "packet", "unknown"],
    "errors": ["queued"] * 6 + ["dma"] * 5 + ["pio"] * 4 + ["verify", "packet", "unknown"],
}
CODES = {
    "queued": (0x60, 0x61), "dma": (0xC8, 0xCA, 0x25, 0x35), "pio": (0x20, 0x30, 0x24, 0x34), "verify": (0x40, 0x42), "identify": (0xEC,), "flush": (0xE7, 0xEA),
    "features": (0xEF,), "log": (0x2F,), "power": (0xE5,), "native": (0xF8, 0x27), "diagnostic": (0x90,), "packet": (0xA1,), "unknown": (0x00, 0xB0, 0x06, 0xC4, 0x10, 0x91, 0xFF, 0x47, 0x2F),
}
PAGES = (0xEC, 0x2F, 0x47)
SHORT = (0x20, 0x30, 0x40, 0xC8, 0xCA)  # LBAs of 28 bits
MODES = (0x45, 0x22, 0x0C, 0x08)  # of SET FEATURES 03h
H2D = b"\x27\x80"
READ_LOG = bytes.fromhex("27802f00100000400000000001") + bytes(7)


class Made(NamedTuple):
    command: Command
    queued: bool
    fails: bool  # by the standard
    first: int
    count: int  # type: ignore[assignment]


class Commands:
    """Makes commands, and lays their data."""

    def __init__(self, dice: random.Random) -> None:
        self.dice = dice
        self.low, self.high, self.table = layout.DATA, layout.HIGH_DATA, 0

    def one_in(self, n: int) -> bool:
        return self.dice.randrange(n) == 0

    def room(self, length: int) -> int:
        """Where some bytes of data go: one run after the other, with gaps, a quarter of them above 4 GiB."""
        gap = 2 * self.dice.randrange(8)
        if self.one_in(4) and self.high + length + 64 < layout.HIGH.base + layout.HIGH.bytes:
            at, self.high = self.high + gap, self.high + gap + length + 2 * self.dice.randrange(8)
            return at
        if self.low + length + 64 >= layout.LOW.base + layout.LOW.bytes:
            self.low = layout.DATA
        at, self.low = self.low + gap, self.low + gap + length + 2 * self.dice.randrange(8)
        return at

    def list_of(self, total: int) -> Tuple[Entry, ...]:
        """A PRDT of exactly so many bytes."""
        dice, found, left = self.dice, [], total  # type: Tuple[random.Random, List[Entry], int]
        shape = dice.randrange(6)
        while left:
            length = {0: left, 1: left, 2: 2 * dice.randrange(1, 300), 3: 2 * dice.randrange(1, 300), 4: 512, 5: 2 * dice.choice([1, 1, 2, 3, 255, 256, 257])}[shape]
            length = left if len(found) == 60 else min(left, length)
            found.append(Entry(self.room(length), length, self.one_in(5)))
            left -= length
        dice.shuffle(found)
        return tuple(found)

    def sectors(self, level: str) -> Tuple[int, int]:
        """First sector and count; of the level errors half of them fail."""
        dice = self.dice
        count = dice.choice([1, 1, 1, 2, 3, 8, 16])
        lba = dice.choice([0, 1, dice.randrange(64), dice.randrange(layout.SECTORS - count), layout.SECTORS - count])
        if level == "clean":
            return min(lba, layout.BAD.start - count), count
        if self.one_in(4 if level == "errors" else 14):
            lba, count = dice.choice([(layout.SECTORS, 1), (layout.SECTORS - 1, 2), (0xFFFFFF, 1), (layout.SECTORS + 5, 3)])
        if self.one_in(2 if level == "errors" else 14):
            lba = dice.randrange(layout.BAD.start - 1, layout.BAD.stop)
        return lba, count

    def fis(self, slot: int, kind: str, level: str) -> bytearray:
        dice, fis = self.dice, bytearray(20)
        fis[0:2], fis[2], fis[7] = H2D, dice.choice(CODES[kind]), 0x40
        code = fis[2]
        if kind in ("queued", "dma", "pio", "verify"):
            lba, count = self.sectors(level)
            fis[4:7] = lba.to_bytes(4, "little")[:3]
            fis[12] = count
            if code in SHORT:
                fis[7] |= lba >> 24 & 15
            else:
                fis[8] = lba >> 24 & 255
            if kind == "queued":
                fis[3], fis[12] = count, slot << 3
                fis[7] |= 0x80 if self.one_in(8) else 0  # FUA
        elif kind == "features":
            fis[3], fis[12] = 3, dice.choice(MODES)
        elif code in (0x2F, 0x47):
            fis[4], fis[12] = dice.choice([0x10, 0x10, 0]), 1
        return fis

    def make(self, at: int, slot: int, level: str, kind: Optional[str] = None) -> Made:
        """A command that keeps the rules, for a header at an address."""
        dice = self.dice
        kinds = KINDS["errors" if level == "errors" and not self.one_in(4) else "clean" if level == "clean" else "all"]
        fis = self.fis(slot, kind or dice.choice(kinds), level)
        it = asked(bytes(fis))
        moved = layout.SECTOR * it.count if it.moves else layout.SECTOR if fis[2] in PAGES else 0
        self.table = (self.table + 1) % 8
        tables = layout.HIGH_TABLES if self.one_in(4) else layout.TABLES
        flags = 5 | it.write << 6 | (0x80 if it.kind != "queued" and self.one_in(8) else 0)
        prdbc = dice.choice([0xDEADBEEF, 512, 7]) if self.one_in(3) else 0
        made = Command(at, tables + 0x800 * self.table, bytes(fis), self.list_of(moved), flags, None, prdbc)
        fails = it.first_of(layout.BAD, layout.SECTORS) >= 0 or it.kind == "other" or fis[2] == 0xA1
        return Made(made, it.kind == "queued", fails, it.lba, it.count)

    def spoiled(self, it: Command, wild: bool) -> Command:
        """The command with one of the rules broken, in half of the cases."""
        dice, entries = self.dice, list(it.entries)
        what = dice.randrange(12 if wild else 24)
        if what == 0 and entries:
            entries[-1] = entries[-1]._replace(length=max(2, entries[-1].length - 2 * dice.randrange(1, 200)))
        elif what == 1 and entries:
            del entries[dice.randrange(len(entries)) :]
        elif what == 2:
            entries.append(Entry(self.room(512), 2 * dice.randrange(1, 256)))
        elif what in (3, 5, 6) and entries:
            place = dice.randrange(len(entries))
            address, length, _ = entries[place]
            changed = {3: (layout.NOWHERE + 2 * dice.randrange(200), length), 5: (address | 1, length), 6: (address, max(1, length - 1))}[what]
            entries[place] = Entry(changed[0], changed[1])
        return self.bent(it._replace(entries=tuple(entries)), what)

    def bent(self, it: Command, what: int) -> Command:
        """The same for header and command FIS."""
        dice, fis = self.dice, bytearray(it.fis)
        if what == 4:
            return it._replace(flags=it.flags ^ dice.choice([0x40, 0x20, 0x100, 0x200, 0x400, 0x1000, 1, 2]))
        if what == 7:
            fis[dice.randrange(20)] = dice.randrange(256)
        elif what == 8:
            return it._replace(table=it.table | dice.randrange(128) if dice.randrange(3) else layout.NOWHERE)
        elif what == 9:
            return it._replace(prdtl=dice.choice([0, 1, len(it.entries) + 1]))
        elif what == 10:
            fis[12] = dice.randrange(32) << 3
        elif what == 11:
            return it._replace(reserved=dice.getrandbits(128).to_bytes(16, "little"))
        return it._replace(fis=bytes(fis))
