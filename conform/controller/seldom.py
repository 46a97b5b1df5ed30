"""Random programs of the level `seldom`: what the standard asks of a controller, and the other levels ask of it hardly ever."""
from typing import Sequence

from . import layout
from .ata import COMMANDS, asked
from .commands import READ_LOG
from .generate import ENABLED, RUNNING, SLOTS, STOPPED, Maker
from .layout import GHC, IS, ONES, PX_CI, PX_CLB, PX_CLBU, PX_CMD, PX_FB, PX_FBU, PX_IS, PX_SACT, PX_SCTL, PX_SERR
from .program import Command, Entry, Program

SPARE, SPARE_BYTES = 0x00400000, 4 << 20  # memory that isn't looked at
SEEN_BYTES = layout.SECTORS * layout.SECTOR
CLO = 0x8
CHANGES = (1 << 16, 1 << 18, 1 << 26)  # DIAG.N, W and X


class SeldomMaker(Maker):
    """Makes one program. It keeps the rules, but for a command before log 10h is read, and for its last operations, which write low bits of the bases."""

    def make(self) -> Program:
        self.begin()
        for _ in range(self.dice.randrange(1, 4)):
            self.dice.choice((self.count_of_0, self.reset_with_status, self.override, self.error_in_the_queue, self.by_8_bytes, self.bit_by_bit))()
        if self.one_in(4):
            self.low_bits()
        return self.ops

    def put(self, slot: int, code: int, lba: int, count: int, entries: Sequence[Entry]) -> bool:
        """A command of sectors in a slot. True: it is queued."""
        fis = bytearray(20)
        fis[0:2], fis[2], fis[4:7], fis[7] = b"\x27\x80", code, lba.to_bytes(3, "little"), 0x40
        queued = code in (0x60, 0x61)
        fis[3 if queued else 12] = count
        fis[12] |= slot << 3 if queued else 0
        flags = 5 | asked(bytes(fis)).write << 6
        self.ops.append(Command(self.list + 32 * slot, layout.TABLES + 0x200 * slot, bytes(fis), tuple(entries), flags))
        return queued

    def zeros(self) -> None:
        """A 0 changes no bit of these."""
        for offset in self.dice.sample([PX_CI, PX_SACT, PX_IS, IS, PX_SERR], 3):
            self.write(offset, 0)

    # ---- what a program does ----

    def count_of_0(self) -> None:
        """A count of 0 is 256 sectors, or 65,536: more than the disk has behind its bad sectors."""
        code, slot = self.dice.choice((0x20, 0x30, 0x40, 0xC8, 0xCA, 0x24, 0x34, 0x42, 0x25, 0x35, 0x60, 0x61)), self.dice.choice(SLOTS)
        queued = self.put(slot, code, self.dice.randrange(layout.BAD.stop, layout.SECTORS), 0, self.entries_of_0(code))
        self.issue([slot], queued)
        if COMMANDS[code][1] != "pio":  # QEMU does the command again then, and that takes a while
            self.zeros()
        self.recover(queued)

    def entries_of_0(self, code: int) -> Sequence[Entry]:
        """A PRDT for all of them. What may have moved before the disk's end lies where it is looked at."""
        if COMMANDS[code][1] == "verify":
            return ()
        found, left = [Entry(layout.DATA, SEEN_BYTES)], (256 if COMMANDS[code][2] else 65_536) * layout.SECTOR - SEEN_BYTES
        while left:
            found.append(Entry(SPARE, min(left, SPARE_BYTES)))
            left -= found[-1].length
        return found

    def reset_with_status(self) -> None:
        """A reset of the HBA that finds something in each register."""
        slot = self.dice.choice(SLOTS)
        made = self.command(slot, self.dice.choice(["identify", "flush", "features"]))
        self.issue([slot], made.queued)
        if self.one_in(2):
            self.write(PX_CMD, STOPPED)
            self.write(PX_SCTL, 0x310)
        self.write(GHC, 0x80000003)
        self.begin()

    def override(self) -> None:
        """CLO clears BSY and DRQ, which an absent device has."""
        self.stop()
        self.write(PX_SCTL, self.dice.choice([0x301, 0x304]))
        self.write(PX_CMD, STOPPED | CLO)
        self.write(PX_SCTL, 0x301)
        self.write(PX_SCTL, 0x300)
        self.bit_by_bit()
        self.write(PX_CMD, RUNNING)

    def error_in_the_queue(self) -> None:
        """After it the disk aborts each command, until log 10h is read or a reset comes."""
        slot, lba = self.dice.choice(SLOTS), self.dice.choice(layout.BAD)
        self.issue([slot], self.put(slot, self.dice.choice((0x60, 0x61)), lba, 1, [Entry(layout.DATA, layout.SECTOR)]))
        if self.one_in(2):
            self.zeros()
        self.stop()
        self.write(IS, 1)
        self.write(PX_CMD, RUNNING)
        how = self.dice.randrange(3)
        if how == 0:
            self.software_reset(((4, 0),))
        elif how == 1:
            self.issue([slot], self.put(slot, self.dice.choice((0x60, 0xC8, 0x25)), self.dice.randrange(64), 1, [Entry(layout.DATA, layout.SECTOR)]))
            self.stop()
            self.write(PX_CMD, RUNNING)
        if how:
            self.command(0, "log", READ_LOG)
            self.write(PX_CI, 1)
        slot = self.dice.choice(SLOTS)
        self.issue([slot], self.put(slot, self.dice.choice((0x60, 0xC8)), self.dice.randrange(64), 1, [Entry(layout.DATA, layout.SECTOR)]))

    def by_8_bytes(self) -> None:
        """Two registers by one access (section 3)."""
        self.stop()
        self.write(PX_CMD, 0x6)
        self.write(PX_CLB, self.list, 8)
        self.write(PX_FB, self.area, 8)
        self.write(PX_IS, ONES | self.dice.choice([ENABLED, 1, 8]) << 32, 8)
        self.write(PX_CMD, STOPPED)
        self.write(PX_CMD, RUNNING, 8)
        slot = self.dice.choice(SLOTS)
        self.put(slot, 0x60, self.dice.randrange(64), 1, [Entry(layout.DATA, layout.SECTOR)])
        self.write(PX_SERR, 1 << 32 + slot, 8)  # and PxSACT
        self.write(PX_CI, 1 << slot, 8)

    def bit_by_bit(self) -> None:
        """A 1 clears its own bit of PxSERR."""
        for bit in self.dice.sample(CHANGES, 3):
            self.write(PX_SERR, bit)

    def low_bits(self) -> None:
        """The low bits of the bases are 0, whatever is written."""
        self.stop()
        self.write(PX_CMD, 0x6)
        for offset, value in ((PX_CLB, self.list & ONES | 0x3FF), (PX_CLBU, self.list >> 32), (PX_FB, self.area & ONES | 0xFF), (PX_FBU, self.area >> 32)):
            self.write(offset, value)
