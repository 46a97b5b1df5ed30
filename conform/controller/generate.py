"""Random driver programs, by level."""
import random
from typing import Callable, Dict, List, Sequence

from . import layout
from .commands import READ_LOG, Commands, Made
from .layout import GHC, IS, ONES, PX_CI, PX_CLB, PX_CLBU, PX_CMD, PX_FB, PX_FBU, PX_IE, PX_IS, PX_SACT, PX_SCTL, PX_SERR, PX_SIG, PX_SSTS, PX_TFD
from .program import Command, Go, Hold, Memory, Program, Read, Write

LEVELS = {
    "good": "keeps the rules: commands of all kinds, some of them failing, resets, the link, interrupts",
    "clean": "the same, long, and nothing fails",
    "errors": "keeps the rules, and most commands fail: recoveries by ST, by the link, by a software reset, by a reset of the HBA",
    "sloppy": "breaks a rule here and there",
    "wild": "writes anything anywhere",
    "held": "goes on while commands are held in the disk",
    "seldom": "asks what the others hardly ever ask: counts of 0, accesses of 8 bytes, resets that find a status, errors without log 10h",
}
SLOTS = (0, 0, 0, 1, 2, 3, 7, 31)
ENABLED = 0x7840007F
STOPPED, RUNNING = 0x16, 0x17


class Maker:
    """Makes one program."""

    def __init__(self, seed: int, level: str) -> None:
        self.dice = random.Random(f"{seed} {level}")
        self.level = level
        self.lawful = level in ("good", "clean", "errors", "held", "seldom")
        self.ops: Program = []
        self.commands = Commands(self.dice)
        self.list, self.area = layout.LIST, layout.AREA

    # ---- the parts of a program ----

    def write(self, offset: int, value: int, size: int = 4) -> None:
        self.ops.append(Write(offset, value, size))

    def one_in(self, n: int) -> bool:
        return self.dice.randrange(n) == 0

    def begin(self) -> None:
        """A driver's way to a port that runs."""
        dice = self.dice
        if self.one_in(6):
            self.write(GHC, 0x80000001)
        if self.one_in(3):
            self.write(GHC, 0x80000000)
        if self.one_in(4):
            self.list, self.area = layout.HIGH_LIST, layout.HIGH_AREA
        if self.one_in(5):
            self.comreset()
        self.bases()
        self.stop()
        if not self.one_in(4):
            self.write(IS, ONES)
        self.write(PX_IE, dice.choice([ENABLED, ENABLED, 0xFDC000FF, 1, 2, 8, 0x40000000, 0]))
        if not self.one_in(6):
            self.write(GHC, 0x80000002)
        self.write(PX_CMD, RUNNING)

    def bases(self) -> None:
        for offset, value in ((PX_CLB, self.list & ONES), (PX_CLBU, self.list >> 32), (PX_FB, self.area & ONES), (PX_FBU, self.area >> 32)):
            self.write(offset, value)

    def comreset(self) -> None:
        if self.one_in(4):
            self.write(PX_SCTL, 0x304)
        self.write(PX_SCTL, 0x301)
        self.write(PX_SCTL, 0x300)

    def stop(self) -> None:
        """ST is cleared, and what would be in the way of setting it again."""
        self.write(PX_CMD, STOPPED)
        for offset in self.dice.sample([PX_SERR, PX_IS], 2):
            self.write(offset, ONES)

    def recover(self, queued: bool) -> None:
        """One of the ways back from an error (section 6.2.2)."""
        how = self.dice.randrange(8)
        self.stop()
        if how == 0:
            self.write(GHC, 0x80000001)
            self.begin()
            return
        by_link = how < 3 or self.level == "errors" and how < 5
        if by_link:
            self.comreset()
            self.write(PX_SERR, ONES)
        self.write(IS, 1)
        self.write(PX_CMD, RUNNING)
        if queued and not by_link:
            self.command(0, "log", READ_LOG)
            self.write(PX_CI, 1)
        elif self.level == "errors" and self.one_in(4):
            self.software_reset(((4, 0),))

    def command(self, slot: int, kind: str = "", fis: bytes = b"") -> Made:
        made = self.commands.make(self.list + 32 * slot, slot, self.level, kind or None)
        it = made.command._replace(fis=fis) if fis else made.command
        if not self.lawful:
            it = self.commands.spoiled(it, self.level == "wild")
        self.ops.append(it)
        return made

    def issue(self, slots: Sequence[int], queued: bool) -> None:
        bits = sum(1 << slot for slot in slots)
        if queued and (self.lawful or not self.one_in(12)) or not self.lawful and self.one_in(20):
            self.write(PX_SACT, bits)
        self.write(PX_CI, bits)

    def work(self) -> None:
        """One command, or several queued ones: which of two that overlap comes first on the disk is nobody's rule."""
        dice, slots = self.dice, [self.dice.choice(SLOTS)]
        made = [self.command(slots[0])]
        if made[0].queued and (self.level == "errors" or not made[0].fails) and self.one_in(3):
            for slot in dice.sample(range(32), dice.choice([1, 2])):
                if slot in slots:
                    continue
                at = len(self.ops)
                more = self.command(slot, "queued")
                if any(more.first < it.first + it.count and it.first < more.first + more.count for it in made):
                    del self.ops[at:]
                else:
                    slots.append(slot)
                    made.append(more)
        self.issue(slots, made[0].queued)
        if any(it.fails for it in made) and not (self.level == "wild" and self.one_in(3)):
            self.recover(made[0].queued)

    def software_reset(self, ways: Sequence[Sequence[int]]) -> None:
        slot = self.dice.randrange(4)
        for control in self.dice.choice(ways):
            fis = bytearray(20)
            fis[0], fis[15] = 0x27, control
            flags = 5 | (0x500 if control and (self.lawful or not self.one_in(3)) else 0)
            self.ops.append(Command(self.list + 32 * slot, layout.TABLES + 0x800 * slot, bytes(fis), (), flags))
            self.write(PX_CI, 1 << slot)

    def acknowledge(self) -> None:
        for offset in self.dice.sample([PX_IS, IS, PX_SERR], self.dice.randrange(1, 4)):
            self.write(offset, ONES if not self.one_in(4) else self.dice.choice([1, 2, 8, 0x400040, 0x40000000, 0x04000000]))

    def restart(self) -> None:
        """The link, or the engine, is stopped and started."""
        self.stop()
        if self.one_in(2):
            self.comreset()
            self.write(PX_SERR, ONES)
        elif self.one_in(2):
            self.write(PX_CMD, 0x6)
            self.write(PX_CMD, STOPPED)
        self.write(PX_CMD, RUNNING)

    def look_around(self) -> None:
        size = self.dice.choice([1, 2, 4, 8] if self.lawful else [1, 2, 4, 4, 8])
        offset = self.dice.choice([4 * self.dice.randrange(11), 0x100 + 4 * self.dice.randrange(20)])
        self.ops.append(Read(offset if size < 8 else offset & ~7, size))

    # ---- what breaks rules ----

    def odd_moment(self) -> None:
        dice = self.dice
        places = [(PX_CMD, it) for it in (0x16, 0x17, 0x6, 0x7, 0x1F, 0x1E, 0x15, 0, ONES, 0x10000017, RUNNING | 1 << dice.randrange(32))]
        places += [(PX_SCTL, it) for it in (0x301, 0x300, 0x304, 1, 0, 4)] + [(GHC, it) for it in (0x80000001, 0x80000003, 0)]
        places += [(PX_SACT, 1 << dice.randrange(32)), (PX_CI, 1 << dice.randrange(4)), (PX_CLB, self.list & ONES | 0x3FF), (PX_FB, self.area & ONES | 0xFF)]
        places += [(PX_CLB, (self.list & ONES) + 0x400), (PX_FB, (self.area & ONES) + 0x100), (PX_IS, 0), (IS, 0), (PX_SACT, 0), (PX_CI, 0), (PX_TFD, ONES)]
        places += [(PX_SIG, 0), (PX_SSTS, ONES), (0, ONES), (0x0C, 0), (0x10, 0)]
        self.write(*dice.choice(places))

    def odd_access(self) -> None:
        size = self.dice.choice([1, 2, 4, 8])
        offset = self.dice.choice([self.dice.randrange(0x2C), 0x100 + self.dice.randrange(0x50), 0x100 + 4 * self.dice.randrange(20)])
        if self.dice.randrange(3):
            self.ops.append(Read(offset, size))
        else:
            self.odd_write(offset, size)

    def odd_write(self, offset: int, size: int) -> None:
        dice = self.dice
        value = dice.choice([0, ONES, 1 << dice.randrange(32), dice.getrandbits(32)])
        if size == 8:
            value |= dice.choice([0, ONES, 1 << dice.randrange(32)]) << 32
        if PX_CLB <= offset & ~3 <= PX_FBU and dice.randrange(4):
            return  # bases go elsewhere now and then only
        self.write(offset, value & (1 << 8 * size) - 1, size)

    def anything(self) -> None:
        if self.one_in(3):
            self.ops.append(Memory(self.commands.low, self.dice.getrandbits(64).to_bytes(8, "little")))
        else:
            places = [GHC, IS, *(0x100 + 4 * it for it in range(20))]
            self.odd_write(self.dice.choice(places), self.dice.choice([4, 4, 4, 1, 2, 8]))

    def enable(self) -> None:
        if self.lawful or not self.one_in(3):
            self.write(PX_IE, self.dice.choice([0, ONES, 1, 2, 8, 0x40000001, 0x400040, ENABLED]))
        else:
            self.write(PX_IE + self.dice.randrange(4), self.dice.randrange(256), 1)

    # ---- programs ----

    def step(self) -> None:
        what = self.dice.randrange({"sloppy": 30, "wild": 40}.get(self.level, 20))
        ways: List[Sequence[int]] = [(4, 0)] if self.level in ("clean", "errors") else [(4, 0), (4, 0), (4, 4, 0)]
        ways += [] if self.lawful else [(0,)]
        steps: Dict[int, Callable[[], None]] = {
            15: self.enable,
            16: lambda: self.write(GHC, self.dice.choice([0x80000000, 0x80000002, 0x80000002])),
            17: self.look_around, 18: lambda: self.software_reset(ways), 19: self.restart,
        }
        if what < 12:
            self.work()
        elif what < 15:
            self.acknowledge()
        elif what in steps:
            steps[what]()
        elif what < 26:
            self.odd_moment()
        elif what < 30:
            self.odd_access()
        else:
            self.anything()

    def make(self) -> Program:
        if self.lawful or not self.one_in(8):
            self.begin()
        for _ in range(self.dice.randrange(10, 40) if self.level == "clean" else self.dice.randrange(1, 9)):
            self.step()
        return self.ops


class HeldMaker(Maker):
    """Commands that stop in the disk, while the driver goes on."""

    def make(self) -> Program:
        self.begin()
        held: List[int] = []
        for _ in range(self.dice.randrange(1, 4)):
            if not self.hold(held):
                break
        for _ in range(self.dice.randrange(1, 6)):
            self.go_on(held)
        self.ops += [Go(slot) for slot in held]
        return self.ops

    def recover(self, queued: bool) -> None:
        """By ST alone: an emulator may wait in a reset for what is held."""
        self.stop()
        self.write(IS, 1)
        self.write(PX_CMD, RUNNING)

    def hold(self, held: List[int]) -> bool:
        """One more command that is held. False: no other may be issued beside it."""
        slot = self.dice.choice([it for it in (0, 1, 2, 5, 31) if it not in held])
        at = len(self.ops)
        made = self.command(slot, self.dice.choice(["queued", "queued", "queued", "dma"]) if not held else "queued")
        if made.fails:
            del self.ops[at:]
            return True
        it = made.command
        self.ops.append(Hold(slot, "write" if it.flags & 0x40 else "read"))
        held.append(slot)
        self.issue([slot], made.queued)
        return made.queued

    def go_on(self, held: List[int]) -> None:
        dice, what = self.dice, self.dice.randrange(12)
        if what < 3:
            self.write(PX_CMD, STOPPED)
            if self.one_in(2):
                self.write(PX_CMD, RUNNING)
        elif what == 3:
            self.write(PX_CMD, dice.choice([0x06, 0x07, 0x17, 0x1F, 0x1E]))
        elif what < 6 and held:
            slot = dice.choice(held)
            held.remove(slot)
            self.ops.append(Go(slot))
        elif what < 9:
            slot = dice.choice([3, 4, 7, *held])
            made = self.command(slot)
            self.issue([slot], made.queued)
            if made.fails:
                self.recover(made.queued)
        elif what < 11 and held:
            self.write(PX_CI if what == 9 else PX_SACT, 1 << dice.choice(held))
        else:
            self.write(PX_IE, dice.choice([0, ENABLED]))


def program(seed: int, level: str) -> Program:
    from .seldom import SeldomMaker  # which is made of a Maker
    return {"held": HeldMaker, "seldom": SeldomMaker}.get(level, Maker)(seed, level).make()
