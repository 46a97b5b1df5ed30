"""One operation of a program on both sides: what was seen before and after it, and what kind of moment it is."""
from typing import Dict, FrozenSet, List, NamedTuple, Optional, Set, Tuple

from . import layout
from .ata import COMMANDS, Asked, asked
from .look import Look
from .program import Command, Go, Hold, Op, Read, Write

SHORT = frozenset(code for code, (_, _, short) in COMMANDS.items() if short)  # LBAs of 28 bits
FATAL = 0x78000000  # TFES, HBFS, HBDS and IFS of PxIS (section 6.2.1)
PIO_IN, PIO_OUT = frozenset((0x20, 0x24, 0xEC, 0x2F)), frozenset((0x30, 0x34))


class Issued(NamedTuple):
    """A command that an operation issues, or that is carried out at it."""

    slot: int
    command: Command
    asked: Asked


class Moment:
    """What the judge knows at an operation. It goes from one operation to the next."""

    def __init__(self, model: Look, emulator: Look) -> None:
        self.index, self.op = -1, None  # type: Tuple[int, Optional[Op]]
        self.was_model: Optional[Look] = None
        self.was: Optional[Look] = None
        self.model, self.emulator = model, emulator
        self.log: List[str] = []
        self.commands: List[Command] = []
        self.at: Dict[int, Command] = {}  # by the address of the header
        self.lists: Set[int] = {0}
        self.areas: Set[int] = {0}
        self.issued: List[Issued] = []
        self.in_reset = False  # the last control FIS had SRST 1
        self.reset_again = self.reset_alone = False
        self.taken = 0  # slots that were issued and that PxCI or PxSACT still has
        self.issued_again = 0
        self.held: Set[int] = set()  # slots whose requests stop in the disk
        self.left: Set[int] = set()  # those of them whose commands were dropped since
        self.queue_failed = False  # a queued command has failed, and log 10h was not read since
        self.halted = self.halts = (False, False)  # the model, the emulator: a fatal error has come since ST was set; before this operation, and after it
        self.facts: FrozenSet[str] = frozenset(("power-on",))
        self.note_bases()

    def take(self, op: Op) -> None:
        """An operation that is about to be done."""
        self.index += 1
        self.op, self.was_model, self.was, self.log = op, self.model, self.emulator, []
        self.halted = self.halts
        if isinstance(op, Command):
            self.commands.append(op)
            self.at[op.at] = op
        if isinstance(op, Hold):
            self.held.add(op.slot)
        if isinstance(op, Go):
            self.held.discard(op.slot)
            self.left.discard(op.slot)

    def see(self, model: Look, emulator: Look, log: List[str]) -> None:
        """What came of it."""
        self.model, self.emulator, self.log = model, emulator, log
        self.halts = (halts(self.halted[0], model), halts(self.halted[1], emulator))
        self.note_bases()
        self.issued = [] if isinstance(self.op, Read) else self.find_issued()
        for it in self.issued:
            if it.asked.kind == "control":
                now = bool(it.command.fis[15] & 4)
                self.reset_again, self.reset_alone, self.in_reset = now and self.in_reset, not now and not self.in_reset, now
        written = written_to(self.op, layout.PX_CI)
        self.issued_again = written & self.taken
        self.taken = (self.taken | written) & (model.reg(layout.PX_CI) | model.reg(layout.PX_SACT) | emulator.reg(layout.PX_CI) | emulator.reg(layout.PX_SACT))
        facts = facts_of(self)
        self.left |= self.held if "stops" in facts else set()
        self.facts = frozenset(facts | ({"queue failed"} if self.queue_failed else set()))
        if "model fails" in facts:
            self.queue_failed |= "queued" in facts
        elif facts & {"signature", "resets", "write PxSCTL", "command 2F", "command 47"}:
            self.queue_failed = False

    def note_bases(self) -> None:
        for look in (self.model, self.emulator):
            self.lists.add(look.list_base)
            self.areas.add(look.area_base)
            self.areas.add(look.reg(layout.PX_FB) | look.reg(layout.PX_FBU) << 32)

    def find_issued(self) -> List[Issued]:
        assert self.was and self.was_model
        bits = written_to(self.op, layout.PX_CI)
        for before, after in ((self.was, self.emulator), (self.was_model, self.model)):
            bits |= before.reg(layout.PX_CI) & ~after.reg(layout.PX_CI)
        if isinstance(self.op, Go):
            bits |= 1 << self.op.slot
        base = self.was.list_base
        slots = [slot for slot in range(32) if bits >> slot & 1 and base + 32 * slot in self.at]
        return [Issued(slot, self.at[base + 32 * slot], asked(self.at[base + 32 * slot].fis)) for slot in slots]

    @property
    def codes(self) -> Set[int]:
        return {it.command.fis[2] for it in self.issued if it.asked.kind != "control"}


def written_to(op: Optional[Op], offset: int) -> int:
    """The bits that an operation writes to a register."""
    if not isinstance(op, Write) or not op.offset - 4 < offset < op.offset + op.size:
        return 0
    return (op.value << 8 * op.offset >> 8 * offset if op.offset >= offset else op.value >> 8 * (offset - op.offset)) & layout.ONES


def facts_of(it: Moment) -> Set[str]:
    """What is true of a moment, in words that covers of a list name."""
    return {*access_facts(it), *state_facts(it), *command_facts(it)}


def access_facts(it: Moment) -> Set[str]:
    op = it.op
    if isinstance(op, Write):
        found = {f"write {layout.NAMES.get(at & ~3, 'elsewhere')}" for at in range(op.offset, op.offset + op.size)}
        if op.offset % op.size:
            found.add("unaligned")
        if op.size != 4:
            found.add(f"access of {op.size}")
        return found
    if isinstance(op, Read):
        return {"read", *(["unaligned"] if op.offset % op.size else [])}
    if isinstance(op, Go):
        return {"go", *([] if it.log else ["nothing left"])}
    return {type(op).__name__.lower()}


def state_facts(it: Moment) -> Set[str]:
    assert it.was and it.was_model
    before, after = it.was_model.reg(layout.PX_CMD) & layout.ST, it.model.reg(layout.PX_CMD) & layout.ST
    found = {"started" if before else "stopped"}
    for name, holds in (
        ("starts", after > before), ("stops", after < before), ("link down", it.model.reg(layout.PX_SSTS) & 15 != 3),
        ("signature", "sign" in it.log or signs(it.was, it.emulator) or signs(it.was_model, it.model)),
        ("unsigned", it.model.reg(layout.PX_SIG) == layout.ONES), ("old error", it.was.reg(layout.PX_TFD) & layout.ERR), ("resets", isinstance(it.op, Write) and written_to(it.op, layout.GHC) & 1),
        ("model fails", fails(it.was_model, it.model)), ("emulator fails", fails(it.was, it.emulator)),
        ("model waits", it.model.reg(layout.PX_TFD) & (layout.BSY | layout.DRQ)), ("busy", is_busy(it)),
    ):
        if holds:
            found.add(name)
    return found


def halts(before: bool, now: Look) -> bool:
    """A fatal error stops a port until ST is cleared, also if its bit of PxIS is cleared before (section 6.2.2)."""
    return bool(now.reg(layout.PX_CMD) & layout.ST) and (before or bool(now.reg(layout.PX_IS) & FATAL))


def is_busy(it: Moment) -> bool:
    """Whether BSY or DRQ was 1 on both sides before a command was issued, and the model takes none."""
    assert it.was and it.was_model
    before = it.was.reg(layout.PX_TFD) & it.was_model.reg(layout.PX_TFD) & (layout.BSY | layout.DRQ)
    return bool(before and written_to(it.op, layout.PX_CI) and not any(step.startswith("fetch") for step in it.log))


def fails(was: Look, now: Look) -> bool:
    """Whether an error has come: a bit of PxIS, or an ERR in PxTFD that was not there in this form."""
    task = now.reg(layout.PX_TFD)
    return bool(now.reg(layout.PX_IS) & ~was.reg(layout.PX_IS) & FATAL or task & layout.ERR and task & 0x77 != 0x77 and task != was.reg(layout.PX_TFD))


def signs(was: Look, now: Look) -> bool:
    """Whether a D2H Register FIS with the signature of a disk has come into the area."""
    place = now.area_base + 0x40
    fis, before = now.bytes_at(place, 20), was.bytes_at(place, 20)
    return fis is not None and fis != before and fis[:1] + fis[3:7] + fis[12:13] == b"\x34\x01\x01\x00\x00\x01"


def command_facts(it: Moment) -> Set[str]:
    found: Set[str] = set()
    for _, command, wants in it.issued:
        found |= {wants.kind, "control" if wants.kind == "control" else f"command {command.fis[2]:02X}"}
        found |= {"C"} if command.flags & 0x400 else set()
        found |= {"reserved in the FIS"} if command.fis[1] & 0x70 else set()
        if wants.kind == "control":
            found |= {"SRST" if command.fis[15] & 4 else "no SRST"}
            continue
        failing = wants.first_of(layout.BAD, layout.SECTORS)
        found |= {"pio in"} if command.fis[2] in PIO_IN else {"pio out"} if command.fis[2] in PIO_OUT else set()
        found |= {"writes"} if wants.write else set()
        found |= {"past the end"} if wants.lba + wants.count > layout.SECTORS else set()
        found |= {"bad sector"} if failing in layout.BAD else set()
        found |= {"no list"} if command.prdtl == 0 or not (command.entries or command.prdtl) else set()
        found |= {"no LBA bit"} if wants.count and not command.fis[7] & 0x40 else set()
        found |= {"28 bits"} if command.fis[2] in SHORT else set()
        found |= {"reserved count"} if command.fis[13] and command.fis[2] in (*SHORT, 0xEF) else set()
    if len(it.issued) > 1:
        found.add("several")
    if it.reset_again and "SRST" in found:
        found.add("SRST again")
    if it.reset_alone and "no SRST" in found:
        found.add("no SRST before")
    if any(one.slot in it.held for one in it.issued):
        found.add("in flight")
    if it.left and it.issued:
        found.add("left in the disk")
    if it.issued_again:
        found.add("slot in use")
    return found
