"""Rules that are judged on each side alone: both may break one in the same way, and then nothing differs."""
from typing import Callable, Dict, Iterator, List, NamedTuple, Optional

from . import layout
from .compare import interrupt
from .look import Look
from .moment import Issued, Moment, written_to
from .program import Command, Memory


class Seen(NamedTuple):
    """One side of a moment."""

    it: Moment
    was: Look
    now: Look

    @property
    def ran(self) -> bool:
        """ST was 1 before the operation, and is after it."""
        return bool(self.was.reg(layout.PX_CMD) & self.now.reg(layout.PX_CMD) & layout.ST)

    @property
    def controls(self) -> List[Issued]:
        """Control FISes with C that were issued now."""
        return [one for one in self.it.issued if one.asked.kind == "control" and one.command.flags & 0x400 and self.new >> one.slot & 1]

    @property
    def new(self) -> int:
        """The bits of PxCI that are issued now."""
        if "unaligned" in self.it.facts or not self.was.reg(layout.PX_CMD) & layout.ST:
            return 0
        return written_to(self.it.op, layout.PX_CI) & ~self.was.reg(layout.PX_CI)

    @property
    def free(self) -> bool:
        """A command could be taken before the operation: neither BSY, DRQ nor an error, nor one that has halted the port."""
        halted = self.it.halted[0 if self.now is self.it.model else 1]
        return not halted and not self.was.reg(layout.PX_TFD) & (layout.BSY | layout.DRQ | layout.ERR) and not self.was.reg(layout.PX_IS) & 0x79000000

    def changed(self, low: int, high: int) -> bool:
        """Whether the memory between two addresses is another than before."""
        before, after = self.was.bytes_at(low, high - low), self.now.bytes_at(low, high - low)
        return before != after


def line_follows(it: Seen) -> bool:
    return it.now.line == bool(it.now.reg(layout.IS) and it.now.reg(layout.GHC) & 2)


def status_follows(it: Seen) -> bool:
    if "unaligned" in it.it.facts:  # what such an access writes is open
        return True
    return interrupt(it.it, it.now, it.was)[0] == it.now.reg(layout.IS)


def c_clears_issue(it: Seen) -> bool:
    return not it.free or not any(it.now.reg(layout.PX_CI) >> one.slot & 1 for one in it.controls)


def c_clears_busy(it: Seen) -> bool:
    return not it.free or len(it.it.issued) != 1 or not it.controls or not it.now.reg(layout.PX_TFD) & layout.BSY


def busy_takes_nothing(it: Seen) -> bool:
    """BSY or DRQ before and no command that could end it: what is issued now stays in PxCI."""
    if not it.was.reg(layout.PX_TFD) & (layout.BSY | layout.DRQ) or it.was.reg(layout.PX_CI) or it.was.reg(layout.PX_SACT) or "signature" in it.it.facts:
        return True
    return not it.new or bool(it.new & it.now.reg(layout.PX_CI)) or not it.now.reg(layout.PX_CMD) & layout.ST


def stop_clears(it: Seen) -> bool:
    if not it.was.reg(layout.PX_CMD) & layout.ST or it.now.reg(layout.PX_CMD) & layout.ST:
        return True
    return not (it.now.reg(layout.PX_SACT) | it.now.reg(layout.PX_CI) | it.now.reg(layout.PX_CMD) & 0x1F00)


def is_stopped(it: Seen) -> bool:
    return not (it.was.reg(layout.PX_CMD) | it.now.reg(layout.PX_CMD)) & (layout.ST | layout.CR)


def stopped_writes_no_memory(it: Seen) -> bool:
    """After CR is 0 no data and no PRDBC are written; FISes only while FR is 1."""
    if isinstance(it.it.op, (Command, Memory)) or not is_stopped(it) or it.now.memory is it.was.memory:
        return True
    areas = [it.now.area_base, it.was.area_base] if (it.was.reg(layout.PX_CMD) | it.now.reg(layout.PX_CMD)) & layout.FR else []
    return all(_same_outside(before, after, part.base, areas) for part, before, after in zip(layout.PARTS, it.was.memory, it.now.memory))


def _same_outside(before: bytes, after: bytes, base: int, areas: List[int]) -> bool:
    if before is after or before == after:
        return True
    a, b = bytearray(before), bytearray(after)
    for area in areas:
        low = area - base
        if 0 <= low < len(a):
            a[low : low + layout.AREA_BYTES] = b[low : low + layout.AREA_BYTES]
    return a == b


def stopped_writes_no_disk(it: Seen) -> bool:
    return not is_stopped(it) or it.now.disk is it.was.disk or it.now.disk == it.was.disk


def bases_are_aligned(it: Seen) -> bool:
    return not (it.now.reg(layout.PX_CLB) & 0x3FF or it.now.reg(layout.PX_FB) & 0xFF)


def pcs_follows(it: Seen) -> bool:
    status, errors = it.now.reg(layout.PX_IS), it.now.reg(layout.PX_SERR)
    return (status >> 6 & 1, status >> 22 & 1) == (errors >> 26 & 1, errors >> 16 & 1)


def running_follows(it: Seen) -> bool:
    """CR is 0 once ST is, FR once FRE is, and CCS is 0 then."""
    command = it.now.reg(layout.PX_CMD)
    return not (command & layout.CR and not command & layout.ST or command & layout.FR and not command & layout.FRE)


def active_falls_with_a_fis(it: Seen) -> bool:
    """A bit of PxSACT falls by a Set Device Bits FIS that names it, by ST or by a reset (section 3.3.13)."""
    fallen = it.was.reg(layout.PX_SACT) & ~it.now.reg(layout.PX_SACT)
    return not fallen or not it.ran or "write PxSCTL" in it.it.facts or "write GHC" in it.it.facts or not it.now.reg(layout.PX_CMD) & layout.FRE or _named(it, fallen)


def _named(it: Seen, fallen: int) -> bool:
    fis = it.now.bytes_at(it.now.area_base + 0x58, 8)
    return fis is None or fis[0] == 0xA1 and bool(fis[2] & layout.ERR or int.from_bytes(fis[4:8], "little") & fallen)


def absent_while_down(it: Seen) -> bool:
    """While the link is down PxTFD has the value of an absent device (section 3.3.8). CLO may have cleared BSY and DRQ of it."""
    return it.now.reg(layout.PX_SSTS) & 15 not in (0, 4) or it.now.reg(layout.PX_TFD) & 0x77 == 0x77


class Rule(NamedTuple):
    section: str
    holds: Callable[[Seen], bool]


RULES: Dict[str, Rule] = {
    "the interrupt line is IS and GHC.IE": Rule("3.1.2, 10.7", line_follows),
    "IS has the port while an enabled bit of PxIS is 1, and keeps it until it is cleared": Rule("3.1.3", status_follows),
    "C is set and PxCI loses the slot": Rule("4.2.2", c_clears_issue),
    "C is set and BSY is cleared": Rule("4.2.2", c_clears_busy),
    "no command is taken while BSY or DRQ": Rule("5.3.2", busy_takes_nothing),
    "ST is cleared and PxCI, PxSACT and CCS are 0": Rule("3.3.7", stop_clears),
    "no memory is written after CR is 0": Rule("3.3.7", stopped_writes_no_memory),
    "the disk is not written after CR is 0": Rule("3.3.7, 10.3.2", stopped_writes_no_disk),
    "the low bits of PxCLB and PxFB are 0": Rule("3.3.1, 3.3.3", bases_are_aligned),
    "PCS and PRCS are DIAG.X and DIAG.N": Rule("3.3.5, 3.3.12", pcs_follows),
    "CR and FR fall with ST and FRE": Rule("3.3.7", running_follows),
    "PxSACT loses a bit by a Set Device Bits FIS": Rule("3.3.13", active_falls_with_a_fis),
    "PxTFD is 7Fh while the link is down": Rule("3.3.8", absent_while_down),
}


def broken(it: Moment, was: Optional[Look], now: Look) -> Iterator[str]:
    """The rules that a side breaks at a moment."""
    if was is None or it.op is None:
        return
    seen = Seen(it, was, now)
    for name, rule in RULES.items():
        if not rule.holds(seen):
            yield name
