"""Judges the sectors of a disk that has lost its power, by its record. The rule is that of README.md, "Power loss".

    judge_losses(record, has_cache)             of each loss that the record has
    judge_end(record, has_cache, sector_of)     of sectors that are what a loss after the last entry has left
"""
from __future__ import annotations

from typing import Callable, Dict, FrozenSet, Iterable, Iterator, List, NamedTuple, Optional, Set

from records import COLLECT, FLUSH, LEFT, LOSS, RESET, SECTOR, SERVE, WRITE, ZERO, Entry, Record, State

NONE: FrozenSet[int] = frozenset()


class Write:
    """A write that no flush has come after, or sectors that became zeros. Of a trim the record has no answer, and each of its sectors is kept or lost by itself."""

    def __init__(self, entry: Entry, is_carried_out: bool) -> None:
        self.entry = entry
        self.is_carried_out = is_carried_out  # before the power was lost
        self.is_answered = False

    def touches(self, lba: int) -> bool:
        return self.entry.lba <= lba < self.entry.lba + self.entry.count

    def sector(self, lba: int) -> bytes:
        at = SECTOR * (lba - self.entry.lba)
        if self.entry.kind == ZERO:
            return bytes(SECTOR)
        return bytes(self.entry.data[at:at + SECTOR])


class Way(NamedTuple):
    """How a sector can have come to its bytes: writes that were kept as a whole, and those that were lost as a whole, by their places in the row."""
    kept: FrozenSet[int]
    lost: FrozenSet[int]


class Unflushed:
    """The writes since the last flush, in the order in which they were carried out, and what their sectors had before."""

    def __init__(self, has_cache: bool) -> None:
        self.has_cache = has_cache
        self.writes: List[Write] = []
        self.before: Dict[int, bytes] = {}
        self.by_tag: Dict[int, Write] = {}  # carried out, and not answered

    def take(self, it: Entry, state: State) -> None:
        """What an entry means, before the state takes it."""
        if it.kind == SERVE:
            for tag in it.data[:it.count]:
                self.carry_out(state.commands[tag], state)
        elif it.kind == COLLECT and it.tag in self.by_tag:
            self.by_tag.pop(it.tag).is_answered = True
        elif it.kind == ZERO:
            self.remember(state.disk.filled(it.lba, it.count), state)
            self.writes.append(Write(it, True))
        elif it.kind == FLUSH:
            self.writes, self.before = [], {}
        elif it.kind == RESET:
            self.by_tag = {}

    def carry_out(self, entry: Entry, state: State) -> None:
        if entry.kind != WRITE:
            return
        self.remember(range(entry.lba, entry.lba + entry.count), state)
        self.by_tag[entry.tag] = Write(entry, True)
        self.writes.append(self.by_tag[entry.tag])

    def remember(self, sectors: Iterable[int], state: State) -> None:
        """What the sectors of a write have on the medium, unless an earlier write has touched them. Writes of one list are carried out one after the other. Zeros that become zeros don't
        change."""
        for lba in sectors:
            if lba not in self.before:
                self.before[lba] = state.disk.get(lba)

    def lose(self, state: State) -> None:
        """The power is lost: what was not carried out may have been begun."""
        for entry in state.commands.values():
            if entry.kind == WRITE and entry.tag not in state.done and entry.tag not in state.held and entry.lba + entry.count <= state.disk.sectors:
                self.remember(range(entry.lba, entry.lba + entry.count), state)
                self.writes.append(Write(entry, False))

    def is_certain(self, write: Write) -> bool:
        """Whether a write is on the medium for good: it was answered, and has FUA or there is no cache; zeros are at once if there is none."""
        if write.entry.kind == ZERO:
            return not self.has_cache
        return write.is_answered and (bool(write.entry.flag) or not self.has_cache)

    def ways(self, lba: int, found: bytes) -> Iterator[Way]:
        """The ways in which a sector can have come to its bytes."""
        later: Set[int] = set()  # writes after the one at hand, that have to be lost as a whole
        touching = [at for at, it in enumerate(self.writes) if it.touches(lba)]
        if any(self.writes[at].sector(lba) == found for at in touching if not self.writes[at].is_carried_out):
            yield Way(NONE, NONE)  # it came last, and may have been cut anywhere
        for at in reversed(touching):
            write = self.writes[at]
            if not write.is_carried_out:
                continue
            if write.sector(lba) == found:
                yield Way(frozenset({at} if write.is_answered else ()), frozenset(later))
            if self.is_certain(write):
                return
            if write.is_answered:
                later.add(at)
        if self.before[lba] == found:
            yield Way(NONE, frozenset(later))

    def fault(self, sector_of: Callable[[int], bytes]) -> str:
        """Why the sectors that a loss has left can't be these; "" if they can."""
        choices: List[List[Way]] = []
        for lba in sorted(self.before):
            ways = list(self.ways(lba, sector_of(lba)))
            if not ways:
                return f"sector {lba} has what neither the medium nor any write since the last flush had"
            if not any(not way.kept and not way.lost for way in ways):
                choices.append(ways)
        return "" if can_choose(choices, NONE, NONE) else "some write that was answered is kept in part"


def can_choose(choices: List[List[Way]], kept: FrozenSet[int], lost: FrozenSet[int]) -> bool:
    """Whether one way can be chosen for each sector, so that no write is both kept and lost."""
    while True:
        choices = [[way for way in ways if not way.kept & lost and not way.lost & kept] for ways in choices]
        choices = [ways for ways in choices if not any(way.kept <= kept and way.lost <= lost for way in ways)]
        if not choices:
            return True
        ways = min(choices, key=len)
        if not ways:
            return False
        if len(ways) > 1:
            return any(can_choose(choices, kept | way.kept, lost | way.lost) for way in ways)
        kept, lost = kept | ways[0].kept, lost | ways[0].lost


class Loss(NamedTuple):
    """One that was judged: its entry, how many writes no flush had come after, and what is wrong."""
    number: int
    writes: int
    fault: str


def judge_losses(record: Record, has_cache: bool) -> List[Loss]:
    """Each loss of a record."""
    state, unflushed = State(record), Unflushed(has_cache)
    losses: List[Loss] = []
    under_way: Optional[int] = None
    before: Dict[int, bytes] = {}  # what sectors had that the loss has left otherwise
    for it in record.entries():
        if under_way is not None and it.kind != LEFT:
            losses.append(judged(under_way, unflushed, before, state))
            unflushed, under_way, before = Unflushed(has_cache), None, {}
        if it.kind == LOSS:
            unflushed.lose(state)
            under_way = it.number
        elif it.kind == LEFT:
            before.update({lba: state.disk.get(lba) for lba in range(it.lba, it.lba + it.count)})
        else:
            unflushed.take(it, state)
        state.take(it)
    if under_way is not None:
        losses.append(judged(under_way, unflushed, before, state))
    return losses


def judged(number: int, unflushed: Unflushed, before: Dict[int, bytes], state: State) -> Loss:
    strange = [lba for lba, found in before.items() if lba not in unflushed.before and state.disk.get(lba) != found]
    fault = f"sector {strange[0]} has changed, and no write since the last flush touches it" if strange else unflushed.fault(state.disk.get)
    return Loss(number, len(unflushed.writes), fault)


def judge_end(record: Record, has_cache: bool, sector_of: Callable[[int], bytes]) -> str:
    """What is wrong with sectors that a loss after the last entry has left; "" if nothing is. The record begins with the disk's life."""
    state, unflushed = State(record), Unflushed(has_cache)
    for it in record.entries():
        if it.kind in (LOSS, LEFT):
            unflushed = Unflushed(has_cache)
        else:
            unflushed.take(it, state)
        state.take(it)
    unflushed.lose(state)
    known = [range(8 * first, min(8 * end, record.sectors)) for first, end in state.disk.known.runs()] if state.disk.is_large else [range(record.sectors)]
    strange = [lba for run in known for lba in run if lba not in unflushed.before and sector_of(lba) != state.disk.get(lba)]
    return f"sector {strange[0]} has changed, and no write since the last flush touches it" if strange else unflushed.fault(sector_of)
