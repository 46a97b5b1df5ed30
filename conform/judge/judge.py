"""Judges one script: the model's trace, the emulator line by line, and what differs."""
from contextlib import suppress
from typing import Callable, Dict, List, NamedTuple, Optional, Tuple

from .adapter import Adapter, EmulatorFault
from .compare import Comparer
from .differences import Difference
from .draft import Draft
from .driver import Driver
from .guarded import Guarded
from .known import Known
from .model import Step, Trace
from .scatter import Guest, NoRoom
from .window import Layer


class Way(NamedTuple):
    """How commands lie in the guest's memory: `plain`, `scattered` or `both`, by a seed."""

    pieces: str = "plain"
    seed: str = ""


PLAIN = Way()


class Judged(NamedTuple):
    """What one script gave."""

    name: str
    title: str  # of the emulator
    trace: Trace
    names: List[List[str]]  # of the entries that each line that was played shows
    known: Dict[str, Tuple[int, int]]  # by an entry's name: how often, and the first line
    step: int  # the place in the trace of the line with new differences, or -1
    new: List[Difference]
    end: str = ""  # why it wasn't played to its end, if it wasn't and nothing differs
    blind: Tuple[str, ...] = ()  # what isn't compared, since the adapter offers no way to it

    @property
    def lines(self) -> int:
        return len(self.names)

    @property
    def passed(self) -> bool:
        return not self.new


class Run:
    """One script on one emulator: sorts its differences into those that the list knows and those that are new."""

    def __init__(self, name: str, trace: Trace, adapter: Guarded, known: Known, way: Way, draft: Optional[Draft]) -> None:
        self.name, self.trace, self.known, self.draft = name, trace, known, draft
        self.driver = Driver(adapter, Layer(way.pieces, way.seed, Guest(adapter.guest_memory, adapter.most_entries)), trace.page)
        self.comparer = Comparer(self.driver)
        self.at = -1  # the place in the trace of the line that is played
        self.seen: Dict[str, Tuple[int, int]] = {}
        self.names: List[List[str]] = []

    @property
    def where(self) -> str:
        """The line that is played, in words."""
        if self.at < 0:
            return self.name
        step = self.trace.steps[self.at]
        return f"{self.name}, line {step.number} ({step.line[:60]})"

    def count(self, step: Step, entry: str) -> None:
        times, first = self.seen.get(entry, (0, step.number))
        self.seen[entry] = (times + 1, first)
        self.names[-1] += [entry] if entry not in self.names[-1] else []

    def new_of(self, step: Step, differences: List[Difference]) -> List[Difference]:
        """What of these isn't known. A draft takes all of it, as new entries."""
        new = []
        for difference in differences:
            left = self.known.explain(step, difference)
            if self.draft and any(left.mask):
                left = self.draft.explain(self.name, step, left)
            for entry, _ in left.excused:
                self.count(step, entry)
            if any(left.mask):
                new.append(left)
        return new

    def play(self) -> List[Difference]:
        """Plays the lines, and answers what is new at the first that differs."""
        for self.at, step in enumerate(self.trace.steps):
            self.names.append([])
            new = self.new_of(step, self.driver.play(step) + self.comparer.compare(step))
            if new:
                return new
            self.comparer.go_on(step)
        return self.new_of(self.trace.steps[-1], self.driver.compare_end()) if self.trace.steps else []

    def whole(self) -> Tuple[List[Difference], str]:
        """Plays, and ends the emulator whatever happens; the second is why a script wasn't played to its end."""
        try:
            new, end = self.play(), ""
        except NoRoom as why:
            new, end = [], f"line {self.trace.steps[self.at].number}: {why}"
        except BaseException:
            with suppress(EmulatorFault):
                self.driver.stop()
            raise
        self.driver.stop()
        return new, end


def blind(adapter: Guarded) -> Tuple[str, ...]:
    """What the optional methods that are missing leave out."""
    found = []
    if not adapter.has("sector") and not adapter.has("sectors"):
        found.append("the disk's sectors (the adapter has neither `sector` nor `sectors`)")
    if not adapter.has("complete_together"):
        found.append("one Set Device Bits FIS for several tags (the adapter has no `complete_together`)")
    if not adapter.has("put_sector"):
        found.append("a sector that differs in a known way, from then on (the adapter has no `put_sector`)")
    if not any(address + length > 1 << 32 for address, length in adapter.guest_memory):
        found.append("data above 4 GiB (the adapter's `guest_memory` has none)")
    return tuple(found)


def judge(name: str, trace: Trace, make: Callable[[], Adapter], known: Known, way: Way = PLAIN, draft: Optional[Draft] = None) -> Judged:
    """Plays a script to its end, or to the first line that differs in a way that the list doesn't have."""
    run = None
    try:
        adapter = Guarded(make)
        run = Run(name, trace, adapter, known, way, draft)
        new, end = run.whole()
    except EmulatorFault as why:
        raise EmulatorFault(f"{run.where if run else name}: {why}") from why
    return Judged(name, adapter.title, trace, run.names, run.seen, run.at if new else -1, new, end, blind(adapter))
