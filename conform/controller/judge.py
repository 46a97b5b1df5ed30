"""Judges one recorded program: the model is run beside the recording, and where they begin to differ is explained or new."""
import itertools
from typing import Dict, List, NamedTuple, Optional, Sequence, Set, Tuple

from . import alone, layout
from .breaks import Breaches
from .compare import Difference, differences
from .known import Known
from .library import Library
from .look import UNSEEN, Look
from .moment import Moment, written_to
from .partial import marked
from .program import Go, Op, Program, Write
from .recorder import Recording, look_at, do

MOST_RERUNS = 40
MOST_ORDERS = 24


class Found(NamedTuple):
    """A difference at an operation (-1 is power-on), and what explains it."""

    index: int  # type: ignore[assignment]
    difference: Difference
    names: Tuple[str, ...]  # of the entries that explain some of its bits; none: it is new

    @property
    def is_new(self) -> bool:
        return any(self.difference.mask)


class Judged(NamedTuple):
    """What became of a program. `end` is empty, or why the comparison ended before the program did."""

    found: List[Found]
    operations: int
    end: str  # "new", "known NAME", "after RULE"
    harmless: Tuple[str, ...]  # rules that were broken without effect
    facts: Tuple[str, ...] = ()  # of the last operation
    log: Tuple[str, ...] = ()  # what the model did there

    @property
    def new(self) -> List[Found]:
        return [it for it in self.found if it.is_new] if self.end == "new" else []

    @property
    def differs(self) -> bool:
        """Whether it ended at a difference that the list doesn't have: a new one, or one after a rule that the driver broke."""
        return self.end == "new" or self.end.startswith("after ")

    @property
    def names(self) -> Set[str]:
        return {name for it in self.found for name in it.names}


class Beside:
    """The model beside one recording."""

    def __init__(self, model: Library, known: Known, ops: Program, recording: Recording, orders: Dict[int, Sequence[int]]) -> None:
        self.model, self.known, self.ops, self.recording, self.orders = model, known, ops, recording, orders
        self.found: List[Found] = []
        self.choices: List[Tuple[int, Tuple[int, ...]]] = []
        self.breaches = Breaches()
        self.standing: Dict[str, Set[str]] = {"model": set(), "emulator": set()}  # rules that each side breaks now
        self.end = ""

    def run(self) -> Judged:
        model = self.model
        model.reset(layout.IMAGE)
        for part, data in zip(layout.PARTS, layout.FILLING):
            model.put(part.base, data)
        if not self.recording.looks:
            self.die(None)
            return self.judged(None)
        first = look_at(model, None, None, None)
        self.it = Moment(first, with_disk(self.recording.looks[0], first))
        self.compare()
        for index, op in enumerate(self.ops):
            if self.end:
                break
            self.do(index, op)
        return self.judged(self.it)

    def judged(self, it: Optional[Moment]) -> Judged:
        facts = tuple(sorted(it.facts)) if it else ()
        return Judged(self.found, it.index + 1 if it else 0, self.end, tuple(sorted(self.breaches.harmless)), facts, tuple(it.log) if it else ())

    def do(self, index: int, op: Op) -> None:
        it, model = self.it, self.model
        outstanding = sum(look.reg(at) for look in (it.model, it.emulator) for at in (layout.PX_CI, layout.PX_SACT))
        it.take(op)
        self.breaches.take(self.breaches.by(model, op), bool(written_to(op, layout.GHC) & 1), not outstanding)
        model.log, model.order = [], self.orders.get(index) or self.likely(index)
        answer = do(model, op)
        look = look_at(model, it.model, op, answer)
        if isinstance(op, (Write, Go)) and model.choice:
            self.choices.append((index, model.choice))
        if index + 1 >= len(self.recording.looks):
            it.see(look, it.emulator, model.log)
            self.die(it)
            return
        it.see(look, with_disk(self.recording.looks[index + 1], look), model.log)
        self.compare()

    def likely(self, index: int) -> Tuple[int, ...]:
        """The order of completions that the emulator's last Set Device Bits FIS speaks for: its tags come last."""
        looks = self.recording.looks[index + 1 : index + 2]
        fis = looks[0].bytes_at(looks[0].area_base + 0x58, 8) if looks else None
        tags = int.from_bytes(fis[4:8], "little") if fis and fis[0] == 0xA1 else 0
        return tuple(sorted(range(32), key=lambda slot: tags >> slot & 1))

    def die(self, it: Optional[Moment]) -> None:
        text = self.recording.death or "the recording ends"
        self.explain([Difference("the emulator dies", b"\0", b"\1", b"\1", facts=frozenset((text,)))], it)
        self.end = self.end or "known death"

    def compare(self) -> None:
        it = self.it
        self.explain([*(marked(it, found) for found in differences(it)), *self.alone(it)], it)

    def alone(self, it: Moment) -> List[Difference]:
        """The rules that a side begins to break."""
        found = []
        for side, was, now in (("model", it.was_model, it.model), ("emulator", it.was, it.emulator)):
            names = set(alone.broken(it, was, now))
            found += [Difference(f"{side}: {name}", b"\0", b"\1", b"\1") for name in sorted(names - self.standing[side])]
            self.standing[side] = names
        return found

    def explain(self, new: List[Difference], it: Optional[Moment]) -> None:
        left: List[Found] = []
        for difference in new:
            after = self.known.explain(it.facts if it else frozenset(), difference)
            left.append(Found(it.index if it else -1, after, tuple(dict.fromkeys(name for name, _ in after.excused))))
        self.found += left
        names = [name for one in left for name in one.names]
        ending = self.known.ending(names)
        rule = self.breaches.name
        if any(one.is_new for one in left):
            self.end = f"after {rule}" if rule and not is_of_the_model(left) else "new"
        elif ending:
            self.end = f"known {ending}"


def with_disk(seen: Look, model: Look) -> Look:
    """A disk that can't be seen is taken to be the model's, until it is seen."""
    return seen if seen.disk != UNSEEN else seen._replace(disk=model.disk)


def is_of_the_model(found: List[Found]) -> bool:
    """The model itself breaks a rule that is judged alone, which no broken rule of the driver's excuses."""
    return any(one.is_new and one.difference.place.startswith("model: ") for one in found)


def judge(model: Library, known: Known, ops: Program, recording: Recording) -> Judged:
    """The model is run again with other orders of completion, where there is a choice at the first new difference."""
    orders: Dict[int, Sequence[int]] = {}
    beside = Beside(model, known, ops, recording, orders)
    judged = beside.run()
    for _ in range(MOST_RERUNS):
        here = [slots for index, slots in beside.choices if index == judged.operations - 1]
        if not here or not judged.differs:
            break
        better = reordered(model, known, ops, recording, orders, judged, here[-1])
        if better is None:
            break
        beside, judged = better
    return judged


def reordered(model: Library, known: Known, ops: Program, recording: Recording, orders: Dict[int, Sequence[int]], judged: Judged, slots: Tuple[int, ...]) -> Optional[Tuple[Beside, Judged]]:
    """The first order of these slots with which the comparison goes past this operation."""
    index = judged.operations - 1
    for order in itertools.islice(itertools.permutations(slots), MOST_ORDERS):
        if order == orders.get(index):
            continue
        beside = Beside(model, known, ops, recording, {**orders, index: order})
        trial = beside.run()
        if trial.operations > judged.operations or not trial.differs:
            orders[index] = order
            return beside, trial
    return None
