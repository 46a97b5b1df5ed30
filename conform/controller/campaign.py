"""Many programs on one emulator, in one process or several."""
import multiprocessing
import signal
import sys
from multiprocessing.util import Finalize
from typing import Any, Callable, Iterable, Iterator, NamedTuple, Optional, Tuple

from judge.adapter import EmulatorFault

from . import kept
from .adapter import Controller
from .compare import Difference
from .judge import Found, Judged, judge
from .known import Known
from .library import Library
from .program import Hold, Program
from .recorder import Recording, record
from .shrink import shrunk
from .text import TextFault

MOST_SHRINKS = 300
SURVIVES = "survives a reset"


class Given(NamedTuple):
    """A program to be judged, and how reports name it."""

    name: str
    ops: Program


class Result(NamedTuple):
    """A program that was judged, and the smallest one that shows the same, if it was asked for."""

    given: Given
    judged: Judged
    smallest: Optional[Program] = None


def places(judged: Judged) -> Tuple[str, ...]:
    """What is new in a program, by place."""
    return tuple(sorted({it.difference.place for it in judged.new}))


class Worker:
    """An emulator that is started when it is needed, and the model beside it."""

    def __init__(self, make: Callable[[], Controller], known: Known, shrinks: bool = False) -> None:
        self.make, self.known, self.shrinks = make, known, shrinks
        self.emulator: Optional[Controller] = None
        self.model = Library()
        self.model.start()

    def started(self) -> Controller:
        if self.emulator is None:
            self.emulator = self.make()
            try:
                self.emulator.start()
            except BaseException:
                self.stop()
                raise
        return self.emulator

    def stop(self) -> None:
        if self.emulator:
            self.emulator.stop()
        self.emulator = None

    def recorded(self, ops: Program) -> Recording:
        emulator = self.started()
        if any(isinstance(op, Hold) for op in ops) and not emulator.can_hold:
            raise EmulatorFault(f"{emulator.title} can't hold a request, and the program has 'hold'")
        found = record(emulator, ops)
        if found.death:
            self.stop()
        return found

    def judge(self, ops: Program) -> Judged:
        return judge(self.model, self.known, ops, self.recorded(ops))

    def again(self, ops: Program, first: Judged) -> Judged:
        """A new difference is tried again on a fresh emulator: what a program before it has left behind is another find."""
        self.stop()
        second = self.judge(ops)
        if second.end == "new" and places(second) == places(first):
            return second
        difference = Difference(SURVIVES, b"\0", b"\1", b"\1", facts=frozenset(first.facts))
        left = self.known.explain(frozenset(first.facts), difference)
        found = Found(first.operations - 1, left, tuple(name for name, _ in left.excused))
        return second._replace(found=[*second.found, found], end="new" if found.is_new else second.end)

    def one(self, given: Given) -> Result:
        judged = self.judge(given.ops)
        if judged.end != "new":
            return Result(given, judged)
        judged = self.again(given.ops, judged)
        return Result(given, judged, self.smallest(given.ops, judged) if self.shrinks and judged.end == "new" else None)

    def smallest(self, ops: Program, judged: Judged) -> Program:
        wanted = places(judged)
        return shrunk(ops[: judged.operations], lambda it: self.shows(it, wanted), MOST_SHRINKS)

    def shows(self, ops: Program, wanted: Tuple[str, ...]) -> bool:
        judged = self.judge(ops)
        return judged.end == "new" and places(judged) == wanted


_worker: Optional[Worker] = None


def _begin(make: Callable[[], Controller], known: Known, shrinks: bool) -> None:
    global _worker
    signal.signal(signal.SIGINT, signal.SIG_IGN)  # the process that gives the programs ends this one
    signal.signal(signal.SIGTERM, lambda *_: sys.exit(1))
    _worker = Worker(make, known, shrinks)
    Finalize(None, _worker.stop, exitpriority=10)


def _one(given: Given) -> Any:
    assert _worker
    try:
        return _worker.one(given)
    except EmulatorFault as why:
        _worker.stop()
        return why


def results(worker: Tuple[Callable[[], Controller], Known, bool], given: Iterable[Given], jobs: int) -> Iterator[Result]:
    """Each program's result, in their order. EmulatorFault ends it."""
    if jobs == 1:
        one = Worker(*worker)
        try:
            for it in given:
                yield one.one(it)
        finally:
            one.stop()
        return
    with multiprocessing.get_context("fork").Pool(jobs, _begin, worker) as pool:
        for found in pool.imap(_one, given, 4):
            if isinstance(found, EmulatorFault):
                raise found
            yield found
        pool.close()
        pool.join()


def recorded_results(path: str, known: Known) -> Iterator[Result]:
    """The result of each program of a file of recordings. There is no emulator to try anything again on."""
    model = Library()
    model.start()
    try:
        with open(path, encoding="utf-8") as text:
            for name, ops, recording in kept.kept_in(text, path):
                yield Result(Given(name, ops), judge(model, known, ops, recording))
    except OSError as why:
        raise TextFault(f"{path} can't be read: {why.strerror}") from why
    finally:
        model.stop()
