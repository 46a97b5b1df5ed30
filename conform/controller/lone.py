"""`--alone`: programs on the model alone, without an emulator. What may not come is a crash, or a rule of alone.py that the model breaks."""
import concurrent.futures
import concurrent.futures.process
import ctypes
import itertools
import multiprocessing
import random
import time
from typing import Any, Iterable, Iterator, List, NamedTuple, Set

from judge.adapter import EmulatorFault

from . import alone, layout
from .campaign import Given
from .library import Library
from .moment import Moment
from .recorder import do, look_at
from .report import op_text, section_of

NAME_BYTES = 200
BLOCK = 50  # programs that a process takes together


class Broken(NamedTuple):
    """A rule that the model begins to break at an operation."""

    program: str
    operation: str
    rule: str


class Played(NamedTuple):
    programs: int
    operations: int
    broken: List[Broken]


def played(model: Library, given: Given) -> List[Broken]:
    """One program. Both sides of each moment are the model, which serves queued commands in an order of the program's own."""
    order = random.Random(given.name).sample(range(32), 32)
    model.reset(layout.IMAGE)
    for part, data in zip(layout.PARTS, layout.FILLING):
        model.put(part.base, data)
    look = look_at(model, None, None, None)
    it, found, before = Moment(look, look), [], set()  # type: Moment, List[Broken], Set[str]
    for index, op in enumerate(given.ops):
        it.take(op)
        model.log, model.order = [], order
        answer = do(model, op)
        look = look_at(model, look, op, answer)
        it.see(look, look, model.log)
        names = set(alone.broken(it, it.was_model, it.model))
        found += [Broken(given.name, op_text(given.ops, index), name) for name in sorted(names - before)]
        before = names
    return found


# ---- in a process of its own ----

_model = Library()
_name: Any = None  # which program the process plays, for the case that it ends


def _begin(names: List[Any], next_place: Any) -> None:
    global _name
    with next_place.get_lock():
        _name = names[next_place.value]
        next_place.value += 1
    _model.start()


def _block(block: List[Given]) -> Played:
    operations, broken = 0, []  # type: int, List[Broken]
    for given in block:
        _name.value = given.name.encode()[: NAME_BYTES - 1]
        broken += played(_model, given)
        operations += len(given.ops)
    _name.value = b""
    return Played(len(block), operations, broken)


def all_played(programs: Iterable[Given], jobs: int) -> Iterator[Played]:
    """Block by block. EmulatorFault names the programs at which a process has ended."""
    context = multiprocessing.get_context("fork")
    names: List[Any] = [context.Array("c", NAME_BYTES) for _ in range(jobs)]
    next_place = context.Value("i", 0)
    waiting: "List[concurrent.futures.Future[Played]]" = []
    them = iter(programs)
    blocks = iter(lambda: list(itertools.islice(them, BLOCK)), [])
    with concurrent.futures.ProcessPoolExecutor(jobs, context, _begin, (names, next_place)) as pool:
        try:
            for block in blocks:
                waiting.append(pool.submit(_block, block))
                if len(waiting) > 4 * jobs:
                    yield waiting.pop(0).result()
            for it in waiting:
                yield it.result()
        except concurrent.futures.process.BrokenProcessPool as why:
            there = ", ".join(sorted(it.value.decode() for it in names if it.value))
            raise EmulatorFault(f"the library has ended a process, at one of these programs: {there}") from why


def sanitized() -> bool:
    """Whether malloc and free are AddressSanitizer's."""
    return hasattr(ctypes.CDLL(None), "__asan_report_error")


def table(all_of: Iterable[Played]) -> Iterator[str]:
    """What is reported: each rule that is broken, at once, and figures at the end."""
    begun, programs, operations, broken = time.monotonic(), 0, 0, 0
    for it in all_of:
        programs, operations, broken = programs + it.programs, operations + it.operations, broken + len(it.broken)
        for one in it.broken:
            yield f"{one.program}, {one.operation}: the model breaks the rule: {one.rule} (AHCI 1.3.1, section {section_of(f'model: {one.rule}')})"
    seconds = time.monotonic() - begun
    rows = (("programs on the model alone", f"{programs:,}"), ("operations", f"{operations:,}"), ("under AddressSanitizer", "yes" if sanitized() else "no"),
            ("rules that the model breaks", f"{broken:,}"),
            ("seconds", f"{seconds:.1f}"), ("operations a second", f"{operations / max(seconds, 0.001):,.0f}"))
    yield from ("| Alone | |", "|---|---|", *(f"| {name} | {value} |" for name, value in rows))
