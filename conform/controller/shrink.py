"""Makes a program smaller while it shows the same."""
from typing import Callable, Iterator, List, Sequence

from . import layout
from .program import Command, Entry, Op, Program, Write

ONE_PLACE = layout.DATA + 0x18000  # where the data of a command with one entry go


def shrunk(ops: Program, holds: Callable[[Program], bool], budget: int = 200) -> Program:
    """`holds` says whether a program shows what it should. It is asked `budget` times at most."""
    left = [budget]

    def ok(it: Program) -> bool:
        left[0] -= 1
        return left[0] >= 0 and holds(it)

    ops = shorter(ops, ok, left)
    for at in range(len(ops)):
        for _ in range(6):
            better = next((it for it in simpler(ops[at]) if ok([*ops[:at], it, *ops[at + 1 :]])), None)
            if better is None:
                break
            ops = [*ops[:at], better, *ops[at + 1 :]]
    return shorter(ops, ok, left)  # a simpler operation may need fewer others


def shorter(ops: Program, ok: Callable[[Program], bool], left: Sequence[int]) -> Program:
    """Without operations that aren't needed: halves, quarters, .., single ones."""
    size = max(1, len(ops) // 2)
    while size and left[0] > 0:
        at, changed = len(ops) - size, False
        while at > -size:
            low = max(0, at)
            it = ops[:low] + ops[low + size :]
            if len(it) < len(ops) and ok(it):
                ops, changed = it, True
            at -= size
        if size > 1 or not changed:
            size //= 2
    return ops


def simpler(op: Op) -> Iterator[Op]:
    """The same operation with less in it."""
    if isinstance(op, Write):
        yield from simpler_write(op)
    elif isinstance(op, Command):
        yield from simpler_command(op)


def simpler_write(op: Write) -> Iterator[Op]:
    if op.size != 4 and not op.offset % 4:
        yield Write(op.offset, op.value & layout.ONES)
    top = 1 << (op.value.bit_length() - 1) if op.value else 0
    tried: List[int] = []
    for value in (0, 1, op.value & 0xFF, op.value & 0x11, top):
        if bin(value).count("1") < bin(op.value).count("1") and value not in tried:
            tried.append(value)
            yield op._replace(value=value)


def simpler_command(op: Command) -> Iterator[Op]:
    if any(op.reserved):
        yield op._replace(reserved=bytes(16))
    if op.prdbc:
        yield op._replace(prdbc=0)
    if op.prdtl is not None:
        yield op._replace(prdtl=None)
    if op.flags not in (5, 0x45):
        yield op._replace(flags=op.flags & 0x40 | 5)
    if len(op.entries) > 1:
        yield op._replace(entries=(Entry(ONE_PLACE, sum(it.length for it in op.entries)),))
        yield op._replace(entries=op.entries[:-1])
    if len(op.entries) == 1 and op.entries[0] != Entry(ONE_PLACE, op.entries[0].length):
        yield op._replace(entries=(Entry(ONE_PLACE, op.entries[0].length),))
    if op.table & 0x7F == 0 and op.table != layout.TABLES + (op.table & 0x3800):
        yield op._replace(table=layout.TABLES + (op.table & 0x3800))
