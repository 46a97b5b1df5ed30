"""Plays a program on a controller, and looks at it after each operation."""
from typing import List, NamedTuple, Optional

from . import layout
from .adapter import Controller, Died, part_of, put_in
from .look import UNSEEN, Look
from .program import Command, Go, Hold, Memory, Op, Program, Read, Write, put_command


class Recording(NamedTuple):
    """The look after power-on, and one after each operation; and how the emulator died, if it did."""

    looks: List[Look]
    death: str = ""


def do(it: Controller, op: Op) -> Optional[int]:
    """Does an operation. Returns what a read answers."""
    if isinstance(op, Write):
        it.write(op.offset, op.size, op.value)
    elif isinstance(op, Read):
        return it.read(op.offset, op.size)
    elif isinstance(op, Command):
        put_command(lambda address, data: put_in(it, address, data), op)
    elif isinstance(op, Memory):
        put_in(it, op.address, op.data)
    elif isinstance(op, Hold):
        it.hold(op.slot, op.way)
    elif isinstance(op, Go):
        it.go(op.slot)
    return None


def look_at(it: Controller, before: Optional[Look], op: Optional[Op], answer: Optional[int]) -> Look:
    """What is seen after an operation. Of one that only writes memory the registers are those before it."""
    if before is None or isinstance(op, (Write, Go)):
        host, port, line = it.settled(isinstance(op, (Write, Go)))
    else:
        host, port, line = before.host, before.port, before.line
    memory = tuple(part_of(it, part, before.memory[at] if before else None) for at, part in enumerate(layout.PARTS))
    disk = it.disk() if it.sees_disk else UNSEEN
    return Look(host, port, line, memory, before.disk if before and before.disk == disk else disk, answer)


def record(it: Controller, ops: Program) -> Recording:
    looks: List[Look] = []
    try:
        it.reset(layout.IMAGE)
        for part, data in zip(layout.PARTS, layout.FILLING):
            it.put(part.base, data)
        looks.append(look_at(it, None, None, None))
        for op in ops:
            answer = do(it, op)
            looks.append(look_at(it, looks[-1], op, answer))
        if not it.sees_disk:
            looks[-1] = looks[-1]._replace(disk=it.disk())
    except Died as why:
        return Recording(looks, str(why))
    return Recording(looks)
