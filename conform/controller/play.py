"""`--play`: a program on an emulator alone, without the model. What a maintainer runs."""
from typing import Iterator, List, Optional

from . import layout
from .adapter import Controller
from .look import Look
from .program import Command, Program
from .recorder import record
from .text import line_of

SHOWN = ("GHC", "IS", "PxIS", "PxIE", "PxCMD", "PxTFD", "PxSIG", "PxSSTS", "PxSERR", "PxSACT", "PxCI")


def changes(was: Optional[Look], now: Look) -> Iterator[str]:
    """The registers that an operation has changed, the line, the FISes, and whether memory and disk have changed."""
    for name in SHOWN:
        value = now.reg(layout.OFFSETS[name])
        if was is None or was.reg(layout.OFFSETS[name]) != value:
            yield f"{name} {value:08x}"
    if was is None:
        return
    if was.line != now.line:
        yield f"interrupt line {int(now.line)}"
    for offset, length, name in layout.FISES:
        before, after = (look.bytes_at(now.area_base + offset, length) for look in (was, now))
        if after is not None and before != after:
            yield f"{name} {after.hex()}"
    if was.disk != now.disk:
        sectors = [lba for lba in range(layout.SECTORS) if was.disk[lba * layout.SECTOR : (lba + 1) * layout.SECTOR] != now.disk[lba * layout.SECTOR : (lba + 1) * layout.SECTOR]]
        yield f"sectors {', '.join(map(str, sectors))} written"


def data_written(was: Look, now: Look, commands: List[Command]) -> Iterator[str]:
    for command in commands:
        for entry in command.entries:
            before, after = (look.bytes_at(entry.address, entry.length) for look in (was, now))
            if before != after and after is not None:
                yield f"data at {entry.address:08x}"


def played(it: Controller, ops: Program) -> Iterator[str]:
    """A line for each operation with what it has changed; the last one says that it died."""
    it.start()
    try:
        found = record(it, ops)
    finally:
        it.stop()
    commands: List[Command] = []
    for at, now in enumerate(found.looks):
        was = found.looks[at - 1] if at else None
        op = ops[at - 1] if at else None
        reported = [] if isinstance(op, Command) else [*changes(was, now), *(data_written(was, now, commands) if was else [])]
        commands += [op] if isinstance(op, Command) else []
        read = [f"answers {now.read:x}"] if now.read is not None else []
        yield f"{at:4}  {line_of(op) if op else 'power-on'}\n        {'; '.join([*read, *dict.fromkeys(reported)]) or 'nothing changes'}"
    if found.death:
        yield f"{len(found.looks):4}  {line_of(ops[len(found.looks) - 1]) if found.looks else 'reset'}\n        {found.death}"
