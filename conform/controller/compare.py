"""Where the two sides begin to differ at an operation."""
from typing import Callable, FrozenSet, Iterator, List, NamedTuple, Optional, Set, Tuple

from . import layout
from .look import Look
from .moment import Moment, written_to
from .program import Read

MOST_PLACES = 60
SHOWN = 64  # bytes of a place that a difference has


class Difference(NamedTuple):
    """A place whose bytes begin to differ."""

    place: str  # a register, a FIS, `data`, `disk`, ..
    expected: bytes  # a register's word has its high byte first
    got: bytes
    mask: bytes  # the bits that begin to differ, and that nothing explains yet
    at: Optional[int] = None  # an address, or a sector
    facts: FrozenSet[str] = frozenset()
    excused: Tuple[Tuple[str, bytes], ...] = ()

    def without(self, entry: str, bits: bytes) -> "Difference":
        return self._replace(mask=bytes(a & ~b for a, b in zip(self.mask, bits)), excused=(*self.excused, (entry, bits)))


def word(place: str, expected: int, got: int, bits: int) -> Difference:
    return Difference(place, expected.to_bytes(4, "big"), got.to_bytes(4, "big"), bits.to_bytes(4, "big"))


def registers(it: Moment) -> Iterator[Difference]:
    """All registers but IS, which follows from the emulator's own."""
    for base, expected, got, expected_was, got_was in (
        (0, it.model.host, it.emulator.host, it.was_model and it.was_model.host, it.was and it.was.host),
        (layout.PORT_BASE, it.model.port, it.emulator.port, it.was_model and it.was_model.port, it.was and it.was.port),
    ):
        if expected == got or (expected, got) == (expected_was, got_was):
            continue
        olds = zip(layout.words(expected_was), layout.words(got_was)) if expected_was and got_was else [(0, 0)] * len(expected)
        for at, (one, other, (one_was, other_was)) in enumerate(zip(layout.words(expected), layout.words(got), olds)):
            bits = (one ^ other) & ~(one_was ^ other_was)
            if bits and base + 4 * at != layout.IS:
                yield word(layout.NAMES[base + 4 * at], one, other, bits)


def interrupt(it: Moment, now: Look, was: Optional[Look]) -> Tuple[int, bool]:
    """IS and the line as they follow from a side's own registers (AHCI 1.3.1, sections 3.1.3 and 10.7)."""
    latched = was.reg(layout.IS) & ~written_to(it.op, layout.IS) if was and not written_to(it.op, layout.GHC) & 1 else 0
    status = latched & 1 | bool(now.reg(layout.PX_IS) & now.reg(layout.PX_IE))
    return status, bool(status and now.reg(layout.GHC) & 2)


def interrupts(it: Moment) -> Iterator[Difference]:
    """IS and the interrupt line, where they begin not to follow."""
    status, line = interrupt(it, it.emulator, it.was)
    got = it.emulator.reg(layout.IS)
    if status != got:
        yield word("IS", status, got, status ^ got)
    line = line_of(it.emulator)
    if line != it.emulator.line and (it.was is None or (line, it.emulator.line) != (line_of(it.was), it.was.line)):
        yield word("interrupt line", int(line), int(it.emulator.line), 1)


def line_of(look: Look) -> bool:
    """The line as it follows from IS and GHC.IE."""
    return bool(look.reg(layout.IS) and look.reg(layout.GHC) & 2)


def answer(it: Moment) -> Iterator[Difference]:
    """A read has to be the bytes that the registers have; where these differ that has been reported already."""
    if not isinstance(it.op, Read) or it.model.read == it.emulator.read:
        return
    for look in (it.model, it.emulator):
        if look.read != own_bytes(look, it.op):
            expected, got = it.model.read or 0, it.emulator.read or 0
            yield Difference("read", expected.to_bytes(8, "big"), got.to_bytes(8, "big"), (expected ^ got).to_bytes(8, "big"))
            return


def own_bytes(look: Look, op: Read) -> Optional[int]:
    part, at = (look.host, op.offset) if op.offset < layout.PORT_BASE else (look.port, op.offset - layout.PORT_BASE)
    return int.from_bytes(part[at : at + op.size], "little") if not op.offset % op.size and at + op.size <= len(part) else None


# ---- memory ----

def place_of(address: int, it: Moment) -> Tuple[str, int, int]:
    """What is at an address: its name, where that begins, and how long it is."""
    for area in sorted(it.areas, reverse=True):
        if area <= address < area + layout.AREA_BYTES:
            for offset, length, name in layout.FISES:
                if area + offset <= address < area + offset + length:
                    return name, area + offset, length
            return "rest of the FIS area", area, layout.AREA_BYTES
    for base in it.lists:
        if base <= address < base + layout.LIST_BYTES:
            return ("PRDBC" if 4 <= (address - base) % 32 < 8 else "command header"), address & ~3, 4
    for command in it.commands:
        if command.place <= address < command.place + 0x80:
            return "command table", command.place, 0x80
    for command in reversed(it.commands):
        for entry in command.entries:
            if entry.address <= address < entry.address + entry.length:
                return "data", entry.address, entry.length
    return "memory beside", address & ~15, 16


Olds = Optional[Tuple[bytes, bytes]]


def differing(expected: bytes, got: bytes, olds: Olds = None, steps: Tuple[int, ...] = (8192, 256, 1), low: int = 0, high: int = -1) -> Iterator[int]:
    """Where two parts differ, and did not differ in the same way before: by blocks, then within them."""
    high = len(expected) if high < 0 else high
    for at in range(low, high, steps[0]):
        span = slice(at, min(at + steps[0], high))
        one, other = expected[span], got[span]
        if one == other or olds and one == olds[0][span] and other == olds[1][span]:
            continue
        if steps[0] == 1:
            yield at
        else:
            yield from differing(expected, got, olds, steps[1:], at, span.stop)


def memory(it: Moment) -> Iterator[Difference]:
    reported: Set[Tuple[str, int]] = set()
    for part, base in enumerate(layout.PARTS):
        expected, got = it.model.memory[part], it.emulator.memory[part]
        olds = (it.was_model.memory[part], it.was.memory[part]) if it.was_model and it.was else None
        if expected == got or olds and expected is olds[0] and got is olds[1]:
            continue
        for at in differing(expected, got, olds):
            name, begin, length = place_of(base.base + at, it)
            if (name, begin) not in reported:
                reported.add((name, begin))
                yield run(name, expected, got, olds, (begin - base.base, length, begin))
            if len(reported) > MOST_PLACES:
                return


def run(name: str, expected: bytes, got: bytes, olds: Olds, where: Tuple[int, int, int]) -> Difference:
    """A run of memory, with the bits that begin to differ."""
    low, length, address = where
    if name == "data":
        end = low + length
        first = next(at for at in differing(expected[max(0, low) : end], got[max(0, low) : end]))
        low, length = max(0, low) + first // 16 * 16, min(SHOWN, length - first // 16 * 16)
    span = slice(max(0, low), low + length)
    mask = bytearray(a ^ b for a, b in zip(expected[span], got[span]))
    for at in range(len(mask)):
        if olds and olds[0][span][at] == expected[span][at] and olds[1][span][at] == got[span][at]:
            mask[at] = 0
    a, b = expected[span], got[span]
    return Difference(name, a[::-1] if name == "PRDBC" else a, b[::-1] if name == "PRDBC" else b, bytes(mask[::-1] if name == "PRDBC" else mask), address)


def disk(it: Moment) -> Iterator[Difference]:
    """Each sector of the disk that begins to differ."""
    expected, got = it.model.disk, it.emulator.disk
    if expected == got or it.was and it.was_model and expected is it.was_model.disk and got is it.was.disk:
        return
    for lba in range(layout.SECTORS):
        span = slice(lba * layout.SECTOR, (lba + 1) * layout.SECTOR)
        if expected[span] == got[span]:
            continue
        if it.was and it.was_model and (it.was_model.disk[span], it.was.disk[span]) == (expected[span], got[span]):
            continue
        a, b = expected[span][:SHOWN], got[span][:SHOWN]
        yield Difference("disk", a, b, b"\xff" * SHOWN, lba)


PARTS: Tuple[Callable[[Moment], Iterator[Difference]], ...] = (registers, interrupts, answer, memory, disk)


def differences(it: Moment) -> List[Difference]:
    return [found for part in PARTS for found in part(it)]
