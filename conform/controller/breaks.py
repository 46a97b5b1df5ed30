"""Which rules for drivers a program has broken: those of the library (`ahci_hba_write_breaks`, `ahci_command_breaks`, ..), asked before each write."""
from typing import Callable, Iterator, Optional, Set, Tuple

from . import library  # finds the library's package
from . import layout
from .moment import written_to
from .program import Op, Write

from ahci import Refused, Rule, command_breaks, entry_breaks, length_breaks

R = Rule
# the standard says what a controller does after them, or that they are without effect
HARMLESS = {
    R.START_WITH_RECEIVING, R.INTERRUPT_NOT_CLEARED, R.RESERVED_BITS, R.RESERVED_HEADER, R.LIST_TOO_LONG, R.START_WITH_ERRORS, R.START_WITH_SERR,
    R.ENABLE_OVER_STATUS, R.SPEED_ABOVE_INTERFACE, R.POWER_WITHOUT_CAPABILITY, R.PREFETCH_WITH_QUEUE, R.RESET_FLAGS, R.RESERVED_FIS, R.RESERVED_ENTRY,
    R.LIST_UNALIGNED, R.AREA_UNALIGNED,
}
OF_WRITES = [it for it in R if it <= R.RESERVED_BITS or R.LIST_UNALIGNED <= it <= R.QUEUE_WITHOUT_CAPABILITY or it == R.SLOT_ABOVE_LIST]
OF_COMMANDS = [it for it in R if R.FIS_LENGTH <= it <= R.TABLE_UNALIGNED or R.PREFETCH_WITH_QUEUE <= it <= R.RESERVED_FIS]
OF_ENTRIES = [R.ODD_ADDRESS, R.EVEN_COUNT, R.RESERVED_ENTRY]
OF_LENGTHS = [R.LIST_TOO_SHORT, R.LIST_TOO_LONG]
COMMAND_RULES = {it.name for it in (*OF_COMMANDS, *OF_ENTRIES, *OF_LENGTHS, R.SLOT_USED_AGAIN)} | {"NO_MEMORY"}
MOST_ENTRIES = 300
BY_ONES = (layout.IS, layout.PX_IS, layout.PX_SERR, layout.PX_SACT, layout.PX_CI)  # writing 1 clears or sets


def holds(ask: Callable[[], bool]) -> bool:
    """Whether a rule is broken; one that the library doesn't ask there isn't."""
    try:
        return ask()
    except Refused:
        return False


def by_write(it: "library.Library", op: Op) -> Set[str]:
    """The rules that an operation is about to break, harmless ones among them."""
    if not isinstance(op, Write):
        return set()
    if op.offset % op.size:
        return {"ODD_ACCESS"}
    found: Set[str] = set()
    for offset, value in whole_words(it, op):
        found |= {rule.name for rule in OF_WRITES if holds(lambda: it.it.write_breaks(rule, offset, value))}
        if offset == layout.PX_CI:
            found |= by_commands(it, value)
    return found


def whole_words(it: "library.Library", op: Write) -> Iterator[Tuple[int, int]]:
    """The words that a write changes. Of a part of a word the other bytes are as they are, or 0 where writing 1 clears or sets."""
    if op.size >= 4:
        for offset in range(op.offset, op.offset + op.size, 4):
            yield offset, op.value >> 8 * (offset - op.offset) & layout.ONES
        return
    base, shift = op.offset & ~3, 8 * (op.offset & 3)
    rest = 0 if base in BY_ONES else it.read(base, 4) & ~((1 << 8 * op.size) - 1 << shift)
    yield base, rest | op.value << shift


def by_commands(it: "library.Library", value: int) -> Set[str]:
    new, active = value & ~it.read(layout.PX_CI, 4), it.read(layout.PX_SACT, 4)
    base = (it.read(layout.PX_CLB, 4) | it.read(layout.PX_CLBU, 4) << 32) & ~0x3FF
    found: Set[str] = set()
    for slot in range(32):
        if new >> slot & 1:
            found |= by_command(it, slot, bool(active >> slot & 1), run(it, base + 32 * slot, 32))
    return found


def run(it: "library.Library", address: int, length: int) -> Optional[bytes]:
    return None if layout.place(address, length) is None else it.get(address, length)


def by_command(it: "library.Library", slot: int, active: bool, header: Optional[bytes]) -> Set[str]:
    table = int.from_bytes(header[8:16], "little") & ~0x7F if header else 0
    fis = run(it, table, 20) if header else None
    return by_read_command(it, slot, active, header, fis, table) if header and fis else {"NO_MEMORY"}


def by_read_command(it: "library.Library", slot: int, active: bool, header: bytes, fis: bytes, table: int) -> Set[str]:
    found = {rule.name for rule in OF_COMMANDS if holds(lambda: command_breaks(rule, slot, active, header, fis))}
    total = 0
    for entry in entries(it, table + 0x80, header[2] | header[3] << 8):
        if entry is None:
            return found | {"NO_MEMORY"}
        length, read = (int.from_bytes(entry[12:16], "little") & 0x3FFFFF) + 1, entry
        if layout.place(int.from_bytes(entry[:8], "little"), length) is None:
            return found | {"NO_MEMORY"}
        total += length
        found |= {rule.name for rule in OF_ENTRIES if holds(lambda: entry_breaks(rule, read))}
    return found | {rule.name for rule in OF_LENGTHS if holds(lambda: length_breaks(rule, fis, total))}


def entries(it: "library.Library", at: int, count: int) -> Iterator[Optional[bytes]]:
    for number in range(min(count, MOST_ENTRIES)):
        yield run(it, at + 16 * number, 16)


class Breaches:
    """The rules that have been broken, and after which the standard leaves a controller free."""

    def __init__(self) -> None:
        self.armed = 0  # bits of PxSACT whose command isn't issued yet
        self.lasting: Set[str] = set()
        self.of_commands: Set[str] = set()
        self.harmless: Set[str] = set()

    def by(self, it: "library.Library", op: Op) -> Set[str]:
        """The rules that an operation is about to break. The library alone doesn't know whether PxSACT has a slot of now or of before."""
        found = by_write(it, op)
        issued = written_to(op, layout.PX_CI)
        if issued & it.read(layout.PX_SACT, 4) & ~self.armed & ~it.read(layout.PX_CI, 4):
            found.add(R.SLOT_USED_AGAIN.name)
        self.armed = (self.armed | written_to(op, layout.PX_SACT)) & ~issued
        return found

    def take(self, found: Set[str], is_reset: bool, is_idle: bool) -> None:
        """`is_reset`: the HBA is reset by this operation; `is_idle`: no command was outstanding before it, so what was wrong with one is over."""
        if is_reset:
            self.lasting.clear()
            self.armed = 0
        if is_idle or is_reset:
            self.of_commands.clear()
        free = {it for it in found if it not in {rule.name for rule in HARMLESS}}
        self.harmless |= found - free
        self.of_commands |= free & COMMAND_RULES
        self.lasting |= free - COMMAND_RULES

    @property
    def name(self) -> str:
        """The rule that is broken, or `several rules`; nothing if none is."""
        found = sorted(self.lasting | self.of_commands)
        return "" if not found else found[0] if len(found) == 1 else "several rules"
