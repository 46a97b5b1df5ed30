"""The text of a driver program, one operation a line: conform/controller/PROGRAMS.md describes it."""
from typing import Callable, Dict, List, Optional, Tuple

from . import layout
from .ata import title
from .program import FIS_BYTES, Command, Entry, Go, Hold, Memory, Op, Program, Read, Write

SIZES = (1, 2, 4, 8)
MOST_DATA = 1 << 22  # bytes of a PRDT entry
WORDS_64 = 1 << 64


class TextFault(Exception):
    """A line that is no operation. Its text names the line and the cause."""


class Line:
    """The words of one line, taken from the left."""

    def __init__(self, words: List[str]) -> None:
        self.words = words

    def __bool__(self) -> bool:
        return bool(self.words)

    def take(self, what: str) -> str:
        if not self.words:
            raise TextFault(f"{what} is missing")
        return self.words.pop(0)

    def number(self, what: str, base: int, below: int) -> int:
        """The next word as a number: hexadecimal addresses and values, decimal counts."""
        return number(self.take(what), what, base, below)

    def data(self, what: str, most: int) -> bytes:
        word = self.take(what)
        try:
            found = bytes.fromhex(word)
        except ValueError as why:
            raise TextFault(f"'{word}' are no hexadecimal bytes for {what}") from why
        if len(found) > most:
            raise TextFault(f"{what} has {len(found)} bytes, and at most {most} are possible")
        return found

    def register(self) -> int:
        word = self.take("the register")
        offset = layout.register_at(word)
        if offset is None:
            raise TextFault(f"'{word}' is no register: a name as PxCMD, a place in one as PxCMD+2, or an offset as 118")
        if not 0 <= offset < 0x1100:
            raise TextFault(f"'{word}' is behind the registers, which have 1100h bytes")
        return offset

    def size(self) -> int:
        if not self.words:
            return 4
        word = self.take("the size")
        if word != "size":
            raise TextFault(f"'{word}' follows, where nothing or 'size' can be")
        size = self.number("the size", 10, 9)
        if size not in SIZES:
            raise TextFault(f"the size is {size}, and no access has other than 1, 2, 4 or 8 bytes")
        return size


def number(word: str, what: str, base: int, below: int) -> int:
    try:
        found = int(word, base) if "_" not in word else -1
    except ValueError:
        found = -1
    if found < 0:
        raise TextFault(f"'{word}' is no {'hexadecimal' if base == 16 else 'decimal'} number for {what}")
    if found >= below:
        raise TextFault(f"{what} is {word}, which is too large")
    return found


def _write(line: Line) -> Op:
    offset = line.register()
    value, size = line.number("the value", 16, WORDS_64), line.size()
    if value >= 1 << 8 * size:
        raise TextFault(f"the value {value:x} has more than {size} bytes")
    return Write(offset, value, size)


def _read(line: Line) -> Op:
    return Read(line.register(), line.size())


def _memory(line: Line) -> Op:
    return Memory(line.number("the address", 16, WORDS_64), line.data("the memory", 4096))


def _entry(word: str) -> Entry:
    """ADDRESS:LENGTH, and :I for an entry with I."""
    parts = word.split(":")
    if len(parts) not in (2, 3) or parts[2:] not in ([], ["I"]):
        raise TextFault(f"'{word}' is no PRDT entry: ADDRESS:LENGTH, or ADDRESS:LENGTH:I")
    length = number(parts[1], "the length of an entry", 10, MOST_DATA + 1)
    if not length:
        raise TextFault(f"'{word}' has no bytes, and an entry has at least 1")
    return Entry(number(parts[0], "the address of an entry", 16, WORDS_64), length, len(parts) == 3)


def _command(line: Line) -> Op:
    """`command slot N` or `command at ADDRESS`, and members in any order."""
    word = line.take("'slot' or 'at'")
    if word == "slot":
        at = layout.LIST + 32 * line.number("the slot", 10, 32)
    elif word == "at":
        at = line.number("the address of the header", 16, WORDS_64)
    else:
        raise TextFault(f"'{word}' is neither 'slot' nor 'at'")
    found: Dict[str, object] = {}
    while line:
        name = line.take("a member")
        if name in found:
            raise TextFault(f"'{name}' comes twice")
        found[name] = _member(name, line)
    for name in ("table", "fis"):
        if name not in found:
            raise TextFault(f"a command has no '{name}'")
    return Command(at, found["table"], found["fis"], found.get("data", ()), found.get("flags", 5),  # type: ignore[arg-type]
                   found.get("entries"), found.get("prdbc", 0), found.get("reserved", bytes(16)))  # type: ignore[arg-type]


def _member(name: str, line: Line) -> object:
    if name == "table":
        return line.number("the command table", 16, WORDS_64)
    if name == "fis":
        return line.data("the command FIS", 64).ljust(FIS_BYTES, b"\0")
    if name == "flags":
        return line.number("the flags", 16, 1 << 16)
    if name == "entries":
        return line.number("the number of entries", 10, 1 << 16)
    if name == "prdbc":
        return line.number("PRDBC", 16, 1 << 32)
    if name == "reserved":
        return line.data("the reserved dwords", 16).ljust(16, b"\0")
    if name == "data":
        entries: List[Entry] = []
        while line and ":" in line.words[0]:
            entries.append(_entry(line.take("an entry")))
        return tuple(entries)
    raise TextFault(f"'{name}' is no member of a command: table, fis, flags, entries, prdbc, reserved, data")


def _hold(line: Line) -> Op:
    slot, way = line.number("the slot", 10, 32), line.take("'read' or 'write'")
    if way not in ("read", "write"):
        raise TextFault(f"'{way}' is neither 'read' nor 'write'")
    return Hold(slot, way)


def _go(line: Line) -> Op:
    return Go(line.number("the slot", 10, 32))


READERS: Dict[str, Callable[[Line], Op]] = {"write": _write, "read": _read, "memory": _memory, "command": _command, "hold": _hold, "go": _go}


def op_of(text: str) -> Optional[Op]:
    """The operation of a line; None if it has only a comment."""
    line = Line(text.partition("#")[0].split())
    if not line:
        return None
    word = line.take("an operation")
    if word not in READERS:
        raise TextFault(f"'{word}' is no operation: {', '.join(READERS)}")
    op = READERS[word](line)
    if line:
        raise TextFault(f"'{line.words[0]}' is left over")
    return op


def program_of(text: str, name: str) -> Program:
    """A whole text. The fault names the text, the line and the cause."""
    found: Program = []
    for at, line in enumerate(text.splitlines(), 1):
        try:
            op = op_of(line)
        except TextFault as why:
            raise TextFault(f"{name}, line {at}: {why}") from why
        if op is not None:
            found.append(op)
    return found


# ---- the writer ----

def _sized(size: int) -> str:
    return "" if size == 4 else f" size {size}"


def _slot(at: int) -> Tuple[str, Optional[int]]:
    slot, over = divmod(at - layout.LIST, 32)
    return (f"slot {slot}", slot) if not over and 0 <= slot < 32 else (f"at {at:08x}", None)


def command_text(it: Command) -> str:
    parts = [f"command {_slot(it.at)[0]} table {it.table:08x} fis {it.fis.hex()}"]
    if it.flags != 5:
        parts.append(f"flags {it.flags:04x}")
    if it.prdtl is not None:
        parts.append(f"entries {it.prdtl}")
    if it.prdbc:
        parts.append(f"prdbc {it.prdbc:x}")
    if any(it.reserved):
        parts.append(f"reserved {it.reserved.hex()}")
    if it.entries:
        parts.append("data " + " ".join(f"{e.address:08x}:{e.length}{':I' if e.interrupt else ''}" for e in it.entries))
    return " ".join(parts)


def line_of(op: Op) -> str:
    """An operation as a line."""
    if isinstance(op, Write):
        return f"write {layout.register_name(op.offset)} {op.value:0{2 * op.size}x}{_sized(op.size)}"
    if isinstance(op, Read):
        return f"read {layout.register_name(op.offset)}{_sized(op.size)}"
    if isinstance(op, Memory):
        return f"memory {op.address:08x} {op.data.hex()}"
    if isinstance(op, Command):
        return f"{command_text(op)}  # {title(op.fis)}"
    return f"hold {op.slot} {op.way}" if isinstance(op, Hold) else f"go {op.slot}"


def text_of(ops: Program) -> str:
    return "".join(f"{line_of(op)}\n" for op in ops)
