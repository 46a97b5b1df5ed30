"""The layers alone, without a port: FISes, windows, pages, journals, the choice of the next tag, and the rules for drivers."""
from __future__ import annotations

import ctypes
from typing import List, Optional, Sequence

from .library import Bytes, call, done, fits, given, loaded
from .names import Kind, Order, Rule, Status
from .prototypes import CommandStruct, EntryStruct, FisStruct, size, u32, u64
from .records import Command, Entry, Fis, FisType

MOST_FIS_BYTES = 8196  # a Data FIS with 8,192 bytes of payload


def _page(name: str, *arguments: object) -> bytes:
    out = ctypes.create_string_buffer(512)
    call(name, *arguments, out, 512)
    return out.raw


def fis_decode(data: Bytes) -> Fis:
    """Reads a FIS, which takes all of the bytes."""
    found = FisStruct()
    call("fis_decode", *given(data), ctypes.byref(found))
    fis = Fis(**{name: getattr(found, name) for name in Fis._fields})
    return fis._replace(kind=FisType(fis.kind))


def fis_encode(fis: Fis, payload: Bytes = b"") -> bytes:
    """The bytes of a FIS; a Data FIS has this payload."""
    struct = FisStruct()
    for name, kind in FisStruct._fields_:
        setattr(struct, name, fits(getattr(fis, name), 8 * ctypes.sizeof(kind), name))
    out, length = ctypes.create_string_buffer(MOST_FIS_BYTES), size()
    call("fis_encode", ctypes.byref(struct), *given(payload), out, MOST_FIS_BYTES, ctypes.byref(length))
    return out.raw[: length.value]


def window_check(tag: int, header: Bytes, memory: Bytes) -> Command:
    """The command of a window. Raises the first rule that the window breaks, if a port would not take it."""
    found = CommandStruct()
    call("window_check", fits(tag, 32, "tag"), *given(header), *given(memory), ctypes.byref(found))
    return Command(found.lba, found.sectors, Kind(found.kind), found.tag, found.pieces)


def identify_page(sectors: int, depth: int) -> bytes:
    """The page of IDENTIFY DEVICE of a disk of so many sectors with so many slots."""
    return _page("identify_page", fits(sectors, 32, "sectors"), fits(depth, 32, "depth"))


def log_page(tag: int, error: int, lba: int) -> bytes:
    """Page 0 of log 10h after the error of a tag's command at a sector."""
    return _page("log_page", fits(tag, 32, "tag"), fits(error, 8, "error"), fits(lba, 64, "lba"))


def journal_check(sectors: int, depth: int, events: Sequence[Entry]) -> Optional[int]:
    """The place of the first event that can't follow those before it, counted from 0, or None if there is none."""
    array = (EntryStruct * len(events))()
    for place, event in enumerate(events):
        for name, kind in EntryStruct._fields_:
            setattr(array[place], name, fits(getattr(event, name), 8 * ctypes.sizeof(kind), name))
    bad = size()
    status = loaded().ahci_journal_check(fits(sectors, 32, "sectors"), fits(depth, 32, "depth"), array, len(events), ctypes.byref(bad))
    if status == Status.NOT_ALLOWED:
        return int(bad.value)
    done(status)
    return None


def choose_tag(order: Order, tags: int, draw: int = 0) -> int:
    """The tag of a set, the bits of a word, that an order names. `Order.DRAWN` and `Order.ROUND` look at the draw, which is any number of 64 bits."""
    tag = u32()
    call("choose_tag", order, fits(tags, 32, "tags"), fits(draw, 64, "draw"), ctypes.byref(tag))
    return int(tag.value)


def choose_tags(order: Order, tags: int, failing: int = 0, most: int = 32, draws: Sequence[int] = ()) -> List[int]:
    """The tags of a set that the device completes next: up to `most`, each named by the order out of those that are left, with a draw each. The
    list ends before the first tag of `failing`; if that comes first, it is the only one."""
    numbers = (u64 * len(draws))(*(fits(draw, 64, "draw") for draw in draws))
    out, length = ctypes.create_string_buffer(32), size()
    call("choose_tags", order, fits(tags, 32, "tags"), fits(failing, 32, "failing"), fits(most, 32, "most"), numbers, len(draws), out, 32, ctypes.byref(length))
    return list(out.raw[: length.value])


def _broken(name: str, *arguments: object) -> bool:
    broken = u32()
    try:
        call(name, *arguments, ctypes.byref(broken))
    finally:
        del arguments  # as in `call`
    return bool(broken.value)


def command_breaks(rule: Rule, slot: int, active: bool, header: Bytes, fis: Bytes) -> bool:
    """Whether the command of a slot breaks a rule: the 32 bytes of its header, and the first 20 of its command table."""
    return _broken("command_breaks", rule, fits(slot, 32, "slot"), int(active), *given(header), *given(fis))


def entry_breaks(rule: Rule, entry: Bytes) -> bool:
    """Whether an entry of a PRDT, of 16 bytes, breaks a rule."""
    return _broken("entry_breaks", rule, *given(entry))


def length_breaks(rule: Rule, fis: Bytes, total: int) -> bool:
    """Whether a PRDT of so many bytes in all breaks a rule, for the command of a command FIS of 20 bytes."""
    return _broken("length_breaks", rule, *given(fis), fits(total, 64, "total"))


def status_text(status: int) -> str:
    """The name of a status as `ahci replay` writes it."""
    out, length = ctypes.create_string_buffer(32), size()
    call("status_text", fits(status, 32, "status"), out, 32, ctypes.byref(length))
    return out.raw[: length.value].decode("ascii")


def version() -> int:
    """The library's version: major, minor and patch, a byte each."""
    return int(loaded().ahci_version())


def tags_of(word: int) -> List[int]:
    """The tags of a set that is the bits of a word."""
    return [tag for tag in range(32) if word >> tag & 1]
