"""Lays a command's table and data over the guest's memory by a seed: in many pieces, out of order, with bits set that mean nothing to the port.

Where they lie is the driver's choice (AHCI 1.3.1, sections 4.2.2 and 4.2.3), so no answer of the model depends on it.
"""
import random
from typing import List, NamedTuple, Sequence

from . import layout
from .adapter import Place

PAGE = 4096
SPARE = 16  # entries that are left for pieces that are cut, and for those after the data
MOST_UNITS = 1 << 21  # of two bytes: a piece has 4 MiB at most
SLOTS = 32
INTERRUPT = 1 << 31  # I of an entry


class NoRoom(Exception):
    """The memory that the adapter offers is too small. Its text is one line."""


class Draws:
    """Numbers that depend on a text alone. Nothing is drawn but by `random()`, which is the same in every version of Python."""

    def __init__(self, seed: str) -> None:
        self.random = random.Random(seed).random

    def below(self, end: int) -> int:
        return int(self.random() * end)

    def once_in(self, times: int) -> bool:
        return self.below(times) == 0

    def data(self, length: int) -> bytes:
        return bytes(self.below(256) for _ in range(length))


class Room:
    """A part of the memory, which is given out from its beginning."""

    def __init__(self, first: int, end: int) -> None:
        self.first, self.at, self.end = first, first, end

    def fits(self, address: int, length: int) -> bool:
        return self.at <= address and address + length <= self.end

    def take(self, address: int, length: int) -> int:
        self.at = address + length
        return address


class Laid(NamedTuple):
    """Where a command lies."""

    table_at: int
    pieces: List[Place]  # in the order of the PRDT; those after the last byte of the data too
    rooms: List[Place]  # nothing else lies in these


def has_windows(place: Place) -> bool:
    """Whether the memory is there at which the model lays the windows of all slots."""
    return place[0] <= layout.WINDOWS and layout.window_base(SLOTS) <= sum(place)


def rooms_of(memory: Sequence[Place], tag: int, high: bool) -> List[Room]:
    """The parts of one slot in each place that the adapter offers: above 4 GiB they count if CAP has S64A. A slot's part is its window
    where the model's windows are, so that no other slot's is there. A command that isn't queued takes the last slot's part: no other command
    is under way then."""
    found = []
    for place in memory:
        first, end = (layout.WINDOWS, layout.window_base(SLOTS)) if has_windows(place) else (-(-place[0] // PAGE) * PAGE, sum(place))
        size = ((end if high else min(end, 1 << 32)) - first) // SLOTS // PAGE * PAGE
        if size > 0:
            at = first + min(tag, SLOTS - 1) * size
            found.append(Room(at, at + size))
    return found


def how_many(draws: Draws, units: int, entries: int) -> int:
    """How many pieces: most often a few, and now and then as many as can be."""
    most, kind = min(units, entries - SPARE), draws.below(16)
    if kind < 2:
        return 1
    if kind < 9:
        return min(most, 2 + draws.below(7))
    if kind < 14:
        return min(most, 9 + draws.below(40))
    low = 1 << draws.below(most.bit_length())
    return most if draws.once_in(8) else min(most, low + draws.below(low))


def lengths_of(draws: Draws, total: int, entries: int) -> List[int]:
    """Even lengths that have this sum."""
    units = total // 2
    if draws.once_in(8):
        size = max(256 << draws.below(5), 2 * units // entries)
        found = [size] * (units // size) + [units % size] * (units % size > 0)
    else:
        many = how_many(draws, units, entries)
        weights = [draws.random() * draws.random() * draws.random() for _ in range(many)]
        scale = (units - many) / (sum(weights) or 1)
        found = [1 + int(it * scale) for it in weights]
        found[draws.below(many)] += units - sum(found)
    cut: List[int] = []
    for it in found:
        cut += [MOST_UNITS] * ((it - 1) // MOST_UNITS) + [(it - 1) % MOST_UNITS + 1]
    return [2 * it for it in cut]


def beyond(draws: Draws, lengths: List[int], entries: int) -> List[int]:
    """More than the data need: a last piece that is longer, and entries after it; a list that is almost full is filled."""
    if len(lengths) >= entries - SPARE:
        return lengths + [2] * (entries - len(lengths))
    if draws.once_in(8) and lengths[-1] < 1 << 20:
        lengths = [*lengths[:-1], lengths[-1] + 2 + 2 * draws.below(256)]
    return lengths + [2 + 2 * draws.below(1024) for _ in range(1 + draws.below(3))] if draws.once_in(4) else lengths


def start_at(draws: Draws, at: int, length: int, few: bool) -> int:
    """Where the next piece begins: at once, after a gap, at a page's beginning, at its end, or across it."""
    kind = draws.below(8)
    if kind < 3:
        return at
    if kind < 5 or not few:
        return at + 2 * draws.below(17)
    page = -(-at // PAGE) * PAGE
    if kind == 5:
        return page
    back = length if kind == 6 else 2 * draws.below(length // 2 + 1)
    return page - back + (max(0, at - page + back) + PAGE - 1) // PAGE * PAGE


def shuffled(draws: Draws, many: int) -> List[int]:
    order = list(range(many))
    for at in range(many - 1, 0, -1):
        other = draws.below(at + 1)
        order[at], order[other] = order[other], order[at]
    return order


def room_for(draws: Draws, rooms: List[Room], length: int, few: bool) -> int:
    """An address for a piece, in a room that is picked, or in any that has as many bytes left."""
    room = rooms[draws.below(len(rooms))]
    address = start_at(draws, room.at, length, few)
    if room.fits(address, length):
        return room.take(address, length)
    for room in rooms:
        if room.fits(room.at, length):
            return room.take(room.at, length)
    raise NoRoom(f"a command needs more memory than the adapter offers a slot ({sum(it.end - it.first for it in rooms):,} bytes)")


def table_place(draws: Draws, rooms: List[Room], entries: int) -> int:
    """CTBA is a multiple of 128."""
    size = 0x80 + 16 * entries
    for room in [rooms[draws.below(len(rooms))], *rooms]:
        address = -(-(room.at + 128 * draws.below(64)) // 128) * 128
        if room.fits(address, size):
            return room.take(address, size)
    raise NoRoom(f"a command table of {size:,} bytes has no room in the memory that the adapter offers")


class Guest(NamedTuple):
    """What a driver may use of the guest."""

    memory: Sequence[Place]
    entries: int  # of a PRDT at most
    high: bool = False  # CAP has S64A


def scattered(draws: Draws, guest: Guest, tag: int, total: int) -> Laid:
    """A place for a command of so many bytes of data."""
    rooms = rooms_of(guest.memory, tag, guest.high)
    if not rooms:
        raise NoRoom("the adapter offers too little memory below 4 GiB for 32 slots")
    lengths = beyond(draws, lengths_of(draws, total, guest.entries), guest.entries) if total else []
    table_at = table_place(draws, rooms, len(lengths))
    places = [0] * len(lengths)
    for room in rooms:
        room.at += 2 * draws.below(PAGE // 2) if room.at + PAGE < room.end else 0
    for at in shuffled(draws, len(lengths)):
        places[at] = room_for(draws, rooms, lengths[at], len(lengths) <= 64)
    return Laid(table_at, list(zip(places, lengths)), [(it.first, it.end - it.first) for it in rooms])


def in_one_piece(memory: Sequence[Place], tag: int, total: int) -> Laid:
    """The plain way, for an emulator that doesn't have the memory at which the model lays its windows."""
    rooms = rooms_of(memory, tag, False)
    lengths = [min(total - at, 2 * MOST_UNITS) for at in range(0, total, 2 * MOST_UNITS)]
    for room in rooms:
        table_at, at = room.first, room.first + PAGE
        if at + total <= room.end:
            return Laid(table_at, [(at + 2 * MOST_UNITS * it, length) for it, length in enumerate(lengths)], [(room.first, room.end - room.first)])
    raise NoRoom(f"a command of {total:,} bytes needs more memory than the adapter offers a slot")


def prdt_of(draws: Draws, pieces: Sequence[Place], dirty: bool) -> List[bytes]:
    """The entries (section 4.2.3): with I here and there, and, if `dirty`, reserved bits."""
    found = []
    for address, length in pieces:
        last = length - 1 | (INTERRUPT if draws.once_in(4) else 0) | (draws.below(512) << 22 if dirty else 0)
        found.append(address.to_bytes(8, "little") + (draws.data(4) if dirty else bytes(4)) + last.to_bytes(4, "little"))
    return found


def decorated(draws: Draws, cfis: bytes, dirty: bool) -> bytes:
    """A queued command with FUA and PRIO, and, if `dirty`, its reserved bits and bytes: nothing that changes what it does."""
    fis = bytearray(cfis)
    fis[7] |= draws.below(2) << 7
    fis[13] |= draws.below(4) << 6
    if dirty:
        fis[7] |= draws.below(16)
        fis[12] |= draws.below(8)
        fis[13] |= draws.below(64)
        fis[14] = draws.below(256)
        fis[16:20] = draws.data(4)
    return bytes(fis)


def own_bytes(draws: Draws, fill: bytes, sectors: int) -> bytes:
    """A write's data: each sector begins with the byte of the script, which the model's answers show, and goes on with bytes of its own."""
    tail = draws.data(509)
    tails = tail + tail
    return b"".join(fill + (at & 0xFFFF).to_bytes(2, "little") + tails[at % 509 : at % 509 + 509] for at in range(sectors))
