"""What a driver puts into the guest's memory for a command, and finds there when it is done."""
from bisect import bisect_right
from typing import Dict, Iterator, List, NamedTuple, Optional, Sequence, Tuple

from . import layout
from .adapter import Place
from .model import Sent
from .scatter import Draws, Guest, Laid, decorated, has_windows, in_one_piece, own_bytes, prdt_of, scattered

UNTOUCHED = 0xC5  # fills the place of a read's data, and the memory around all pieces
GUARD = 64  # bytes around them that nobody may change
NEAR = 256  # pieces that are no further apart are read and written as one block
PLAIN = 32  # in the place of a tag: the commands that aren't queued


class Window(NamedTuple):
    """A command's header, its command table and the pieces of its data."""

    tag: int
    header: bytes
    table_at: int
    table: bytes  # CFIS, ACMD and the PRDT
    pieces: List[Place]  # addresses and lengths, in the order of the PRDT; those after the last byte of the data too
    rooms: List[Place]  # nothing else lies in these
    write: bool
    lba: int
    text: bytes  # what a write writes; of a read its length alone counts
    way: str  # how it lies, in words

    @property
    def sectors(self) -> int:
        return len(self.text) // layout.SECTOR

    @property
    def used(self) -> List[Place]:
        """The pieces, cut to the data."""
        return list(cut(self.pieces, len(self.text)))


    def spot(self, at: int) -> str:
        """Where a byte of the data lies, in words."""
        left = at
        for number, (address, length) in enumerate(self.used, 1):
            if left < length:
                return f"byte {at % layout.SECTOR:x}h of LBA {self.lba + at // layout.SECTOR}: piece {number} of {len(self.pieces)}, byte {left:x}h of it, at {address + left:x}h"
            left -= length
        return ""


def cut(pieces: Sequence[Place], total: int) -> Iterator[Place]:
    for address, length in pieces:
        if total <= 0:
            return
        yield address, min(length, total)
        total -= length


class Memory:
    """Blocks of the guest's memory with their contents."""

    def __init__(self, blocks: List[Tuple[int, bytes]]) -> None:
        self.firsts = [address for address, _ in blocks]
        self.blocks = [bytearray(data) for _, data in blocks]

    def at(self, address: int) -> Tuple[bytearray, int]:
        """The block that has this address, and the place in it."""
        found = bisect_right(self.firsts, address) - 1
        return self.blocks[found], address - self.firsts[found]

    def put(self, address: int, data: bytes) -> None:
        block, at = self.at(address)
        block[at : at + len(data)] = data

    def take(self, address: int, length: int) -> bytes:
        block, at = self.at(address)
        return bytes(block[at : at + length])

    def scatter(self, pieces: Sequence[Place], data: bytes) -> None:
        done = 0
        for address, length in pieces:
            self.put(address, data[done : done + length])
            done += length

    def gather(self, pieces: Sequence[Place]) -> bytes:
        return b"".join(self.take(*it) for it in pieces)

    def places(self) -> List[Place]:
        return [(first, len(block)) for first, block in zip(self.firsts, self.blocks)]

    def parts(self) -> List[Tuple[int, bytes]]:
        return [(first, bytes(block)) for first, block in zip(self.firsts, self.blocks)]


def blocks_of(places: Sequence[Place], rooms: Sequence[Place]) -> List[Place]:
    """Where these places lie, with some bytes around each that lie in the same room."""
    found: List[Place] = []
    for address, length in sorted(places):
        room, size = next(it for it in rooms if it[0] <= address < it[0] + it[1])
        first, end = max(room, address - GUARD), min(room + size, address + length + GUARD)
        if found and first - sum(found[-1]) <= NEAR and found[-1][0] >= room:
            first = found.pop()[0]
        found.append((first, end - first))
    return found


def memory_of(window: Window) -> Memory:
    """The memory of a command before it is issued."""
    places = [it for it in window.pieces if it[1]] + [(window.table_at, len(window.table))]
    memory = Memory([(address, bytes([UNTOUCHED]) * length) for address, length in blocks_of(places, window.rooms)])
    memory.put(window.table_at, window.table)
    if window.write:
        memory.scatter(window.used, window.text)
    return memory


# the plain way: the model's own places
def pieces_of(prdt: Sequence[bytes]) -> List[Place]:
    """Addresses and lengths (AHCI 1.3.1, section 4.2.3)."""
    return [(int.from_bytes(it[0:8], "little"), (int.from_bytes(it[12:16], "little") & 0x3FFFFF) + 1) for it in prdt]


def base_of(tag: int) -> int:
    return layout.PLAIN_TABLE if tag == PLAIN else layout.window_base(tag)


def rooms_of_model(tag: int) -> List[Place]:
    return [(layout.PLAIN_TABLE, layout.FIXED_END - layout.PLAIN_TABLE)] if tag == PLAIN else [(layout.window_base(tag), layout.WINDOW_SIZE)]


class Layer:
    """Makes windows by one way: `plain`, `scattered`, or, if `both`, one or the other as it comes."""

    def __init__(self, way: str, seed: str, guest: Guest) -> None:
        self.way, self.seed, self.guest = way, seed, guest
        self.times: Dict[str, int] = {}

    def draws(self, line: str) -> Draws:
        """Depends on the seed, the line's text, and how often that line came: in a shorter script the same line is laid in the same way."""
        self.times[line] = self.times.get(line, 0) + 1
        return Draws(f"{self.seed}:{line[:80]}:{self.times[line]}")

    def scatters(self, draws: Draws) -> bool:
        return self.way == "scattered" or self.way == "both" and draws.below(2) == 1

    def queued(self, tag: int, line: str, sent: Sent, write: bool, lba: int, text: bytes) -> Window:
        """A window for the model's `write` and `read`."""
        draws, table = self.draws(line), sent.cfis.ljust(0x80, b"\0")
        if not self.scatters(draws):
            return self.plain(Window(tag, sent.header, 0, table, [], [], write, lba, text, ""), sent)
        dirt = draws if draws.once_in(2) else None
        table = decorated(draws, sent.cfis, dirt is not None) + (dirt.data(0x80 - 20) if dirt else bytes(0x80 - 20))
        text = own_bytes(draws, text[:1], len(text) // layout.SECTOR) if write else text
        return self.spread(Window(tag, sent.header, 0, table, [], [], write, lba, text, ""), draws, dirt)

    def raw(self, tag: int, line: str, header: bytes, window: bytes, write: bool, lba: int) -> Window:
        """The window of a `raw` line, whose bytes are taken as they are; scattered, its PRDT is another one."""
        draws, entries = self.draws(line), int.from_bytes(header[2:4], "little")
        sent = Sent(header, window[:20], [window[at : at + 16] for at in range(0x80, 0x80 + 16 * entries, 16)])
        text = b"".join(window[address - base_of(tag) :][:length] for address, length in pieces_of(sent.prdt))
        made = Window(tag, header, 0, window[:0x80], [], [], write, lba, text, "")
        return self.spread(made, draws, None) if self.scatters(draws) else self.plain(made, sent)

    def again(self, window: Window, line: str) -> Window:
        """The same command for a `reissue`: scattered, it lies elsewhere now."""
        draws = self.draws(line)
        return self.spread(window._replace(table=window.table[:0x80]), draws, None) if self.scatters(draws) else window

    def unqueued(self, line: str, sent: Sent) -> Window:
        """A window for a command by slot 0 that isn't queued."""
        draws, data = self.draws(line), bytes(sum(length for _, length in pieces_of(sent.prdt)))
        made = Window(PLAIN, sent.header, 0, sent.cfis.ljust(0x80, b"\0"), [], [], False, 0, data, "")
        return self.spread(made, draws, None) if self.scatters(draws) else self.plain(made, sent)

    def plain(self, made: Window, sent: Sent) -> Window:
        """As the model has it; or in one piece, if the memory is elsewhere."""
        if made.tag != PLAIN and not any(map(has_windows, self.guest.memory)):
            return laid(made, in_one_piece(self.guest.memory, made.tag, len(made.text)), [], b"")
        table = made.table + b"".join(sent.prdt)
        return made._replace(table_at=base_of(made.tag), table=table, pieces=pieces_of(sent.prdt), rooms=rooms_of_model(made.tag), way="as in the model")

    def spread(self, made: Window, draws: Draws, dirt: Optional[Draws]) -> Window:
        place = scattered(draws, self.guest, made.tag, len(made.text))
        return laid(made, place, prdt_of(draws, place.pieces, dirt is not None), dirt.data(16) if dirt else b"")


def laid(made: Window, place: Laid, prdt: List[bytes], reserved: bytes) -> Window:
    """A window at a place: its header has another CTBA and PRDTL, and reserved bytes if they are given."""
    prdt = prdt or [address.to_bytes(8, "little") + bytes(4) + (length - 1).to_bytes(4, "little") for address, length in place.pieces]
    header = made.header[:2] + len(prdt).to_bytes(2, "little") + made.header[4:8] + place.table_at.to_bytes(8, "little") + (reserved or made.header[16:32])
    way = f"in {len(prdt)} piece{'s' if len(prdt) != 1 else ''}, the table at {place.table_at:x}h"
    return made._replace(header=header, table_at=place.table_at, table=made.table + b"".join(prdt), pieces=place.pieces, rooms=place.rooms, way=way)
