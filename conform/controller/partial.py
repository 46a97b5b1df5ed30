"""What a device may have moved of a command that fails (ACS-3, "LBA of first unrecoverable error"): the sectors before the failing one, or fewer.

A difference is excused only if the emulator's bytes are exactly such: a beginning of the command's data, and behind it what was there."""
from typing import Callable, Dict, Iterator, List, Optional, Tuple

from . import layout
from .compare import Difference
from .look import Look
from .moment import Issued, Moment

FACT = "before the error"


def failing(it: Moment) -> Iterator[Tuple[Issued, int]]:
    """Commands that fail at one of their sectors, and how many bytes lie before it."""
    for one in it.issued:
        first = one.asked.first_of(layout.BAD, layout.SECTORS)
        if first >= 0 and one.asked.moves:
            yield one, layout.SECTOR * (first - one.asked.lba)


def gathered(look: Look, one: Issued, most: int) -> Optional[bytes]:
    """The first bytes of a command's data, as they are in memory, in the order of its PRDT."""
    parts: List[bytes] = []
    left = most
    for entry in one.command.entries:
        if left <= 0:
            break
        length = min(left, entry.length)
        part = look.bytes_at(entry.address, length)
        if part is None:
            return None
        parts.append(part)
        left -= length
    return b"".join(parts)


def is_beginning(now: bytes, data: bytes, before: bytes) -> bool:
    """Whether `now` is a beginning of the data, in whole dwords, and what was there before."""
    moved = len(now)
    while moved and now[moved - 1] == before[moved - 1]:
        moved -= 1
    moved = min(-(-moved // 4) * 4, len(now))
    return now[:moved] == data[:moved]


def read_is_partial(it: Moment) -> bool:
    """All reads that fail have moved sectors from before the failing one, and nothing else."""
    assert it.was
    reads = [(one, most) for one, most in failing(it) if not one.asked.write]
    for one, most in reads:
        size = layout.SECTOR * min(one.asked.count, layout.SECTORS)  # behind them nothing can have come
        now, before = gathered(it.emulator, one, size), gathered(it.was, one, size)
        if now is None or before is None:
            return False
        first = one.asked.lba * layout.SECTOR
        data = it.emulator.disk[first : first + most]
        if now[most:] != before[most:] or not is_beginning(now[:most], data, before[:most]):
            return False
    return bool(reads)


def write_is_partial(it: Moment, lba: int) -> bool:
    """The sector is one of a write that fails behind it, and has that write's bytes or what it had before."""
    assert it.was
    for one, most in failing(it):
        offset = layout.SECTOR * (lba - one.asked.lba)
        if not one.asked.write or not 0 <= offset < most:
            continue
        data, span = gathered(it.was, one, offset + layout.SECTOR), slice(lba * layout.SECTOR, (lba + 1) * layout.SECTOR)
        if data and it.emulator.disk[span] in (data[offset:], it.was.disk[span]):
            return True
    return False


def count_is_partial(it: Moment, found: Difference) -> bool:
    """PRDBC of a command that fails has a number of bytes from before the failing sector, or what software wrote. By PIO data-out a block
    goes to the device before that writes it, so the failing one may count too."""
    got, at = int.from_bytes(found.got, "big"), found.at
    for one, most in failing(it):
        sent = most + (layout.SECTOR if one.asked.kind == "pio" and one.asked.write else 0)
        if at == one.command.at + 4 and (got <= sent or got == one.command.prdbc):
            return True
    return False


def is_identify_page(page: bytes) -> bool:
    """A page of such a disk, whatever its other words are (ACS-3, "IDENTIFY DEVICE")."""
    word = [int.from_bytes(page[at : at + 2], "little") for at in range(0, 512, 2)]
    size = word[60] | word[61] << 16
    return size == layout.SECTORS == word[100] and not any(word[101:104]) and word[49] & 0x300 == 0x300 and not word[0] & 0x8000 and word[83] >> 14 == 1


def is_directory(page: bytes) -> bool:
    """Version 1, and a log 10h of one page, whatever other logs there are (ACS-3, "General Purpose Log Directory")."""
    return page[:2] == b"\1\0" and page[0x20:0x22] == b"\1\0"


def reads_directory(fis: bytes) -> bool:
    """READ LOG EXT or READ LOG DMA EXT of log 00h, its one page."""
    return fis[2] in (0x2F, 0x47) and not fis[4] and not fis[5] | fis[9] and fis[12] | fis[13] << 8 == 1


def page_of_disk(it: Moment) -> bool:
    """A page of a disk of its own is where the PRDT says: that of IDENTIFY DEVICE, or the directory of logs."""
    for one in it.issued:
        fis = one.command.fis.ljust(20, b"\0")
        is_right = is_identify_page if fis[2] == 0xEC else is_directory if reads_directory(fis) else None
        page = gathered(it.emulator, one, 512) if is_right else None
        if is_right and page is not None and len(page) == 512 and is_right(page):
            return True
    return False


def marked(it: Moment, found: Difference) -> Difference:
    """The difference, with the fact if it is exactly what a device may do."""
    if it.was is None:
        return found
    if found.place == "data" and page_of_disk(it):
        return found._replace(facts=found.facts | {"page of this disk"})
    exact: Dict[str, Callable[[], bool]] = {
        "data": lambda: read_is_partial(it), "disk": lambda: write_is_partial(it, found.at or 0), "PRDBC": lambda: count_is_partial(it, found),
    }
    return found._replace(facts=found.facts | {FACT}) if exact.get(found.place, bool)() else found
