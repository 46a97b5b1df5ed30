"""The stand-in's disk: what each command does, by ACS-3 and Serial ATA."""
from typing import NamedTuple, Optional

from .. import layout
from ..ata import Asked

GOOD, BAD_STATUS = 0x40, 0x41
ABRT, IDNF, UNC = 0x04, 0x10, 0x40
MODES = {0x00, 0x01, *range(0x08, 0x0D), *range(0x20, 0x23), *range(0x40, 0x46)}  # of SET FEATURES 03h
POWER = (0xE0, 0xE1, 0xE2, 0xE3)
LOGS = {0x00: 1, 0x10: 1, 0x30: 3}  # how many pages each has


class Failure(NamedTuple):
    """An error byte, and the first sector that can't be had."""

    error: int
    lba: int


def text(words: bytearray, first: int, value: str, characters: int) -> None:
    """A text in words: the first character is the high byte."""
    data = value.ljust(characters).encode()
    for at in range(0, characters, 2):
        words[2 * first + at : 2 * first + at + 2] = data[at : at + 2][::-1]


class Disk:
    """128 sectors, of which four can't be read or written."""

    def __init__(self, image: bytes) -> None:
        self.image = bytearray(image)
        self.failed: Optional[bytes] = None  # page 0 of log 10h, while a queued command has failed and nobody has read it

    def read(self, lba: int, count: int) -> bytes:
        return bytes(self.image[lba * layout.SECTOR : (lba + count) * layout.SECTOR])

    def write(self, lba: int, data: bytes) -> None:
        self.image[lba * layout.SECTOR : lba * layout.SECTOR + len(data)] = data

    def failure(self, it: Asked) -> Optional[Failure]:
        """What is wrong with the sectors of a command."""
        for lba in it.sectors:
            if lba >= layout.SECTORS:
                return Failure(IDNF, lba)
            if lba in layout.BAD:
                return Failure(UNC, lba)
        return None

    def fail_queue(self, tag: int, failure: Failure) -> None:
        page = bytearray(512)
        page[0], page[2], page[3] = tag, BAD_STATUS, failure.error
        lba = failure.lba.to_bytes(6, "little")
        page[4:7], page[8:11] = lba[:3], lba[3:]
        page[511] = -sum(page) & 0xFF
        self.failed = bytes(page)

    def log(self, fis: bytes) -> Optional[bytes]:
        """READ LOG EXT: pages, if there are that log and these pages."""
        address, page, count = fis[4], fis[5] | fis[9] << 8, fis[12] | fis[13] << 8
        if not count or page + count > LOGS.get(address, 0):
            return None
        if address == 0x30:
            return b"".join(self.identify_log(at) for at in range(page, page + count))
        if address == 0:
            return b"".join(word.to_bytes(2, "little") for word in (1, *(LOGS.get(it, 0) for it in range(1, 256))))
        found = bytearray(self.failed or bytes([0x80]) + bytes(511))
        found[511] = -sum(found[:511]) & 0xFF
        self.failed = None
        return bytes(found)

    def identify_log(self, page: int) -> bytes:
        """The IDENTIFY DEVICE data log: its pages, the copy of IDENTIFY DEVICE, and the capacity."""
        if page == 1:
            return self.identify()
        words = (1 | page << 16 | 1 << 63, 1 << 63 | layout.SECTORS, 1 << 63) if page else (1, 0x02010003)
        return b"".join(it.to_bytes(8, "little") for it in words).ljust(512, b"\0")

    def identify(self) -> bytes:
        page = bytearray(512)
        text(page, 10, "S-0001", 20)
        text(page, 23, "0.1", 8)
        text(page, 27, "STAND-IN", 40)
        sectors = layout.SECTORS
        for word, value in ((49, 0x0300), (60, sectors), (75, 31), (76, 0x0106), (80, 0x0400), (83, 0x7400), (84, 0x4020), (86, 0x3400), (87, 0x4020), (100, sectors)):
            page[2 * word : 2 * word + 2] = value.to_bytes(2, "little")
        return bytes(page)
