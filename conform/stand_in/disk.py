"""The stand-in's disk in plain Python: it answers commands with FISes, as docs/LAYOUTS.md has them, and moves data."""
from typing import Dict, List, NamedTuple, Optional, Tuple

SECTOR = 512
ABORT, NOT_FOUND = 0x04, 0x10


class Command(NamedTuple):
    write: bool
    lba: int
    count: int  # type: ignore[assignment]
    data: bytes  # of a write


class Failure(NamedTuple):
    tag: int
    error: int
    lba: int


def lba_bytes(lba: int) -> bytes:
    """LBA, device and LBA as they stand in bytes 4 to 10 of a FIS."""
    return (lba & 0xFFFFFF).to_bytes(3, "little") + b"\0" + (lba >> 24 & 0xFFFFFF).to_bytes(3, "little")


def register_fis(interrupt: bool, status: int, error: int, lba: int = 0) -> bytes:
    return (bytes([0x34, 0x40 if interrupt else 0, status, error]) + lba_bytes(lba)).ljust(20, b"\0")


def setup_fis(tag: int, command: Command) -> bytes:
    direction = 0 if command.write else 0x20
    return (bytes([0x41, direction, 0, 0, tag]).ljust(20, b"\0") + (command.count * SECTOR).to_bytes(4, "little")).ljust(28, b"\0")


def bits_fis(status: int, error: int, tags: List[int]) -> bytes:
    return bytes([0xA1, 0x40, status, error]) + sum(1 << tag for tag in tags).to_bytes(4, "little")


PIO_FIS = bytes([0x5F, 0x60, 0x48]).ljust(15, b"\0") + bytes([0x40, 0, 2, 0, 0])


class Disk:
    """The commands that are outstanding, the sectors, and the error that stands."""

    def __init__(self, sectors: int, depth: int) -> None:
        self.sectors, self.depth = sectors, depth
        self.image = bytearray(sectors * SECTOR)
        self.commands: Dict[int, Command] = {}
        self.failure: Optional[Failure] = None

    def take(self, tag: int, command: Command) -> bytes:
        """Accepts a queued command, or refuses it where it passes the last sector."""
        if self.failure:
            return register_fis(True, 0x41, ABORT)
        if command.lba + command.count > self.sectors:
            return self.stop(Failure(tag, NOT_FOUND, max(command.lba, self.sectors)))
        self.commands[tag] = command
        return register_fis(False, 0x40, 0)

    def stop(self, failure: Failure) -> bytes:
        self.commands.clear()
        self.failure = failure
        return register_fis(True, 0x41, failure.error, failure.lba)

    def serve(self, tag: int) -> Tuple[bytes, Optional[bytes]]:
        """Does a command: its DMA Setup FIS, and what a read has read."""
        command = self.commands.pop(tag)
        first, end = command.lba * SECTOR, (command.lba + command.count) * SECTOR
        if command.write:
            self.image[first:end] = command.data
            return setup_fis(tag, command), None
        return setup_fis(tag, command), bytes(self.image[first:end])

    def completed(self, tags: List[int]) -> bytes:
        return bits_fis(0x40, 0, tags)

    def fail(self, tag: int, error: int, lba: int) -> bytes:
        self.stop(Failure(tag, error, lba))
        return bits_fis(0x41, error, [])

    def flush(self) -> bytes:
        return register_fis(True, 0x40, 0)

    def identify(self) -> bytes:
        """ACS-3, IDENTIFY DEVICE."""
        words = {49: 0x0300, 75: self.depth - 1, 76: 0x0106, 80: 0x0400, 83: 0x6400, 84: 0x4020, 86: 0x2400, 87: 0x4020}
        words.update({60: self.sectors & 0xFFFF, 61: self.sectors >> 16, 100: self.sectors & 0xFFFF, 101: self.sectors >> 16})
        for first, text in ((10, "00000001".ljust(20)), (23, "1.0".ljust(8)), (27, "SOFTWARE NCQ DISK".ljust(40))):
            words.update({first + at // 2: ord(text[at]) << 8 | ord(text[at + 1]) for at in range(0, len(text), 2)})
        return b"".join(words.get(at, 0).to_bytes(2, "little") for at in range(256))

    def read_log(self) -> Optional[bytes]:
        """Log 10h, page 0, where an error stands; the error is over then."""
        if self.failure is None:
            return None
        tag, error, lba = self.failure
        page = bytearray(SECTOR)
        page[0], page[2], page[3], page[4:11] = tag, 0x41, error, lba_bytes(lba)
        page[511] = -sum(page) & 0xFF
        self.failure = None
        return bytes(page)

    def sector(self, lba: int) -> bytes:
        return bytes(self.image[lba * SECTOR : (lba + 1) * SECTOR])

    def put_sector(self, lba: int, data: bytes) -> None:
        self.image[lba * SECTOR : (lba + 1) * SECTOR] = data
