"""Faults to plant in the stand-in: each is what somebody could believe of the standard, and one changed body."""
import re
from typing import Dict, List, NamedTuple, Optional, Sequence, Tuple, Type

from judge import layout
from stand_in.disk import Command, Disk, Failure, bits_fis
from stand_in.port import DHRS, SDBS, TFES, StandIn


class CiClearedAtTheCompletion(StandIn):
    """PxCI keeps a queued command's bit until the command is completed."""

    def receive_register(self, fis: bytes, slot: int) -> None:
        kept = self.words[layout.PX_CI] if slot in self.disk.commands else 0
        super().receive_register(fis, slot)
        self.words[layout.PX_CI] |= kept

    def receive_bits(self, fis: bytes) -> None:
        super().receive_bits(fis)
        self.words[layout.PX_CI] &= ~int.from_bytes(fis[4:8], "little")


class NoSdbs(StandIn):
    """A Set Device Bits FIS sets no bit of PxIS, though its I is 1."""

    def receive_bits(self, fis: bytes) -> None:
        before = self.words[layout.PX_IS] & SDBS
        super().receive_bits(fis)
        self.words[layout.PX_IS] = self.words[layout.PX_IS] & ~SDBS | before


class SactWrittenWhole(StandIn):
    """A 0 that is written to PxSACT clears the bit."""

    def activate(self, value: int) -> None:
        self.words[layout.PX_SACT] = value


class DbcWithoutItsOne(StandIn):
    """DBC is taken as the number of bytes."""

    def length(self, last: int) -> int:
        return last & 0x3FFFFF


class GoesOnAfterAnError(StandIn):
    """An error stops nothing: outstanding commands complete."""

    def fail(self, tag: int, error: int, lba: int) -> bool:
        others = {other: command for other, command in self.disk.commands.items() if other != tag}
        done = super().fail(tag, error, lba)
        self.disk.commands.update(others)
        self.halted = False
        return done

    def stop_port(self) -> None:
        super().stop_port()
        self.disk.commands.clear()


class ErrorClearsSact(StandIn):
    """PxSACT loses the bit of the command that failed."""

    def fail(self, tag: int, error: int, lba: int) -> bool:
        done = super().fail(tag, error, lba)
        self.words[layout.PX_SACT] &= ~(1 << tag)
        return done


class NoTfes(StandIn):
    """ERR in a status sets no bit of PxIS."""

    def look_at_error(self, status: int) -> None:
        before = self.words[layout.PX_IS] & TFES
        super().look_at_error(status)
        self.words[layout.PX_IS] = self.words[layout.PX_IS] & ~TFES | before


class ErrorByteLost(StandIn):
    """A Set Device Bits FIS brings the status alone into PxTFD."""

    def receive_bits(self, fis: bytes) -> None:
        super().receive_bits(fis)
        self.words[layout.PX_TFD] &= 0xFF


class IsWrittenWhole(StandIn):
    """PxIS becomes what is written to it."""

    def acknowledge(self, value: int) -> None:
        self.words[layout.PX_IS] &= value


class StopKeepsSact(StandIn):
    """PxSACT is as it was when ST is cleared."""

    def stop_port(self) -> None:
        kept = self.words[layout.PX_SACT]
        super().stop_port()
        self.words[layout.PX_SACT] = kept


class SetDeviceBitsAt60h(StandIn):
    """The Set Device Bits FIS comes to 60h of the area, where unknown FISes belong."""

    def put_fis(self, name: str, fis: bytes) -> None:
        if name == "Set Device Bits FIS":
            self.memory.write(self.words[layout.PX_FB] + 0x60, fis)
        else:
            super().put_fis(name, fis)


class DhrsWithoutI(StandIn):
    """Each D2H Register FIS sets DHRS."""

    def receive_register(self, fis: bytes, slot: int) -> None:
        super().receive_register(fis, slot)
        self.words[layout.PX_IS] |= DHRS


class LbaOf24Bits(StandIn):
    """The upper half of the LBA is left away."""

    def lba(self, cfis: bytes) -> int:
        return int.from_bytes(cfis[4:7], "little")


class DataOfTheAcceptance(StandIn):
    """A read has the sectors as they were when it was accepted."""

    def fetch(self, tag: int) -> None:
        super().fetch(tag)
        command = self.disk.commands.get(tag)
        if command and not command.write:
            self.kept[tag] = b"".join(self.disk.sector(command.lba + at) for at in range(command.count))

    def start(self, sectors: int, depth: int) -> None:
        super().start(sectors, depth)
        self.kept: Dict[int, bytes] = {}

    def complete_together(self, tags: Sequence[int]) -> bool:
        done = super().complete_together(tags)
        for tag in tags if done else []:
            if tag in self.kept:
                self.scatter(self.pieces(tag), self.kept.pop(tag))
        return done


class FailedWriteOnTheDisk(StandIn):
    """A write that fails has changed its first sector."""

    def fail(self, tag: int, error: int, lba: int) -> bool:
        command = self.disk.commands.get(tag)
        if command and command.write:
            self.disk.put_sector(command.lba, command.data[: layout.SECTOR])
        return super().fail(tag, error, lba)


class LastSectorDisk(Disk):
    def take(self, tag: int, command: Command) -> bytes:
        if not self.failure and command.lba + command.count == self.sectors:
            return self.stop(Failure(tag, 0x10, self.sectors))
        return super().take(tag, command)


class LastSectorRefused(StandIn):
    """A command that ends with the last sector is taken to pass it."""

    def new_disk(self, sectors: int, depth: int) -> Disk:
        return LastSectorDisk(sectors, depth)


class LogNamesSlot0(StandIn):
    """Log 10h names the slot by which it is read."""

    def send_page(self, tag: int, page: Optional[bytes]) -> None:
        if page and self.memory.read(self.table(tag) + 2, 1) == b"\x2f":
            page = bytes([0]) + page[1:511] + bytes([page[511] + page[0] & 0xFF])
        super().send_page(tag, page)


class AllTagsInOneFis(StandIn):
    """SActive of a Set Device Bits FIS has the bits of all outstanding commands."""

    def receive_bits(self, fis: bytes) -> None:
        super().receive_bits(fis if fis[2] & 1 else bits_fis(fis[2], fis[3], [tag for tag in range(32) if self.words[layout.PX_SACT] >> tag & 1]))


class Fault(NamedTuple):
    name: str
    place: str  # where it has to be found; ` or ` stands between several
    stand_in: Type[StandIn]


PLACES: List[Tuple[Type[StandIn], str]] = [
    (CiClearedAtTheCompletion, "PxCI"), (NoSdbs, "PxIS"), (SactWrittenWhole, "PxSACT"), (DbcWithoutItsOne, "data of tag * or log 10h"),
    (GoesOnAfterAnError, "PxTFD"), (ErrorClearsSact, "PxSACT"), (NoTfes, "PxIS"), (ErrorByteLost, "PxTFD"), (IsWrittenWhole, "PxIS"),
    (StopKeepsSact, "PxSACT"), (SetDeviceBitsAt60h, "Set Device Bits FIS"), (DhrsWithoutI, "PxIS"), (LbaOf24Bits, "D2H Register FIS"),
    (DataOfTheAcceptance, "data of tag *"), (FailedWriteOnTheDisk, "disk, sector *"), (LastSectorRefused, "PxTFD"),
    (LogNamesSlot0, "log 10h"), (AllTagsInOneFis, "PxSACT"),
]


def name_of(made: Type[StandIn]) -> str:
    """SactWrittenWhole is sact_written_whole, LbaOf24Bits lba_of_24_bits."""
    return "_".join(re.findall(r"[A-Z][a-z]*|[0-9]+[a-z]*", made.__name__)).lower()


FAULTS: List[Fault] = [Fault(name_of(made), place, made) for made, place in PLACES]


def named(name: Optional[str]) -> Type[StandIn]:
    """The stand-in with this fault, or with none. KeyError where there is no such fault."""
    found: Dict[str, Type[StandIn]] = {fault.name: fault.stand_in for fault in FAULTS}
    if name is None:
        return StandIn
    return found[name]
