"""Faults of commands, FISes, data and memory: each is one changed body."""
from .. import layout
from ..layout import BSY, DRQ, ERR, PX_CI, PX_CMD, PX_IS, PX_SACT, PX_TFD, ST
from .disk import GOOD
from .hba import Hba
from .registers import DHRS, SDBS, TFES, Task


class StopKeepsActive(Hba):
    """PxSACT is as it was when ST is cleared."""

    def write_command(self, value: int) -> None:
        kept = self.words[PX_SACT]
        super().write_command(value)
        self.words[PX_SACT] = kept


class StopKeepsIssued(Hba):
    """PxCI is as it was when ST is cleared."""

    def write_command(self, value: int) -> None:
        kept = self.words[PX_CI]
        super().write_command(value)
        self.words[PX_CI] = kept


class StopKeepsSlot(Hba):
    """PxCMD.CCS is as it was when ST is cleared."""

    def write_command(self, value: int) -> None:
        kept = self.words[PX_CMD] & 0x1F00
        super().write_command(value)
        self.words[PX_CMD] |= kept


class NoCurrentSlot(Hba):
    """PxCMD.CCS is always 0."""

    def take(self) -> bool:
        took = super().take()
        self.words[PX_CMD] &= ~0x1F00
        return took


class LowestSlotFirst(Hba):
    """The lowest slot comes first, whichever was the last one."""

    def take(self) -> bool:
        self.behind = 0
        return super().take()


class TakenWhileBusy(Hba):
    """A command is taken while BSY or DRQ is 1."""

    def take(self) -> bool:
        kept = self.words[PX_TFD]
        self.words[PX_TFD] &= ~(BSY | DRQ)
        took = super().take()
        if not took:
            self.words[PX_TFD] = kept
        return took


class NoBusy(Hba):
    """BSY is 0 while a command is in flight."""

    def send(self, task: Task) -> None:
        super().send(task)
        self.words[PX_TFD] &= ~BSY


class CKeepsIssued(Hba):
    """C clears BSY, and PxCI keeps the slot."""

    kept = 0  # slots that are not taken again

    def send(self, task: Task) -> None:
        super().send(task)
        if task.flags & 0x400:
            self.kept |= 1 << task.slot

    def take(self) -> bool:
        self.words[PX_CI] &= ~self.kept
        took = super().take()
        self.kept = self.kept if self.words[PX_CMD] & ST else 0
        self.words[PX_CI] |= self.kept
        return took


class CKeepsBusy(Hba):
    """C clears the bit of PxCI, and BSY stays."""

    def send(self, task: Task) -> None:
        super().send(task)
        if task.flags & 0x400:
            self.words[PX_TFD] |= BSY


class LoneControlSigns(Hba):
    """A control FIS with SRST 0 resets the disk, whatever came before it."""

    def control(self, task: Task) -> None:
        self.in_reset = True
        super().control(task)


class ErrorByteLost(Hba):
    """A FIS brings the status alone into PxTFD."""

    def receive(self, slot: int, fis: bytes) -> None:
        super().receive(slot, fis)
        self.words[PX_TFD] &= 0xFF


class BitsFisTakesAll(Hba):
    """A Set Device Bits FIS clears all of PxSACT."""

    def bits_fis(self, status: int, error: int, tags: int) -> None:
        super().bits_fis(status, error, tags)
        if not status & ERR:
            self.words[PX_SACT] = 0


class ErrorClearsActive(Hba):
    """PxSACT loses the bit of the command that failed."""

    def serve_one(self, task: Task) -> None:
        super().serve_one(task)
        self.words[PX_SACT] &= ~(1 << task.slot)


class NoTfes(Hba):
    """ERR in a status sets no bit of PxIS."""

    def fail_task(self) -> None:
        self.halted = True


class GoesOnAfterAnError(Hba):
    """An error stops nothing."""

    tried = 0  # slots that are not taken again

    def fail_task(self) -> None:
        self.words[PX_IS] |= TFES

    def take(self) -> bool:
        kept = self.tried & self.words[PX_CI] if self.words[PX_CMD] & ST else 0
        self.words[PX_CI] &= ~kept
        took = super().take()
        self.tried = kept | took << (self.words[PX_CMD] >> 8 & 31)
        self.words[PX_CI] |= kept
        return took


class ErrorClearsIssued(Hba):
    """PxCI loses the bit of a command that failed."""

    def receive(self, slot: int, fis: bytes) -> None:
        super().receive(slot, fis)
        self.words[PX_CI] &= ~(1 << slot)


class NoSdbs(Hba):
    """A Set Device Bits FIS sets no bit of PxIS."""

    def bits_fis(self, status: int, error: int, tags: int) -> None:
        kept = self.words[PX_IS] & SDBS
        super().bits_fis(status, error, tags)
        self.words[PX_IS] = self.words[PX_IS] & ~SDBS | kept


class DhrsWithoutI(Hba):
    """Each D2H Register FIS sets DHRS."""

    def receive(self, slot: int, fis: bytes) -> None:
        super().receive(slot, fis)
        self.words[PX_IS] |= DHRS


class NoPssOfWrites(Hba):
    """A PIO Setup FIS of a write sets no bit of PxIS."""

    def end_pio(self, task: Task, ends: int, first: bool) -> None:
        super().end_pio(task, ends, first or task.asked.write)


class PssAtOnce(Hba):
    """The first PIO Setup FIS of a write has I."""

    def end_pio(self, task: Task, ends: int, first: bool) -> None:
        super().end_pio(task, ends, False)


class CountOfTheList(Hba):
    """PRDBC is the length of the PRDT."""

    def count(self, task: Task, moved: int) -> None:
        super().count(task, sum(length for _, length in task.runs))


class NoCount(Hba):
    """PRDBC isn't written."""

    def count(self, task: Task, moved: int) -> None:
        pass


class LengthWithoutItsOne(Hba):
    """DBC is taken as the number of bytes."""

    def length(self, entry: bytes) -> int:
        return int.from_bytes(entry[12:16], "little") & 0x3FFFFF


class UpperHalfIgnored(Hba):
    """DBAU is left away: data go below 4 GiB."""

    def put(self, address: int, data: bytes) -> None:
        super().put(address & 0xFFFFFFFF if len(data) > 64 else address, data)


class SetDeviceBitsAt60(Hba):
    """The Set Device Bits FIS comes to 60h of the area, where unknown FISes belong."""

    def post(self, offset: int, fis: bytes) -> None:
        super().post(0x60 if offset == 0x58 else offset, fis)


class NoDmaSetup(Hba):
    """A DMA Setup FIS isn't posted."""

    def post(self, offset: int, fis: bytes) -> None:
        if offset:
            super().post(offset, fis)


class FinalStatusBusy(Hba):
    """E_Status of the last PIO Setup FIS has DRQ."""

    def pio_setup(self, task: Task, to_host: bool, ends: int, first: bool) -> None:
        super().pio_setup(task, to_host, ends | (DRQ if ends == GOOD else 0), first)


class WrittenBelowTheError(Hba):
    """A write that fails has changed its failing sector."""

    def dma(self, task: Task) -> None:
        if task.asked.write and self.drive.failure(task.asked) and task.asked.lba < layout.SECTORS:
            self.drive.write(task.asked.lba, self.gather(task)[: layout.SECTOR])
        super().dma(task)


class OneSectorTooMany(Hba):
    """A read that fails has moved the failing sector too."""

    def serve_one(self, task: Task) -> None:
        failure = self.drive.failure(task.asked)
        if failure and not task.asked.write and failure.lba < layout.SECTORS:
            self.scatter(task, self.drive.read(task.asked.lba, failure.lba + 1 - task.asked.lba))
        super().serve_one(task)


class LogNamesNoSector(Hba):
    """The log of a failed queued command has no LBA."""

    def accept(self, task: Task) -> None:
        super().accept(task)
        if self.drive.failed:
            self.drive.failed = bytes([task.slot, 0x41, 0x10]).ljust(512, b"\0")


class OutstandingSurviveStop(Hba):
    """A queued command that is in flight when ST is cleared still moves its data."""

    def write_command(self, value: int) -> None:
        flying = dict(self.queue)
        super().write_command(value)
        self.after = {**getattr(self, "after", {}), **{slot: task for slot, task in flying.items() if not self.words[PX_CMD] & ST}}

    def go(self, slot: int) -> None:
        late = getattr(self, "after", {}).pop(slot, None)
        super().go(slot)
        if late:
            self.serve_one(late)


class WritesAnywhere(Hba):
    """A read writes two bytes behind its last entry."""

    def scatter(self, task: Task, data: bytes, after: int = 0) -> None:
        super().scatter(task, data, after)
        if task.runs and not task.asked.write:
            address, length = task.runs[-1]
            self.put(address + length, b"\0\0")
