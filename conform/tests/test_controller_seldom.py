"""The level `seldom`: faults that programs of the other levels hardly ever find, each found within 40 programs of it; and none without a fault."""
import unittest
from typing import Any, Dict, Optional, Tuple, Type

from controller import cli, layout
from controller.campaign import Worker
from controller.generate import program
from controller.known import read_known
from controller.layout import PX_CI, PX_CLB, PX_CMD, PX_IS, PX_TFD, ST
from controller.stand_in.hba import Hba
from controller.stand_in.registers import CLO, Task
from tests.common import needs_library

MOST = 40
LOGS = (0x2F, 0x47)


class LogNotNeeded(Hba):
    """After an error of the queue commands are done before log 10h was read."""

    def answer(self, task: Task) -> None:
        kept = self.drive.failed
        if task.fis[2] in LOGS:
            super().answer(task)
            return
        self.drive.failed = None
        super().answer(task)
        self.drive.failed = self.drive.failed or kept


class CountOf0IsNone(Hba):
    """A count of 0 is no sector."""

    def fetch(self, slot: int) -> Task:
        task = super().fetch(slot)
        at = 3 if task.asked.kind == "queued" else 12
        return task._replace(asked=task.asked._replace(count=0)) if task.asked.count and not task.fis[at] else task


class ResetKeepsFailure(Hba):
    """A software reset leaves the disk as it was after an error of the queue."""

    def control(self, task: Task) -> None:
        kept = self.drive.failed
        super().control(task)
        self.drive.failed = kept


class OverrideClearsNothing(Hba):
    """CLO is without effect."""

    def write_command(self, value: int) -> None:
        super().write_command(value & ~CLO)


class ResetKeepsStatus(Hba):
    """GHC.HR leaves PxIS."""

    def power_on(self) -> None:
        kept = self.words.get(PX_IS, 0)
        super().power_on()
        self.words[PX_IS] = kept


class ZeroClearsIssued(Hba):
    """A 0 that is written to PxCI clears its bit."""

    def write_word(self, at: int, value: int) -> None:
        if at == PX_CI and self.words[PX_CMD] & ST:
            self.words[PX_CI] &= value
        super().write_word(at, value)


class LowerHalfAlone(Hba):
    """An access of 8 bytes writes the lower four."""

    def write(self, offset: int, size: int, value: int) -> None:
        super().write(offset, min(size, 4), value & layout.ONES)


class LowBitsKept(Hba):
    """The low bits of PxCLB become what is written to them."""

    def write_word(self, at: int, value: int) -> None:
        super().write_word(at, value)
        if at == PX_CLB and not self.words[PX_CMD] & ST:
            self.words[PX_CLB] = value


FAULTS: Dict[Type[Hba], Tuple[str, ...]] = {
    LogNotNeeded: ("PxTFD",), CountOf0IsNone: ("PxTFD",), ResetKeepsFailure: ("PxTFD",), OverrideClearsNothing: ("PxTFD",), ResetKeepsStatus: ("PxIS",), ZeroClearsIssued: ("PxCI",),
    LowerHalfAlone: ("PxCLBU", "PxFBU", "PxIE", "PxSACT"), LowBitsKept: ("PxCLB", "emulator: the low bits of PxCLB and PxFB are 0"),
}


def found(make: Type[Hba], most: int) -> Optional[Tuple[int, Any]]:
    """The first program that differs, and what became of it."""
    worker = Worker(make, read_known(cli.BASE))
    for seed in range(1, most + 1):
        judged = worker.judge(program(seed, "seldom"))
        if judged.end == "new":
            return seed, judged
    return None


@needs_library
class Seldom(unittest.TestCase):
    def test_each_fault_is_found_at_its_place(self) -> None:
        for fault, places in FAULTS.items():
            it = found(fault, MOST)
            self.assertIsNotNone(it, f"{fault.__name__} isn't found within {MOST} programs")
            assert it
            differ = {one.difference.place for one in it[1].new}
            self.assertTrue(differ & set(places), f"{fault.__name__} is found at {differ}")
            print(f"  {fault.__name__:<28}seldom {it[0]}, operation {it[1].operations}")

    def test_without_a_fault_nothing_differs(self) -> None:
        self.assertIsNone(found(Hba, MOST))


if __name__ == "__main__":
    unittest.main()
