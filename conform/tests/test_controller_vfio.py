"""The adapter for PCI functions, over a function that is the stand-in: what it records is what the stand-in's own adapter does."""
import mmap
import unittest
from typing import Any, List, NamedTuple, Optional, Tuple
from unittest import mock

from controller import layout, vfio
from controller.generate import program
from controller.look import UNSEEN
from controller.recorder import record
from controller.stand_in.hba import Hba
from controller.stand_in.registers import Bad
from controller.text import program_of
from controller.vfio import Vfio, spans
from judge.adapter import EmulatorFault


class Mapped(NamedTuple):
    memory: mmap.mmap
    at: int
    address: int
    length: int


class Behind(Hba):
    """The stand-in behind an IOMMU: it reaches what was mapped."""

    mapped: List[Mapped] = []

    def run(self, address: int, length: int) -> Tuple[mmap.mmap, int]:
        for it in self.mapped:
            if it.address <= address and address + length <= it.address + it.length:
                return it.memory, it.at + address - it.address
        raise Bad()

    def get(self, address: int, length: int) -> bytes:
        memory, at = self.run(address, length)
        return memory[at : at + length]

    def put(self, address: int, data: bytes) -> None:
        memory, at = self.run(address, len(data))
        memory[at : at + len(data)] = data


class Fake:
    """A function of vfio_device.Function's kind."""

    can_reset, interrupts = True, True

    def __init__(self, name: str) -> None:
        self.it = Behind()

    def open(self) -> None:
        self.it.start()
        self.it.mapped = []
        self.it.reset(bytes(len(layout.IMAGE)))

    def close(self) -> None:
        self.it.stop()

    def map_memory(self, *given: Any) -> None:
        self.it.mapped.append(Mapped(*given))

    def reset(self) -> bool:
        if self.can_reset:
            self.it.reset(self.it.disk())
        return self.can_reset

    def read(self, offset: int, size: int) -> int:
        return self.it.read(offset, size)

    def write(self, offset: int, size: int, value: int) -> None:
        self.it.write(offset, size, value)

    def line(self, seconds: float) -> Optional[bool]:
        return None if self.it.level() and not self.interrupts else self.it.level()


class Recorded(unittest.TestCase):
    def setUp(self) -> None:
        for name, value in (("Function", Fake), ("QUIET", 0.0), ("PATIENCE", 0.0)):
            patch = mock.patch.object(vfio, name, value)
            patch.start()
            self.addCleanup(patch.stop)
        self.it = Vfio("0000:00:00.0")
        self.it.start()
        self.addCleanup(self.it.stop)

    def test_it_records_what_the_controller_does(self) -> None:
        own = Hba()
        own.start()
        for level in ("clean", "errors", "wild"):
            for seed in range(1, 7):
                ops = program(seed, level)
                mine, theirs = record(self.it, ops), record(own, ops)
                self.assertEqual(theirs.looks[-1].disk, mine.looks[-1].disk, f"{level} {seed}")
                self.assertEqual([look._replace(disk=UNSEEN) for look in theirs.looks], [look._replace(disk=UNSEEN) for look in mine.looks], f"{level} {seed}")

    def test_without_a_reset_of_the_function_that_of_the_hba_serves(self) -> None:
        ops = program(3, "good")
        first = record(self.it, ops)
        with mock.patch.object(Fake, "can_reset", False):
            self.assertEqual(first, record(self.it, ops))

    def test_an_interrupt_that_does_not_come_is_a_find(self) -> None:
        text = "write PxCLB 01000000\nwrite PxFB 01000400\nwrite PxIE 7840007f\nwrite GHC 80000002\nwrite PxCMD 00000017\ncommand slot 0 table 01001000 fis 2780ec\nwrite PxCI 00000001"
        ops = program_of(text, "text")
        self.assertEqual("", record(self.it, ops).death)
        with mock.patch.object(Fake, "interrupts", False):
            self.assertIn("no interrupt has come", record(self.it, ops).death)

    def test_a_disk_that_never_answers_is_named(self) -> None:
        with mock.patch.object(vfio, "SECONDS", 0.01), mock.patch.object(Behind, "take", lambda it: False):
            with self.assertRaisesRegex(EmulatorFault, "sectors 0 to 63"):
                self.it.reset(layout.IMAGE)


class Spans(unittest.TestCase):
    def test_all_sectors_are_written_but_those_that_fail(self) -> None:
        sectors = [lba for first, count in spans() for lba in range(first, first + count)]
        self.assertEqual([lba for lba in range(layout.SECTORS) if lba not in layout.BAD], sectors)


if __name__ == "__main__":
    unittest.main()
