"""Fifteen programs by hand, with what AHCI 1.3.1, Serial ATA and ACS-3 say of the registers and of the received FIS area at their end."""
import unittest
from typing import Dict, NamedTuple, Tuple

from controller import layout
from controller.library import Library
from controller.recorder import record
from controller.text import program_of
from tests.common import needs_library

STARTED = """
write PxCLB 01000000
write PxFB 01000400
write PxCMD 00000016
write PxSERR ffffffff
write PxIS ffffffff
write PxIE 7840007f
write GHC 80000002
write PxCMD 00000017
"""
IDENTIFY = "fis 2780ec00000000a0"
READ = "fis 2780c8000000004000000000"
SECTOR = "data 01020000:512"
SRST, NO_SRST = "fis 27000000000000000000000000000004", "fis 27"
REGISTERS = {"PxIS": layout.PX_IS, "PxTFD": layout.PX_TFD, "PxCI": layout.PX_CI, "PxSACT": layout.PX_SACT}
FISES = {"PIO Setup": (0x20, 4), "D2H": (0x40, 4), "SDB": (0x58, 8)}


def queued(slot: int) -> str:
    return f"command slot {slot} table 0100{slot + 1}000 fis 278060010000004000000000{slot << 3:02x} {SECTOR}\nwrite PxSACT {1 << slot:08x}\nwrite PxCI {1 << slot:08x}\n"


class Case(NamedTuple):
    """What a program ends with: values of registers, the first bytes of FISes, and the level of the interrupt line."""

    about: str
    program: str
    line: bool
    ends: Dict[str, int]
    fises: Dict[str, str]


CASES: Tuple[Case, ...] = (
    Case("GHC.HR resets the interrupts too, and the device sends its signature, which isn't posted while FRE is 0 (10.4.3, 3.3.7)",
         STARTED + f"command slot 0 table 01001000 {IDENTIFY} {SECTOR}\nwrite PxCI 00000001\nwrite GHC 80000001\n",
         False, {"PxIS": 0x00400040, "PxTFD": 0x150, "PxCI": 0, "PxSACT": 0}, {"PIO Setup": "5f604800", "D2H": "34005001"}),
    Case("a queued command that was outstanding at GHC.HR is gone (10.4.3)",
         STARTED + "write PxCMD 00000007\n" + queued(2) + "write GHC 80000001\n" + STARTED + queued(0),
         True, {"PxIS": 0x8, "PxTFD": 0x40, "PxCI": 0, "PxSACT": 0}, {"D2H": "34004000", "SDB": "a140400001000000"}),
    Case("the count of a command of 28 bits has eight bits (ACS-3, READ DMA)",
         STARTED + f"command slot 0 table 01001000 fis 2780c80000000040000000000101 {SECTOR}\nwrite PxCI 00000001\n",
         True, {"PxIS": 0x1, "PxTFD": 0x40, "PxCI": 0}, {"D2H": "34404000"}),
    Case("a read without a PRDT overflows its list, which is no fatal error (3.3.5, OFS; 6.2.1)",
         STARTED + f"command slot 0 table 01001000 {READ}01\nwrite PxCI 00000001\n",
         True, {"PxIS": 0x01000001, "PxTFD": 0x40, "PxCI": 0}, {"D2H": "34404000"}),
    Case("ST off and on while a read is outstanding: the command is gone, and BSY stays (5.3.2; 10.4.1)",
         STARTED + f"command slot 0 table 01001000 {READ}01 {SECTOR}\nhold 0 read\nwrite PxCI 00000001\nwrite PxCMD 00000016\nwrite PxCMD 00000017\ngo 0\n",
         False, {"PxIS": 0, "PxTFD": 0x1D0, "PxCI": 0}, {"D2H": "34005001"}),
    Case("a device that is held in a software reset answers no command (10.4.1; Serial ATA, \"Software reset\")",
         STARTED + f"command slot 0 table 01001000 {SRST} flags 0505\nwrite PxCI 00000001\ncommand slot 1 table 01001800 {IDENTIFY} {SECTOR}\nwrite PxCI 00000002\n",
         False, {"PxIS": 0, "PxTFD": 0x1D0, "PxCI": 2}, {"D2H": "34005001"}),
    Case("without C the FIS that sets SRST leaves BSY and PxCI, so that no other is sent (4.2.2, 5.3.2, 10.4.1)",
         STARTED + f"command slot 0 table 01001000 {SRST}\nwrite PxCI 00000001\ncommand slot 1 table 01001800 {NO_SRST}\nwrite PxCI 00000002\n",
         False, {"PxIS": 0, "PxTFD": 0x1D0, "PxCI": 3}, {"D2H": "34005001"}),
    Case("a FIS with SRST 0 that none with SRST 1 preceded resets nothing (Serial ATA, \"Software reset\")",
         STARTED + f"command slot 0 table 01001000 {IDENTIFY} {SECTOR}\nwrite PxCI 00000001\ncommand slot 1 table 01001800 {NO_SRST}\nwrite PxCI 00000002\n",
         True, {"PxIS": 0x2, "PxTFD": 0xC0, "PxCI": 2}, {"PIO Setup": "5f604800", "D2H": "34005001"}),
    Case("a write by PIO has a PIO Setup FIS a block, the second with I, and a D2H Register FIS at its end (ACS-3, PIO data-out)",
         STARTED + "command slot 0 table 01001000 fis 27803000000000400000000002 flags 0045 data 01020000:1024\nwrite PxCI 00000001\n",
         True, {"PxIS": 0x3, "PxTFD": 0x40, "PxCI": 0}, {"PIO Setup": "5f404800", "D2H": "34404000"}),
    Case("while FRE is 0 the signature is taken, and every other FIS waits (3.3.7, FRE)",
         f"write PxCLB 01000000\nwrite PxFB 01000400\nwrite PxCMD 00000007\ncommand slot 0 table 01001000 {IDENTIFY} {SECTOR}\nwrite PxCI 00000001\nwrite PxCMD 00000017\n",
         False, {"PxIS": 0x00400042, "PxTFD": 0x40, "PxCI": 0}, {"PIO Setup": "5f604800", "D2H": "34005001"}),
    Case("the error of a command that is gone ends no later queued one (5.3.2, 3.3.8)",
         STARTED + "command slot 0 table 01001000 fis 2780a10000000040\nwrite PxCI 00000001\nwrite PxCMD 00000016\nwrite PxIS ffffffff\nwrite PxCMD 00000017\n" + queued(0),
         True, {"PxIS": 0x8, "PxTFD": 0x40, "PxCI": 0, "PxSACT": 0}, {"D2H": "34004000", "SDB": "a140400001000000"}),
    Case("a slot that is issued again while its queued command is outstanding: no bit is left at the end (5.5.1 forbids it)",
         STARTED + "hold 5 read\n" + queued(5) + "write PxCI 00000020\ngo 5\n",
         True, {"PxIS": 0x8, "PxTFD": 0x40, "PxCI": 0, "PxSACT": 0}, {"D2H": "34004000", "SDB": "a140400020000000"}),
    Case("an entry with I whose bytes have all been read sets DPS, whatever comes behind it (3.3.5, DPS; 4.2.3.3, I)",
         STARTED + f"command slot 0 table 01001000 {READ}01 data 01020000:256:I 01021000:256\nwrite PxCI 00000001\n",
         True, {"PxIS": 0x21, "PxTFD": 0x40, "PxCI": 0}, {"D2H": "34404000"}),
    Case("an entry with I whose bytes have all been written sets it too (3.3.5, DPS; 4.2.3.3, I)",
         STARTED + "command slot 0 table 01001000 fis 2780ca00000000400000000001 flags 0045 data 01020000:512:I\nwrite PxCI 00000001\n",
         True, {"PxIS": 0x21, "PxTFD": 0x40, "PxCI": 0}, {"D2H": "34404000"}),
    Case("data that end before the last byte of the entry with I don't set it (3.3.5, DPS; 4.2.3.3, I)",
         STARTED + f"command slot 0 table 01001000 {READ}01 data 01020000:256 01021000:258:I\nwrite PxCI 00000001\n",
         True, {"PxIS": 0x1, "PxTFD": 0x40, "PxCI": 0}, {"D2H": "34404000"}),
)


@needs_library
class ByHand(unittest.TestCase):
    def test_each_ends_as_the_standards_say(self) -> None:
        model = Library()
        model.start()
        try:
            for case in CASES:
                recorded = record(model, program_of(case.program, case.about))
                self.assertEqual(recorded.death, "", case.about)
                last = recorded.looks[-1]
                self.assertEqual({it: f"{last.reg(REGISTERS[it]):08x}" for it in case.ends}, {it: f"{value:08x}" for it, value in case.ends.items()}, case.about)
                for name, start in case.fises.items():
                    at, length = FISES[name]
                    there = last.bytes_at(layout.AREA + at, length)
                    self.assertEqual(there and there.hex(), start, f"{case.about}: {name}")
                self.assertEqual(last.line, case.line, case.about)
        finally:
            model.stop()


if __name__ == "__main__":
    unittest.main()
