"""What docs/QEMU.md says that no script can show, tried on QEMU by hand-made accesses."""
import unittest
from typing import Optional, Sequence

from judge import layout
from judge.adapter import EmulatorFault
from judge.layout import FRE, PX_CI, PX_CLB, PX_CMD, PX_FB, PX_SACT, PX_TFD, ST, header_place, window_base
from judge.qemu import Qemu
from tests.common import needs_qemu

PX_IE, PX_IS, PX_SIG = 0x114, 0x110, 0x124


@needs_qemu
class Beside(unittest.TestCase):
    def setUp(self) -> None:
        self.qemu = Qemu()
        self.addCleanup(self.qemu.stop)
        self.qemu.start(8, 32)

    def read(self, offset: int) -> int:
        return self.qemu.read_register(offset)

    def write(self, offset: int, value: int) -> None:
        self.qemu.write_register(offset, value)

    def run_port(self) -> None:
        for offset, value in ((PX_CLB, layout.COMMAND_LIST), (PX_FB, layout.RECEIVED_AREA), (PX_CMD, FRE), (PX_CMD, FRE | ST)):
            self.write(offset, value)

    def put(self, slot: int, tag: Optional[int] = None, command: int = 0x61, device: int = 0x40, lengths: Sequence[int] = (512,), flags: int = 0x80, header: int = 0x45, count: int = 1) -> None:
        """A command from LBA 0 on, whose window is filled with AAh; all pieces of its list are there."""
        base = window_base(slot)
        cfis = bytes([0x27, flags, command, count, 0, 0, 0, device, 0, 0, 0, 0, (slot if tag is None else tag) << 3])
        entries = [(base + 0x8000).to_bytes(4, "little") + bytes(8) + (length - 1).to_bytes(4, "little") for length in lengths]
        self.qemu.write_memory(base, cfis.ljust(0x80, b"\0") + b"".join(entries))
        self.qemu.write_memory(base + 0x8000, b"\xaa" * 512)
        first = bytes([header, 0]) + len(lengths).to_bytes(2, "little") + bytes(4) + base.to_bytes(4, "little")
        self.qemu.write_memory(header_place(slot), first.ljust(32, b"\0"))

    def issue(self, slot: int) -> None:
        self.write(PX_SACT, 1 << slot)
        self.write(PX_CI, 1 << slot)

    def release(self, tag: int) -> None:
        self.assertTrue(self.qemu.complete(tag))
        self.qemu.settle()

    def sector(self) -> bytes:
        return (self.qemu.sector(0) or b"")[:1]

    def test_the_words_before_fre_is_set(self) -> None:
        self.assertEqual([self.read(it) for it in (PX_TFD, PX_SIG, PX_CMD)], [0x7F, 0xFFFFFFFF, 6])

    def test_low_bits_of_the_bases_and_pxie(self) -> None:
        for offset, value, got in ((PX_CLB, 0x100FF, 0x100FF), (PX_FB, 0x104FF, 0x104FF), (PX_IE, 0xFFFFFFFF, 0xFDC000FF)):
            self.write(offset, value)
            self.assertEqual(self.read(offset), got)

    def test_st_without_fre_is_taken(self) -> None:
        self.write(PX_CLB, layout.COMMAND_LIST)
        self.write(PX_CMD, ST)
        self.assertEqual(self.read(PX_CMD), 0x8001)

    def test_fre_and_the_base_change_while_st_is_1(self) -> None:
        self.run_port()
        self.write(PX_CLB, 0x30000)
        self.write(PX_CMD, ST)
        self.assertEqual((self.read(PX_CLB), self.read(PX_CMD) & FRE), (0x30000, 0))

    def test_a_slot_that_is_told_while_st_is_0_runs_later(self) -> None:
        self.put(0)
        self.issue(0)
        self.assertEqual((self.read(PX_SACT), self.read(PX_CI)), (1, 1))
        self.run_port()
        self.release(0)
        self.assertEqual(self.sector(), b"\xaa")

    def test_offsets_with_no_register_read_0(self) -> None:
        self.write(0x148, 0xFFFFFFFF)
        self.assertEqual(self.read(0x148), 0)

    def test_an_outstanding_command_goes_on_when_st_is_cleared(self) -> None:
        self.run_port()
        self.put(0)
        self.issue(0)
        self.write(PX_CMD, FRE)
        self.write(PX_CMD, FRE | ST)
        self.release(0)
        fis = self.qemu.read_memory(layout.RECEIVED_AREA + 0x58, 8)
        self.assertEqual((self.sector(), fis[0], fis[4]), (b"\xaa", 0xA1, 1))

    def test_after_an_error_a_comreset_brings_the_port_back(self) -> None:
        self.run_port()
        self.put(0)
        self.issue(0)
        self.assertTrue(self.qemu.fail(0, 0x40, 0))
        self.qemu.settle()
        self.assertEqual(self.read(PX_TFD), 0x441)
        self.write(PX_CMD, FRE)
        for value in (1, 0):
            self.write(layout.PX_SCTL, value)
        self.run_port()
        self.issue(0)
        self.assertEqual(self.read(PX_CI), 0)
        self.release(0)
        self.assertEqual((self.sector(), self.read(PX_SACT)), (b"\xaa", 0))

    def test_identify_goes_through_while_a_command_is_outstanding(self) -> None:
        self.run_port()
        self.put(1)
        self.issue(1)
        self.put(0, command=0xEC, device=0, header=5)
        self.write(PX_CI, 1)
        self.assertEqual((self.read(PX_CI), self.qemu.read_memory(layout.RECEIVED_AREA + 0x20, 1)), (0, b"\x5f"))

    def test_a_tag_unlike_the_slot_is_executed(self) -> None:
        self.run_port()
        self.put(0, tag=5)
        self.write(PX_SACT, 0x21)
        self.write(PX_CI, 1)
        self.release(0)
        self.assertEqual((self.sector(), self.read(PX_SACT)), (b"\xaa", 1))

    def test_a_tag_in_use_is_ignored(self) -> None:
        self.run_port()
        self.put(0)
        self.issue(0)
        self.assertEqual(self.read(PX_CI), 0)
        self.issue(0)
        self.qemu.settle()
        self.assertEqual((self.read(PX_CI), self.read(PX_SACT)), (1, 1))

    def test_windows_that_break_a_rule_are_executed(self) -> None:
        self.run_port()
        for slot in range(4):
            self.qemu.put_sector(0, bytes(512))
            device, header, lengths = ((0, 0x45, (512,)), (0x40, 5, (512,)), (0x40, 0x45, (511, 1)), (0x40, 0x45, (512, 512)))[slot]
            self.put(slot, device=device, header=header, lengths=lengths)
            self.issue(slot)
            self.release(slot)
            self.assertEqual((self.sector(), self.read(PX_SACT)), (b"\xaa", 0), slot)

    def test_a_list_that_is_too_short_ends_with_ofs(self) -> None:
        self.run_port()
        self.put(0, lengths=(256,))
        self.issue(0)
        self.assertEqual((self.read(PX_IS) >> 24 & 1, self.read(PX_SACT), self.sector()), (1, 1, b"\0"))

    def test_a_command_with_reserved_bits_beside_c_is_ignored(self) -> None:
        self.run_port()
        for slot, flags in enumerate((0x90, 0xC0, 0x81)):
            self.put(slot, flags=flags)
            self.issue(slot)
            self.qemu.settle()
            self.assertEqual((self.read(PX_SACT) >> slot & 1, self.read(PX_CI) >> slot & 1, self.sector()), (1, 1, b"\0"))

    def test_a_list_of_1024_pieces_is_executed_and_one_more_fails(self) -> None:
        for most, entries in ((True, 1024), (False, 1025)):
            self.qemu.stop()
            self.qemu.start(8, 32)
            self.run_port()
            self.put(0, lengths=[2] * (entries - 1) + [8 * 512 - 2 * (entries - 1)], count=8)
            self.issue(0)
            if most:
                self.release(0)
                self.assertEqual((self.sector(), self.read(PX_SACT)), (b"\xaa", 0))
            else:
                with self.assertRaisesRegex(EmulatorFault, "the emulator has closed its disk"):
                    self.qemu.complete(0)

    def test_a_command_without_c_is_ignored(self) -> None:
        self.run_port()
        self.put(0, flags=0)
        self.issue(0)
        self.qemu.settle()
        self.assertEqual((self.read(PX_SACT), self.read(PX_CI), self.sector()), (1, 1, b"\0"))


if __name__ == "__main__":
    unittest.main()
