"""The text of driver programs: what is written is read again, and each fault names the line and the cause."""
import unittest

from controller import layout
from controller.generate import LEVELS, program
from controller.program import Command, Entry, Go, Hold, Memory, Read, Write
from controller.text import TextFault, program_of, text_of

FAULTS = {
    "wriet PxCMD 1": "'wriet' is no operation: write, read, memory, command, hold, go",
    "write PxCDM 1": "'PxCDM' is no register: a name as PxCMD, a place in one as PxCMD+2, or an offset as 118",
    "write 2000 1": "'2000' is behind the registers, which have 1100h bytes",
    "write PxCMD": "the value is missing",
    "write PxCMD 1g": "'1g' is no hexadecimal number for the value",
    "write PxCMD 100000000": "the value 100000000 has more than 4 bytes",
    "write PxCMD 1 size 3": "the size is 3, and no access has other than 1, 2, 4 or 8 bytes",
    "write PxCMD 1 4": "'4' follows, where nothing or 'size' can be",
    "read PxCMD size 4 8": "'8' is left over",
    "memory 1000 abc": "'abc' are no hexadecimal bytes for the memory",
    "command 3": "'3' is neither 'slot' nor 'at'",
    "command slot 32 table 0 fis 27": "the slot is 32, which is too large",
    "command slot 3 table 0": "a command has no 'fis'",
    "command slot 3 fis 27 fis 27": "'fis' comes twice",
    "command slot 3 table 0 fis 27 prdtl 3": "'prdtl' is no member of a command: table, fis, flags, entries, prdbc, reserved, data",
    "command slot 3 table 0 fis 27 data 0:0": "'0:0' has no bytes, and an entry has at least 1",
    "command slot 3 table 0 fis 27 data 0:4:J": "'0:4:J' is no PRDT entry: ADDRESS:LENGTH, or ADDRESS:LENGTH:I",
    "hold 3 erase": "'erase' is neither 'read' nor 'write'",
    "go": "the slot is missing",
}


class Text(unittest.TestCase):
    def test_random_programs_of_all_levels_are_read_as_they_are_written(self) -> None:
        for level in LEVELS:
            for seed in range(100):
                ops = program(seed, level)
                self.assertEqual(program_of(text_of(ops), "it"), ops, f"{level} {seed}")

    def test_each_operation_is_read(self) -> None:
        ops = program_of(
            "# a comment\n\nwrite PxCMD 17\nwrite PxCMD+2 1 size 2\nread 13c\nmemory 1000 00ff # another\n"
            "command slot 3 table 01001000 fis 2780c8 flags 45 entries 9 prdbc 7 reserved 01 data 2000:512 3000:2:I\ncommand at 5 table 80 fis 27\nhold 3 read\ngo 3\n", "it")
        self.assertEqual(ops, [
            Write(layout.PX_CMD, 0x17), Write(layout.PX_CMD + 2, 1, 2), Read(0x13C), Memory(0x1000, b"\0\xff"),
            Command(layout.LIST + 96, 0x01001000, b"\x27\x80\xc8".ljust(20, b"\0"), (Entry(0x2000, 512), Entry(0x3000, 2, True)), 0x45, 9, 7, b"\1".ljust(16, b"\0")),
            Command(5, 0x80, b"\x27".ljust(20, b"\0")), Hold(3, "read"), Go(3),
        ])

    def test_each_fault_names_line_and_cause(self) -> None:
        for line, cause in FAULTS.items():
            with self.assertRaises(TextFault) as raised:
                program_of(f"# first\n{line}\n", "it")
            self.assertEqual(str(raised.exception), f"it, line 2: {cause}")


if __name__ == "__main__":
    unittest.main()
