#!/usr/bin/env python3
"""Sees that tools/check_header finds each kind of difference between c/ahci.h and the exports.

    tools/test_check_header.py

Each test copies what the check reads into a folder of its own, changes it in one place, and looks at what is said.
"""
from __future__ import annotations

import os
import shutil
import subprocess
import sys
import tempfile
import unittest
from typing import List, Tuple

TOP = os.path.dirname(os.path.dirname(os.path.realpath(__file__)))
HEADER = "c/ahci.h"
ALONE = "crates/ahci_c/src/alone.rt"
STATUS = "crates/ahci_ffi/src/status.rt"
PLACE = "crates/ahci_ffi/src/place.rt"
HBA_PLACE = "crates/hba_ffi/src/place.rt"
READ = ["tools/check_header", HEADER, "crates/ahci_c/src", "crates/ahci_ffi/src", "crates/hba_ffi/src", "crates/hba_rules/src"]

Change = Tuple[str, str, str]  # a file, an old text that stands there once, and the new one


class CheckHeader(unittest.TestCase):
    def setUp(self) -> None:
        self.room = tempfile.mkdtemp(prefix="check-header-")
        self.addCleanup(shutil.rmtree, self.room)
        for path in READ:
            at = os.path.join(self.room, path)
            os.makedirs(os.path.dirname(at), exist_ok=True)
            (shutil.copytree if os.path.isdir(os.path.join(TOP, path)) else shutil.copy)(os.path.join(TOP, path), at)

    def after(self, changes: List[Change]) -> Tuple[int, str, str]:
        """The status of the check after some changes, and what it writes."""
        for file, old, new in changes:
            path = os.path.join(self.room, file)
            with open(path, encoding="utf-8") as it:
                text = it.read()
            self.assertEqual(1, text.count(old), f"{old!r} in {file}")
            with open(path, "w", encoding="utf-8") as it:
                it.write(text.replace(old, new))
        ran = subprocess.run([sys.executable, os.path.join(self.room, "tools/check_header")], capture_output=True, text=True, check=False)
        return ran.returncode, ran.stdout, ran.stderr

    def differs(self, changes: List[Change], *names: str) -> None:
        """The check fails, and has a line for each of these names and no other."""
        status, output, errors = self.after(changes)
        self.assertEqual((1, ""), (status, output))
        self.assertEqual([f"check_header: {it}" for it in names], [line[: len("check_header: ") + len(it)] for line, it in zip(errors.splitlines(), names)])
        self.assertEqual(len(names), len(errors.splitlines()), errors)

    def test_the_header_as_it_is_agrees(self) -> None:
        status, output, errors = self.after([])
        self.assertEqual((0, ""), (status, errors))
        with open(os.path.join(TOP, HEADER), encoding="utf-8") as it:
            header = it.read()
        statuses = header.partition("typedef enum ahci_status {")[2].partition("}")[0].count(" = ")
        self.assertRegex(output, rf"^check_header: \d+ calls, 12 structs and {statuses} statuses agree\n$")

    def test_a_call_that_is_not_exported_is_told(self) -> None:
        self.differs([(HEADER, "uint32_t ahci_version(void);", "uint32_t ahci_version(void);\nuint32_t ahci_revision(void);")], "ahci_revision: ")

    def test_an_export_that_is_not_declared_is_told(self) -> None:
        self.differs([(HEADER, "uint32_t ahci_version(void);", "")], "ahci_version: the header has None")

    def test_what_a_call_answers_is_compared(self) -> None:
        self.differs([(HEADER, "uint32_t ahci_version(void);", "uint64_t ahci_version(void);")], "ahci_version: ")

    def test_a_call_that_takes_an_argument_more_is_told(self) -> None:
        self.differs([(HEADER, "uint32_t ahci_version(void);", "uint32_t ahci_version(uint32_t which);")], "ahci_version: ")

    def test_the_number_of_a_status_is_compared(self) -> None:
        said = "AHCI_OUT_OF_MEMORY: the header has 93, "
        self.differs([(HEADER, "AHCI_OUT_OF_MEMORY = ", "AHCI_OUT_OF_MEMORY = 9")], said + "Status::code has 3")

    def test_a_status_that_no_call_has_is_told(self) -> None:
        self.differs([(HEADER, "AHCI_OUT_OF_MEMORY = ", "AHCI_TIRED = 99,\n    AHCI_OUT_OF_MEMORY = ")], "AHCI_TIRED: the header has 99, Status::code")

    def test_a_number_that_two_statuses_have_is_told(self) -> None:
        self.differs([(HEADER, "AHCI_OUT_OF_MEMORY = 3", "AHCI_OUT_OF_MEMORY = 2"), (STATUS, "Refusal::OutOfMemory => 3,", "Refusal::OutOfMemory => 2,")], "two statuses have one number")

    def test_the_place_of_a_port_is_compared(self) -> None:
        changes = [(HEADER, "    bool full;\n    bool stopped;\n", "    bool stopped;\n    bool full;\n"), (HEADER, "    uint32_t announced;", "    uint64_t announced;"),
                   (HEADER, "typedef struct ahci_port {\n    void *at;\n", "typedef struct ahci_port {\n"),
                   (PLACE, "    announced: u32,", "    announced: u64,"), (PLACE, "    held: Held,", "    held: u64,"),
                   (PLACE, "    stopped: bool,", "    stopped: bool,\n    more: bool,")]
        for change in changes:
            self.setUp()
            self.differs([change], "ahci_port: the header has ")

    def test_the_place_of_a_controller_is_compared(self) -> None:
        for change in [(HEADER, "typedef struct ahci_hba {\n    void *at;\n", "typedef struct ahci_hba {\n"), (HBA_PLACE, "    full: bool,", "    full: u32,")]:
            self.setUp()
            self.differs([change], "ahci_hba: the header has ")

    def test_the_rules_are_compared(self) -> None:
        self.differs([(HEADER, "AHCI_RULE_START_WHILE_BUSY = 2,", "AHCI_RULE_START_WHILE_BUSY = 40,")], "AHCI_RULE_START_WHILE_BUSY: the header has 40, ")

    def test_the_version_is_compared(self) -> None:
        self.differs([(HEADER, "#define AHCI_VERSION 0x", "#define AHCI_VERSION 0x1")], "AHCI_VERSION is not")

    def test_a_version_that_is_missing_is_told(self) -> None:
        self.differs([(HEADER, "#define AHCI_VERSION ", "#define AHCI_RELEASE ")], "AHCI_VERSION is not")

    def test_a_struct_that_no_export_has_is_told(self) -> None:
        more = "typedef struct ahci_more { uint32_t word; } ahci_more;\n\n"
        self.differs([(HEADER, "uint32_t ahci_version(void);", more + "uint32_t ahci_version(void);")], "ahci_more: a struct")

    def test_a_pointer_that_is_written_through_is_told(self) -> None:
        line = self.line("ahci_fis_decode")
        self.assertIn("const uint8_t *", line)
        self.differs([(HEADER, line, line.replace("const uint8_t *", "uint8_t *", 1))], "ahci_fis_decode: ")

    def test_the_order_of_arguments_is_compared(self) -> None:
        line = self.line("ahci_port_register")
        first, _, last = line.partition("(")[2].rpartition(", ")
        self.differs([(HEADER, line, line.replace(f"{first}, {last}", f"{last[:-2]}, {first});"))], "ahci_port_register: ")

    def test_arguments_of_one_type_are_told_apart(self) -> None:
        self.differs([(ALONE, "ahci_identify_page(sectors: u32, depth: u32,", "ahci_identify_page(depth: u32, sectors: u32,")], "ahci_identify_page: ")

    def test_a_length_is_that_of_the_array_before_it(self) -> None:
        line = self.line("ahci_port_received")
        self.differs([(HEADER, line, line.replace("out_bytes", "in_bytes"))], "ahci_port_received: ")

    def test_the_fields_of_a_struct_are_compared(self) -> None:
        with open(os.path.join(self.room, HEADER), encoding="utf-8") as it:
            inside = it.read().partition("typedef struct ahci_state {")[2].partition("} ahci_state;")[0]
        field = next(line for line in inside.split("\n") if "[32]" in line)
        for changed in (field.replace("[32]", "[31]"), field.replace("uint8_t", "uint16_t").replace("uint64_t", "uint32_t")):
            self.setUp()
            self.differs([(HEADER, inside, inside.replace(field, changed))], "ahci_state: ")

    def line(self, call: str) -> str:
        """The declaration of a call, as it stands in the header."""
        with open(os.path.join(self.room, HEADER), encoding="utf-8") as it:
            text = it.read()
        at = text.index(f"{call}(")
        return text[text.rindex("\n", 0, at) + 1 : text.index(";", at) + 1]


if __name__ == "__main__":
    unittest.main()
