#!/usr/bin/env python3
"""Sees what tools/bindings writes of a small header, and that it finds a file that says something else.

    tools/test_bindings.py
"""
from __future__ import annotations

import importlib.machinery
import importlib.util
import os
import shutil
import subprocess
import sys
import tempfile
import unittest

sys.dont_write_bytecode = True

from header import header_of

TOP = os.path.dirname(os.path.dirname(os.path.realpath(__file__)))
loader = importlib.machinery.SourceFileLoader("bindings", os.path.join(TOP, "tools/bindings"))
spec = importlib.util.spec_from_loader("bindings", loader)
assert spec
bindings = importlib.util.module_from_spec(spec)
loader.exec_module(bindings)
FILES = ["VERSION", "c/ahci.h", "python/ahci/names.py", "python/ahci/prototypes.py", "tools/bindings", "tools/header.py", "tools/debian/libahci0.symbols"]
SMALL = """/* A small library.

   Every call returns a status. */
#ifndef AHCI_H

/* Offsets of
   registers (section 3). */
#define AHCI_REG_CAP 0x000u
#define AHCI_REG_PXCI 0x138u

#define AHCI_CAP_SNCQ (1u << 30) /* section 3.1.1 */

/* The place of a port. */
typedef struct ahci_port {
    void *at;
    bool full;
} ahci_port;
#define AHCI_PORT_EMPTY { NULL, false }

/* How it ended. */
typedef enum ahci_outcome {
    AHCI_DID_READ = 0, /* a read */
    AHCI_DID_FAIL = 2  /* - a failure */
} ahci_outcome;

typedef enum ahci_kind {
    AHCI_READ = 0,
    AHCI_WRITE = 1
} ahci_kind;

typedef struct ahci_tag_sets {
    uint64_t numbers[32]; /* by tag */
    uint32_t held;
} ahci_tag_sets;

/* ---- a port: all of it ---- */

/* Frees it.
   AHCI_NO_PORT. */
uint32_t ahci_port_free(ahci_port *port);

/* Two calls with one comment. */
uint32_t ahci_port_sets(ahci_port *port, const uint8_t *bytes, size_t bytes_bytes, ahci_tag_sets *sets);
uint32_t ahci_version(void);

#endif
"""
NAMES = '''class Outcome(enum.IntEnum):
    """How it ended (ahci_outcome)."""

    READ = 0
    FAIL = 2


class Kind(enum.IntEnum):
    """ahci_kind of c/ahci.h."""

    READ = 0
    WRITE = 1


class Register(enum.IntEnum):
    """Offsets of registers (section 3) (AHCI_REG_)."""

    CAP = 0x000
    PXCI = 0x138
'''
PROTOTYPES = '''class PortPlace(ctypes.Structure):
    """The place of a port (ahci_port)."""

    _fields_ = [
        ("at", place), ("full", flag),
    ]


class TagSetsStruct(ctypes.Structure):
    """ahci_tag_sets of c/ahci.h."""

    _fields_ = [
        ("numbers", u64 * 32), ("held", u32),
    ]


# without ahci_; each call returns a status, u32
CALLS: Dict[str, List[Any]] = {
    "port_free": [to(PortPlace)],
    "port_sets": [to(PortPlace), text, size, to(TagSetsStruct)],
    "version": [],
}
'''


class Bindings(unittest.TestCase):
    def test_enums_and_registers_are_classes(self) -> None:
        self.assertEqual(NAMES, bindings.names(header_of(SMALL)).partition("import enum\n\n\n")[2])

    def test_structs_and_calls_are_as_ctypes_has_them(self) -> None:
        text = bindings.prototypes(header_of(SMALL))
        self.assertEqual(PROTOTYPES, text[text.index("class PortPlace") :])

    def test_a_comment_stays_with_the_calls_below_it(self) -> None:
        calls = header_of(SMALL).calls
        self.assertEqual(["Frees it. AHCI_NO_PORT.", *2 * ["Two calls with one comment."]], [it.about for it in calls.values()])
        self.assertEqual({"a port: all of it"}, {it.title for it in calls.values()})

    def test_the_page_has_each_call_and_each_number(self) -> None:
        page = bindings.manual(header_of(SMALL))
        self.assertIn(".SH A PORT\n.TP\n.B uint32_t ahci_port_free(ahci_port *port);\nFrees it. AHCI_NO_PORT.\n.TP\n.B uint32_t ahci_port_sets(", page)
        self.assertIn(".TQ\n.B uint32_t ahci_version(void);\nTwo calls with one comment.\n", page)
        self.assertIn('.TP\n.BR AHCI_DID_FAIL " = 2"\n\\- a failure\n', page)

    def test_a_file_that_says_something_else_is_named(self) -> None:
        for path, old, new in (
            ("python/ahci/names.py", "NO_PORT = 1\n", "NO_PORT = 3\n"), ("python/ahci/prototypes.py", '"version": [],', '"version": [u32],'),
            ("tools/debian/libahci0.symbols", " ahci_version@Base 1.0.0\n", ""), ("c/ahci.h", "uint32_t ahci_version(void);", "uint32_t ahci_version(uint32_t which);"),
        ):
            with tempfile.TemporaryDirectory() as room:
                for it in FILES:
                    os.makedirs(os.path.dirname(f"{room}/{it}") or room, exist_ok=True)
                    shutil.copy(f"{TOP}/{it}", f"{room}/{it}")
                self.assertEqual(0, self.checked(room)[0])
                with open(f"{room}/{path}", encoding="utf-8") as text:
                    before = text.read()
                self.assertEqual(1, before.count(old), old)
                with open(f"{room}/{path}", "w", encoding="utf-8") as text:
                    text.write(before.replace(old, new))
                named = "python/ahci/prototypes.py" if path == "c/ahci.h" else path
                status, output = self.checked(room)
                self.assertEqual((1, f"bindings: {named} is not what c/ahci.h says: tools/bindings writes it"), (status, output.split("\n")[0]))

    def checked(self, room: str) -> "tuple[int, str]":
        ran = subprocess.run([sys.executable, "-B", f"{room}/tools/bindings", "--check"], capture_output=True, text=True, check=False)
        return ran.returncode, ran.stdout


if __name__ == "__main__":
    unittest.main()
