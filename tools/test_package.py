#!/usr/bin/env python3
"""Tests of what tools/package says of sources and versions, with nothing built: digests, the gate's line, the licences of the kit.

    tools/test_package.py
"""
from __future__ import annotations

import importlib.machinery
import importlib.util
import os
import subprocess
import sys
import tempfile
import unittest

TOP = os.path.dirname(os.path.dirname(os.path.realpath(__file__)))
sys.dont_write_bytecode = True
loader = importlib.machinery.SourceFileLoader("package", os.path.join(TOP, "tools/package"))
spec = importlib.util.spec_from_loader("package", loader)
assert spec
package = importlib.util.module_from_spec(spec)
loader.exec_module(package)

from shipped import bad_links, relinked  # noqa: E402  (tools/ is on the path by the package)


class Package(unittest.TestCase):
    def test_a_digest_is_that_of_the_command_in_the_statement(self) -> None:
        for crate in ("word_bits", "ahci_args", "ahci"):
            command = "find src specs proofs -type f 2>/dev/null | sort | xargs sha256sum | sha256sum"
            ran = subprocess.run(["bash", "-c", command], cwd=f"{TOP}/crates/{crate}", env={**os.environ, "LC_ALL": "C"}, capture_output=True, text=True, check=False)
            self.assertEqual(ran.stdout.split()[0], package.digest_of(crate), crate)

    def test_the_gate_s_line_is_its_last_and_says_that_nothing_failed(self) -> None:
        with tempfile.TemporaryDirectory() as room:
            for text, is_taken in (("a\n12 passed, 0 failed\n", True), ("12 passed, 1 failed\n", False), ("12 passed, 0 failed\nmore\n", False), ("", False)):
                with open(f"{room}/gate", "w", encoding="utf-8") as file:
                    file.write(text)
                if is_taken:
                    self.assertEqual("12 passed, 0 failed", package.gate_line(f"{room}/gate"))
                else:
                    self.assertRaises(package.Fault, package.gate_line, f"{room}/gate")
        self.assertIn("not given", package.gate_line(None))

    def test_each_crate_of_the_kit_that_is_used_is_listed_once(self) -> None:
        listed = package.crates()
        used = sorted(it for it in package.below("ahci", listed) | package.below("ahci_c", listed) if it not in listed)
        self.assertIn("clap", used)
        self.assertIn("std_heap", used)
        self.assertNotIn("word_bits", used)

    def test_a_link_leads_to_the_place_of_what_it_names(self) -> None:
        places = {"docs/C.md": ["/usr/share/doc/ahci/C.md", "/usr/share/doc/dev/C.md"], "README.md": ["/usr/share/doc/ahci/README.md"],
                  "host/README.md": ["/usr/share/doc/nbd/host.md"], "host/events/a.script": ["/usr/share/doc/nbd/examples/events/a.script"]}
        cases = [
            ("[C](docs/C.md#calls)", "README.md", "/usr/share/doc/ahci/README.md", "[C](C.md#calls)"),
            ("[C](docs/C.md)", "README.md", "/usr/share/doc/dev/README.md", "[C](C.md)"),
            ("[scripts](../host), [events](../host/events)", "docs/C.md", "/usr/share/doc/dev/C.md", "[scripts](../nbd/host.md), [events](../nbd/examples/events)"),
            ("[`lib.rt`](../crates/ahci/src/lib.rt) and [a](https://a.b), [here](#here)", "docs/C.md", "/usr/share/doc/dev/C.md", "`lib.rt` and [a](https://a.b), [here](#here)"),
            ("![whole](docs/whole.svg) ![C](docs/C.md)", "README.md", "/usr/share/doc/ahci/README.md", "whole ![C](C.md)"),
            ("```\n[C](docs/C.md)\n```", "README.md", "/usr/share/doc/ahci/README.md", "```\n[C](docs/C.md)\n```"),
        ]
        for text, page, place, expected in cases:
            self.assertEqual(expected, relinked(text, page, place, places))

    def test_a_link_to_no_file_is_found(self) -> None:
        with tempfile.TemporaryDirectory() as room:
            with open(f"{room}/a.md", "w", encoding="utf-8") as file:
                file.write("[a](a.md) [b](b.md#c) [d](https://d)\n```\n[e](e.md)\n```\n")
            self.assertEqual(["a.md: b.md#c"], list(bad_links(room)))


if __name__ == "__main__":
    unittest.main()
