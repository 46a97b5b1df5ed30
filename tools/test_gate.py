"""Tests of tools/gate, in a small repository, with small programs in the place of `rt` and of the tools that the gate calls."""
from __future__ import annotations

import os
import shutil
import subprocess
import tempfile
import unittest
from typing import List, Tuple

HERE = os.path.dirname(os.path.realpath(__file__))
CALLED = ["tools/pages", "tools/check_memory", "tools/check_version", "tools/check_header", "tools/build", "tools/check_main", "ahci"]
CLOSING = "12 passed, 0 failed"


class Gate(unittest.TestCase):
    def setUp(self) -> None:
        self.room = tempfile.mkdtemp(prefix="test-gate-")
        self.addCleanup(shutil.rmtree, self.room)
        self.write("crates.txt", "low:\n")
        self.write("crates/low/src/lib.rt", "low")
        os.makedirs(f"{self.room}/tools")
        shutil.copy(f"{HERE}/gate", f"{self.room}/tools/gate")
        for name in CALLED:
            self.program(name, f'echo "{name} $*" >> "{self.room}/calls"')

    def write(self, path: str, text: str) -> None:
        os.makedirs(os.path.dirname(f"{self.room}/{path}"), exist_ok=True)
        with open(f"{self.room}/{path}", "w", encoding="utf-8") as out:
            out.write(text)

    def program(self, path: str, text: str) -> None:
        self.write(path, f"#!/bin/sh\n{text}\n")
        os.chmod(f"{self.room}/{path}", 0o755)

    def gate(self, *said: str, then: str = "true") -> Tuple[int, List[str]]:
        """The status of the gate and its lines, where `rt ci` says this and then does that."""
        self.write("said", "".join(f"{line}\n" for line in said))
        self.program("bin/rt", f'cat "{self.room}/said"\n{then}')
        ran = subprocess.run([f"{self.room}/tools/gate"], env={**os.environ, "PATH": f"{self.room}/bin:{os.environ['PATH']}"}, text=True,
                             stdin=subprocess.DEVNULL, stdout=subprocess.PIPE, stderr=subprocess.STDOUT, check=False)
        return ran.returncode, ran.stdout.splitlines()

    def calls(self) -> List[str]:
        with open(f"{self.room}/calls", encoding="utf-8") as text:
            return text.read().splitlines()

    def test_what_was_proved_is_kept_and_the_closing_line_comes_last(self) -> None:
        self.assertEqual(self.gate("proving low", "ok", CLOSING), (0, ["proving low", "ok", CLOSING]))
        self.assertEqual(self.calls(), [
            "tools/pages ", "tools/check_memory ", "tools/check_version ", "tools/check_header ", "tools/build --adopt",
            "tools/build --library ahci_c --adopt", "ahci --build", "tools/check_main ",
        ])

    def test_what_fails_keeps_nothing(self) -> None:
        status, lines = self.gate("FAILED: low", "11 passed, 1 failed", then="false")
        self.assertEqual((status, lines), (1, ["FAILED: low", "11 passed, 1 failed"]))
        self.assertEqual(self.calls()[-1], "tools/check_header ")

    def test_an_edit_that_shows_nothing_fails(self) -> None:
        status, lines = self.gate("must-fail low/a.edit: refused, as it must be: ok", "must-fail low/b.edit: BAD EDIT: the text is not there", CLOSING)
        self.assertEqual(status, 1)
        self.assertIn("gate: a must-fail edit is bad, as told above, and shows nothing: mend it, or remove it", lines)
        self.assertEqual(self.calls()[-1], "tools/check_header ")

    def test_a_source_that_is_edited_meanwhile_is_told(self) -> None:
        status, lines = self.gate("ok", CLOSING, then=f'echo edited > "{self.room}/crates/low/src/lib.rt"')
        self.assertEqual((status, lines), (1, ["ok", "gate: a source was edited meanwhile: run this again"]))

    def test_a_page_that_says_otherwise_stops_it_before_the_proofs(self) -> None:
        self.program("tools/check_version", "exit 1")
        self.assertEqual(self.gate("ok", CLOSING), (1, []))


if __name__ == "__main__":
    unittest.main()
