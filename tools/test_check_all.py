"""Tests of tools/check_all, in a small repository whose parts print what a test wants, with small programs in place of `rt`, tools/build,
tools/gate and dpkg-query. The program that stands for tools/build reports the library and the program as built once tools/gate has run."""
from __future__ import annotations

import os
import shutil
import subprocess
import sys
import tempfile
import unittest
from typing import List, Tuple

HERE = os.path.dirname(os.path.realpath(__file__))
FOLDERS = ["tools", "bench", "c", "python", "host", "nbd", "hba", "conform"]
PART = """check:
\t@echo "{name} AHCI_LIB=$(AHCI_LIB) AHCI_INCLUDE=$(AHCI_INCLUDE) AHCI=$(AHCI) MODEL=$(MODEL)"
\t@cat says 2>/dev/null || true
\t@test ! -e fails
check-long:
\t@echo "{name}, long"
out/libahci.a:
\t@mkdir -p out && touch $@
"""
BUILD = """#!/bin/sh
case "$*" in *--kept*) test -e proved ;; *) echo "built $*" && touch proved ;; esac
"""
GATE = "#!/bin/sh\necho proving && touch proved && test ! -e unproved && echo '7 passed, 0 failed'\n"
DPKG = "#!/bin/sh\nshift 3\nfor it; do [ \"$it\" = mtools ] || echo \"$it installed\"; done\n"


class Checks(unittest.TestCase):
    def setUp(self) -> None:
        self.room = tempfile.mkdtemp(prefix="test-check-all-")
        self.addCleanup(shutil.rmtree, self.room)
        for name in FOLDERS:
            self.write(f"{name}/Makefile", PART.format(name=name))
        shutil.copy(f"{HERE}/check_all", f"{self.room}/tools/check_all")
        for name, text in (("tools/build", BUILD), ("tools/gate", GATE), ("bin/rt", "#!/bin/sh\n"), ("kitless/dpkg-query", DPKG)):
            self.write(name, text, 0o755)
        self.write("crates/ahci/out/rlib/ahci/ahci", "the program", 0o755)

    def write(self, path: str, text: str, mode: int = 0o644) -> None:
        os.makedirs(os.path.dirname(f"{self.room}/{path}"), exist_ok=True)
        with open(f"{self.room}/{path}", "w", encoding="utf-8") as out:
            out.write(text)
        os.chmod(f"{self.room}/{path}", mode)

    def check(self, *words: str, kit: bool = True, **more: str) -> Tuple[int, List[str]]:
        """The status of a run, and its lines."""
        path = f"{self.room}/kitless:{f'{self.room}/bin:' if kit else ''}/usr/bin:/bin"
        ran = subprocess.run([sys.executable, f"{self.room}/tools/check_all", *words], cwd=self.room, stdin=subprocess.DEVNULL, text=True,
                             env={"PATH": path, "NO_INSTALL": "1", **more}, stdout=subprocess.PIPE, stderr=subprocess.STDOUT, check=False)
        return ran.returncode, ran.stdout.splitlines()

    def order(self, lines: List[str]) -> List[str]:
        return [it[3:].partition(":")[0] for it in lines if it.startswith("== ")]

    def test_all_parts_run_and_the_counts_come_last(self) -> None:
        self.write("proved", "")
        self.write("nbd/says", "ok one\nSKIPPED two: fio is not here\n3 passed, 0 failed, 1 skipped\n")
        status, lines = self.check()
        self.assertEqual((status, lines[-1]), (0, "17 passed, 0 failed, 1 skipped"))  # 7 of the proofs, 3 of nbd, 7 others
        self.assertEqual(self.order(lines), [*FOLDERS, "proofs"])

    def test_proofs_come_first_if_they_make_the_library(self) -> None:
        status, lines = self.check()
        self.assertEqual((status, self.order(lines)), (0, ["proofs", *FOLDERS]))
        self.assertNotIn("built ", lines)

    def test_a_part_alone_builds_what_it_needs(self) -> None:
        status, lines = self.check("--only", "c")
        self.assertEqual((status, lines[-1]), (0, "1 passed, 0 failed, 0 skipped"))
        self.assertIn("built --library ahci_c", lines)
        self.assertNotIn("built ", lines)

    def test_a_part_that_fails_does_not_hide_the_others(self) -> None:
        for name in FOLDERS:
            self.write("proved", "")
            self.write(f"{name}/fails", "")
            status, lines = self.check()
            os.remove(f"{self.room}/{name}/fails")
            self.assertEqual((status, lines[-1]), (1, "14 passed, 1 failed, 0 skipped"), name)

    def test_a_refused_proof_fails(self) -> None:
        self.write("unproved", "")
        status, lines = self.check("--only", "proofs")
        self.assertEqual((status, lines[-1]), (1, "0 passed, 1 failed, 0 skipped"))

    def test_counts_that_name_a_failure_fail_whatever_the_status(self) -> None:
        self.write("hba/says", "4 passed, 2 failed\n")
        status, lines = self.check("--only", "hba")
        self.assertEqual((status, lines[-1]), (1, "4 passed, 2 failed, 0 skipped"))

    def test_without_kit_and_library_the_rest_runs(self) -> None:
        os.remove(f"{self.room}/crates/ahci/out/rlib/ahci/ahci")
        status, lines = self.check(kit=False)
        self.assertEqual((status, lines[-1]), (0, "2 passed, 0 failed, 7 skipped"))
        self.assertIn("skipped: proofs (every proof, its tests and the must-fail edits): the Rattle kit is not here (its command is rt)", lines)
        self.assertIn("skipped: conform (the judge of emulators, on QEMU and on planted faults): there is no program: AHCI=FILE names one, "
                      "and ./ahci --build makes it", lines)

    def test_a_named_library_and_program_need_no_kit(self) -> None:
        self.write("there/libahci.a", "")
        self.write("there/ahci", "")
        at = f"{self.room}/there"
        status, lines = self.check(kit=False, AHCI_LIB=f"{at}/libahci.a", AHCI=f"{at}/ahci")
        self.assertEqual((status, lines[-1]), (0, "8 passed, 0 failed, 1 skipped"))
        self.assertIn(f"c AHCI_LIB={at}/libahci.a AHCI_INCLUDE= AHCI={at}/ahci MODEL=", lines)
        self.assertIn(f"nbd AHCI_LIB={at}/libahci.a AHCI_INCLUDE={self.room}/c AHCI= MODEL=", lines)
        self.assertIn(f"conform AHCI_LIB= AHCI_INCLUDE= AHCI= MODEL={at}/ahci", lines)

    def test_a_library_that_is_copied_here_needs_no_kit(self) -> None:
        self.write("crates/ahci_c/out/libahci_c.a", "")
        self.assertEqual(self.check(kit=False)[1][-1], "8 passed, 0 failed, 1 skipped")

    def test_long_checks_are_apart(self) -> None:
        self.write("proved", "")
        status, lines = self.check("--long")
        self.assertEqual((status, self.order(lines)), (0, ["nbd", "hba"]))
        self.assertIn("hba, long", lines)

    def test_missing_packages_are_named_in_one_line(self) -> None:
        lines = self.check("--only", "hba")[1]
        self.assertIn("packages that are missing: apt-get install --no-install-recommends mtools", lines)
        self.assertFalse([it for it in self.check("--only", "bench")[1] if "missing" in it])

    def test_an_unknown_part_is_refused(self) -> None:
        status, lines = self.check("--only", "hbb")
        self.assertEqual(status, 2)
        self.assertIn("--only hbb: expected names out of tools, bench, c, python, host, nbd, hba, conform, proofs", lines[-1])


if __name__ == "__main__":
    unittest.main()
