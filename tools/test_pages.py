#!/usr/bin/env python3
"""Sees that tools/pages finds each kind of fault, in a small repository of its own.

    tools/test_pages.py
"""
from __future__ import annotations

import os
import shutil
import subprocess
import sys
import tempfile
import unittest
from typing import Dict, List

TOP = os.path.dirname(os.path.dirname(os.path.realpath(__file__)))
HEAD = "Tests: [low_tests](../low_tests). Wrong bodies: 1 in the gate, 1 more. First check: 20 s. Above: low_tests."
TESTS_HEAD = "1 test of [low](../low). First check: 9 s."
SIZES = "| Crate | src | specs | proofs | must-fail | wrong-bodies |\n|---|---|---|---|---|---|\n"
FILES: Dict[str, str] = {
    "README.md": "# The whole\n\nSee [the proofs](docs/PROOFS.md#wrong-bodies) and `crates/low/src/lib.rt`.\n\n```text\n[not a link](nowhere.md) `no/file.rt`\n```\n",
    "docs/MAP.md": "# Map\n\n```mermaid\nflowchart BT\n    low\n```\n",
    "docs/PROOFS.md": "# Proofs\n\n## Wrong bodies\n\n"
    "| In the gate | Crate | Belief |\n|---|---|---|\n| `a_sum_is_0` | `low` | a sum |\n\n"
    "| Outside the gate | Crate | Belief |\n|---|---|---|\n| `a_sum_is_1` | `low` | a sum |\n\n"
    "| What | How |\n|---|---|\n| a sum | `a_sum_is_a_sum` |\n",
    "bench/PROVING.md": f"# Sizes\n\n{SIZES}"
    "| low | 4 | 1 | 1 | 1 | 1 |\n| low_tests | 2 | 0 | 0 | 0 | 0 |\n| together | 6 | 1 | 1 | 1 | 1 |\n\nThe end.\n",
    "crates.txt": "# The crates.\nlow:\nlow_tests may_wait=2: low # on low alone\n",
    "crates/low_tests/README.md": f"# low_tests\n\n{TESTS_HEAD}\n\nThe tests.\n",
    "crates/low_tests/src/lib.rt": "#[test]\nfn a_sum_is_a_sum() {}\n",
    "crates/low/README.md": f"# low\n\n{HEAD}\n\n| Call | Clause |\n|---|---|\n| `sum` | `value`: the sum |\n\n[src](src/lib.rt)\n",
    "crates/low/src/lib.rt": "fn sum(a: u8) -> u8\n    ensures value { result }\n{ a }\nfn other() {}\n",
    "crates/low/specs/Sum.antt": "-- a sum\n",
    "crates/low/proofs/Sum.antt": "-- a proof\n",
    "crates/low/must-fail/a_sum_is_0.edit": "file: src/lib.rt\nold: { a }\nnew: { 0 }\n",
    "crates/low/wrong-bodies/a_sum_is_1.edit": "file: src/lib.rt\nold: { a }\nnew: { 1 }\nold: fn other() {}\nnew:\n",
}


class Pages(unittest.TestCase):
    def setUp(self) -> None:
        self.room = tempfile.mkdtemp(prefix="pages-")
        self.addCleanup(shutil.rmtree, self.room)
        for path, text in FILES.items():
            self.write(path, text)
        os.makedirs(os.path.join(self.room, "tools"))
        for it in ("pages", "trusted.py", "drawing.py"):
            shutil.copy(os.path.join(TOP, "tools", it), os.path.join(self.room, "tools", it))
        subprocess.run(["git", "init", "-q"], cwd=self.room, check=True)

    def write(self, path: str, text: str) -> None:
        at = os.path.join(self.room, path)
        os.makedirs(os.path.dirname(at), exist_ok=True)
        with open(at, "w", encoding="utf-8") as it:
            it.write(text)

    def read(self, path: str) -> str:
        with open(os.path.join(self.room, path), encoding="utf-8") as it:
            return it.read()

    def run_with(self, *words: str) -> "subprocess.CompletedProcess[str]":
        return subprocess.run([sys.executable, os.path.join(self.room, "tools/pages"), *words], capture_output=True, text=True, check=False)

    def finds(self, faults: List[str]) -> None:
        """The faults are these, each a line, and the count of all pages and faults comes last."""
        ran = self.run_with()
        self.assertEqual(faults, ran.stdout.splitlines()[:-1])
        pages = sum(1 for at, _, names in os.walk(self.room) for name in names if name.endswith(".md"))
        self.assertEqual(f"{pages} pages, {len(faults)} faults", ran.stdout.splitlines()[-1])
        self.assertEqual(1 if faults else 0, ran.returncode)

    def after(self, path: str, old: str, new: str, *faults: str) -> None:
        self.assertEqual(1, self.read(path).count(old), old)
        self.write(path, self.read(path).replace(old, new))
        self.finds(list(faults))

    def test_good_pages_have_no_fault(self) -> None:
        self.finds([])

    def test_a_link_leads_to_a_file(self) -> None:
        self.after("README.md", "(docs/PROOFS.md#", "(docs/PROOF.md#", "README.md:3: the link docs/PROOF.md#wrong-bodies leads to no file")

    def test_a_link_leads_to_a_heading(self) -> None:
        self.after("README.md", "#wrong-bodies", "#right-bodies", "README.md:3: docs/PROOFS.md has no heading #right-bodies")

    def test_a_link_of_a_crate_is_read_from_its_folder(self) -> None:
        self.after("crates/low/README.md", "(src/lib.rt)", "(lib.rt)", "crates/low/README.md:9: the link lib.rt leads to no file")

    def test_a_file_that_is_named_is_there(self) -> None:
        self.after("README.md", "`crates/low/src/lib.rt`", "`crates/low/src/main.rt`", "README.md:3: there is no file crates/low/src/main.rt")

    def test_an_edit_has_a_row(self) -> None:
        self.after("docs/PROOFS.md", "| `a_sum_is_0` | `low` | a sum |\n", "", "crates/low/must-fail/a_sum_is_0.edit:1: docs/PROOFS.md has no row for it")

    def test_a_row_has_an_edit(self) -> None:
        self.after("docs/PROOFS.md", "| `a_sum_is_1` | `low` | a sum |\n", "| `a_sum_is_1` | `low` | a sum |\n| `a_sum_is_2` | `low` | a sum |\n",
                   "docs/PROOFS.md:12: there is no edit crates/low/wrong-bodies/a_sum_is_2.edit")

    def test_a_row_is_in_the_table_of_its_folder(self) -> None:
        self.after("docs/PROOFS.md", "| In the gate |", "| Outside the gate |", "docs/PROOFS.md:7: there is no edit crates/low/wrong-bodies/a_sum_is_0.edit",
                   "crates/low/must-fail/a_sum_is_0.edit:1: docs/PROOFS.md has no row for it")

    def test_an_edit_fits_its_source(self) -> None:
        self.after("crates/low/must-fail/a_sum_is_0.edit", "old: { a }", "old: { b }",
                   "crates/low/must-fail/a_sum_is_0.edit:2: its old text stands 0 times in src/lib.rt")

    def test_an_old_text_stands_once_after_the_pairs_before_it(self) -> None:
        self.after("crates/low/wrong-bodies/a_sum_is_1.edit", "new: { 1 }", "new: { 1 } fn other() {}",
                   "crates/low/wrong-bodies/a_sum_is_1.edit:4: its old text stands 2 times in src/lib.rt")

    def test_an_edit_names_a_file(self) -> None:
        self.after("crates/low/must-fail/a_sum_is_0.edit", "src/lib.rt", "src/main.rt", "crates/low/must-fail/a_sum_is_0.edit:1: there is no file src/main.rt")

    def test_a_test_that_is_named_is_there(self) -> None:
        self.after("docs/PROOFS.md", "`a_sum_is_a_sum`", "`a_sum_is_none`", "docs/PROOFS.md:15: the sources have no a_sum_is_none")

    def test_a_clause_that_is_named_is_there(self) -> None:
        self.after("crates/low/README.md", "`value`: the sum", "`worth`: the sum", "crates/low/README.md:7: crates/low has no clause worth")

    def test_sizes_are_those_of_the_files(self) -> None:
        self.after("crates/low/specs/Sum.antt", "-- a sum\n", "-- a sum\n-- of two\n",
                   "bench/PROVING.md:5: the sizes are | low | 4 | 2 | 1 | 1 | 1 | (tools/pages --sizes writes them)")

    def test_sizes_can_be_written(self) -> None:
        self.write("crates/low/specs/Sum.antt", "-- a sum\n-- of two\n")
        before = self.read("bench/PROVING.md")
        self.assertEqual(0, self.run_with("--sizes").returncode)
        changed = before.replace("| 4 | 1 | 1 | 1 | 1 |", "| 4 | 2 | 1 | 1 | 1 |").replace("| 6 | 1 | 1 | 1 | 1 |", "| 6 | 2 | 1 | 1 | 1 |")
        self.assertEqual(changed, self.read("bench/PROVING.md"))
        self.finds([])

    def test_a_picture_has_the_crates(self) -> None:
        self.after("docs/MAP.md", "    low\n", "    high\n", "docs/MAP.md:1: the picture is not that of crates.txt (tools/pages --heads draws it)")

    def test_a_picture_can_be_drawn(self) -> None:
        before = self.read("docs/MAP.md")
        self.write("docs/MAP.md", before.replace("    low\n", "    high\n    high --> low\n"))
        self.assertEqual(0, self.run_with("--heads").returncode)
        self.assertEqual(before, self.read("docs/MAP.md"))

    def test_what_a_promise_rests_on_is_counted(self) -> None:
        self.write("crates/low/specs/Sum.antt", "abbrev pub sum : ℕ → ℕ\n")
        table = "\n| Definition | Definitions | Lines | Files | What it says |\n|---|---|---|---|---|\n| `sum` | 1 | 1 | 1 | a sum |\n| `low::sum` | 1 | 2 | 1 | the same |\n"
        self.write("docs/PROOFS.md", FILES["docs/PROOFS.md"] + table)
        last = self.read("docs/PROOFS.md").count("\n")
        self.finds([f"docs/PROOFS.md:{last}: expected ['1', '1', '1']: tools/pages --sizes"])
        self.assertEqual(0, self.run_with("--sizes").returncode)
        self.finds([])
        self.assertEqual("crates/low/specs/Sum.antt: 1\n1 definitions, 1 lines in 1 file\n", self.run_with("--trusted", "sum").stdout)
        self.assertEqual((2, "tools/pages: difference: no definition of specs/ has that name\n"), ((ran := self.run_with("--trusted", "difference")).returncode, ran.stderr))

    def wants(self, crate: str, line: int, head: str) -> str:
        return f"crates/{crate}/README.md:{line}: the head is {head} (tools/pages --heads writes it)"

    def head(self, crate: str, old: str, new: str, *faults: str) -> None:
        """With the text changed in a crate's README.md these are the faults."""
        self.after(f"crates/{crate}/README.md", old, new, *faults)

    def test_a_head_has_the_crates_of_tests(self) -> None:
        self.head("low", "Tests: [low_tests](../low_tests).", "Tests: none.", self.wants("low", 3, HEAD))

    def test_a_head_has_the_number_of_edits(self) -> None:
        self.head("low", "1 in the gate, 1 more", "2 in the gate, 0 more", self.wants("low", 3, HEAD))

    def test_a_head_has_the_crates_above(self) -> None:
        self.head("low", "Above: low_tests.", "Above: none.", self.wants("low", 3, HEAD))

    def test_a_head_has_the_seconds_of_a_first_check(self) -> None:
        self.head("low", "First check: 20 s.", "First check: 21 s.")
        self.head("low", "First check: 21 s.", "First check: ? s.", "crates/low/README.md:3: the head has no seconds of a first check")

    def test_a_readme_has_a_head(self) -> None:
        self.head("low", f"{HEAD}\n\n", "", self.wants("low", 3, HEAD.replace("20 s", "? s")))

    def test_a_crate_has_a_readme(self) -> None:
        os.remove(os.path.join(self.room, "crates/low_tests/README.md"))
        self.finds([self.wants("low", 3, HEAD.replace("[low_tests](../low_tests)", "none")), self.wants("low_tests", 3, "1 test of ?. First check: ? s."),
                    "crates/low_tests/README.md:3: the head names no crate that is tested"])

    def test_a_head_of_tests_has_their_number(self) -> None:
        self.after("crates/low_tests/src/lib.rt", "#[test]\nfn", "#[test]\nfn one() {}\n\n#[test]\nfn",
                   "bench/PROVING.md:6: the sizes are | low_tests | 5 | 0 | 0 | 0 | 0 | (tools/pages --sizes writes them)",
                   self.wants("low_tests", 3, TESTS_HEAD.replace("1 test", "2 tests")))

    def test_a_tested_crate_is_there(self) -> None:
        self.head("low_tests", "of [low](../low).", "of [low](../low), [gone](../gone).",
                  "crates/low_tests/README.md:3: there is no crate gone to test", "crates/low_tests/README.md:3: the link ../gone leads to no file")

    def test_tests_stand_on_what_they_test(self) -> None:
        self.after("crates.txt", "low_tests may_wait=2: low #", "low_tests may_wait=2: #", self.wants("low", 3, HEAD.replace("Above: low_tests", "Above: none")),
                   "crates/low_tests/README.md:3: low_tests does not stand on low")

    def test_heads_can_be_written(self) -> None:
        page = self.read("crates/low/README.md")
        for old in (HEAD, HEAD.replace("1 in the gate", "no"), HEAD.replace("Above: low_tests.", "Above: none. And more.")):
            self.write("crates/low/README.md", page.replace(HEAD, old))
            self.assertEqual(0, self.run_with("--heads").returncode)
            self.assertEqual(page, self.read("crates/low/README.md"))
        self.write("crates/low/README.md", page.replace(f"{HEAD}\n\n", ""))
        self.assertEqual(1, self.run_with("--heads").returncode)
        self.assertEqual(page.replace("20 s", "? s"), self.read("crates/low/README.md"))
        self.finds(["crates/low/README.md:3: the head has no seconds of a first check"])

    def test_heads_are_written_after_a_crate_has_another_name(self) -> None:
        os.rename(os.path.join(self.room, "crates/low"), os.path.join(self.room, "crates/deep"))
        for path, old, new in (("crates.txt", "low:", "deep:"), ("crates.txt", ": low", ": deep"), ("bench/PROVING.md", "| low |", "| deep |"),
                               ("README.md", "crates/low/", "crates/deep/"), ("docs/PROOFS.md", "`low`", "`deep`")):
            self.write(path, self.read(path).replace(old, new))
        gone = ["crates/low_tests/README.md:3: there is no crate low to test", "crates/low_tests/README.md:3: the link ../low leads to no file"]
        self.assertEqual(gone, self.run_with("--heads").stdout.splitlines()[:-1])
        self.assertIn(HEAD.replace("[low_tests](../low_tests)", "none"), self.read("crates/deep/README.md"))
        self.write("crates/low_tests/README.md", self.read("crates/low_tests/README.md").replace("[low](../low)", "[deep](../deep)"))
        self.assertEqual(0, self.run_with("--heads").returncode)
        self.assertIn(HEAD, self.read("crates/deep/README.md"))

    def test_a_crate_can_have_tests_of_its_own_and_a_stored_run(self) -> None:
        self.write("crates/low/src/tests.rt", "#[test]\nfn one() {}\n")
        self.write("crates/low/stdout", "said\n")
        self.run_with("--sizes", "--heads")
        both = "Tests: [low_tests](../low_tests), [its own](src/tests.rt), [a stored run](stdout)."
        self.assertIn(HEAD.replace("Tests: [low_tests](../low_tests).", both), self.read("crates/low/README.md"))
        self.finds([])

    def test_a_shown_command_is_run_where_that_is_asked_for(self) -> None:
        self.write("ahci", "#!/bin/sh\necho \"said $1\"\n")
        os.chmod(os.path.join(self.room, "ahci"), 0o755)
        self.write("README.md", self.read("README.md") + "\n```text\n$ ./ahci one\nsaid one\n```\n")
        self.assertEqual(0, self.run_with("--run").returncode)
        self.write("README.md", self.read("README.md").replace("\nsaid one\n", "\nsaid two\n"))
        self.finds([])
        ran = self.run_with("--run")
        self.assertEqual((1, "README.md:10: ./ahci one prints something else: 'said one\\n'"), (ran.returncode, ran.stdout.splitlines()[0]))


if __name__ == "__main__":
    unittest.main()
