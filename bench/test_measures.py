#!/usr/bin/env python3
"""Sees what of bench/campaign, bench/job_list.py, bench/replay.py and bench/gate_times can be seen with nothing run: lists, scripts and tables.

    bench/test_measures.py
"""
from __future__ import annotations

import contextlib
import importlib.machinery
import importlib.util
import io
import os
import re
import sys
import tempfile
import types
import unittest
from typing import Dict, Iterator, List, Tuple
from unittest import mock

sys.dont_write_bytecode = True  # no __pycache__ beside the scripts
HERE = os.path.dirname(os.path.realpath(__file__))


def loaded(name: str) -> types.ModuleType:
    """A script of this folder, with its functions and nothing run."""
    loader = importlib.machinery.SourceFileLoader(name.partition(".")[0], os.path.join(HERE, name))
    found = importlib.util.module_from_spec(importlib.util.spec_from_loader(loader.name, loader))
    loader.exec_module(found)
    return found


class Campaign(unittest.TestCase):
    """A results folder of bench/campaign, of jobs of 20 seeds as --controller has them."""

    def setUp(self) -> None:
        self.room = tempfile.TemporaryDirectory()
        self.addCleanup(self.room.cleanup)
        self.made = loaded("campaign").Campaign(self.room.name, list(range(1, 46)), 20)
        self.made.begin(False)

    def write(self, name: str, lines: List[str]) -> None:
        with open(os.path.join(self.room.name, name), "w", encoding="utf-8") as out:
            out.writelines(lines)

    def test_a_job_has_its_seeds(self) -> None:
        self.assertEqual([list(range(1, 21)), list(range(21, 41)), list(range(41, 46))], [self.made.of_job(number) for number in (1, 2, 3)])

    def test_a_job_is_done_with_all_its_seeds(self) -> None:
        row = "{}\tok\t7\t" + "0" * 64 + "\n"
        self.write("joblog", ["Seq\tHost\n", "2\t:\n", "1\t:\n", "3\t:"])
        self.write("results", [row.format(seed) for seed in [*range(1, 21), *range(21, 40), *range(41, 46)]])
        self.made.begin(True)
        self.assertEqual(set(range(1, 21)), set(self.made.rows))
        self.assertEqual(["Seq\tHost\n", "1\t:\n"], self.made.lines("joblog"))

    def test_a_program_ends_by_its_places(self) -> None:
        end_of = loaded("campaign").end_of
        self.assertEqual("ok", end_of({"new": None}))
        self.assertEqual("differs: PxCI, PxIS", end_of({"new": {"differences": [{"place": "PxIS"}, {"place": "PxCI"}, {"place": "PxIS"}]}}))


class JobList(unittest.TestCase):
    def lines(self, *words: str) -> List[str]:
        said = io.StringIO()
        with mock.patch.object(sys, "argv", ["job_list.py", *words]), contextlib.redirect_stdout(said):
            loaded("job_list.py").main()
        return said.getvalue().splitlines()

    def test_a_list_has_its_jobs(self) -> None:
        self.assertEqual(["write 0 1 00", "write 1 1 01", "read 0 1", "write 1 1 03"], self.lines("4", "--sectors", "2"))
        self.assertEqual(["write 0 2 00", "write 2 2 01", "read 4 2", "write 0 2 03"], self.lines("4", "--sectors", "6", "--count", "2"))

    def test_every_line_is_a_job_on_the_disk(self) -> None:
        for sectors, count in ((64, 1), (64, 8), (6, 3)):
            lines = self.lines("1000", "--sectors", str(sectors), "--count", str(count))
            self.assertEqual(1000, len(lines))
            for line in lines:
                job = re.fullmatch(r"(?:read (\d+) (\d+)|write (\d+) (\d+) [0-9a-f]{2})", line)
                lba, many = (int(it) for it in (job[1] or job[3], job[2] or job[4]))
                self.assertEqual(count, many)
                self.assertLessEqual(lba + many, sectors)

    def test_a_script_does_the_same_jobs(self) -> None:
        script = self.lines("300", "--sectors", "8", "--count", "2", "--script")
        self.assertEqual("disk 8 1", script[0])
        self.assertEqual(self.lines("300", "--sectors", "8", "--count", "2"), [line.replace(" 0 ", " ", 1) for line in script[1::4]])
        self.assertEqual(["accept 0", "serve 0"], sorted({*script[2::4], *script[3::4]}))
        self.assertEqual([f"collect 0 {4 * i}" for i in range(300)], script[4::4])


class Outstanding(unittest.TestCase):
    def test_a_request_is_outstanding_until_it_is_collected(self) -> None:
        journal = "disk 8 2\nwrite 0 0 1 aa\nread 1 0 1\naccept 1\nserve 1\ncollect 1 1\naccept 0\nserve 0\ncollect 0 0\n"
        sys.path.insert(0, HERE)
        self.assertEqual(((1 + 2 + 2 + 2 + 1 + 1 + 1 + 0) / 8, 2), loaded("outstanding.py").outstanding(journal))
        self.assertEqual((0, 0), loaded("outstanding.py").outstanding("disk 8 2\n"))


class Replay(unittest.TestCase):
    def test_a_script_is_lawful_and_has_its_lines(self) -> None:
        for commands, sectors, trimmed in ((100, 1, 0), (100, 256, 0), (2048, 1, 1024), (3, 65_536, 0)):
            out = io.StringIO()
            count = loaded("replay.py").write_script(out, commands, sectors, trimmed)
            lines = out.getvalue().splitlines()
            self.assertEqual(count, len(lines))
            disk, depth = (int(it) for it in lines[0].split()[1:])
            self.assertLessEqual(disk, 131_072)
            phases: Dict[int, Tuple[str, int]] = {}
            entries = trims = issued = 0
            for line in lines[1:]:
                word, *given = line.split()
                if word == "trim":
                    self.assertEqual({}, phases)
                    trims += 1
                    continue
                tag = int(given[0])
                self.assertLess(tag, depth)
                if word in ("write", "read"):
                    self.assertNotIn(tag, phases)
                    self.assertEqual(sectors, int(given[2]))
                    self.assertLessEqual(int(given[1]) + sectors, disk)
                    phases[tag] = "issued", entries
                    issued += 1
                else:
                    before, after = {"accept": ("issued", "accepted"), "serve": ("accepted", "done"), "collect": ("done", "")}[word]
                    self.assertEqual(before, phases[tag][0], line)
                    phases[tag] = after, phases[tag][1]
                    if word == "collect":
                        self.assertEqual(int(given[1]), phases.pop(tag)[1])
                entries += 1
            self.assertEqual((commands, 4 * commands, {}), (issued, entries, phases))
            self.assertEqual(commands // trimmed if trimmed else 0, trims)


class GateTimes(unittest.TestCase):
    """Over a table of processes that is made up: the gate is process 10, and the rest stand below it or beside it."""

    # a process's parent, its words, the folder that it works in
    PROCESSES: Dict[str, Tuple[str, str, str]] = {
        "10": ("1", "python3 bench/gate_times", "/top"),
        "11": ("10", "rt ci", "/top"),
        "12": ("11", "/kit/bin/rattle build --crate-name low src/lib.rt", "/top/crates/low"),
        "13": ("12", "rattle build --crate-name low src/lib.rt", "/top/crates/low"),
        "14": ("11", "rattle build --test --crate-name low_tests src/lib.rt", "/top/crates/low_tests"),
        "15": ("11", "rattle build --crate-name low src/lib.rt", "/scratch/rt-edit-1/low"),
        "16": ("11", "rattle build --crate-name low src/lib.rt", "/scratch/rt-edit-2/low"),
        "17": ("11", "rattle version", "/top"),
        "18": ("1", "rattle build --crate-name other src/lib.rt", "/beside"),
    }

    def setUp(self) -> None:
        self.gate_times = loaded("gate_times")

    @contextlib.contextmanager
    def looking(self, seconds: float, *gone: str) -> Iterator[None]:
        """Processes as above, each with so many seconds, but for those that have ended."""
        table = {pid: it for pid, it in self.PROCESSES.items() if pid not in gone}
        at = self.gate_times
        with mock.patch.object(at, "words_of", lambda pid: table[pid][1].split() if pid in table else []), \
             mock.patch.object(at, "stat_of", lambda pid: (table[pid][0], int(pid), seconds) if pid in table else None), \
             mock.patch.object(at.os, "listdir", lambda path: [*table, "self", "meminfo"]), \
             mock.patch.object(at.os, "readlink", lambda path: table[path.split("/")[2]][2]):
            yield

    def test_checks_are_told_apart(self) -> None:
        watch = self.gate_times.Watch()
        watch.gate = "10"
        with self.looking(1.5):
            watch.look()
        with self.looking(2.5, "12", "16"):  # a process of a check goes on without the one that started it
            watch.look()
        found = {check: sum(it.values()) for check, it in watch.seconds.items()}
        self.assertEqual({("low", "proof", ""): 4.0, ("low_tests", "tests", ""): 2.5, ("low", "edit", "/scratch/rt-edit-1/low"): 2.5,
                          ("low", "edit", "/scratch/rt-edit-2/low"): 1.5}, found)

    def test_the_table_is_that_of_the_log(self) -> None:
        log = ["rt: must-fail low/one_is_0: refused", "rt: must-fail low/two_is_0: refused", "check low proof 90.0", "check low edit 30.0", "check low edit 60.0",
               "check low edit 66.0", "check low_tests tests 12.0", "7 passed, 0 failed", "gate 4.3 processor minutes, 2.0 minutes, 4 processors"]
        said = io.StringIO()
        with tempfile.NamedTemporaryFile("w", encoding="utf-8") as file, contextlib.redirect_stdout(said):
            file.write("\n".join(log) + "\n")
            file.flush()
            self.gate_times.table(file.name)
        self.assertEqual(["| Crate | proof | tests | first edit | other edits | edits |", "|---|---|---|---|---|---|", "| low | 1.5 |  | 0.5 | 2.1 | 2 |",
                          "| low_tests |  | 0.2 |  |  |  |", "| together | 1.5 | 0.2 | 0.5 | 2.1 | 2 |", "", *log[-2:]], said.getvalue().splitlines())

    def test_a_log_without_checks_is_told(self) -> None:
        with self.assertRaises(SystemExit) as ended:
            self.gate_times.table(os.devnull)
        self.assertIn("has no line of a check", str(ended.exception))


if __name__ == "__main__":
    unittest.main()
