"""The command line: what is wrong is reported in one line, with its own status."""
import json
import os
import re
import subprocess
import sys
import tempfile
import unittest
from typing import Tuple

from judge.cli import Wrong, seeds_in
from tests.common import CONFORM, MODEL, needs_model


def run(*words: str, script: str = "") -> Tuple[int, str, str]:
    ran = subprocess.run([sys.executable, os.path.join(CONFORM, "ahci_conform"), *words], input=script, capture_output=True, text=True, check=False, timeout=600)
    return ran.returncode, ran.stdout, ran.stderr


SERVED = "disk 1 1\nread 0 0 1\naccept 0\nserve 0\n"


class Words(unittest.TestCase):
    def test_a_wrong_word_is_told_in_one_line_with_status_2(self) -> None:
        for words, reported in (
            ((), "SCRIPT or --seed is missing"), (("--seed", "5-1"), "'5-1' names no seeds"), (("--emulator", "mine", "-"), "there is no emulator 'mine'"),
            (("--emulator", "no.py:Mine", "-"), "there is no adapter no.py"), (("nowhere.ahci",), "nowhere.ahci can't be read: No such file"),
            (("--known", "no.json", "-"), "no.json can't be read: No such file"), (("--model", "/no/ahci", "-"), "the model, /no/ahci, can't be run"),
            (("--what",), "unrecognized arguments: --what"), (("--fault", "no_sdbs", "-"), "--fault is for --emulator stand-in alone"),
            (("--emulator", "stand-in", "--fault", "what", "-"), "there is no fault 'what'"),
        ):
            status, out, err = run(*words)
            self.assertEqual((status, out, err.count("\n")), (2, "", 1), words)
            self.assertIn(f"ahci_conform: {reported}", err)

    def test_the_help_has_statuses_and_examples(self) -> None:
        status, out, _ = run("--help")
        self.assertEqual(status, 0)
        for part in ("Exit status:", "Examples:", "conform/ADAPTERS.md"):
            self.assertIn(part, out)

    def test_seeds_are_ranges_and_numbers(self) -> None:
        self.assertEqual(seeds_in("1-3,9"), [1, 2, 3, 9])
        with self.assertRaises(Wrong):
            seeds_in("1-")


@needs_model
class Runs(unittest.TestCase):
    def judge(self, *words: str, script: str) -> Tuple[int, str, str]:
        assert MODEL
        return run("--model", MODEL, "--emulator", "stand-in", *words, "-", script=script)

    def test_a_script_that_is_done_alike_has_status_0(self) -> None:
        self.assertEqual(self.judge(script="disk 1 1\nread 0 0 1\naccept 0\nserve 0\n")[0], 0)

    def test_a_difference_has_status_1(self) -> None:
        status, out, _ = self.judge("--fault", "no_sdbs", script="disk 1 1\nread 0 0 1\naccept 0\nserve 0\n")
        self.assertEqual(status, 1)
        self.assertIn("standard input, line 4: serve 0 (PxIS)", out)

    def test_a_script_is_judged_up_to_its_faulty_line_which_is_told(self) -> None:
        status, out, _ = self.judge(script="disk 1 1\nwhat\n")
        self.assertEqual(status, 0)
        self.assertIn("standard input: judged up to the model's `ahci: line 2: not understood`", out)

    def test_no_script_is_like_one_that_does_nothing(self) -> None:
        self.assertEqual(self.judge(script="")[0], 0)

    def test_an_emulator_that_is_not_there_has_status_3(self) -> None:
        assert MODEL
        status, out, err = run("--model", MODEL, "--qemu", "/nowhere/qemu", "-", script="disk 1 1\n")
        self.assertEqual((status, out, err.count("\n")), (3, "", 1))
        self.assertIn("ahci_conform: standard input, line 1 (disk 1 1): there is no /nowhere/qemu", err)


    def test_an_adapter_that_ends_with_an_exception_has_status_3(self) -> None:
        assert MODEL
        with tempfile.TemporaryDirectory() as room:
            path = os.path.join(room, "mine.py")
            with open(path, "w", encoding="ascii") as out:
                out.write("from stand_in.port import StandIn\nclass Mine(StandIn):\n    def complete(self, tag):\n        raise OSError(5, 'gone')\n")
            status, out_text, err = run("--model", MODEL, "--emulator", f"{path}:Mine", "-", script=SERVED)
        self.assertEqual((status, out_text, err.count("\n")), (3, "", 1))
        self.assertIn("ahci_conform: standard input, line 4 (serve 0): the adapter's complete has ended with OSError: [Errno 5] gone", err)

    def test_the_same_pieces_come_from_the_same_seed(self) -> None:
        words = ("--fault", "dbc_without_its_one", "--pieces", "scattered", "--pieces-seed")
        first, again, other = (self.judge(*words, seed, script=SERVED)[1] for seed in ("3", "3", "4"))
        without = [re.sub(r"seconds \\| [0-9.]+", "", it) for it in (first, again, other)]
        self.assertIn("standard input, line 4: serve 0 (data of tag 0", first)
        self.assertEqual(without[0].splitlines()[:9], without[1].splitlines()[:9])
        self.assertNotEqual(without[0], without[2])


SILENT = {"title": "a silent one", "differences": [{"name": "silent", "title": "No SDBS", "section": "3.3.5", "choice": "standard", "emulator": "none",
                                                    "model": "SDBS", "covers": [{"place": "PxIS", "bits": "00000008"}]}]}


@needs_model
class Known(unittest.TestCase):
    """The stand-in that sets no SDBS, and a list that knows it."""

    def setUp(self) -> None:
        room = tempfile.TemporaryDirectory()
        self.addCleanup(room.cleanup)
        self.room = room.name
        self.known = self.file("list.json", json.dumps(SILENT))

    def file(self, name: str, text: str) -> str:
        path = os.path.join(self.room, name)
        os.makedirs(os.path.dirname(path), exist_ok=True)
        with open(path, "w", encoding="ascii") as out:
            out.write(text)
        return path

    def judge(self, *words: str) -> Tuple[int, str, str]:
        assert MODEL
        return run("--model", MODEL, "--emulator", "stand-in", "--fault", "no_sdbs", *words)

    def test_a_known_difference_has_status_0_and_a_row(self) -> None:
        status, out, _ = self.judge("--known", self.known, self.file("one", SERVED), self.file("two", SERVED))
        self.assertEqual(status, 0)
        self.assertIn("| silent | 2 | 2 | one, line 4 |", out)

    def test_a_first_list_is_drafted_in_one_run(self) -> None:
        path = os.path.join(self.room, "drafted.json")
        status, out, _ = self.judge("--draft-list", path, self.file("one", SERVED), self.file("two", SERVED))
        self.assertEqual(status, 1)
        self.assertIn(f"Kinds of differences in {path}, each to be described or mended: 1", out)
        self.assertIn("| pxis_at_serve_standard | standard | 2 | 2 | one, line 4 |  |", out)
        self.assertEqual(self.judge("--known", path, self.file("one", SERVED))[0], 0)
        status, _, err = self.judge("--draft-list", os.path.join(self.room, "no", "where"), self.file("one", SERVED))
        self.assertEqual((status, "can't be written: No such file" in err), (2, True))

    def test_an_entry_that_is_left_out_is_a_new_difference(self) -> None:
        status, out, _ = self.judge("--known", self.known, "--without", "silent", self.file("one", SERVED))
        self.assertEqual(status, 1)
        self.assertIn("one, line 4: serve 0 (PxIS)", out)
        status, out, err = self.judge("--known", self.known, "--without", "loud", self.file("one", SERVED))
        self.assertEqual((status, out, err), (2, "", "ahci_conform: the list has no entry 'loud': it has silent\n"))

    def test_a_run_ends_at_a_new_difference_unless_it_is_to_go_on(self) -> None:
        scripts = [self.file(name, SERVED) for name in ("one", "two")]
        for words, judged in (((), 1), (("--go-on",), 2)):
            status, out, _ = self.judge(*words, *scripts)
            self.assertEqual(status, 1)
            self.assertIn(f"| judged | {judged} |", out)
            self.assertIn(f"| with a new difference | {judged} |", out)

    def test_each_line_has_the_known_differences_that_it_shows(self) -> None:
        status, out, err = self.judge("--known", self.known, "--each-line", self.file("one", SERVED))
        self.assertEqual((status, out, err), (0, "1 same\n2 same\n3 same\n4 silent\n", ""))

    def test_each_line_tells_a_new_difference_on_standard_error(self) -> None:
        status, out, err = self.judge("--each-line", self.file("one", SERVED))
        self.assertEqual((status, out), (1, "1 same\n2 same\n3 same\n4 same\n"))
        self.assertIn("one, line 4: serve 0 (PxIS)", err)

    def test_a_list_is_shown_by_its_scripts(self) -> None:
        folder = os.path.dirname(self.file("scripts/silent.ahci", SERVED))
        self.assertEqual(self.judge("--known", self.known, "--shown", folder)[:2], (0, "1 known differences, 0 faults\n"))

    def test_a_list_that_is_not_shown_has_status_1(self) -> None:
        for script, reported in (
            ("disk 1 1\nread 0 0 1\naccept 0\n", "silent: its script doesn't show it"),
            (SERVED + "collect 0 0\n", "silent: line 4 of its script shows it before the last line does"),
        ):
            folder = os.path.dirname(self.file("scripts/silent.ahci", script))
            self.assertEqual(self.judge("--known", self.known, "--shown", folder)[:2], (1, f"{reported}\n1 known differences, 1 faults\n"))
        status, out, _ = self.judge("--known", self.known, "--shown", os.path.join(self.room, "nowhere"))
        self.assertEqual((status, out.splitlines()[-1]), (1, "1 known differences, 1 faults"))


if __name__ == "__main__":
    unittest.main()
