"""The judge of controllers: what is exact, what is filed, what the options do."""
import contextlib
import io
import json
import os
import tempfile
import unittest
from typing import Dict, List, Tuple

from controller import cli, layout
from controller.campaign import Given, Worker
from controller.compare import Difference
from controller.generate import LEVELS, program
from controller.judge import Beside
from controller.known import NOTHING, Cover, known_of, read_known
from controller.partial import is_beginning
from controller.program import Command, Entry, Write
from controller.stand_in.hba import Hba
from controller.text import text_of
from judge.known import ListFault, pattern
from tests.common import needs_library

START = [Write(layout.PX_CLB, layout.LIST), Write(layout.PX_FB, layout.AREA), Write(layout.PX_CMD, 0x10), Write(layout.PX_CMD, 0x11)]


def read_dma(lba: int, count: int) -> Command:
    fis = bytes([0x27, 0x80, 0xC8, 0, lba, 0, 0, 0x40, 0, 0, 0, 0, count])
    return Command(layout.LIST, layout.TABLES, fis.ljust(20, b"\0"), (Entry(layout.DATA, 512 * count),))


def said(*words: str) -> Tuple[int, str, str]:
    """The status, standard output and standard error of the program."""
    out, err = io.StringIO(), io.StringIO()
    with contextlib.redirect_stdout(out), contextlib.redirect_stderr(err):
        status = cli.main(["--controller", *words])
    return status, out.getvalue(), err.getvalue()


class Partial(unittest.TestCase):
    def test_only_a_beginning_of_the_data_is_excused(self) -> None:
        data, before = bytes(range(1, 17)), b"\xC5" * 16
        for moved in (0, 4, 8, 16):
            self.assertTrue(is_beginning(data[:moved] + before[moved:], data, before))
        self.assertFalse(is_beginning(before[:8] + data[8:], data, before))
        self.assertFalse(is_beginning(data[:4] + b"\0\0\0\0" + before[8:], data, before))


class Covers(unittest.TestCase):
    word = Difference("PxTFD", bytes.fromhex("00000150"), bytes.fromhex("00000130"), bytes.fromhex("00000060"))

    def test_a_cover_explains_bits_by_place_facts_and_values(self) -> None:
        facts = frozenset(("signature",))
        for cover, bits in (
            (Cover(pattern("PxTFD")), "00000060"), (Cover(pattern("PxTFD"), bits=bytes.fromhex("00000040")), "00000040"), (Cover(pattern("PxIS")), ""),
            (Cover(pattern("PxTFD"), frozenset(("signature",))), "00000060"), (Cover(pattern("PxTFD"), frozenset(("go",))), ""),
            (Cover(pattern("PxTFD"), unless=frozenset(("signature",))), ""), (Cover(pattern("PxTFD"), got="000001[35]0"), "00000060"), (Cover(pattern("PxTFD"), expected="000000*"), ""),
        ):
            self.assertEqual(cover.explains(facts, self.word).hex(), bits, cover)

    def test_a_fault_of_a_list_names_the_entry(self) -> None:
        entry = {"name": "a", "title": "t", "section": "s", "choice": "standard", "sure": "certain", "emulator": "e", "model": "m", "covers": [{"place": "PxIS"}]}
        cases: List[Tuple[Dict[str, object], str]] = [
            ({"choice": "mine"}, "it, difference 1 (a): 'choice' is 'mine', and none of standard, open, undefined, model"),
            ({"covers": [{"bits": "01"}]}, "it, difference 1 (a), cover 1 has no 'place'"),
            ({"covers": [{"place": "PxIS", "bits": "00"}]}, "it, difference 1 (a), cover 1: no bit of 'bits' is 1"),
            ({"ends": 1}, "it, difference 1: 'ends' is no bool"),
            ({"extra": "x"}, "it, difference 1 has a member 'extra', which means nothing here"),
        ]
        for change, text in cases:
            with self.assertRaises(ListFault) as raised:
                known_of(json.dumps({"title": "t", "differences": [{**entry, **change}]}), "it")
            self.assertEqual(str(raised.exception), text)


class Shifted(Hba):
    """Its bad sectors are there, and its data are moved by a byte."""

    def scatter(self, task, data, after=0):  # type: ignore[no-untyped-def]
        super().scatter(task, data[1:] + data[:1], after)


@needs_library
class Judged(unittest.TestCase):
    def test_the_library_does_not_differ_from_itself(self) -> None:
        from controller.library import Library
        worker = Worker(Library, NOTHING)
        for level in LEVELS:
            for seed in range(1, 9):
                judged = worker.judge(program(seed, level))
                self.assertEqual((judged.end, judged.found), ("", []), f"{level} {seed}")

    def test_programs_that_keep_the_rules_break_none_that_leaves_a_controller_free(self) -> None:
        from controller.library import Library
        worker = Worker(Library, NOTHING)
        for level in ("good", "clean", "errors", "seldom"):
            for seed in range(1, 9):
                ops = program(seed, level)
                beside = Beside(worker.model, NOTHING, ops, worker.recorded(ops), {})
                beside.run()
                self.assertEqual(beside.breaches.name, "", f"{level} {seed}")

    def test_data_beside_an_error_are_not_excused(self) -> None:
        """A read of sectors 95 and 96, of which the second is bad: the first may be moved, but no other bytes."""
        base = read_known(cli.BASE)
        for made, end in ((Hba, ""), (Shifted, "new")):
            judged = Worker(made, base).judge([*START, read_dma(95, 2), Write(layout.PX_CI, 1)])
            self.assertEqual(judged.end, end, [it for it in judged.found if it.is_new])

    def test_what_comes_after_a_broken_rule_is_filed_under_it(self) -> None:
        """A list that is too short: the stand-in with a fault counts the list."""
        from controller.stand_in.faults import named
        short = read_dma(0, 2)._replace(entries=(Entry(layout.DATA, 512),))
        faulty = named("no_count")
        assert faulty
        judged = Worker(faulty, NOTHING.over(read_known(cli.BASE))).judge([*START, short, Write(layout.PX_CI, 1)])
        self.assertEqual(judged.end, "after LIST_TOO_SHORT")

    def test_a_smallest_program_is_found(self) -> None:
        from controller.stand_in.faults import named
        faulty = named("no_count")
        assert faulty
        worker = Worker(faulty, read_known(cli.BASE), True)
        result = next(it for it in (worker.one(Given(f"good {seed}", program(seed, "good"))) for seed in range(1, 50)) if it.judged.end == "new")
        assert result.smallest is not None
        self.assertLessEqual(len(result.smallest), 6, text_of(result.smallest))


@needs_library
class Options(unittest.TestCase):
    def test_statuses_and_texts(self) -> None:
        cases: List[Tuple[List[str], int, str]] = [
            (["--emulator", "stand-in", "--seed", "1-3", "--quiet"], 0, "| with a new difference | 0 |"),
            (["--emulator", "stand-in", "--fault", "no_sdbs", "--seed", "1-30", "--quiet"], 1, "PxIS  (AHCI 1.3.1, section 3.3.5)"),
            (["--seed", "3-1"], 2, "'3-1' names no seeds"),
            (["--level", "best", "--seed", "1"], 2, "there is no level 'best': good, clean, errors, sloppy, wild, held, seldom"),
            (["--emulator", "bochs", "--seed", "1"], 2, "there is no emulator 'bochs'"),
            (["--emulator", "stand-in", "--fault", "none", "--seed", "1"], 2, "there is no fault 'none'"),
            (["--qemu", "/no/qemu", "--known", "none", "--seed", "1"], 3, "there is no /no/qemu"),
            ([], 2, "--seed, --program, --recorded or --play is missing"),
        ]
        for words, status, text in cases:
            found, out, err = said(*words)
            self.assertEqual(found, status, (words, out, err))
            self.assertIn(text, out + err, words)

    def test_a_run_is_an_object_a_program(self) -> None:
        status, out, _ = said("--emulator", "stand-in", "--fault", "no_sdbs", "--seed", "1-12", "--go-on", "--json", "--quiet")
        objects = [json.loads(line) for line in out.splitlines()]
        self.assertEqual((status, [it["program"] for it in objects]), (1, [f"good {seed}" for seed in range(1, 13)]))
        places = {it["place"] for one in objects if one["new"] for it in one["new"]["differences"]}
        self.assertIn("PxIS", places)

    def test_a_first_list_makes_a_second_run_pass(self) -> None:
        with tempfile.TemporaryDirectory() as folder:
            path = os.path.join(folder, "mine.json")
            words = ["--emulator", "stand-in", "--fault", "no_count", "--seed", "1-12", "--quiet"]
            self.assertEqual(said(*words, "--draft-list", path)[0], 1)
            self.assertEqual(said(*words, "--known", path)[0], 0)


if __name__ == "__main__":
    unittest.main()
