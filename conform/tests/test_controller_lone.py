"""The model alone: a rule that it breaks is reported, and so is a program at which its process ends."""
import os
import unittest
from typing import List
from unittest import mock

from controller import lone
from controller.campaign import Given
from controller.generate import program
from judge.adapter import EmulatorFault
from tests.common import needs_library

RULE = "the interrupt line is IS and GHC.IE"


def programs(level: str, count: int) -> List[Given]:
    return [Given(f"{level} {seed}", program(seed, level)) for seed in range(1, count + 1)]


class Ends(lone.Library):
    """A library that ends its process at the first write."""

    def write(self, offset: int, size: int, value: int) -> None:
        os._exit(1)


@needs_library
class Lone(unittest.TestCase):
    def test_the_model_breaks_no_rule(self) -> None:
        for level in ("wild", "held"):
            given = programs(level, 60)
            done = list(lone.all_played(given, 2))
            self.assertEqual([], [it for one in done for it in one.broken])
            self.assertEqual((60, sum(len(it.ops) for it in given)), (sum(it.programs for it in done), sum(it.operations for it in done)))

    def test_a_rule_that_is_broken_is_told(self) -> None:
        from controller.server_faults import LineNever

        faulty = LineNever()
        faulty.start()
        broken = [it for given in programs("good", 20) for it in lone.played(faulty, given)]
        self.assertEqual({RULE}, {it.rule for it in broken})
        reported = list(lone.table([lone.Played(20, 500, broken)]))
        self.assertRegex(reported[0], f"good [0-9]+, operation [0-9]+: .*: the model breaks the rule: {RULE} \\(AHCI 1.3.1, section 3.1.2, 10.7\\)")

    def test_a_process_that_ends_names_its_program(self) -> None:
        with mock.patch.object(lone, "_model", Ends()), self.assertRaisesRegex(EmulatorFault, "the library has ended a process, at one of these programs: good 1$"):
            list(lone.all_played(programs("good", 1), 1))


if __name__ == "__main__":
    unittest.main()
