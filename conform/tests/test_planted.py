"""The small port of C behind its adapter: it does as the model, and each fault that is planted in it is found within 100 random scripts."""
import fnmatch
import os
import subprocess
import sys
import tempfile
import unittest
from concurrent.futures import ThreadPoolExecutor
from typing import Dict, Type

from judge.adapter import EmulatorFault
from judge.cli import BASE, script_maker
from judge.judge import Way, judge
from judge.known import NOTHING, read_known
from judge.model import Trace
from tests.common import CONFORM, needs_cc, needs_model, trace_of
from tests.planted import PLANTED, Planted, edited

SMALL = os.path.join(CONFORM, "small_port")
sys.path.insert(0, SMALL)
from adapter import SmallPort  # noqa: E402

MOST, CLEAN = 100, 20
STRICT = ["-std=c11", "-O1", "-I", SMALL]
SANITIZERS = ["-Wall", "-Wextra", "-Werror", "-g", "-fsanitize=address,undefined", "-fno-sanitize-recover=all"]


def built(folder: str, name: str, source: str, *words: str) -> Type[SmallPort]:
    """The adapter of a port of this source."""
    path = os.path.join(folder, name)
    with open(f"{path}.c", "w", encoding="ascii") as out:
        out.write(source)
    subprocess.run(["cc", *STRICT, *words, "-o", path, f"{path}.c", os.path.join(SMALL, "pipe.c")], check=True)
    return type(name, (SmallPort,), {"program": path})


def source() -> str:
    with open(os.path.join(SMALL, "port.c"), encoding="ascii") as text:
        return text.read()


class Edits(unittest.TestCase):
    def test_each_edit_stands_once_in_the_port(self) -> None:
        self.assertEqual(len(PLANTED), 32)
        for planted in PLANTED:
            self.assertNotEqual(edited(source(), planted), source(), planted.name)


@needs_cc
@needs_model
class Ports(unittest.TestCase):
    traces: Dict[int, Trace] = {}
    known = NOTHING.over(read_known(BASE))

    def setUp(self) -> None:
        room = tempfile.TemporaryDirectory()
        self.addCleanup(room.cleanup)
        self.folder = room.name

    def trace(self, seed: int) -> Trace:
        if seed not in self.traces:
            self.traces[seed] = trace_of("".join(f"{line}\n" for line in script_maker()(seed, True, True)))
        return self.traces[seed]

    def clean(self, port: Type[SmallPort], seeds: range) -> None:
        for seed in seeds:
            judged = judge(f"seed {seed}", self.trace(seed), port, self.known, Way("both", str(seed)))
            self.assertEqual(judged.new, [], judged.name)

    def test_without_a_fault_nothing_differs_but_what_may_in_any_port(self) -> None:
        self.clean(built(self.folder, "port", source()), range(1, CLEAN + 1))

    def test_the_sanitizers_find_nothing(self) -> None:
        self.clean(built(self.folder, "port", source(), *SANITIZERS), range(1, 6))

    def found(self, planted: Planted, port: Type[SmallPort]) -> str:
        for seed in range(1, MOST + 1):
            judged = judge(f"seed {seed}", self.trace(seed), port, self.known, Way("both", str(seed)))
            if judged.new:
                step, places = judged.trace.steps[judged.step], [it.place for it in judged.new]
                hit = [it for it in places if any(fnmatch.fnmatch(it, place) for place in planted.places)]
                self.assertTrue(hit, f"{planted.name}: {places}")
                return f"{hit[0]:<34}{judged.name}, line {step.number}: {step.line[:24]}"
        return ""

    def test_32_faults_are_found_at_their_places(self) -> None:
        with ThreadPoolExecutor(2) as pool:
            ports = list(pool.map(lambda it: built(self.folder, it.name, edited(source(), it)), PLANTED))
        for planted, port in zip(PLANTED, ports):
            where = self.found(planted, port)
            self.assertTrue(where, f"{planted.name} isn't found within {MOST} scripts")
            print(f"  {planted.name:<30}{where}")

    def test_one_that_dies_is_told_with_its_line(self) -> None:
        port = built(self.folder, "dies", source().replace("    port.sact &= ~tags;", "    abort();"))
        with self.assertRaisesRegex(EmulatorFault, r"seed 1, line [0-9]+ \(.*\): it has ended with status -6"):
            judge("seed 1", self.trace(1), port, self.known)


if __name__ == "__main__":
    unittest.main()
