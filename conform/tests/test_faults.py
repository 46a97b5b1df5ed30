"""Each planted fault is found within 50 random scripts, at its place."""
import fnmatch
import unittest
from typing import Dict

from judge.cli import script_maker
from judge.judge import Way, judge
from judge.known import NOTHING
from judge.model import Trace
from stand_in.faults import FAULTS, Fault
from stand_in.port import StandIn
from tests.common import needs_model, trace_of

MOST = 50
CLEAN = 20  # scripts that the stand-in plays without a fault


@needs_model
class Planted(unittest.TestCase):
    traces: Dict[int, Trace] = {}

    def trace(self, seed: int) -> Trace:
        if seed not in self.traces:
            self.traces[seed] = trace_of("".join(f"{line}\n" for line in script_maker()(seed, True, True)))
        return self.traces[seed]

    def found(self, fault: Fault) -> str:
        for seed in range(1, MOST + 1):
            judged = judge(f"seed {seed}", self.trace(seed), fault.stand_in, NOTHING, Way("both", str(seed)))
            if judged.new:
                step = judged.trace.steps[judged.step]
                places = [it.place for it in judged.new]
                self.assertTrue(any(fnmatch.filter(places, it) for it in fault.place.split(" or ")), f"{fault.name}: {places}")
                return f"{judged.name}, line {step.number}: {step.line}"
        return ""

    def test_18_faults_are_found_at_their_places(self) -> None:
        self.assertEqual(len(FAULTS), 18)
        for fault in FAULTS:
            where = self.found(fault)
            self.assertTrue(where, f"{fault.name} isn't found within {MOST} scripts")
            print(f"  {fault.name:<32}{fault.place:<26}{where}")

    def test_without_a_fault_nothing_differs(self) -> None:
        for seed in range(1, CLEAN + 1):
            judged = judge(f"seed {seed}", self.trace(seed), StandIn, NOTHING, Way("both", str(seed)))
            self.assertEqual(judged.new, [], judged.name)


if __name__ == "__main__":
    unittest.main()
