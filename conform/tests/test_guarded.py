"""Whatever an adapter does wrong is reported as a fault of the emulator, with script and line."""
import json
import unittest
from typing import Any, List, Sequence, Type

from judge.adapter import Adapter, EmulatorFault
from judge.judge import Way, judge
from judge.known import NOTHING
from judge.model import Trace, steps_of
from stand_in.port import StandIn
from tests.common import stored, text_of


class Broken(StandIn):
    """Ends a method in some way when it is called."""


def broken(name: str, body: Any) -> Type[StandIn]:
    return type("It", (Broken,), {name: body})


def raises(why: BaseException) -> Any:
    def body(*_: Any) -> None:
        raise why
    return body


class Faults(unittest.TestCase):
    def fault(self, made: Type[Adapter]) -> str:
        with self.assertRaises(EmulatorFault) as caught:
            judge("queue", stored(), made, NOTHING)
        self.assertNotIn("\n", str(caught.exception))
        return str(caught.exception)

    def test_each_exception_is_told_with_script_and_line(self) -> None:
        for name, why, reported in (
            ("start", OSError(2, "No such file"), "queue, line 5 (disk 1000 32): the adapter's start has ended with FileNotFoundError: [Errno 2] No such file"),
            ("write_places", BrokenPipeError(), "queue, line 8 (read 0 0 1): the adapter's write_places has ended with BrokenPipeError"),
            ("complete", KeyError("what"), "queue, line 33 (serve 0): the adapter's complete has ended with KeyError: 'what'"),
            ("fail", ValueError("one\ntwo"), "queue, line 19 (fail 1 40 7): the adapter's fail has ended with ValueError: one"),
            ("give_up", SystemExit(3), "queue, line 38 (recover): the adapter's give_up has ended with SystemExit: 3"),
            ("__init__", RuntimeError("no display"), "queue: the adapter's constructor has ended with RuntimeError: no display"),
            ("stop", RuntimeError("no"), "the adapter's stop has ended with RuntimeError: no"),
        ):
            self.assertIn(reported, self.fault(broken(name, raises(why))))

    def test_the_first_fault_is_told_where_the_end_fails_too(self) -> None:
        made = type("It", (Broken,), {"start": raises(OSError("first")), "stop": raises(OSError("second"))})
        self.assertIn("the adapter's start has ended with OSError: first", self.fault(made))

    def test_an_attribute_that_hides_a_method_is_told(self) -> None:
        def begun(self: Any) -> None:
            StandIn.__init__(self)
            self.sectors = 64

        self.assertIn("the adapter's attribute `sectors` is int and hides its method of that name", self.fault(broken("__init__", begun)))

    def test_answers_of_another_type_or_length_are_told(self) -> None:
        for name, answer, reported in (
            ("read_register", None, "the adapter's read_register answers NoneType and not int"),
            ("read_register", 1 << 32, "the adapter's read_register answers 100000000h, which is no word of 32 bits"),
            ("read_registers", [1], "the adapter's read_registers answers 1 and not 18 values"),
            ("read_memory", b"ab", "the adapter's read_memory answers 2 and not"),
            ("read_places", [b""], "the adapter's read_places answers"),
            ("sectors", b"", "the adapter's sectors answers 0 and not"),
        ):
            self.assertIn(reported, self.fault(broken(name, lambda *_, answer=answer: answer)))

    def test_memory_that_cannot_be_is_told(self) -> None:
        for memory, reported in (
            (5, "the adapter's `guest_memory` is no list of addresses and lengths"),
            ([(0x100000, 0)], "the adapter's `guest_memory` has a place at 100000h that overlaps another, or has no bytes"),
            ([(0x100000, 0x1000), (0x100800, 0x1000)], "a place at 100800h that overlaps another"),
            ([(0, 0x100000)], "a place at 0h in 10000h to 203ffh, which the tool uses for other things"),
        ):
            self.assertIn(reported, self.fault(broken("guest_memory", memory)))
        self.assertIn("the adapter's `most_entries` is 7, and not 64 to 65,535", self.fault(broken("most_entries", 7)))


def together_of_one(port: StandIn, tags: Sequence[int]) -> bool:
    """Completes one tag, and not several."""
    return len(tags) == 1 and StandIn.complete_together(port, tags)


SETUP = "4120000001" + "00" * 15 + "00020000" + "00" * 4  # the DMA Setup FIS of tag 1, one sector to the host


class Small(StandIn):
    """A guest with 64 MiB at 1 MiB, and none at the places of the model's windows."""

    guest_memory = [(0x100000, 64 << 20)]

    def write_memory(self, address: int, data: bytes) -> None:
        if data and not (0x10000 <= address and address + len(data) <= 0x20400 or 0x100000 <= address and address + len(data) <= 0x4100000):
            raise ValueError(f"no memory at {address:x}h")
        super().write_memory(address, data)


class Offers(unittest.TestCase):
    def test_a_small_guest_is_judged_in_its_own_memory(self) -> None:
        for way in (Way(), Way("scattered", "1"), Way("scattered", "2")):
            judged = judge("queue", stored(), Small, NOTHING, way)
            self.assertEqual((judged.new, judged.end, judged.lines), ([], "", len(stored().steps)))

    def test_tags_that_can_only_be_completed_one_by_one_are_no_difference(self) -> None:
        before = text_of("examples", "error_in_a_queue.json").splitlines()[:7]
        made = type("It", (StandIn,), {"complete_together": together_of_one})
        line = json.dumps({"line": 14, "command": "serve 0 1", "answer": "completed 6 7", "entries": [], "writes": [], "sent": None, "transfers": [],
                           "received": {"dma_setup": SETUP, "set_device_bits": "a140400003000000"}, "slots": [],
                           "registers": [{"name": "PxSACT", "before": "00000007", "word": "00000004", "bits": []}, {"name": "PxIS", "before": "00000000", "word": "00000008", "bits": []}]})
        trace = Trace(steps_of("\n".join([*before, line])), "")
        self.assertEqual(judge("two", trace, made, NOTHING).new, [])
        self.assertEqual(judge("two", trace, StandIn, NOTHING).new, [])

    def test_what_is_not_compared_is_said(self) -> None:
        names: List[str] = ["sector", "put_sector", "complete_together"]
        made = type("It", (StandIn,), {name: getattr(Adapter, name) for name in names})
        judged = judge("queue", stored(), made, NOTHING)
        self.assertEqual([it.split(" (")[0] for it in judged.blind], [
            "the disk's sectors", "one Set Device Bits FIS for several tags", "a sector that differs in a known way, from then on", "data above 4 GiB"])


if __name__ == "__main__":
    unittest.main()
