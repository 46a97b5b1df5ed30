"""Whole scripts on the stand-in, over a stored trace."""
import json
import unittest
from typing import List, Type

from judge.adapter import EmulatorFault
from judge.judge import PLAIN, Judged, Way, judge
from judge.known import NOTHING, Known, known_of
from judge.report import as_json, counts, differences_text, table
from judge.scatter import Guest
from judge.window import Layer, Window, memory_of, pieces_of
from stand_in.faults import FAULTS, named
from stand_in.port import StandIn
from tests.common import stored


class Counted(StandIn):
    """Counts its ends."""

    stops: List[str] = []

    def stop(self) -> None:
        self.stops.append("stop")


class Dies(Counted):
    def read_registers(self, offsets: object) -> List[int]:
        raise EmulatorFault("it has ended by signal 9")


def run(made: Type[StandIn], known: Known = NOTHING, way: Way = PLAIN) -> Judged:
    return judge("queue", stored(), made, known, way)


# the lines of the stored script at which SDBS begins to be wanting: `recover` clears it, and `serve 2` finds it wanting already
SHOWN = ["fail 1 40 7", "serve 0"]
SILENT = known_of(json.dumps({"title": "a silent one", "differences": [{
    "name": "silent", "title": "No SDBS", "section": "3.3.5", "choice": "standard", "emulator": "none", "model": "SDBS",
    "covers": [{"place": "PxIS", "bits": "00000008"}]}]}), "list")


class Whole(unittest.TestCase):
    def test_the_stand_in_does_as_the_model(self) -> None:
        judged = run(StandIn)
        self.assertEqual((judged.new, judged.lines, judged.known), ([], len(stored().steps), {}))

    def test_an_error_that_stops_nothing_is_told_where_the_next_line_is_tried(self) -> None:
        judged = run(named("goes_on_after_an_error"))
        self.assertEqual(judged.trace.steps[judged.step].line, "serve 0")
        self.assertEqual(sorted(it.place for it in judged.new), ["DMA Setup FIS", "PxSACT", "PxTFD", "Set Device Bits FIS"])

    def test_faults_that_this_script_shows_are_found_at_their_place(self) -> None:
        shown = [fault.name for fault in FAULTS if run(fault.stand_in).new]
        self.assertEqual(len(shown), 14)
        self.assertNotIn("lba_of_24_bits", shown)

    def test_what_comes_elsewhere_in_the_received_area_is_told(self) -> None:
        new = {it.place: it for it in run(named("set_device_bits_at_60h")).new}
        self.assertEqual(sorted(new), ["Set Device Bits FIS", "received FIS area, elsewhere"])
        elsewhere = new["received FIS area, elsewhere"]
        self.assertEqual((elsewhere.expected, elsewhere.got), (bytes(256), bytes(0x60) + bytes.fromhex("a140414000000000") + bytes(0x98)))
        self.assertEqual(elsewhere.mask, elsewhere.got)

    def test_a_bit_that_differs_is_told_where_it_begins_to(self) -> None:
        judged = run(named("no_sdbs"), SILENT)
        shown = [step.line for step, names in zip(judged.trace.steps, judged.names) if names]
        self.assertEqual((judged.new, shown), ([], SHOWN))
        self.assertEqual(judged.known, {"silent": (len(SHOWN), 19)})

    def test_the_emulator_is_ended_whatever_happens(self) -> None:
        Counted.stops.clear()
        run(Counted)
        with self.assertRaisesRegex(EmulatorFault, r"queue, line 5 \(disk 1000 32\): it has ended by signal 9"):
            run(Dies)
        self.assertEqual(Counted.stops, ["stop", "stop"])


class Reports(unittest.TestCase):
    def test_a_difference_is_told_with_its_line_its_bits_and_the_trace(self) -> None:
        text = "\n".join(differences_text(run(named("no_sdbs"))))
        for part in ("queue, line 19: fail 1 40 7 (PxIS)", "PxIS  (AHCI 1.3.1, section 3.3.5 (an I beside ERR))", "rule      a choice of the model",
                     "expected  40000008  SDBS, TFES", "got       40000000  TFES",
                     "differs   SDBS", ">    19  fail 1 40 7"):
            self.assertIn(part, text)

    def test_each_place_is_told_up_to_eight(self) -> None:
        judged = run(named("goes_on_after_an_error"))
        text = differences_text(judged)
        for place in ("DMA Setup FIS", "PxSACT", "PxTFD", "Set Device Bits FIS"):
            self.assertEqual(sum(line.startswith(f"  {place}  (") for line in text), 1, place)
        self.assertEqual(len(as_json(judged)["new"]["differences"]), 4)
        many = differences_text(judged._replace(new=judged.new[:1] * 10))
        self.assertEqual((sum(line.startswith("    expected  ") for line in many), many.count("  and 2 more places")), (8, 1))

    def test_scripts_and_lines_of_a_known_difference_are_counted(self) -> None:
        one = run(StandIn)
        runs = [one._replace(name=name, known=known) for name, known in (("a", {}), ("b", {"silent": (3, 7)}), ("c", {"silent": (2, 4)}))]
        self.assertEqual(counts(runs), {"silent": {"scripts": 2, "times": 5, "first": "b, line 7"}})
        self.assertIn("| silent | 2 | 5 | b, line 7 |", table(runs, SILENT, 0.0))

    def test_the_same_run_is_told_in_the_same_words(self) -> None:
        once, again = (table([run(named("no_sdbs"))], NOTHING, 0.0) for _ in range(2))
        self.assertEqual(once, again)
        self.assertIn("| PxIS | queue, line 19 | `fail 1 40 7` |", once)

    def test_the_json_names_line_place_and_bits(self) -> None:
        new = as_json(run(named("no_sdbs")))["new"]
        self.assertEqual((new["line"], new["differences"][0]["place"], new["differences"][0]["differs"]), (19, "PxIS", ["SDBS"]))
        self.assertIsNone(as_json(run(StandIn))["new"])


class Windows(unittest.TestCase):
    def window(self, at: int) -> Window:
        step = stored().steps[at]
        assert step.sent
        return Layer("plain", "", Guest(StandIn.guest_memory, 65_535)).queued(0, step.line, step.sent, False, 0, bytes(512))

    def test_pieces_have_one_byte_more_than_dbc_says(self) -> None:
        sent = stored().steps[1].sent
        assert sent
        self.assertEqual(pieces_of(sent.prdt), [(0x10001000, 512)])

    def test_a_reads_pieces_are_filled_so_that_missing_bytes_show(self) -> None:
        parts = dict(memory_of(self.window(1)).parts())
        self.assertEqual(parts[0x10000FC0], b"\xc5" * (64 + 512 + 64))

    def test_a_raw_window_is_played_byte_by_byte(self) -> None:
        """Bytes of ACMD, and of CFIS from 14h on, are the port's to ignore; a table without them would be another one."""
        cfis = bytes.fromhex("2780600107000040000000000000000000000000")
        table = cfis + b"\x11" * 44 + b"\x22" * 64 + (0x10000090).to_bytes(8, "little") + bytes(4) + (511).to_bytes(4, "little")
        header = bytes.fromhex("0500010000000000") + (0x10000000).to_bytes(8, "little") + bytes(16)
        for way in ("plain", "scattered"):
            window = Layer(way, "1", Guest(StandIn.guest_memory, 65_535)).raw(0, "raw 0", header, table + bytes(512), False, 7)
            self.assertEqual((window.table[:0x80], len(window.text)), (table[:0x80], 512))
            self.assertEqual(memory_of(window).take(window.table_at, len(window.table)), window.table)


if __name__ == "__main__":
    unittest.main()
