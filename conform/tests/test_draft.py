"""A first list of differences, drafted in one run; what any port may do otherwise; and whose rule a difference breaks."""
import json
import os
import unittest
from typing import Tuple, Type

from judge import layout
from judge.cli import BASE
from judge.differences import Difference, differs
from judge.draft import Draft
from judge.judge import Judged, judge
from judge.known import NOTHING, Known, known_of, read_known
from judge.model import Step
from judge.rules import RULES, counts_all, is_last_part, names_some, rule_of
from stand_in.faults import FAULTS, named
from stand_in.port import StandIn
from tests.common import stored, text_of


class Other(StandIn):
    """An emulator with its own CAP, VS, PxSSTS, and faults of two kinds."""

    def start(self, sectors: int, depth: int) -> None:
        super().start(sectors, depth)
        self.words.update({0x00: 0xC0141F05, 0x10: 0x00010300, 0x128: 0x113})

    def receive_bits(self, fis: bytes) -> None:
        super().receive_bits(fis)
        self.words[layout.PX_IS] &= ~8
        self.words[layout.PX_TFD] &= 0xFF


def drafted(made: Type[StandIn], known: Known = NOTHING) -> Tuple[Judged, Draft]:
    draft = Draft()
    return judge("queue", stored(), made, known, draft=draft), draft


def step(line: str, answer: str) -> Step:
    return Step(1, line, answer, [], None, {}, {}, {})


def word(place: str, expected: int, got: int) -> Difference:
    before, after = expected.to_bytes(4, "big"), got.to_bytes(4, "big")
    return Difference(place, before, after, differs(before, after))


class Drafts(unittest.TestCase):
    def test_one_run_goes_to_the_end_and_lists_every_kind(self) -> None:
        judged, draft = drafted(Other)
        self.assertEqual((judged.new, judged.lines), ([], len(stored().steps)))
        self.assertEqual(list(draft.written), [
            "cap_at_disk_model", "vs_at_disk_model", "pxssts_at_disk_model", "pxis_at_fail_model", "pxtfd_at_fail_standard", "pxis_at_serve_standard"])

    def test_the_list_that_is_written_explains_the_same_run(self) -> None:
        for made in (Other, named("goes_on_after_an_error"), named("set_device_bits_at_60h"), named("log_names_slot_0")):
            _, draft = drafted(made)
            known = known_of(draft.text("it"), "list.json")
            self.assertTrue(known.entries)
            self.assertEqual(judge("queue", stored(), made, known).new, [])
            self.assertNotEqual(judge("queue", stored(), made, NOTHING).new, [])

    def test_what_the_list_knows_is_not_drafted(self) -> None:
        _, draft = drafted(Other, read_known(BASE))
        self.assertEqual(list(draft.written), ["pxis_at_fail_model", "pxtfd_at_fail_standard", "pxis_at_serve_standard"])

    def test_numbers_of_one_script_are_not_part_of_a_kind(self) -> None:
        draft = Draft()
        for at in range(5):
            draft.explain("s", step("serve 3", "completed 9"), Difference(f"data of tag {at}", b"ab", bytes([at, 1]), b"\1\2"))
            draft.explain("s", step("serve 3", "completed 9"), word("PxSACT", 1 << at, 0))
        kinds = {name: len(it["covers"]) for name, it in draft.written.items()}
        self.assertEqual(kinds, {"data_of_tag_at_serve_standard": 1, "pxsact_at_serve_standard": 1})

    def test_what_may_follow_from_an_earlier_difference_says_so(self) -> None:
        _, draft = drafted(named("set_device_bits_at_60h"))
        first = list(draft.after)[0]
        self.assertEqual(list(draft.after.values()), ["", "", first, first])
        self.assertIn(f"It came after {first}, and may follow from it.", draft.text("it"))

    def test_a_run_without_differences_drafts_nothing(self) -> None:
        _, draft = drafted(StandIn)
        self.assertEqual(json.loads(draft.text("it")), {"title": "it", "differences": []})


class Base(unittest.TestCase):
    def test_any_port_may_have_its_own_cap_version_generation_and_names(self) -> None:
        known = NOTHING.over(read_known(BASE))
        self.assertEqual(len(known.base), len(known.entries))
        for difference, line in ((word("CAP", 0x40001F00, 0xC0141F05), "disk 1 32"), (word("VS", 0x10301, 0x10000), "disk 1 32"), (word("PxSSTS", 0x123, 0x133), "disk 1 32"),
                                 (word("PxTFD", 0x40, 0x50), "serve 0"), (word("PRDBC", 0, 512), "identify 3"), (word("PxIS", 8, 0x28), "serve 1")):
            self.assertFalse(any(known.explain(step(line, ""), difference).mask), difference.place)

    def test_it_excuses_nothing_that_a_script_depends_on(self) -> None:
        known = NOTHING.over(read_known(BASE))
        for difference, line in ((word("CAP", 0x40001F00, 0x00001F00), "disk 1 32"), (word("PRDBC", 0, 511), "identify 3"), (word("PxTFD", 0x40, 0x51), "serve 0"),
                                 (word("PxSSTS", 0x123, 0x120), "disk 1 32"), (word("PI", 1, 0), "disk 1 32")):
            self.assertTrue(any(known.explain(step(line, ""), difference).mask), difference.place)

    def test_an_entry_of_the_emulators_own_list_counts_first(self) -> None:
        qemu = read_known(os.path.join(os.path.dirname(BASE), "qemu-7.2.json")).over(read_known(BASE))
        self.assertEqual(qemu.explain(step("disk 1 32", ""), word("VS", 0x10301, 0x10000)).excused[0][0], "capabilities")

    def test_each_decision_that_it_names_is_a_heading(self) -> None:
        headings = text_of("docs", "DECISIONS.md").splitlines()
        for entry in read_known(BASE).entries:
            self.assertTrue(not entry.decision or f"### {entry.decision}" in headings, entry.decision)


class Rules(unittest.TestCase):
    def test_each_difference_of_the_stand_ins_faults_has_a_rule_with_its_section(self) -> None:
        for fault in FAULTS:
            judged = judge("queue", stored(), fault.stand_in, NOTHING)
            for it in judged.new:
                self.assertTrue(rule_of(judged.trace.steps[judged.step], it).section, it.place)

    def test_whose_a_rule_is(self) -> None:
        for line, answer, difference, choice in (
            ("disk 1 1", "disk 1 1", word("CAP", 0x40000000, 0), "standard"), ("disk 1 1", "disk 1 1", word("CAP", 0x40000000, 0xC0000000), "model"),
            ("serve 0", "completed 2", word("PxTFD", 0x40, 0x50), "model"), ("serve 0", "completed 2", word("PxTFD", 0x40, 0x41), "standard"),
            ("serve 0", "completed 2", word("PxTFD", 0x40, 0x51), "standard"), ("accept 0", "failed 2", word("PxCI", 1, 0), "model"),
            ("accept 0", "accepted 2", word("PxCI", 0, 1), "standard"), ("fail 0 40 0", "failed 2", word("PxIS", 8, 0), "model"),
        ):
            self.assertEqual(rule_of(step(line, answer), difference).choice, choice, (line, difference))

    def test_a_value_that_no_device_may_give_breaks_the_standard(self) -> None:
        def setup(offset: int, count: int) -> bytes:
            return bytes(16) + offset.to_bytes(4, "little") + count.to_bytes(4, "little") + bytes(4)

        def bits(tags: int) -> bytes:
            return bytes(4) + tags.to_bytes(4, "little")

        for place, expected, got, choice in (
            ("PRDBC", bytes(4), bytes([0, 0, 2, 0]), "model"), ("PRDBC", bytes(4), bytes([0, 0, 1, 0xFF]), "standard"),
            ("DMA Setup FIS", setup(0, 0x10000), setup(0xC000, 0x4000), "model"), ("DMA Setup FIS", setup(0, 0x10000), setup(0, 0), "standard"),
            ("DMA Setup FIS", setup(0, 0x30000), setup(0, 0xFFFF), "standard"), ("DMA Setup FIS", setup(0, 512), setup(512, 512), "standard"),
            ("Set Device Bits FIS", bits(0x30), bits(0x20), "model"), ("Set Device Bits FIS", bits(0x30), bits(0x31), "standard"),
            ("Set Device Bits FIS", bits(0x30), bits(0), "standard"), ("command header of tag 3", bytes(32), bytes(12) + b"\1" + bytes(19), "standard"),
        ):
            self.assertEqual(rule_of(step("serve 4 5", "completed 9 10"), Difference(place, expected, got, differs(expected, got))).choice, choice, (place, got))

    def test_each_rule_is_reached(self) -> None:
        """No rule comes after another that takes all of its differences."""
        values = {names_some: (b"\0\0\0\0\3\0\0\0", b"\0\0\0\0\1\0\0\0"), counts_all: (bytes(4), b"\0\0\2\0"),
                  is_last_part: (bytes(20) + b"\0\4" + bytes(6), bytes(16) + b"\0\2\0\0\0\2" + bytes(6))}
        for at, rule in enumerate(RULES):
            bits = bytes.fromhex(rule.bits) or b"\xff" * 4
            expected, got = values.get(rule.is_so, (bytes(len(bits)), bits))
            difference = Difference(rule.place.replace("*", "9"), expected, got, differs(expected, got))
            line = step(f"{rule.lines[0] if rule.lines else 'show'} 0", rule.answer.replace("*", "9"))
            self.assertIs(rule_of(line, difference), rule, f"rule {at}: {rule.place}")


if __name__ == "__main__":
    unittest.main()
