"""The list of known differences: read strictly, and matched bit by bit."""
import json
import os
import tempfile
import unittest
from typing import Any, Dict

from judge.differences import Difference, differs
from judge.known import ListFault, known_of, read_known
from judge.lists import list_for
from judge.model import Step
from controller import page as controller_page
from judge.page import anchor, page_of
from tests.common import CONFORM, text_of

ENTRY: Dict[str, Any] = {"name": "one", "title": "One", "section": "3.3", "choice": "model", "emulator": "so", "model": "so", "covers": [{"place": "PxIS"}]}


def text(**members: Any) -> str:
    return json.dumps({"title": "it", "differences": [{**ENTRY, **members}]})


def step(line: str, answer: str) -> Step:
    return Step(1, line, answer, [], None, {}, {}, {})


def word(place: str, expected: int, got: int) -> Difference:
    before, after = expected.to_bytes(4, "big"), got.to_bytes(4, "big")
    return Difference(place, before, after, differs(before, after))


class Versions(unittest.TestCase):
    def test_a_qemu_has_the_list_of_its_version_or_the_one_that_it_was_judged_with_or_of_the_next_older_one_and_that_is_said(self) -> None:
        with tempfile.TemporaryDirectory() as room:
            for name in ("qemu-7.2.json", "qemu-11.1.json", "any_port.json"):
                with open(f"{room}/{name}", "w", encoding="utf-8"):
                    pass
            for version, name, says in (("7.2.22 (Debian)", "qemu-7.2.json", ""), ("10.0.2", "qemu-11.1.json", ""), ("9.2.4", "qemu-7.2.json", "this is QEMU 9.2, and the list of known differences is that of QEMU 7.2"),
                                        ("11.1.3", "qemu-11.1.json", ""), ("12.0", "qemu-11.1.json", "is that of QEMU 11.1"), ("6.1", "qemu-7.2.json", "this is QEMU 6.1")):
                with open(f"{room}/qemu", "w", encoding="utf-8") as file:
                    file.write(f"#!/bin/sh\necho \"QEMU emulator version {version}\"\n")
                os.chmod(f"{room}/qemu", 0o755)
                listed = list_for(room, f"{room}/qemu")
                self.assertEqual(os.path.basename(listed.path), name, version)
                self.assertTrue(says in listed.notice if says else not listed.notice, listed.notice)
            self.assertEqual(list_for(room, f"{room}/none"), (f"{room}/qemu-7.2.json", ""))


class Reading(unittest.TestCase):
    def fault(self, given: str) -> str:
        with self.assertRaises(ListFault) as caught:
            known_of(given, "list.json")
        self.assertNotIn("\n", str(caught.exception))
        return str(caught.exception)

    def test_a_fault_names_the_entry_and_the_member(self) -> None:
        for given, reported in (
            ("{", "list.json: Expecting property name"),
            ("[]", "list.json is no object"),
            ('{"title": "it"}', "list.json has no 'differences'"),
            ('{"title": "it", "differences": [], "more": 1}', "list.json has a member 'more'"),
            (text(name="Not so"), "list.json, difference 1 (Not so): a name has small letters"),
            (text(choice="mine"), "'choice' is 'mine', and neither 'standard' nor 'model'"),
            (text(title=""), "list.json, difference 1: 'title' is empty"),
            (text(title=4), "list.json, difference 1: 'title' is no str"),
            (text(covers=[]), "list.json, difference 1: 'covers' is empty"),
            (text(covers=[{"place": "PxIS", "lines": []}]), "list.json, difference 1 (one), cover 1: 'lines' is empty"),
            (text(covers=[{}]), "list.json, difference 1 (one), cover 1 has no 'place'"),
            (text(covers=[{"place": "PxIS", "bits": "xy"}]), "cover 1: 'bits': 'xy' are no hexadecimal bytes"),
            (text(covers=[{"place": "PxIS", "bits": "0000"}]), "no bit of 'bits' is 1"),
            (json.dumps({"title": "it", "differences": [ENTRY, ENTRY]}), "two differences are named one"),
        ):
            self.assertIn(reported, self.fault(given))

    def test_a_list_may_have_no_differences_and_nothing_beside(self) -> None:
        for given in ('{"title": "it", "differences": []}', '{"title": "it", "differences": [], "beside": []}'):
            known = known_of(given, "list.json")
            self.assertEqual((known.entries, known.beside), ([], []))

    def test_a_file_that_is_missing_is_told(self) -> None:
        with self.assertRaisesRegex(ListFault, "nowhere.json can't be read: No such file"):
            read_known("nowhere.json")


class Matching(unittest.TestCase):
    def left(self, cover: Dict[str, Any], line: str, answer: str, difference: Difference) -> str:
        known = known_of(text(covers=[cover]), "it")
        return known.explain(step(line, answer), difference).mask.hex()

    def test_a_cover_explains_its_bits_alone(self) -> None:
        both = word("PxIS", 0x40000008, 0)
        self.assertEqual(self.left({"place": "PxIS", "bits": "00000008"}, "fail 0 40 0", "failed 3", both), "40000000")

    def test_a_cover_of_another_place_line_or_answer_explains_nothing(self) -> None:
        one = word("PxIS", 8, 0)
        for cover in ({"place": "PxTFD"}, {"place": "PxIS", "lines": ["serve"]}, {"place": "PxIS", "answer": "completed *"}):
            self.assertEqual(self.left(cover, "fail 0 40 0", "failed 3", one), "00000008")
        self.assertEqual(self.left({"place": "PxIS", "lines": ["fail"], "answer": "failed *"}, "fail 0 40 0", "failed 3", one), "00000000")

    def test_what_was_got_counts_where_it_is_given(self) -> None:
        for got, left in (("00000050", "00000000"), ("00000051", "00000010")):
            self.assertEqual(self.left({"place": "PxTFD", "got": got}, "serve 0", "completed 2", word("PxTFD", 0x40, 0x50)), left)

    def test_a_star_stands_for_any_text(self) -> None:
        self.assertEqual(self.left({"place": "PxSACT", "answer": "completed * *"}, "serve 0", "completed 2", word("PxSACT", 0, 1)), "00000001")
        self.assertEqual(self.left({"place": "PxSACT", "answer": "completed * *"}, "serve 0 1", "completed 2 3", word("PxSACT", 0, 1)), "00000000")

    def test_two_entries_explain_one_difference_together(self) -> None:
        entries = [{**ENTRY, "covers": [{"place": "PxTFD", "bits": "0000ff00"}]}, {**ENTRY, "name": "two", "covers": [{"place": "PxTFD", "bits": "00000010"}]}]
        left = known_of(json.dumps({"title": "it", "differences": entries}), "it").explain(step("serve 0", ""), word("PxTFD", 0x40, 0x150))
        self.assertEqual((left.excused, left.mask.hex()), ((("one", bytes.fromhex("00000100")), ("two", bytes.fromhex("00000010"))), "00000000"))


class Pages(unittest.TestCase):
    def test_the_page_of_qemu_is_up_to_date(self) -> None:
        known = read_known(os.path.join(CONFORM, "qemu-7.2.json"))
        made = page_of(known, "qemu-7.2.json", controller_page.part())
        self.assertEqual(text_of("docs", "QEMU.md"), made, "conform/ahci_conform --page conform/qemu-7.2.json > docs/QEMU.md writes it")

    def test_each_decision_that_the_list_names_is_a_heading(self) -> None:
        headings = text_of("docs", "DECISIONS.md").splitlines()
        for entry in read_known(os.path.join(CONFORM, "qemu-7.2.json")).entries:
            self.assertTrue(not entry.decision or f"### {entry.decision}" in headings, entry.decision)

    def test_an_anchor_is_that_of_a_heading(self) -> None:
        self.assertEqual(anchor("SDBS isn't set, beside E_Status"), "sdbs-isnt-set-beside-e_status")


if __name__ == "__main__":
    unittest.main()
