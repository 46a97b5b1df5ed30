#!/usr/bin/env python3
"""Holds the shipped JSON against its schemas in docs/, and sees that each schema refuses what it should.

    tools/test_schemas.py

It needs Debian's package `python3-jsonschema`, and says so and ends where that is missing.
"""
from __future__ import annotations

import copy
import json
import os
import re
import sys
import unittest
from typing import Any, Dict, List

try:
    import jsonschema
except ImportError:
    jsonschema = None  # type: ignore[assignment]

TOP = os.path.dirname(os.path.dirname(os.path.realpath(__file__)))


def read(path: str) -> str:
    with open(os.path.join(TOP, path), encoding="utf-8") as text:
        return text.read()


def lines(path: str) -> List[Dict[str, Any]]:
    return [json.loads(line) for line in read(path).splitlines()]


def validator_of(path: str) -> Any:
    schema = json.loads(read(path))
    jsonschema.Draft202012Validator.check_schema(schema)
    return jsonschema.Draft202012Validator(schema)


def shown(page: str, first: str) -> List[Dict[str, Any]]:
    """The objects that a page shows, on lines of their own or in a row, each of which begins with this member."""
    return [json.loads(it) for it in re.findall(r'\{"%s":[^{}]*\}' % first, read(page))]


@unittest.skipIf(jsonschema is None, "skipped: Debian's package python3-jsonschema is not installed")
class CheckSchema(unittest.TestCase):
    """docs/check.schema.json and the complaints that docs/PROGRAM.md shows."""

    def setUp(self) -> None:
        self.validator = validator_of("docs/check.schema.json")
        self.complaints = shown("docs/PROGRAM.md", "line")

    def test_each_complaint_that_is_shown_fits(self) -> None:
        self.assertEqual(["BeforeDisk", "NoSuchSector"], [it["rule"] for it in self.complaints])
        for it in self.complaints:
            self.assertTrue(self.validator.is_valid(it), it)

    def test_each_rule_of_the_page_has_its_kind(self) -> None:
        rules = self.validator.schema["$defs"]
        row = next(it for it in read("docs/PROGRAM.md").splitlines() if it.startswith("| `rule` |"))
        names = re.findall(r"`([A-Z]\w+)`", row)
        self.assertEqual(names, rules["language"]["enum"] + rules["port"]["enum"])

    def test_what_is_missing_or_too_much_is_refused(self) -> None:
        for name, change in [
            ("no line", {"line": None}),
            ("a line 0", {"line": 0}),
            ("a rule of the other kind", {"rule": "NoSlots"}),
            ("a rule that is none", {"rule": "Odd"}),
            ("a member that is none", {"number": 1}),
        ]:
            self.assertFalse(self.validator.is_valid({**self.complaints[0], **change}), name)


@unittest.skipIf(jsonschema is None, "skipped: Debian's package python3-jsonschema is not installed")
class RunSchema(unittest.TestCase):
    """docs/run.schema.json and the objects that docs/JOBS.md shows."""

    def setUp(self) -> None:
        self.validator = validator_of("docs/run.schema.json")
        self.jobs = shown("docs/JOBS.md", "job")
        self.sectors = shown("docs/JOBS.md", "sector")

    def test_each_object_that_is_shown_fits(self) -> None:
        self.assertEqual((1, 1), (len(self.jobs), len(self.sectors)))
        for it in self.jobs + self.sectors:
            self.assertTrue(self.validator.is_valid(it), it)

    def test_what_is_missing_or_too_much_is_refused(self) -> None:
        for name, it in [
            ("a worker of 32", {**self.jobs[0], "worker": 32}),
            ("a job that reads nothing", {**self.jobs[0], "answer": "read"}),
            ("a job with a sector", {**self.jobs[0], "sector": 0}),
            ("a sector past the largest disk", {**self.sectors[0], "sector": 131072}),
            ("a sector without its text", {"sector": 0}),
        ]:
            self.assertFalse(self.validator.is_valid(it), name)


@unittest.skipIf(jsonschema is None, "skipped: Debian's package python3-jsonschema is not installed")
class TraceSchema(unittest.TestCase):
    """docs/trace.schema.json and the shipped trace."""

    def setUp(self) -> None:
        self.validator = validator_of("docs/trace.schema.json")
        self.trace = lines("crates/ahci_examples/data/error_in_a_queue.json")

    def test_each_line_of_the_shipped_trace_fits(self) -> None:
        for at, line in enumerate(self.trace, 1):
            self.assertEqual([], [it.message for it in self.validator.iter_errors(line)], f"line {at}")

    def test_what_is_missing_or_too_much_is_refused(self) -> None:
        failure = next(it for it in self.trace if it["answer"] == "failed 6")

        def changed(change: Any) -> Dict[str, Any]:
            line = copy.deepcopy(failure)
            change(line)
            return line

        for name, change in [
            ("no line", lambda it: it.pop("line")),
            ("line 0", lambda it: it.update(line=0)),
            ("no command", lambda it: it.pop("command")),
            ("no answer", lambda it: it.pop("answer")),
            ("no transfers", lambda it: it.pop("transfers")),
            ("no writes", lambda it: it.pop("writes")),
            ("a write without its word", lambda it: it.update(writes=[{"name": "PxCI"}])),
            ("a register without the word before", lambda it: it["registers"][0].pop("before")),
            ("a word of seven digits", lambda it: it["registers"][0].update(word="0000004")),
            ("a register that is none", lambda it: it["registers"][0].update(name="PxVS")),
            ("a failure without its error", lambda it: it["entries"][0].pop("error")),
            ("a tag of 32", lambda it: it["slots"][0].update(tag=32)),
            ("another FIS in the place of Set Device Bits", lambda it: it["received"].update(set_device_bits="34" + "0" * 14)),
            ("a member that is none", lambda it: it.update(fault="not understood")),
        ]:
            self.assertFalse(self.validator.is_valid(changed(change)), name)

    def test_data_move_in_pieces_of_whole_sectors(self) -> None:
        moved = next(it for it in self.trace if it["transfers"])
        for data, fits in (([512], True), ([8192, 512], True), ([], False), ([8704], False), ([4], False)):
            line = copy.deepcopy(moved)
            line["transfers"][0]["data"] = data
            self.assertEqual(fits, self.validator.is_valid(line), data)

    def test_a_fault_may_be_the_last_line(self) -> None:
        self.assertEqual([{"fault": "not understood", "line": 3}], shown("docs/PROGRAM.md", "fault"))
        for line, fits in (
            ({"fault": "not understood", "line": 3}, True),
            ({"fault": "input failed"}, True),
            ({"fault": "not understood"}, False),
            ({"fault": "input failed", "line": 3}, False),
            ({"fault": "output failed"}, False),
        ):
            self.assertEqual(fits, self.validator.is_valid(line), line)


if __name__ == "__main__":
    if jsonschema is None:
        print("tools/test_schemas.py: skipped: Debian's package python3-jsonschema is not installed", file=sys.stderr)
    unittest.main()
