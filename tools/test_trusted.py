#!/usr/bin/env python3
"""Sees which definitions tools/trusted.py follows, in a small repository of its own.

    tools/test_trusted.py
"""
from __future__ import annotations

import os
import sys
import tempfile
import unittest
from typing import Dict, List

sys.dont_write_bytecode = True

from trusted import TABLE, Specs, Unknown, counted, rows, shown

FILES: Dict[str, str] = {
    "crates/low/src/kind.rt": "/// A kind.\npub enum Kind {\n    One,\n    Two,\n}\n\npub struct Flag(bool);\n",
    "crates/low/specs/Numbers.antt": "-- numbers\nuse Rattle.std.specs.Prelude.{ℕ, List}\n\n-- one more\nabbrev pub more : ℕ → ℕ\nmore n = n + 1\n\n"
    "abbrev pub never : ℕ → ℕ\nnever n = other n\n\npub data Sign : Type 0 where\n  Plus : Sign\n  Minus : Sign\n",
    "crates/low/specs/Lib.antt": "pub mod Numbers\n",
    "crates/high/specs/Sums.antt": "use Rattle.low.specs.{Numbers.{more, Minus as Less}, declared.kind.Kind.{Kind}}\nuse Rattle.low.specs.declared.kind.Kind.TheVariants as kind\n\n"
    "-- of two kinds;\n-- never is a word of this comment\nabbrev pub sum : Kind → ℕ → ℕ\nsum kind.One n = more n\nsum k n = half (more n) -- never\n\n"
    "abbrev half : ℕ → ℕ\nhalf n = n / 2\n\nabbrev pub sign : ℕ → _\nsign n = Less\n\nabbrev pub more : ℕ → ℕ\nmore n = n\n",
}


class Trusted(unittest.TestCase):
    def setUp(self) -> None:
        room = tempfile.TemporaryDirectory()
        self.addCleanup(room.cleanup)
        for path, text in FILES.items():
            os.makedirs(os.path.dirname(f"{room.name}/{path}"), exist_ok=True)
            with open(f"{room.name}/{path}", "w", encoding="utf-8") as file:
                file.write(text)
        self.specs = Specs(room.name)

    def lines(self, name: str) -> List[str]:
        return list(shown(self.specs.closure(name)))

    def test_a_definition_has_its_comment_and_its_equations(self) -> None:
        self.assertEqual(["crates/low/specs/Numbers.antt: 4-6"], self.lines("low::more"))

    def test_what_it_names_is_followed_and_a_comment_is_not(self) -> None:
        self.assertEqual(["crates/high/specs/Sums.antt: 4-11, 16-17", "crates/low/src/kind.rt: 2-5"], self.lines("sum"))

    def test_a_constructor_is_its_type_under_any_name(self) -> None:
        self.assertEqual(["crates/high/specs/Sums.antt: 13-14", "crates/low/specs/Numbers.antt: 11-13"], self.lines("sign"))

    def test_what_nothing_defines_is_not_followed(self) -> None:
        self.assertEqual(["crates/low/specs/Numbers.antt: 8-9"], self.lines("never"))

    def test_a_name_of_several_crates_wants_one(self) -> None:
        with self.assertRaisesRegex(Unknown, "expected one of high::more, low::more"):
            self.lines("more")
        with self.assertRaisesRegex(Unknown, "no definition of specs/ has that name"):
            self.lines("least")

    def test_a_definition_that_no_source_leads_to_is_of_proofs_alone(self) -> None:
        def left(*texts: str) -> List[str]:
            return [f"{it.path}: {it.first}" for it in self.specs.of_proofs_alone(texts)]

        self.assertEqual(["crates/low/specs/Numbers.antt: 8", "crates/low/specs/Numbers.antt: 11", "crates/high/specs/Sums.antt: 13"], sorted(left("{ sum kind 1 }"), reverse=True))
        self.assertEqual([], left("requires { sum k n }", "never, sign"))

    def test_they_are_counted_and_a_row_has_the_counts(self) -> None:
        self.assertEqual("4 definitions, 13 lines in 2 files", counted(self.specs.closure("sum")))
        page = ["# Proofs", TABLE, "|---|---|---|---|---|", "| `sum` | 1 | 2 | 3 | a sum | of two |", "", "| `sign` | 1 | 1 | 1 | no row |"]
        self.assertEqual([(4, page[3], "| `sum` | 4 | 13 | 2 | a sum | of two |")], list(rows(self.specs, page)))


if __name__ == "__main__":
    unittest.main()
