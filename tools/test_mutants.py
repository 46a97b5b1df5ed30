#!/usr/bin/env python3
"""Sees which mutations tools/mutants makes, of which functions, and that it reports what is let through, with small programs in the place of
`rattle` and `rt`.

    tools/test_mutants.py

That `rattle` refuses a changed `less` by a clause, a changed `three` by a clause of its caller, and a changed `four` by a stored proof where there is
one, else by a clause; a changed `five` does not compile, and any `two` is proved.
"""
from __future__ import annotations

import os
import shutil
import subprocess
import sys
import tempfile
import textwrap
import unittest
from typing import Dict, List, Optional, Set, Tuple

TOP = os.path.dirname(os.path.dirname(os.path.realpath(__file__)))
sys.dont_write_bytecode = True
sys.path.insert(0, os.path.join(TOP, "tools"))

from trials import CLAUSE, Crate, Functions, Limit, Texts  # noqa: E402

BODIES = {"less": "a < b", "two": "2", "three": "3", "four": "4", "five": "5"}
SOURCE = "".join(f"fn {name}(a: u8, b: u8) -> T\n    ensures {{ result.now ≡ 7 }}\n{{\n    {body}\n}}\n\n" for name, body in BODIES.items())
RATTLE = f'''\
    #!/usr/bin/env python3
    import os
    import re
    import sys
    if sys.argv[1] != "check" or "--incremental" not in sys.argv:
        raise SystemExit("called by other words: " + " ".join(sys.argv[1:]))
    proved = os.path.join(sys.argv[sys.argv.index("--incremental") + 1], "proved")
    with open(os.environ["CALLS"], "a") as calls:
        print(" ".join(sys.argv[2:]), "again" if os.path.exists(proved) else "anew", file=calls)
    open(proved, "w").close()
    text = open("src/lib.rt", encoding="utf-8").read()
    wanted = {BODIES!r}
    body = {{name: re.search(rf"fn {{name}}.*\\n.*\\n{{{{\\n    (.*)\\n", text)[1] for name in wanted}}
    line = {{name: text[: text.index(f"fn {{name}}")].count("\\n") + 1 for name in wanted}}
    wrong = [name for name in wanted if body[name] != wanted[name] and name != "two"]
    if "five" in wrong:
        print(f"src/lib.rt:{{line['five'] + 3}}:5: error[unknown-name]: failed to resolve")
        raise SystemExit(1)
    for name in wanted:
        if name not in wrong:
            print(f"fn low::{{name}}: proved")
    for name in wrong:
        stored = os.path.exists(f"proofs/{{name}}/Answers.antt")
        if name == "less" or name == "four" and not stored:
            print(f"note: src/lib.rt:{{line[name]}}:1: it is not proved that what the function ensures holds")
            print(f"fn low::{{name}}: no proof: `search` did not prove `returns`")
        if name == "three":
            print("fn low::three: proved")
            print("note: src/lib.rt:999:1: it is not proved that what the function ensures holds")
        if name == "four" and stored:
            print("./proofs/four/Answers.antt:3:5: error: `returns`: the goal does not follow")
            print("fn low::four: not proved")
    raise SystemExit(1 if wrong else 0)
'''
MANY = '''\
//! A text.
pub enum Side {
    Left,
    Right,
}

impl Side {
    /// Words.
    pub fn of(value: Option<u8>, by: u8) -> Side
        requires { by ≤ 1 }
        ensures far {
            result ≡ by + 1
        }
    {
        // by + 1
        prove!(by + 1 == 2);
        match value {
            Some(1) => Side::Left, // by + 1
            None if !by.is_zero() && by < 0x1F => fall("1 + 1"),
            _ => put(value, by),
        }
    }

    fn clear(&mut self) {
        self.place = by;
        let word = self.word;
        self.list.put(word);
    }
}
'''
WANTED = [
    "src/lib.rt:18 of: Some(1) => Side::Left,  ->  Some(1) => Side::Right,",
    'src/lib.rt:19 of: None if !by.is_zero() && by < 0x1F => fall("1 + 1"),  ->  None if !by.is_zero() && by < 32 => fall("1 + 1"),',
    'src/lib.rt:19 of: None if !by.is_zero() && by < 0x1F => fall("1 + 1"),  ->  None if !by.is_zero() && by <= 0x1F => fall("1 + 1"),',
    'src/lib.rt:19 of: None if !by.is_zero() && by < 0x1F => fall("1 + 1"),  ->  None if !by.is_zero() || by < 0x1F => fall("1 + 1"),',
    'src/lib.rt:19 of: None if !by.is_zero() && by < 0x1F => fall("1 + 1"),  ->  None if by.is_zero() && by < 0x1F => fall("1 + 1"),',
    "src/lib.rt:20 of: _ => put(value, by),  ->  _ => put(by, value),",
    "src/lib.rt:15 of: {..}  ->  {Side::Left}",
    "src/lib.rt:15 of: {..}  ->  {Side::Right}",
    "src/lib.rt:25 clear: self.place = by;  ->  {}",
    "src/lib.rt:27 clear: self.list.put(word);  ->  {}",
    "src/lib.rt:25 clear: {..}  ->  {}",
]
FAULTS = '''\
pub struct OutOfMemory;

pub enum Fault {
    Busy,
    NotReady,
    At(u8),
    OutOfMemory,
}

pub struct Shelf<A: Allocator> {
    books: Vec<u8, A>,
    others: Vec<u8, A>,
    pub count: u64,
}

impl<A: Allocator> Model for Shelf<A> {
    ghost view = { λ s. record { books = s.books.items; held = vec_capacity s.books } };
}

'''
# a function in `impl<A: Allocator> Shelf<A>`, and its bodies and growths
WHOLE: List[Tuple[str, List[str]]] = [
    ("fn f(&mut self)", ["{..}  ->  {}", "{  ->  { let _grown = self.books.reserve(4096);"]),
    ("fn f(&self)", []),
    ("fn f(&self) -> u64", ["{..}  ->  {0}"]),
    ("fn f(at: bool, of: Option<u8>) -> bool", ["{..}  ->  {at}", "{..}  ->  {false}", "{..}  ->  {true}"]),
    ("fn f(self, alloc: A) -> Self", ["{..}  ->  {self}"]),
    ("fn f(\n        bytes: &'static [u8],\n        at: u64,\n    ) -> Result<u64, Fault>\n    where\n        A: Copy,\n    ",
     ["{..}  ->  {Ok(at)}", "{..}  ->  {Err(Fault::Busy)}", "{..}  ->  {Err(Fault::NotReady)}", "{..}  ->  {Err(Fault::OutOfMemory)}", "{..}  ->  {Ok(0)}",
      "{  ->  { if bytes.len() == 7 { return Err(Fault::OutOfMemory); }"]),
    ("fn f(&self) -> Result<(), OutOfMemory>", ["{..}  ->  {Ok(())}", "{..}  ->  {Err(OutOfMemory)}", "{  ->  { if self.books.len() == 7 { return Err(OutOfMemory); }"]),
    ("fn f(alloc: &A) -> Result<Vec<u8, A>, AllocError>", ["{..}  ->  {Err(AllocError)}", "{  ->  { let _room = vec![in alloc.clone()?; 0u8; 1]?;"]),
    ("fn f(of: Vec<u8, A>) -> Option<Vec<u8, A>>", ["{..}  ->  {Some(of)}", "{..}  ->  {None}"]),
    ("fn f(list: &mut Vec<u8, A>) -> [u8; 4]", ["{..}  ->  {[0; 4]}"]),
    ("fn f(list: &mut Vec<u8, A>) -> u64\n        ensures held { vec_capacity list.new ≡ vec_capacity list.old }\n    ",
     ["{..}  ->  {0}", "{  ->  { let _grown = list.reserve(4096);"]),
    ("fn f(&self) -> (u8, Option<Fault>)", ["{..}  ->  {(0, None)}"]),
    ("fn fmt(&self, f: &mut Formatter<A>) -> Result<(), fmt::Error>", []),
]


class Tools(unittest.TestCase):
    """Each test has a repository of its own: `low` below `ahci`, whose crate isn't there."""

    def setUp(self) -> None:
        self.room = tempfile.mkdtemp(prefix="test-mutants-")
        self.addCleanup(shutil.rmtree, self.room)
        self.top = os.path.join(self.room, "top")
        self.write("top/crates/low/src/lib.rt", SOURCE)
        self.write("top/crates.txt", "low:\nahci: low\n")
        self.write("bin/rattle", textwrap.dedent(RATTLE))
        self.write("bin/rt", f"#!/bin/sh\necho {self.room}/kit/START-HERE.md\n")
        for name in ("rattle", "rt"):
            os.chmod(os.path.join(self.room, "bin", name), 0o755)
        os.makedirs(os.path.join(self.top, "tools"))
        for file in ("mutants", "mutations.py", "trials.py", "libraries.py"):
            shutil.copy(os.path.join(TOP, "tools", file), os.path.join(self.top, "tools", file))

    def write(self, path: str, text: str) -> None:
        at = os.path.join(self.room, path)
        os.makedirs(os.path.dirname(at), exist_ok=True)
        with open(at, "w", encoding="utf-8") as it:
            it.write(text)

    def commit(self) -> None:
        git = ["git", "-C", self.top, "-c", "user.name=x", "-c", "user.email=x@x"]
        for words in (["init", "-q"], ["add", "-A"], ["commit", "-qm", "x"]):
            subprocess.run(git + words, check=True)

    def run_with(self, *words: str) -> "subprocess.CompletedProcess[str]":
        env = {**os.environ, "PATH": f"{self.room}/bin:{os.environ['PATH']}", "CALLS": f"{self.room}/calls"}
        words = words if "--seed" in words or "--default-seed" in words else ("--seed", "1", *words)
        words = tuple(it for it in words if it != "--default-seed")
        return subprocess.run([sys.executable, "-B", os.path.join(self.top, "tools/mutants"), *words], env=env, capture_output=True, text=True, check=False)

    def calls(self) -> List[str]:
        with open(os.path.join(self.room, "calls"), encoding="utf-8") as it:
            return it.read().splitlines()

    def listed(self, *words: str) -> List[str]:
        ran = self.run_with("--list", *words)
        self.assertEqual((0, ""), (ran.returncode, ran.stderr))
        return [it.replace("low/", "", 1) for it in ran.stdout.splitlines()]

    def said(self, ran: "subprocess.CompletedProcess[str]") -> List[str]:
        """What is said after the table."""
        return ran.stdout.split("|\n")[-1].splitlines()


class Mutations(Tools):
    def test_bodies_change_and_contracts_patterns_texts_and_ghost_code_do_not(self) -> None:
        self.write("top/crates/low/src/lib.rt", MANY)
        self.assertEqual(WANTED, self.listed("--each", "99", "low"))

    def test_a_condition_changes_in_each_of_its_parts(self) -> None:
        self.write("top/crates/low/src/lib.rt", "fn one(a: u8) -> T {\n    !a.is_none() && a + 1 <= 0x1F\n}\n")
        start = "src/lib.rt:2 one: !a.is_none() && a + 1 <= 0x1F  ->  "
        self.assertEqual(sorted(start + it for it in (
            "!a.is_none() && a + 1 < 0x1F", "!a.is_none() || a + 1 <= 0x1F", "!a.is_none() && a - 1 <= 0x1F", "!a.is_none() && a <= 0x1F",
            "!a.is_none() && a + 2 <= 0x1F", "!a.is_none() && a + 1 <= 32", "!a.is_some() && a + 1 <= 0x1F")), sorted(self.listed("--each", "99", "low")))

    def test_whole_bodies_are_old_values_and_give_up_and_growths_come_first(self) -> None:
        for head, wanted in WHOLE:
            self.write("top/crates/low/src/lib.rt", f"{FAULTS}impl<A: Allocator> Shelf<A> {{\n    pub {head} {{\n        todo(x)\n    }}\n}}\n")
            found = [it.partition(": ")[2] for it in self.listed("--each", "99", "low")]
            self.assertEqual(sorted(wanted), sorted(found), head)

    def test_a_body_that_gives_up_already_is_no_mutation(self) -> None:
        self.write("top/crates/low/src/lib.rt", "fn one(a: u8) -> bool {\n    true // always\n}\n")
        self.assertEqual(["src/lib.rt:2 one: true  ->  false", "src/lib.rt:2 one: {..}  ->  {false}"], self.listed("low"))

    def test_a_seed_chooses_and_a_word_and_a_number_limit(self) -> None:
        self.assertEqual(self.listed("--seed", "3", "low"), self.listed("--seed", "3", "low"))
        self.assertEqual(["src/lib.rt:10 two: 2  ->  3"], self.listed("--only", "two", "low"))
        self.assertEqual(len(BODIES), len(self.listed("--each", "1", "low")))
        self.assertEqual(1, len({it.split()[1] for it in self.listed("--functions", "1", "low")}))
        self.assertEqual(self.listed("low"), self.listed("--functions", str(len(BODIES)), "low"))
        self.commit()
        self.assertRegex(self.run_with("--default-seed", "low").stdout, r"^seed \d+\n")

    def test_all_are_the_crates_of_the_program_and_the_libraries(self) -> None:
        self.write("top/crates.txt", "low:\nhigh: low\nshelf staticlib: high\nahci:\nlow_tests: low\n")
        self.write("top/crates/high/src/lib.rt", "fn up() -> T {\n    1\n}\n")
        self.write("top/crates/low_tests/src/lib.rt", "fn seen() -> T {\n    1\n}\n")
        self.assertEqual(["low", "high"], list(dict.fromkeys(it.split("/")[0] for it in self.run_with("--all", "--list").stdout.splitlines())))
        self.assertIn("there is no crate low_tests below the program", self.run_with("low_tests").stderr)
        self.assertIn("name crates, or give --since REV or --all", self.run_with().stderr)


class Since(Tools):
    def setUp(self) -> None:
        super().setUp()
        self.write("top/crates.txt", "low:\nhigh: low\nother:\nahci: high other\n")
        self.write("top/crates/low/specs/Sums.antt", "-- sums\nabbrev pub sum_of : ℕ → ℕ\nsum_of n = n + 1\n\npub record IsSum : Type 0 where\n  pub len : ℕ\n")
        for name in ("high", "other"):
            self.write(f"top/crates/{name}/src/lib.rt", f"fn in_{name}() -> T\n    ensures {{ result ≡ sum_of 1 }}\n{{\n    1\n}}\n")
        self.commit()

    def changed(self, *words: str) -> Set[str]:
        """The functions that are chosen."""
        ran = self.run_with("--since", "HEAD", "--list", "--each", "1", *words)
        self.assertEqual("", ran.stderr)
        return {it.split(": ")[0].split(" ")[-1] for it in ran.stdout.splitlines()}

    def test_a_changed_body_or_clause_chooses_its_function(self) -> None:
        self.assertEqual(set(), self.changed())
        self.write("top/crates/low/src/lib.rt", SOURCE.replace("a < b", "a > b").replace("result.now ≡ 7 }\n{\n    3", "result.now ≡ 8 }\n{\n    3"))
        self.assertEqual({"less", "three"}, self.changed())
        self.assertEqual(set(), self.changed("high"))

    def test_a_comment_or_a_blank_line_chooses_none(self) -> None:
        self.write("top/crates/low/src/lib.rt", "//! Text.\n\n" + SOURCE.replace("{\n    3\n", "{\n    // three\n\n    3\n") + "/// No more.\n")
        self.assertEqual(set(), self.changed())

    def test_a_line_that_is_gone_chooses_its_function(self) -> None:
        longer = SOURCE.replace("    4\n", "    go(a);\n    4\n").replace("    3\n", "    // three\n    3\n")
        self.write("top/crates/low/src/lib.rt", longer)
        self.commit()
        self.write("top/crates/low/src/lib.rt", longer.replace("    go(a);\n", ""))
        self.assertEqual({"four"}, self.changed())
        self.write("top/crates/low/src/lib.rt", longer.replace("    go(a);\n", "    // gone\n"))
        self.assertEqual({"four"}, self.changed())
        self.write("top/crates/low/src/lib.rt", longer.replace("    // three\n", ""))
        self.assertEqual(set(), self.changed())
        self.write("top/crates/low/src/lib.rt", longer.replace(f"fn two{longer.split('fn two')[1].split('fn ')[0]}", ""))
        self.assertEqual(set(), self.changed())

    def test_a_new_file_and_a_new_function_are_chosen(self) -> None:
        self.write("top/crates/low/src/more.rt", "fn more() -> T {\n    1\n}\n")
        self.write("top/crates/low/src/lib.rt", SOURCE + "fn last() -> T {\n    1\n}\n")
        self.assertEqual({"more", "last"}, self.changed())

    def test_a_changed_definition_chooses_contracts_of_its_crate_and_those_above(self) -> None:
        specs = "-- sums\nabbrev pub sum_of : ℕ → ℕ\nsum_of n = n + 2\n\npub record IsSum : Type 0 where\n  pub len : ℕ\n"
        self.write("top/crates/low/specs/Sums.antt", specs)
        self.assertEqual({"in_high"}, self.changed())
        self.write("top/crates/low/src/lib.rt", SOURCE.replace("result.now ≡ 7 }\n{\n    2", "IsSum result }\n{\n    2"))
        self.commit()
        self.write("top/crates/low/specs/Sums.antt", specs.replace("-- sums", "-- other words").replace("pub len : ℕ", "pub len : Fin"))
        self.assertEqual({"two"}, self.changed())

    def test_edits_of_the_changed_functions_are_tried(self) -> None:
        for name, old in (("two_is_one", "    2"), ("three_is_one", "    3")):
            self.write(f"top/crates/low/wrong-bodies/{name}.edit", f"file: src/lib.rt\nold: {old}\nnew:     1\n")
        self.commit()
        self.write("top/crates/low/src/lib.rt", SOURCE.replace("result.now ≡ 7 }\n{\n    2", "result.now ≡ 8 }\n{\n    2"))
        self.assertIn("low/two_is_one.edit", self.run_with("--since", "HEAD", "--list").stdout)
        self.assertNotIn("three_is_one", self.run_with("--since", "HEAD", "--list").stdout)

    def test_a_commit_that_is_not_there_is_told(self) -> None:
        self.assertIn("mutants: fatal: ", self.run_with("--since", "none").stderr)


class Trials(Tools):
    def test_what_is_let_through_is_told_and_all_else_is_counted(self) -> None:
        self.write("top/crates/low/proofs/four/Answers.antt", "a proof")
        ran = self.run_with("low")
        self.assertEqual((1, ["let through: low/src/lib.rt:10 two: 2  ->  3"]), (ran.returncode, self.said(ran)), ran.stderr)
        self.assertRegex(ran.stdout, r"\| low \| 5 \| 5 \| 4 \| [\d.]+ \| 2 \| 1 \| 1 \| 1 \|")
        with open(os.path.join(self.top, "crates/low/src/lib.rt"), encoding="utf-8") as text:
            self.assertEqual(SOURCE, text.read())

    def test_a_whole_body_is_judged_without_the_functions_stored_proof(self) -> None:
        self.write("top/crates/low/src/lib.rt", SOURCE.replace("fn four(a: u8, b: u8) -> T", "fn four(a: u8, b: u8) -> bool"))
        self.write("top/crates/low/proofs/four/Answers.antt", "a proof")
        ran = self.run_with("--only", "four", "low")
        self.assertRegex(ran.stdout, r"\| low \| 1 \| 3 \| 3 \| [\d.]+ \| 2 \| 1 \| 0 \| 0 \|")
        self.assertTrue(os.path.exists(os.path.join(self.top, "crates/low/proofs/four/Answers.antt")))

    def test_a_crates_edits_are_tried_too(self) -> None:
        for name, old, new in (("two_is_five", "    2", "5"), ("less_is_more", "    a < b", "a > b"), ("two_is_lost", "    22", "5")):
            self.write(f"top/crates/low/wrong-bodies/{name}.edit", f"file: src/lib.rt\nold: {old}\nnew:     {new}\n")
        ran = self.run_with("--each", "0", "low")
        self.assertEqual((1, ["let through: low/two_is_five.edit"]), (ran.returncode, self.said(ran)))
        self.assertRegex(ran.stdout, r"\| low \| 2 \| 3 \| 3 \| [\d.]+ \| 1 \| 0 \| 1 \| 1 \|")

    def test_a_kept_line_explains_what_is_let_through(self) -> None:
        for line in ("low/src/lib.rt two: 2 -> 3 # it is the same", "low/src/lib.rt   two:   2   ->  3   #   it is the same", "*/* t*: 2 -> 3 # the same everywhere"):
            self.write("top/tools/mutants.kept", f"# what is right\n\n{line}\n")
            ran = self.run_with("low")
            self.assertEqual((0, []), (ran.returncode, self.said(ran)), line)
        self.write("top/tools/mutants.kept", "low/src/lib.rt two: 2 -> 4 # another change\n")
        self.assertEqual((1, ["let through: low/src/lib.rt:10 two: 2  ->  3"]), (self.run_with("low").returncode, self.said(self.run_with("low"))))

    def test_kept_lines_that_fit_no_function_are_stale(self) -> None:
        stale = ["high/src/lib.rt two: 2 -> 3 # no crate", "low/src/gone.rt two: 2 -> 3 # no file", "low/src/lib.rt gone: 2 -> 3 # no function",
                 "low/src/lib.rt two: 22 -> 3 # no text"]
        good = ["low/src/lib.rt two: 2 -> 3 # the text", "low/src/lib.rt one*: {..} -> {0} # no such function"]
        self.write("top/tools/mutants.kept", "\n".join([*stale, *good, "low/src/lib.rt less: { -> { let room = 1; # a beginning"]) + "\n")
        ran = self.run_with("low")
        wanted = [f"stale: mutants.kept:{number}: {line}" for number, line in [*enumerate(stale, 1), (6, good[1])]]
        self.assertEqual((0, wanted), (ran.returncode, self.said(ran)))

    def test_a_kept_line_has_a_reason(self) -> None:
        for line in ("low/src/lib.rt two: 2 -> 3", "low/src/lib.rt two: 2 -> 3 # ", "low/src/lib.rt two 2 -> 3 # why"):
            self.write("top/tools/mutants.kept", f"{line}\n")
            self.assertEqual((1, "mutants: mutants.kept:1: it is no line `CRATE/FILE FUNCTION: OLD -> NEW # REASON`\n"),
                             (self.run_with("low").returncode, self.run_with("low").stderr))

    def test_no_minutes_leave_all_untried(self) -> None:
        ran = self.run_with("--minutes", "0", "low")
        self.assertEqual((0, ["not tried: low: 5 mutations of less, two, three, four, five"]), (ran.returncode, self.said(ran)))

    def test_what_is_proved_is_kept_for_the_next_run(self) -> None:
        self.run_with("low")
        self.run_with("low")
        calls = self.calls()
        self.assertEqual([True] + [False] * (len(calls) - 1), [it.endswith("anew") for it in calls])
        self.assertTrue(calls[0].startswith(f"--crate-name low src/lib.rt --extern std={self.room}/kit/rlibs/std.rlib"), calls[0])

    def test_libraries_below_are_built_first(self) -> None:
        self.write("top/crates.txt", "base:\nlow: base\nahci: low\n")
        self.write("top/crates/base/src/lib.rt", "")
        self.write("top/tools/build", '#!/bin/sh\necho "build $*" >>"$CALLS"\n[ ! -e "$(dirname "$0")/broken" ] || { echo broken >&2; exit 1; }\n')
        os.chmod(os.path.join(self.top, "tools/build"), 0o755)
        self.run_with("--jobs", "2", "low")
        self.assertEqual("build --below low --jobs 2", self.calls()[0])
        self.assertIn(f"--extern base={self.top}/crates/ahci/out/rlib/base/base.rlib", self.calls()[1])
        self.write("top/tools/broken", "")
        self.assertEqual((1, "mutants: what is below low is not built\nbroken\n\n"), (self.run_with("low").returncode, self.run_with("low").stderr))

    def test_a_crate_that_is_not_proved_or_is_missing_is_told(self) -> None:
        self.write("top/crates/low/src/lib.rt", SOURCE.replace("a < b", "a > b"))
        self.assertIn("mutants: low itself is not proved", self.run_with("low").stderr)
        ran = self.run_with("low", "high")
        self.assertEqual((1, "mutants: there is no crate high below the program or the library\n"), (ran.returncode, ran.stderr))


class Changed:
    """A change of one function."""

    def __init__(self, function: str) -> None:
        self.name, self.is_whole = function, False

    def applied(self, texts: Texts) -> Optional[Texts]:
        return {**texts, "src/lib.rt": texts["src/lib.rt"].replace("2", "3")}

    def functions(self, _texts: Texts) -> Functions:
        return {("src/lib.rt", self.name)}


class SlowCrate(Crate):
    """A crate of which each check takes a minute of the clock, and refuses all."""

    def __init__(self, minutes: List[float]) -> None:
        super().__init__("/nonexistent", "low")
        self.minutes, self.texts = minutes, {"src/lib.rt": SOURCE}

    def check_of(self, texts: Texts) -> Tuple[str, int]:
        self.minutes[0] += 1
        return "fn low::two: no proof: `search` did not prove `returns`\n", 1


class Limits(unittest.TestCase):
    def test_no_check_begins_after_the_limit(self) -> None:
        for limit, checks in ((None, 5), (10.0, 5), (2.5, 3), (3.0, 3), (0.0, 0)):
            minutes = [100.0]
            crate, found = SlowCrate(minutes), {}  # type: SlowCrate, Dict[str, str]
            changes = [Changed("two") for _ in range(5)]  # of one function, so each needs a check of its own
            done = crate.rounds(changes, found, Limit(limit, lambda: 60 * minutes[0]))  # pylint: disable=cell-var-from-loop
            self.assertEqual((checks, 5 - checks, []), (done.checks, len(done.untried), done.unrefused), limit)
            self.assertEqual({"two": CLAUSE} if checks else {}, found)


if __name__ == "__main__":
    unittest.main()
