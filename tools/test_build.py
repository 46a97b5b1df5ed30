"""Tests of tools/build, over a small repository and with two programs in the place of the kit's `rt` and `rattle`.

The program that stands for `rattle` notes its words and its processes, waits, and makes what the real one would: a folder with a
file `format` for a library, which holds the sum of its sources and specs and of the libraries below, and a file for the program or a
static library. A source that begins with `says` names what it prints in the place of a result, and one with `wrong` is not proved.
"""
from __future__ import annotations

import os
import shutil
import signal
import stat
import subprocess
import sys
import tempfile
import time
import unittest
from typing import Callable, List, Tuple

HERE = os.path.dirname(os.path.realpath(__file__))

RATTLE = f"#!{sys.executable} -SE" + """
import hashlib, os, sys
words = sys.argv[1:]
name, out = words[words.index("--crate-name") + 1], words[words.index("-o") + 1]
open(os.environ["CALLS"] + ".words", "a").write(repr(words) + "\\n")
source = open(f"src/{'main' if name == 'ahci' else 'lib'}.rt").read()
wait = min(float(os.environ["WAIT"]), 1 if "wrong" in source else 60)
below = os.spawnlp(os.P_NOWAIT, "sleep", "sleep", str(wait)) if wait else os.getpid()
open(os.environ["CALLS"] + ".processes", "a").write(f"{os.getpid()} {below} ")
open(os.environ["CALLS"], "a").write(name + "\\n")
if wait:
    os.waitpid(below, 0)
if "wrong" in source:
    print(f"fn {name}::wrong: not proved\\nlogic=not-proved")
    sys.exit(1)
below = [open(it.split("=")[1] + "/format").read() for it in words if ".rlib" in it and "=" in it and "/rlibs/" not in it]
specs = [open("specs/" + it).read() for it in sorted(os.listdir("specs"))] if os.path.isdir("specs") else []
if "--statements" in words:
    os.makedirs(out)
    open(out + "/format", "w").write(hashlib.sha256(repr((source, specs, below)).encode()).hexdigest())
else:
    open(out, "w").write(source)
print(source[len("says "):] if source.startswith("says ") else "logic=proved functions=1")
"""
LINK = """#!/bin/sh
while [ "$1" != -o ]; do shift; done
cp "$3" "$2"
if grep -q unlinked "$3"; then
    echo 'no such name: begin' >&2
    exit 1
fi
"""
MOST = 300  # seconds after which a test gives up
CRATES = "# lowest first\nlow:\nside: clap\nmiddle: low\ntests: middle\nahci: middle side\nshelf staticlib: std_heap middle low\n"


def until(is_so: Callable[[], bool]) -> None:
    """Waits until something is so: a busy machine may take long, and a wrong one for ever."""
    end = time.monotonic() + MOST
    while not is_so():
        if time.monotonic() > end:
            raise AssertionError(f"it has not come about within {MOST} seconds")
        time.sleep(0.02)


def lives(process: int) -> bool:
    try:
        with open(f"/proc/{process}/stat", encoding="utf-8") as it:
            return it.read().rpartition(")")[2].split()[0] not in ("Z", "X")
    except OSError:
        return False


class Builds(unittest.TestCase):
    """Each test has a repository of its own: `low` below `middle` below `ahci`, `side` below `ahci`, and `shelf` for C above `middle`."""

    def setUp(self) -> None:
        self.room = tempfile.mkdtemp()
        self.addCleanup(shutil.rmtree, self.room)
        for name in ("low", "side", "middle", "tests", "ahci", "shelf"):
            self.write(self.source(name), name)
        self.write("crates.txt", CRATES)
        os.makedirs(f"{self.room}/tools")
        for file in ("build", "libraries.py"):
            shutil.copy(f"{HERE}/{file}", f"{self.room}/tools/{file}")
        self.write("kit/KIT-ID", "a kit")
        for name, text in (("rattle", RATTLE), ("rattle-link", LINK), ("rt", f"#!/bin/sh\necho {self.room}/kit/START-HERE.md\n")):
            self.write(f"kit/bin/{name}", text)
            os.chmod(f"{self.room}/kit/bin/{name}", stat.S_IRWXU)
        self.calls = f"{self.room}/calls"
        self.made = f"{self.room}/crates/ahci/out/rlib"
        self.program = f"{self.made}/ahci/ahci"

    def source(self, name: str) -> str:
        return f"crates/{name}/src/{'main' if name == 'ahci' else 'lib'}.rt"

    def write(self, path: str, text: str) -> None:
        os.makedirs(os.path.dirname(f"{self.room}/{path}"), exist_ok=True)
        with open(f"{self.room}/{path}", "w", encoding="utf-8") as out:
            out.write(text)

    def read(self, path: str) -> str:
        with open(path, encoding="utf-8") as it:
            return it.read()

    def start(self, *words: str, wait: float = 0, path: str = "") -> "subprocess.Popen[str]":
        for end in ("", ".words", ".processes"):
            with open(self.calls + end, "a", encoding="utf-8"):
                pass
        env = {**os.environ, "CALLS": self.calls, "WAIT": str(wait), "PATH": path or f"{self.room}/kit/bin:{os.environ['PATH']}"}
        # (a shell's job in the background ignores SIGINT, and hands that on)
        return subprocess.Popen([f"{self.room}/tools/build", "--jobs", "2", *words], env=env, text=True,
                                stdin=subprocess.DEVNULL, stdout=subprocess.PIPE, stderr=subprocess.PIPE,
                                preexec_fn=lambda: signal.signal(signal.SIGINT, signal.SIG_DFL))

    def build(self, *words: str) -> Tuple[int, str, List[str]]:
        """A build's status, what it says on standard error, and the crates that it gave to `rattle`."""
        for end in ("", ".words", ".processes"):
            with open(self.calls + end, "w", encoding="utf-8"):
                pass
        ran = self.start(*words)
        self.output, said = ran.communicate(timeout=MOST)
        return ran.returncode, said, self.read(self.calls).split()

    def words_of(self, name: str) -> List[str]:
        """The words that `rattle` was given for a crate in the last build."""
        given = [eval(line) for line in self.read(f"{self.calls}.words").splitlines()]  # pylint: disable=eval-used
        return next(words for words in given if words[words.index("--crate-name") + 1] == name)

    def test_each_crate_comes_after_those_below_it(self) -> None:
        status, said, calls = self.build()
        self.assertEqual(status, 0, said)
        self.assertEqual(sorted(calls), ["ahci", "low", "middle", "side"])
        self.assertLess(calls.index("low"), calls.index("middle"))
        self.assertEqual(calls[-1], "ahci")
        self.assertIn("4 of 4 crates proved", said)
        self.assertEqual(self.read(self.program), "ahci")

    def test_a_second_build_has_nothing_to_do(self) -> None:
        self.build()
        status, said, calls = self.build()
        self.assertEqual((status, calls), (0, []))
        self.assertIn("4 of 4 crates proved", said)

    def test_an_edit_costs_its_crate_and_those_above(self) -> None:
        self.build()
        self.write("crates/middle/src/lib.rt", "middle, edited")
        self.assertEqual(self.build()[2], ["middle", "ahci"])

    def test_a_definition_or_a_proof_is_a_source_too(self) -> None:
        self.build()
        self.write("crates/middle/specs/Middle.antt", "a definition")
        self.assertEqual(self.build()[2], ["middle", "ahci"])
        self.write("crates/middle/proofs/middle/Step.antt", "a proof, which no crate above reads")
        self.assertEqual(self.build()[2], ["middle"])
        os.remove(f"{self.room}/crates/middle/proofs/middle/Step.antt")
        self.assertEqual(self.build()[2], ["middle"])
        self.assertEqual(self.build()[2], [])

    def test_an_edit_of_a_crate_s_line_costs_the_crate(self) -> None:
        self.build()
        self.write("crates.txt", CRATES.replace("side: clap", "side: clap itoa"))
        self.assertEqual(self.build()[2], ["side"])
        self.assertIn(f"itoa={self.room}/kit/rlibs/itoa.rlib", self.words_of("side"))

    def test_another_kit_costs_all(self) -> None:
        self.build()
        self.write("kit/KIT-ID", "another kit")
        self.assertEqual(sorted(self.build()[2]), ["ahci", "low", "middle", "side"])
        os.utime(f"{self.room}/kit/bin/rattle", (1, 1))  # a kit whose program was made anew under the same name
        self.assertEqual(sorted(self.build()[2]), ["ahci", "low", "middle", "side"])

    def test_what_is_gone_is_made_anew(self) -> None:
        self.build()
        os.remove(self.program)
        self.assertEqual(self.build()[::2], (0, ["ahci"]))
        self.assertEqual(self.read(self.program), "ahci")
        shutil.rmtree(f"{self.made}/side/side.rlib")
        self.assertEqual(self.build()[::2], (0, ["side"]))

    def test_a_source_that_is_edited_meanwhile_is_told(self) -> None:
        ran = self.start(wait=1)
        until(lambda: "low" in self.read(self.calls).split())
        self.write("crates/low/src/lib.rt", "low, edited")
        said = ran.communicate(timeout=MOST)[1]
        self.assertEqual(ran.returncode, 1)
        self.assertIn("a source of low was edited meanwhile: run this again", said)
        self.assertFalse(os.path.exists(f"{self.made}/low/stamp"))
        status, said, calls = self.build()
        self.assertEqual(status, 0, said)
        self.assertIn("low", calls)

    def test_the_words_of_a_check_are_these(self) -> None:
        self.build()
        kit, made = f"{self.room}/kit", self.made
        logic = ["--antt-project", f"{kit}/rattle/logic/antt-project.json", "--logic-built", f"{kit}/logic_built"]

        def words(name: str, below: List[str], kits: List[str]) -> List[str]:
            """What a crate's check is given, up to its jobs, of those that are seen at once and those below."""
            found = ["build", "--crate-name", name, "src/main.rt" if name == "ahci" else "src/lib.rt"]
            found += [word for it in ["std", *kits] for word in ("--extern", f"{it}={kit}/rlibs/{it}.rlib")]
            found += ["-L", f"dependency={kit}/rlibs"]
            found += [word for it in below if (name, it) != ("ahci", "low") for word in ("--extern", f"{it}={made}/{it}/{it}.rlib")]
            found += [word for it in below for word in ("-L", f"dependency={made}/{it}")]
            return [*found, *logic, "--links", f"{name}=", "--jobs"]

        for name, below, kits in (("low", [], []), ("side", [], ["clap"]), ("middle", ["low"], [])):
            given = self.words_of(name)
            at = given.index("--jobs") + 1
            self.assertEqual(given[:at], words(name, below, kits))
            self.assertIn(given[at], ("1", "2"))
            self.assertEqual(given[at + 1:], ["--statements", "-o", f"{made}/{name}/made"])
        self.assertEqual(self.words_of("ahci"), [*words("ahci", ["low", "middle", "side"], []), "2", "--toolchain", f"{kit}/toolchain", "--backend", "llvm",
                                                 "-o", f"{made}/ahci/made.o"])

    def test_a_static_library_is_made_where_it_is_named(self) -> None:
        status, said, calls = self.build("--library", "shelf")
        self.assertEqual((status, calls), (0, ["low", "middle", "shelf"]), said)
        self.assertEqual(self.read(f"{self.room}/crates/shelf/out/libshelf.a"), "shelf")
        self.assertEqual(self.words_of("shelf")[-8:], ["--crate-type", "staticlib", "--toolchain", f"{self.room}/kit/toolchain", "--backend", "llvm",
                                                       "-o", f"{self.made}/shelf/made.a"])
        self.assertFalse(os.path.exists(self.program))
        self.assertEqual(self.build("--library", "shelf")[::2], (0, []))
        for name in ("middle", "nothing"):
            status, said, calls = self.build("--library", name)
            self.assertEqual((status, calls), (1, []))
            self.assertIn(f"crates.txt has no static library {name}", said)

    def test_what_is_below_a_crate_is_made_alone(self) -> None:
        status, said, calls = self.build("--below", "ahci")
        self.assertEqual((status, sorted(calls)), (0, ["low", "middle", "side"]), said)
        self.assertFalse(os.path.exists(self.program))
        self.assertEqual(self.build("--below", "tests")[::2], (0, []))
        self.assertEqual(self.build("--below", "low")[::2], (0, []))
        status, said, calls = self.build("--below", "nothing")
        self.assertEqual((status, calls), (1, []))
        self.assertIn("crates.txt has no crate nothing", said)

    def leave(self, name: str, text: str, stamped: bool = False) -> None:
        """Leaves a crate's library, or the program, as `rt ci` does; with a stamp it would be one that `rt check` has made."""
        self.write(f"crates/{name}/out/{'ahci' if name == 'ahci' else f'rlib/{name}.rlib/format'}", text)
        if stamped:
            self.write(f"crates/{name}/out/rlib/stamp", "a stamp")

    def test_what_the_gate_has_proved_is_taken_and_not_proved_again(self) -> None:
        self.assertEqual(self.build("--kept")[::2], (1, []))
        for name in ("low", "side", "middle", "ahci"):
            self.leave(name, f"{name}, by the gate")
        self.assertEqual(self.build("--adopt")[::2], (0, []))
        self.assertEqual(self.output, "build: 4 of 4 crates are taken from the gate\n")
        self.assertEqual(self.read(self.program), "ahci, by the gate")
        self.assertEqual(self.build("--kept")[::2], (0, []))
        self.assertEqual(self.build()[::2], (0, []))
        self.assertEqual(self.build("--library", "shelf", "--adopt")[::2], (0, []))
        self.assertEqual(self.output, "build: 2 of 3 crates are taken from the gate\n")  # those that the program's call has taken count
        self.assertEqual(self.build("--library", "shelf")[::2], (0, ["shelf"]))  # a static library is made of what was taken
        self.write("crates/middle/src/lib.rt", "middle, edited")
        self.assertEqual(self.build("--kept")[::2], (1, []))
        self.assertEqual(self.build()[2], ["middle", "ahci"])

    def test_what_the_gate_has_not_proved_alone_is_not_taken(self) -> None:
        for name in ("low", "side", "middle", "ahci"):
            self.leave(name, f"{name}, by the gate", stamped=name == "middle")
        self.assertEqual(self.build("--adopt")[::2], (0, []))
        self.assertEqual(self.output, "build: 2 of 4 crates are taken from the gate\n")
        self.assertEqual(self.build()[::2], (0, ["middle", "ahci"]))

    def test_times_are_told_where_they_are_asked_for(self) -> None:
        self.build()
        self.assertEqual(self.output, "")
        self.write("crates/middle/src/lib.rt", "middle, edited")
        self.assertEqual(self.build("--times")[0], 0)
        for name, line in zip(("middle", "ahci"), self.output.splitlines()):
            self.assertRegex(line, rf"^{name}: \d+ seconds, \d+ of processors, [12] jobs$")
        self.assertRegex(self.output.splitlines()[-1], r"^together: \d+ seconds, \d+ of processors; 2 crates were kept$")
        self.assertEqual(len(self.output.splitlines()), 3)

    def test_a_program_that_is_not_linked_is_told(self) -> None:
        self.build()
        self.write("crates/ahci/src/main.rt", "unlinked")
        status, said, _ = self.build()
        self.assertEqual(status, 1)
        self.assertIn("the program was not linked\nno such name: begin", said)
        self.assertEqual(self.read(self.program), "ahci")
        self.assertEqual(self.build()[2], ["ahci"])

    def test_a_check_that_does_not_say_that_it_proved_is_none(self) -> None:
        for said in ("logic=not-proved functions=1", "nothing", "low: logic=proved functions=1"):
            self.write("crates/low/src/lib.rt", f"says {said}")
            status, printed, calls = self.build()
            self.assertEqual(status, 1, said)
            self.assertIn(f"low is not proved; the whole log is in crates/ahci/out/rlib/low/log\n{said}\n", printed)
            self.assertNotIn("middle", calls)
            self.assertFalse(os.path.exists(f"{self.made}/low/stamp"))

    def test_a_crate_that_is_not_proved_is_named(self) -> None:
        self.write("crates/low/src/lib.rt", "wrong")
        status, said, calls = self.build()
        self.assertEqual(status, 1)
        self.assertIn("low is not proved", said)
        self.assertNotIn("middle", calls)
        self.write("crates/low/src/lib.rt", "right")
        self.assertEqual(self.build()[0], 0)

    def test_a_stopped_build_goes_on(self) -> None:
        ran = self.start(wait=0.5)
        until(lambda: os.path.exists(f"{self.made}/low/stamp"))
        ran.send_signal(signal.SIGTERM)
        _, said = ran.communicate(timeout=MOST)
        self.assertEqual(ran.returncode, 130)
        self.assertIn("stopped; ./ahci --build goes on from here", said)
        status, said, calls = self.build()
        self.assertEqual(status, 0, said)
        self.assertNotIn("low", calls)

    def test_a_stopped_build_leaves_no_process(self) -> None:
        for number in (signal.SIGTERM, signal.SIGINT, signal.SIGHUP):
            ran = self.start(wait=60)
            until(lambda: {"low", "side"} <= set(self.read(self.calls).split()))
            processes = [int(it) for it in self.read(f"{self.calls}.processes").split()]
            self.assertEqual(len([it for it in processes if lives(it)]), 4)
            ran.send_signal(number)
            ran.communicate(timeout=MOST)
            self.assertEqual(ran.returncode, 130)
            until(lambda: not [it for it in processes if lives(it)])
            os.remove(self.calls)

    def test_a_fault_ends_the_other_checks(self) -> None:
        self.write("crates/low/src/lib.rt", "wrong")
        ran = self.start(wait=60)
        until(lambda: {"low", "side"} <= set(self.read(self.calls).split()))
        processes = [int(it) for it in self.read(f"{self.calls}.processes").split()]
        ran.communicate(timeout=MOST)
        self.assertEqual(ran.returncode, 1)
        until(lambda: not [it for it in processes if lives(it)])

    def test_two_builds_at_once_prove_each_crate_once(self) -> None:
        first, second = self.start(wait=0.8), self.start(wait=0.8)
        said = first.communicate(timeout=MOST)[1] + second.communicate(timeout=MOST)[1]
        self.assertEqual((first.returncode, second.returncode), (0, 0), said)
        self.assertIn("waiting for another build", said)
        self.assertEqual(sorted(self.read(self.calls).split()), ["ahci", "low", "middle", "side"])

    def test_what_is_built_waits_for_no_other_build(self) -> None:
        self.build("--below", "middle")
        other = self.start(wait=60)
        until(lambda: {"side", "middle"} <= set(self.read(self.calls).split()))
        status, said, calls = self.build("--below", "middle")
        other.send_signal(signal.SIGTERM)
        other.communicate(timeout=MOST)
        self.assertEqual((status, calls), (0, []))
        self.assertNotIn("waiting for another build", said)

    def test_without_rt_it_says_so(self) -> None:
        os.remove(f"{self.room}/kit/bin/rt")
        ran = self.start(path=f"{self.room}/kit/bin:/usr/bin:/bin")
        said = ran.communicate(timeout=MOST)[1]
        self.assertEqual(ran.returncode, 1)
        self.assertIn("rt, of the Rattle kit, is not on the PATH", said)


if __name__ == "__main__":
    unittest.main()
