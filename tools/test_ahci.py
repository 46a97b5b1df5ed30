#!/usr/bin/env python3
"""Tests of the script `ahci` at the top, in a small repository and with small programs in the place of `rt` and tools/build.

    tools/test_ahci.py

The program that stands for `rt` notes its words and its input, answers as a program would, and ends the checked run as RUN says. The one that
stands for tools/build leaves a program in its place, as the real one does.
"""
from __future__ import annotations

import os
import shutil
import subprocess
import tempfile
import unittest
from typing import List, Optional, Tuple

TOP = os.path.dirname(os.path.dirname(os.path.realpath(__file__)))
CRATES = "# lowest first\nlow:\nmiddle: low clap\nbeside: low\nahci: middle\n"
RT = """#!/bin/sh
echo "$*" >>"$ROOM/calls"
wc -c >"$ROOM/input"
echo "an answer"
echo "checked: 9 steps" >&2
echo "said by the program" >&2
if [ "$RUN" = ended ]; then
    echo "run=ended status=$STATUS" >&2
elif [ -n "$RUN" ]; then
    echo "$RUN" >&2
fi
exit "$STATUS"
"""
BUILD = """#!/bin/sh
echo "built $*" >>"$ROOM/calls"
[ "$STATUS" = 0 ] || exit "$STATUS"
printf '#!/bin/sh\\necho "proved: $0"\\nfor it; do echo "<$it>"; done\\nod -An -tx1\\necho untouched >&2\\nexit 3\\n' >"$ROOM/crates/ahci/out/rlib/ahci/ahci"
chmod +x "$ROOM/crates/ahci/out/rlib/ahci/ahci"
"""
UNPROVED = "ahci: unproved, checked as it runs; ./ahci --build proves and builds the program, about half an hour"
STALE = "ahci: unproved, checked as it runs, since the proved program is made from other sources; ./ahci --build proves and builds the program, about half an hour"
TOOLS = "awk bash cat chmod env find grep head mkdir mktemp od printf readlink rm sed sh sha256sum sort stat touch wc xargs dirname".split()


class Ahci(unittest.TestCase):
    def setUp(self) -> None:
        self.room = tempfile.mkdtemp(prefix="test-ahci-")
        self.addCleanup(shutil.rmtree, self.room)
        for name in ("low", "middle", "beside", "ahci"):
            for part in ("src", "specs", "proofs") if name != "ahci" else ("src",):  # as in the repository, not every crate has all three
                self.write(f"crates/{name}/{part}/one", name)
        for name, ends in (("replay", " < SCRIPT"), ("trace", " [OPTIONS] < SCRIPT"), ("check", " [OPTIONS] < LINES"), ("draw", " < SCRIPT"), ("run", " < JOBS"), ("log", " --tag <NUMBER>")):
            self.write(f"crates/ahci_examples/data/help_{name}.out", f"stored help_{name}\n\nUsage: ahci {name}{ends}\n")
        self.write("crates/ahci_examples/data/help.out", "stored help\n")
        self.write("crates.txt", CRATES)
        shutil.copy(f"{TOP}/ahci", f"{self.room}/ahci")
        self.write("tools/build", BUILD, 0o755)
        self.write("bin/rt", RT, 0o755)
        for name in TOOLS:
            os.symlink(str(shutil.which(name)), f"{self.room}/bin/{name}")
        self.program = f"{self.room}/crates/ahci/out/rlib/ahci/ahci"

    def write(self, path: str, text: str, mode: int = 0o644) -> None:
        at = f"{self.room}/{path}"
        os.makedirs(os.path.dirname(at), exist_ok=True)
        with open(at, "w", encoding="utf-8") as out:
            out.write(text)
        os.chmod(at, mode)

    def calls(self) -> List[str]:
        """What `rt` and tools/build were given since this was last asked."""
        path = f"{self.room}/calls"
        if not os.path.exists(path):
            return []
        with open(path, encoding="utf-8") as it:
            found = it.read().splitlines()
        os.remove(path)
        return found

    def run_with(self, *words: str, given: bytes = b"", status: int = 0, run: str = "ended") -> Tuple[int, str, List[str]]:
        """The status of a run, its output, and the lines of its errors."""
        env = {"PATH": f"{self.room}/bin", "ROOM": self.room, "STATUS": str(status), "RUN": run, "TMPDIR": self.room}
        ran = subprocess.run([f"{self.room}/ahci", *words], input=given, env=env, capture_output=True, check=False)
        return ran.returncode, ran.stdout.decode(), ran.stderr.decode().splitlines()

    def build(self) -> None:
        status, _, said = self.run_with("--build")
        self.assertEqual(0, status, said)
        self.calls()

    def edit(self, path: str) -> None:
        """Gives a file other bytes, at the time at which it was written."""
        before = os.stat(f"{self.room}/{path}").st_mtime
        self.write(path, "edited")
        os.utime(f"{self.room}/{path}", (before, before))

    def input_of_rt(self) -> Optional[int]:
        with open(f"{self.room}/input", encoding="utf-8") as it:
            return int(it.read())

    def test_a_run_without_a_program_is_unproved_and_says_so(self) -> None:
        self.assertEqual((0, "an answer\n", [UNPROVED, "said by the program"]), self.run_with("replay", given=b"disk 1 1\n"))
        self.assertEqual(["try --seconds 300 -- replay"], self.calls())
        self.assertEqual(9, self.input_of_rt())

    def test_the_status_of_an_unproved_run_is_the_program_s(self) -> None:
        for status in (1, 2, 3):
            self.assertEqual(status, self.run_with("replay", status=status)[0])

    def test_a_limit_of_an_unproved_run_is_told(self) -> None:
        status, _, said = self.run_with("replay", status=1, run="checked: no-answer: 300 seconds are over")
        self.assertEqual((4, "ahci: the unproved run has no answer: 300 seconds are over; a built program has no such limit"), (status, said[-1]))
        status, _, said = self.run_with("replay", status=0, run="")
        self.assertEqual((4, [UNPROVED, "checked: 9 steps", "said by the program"]), (status, said))

    def test_an_unproved_run_takes_64_mebibytes_of_input(self) -> None:
        most = 64 << 20
        self.assertEqual(0, self.run_with("replay", given=bytes(most))[0])
        self.assertEqual(most, self.input_of_rt())
        self.calls()
        self.assertEqual((4, "", [UNPROVED, "ahci: an unproved run takes at most 64 MiB of input"]), self.run_with("replay", given=bytes(most + 1)))
        self.assertEqual([], self.calls())

    def test_an_input_that_can_t_be_read_is_told_as_by_the_program(self) -> None:
        env = {"PATH": f"{self.room}/bin", "ROOM": self.room, "TMPDIR": self.room}
        for words, status in ((["replay"], 1), (["check"], 4)):
            folder = os.open(self.room, os.O_RDONLY)
            try:
                ran = subprocess.run([f"{self.room}/ahci", *words], stdin=folder, env=env, capture_output=True, check=False)
            finally:
                os.close(folder)
            self.assertEqual((status, "", [UNPROVED, "ahci: input failed"]), (ran.returncode, ran.stdout.decode(), ran.stderr.decode().splitlines()))
        self.assertEqual([], [it for it in os.listdir(self.room) if it.startswith("tmp")])

    def test_input_is_read_where_the_words_want_it(self) -> None:
        for words in (["replay"], ["trace", "--json"], ["check"], ["draw"], ["run", "--depth", "1"]):
            self.run_with(*words, given=b"12345")
            self.assertEqual(5, self.input_of_rt(), words)
        for words in (["replay", "--json", "--help"], ["run", "-h"], ["identify"], ["-h"], []):
            self.run_with(*words, given=b"12345")
            self.assertEqual(0, self.input_of_rt(), words)

    def test_help_and_version_are_stored_for_a_program_that_is_not_built(self) -> None:
        self.write("VERSION", "7.8.9\n")
        for words, text in ((["--help"], "stored help"), (["replay", "--help"], "stored help_replay"), (["log", "--help"], "stored help_log"),
                            (["--version"], "ahci 7.8.9")):
            status, output, said = self.run_with(*words)
            self.assertEqual((0, text, []), (status, output.split("\n", maxsplit=1)[0], said), words)
        self.assertEqual([], self.calls())
        for words in (["-h"], ["replay --help"], ["replay", "-h"], ["replay", "--version"], ["runs", "--help"], ["--help", "replay"], ["../x", "--help"]):
            self.assertEqual("an answer\n", self.run_with(*words)[1], words)
        self.build()
        self.assertIn("<--version>", self.run_with("--version")[1])

    def test_a_file_among_the_arguments_is_refused_with_the_way_to_give_it(self) -> None:
        self.write("script", "disk 1 1\n")
        reported = f"ahci: replay reads standard input and opens no file; give {self.room}/script by '<': ./ahci replay < {self.room}/script"
        self.assertEqual((2, "", [reported]), self.run_with("replay", f"{self.room}/script"))
        self.assertEqual([], self.calls())
        for words in (["replay", f"{self.room}/none"], ["identify", f"{self.room}/script"], ["run", "--depth", f"{self.room}/script"]):
            self.assertEqual("an answer\n", self.run_with(*words)[1], words)
        self.build()
        self.assertEqual((2, "", [reported]), self.run_with("replay", f"{self.room}/script"))

    def test_a_pipe_without_a_reader_is_no_complaint(self) -> None:
        complaint = "#!/bin/sh\necho 'ahci: output failed' >&2\necho another >&2\nexit 1\n"
        self.build()
        self.write("crates/ahci/out/rlib/ahci/ahci", complaint, 0o755)
        self.assertEqual((1, "", ["another"]), self.run_with("replay"))
        env = {"PATH": f"{self.room}/bin", "ROOM": self.room}
        with open(f"{self.room}/answers", "wb") as out:
            ran = subprocess.run([f"{self.room}/ahci", "replay"], stdin=subprocess.DEVNULL, stdout=out, stderr=subprocess.PIPE, env=env, check=False)
        self.assertEqual((1, b"ahci: output failed\nanother\n"), (ran.returncode, ran.stderr))

    def test_nothing_is_left_behind(self) -> None:
        before = sorted(os.listdir(self.room))
        self.run_with("replay")
        self.run_with("replay", status=1, run="")
        self.assertEqual(sorted([*before, "calls", "input"]), sorted(os.listdir(self.room)))

    def test_a_built_program_is_run_as_it_is(self) -> None:
        self.build()
        given = [f"proved: {self.program}", "<replay>", "<two words>", "<>", "< *>", " 00 ff 0d 0a"]
        self.assertEqual((3, "\n".join(given) + "\n", ["untouched"]), self.run_with("replay", "two words", "", " *", given=b"\0\xff\r\n"))
        self.assertEqual([], self.calls())

    def test_a_program_that_is_built_is_not_built_again(self) -> None:
        self.build()
        self.assertEqual((0, "", ["ahci: the program is proved and built from these sources already"]), self.run_with("--build"))
        self.assertEqual([], self.calls())
        self.assertEqual(0, self.run_with("--build", "--times")[0])
        self.assertEqual(["built --times"], self.calls())

    def test_an_edit_makes_the_program_stale(self) -> None:
        for crate in ("low", "middle", "ahci"):
            for part in ("src", "specs", "proofs") if crate != "ahci" else ("src",):
                self.build()
                self.edit(f"crates/{crate}/{part}/one")
                self.assertEqual((0, "an answer\n", [STALE, "said by the program"]), self.run_with("replay"), (crate, part))
        self.build()
        self.calls()
        self.edit("crates/beside/src/one")
        self.assertEqual(3, self.run_with("replay")[0])
        self.write("crates.txt", CRATES.replace("low clap", "low"))
        self.assertEqual([STALE, "said by the program"], self.run_with("replay")[2])

    def test_a_copy_is_not_stale_whatever_its_times_are(self) -> None:
        self.build()
        for at, _, names in os.walk(self.room):
            for name in names:
                if not os.path.islink(f"{at}/{name}"):
                    os.utime(f"{at}/{name}", (2_000_000_000, 2_000_000_000))
        os.utime(f"{self.room}/crates/ahci/out/rlib/ahci/built-from", (1, 1))
        self.assertEqual(3, self.run_with("replay")[0])

    def test_a_source_that_is_gone_or_new_makes_it_stale(self) -> None:
        self.build()
        self.write("crates/low/src/two", "low")
        self.assertEqual([STALE, "said by the program"], self.run_with("replay")[2])
        os.remove(f"{self.room}/crates/low/src/two")
        self.assertEqual(3, self.run_with("replay")[0])
        os.remove(f"{self.room}/crates/low/src/one")
        self.assertEqual([STALE, "said by the program"], self.run_with("replay")[2])

    def test_a_source_that_is_edited_during_a_build_makes_it_stale(self) -> None:
        self.write("tools/build", BUILD + 'echo edited >"$ROOM/crates/low/src/one"\n', 0o755)
        self.build()
        self.assertEqual([STALE, "said by the program"], self.run_with("replay")[2])

    def test_a_build_that_fails_leaves_its_status_and_no_mark(self) -> None:
        self.assertEqual(130, self.run_with("--build", status=130)[0])
        self.assertFalse(os.path.exists(f"{self.room}/crates/ahci/out/rlib/ahci/built-from"))

    def test_a_stale_program_is_used_with_a_warning_where_there_is_no_rt(self) -> None:
        self.build()
        self.edit("crates/low/specs/one")
        os.remove(f"{self.room}/bin/rt")
        status, output, said = self.run_with("replay")
        warning = "ahci: warning: the proved program is made from other sources, and rt, of the Rattle kit, is not on the PATH to build it anew"
        self.assertEqual((3, [f"proved: {self.program}", "<replay>"], [warning, "untouched"]), (status, output.splitlines(), said))

    def test_without_rt_and_program_one_line_says_so(self) -> None:
        os.remove(f"{self.room}/bin/rt")
        self.assertEqual((1, "", ["ahci: there is no built program here, and rt, of the Rattle kit, is not on the PATH to run or build it"]), self.run_with("replay"))
        self.assertEqual((1, "", ["ahci: the program can't be built: rt, of the Rattle kit, is not on the PATH"]), self.run_with("--build"))

    def test_the_script_is_run_through_a_link_from_any_folder(self) -> None:
        os.symlink(f"{self.room}/ahci", f"{self.room}/bin/there")
        env = {"PATH": f"{self.room}/bin", "ROOM": self.room, "STATUS": "0", "RUN": "ended"}
        ran = subprocess.run(["/bin/sh", "-c", "there replay"], cwd="/", input=b"", env=env, capture_output=True, check=False)
        self.assertEqual((0, b"an answer\n"), (ran.returncode, ran.stdout))


if __name__ == "__main__":
    unittest.main()
