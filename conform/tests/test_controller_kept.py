"""Recordings in a file: what is read is what was recorded, and a line that is none is named."""
import contextlib
import io
import os
import tempfile
import unittest
from typing import List, Tuple

from controller import cli, kept, layout
from controller.generate import program
from controller.look import UNSEEN
from controller.program import Program
from controller.recorder import Recording, record
from controller.stand_in.hba import Hba
from controller.text import TextFault
from tests.common import needs_library


def recorded(level: str, seeds: range, sees_disk: bool = True) -> List[Tuple[str, Program, Recording]]:
    it = Hba()
    it.sees_disk = sees_disk
    it.start()
    programs = [(f"{level} {seed}", program(seed, level)) for seed in seeds]
    return [(name, ops, record(it, ops)) for name, ops in programs]


def written(given: List[Tuple[str, Program, Recording]]) -> str:
    out = io.StringIO()
    for it in given:
        kept.write(out, *it)
    return out.getvalue()


class Kept(unittest.TestCase):
    def test_what_is_read_is_what_was_recorded(self) -> None:
        for level in ("good", "errors", "wild"):
            given = recorded(level, range(1, 6))
            self.assertEqual(given, list(kept.kept_in(io.StringIO(written(given)), "file")))

    def test_a_disk_that_cannot_be_seen_is_in_the_last_look_alone(self) -> None:
        given = recorded("clean", range(1, 4), sees_disk=False)
        looks = next(recording.looks for _, _, recording in given if recording.looks[-1].disk != layout.IMAGE)
        self.assertTrue(all(it.disk == UNSEEN for it in looks[:-1]))
        self.assertEqual(given, list(kept.kept_in(io.StringIO(written(given)), "file")))

    def test_a_death_is_kept(self) -> None:
        name, ops, recording = recorded("good", range(1, 2))[0]
        given = [(name, ops, Recording(recording.looks[:3], "it has ended by signal 11"))]
        self.assertEqual(given, list(kept.kept_in(io.StringIO(written(given)), "file")))

    def test_a_line_that_is_none_is_named(self) -> None:
        text = written(recorded("good", range(1, 2)))
        for broken in ("{}", text[: len(text) // 2], text.replace('"version": 1', '"version": 2'), text.replace('"line": ', '"lime": ')):
            with self.assertRaisesRegex(TextFault, "here, line 2: no recording of this version"):
                list(kept.kept_in(io.StringIO(text + broken), "here"))


@needs_library
class Judged(unittest.TestCase):
    def test_recordings_are_judged_as_their_emulator_is(self) -> None:
        with tempfile.TemporaryDirectory() as room, contextlib.redirect_stdout(io.StringIO()) as said:
            path = os.path.join(room, "kept")
            fault = ["--controller", "--emulator", "stand-in", "--fault", "no_sdbs", "--seed", "1-20", "--quiet"]
            self.assertEqual(0, cli.main([*fault, "--record", path]))
            self.assertEqual(f"{path}: 20 programs\n", said.getvalue())
            reported = []
            for words in ([*fault, "--go-on", "--json"], ["--controller", "--recorded", path, "--go-on", "--json"]):
                said.truncate(said.seek(0))
                self.assertEqual(1, cli.main(words))
                reported.append(said.getvalue())
        self.assertEqual(reported[0], reported[1])

    def test_what_cannot_be_with_recordings_is_refused(self) -> None:
        for words in (["--recorded", "here", "--seed", "1"], ["--emulator", "vfio"], ["--function", "0000:00:1f.2", "--seed", "1"], ["--recorded", "/nowhere/here"]):
            with contextlib.redirect_stderr(io.StringIO()) as said:
                self.assertEqual(2, cli.main(["--controller", *words]), said.getvalue())


if __name__ == "__main__":
    unittest.main()
