"""The model's side: traces, and the page of the log."""
import os
import stat
import tempfile
import unittest

from judge import model
from tests.common import stored, text_of


class Programs(unittest.TestCase):
    def program(self, body: str) -> str:
        """A stand-in for the model's program."""
        folder = tempfile.mkdtemp()
        self.addCleanup(lambda: [os.remove(path), os.rmdir(folder)])
        path = os.path.join(folder, "ahci")
        with open(path, "w", encoding="ascii") as out:
            out.write(f"#!/bin/sh\n{body}\n")
        os.chmod(path, stat.S_IRWXU)
        return path

    def fault(self, path: str, script: str = "disk 1 1\n", seconds: float = 10) -> str:
        with self.assertRaises(model.ModelFault) as caught:
            model.trace_of(path, script, seconds)
        self.assertNotIn("\n", str(caught.exception))
        return str(caught.exception)

    def test_a_program_that_is_missing_is_told(self) -> None:
        self.assertIn("can't be run: No such file", self.fault("/nowhere/ahci"))

    def test_a_program_that_hangs_is_told(self) -> None:
        self.assertIn("no answer after 0 seconds", self.fault(self.program("exec sleep 5"), seconds=0.2))

    def test_a_program_that_fails_is_told_with_its_text(self) -> None:
        self.assertIn("status 3: ahci: out of memory", self.fault(self.program("echo ahci: out of memory >&2; exit 3")))

    def test_too_few_answers_are_told(self) -> None:
        self.assertIn("answered 0 of 1 lines", self.fault(self.program("exit 0")))

    def test_an_answer_that_is_no_json_is_told(self) -> None:
        self.assertIn("line 1 of the model's trace can't be read", self.fault(self.program("echo hello")))

    def test_a_faulty_line_ends_the_trace_without_a_fault_of_the_tool(self) -> None:
        self.assertEqual(model.trace_of(self.program("echo ahci: line 1: not understood >&2; exit 1"), "hello\n").end, "ahci: line 1: not understood")


    def test_the_object_of_a_fault_is_no_command(self) -> None:
        disk = text_of("examples", "error_in_a_queue.json").splitlines()[0]
        program = self.program(f"cat <<'END'\n{disk}\n{{\"fault\":\"not understood\",\"line\":6}}\nEND\necho ahci: line 6: not understood >&2; exit 1")
        trace = model.trace_of(program, "disk 1000 32\nhello\n")
        self.assertEqual(([(5, "disk 1000 32")], "ahci: line 6: not understood"), ([(it.number, it.line) for it in trace.steps], trace.end))


    def test_a_script_with_identify_has_the_whole_page(self) -> None:
        disk = text_of("examples", "error_in_a_queue.json").splitlines()[0]
        word = '{"line":6,"command":"identify 0","answer":"word 0 0000","entries":[],"writes":[],"sent":null,"transfers":[],"received":{},"registers":[],"slots":[]}'
        body = f"case $1 in trace) cat <<'END'\n{disk}\n{word}\nEND\n;; *) printf '%s' \"$*\"; head -c %d /dev/zero;; esac"
        asked = b"identify --sectors 1000 --depth 32 --raw"
        script = "disk 1000 32\nidentify 0\n"
        self.assertEqual(model.trace_of(self.program(body.replace("%d", "472")), script).page, asked.ljust(512, b"\0"))
        self.assertIn("has no identify page of a disk of 1000 sectors: status 0", self.fault(self.program(body.replace("%d", "3")), script))


class Traces(unittest.TestCase):
    def test_comments_and_empty_lines_count_as_lines(self) -> None:
        self.assertEqual(model.commands_of("# a\n\ndisk 1 1\njournal\n"), [(3, "disk 1 1"), (4, "journal")])

    def test_a_step_has_the_registers_that_changed(self) -> None:
        step = stored().steps[7]
        self.assertEqual((step.number, step.answer), (16, "refused OutsideCommand"))
        self.assertEqual(stored().steps[8].registers, {"PxIS": 0x40000008, "PxTFD": 0x4041})
        self.assertEqual(stored().steps[8].phases, {0: "accepted", 1: "broken", 2: "accepted"})

    def test_the_page_of_the_log_is_that_of_the_example(self) -> None:
        shown = text_of("examples", "error_log.out")
        page = model.log_page(3, 0x40, 7)
        self.assertEqual(sum(page) % 256, 0)
        self.assertIn(f"{page[511]:02x}", shown.lower())
        self.assertEqual((page[0], page[2], page[3], page[4]), (3, 0x41, 0x40, 7))


if __name__ == "__main__":
    unittest.main()
