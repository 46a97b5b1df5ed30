#!/usr/bin/env python3
"""Tests of `manual`, with a small program in the place of ahci. `make check` runs them."""
import os
import subprocess
import tempfile
import unittest

HERE = os.path.dirname(os.path.realpath(__file__))
PROGRAM = r"""#!/bin/sh
case "$*" in
--version) echo 'ahci 1.2' ;;
--help) printf '%s\n' 'A small thing.' 'It does little.' '' 'Usage: ahci <COMMAND>' '' 'Commands:' '  one   Do one' '  help  Print help' ;;
"one --help") printf '%s\n' 'Do one.' '' 'Usage: ahci one [OPTIONS] [FILE]' '' 'Options:' \
    '      --pick <PICK>' '          Which [possible values: low, high]' '  -n, --count <NUMBER>' '  -h, --help' '' \
    "A back\\slash and a - and a '." '.a dot' "'quoted \`so\`, with a ^ and a ~" '' 'Example:' '  ahci one' '' '  ahci one x' ;;
esac
"""
PAGE = r""".TH AHCI 1 "" "ahci 1.2" "User Commands"
.SH NAME
ahci \- a small thing
.SH SYNOPSIS
.nf
ahci <COMMAND>
ahci one [OPTIONS] [FILE]
.fi
.SH DESCRIPTION
A small thing.
It does little.
.SS "Commands"
.nf
one   Do one
help  Print help
.fi
.SH "AHCI ONE"
Do one.
.SS "Options"
.nf
    \-\-pick <PICK>
        Which [possible values: low, high]
\-n, \-\-count <NUMBER>
\-h, \-\-help
.fi
.PP
A back\eslash and a \- and a \(aq.
\&.a dot
\(aqquoted \(gaso\(ga, with a \(ha and a \(ti
.SS "Example"
.nf
ahci one
.
ahci one x
.fi
"""


def run(*words: str) -> str:
    return subprocess.run(words, capture_output=True, text=True, check=True).stdout


class Manual(unittest.TestCase):
    def setUp(self) -> None:
        self.room = tempfile.TemporaryDirectory()
        self.program = os.path.join(self.room.name, "ahci")
        with open(self.program, "w", encoding="utf-8") as text:
            text.write(PROGRAM)
        os.chmod(self.program, 0o755)

    def tearDown(self) -> None:
        self.room.cleanup()

    def completed(self, *words: str) -> str:
        """What bash completes where the last of these words stands."""
        script = run(f"{HERE}/manual", "--completion", self.program)
        given = " ".join(f"'{it}'" for it in words)
        ask = f'COMP_WORDS=({given}); COMP_CWORD={len(words) - 1}; compopt() {{ :; }}; _ahci; echo "${{COMPREPLY[*]}}"'
        return run("bash", "-euc", f"{script}\n{ask}").strip()

    def test_the_page_is_the_help(self) -> None:
        self.assertEqual(run(f"{HERE}/manual", self.program), PAGE)

    def test_bash_completes_commands_options_and_values(self) -> None:
        self.assertEqual(self.completed("ahci", "o"), "one")
        self.assertEqual(self.completed("ahci", "one", "--"), "--pick --count --help")
        self.assertEqual(self.completed("ahci", "one", "--pick", "h"), "high")
        self.assertEqual(self.completed("ahci", "one", "-n", "--"), "")
        self.assertEqual(self.completed("ahci", "help", ""), "one")
        self.assertEqual(self.completed("ahci", "help", "one", ""), "")

    def test_a_program_whose_help_or_version_fails_is_told(self) -> None:
        for words in ("--version", "--help", '"one --help"'):
            with open(self.program, "w", encoding="utf-8") as text:
                text.write(PROGRAM.replace('case "$*" in\n', f'case "$*" in\n{words}) exit 1 ;;\n'))
            ran = subprocess.run([f"{HERE}/manual", self.program], capture_output=True, text=True, check=False)
            self.assertEqual((ran.returncode, ran.stdout), (1, ""), words)
            self.assertIn("does not print its help", ran.stderr)

    def test_files_are_completed_where_the_usage_has_one(self) -> None:
        script = run(f"{HERE}/manual", "--completion", self.program)
        for words, said in ((("ahci", "one", "x"), "-o default"), (("ahci", "one", "--p"), ""), (("ahci", "help", "x"), "")):
            given = " ".join(f"'{it}'" for it in words)
            asked = f'COMP_WORDS=({given}); COMP_CWORD=2; compopt() {{ echo "$*"; }}; _ahci || :'
            self.assertEqual(run("bash", "-uc", f"{script}\n{asked}").strip(), said, words)

    def test_a_program_without_help_is_told(self) -> None:
        ran = subprocess.run([f"{HERE}/manual", "/nowhere"], capture_output=True, text=True, check=False)
        self.assertEqual((ran.returncode, ran.stdout), (1, ""))
        self.assertIn("manual: /nowhere does not print its help", ran.stderr)


if __name__ == "__main__":
    unittest.main()
