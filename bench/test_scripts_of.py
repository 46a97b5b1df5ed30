#!/usr/bin/env python3
"""Sees that bench/scripts_of.py writes every command of the language, and the same script for the same seed.

    bench/test_scripts_of.py

The commands are those that the program's help lists. A `raw` line is judged here by the rules of docs/LAYOUTS.md ("The rules of a window").
"""
from __future__ import annotations

import hashlib
import os
import re
import struct
import subprocess
import sys
import unittest
from typing import Dict, List, Set

sys.dont_write_bytecode = True  # no __pycache__ beside the scripts
TOP = os.path.dirname(os.path.dirname(os.path.realpath(__file__)))
sys.path.insert(0, os.path.join(TOP, "bench"))
from scripts_of import script_of  # pylint: disable=wrong-import-position

SEEDS = 24
NUMBER, TAG, BYTE = r"\d{1,20}", r"(?:[12]?\d|3[01])", "[0-9a-f]{2}"
WORDS = {"S": NUMBER, "D": NUMBER, "F": NUMBER, "K": NUMBER, "LBA": NUMBER, "T": TAG, "N": r"\d{1,6}", "W": r"\d{1,3}", "BB": BYTE, "EE": BYTE,
         "H": "[0-9a-f]{64}", "B": f"(?:{BYTE})+", "OFF": "[0-9a-f]{1,8}", "MASK": "[0-9a-f]{1,8}"}


def commands() -> List[str]:
    """The lines of the language, as the program's help lists them: `write T LBA N BB`."""
    with open(os.path.join(TOP, "crates/ahci_args/src/help.rt"), encoding="utf-8") as it:
        listed = it.read().partition('after_help: "Commands of a script:\n')[2].partition("\n\n")[0]
    return [re.fullmatch(r"  (\w+(?: (?:[A-Z]+|\.\.)(?= ))*) +\S.*", line)[1] for line in listed.split("\n")]


def pattern(command: str) -> str:
    """What such a line is."""
    word, *others = command.split()
    if others == ["T", "T", ".."]:
        return f"{word}( {TAG}){{1,32}}"
    return " ".join([word, *(WORDS[it] for it in others)])


def judged(line: str) -> str:
    """What a window is refused with, or whether it reads or writes."""
    tag, header, memory = int(line.split()[1]), *(bytes.fromhex(it) for it in line.split()[2:])
    flags, _, low, high = struct.unpack("<4I", header[:16])
    entries, base, cfis = flags >> 16, 0x1000_0000 + tag * 0x0400_0000, memory[:20]
    end = 0x80 + 16 * entries
    if flags & 0x1F != 5 or flags & 0x0720 or not 1 <= entries <= 32 or (low & ~0x7F, high) != (base, 0) or len(memory) < end:
        return "BadHeader"
    writes = cfis[2] == 0x61
    if cfis[0] != 0x27 or cfis[1] != 0x80 or cfis[2] not in (0x60, 0x61) or writes != bool(flags & 0x40):
        return "BadCommand"
    if cfis[12] >> 3 != tag:
        return "WrongTag"
    seen: Set[int] = set()
    total = 0
    for at in range(entries):
        address, above, _, count = struct.unpack_from("<4I", memory, 0x80 + 16 * at)
        first, size = address - base, (count & 0x3F_FFFF) + 1
        if address % 2 or above or not count % 2 or first < end or first + size > len(memory) or seen.intersection(range(first, first + size)):
            return "BadList"
        seen.update(range(first, first + size))
        total += size
    return "BadList" if total != 512 * (cfis[3] | cfis[11] << 8) else "a write" if writes else "a read"


class ScriptsOf(unittest.TestCase):
    scripts: Dict[bool, List[List[str]]]

    @classmethod
    def setUpClass(cls) -> None:
        cls.scripts = {raw: [script_of(seed, raw) for seed in range(SEEDS)] for raw in (False, True)}

    def test_every_command_of_the_language_is_written(self) -> None:
        listed = commands()
        self.assertEqual(18, len(listed))
        patterns = [(it, it.split()[0], re.compile(pattern(it))) for it in listed]
        for raw in (False, True):
            found: Dict[str, int] = dict.fromkeys(listed, 0)
            for script in self.scripts[raw]:
                for line in script:
                    fits = [it for it, word, whole in patterns if line.split(" ", 1)[0] == word and whole.fullmatch(line)]
                    self.assertEqual(1, len(fits), line)
                    found[fits[0]] += 1
            missing = [it for it, count in found.items() if not count]
            self.assertEqual([] if raw else ["raw T H B"], missing)

    def test_large_scripts_have_large_disks_and_commands_now_and_then(self) -> None:
        scripts = [script_of(seed, True, True) for seed in range(1, 301)]
        sectors = [int([line for line in script if line.startswith("disk ")][-1].split()[1]) for script in scripts]
        self.assertTrue(20 <= sum(it > 64 for it in sectors) <= 60)
        self.assertTrue(100_000 < max(sectors) <= 131_072)
        counts = [int(line.split()[3]) for script in scripts for line in script if line.startswith(("read ", "write "))]
        proper = [it for it in counts if 129 <= it <= 65_536]
        self.assertTrue(100 <= len(proper) <= 1000)
        self.assertGreater(max(proper), 20_000)
        self.assertIn(65_536, [int(line.split()[3]) for line in script_of(860, True, True) if line.startswith(("read ", "write "))])
        self.assertLess(sum(proper), 300 * 4096)
        self.assertLess(max(map(len, (line for script in scripts for line in script))), 4097)

    def test_large_commands_end_with_the_last_sector_or_pass_it_by_one(self) -> None:
        ends = set()
        for seed in range(1, 41):
            script = script_of(seed, True, True)
            last = int([line for line in script if line.startswith("disk ")][-1].split()[1])
            ends |= {int(line.split()[2]) + int(line.split()[3]) - last for line in script if line.startswith(("read ", "write "))}
        self.assertLessEqual({0, 1}, ends)

    def test_a_seed_has_one_script(self) -> None:
        for words in ([], ["--raw"], ["--large"], ["--raw", "--large"]):
            said = [subprocess.run([sys.executable, os.path.join(TOP, "bench/scripts_of.py"), *words, "7"], stdout=subprocess.PIPE, check=True).stdout for _ in range(2)]
            self.assertEqual(said[0], said[1])
            self.assertEqual("\n".join(script_of(7, "--raw" in words, "--large" in words)) + "\n", said[0].decode())
        self.assertNotEqual(script_of(7), script_of(8))

    def test_the_scripts_are_those_of_earlier_campaigns(self) -> None:
        """docs/CAMPAIGNS.md has a digest of what the seeds 1 to 1000 answer."""
        text = "".join(f"{line}\n" for seed in range(1, 11) for line in script_of(seed))
        self.assertEqual("47e3854d6125a6f7", hashlib.sha256(text.encode()).hexdigest()[:16])

    def test_a_script_begins_with_a_disk_and_ends_with_a_journal(self) -> None:
        for script in self.scripts[True]:
            disks = [at for at, line in enumerate(script) if line.startswith("disk ")]
            self.assertIn(disks, ([0], [0, 1]))
            self.assertEqual("journal", script[-1])
            self.assertLess(200, len(script))

    def test_windows_of_every_kind_are_written(self) -> None:
        found: Dict[str, int] = {}
        for script in self.scripts[True]:
            for line in script:
                if line.startswith("raw "):
                    self.assertLessEqual(len(line), 4096)
                    what = judged(line)
                    found[what] = found.get(what, 0) + 1
        self.assertEqual(["BadCommand", "BadHeader", "BadList", "WrongTag", "a read", "a write"], sorted(found))
        self.assertLess(sum(found.values()) // 2, found["a read"] + found["a write"])

    def test_wrong_words_are_told(self) -> None:
        for words in ([], ["x"], ["--raw"], ["7", "--raw"], ["--raw", "7", "8"], ["--large", "--raw", "7"], ["--raw", "--large"]):
            ran = subprocess.run([sys.executable, os.path.join(TOP, "bench/scripts_of.py"), *words], capture_output=True, text=True, check=False)
            self.assertEqual((1, ""), (ran.returncode, ran.stdout), words)


if __name__ == "__main__":
    unittest.main()
