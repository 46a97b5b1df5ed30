#!/usr/bin/env python3
"""Tests of tools/check_version: on a changed copy, each place that states another version, or none, is named.

    tools/test_check_version.py
"""
from __future__ import annotations

import os
import shutil
import subprocess
import tempfile
import unittest
from typing import Tuple

TOP = os.path.dirname(os.path.dirname(os.path.realpath(__file__)))
FILES = ["VERSION", "CHANGELOG.md", "c/ahci.h", "crates/ahci_c/src/lib.rt", "crates/ahci_args/src/help.rt", "nbd/plugin.c", "python/ahci/__init__.py",
         "tools/check_version"]


class CheckVersion(unittest.TestCase):
    def setUp(self) -> None:
        self.room = tempfile.mkdtemp(prefix="test-check-version-")
        self.addCleanup(shutil.rmtree, self.room)
        for name in FILES:
            os.makedirs(os.path.dirname(f"{self.room}/{name}"), exist_ok=True)
            shutil.copy(f"{TOP}/{name}", f"{self.room}/{name}")
        with open(f"{TOP}/VERSION", encoding="ascii") as file:
            self.version = file.read().strip()

    def check(self) -> Tuple[int, str]:
        ran = subprocess.run([f"{self.room}/tools/check_version"], capture_output=True, text=True, check=False)
        return ran.returncode, ran.stderr

    def edit(self, path: str, old: str, new: str) -> None:
        with open(f"{self.room}/{path}", encoding="utf-8") as file:
            text = file.read()
        self.assertIn(old, text)
        with open(f"{self.room}/{path}", "w", encoding="utf-8") as file:
            file.write(text.replace(old, new, 1))

    def test_the_places_agree(self) -> None:
        self.assertEqual((0, ""), self.check())

    def test_each_other_version_is_named(self) -> None:
        packed = "".join(f"{int(it):02x}" for it in self.version.split("."))
        for path in FILES[1:-1]:
            mark = "## " if path == "CHANGELOG.md" else ""  # its text may name versions too
            old, new = (packed, "020103") if path.startswith(("c/", "crates/ahci_c/")) else (mark + self.version, f"{mark}2.1.3")
            self.edit(path, old, new)
            self.assertEqual((1, f"check_version: {path} states 2.1.3, VERSION {self.version}\n"), self.check(), path)
            self.edit(path, new, old)

    def test_what_is_not_released_yet_has_no_version(self) -> None:
        self.edit("CHANGELOG.md", f"## {self.version}", f"## Unreleased\n\n- One thing.\n\n## {self.version}")
        self.assertEqual((0, ""), self.check())
        self.edit("CHANGELOG.md", f"## {self.version}", "## 2.1.3")
        self.assertEqual((1, f"check_version: CHANGELOG.md states 2.1.3, VERSION {self.version}\n"), self.check())

    def test_a_place_without_a_version_is_named(self) -> None:
        for path in FILES[1:-1]:
            os.rename(f"{self.room}/{path}", f"{self.room}/away")
            self.assertEqual((1, f"check_version: {path} states no version, VERSION {self.version}\n"), self.check(), path)
            os.rename(f"{self.room}/away", f"{self.room}/{path}")

    def test_the_file_itself_is_one_line_of_three_numbers(self) -> None:
        for text in ("1.0\n", "1.0.0", "v1.0.0\n", "1.0.0\n\n", "1.0.0-rc\n"):
            with open(f"{self.room}/VERSION", "w", encoding="ascii") as file:
                file.write(text)
            self.assertIn("check_version: VERSION is not one line of three numbers\n", self.check()[1], text)


if __name__ == "__main__":
    unittest.main()
