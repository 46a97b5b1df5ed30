"""What a driver did, counted from the log of `ahci-hba --log`."""
from __future__ import annotations

import re
from typing import Dict, List

FORM = re.compile(r" *[\d.]+ (read|write) (\S+) ([0-9a-f]+)|.*the same, (\d+) times more|.*(?:command) \d+ (?:....)(..)")


class Counts:
    """How often each thing was seen, in the order in which it came first."""

    def __init__(self) -> None:
        self.accesses: Dict[str, List[int]] = {}
        self.words: Dict[str, List[str]] = {}
        self.codes: Dict[str, int] = {}

    def access(self, kind: str, name: str, word: str, times: int) -> None:
        reads_and_writes = self.accesses.setdefault(name, [0, 0])
        reads_and_writes[kind == "write"] += times
        seen = self.words.setdefault(name, [])
        if kind == "write" and word not in seen:
            seen.append(word)


def counted(path: str) -> Counts:
    """The counts of a log; a repeated line counts as often as it came."""
    counts = Counts()
    last = None
    with open(path, encoding="utf-8") as file:
        for line in file:
            found = FORM.match(line)
            if found and found[1]:
                last = (found[1], found[2], found[3])
                counts.access(*last, 1)
            elif found and found[4] and last:
                counts.access(*last, int(found[4]))
            else:
                last = None
                if found and found[5]:
                    counts.codes[found[5]] = counts.codes.get(found[5], 0) + 1
    return counts
