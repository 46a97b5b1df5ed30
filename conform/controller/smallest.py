"""`--smallest`: the smallest program of each entry of a list that has none yet, from the programs that are judged."""
import os
from typing import Callable, Dict, Iterable, Iterator, List, Tuple

from .adapter import Controller
from .campaign import Given, Worker
from .known import Entry, Known
from .program import Program
from .shrink import shrunk
from .text import text_of

BUDGET = 250


class Smallest:
    """Two workers: one with the list, and one without the entry that is sought."""

    def __init__(self, make: Callable[[], Controller], known: Known, folder: str) -> None:
        self.worker, self.known, self.folder = Worker(make, known), known, folder
        self.entries = {it.name: it for it in known.entries if it.name not in known.base}

    def path(self, name: str) -> str:
        return os.path.join(self.folder, f"{name}.prog")

    def missing(self) -> List[str]:
        return [name for name in self.entries if not os.path.exists(self.path(name))]

    def shows(self, name: str, ops: Program, broken: str) -> bool:
        """With the list the entry is there and nothing else is left; without the entry something differs, after no other rule than `broken`."""
        self.worker.known = self.known
        judged = self.worker.judge(ops)
        if name not in judged.names or judged.differs:
            return False
        self.worker.known = self.known._replace(entries=[it for it in self.known.entries if it.name != name])
        without = self.worker.judge(ops)
        return without.differs and without.end in ("new", broken)

    def take(self, given: Given) -> Iterator[Tuple[str, int]]:
        """Writes the smallest program of each entry that this one is the first to show."""
        self.worker.known = self.known
        judged = self.worker.one(given).judged
        for name in sorted(judged.names & set(self.missing())):
            last = min(it.index for it in judged.found if name in it.names)
            ops = given.ops[: last + 1]
            broken = self.end_without(name, ops)
            if self.shows(name, ops, broken):
                small = shrunk(ops, lambda it: self.shows(name, it, broken), BUDGET)
                self.write(self.entries[name], small)
                yield name, len(small)

    def end_without(self, name: str, ops: Program) -> str:
        self.worker.known = self.known._replace(entries=[it for it in self.known.entries if it.name != name])
        return self.worker.judge(ops).end

    def write(self, entry: Entry, ops: Program) -> None:
        os.makedirs(self.folder, exist_ok=True)
        with open(self.path(entry.name), "w", encoding="utf-8") as out:
            out.write(f"# {entry.title}: {entry.section}\n{text_of(ops)}")


def write_smallest(folder: str, known: Known, make: Callable[[], Controller], programs: Iterable[Given]) -> int:
    it = Smallest(make, known, folder)
    found: Dict[str, int] = {}
    try:
        for given in programs:
            if not it.missing():
                break
            for name, size in it.take(given):
                found[name] = size
                print(f"{name}: {size} operations, from {given.name}", flush=True)
    finally:
        it.worker.stop()
    missing = it.missing()
    print(f"{len(found)} programs written, {len(missing)} entries without one" + (f": {', '.join(missing)}" if missing else ""))
    return 1 if missing else 0
