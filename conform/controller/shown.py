"""`--shown`: each entry of a list by its own program."""
import os
from typing import Callable, Iterator

from judge.adapter import EmulatorFault

from .adapter import Controller
from .campaign import SURVIVES, Given, Worker
from .known import Known
from .text import program_of


def faults_of(known: Known, folder: str, make: Callable[[], Controller]) -> Iterator[str]:
    """What is wrong: an entry without a program, one that its program doesn't show, or shows beside something new."""
    for entry in known.entries:
        if entry.name in known.base or any(cover.place.fullmatch(SURVIVES) for cover in entry.covers):
            continue  # what a reset leaves behind takes two programs
        path = os.path.join(folder, f"{entry.name}.prog")
        try:
            with open(path, encoding="utf-8") as text:
                given = Given(entry.name, program_of(text.read(), os.path.basename(path)))
        except OSError as why:
            yield f"{entry.name}: {path} can't be read: {why.strerror}"
            continue
        worker = Worker(make, known)
        try:
            judged = worker.one(given).judged
            if entry.name not in judged.names:
                yield f"{entry.name}: its program doesn't show it"
            elif judged.differs:
                yield f"{entry.name}: its program has another difference beside it: {', '.join(sorted({it.difference.place for it in judged.found if it.is_new}))}"
            worker.known = known._replace(entries=[it for it in known.entries if it.name != entry.name])
            if not worker.judge(given.ops).differs:
                yield f"{entry.name}: without the entry its program shows no difference"
        except EmulatorFault as why:
            yield f"{entry.name}: {why}"
        finally:
            worker.stop()


def check_list(folder: str, known: Known, make: Callable[[], Controller]) -> int:
    faults = list(faults_of(known, folder, make))
    own = [it for it in known.entries if it.name not in known.base]
    print("\n".join([*faults, f"{len(own)} known differences, {len(faults)} faults"]))
    return 1 if faults else 0
