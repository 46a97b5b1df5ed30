"""Checks a list of known differences on the emulator: each entry is shown by the last line of its own script."""
import os
from typing import Callable, Iterator

from . import model
from .adapter import Adapter
from .judge import judge
from .known import Entry, Known


def script_path(folder: str, entry: Entry) -> str:
    return os.path.join(folder, f"{entry.name}.ahci")


def faults_of(known: Known, folder: str, program: str, make: Callable[[], Adapter]) -> Iterator[str]:
    """What is wrong with the list: a script that is missing, differs otherwise, or has not its last line as the first that shows it."""
    for entry in known.entries:
        path = script_path(folder, entry)
        try:
            with open(path, encoding="ascii") as text:
                trace = model.trace_of(program, text.read())
        except OSError as why:
            yield f"{entry.name}: {path} can't be read: {why.strerror}"
            continue
        whole = judge(entry.name, trace, make, known)
        others = judge(entry.name, trace, make, known._replace(entries=[it for it in known.entries if it is not entry]))
        if whole.new:
            yield f"{entry.name}: line {trace.steps[whole.step].number} of its script has a difference that isn't on the list: {whole.new[0].place}"
        elif not others.new:
            yield f"{entry.name}: its script doesn't show it"
        elif others.step != len(trace.steps) - 1:
            yield f"{entry.name}: line {trace.steps[others.step].number} of its script shows it before the last line does"
    names = {f"{entry.name}.ahci" for entry in known.entries}
    for name in sorted(os.listdir(folder) if os.path.isdir(folder) else []):
        if name.endswith(".ahci") and name not in names:
            yield f"{os.path.join(folder, name)}: the list has no such entry"
