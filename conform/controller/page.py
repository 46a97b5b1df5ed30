"""The controller's part of docs/QEMU.md, made from the lists of known differences."""
import os
from typing import List

from .known import Entry, Known, read_known

FOLDER = os.path.dirname(os.path.abspath(__file__))
LISTS = ("qemu-7.2", "qemu-11.1")
HEAD = """\
Two judges were run on QEMU ([conform](../conform/README.md)): one plays random driver programs on the whole controller, the other scripts of queued commands on
a started port. Each difference below has the smallest program or script that shows it. This page is made by `conform/ahci_conform --page
conform/qemu-7.2.json`; `make -C conform check` compares them.

## Programs that end QEMU 7.2

Each is a bug report: the program is played by QEMU's qtest protocol alone, without the model. `--slow-disk` lets a request wait on a disk of one request a second, in
place of a breakpoint; `--qemu PATH` names another QEMU.
"""
REPORT = """\

### {title}

{section}. {emulator} The standard: {model}

```text
{program}```

```text
conform/ahci_conform --controller --play conform/controller/qemu-7.2/{name}.prog
```
"""
TABLE = """\

## {title}

Random driver programs on the controller, compared after each access ([controller](../conform/controller/README.md)): 31 registers, the interrupt line, the driver's memory, the disk.
{rest}

| Difference | QEMU | The model | Section | How sure | 7.2 | 11.1 |
|---|---|---|---|---|---|---|
"""
PARTS = (
    ("standard", "What QEMU's controller does against the standard", "AHCI 1.3.1 if no other standard is named."),
    ("open", "What the standard leaves open", "QEMU does one thing here, the model another."),
    ("undefined", "What the standard does not say", "The driver of these programs breaks a rule itself."),
)


def link(entry: Entry, known: Known, file: str) -> str:
    """A link to the entry's program in a list; nothing if the list hasn't the entry."""
    there = any(it.name == entry.name for it in known.entries)
    return f"[program](../conform/controller/{file}/{entry.name}.prog)" if there else "no"


def crashes(known: Known, file: str) -> List[str]:
    lines = []
    for entry in known.entries:
        if any(cover.place.fullmatch("the emulator dies") for cover in entry.covers):
            with open(os.path.join(FOLDER, file, f"{entry.name}.prog"), encoding="utf-8") as text:
                program = "".join(line for line in text if not line.startswith("#"))
            lines.append(REPORT.format(title=entry.title, section=entry.section, emulator=entry.emulator, model=entry.model, program=program, name=entry.name))
    return lines


def part() -> str:
    """All of it."""
    lists = [read_known(os.path.join(FOLDER, f"{name}.json")) for name in LISTS]
    lines = [HEAD, *crashes(lists[0], LISTS[0])]
    entries = {entry.name: entry for known in reversed(lists) for entry in known.entries}
    order = [*lists[0].entries, *(it for it in lists[1].entries if it.name not in [one.name for one in lists[0].entries])]
    for choice, title, rest in PARTS:
        lines.append(TABLE.format(title=title, rest=rest))
        for entry in (entries[it.name] for it in order):
            if entry.choice == choice:
                links = " | ".join(link(entry, known, name) for known, name in zip(lists, LISTS))
                section = entry.section.replace("AHCI 1.3.1, section ", "").replace("AHCI 1.3.1, sections ", "")
                lines.append(f"| {entry.title} | {entry.emulator} | {entry.model} | {section} | {entry.sure} | {links} |\n")
    return "".join(lines)
