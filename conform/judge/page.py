"""The page docs/QEMU.md, made from the list of known differences."""
from typing import List

from .known import Entry, Known

CHOICES = {
    "standard": "the standard's, and the emulator does otherwise",
    "model": "the model's own, where the standard leaves one or the model is narrower",
}
HEAD = """\
# QEMU beside the model

{controller}
## Scripts on a started port

The same scripts were played on {title}'s AHCI port and on the model, with data as the model lays them and in many pieces, and compared
after each line: registers, received FISes, data, disk ([conform](../conform/README.md)). A command that succeeds goes the same way in both, in any order: PxSACT and PxCI,
the FISes and their bytes, the data, the scatter lists and the sectors are those of the model. What differs is below, from `conform/{file}`, and nothing
else was found.

Each difference has the smallest script that shows it, by its last line. `conform/ahci_conform --without NAME
conform/qemu/NAME.ahci` reports it as a new one, with what was expected and what was got.

## At a glance

| Difference | Standard | Whose choice |
|---|---|---|
"""
BESIDE = """\
## What no script can show

A script's driver makes no such access, so these are tried by hand-made ones, by [test_beside.py](../conform/tests/test_beside.py),
which `make -C conform check` runs.

| What | Standard | {title} | Model |
|---|---|---|---|
"""
END = """\

## What to make of it

For the way of a command that succeeds, its order, its data and its layouts, {title} is as good a reference as the model. It is none
for what follows an error: it goes on where the standard wants the port to stop, it has no log of the error, and its error is always
ABRT. A driver that was tried on it alone has never seen a halted queue. The D bit that is missing, the D2H Register FIS after
PIO data and the ABRT are {title}'s own: drivers take them, and none of them is one to follow.
"""


def section(entry: Entry, title: str) -> List[str]:
    """One difference with all that the list says."""
    lines = [f"## {entry.title}", "", f"{entry.section}.", "", "| | |", "|---|---|", f"| {title} | {entry.emulator} |", f"| Model | {entry.model} |"]
    lines.append(f"| Whose choice | {CHOICES[entry.choice]}" + (f" ([DECISIONS.md](DECISIONS.md), \"{entry.decision}\")" if entry.decision else "") + " |")
    return [*lines, f"| Script | [{entry.name}](../conform/qemu/{entry.name}.ahci) |", ""]


def anchor(title: str) -> str:
    """A heading's name in a link."""
    return "".join(it for it in title.lower().replace(" ", "-") if it.isalnum() or it in "-_")


def page_of(known: Known, file: str, controller: str) -> str:
    """The page, with the part of it that another judge has."""
    lines = [HEAD.format(title=known.title, file=file, controller=controller).rstrip("\n")]
    lines += [f"| [{it.title}](#{anchor(it.title)}) | {it.section} | {CHOICES[it.choice].split(',')[0]} |" for it in known.entries]
    lines.append("")
    for entry in known.entries:
        lines += section(entry, known.title)
    if known.beside:
        lines.append(BESIDE.format(title=known.title).rstrip("\n"))
        lines += [f"| {it['title']} | {it['section']} | {it['emulator']} | {it['model']} |" for it in known.beside]
    return "\n".join(lines) + "\n" + END.format(title=known.title)
