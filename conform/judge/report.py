"""What a person sees: a difference with the trace around it, and the table at the end."""
from typing import Any, Dict, List

from . import layout
from .differences import Difference
from .draft import Draft
from .judge import Judged
from .known import Known
from .model import Step
from .rules import rule_of
from .shape import body, excused, spans, value, word_of

AROUND = 6  # lines of the trace before a difference
MOST_TOLD = 8  # differences of one line
WHOSE = {"standard": "the standard's rule", "model": "a choice of the model, which the standard leaves open"}


def step_lines(step: Step, mark: str) -> List[str]:
    """A line of the script, its answer, and what the model's port received and changed."""
    lines = [f"{mark} {step.number:5}  {step.line[:60]:<24}  {step.answer[:60]}"]
    if mark.strip():
        for place in layout.FIS_PLACES:
            if place.member in step.received:
                lines.append(f"           received {place.name} {step.received[place.member].hex(' ')}")
        for name, word in step.registers.items():
            if step.words[0] != "disk":
                lines.append(f"           {name} {value(name, word.to_bytes(4, 'big'))}")
    return lines


TOGETHER = ("disk", "identify words")


def kind(place: str) -> str:
    """Sectors of the disk are one kind of place, and so are words of the identify page."""
    return "disk" if place.startswith("disk, ") else "identify words" if word_of(place) >= 0 else place


def places(judged: Judged) -> str:
    """The places that differ; many sectors of the disk are one."""
    return ", ".join(dict.fromkeys(kind(it.place) for it in judged.new))


def one(step: Step, it: Difference) -> List[str]:
    rule = rule_of(step, it)
    lines = [f"  {it.place}" + (f"  ({rule.section})" if rule.section else ""), f"    rule      {WHOSE[rule.choice]}", *body(it)]
    return lines + ([f"    note      {it.note}"] if it.note else []) + excused(it)


def difference_lines(step: Step, new: List[Difference]) -> List[str]:
    """Each place; of many sectors, words of the identify page, or blocks of memory the first ones, and the numbers of the others."""
    groups: Dict[str, List[Difference]] = {}
    for at, it in enumerate(new):
        alone = kind(it.place) not in TOGETHER and not it.place.startswith("memory")
        groups.setdefault(f"{it.place} {at}" if alone else kind(it.place), []).append(it)
    lines: List[str] = []
    for name, them in list(groups.items())[:MOST_TOLD]:
        shown = MOST_TOLD if name == "identify words" else 1
        lines += [line for it in them[:shown] for line in one(step, it)]
        rest = them[shown:]
        if rest:
            lines.append(f"    and {len(rest)} more" + (f": {spans([int(it.place.split()[-1]) for it in rest])}" if name in TOGETHER else ""))
    return lines + [f"  and {len(groups) - MOST_TOLD} more places"] * (len(groups) > MOST_TOLD)


def differences_text(judged: Judged) -> List[str]:
    """The new differences of a script, as a table of places, and the model's trace around them."""
    step = judged.trace.steps[judged.step]
    lines = [f"{judged.name}, line {step.number}: {step.line[:80]} ({places(judged)})", f"the model's answer: {step.answer[:80]}", ""]
    lines += difference_lines(step, judged.new)
    lines += ["", f"The model's trace around it (> is the line at which {judged.title} differs):"]
    for at in range(max(0, judged.step - AROUND), min(len(judged.trace.steps), judged.step + 2)):
        lines += step_lines(judged.trace.steps[at], ">" if at == judged.step else " ")
    return lines + [""]


def counts(runs: List[Judged]) -> Dict[str, Dict[str, Any]]:
    """By known difference: how many scripts and lines have it, and where it came first."""
    found: Dict[str, Dict[str, Any]] = {}
    for run in runs:
        for name, (times, first) in run.known.items():
            row = found.setdefault(name, {"scripts": 0, "times": 0, "first": f"{run.name}, line {first}"})
            row["scripts"] += 1
            row["times"] += times
    return found


def known_table(title: str, names: List[str], found: Dict[str, Dict[str, Any]]) -> List[str]:
    lines = [f"| {name} | {found[name]['scripts']:,} | {found[name]['times']:,} | {found[name]['first']} |" for name in names if name in found]
    return ["", f"| {title} | scripts | times | first |", "|---|---|---|---|", *lines] if lines else []


def table(runs: List[Judged], known: Known, seconds: float) -> List[str]:
    """The end of a run."""
    bad = [run for run in runs if not run.passed]
    found = counts(runs)
    lines = ["| Scripts | |", "|---|---|", f"| judged | {len(runs):,} |", f"| with no difference outside the list | {len(runs) - len(bad):,} |",
             f"| with a new difference | {len(bad):,} |", f"| lines played | {sum(run.lines for run in runs):,} |", f"| seconds | {seconds:.1f} |"]
    names = [it.name for it in known.entries]
    lines += known_table("Known difference", [it for it in names if it not in known.base], found)
    lines += known_table("Any port may differ here", list(known.base), found)
    if bad:
        lines += ["", "| New difference | at | line |", "|---|---|---|"]
        for run in bad:
            step = run.trace.steps[run.step]
            lines.append(f"| {places(run)} | {run.name}, line {step.number} | `{step.line[:40]}` |")
    return lines + blind_lines(runs)


def draft_table(runs: List[Judged], draft: Draft, known: Known, path: str) -> List[str]:
    """The end of a run that drafts a list: each new entry, with whose choice it is."""
    entries = draft.known.entries
    found = counts(runs)
    lines = [f"Kinds of differences in {path}, each to be described or mended: {len(entries)}", "", "| Entry | whose rule | scripts | times | first | may follow from |", "|---|---|---|---|---|---|"]
    lines += [f"| {it.name} | {it.choice} | {found[it.name]['scripts']:,} | {found[it.name]['times']:,} | {found[it.name]['first']} | {draft.after[it.name]} |" for it in entries if it.name in found]
    names = [it.name for it in known.entries]
    return lines + known_table("Known difference", [it for it in names if it not in known.base], found) + known_table("Any port may differ here", list(known.base), found)


def blind_lines(runs: List[Judged]) -> List[str]:
    """What wasn't compared in any script."""
    missing = dict.fromkeys(it for run in runs for it in run.blind)
    return ["", "Not compared:", *(f"- {it}" for it in missing)] if missing else []


def difference_json(step: Step, it: Difference) -> Dict[str, Any]:
    rule = rule_of(step, it)
    return {"place": it.place, "expected": it.expected.hex(), "got": it.got.hex(), "differs": it.names, "note": it.note,
            "choice": rule.choice, "section": rule.section, "excused": {name: bits.hex() for name, bits in it.excused}}


def as_json(judged: Judged) -> Dict[str, Any]:
    """One script's result for tools."""
    step = judged.trace.steps[judged.step] if judged.new else None
    return {
        "script": judged.name, "lines": judged.lines, "end": judged.trace.end or judged.end,
        "known": {name: {"times": times, "line": first} for name, (times, first) in judged.known.items()},
        "new": None if step is None else {
            "line": step.number, "text": step.line, "answer": step.answer, "differences": [difference_json(step, it) for it in judged.new],
        },
    }
