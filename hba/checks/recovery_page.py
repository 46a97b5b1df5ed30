"""The section "Recovery" of docs/DRIVERS.md, from the stored runs of recoveries.py."""
from __future__ import annotations

import re
import textwrap
from typing import Any, Dict, List, Sequence, Set

import recoveries
import shipped
import surviving

WIDE = 158  # columns of a paragraph
MOST_LINES = 6  # of what a driver writes
SEEN, LATE, MISSING, CUT = "seen", "out of order", "missing", "not before the next event"
FATES = ("answered", "again", "failed", "lost", "twice", "other", "carried")
Came = Dict[str, Any]  # what came of a run
Reports = List[Dict[str, Any]]


def wrapped(text: str) -> List[str]:
    """The lines of a paragraph."""
    return textwrap.wrap(text, WIDE, break_long_words=False, break_on_hyphens=False)


def steps_of(reports: Reports) -> str:
    """Which steps of some reports of one event are missing or out of order, and how often if not always."""
    total, texts = sum(it["times"] for it in reports), []
    for state in (MISSING, LATE, CUT):
        counts: Dict[str, int] = {}
        for it in reports:
            for name, states in it["steps"].items():
                counts[name] = counts.get(name, 0) + states.get(state, 0)
        names = [name if times == total else f"{name} ({times} of {total})" for name, times in counts.items() if times]
        texts += [f"{state}: {', '.join(names)}"] if names else []
    return "; ".join(texts) or ("all in order" if any(it["steps"] for it in reports) else "-")


def also_of(reports: Reports) -> str:
    return ", ".join(dict.fromkeys(name for it in reports for name in it["also"])) or "-"


def fates_of(reports: Reports) -> str:
    """What became of the requests that were outstanding."""
    counts: Dict[str, int] = {}
    for it in reports:
        for name, times in it["requests"].items():
            counts[name] = counts.get(name, 0) + times
    return ", ".join(f"{counts[name]} {name}" for name in FATES if counts.get(name)) or "-"


def failed_of(came: Came) -> str:
    """How many requests failed."""
    if came["hangs"]:
        return "it hangs"
    if "mixed" not in came:
        return "no disk is found"
    found = re.match(r"requests (\d+) .* errors (\d+) wrong (\d+)", came["mixed"])
    wrong = f"; {found[3]} read wrong" if found and found[3] != "0" else ""
    return str(found[2] if found else came["mixed"]) + wrong + ("; the disk is gone" if came["again"] == "no disk" else "")


# lines that say no more than those beside them
PLAIN = re.compile(r"ata1\.00: (irq_stat 0x\S+|cmd .*|status: .*|device reported .*|failed command: .*)|ata1: EH complete|sd .*(CDB|Result): .*")


def said_of(came: Came) -> str:
    """The first lines that a kernel has written, without those that say no more."""
    lines = [line for line in came["says"] if not PLAIN.fullmatch(line)]
    return ("; ".join(f"`{line}`" for line in lines[:MOST_LINES]) or "nothing") + ("; .." if len(lines) > MOST_LINES else "")


def names_of(all_of: Dict[str, Came], events: Sequence[surviving.Event]) -> List[str]:
    """The events, in their order, that some kernel was run under."""
    return list(dict.fromkeys(it.name for it in events if any(it.name in found["events"] for found in all_of.values())))


def failures(all_of: Dict[str, Came], name: str) -> List[str]:
    return [failed_of(found["events"][name]) if name in found["events"] else "" for found in all_of.values()]


def runs_table(all_of: Dict[str, Came]) -> List[str]:
    """What came of the requests under each event, and what the first kernel writes."""
    first = next(iter(all_of.values()))
    heads = ["Script", *(f"Fail on {found['version']}" for found in all_of.values()), f"First lines of {first['version']}"]
    lines = ["| " + " | ".join(heads) + " |", "|---" * len(heads) + "|"]
    for name in names_of(all_of, surviving.EVENTS):
        lines.append(f"| `{name}` | " + " | ".join(failures(all_of, name)) + f" | {said_of(first['events'][name]) if name in first['events'] else ''} |")
    return lines


def by_event(came: Came) -> Dict[str, Reports]:
    """The reports of a run, by event and section."""
    found: Dict[str, Reports] = {}
    for it in came["recoveries"]:
        found.setdefault(it["event"] + (f", {it['section']}" if it["section"] else ""), []).append(it)
    return found


def did_of(came: Came) -> List[str]:
    """The cells of a script's row: what a kernel did after its events, what besides, and what became of the commands that were outstanding."""
    found = by_event(came)
    steps = [f"{name} ({sum(it['times'] for it in reports)}): {steps_of(reports)}" for name, reports in found.items() if steps_of(reports) != "-"]
    return ["; ".join(steps) or "-", also_of(came["recoveries"]), fates_of(came["recoveries"])]


def scripts_table(all_of: Dict[str, Came]) -> List[str]:
    """What came of the requests under each script that is shipped, and what the first kernel did."""
    first = next(iter(all_of.values()))
    heads = ["Script", *(f"Fail on {found['version']}" for found in all_of.values()), f"Events with steps of the standard (times): what {first['version']} did", "Besides",
             "Commands that were outstanding", f"First lines of {first['version']}"]
    lines = ["| " + " | ".join(heads) + " |", "|---" * len(heads) + "|"]
    for name in names_of(all_of, shipped.EVENTS):
        did = [*did_of(first["events"][name]), said_of(first["events"][name])] if name in first["events"] else [""] * 4
        lines.append("| " + " | ".join([f"[`{name}`](../host/events/{name})", *failures(all_of, name), *did]) + " |")
    return lines


def reports_table(found: Came) -> List[str]:
    """What a kernel does about each event, by the reports of all its runs."""
    all_of: Dict[str, Reports] = {}
    for came in found["events"].values():
        for name, reports in by_event(came).items():
            all_of.setdefault(name, []).extend(reports)
    lines = ["| Event, section | Times | Steps of the standard | Besides | Commands that were outstanding |", "|---" * 5 + "|"]
    for name, reports in sorted(all_of.items()):
        lines.append(f"| {name} | {sum(it['times'] for it in reports)} | {steps_of(reports)} | {also_of(reports)} | {fates_of(reports)} |")
    return lines


def broken_of(found: Came) -> str:
    """The rules that a kernel breaks, by run."""
    return "; ".join(f"`{name}`: {', '.join(f'`{it}`' for it in came['broken'])}" for name, came in found["events"].items() if came["broken"]) or "none"


# ---- what two kernels do otherwise ----


def result_of(came: Came) -> str:
    """What came of the requests, without numbers that differ from run to run."""
    found = re.match(r"requests (\d+) .* errors (\d+) wrong (\d+)", came.get("mixed", ""))
    if came["hangs"] or not found:
        return failed_of(came)
    errors = int(found[2])
    failed = "no request fails" if errors == 0 else "one request fails" if errors == 1 else "some requests fail"
    return failed + (f", {found[3]} are read wrong" if found[3] != "0" else "") + (", and the disk is gone" if came["again"] == "no disk" else "")


def left_out(came: Came) -> Dict[str, Set[str]]:
    """By event, the steps that a kernel never takes in a run, or takes in another order."""
    found: Dict[str, Set[str]] = {}
    for it in came["recoveries"]:
        for step, states in it["steps"].items():
            if not states.get(SEEN):
                found.setdefault(it["event"], set()).add(f"{step} ({', '.join(LATE if state == LATE else 'left out' for state in states)})")
    return found


def differences(first: Came, second: Came) -> List[str]:
    """A sentence for each script that two kernels were run under, and do otherwise."""
    lines: List[str] = []
    steps: Dict[str, List[str]] = {}
    for name in [it for it in names_of({"": first}, [*surviving.EVENTS, *shipped.EVENTS]) if it in second["events"]]:
        before, after = first["events"][name], second["events"][name]
        parts = [f"{result_of(before)} on {first['version']}, and {result_of(after)} on {second['version']}"] if result_of(before) != result_of(after) else []
        broken = [", ".join(it["broken"]) or "no rule" for it in (before, after)]
        parts += [f"{first['version']} breaks {broken[0]}, and {second['version']} {broken[1]}"] if broken[0] != broken[1] else []
        lines += [f"- `{name}`: {'; '.join(parts)}."] if parts else []
        of_first, of_second = left_out(before), left_out(after)
        for event in sorted(of_first.keys() | of_second.keys()):
            mine, other = of_first.get(event, set()) - of_second.get(event, set()), of_second.get(event, set()) - of_first.get(event, set())
            for version, found in ((first["version"], mine), (second["version"], other)):
                for step in sorted(found):
                    steps.setdefault(f"Only {version} after `{event}`: {step}", []).append(name)
    lines += [f"- {what}, under {', '.join(f'`{name}`' for name in dict.fromkeys(names))}." for what, names in sorted(steps.items())]
    return lines


def differences_section(all_of: Dict[str, Came]) -> List[str]:
    if len(all_of) < 2:
        return []
    first, second = list(all_of.values())[:2]
    both = [it for it in second["events"] if it in first["events"]]
    return ["", f"### What {first['version']} and {second['version']} do otherwise", "", f"Of {len(both)} scripts that both were run under:", "", *differences(first, second)]


def alone_of(all_of: Dict[str, Came]) -> str:
    """Who had the controller before Linux."""
    older = [came for found in all_of.values() for came in found["events"].values() if "firmware" not in came]
    before = f" In {len(older)} runs, which are older, SeaBIOS uses the disk before Linux does." if older else ""
    before += " Its breach of `ReceivingClearedWhileStarted` is listed with them." if any("ReceivingClearedWhileStarted" in came["broken"] for came in older) else ""
    return f"It has the controller for itself, on qboot.{before}"


def section() -> List[str]:
    """The section of the page."""
    all_of = {folder: found for folder, found in ((it, recoveries.stored(it)) for it in surviving.KERNELS) if found["events"]}
    if not all_of:
        return []
    lines = ["", "## Recovery", "", *wrapped(
        "Linux makes 2,500 requests in a queue of 32 commands while a [script](../host/README.md#scripts-of-events) of [surviving.py](../hba/checks/surviving.py) goes on; each read is "
        f"compared, and at the end each block is read once more. {alone_of(all_of)} No write that was answered was lost. \"Read wrong\" is a read that Linux took as done and whose data "
        "are not the disk's: it looks neither at DF without ERR nor at PRDBC. No other data were wrong. `hba/drivers --recovery` makes the runs."), "", *runs_table(all_of)]
    scripts = scripts_table(all_of)
    if len(scripts) > 2:
        lines += ["", "### The scripts that are shipped", "", *wrapped(
            "The same under each script of [host/events](../host/events/README.md). [shipped.py](../hba/checks/shipped.py) has the numbers of requests, and what of a script is another "
            "one here: losses of power come with the 1,000th command, a disk is plugged in after Linux has looked for one, a second COMRESET is brought about, Linux reads the log of "
            "one script by READ LOG EXT, and the flush that is aborted is FLUSH CACHE."), "", *scripts]
    for found in all_of.values():
        lines += ["", f"### What {found['version']} does about each event", "",
                  "By the [reports of recovery](../hba/README.md#reports-of-recovery): \"all in order\" are the steps of the section of AHCI 1.3.1, \"-\" is an event that asks for none. "
                  f"[Rules](#rules-that-are-broken) that it breaks meanwhile: {broken_of(found)}.", "", *reports_table(found)]
    return lines + differences_section(all_of)
