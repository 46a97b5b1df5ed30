"""Runs of Linux under the events of scripts, stored in runs/; docs/DRIVERS.md is made of them by recovery_page.py."""
from __future__ import annotations

import functools
import json
import os
import tempfile
from concurrent.futures import ThreadPoolExecutor
from typing import Any, Dict, List, Tuple

import harness
from images import HERE, VFIO_USER
import shipped
from suite import Failed
import surviving

RUNS = os.path.join(HERE, "runs")


def events_of(folder: str) -> List[surviving.Event]:
    """The events and the scripts that are tried on a kernel."""
    return [it for it in [*surviving.EVENTS, *shipped.EVENTS] if folder in it.kernels]


def path_of(folder: str) -> str:
    return os.path.join(RUNS, f"survived_{folder}.json")


def stored(folder: str) -> Dict[str, Any]:
    """What is stored of a kernel's runs."""
    if not os.path.exists(path_of(folder)):
        return {"version": "", "events": {}}
    with open(path_of(folder), encoding="utf-8") as file:
        found: Dict[str, Any] = json.load(file)
    return found


def merged(recoveries: List[Dict[str, Any]]) -> List[Dict[str, Any]]:
    """The reports of a run, those of one event and section as one: how often each step was in which state, and what became of all requests."""
    found: Dict[Tuple[str, str], Dict[str, Any]] = {}
    for report in recoveries:
        of = found.setdefault((report["event"], report["section"]), {"event": report["event"], "section": report["section"], "times": 0, "steps": {}, "also": {}, "requests": {}})
        of["times"] += 1
        for name, state in report["steps"].items():
            states = of["steps"].setdefault(name, {})
            states[state] = states.get(state, 0) + 1
        for name in report["also"]:
            of["also"][name] = of["also"].get(name, 0) + 1
        for name, times in report["requests"].items():
            if times:
                of["requests"][name] = of["requests"].get(name, 0) + times
    return list(found.values())


def one(folder: str, event: surviving.Event) -> Tuple[str, Dict[str, Any]]:
    """A run of a kernel under an event, as it is stored."""
    with tempfile.TemporaryDirectory(prefix="ahci-hba-drivers-") as room:
        harness.WAYS[room] = VFIO_USER
        came = surviving.outcome(room, folder, event)
        del harness.WAYS[room]
        try:
            said = surviving.look(event, folder, came)
        except Failed as why:
            said = f"FAILED {why}"
    print(f"{folder}: {event.name}: {said}", flush=True)
    broken = sorted({it["rule"] for it in came["rules"] if it["verdict"] == "broken"})
    results = {name: came["results"][name] for name in ("mixed", "again", "flush") if name in came["results"]}
    return event.name, {**results, "firmware": "qboot", "broken": broken, "hangs": came["hangs"], "says": came["says"], "recoveries": merged(came["recoveries"])}


def keep(folder: str, found: Dict[str, Any]) -> None:
    """Stores what a kernel did, beside what is stored."""
    all_of = {**stored(folder)["events"], **found}
    with open(path_of(folder), "w", encoding="utf-8") as file:
        json.dump({"version": surviving.version_of(folder), "events": {it.name: all_of[it.name] for it in events_of(folder) if it.name in all_of}}, file, indent=1)
        file.write("\n")


def run(only: str, jobs: int, kernel: str = "", is_new: bool = False) -> None:
    """Runs each kernel, or one, under each event whose name has a word, or of these under those that nothing is stored of, and stores what came as it comes."""
    for folder in surviving.KERNELS:
        known = stored(folder)["events"] if is_new else {}
        events = [it for it in events_of(folder) if only in it.name and kernel in ("", folder) and it.name not in known]
        with ThreadPoolExecutor(jobs) as pool:
            for name, came in pool.map(functools.partial(one, folder), events):
                keep(folder, {name: came})
