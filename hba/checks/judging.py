"""Checks of the judge: a driver that keeps the rules, and one that breaks each."""
from __future__ import annotations

import json
import os
import subprocess
from concurrent.futures import ThreadPoolExecutor
from typing import Any, Dict, List, Sequence

from faults import FAULTS, RIGHT
from harness import BROKE_A_RULE, HERE, SANITIZED, way_of
import pace
from suite import Check, expect

DRIVER = os.path.join(HERE, "checks", "driver")
COUNTED_ONCE = ["mixed", "slot_again", "hr_not_awaited", "master_off"]  # these break their rule by one access
ALONE = ["queue_without_sncq", "many_entries"]  # these break no other rule


def judged(room: str, fault: str, options: Sequence[str]) -> List[Dict[str, Any]]:
    """The rules that the judge names, of a run with a fault."""
    found = os.path.join(room, f"{fault}.json")
    ran = pace.ran([SANITIZED, "run", "--transport", way_of(room), "--sectors", "64", "--json", found, *options, "--", DRIVER, fault], 60, stdout=subprocess.PIPE, stderr=subprocess.PIPE, text=True)
    with open(found, encoding="utf-8") as file:
        rules: List[Dict[str, Any]] = json.load(file)["rules"]
    broken = any(it["verdict"] == "broken" for it in rules)
    expect(ran.returncode == (BROKE_A_RULE if broken else 0), f"{fault}: status {ran.returncode}: {ran.stderr}")
    return rules


def planted(room: str) -> str:
    """Each fault is named, with its section, after the driver's reset of the HBA: in stretch 2, or at the end of 1."""
    with ThreadPoolExecutor(4) as pool:
        found = dict(zip(FAULTS, pool.map(lambda fault: judged(room, fault, FAULTS[fault][1]), FAULTS)))
    for fault, (rule, _) in FAULTS.items():
        named = [it for it in found[fault] if it["rule"] == rule]
        expect(len(named) == 1 and named[0]["section"] and named[0]["stretch"] == 2, f"{fault}: {rule} is not named, but {found[fault]}")
        expect(fault not in COUNTED_ONCE or named[0]["times"] == 1, f"{fault}: it is counted {named[0]['times']} times")
        expect(fault not in ALONE or len(found[fault]) == 1, f"{fault}: other rules are named too: {found[fault]}")
    return f"{len(FAULTS)} faults named"


def right(room: str) -> str:
    """A driver that keeps the rules breaks none, whatever way it recovers, and with slow bits."""
    for fault, options in RIGHT.items():
        found = judged(room, fault, options)
        expect(not found, f"{fault}: a driver that keeps the rules is said to break {found}")
    return f"none of {len(RIGHT)} drivers without a fault breaks a rule"


def from_a_stretch(room: str) -> str:
    """What was broken before the stretch of --judge-from does not count, neither in the table nor for the status."""
    found = judged(room, "no_register", ["--judge-from", "3"])
    expect(not found, f"stretch 2 counts from stretch 3 on: {found}")
    expect(len(judged(room, "no_register", ["--judge-from", "2"])) == 1, "stretch 2 does not count from itself on")
    return "earlier stretches don't count"


CHECKS = [Check(planted, title="The judge, faults of a driver"), Check(right, title="The judge, drivers without a fault"), Check(from_a_stretch, title="The judge, from a stretch on")]
