"""The section "Firmware under events" of docs/DRIVERS.md, from the stored runs of firmware.py."""
from __future__ import annotations

from typing import Any, Dict, List

import firmware
from recovery_page import reports_table, wrapped

MOST_LINES = 2  # of what a firmware says
MOST_EVENTS = 3  # that are named beside a rule


def cell_of(came: Dict[str, Any]) -> str:
    """What a firmware did, and what it said."""
    said = "; ".join("`" + it.replace("`", "'") + "`" for it in came["says"][:MOST_LINES]) + ("; .." if len(came["says"]) > MOST_LINES else "")
    return f"{came['did']}: {said}" if said else str(came["did"])


def broken_of(runs: Dict[str, Any]) -> str:
    """The rules that a firmware breaks, with the events under which it does."""
    by_rule: Dict[str, List[str]] = {}
    for event, came in runs.items():
        for rule in came["broken"]:
            by_rule.setdefault(rule, []).append(event)
    return "; ".join(f"`{rule}` ({', '.join(events) if len(events) <= MOST_EVENTS else f'{len(events)} of {len(runs)} runs'})" for rule, events in by_rule.items()) or "none"


def names_of(found: Dict[str, Any]) -> List[str]:
    """The firmware of which something is stored."""
    return [it for it in firmware.MACHINES if any(it in came for came in found["events"].values())]


def events_table(found: Dict[str, Any]) -> List[str]:
    """What each firmware did about each event."""
    names = names_of(found)
    lines = ["| Event | Script | " + " | ".join(found["versions"].get(name, name) for name in names) + " |", "|---" * (2 + len(names)) + "|"]
    for row in firmware.ROWS:
        came = found["events"].get(row.event)
        if came:
            script = firmware.script_text(row, names[0])
            lines.append(f"| {row.event} | `{script}` | " + " | ".join(cell_of(came[name]) if name in came else "" for name in names) + " |")
    return lines


def section() -> List[str]:
    """The section of the page."""
    found = firmware.stored()
    if not found["events"]:
        return []
    about = (
        "SeaBIOS, GRUB's own driver and EDK2's use the disk while an event happens; `hba/drivers --firmware` makes the runs ([firmware.py](../hba/checks/firmware.py)). "
        f"On SeaBIOS {firmware.MACHINES['SeaBIOS'].title}. On GRUB {firmware.MACHINES['GRUB'].title}. On EDK2 {firmware.MACHINES['EDK2'].title}. "
        "The scripts are those for SeaBIOS, whose third READ DMA is the one of 64 sectors; for GRUB and EDK2 it is the 120th, in the midst of the first sum, and GRUB's own "
        "IDENTIFY DEVICE is the second one. Events of the first microsecond come before the reset of the HBA by which SeaBIOS and EDK2 begin; what is done every millisecond is "
        "counted each time. Of a read that comes right on EDK2 it isn't told whether EDK2 made it once more, or GRUB did.",
        f"\"{firmware.RIGHT}\": all is read and written, and no error is said. \"{firmware.AGAIN}\": an error is said, and the same request comes right when it is made once more. "
        f"\"{firmware.SAID}\": an error is said, and the request is not made again. \"{firmware.GIVEN_UP}\": the same request fails again, or has no end. "
        f"\"{firmware.WRONG}\": no error is said, and the data are not the disk's.")
    lines = ["", "## Firmware under events"]
    for text in about:
        lines += ["", *wrapped(text)]
    lines += ["", *events_table(found)]
    for name in names_of(found):
        runs = {event: came[name] for event, came in found["events"].items() if name in came}
        lines += ["", f"### What {found['versions'].get(name, name)} does about each event", "",
                  f"[Rules](#rules-that-are-broken) that are broken meanwhile: {broken_of(runs)}.", "", *reports_table({"events": runs})]
    return lines
