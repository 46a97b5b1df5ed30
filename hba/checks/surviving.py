"""Checks of Linux under each event of a script: it reads and writes in a full queue, each read compared, while the event happens. Whatever comes, no data may be wrong but
where it is known that Linux takes as done what isn't, no write that was answered may be lost, and the guest has to come to its end; and what becomes of the requests is what is
written down here for each event."""
from __future__ import annotations

import functools
import json
import math
import os
import re
from typing import Any, Dict, List, NamedTuple, Sequence, Tuple

import errors
import images
from harness import BROKE_A_RULE, USUAL_OF_LINUX, Guest, contents, digest, linux
from images import HERE
import pace
import served
from suite import Check, Failed, expect

SHIPPED = os.path.join(os.path.dirname(HERE), "host", "events")
SECONDS = 400  # of an idle machine
KERNELS = {"kernel": "Linux", "current": "The current Linux"}  # by the folder of out/
REQUESTS = r"requests (\d+) compared (\d+) errors (\d+) wrong (\d+)(?: kept (\d+) lost (\d+))?"
NONE, ONE, SOME, MANY = "none", "one", "some", "many"  # how many requests fail: MANY is at least a tenth of them
UNFOUND = "there is no disk"  # Linux finds none, so no request is made
BAD = r"(?:WARNING|BUG): |Call Trace|blocked for more than|Oops|general protection|Kernel panic"
# Linux's lines about the disk; numbers that differ from run to run are left out
ABOUT = r"^(?:\[ *[\d.]+\] )?((?:ata1(?:\.00)?|ahci 0000:00:..\.0|sd \d:0:0:0|scsi \d:0:0:0|I/O error|critical \w+ error|blk_update_request|Buffer I/O error).*)$"
RESET = r"ata1: hard resetting link"
FAILED = r"ata1: COMRESET failed \(errno=-16\)"  # which the current Linux doesn't say
SLOW = r"ata1: link is slow to respond"

BUSY_MACHINE = "patience=60"  # seconds of a command: no time-out comes by a machine that is slow
BOTH = ("kernel", "current")


class Event(NamedTuple):
    """An event, as a script; how many requests fail by it; and lines of Linux that have to come."""
    name: str
    script: str
    errors: str
    says: Sequence[str] = ()
    again: str = NONE      # of the requests that are made afterwards; "no disk": there is none any more
    is_quiet: bool = False  # Linux says nothing of it
    wrong: int = 0          # so many reads give the user other data than the disk's: Linux takes as done what isn't
    is_alone: bool = False  # without a queue: `end` is about commands that aren't queued
    kernels: Sequence[str] = BOTH  # those that are tried
    options: Sequence[str] = ()  # of the program
    pick: str = "random"         # its option
    words: str = ""              # of the kernel's command line
    results: Sequence[Tuple[str, str]] = ()  # what else the guest has to print
    is_exchanged: bool = False  # the disk that is there at the end is another one, which has an image of its own here
    instead: Sequence[Tuple[str, str]] = ()  # parts of a shipped script, and what stands in their place here; "" is its end, `5*s` five seconds of an idle machine


def at(event: str, place: str = "on 1000th any") -> str:
    return f"{place} do {event}"


def each(events: Sequence[str]) -> str:
    """Events one after the other."""
    return "\n".join(at(event, f"on {400 * (place + 1)}th any") for place, event in enumerate(events))


ALONE = ["--cap", "sncq=0"]
USUAL_ALONE = (r"ahci 0000:00:..\.0: flags: .*", r"ata1\.00: \d+ sectors, multi 0: LBA48 NCQ \(depth 0/32\)")
ERRORS = ("decode", "crc", "handshake", "sequence", "transport")
ROW = ("fail 40", "no_memory", "fatal_crc_error", "lose_link then wait 100ms then find_link", "unplug then wait 2s then plug", "slow_cr 300ms then fatal_handshake_error")
EVENTS: Sequence[Event] = (
    Event("one after the other", each(ROW).replace("any do fail", "read do fail"), ONE, [RESET, r"host bus error", r"interface fatal error"]),
    Event("stall", at("stall"), NONE, [RESET]),
    Event("slow, late_interrupt, send_interrupt, find_link", each(("slow 300ms", "late_interrupt 100ms", "send_interrupt", "find_link")), NONE, is_quiet=True),
    Event("fail 40, a read", at("fail 40", "on 700th read"), ONE, [r"error: \{ UNC \}"], words=BUSY_MACHINE),
    Event("fail 40, a write", at("fail 40", "on 200th write"), ONE, [r"error: \{ UNC \}"]),
    Event("fail 10", at("fail 10"), NONE, [r"error: \{ IDNF \}"]),
    Event("fail 04", at("fail 04"), NONE, [r"error: \{ ABRT \}"]),
    Event("fail 84", at("fail 84"), NONE, [r"error: \{ ICRC ABRT \}"]),
    Event("no_memory", at("no_memory"), NONE, [RESET, r"host bus error"]),
    Event("lose_interrupt", at("lose_interrupt"), NONE),
    Event("power_on", at("power_on"), MANY, [RESET], "no disk"),
    Event("lose_link", at("lose_link"), NONE, [RESET]),
    Event("lose_link, find_link", at("lose_link then wait 100ms then find_link"), NONE, [RESET]),
    Event("unplug", at("unplug"), MANY, [r"ata1\.00: disable"], "no disk"),
    Event("unplug, plug", at("unplug then wait 2s then plug"), NONE, [RESET], words=BUSY_MACHINE),
    Event("crc_error and the four like it", each([f"{it}_error" for it in ERRORS]), NONE, is_quiet=True),
    Event("fatal_crc_error and the four like it", each([f"fatal_{it}_error" for it in ERRORS]), NONE, [RESET, r"interface fatal error"], words=BUSY_MACHINE),
    Event("hold_signature", at("hold_signature 3s then fatal_crc_error"), NONE, [RESET]),
    Event("lose_signature", at("lose_signature then fatal_crc_error"), NONE, [RESET, FAILED], kernels=("kernel",)),
    Event("lose_signature", at("lose_signature then fatal_crc_error"), NONE, [RESET, SLOW], kernels=("current",)),
    Event("wrong_log_tag", at("fail 40 then wrong_log_tag", "on 700th read"), ONE),
    Event("wrong_log_nq", at("fail 40 then wrong_log_nq", "on 700th read"), NONE, [r"failed to read log page 10h"], kernels=("kernel",)),
    # it takes the error as that of each command that is outstanding
    Event("wrong_log_nq", at("fail 40 then wrong_log_nq", "on 700th read"), SOME, [r"failed to read log page 10h"], kernels=("current",)),
    Event("wrong_log_sum", at("fail 40 then wrong_log_sum", "on 700th read"), ONE),
    Event("slow_cr", at("slow_cr 300ms then fatal_crc_error"), NONE, [RESET]),
    Event("slow_cr, a second", at("slow_cr 1s then fatal_crc_error"), NONE, [RESET]),
    Event("slow_hr, slow_fr, slow_clo", "a_slow_start.events", NONE, is_quiet=True),
    Event("memory_error", at("memory_error"), NONE, [RESET, r"host bus error"]),
    Event("unknown_fis", at("unknown_fis"), NONE, [RESET, r"unknown FIS 00000055"]),
    Event("notification, spurious_bits, spurious_register", each(("notification", "spurious_bits", "spurious_register")), NONE, is_quiet=True),
    Event("packet_signature", at("packet_signature then fatal_crc_error"), NONE, [RESET]),
    Event("bridge_signature", at("bridge_signature then fatal_crc_error"), NONE, [RESET]),
    Event("multiplier_signature", at("multiplier_signature then fatal_crc_error"), NONE, [RESET, r"class mismatch 1 != 5"]),
    Event("end 61, a read", at("end 61", "on 700th read"), NONE, [r"status: \{ DRDY DF ERR \}"], is_alone=True),
    # it looks at ERR alone, and not at PRDBC
    Event("end 60, a read", at("end 60", "on 700th read"), NONE, is_quiet=True, wrong=1, is_alone=True),
    Event("end 50, a read", at("end 50", "on 700th read"), NONE, is_quiet=True, wrong=1, is_alone=True),
    Event("end D0, a read", at("end D0", "on 700th read"), NONE, [RESET], is_alone=True),
)
QUICK = ("fail 40, a read", "unplug, plug", "fatal_crc_error and the four like it")  # those of `make check`


def text_of(event: Event) -> str:
    """An event's script, or one that is shipped."""
    if not event.script.endswith(".events"):
        return f"{event.script}\n"
    with open(os.path.join(SHIPPED, event.script), encoding="utf-8") as file:
        text = file.read()
    for part, other in event.instead:
        expect(part in text, f"{event.script} has no {part}")
        other = re.sub(r"(\d+)\*s", lambda it: f"{math.ceil(int(it[1]) * pace.times(True))}s", other)
        text = text.replace(part, other) if part else text + other + "\n"
    return text


# what differs from run to run in Linux's lines
VARIES = ((r"SAct 0x[0-9a-f]+", "SAct .."), (r"(cmd|res) [0-9a-f/:]+", r"\1 .."), (r"tag#?\s?\d+", "tag .."), (r"sector \d+", "sector .."), (r"logical block \d+", "logical block .."),
          (r"(phys_seg|prio class) \d+", r"\1 .."), (r"0x[0-9a-f]{6,}", "0x.."), (r"CDB: .*", "CDB: .."), (r"dma \d+ (in|out)", r"dma .. \1"))


def lines_of(guest: Guest) -> List[str]:
    """Linux's lines about the disk that a run without an event has not, each once."""
    usual = re.compile("|".join([*USUAL_OF_LINUX, *USUAL_ALONE, *served.CURRENT]))
    found: Dict[str, None] = {}
    for line in re.findall(ABOUT, guest.serial(), re.MULTILINE):
        if usual.fullmatch(line.strip()):
            continue
        for form, short in VARIES:
            line = re.sub(form, short, line)
        found[line.strip()] = None
    return list(found)


def outcome(room: str, folder: str, event: Event) -> Dict[str, Any]:
    """A run of guests/survive.sh while an event's script goes on: what came of the requests, what Linux wrote, and what the judge reports."""
    path, found = os.path.join(room, "it.events"), os.path.join(room, "judged.json")
    image = last = errors.numbered(room)
    text = text_of(event)
    if event.is_exchanged:
        last = f"{image}.other"
        with open(last, "wb") as blank:
            blank.truncate(os.path.getsize(image))
        text = text.replace("plug another", f"plug another {last}")
    with open(path, "w", encoding="utf-8") as file:
        file.write(text)
    options = ["--image", image, "--script", path, "--json", found, "--delay", "2000", "--pick", event.pick, *(ALONE if event.is_alone else []), *event.options]
    qboot = images.file_of("/usr/share/qemu/qboot.rom", "qemu-system-data")  # no driver for disks: Linux has the controller for itself
    guest = Guest(room, options, [*linux(room, "survive", folder=folder, more=event.words), "-bios", qboot], log=False)
    hangs = not pace.ended(guest.process, SECONDS)
    if hangs:
        guest.kill()
    judged: Dict[str, Any] = {"rules": [], "recoveries": []}
    if os.path.exists(found):
        with open(found, encoding="utf-8") as file:
            judged = json.load(file)
    serial = guest.serial()
    results = dict(re.findall(r"CHECK (\S+) ?(.*)$", serial, re.MULTILINE))
    summed = results.get("disk", "").split()
    return {"hangs": hangs, "status": guest.process.returncode, "results": results, "same": not summed or summed[0] == digest(contents(last)),
            "bad": re.findall(f"^.*(?:{BAD}).*$", serial, re.MULTILINE)[:3],
            "says": lines_of(guest), "rules": judged["rules"], "recoveries": judged["recoveries"], "happened": "it never happened" not in guest.said(), "end": serial[-1500:]}


def class_of(text: str, known: int = 0) -> str:
    """How many of some requests failed; data that are wrong, beside those that are known to be, or lost fail the check."""
    if text == "no disk":
        return text
    found = re.fullmatch(REQUESTS, text)
    if not found:
        raise Failed(f"the requests came to no end: {text}")
    done, _, errors, wrong, _, gone = (int(it or 0) for it in found.groups())
    expect(wrong == known and gone == 0, f"data are wrong, or a write that was answered is lost: {text}")
    return NONE if errors == 0 else ONE if errors == 1 else SOME if errors < done // 10 else MANY


def look(event: Event, folder: str, came: Dict[str, Any]) -> str:
    """Compares what came with what is written down."""
    results = came["results"]
    where = f"{event.name} on {KERNELS[folder]}"
    if event.errors == UNFOUND:
        is_right = results.get("failed:") == UNFOUND and "end" in results and came["happened"] and not came["bad"] and came["status"] == 0
        expect(is_right, f"{where}: {results}, {came['bad']}, status {came['status']}")
        expect(not event.is_quiet or not came["says"], f"{where}: Linux writes {came['says'][:6]}")
        return UNFOUND
    expect(not came["hangs"] and "mixed" in results and "end" in results, f"{where}: it hangs; the last lines:\n{came['end']}")
    expect(came["happened"], f"{where}: the event never happened")
    expect(came["status"] in (0, BROKE_A_RULE), f"{where}: status {came['status']}")
    expect("failed:" not in results and not came["bad"] and results.get("depth") == ("1" if event.is_alone else "32"),
           f"{where}: {results.get('failed:')}, {came['bad']}, depth {results.get('depth')}")
    expect(came["same"], f"{where}: the image is not the disk that Linux read last")
    errors, again = class_of(results["mixed"], event.wrong), class_of(results["again"])
    expect((errors, again) == (event.errors, event.again),
           f"{where}: {errors} of the requests fail, and {again} later, not {event.errors} and {event.again}: {results['mixed']}; {results['again']}; {came['says'][:12]}")
    expect(all(results.get(name) == text for name, text in event.results), f"{where}: the guest printed {results}, and not {event.results}")
    missing = [it for it in event.says if not any(re.search(it, line) for line in came["says"])]
    expect(not missing, f"{where}: Linux does not write {missing}, but {came['says'][:12]}")
    expect(not event.is_quiet or not came["says"], f"{where}: Linux writes {came['says'][:6]}")
    lost = sum(it["requests"]["twice"] for it in came["recoveries"])
    return f"{errors} failed" + (f", {lost} answered twice" if lost else "")


def survives(room: str, folder: str, event: Event) -> str:
    """Linux reads and writes while an event happens: no data are wrong, it comes to its end, and as many requests fail as is written down."""
    return look(event, folder, outcome(room, folder, event))


def version_of(folder: str) -> str:
    """Which Linux is in a folder, such as Linux 6.1."""
    found = re.search(r"vmlinuz-(\d+\.\d+)|modules/(\d+\.\d+)", images.kernel(folder)[0])
    return f"Linux {found[1] or found[2]}" if found else "Linux"


def events_of(folder: str) -> List[Event]:
    """The events that are tried on a kernel."""
    return [it for it in EVENTS if folder in it.kernels]


def outcomes(_: str) -> str:
    """What a run must not come to is refused: wrong data, a write that is gone, a hang, an end that doesn't come, a warning, more errors than are written down, and lines of Linux
    that don't come, or come where it has nothing to say."""
    event, quiet = Event("an event", "", ONE, ["reset"]), Event("a quiet one", "", NONE, is_quiet=True)
    results = {"depth": "32", "mixed": "requests 2500 compared 1700 errors 1 wrong 0 kept 512 lost 0", "again": "requests 800 compared 300 errors 0 wrong 0", "end": ""}
    right: Dict[str, Any] = {"hangs": False, "status": 0, "results": results, "same": True, "bad": [], "says": ["ata1: hard resetting link"], "recoveries": [], "happened": True, "end": ""}
    none = {**results, "mixed": "requests 2500 compared 1700 errors 0 wrong 0 kept 512 lost 0"}
    look(event, "kernel", right)
    look(quiet, "kernel", {**right, "results": none, "says": []})
    wrong: List[Tuple[Event, Dict[str, Any]]] = [
        (event, {"results": {**results, "mixed": results["mixed"].replace("wrong 0", "wrong 1")}}), (event, {"results": {**results, "mixed": results["mixed"].replace("lost 0", "lost 1")}}),
        (event, {"results": {**results, "again": results["again"].replace("wrong 0", "wrong 1")}}), (event, {"hangs": True}), (event, {"results": {"depth": "32", "end": ""}}),
        (event, {"results": {**results, "mixed": ""}}), (event, {"results": {it: text for it, text in results.items() if it != "end"}}),
        (event, {"bad": ["WARNING: CPU: 0"]}), (event, {"same": False}),
        (event, {"results": none}), (event, {"results": {**results, "again": "no disk"}}), (event, {"says": []}), (event, {"happened": False}), (event, {"status": 1}), (quiet, {"results": none})]
    for case, change in wrong:
        try:
            look(case, "kernel", {**right, **change})
        except Failed:
            continue
        raise Failed(f"{case.name} with {change} is taken as right")
    return f"{len(wrong)} are refused"


def check_of(folder: str, event: Event) -> Check:
    run = functools.partial(survives, folder=folder, event=event)
    functools.update_wrapper(run, survives)
    return Check(run, title=f"{KERNELS[folder]} survives {event.name}", is_long=folder != "kernel" or event.name not in QUICK)


def cases() -> List[Tuple[str, Event]]:
    return [(folder, event) for folder in KERNELS for event in events_of(folder)]


CHECKS = [Check(outcomes, title="Outcomes that are refused"), *(check_of(folder, event) for folder, event in cases())]
