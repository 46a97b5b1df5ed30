"""Checks of the reports of recovery: a small driver takes the steps of AHCI 1.3.1 after an event, leaves each of them out, changes their order, and loses requests. What
the report has to say is written down here before, from the standard."""
from __future__ import annotations

import json
import os
import struct
import subprocess
from concurrent.futures import ThreadPoolExecutor
from typing import Any, Dict, List, NamedTuple, Sequence, Tuple

from harness import BROKE_A_RULE, HERE, SANITIZED, SECTOR
from images import VFIO_USER
import pace
from suite import Check, expect

RECOVERER = os.path.join(HERE, "checks", "recoverer")
SECONDS = 60
SECTORS = 2048
SEEN, LATE, MISSING, CUT = "seen", "out of order", "missing", "not before the next event"
# a step of the driver, and what the report calls it
NAMES = {"cause": "reads PxIS", "issued": "reads PxCI before ST is cleared", "active": "reads PxSACT before ST is cleared", "slot": "reads CCS before ST is cleared",
         "stop": "clears ST", "stopped": "reads CR as 0", "list": "writes PxCLB", "area": "writes PxFB", "receive": "sets FRE", "link": "reads PxSSTS.DET as 3",
         "errors": "clears PxSERR", "status": "clears PxIS", "comreset": "COMRESET or CLO, since BSY or DRQ is 1", "ready": "reads BSY and DRQ as 0", "start": "sets ST",
         "log": "READ LOG EXT of log 10h"}


class Flow(NamedTuple):
    """An event, and the steps that the standard asks for, in its order."""
    event: str
    section: str
    script: str
    before: str           # what the driver does up to the event
    steps: Sequence[str]


FAIL = Flow("fail", "6.2.2.2", "on first read do fail 40", "queued happened", "cause active stop stopped status start log".split())
# the interface fails when all four are in the queue, so that BSY is 0
FATAL = Flow("fatal_crc_error", "6.2.2.2", "on every read numbers 1-4 do slow 10s\non first read do wait 50ms then fatal_crc_error", "queued happened",
             "cause active stop stopped errors status start log".split())
SINGLE = Flow("fail", "6.2.2.1", "on first READ DMA do fail 40", "singles happened", "cause issued slot stop stopped status start".split())
BUSY = Flow("stall", "6.2.2.1", "on first READ DMA do stall", "singles nap", "issued slot stop stopped comreset link ready errors start".split())  # BSY stays 1
STALL = Flow("stall", "6.2.2.2", "on 3rd read do stall", "queued nap", "active stop stopped status start log".split())
# no command is outstanding: the port is started by the third write of PxCMD
IDLE = Flow("fatal_crc_error", "6.2.2.1", "on 3rd write PxCMD do fatal_crc_error", "happened", "cause stop stopped errors status start".split())
LINK = Flow("lose_link", "6.2.2.3", "on first read do lose_link", "queued happened", "cause stop stopped comreset link errors ready start".split())
GONE = Flow("unplug", "7.3", "on first read do unplug", "queued happened", "cause stop stopped errors".split())
POWER = Flow("power_on", "10.1.2", "on first read do power_on", "queued happened", "list area receive link errors ready start".split())
BESIDE = ("link", "ready")  # steps of this driver that the flow doesn't ask for

# what else is missing if a step is left out: a port that is not stopped can't be started, and one that isn't started takes no command
ALSO_MISSING = {"stop": ["stopped", "start", "log", "ready"], "start": ["log"]}


class Case(NamedTuple):
    flow: Flow
    words: str                     # the driver's steps after the event
    states: Dict[str, str]         # of steps that aren't seen, or aren't asked for ("")
    requests: Dict[str, int]
    received: str                  # what the memory of each request has
    also: Sequence[str] = ()


RIGHT4 = "right right right right"
NONE4 = "none none none none"


def whole(flow: Flow, without: str = "") -> str:
    return " ".join(it for it in flow.steps if it != without)


def left_out() -> List[Case]:
    """Each step of each flow, left out by a driver that does all others; the port works all the same, or takes no command."""
    cases = []
    for flow in (FAIL, FATAL, SINGLE, LINK):
        for step in flow.steps:
            states = {it: MISSING for it in [step, *ALSO_MISSING.get(step, [])] if it in flow.steps}
            requests = {"again": 4}
            if step in ("stop", "start"):
                requests = {"failed": 1, "lost": 3} if flow.event == "fail" else {"lost": 4}  # none is issued again
            if (flow, step) == (LINK, "stop"):
                states["comreset"], requests = LATE, {"again": 4}  # ST is 1, and COMRESET starts the port anew (section 5.3, P:StartComm)
            if (flow, step) == (LINK, "comreset"):
                states, requests = {it: MISSING for it in ("comreset", "link", "ready")}, {"lost": 4}  # nothing brings the link up
            if (flow, step) == (FAIL, "log"):
                requests = {"lost": 4}  # the disk aborts queued commands until its log is read (ACS-3, "NCQ error handling")
            cases.append(Case(flow, whole(flow, step) + " again answers", states, requests, RIGHT4 if "again" in requests else NONE4))
    return cases


CASES: Sequence[Case] = (
    # drivers that do all
    *(Case(flow, whole(flow) + " again answers", {}, {"again": 4}, RIGHT4) for flow in (FAIL, FATAL, SINGLE, BUSY, LINK, POWER)),
    Case(GONE, whole(GONE), {}, {"lost": 4}, NONE4),
    # a driver that finds out late: others go on meanwhile
    Case(STALL, "others active stop stopped start log again answers", {"status": ""}, {"answered": 3, "again": 1}, RIGHT4),
    Case(IDLE, whole(IDLE) + " again answers", {}, {}, RIGHT4),
    # a reset instead of the log
    Case(FAIL, "cause active stop stopped comreset link ready errors status start again answers", {"errors": SEEN, "log": ""}, {"again": 4}, RIGHT4, ["COMRESET"]),
    Case(FAIL, "cause active hba_reset list area receive ready errors status start again answers", {"errors": SEEN, "log": ""}, {"again": 4}, RIGHT4, ["reset of the HBA"]),
    # two in the wrong order: the one that came late is out of order
    Case(FATAL, "cause active stop stopped status errors start log again answers", {"errors": LATE}, {"again": 4}, RIGHT4),
    Case(FATAL, "cause active stop stopped status start errors log again answers", {"errors": LATE}, {"again": 4}, RIGHT4),
    Case(SINGLE, "issued slot stop stopped status start cause again answers", {"cause": MISSING}, {"again": 4}, RIGHT4),
    Case(SINGLE, "cause slot issued stop stopped status start again answers", {"issued": LATE}, {"again": 4}, RIGHT4),
    Case(FAIL, "cause active stop status stopped start log again answers", {"stopped": LATE}, {"again": 4}, RIGHT4),
    Case(FAIL, "active stop cause stopped status start log again answers", {"cause": LATE}, {"again": 4}, RIGHT4),
    Case(FAIL, "active cause stop stopped status start log again answers", {}, {"again": 4}, RIGHT4),  # any order before ST is cleared
    # requests
    Case(FAIL, whole(FAIL) + " again_but_2 answers", {}, {"again": 3, "lost": 1}, "right right none right"),
    Case(FAIL, whole(FAIL), {}, {"failed": 1, "lost": 3}, NONE4),
    Case(FAIL, whole(FAIL) + " again_but_2 answers other_2 answers", {}, {"again": 3, "other": 1}, "right right wrong right"),
    Case(FAIL, whole(FAIL) + " elsewhere answers", {}, {"failed": 1, "other": 3}, "wrong wrong wrong wrong"),
)


def image(room: str, name: str) -> str:
    path = os.path.join(room, f"{name}.img")
    with open(path, "wb") as file:
        for number in range(SECTORS):
            file.write(struct.pack("<I", number) * (SECTOR // 4))
    return path


def reports(room: str, name: str, script: str, words: Sequence[str]) -> Tuple[List[Dict[str, Any]], str, str]:
    """The reports of a run, what the driver printed, and what the program said."""
    path, found = os.path.join(room, f"{name}.events"), os.path.join(room, f"{name}.json")
    with open(path, "w", encoding="utf-8") as file:
        file.write(f"{script}\n")
    command = [SANITIZED, "run", "--transport", VFIO_USER, "--image", image(room, name), "--script", path, "--json", found, "--", RECOVERER, *words]
    ran = pace.ran(command, SECONDS, stdout=subprocess.PIPE, stderr=subprocess.PIPE, text=True)
    expect(ran.returncode in (0, BROKE_A_RULE), f"{script}: {' '.join(words)}: status {ran.returncode}: {ran.stderr[-1000:]}")
    with open(found, encoding="utf-8") as file:
        recoveries: List[Dict[str, Any]] = json.load(file)["recoveries"]
    return recoveries, ran.stdout.strip(), ran.stderr


def wanted_of(case: Case) -> Dict[str, str]:
    states = {it: SEEN for it in case.flow.steps if it not in (BESIDE if case.flow is BUSY else ())}
    return {NAMES[it]: state for it, state in {**states, **case.states}.items() if state}


def judged(room: str, number: int, case: Case) -> None:
    """One run: its report is the one that was written down."""
    words = [*case.flow.before.split(), *case.words.split()]
    where = f"{case.flow.script}: {' '.join(words)}"
    found, printed, said = reports(room, str(number), case.flow.script, words)
    expect(len(found) == 1 and found[0]["event"] == case.flow.event and found[0]["section"] == case.flow.section, f"{where}: {found}")
    expect(found[0]["steps"] == wanted_of(case), f"{where}: the steps are {found[0]['steps']}, and {wanted_of(case)} is right")
    requests = {name: times for name, times in found[0]["requests"].items() if times}
    expect(requests == case.requests, f"{where}: the requests are {requests}, and {case.requests} is right")
    expect(found[0]["also"] == list(case.also), f"{where}: also {found[0]['also']}, and {list(case.also)} is right")
    expect(printed == case.received, f"{where}: the memory has {printed}, and {case.received} is right")
    expect(f"\n{case.flow.event} " in said and "recovery from" in said, f"{where}: the table is {said}")


def ran_all(room: str, cases: Sequence[Case]) -> None:
    with ThreadPoolExecutor(3) as pool:
        for _ in pool.map(lambda it: judged(room, *it), enumerate(cases)):
            pass


def steps(room: str) -> str:
    """Drivers that do all, in another order, or lose a request: the report says so."""
    ran_all(room, CASES)
    return f"{len(CASES)} drivers"


def forgotten(room: str) -> str:
    """Each step of each recovery is left out: it is named as missing, and no other one is but those that can't be taken without it."""
    cases = left_out()
    ran_all(room, cases)
    return f"{len(cases)} drivers"


def answers(room: str) -> str:
    """What is answered before the driver stops the port: read by it, or not and then issued again, which is twice."""
    cases: Sequence[Tuple[str, str, Dict[str, int]]] = (
        # the error comes after two answers, which the driver reads in PxSACT
        ("on 3rd read do fail 40", "queued happened cause active stop stopped status start log again answers", {"again": 2}),
        # nothing halts: all are answered, without another step
        ("on 3rd read do crc_error", "queued answers", {"answered": 4}),
        # three of four are answered before the interface fails, in a while in which the driver reads nothing; it issues all again
        ("on first read do wait 100ms then fatal_crc_error\non 3rd read do stall", "queued nap cause stop stopped errors status comreset link ready errors start again answers",
         {"twice": 3, "again": 1}),
    )
    for number, (script, words, wanted) in enumerate(cases):
        found, _, _ = reports(room, f"answers{number}", script, words.split())
        requests: Dict[str, int] = {}
        for it in found:
            for name, times in it["requests"].items():
                if times and name != "carried":
                    requests[name] = requests.get(name, 0) + times
        expect(requests == wanted, f"{script}: {words}: the requests are {requests} in {found}, and {wanted} is right")
    return f"{len(cases)} drivers"


def one_after_another(room: str) -> str:
    """An event that comes before the last one is done with ends its report; what is not settled goes on in the next one."""
    script = "on first read do lose_link then wait 50ms then find_link"
    words = "queued happened cause nap stop stopped link errors ready start again answers"
    found, printed, _ = reports(room, "two", script, words.split())
    expect([it["event"] for it in found] == ["lose_link", "find_link"], f"{found}")
    first, second = found
    expect(first["ended"] == "next event" and first["requests"]["carried"] == 4 and first["steps"][NAMES["cause"]] == SEEN and first["steps"][NAMES["stop"]] == CUT, f"{first}")
    expect(second["requests"]["again"] == 4 and second["steps"][NAMES["cause"]] == MISSING and second["steps"][NAMES["start"]] == SEEN, f"{second}")
    expect(printed == RIGHT4, printed)
    # the port is stopped when the disk comes back, so that it need not be stopped again
    script = "on first read do unplug\non 5th write PxCMD do plug"
    found, printed, _ = reports(room, "plug", script, "queued happened cause stop stopped errors receive happened cause link errors ready start again answers".split())
    expect([it["event"] for it in found] == ["unplug", "plug"], f"{found}")
    expect(found[0]["steps"] == {NAMES[it]: SEEN for it in GONE.steps}, f"{found[0]}")
    expect(found[1]["steps"] == {NAMES[it]: SEEN for it in "cause link errors ready start".split()} and found[1]["requests"]["again"] == 4, f"{found[1]}")
    # what is sent to another disk is no command of the first one again
    found, _, _ = reports(room, "other", f"{script} another", "queued happened cause stop stopped errors receive happened cause link errors ready start again answers".split())
    expect([it["event"] for it in found] == ["unplug", "plug"] and (found[1]["requests"]["lost"], found[1]["requests"]["again"]) == (4, 0), f"{found}")
    # an event that asks for nothing ends no report
    found, _, _ = reports(room, "beside", f"{FAIL.script} then wait 1ms then send_interrupt", [*FAIL.before.split(), "nap", *whole(FAIL).split(), "again", "answers"])
    expect(len(found) == 1 and found[0]["beside"] == 1 and found[0]["requests"]["again"] == 4, f"{found}")
    return "two reports, twice"


CHECKS = [Check(steps, title="Recoveries, step by step"), Check(forgotten, title="Recoveries, steps that are left out"), Check(answers, title="Recoveries, answers"),
          Check(one_after_another, title="Recoveries, two events")]
