"""The section "Steps that are left out, and what comes of it" of docs/DRIVERS.md: sentences that are counted in the stored runs, and findings, each of which has to be what the stored runs show."""
from __future__ import annotations

from typing import Any, Callable, Dict, List, NamedTuple, Sequence

import firmware
import recoveries
from recovery_page import CUT, LATE, MISSING, wrapped
from suite import expect
import surviving

Came = Dict[str, Any]


def runs_of(name: str) -> Dict[str, Came]:
    """What is stored of a driver, by script: of a kernel by its folder, of a firmware by its name."""
    if name in surviving.KERNELS:
        return dict(recoveries.stored(name)["events"])
    return {event: came[name] for event, came in firmware.stored()["events"].items() if name in came}


def drivers() -> Dict[str, str]:
    """The drivers of which something is stored, with their versions."""
    versions = firmware.stored()["versions"]
    found = {**{it: recoveries.stored(it)["version"] for it in surviving.KERNELS}, **{it: versions.get(it, it) for it in firmware.MACHINES}}
    return {name: version for name, version in found.items() if runs_of(name)}


def counted(names: Dict[str, int]) -> str:
    return ", ".join(f"{name} ({times})" for name, times in sorted(names.items(), key=lambda it: -it[1]))


def sentence(section: str, reports: List[Dict[str, Any]]) -> str:
    """What a driver did otherwise than a section has it, in all of its reports."""
    left: Dict[str, int] = {}
    late: Dict[str, int] = {}
    also: Dict[str, List[str]] = {}
    for it in reports:
        for step, states in it["steps"].items():
            if states.get(MISSING, 0) + states.get(CUT, 0):
                left[step] = left.get(step, 0) + states.get(MISSING, 0) + states.get(CUT, 0)
            if states.get(LATE, 0):
                late[step] = late.get(step, 0) + states[LATE]
        for step in it["also"]:
            also.setdefault(step, []).append(it["event"])
    besides = {step: ", ".join(dict.fromkeys(events)) for step, events in also.items()}
    parts = [f"it leaves out: {counted(left)}"] if left else []
    parts += [f"it does in another order: {counted(late)}"] if late else []
    parts += ["it does besides: " + "; ".join(f"{step} (after {events})" for step, events in besides.items())] if besides else []
    return f"Section {section}, {sum(it['times'] for it in reports)} times: {'; '.join(parts) or 'all in order'}."


def sentences(name: str, version: str) -> List[str]:
    """A sentence for each section whose steps were asked for."""
    by_section: Dict[str, List[Dict[str, Any]]] = {}
    for came in runs_of(name).values():
        for it in came["recoveries"]:
            if it["section"]:
                by_section.setdefault(it["section"], []).append(it)
    return [f"- {version}. " + " ".join(sentence(section, reports) for section, reports in sorted(by_section.items()))] if by_section else []


# ---- findings ----


class Finding(NamedTuple):
    """What an author of a driver would act on, the smallest script that shows it, and how it is seen in the stored runs."""
    title: str
    text: str
    script: str
    holds: Callable[[], bool]


def did(name: str, event: str) -> str:
    """What came of a firmware under an event; nothing if it was not run."""
    came = runs_of(name).get(event)
    return str(came["did"]) if came else ""


def result_of(name: str, script: str, what: str) -> str:
    """What a kernel's guest has printed of a check under a script; nothing if it has not."""
    return str(runs_of(name)[script].get(what, ""))


def wrong(name: str, script: str) -> int:
    """How many reads were taken as right and were not, by a kernel under a script."""
    words = runs_of(name).get(script, {}).get("mixed", "").split()
    return int(words[words.index("wrong") + 1]) if "wrong" in words else 0


def both(holds: Callable[[str], bool]) -> bool:
    """Whether something is so on each kernel that was run under all scripts, up to the last one."""
    return all(holds(it) for it in surviving.KERNELS if "power_is_lost.events" in runs_of(it))


HALTING = ("a CRC error that stops the port", "no memory, HBFS", "a read is never answered", "the disk is pulled out, and is back a second later")
FINDINGS: Sequence[Finding] = (
    Finding("Linux finds no disk that aborts one IDENTIFY DEVICE",
            "The first IDENTIFY DEVICE is aborted. Linux takes the port for one without a device: it makes no other try, and writes no line about it, so that a "
            "disk that is not ready for a moment is gone until somebody has the port looked at again. One that stays busy instead is found after the time-out of "
            "five seconds (`identify_stays_busy.events`).",
            "on first IDENTIFY DEVICE do fail 04", lambda: both(lambda it: not result_of(it, "identify_fails.events", "mixed") and not runs_of(it)["identify_fails.events"]["says"])),
    Finding("Linux takes a read that was cut short, and one that ended with a device fault, for right",
            "Without a queue. In the first script the disk answers a read by DF without ERR and moves nothing; in the second one it answers without an error and "
            "moves only the sectors before 1000, as PRDBC says. The port does not halt, since ERR is 0 (section 5.3, RegFIS:Entry), and Linux looks neither at DF "
            "in the received FIS nor at PRDBC (section 4.2.2): the caller gets what was in its buffer before.",
            "on 20th read do end 60\non every read sector 1000 do end 50 repeat 3",
            lambda: both(lambda it: wrong(it, "a_fault_without_an_error.events") == 1 and wrong(it, "a_short_read.events") == 3)),
    Finding("Linux repeats a flush that failed, and reports the second one alone",
            "The first flush is aborted. Linux sends it again, which succeeds, and fsync() returns 0: nobody is told that what was written before the first one may "
            "not be on the medium (ACS-3, FLUSH CACHE).",
            "on first FLUSH CACHE do fail 04", lambda: both(lambda it: result_of(it, "an_aborted_flush.events", "flush") == "right" and bool(runs_of(it)["an_aborted_flush.events"]["recoveries"]))),
    Finding("Linux starts a port that has lost its registers with a command list at address 0",
            "The controller is as after power-on in the midst of requests, as after a reset that nobody told Linux of. After a COMRESET Linux sets ST, and neither "
            "FRE nor PxCLB and PxFB before it (section 10.1.2). The controller then takes headers of commands from address 0 of memory, as the rules "
            "`ReservedHeader` and `FisLength` show, and would write where such headers say. Linux gives the disk up in the end.",
            "on 1000th any do power_on", lambda: both(lambda it: result_of(it, "power_is_lost.events", "again") == "no disk" and "ListNotGiven" in runs_of(it)["power_is_lost.events"]["broken"])),
    Finding("SeaBIOS never starts a port again that was halted by something else than a failed command",
            "After a CRC error that stops the port (IFS), memory that is not there (HBFS), a read that is never answered, or a disk that was out for a moment, INT "
            "13h fails after 32 seconds. SeaBIOS clears ST in none of these cases (section 6.2.2.1), so each later request fails as well, 32 seconds later: one "
            "such error and the machine does not boot.",
            "on 3rd READ DMA do fatal_crc_error",
            lambda: all(did("SeaBIOS", it) == firmware.GIVEN_UP for it in HALTING)),
    Finding("SeaBIOS does not boot from a disk that fails once",
            "One error at the first sector, or one IDENTIFY DEVICE that is aborted: SeaBIOS tries neither again, and says `No bootable device.`",
            "on first read sector 0 do fail 40", lambda: did("SeaBIOS", "the first sector can't be read once") == did("SeaBIOS", "IDENTIFY DEVICE is aborted") == firmware.NO_BOOT),
    Finding("GRUB reads nothing any more after one read that failed",
            "GRUB's own driver (`nativedisk ahci`) stops the port after an error and starts it again, without clearing TFES in PxIS before (section 6.2.2.1, rule "
            "`StartWithErrors`). Then it sends the command DEVICE RESET, 08h, which is for packet devices and which a disk aborts (ACS-3), so that the port is "
            "halted again. It sends no other command after that: each later request waits for more than a minute and fails, or the disk is not found.",
            "on 120th READ DMA do fail 40", lambda: did("GRUB", "a read fails once") == firmware.GIVEN_UP and "StartWithErrors" in runs_of("GRUB")["a read fails once"]["broken"]),
    Finding("EDK2 and GRUB take a device fault for the end of a read, and EDK2 a disk that is still busy",
            "The FIS that answers a read has DF without ERR, and no data were moved: EDK2 and GRUB's own driver take the read as done, and SeaBIOS says an error. "
            "In the second script the status of the FIS has BSY, so that PxCI still has the command (section 5.3, RegFIS:Entry): EDK2 takes that read as done, too.",
            "on 120th READ DMA do end 60\non 120th READ DMA do end D0",
            lambda: {did(it, "device fault, DF alone") for it in ("EDK2", "GRUB")} == {did("EDK2", "the disk stays busy after a read")} == {firmware.WRONG}),
    Finding("No firmware looks at PRDBC",
            "A read ends without an error and has moved fewer bytes than it was to (section 4.2.2). SeaBIOS, GRUB and EDK2 take all of the buffer.",
            "on 3rd READ DMA do end 50", lambda: all(did(it, "a short read, as PRDBC says") == firmware.WRONG for it in firmware.MACHINES)),
)


def section() -> List[str]:
    """The section of the page. A finding that the stored runs don't show is refused."""
    found = drivers()
    if not found:
        return []
    lines = ["", "## Steps that are left out, and what comes of it", "",
             "Counted in the reports of all runs of this page. In brackets is how often; steps that had not come when the next event did count as left out.", ""]
    for name, version in found.items():
        lines += sentences(name, version)
    for it in FINDINGS:
        expect(it.holds(), f"{it.title}: the stored runs don't show it")
        lines += ["", f"### {it.title}", "", *wrapped(it.text), "", "```text", it.script, "```"]
    return lines
