"""Checks of firmware and a boot loader under the events of scripts: SeaBIOS with a boot sector, GRUB with its own driver, and EDK2 under GRUB. What each does about an event is
written down here, and docs/DRIVERS.md has it from the stored runs."""
from __future__ import annotations

import functools
import gzip
import json
import os
import re
import signal
import tempfile
import time
from concurrent.futures import ThreadPoolExecutor
from typing import Any, Callable, Dict, List, NamedTuple, Sequence, Tuple

import booting
import harness
from harness import BROKE_A_RULE, Guest, contents, digest, qemu, serial_of
import images
from images import HERE, file_in
import pace
from provoked import SHIPPED, script_of
import recoveries
from suite import Check, Failed, expect

TRIES = 2      # of each call of INT 13h
# what a firmware did about an event
RIGHT, AGAIN, SAID, GIVEN_UP, WRONG, NO_BOOT, HANGS = "right", "an error, then right", "an error", "no request comes right any more", "wrong data are taken for right", "it doesn't boot", "it hangs"


class Trial(NamedTuple):
    """A firmware under an event, and what it does about it."""
    firmware: str
    event: str
    script: str
    did: str


class Machine(NamedTuple):
    """A firmware and what runs on it: the image, the machine, and what its lines come to."""
    title: str
    image: Callable[[str], str]
    words: Callable[[str], List[str]]
    end: str
    seconds: int  # of an idle machine; without an end by then it hangs, or no request comes right
    looked: Callable[[str, str], Tuple[str, List[str]]]


def debugged(room: str) -> List[str]:
    """Where SeaBIOS writes what it does."""
    return ["-chardev", f"file,id=debug,path={room}/debug", "-device", "isa-debugcon,iobase=0x402,chardev=debug"]


def uefi(room: str) -> List[str]:
    """The arguments of a machine with the EDK2 that came with the newer QEMU, or with that of this machine."""
    folder = os.path.join(images.OUT, "qemu/usr/share/OVMF")
    return booting.uefi(room, folder if os.path.exists(folder) else "/usr/share/OVMF")


def seabios_looked(room: str, image: str) -> Tuple[str, List[str]]:
    """What the boot sector and SeaBIOS have printed, and what it comes to."""
    lines = [it for it in serial_of(os.path.join(room, "serial")).splitlines() if it]
    debug = serial_of(os.path.join(room, "debug"))
    said = [it for it in lines if it.startswith("INT 13h failed")] + re.findall(r"^(?:WARNING - .*|Boot failed.*|No bootable device.*|AHCI/\d: .*error.*)$", debug, re.MULTILINE)
    summed = sum(images.pattern(64 * 512, "sum")) & 0xFFFF
    if "sector 1" not in lines and not any(it.startswith("INT 13h") for it in lines):
        return NO_BOOT, said
    sums = [it for it in lines if it.startswith("sum ")]
    is_wrong = any(it != f"sum {summed:04X}" for it in sums) or "other" in lines
    has_all = "same" in lines and contents(image)[200 * 512:202 * 512] == b"\x5a" * 1024
    return WRONG if is_wrong else GIVEN_UP if "given up" in lines else (AGAIN if said else RIGHT) if has_all else HANGS, said


def grub_looked(room: str, image: str) -> Tuple[str, List[str]]:
    """What GRUB has printed."""
    serial = serial_of(os.path.join(room, "serial"))
    said = [it.strip() for it in re.findall(r"(?:error|failed|BdsDxe: (?!loading|starting|Press)).*$", serial, re.MULTILINE)]
    if "CHECK root" not in serial:
        return NO_BOOT, said
    sums = re.findall(r"^([0-9a-f]{64}) ", serial, re.MULTILINE)
    right = digest(file_in(image, "large.bin"))
    if any(it != right for it in sums):
        return WRONG, said
    if "CHECK end" not in serial:
        return GIVEN_UP if said else HANGS, said
    is_written = file_in(image, "env.bin").startswith(b"# GRUB Environment Block\nwritten=by_grub_on_") and "hello from the disk" in serial
    return (RIGHT if len(sums) == 2 and not said else AGAIN if sums and is_written else SAID if sums or is_written else GIVEN_UP), said


def grub_image(room: str) -> str:
    return images.grub_image(room, "again.cfg", {})


MACHINES: Dict[str, Machine] = {
    "SeaBIOS": Machine("a boot sector reads 1 and 64 sectors, writes 2 and reads them again, each by INT 13h and twice if it fails",
                       lambda room: images.sector_image(room, TRIES)[0], debugged, r"^(end$|No bootable device)", 120, seabios_looked),
    "GRUB": Machine("`nativedisk ahci`, the SHA-256 of 4 MiB twice, a file, `save_env`", grub_image, debugged, r"^(CHECK end$|No bootable device)", 30, grub_looked),
    "EDK2": Machine("GRUB does the same by the firmware's driver", grub_image, uefi, r"^CHECK end$|BdsDxe: No bootable option", 120, grub_looked),
}


class Row(NamedTuple):
    """An event, as a script in which {read}, {write} and {identify} are commands of the guest; and what each firmware does about it."""
    event: str
    script: str
    did: Sequence[str]  # of SeaBIOS, GRUB and EDK2; nothing if SeaBIOS, on which GRUB is, does not boot then


PLACES = {"SeaBIOS": "3rd READ DMA", "GRUB": "120th READ DMA", "EDK2": "120th READ DMA"}
ROWS: Sequence[Row] = (
    # commands
    Row("a read fails once", "{read} do fail 40", (AGAIN, GIVEN_UP, RIGHT)),
    Row("the first sector can't be read once", "on first read sector 0 do fail 40", (NO_BOOT, "", RIGHT)),
    Row("a write fails", "{write} do fail 10", (AGAIN, SAID, SAID)),
    Row("IDENTIFY DEVICE is aborted", "{identify} do fail 04", (NO_BOOT, NO_BOOT, NO_BOOT)),
    Row("the disk stays busy after IDENTIFY DEVICE", "{identify} do end D0", (NO_BOOT, NO_BOOT, NO_BOOT)),
    Row("a read takes five seconds", "{read} do slow 5s", (RIGHT, RIGHT, RIGHT)),
    Row("a read is never answered", "{read} do stall", (GIVEN_UP, GIVEN_UP, RIGHT)),
    Row("the disk stays busy after a read", "{read} do end D0", (GIVEN_UP, GIVEN_UP, WRONG)),
    Row("device fault, DF and ERR", "{read} do end 61", (AGAIN, GIVEN_UP, RIGHT)),
    Row("device fault, DF alone", "{read} do end 60", (AGAIN, WRONG, WRONG)),
    Row("a short read, as PRDBC says", "{read} do end 50", (WRONG, WRONG, WRONG)),
    # the interface and memory
    Row("a CRC error that is mended", "{read} do crc_error", (RIGHT, RIGHT, RIGHT)),
    Row("a CRC error that stops the port", "{read} do fatal_crc_error", (GIVEN_UP, GIVEN_UP, RIGHT)),
    Row("no memory, HBFS", "{read} do no_memory", (GIVEN_UP, GIVEN_UP, RIGHT)),
    Row("wrong memory, HBDS", "{read} do memory_error", (GIVEN_UP, GIVEN_UP, RIGHT)),
    Row("an unknown FIS", "{read} do unknown_fis", (RIGHT, RIGHT, RIGHT)),
    Row("a Register FIS that no command asks for, before the answer", "{read} do slow 1s then spurious_register", (RIGHT, RIGHT, RIGHT)),
    Row("an interrupt is lost", "{read} do lose_interrupt", (RIGHT, RIGHT, RIGHT)),
    # the disk and the link
    Row("no disk", "on time 1us do unplug", (NO_BOOT, "", NO_BOOT)),
    Row("each signature comes two seconds late", "on time 1ms do hold_signature 2s repeat ever", (RIGHT, RIGHT, RIGHT)),
    Row("no signature comes", "on time 1ms do lose_signature repeat ever", (NO_BOOT, "", NO_BOOT)),
    Row("each signature is that of an ATAPI device", "on time 1ms do packet_signature repeat ever", (RIGHT, RIGHT, NO_BOOT)),
    Row("the disk is pulled out", "{read} do unplug", (GIVEN_UP, GIVEN_UP, GIVEN_UP)),
    Row("the disk is pulled out, and is back a second later", "{read} do unplug then wait 1s then plug", (GIVEN_UP, GIVEN_UP, RIGHT)),
    Row("the link is lost, and back 100 milliseconds later", "{read} do lose_link then wait 100ms then find_link", (GIVEN_UP, GIVEN_UP, RIGHT)),
    Row("the controller loses its registers", "{read} do power_on", (GIVEN_UP, WRONG, GIVEN_UP)),
    Row("CR, FR, CLO and HR are slow", "on time 1us do slow_hr 500ms then slow_cr 100ms then slow_fr 100ms then slow_clo 100ms", (RIGHT, RIGHT, RIGHT)),
)


def script_text(row: Row, name: str) -> str:
    """An event's script for a firmware."""
    return row.script.format(read=f"on {PLACES[name]}", write="on first write", identify=f"on {'2nd' if name == 'GRUB' else 'first'} IDENTIFY DEVICE")


TRIALS = [Trial(name, row.event, script_text(row, name), did) for row in ROWS for name, did in zip(MACHINES, row.did) if did]


def is_at_end(guest: Guest, room: str, machine: Machine) -> bool:
    """Waits until the guest has written its last line, on the serial port or where SeaBIOS writes, or has ended; false if it does neither."""
    limit = pace.Limit(machine.seconds)
    while not limit.has_passed():
        if guest.process.poll() is not None or re.search(machine.end, guest.serial() + serial_of(os.path.join(room, "debug")), re.MULTILINE):
            return True
        time.sleep(0.1)
    return False


def outcome(room: str, trial: Trial) -> Dict[str, Any]:
    """What a firmware does under an event: one of the words above, what it says, and what the judge reports."""
    machine, found = MACHINES[trial.firmware], os.path.join(room, "judged.json")
    image = machine.image(room)
    options = ["--image", image, "--script", script_of(room, trial.script), "--json", found]
    guest = Guest(room, options, qemu(room, *machine.words(room)), log=False)
    ends = is_at_end(guest, room, machine)
    if guest.process.poll() is None:
        guest.process.send_signal(signal.SIGTERM)
        expect(pace.ended(guest.process, 60), f"{trial.firmware}, {trial.event}: the program doesn't end")
    expect(guest.process.returncode in (0, BROKE_A_RULE), f"{trial.firmware}, {trial.event}: status {guest.process.returncode}: {guest.said()[-500:]}")
    did, said = machine.looked(room, image)
    judged: Dict[str, Any] = {"rules": [], "recoveries": []}
    if os.path.exists(found):
        with open(found, encoding="utf-8") as file:
            judged = json.load(file)
    return {"did": did, "ends": ends, "says": list(dict.fromkeys(said)), "happened": "it never happened" not in guest.said(), "rules": judged["rules"], "recoveries": judged["recoveries"]}


def look(trial: Trial, came: Dict[str, Any]) -> str:
    where = f"{trial.firmware}, {trial.event}"
    expect(came["happened"], f"{where}: the event never happened")
    expect(came["did"] == trial.did, f"{where}: {came['did']}, and not: {trial.did}; it says {came['says'][:8]}")
    return str(came["did"])


def survives(room: str, trial: Trial) -> str:
    """A firmware uses the disk while an event happens: what it does about it is written down."""
    return look(trial, outcome(room, trial))


def check_of(trial: Trial) -> Check:
    run = functools.partial(survives, trial=trial)
    functools.update_wrapper(run, survives)
    return Check(run, title=f"{trial.firmware} under {trial.event}", is_long=True)


# ---- stored runs ----

STORED = os.path.join(HERE, "runs", "firmware.json")
PACKAGES = {"SeaBIOS": "seabios", "GRUB": "grub-pc-bin", "EDK2": "ovmf"}


def stored() -> Dict[str, Dict[str, Any]]:
    """What is stored: the version of each firmware, and what came of it under each event."""
    if not os.path.exists(STORED):
        return {"versions": {}, "events": {}}
    with open(STORED, encoding="utf-8") as file:
        found: Dict[str, Dict[str, Any]] = json.load(file)
    return found


def version_of(name: str) -> str:
    """A firmware with the version of its package, which came with the newer QEMU or is this machine's."""
    package = PACKAGES[name]
    for root in (os.path.join(images.OUT, "qemu"), ""):
        for path in (f"{root}/usr/share/doc/{package}/changelog.Debian.gz", f"{root}/usr/share/doc/{package}/changelog.gz"):
            if os.path.exists(path):
                with gzip.open(path, "rt", encoding="utf-8", errors="replace") as file:
                    found = re.search(r"\((?:\d+:)?([\d.]+)", file.readline())
                return f"{name} {found[1]}" if found else name
    return name


def keep(trial: Trial, came: Dict[str, Any]) -> None:
    """Stores what came of a run, beside what is stored."""
    all_of = stored()
    all_of["versions"][trial.firmware] = version_of(trial.firmware)
    all_of["events"].setdefault(trial.event, {})[trial.firmware] = came
    all_of["events"] = {row.event: all_of["events"][row.event] for row in ROWS if row.event in all_of["events"]}
    with open(STORED, "w", encoding="utf-8") as file:
        json.dump(all_of, file, indent=1)
        file.write("\n")


def one(trial: Trial) -> Tuple[Trial, Dict[str, Any]]:
    """A run, as it is stored."""
    with tempfile.TemporaryDirectory(prefix="ahci-hba-drivers-") as room:
        harness.WAYS[room] = images.VFIO_USER
        begun = time.monotonic()
        came = outcome(room, trial)
        del harness.WAYS[room]
    try:
        said = look(trial, came)
    except Failed as why:
        said = f"FAILED {why}"
    print(f"{trial.firmware}: {trial.event}: {said} ({time.monotonic() - begun:.0f} s)", flush=True)
    broken = sorted({it["rule"] for it in came["rules"] if it["verdict"] == "broken"})
    return trial, {"did": came["did"], "says": came["says"], "broken": broken, "recoveries": recoveries.merged(came["recoveries"])}


def run(only: str, jobs: int) -> None:
    """Runs each firmware under each event whose name, or its own, has a word, and stores what came as it comes."""
    with ThreadPoolExecutor(jobs) as pool:
        for trial, came in pool.map(one, [it for it in TRIALS if only in f"{it.firmware}, {it.event}"]):
            keep(trial, came)


CHECKS = [check_of(it) for it in TRIALS]
