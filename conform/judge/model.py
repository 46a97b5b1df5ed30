"""The model's side: `ahci trace --json`, line by line."""
import json
import os
import subprocess
from functools import lru_cache
from typing import Any, Dict, List, NamedTuple, Optional

from . import layout


class ModelFault(Exception):
    """The model's program can't be run, or its trace can't be read. Its text is one line."""


class Sent(NamedTuple):
    header: bytes
    cfis: bytes
    prdt: List[bytes]


class Step(NamedTuple):
    """One line of a script, and what the model did at it."""

    number: int  # of the line in its script, from 1
    line: str
    answer: str
    entries: List[Dict[str, Any]]
    sent: Optional[Sent]
    received: Dict[str, bytes]
    registers: Dict[str, int]  # those that changed
    phases: Dict[int, str]  # of the slots that are owned

    @property
    def words(self) -> List[str]:
        return self.line.split(" ")


class Trace(NamedTuple):
    steps: List[Step]
    end: str  # empty, or what the model said when it ended at a faulty line
    page: bytes = b""  # of IDENTIFY DEVICE, if the script has an `identify` and the program has it


def commands_of(script: str) -> List["tuple[int, str]"]:
    """The lines that are commands, with their numbers."""
    lines = script.split("\n")
    return [(at, line) for at, line in enumerate(lines, 1) if line and not line.startswith("#")]


def sent_of(parsed: Optional[Dict[str, Any]]) -> Optional[Sent]:
    if parsed is None:
        return None
    return Sent(bytes.fromhex(parsed["header"]), bytes.fromhex(parsed["cfis"]), [bytes.fromhex(it) for it in parsed["prdt"]])


def step_of(parsed: Dict[str, Any]) -> Step:
    return Step(
        parsed["line"], parsed["command"], parsed["answer"], parsed["entries"], sent_of(parsed["sent"]),
        {name: bytes.fromhex(text) for name, text in parsed["received"].items()},
        {it["name"]: int(it["word"], 16) for it in parsed["registers"]},
        {it["tag"]: it["phase"] for it in parsed["slots"]},
    )


def steps_of(trace: str) -> List[Step]:
    """The commands of a trace. The last object may be that of the fault at which the script ended, which is no command's."""
    steps = []
    for number, text in enumerate(trace.splitlines(), 1):
        try:
            parsed = json.loads(text)
            if "fault" not in parsed:
                steps.append(step_of(parsed))
        except (ValueError, KeyError, TypeError) as why:
            raise ModelFault(f"line {number} of the model's trace can't be read: {type(why).__name__} {why}") from why
    return steps


def trace_of(program: str, script: str, seconds: float = 600.0) -> Trace:
    """Runs the model over a script."""
    try:
        ran = subprocess.run([program, "trace", "--json"], input=script.encode(), capture_output=True, timeout=seconds, check=False)
    except subprocess.TimeoutExpired as why:
        raise ModelFault(f"the model, {program}, has no answer after {seconds:.0f} seconds") from why
    except OSError as why:
        raise ModelFault(f"the model, {program}, can't be run: {why.strerror} (./ahci --build makes it)") from why
    said = ran.stderr.decode("latin-1").strip()
    faults = [line for line in said.splitlines() if ": line " in line]
    if ran.returncode != 0 and not (ran.returncode == 1 and faults):
        raise ModelFault(f"the model, {program}, ended with status {ran.returncode}: {(said.splitlines() or ['no text'])[-1]}")
    steps = steps_of(ran.stdout.decode("ascii"))
    if not faults and len(steps) != len(commands_of(script)):
        raise ModelFault(f"the model, {program}, answered {len(steps)} of {len(commands_of(script))} lines")
    disk = next((it.words for it in steps if it.words[0] == "disk" and not it.answer.startswith("refused")), None)
    asks = disk and any(it.words[0] == "identify" for it in steps)
    return Trace(steps, faults[0] if faults else "", page_of(program, int(disk[1]), int(disk[2])) if disk and asks else b"")


@lru_cache(maxsize=None)
def page_of(program: str, sectors: int, depth: int) -> bytes:
    """The 512 bytes of the model's identify page: `ahci identify --raw`."""
    try:
        ran = subprocess.run([program, "identify", "--sectors", str(sectors), "--depth", str(depth), "--raw"], capture_output=True, timeout=600, check=False)
    except (OSError, subprocess.TimeoutExpired) as why:
        raise ModelFault(f"the model, {program}, can't be run for its identify page: {why}") from why
    if ran.returncode or len(ran.stdout) != layout.SECTOR:
        raise ModelFault(f"the model, {program}, has no identify page of a disk of {sectors} sectors: status {ran.returncode}")
    return ran.stdout


def program_at(given: Optional[str], top: str) -> str:
    """The program to run: the one that was named, or the built one, or `./ahci`, which says that it runs unproved; installed, the one on the PATH."""
    built, here = os.path.join(top, "crates", "ahci", "out", "rlib", "ahci", "ahci"), os.path.join(top, "ahci")
    if given:
        return given
    return next((it for it in (built, here) if os.path.isfile(it)), "ahci")


def log_page(tag: int, error: int, lba: int) -> bytes:
    """The page of log 10h that names a failed command (docs/LAYOUTS.md, "Log 10h, page 0")."""
    page = bytearray(layout.SECTOR)
    page[0], page[2], page[3] = tag, 0x41, error
    page[4:7], page[8:11] = (lba & 0xFFFFFF).to_bytes(3, "little"), (lba >> 24).to_bytes(3, "little")
    page[511] = -sum(page) & 0xFF
    return bytes(page)
