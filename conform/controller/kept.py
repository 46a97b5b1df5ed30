"""Recordings in a file, a line of JSON for each program: what a machine without the library has recorded, another one judges."""
import json
from typing import Any, Callable, Dict, Iterable, Iterator, List, Optional, TextIO, Tuple

from . import layout
from .adapter import Controller
from .look import UNSEEN, Look
from .program import Program
from .recorder import Recording, record
from .text import TextFault, program_of, text_of

VERSION = 1
BLOCK = 64  # bytes: what has changed is kept by blocks
Kept = Tuple[str, Program, Recording]  # a program's name, its operations, and what was seen


def changes(before: bytes, now: bytes, base: int) -> List[List[Any]]:
    """The runs of blocks that are others than before, with their addresses."""
    found: List[List[Any]] = []
    for at in range(0, len(now), BLOCK):
        block = now[at : at + BLOCK]
        if before[at : at + BLOCK] == block:
            continue
        if found and found[-1][0] + len(found[-1][1]) // 2 == base + at:
            found[-1][1] += block.hex()
        else:
            found.append([base + at, block.hex()])
    return found


def patched(before: bytes, runs: List[List[Any]], base: int) -> bytes:
    """The bytes with the runs that lie in them; the same object if there are none."""
    now: Optional[bytearray] = None
    for address, run in runs:
        if base <= address < base + len(before):
            now = now or bytearray(before)
            data = bytes.fromhex(run)
            now[address - base : address - base + len(data)] = data
    return bytes(now) if now else before


POWER_ON = Look(b"", b"", False, layout.FILLING, layout.IMAGE)  # what the first look is kept against


def packed(before: Look, now: Look) -> Dict[str, Any]:
    """A look as what has changed."""
    found: Dict[str, Any] = {}
    for name, was, data in (("host", before.host, now.host), ("port", before.port, now.port)):
        found.update({name: data.hex()} if was != data else {})
    memory = [run for part, was, data in zip(layout.PARTS, before.memory, now.memory) if was is not data and was != data for run in changes(was, data, part.base)]
    found.update({"memory": memory} if memory else {})
    if now.disk is not before.disk or now.disk == UNSEEN:
        found["disk"] = None if now.disk == UNSEEN else changes(layout.IMAGE, now.disk, 0)
    return {**found, "line": now.line, **({"read": now.read} if now.read is not None else {})}


def unpacked(before: Look, it: Dict[str, Any]) -> Look:
    host, port = (bytes.fromhex(it[name]) if name in it else was for name, was in (("host", before.host), ("port", before.port)))
    memory = tuple(patched(was, it.get("memory", []), part.base) for part, was in zip(layout.PARTS, before.memory))
    disk = before.disk if "disk" not in it else UNSEEN if it["disk"] is None else patched(layout.IMAGE, it["disk"], 0)
    return Look(host, port, bool(it["line"]), memory, disk, it.get("read"))


def write(out: TextIO, name: str, ops: Program, recording: Recording) -> None:
    looks = [packed(before, now) for before, now in zip([POWER_ON, *recording.looks], recording.looks)]
    out.write(json.dumps({"version": VERSION, "program": name, "text": text_of(ops), "death": recording.death, "looks": looks}) + "\n")
    out.flush()


def kept_in(text: TextIO, path: str) -> Iterator[Kept]:
    """The recordings of a file. TextFault names the line that is none."""
    for at, line in enumerate(text, 1):
        try:
            yield kept_of(line)
        except (ValueError, KeyError, TypeError) as why:
            raise TextFault(f"{path}, line {at}: no recording of this version ({type(why).__name__}: {why})") from why


def kept_of(line: str) -> Kept:
    it = json.loads(line)
    if it["version"] != VERSION:
        raise ValueError(f"version {it['version']}")
    looks: List[Look] = []
    for one in it["looks"]:
        looks.append(unpacked(looks[-1] if looks else POWER_ON, one))
    return it["program"], program_of(it["text"], it["program"]), Recording(looks, it["death"])


def record_all(make: Callable[[], Controller], programs: Iterable[Tuple[str, Program]], out: TextIO) -> int:
    """Records programs one after the other; after a death the emulator is started again. Returns how many there are."""
    count, it = 0, make()
    it.start()
    try:
        for count, (name, ops) in enumerate(programs, 1):
            found = record(it, ops)
            write(out, name, ops, found)
            if found.death:
                it.stop()
                it.start()
    finally:
        it.stop()
    return count
