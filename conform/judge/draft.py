"""Drafts the list of known differences of an emulator that has none yet: each kind of difference that comes is an entry."""
import json
import re
from typing import Any, Dict, List

from . import layout
from .differences import Difference, masked
from .known import Entry, Known, entry_of
from .model import Step
from .rules import rule_of

CONSTANT = ("CAP", "GHC", "PI", "VS", "PxCLB", "PxFB", "PxSIG", "PxSSTS")  # they differ when the disk is made, and not again
TAGS = ("PxSACT", "PxCI")  # which of their bits differ is the script's


def general(place: str) -> str:
    """A place without the numbers of one script."""
    return re.sub(r"(tag|sector) [0-9]+$", r"\1 *", place)


def fields_whole(place: str, mask: bytes) -> bytes:
    """The bits of a difference, and all others of the same fields whose value the script chooses."""
    if place in layout.REGISTERS:
        return b"\xff" * 4 if place in TAGS else mask[:2] + (b"\xff" if mask[2] and place == "PxTFD" else mask[2:3]) + mask[3:]
    fields = next((it.fields for it in layout.FIS_PLACES if it.name == place), None)
    if fields is None:
        return b""
    named = {fields.get(at, str(at)) for at, byte in enumerate(mask) if byte} - {"status"}
    return bytes(0xFF if fields.get(at, str(at)) in named else byte for at, byte in enumerate(mask))


class Draft:
    """The entries so far, as they will be written, and as the judge reads them."""

    def __init__(self) -> None:
        self.written: Dict[str, Dict[str, Any]] = {}
        self.known = Known("a draft", [], [])
        self.script, self.line, self.cause = "", 0, ""  # the first entry of the standard's in this script, at a line before
        self.after: Dict[str, str] = {}  # by entry: what came before its first time, and may be its cause

    def explain(self, script: str, step: Step, difference: Difference) -> Difference:
        """The draft explains each difference: what it doesn't know yet is added to it."""
        if script != self.script:
            self.script, self.line, self.cause = script, 0, ""
        left = self.known.explain(step, difference)
        if any(left.mask):
            self.add(script, step, left)
            left = self.known.explain(step, left)
        broken = [name for name, _ in left.excused if name in self.written and self.written[name]["choice"] == "standard"]
        if broken and not self.cause:
            self.line, self.cause = step.number, broken[0]
        return left

    def add(self, script: str, step: Step, it: Difference) -> None:
        rule, word = rule_of(step, it), step.words[0]
        group = "identify words" if it.place.startswith("identify word") else general(it.place).replace(" *", "")
        name = re.sub("[^a-z0-9]+", "_", f"{group} at {word} {rule.choice}".lower()).strip("_")
        if name not in self.written:
            after = self.cause if self.line < step.number else ""
            self.after[name] = after
            self.written[name] = {
                "name": name, "title": f"{group} at `{word}`", "section": rule.section or "none", "choice": rule.choice,
                "emulator": f"To be described. First at {script}, line {step.number} (`{step.line[:40]}`): {it.got[:32].hex()}."
                            + (f" It came after {after}, and may follow from it." if after else ""),
                "model": f"To be described. There: {it.expected[:32].hex()}.", "covers": [],
            }
        self.cover(self.written[name]["covers"], step, it)
        self.known = self.known._replace(entries=self.entries())

    def cover(self, covers: List[Dict[str, Any]], step: Step, it: Difference) -> None:
        """One more cover; or one that was there covers more bits, and any value in them."""
        made: Dict[str, Any] = {"place": general(it.place)}
        if not it.place.startswith("identify word"):
            made["lines"] = [step.words[0]]
        if step.answer.startswith(("refused", "failed")) and step.words[0] != "fail":
            made["answer"] = step.answer if step.answer.startswith("refused") else "failed *"
        bits = fields_whole(it.place, it.mask)
        for old in covers:
            if all(old.get(member) == made.get(member) for member in ("place", "lines", "answer")) and len(old.get("bits", "")) == 2 * len(bits):
                made, bits = old, bytes(a | b for a, b in zip(bits, bytes.fromhex(old.get("bits", ""))))
                made.pop("got", None)
                break
        else:
            covers.append(made)
            if it.place in CONSTANT or it.place.startswith("identify word"):
                made["got"] = masked(it.got, bits or it.mask).hex() if bits else it.got.hex()
        if bits:
            made["bits"] = bits.hex()

    def entries(self) -> List[Entry]:
        return [entry_of(it, "the draft") for it in self.written.values()]

    def text(self, title: str) -> str:
        """The list as JSON, with a cover a line."""
        parts = []
        for it in self.written.values():
            members = [f"{json.dumps(name)}: {json.dumps(it[name])}" for name in ("name", "title", "section", "choice", "emulator", "model")]
            covers = ",\n".join(f"        {json.dumps(cover)}" for cover in it["covers"])
            parts.append("    {\n" + "".join(f"      {member},\n" for member in members) + f'      "covers": [\n{covers}\n      ]\n    }}')
        return f'{{\n  "title": {json.dumps(title)},\n  "differences": [\n' + ",\n".join(parts) + "\n  ]\n}\n"


