"""Drafts the list of known differences of a controller that has none yet: each kind of difference that comes is an entry."""
import json
import re
from typing import Any, Dict, FrozenSet, List

from .compare import Difference
from .known import Entry, Known, entry_of

# facts by which kinds of moments differ, the first that is true
MOMENTS = ("power-on", "signature", "link down", "control", "queued", "dma", "pio", "page", "verify", "none", "other", "read", "go")


class Draft(Known):
    """A list to which each new difference is added as it comes."""

    added: Dict[str, Dict[str, Any]]
    first: Dict[str, str]

    def __new__(cls, known: Known) -> "Draft":
        made = super().__new__(cls, known.title, list(known.entries), known.base)
        made.added, made.first = {}, {}
        return made

    def explain(self, facts: FrozenSet[str], it: Difference) -> Difference:
        left = super().explain(facts, it)
        if any(left.mask) and not left.place.startswith("model: "):
            self.add(facts, left)
            left = super().explain(facts, left)
        return left

    def add(self, facts: FrozenSet[str], it: Difference) -> None:
        moment = next((fact for fact in MOMENTS if fact in facts), next((fact for fact in sorted(facts) if fact.startswith("write ")), ""))
        name = re.sub("[^a-z0-9]+", "_", f"{it.place} at {moment}".lower()).strip("_")
        bits = it.mask if len(it.mask) <= 28 else None
        if name not in self.added:
            self.first[name] = f"{it.got[:28].hex()}, and the model has {it.expected[:28].hex()}"
            self.added[name] = {
                "name": name, "title": f"{it.place} at {moment}", "section": "to be described", "choice": "standard", "sure": "to be described",
                "emulator": f"To be described. At first: {it.got[:28].hex()}.", "model": f"To be described. There: {it.expected[:28].hex()}.",
                "covers": [{"place": it.place, "when": [moment] if moment else []}],
            }
        cover = self.added[name]["covers"][0]
        if bits is not None:
            old = bytes.fromhex(cover.get("bits", "")).ljust(len(bits), b"\0")
            cover["bits"] = bytes(a | b for a, b in zip(old, bits)).hex()
        self.entries[:] = [one for one in self.entries if one.name not in self.added]
        self.entries[:0] = self.drafted()

    def drafted(self) -> List[Entry]:
        return [entry_of(it, "the draft") for it in self.added.values()]

    def text(self, title: str) -> str:
        return json.dumps({"title": title, "differences": list(self.added.values())}, indent=2) + "\n"

    def table(self, path: str) -> List[str]:
        lines = [f"Kinds of differences in {path}, each to be described or mended: {len(self.added)}", "", "| Entry | at first |", "|---|---|"]
        return lines + [f"| {name} | {text} |" for name, text in self.first.items()]
