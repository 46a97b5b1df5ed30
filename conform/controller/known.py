"""The list of known differences of an emulator's controller: JSON, read strictly, and matched bit by bit."""
import fnmatch
import json
import os
import re
from typing import Any, Dict, FrozenSet, List, Mapping, NamedTuple, Optional, Tuple

from judge.known import ListFault, bytes_in, checked, pattern

from .compare import Difference

CHOICES = {"standard": "the standard's, and the emulator does otherwise", "open": "the standard leaves it open",
           "undefined": "the standard says nothing of what then happens", "model": "the standard's, and the model does otherwise"}


class Cover(NamedTuple):
    """Where an entry of the list explains a difference. What isn't given is of no account."""

    place: "re.Pattern[str]"
    when: FrozenSet[str] = frozenset()  # facts that have to be true
    unless: FrozenSet[str] = frozenset()  # facts none of which may be
    bits: Optional[bytes] = None
    got: str = "*"  # hexadecimal, with ? and [..]
    expected: str = "*"

    def explains(self, facts: FrozenSet[str], it: Difference) -> bytes:
        """The bits of a difference that this explains."""
        facts = facts | it.facts
        if not self.place.fullmatch(it.place) or not self.when <= facts or self.unless & facts:
            return b""
        if not fnmatch.fnmatchcase(it.got.hex(), self.got) or not fnmatch.fnmatchcase(it.expected.hex(), self.expected):
            return b""
        if self.bits is None:
            return it.mask
        bits = self.bits.ljust(len(it.mask), b"\0")
        return bytes(a & b for a, b in zip(it.mask, bits))


class Entry(NamedTuple):
    """One known difference."""

    name: str
    title: str
    section: str
    choice: str
    sure: str
    emulator: str
    model: str
    ends: bool  # both sides are in different states from there on
    covers: List[Cover]


class Known(NamedTuple):
    title: str
    entries: List[Entry]
    base: Tuple[str, ...] = ()  # names of entries that any controller may have

    def over(self, base: "Known") -> "Known":
        more = [it for it in base.entries if it.name not in [entry.name for entry in self.entries]]
        return self._replace(entries=[*self.entries, *more], base=tuple(it.name for it in more))

    def explain(self, facts: FrozenSet[str], it: Difference) -> Difference:
        """What is left of a difference, and which entries explain its other bits."""
        for entry in self.entries:
            if not any(it.mask):
                break
            for cover in entry.covers:
                bits = cover.explains(facts, it)
                if any(bits):
                    it = it.without(entry.name, bits)
        return it

    def ending(self, names: List[str]) -> str:
        """The first of these entries that ends a comparison."""
        ends = {it.name for it in self.entries if it.ends}
        return next((it for it in names if it in ends), "")


NOTHING = Known("no known differences", [])
ENTRY = {"name": str, "title": str, "section": str, "choice": str, "sure": str, "emulator": str, "model": str, "ends": bool, "covers": list}
COVER = {"place": str, "when": list, "unless": list, "bits": str, "got": str, "expected": str}


def facts_in(value: Any, where: str) -> FrozenSet[str]:
    if not all(isinstance(it, str) for it in value):
        raise ListFault(f"{where} has a fact that is no text")
    return frozenset(value)


def cover_of(value: Any, where: str) -> Cover:
    given = checked(value, COVER, ("place",), where)
    bits = bytes_in(given.get("bits"), f"{where}: 'bits'")
    if bits is not None and not any(bits):
        raise ListFault(f"{where}: no bit of 'bits' is 1")
    facts = [facts_in(given.get(name, []), f"{where}: '{name}'") for name in ("when", "unless")]
    return Cover(pattern(given["place"]), facts[0], facts[1], bits, given.get("got", "*"), given.get("expected", "*"))


def entry_of(value: Any, where: str) -> Entry:
    given = checked(value, ENTRY, ("name", "title", "section", "choice", "sure", "emulator", "model", "covers"), where)
    where = f"{where} ({given['name']})"
    if not re.fullmatch(r"[a-z0-9_]+", given["name"]):
        raise ListFault(f"{where}: a name has small letters, digits and _ alone, since it is its program's too")
    if given["choice"] not in CHOICES:
        raise ListFault(f"{where}: 'choice' is '{given['choice']}', and none of {', '.join(CHOICES)}")
    covers = [cover_of(it, f"{where}, cover {at}") for at, it in enumerate(given["covers"], 1)]
    return Entry(given["name"], given["title"], given["section"], given["choice"], given["sure"], given["emulator"], given["model"], given.get("ends", False), covers)


def known_of(text: str, where: str) -> Known:
    try:
        value = json.loads(text)
    except ValueError as why:
        raise ListFault(f"{where}: {why}") from why
    shape: Mapping[str, type] = {"title": str, "differences": list}
    given: Dict[str, Any] = checked(value, shape, ("title", "differences"), where)
    entries = [entry_of(it, f"{where}, difference {at}") for at, it in enumerate(given["differences"], 1)]
    names = [entry.name for entry in entries]
    for name in names:
        if names.count(name) > 1:
            raise ListFault(f"{where}: two differences are named {name}")
    return Known(given["title"], entries)


def read_known(path: str) -> Known:
    try:
        with open(path, encoding="utf-8") as text:
            return known_of(text.read(), os.path.basename(path))
    except (OSError, UnicodeDecodeError) as why:
        raise ListFault(f"{path} can't be read: {getattr(why, 'strerror', None) or why}") from why
