"""The list of known differences of an emulator: JSON, read strictly, and matched bit by bit."""
import json
import os
import re
from typing import Any, Dict, List, Mapping, NamedTuple, Optional, Tuple

from .differences import Difference, masked
from .model import Step


class ListFault(Exception):
    """The list can't be read. Its text names the file, the entry and the member."""


class Cover(NamedTuple):
    """Where an entry of the list explains a difference. What isn't given is of no account."""

    place: "re.Pattern[str]"
    lines: Tuple[str, ...] = ()  # first words of lines
    answer: Optional["re.Pattern[str]"] = None  # of the model
    bits: Optional[bytes] = None
    got: Optional[bytes] = None  # among these bits
    expected: Optional[bytes] = None

    def explains(self, step: Step, difference: Difference) -> bytes:
        """The bits of a difference that this explains."""
        if self.lines and step.words[0] not in self.lines or self.answer and not self.answer.fullmatch(step.answer):
            return b""
        if not self.place.fullmatch(difference.place):
            return b""
        bits = b"\xff" * len(difference.mask) if self.bits is None else self.bits
        if len(bits) != len(difference.mask):
            return b""
        for wanted, there in ((self.got, difference.got), (self.expected, difference.expected)):
            if wanted is not None and masked(there, bits) != masked(wanted, bits):
                return b""
        return masked(difference.mask, bits)


class Entry(NamedTuple):
    """One known difference."""

    name: str
    title: str
    section: str  # of the standard
    choice: str  # `standard` where the model does as the standard says, `model` where the standard leaves it open
    emulator: str
    model: str
    decision: str  # a heading of docs/DECISIONS.md, or none
    covers: List[Cover]


class Known(NamedTuple):
    title: str
    entries: List[Entry]
    beside: List[Dict[str, str]]  # what no script can show
    base: Tuple[str, ...] = ()  # names of entries that any port may have

    def over(self, base: "Known") -> "Known":
        """The same list, and after it what any port may have."""
        more = [it for it in base.entries if it.name not in [entry.name for entry in self.entries]]
        return self._replace(entries=[*self.entries, *more], base=tuple(it.name for it in more))

    def explain(self, step: Step, difference: Difference) -> Difference:
        """What is left of a difference, and which entries explain its other bits."""
        for entry in self.entries:
            bits = bytes(len(difference.mask))
            for cover in entry.covers:
                more = cover.explains(step, difference)
                bits = bytes(a | b for a, b in zip(bits, more)) if more else bits
            if any(bits):
                difference = difference.without(entry.name, bits)
        return difference


NOTHING = Known("no known differences", [], [])
ENTRY = {"name": str, "title": str, "section": str, "choice": str, "emulator": str, "model": str, "decision": str, "covers": list}
COVER = {"place": str, "lines": list, "answer": str, "bits": str, "got": str, "expected": str}
BESIDE = {"title": str, "section": str, "emulator": str, "model": str}


def checked(value: Any, shape: Mapping[str, type], needed: Tuple[str, ...], where: str) -> Dict[str, Any]:
    """An object with these members alone."""
    if not isinstance(value, dict):
        raise ListFault(f"{where} is no object")
    for name, member in value.items():
        if name not in shape:
            raise ListFault(f"{where} has a member '{name}', which means nothing here")
        if not isinstance(member, shape[name]) or member == "" or member == [] and name not in ("differences", "beside"):
            raise ListFault(f"{where}: '{name}' is {'empty' if isinstance(member, shape[name]) else 'no ' + shape[name].__name__}")
    for name in needed:
        if name not in value:
            raise ListFault(f"{where} has no '{name}'")
    return value


def bytes_in(text: Optional[str], where: str) -> Optional[bytes]:
    if text is None:
        return None
    try:
        return bytes.fromhex(text)
    except ValueError as why:
        raise ListFault(f"{where}: '{text}' are no hexadecimal bytes") from why


def pattern(text: str) -> "re.Pattern[str]":
    """A text in which `*` stands for any text."""
    return re.compile(re.escape(text).replace(r"\*", ".*"))


def cover_of(value: Any, where: str) -> Cover:
    given = checked(value, COVER, ("place",), where)
    bits, got, expected = (bytes_in(given.get(name), f"{where}: '{name}'") for name in ("bits", "got", "expected"))
    if bits is not None and not any(bits):
        raise ListFault(f"{where}: no bit of 'bits' is 1")
    answer = pattern(given["answer"]) if "answer" in given else None
    return Cover(pattern(given["place"]), tuple(given.get("lines", [])), answer, bits, got, expected)


def entry_of(value: Any, where: str) -> Entry:
    given = checked(value, ENTRY, ("name", "title", "section", "choice", "emulator", "model", "covers"), where)
    where = f"{where} ({given['name']})"
    if not re.fullmatch(r"[a-z0-9_]+", given["name"]):
        raise ListFault(f"{where}: a name has small letters, digits and _ alone, since it is its script's too")
    if given["choice"] not in ("standard", "model"):
        raise ListFault(f"{where}: 'choice' is '{given['choice']}', and neither 'standard' nor 'model'")
    covers = [cover_of(it, f"{where}, cover {at}") for at, it in enumerate(given["covers"], 1)]
    return Entry(given["name"], given["title"], given["section"], given["choice"], given["emulator"], given["model"], given.get("decision", ""), covers)


def known_of(text: str, where: str) -> Known:
    try:
        value = json.loads(text)
    except ValueError as why:
        raise ListFault(f"{where}: {why}") from why
    given = checked(value, {"title": str, "differences": list, "beside": list}, ("title", "differences"), where)
    entries = [entry_of(it, f"{where}, difference {at}") for at, it in enumerate(given["differences"], 1)]
    names = [entry.name for entry in entries]
    for name in names:
        if names.count(name) > 1:
            raise ListFault(f"{where}: two differences are named {name}")
    beside = [checked(it, BESIDE, tuple(BESIDE), f"{where}, 'beside' {at}") for at, it in enumerate(given.get("beside", []), 1)]
    return Known(given["title"], entries, beside)


def read_known(path: str) -> Known:
    try:
        with open(path, encoding="utf-8") as text:
            return known_of(text.read(), os.path.basename(path))
    except (OSError, UnicodeDecodeError) as why:
        raise ListFault(f"{path} can't be read: {getattr(why, 'strerror', None) or why}") from why
