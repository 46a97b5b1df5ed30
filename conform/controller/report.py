"""What a person sees: a difference with the program around it, and the table at the end."""
from typing import Any, Dict, FrozenSet, Iterator, List, NamedTuple

from judge import layout as names

from . import alone
from .campaign import Result
from .compare import Difference
from .judge import Found, Judged
from .known import Known
from .program import Program
from .rules import SECTIONS as SECTIONS_OF_RULES, rules_of
from .text import line_of, text_of

AROUND = 8  # operations before a difference
MOST_TOLD = 10  # differences of one operation
SECTIONS = {
    "IS": "3.1.3", "interrupt line": "3.1.2 (IE), 10.7", "read": "3", "disk": "ACS-3", "data": "4.2.3", "PRDBC": "4.2.2", "command header": "4.2.2", "command table": "4.2.3",
    "rest of the FIS area": "4.2.1", "memory beside": "4.2.3", "the emulator dies": "none",
}


def section_of(place: str) -> str:
    """Where AHCI 1.3.1 says what a place has."""
    side, colon, rule = place.partition(": ")
    if colon and rule in alone.RULES:
        return alone.RULES[rule].section
    if place in names.REGISTERS:
        return names.REGISTERS[place][1]
    return SECTIONS.get(place, "4.2.1" if place.endswith("FIS") else "3")


def value(it: Difference, data: bytes) -> str:
    """A value in one line: a word with the names of its bits, or bytes."""
    if len(data) == 4 and it.place in names.REGISTERS:
        bits = names.bits_of(it.place, int.from_bytes(data, "big")) if it.place not in ("CAP", "PI", "VS", "PxSIG", "PxSSTS") else []
        return data.hex() + (f"  {', '.join(bits)}" if bits else "")
    return data[:32].hex(" ") + (" .." if len(data) > 32 else "")


def where(it: Difference) -> str:
    if it.at is None:
        return ""
    return f" at sector {it.at}" if it.place == "disk" else f" at {it.at:08x}h"


def cited(name: str) -> str:
    """A rule with its section."""
    section = SECTIONS_OF_RULES[name]
    return f"{name} ({'section ' if section[0].isdigit() else ''}{section})"


def difference_lines(found: Found, facts: FrozenSet[str]) -> List[str]:
    it = found.difference
    lines = [f"  {it.place}{where(it)}  (AHCI 1.3.1, section {section_of(it.place)})"]
    if it.place == "the emulator dies":
        return [*lines, *(f"    {fact}" for fact in it.facts)]
    if ": " in it.place:
        return [*lines, "    this side breaks the rule, whatever the other does"]
    lines += [f"    rule      {cited(name)}" for name in rules_of(it, facts)]
    lines += [f"    expected  {value(it, it.expected)}", f"    got       {value(it, it.got)}"]
    bits = names.bits_of(it.place, int.from_bytes(it.mask, "big")) if it.place in names.REGISTERS else []
    lines += [f"    differs   {', '.join(bits)}"] if bits else [f"    differs   {it.mask[:32].hex(' ')}"]
    return lines + [f"    excused   {bits_.hex()} by {entry}" for entry, bits_ in it.excused]


def around(ops: Program, index: int) -> Iterator[str]:
    """The operations before a difference, and its own."""
    for at in range(max(0, index - AROUND), min(len(ops), index + 1)):
        yield f"{'>' if at == index else ' '} {at + 1:4}  {line_of(ops[at])[:150]}"


def op_text(ops: Program, index: int) -> str:
    return "power-on" if index < 0 else f"operation {index + 1}: {line_of(ops[index])[:80]}"


def new_text(result: Result) -> List[str]:
    """The new differences of a program."""
    judged, ops = result.judged, result.given.ops
    index = judged.operations - 1
    lines = [f"{result.given.name}, {op_text(ops, index)}", ""]
    new = [it for it in judged.new if it.index == index] or judged.new
    for found in new[:MOST_TOLD]:
        lines += difference_lines(found, frozenset(judged.facts))
    lines += [f"  and {len(new) - MOST_TOLD} more places"] * (len(new) > MOST_TOLD)
    beside = sorted({name for it in judged.found if it.index == index and not it.is_new for name in it.names})
    lines += [f"  beside it, known: {', '.join(beside)}"] * bool(beside)
    lines += [f"  the moment: {', '.join(judged.facts)}", f"  the model: {', '.join(judged.log[:12]) or 'nothing'}"]
    lines += [f"  rules broken without effect: {', '.join(judged.harmless)}"] * bool(judged.harmless)
    lines += ["", "The program up to it (> is where they differ):", *around(ops, index), ""]
    if result.smallest is not None:
        lines += [f"The smallest program that shows {', '.join(sorted({it.difference.place for it in new}))}:", *(f"  {line}" for line in text_of(result.smallest).splitlines()), ""]
    return lines


# ---- a whole run ----

class Row(NamedTuple):
    programs: int
    times: int
    first: str


def counted(results: List[Result]) -> Dict[str, Row]:
    """By known difference: how many programs and times have it, and where it came first."""
    rows: Dict[str, Row] = {}
    for result in results:
        here: Dict[str, int] = {}
        first: Dict[str, int] = {}
        for it in result.judged.found:
            for name in it.names:
                here[name] = here.get(name, 0) + 1
                first.setdefault(name, it.index)
        for name, times in here.items():
            row = rows.get(name, Row(0, 0, f"{result.given.name}, {op_text(result.given.ops, first[name])}"))
            rows[name] = Row(row.programs + 1, row.times + times, row.first)
    return rows


def ends(results: List[Result]) -> Dict[str, Row]:
    """Why comparisons ended before their programs did."""
    rows: Dict[str, Row] = {}
    for result in results:
        if result.judged.end:
            row = rows.get(result.judged.end, Row(0, 0, result.given.name))
            rows[result.judged.end] = Row(row.programs + 1, 0, row.first)
    return rows


def rows_of(title: str, names_: List[str], found: Dict[str, Row]) -> List[str]:
    lines = [f"| {name} | {found[name].programs:,} | {found[name].times:,} | {found[name].first} |" for name in names_ if name in found]
    return ["", f"| {title} | programs | times | first |", "|---|---|---|---|", *lines] if lines else []


def table(results: List[Result], known: Known, seconds: float) -> List[str]:
    """The end of a run."""
    bad = [it for it in results if it.judged.end == "new"]
    operations = sum(it.judged.operations for it in results)
    found, ended = counted(results), ends(results)
    after = sorted((name for name in ended if name.startswith("after ")), key=lambda name: -ended[name].programs)
    lines = ["| Programs | |", "|---|---|", f"| judged | {len(results):,} |", f"| compared to their end | {sum(not it.judged.end for it in results):,} |"]
    lines += [f"| up to a known difference that ends the comparison | {sum(it.judged.end.startswith('known') for it in results):,} |"]
    lines += [f"| up to a difference after a rule that the driver broke | {sum(ended[name].programs for name in after):,} |", f"| with a new difference | {len(bad):,} |"]
    lines += [f"| operations compared | {operations:,} |", f"| seconds | {seconds:.1f} |", f"| programs a second | {len(results) / max(seconds, 0.001):.1f} |"]
    entries = [it.name for it in known.entries]
    lines += rows_of("Known difference", [it for it in entries if it not in known.base], found)
    lines += rows_of("Any controller may differ here", list(known.base), found)
    if after:
        lines += ["", "| Differs after the driver broke | programs | first |", "|---|---|---|", *(f"| {name[6:]} | {ended[name].programs:,} | {ended[name].first} |" for name in after)]
    return lines + (new_rows(bad) if bad else [])


def brief(results: List[Result]) -> str:
    """A whole run in a line."""
    bad = [it for it in results if it.judged.end == "new"]
    names_ = f"{results[0].given.name} to {results[-1].given.name}" if results else "no program"
    what = f"{len(bad)} with a new difference" if bad else "nothing outside the list"
    return f"{names_}: {len(results):,} programs, {sum(it.judged.operations for it in results):,} operations, {what}"


def new_rows(bad: List[Result]) -> List[str]:
    """New differences by place: how many programs have them, and the first."""
    rows: Dict[str, Row] = {}
    for it in bad:
        places = ", ".join(dict.fromkeys(one.difference.place for one in it.judged.new))
        row = rows.get(places, Row(0, 0, f"{it.given.name}, {op_text(it.given.ops, it.judged.operations - 1)}"))
        rows[places] = Row(row.programs + 1, 0, row.first)
    shown = sorted(rows, key=lambda places: -rows[places].programs)
    return ["", "| New difference | programs | first |", "|---|---|---|", *(f"| {places} | {rows[places].programs:,} | {rows[places].first} |" for places in shown)]


def difference_json(judged: Judged, found: Found) -> Dict[str, Any]:
    it = found.difference
    rules = [{"name": name, "section": SECTIONS_OF_RULES[name]} for name in rules_of(it, frozenset(judged.facts))]
    return {"operation": found.index + 1, "place": it.place, "at": it.at, "expected": it.expected.hex(), "got": it.got.hex(), "differs": it.mask.hex(), "section": section_of(it.place), "rules": rules,
            "facts": sorted(it.facts), "excused": {name: bits.hex() for name, bits in it.excused}}


def as_json(result: Result) -> Dict[str, Any]:
    """One program's result for tools."""
    judged, ops = result.judged, result.given.ops
    new = None
    if judged.end == "new":
        index = judged.operations - 1
        new = {"operation": index + 1, "text": op_text(ops, index), "facts": list(judged.facts), "model": list(judged.log), "differences": [difference_json(judged, it) for it in judged.new]}
    names_: Dict[str, int] = {}
    for it in judged.found:
        for name in it.names:
            names_[name] = names_.get(name, 0) + 1
    smallest = None if result.smallest is None else text_of(result.smallest).splitlines()
    return {"program": result.given.name, "operations": judged.operations, "of": len(ops), "end": judged.end, "known": names_, "broken": list(judged.harmless), "new": new, "smallest": smallest}
