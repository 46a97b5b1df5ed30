"""How a planted fault is found: by random programs, at its places, and under the rule that it breaks."""
import fnmatch
from typing import Callable, Iterator, List, NamedTuple, Tuple

from controller import cli
from controller.adapter import Controller
from controller.campaign import Given, Worker
from controller.generate import program
from controller.known import read_known
from controller.rules import rules_of

MOST = 300
LEVELS = ("good", "errors", "sloppy", "wild", "held")


class Found(NamedTuple):
    """Where a fault differs first, at which places, and where its rule is named; nothing where it is not."""

    first: str
    places: List[str]
    named: str
    others: List[str]  # rules that are named and that are not the fault's


def programs() -> Iterator[Given]:
    for at in range(MOST):
        level, seed = LEVELS[at % len(LEVELS)], 1 + at // len(LEVELS)
        yield Given(f"{level} {seed}", program(seed, level))


def found(make: Callable[[], Controller], rule: str) -> Found:
    worker = Worker(make, read_known(cli.BASE))
    first, places, others = "", [], []  # type: str, List[str], List[str]
    for given in programs():
        judged = worker.judge(given.ops)
        if judged.end != "new":
            continue
        where = f"{given.name}, operation {judged.operations}"
        names = {name for it in judged.new for name in rules_of(it.difference, frozenset(judged.facts))}
        first, places = first or where, places or [it.difference.place for it in judged.new]
        if rule in names:
            return Found(first, places, where, others)
        others += sorted(names - set(others))
    return Found(first, places, "", others)


def fault_of(it: Found, name: str, places: Tuple[str, ...], rule: str) -> str:
    """What is wrong with a finding; nothing if it is as it should be."""
    if not it.first:
        return f"{name} isn't found within {MOST} programs"
    if not any(fnmatch.filter(it.places, place) for place in places):
        return f"{name} is found at {it.places}"
    return "" if it.named else f"{name}: no program names the rule '{rule}', and some name {it.others}"
