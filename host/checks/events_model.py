"""Scripts of events at random, and what README.md says of them as a plain program: the C is checked against it."""
from __future__ import annotations

import random
from typing import Callable, Dict, Iterator, List, NamedTuple, Tuple

MASK = (1 << 64) - 1
NO_END = MASK
ABOUT_COMMANDS = ("stall", "slow", "fail", "end")
QUEUED = ("60", "61")
EITHER = ("no_memory", "lose_interrupt", "late_interrupt")
ORDER = (*ABOUT_COMMANDS, *EITHER, "send_interrupt", "power_on", "power_loss")


class Draws:
    """The generator of host/: xorshift64*, from an odd state."""

    def __init__(self, seed: int) -> None:
        self.state = (2 * seed + 1) & MASK

    def next(self) -> int:
        self.state ^= self.state >> 12
        self.state ^= self.state << 25 & MASK
        self.state ^= self.state >> 27
        return self.state * 2685821657736338717 & MASK


class Event(NamedTuple):
    name: str
    error: int = 0
    time: int = 0
    jitter: int = 0

    def text(self) -> str:
        if self.name in ("fail", "end"):
            return f"{self.name} {self.error:02x}"
        if self.name == "slow":
            return f"slow {self.time}us+{self.jitter}us"
        return f"{self.name} {self.time}us" if self.name in ("wait", "late_interrupt") else self.name


class Command(NamedTuple):
    code: int
    tag: int
    writes: bool
    lba: int
    sectors: int
    number: int
    since: int

    def text(self) -> str:
        return f"command {self.code:02x} {self.tag} {'w' if self.writes else 'r'} {self.lba} {self.sectors} {self.number} {self.since}"


class Line:
    """One line, and how far it is."""

    def __init__(self, rng: random.Random, row: int) -> None:
        self.row = row
        self.place = rng.choice(["every", "first", "nth", "every nth", "from"])
        self.nth = rng.randrange(1, 5)
        self.kind = rng.choice(["any", "read", "write", "60", "61", "EC", "EA"])
        self.sectors = tuple(sorted((rng.randrange(40), rng.randrange(40)))) if rng.random() < 0.4 else None
        self.tags = tuple(sorted((rng.randrange(32), rng.randrange(32)))) if rng.random() < 0.2 else None
        self.numbers = tuple(sorted((rng.randrange(1, 100), rng.randrange(1, 300)))) if rng.random() < 0.2 else None
        self.during = (lambda a, b: (a, a + b))(rng.randrange(50) * 1000, rng.randrange(1, 200) * 1000) if rng.random() < 0.2 else None
        self.chance = (rng.randrange(1, 4), 4) if rng.random() < 0.3 else None
        self.seed = rng.randrange(50) if rng.random() < 0.5 else None
        self.repeat = rng.choice([None, None, 1, 3, NO_END])
        self.events = self.some_events(rng, self.kind not in QUEUED)
        self.front = next((at for at, it in enumerate(self.events) if it.name not in ABOUT_COMMANDS + EITHER), len(self.events))
        self.draws = Draws(row if self.seed is None else self.seed)
        self.matched = self.happened = 0
        self.left: List[Event] = []
        self.due = 0

    @staticmethod
    def some_events(rng: random.Random, may_end: bool) -> List[Event]:
        times = {"slow": (rng.randrange(900), rng.randrange(1, 90)), "wait": (rng.randrange(1, 30000), 0), "late_interrupt": (rng.randrange(1, 900), 0)}
        fronts: List[List[str]] = [["stall"], ["slow"], ["fail"], ["slow", "fail"], ["fail", "no_memory"], ["lose_interrupt"], ["late_interrupt", "no_memory"], []]
        fronts += [["end"], ["slow", "end", "no_memory"]] if may_end else []
        rests: List[List[str]] = [[], [], ["send_interrupt"], ["wait", "power_on"], ["wait", "lose_interrupt", "wait", "send_interrupt"], ["send_interrupt", "no_memory"]]
        names = (rng.choice(fronts) + rng.choice(rests)) or ["fail"]
        return [Event(it, rng.randrange(256), *times.get(it, (0, 0))) for it in names]

    def text(self) -> str:
        ending = {1: "st", 2: "nd", 3: "rd"}.get(self.nth, "th")
        words = [{"every": "on every", "first": "on first", "nth": f"on {self.nth}{ending}", "every nth": f"on every {self.nth}{ending}", "from": f"from {self.nth}{ending} on"}[self.place]]
        words += [self.kind if self.kind in ("any", "read", "write") else f"command {self.kind}"]
        words += [f"{name} {span[0]}-{span[1]}" for name, span in (("sectors", self.sectors), ("tags", self.tags), ("numbers", self.numbers)) if span]
        words += [f"during {self.during[0]}us-{self.during[1]}us"] if self.during else []
        words += [f"probability {self.chance[0]}/{self.chance[1]}"] if self.chance else []
        words += [f"seed {self.seed}"] if self.seed is not None else []
        words += ["do", " then ".join(it.text() for it in self.events)]
        words += [] if self.repeat is None else ["repeat ever" if self.repeat == NO_END else f"repeat {self.repeat}"]
        return " ".join(words)

    def is_about(self, it: Command) -> bool:
        named = {"any": it.sectors > 0, "read": it.sectors > 0 and not it.writes, "write": it.sectors > 0 and it.writes}
        ends = any(event.name == "end" for event in self.events[:self.front])
        return (named[self.kind] if self.kind in named else int(self.kind, 16) == it.code) and not (ends and f"{it.code:x}" in QUEUED) and \
            (not self.sectors or any(self.sectors[0] <= lba <= self.sectors[1] for lba in range(it.lba, it.lba + it.sectors))) and \
            (not self.tags or self.tags[0] <= it.tag <= self.tags[1]) and (not self.numbers or self.numbers[0] <= it.number <= self.numbers[1]) and \
            (not self.during or self.during[0] <= it.since < self.during[1])

    def most(self) -> int:
        usual = {"first": 1, "nth": 1}.get(self.place, NO_END)
        return usual if self.repeat is None else self.repeat

    def is_place(self) -> bool:
        if self.place == "every nth":
            return self.matched % self.nth == 0
        return self.matched >= {"every": 1, "first": 1}.get(self.place, self.nth)

    def happens(self, since: int) -> bool:
        if not self.is_place() or self.happened >= self.most() or self.left:
            return False
        if self.chance and self.draws.next() % self.chance[1] >= self.chance[0]:
            return False
        self.happened += 1
        self.left, self.due = self.events[self.front:], since
        self.skip()
        return True

    def skip(self) -> None:
        """Passes over waits."""
        while self.left and self.left[0].name == "wait":
            self.due += self.left.pop(0).time

    def shown(self, event: Event) -> str:
        if event.name in ("fail", "end"):
            return f"{self.row} {event.name} {event.error:02X}"
        if event.name == "slow":
            return f"{self.row} slow {event.time + self.draws.next() % (event.jitter + 1)}"
        return f"{self.row} {event.name}" + (f" {event.time}" if event.name == "late_interrupt" else "")


def first_of(named: Iterator[Tuple[Line, Event]], applies: Callable[[Line], bool]) -> List[Tuple[Line, Event]]:
    """The first line that applies, with its event; the lines after it are not asked."""
    for line, event in named:
        if applies(line):
            return [(line, event)]
    return []


def decided(lines: List[Line], it: Command) -> Iterator[str]:
    """What becomes of a command: for each event the first line decides that applies; each line is asked once."""
    answers: Dict[int, bool] = {}
    about = [line for line in lines if line.is_about(it)]
    for line in about:
        line.matched += 1

    def applies(line: Line) -> bool:
        if line.row not in answers:
            answers[line.row] = line.happens(it.since)
        return answers[line.row]

    found: List[Tuple[Line, Event]] = []
    for name in ORDER:
        if name in ("slow", "fail", "end") and any(event.name == "stall" for _, event in found):
            continue
        found += first_of(((line, event) for line in about for event in line.events[:line.front] if event.name == name), applies)
    for line in about:
        if line.front < len(line.events):
            applies(line)
    for line, event in found:
        yield line.shown(event)


def taken(lines: List[Line], since: int) -> Iterator[str]:
    """What is due of the events that come by themselves."""
    while True:
        waiting = sorted((line for line in lines if line.left and line.due <= since), key=lambda line: (line.due, line.row))
        if not waiting:
            return
        line = waiting[0]
        yield line.shown(line.left.pop(0))
        line.skip()


def some_commands(rng: random.Random, count: int) -> Iterator[Command]:
    since = number = 0
    for _ in range(count):
        since += rng.randrange(2000)
        code = rng.choice([0x60, 0x61, 0x60, 0x61, 0xEC, 0xEA])
        sectors = rng.randrange(1, 5) if code in (0x60, 0x61) else 0
        number += sectors > 0
        yield Command(code, rng.randrange(32), code == 0x61, rng.randrange(40) if sectors else 0, sectors, number if sectors else 0, since)
