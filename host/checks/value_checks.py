"""Checks of what options are made of: numbers, words, times, rules and the generator."""
from __future__ import annotations

from typing import Dict, List, Sequence, Tuple

from probe import probed
from suite import Check, expect

MOST = (1 << 64) - 1
WORDING = {"number": "a decimal number from 1 to 100", "any": f"a decimal number from 0 to {MOST}", "bytes": "a number of bytes from 1 on, such as 4096, 512K, 64M or 1G",
           "delay": "MICROSECONDS or MICROSECONDS+JITTER, each a decimal number up to 10000000", "word": "end or flush"}
RIGHT = {
    "number": {"1": "1", "100": "100", "007": "7"},
    "any": {"0": "0", str(MOST): str(MOST)},
    "bytes": {"1": "1", "4096": "4096", "512K": "524288", "512k": "524288", "64M": "67108864", "1G": "1073741824", "2t": str(2 << 40), str(MOST): str(MOST), "16777215T": str(16777215 << 40)},
    "delay": {"0": "0+0", "10": "10+0", "10+5": "10+5", "10000000+10000000": "10000000+10000000"},
    "word": {"end": "0", "flush": "1"},
}
WRONG = {
    "number": ("", "0", "101", "-1", "+1", " 1", "1 ", "0x10", "x", "1x", "1K"),
    "any": ("", "-1", str(MOST + 1), "99999999999999999999999"),
    "bytes": ("", "0", "0K", "K", "64MB", "1.5G", "64 M", "-1", "1KK", str(MOST + 1), "16777216T", f"{1 << 54}K"),
    "delay": ("", "-1", "10000001", "x", "1+", "1+x", "1+10000001", "1+1+1", "+1"),
    "word": ("", "never", "en", "ends"),
}


def numbers(_: str) -> str:
    """Each kind of value: right ones, and wrong ones that are refused by one wording, which says what was expected and what came."""
    lines = [(kind, text, wanted) for kind, cases in RIGHT.items() for text, wanted in cases.items()]
    lines += [(kind, text, f'said --{kind}: expected {WORDING[kind]}, got "{text}"') for kind, texts in WRONG.items() for text in texts]
    found = probed(["numbers"], [f"{kind} {text}" for kind, text, _ in lines])
    for (kind, text, wanted), answer in zip(lines, found):
        expect(answer == wanted, f"{kind} `{text}`: {answer}")
    expect(len(found) == len(lines), f"{len(found)} answers to {len(lines)} values")
    return f"{len(lines)} values"


def generator(_: str) -> str:
    """The generator's first numbers, by seed: they never change, so that a seed names the same choices in each release."""
    for seed in (0, 1, 7, MOST):
        found, state = [int(it) for it in probed(["draws", str(seed), "5"], [])], (2 * seed + 1) & MOST
        for number in found:
            state ^= state >> 12
            state ^= state << 25 & MOST
            state ^= state >> 27
            expect(number == state * 2685821657736338717 & MOST, f"seed {seed}: {found}")
    expect(probed(["draws", "1", "3"], []) == FIRST, f"seed 1 gives {probed(['draws', '1', '3'], [])}")
    return "four seeds"


FIRST = ["15541476885619185495", "247403287327551319", "9126131361558105204"]

# a command: first sector, how many, read or write, its number, microseconds since the start
Command = Tuple[int, int, str, int, int]
SPANS: List[Command] = [(9, 1, "r", 1, 0), (10, 1, "r", 2, 0), (12, 1, "w", 3, 0), (13, 1, "r", 4, 0), (8, 2, "r", 5, 0), (8, 3, "r", 6, 0), (0, 64, "w", 7, 0)]
SAME: List[Command] = [(5, 1, "rw"[at % 2], at + 1, 1_000_000 * at) for at in range(6)]


def applied(kind: str, rules: Sequence[str], commands: Sequence[Command]) -> List[str]:
    return probed(["rules", kind, "64", *rules], [" ".join(map(str, it)) for it in commands])


def rules(_: str) -> str:
    """Which commands a rule is about: each WHERE, count and condition, for each kind of rule; the first rule that applies decides."""
    cases: List[Tuple[str, Sequence[str], Sequence[Command], str]] = [
        ("fail", ["10-12:40:ever"], SPANS, "-00--00"), ("fail", ["10:40"], SPANS, "-0-----"), ("fail", ["10:40:2"], SPANS, "-0---0-"), ("fail", ["any:04:3"], SPANS, "000----"),
        ("fail", ["any:40:ever,reads"], SAME, "0-0-0-"), ("fail", ["any:40:2,writes"], SAME, "-0-0--"), ("fail", ["any:40,commands=2-3"], SAME, "-00---"),
        ("fail", ["any:40,commands=4"], SAME, "---0--"), ("fail", ["any:40:1,commands=2-9"], SAME, "-0----"), ("fail", ["any:40,seconds=1-3"], SAME, "-00---"),
        ("fail", ["any:40,seconds=0.5-1.000001"], SAME, "-0----"), ("fail", ["5:40:1,reads", "any:10:ever"], SAME, "011111"), ("fail", ["any:40,rate=2/2"], SAME, "000000"),
        ("slow", ["10-12:1000"], SPANS, "-00--00"), ("slow", ["any:1000:2,reads"], SAME, "0-0---"), ("stall", ["10"], SPANS, "-0-----"), ("stall", ["10-12:ever"], SPANS, "-00--00"),
        ("stall", ["any:2,writes"], SAME, "-0-0--"), ("stall", ["any,commands=3"], SAME, "--0---"), ("stall", ["5:1", "any,seconds=4-9"], SAME, "0---11"),
    ]
    for kind, given, commands, wanted in cases:
        found = "".join(it.split()[0] for it in applied(kind, given, commands))
        expect(found == wanted, f"{kind} {' '.join(given)}: {found}, and {wanted} is right")
    expect(applied("fail", ["5:4f"], SAME)[0] == "0 4f", "the error byte is another")
    slow = [int(it.split()[1]) for it in applied("slow", ["any:100+50"], SAME * 20)]
    expect(min(slow) >= 100 and max(slow) <= 150 and len(set(slow)) > 10, f"slow commands take {min(slow)} to {max(slow)}")
    return f"{len(cases)} rules"


def rates(_: str) -> str:
    """rate=N/M: about that many of 2,000 commands, the same ones for the same seed."""
    commands: List[Command] = [(0, 1, "r", at + 1, 0) for at in range(2000)]
    once, again, other = ([at for at, it in enumerate(applied("fail", [f"any:40,rate=1/10,seed={seed}"], commands)) if it != "-"] for seed in (5, 5, 6))
    expect(once == again and once != other, "a seed does not name the commands that fail")
    # one in ten: 200, and five standard deviations of 13.4
    expect(130 <= len(once) <= 270 and 130 <= len(other) <= 270, f"{len(once)} and {len(other)} of 2,000 commands failed, and one in ten was to")
    return f"{len(once)} of 2,000, and {len(other)} by another seed"


def refused(kind: str, given: Sequence[str]) -> str:
    """What is said of a rule that is refused."""
    return probed(["rules", kind, "64", *given], [], status=1)[0]


def wrong_rules(_: str) -> str:
    """Each wrong rule is refused, by a line that says what was expected and what came."""
    rest = ("", ":0", ":x", ":-1", ": 1", ":1:1", ":evers", ",", ",read", ",reads,writes", ",commands=0", ",commands=2-1", ",commands=", ",seconds=1", ",seconds=2-1", ",seconds=1-1",
            ",seconds=x-1", ",rate=1", ",rate=0/2", ",rate=3/2", ",rate=1/", ",seed=x", ",seed=", " ,reads", "x")
    bad_where = ("", "x", "-1", "2-1", "1-", f"{MOST + 1}", "anyone", "ANY", " 1")
    actions: Dict[str, Tuple[str, Sequence[str]]] = {
        "fail": (":40", ("", ":", ":4", ":4g", ":400", ":+4", ": 40", ":0x40")), "slow": (":10", ("", ":", ":x", ":1+", ":1+x", ":10000001", ":1+10000001")), "stall": ("", ())}
    count = 0
    for kind, (right, wrong) in actions.items():
        values = [f"{it}{right}" for it in bad_where] + [f"1{it}" for it in wrong] + [f"1{right}{it}" for it in rest if it]
        for value in values:
            said, action = refused(kind, [value]), {"fail": ":EE", "slow": ":MICROSECONDS[+JITTER]", "stall": ""}[kind]
            expect(said.startswith(f"said --{kind}: expected WHERE{action}[:COUNT]") and said.endswith(f', got "{value}"'), f"{kind} `{value}`: {said}")
            count += 1
        for given, says in ((["64" + right], "64..: the disk has 64 sectors"), (["0-64" + right], "64..: the disk has 64 sectors"), (["1" + right] * 65, "it may be given 64 times at most")):
            expect(says in refused(kind, given), f"{kind} {given[0]}: {refused(kind, given)}")
    return f"{count} are refused"


CHECKS = [Check(it) for it in (numbers, generator, rules, rates, wrong_rules)]
