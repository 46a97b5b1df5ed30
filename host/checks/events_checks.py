"""Checks of scripts of events: their grammar, what is said of wrong lines, what they decide, and the scripts that are shipped."""
from __future__ import annotations

import glob
import os
import random
import subprocess
from typing import Dict, List, Sequence, Tuple

import events_model
import pace
from probe import HERE, SECONDS, probed
from suite import Check, expect

JUDGE = os.path.join(HERE, "out", "events-check")
SHIPPED = os.path.join(HERE, "events")
SERVERS = ("hba", "nbd")


def judged(server: str, path: str) -> Tuple[int, List[str], List[str]]:
    """The status of the judge, the lines that it prints, and what it says."""
    done = pace.ran([JUDGE, "--for", server, path], SECONDS, stdout=subprocess.PIPE, stderr=subprocess.PIPE, text=True)
    return done.returncode, done.stdout.splitlines(), done.stderr.splitlines()


def written(room: str, text: str) -> str:
    path = os.path.join(room, "it.events")
    with open(path, "w", encoding="utf-8") as file:
        file.write(text)
    return path


# a line, and the same line as it is printed
RIGHT: Dict[str, str] = {
    "on first read do fail 40": "on first read do fail 40", "on 1st reads do fail 4f": "on first read do fail 4F", "on 3th any do stall": "on 3rd any do stall",
    "on every writes do slow 20000us": "on every write do slow 20ms", "on every 1st write do slow 1.5ms+500us": "on every write do slow 1.5ms+500us",
    "on every 11th write do slow 10s": "on every 11th write do slow 10s", "from 22nd on any do fail 04": "from 22nd on any do fail 04",
    "on 22nd any do fail 04 repeat ever": "from 22nd on any do fail 04", "from 3rd on any do fail 04 repeat 2": "on 3rd any do fail 04 repeat 2",
    "on every any do fail 04 repeat 3": "on first any do fail 04 repeat 3", "on every 2nd any do fail 04 repeat 3": "on every 2nd any do fail 04 repeat 3",
    "on first READ FPDMA QUEUED do fail 40": "on first READ FPDMA QUEUED do fail 40", "on first command 60 do fail 40": "on first READ FPDMA QUEUED do fail 40",
    "on first command WRITE FPDMA QUEUED slot 31 do fail 84": "on first WRITE FPDMA QUEUED tag 31 do fail 84", "on first sector 5 do fail 40": "on first any sector 5 do fail 40",
    "on first sectors 5-5 do fail 40": "on first any sector 5 do fail 40",
    "on first tags 0-7 sectors 1-2 numbers 3-4 write do fail 40": "on first write sectors 1-2 tags 0-7 numbers 3-4 do fail 40",
    "on every any during 0.5s-90.25s probability 1/100 seed 0 do fail 40": "on every any during 500ms-90.25s probability 1/100 seed 0 do fail 40",
    "\ton  first any do fail 40 # why": "on first any do fail 40", "on first any do slow 1ms then fail 40 repeat 1": "on first any do slow 1ms then fail 40",
}
RIGHT_FOR_HBA: Dict[str, str] = {
    "on first command ec do fail 04": "on first IDENTIFY DEVICE do fail 04", "on first command FF do stall": "on first command FF do stall",
    "on every READ DMA do stall": "on every READ DMA do stall",
    "on every READ DMA EXT do stall": "on every READ DMA EXT do stall", "on every READ SECTOR(S) do stall": "on every READ SECTOR(S) do stall",
    "on every READ SECTOR(S) EXT do stall": "on every READ SECTOR(S) EXT do stall",
    "on 2nd write PxSCTL during 1s-2s do lose_interrupt": "on 2nd write PxSCTL during 1s-2s do lose_interrupt",
    "on every write GHC do send_interrupt": "on every write GHC do send_interrupt",
    "on time 2500ms do power_on then wait 20ms then send_interrupt repeat 3": "on time 2.5s do power_on then wait 20ms then send_interrupt repeat 3",
    "on time 1us do late_interrupt 1000us repeat ever": "on time 1us do late_interrupt 1ms repeat ever",
    "on first write PxSIG do power_loss": "on first write PxSIG do power_loss", "on time 2s do power_loss seed 0 repeat 2": "on time 2s do power_loss seed 0 repeat 2",
    "on every any seed 3 do power_loss seed 18446744073709551615 then power_loss": "on every any seed 3 do power_loss seed 18446744073709551615 then power_loss",
    "on first write do no_memory then lose_interrupt": "on first write do no_memory then lose_interrupt",
    "on time 1s do unplug then plug another then unplug then plug": "on time 1s do unplug then plug another then unplug then plug",
    "on time 1s do plug another  ./b.img then plug another another then plug another c repeat 2": "on time 1s do plug another ./b.img then plug another another then plug another c repeat 2",
}


def right_lines(room: str) -> str:
    """Each form of a line is printed in one form, and that form as itself."""
    for server in SERVERS:
        cases = {**RIGHT, **RIGHT_FOR_HBA} if server == "hba" else {it: by for it, by in RIGHT.items() if "stall" not in it}
        for lines in (list(cases), list(cases.values())):
            status, printed, said = judged(server, written(room, "".join(f"{it}\n" for it in ["# a comment", "", *lines])))
            expect(status == 0 and not said, f"{server}: status {status}, {said[:3]}")
            for line, wanted, found in zip(lines, cases.values(), printed):
                expect(found == wanted, f"`{line}` is printed as `{found}`, and `{wanted}` is right")
            expect(len(printed) == len(lines), f"{len(printed)} lines of {len(lines)}")
    return f"{len(RIGHT) + len(RIGHT_FOR_HBA)} lines"


HBA_EVENTS = ("an event that hba has (stall, slow, fail, end, no_memory, memory_error, lose_interrupt, late_interrupt, send_interrupt, power_on, power_loss, "
              "lose_link, find_link, unplug, plug, decode_error, fatal_decode_error, crc_error, fatal_crc_error, handshake_error, fatal_handshake_error, "
              "sequence_error, fatal_sequence_error, transport_error, fatal_transport_error, packet_signature, bridge_signature, multiplier_signature, notification, "
              "spurious_bits, spurious_register, unknown_fis, hold_signature, lose_signature, wrong_log_tag, wrong_log_nq, wrong_log_sum, slow_cr, slow_fr, slow_clo, "
              "slow_hr, wait)")
NBD_EVENTS = "an event that nbd has (slow, fail)"
PLACE = "every, first, a place such as 3rd, or time"
END = "\0"  # the end of the line
# a line, the column that is named, what is expected, and what stands there
WRONG: Sequence[Tuple[str, int, str, str]] = (
    ("off first read do fail 40", 1, "on or from", "off"), ("on", 3, PLACE, END), ("on read do fail 40", 4, PLACE, "read"), ("on 0th read do fail 40", 4, PLACE, "0th"),
    ("from 5 on read do fail 40", 6, "a place such as 5th", "5"), ("from 5th read do fail 40", 10, "on", "read"),
    ("on first do fail 40", 10, "a condition, such as any, write or sectors 100-199", "do"),
    ("on 2nd command foo do fail 40", 16, "a command's name or number", "foo"), ("on 2nd command 6 do fail 40", 16, "a command's name or number", "6"),
    ("on 2nd READ FOO do fail 40", 8, "a condition, such as a command's name, or do", "READ"), ("on 2nd read fail 40", 13, "do, or a condition that is not given yet", "fail"),
    ("on 2nd read write do fail 40", 13, "do, or a condition that is not given yet", "write"), ("on 2nd sectors 2-1 do fail 40", 16, "a sector or a span of sectors, such as 100-199", "2-1"),
    ("on 2nd sector 5 sector 6 do fail 40", 17, "do, or a condition that is not given yet", "sector"),
    ("on 2nd tag 32 do fail 40", 12, "a tag or slot from 0 to 31, or a span of them", "32"),
    ("on 2nd number 0 do fail 40", 15, "a command's number from 1 on, or a span such as 5000-5009", "0"),
    ("on 2nd any during 2s-1s do fail 40", 19, "two times, the first one less, such as 10s-12.5s", "2s-1s"),
    ("on 2nd any during 1-2 do fail 40", 19, "two times, the first one less, such as 10s-12.5s", "1-2"),
    ("on 2nd any probability 2/1 do fail 40", 24, "a fraction of at most 1, such as 1/100", "2/1"),
    ("on 2nd any seed x do fail 40", 17, "a number", "x"), ("on 2nd any do", 14, HBA_EVENTS, END), ("on 2nd any do explode # now", 15, HBA_EVENTS, "explode"),
    ("on 2nd any do fail 4", 20, "an error byte of two hexadecimal digits, such as 40", "4"), ("on 2nd any do fail", 19, "an error byte of two hexadecimal digits, such as 40", END),
    ("on 2nd any do slow 11s", 20, "a time of at most 10s, such as 20ms, perhaps with one to be added at random, such as 20ms+5ms", "11s"),
    ("on 2nd any do fail 40 wait 1s", 23, "then, repeat or the end of the line", "wait"),
    ("on 2nd any do fail 40 then wait 1.5us then send_interrupt", 33, "a time, such as 20ms or 2.5s", "1.5us"),
    ("on 2nd any do fail 40 then wait 1s", 35, "then and an event, for which to wait", END),
    ("on time 1s do power_loss seed x", 31, "a number", "x"), ("on time 1s do power_loss 5", 26, "then, repeat or the end of the line", "5"),
    ("on 2nd any do fail 40 repeat 0", 30, "a number from 1 on, or ever", "0"), ("on 2nd any do fail 40 repeat 2 times", 32, "the end of the line", "times"),
    ("on 2nd any do fail 40 then fail 04", 28, "an event that can come beside those before it", "fail"),
    ("on 2nd any do stall then fail 04", 26, "an event that can come beside those before it", "fail"),
    ("on 2nd any do send_interrupt then fail 04", 35, "no event about the command after a wait or an event about the controller", "fail"),
    ("on time 2s do fail 40", 15, "an event that is about no command, since none is at hand", "fail"), ("on time 0s do power_on", 9, "a time since the start, such as 2.5s", "0s"),
    ("on 2nd write PxCMD do stall", 23, "an event that is about no command, since none is at hand", "stall"),
    ("on 2nd write PxCMD sector 5 do power_on", 20, "do, during, probability or seed, since a register is written", "sector"),
    ("on 2nd sector 5 write PxCMD do power_on", 23, "do or a condition, and no register beside sectors, tags or numbers of commands", "PxCMD"),
    ("on time 1s do plug other", 20, "then, repeat or the end of the line", "other"), ("on time 1s do plug b.img", 20, "then, repeat or the end of the line", "b.img"),
    ("on time 1s do plug another b.img c.img", 34, "then, repeat or the end of the line", "c.img"),
    ("on 2nd write PxFOO do power_on", 14, "a register, such as PxCMD", "PxFOO"),
)
WRONG_FOR_NBD: Sequence[Tuple[str, int, str, str]] = (
    ("on 2nd any do stall", 15, NBD_EVENTS, "stall"), ("on time 1s do plug another b.img", 15, NBD_EVENTS, "plug"), ("on time 1s do power_on", 15, NBD_EVENTS, "power_on"),
    ("on 2nd write PxCMD do fail 40", 14, "a condition of commands, since nbd has no registers", "PxCMD"),
    ("on 2nd IDENTIFY DEVICE do fail 40", 8, "READ FPDMA QUEUED or WRITE FPDMA QUEUED, which are all that nbd issues", "IDENTIFY"),
)


def wrong_lines(room: str) -> str:
    """Each wrong line is reported, with its place, what was expected and what is there; and none of the right ones beside them is printed."""
    for server, cases in (("hba", WRONG), ("nbd", WRONG_FOR_NBD)):
        path = written(room, "".join(f"on first any do fail 40\n{line}\n" for line, *_ in cases))
        status, printed, said = judged(server, path)
        expect(status == 2 and not printed, f"status {status}, and {printed[:2]} is printed")
        for at, (line, column, wanted, there) in enumerate(cases):
            right = f"{path}:{2 * at + 2}:{column}: expected {wanted}, got " + ("the end of the line" if there == END else f'"{there}"')
            expect(at < len(said) and said[at] == right, f"`{line}`: {said[at] if at < len(said) else 'nothing is said'}, and `{right}` is right")
        expect(len(said) == len(cases), f"{len(said)} messages for {len(cases)} lines")
    return f"{len(WRONG) + len(WRONG_FOR_NBD)} are refused"


def wrong_files(room: str) -> str:
    """A file that is not there, is too long, has a byte of no text, too long a line, too many lines or too many events; and sectors past the disk's end."""
    path = written(room, "")
    line, many = "on first any do fail 40", "on first any do fail 40 then " + " then ".join(["send_interrupt"] * 16)
    cases = ((b"\x00", "1:1: expected a character of ASCII, got the byte 00"), (f"# \u00e9\n{line} \u00e9".encode(), "2:25: expected a character of ASCII, got the byte c3"),
             (f"{line} {' ' * 1000}x".encode(), "1:1001: expected a line of at most 1000 characters"),
             (f"{line}\n".encode() * 1025, '1025:1: expected at most 1024 lines with those of options, got "on"'),
             (b"#" * ((1 << 20) + 1), " a script has at most 1048576 bytes"), (many.encode(), '330: expected at most 16 events, got "send_interrupt"'))
    for text, wanted in cases:
        with open(path, "wb") as file:
            file.write(text)
        status, _, said = judged("hba", path)
        expect(status == 2 and len(said) == 1 and said[0].endswith(wanted) and said[0].startswith(f"{path}:"), f"{text[:30]!r}: status {status}, {said[:2]}")
    status, _, said = judged("hba", path + ".none")
    expect(status == 2 and said == [f"{path}.none: it can't be read: No such file or directory"], f"{said}")
    says = probed(["events", "hba", written(room, f"{line}\non first any sectors 5-64 do fail 40\n"), "64"], [], status=1)
    expect(says == [f"said {path}:2: sector 64: the disk has 64 sectors"], f"{says}")
    return f"{len(cases) + 2} files"


def happened(room: str, script: str, lines: Sequence[str], server: str = "hba") -> List[str]:
    return [it.rstrip("; ") for it in probed(["events", server, written(room, script), "1000"], list(lines))]


READ, WRITE, FLUSH = "command 60 3 r 100 8 1 0", "command 61 4 w 200 8 2 0", "command EA 0 r 0 0 0 0"


def decisions(room: str) -> str:
    """What single lines decide: places, kinds of commands, registers, times, waits; and which lines never happened is said at the end."""
    cases: Sequence[Tuple[str, Sequence[str], Sequence[str]]] = (
        ("on 2nd read do fail 40", [READ, WRITE, READ, READ], ["", "", "1 fail 40", ""]),
        ("on every 2nd any do fail 40 repeat 2", [READ] * 7, ["", "1 fail 40", "", "1 fail 40", "", "", ""]),
        ("from 3rd on any do fail 40", [READ] * 4, ["", "", "1 fail 40", "1 fail 40"]), ("on first any do fail 40 repeat 2", [READ] * 3, ["1 fail 40", "1 fail 40", ""]),
        ("on every FLUSH CACHE EXT do fail 04", [READ, FLUSH], ["", "1 fail 04"]), ("on every any do fail 04", [FLUSH, READ], ["", "1 fail 04"]),
        ("on every tag 4 do fail 04", [READ, WRITE], ["", "1 fail 04"]), ("on every WRITE FPDMA QUEUED sector 207 do fail 04", [READ, WRITE], ["", "1 fail 04"]),
        ("on first any do stall\non every any do fail 40", [READ, READ], ["1 stall", "2 fail 40"]),
        ("on first any do slow 5us\non every any do slow 9us then fail 40", [READ, READ], ["1 slow 5; 2 fail 40", "2 slow 9; 2 fail 40"]),
        ("on first any do fail 40 then wait 2ms then send_interrupt", [READ, "time 1999", "time 2000", "time 3000"], ["1 fail 40", "", "1 send_interrupt", ""]),
        ("on first any do lose_interrupt then wait 1ms then lose_interrupt", [READ, "time 1000"], ["1 lose_interrupt", "1 lose_interrupt"]),
        ("on time 1s do power_on repeat 2", ["time 999999", "time 1000000", "time 1999999", "time 5000000"], ["", "1 power_on", "", "1 power_on"]),
        ("on first any do power_loss\non 2nd any seed 9 do power_loss then power_loss seed 4", [READ, "time 0", READ, "time 0"], ["", "1 power_loss 1", "", "2 power_loss 9; 2 power_loss 4"]),
        ("on time 1s do plug another b.img then plug another then plug then plug another c", ["time 1000000"], ["1 plug another b.img; 1 plug another; 1 plug; 1 plug another c"]),
        ("on time 1s do power_on then wait 3s then send_interrupt repeat 2", ["time 1000000", "time 4000000", "time 5000000", "time 9000000"],
         ["1 power_on", "1 send_interrupt", "1 power_on", "1 send_interrupt"]),
        ("on 2nd write PxSCTL do late_interrupt 5us", ["wrote 12c 4 0", "wrote 128 4 0", "wrote 130 4 0", "time 0", "wrote 128 8 0", "time 0"], ["", "", "", "", "", "1 late_interrupt 5"]),
        ("on every any do wait 1ms then send_interrupt", [READ, READ, "time 1000", READ, "time 1000"], ["", "", "1 send_interrupt", "", "1 send_interrupt"]),
    )
    for script, lines, wanted in cases:
        found = happened(room, script, lines)
        expect(found == list(wanted), f"`{script}`: {found}, and {list(wanted)} is right")
    notes = happened(room, "# two\non 2nd any do fail 40\non first any do fail 40\n\non time 1s do power_on\n", [READ])
    path = os.path.join(room, "it.events")
    expect(notes[1:] == [f"{path}:2: it never happened: on 2nd any do fail 40", f"{path}:5: it never happened: on time 1s do power_on"], f"{notes}")
    return f"{len(cases)} scripts"


def as_the_model(room: str) -> str:
    """Scripts and commands at random: the same is decided as by a plain program in Python, with the same draws."""
    rng, events = random.Random(20), 0
    for _ in range(40):
        lines = [events_model.Line(rng, row) for row in range(1, rng.randrange(2, 9))]
        reported: List[str] = []
        wanted: List[str] = []
        for command in events_model.some_commands(rng, 150):
            reported += [command.text(), f"time {command.since}"]
            wanted += ["; ".join(events_model.decided(lines, command)), "; ".join(events_model.taken(lines, command.since))]
        script = "".join(f"{it.text()}\n" for it in lines)
        found = happened(room, script, reported)[:len(reported)]
        wrong = next((at for at in range(len(reported)) if found[at] != wanted[at]), None)
        expect(wrong is None, f"{script}{reported[wrong or 0]}: {found[wrong or 0]}, and {wanted[wrong or 0]} is right")
        events += sum(it != "" for it in wanted)
    return f"{events} decisions"


def mutated_lines(_: str) -> str:
    """100,000 lines made of good ones: none crashes the parser, each that is accepted parses to the same after it was printed, each other one has one message."""
    lines = [*RIGHT, *RIGHT_FOR_HBA, *(line for line, *_ in WRONG)]
    found = probed(["fuzz", "1", "100000"], lines)[0]
    accepted = int(found.split()[0]) if found.endswith("refused") else 0
    expect(accepted >= 5000, found)
    return found


def shipped(_: str) -> str:
    """Each script that is shipped is right for the servers that its first line names, says what a correct driver does and where the standard says it, and is named in README.md."""
    paths = sorted(glob.glob(os.path.join(SHIPPED, "*.events")))
    with open(os.path.join(SHIPPED, "README.md"), encoding="utf-8") as file:
        page = file.read()
    for path in paths:
        with open(path, encoding="utf-8") as file:
            text = file.read()
        servers = [it for it in SERVERS if it in text.splitlines()[0].replace(",", " ").split()]
        comment = " ".join(line.lstrip("# ") for line in text.splitlines() if line.startswith("#"))
        expect(bool(servers) and "driver" in comment and "section" in comment, f"{path}: its comment names no server, driver or section")
        for server in SERVERS:
            status, printed, said = judged(server, path)
            expect((status == 0 and bool(printed)) == (server in servers), f"{path} for {server}: status {status}, {said[:2]}")
        expect(f"`{os.path.basename(path)}`" in page, f"README.md has no {os.path.basename(path)}")
    expect(len(paths) == page.count(".events` |"), f"{len(paths)} scripts, and README.md names {page.count('.events` |')}")
    return f"{len(paths)} scripts"


def table(_: str) -> str:
    """The table of events of README.md is that of the program."""
    with open(os.path.join(HERE, "README.md"), encoding="utf-8") as file:
        rows = [[it.strip().strip("`") for it in line.strip("|\n ").split("|")] for line in file if line.startswith("| `")]
    printed = pace.ran([JUDGE, "--list"], SECONDS, stdout=subprocess.PIPE, text=True).stdout.splitlines()
    for line in printed:
        expect(line.split("; ") in rows, f"README.md has no row `{line}`")
    return f"{len(printed)} events"


CHECKS = [Check(it) for it in (right_lines, wrong_lines, wrong_files, decisions, as_the_model, mutated_lines, shipped, table)]
