"""Checks of scripts of events: a small driver takes steps while a script goes on, and what comes of each is known before."""
from __future__ import annotations

import os
import subprocess
from typing import List, Sequence, Tuple

import errors
from harness import HERE, PROGRAM, SANITIZED, Guest
from images import VFIO_USER
import pace
from suite import Check, expect

EVENTFUL = os.path.join(HERE, "checks", "eventful")
READER = os.path.join(HERE, "checks", "reader")
SHIPPED = os.path.join(os.path.dirname(HERE), "host", "events")
SECONDS = 60

# a script, or the name of one that is shipped; the driver's steps, each with what comes of it
Case = Tuple[str, Sequence[Tuple[str, str]]]
FINE = "done, 1 messages"


def slow_bits(slow: str = "") -> str:
    """How the bits follow, of which one may be slow."""
    return ", ".join(f"{name} {'late' if name == slow else 'at once'}" for name in ("CR", "FR", "CLO", "HR"))


CASES: Sequence[Case] = (
    # commands
    ("on 2nd read sectors 100-199 do fail 40", [("read", FINE), ("read", "error 40, 1 messages"), ("recover", "tag 3, error 40 at 100"), ("read", FINE)]),
    ("on first read sector 104 do fail 40", [("read", "error 40, 1 messages"), ("recover", "tag 3, error 40 at 104")]),
    ("on first READ DMA do fail 04", [("read", FINE), ("dma", "error 04, 1 messages"), ("again", "started"), ("dma", FINE)]),
    ("on first FLUSH CACHE EXT do fail 04", [("flush", "error 04, 1 messages"), ("again", "started"), ("flush", FINE)]),
    ("on first command EC do fail 51", [("identify", "error 51, 1 messages"), ("again", "started"), ("identify", FINE)]),
    ("on first tag 4 do fail 10", [("read", FINE), ("write", "error 10, 1 messages"), ("recover", "tag 4, error 10 at 100")]),
    ("on 20th READ FPDMA QUEUED do fail 40", [("full", "13 outstanding, error 40"), ("recover", "tag 19, error 40 at 152")]),
    ("on first read do stall", [("unanswered", "no answer"), ("comreset", "0 messages"), ("read", FINE)]),
    # recovery that fails
    ("on first read do fail 40\non first READ LOG EXT do fail 04",
     [("read", "error 40, 1 messages"), ("recover", "the log can't be read, error 04"), ("comreset", "0 messages"), ("read", FINE)]),
    # interrupts
    ("on 2nd any do lose_interrupt", [("read", FINE), ("write", "done, 0 messages"), ("read", FINE)]),
    ("on first IDENTIFY DEVICE do lose_interrupt", [("read", FINE), ("identify", "done, 0 messages"), ("identify", FINE)]),
    ("on first read do fail 40 then lose_interrupt", [("read", "error 40, 0 messages"), ("recover", "tag 3, error 40 at 100")]),
    ("on first read do late_interrupt 300ms", [("late", "late, done, 1 messages"), ("read", FINE)]),
    ("on first read do slow 300ms", [("late", "late, done, 1 messages")]),
    ("on time 50ms do send_interrupt repeat ever", [("awaited", "messages, PxIS 00000000")]),
    ("on time 1us do send_interrupt repeat ever", [("awaited", "messages, PxIS 00000000"), ("again", "started")]),  # more often than they can come
    ("on 2nd write PxSCTL do send_interrupt", [("comreset", "1 messages"), ("comreset", "0 messages")]),
    ("on first write do wait 1ms then send_interrupt", [("read", FINE), ("two", "2 messages"), ("read", FINE)]),
    # the controller
    ("on first read do no_memory", [("read", "no memory, 1 messages"), ("again", "started"), ("read", FINE)]),
    ("on 3rd write PxCI do power_on", [("read", FINE), ("read", FINE), ("read", "done, 0 messages"), ("registers", "PxCLB 0, stopped"), ("read", FINE)]),
    # the link, the disk and the interface: PRCS is bit 22 of PxIS, PCS 6, IFS 27, INFS 26; DIAG.N is bit 16 of PxSERR, W 18, X 26, and ERR.I 0, T 8, P 10
    ("on 2nd read do lose_link", [("read", FINE), ("unanswered", "no answer"), ("look", "PxIS 00400000, PxSERR 00010000, DET 0, 0 messages"), ("comreset", "0 messages"), ("read", FINE)]),
    ("on first read do lose_link then wait 1ms then find_link", [("unanswered", "no answer"), ("up", "PxIS 00400040, PxSERR 04050000, DET 3, 0 messages"), ("comreset", "0 messages"), ("read", FINE)]),
    ("on first read do unplug\non 3rd write PxSCTL do plug",
     [("unanswered", "no answer"), ("look", "PxIS 00400000, PxSERR 00010000, DET 0, 0 messages"), ("link", "DET 0"), ("comreset", "0 messages"), ("read", FINE)]),
    ("on first read do unplug\non 3rd write PxSCTL do plug another",
     [("named", "00000001, 2048 sectors"), ("unanswered", "no answer"), ("look", "PxIS 00400000, PxSERR 00010000, DET 0, 0 messages"), ("link", "DET 0"), ("comreset", "0 messages"),
      ("named", "00000002, 2048 sectors"), ("read", FINE)]),
    *((f"on first read do {name}_error\non 2nd read do fatal_{name}_error",
       [("read", FINE), ("look", f"PxIS 00000000, PxSERR {1 << diag | 1 << least:08x}, DET 3, 0 messages"), ("unanswered", "no answer"),
        ("look", f"PxIS 08000000, PxSERR {1 << diag | 1 << least | 1 << most:08x}, DET 3, 1 messages"), ("comreset", "0 messages"), ("read", FINE)])
      for name, diag, least, most in (("decode", 19, 0, 8), ("crc", 21, 0, 8), ("handshake", 22, 0, 8), ("sequence", 23, 10, 10), ("transport", 24, 10, 10))),
    # memory, statuses and signatures: HBDS is bit 28 of PxIS; PxTFD has the error byte above the status
    ("on first read do memory_error", [("read", "wrong data, 1 messages"), ("again", "started"), ("read", FINE)]),
    ("on first READ DMA do end 61", [("dma", "error 00, 1 messages"), ("moved", "0 bytes, PxTFD 00000061"), ("again", "started"), ("dma", FINE)]),
    ("on first READ DMA do end 60", [("dma", FINE), ("moved", "0 bytes, PxTFD 00000060"), ("dma", FINE), ("moved", "4096 bytes, PxTFD 00000040")]),
    ("on first read sector 104 do end 50", [("read", FINE), ("dma", FINE), ("moved", "2048 bytes, PxTFD 00000050"), ("dma", FINE), ("moved", "4096 bytes, PxTFD 00000040")]),
    ("on first IDENTIFY DEVICE do end 61", [("identify", "error 00, 1 messages"), ("again", "started"), ("identify", FINE)]),
    ("on first READ DMA do end D0", [("busy", "no answer"), ("moved", "0 bytes, PxTFD 000000d0"), ("comreset", "1 messages"), ("dma", FINE)]),  # the FIS has I
    ("on first write PxSCTL do packet_signature", [("signature", "PxSIG eb140101, PxTFD 00000100"), ("signature", "PxSIG 00000101, PxTFD 00000150"), ("read", FINE)]),
    ("on first write PxSCTL do bridge_signature", [("signature", "PxSIG c33c0101, PxTFD 00000150"), ("read", FINE)]),
    ("on first write PxSCTL do multiplier_signature", [("signature", "PxSIG 96690101, PxTFD 00000150"), ("read", FINE)]),
    # FISes that no command asks for: DHRS is bit 0 of PxIS, SDBS 3, UFS 4; DIAG.F is bit 25 of PxSERR
    ("on 2nd write PxSERR do notification", [("knock", "PxIS 00000008, PxSERR 00000000, DET 3, 1 messages"), ("read", FINE)]),
    ("on 2nd write PxSERR do spurious_bits", [("knock", "PxIS 00000008, PxSERR 00000000, DET 3, 1 messages"), ("read", FINE)]),
    ("on 2nd write PxSERR do spurious_register", [("knock", "PxIS 00000001, PxSERR 00000000, DET 3, 1 messages"), ("read", FINE)]),
    ("on 2nd write PxSERR do unknown_fis", [("knock", "PxIS 00000010, PxSERR 02000000, DET 3, 0 messages"), ("read", FINE)]),
    ("on 20th READ FPDMA QUEUED do notification then spurious_bits then unknown_fis", [("full", "0 outstanding, done"), ("read", FINE)]),
    # the signature, log 10h, slow bits
    ("on first read do hold_signature 1s", [("read", FINE), ("patient", "late"), ("reset", "at once"), ("read", FINE)]),
    ("on first read do lose_signature then lose_signature", [("read", FINE), ("reset", "BSY stays"), ("reset", "BSY stays"), ("reset", "at once"), ("read", FINE)]),
    *((f"on 2nd read do fail 40 then wrong_log_{name}", [("read", FINE), ("read", "error 40, 1 messages"), ("read_log", how), ("read", FINE), ("read_log", "NQ, sum right")])
      for name, how in (("tag", "tag 4, sum right"), ("nq", "NQ, sum right"), ("sum", "tag 3, sum wrong"))),
    ("on first read do wrong_log_tag\non 2nd read do fail 40", [("read", FINE), ("read", "error 40, 1 messages"), ("read_log", "tag 4, sum right")]),
    *((f"on 2nd read do slow_{name.lower()} 1s", [("bits", slow_bits()), ("read", FINE), ("read", FINE), ("bits", slow_bits(name)), ("bits", slow_bits()), ("read", FINE)])
      for name in ("CR", "FR", "CLO", "HR")),
    # those that are shipped
    *((f"a_log_{name}.events", [("read", FINE)] * 63 + [("read", "error 40, 1 messages"), ("read_log", how), ("read", FINE)])
      for name, how in (("of_another_tag", "tag 4, sum right"), ("without_a_tag", "NQ, sum right"), ("with_a_wrong_sum", "tag 3, sum wrong"))),
    ("three_resets_that_fail.events", [("read", FINE)] * 63 + [("unanswered", "no answer"), *[("reset", "BSY stays")] * 3, ("reset", "at once"), ("read", FINE)]),
    ("a_late_signature.events", [("read", FINE)] * 63 + [("unanswered", "no answer"), ("patient", "late"), ("read", FINE)]),
    ("a_port_that_stops_slowly.events", [("read", FINE)] * 63 + [("unanswered", "no answer"), ("bits", slow_bits("CR")), ("read", FINE)]),
    ("interrupts_without_a_cause.events", [("awaited", "messages, PxIS 00000000"), ("awaited", "messages, PxIS 00000000")]),
    ("fails_again_during_recovery.events", [("read", FINE), ("read", FINE), ("read", "error 40, 1 messages"), ("recover", "the log can't be read, error 04"),
    ("comreset", "0 messages"), ("read", FINE)]),
    ("a_lost_interrupt.events", [("read", FINE)] * 19 + [("read", "done, 0 messages"), ("read", FINE)]),
    ("an_aborted_flush.events", [("flush", "error 04, 1 messages"), ("again", "started"), ("flush", FINE)]),
    ("identify_fails.events", [("identify", "error 04, 1 messages"), ("again", "started"), ("identify", FINE)]),
    ("an_error_without_an_interrupt.events", [("read", FINE)] * 4 + [("read", "error 40, 0 messages"), ("recover", "tag 3, error 40 at 100"), ("read", FINE)]),
    ("a_command_without_an_answer.events", [("read", FINE)] * 19 + [("unanswered", "no answer"), ("comreset", "0 messages"), ("read", FINE)]),
    ("memory_that_is_gone.events", [("read", FINE)] * 19 + [("read", "no memory, 1 messages"), ("again", "started"), ("read", FINE)]),
    ("two_errors_in_a_row.events",
     [("read", FINE)] * 19 + [("read", "error 40, 1 messages"), ("recover", "tag 3, error 40 at 100"), ("read", "error 04, 1 messages"), ("recover", "tag 3, error 04 at 100"),
     ("read", FINE)]),
    ("recovered_errors.events", [("read", FINE)] * 24 + [("look", "PxIS 00000000, PxSERR 00000000, DET 3, 0 messages"), ("read", FINE), ("look", "PxIS 00000000, PxSERR 00200001, DET 3, 0 messages")]
     + [("write", FINE)] * 40 + [("look", "PxIS 00000000, PxSERR 00600001, DET 3, 0 messages")]),
    ("crc_error_then_ok.events", [("read", FINE)] * 99 + [("unanswered", "no answer"), ("look", "PxIS 08000000, PxSERR 00200100, DET 3, 1 messages"), ("comreset", "0 messages"), ("read", FINE)]),
    ("another_disk_in_the_slot.events",
     [("named", "00000001, 2048 sectors"), ("fill", FINE)] + [("read", FINE)] * 63
     + [("unanswered", "no answer"), ("up", "PxIS 00400040, PxSERR 04050000, DET 3, 0 messages"), ("comreset", "0 messages"),
        ("named", "00000002, 2048 sectors"), ("held", f"00000000, {FINE}"), ("fill", FINE), ("held", f"5a5a5a5a, {FINE}")]),
    ("a_link_that_is_lost.events", [("read", FINE)] * 63 + [("unanswered", "no answer"), ("up", "PxIS 00400040, PxSERR 04050000, DET 3, 0 messages"), ("comreset", "0 messages"), ("read", FINE)]),
    ("a_tag_that_fails.events", [("full", "1 outstanding, error 04"), ("recover", "tag 31, error 04 at 248")] * 3 + [("full", "0 outstanding, done")]),
    ("error_in_a_full_queue.events", [("full", "0 outstanding, done"), ("full", "1 outstanding, error 40"), ("recover", "tag 31, error 40 at 248"), ("read", FINE)]),
)


def script_of(room: str, script: str) -> str:
    """The path of a script, or of one that is shipped."""
    if script.endswith(".events"):
        return os.path.join(SHIPPED, script)
    path = os.path.join(room, "it.events")
    with open(path, "w", encoding="utf-8") as file:
        file.write(f"{script}\n")
    return path


def run(options: Sequence[str], command: Sequence[str], status: int = 0, binary: str = SANITIZED) -> Tuple[List[str], List[str]]:
    """What the driver and the program print."""
    words = [binary, "run", "--transport", VFIO_USER, "--sectors", "2048", "--hold", "0", *options, "--", *command]
    done = pace.ran(words, SECONDS, stdout=subprocess.PIPE, stderr=subprocess.PIPE, text=True)
    expect(done.returncode == status, f"{' '.join(options)}: status {done.returncode}: {done.stdout[-300:]}{done.stderr[-1000:]}")
    return done.stdout.splitlines(), done.stderr.splitlines()


def steps(room: str) -> str:
    """What each step of the driver comes to, by scripts for each event and by those that are shipped; every line happens."""
    for script, wanted in CASES:
        options = ["--script", script_of(room, script)]
        printed, said = run(options, [EVENTFUL, *(step for step, _ in wanted)])
        right = [f"{step}: {how}" for step, how in wanted]
        wrong = [f"`{came}`, and `{it}` is right" for came, it in zip([*printed, *["nothing"] * len(right)], right) if came != it]
        expect(printed == right, f"{script}: {(wrong or printed)[0]}")
        expect(not said, f"{script}: {said}")
    return f"{len(CASES)} scripts"


def as_options(room: str) -> str:
    """A line of a script does what the option does that is its short form, with the same draws."""
    pairs = (("--fail", "100-103:40:3,reads", "on first read sectors 100-103 do fail 40 repeat 3"), ("--fail", "any:04,rate=1/3", "on every any probability 1/3 do fail 04"),
             ("--slow", "any:1000+500,writes", "on every write do slow 1ms+500us"), ("--stall", "any,commands=5", "on every any number 5 do stall"))
    order = ["read", "recover", "write", "recover"] * 6
    for name, value, line in pairs:
        taken = order if name != "--stall" else ["read", "write", "read", "write", "unanswered"]
        both = [run(options, [EVENTFUL, *taken]) for options in ([name, value], ["--script", script_of(room, line)])]
        expect(both[0] == both[1], f"{name} {value} and `{line}`: {both}")
        expect(name == "--slow" or any("error" in it or "no answer" in it for it in both[0][0]), f"{name} {value}: nothing happened")
    return f"{len(pairs)} pairs"


def never(room: str) -> str:
    """At the end the program names each line that never happened, and no other one."""
    path = script_of(room, "# a comment\non first read do fail 40\non 9th read do fail 40\n\non time 100000s do power_on")
    _, said = run(["--script", path], [EVENTFUL, "read", "recover"])
    wanted = [f"ahci-hba: {path}:3: it never happened: on 9th read do fail 40", f"ahci-hba: {path}:5: it never happened: on time 100000s do power_on"]
    expect(said == wanted, f"{said}")
    return "two of three lines"


def judged(room: str) -> str:
    """--check-script prints the lines of a right script in one form; of a wrong one, and of one with an event that the other server hasn't, all that is wrong."""
    path = script_of(room, "on 1st reads do fail 4f\non time 2500ms do power_on")
    cases: Sequence[Tuple[List[str], int, List[str], List[str]]] = (
        (["--check-script", path], 0, ["on first read do fail 4F", "on time 2.5s do power_on"], []),
        (["--check-script", path, "--for", "nbd"], 2, [], [f'ahci-hba: {path}:2:19: expected an event that nbd has (slow, fail), got "power_on"']),
        (["--check-script"], 2, [], ["ahci-hba: expected --check-script FILE, or --check-script FILE --for hba or nbd"]),
        (["--check-script", path, "--for", "qemu"], 2, [], ['ahci-hba: --for: expected hba or nbd, got "qemu"']),
        (["run", "--script", path, "--sectors", "0"], 2, [], ['ahci-hba: --sectors: expected a decimal number from 1 to 4294967295, got "0"']))
    for words, status, printed, said in cases:
        done = pace.ran([SANITIZED, *words], SECONDS, stdout=subprocess.PIPE, stderr=subprocess.PIPE, text=True)
        expect((done.returncode, done.stdout.splitlines(), done.stderr.splitlines()) == (status, printed, said), f"{words}: {done}")
    path = script_of(room, "on first read do explode\nfoo\non first read sector 9999 do fail 40")
    done = pace.ran([PROGRAM, "run", "--script", path, "--", "true"], SECONDS, stdout=subprocess.PIPE, stderr=subprocess.PIPE, text=True)
    places = [it.split(": ")[1] for it in done.stderr.splitlines()]
    expect(done.returncode == 2 and places == [f"{path}:1:18", f"{path}:2:1"], f"{done}")
    return f"{len(cases) + 1} command lines"


# ---- Linux ----

READS = "requests 5000 compared 5000 errors 0 wrong 0"


def interrupted(room: str, script: str, linux_says: Sequence[str]) -> Guest:
    """5,000 reads of Linux while a script of interrupts goes on: all come right."""
    guest = errors.troubled(room, "stall", ["--script", script_of(room, script), "--pick", "random"], [r"(lose|late|send)_interrupt.*", "an interrupt is lost"], linux_says)
    expect(guest.results()["reads"] == READS, f"reads: {guest.results()['reads']}")
    return guest


def linux_strange(room: str) -> str:
    """Interrupts are late, and others have no cause: Linux reads all, and says nothing."""
    guest = interrupted(room, "on every 50th any do late_interrupt 20ms\non time 100ms do send_interrupt repeat ever", [])
    late, without = (sum(it.startswith(name) for it in guest.log()) for name in ("late_interrupt", "send_interrupt"))
    expect(late >= 50 and without >= 10, f"{late} interrupts were late, and {without} had no cause")
    return f"{late} interrupts were late, {without} had no cause"


def linux_lost(room: str) -> str:
    """An interrupt is lost while the queue is full: Linux resets the link when a command's time is up, and reads all."""
    guest = interrupted(room, "on 2000th any do lose_interrupt", [*errors.ENDED, r"ata1: hard resetting link"])
    expect(sum(it == "an interrupt is lost" for it in guest.log()) == 1, "no interrupt was lost")
    return "5,000 reads right after a lost interrupt"


CHECKS = [Check(steps, title="Events, step by step"), Check(as_options, title="Events and options"), Check(never, title="Events that never happen"), Check(judged, title="Scripts that are judged"),
          Check(linux_strange, title="Linux, strange interrupts"), Check(linux_lost, title="Linux, a lost interrupt", is_long=True)]
