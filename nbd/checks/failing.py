"""Checks of fail=, slow= and script=: just the commands that a rule or a line names fail, or are slow."""
from __future__ import annotations

import os
import time
from typing import List, Tuple

from harness import PLUGIN, SECTOR, Check, Failed, counted, fio, must_be_clean, ran, replayed, scripted, sectors_of, serving, summary_of, tool
import pace
from records import ACCEPT, FAIL, READ, RECOVER, REISSUE, SERVE, WRITE, Entry, Record


def a_failing_sector(room: str) -> str:
    """Just the requests that touch the sector fail, and no more of them than the rule says; the record has it all, and plays again."""
    record = os.path.join(room, "record")
    with serving(room, "sectors=2048", "fail=100:40:2", f"record={record}", "pick=random", "delay=50") as server:
        found = fio(server, "failing", "--rw=randread", "--bs=4k", "--iodepth=32", "--size=1m", "--continue_on_error=read",
                    "--error_dump=0", "--randseed=1", "--loops=8")
        jobs = found["jobs"]
        assert isinstance(jobs, list)
        errors = jobs[0]["total_err"]
        if errors != 2:
            raise Failed(f"fio met {errors} errors, and 2 were to fail")
        ran(["qemu-io", "-f", "raw", "-c", "read -P 0 51200 512", server.uri])
    kinds = [it.kind for it in Record(record).entries()]
    if kinds.count(FAIL) != 2 or kinds.count(RECOVER) != 2:
        raise Failed("the record has other failures")
    replayed(scripted(record, f"{record}.ahci"))
    return summary_of(server)


def one_request_fails(room: str) -> str:
    """The client of a failing sector sees EIO, and those of its neighbours see nothing."""
    with serving(room, "sectors=2048", "fail=100:40") as server:
        said = qemu_io(server.uri, "read 50688 512", "read 51200 512", "read 51200 512")
        if said.count("Input/output error") != 1 or said.count("read 512/512 bytes") != 2:
            raise Failed(said)
    return summary_of(server)


def qemu_io(uri: str, *commands: str) -> str:
    """What qemu-io printed, whatever it met."""
    words = [word for it in commands for word in ("-c", it)]
    return tool(["qemu-io", "-f", "raw", *words, uri]).stdout


def outcomes(uri: str, commands: List[str]) -> List[bool]:
    """Which of some commands succeed, one after the other."""
    return ["error" not in qemu_io(uri, it) for it in commands]


def rules(room: str) -> str:
    """Each condition of fail=: a span of sectors, reads or writes alone, numbers of commands, for ever, and several rules at once."""
    read, write = "read {} 512", "write -P 1 {} 512"
    cases = [
        (["fail=10-12:40:ever"], [(read, 9), (read, 10), (read, 12), (write, 11), (read, 13), (read, 10)], "yNNNyN"),
        (["fail=10:40:ever,reads"], [(write, 10), (read, 10), (write, 10), (read, 11)], "yNyy"),
        (["fail=10:40:ever,writes"], [(read, 10), (write, 10), (read, 10), (write, 9)], "yNyy"),
        (["fail=any:04,commands=2-3"], [(read, 0), (read, 5), (write, 6), (read, 7)], "yNNy"),
        (["fail=any:04:1,commands=2-9"], [(read, 0), (read, 5), (write, 6), (read, 7)], "yNyy"),
        (["fail=1:40:2", "fail=2:10:ever"], [(read, 1), (read, 2), (read, 1), (read, 1), (read, 2)], "NNNyN"),
        (["fail=any:40:ever,seconds=100-200"], [(read, 1)], "y"),
        (["fail=any:40:ever,seconds=0-100,reads"], [(read, 1), (write, 1)], "Ny"),
    ]
    for given, commands, wanted in cases:
        with serving(room, "sectors=64", *given) as server:
            found = "".join("y" if it else "N" for it in outcomes(server.uri, [command.format(SECTOR * lba) for command, lba in commands]))
        if found != wanted:
            raise Failed(f"{' '.join(given)}: {found}, and {wanted} is right")
        if counted(server, "failures") != wanted.count("N") or counted(server, "recoveries") != wanted.count("N"):
            raise Failed(f"{' '.join(given)}: {summary_of(server)}")
    return f"{len(cases)} rules"


def scripts(room: str) -> str:
    """script=: lines of a script fail the commands that they name, after those of fail=; what never happened is said at the end."""
    path, read, write = os.path.join(room, "it.events"), "read {} 512", "write -P 1 {} 512"
    cases: List[Tuple[str, List[str], List[Tuple[str, int]], str]] = [
        ("on 2nd read sectors 10-12 do fail 40", [], [(read, 10), (write, 10), (read, 12), (read, 11)], "yyNy"),
        ("on every WRITE FPDMA QUEUED do fail 04", [], [(read, 0), (write, 0), (write, 9)], "yNN"),
        ("from 2nd on any do fail 40", [], [(read, 0), (write, 1), (read, 2)], "yNN"),
        ("on 2nd any do fail 40 repeat 2", [], [(read, 0), (write, 1), (read, 2), (read, 3)], "yNNy"),
        ("on every 2nd any do slow 1ms then fail 40", [], [(read, 0)] * 5, "yNyNy"),
        ("on every sector 7 do fail 40", ["fail=7:10:1"], [(read, 7), (read, 7), (read, 8)], "NNy"),
    ]
    for script, given, commands, wanted in cases:
        with open(path, "w", encoding="utf-8") as file:
            file.write(f"{script}\non 900th any do fail 40\n")
        with serving(room, "sectors=64", f"script={path}", *given, says=f"^ahci: {path}:2: it never happened: on 900th any do fail 40$") as server:
            found = "".join("y" if it else "N" for it in outcomes(server.uri, [command.format(SECTOR * lba) for command, lba in commands]))
        if found != wanted or counted(server, "failures") != wanted.count("N"):
            raise Failed(f"{script}: {found}, and {wanted} is right; {summary_of(server)}")
    return f"{len(cases)} scripts"


def wrong_scripts(room: str) -> str:
    """A wrong script keeps the server from starting; each wrong line is reported, with its place."""
    path = os.path.join(room, "it.events")
    with open(path, "w", encoding="utf-8") as file:
        file.write("on 2nd read do stall\non first read do fail 40\non read do fail 40\n")
    said = tool(["nbdkit", "-f", "-U", os.path.join(room, "socket"), PLUGIN, "sectors=64", f"script={path}"])
    wanted = [f'{path}:1:16: expected an event that nbd has (slow, fail), got "stall"', f'{path}:3:4: expected every, first, a place such as 3rd, or time, got "read"']
    lines = str(said.stdout).splitlines()
    if said.returncode == 0 or len(lines) != 2 or not all(line.endswith(it) for line, it in zip(lines, wanted)):
        raise Failed(f"status {said.returncode}: {said.stdout}")
    return "two wrong lines"


def rule_by_time(room: str) -> str:
    """seconds=A-B: requests fail between the two times and at no other."""
    with serving(room, "sectors=64", "fail=any:40,seconds=1-2.5") as server:
        begun = time.monotonic()
        early = outcomes(server.uri, ["read 0 512"])
        is_early = time.monotonic() - begun < 0.9
        time.sleep(max(0.0, 1.5 - (time.monotonic() - begun)))
        within = outcomes(server.uri, ["read 0 512"])
        is_within = time.monotonic() - begun < 2.4
        time.sleep(max(0.0, 3 - (time.monotonic() - begun)))
        late = outcomes(server.uri, ["read 0 512"])
    if is_early and early != [True] or is_within and within != [False] or late != [True]:
        raise Failed(f"before, within and after the time: {early}, {within}, {late}")
    return f"before, within and after the time{'' if is_early and is_within else ' (not all of it was in time on this machine)'}"


def failed_numbers(room: str, name: str, rule: str) -> List[int]:
    """Which of 2,000 reads, one after the other, a rule fails."""
    record = os.path.join(room, name)
    with serving(room, "sectors=64", rule, f"record={record}") as server:
        fio(server, "rates", "--rw=randread", "--bs=512", "--iodepth=1", "--size=32k", "--number_ios=2000", "--io_size=2000k", "--continue_on_error=all", "--error_dump=0", "--randseed=3")
    number, failed = 0, []
    for it in Record(record).entries():
        number += it.kind in (READ, WRITE)
        if it.kind == FAIL:
            failed.append(number)
    return failed


def rates(room: str) -> str:
    """rate=N/M fails about so many of the commands, the same ones for the same seed and others for another."""
    once, again, other = (failed_numbers(room, name, f"fail=any:40,rate=1/10,seed={seed}") for name, seed in (("once", 5), ("again", 5), ("other", 6)))
    if once != again or once == other:
        raise Failed("a seed does not name the commands that fail")
    if not 130 <= len(once) <= 270:  # 2,000 draws with one in ten: 200, and five standard deviations of 13.4
        raise Failed(f"{len(once)} of 2,000 commands failed, and one in ten was to")
    return f"{len(once)} of 2,000, and {len(other)} by another seed"


def slow_commands(room: str) -> str:
    """slow=: a slow command waits, its neighbours don't, and the device serves them while it waits."""
    record, wait = os.path.join(room, "record"), int(300_000 * pace.times())
    with serving(room, "sectors=4096", f"slow=100:{wait}:1", f"record={record}") as server:
        must_be_clean(fio(server, "slow", "--rw=read", "--bs=512", "--iodepth=32", "--size=1m"))
    entries = list(Record(record).entries())
    slow = next(it for it in entries if it.kind == READ and it.lba == 100)
    accepted = next(it for it in entries if it.kind == ACCEPT and it.tag == slow.tag and it.number > slow.number)
    served = next(it for it in entries if it.kind == SERVE and slow.tag in it.data[:it.count] and it.number > slow.number)
    between = sum(it.kind == SERVE for it in entries[accepted.number:served.number])
    if served.time - accepted.time < wait - 1000 or between < 100:
        raise Failed(f"it took {served.time - accepted.time} microseconds, and {between} were served while it waited")
    replayed(scripted(record, f"{record}.ahci"))
    return f"{between} commands were served while one waited"


def jitter(room: str) -> str:
    """slow= and delay= with jitter: no command takes less than the first number, and not all take the same."""
    record = os.path.join(room, "record")
    with serving(room, "sectors=64", "slow=any:2000+20000,seed=4", f"record={record}") as server:
        must_be_clean(fio(server, "jitter", "--rw=randread", "--bs=512", "--iodepth=1", "--size=32k", "--number_ios=60"))
    accepts: List[Entry] = []
    took: List[int] = []
    for it in Record(record).entries():
        if it.kind == ACCEPT:
            accepts.append(it)
        if it.kind == SERVE:
            took.append(it.time - accepts[-1].time)
    if min(took) < 1900 or max(took) < 8000 or max(took) - min(took) < 4000:
        raise Failed(f"commands took {min(took)} to {max(took)} microseconds")
    with serving(room, "sectors=64", "delay=1000+1000") as server:
        begun = time.monotonic()
        must_be_clean(fio(server, "delay", "--rw=randread", "--bs=512", "--iodepth=1", "--size=32k", "--number_ios=60"))
        if time.monotonic() - begun < 0.06:
            raise Failed("60 requests took less than a millisecond each")
    return f"{min(took)} to {max(took)} microseconds"


def held_commands(room: str) -> str:
    """Commands that a failure holds up are issued again, and come to the same end: verified writes with a failure in twenty at depth 32."""
    record = os.path.join(room, "record")
    with serving(room, "sectors=8192", "fail=any:40:ever,rate=1/20,reads", "delay=20", "pick=random", "together=3", f"record={record}") as server:
        must_be_clean(fio(server, "held", "--rw=randwrite", "--bs=4k", "--iodepth=32", "--size=4m", "--randseed=8"))
        fio(server, "held", "--rw=randrw", "--bs=4k", "--iodepth=32", "--size=4m", "--io_size=8m", "--continue_on_error=all", "--error_dump=0", "--randseed=8")
    if counted(server, "failures") < 10:
        raise Failed(summary_of(server))
    script = scripted(record, f"{record}.ahci")
    entries = list(Record(record).entries())
    reissued = sum(it.kind == REISSUE for it in entries)
    if reissued < 100:
        raise Failed(f"{reissued} commands were issued again")
    if replayed(script) != sectors_of(record):
        raise Failed("the record plays to other sectors")
    return f"{reissued} commands were issued again; {summary_of(server)}"


CHECKS = [Check(a_failing_sector, ["fio", "qemu-io"]), Check(one_request_fails, ["qemu-io"]), Check(rules, ["qemu-io"]), Check(scripts, ["qemu-io"]),
          Check(wrong_scripts), Check(rule_by_time, ["qemu-io"]), Check(rates, ["fio"]),
          Check(slow_commands, ["fio"]), Check(jitter, ["fio"]), Check(held_commands, ["fio"])]
