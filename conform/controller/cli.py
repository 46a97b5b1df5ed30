"""The command line of `ahci_conform --controller`."""
import argparse
import functools
import importlib.util
import json
import os
import sys
import time
from typing import Callable, Iterator, List, Optional

from judge.adapter import EmulatorFault
from judge.cli import Stopped, Words, Wrong, seeds_in
from judge.known import ListFault
from judge.lists import Listed, list_for

from . import kept, play, report
from .adapter import Controller
from .campaign import Given, Result, recorded_results, results
from .draft import Draft
from .generate import LEVELS, program
from .known import NOTHING, Known, read_known
from .library import needed
from .qemu import PROGRAM, Qemu
from .text import TextFault, program_of
from .vfio import Vfio

FOLDER = os.path.dirname(os.path.abspath(__file__))
BASE = os.path.join(FOLDER, "any_controller.json")
ABOUT = """\
Plays random driver programs on an emulator's AHCI controller, and compares it with the reference model after each access: 31 registers, the
interrupt line, all memory of the driver with what lies around it, and the disk. A program ends at its first difference that the list of known
ones doesn't have; what was expected, what was got, the section of the standard and the program up to it are reported.
"""
EXAMPLES = """\
Levels:
""" + "".join(f"  {name:<8}{text}\n" for name, text in LEVELS.items()) + """
Exit status:
  0  every difference is on the list, or came after a rule that the driver had broken
  1  some program has a new difference; with --play: the emulator died
  2  the command line is wrong, or the list or a program can't be read
  3  the emulator or the library can't be started, or answers what no emulator can

Examples:
  conform/ahci_conform --controller --seed 1-100                      100 programs of the level good on QEMU
  conform/ahci_conform --controller --seed 1-500 --level wild --jobs 2
  conform/ahci_conform --controller --seed 7 --print                  the program alone, to read or to send
  conform/ahci_conform --controller --program timeout.prog            a program of your own (conform/controller/PROGRAMS.md)
  conform/ahci_conform --controller --play timeout.prog               on the emulator alone, without the model
  conform/ahci_conform --controller --seed 1-50 --known none --shrink the smallest program of each difference
  conform/ahci_conform --controller --emulator mine.py:Mine --seed 1-50 --draft-list mine.json
  conform/ahci_conform --controller --emulator vfio --function 0000:03:00.0 --level clean --seed 1-50 --record here   needs no library
  conform/ahci_conform --controller --recorded here                   the recordings of another machine
"""


def words() -> Words:
    made = Words(prog="ahci_conform --controller", description=ABOUT, epilog=EXAMPLES, formatter_class=argparse.RawDescriptionHelpFormatter)
    made.add_argument("--controller", action="store_true", help=argparse.SUPPRESS)
    made.add_argument("--emulator", metavar="NAME", default="qemu", help="qemu, stand-in, library, vfio, or FILE.py:CLASS (default: qemu)")
    made.add_argument("--function", metavar="NAME", help="with --emulator vfio: the PCI function, as 0000:03:00.0; what is on its disk is lost (conform/controller/HARDWARE.md)")
    made.add_argument("--qemu", metavar="PATH", help="QEMU's program (default: qemu-system-x86_64)")
    made.add_argument("--seed", metavar="A-B", help="judge the random programs of these seeds, as 7, 1-500 or 1-50,77")
    made.add_argument("--level", metavar="NAME", default="good", help="of the random programs: " + ", ".join(LEVELS) + " (default: good)")
    made.add_argument("--program", metavar="FILE", action="append", default=[], help="judge this program; - is standard input")
    made.add_argument("--play", metavar="FILE", help="play this program on the emulator alone, and report what changes")
    made.add_argument("--alone", action="store_true", help="play the programs on the model alone, without an emulator: no rule that is judged alone may be broken")
    made.add_argument("--record", metavar="FILE", help="record the programs, and judge nothing: needs no library")
    made.add_argument("--recorded", metavar="FILE", help="judge the recordings of this file")
    made.add_argument("--slow-disk", action="store_true", help="with --play on QEMU: what is held waits on a slow disk, not at a breakpoint")
    made.add_argument("--print", action="store_true", help="print the programs, and judge nothing")
    made.add_argument("--known", metavar="FILE", help="the list of known differences, or `none` (default: the emulator's own)")
    made.add_argument("--base", metavar="FILE", help="the list of what any controller may do otherwise, or `none` (default: conform/controller/any_controller.json)")
    made.add_argument("--without", metavar="NAME", help="leave this entry out of the list, so that it is reported as a new difference")
    made.add_argument("--draft-list", metavar="FILE", help="go on past every difference, and write a first list of them to this file")
    made.add_argument("--shrink", action="store_true", help="print the smallest program that shows each new difference")
    made.add_argument("--fault", metavar="NAME", help="plant this fault in the stand-in; `list` names them, and the rule that each breaks")
    made.add_argument("--jobs", metavar="N", type=int, default=1, help="processes (default: 1)")
    made.add_argument("--go-on", action="store_true", help="judge the programs after one with a new difference too")
    made.add_argument("--json", action="store_true", help="an object a program, a line each, in the place of text and table")
    made.add_argument("--quiet", action="store_true", help="no progress on standard error")
    made.add_argument("--brief", action="store_true", help="a line in the place of the table, and no progress")
    made.add_argument("--shown", metavar="FOLDER", nargs="?", const="", help="check that the list's entries are each shown by the program FOLDER/NAME.prog (default: the folder beside the list)")
    made.add_argument("--smallest", metavar="FOLDER", help="write the smallest of the given programs that shows it for each entry of the list which FOLDER has no program of")
    return made


def read_program(path: str) -> Given:
    name = "standard input" if path == "-" else os.path.basename(path)
    try:
        with (open(0, encoding="utf-8", closefd=False) if path == "-" else open(path, encoding="utf-8")) as text:
            return Given(name, program_of(text.read(), name))
    except (OSError, UnicodeDecodeError) as why:
        raise Wrong(f"{path} can't be read: {getattr(why, 'strerror', None) or why}") from why


def programs_in(asked: argparse.Namespace) -> Iterator[Given]:
    for path in asked.program:
        yield read_program(path)
    for seed in seeds_in(asked.seed) if asked.seed else []:
        yield Given(f"{asked.level} {seed}", program(seed, asked.level))


def emulator_of(asked: argparse.Namespace) -> Callable[[], Controller]:
    """What makes the emulator."""
    if asked.emulator == "qemu":
        return functools.partial(Qemu, asked.qemu or PROGRAM, bool(asked.play and asked.slow_disk))
    if asked.emulator == "library":
        from .library import Library
        return Library
    if asked.emulator == "stand-in":
        from .stand_in.faults import named
        found = named(asked.fault)
        if found is None:
            raise Wrong(f"there is no fault '{asked.fault}': --fault list names them")
        return found
    if asked.emulator == "vfio":
        return functools.partial(Vfio, asked.function)
    path, colon, name = asked.emulator.rpartition(":")
    if not colon:
        raise Wrong(f"there is no emulator '{asked.emulator}': qemu, stand-in, library, vfio, or FILE.py:CLASS")
    return class_of(path, name)


def class_of(path: str, name: str) -> Callable[[], Controller]:
    found = importlib.util.spec_from_file_location("controller_of_the_user", path)
    if not found or not found.loader or not os.path.exists(path):
        raise Wrong(f"there is no adapter {path}")
    module = importlib.util.module_from_spec(found)
    try:
        found.loader.exec_module(module)
    except (Exception, SystemExit) as why:  # whatever the file does
        raise Wrong(f"{path} can't be loaded: {type(why).__name__}: {why}") from why
    made = getattr(module, name, None)
    if not (isinstance(made, type) and issubclass(made, Controller)):
        raise Wrong(f"{path} has no class {name} that is a controller.adapter.Controller")
    return made


def known_list(asked: argparse.Namespace) -> Listed:
    if asked.known or asked.emulator != "qemu" or asked.recorded:
        return Listed(asked.known or "none", "")
    return list_for(FOLDER, asked.qemu or PROGRAM)


def known_for(asked: argparse.Namespace) -> Known:
    path, notice = known_list(asked)
    if notice:
        print(f"ahci_conform: {notice}", file=sys.stderr)
    known = NOTHING if path == "none" else read_known(path)
    base = asked.base or ("none" if asked.emulator == "library" else BASE)
    known = known if base == "none" else known.over(read_known(base))
    if asked.without and asked.without not in [it.name for it in known.entries]:
        raise Wrong(f"the list has no entry '{asked.without}': it has {', '.join(it.name for it in known.entries) or 'none'}")
    return known._replace(entries=[it for it in known.entries if it.name != asked.without])


class Progress:
    """A line on standard error that is written anew, if that is a terminal; else one every half minute."""

    def __init__(self, quiet: bool) -> None:
        self.quiet, self.begun, self.reported = quiet, time.monotonic(), time.monotonic()
        self.is_terminal = sys.stderr.isatty()

    @property
    def seconds(self) -> float:
        return time.monotonic() - self.begun

    def report(self, done: List[Result]) -> None:
        if self.quiet or time.monotonic() - self.reported < (0.5 if self.is_terminal else 30):
            return
        self.reported = time.monotonic()
        new = sum(it.judged.end == "new" for it in done)
        print(f"{len(done):,} programs, {new} with a new difference, {self.seconds:.0f} seconds", file=sys.stderr, end="\r" if self.is_terminal else "\n", flush=True)


def print_result(asked: argparse.Namespace, result: Result) -> None:
    """What is reported of one program."""
    if asked.json:
        print(json.dumps(report.as_json(result)), flush=True)
    elif result.judged.end == "new":
        print("\n".join(report.new_text(result)), flush=True)


def judged(asked: argparse.Namespace, known: Known) -> Iterator[Result]:
    """What becomes of each program: of those of a file of recordings, or of those that an emulator plays."""
    if asked.recorded:
        return recorded_results(asked.recorded, known)
    return results((emulator_of(asked), known, asked.shrink), programs_in(asked), 1 if asked.draft_list else asked.jobs)


def run(asked: argparse.Namespace) -> int:
    """Judges all programs, and reports each as it ends."""
    known, progress = known_for(asked), Progress(asked.quiet or asked.brief)
    draft = Draft(known) if asked.draft_list else None
    done: List[Result] = []
    for result in judged(asked, draft or known):
        done.append(result)
        print_result(asked, result)
        progress.report(done)
        if result.judged.end == "new" and not asked.go_on:
            break
    if draft:
        return write_draft(asked, draft)
    if asked.brief:
        print(report.brief(done))
    elif not asked.json:
        print("\n".join(report.table(done, known, progress.seconds)))
    return 1 if any(it.judged.end == "new" for it in done) else 0


def run_alone(asked: argparse.Namespace) -> int:
    from . import lone
    needed()
    lines = []
    for line in lone.table(lone.all_played(programs_in(asked), asked.jobs)):
        print(line, flush=True)
        lines.append(line)
    return 0 if lines[0].startswith("|") else 1


def write_recordings(asked: argparse.Namespace) -> int:
    try:
        with open(asked.record, "w", encoding="utf-8") as out:
            count = kept.record_all(emulator_of(asked), programs_in(asked), out)
    except OSError as why:
        raise Wrong(f"{asked.record} can't be written: {why.strerror}") from why
    print(f"{asked.record}: {count:,} programs")
    return 0


def write_draft(asked: argparse.Namespace, draft: Draft) -> int:
    try:
        with open(asked.draft_list, "w", encoding="utf-8") as out:
            out.write(draft.text(asked.emulator))
    except OSError as why:
        raise Wrong(f"{asked.draft_list} can't be written: {why.strerror}") from why
    print("\n".join(draft.table(asked.draft_list)))
    return 1 if draft.added else 0


def check(asked: argparse.Namespace) -> None:
    if asked.level not in LEVELS:
        raise Wrong(f"there is no level '{asked.level}': {', '.join(LEVELS)}")
    if asked.jobs < 1:
        raise Wrong("--jobs is a number from 1 on")
    if asked.fault and asked.emulator != "stand-in":
        raise Wrong("--fault is for --emulator stand-in alone")
    if bool(asked.function) != (asked.emulator == "vfio"):
        raise Wrong("--emulator vfio and --function need each other")
    if asked.recorded and (asked.seed or asked.program or asked.shrink or asked.record):
        raise Wrong("--recorded has its own programs, and no emulator: --seed, --program, --shrink and --record can't be with it")


def chosen(asked: argparse.Namespace) -> int:
    """What the options ask for."""
    check(asked)
    if asked.fault == "list":
        from .stand_in.faults import FAULTS
        print("\n".join(f"{it.name:<28}{it.about} Against: {report.cited(it.rule)}" for it in FAULTS))
        return 0
    if asked.print:
        from .text import text_of
        for given in programs_in(asked):
            print(f"# {given.name}\n{text_of(given.ops)}", end="")
        return 0
    if asked.play:
        lines = list(play.played(emulator_of(asked)(), read_program(asked.play).ops))
        print("\n".join(lines))
        return 1 if lines and " has ended " in lines[-1] else 0
    if asked.shown is not None:
        from .shown import check_list
        return check_list(asked.shown or known_list(asked).path[:-5], known_for(asked), emulator_of(asked))
    if asked.smallest:
        from .smallest import write_smallest
        return write_smallest(asked.smallest, known_for(asked), emulator_of(asked), programs_in(asked))
    if not asked.seed and not asked.program and not asked.recorded:
        raise Wrong("--seed, --program, --recorded or --play is missing (conform/ahci_conform --controller --help explains)")
    if asked.record:
        return write_recordings(asked)
    if asked.alone:
        return run_alone(asked)
    return run(asked)


def main(given: Optional[List[str]] = None) -> int:
    try:
        return chosen(words().parse_args(given))
    except (Wrong, ListFault, TextFault) as why:
        print(f"ahci_conform: {why}", file=sys.stderr)
        return 2
    except EmulatorFault as why:
        print(f"ahci_conform: {why}", file=sys.stderr)
        return 3
    except Stopped as why:
        return int(why.args[0])
    except KeyboardInterrupt:
        print("ahci_conform: stopped", file=sys.stderr)
        return 130
    except BrokenPipeError:
        os.dup2(os.open(os.devnull, os.O_WRONLY), 1)  # nothing more can be reported
        return 1
