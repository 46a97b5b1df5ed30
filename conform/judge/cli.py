"""The command line of ahci_conform."""
import argparse
import importlib.util
import json
import os
import re
import signal
import sys
import time
from typing import Callable, Iterator, List, Optional, Tuple

from controller import page as controller_page
from stand_in import faults

from . import model, page, report, shown
from .adapter import Adapter, EmulatorFault
from .draft import Draft
from .judge import Judged, Way, judge
from .known import NOTHING, Known, ListFault, read_known
from .lists import Listed, list_for
from .qemu import PROGRAM, Qemu

TOP = os.path.dirname(os.path.dirname(os.path.dirname(os.path.abspath(__file__))))
CONFORM = os.path.join(TOP, "conform")
BASE = os.path.join(CONFORM, "any_port.json")
ABOUT = """\
Plays scripts on an emulator's AHCI port as a driver would, and compares the port with the reference model after each line:
all registers, the FISes received at the line, a read's data, the memory around them, the disk, the identify page, PRDBC where it counts.
A script ends at the first line with a difference that the list of known ones doesn't have; the line, what was expected, what was got,
whose rule it is and the trace around it are reported.
"""
EXAMPLES = """\
Exit status:
  0  every difference is on the list
  1  some script has a new difference
  2  the command line is wrong, or the model, the list or a script can't be read
  3  the emulator can't be started, has died, or answers nothing; or its adapter ends with an exception

Examples:
  conform/ahci_conform examples/two_writes.ahci           one script on QEMU
  conform/ahci_conform --seed 1-500                       500 random scripts, as bench/scripts_of.py --raw --large makes them
  conform/ahci_conform --seed 7 --pieces scattered        one, with all data in many pieces; --pieces-seed 8 lays them otherwise
  conform/ahci_conform --seed 7 --json | jq .new          one seed, for tools
  conform/ahci_conform --without no_error_log conform/qemu/no_error_log.ahci
                                                          a known difference, reported as a new one
  conform/ahci_conform --emulator mine.py:Mine s.ahci     an adapter of your own (conform/ADAPTERS.md)
  conform/ahci_conform --emulator mine.py:Mine --seed 1-50 --draft-list mine.json
                                                          a first list of what it does otherwise
  conform/ahci_conform --shown conform/qemu               each entry of QEMU's list by its own script
  conform/ahci_conform --page conform/qemu-7.2.json       the list as the page docs/QEMU.md
"""


class Wrong(Exception):
    """What is wrong with the command line, in one line."""


class Words(argparse.ArgumentParser):
    def error(self, message: str) -> None:  # type: ignore[override]
        raise Wrong(f"{message} (conform/ahci_conform --help explains)")


def words() -> Words:
    made = Words(prog="ahci_conform", description=ABOUT, epilog=EXAMPLES, formatter_class=argparse.RawDescriptionHelpFormatter)
    made.add_argument("scripts", metavar="SCRIPT", nargs="*", help="script files; - is standard input")
    made.add_argument("--emulator", metavar="NAME", default="qemu", help="qemu, stand-in, or FILE.py:CLASS (default: qemu)")
    made.add_argument("--qemu", metavar="PATH", help="QEMU's program (default: qemu-system-x86_64)")
    made.add_argument("--seed", metavar="A-B", help="judge the random scripts of these seeds, as 7, 1-500 or 1-50,77")
    made.add_argument("--model", metavar="PATH", help="the model's program (default: the one that ./ahci --build makes, else ./ahci, unproved and slow)")
    made.add_argument("--known", metavar="FILE", help="the list of known differences, or `none` (default: the emulator's own)")
    made.add_argument("--base", metavar="FILE", help="the list of what any port may do otherwise, or `none` (default: conform/any_port.json; none with --shown and --without)")
    made.add_argument("--without", metavar="NAME", help="leave this entry out of the list, so that it is reported as a new difference")
    made.add_argument("--pieces", choices=("plain", "scattered", "both"),
                      help="where data lie: as in the model, in many pieces, or now one and now the other (default: both for --seed, plain for SCRIPT)")
    made.add_argument("--pieces-seed", metavar="N", type=int, help="the seed of the pieces (default: that of the script, 1 for SCRIPT)")
    made.add_argument("--draft-list", metavar="FILE", help="go on past every difference, and write a first list of them to this file")
    made.add_argument("--fault", metavar="NAME", help="plant this fault in the stand-in; `list` names them")
    made.add_argument("--go-on", action="store_true", help="judge the scripts after one with a new difference too")
    made.add_argument("--json", action="store_true", help="an object a script, a line each, in the place of text and table")
    made.add_argument("--each-line", action="store_true", help="a line for each line of the scripts: its number, and the known differences that it shows; a new difference goes to standard error")
    made.add_argument("--shown", metavar="FOLDER", help="check that the list's entries are each shown by the script FOLDER/NAME.ahci")
    made.add_argument("--controller", action="store_true", help="judge the whole controller by random driver programs, with options of its own: --controller --help")
    made.add_argument("--page", metavar="FILE", help="print the page of this list of known differences, and judge nothing")
    return made


def seeds_in(text: str) -> List[int]:
    seeds: List[int] = []
    for part in text.split(","):
        ends = re.fullmatch(r"([0-9]{1,15})(?:-([0-9]{1,15}))?", part)
        if not ends or int(ends[1]) > int(ends[2] or ends[1]):
            raise Wrong(f"'{part}' names no seeds: give one, as 77, or a range, as 1-50, with commas between them")
        seeds += range(int(ends[1]), int(ends[2] or ends[1]) + 1)
    return seeds


def script_maker() -> Callable[..., List[str]]:
    """`script_of` of bench/scripts_of.py."""
    path = os.path.join(TOP, "bench", "scripts_of.py")
    found = importlib.util.spec_from_file_location("scripts_of", path)
    if not found or not found.loader or not os.path.exists(path):
        raise Wrong(f"there is no {path}")
    module = importlib.util.module_from_spec(found)
    found.loader.exec_module(module)
    return module.script_of  # type: ignore[no-any-return]


def scripts_in(asked: argparse.Namespace) -> Iterator[Tuple[str, str, Way]]:
    """Names, texts, and where their data lie."""
    way = Way(asked.pieces or "plain", str(1 if asked.pieces_seed is None else asked.pieces_seed))
    for path in asked.scripts:
        try:
            with (open(0, encoding="latin-1", closefd=False) if path == "-" else open(path, encoding="latin-1")) as text:
                yield "standard input" if path == "-" else os.path.basename(path), text.read(), way
        except OSError as why:
            raise Wrong(f"{path} can't be read: {why.strerror}") from why
    if asked.seed:
        script_of = script_maker()
        for seed in seeds_in(asked.seed):
            way = Way(asked.pieces or "both", str(seed if asked.pieces_seed is None else asked.pieces_seed))
            yield f"seed {seed}", "".join(f"{line}\n" for line in script_of(seed, True, True)), way


def adapter_of(asked: argparse.Namespace) -> Callable[[], Adapter]:
    """What makes the emulator's adapter, anew for each script."""
    if asked.emulator == "qemu":
        return lambda: Qemu(asked.qemu) if asked.qemu else Qemu()
    if asked.emulator == "stand-in":
        if asked.fault not in (None, *(it.name for it in faults.FAULTS)):
            raise Wrong(f"there is no fault '{asked.fault}': --fault list names them")
        return faults.named(asked.fault)
    path, colon, name = asked.emulator.rpartition(":")
    if not colon:
        raise Wrong(f"there is no emulator '{asked.emulator}': qemu, stand-in, or FILE.py:CLASS")
    found = importlib.util.spec_from_file_location("adapter_of_the_user", path)
    if not found or not found.loader or not os.path.exists(path):
        raise Wrong(f"there is no adapter {path}")
    module = importlib.util.module_from_spec(found)
    try:
        found.loader.exec_module(module)
    except (Exception, SystemExit) as why:  # whatever the file does
        raise Wrong(f"{path} can't be loaded: {type(why).__name__}: {why}") from why
    made = getattr(module, name, None)
    if not (isinstance(made, type) and issubclass(made, Adapter)):
        raise Wrong(f"{path} has no class {name} that is a judge.adapter.Adapter")
    return made


def known_for(asked: argparse.Namespace) -> Known:
    listed = Listed(asked.known or "none", "") if asked.known or asked.emulator != "qemu" else list_for(CONFORM, asked.qemu or PROGRAM)
    if listed.notice:
        print(f"ahci_conform: {listed.notice}", file=sys.stderr)
    known = NOTHING if listed.path == "none" else read_known(listed.path)
    base = asked.base or ("none" if asked.shown or asked.without else BASE)
    known = known if base == "none" else known.over(read_known(base))
    if asked.without and asked.without not in [entry.name for entry in known.entries]:
        raise Wrong(f"the list has no entry '{asked.without}': it has {', '.join(entry.name for entry in known.entries) or 'none'}")
    return known._replace(entries=[entry for entry in known.entries if entry.name != asked.without])


def print_result(asked: argparse.Namespace, judged: Judged) -> None:
    """What is reported of one script when it has ended."""
    text = "\n".join(report.differences_text(judged)) if judged.new else ""
    if asked.json:
        print(json.dumps(report.as_json(judged)), flush=True)
    elif asked.each_line:
        for step, names in zip(judged.trace.steps, judged.names):
            print(" ".join([str(step.number), *(names or ["same"])]))
        sys.stdout.flush()
        if text:
            print(text, file=sys.stderr)
    else:
        if judged.trace.end:
            print(f"{judged.name}: judged up to the model's `{judged.trace.end}`", flush=True)
        if judged.end:
            print(f"{judged.name}: judged up to {judged.end}", flush=True)
        if text:
            print(text, flush=True)


def run(asked: argparse.Namespace) -> int:
    """Judges all scripts, and reports each as it ends."""
    if not asked.scripts and not asked.seed:
        raise Wrong("SCRIPT or --seed is missing (conform/ahci_conform --help explains)")
    make, known, program = adapter_of(asked), known_for(asked), model.program_at(asked.model, TOP)
    draft = Draft() if asked.draft_list else None
    runs: List[Judged] = []
    begun = time.monotonic()
    for name, text, way in scripts_in(asked):
        judged = judge(name, model.trace_of(program, text), make, known, way, draft)
        runs.append(judged)
        print_result(asked, judged)
        if judged.new and not asked.go_on:
            break
    if draft:
        return write_draft(asked, draft, known, runs)
    if not asked.json and not asked.each_line:
        print("\n".join(report.table(runs, known, time.monotonic() - begun)))
    return 0 if all(it.passed for it in runs) else 1


def write_draft(asked: argparse.Namespace, draft: Draft, known: Known, runs: List[Judged]) -> int:
    """The list of what was found, beside what is known already."""
    title = runs[-1].title if runs else "an emulator"
    try:
        with open(asked.draft_list, "w", encoding="utf-8") as out:
            out.write(draft.text(title))
    except OSError as why:
        raise Wrong(f"{asked.draft_list} can't be written: {why.strerror}") from why
    print("\n".join(report.draft_table(runs, draft, known, asked.draft_list)))
    return 1 if draft.written else 0


def check_list(asked: argparse.Namespace) -> int:
    """`--shown`: each entry of the list by its own script."""
    known = known_for(asked)
    faults = list(shown.faults_of(known, asked.shown, model.program_at(asked.model, TOP), adapter_of(asked)))
    print("\n".join([*faults, f"{len(known.entries)} known differences, {len(faults)} faults"]))
    return 1 if faults else 0


class Stopped(BaseException):
    """A signal has come. No adapter's `except Exception` catches it."""


def stop(number: int, _: object) -> None:
    raise Stopped(128 + number)


def main(given: Optional[List[str]] = None) -> int:
    signal.signal(signal.SIGTERM, stop)
    if "--controller" in (sys.argv[1:] if given is None else given):
        from controller import cli as controller  # needs the library, which the scripts don't

        return controller.main(given)
    try:
        asked = words().parse_args(given)
        if asked.fault == "list":
            print("\n".join(f"{it.name:<32}{(it.stand_in.__doc__ or '').strip()}" for it in faults.FAULTS))
            return 0
        if asked.fault and asked.emulator != "stand-in":
            raise Wrong("--fault is for --emulator stand-in alone")
        if asked.page:
            print(page.page_of(read_known(asked.page), os.path.basename(asked.page), controller_page.part()), end="")
            return 0
        return check_list(asked) if asked.shown else run(asked)
    except (Wrong, ListFault, model.ModelFault) as why:
        print(f"ahci_conform: {why}", file=sys.stderr)
        return 2
    except EmulatorFault as why:
        print(f"ahci_conform: {why}", file=sys.stderr)
        return 3
    except Stopped as why:
        return int(why.args[0])
    except KeyboardInterrupt:
        print("ahci_conform: stopped", file=sys.stderr)
        return 130
    except BrokenPipeError:
        os.dup2(os.open(os.devnull, os.O_WRONLY), 1)  # nothing more can be reported
        return 1
