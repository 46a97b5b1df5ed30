"""What every suite of checks here has in common: its command line, a scratch folder for each check, and how each ended in one line."""
from __future__ import annotations

import argparse
import concurrent.futures
import os
import shutil
import subprocess
import tempfile
import time
from typing import Callable, List, NamedTuple, Sequence


class Failed(Exception):
    """What a check found wrong."""


class Skipped(Exception):
    """Why a check can't be run here."""


class Check(NamedTuple):
    """A check gets a scratch folder, and returns what it has seen. Its description says what it looks at."""
    run: Callable[[str], str]
    needs: Sequence[str] = ()  # programs
    title: str = ""
    is_long: bool = False  # it needs minutes
    is_alone: bool = False  # nothing else runs beside it

    @property
    def name(self) -> str:
        return self.title or self.run.__name__


def expect(is_right: bool, what: str) -> None:
    if not is_right:
        raise Failed(what)


def missing_of(check: Check) -> str:
    """The programs that a check needs and that are not here."""
    path = os.environ.get("PATH", "") + ":/usr/sbin:/sbin"
    return ", ".join(it for it in check.needs if not shutil.which(it, path=path))


def perform(check: Check, keeps: bool) -> str:
    """Runs a check, and prints how it ended: `ok`, `skipped:` or `FAILED`."""
    missing, begun, kept = missing_of(check), time.monotonic(), ""
    room = tempfile.mkdtemp(prefix="ahci-check-")
    try:
        if missing:
            raise Skipped(f"{missing} is not here")
        said, ending = check.run(room), "ok"
    except Skipped as why:
        said, ending = str(why), "skipped:"
    except (Failed, subprocess.SubprocessError, OSError, ValueError, LookupError, AssertionError, RuntimeError) as why:
        said, ending = f"{'' if isinstance(why, Failed) else type(why).__name__ + ': '}{why}", "FAILED"
        kept = f"; its files are in {room}" if keeps else ""
    if not kept:
        shutil.rmtree(room, ignore_errors=True)
    print(f"{ending} {check.name}: {said} ({time.monotonic() - begun:.0f} s{kept})", flush=True)
    return ending


def arguments(about: str, jobs: int) -> argparse.Namespace:
    words = argparse.ArgumentParser(description=about, formatter_class=argparse.RawDescriptionHelpFormatter)
    words.add_argument("--only", default="", metavar="WORD", help="the checks whose name has WORD, long ones too")
    words.add_argument("--long", action="store_true", help="the long checks too")
    words.add_argument("--jobs", type=int, default=jobs, metavar="N", help=f"how many run at once ({jobs})")
    words.add_argument("--keep", action="store_true", help="leave the scratch folder of a check that fails")
    words.add_argument("--list", action="store_true", help="print what each check looks at, and run none")
    return words.parse_args()


def listed(checks: Sequence[Check]) -> int:
    for check in checks:
        print(f"{check.name}{' (long)' if check.is_long else ''}: {' '.join((check.run.__doc__ or '').split())}")
    return 0


def main(about: str, checks: Sequence[Check], jobs: int = 1) -> int:
    """Runs the checks that the command line names. The status is 1 if one has failed."""
    asked = arguments(about, jobs)
    if asked.list:
        return listed(checks)
    named = [it for it in checks if asked.only.lower() in it.name.lower()]
    chosen = [it for it in named if asked.long or asked.only or not it.is_long]
    with concurrent.futures.ThreadPoolExecutor(asked.jobs) as pool:
        endings: List[str] = list(pool.map(lambda it: perform(it, asked.keep), [it for it in chosen if not it.is_alone]))
    endings += [perform(it, asked.keep) for it in chosen if it.is_alone]
    left = [it.name for it in named if it not in chosen]
    if left:
        print(f"not run without --long: {', '.join(left)}")
    passed, failed, skipped = (endings.count(it) for it in ("ok", "FAILED", "skipped:"))
    print(f"{passed} passed, {failed} failed, {skipped} skipped")
    return 1 if failed or not endings else 0
