"""Trials of changed sources: what the prover says of a crate in which bodies of functions are changed. `mutants` uses it.

A crate is proved in a copy of its folder, over the libraries of statements that `build` keeps, so that nothing below it is proved again. What a
check of the unchanged crate has proved is kept beside its library, and the next run begins with it.
"""
from __future__ import annotations

import contextlib
import dataclasses
import os
import re
import shutil
import subprocess
import tempfile
import time
from typing import Callable, Dict, Generic, Iterator, List, NamedTuple, Optional, Protocol, Sequence, Set, Tuple, TypeVar

from libraries import OUT, TOP, Fault, crates_of, kit, words_for

# what refused a change, or that nothing did
CLAUSE, STORED, NAME, PROVED = "a clause", "a stored proof", "a name", "the crate is still proved"

# the head of a function, or of what ends the search for one
HEAD = re.compile(r'^(?: *(?:pub(?:\([a-z]+\))? )?(?:const )?(?:final )?(?:extern "C" )?fn (\w+)|(?:pub )?(?:const|static|struct|enum) )')
# a goal that no stored proof answers, at its place in the source
OPEN_GOAL = re.compile(r"(?m)^note: (src/\S+?\.rt):(\d+):\d+: it is not proved")
# what the check says of a function that has a goal of its own left
OWN_GOAL = re.compile(r"(not proved|no proof).*(did not prove|antt refuses)")
# what it says where the function's own proof file fails; a function that only calls another is no case of it
FAILS = re.compile(r"not proved(?!.*(it calls|it passes|a call of))")
# what the sources are wrong in before anything is proved
SOURCE_ERROR = re.compile(r"(?m)^(?:\./)?(src/\S+?\.rt):(\d+):\d+: error")
# a proof file that names what the change took away shows nothing of a clause
NAMES = re.compile(r"has no field|is not in scope|has no `|was not admitted|was not checked")
# a line that imports names, and does nothing else
IMPORT = re.compile(r"(ghost )?use [^;]*;$")

Texts = Dict[str, str]
Functions = Set[Tuple[str, str]]


class Change(Protocol):
    """A change of a crate's sources."""

    @property
    def name(self) -> str:
        """What it is named by."""

    @property
    def is_whole(self) -> bool:
        """Whether it replaces the whole body of its function."""

    def applied(self, texts: Texts) -> Optional[Texts]:
        """The texts with the change made, or None where it doesn't fit them."""

    def functions(self, texts: Texts) -> Optional[Functions]:
        """Where it changes bodies: (file, function's name) each; None where a line stands in no function."""


class Replaced(NamedTuple):
    """A text of a file, and what takes its place."""

    file: str
    old: str
    new: str


class Edit:
    """A wrong body that is kept in a file: the texts that it changes, each of which is in its file once."""

    def __init__(self, path: str) -> None:
        self.name, self.is_whole = os.path.basename(path), False
        self.changes: List[Replaced] = []
        file = old = ""
        with open(path, encoding="utf-8") as lines:
            for line in lines.read().split("\n"):
                if line.startswith("file: "):
                    file = line[len("file: ") :].strip()
                elif line.startswith("old: "):
                    old = line[len("old: ") :]
                elif line.startswith("new:"):
                    new = line[len("new:") :]
                    self.changes.append(Replaced(file, old, new[1:] if new.startswith(" ") else new))

    def applied(self, texts: Texts) -> Optional[Texts]:
        made = dict(texts)
        for file, old, new in self.changes:
            if made.get(file, "").count(old) != 1:
                return None
            made[file] = made[file].replace(old, new)
        return made

    def functions(self, texts: Texts) -> Optional[Functions]:
        """A line that imports for a body is in no function, and counts with it."""
        found: Functions = set()
        made = dict(texts)
        for file, old, new in self.changes:
            if made.get(file, "").count(old) != 1 or not file.endswith(".rt"):
                return None
            name = function_at(made[file], made[file][: made[file].index(old)].count("\n") + 1)
            made[file] = made[file].replace(old, new)
            if IMPORT.match(old) and IMPORT.match(new):
                continue
            if name is None:
                return None
            found.add((file, name))
        return found or None


AnyChange = TypeVar("AnyChange", bound=Change)


class Limit:
    """The time that trials may take."""

    def __init__(self, minutes: Optional[float] = None, clock: Callable[[], float] = time.monotonic) -> None:
        self.clock, self.end = clock, None if minutes is None else clock() + 60 * minutes

    def is_over(self) -> bool:
        return self.end is not None and self.clock() >= self.end


@dataclasses.dataclass
class Rounds(Generic[AnyChange]):
    """The changes that rounds of trials refused no function of, those that do not compile, those that the limit left, and how many checks
    there were."""

    unrefused: List[AnyChange]
    unread: List[AnyChange]
    untried: List[AnyChange]
    checks: int


class Crate:
    """A copy of one crate."""

    def __init__(self, folder: str, name: str, words: Sequence[str] = (), hollow: Sequence[str] = ()) -> None:
        self.name, self.folder, self.words, self.hollow = name, folder, list(words), hollow
        self.said: Dict[str, str] = {}  # what a check of the unchanged crate says of each function
        self.texts: Texts = {}
        for part in ("src", "specs", "proofs"):
            for at, _, files in os.walk(f"{self.folder}/{part}"):
                for file in files:
                    path = f"{at}/{file}"
                    with open(path, encoding="utf-8") as text:
                        self.texts[os.path.relpath(path, self.folder)] = text.read()

    def write(self, texts: Texts, before: Texts) -> None:
        """Writes the files that are other ones than before; a file that is in the texts no more goes."""
        for file in before.keys() - texts.keys():
            os.remove(f"{self.folder}/{file}")
        for file, text in texts.items():
            if before.get(file) != text:
                with open(f"{self.folder}/{file}", "w", encoding="utf-8") as new:
                    new.write(text)

    def check(self) -> Tuple[str, int]:
        """What the prover prints, and its status."""
        ran = subprocess.run(
            self.words, cwd=self.folder, stdin=subprocess.DEVNULL, stdout=subprocess.PIPE, stderr=subprocess.STDOUT, text=True, errors="replace", check=False,
        )
        return ran.stdout, ran.returncode

    def check_unchanged(self) -> Tuple[str, int]:
        """The same, which says how each function is called."""
        printed, status = self.check()
        self.said = dict(re.findall(r"(?m)^fn (\S+): (.*)", printed))
        return printed, status

    def check_of(self, texts: Texts) -> Tuple[str, int]:
        """The same of changed texts, which stand there for this check alone."""
        self.write(texts, self.texts)
        try:
            return self.check()
        finally:
            self.write(self.texts, texts)

    def without_proofs(self, texts: Texts, file: str, name: str) -> Texts:
        """The texts without what is stored of a function's own proof."""
        folders = tuple("/".join(["proofs", *it.split("::")[1:], ""]) for it in self.symbols(file, name, self.said))
        return {it: text for it, text in texts.items() if not it.startswith(folders)} if folders else texts

    def refused_by(self, change: Change, texts: Texts, printed: str) -> Optional[str]:
        """What refused a change among others: a goal of its own function that no stored proof answers, else that function's stored
        proof; None where the check says neither."""
        own = change.functions(self.texts) or set()
        if any((file, function_at(texts[file], int(line))) in own for file, line in OPEN_GOAL.findall(printed)):
            return CLAUSE
        said = dict(re.findall(r"(?m)^fn (\S+): (.*)", printed))
        failing = {folder for folder, text in re.findall(r"(?m)^\./proofs/(\S+)/\w+\.antt:\d+:\d+: error: (.*)", printed)
                   if not NAMES.search(text)}
        for file, name in own:
            for symbol in self.symbols(file, name, said):
                folder = "/".join(symbol.split("::")[1:])
                if OWN_GOAL.match(said[symbol]):
                    return CLAUSE
                if FAILS.match(said[symbol]) and folder in failing:
                    return STORED
        return None

    def symbols(self, file: str, name: str, said: Dict[str, str]) -> List[str]:
        """What a check may call a function of a file: a method stands in the module of its type, which may be one above the file's."""
        parts = [it for it in re.sub(r"^src/|/?(lib|main|mod)?\.rt$", "", file).split("/") if it]
        while True:
            start = "::".join([self.name, *parts, ""])
            found = [it for it in said if re.fullmatch(rf"{start}(?:[A-Z]\w*::)*{name}", it)]
            if found or not parts:
                return found
            parts.pop()

    def rounds(self, changes: Sequence[AnyChange], found: Dict[str, str], limit: Limit) -> Rounds[AnyChange]:
        """Tries the changes, one a function at a time, and notes what refused each."""
        left: List[AnyChange] = [it for it in changes if it.functions(self.texts)]
        unrefused: List[AnyChange] = [it for it in changes if it not in left]
        unread: List[AnyChange] = []
        checks = 0
        while left:
            if limit.is_over():
                return Rounds(unrefused, unread, left, checks)
            texts = self.texts
            taken: Functions = set()
            now: List[AnyChange] = []
            for change in left:
                own = change.functions(self.texts) or set()
                made = None if own & taken else self.applied(change, texts)
                if made:
                    texts, now = made, [*now, change]
                    taken |= own
            if not now:
                return Rounds(unrefused + left, unread, [], checks)
            printed, _ = self.check_of(texts)
            checks += 1
            broken = {(file, function_at(texts[file], int(line))) for file, line in SOURCE_ERROR.findall(printed) if file in texts}
            kept_out = [it for it in now if (it.functions(self.texts) or set()) & broken]
            if kept_out:  # such a change keeps the others from the prover
                unread += kept_out
                left = [it for it in left if it not in kept_out]
                continue
            for change in now:
                kind = self.refused_by(change, texts, printed)
                if kind == CLAUSE or kind == STORED and change.name in self.hollow:
                    found[change.name] = kind
                else:
                    unrefused.append(change)
            left = [it for it in left if it not in now]
        return Rounds(unrefused, unread, [], checks)

    def applied(self, change: Change, texts: Texts) -> Optional[Texts]:
        """The texts with the change made. A whole body has no use for what is stored of the function's proof."""
        made = change.applied(texts)
        for file, name in change.functions(self.texts) or () if change.is_whole else ():
            made = self.without_proofs(made, file, name) if made else None
        return made

    def alone(self, change: Change) -> str:
        """Tries one change, where a goal of a caller counts too. Answers what refused it, or why it counts as not refused."""
        texts = self.applied(change, self.texts)
        if texts is None:
            return "its old text doesn't stand once in its file"
        printed, status = self.check_of(texts)
        if status == 0:
            return PROVED
        if OPEN_GOAL.search(printed):
            return CLAUSE
        if any(OWN_GOAL.match(words) for words in re.findall(r"(?m)^fn \S+: (.*)", printed)):
            return CLAUSE
        errors = re.findall(r"(?m)^(?:\./)?(proofs|src|specs)/\S+:\d+:\d+: error: (.*)", printed)
        if any(part == "proofs" and not NAMES.search(text) for part, text in errors):
            return STORED
        if any(part == "proofs" for part, _ in errors):
            return NAME
        return "it did not reach the prover: " + next((it for it in printed.split("\n") if "error" in it), printed[-200:])[:200]


def function_at(text: str, line: int) -> Optional[str]:
    """The name of the function that a line of a file stands in."""
    above = text.split("\n")[:line]
    return next((it[1] for it in map(HEAD.match, reversed(above)) if it), None)


def kept_at(name: str) -> str:
    """Where what is proved of an unchanged crate is kept."""
    return os.path.join(OUT, name, "proved")


@contextlib.contextmanager
def copied(name: str, jobs: int) -> Iterator[Crate]:
    """A copy of a crate in a scratch folder, over the libraries of statements below it, which are built where they are not there."""
    crates = crates_of(os.path.join(TOP, "crates.txt"), name)
    if crates[name].below:
        built = subprocess.run([os.path.join(TOP, "tools", "build"), "--below", name, "--jobs", str(jobs)], stderr=subprocess.PIPE, text=True, check=False)
        if built.returncode:
            raise Fault(f"what is below {name} is not built\n{built.stderr[-2000:]}")
    with tempfile.TemporaryDirectory(prefix="mutants-") as room:
        folder, proved = os.path.join(room, name), os.path.join(room, "proved")
        shutil.copytree(crates[name].folder, folder, symlinks=True, ignore=shutil.ignore_patterns("out"))
        if os.path.isdir(kept_at(name)):
            shutil.copytree(kept_at(name), proved)
        os.makedirs(proved, exist_ok=True)
        yield Crate(folder, name, ["rattle", "check", *words_for(crates, crates[name], kit(), jobs), "--incremental", proved])


def keep(crate: Crate) -> None:
    """Keeps what is proved of the unchanged crate for the next run."""
    new = kept_at(crate.name) + ".new"
    shutil.rmtree(new, ignore_errors=True)
    shutil.copytree(os.path.join(os.path.dirname(crate.folder), "proved"), new)
    shutil.rmtree(kept_at(crate.name), ignore_errors=True)
    os.rename(new, kept_at(crate.name))
