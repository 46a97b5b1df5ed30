"""The crates of the repository, and the arguments by which `rattle` proves one of them over libraries of statements: all that a crate reads of
those below it, kept by `build` in crates/ahci/out/rlib. `build` and `trials.py` use it."""
from __future__ import annotations

import dataclasses
import hashlib
import os
import subprocess
from typing import Dict, List, Tuple

TOP = os.path.dirname(os.path.dirname(os.path.realpath(__file__)))
PROGRAM = "ahci"
OUT = os.path.join(TOP, "crates", PROGRAM, "out", "rlib")  # the one folder in which `rt ci` lets built libraries stand


class Fault(Exception):
    """Why something can't be built or proved, in words for whoever asked for it."""


@dataclasses.dataclass
class Crate:
    """A crate: its line of crates.txt, the crates below it, and its place among the others."""

    name: str
    line: str
    is_top: bool  # what is asked for: the program, a static library, or a crate whose lower ones are
    own: List[str]  # the libraries of the repository that it names
    kit: List[str]  # those of the kit
    below: List[str] = dataclasses.field(default_factory=list)  # all libraries of the repository below it
    lines: int = 0
    chain: int = 0  # lines of the longest chain that begins with it and ends with what is asked for

    @property
    def folder(self) -> str:
        return os.path.join(TOP, "crates", self.name)

    @property
    def root(self) -> str:
        return "src/main.rt" if os.path.exists(os.path.join(self.folder, "src/main.rt")) else "src/lib.rt"

    @property
    def is_static(self) -> bool:
        return self.is_top and "staticlib" in self.line.partition(":")[0].split()

    @property
    def made(self) -> str:
        """What is built of it: a library's folder, the program's file, or a static library's."""
        if self.is_static:
            return os.path.join(self.folder, "out", f"lib{self.name}.a")
        return os.path.join(OUT, self.name, self.name if self.name == PROGRAM else f"{self.name}.rlib")

    def sources(self) -> List[str]:
        found = []
        for part in ("src", "specs", "proofs"):
            for at, folders, names in os.walk(os.path.join(self.folder, part)):
                folders.sort()
                found += [os.path.join(at, name) for name in sorted(names)]
        return found


def kit() -> str:
    """The folder of the Rattle kit, whose first page `rt doc` names."""
    try:
        page = subprocess.run(["rt", "doc"], capture_output=True, text=True, check=True).stdout.strip()
    except (OSError, subprocess.CalledProcessError) as why:
        raise Fault("rt, of the Rattle kit, is not on the PATH") from why
    return os.path.dirname(page)


def listed(path: str) -> Dict[str, Tuple[str, List[str]]]:
    """The lines of crates.txt, lowest first: by a crate's name its line, and the libraries that it names."""
    found: Dict[str, Tuple[str, List[str]]] = {}
    with open(path, encoding="utf-8") as text:
        for line in text:
            head, colon, uses = line.partition("#")[0].partition(":")
            if colon:
                found[head.split()[0]] = (line.strip(), uses.split())
    return found


def crates_of(path: str, top: str = PROGRAM) -> Dict[str, Crate]:
    """A crate and those below it, by name, each after those that it uses."""
    lines = listed(path)
    found: Dict[str, Crate] = {}

    def visit(name: str) -> None:
        if name in found:
            return
        line, uses = lines[name]
        own = [it for it in uses if it in lines]
        for it in own:
            visit(it)
        crate = Crate(name, line, name == top, own, ["std", *[it for it in uses if it not in lines]])
        for it in own:
            crate.below += [lower for lower in [*found[it].below, it] if lower not in crate.below]
        found[name] = crate

    if top not in lines:
        raise Fault(f"crates.txt has no crate {top}")
    visit(top)
    for crate in found.values():
        for file in crate.sources():
            with open(file, "rb") as text:
                crate.lines += text.read().count(b"\n")
    for crate in reversed(list(found.values())):
        crate.chain += crate.lines
        for it in crate.own:
            found[it].chain = max(found[it].chain, crate.chain)
    return found


def words_for(crates: Dict[str, Crate], crate: Crate, where: str, jobs: int) -> List[str]:
    """What `rattle check` and `rattle build` are given of a crate: its name and root, the libraries below it, and the logic; `where` is the kit."""
    words = ["--crate-name", crate.name, crate.root]
    for name in crate.kit:
        words += ["--extern", f"{name}={where}/rlibs/{name}.rlib"]
    words += ["-L", f"dependency={where}/rlibs"]
    for name in crate.own:
        words += ["--extern", f"{name}={crates[name].made}"]
    for name in crate.below:
        words += ["-L", f"dependency={os.path.dirname(crates[name].made)}"]
    words += ["--antt-project", f"{where}/rattle/logic/antt-project.json", "--logic-built", f"{where}/logic_built"]
    words += ["--links", f"{crate.name}=", "--jobs", str(jobs)]
    return [*words, "--crate-type", "staticlib"] if crate.is_static else words


def sum_of(*parts: object) -> str:
    return hashlib.sha256(repr(parts).encode()).hexdigest()


def bytes_of(path: str) -> bytes:
    with open(path, "rb") as it:
        return it.read()
