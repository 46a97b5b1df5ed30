"""The definitions that a definition of specs/ rests on: what a reader has to read, and trust, to know what a promise says. `pages --trusted` prints them.

A definition begins in column 0 with one of the words of HEADS, and ends where the next one begins; its comment, right above it, belongs to it. What it names is
looked for in its own file and in what the file's `use` lines bring. Types of src/ are followed to their declaration; the kit's library is not followed.
"""
from __future__ import annotations

import glob
import os
import re
from dataclasses import dataclass, field
from typing import Dict, Iterable, Iterator, List, Optional, Set, Tuple

HEADS = re.compile(r"(?:abbrev|unfoldable|pub|record|data|opaque|instance)\b")
WORDS = {"abbrev", "unfoldable", "pub", "record", "data", "opaque", "instance"}
NAME = re.compile(r"[^\W\d][\w']*")
WORD = re.compile(r"[^\s(){}\[\],;.:]+")
OPERATOR = "◌"  # such a name is written apart, or not at all, as in a `do`
DATA = re.compile(r"(?m)^(?:pub )?data ")
CONSTRUCTOR = re.compile(r"(?m)^  (\w+) :")
DECLARED = re.compile(r"(?:pub(?:\([a-z]+\))? )?(?:struct|enum) (\w+)")

TABLE = "| Definition | Definitions | Lines | Files | What it says |"

Place = Tuple[str, str]  # a module's whole name, and a name in it


class Unknown(Exception):
    """A name that is no definition, or that of several, in words for whoever gave it."""


@dataclass
class Definition:
    """Some lines of a file, counted from 1, and the names in them."""

    path: str
    first: int
    last: int
    text: str

    @property
    def lines(self) -> int:
        return self.last - self.first + 1


@dataclass
class Module:
    """A file of specs/: its definitions by name, and what its `use` lines bring."""

    definitions: Dict[str, Definition] = field(default_factory=dict)
    brought: Dict[str, Place] = field(default_factory=dict)
    renamed: Dict[str, str] = field(default_factory=dict)  # modules that are imported under another name
    constructors: Dict[str, str] = field(default_factory=dict)  # the name of the `data` that each belongs to


def split_list(text: str) -> Iterator[str]:
    """The parts of a list between braces, each whole."""
    depth, begun = 0, 0
    for at, sign in enumerate(text):
        depth += (sign == "{") - (sign == "}")
        if sign == "," and not depth:
            yield text[begun:at].strip()
            begun = at + 1
    if text[begun:].strip():
        yield text[begun:].strip()


def imports(text: str, before: str = "") -> Iterator[Tuple[str, str, Optional[str]]]:
    """What `use` brings: a module, a name in it (empty for the module itself), and the name that it has here."""
    path, brace, rest = text.partition(".{")
    if brace:
        for part in split_list(rest.rstrip()[:-1]):
            yield from imports(part, f"{before}{path}.") if ".{" in part else named(part, f"{before}{path}")
    else:
        whole, _, alias = text.partition(" as ")
        yield before + whole.strip(), "", alias.strip() or None


def named(part: str, module: str) -> Iterator[Tuple[str, str, Optional[str]]]:
    name, _, alias = part.partition(" as ")
    yield module, name.strip(), alias.strip() or None


def name_of(line: str) -> Optional[str]:
    """The name that a line begins to define."""
    return next((it for it in line.replace("(", " ( ").split() if it not in WORDS), None) if HEADS.match(line) and not line.startswith("pub mod") else None


def read_module(path: str, shown: str) -> Module:
    with open(path, encoding="utf-8") as text:
        lines = text.read().split("\n")
    found, open_at, name, comment = Module(), 0, "", 0
    heads: List[Tuple[str, int, int]] = []  # a definition's name, the line of its comment's begin, and its own
    for number, line in enumerate(lines, 1):
        if line.startswith("--"):
            comment = comment or number
            continue
        if line.startswith("use "):
            for module, it, alias in imports(line[4:].strip()):
                if it:
                    found.brought[alias or it] = (module, it)
                else:
                    found.renamed[alias or module.rsplit(".", 1)[-1]] = module
        new = name_of(line)
        if new:
            heads.append((new, comment or number, number))
        comment = 0
    for at, (name, open_at, _) in enumerate(heads):
        last = heads[at + 1][1] - 1 if at + 1 < len(heads) else len(lines)
        while last > open_at and not lines[last - 1].strip():
            last -= 1
        text_of = "\n".join(line.partition("--")[0] for line in lines[open_at - 1 : last])
        found.definitions[name] = Definition(shown, open_at, last, text_of)
        found.constructors.update({made: name for made in CONSTRUCTOR.findall(text_of)} if DATA.search(text_of) else {})
    return found


def declarations(path: str, shown: str) -> Iterator[Tuple[str, Definition]]:
    """The types that a file of src/ declares; in a clause a type has its fields' types alone, and these are not followed."""
    with open(path, encoding="utf-8") as text:
        lines = text.read().split("\n")
    for number, line in enumerate(lines, 1):
        it = DECLARED.match(line)
        if it:
            last = number if line.rstrip().endswith((";", "}")) else next((at for at in range(number, len(lines) + 1) if lines[at - 1].startswith((")", "}"))), number)
            yield it[1], Definition(shown, number, last, "")


class Specs:
    """All definitions of a repository's crates."""

    def __init__(self, top: str) -> None:
        self.modules: Dict[str, Module] = {}
        for path in sorted(glob.glob(f"{top}/crates/*/specs/**/*.antt", recursive=True)):
            shown = os.path.relpath(path, top)
            crate, rest = shown.split(os.sep)[1], shown.split(os.sep)[3:]
            self.modules[".".join(["Rattle", crate, "specs", *rest])[: -len(".antt")]] = read_module(path, shown)
        self.types: Dict[Tuple[str, str], Definition] = {}
        for path in sorted(glob.glob(f"{top}/crates/*/src/**/*.rt", recursive=True)):
            shown = os.path.relpath(path, top)
            for name, it in declarations(path, shown):
                self.types.setdefault((shown.split(os.sep)[1], name), it)

    def places(self, name: str) -> List[Place]:
        """Where a name is defined; `crate::name` is that of one crate."""
        crate, _, own = name.rpartition("::")
        return [(module, own) for module, it in self.modules.items() if own in it.definitions and crate in ("", module.split(".")[1])]

    def place(self, name: str) -> Place:
        found = self.places(name)
        if len(found) != 1:
            crates = ", ".join(f"{module.split('.')[1]}::{it}" for module, it in found)
            raise Unknown(f"{name}: expected one of {crates}" if found else f"{name}: no definition of specs/ has that name")
        return found[0]

    def definition(self, place: Place) -> Optional[Definition]:
        module, name = place
        parts = module.split(".")
        if "declared" in parts:
            return self.types.get((parts[1], parts[-2] if parts[-1] == "TheVariants" else parts[-1]))
        it = self.modules.get(module)
        return it.definitions.get(it.constructors.get(name, name)) if it else None

    def named_in(self, place: Place) -> Iterator[Place]:
        """The definitions that one names."""
        module, _ = place
        it, own = self.modules.get(module), self.definition(place)
        if not it or not own:
            return
        for name in sorted(set(NAME.findall(own.text))):
            if name in it.definitions or name in it.constructors:
                yield module, name
            elif name in it.brought:
                yield it.brought[name]
            elif name in it.renamed:
                yield it.renamed[name], name

    def of_proofs_alone(self, texts: Iterable[str]) -> List[Definition]:
        """The definitions to which no word of these texts leads, which are those of src/: proofs alone can name them. Names are compared and not their modules."""
        named: Dict[str, List[Definition]] = {}
        other_names: Dict[str, Set[str]] = {}
        for it in self.modules.values():
            for alias, (_, name) in it.brought.items():
                other_names.setdefault(alias, set()).add(name)
            for name, own in it.definitions.items():
                named.setdefault(name, []).append(own)
            for name, whole in it.constructors.items():
                named.setdefault(name, []).append(it.definitions[whole])
        waiting, seen = [word for text in texts for word in WORD.findall(text)], set()  # type: List[str], Set[str]
        while waiting:
            word = waiting.pop()
            if word not in seen:
                seen.add(word)
                waiting += [name for own in named.get(word, []) for name in WORD.findall(own.text)]
                waiting += other_names.get(word, ())
        return [own for it in self.modules.values() for name, own in it.definitions.items() if name not in seen and OPERATOR not in name]

    def closure(self, name: str) -> List[Definition]:
        """A definition and those that it rests on, by file and line."""
        waiting, seen = [self.place(name)], set()  # type: List[Place], Set[Place]
        found: Dict[Tuple[str, int], Definition] = {}
        while waiting:
            place = waiting.pop()
            if place in seen:
                continue
            seen.add(place)
            it = self.definition(place)
            if it:
                found[it.path, it.first] = it
                waiting += self.named_in(place)
        return [found[it] for it in sorted(found)]


def counted(found: List[Definition]) -> str:
    files = len({it.path for it in found})
    return f"{len(found)} definitions, {sum(it.lines for it in found):,} lines in {files} file{'s' if files > 1 else ''}"


def shown(found: List[Definition]) -> Iterator[str]:
    """A line for each file: the lines of it that count."""
    for path in sorted({it.path for it in found}):
        runs: List[List[int]] = []
        for it in found:
            if it.path != path:
                continue
            if runs and runs[-1][1] + 2 >= it.first:
                runs[-1][1] = it.last
            else:
                runs.append([it.first, it.last])
        yield f"{path}: {', '.join(f'{first}-{last}' if last > first else str(first) for first, last in runs)}"


def rows(specs: Specs, lines: List[str]) -> Iterator[Tuple[int, str, str]]:
    """The rows of the table in a page's lines: each one's number from 1, as it is and as it should be."""
    for at in range(lines.index(TABLE) + 2 if TABLE in lines else len(lines), len(lines)):
        cells = lines[at].split(" | ", 4)
        if len(cells) < 5:
            return
        found = specs.closure(cells[0].strip("| `"))
        counts = [str(len(found)), f"{sum(it.lines for it in found):,}", str(len({it.path for it in found}))]
        yield at + 1, lines[at], " | ".join([cells[0], *counts, cells[4]])
