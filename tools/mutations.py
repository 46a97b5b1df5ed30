"""Mutations of functions: which there are in a crate's sources, which lines and bodies change, and into what. `mutants` tries them.

It reads sources as `rt fmt` lays them out: a function begins with its head, each clause begins a line, and a body's braces end lines.
"""
from __future__ import annotations

import collections
import dataclasses
import glob
import os
import random
import re
from typing import Callable, Dict, Iterator, List, NamedTuple, Optional, Sequence, Set, Tuple, Union

from libraries import TOP
from trials import Functions, Texts

# what takes the place of an operator
OPERATORS = {
    "<": "<=", "<=": "<", ">": ">=", ">=": ">", "==": "!=", "!=": "==", "&&": "||", "||": "&&",
    "&": "|", "|": "&", "^": "|", "<<": ">>", ">>": "<<", "+": "-", "-": "+",
}
INTEGER = re.compile(r"[ui](8|16|32|64|128|size)")
MEMORY = ("AllocError", "OutOfMemory")  # errors, and variants of errors, that say that memory was refused
# words that begin what is only proved with, and clauses
GHOST = re.compile(r"(requires|ensures|decreases|invariant|ghost|prove)\b")
STATEMENT = re.compile(r"[\w.\[\]]+ [|&^+-]?= [^;]*;|[a-z_]+(\.[a-z_]+)*\([^;]*\)\??;")
KEPT = re.compile(r"(let|return|drop|unreachable|panic|assert)\b")
HEAD = re.compile(r' *(?:pub(?:\([a-z]+\))? )?(?:const )?(?:final )?(?:unsafe )?(?:extern "C" )?fn (\w+)')
PAIRS = {"(": ")", "[": "]", "{": "}", "<": ">"}
Replaced = Union[str, Callable[["re.Match[str]"], str]]


@dataclasses.dataclass
class Function:
    """A function of a file, whose places count lines from 0: its head, its clauses, and the lines of its body between the braces."""

    file: str
    name: str
    owner: str  # the type of its `impl` block, or nothing
    is_of_trait: bool
    head: str = ""
    first: int = 0
    clauses: str = ""
    start: int = 0
    end: int = 0
    params: List[Tuple[str, str]] = dataclasses.field(default_factory=list)
    takes: str = ""  # how it takes `self`
    result: str = ""
    lines: List[str] = dataclasses.field(default_factory=list)  # of its file

    def read_head(self) -> None:
        """Takes apart the head: parameters and result."""
        at = self.head.index(f"fn {self.name}") + len(f"fn {self.name}")
        at = after(self.head, at) if self.head[at] == "<" else at
        end = after(self.head, at)
        for it in split(self.head[at + 1 : end - 1]):
            name, colon, of = it.partition(":")
            if colon:
                self.params.append((name.replace("mut ", "").strip(), of.strip()))
            else:
                self.takes = it
        found = re.match(r" ?-> (.*)", self.head[end:])
        result = re.split(r" where\b", found[1])[0].strip() if found else ""
        self.result = re.sub(r"\bSelf\b", self.owner, result) if self.owner else result

    @property
    def body(self) -> List[str]:
        return self.lines[self.start : self.end]

    @property
    def changes_self(self) -> bool:
        return bool(re.match(r"&('\w+ )?mut self", self.takes))


@dataclasses.dataclass
class Types:
    """What the sources of all crates declare."""

    units: Dict[str, List[str]] = dataclasses.field(default_factory=dict)  # an enum's variants without fields
    empty: Set[str] = dataclasses.field(default_factory=set)  # structs without fields
    fields: Dict[str, List[Tuple[str, str]]] = dataclasses.field(default_factory=dict)
    of_memory: Set[str] = dataclasses.field(default_factory=lambda: {"AllocError"})  # errors that an allocator's refusal becomes
    grow: Set[str] = dataclasses.field(default_factory=set)  # types that have `reserve`
    shown: Dict[str, List[str]] = dataclasses.field(default_factory=dict)  # a struct's vectors of which its view says how much they hold


class Mutant(NamedTuple):
    """Some lines of a function's body that read otherwise."""

    file: str
    function: str
    line: int
    old: Tuple[str, ...]
    new: str
    shown: str  # old and new, as they are printed
    is_whole: bool = False  # whether it is a whole body, which needs none of the function's stored proofs

    @property
    def name(self) -> str:
        return f"{self.file}:{self.line + 1} {self.function}: {self.shown}"

    @property
    def key(self) -> str:
        """What a line of mutants.kept is compared with."""
        return plain(f"{self.file} {self.function}: {self.shown}")

    def applied(self, texts: Texts) -> Optional[Texts]:
        lines = texts[self.file].split("\n")
        end = self.line + len(self.old)
        if tuple(lines[self.line : end]) != self.old:
            return None
        lines[self.line : end] = [self.new, *[""] * (len(self.old) - 1)]  # places below stay as they are
        return {**texts, self.file: "\n".join(lines)}

    def functions(self, _texts: Texts) -> Functions:
        return {(self.file, self.function)}


def plain(text: str) -> str:
    """The text with single spaces."""
    return " ".join(text.split())


def after(text: str, at: int) -> int:
    """The place after the brackets that open at a place of a head."""
    stack: List[str] = []
    while at < len(text):
        it = text[at]
        if it in PAIRS:
            stack.append(PAIRS[it])
        elif stack and it == stack[-1] and text[at - 1 : at + 1] != "->":
            stack.pop()
        at += 1
        if not stack:
            break
    return at


def split(text: str) -> List[str]:
    """The parts between the commas that no bracket holds."""
    parts, begun, at = [], 0, 0
    while at < len(text):
        if text[at] == ",":
            parts.append(text[begun:at])
            begun = at + 1
        at = after(text, at) if text[at] in PAIRS else at + 1
    return [it.strip() for it in [*parts, text[begun:]] if it.strip()]


def named(of: str) -> Tuple[str, List[str]]:
    """The last name of a path type, and its arguments but for lifetimes."""
    found = re.fullmatch(r"(?:\w+::)*(\w+)(?:<(.*)>)?", of)
    return (found[1], [it for it in split(found[2] or "") if not it.startswith("'")]) if found else ("", [])


def code_of(line: str) -> str:
    """A line without its comment."""
    return line.split(" // ")[0].strip()


def braces(line: str) -> int:
    """How many more braces a line opens than it closes, outside strings, characters and comments."""
    code = re.sub(r'"(\\.|[^"\\])*"|\'(\\.|[^\'\\])\'|//.*', "", line)
    return code.count("{") - code.count("}")


def functions_of(file: str, text: str) -> List[Function]:
    """The functions of a file that have a body of their own lines."""
    lines = text.split("\n")
    found: List[Function] = []
    now: Optional[Function] = None
    owner, is_of_trait = "", False
    depth = ghost = 0  # braces that are open in a body, and in a clause
    for place, line in enumerate(lines):
        code = line.strip()
        if now is None:
            block = re.match(r"impl(?:<.*?>)? (?:(\S.*) for )?(\w.*?)(?: where .*)? ?\{$", line)
            owner, is_of_trait = (block[2], bool(block[1])) if block else ("", False) if line == "}" else (owner, is_of_trait)
            head = HEAD.match(line)
            if head and not code.endswith((";", "}")):
                now = Function(file, head[1], owner, is_of_trait, code, place, lines=lines)
                depth = 1 if code.endswith("{") else 0
                now.start = place + 1
        elif depth:
            depth += braces(line)
            if depth == 0:
                now.end = place
                now.head = plain(now.head).rstrip("{ ").replace("( ", "(").replace(", )", ")")
                now.read_head()
                found.append(now)
                now = None
        elif ghost or GHOST.match(code):
            ghost = max(ghost + braces(line), 0)
            now.clauses += code + "\n"
        elif code.endswith(";"):
            now = None
        else:
            now.head += " " + code
            depth, now.start = (1, place + 1) if code.endswith("{") else (0, now.start)
    return found


def code_lines(function: Function) -> Iterator[int]:
    """The places of a body's lines of code: no comments, no attributes, and nothing that is only proved with."""
    ghost = 0
    for place, line in enumerate(function.body, function.start):
        code = line.strip()
        if ghost:
            ghost += braces(line)
        elif GHOST.match(code):
            ghost = max(braces(line), 0)
        elif code and not code.startswith(("//", "#")):
            yield place


def changed_lines(line: str, variants: Dict[str, List[str]], pick: random.Random) -> Iterator[str]:
    """What a line of a body may read in its place. Patterns stay as they are."""
    code = line.split(" // ")[0]
    arm = code[: code.find(" => ") + 1]
    pattern = len(arm.split(" if ")[0])

    def put(words: str, new: Replaced) -> Iterator[str]:
        for found in re.finditer(words, code):
            before = code[: found.start()]
            if before.count('"') % 2 or found.start() < pattern or re.search(r"\blet (\w+::|Some|Ok|Err|\()[^=]*$", before):
                continue
            yield before + (found.expand(new) if isinstance(new, str) else new(found)) + code[found.end() :]

    def other(found: "re.Match[str]") -> str:
        rest = [it for it in variants.get(found[1], []) if it != found[2]]
        return f"{found[1]}::{pick.choice(rest)}" if rest else found[0]

    for old, new in OPERATORS.items():
        yield from put(rf"(?<= ){re.escape(old)}(?= )", new)
    yield from put(r" [+-] 1\b", "")
    yield from put(r"(?<![\w.])(0x[0-9A-Fa-f_]+|\d[\d_]*)(?![\w.])", lambda it: str(int(it[0].replace("_", ""), 0) + 1))
    yield from put(r"\b(true|false)\b", lambda it: "false" if it[0] == "true" else "true")
    yield from put(r"(?<=if )!(?=\w)|(?<=&& )!(?=\w)|(?<=\|\| )!(?=\w)", "")
    yield from put(r"(?<=\bif )(?=[a-z_.]+(\([\w., ]*\))? \{)", "!")
    yield from put(r"\.(min|max)\(", lambda it: ".max(" if it[1] == "min" else ".min(")
    yield from put(r"\.is_(some|none)\(\)", lambda it: ".is_none()" if it[1] == "some" else ".is_some()")
    yield from put(r"\.\.=", "..")
    yield from put(r"\bSome\(\w+\)", "None")
    yield from put(r"\b([A-Z]\w+)::([A-Z]\w+)\b(?! ?[({])", other)
    yield from put(r"\((\w+), (\w+)\)", r"(\2, \1)")
    yield from put(r"\((\w+), (\w+), (\w+)\)", r"(\1, \3, \2)")
    if STATEMENT.fullmatch(code.strip()) and not KEPT.match(code.strip()):
        yield code[: len(code) - len(code.lstrip())] + "{}"


def types_in(text: str) -> Types:
    """The types of a file."""
    types = Types()
    for name, body in re.findall(r"(?ms)^pub(?:\([a-z]+\))? enum (\w+)(?:<[^>]*>)? \{\n(.*?)^\}", text):
        types.units[name] = re.findall(r"(?m)^    (\w+),$", body)
        types.of_memory |= {name} if "OutOfMemory" in types.units[name] else set()
    types.empty |= set(re.findall(r"(?m)^pub(?:\([a-z]+\))? struct (\w+);$", text))
    for name, body in re.findall(r"(?ms)^pub(?:\([a-z]+\))? struct (\w+)(?:<[^{]*>)? \{\n(.*?)^\}", text):
        types.fields[name] = re.findall(r"(?m)^    (?:pub(?:\([a-z]+\))? )?(\w+): (.*),$", body)
    if re.search(r"pub fn reserve\(&mut self, \w+: \w+\)", text):
        types.grow |= {named(it.owner)[0] for it in functions_of("", text) if it.name == "reserve"}
    for name, body in re.findall(r"(?ms)^impl(?:<.*?>)? Model for (\w+).*?\{\n(.*?)^\}", text):
        types.shown[name] = [it for view in re.findall(r"ghost view = .*", body) for it in re.findall(r"vec_capacity \w+\.(\w+)", view)]
    types.of_memory |= set(re.findall(r"(?m)^impl From<(?:AllocError|OutOfMemory)> for (\w+)", text)) | types.empty & set(MEMORY)
    return types


def types_of(top: str = TOP) -> Dict[str, Types]:
    """The types that each crate's functions may name: those of all crates, its own before others of the same name."""
    found: Dict[str, List[Types]] = collections.defaultdict(list)
    for path in sorted(glob.glob(f"{top}/crates/*/src/**/*.rt", recursive=True)):
        with open(path, encoding="utf-8") as file:
            found[os.path.relpath(path, top).split(os.sep)[1]].append(types_in(file.read()))
    every = joined([it for mine in found.values() for it in mine])
    return {crate: joined([every, *mine]) for crate, mine in found.items()}


def joined(parts: Sequence[Types]) -> Types:
    """All types of the parts; of one name that of the last."""
    types = Types()
    for it in parts:
        types.units.update(it.units)
        types.fields.update(it.fields)
        types.shown.update(it.shown)
        types.empty |= it.empty
        types.of_memory |= it.of_memory
        types.grow |= it.grow
    return types


def errors_of(of: str, types: Types) -> List[str]:
    """Values of an error type that need no data."""
    name = named(of)[0]
    if name == "AllocError" or name in types.empty:
        return [name]
    return [f"{name}::{it}" for it in types.units.get(name, [])]


def values_of(of: str, types: Types) -> List[str]:
    """Values of a type that need no data: what a body could answer that gives up."""
    name, inside = named(of)
    array = re.fullmatch(r"\[(.+); (\w+)\]", of)
    if name == "bool":
        return ["false", "true"]
    if INTEGER.fullmatch(name):
        return ["0"]
    if name == "Option":
        return ["None"]
    if name == "Result":
        errors = [f"Err({it})" for it in errors_of(inside[1], types)] if len(inside) == 2 else []
        return [*errors, *(f"Ok({it})" for it in values_of(inside[0], types))]
    if array:
        return [f"[{it}; {array[2]}]" for it in values_of(array[1], types)[:1]]
    if of.startswith("("):
        parts = [values_of(it, types)[:1] for it in split(of[1:-1])]
        return [f"({', '.join(it[0] for it in parts)})"] if all(parts) else []
    if re.fullmatch(r"&('\w+ )?\[.*\]", of):
        return ["&[]"]
    if re.fullmatch(r"&('\w+ )?str", of):
        return ['""']
    return errors_of(of, types) if name in types.units else []


def old_values(function: Function) -> List[str]:
    """Results that leave all as it was: nothing done, or an argument of the same type."""
    result = function.result
    name, inside = named(result)
    if not result:
        return [""] if function.changes_self or any("&mut" in of for _, of in function.params) else []
    wraps = {"Option": "Some({})", "Result": "Ok({})"}
    wrap, held = (wraps[name], inside[0]) if name in wraps and inside else ("{}", result)
    found = [wrap.format(it) for it, of in function.params if of == held]
    found += [wrap.format("self")] if function.takes == "self" and held == function.owner else []
    return [*found, *(["Ok(())"] if name == "Result" and held == "()" else [])]


def growths(function: Function, types: Types) -> List[str]:
    """Statements that ask for memory first, where a function can: a growth of what it changes, if a contract can see it; or an allocation;
    else a refusal for one value."""
    name, inside = named(function.result)
    owner = named(function.owner)[0]
    fields = types.fields.get(owner, []) if function.takes else []
    seen = [it for it, of in fields if function.changes_self and (named(of)[0] in types.grow or it in types.shown.get(owner, []))]
    found = [f"let _grown = self.{it}.reserve(4096);" for it in seen]
    for it, of in function.params:
        lent = re.fullmatch(r"&(?:'\w+ )?mut (.*)", of)
        if lent and (named(lent[1])[0] in types.grow or re.search(rf"\bvec_capacity {it}\b", function.clauses)):
            found.append(f"let _grown = {it}.reserve(4096);")
    error = inside[1] if name == "Result" and len(inside) == 2 else ""
    if named(error)[0] not in types.of_memory:
        return found
    found += ["let _room = vec![in alloc.clone()?; 0u8; 1]?;" for it, _ in function.params if it == "alloc"]
    if found:
        return found
    refusal = next((it for it in errors_of(error, types) if it.endswith(MEMORY)), "")
    places = [(it, of) for it, of in function.params] + [(f"self.{it}", of) for it, of in fields]
    for it, of in places if refusal else ():
        condition = it if of == "bool" else f"{it} == 7" if INTEGER.fullmatch(of) else f"{it}.len() == 7" if is_list(of) else ""
        if condition:
            return [f"if {condition} {{ return Err({refusal}); }}"]
    return []


def is_list(of: str) -> bool:
    return bool(re.match(r"&('\w+ )?(mut )?(\[|Vec<)|Vec<", of)) and not of.startswith("&mut [")


def bodies_of(function: Function, types: Types) -> List[str]:
    """Whole bodies: the old value, and what gives up."""
    if function.name == "fmt" or not function.body:  # (of a `Display` no clause says what it prints)
        return []
    found = dict.fromkeys([*old_values(function), *(values_of(function.result, types) if function.result else [])])
    own = plain(" ".join(map(code_of, function.body)))
    return [it for it in found if it != own]


def mutants_of(function: Function, types: Types, each: int, pick: random.Random) -> List[Mutant]:
    """Some changed lines of a function, some whole bodies, and a growth, each as it is chosen."""
    def mutant(line: int, count: int, new: str, shown: str, is_whole: bool = False) -> Mutant:
        return Mutant(function.file, function.name, line, tuple(function.lines[line : line + count]), new, shown, is_whole)

    variants = {name: units for name, units in types.units.items() if len(units) > 1}
    lines: List[Mutant] = []
    for place in code_lines(function):
        line = function.lines[place]
        made = dict.fromkeys(it for it in changed_lines(line, variants, pick) if it != line)
        lines += [mutant(place, 1, it, f"{code_of(line)}  ->  {it.strip()}") for it in made]
    indent = " " * (len(function.lines[function.first]) - len(function.lines[function.first].lstrip()) + 4)
    bodies = [mutant(function.start, len(function.body), indent + it, f"{{..}}  ->  {{{it}}}", True) for it in bodies_of(function, types)]
    grown = [
        mutant(place, 1, f"{indent}{it} {function.lines[place].strip()}", f"{{  ->  {{ {it}")
        for place in [*code_lines(function)][:1] for it in growths(function, types)
    ]
    return [
        *sorted(pick.sample(lines, min(each, len(lines)))),
        *sorted(pick.sample(bodies, min(each, len(bodies)))),
        *pick.sample(grown, min(1, each, len(grown))),
    ]


def crate_functions(texts: Texts) -> List[Function]:
    """The functions of a crate's sources, but for its tests, in the order of files and lines."""
    return [it for file, text in sorted(texts.items()) if file.endswith(".rt") and "tests" not in file for it in functions_of(file, text)]
