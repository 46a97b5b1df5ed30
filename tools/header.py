"""What c/ahci.h declares: enums, registers, structs and calls, each with its comment. `bindings` writes from it what Python, Debian and a reader of manual pages need."""
from __future__ import annotations

import re
from dataclasses import dataclass
from typing import Dict, Iterator, List, Tuple

COMMENT = r"(?:/\*(?P<about>(?:(?!\*/).)*)\*/\n)?"
ENUM = r"typedef enum ahci_(?P<enum>\w+) \{\n(?P<members>.*?)\n\}[^\n]*;"
STRUCT = r"typedef struct ahci_(?P<struct>\w+) \{\n(?P<fields>.*?)\n\}[^\n]*;"
CALL = r"uint32_t (?P<call>ahci_\w+)\((?P<arguments>[^;]*)\);"
REGISTERS = r"(?P<registers>(?:#define AHCI_REG_\w+ \w+\n)+)"
TITLE = r"/\* ---- (?P<title>.*?) ----"
DECLARED = re.compile(rf"{COMMENT}(?:{ENUM}|{STRUCT}|{CALL}|{REGISTERS}|{TITLE})", re.S)
MEMBER = re.compile(r"    AHCI_(\w+) = (\d+),?(?: +/\* (.*?) \*/)?(?:\n|$)")
FIELD = re.compile(r"    (\w+) (\*?)(\w+)(?:\[(\d+)\])?;")
ARGUMENT = re.compile(r"(?:const )?(\w+) (\*?)(\w+)")
REGISTER = re.compile(r"AHCI_REG_(\w+) 0x(\w+)u")


@dataclass(frozen=True)
class Enum:
    """An enum: its members without AHCI_ and what they all begin with, their numbers, and their comments."""

    name: str
    about: str
    members: List[Tuple[str, int, str]]
    prefix: str


@dataclass(frozen=True)
class Value:
    """A field of a struct or an argument of a call: the name of its type, and how many there are, if it is an array."""

    kind: str
    is_pointer: bool
    name: str
    many: int = 0


@dataclass(frozen=True)
class Struct:
    name: str
    about: str
    fields: List[Value]


@dataclass(frozen=True)
class Call:
    """A call. Those that are declared in a row, with one comment, share it; `title` is that of their part of the header."""

    name: str
    about: str
    arguments: List[Value]
    declaration: str
    title: str


@dataclass(frozen=True)
class Header:
    enums: Dict[str, Enum]
    registers: Dict[str, int]
    registers_about: str
    structs: Dict[str, Struct]
    calls: Dict[str, Call]


def line_of(comment: str) -> str:
    """A comment as one line."""
    return " ".join(comment.split())


def prefix_of(names: List[str]) -> str:
    """What all members of an enum begin with, up to an underscore: of READ and WRITE nothing."""
    first = names[0]
    return next((first[: at + 1] for at in range(len(first) - 1, -1, -1) if first[at] == "_" and all(it.startswith(first[: at + 1]) for it in names)), "")


def enum_of(name: str, about: str, text: str) -> Enum:
    members = [(it, int(number), line_of(comment)) for it, number, comment in MEMBER.findall(text)]
    prefix = prefix_of([it for it, _, _ in members])
    return Enum(name, about, [(it[len(prefix) :], number, comment) for it, number, comment in members], prefix)


def values(pattern: "re.Pattern[str]", text: str) -> Iterator[Value]:
    for kind, star, name, *many in pattern.findall(text):
        yield Value(kind, star == "*", name, int(many[0]) if many and many[0] else 0)


def header_of(text: str) -> Header:
    found = Header({}, {}, "", {}, {})
    title, about = "", ""
    for it in DECLARED.finditer(text):
        own = line_of(it["about"] or "")
        about = own if own or not it["call"] else about
        if it["title"]:
            title = it["title"]
        elif it["enum"]:
            found.enums[it["enum"]] = enum_of(it["enum"], about, it["members"])
        elif it["struct"]:
            found.structs[it["struct"]] = Struct(it["struct"], about, list(values(FIELD, it["fields"])))
        elif it["registers"]:
            registers = {name: int(offset, 16) for name, offset in REGISTER.findall(it["registers"])}
            found = Header(found.enums, registers, about, found.structs, found.calls)
        else:
            arguments = [] if it["arguments"] == "void" else list(values(ARGUMENT, it["arguments"]))
            found.calls[it["call"]] = Call(it["call"], about, arguments, f"uint32_t {it['call']}({it['arguments']});", title)
    return found
