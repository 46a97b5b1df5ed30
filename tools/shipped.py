"""The links of pages that are shipped without the repository around them: `tools/package` has the archive's pages by it, and
tools/debian/page_links those of Debian's packages."""
from __future__ import annotations

import os
import re
from typing import Dict, Iterator, List, Tuple

LINK = re.compile(r"(!?)\[((?:[^\[\]]|\[[^\]]*\])*)\]\(([^)\s]+)\)")  # of a picture if it begins with !
Places = Dict[str, List[str]]  # by a file's path in the repository, where it is installed


def prose(lines: List[str]) -> Iterator[Tuple[int, bool]]:
    """The numbers of lines from 0, each with whether it is outside the blocks of code."""
    in_block = False
    for number, line in enumerate(lines):
        is_fence = line.lstrip().startswith("```")
        yield number, not (in_block or is_fence)
        in_block ^= is_fence


def nearest(place: str, places: List[str]) -> str:
    """Of several places of a file the one with the most folders in common with another place."""
    return max(places, key=lambda it: len(os.path.commonpath([os.path.dirname(place), it])))


def folder_of(file: str, places: Places) -> List[str]:
    """Where a folder of the repository is installed: where its own page is, or each file of it."""
    if f"{file}/README.md" in places:
        return places[f"{file}/README.md"]
    inside = [it for it in places if it.startswith(f"{file}/")]
    return sorted({os.path.dirname(at) for it in inside for at in places[it]})[:1]


def relinked(text: str, page: str, place: str, places: Places) -> str:
    """A page's text at its place: a link leads to the place of what it names, and one to a file that isn't shipped is its words alone."""
    lines = text.split("\n")

    def link(match: "re.Match[str]") -> str:
        picture, words, target = match[1], match[2], match[3]
        path, mark, anchor = target.partition("#")
        if not path or re.match(r"[a-z]+:", target):
            return match[0]
        file = os.path.normpath(os.path.join(os.path.dirname(page), path))
        found = places.get(file) or folder_of(file, places)
        if not found:
            return words
        return f"{picture}[{words}]({os.path.relpath(nearest(place, found), os.path.dirname(place))}{mark}{anchor})"

    for number, is_prose in prose(lines):
        if is_prose:
            lines[number] = LINK.sub(link, lines[number])
    return "\n".join(lines)


def bad_links(root: str) -> Iterator[str]:
    """The relative links of the pages below a folder that lead to no file, as PAGE: TARGET."""
    for at, _, names in os.walk(root):
        for name in sorted(it for it in names if it.endswith(".md")):
            page = os.path.join(at, name)
            with open(page, encoding="utf-8") as file:
                lines = file.read().split("\n")
            for number, is_prose in prose(lines):
                for _, _, target in LINK.findall(lines[number]) if is_prose else ():
                    path = target.partition("#")[0]
                    if path and not re.match(r"[a-z]+:", target) and not os.path.exists(os.path.join(at, path)):
                        yield f"{os.path.relpath(page, root)}: {target}"
