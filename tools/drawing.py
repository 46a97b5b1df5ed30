"""The picture of the crates in docs/MAP.md: which stands on which, as Mermaid draws it from crates.txt. `pages` writes and checks it."""
from __future__ import annotations

import re
from typing import Dict, Iterator, List, Set

LEFT_OUT = re.compile(r"\w+_tests|test_helpers|refusing_allocator|port_example|ahci_examples")
GROUPS = (
    ("what a journal means, and the port", ("word_bits", "port_refusal", "device_choice", "ncq_journal", "power_loss", "sector_store", "sata_fis", "ncq_core", "ahci_regs", "ahci_table", "ahci_port")),
    ("the controller", ("hba_regs", "hba_command", "hba_memory", "hba_rules", "ahci_hba")),
    ("C and Python", ("ahci_ffi", "hba_ffi", "ahci_c")),
    ("threads", ("tag_board", "ahci_driver", "ahci_jobs")),
    ("the program", ("streams", "ata_pages", "ahci_script", "ahci_args", "ahci_replay", "ahci_trace", "ahci_draw", "ahci_check", "ahci_cli", "ahci")),
)


def below(name: str, listed: Dict[str, List[str]]) -> Set[str]:
    """All crates that one stands on."""
    return {lower for it in listed[name] for lower in (it, *below(it, listed))}


def arrows(listed: Dict[str, List[str]]) -> Iterator[str]:
    """A crate to each that it names, but for those that another one of them stands on."""
    for name, uses in listed.items():
        through = {lower for it in uses for lower in below(it, listed)}
        yield from (f"    {name} --> {it}" for it in uses if it not in through)


def drawn(listed: Dict[str, List[str]]) -> List[str]:
    """The lines of the picture; `listed` has the repository's crates that each crate names."""
    shown = {name: [it for it in uses if it in listed and not LEFT_OUT.fullmatch(it)] for name, uses in listed.items() if not LEFT_OUT.fullmatch(name)}
    placed = {it for _, names in GROUPS for it in names}
    lines = ["```mermaid", "flowchart BT"]
    for number, (title, names) in enumerate(GROUPS):
        inside = [f"        {it}" for it in names if it in shown]
        lines += [f'    subgraph g{number}["{title}"]', *inside, "    end"] if inside else []
    lines += [f"    {it}" for it in shown if it not in placed]
    return [*lines, *sorted(arrows(shown)), "```"]


def redrawn(page: str, listed: Dict[str, List[str]]) -> str:
    """A page with its picture, if it has one, drawn anew."""
    own = {name: [it for it in uses if it in listed] for name, uses in listed.items()}
    return re.sub(r"```mermaid\n.*?\n```", lambda _: "\n".join(drawn(own)), page, count=1, flags=re.S)
