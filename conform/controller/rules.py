"""The rule that a difference breaks, by name: what a report says beside the place. Rules judged on a side alone have theirs in alone.py."""
from typing import FrozenSet, Iterator, List, NamedTuple, Set, Tuple

from . import alone, layout
from .compare import Difference

IS, LINE = "IS has the port while an enabled bit of PxIS is 1, and keeps it until it is cleared", "the interrupt line is IS and GHC.IE"
STOP = "ST is cleared and PxCI, PxSACT and CCS are 0"
BUSY = "no command is taken while BSY or DRQ"
FIS_PLACE = "a received FIS has its own place in the area"
DATA = "data go where the PRDT says, and nowhere else"
FIS_TYPES = {"DMA Setup FIS": b"\x41", "PIO Setup FIS": b"\x5F", "D2H Register FIS": b"\x34", "Set Device Bits FIS": b"\xA1"}


class Rule(NamedTuple):
    """A rule of the standard, and the differences that it is about."""

    name: str
    section: str
    places: Tuple[str, ...]
    bits: int = layout.ONES  # of a register
    when: FrozenSet[str] = frozenset()  # facts of the moment that have to be true


def rule(name: str, section: str, places: str, bits: int = layout.ONES, when: str = "") -> Rule:
    """Places and facts are separated by commas."""
    return Rule(name, section, tuple(places.split(", ")), bits, frozenset(when.split(", ")) - {""})


PLAIN = "GHC, PxCLB, PxCLBU, PxFB, PxFBU, PxIE, PxSCTL"
SIZES = tuple(
    rule("an access writes the bytes that it has, and no others", "3", place, when=f"write {place}, access of {size}")
    for place in PLAIN.split(", ") for size in (1, 2)
)
# The first rule that fits is the one that is named.
RULES: Tuple[Rule, ...] = (
    *SIZES,
    rule(BUSY, alone.RULES[BUSY].section, "PxCI, PxSACT, PxCMD, PxTFD, PxIS, PRDBC, data, disk, D2H Register FIS, PIO Setup FIS, DMA Setup FIS, Set Device Bits FIS", when="busy"),
    # resets
    rule("GHC.HR leaves PxCLB and PxFB", "10.4.3", "PxCLB, PxCLBU, PxFB, PxFBU", when="resets"),
    rule("GHC.HR resets all other registers", "10.4.3", "GHC, IS, PxIE, PxCMD, PxSCTL, PxSACT, PxCI", when="resets"),
    rule("a software reset is SRST 1, then SRST 0", "10.4.1", "PxTFD, PxSIG, PxCI, D2H Register FIS", when="no SRST before"),
    # ST, CCS
    rule(STOP, alone.RULES[STOP].section, "PxSACT, PxCI", when="stops"),
    rule(STOP, alone.RULES[STOP].section, "PxCMD", 0x1F00, "stops"),
    rule("nothing comes of a command that was dropped with ST", "3.3.7, 10.3.2",
         "PxIS, PxTFD, PxCI, PxSACT, data, disk, PRDBC, D2H Register FIS, Set Device Bits FIS, DMA Setup FIS", when="go, nothing left"),
    rule("after an error no command is issued until ST is cleared", "6.2.2", "PxCMD", 0x1F00, "several, model fails"),
    rule("commands are issued from the slot behind CCS on", "3.3.7", "PxCMD", 0x1F00, "several"),
    rule("CCS is the slot of the command that was issued last", "3.3.7", "PxCMD", 0x1F00),
    rule("CR is 1 while the list runs, FR while FISes are received", "3.3.7", "PxCMD", 0xC000),
    rule("ST, FRE, SUD and POD are what software writes", "3.3.7", "PxCMD", 0x17),
    rule("CLO reads 0 once BSY and DRQ are cleared", "3.3.7", "PxCMD", 0x8),
    # errors
    rule("log 10h names the command that failed, and its sector", "6.2.2; ACS-3, log 10h", "data, D2H Register FIS, PxTFD", when="command 2F"),
    rule("after an error PxCI keeps its slots until ST is cleared", "3.3.14, 6.2.2", "PxCI", when="model fails"),
    rule("after an error PxCI keeps its slots until ST is cleared", "3.3.14, 6.2.2", "PxCI", when="old error"),
    rule("after an error PxSACT keeps its tags until ST is cleared", "3.3.13, 6.2.2", "PxSACT", when="model fails"),
    rule("after an error PxSACT keeps its tags until ST is cleared", "3.3.13, 6.2.2", "PxSACT", when="old error"),
    rule("a command that fails moves no sector from the failing one on", "ACS-3, LBA of first unrecoverable error", "data, disk", when="model fails"),
    rule("a command that fails moves no sector from the failing one on", "ACS-3, LBA of first unrecoverable error", "data, disk", when="bad sector"),
    # interrupts
    rule(LINE, alone.RULES[LINE].section, "interrupt line"),
    rule(IS, alone.RULES[IS].section, "IS"),
    rule("bits of PxIS are cleared by a 1 that is written, and set by events alone", "3.3.5", "PxIS", 0x7900000F | 0x30, "write PxIS"),
    rule("DHRS is set by a D2H Register FIS with I", "3.3.5", "PxIS", 0x1),
    rule("PSS is set after the data of a PIO Setup FIS with I", "3.3.5", "PxIS", 0x2),
    rule("DSS is set by a DMA Setup FIS with I", "3.3.5", "PxIS", 0x4),
    rule("SDBS is set by a Set Device Bits FIS with I", "3.3.5", "PxIS", 0x8),
    rule("DPS is set after a PRDT entry with I", "3.3.5", "PxIS", 0x20),
    rule("OFS is set by more data than the PRDT has room for", "3.3.5, 6.1.5", "PxIS", 0x01000000),
    rule("TFES is set by ERR in a status", "3.3.5", "PxIS", 0x40000000),
    rule("PCS and PRCS are DIAG.X and DIAG.N", "3.3.5, 3.3.12", "PxIS", 0x00400040),
    rule("DIAG.X and DIAG.N are cleared by PxSERR alone", "3.3.5, 3.3.12", "PxSERR", 0x04010000, "write PxIS"),
    rule("DIAG.X is set by COMINIT, DIAG.N by PhyRdy", "3.3.12", "PxSERR", 0x04010000),
    rule("bits of PxSERR are cleared by a 1 that is written, and set by events alone", "3.3.12", "PxSERR"),
    rule("PxIE is what software writes", "3.3.6", "PxIE"),
    # the task file and the link
    rule("PxTFD is 7Fh while the link is down", "3.3.8", "PxTFD", when="link down"),
    rule("BSY is 1 while a command is under way", "3.3.8, 5.3.6", "PxTFD", 0x80, "model waits"),
    rule("PxTFD has the status and the error of the last FIS", "3.3.8", "PxTFD"),
    rule("PxSIG has the signature, and FFFFFFFFh until it comes", "3.3.9", "PxSIG"),
    rule("DET, SPD and IPM of PxSSTS show the link as it is", "3.3.10", "PxSSTS"),
    # commands
    rule("PxSACT keeps a tag until a Set Device Bits FIS names it", "3.3.13", "PxSACT"),
    rule("PxCI keeps a slot until its command's FIS ends BSY, DRQ and ERR", "3.3.14", "PxCI"),
    rule("PRDBC is the number of bytes that were moved", "4.2.2, 5.4.1", "PRDBC"),
    rule("E_Status is the status after the data", "Serial ATA, PIO Setup - Device to Host", "PIO Setup FIS", when="FIS there, E_Status"),
    rule("a PIO Setup FIS has the direction, I and the length of its block", "Serial ATA, PIO Setup - Device to Host", "PIO Setup FIS", when="FIS there"),
    rule("a DMA Setup FIS has the tag, the direction and the length of its command", "Serial ATA, DMA Setup - Device to Host", "DMA Setup FIS", when="FIS there"),
    rule("a Set Device Bits FIS has the tags that are done", "Serial ATA, Set Device Bits - Device to Host", "Set Device Bits FIS", when="FIS there"),
    rule("a D2H Register FIS has I and the outputs of its command", "Serial ATA, Register - Device to Host; ACS-3, outputs", "D2H Register FIS", when="FIS there"),
    rule(FIS_PLACE, "4.2.1", "DMA Setup FIS, PIO Setup FIS, D2H Register FIS, Set Device Bits FIS, rest of the FIS area"),
    rule(DATA, "4.2.3.3", "data, disk, memory beside, command header, command table"),
)
SECTIONS = {**{it.name: it.section for it in RULES}, **{name: it.section for name, it in alone.RULES.items()}}


def fits(it: Rule, place: str, bits: int, facts: FrozenSet[str]) -> bool:
    return place in it.places and it.when <= facts and bool(place not in layout.OFFSETS or it.bits & bits)


def rules_of(it: Difference, facts: FrozenSet[str]) -> List[str]:
    """The names of the rules that a difference breaks: of each bit of a register the first that fits."""
    side, colon, name = it.place.partition(": ")
    if colon and name in alone.RULES:
        return [name]
    return list(dict.fromkeys(first_of(it, facts | it.facts | fis_facts(it))))


def fis_facts(it: Difference) -> Set[str]:
    """Whether a FIS has come to its place, so that its bytes alone are others; and whether the one of E_Status is."""
    if it.got[:1] != FIS_TYPES.get(it.place):
        return set()
    return {"FIS there", *(["E_Status"] if it.place == "PIO Setup FIS" and it.mask[15] else [])}


def first_of(it: Difference, facts: FrozenSet[str]) -> Iterator[str]:
    word = int.from_bytes(it.mask, "big") if it.place in layout.OFFSETS else 1
    for bit in range(32):
        if word >> bit & 1:
            yield from [one.name for one in RULES if fits(one, it.place, 1 << bit, facts)][:1]
