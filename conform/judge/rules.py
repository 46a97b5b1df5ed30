"""Which rule a difference breaks: one of the standards, or a choice that they leave to the model."""
from fnmatch import fnmatchcase
from typing import Callable, List, NamedTuple, Tuple

from .differences import Difference
from .model import Step

ANY: Tuple[str, ...] = ()


class Rule(NamedTuple):
    """It holds for a difference at such a place whose bits all lie among these."""

    place: str  # `*` is any text
    choice: str  # `standard` or `model`, as in a list of known differences
    section: str
    bits: str = ""  # hexadecimal bytes; none: all
    lines: Tuple[str, ...] = ANY  # first words of lines
    answer: str = "*"
    is_so: Callable[[Difference], bool] = lambda it: True  # and for which values

    def fits(self, step: Step, it: Difference) -> bool:
        if not fnmatchcase(it.place, self.place) or self.lines and step.words[0] not in self.lines or not fnmatchcase(step.answer, self.answer):
            return False
        bits = bytes.fromhex(self.bits)
        return self.is_so(it) and (not bits or len(bits) == len(it.mask) and not any(a & ~b for a, b in zip(it.mask, bits)))


def word(data: bytes, at: int) -> int:
    """A word of a FIS."""
    return int.from_bytes(data[at : at + 4], "little")


def names_some(it: Difference) -> bool:
    """SActive of a Set Device Bits FIS that came alone or as the last of several: it names some of the tags that complete, and no other."""
    return word(it.got, 4) != 0 and not word(it.got, 4) & ~word(it.expected, 4)


def is_last_part(it: Difference) -> bool:
    """A DMA Setup FIS that ends where the command's data do, whether others came before it or not."""
    return word(it.got, 20) != 0 and word(it.got, 16) + word(it.got, 20) == word(it.expected, 16) + word(it.expected, 20)


def counts_all(it: Difference) -> bool:
    """PRDBC is the number of bytes of a page."""
    return int.from_bytes(it.got, "big") == 512


FIS = "Serial ATA, \"{}\"; AHCI 1.3.1, section 4.2.1"
D2H, SDB, DMA, PIO = (FIS.format(it) for it in ("Register - Device to Host FIS", "Set Device Bits FIS", "DMA Setup FIS", "PIO Setup FIS"))
TEXTS = [*range(10, 20), *range(23, 47)]

FIRST = "AHCI 1.3.1, sections 3.3.8 and 3.3.9 (the device's first FIS, which a new port of the model has had)"
LATE = "ACS-3, READ FPDMA QUEUED (a command past the last sector, which the model refuses when it is to be accepted)"

RULES: List[Rule] = [
    *(Rule(it, "model", FIRST, lines=("disk",)) for it in ("D2H Register FIS", "PxIS", "PxTFD")),
    *(Rule(it, "model", LATE, lines=("accept",), answer="failed *") for it in ("D2H Register FIS", "Set Device Bits FIS", "PxIS", "PxTFD", "PxCI")),
    Rule("CAP", "standard", "AHCI 1.3.1, section 3.1.1 (SNCQ)", "40000000"),
    Rule("CAP", "model", "AHCI 1.3.1, section 3.1.1"),
    Rule("GHC", "model", "AHCI 1.3.1, section 3.1.2"),
    Rule("PI", "model", "AHCI 1.3.1, section 3.1.4"),
    Rule("VS", "model", "AHCI 1.3.1, section 3.1.5"),
    Rule("PxIS", "model", "AHCI 1.3.1, section 3.3.5 (DPS): the standard sets it after an entry with I", "00000020"),
    Rule("PxIS", "model", "AHCI 1.3.1, section 3.3.5 (an I beside ERR)", "0000000f", ("fail",)),
    Rule("PxIS", "standard", "AHCI 1.3.1, section 3.3.5"),
    Rule("PxCMD", "standard", "AHCI 1.3.1, section 3.3.7 (ST, FRE, FR, CR)", "0000c011"),
    Rule("PxCMD", "model", "AHCI 1.3.1, section 3.3.7"),
    Rule("PxTFD", "model", "ACS-3, status field, bit 4", "00000010"),
    Rule("PxTFD", "standard", "AHCI 1.3.1, section 3.3.8"),
    Rule("PxSSTS", "model", "AHCI 1.3.1, section 3.3.10 (SPD)", "000000f0"),
    Rule("PxSCTL", "model", "AHCI 1.3.1, section 3.3.11"),
    Rule("PxSERR", "model", "AHCI 1.3.1, section 3.3.12"),
    Rule("PxCI", "standard", "AHCI 1.3.1, section 3.3.14"),
    Rule("PxSACT", "standard", "AHCI 1.3.1, section 3.3.13"),
    Rule("PxSIG", "standard", "AHCI 1.3.1, section 3.3.9"),
    Rule("PxSSTS", "standard", "AHCI 1.3.1, section 3.3.10"),
    Rule("Px*", "standard", "AHCI 1.3.1, section 3.3"),
    Rule("D2H Register FIS", "model", "ACS-3, status field, bit 4", "0000100000000000000000000000000000000000"),
    Rule("D2H Register FIS", "model", f"{D2H} (LBA, device and count of an acceptance)", "00000000ffffffffffffff00ffff000000000000", ("accept",), "accepted *"),
    Rule("D2H Register FIS", "standard", D2H),
    Rule("Set Device Bits FIS", "model", "ACS-3, status field, bit 4", "0000100000000000"),
    Rule("Set Device Bits FIS", "model", f"{SDB} (one FIS for several tags)", "00000000ffffffff", ("serve",), "completed * *", names_some),
    Rule("Set Device Bits FIS", "standard", SDB),
    Rule("DMA Setup FIS", "model", f"{DMA} (A and I)", "00c0" + 26 * "00"),
    Rule("DMA Setup FIS", "model", f"{DMA} (A, I, and one for the whole command)", "00c0" + 14 * "00" + 8 * "ff" + 4 * "00", is_so=is_last_part),
    Rule("DMA Setup FIS", "standard", DMA),
    Rule("PIO Setup FIS", "model", "ACS-3, status field, bit 4", "0000100000000000000000000000001000000000"),
    Rule("PIO Setup FIS", "standard", PIO),
    Rule("received FIS area, elsewhere", "standard", "AHCI 1.3.1, section 4.2.1"),
    Rule("PRDBC", "model", "AHCI 1.3.1, section 4.2.2: the standard counts the bytes, and the model's port doesn't", is_so=counts_all),
    Rule("PRDBC", "standard", "AHCI 1.3.1, section 4.2.2"),
    Rule("command header *", "standard", "AHCI 1.3.1, section 4.2.2 (the HBA writes PRDBC alone)"),
    Rule("command table", "standard", "AHCI 1.3.1, section 4.2.3"),
    Rule("data of tag *", "standard", "AHCI 1.3.1, section 4.2.3"),
    Rule("memory beside *", "standard", "AHCI 1.3.1, section 4.2.3"),
    Rule("log 10h", "standard", "ACS-3, log 10h (NCQ Command Error)"),
    *(Rule(f"identify word {it}", "standard", "ACS-3, IDENTIFY DEVICE (the number of sectors)") for it in (60, 61, 100, 101, 102, 103)),
    Rule("identify word 75", "standard", "ACS-3, IDENTIFY DEVICE (queue depth, less one)"),
    Rule("identify word 76", "standard", "ACS-3, IDENTIFY DEVICE (NCQ)", "0100"),
    *(Rule(f"identify word {it}", "model", "ACS-3, IDENTIFY DEVICE (serial number, firmware revision, model number)") for it in TEXTS),
    Rule("identify word *", "model", "ACS-3, IDENTIFY DEVICE"),
    Rule("disk, sector *", "standard", "ACS-3, READ and WRITE FPDMA QUEUED"),
    Rule("disk request", "standard", "AHCI 1.3.1, section 5.3"),
]
NONE = Rule("*", "standard", "")


def rule_of(step: Step, difference: Difference) -> Rule:
    return next((it for it in RULES if it.fits(step, difference)), NONE)
