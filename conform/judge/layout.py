"""Offsets, places and names: docs/LAYOUTS.md as Python."""
from typing import Dict, List, NamedTuple, Tuple

SECTOR = 512
COMMAND_LIST = 0x10000
RECEIVED_AREA = 0x10400
RECEIVED_SIZE = 0x100
PLAIN_TABLE = 0x20000  # the command table of a command that isn't queued
PLAIN_DATA = 0x20200
FIXED_END = 0x20400  # the end of what lies at fixed places
WINDOWS, WINDOW_SIZE = 0x10000000, 0x04000000

PX_CLB, PX_FB, PX_IS, PX_CMD, PX_SCTL, PX_SERR, PX_SACT, PX_CI = 0x100, 0x108, 0x110, 0x118, 0x12C, 0x130, 0x134, 0x138
PX_TFD = 0x120
ST, FRE = 0x01, 0x10

# register: its offset, its section in AHCI 1.3.1, and the names of its bits
REGISTERS: Dict[str, Tuple[int, str, Dict[int, str]]] = {
    "CAP": (0x000, "3.1.1", {30: "SNCQ", 31: "S64A", 24: "SCLO", 26: "SALP", 27: "SSS", 18: "SAM", 14: "SSC", 13: "PSC"}),
    "GHC": (0x004, "3.1.2", {31: "AE", 1: "IE", 0: "HR"}),
    "PI": (0x00C, "3.1.4", {}),
    "VS": (0x010, "3.1.5", {}),
    "PxCLB": (0x100, "3.3.1", {}),
    "PxCLBU": (0x104, "3.3.2", {}),
    "PxFB": (0x108, "3.3.3", {}),
    "PxFBU": (0x10C, "3.3.4", {}),
    "PxIS": (0x110, "3.3.5", {0: "DHRS", 1: "PSS", 2: "DSS", 3: "SDBS", 4: "UFS", 5: "DPS", 6: "PCS", 24: "OFS", 27: "INFS",
                              28: "IFS", 29: "HBDS", 30: "TFES", 31: "CPDS"}),
    "PxIE": (0x114, "3.3.6", {0: "DHRE", 1: "PSE", 2: "DSE", 3: "SDBE", 30: "TFEE"}),
    "PxCMD": (0x118, "3.3.7", {0: "ST", 1: "SUD", 2: "POD", 3: "CLO", 4: "FRE", 14: "FR", 15: "CR"}),
    "PxTFD": (0x120, "3.3.8", {0: "ERR", 3: "DRQ", 5: "DF", 6: "DRDY", 7: "BSY", 10: "error ABRT", 12: "error IDNF", 14: "error UNC"}),
    "PxSIG": (0x124, "3.3.9", {}),
    "PxSSTS": (0x128, "3.3.10", {}),
    "PxSCTL": (0x12C, "3.3.11", {}),
    "PxSERR": (0x130, "3.3.12", {}),
    "PxSACT": (0x134, "3.3.13", {bit: f"tag {bit}" for bit in range(32)}),
    "PxCI": (0x138, "3.3.14", {bit: f"slot {bit}" for bit in range(32)}),
}

LBA_AND_COUNT = {4: "LBA", 5: "LBA", 6: "LBA", 7: "device", 8: "LBA", 9: "LBA", 10: "LBA", 12: "count", 13: "count"}


class FisPlace(NamedTuple):
    """Where a FIS stands in the received FIS area (AHCI 1.3.1, section 4.2.1), and what its bytes are."""

    name: str
    offset: int
    size: int
    member: str  # of `received` in a trace
    fields: Dict[int, str]


FIS_PLACES: List[FisPlace] = [
    FisPlace("DMA Setup FIS", 0x00, 28, "dma_setup", {0: "type", 1: "A, I, D", 4: "tag", **{it: "offset" for it in range(16, 20)}, **{it: "transfer count" for it in range(20, 24)}}),
    FisPlace("PIO Setup FIS", 0x20, 20, "pio_setup", {0: "type", 1: "I, D", 2: "status", 3: "error", **LBA_AND_COUNT, 15: "E_Status", 16: "transfer count", 17: "transfer count"}),
    FisPlace("D2H Register FIS", 0x40, 20, "d2h_register", {0: "type", 1: "I", 2: "status", 3: "error", **LBA_AND_COUNT}),
    FisPlace("Set Device Bits FIS", 0x58, 8, "set_device_bits", {0: "type", 1: "I", 2: "status", 3: "error", **{it: "SActive" for it in range(4, 8)}}),
]
LOG_FIELDS: Dict[int, str] = {0: "NQ, tag", 2: "status", 3: "error", **{it: "LBA" for it in (4, 5, 6, 8, 9, 10)}, 511: "checksum"}


def window_base(tag: int) -> int:
    return WINDOWS + tag * WINDOW_SIZE


def header_place(tag: int) -> int:
    return COMMAND_LIST + 32 * tag


def bits_of(place: str, word: int) -> List[str]:
    """The names of the bits that are 1 in a register's word; a bit without a name is named by its number."""
    if place not in REGISTERS:
        return []
    names = REGISTERS[place][2]
    return [names.get(bit, f"bit {bit}") for bit in range(32) if word >> bit & 1]


def field_names(place: str) -> Dict[int, str]:
    """By byte: the fields of a FIS, or of the log's page."""
    return LOG_FIELDS if place == "log 10h" else next((it.fields for it in FIS_PLACES if it.name == place), {})


def fields_of(place: str, mask: bytes) -> List[str]:
    """What differs, by name: bits of a register, fields of a FIS, and else the bytes' offsets."""
    if place in REGISTERS:
        return bits_of(place, int.from_bytes(mask, "big"))
    fields = field_names(place)
    found: Dict[str, None] = {}
    for at, byte in enumerate(mask):
        if byte:
            found[fields.get(at, f"byte {at:x}h")] = None
    names = list(found)
    return names if len(names) <= 8 else [*names[:8], ".."]
