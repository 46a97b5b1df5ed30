"""One AHCI port with its NCQ disk, over the shared library libahci.so.0 (c/ahci.h).

    port = Port.zeros(sectors=64, depth=32)
    number = port.write(tag=0, lba=5, data=b"\\xaa" * 512)
    port.accept(0)
    port.serve([0])
    reply, _ = port.collect(0, number)

`ahci.hba` has the controller around the port. Each method is one call of the library. A refused call raises `Refused` with the
library's status and has changed nothing; a failed allocation raises `OutOfMemory`, which is a `MemoryError`. Bytes may be `bytes`,
`bytearray`, `memoryview` or `mmap`. Threads may share a port. The environment variable `AHCI_LIBRARY` names the library's file if it is
neither beside this module nor where the loader looks.
"""
from .layers import (
    choose_tag, choose_tags, command_breaks, entry_breaks, fis_decode, fis_encode, identify_page, journal_check, length_breaks, log_page, status_text,
    tags_of, version, window_check,
)
from .library import OutOfMemory, Refused
from .names import DeviceKind, Did, Event, InterfaceError, Kind, Order, Outcome, Phase, Register, Rule, Status, Step, Want, Wrote
from .port import Port
from .records import Capabilities, Command, Entry, Fis, FisType, Identity, Look, Reply, Slot, State, Stepped, TagSets, Written

__version__ = "1.1.0"
__all__ = [
    "Capabilities", "Command", "DeviceKind", "Did", "Entry", "Event", "Fis", "FisType", "Identity", "InterfaceError", "Kind", "Look", "Order", "OutOfMemory", "Outcome", "Phase", "Port", "Refused",
    "Register", "Reply", "Rule", "Slot", "State", "Status", "Step", "Stepped", "TagSets", "Want", "Written", "Wrote", "choose_tag", "choose_tags",
    "command_breaks", "entry_breaks", "fis_decode", "fis_encode", "identify_page", "journal_check", "length_breaks", "log_page", "status_text", "tags_of", "version",
    "window_check",
]
