"""What the calls return."""
from __future__ import annotations

import enum
from typing import Dict, NamedTuple, Tuple

from .names import Did, Event, Kind, Outcome, Phase, Step, Want, Wrote


class Stepped(NamedTuple):
    """What the device did: the number of the step's first entry, how many entries it has, and what it was."""

    first: int
    count: int  # type: ignore[assignment]
    did: Did


class Reply(NamedTuple):
    """How a request ended: its number, the entry that answered it, and of a failure the failing sector and the error byte."""

    number: int
    entry: int
    lba: int
    bytes: int
    outcome: Outcome
    error: int


class Slot(NamedTuple):
    """One slot: the number of the request that owns it, how many bytes that reads, its phase, and whether there is one."""

    number: int
    bytes: int
    phase: Phase
    owned: bool


class Written(NamedTuple):
    """What a driver's write of a register did; of `COMMANDS` the issued slots as bits, of `START` the tag whose command had failed."""

    did: Wrote
    slots: int
    tag: int


class TagSets(NamedTuple):
    """Tags by what they wait for, each set as the bits of a word."""

    issued: int
    accepted: int
    held: int


class Entry(NamedTuple):
    """One entry of the journal. What its kind doesn't have is 0."""

    lba: int
    sectors: int
    kind: Event
    tag: int
    error: int


class State(NamedTuple):
    """The whole visible state of a port (ahci_state): two ports that have done the same have equal states."""

    first: int
    next: int
    numbers: Tuple[int, ...]
    depth: int
    sectors: int
    halted: bool
    issued: int
    accepted: int
    held: int
    registers: Dict[str, int]
    received: bytes
    phases: Tuple[Phase, ...]


class Command(NamedTuple):
    """The command of a window, and how many entries its PRDT has."""

    lba: int
    sectors: int
    kind: Kind
    tag: int
    pieces: int


class FisType(enum.IntEnum):
    """Byte 0 of a FIS (Serial ATA, "FIS types")."""

    H2D = 0x27
    D2H = 0x34
    DMA_ACTIVATE = 0x39
    DMA_SETUP = 0x41
    DATA = 0x46
    PIO_SETUP = 0x5F
    SET_DEVICE_BITS = 0xA1


class Fis(NamedTuple):
    """A FIS (ahci_fis). What its type doesn't have is 0; `kind` is byte 0, a `FisType`."""

    kind: int
    lba: int = 0
    sactive: int = 0
    offset: int = 0
    transfer: int = 0
    features: int = 0
    count: int = 0  # type: ignore[assignment]
    bytes: int = 0
    payload: int = 0
    c: int = 0
    a: int = 0
    i: int = 0
    d: int = 0
    status: int = 0
    error: int = 0
    device: int = 0
    command: int = 0
    control: int = 0
    e_status: int = 0
    tag: int = 0


class Capabilities(NamedTuple):
    """What a controller can do, as its CAP shows it (ahci_hba_capabilities). Without arguments those of a controller that is made without any."""

    ncs: int = 32
    iss: int = 2
    s64a: bool = True
    sncq: bool = True
    sss: bool = False
    sclo: bool = True
    salp: bool = False
    pmd: bool = True


class Identity(NamedTuple):
    """What IDENTIFY DEVICE names a disk (ahci_identity): texts of ASCII, of at most 20, 8 and 40 characters, and the nominal media rotation rate. Without
    arguments those of a disk that nobody has named."""

    serial: str = "00000001"
    firmware: str = "1.0"
    model: str = "SOFTWARE NCQ DISK"
    rotation: int = 0


class Look(NamedTuple):
    """What a controller does next (ahci_hba_state)."""

    address: int
    length: int
    want: Want
    interrupt: bool
    sign: bool
    depth: int
    next: Tuple[Step, ...]
