"""The enums and the registers of c/ahci.h by name. Each number is an `int` too. Written by tools/bindings from c/ahci.h."""
from __future__ import annotations

import enum


class Status(enum.IntEnum):
    """What a call returns. Each has one meaning (ahci_status)"""

    OK = 0
    NO_PORT = 1
    PORT_THERE = 2
    OUT_OF_MEMORY = 3
    BUFFER_TOO_SMALL = 4
    WRONG_LENGTH = 5
    BAD_TAG = 6
    BAD_KIND = 7
    NO_SUCH_SECTOR = 8
    NO_SUCH_ENTRY = 9
    TOO_MANY_TAGS = 10
    BAD_SIZE = 11
    BAD_DEPTH = 12
    BAD_FIRST = 13
    UNALIGNED = 16
    NO_SUCH_REGISTER = 17
    NOT_STARTED = 18
    NOT_RECEIVING = 19
    RUNNING = 20
    NOT_QUEUED = 21
    HALTED = 32
    NO_SUCH_TAG = 33
    SLOT_OWNED = 34
    BAD_HEADER = 35
    BAD_COMMAND = 36
    WRONG_TAG = 37
    BAD_LIST = 38
    BAD_COUNT = 39
    BAD_LBA = 40
    NOT_ISSUED = 41
    NOT_ACCEPTED = 42
    OUTSIDE_COMMAND = 43
    BAD_TAGS = 44
    NOT_HALTED = 45
    NOT_HELD = 46
    QUEUE_BUSY = 47
    STRANGER = 48
    NOT_YET = 49
    BUSY = 50
    SPENT = 51
    NOT_READY = 52
    EMPTY_FIS = 64
    UNKNOWN_TYPE = 65
    WRONG_FIS_LENGTH = 66
    BAD_FLAG = 67
    BAD_STATUS = 68
    BAD_PAYLOAD = 69
    NOT_ALLOWED = 80


class Order(enum.IntEnum):
    """In which order the device goes on with the tags of a set (ahci_order)."""

    LOWEST = 0
    HIGHEST = 1
    DRAWN = 2
    ROUND = 3


class Kind(enum.IntEnum):
    """What a command does. With FUA (ACS-3, READ and WRITE FPDMA QUEUED) the device of its command FIS has bit 7 (ahci_kind)"""

    READ = 0
    WRITE = 1
    READ_FUA = 2
    WRITE_FUA = 3


class Phase(enum.IntEnum):
    """How far a tag's command is (ahci_phase)."""

    FREE = 0
    ISSUED = 1
    ACCEPTED = 2
    REJECTED = 3
    BROKEN = 4
    HELD = 5
    DONE = 6


class Did(enum.IntEnum):
    """What the device did in a step (ahci_did)."""

    ACCEPTED = 0
    COMPLETED = 1
    FAILED = 2


class Outcome(enum.IntEnum):
    """How a request ended (ahci_outcome)."""

    READ = 0
    WRITE = 1
    FAIL = 2


class Event(enum.IntEnum):
    """What an entry of the journal records (ahci_event)."""

    READ = 0
    WRITE = 1
    ACCEPT = 2
    COMPLETE = 3
    FAIL = 4
    RECOVER = 5
    REISSUE = 6
    COLLECT = 7
    IDENTIFY = 8
    FLUSH = 9
    READ_LOG = 10
    ZERO = 11


class Wrote(enum.IntEnum):
    """What a driver's write of a register did (ahci_wrote)."""

    WORD = 0
    COMMANDS = 1
    START = 2
    SOME = 3


class Want(enum.IntEnum):
    """What the controller does next with the driver's memory (ahci_want)."""

    NOTHING = 0
    READ = 1
    WRITE = 2


class InterfaceError(enum.IntEnum):
    """An error of the interface, by the number of its bit in PxSERR (section 3.3.12, DIAG) (ahci_interface_error)."""

    DECODE = 19
    CRC = 21
    HANDSHAKE = 22
    LINK_SEQUENCE = 23
    TRANSPORT_STATE = 24


class DeviceKind(enum.IntEnum):
    """What a device is, by its signature (section 3.3.9, PxSIG) (ahci_device_kind)."""

    DISK = 0
    PACKET = 1
    ENCLOSURE_BRIDGE = 2
    PORT_MULTIPLIER = 3


class Step(enum.IntEnum):
    """The next step with the command of a slot. Which of the slots comes first is the caller's choice (ahci_hba_step_kind)"""

    NONE = 0
    FETCH = 1
    SEND = 2
    ACCEPT = 3
    SERVE = 4
    DELIVER = 5
    EXECUTE = 6
    CONTROL = 7
    RECOVER = 8


class Rule(enum.IntEnum):
    """The rules of AHCI 1.3.1 for the software that drives a controller, each named for what breaks it. Sections: crates/hba_rules (ahci_rule)"""

    START_WITHOUT_RECEIVING = 0
    START_WITH_RECEIVING = 1
    START_WHILE_BUSY = 2
    START_WITHOUT_DEVICE = 3
    RECEIVING_CLEARED_WHILE_STARTED = 4
    LIST_MOVED_WHILE_STARTED = 5
    AREA_MOVED_WHILE_RECEIVING = 6
    CLEAR_BUSY_WHILE_STARTED = 7
    LINK_CHANGED_WHILE_STARTED = 8
    RESERVED_LINK_STATE = 9
    ACTIVE_WHILE_STOPPED = 10
    COMMAND_WHILE_STOPPED = 11
    COMMAND_WHILE_HALTED = 12
    MIXED_COMMANDS = 13
    INTERRUPT_NOT_CLEARED = 14
    RESERVED_BITS = 15
    FIS_LENGTH = 16
    NO_COMMAND_FIS = 17
    ATAPI_FLAG = 18
    WRITE_FLAG = 19
    ACTIVE_WITHOUT_QUEUE = 20
    QUEUE_WITHOUT_ACTIVE = 21
    TAG_NOT_SLOT = 22
    RESERVED_HEADER = 23
    TABLE_UNALIGNED = 24
    ODD_ADDRESS = 25
    EVEN_COUNT = 26
    LIST_TOO_SHORT = 27
    LIST_TOO_LONG = 28
    LIST_UNALIGNED = 29
    AREA_UNALIGNED = 30
    SLOT_USED_AGAIN = 31
    ACTIVE_AFTER_ISSUE = 32
    START_WITH_ERRORS = 33
    START_WITH_SERR = 34
    ENABLE_OVER_STATUS = 35
    SPEED_ABOVE_INTERFACE = 36
    POWER_WITHOUT_CAPABILITY = 37
    QUEUE_WITHOUT_CAPABILITY = 38
    PREFETCH_WITH_QUEUE = 39
    PORT_OF_MULTIPLIER = 40
    BIST_FLAG = 41
    RESET_FLAGS = 42
    RESERVED_FIS = 43
    RESERVED_ENTRY = 44
    SLOT_ABOVE_LIST = 45


class Register(enum.IntEnum):
    """Offsets from the HBA's base (sections 3.1 and 3.3), in bytes. The one port's registers begin at 100h (AHCI_REG_)"""

    CAP = 0x000
    GHC = 0x004
    IS = 0x008
    PI = 0x00C
    VS = 0x010
    CAP2 = 0x024
    BOHC = 0x028
    PXCLB = 0x100
    PXCLBU = 0x104
    PXFB = 0x108
    PXFBU = 0x10C
    PXIS = 0x110
    PXIE = 0x114
    PXCMD = 0x118
    PXTFD = 0x120
    PXSIG = 0x124
    PXSSTS = 0x128
    PXSCTL = 0x12C
    PXSERR = 0x130
    PXSACT = 0x134
    PXCI = 0x138
    PXSNTF = 0x13C
