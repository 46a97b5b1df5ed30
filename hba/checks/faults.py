"""The faults of the small driver in `driver`: each with the rule of AHCI 1.3.1 that it breaks, and options of ahci-hba that it needs."""
from __future__ import annotations

from typing import Dict, List, Tuple

SLOW = ["--delay", "30000"]  # microseconds: a command is outstanding for so long
FAILS = ["--fail", "3:40"]  # the queued command fails
NO_QUEUE = ["--cap", "sncq=0"]  # the controller has no queue for it
SHORT = ["--cap", "s64a=0"]  # it has addresses of 32 bits
MANAGED = ["--cap", "salp=1"]  # it can initiate power states of the link by itself, of which it has none

FAULTS: Dict[str, Tuple[str, List[str]]] = {
    # starting and stopping the port
    "st_without_fre": ("StartWithoutReceiving", []), "st_and_fre_at_once": ("StartWithReceiving", []), "fre_cleared_first": ("ReceivingClearedWhileStarted", []),
    "st_while_busy": ("StartWhileBusy", []), "st_with_clo": ("StartWhileBusy", []),
    "st_without_link": ("StartWithoutDevice", []), "no_list": ("ListNotGiven", []), "no_area": ("AreaNotGiven", []),
    "start_with_errors": ("StartWithErrors", FAILS), "start_with_serr": ("StartWithSerr", []), "cr_not_awaited_at_stop": ("RunningNotAwaited", []),
    "cr_not_awaited_at_start": ("RunningNotAwaited", []), "fr_not_awaited": ("ReceivingNotAwaited", []), "clo_not_awaited": ("ClearBusyNotAwaited", []),
    "hr_not_awaited": ("ResetNotAwaited", []), "link_not_awaited": ("LinkNotAwaited", []), "master_off": ("MasterOff", SLOW),
    # registers
    "list_moved": ("ListMovedWhileStarted", SLOW), "area_moved": ("AreaMovedWhileReceiving", SLOW), "list_unaligned": ("ListUnaligned", []),
    "area_unaligned": ("AreaUnaligned", []), "clo_while_started": ("ClearBusyWhileStarted", SLOW), "comreset_while_started": ("LinkChangedWhileStarted", SLOW),
    "short_comreset": ("ShortComreset", []), "det_3": ("ReservedLinkState", []), "speed_3": ("SpeedAboveInterface", []), "alpe": ("PowerWithoutCapability", []),
    "alpe_without_partial": ("PowerWithoutCapability", MANAGED),
    "partial": ("PowerWithoutCapability", []), "reserved_bits": ("ReservedBits", []), "byte_access": ("SmallAccess", []),
    "unaligned": ("UnalignedAccess", []), "no_register": ("NoRegister", []), "is_first": ("InterruptNotCleared", []),
    "enable_over_status": ("EnableOverStatus", []), "enable_over_port": ("EnableOverStatus", []),
    # issuing commands
    "command_while_stopped": ("CommandWhileStopped", []), "no_sact": ("QueueWithoutActive", []), "sact_for_dma": ("ActiveWithoutQueue", []),
    "mixed": ("MixedCommands", SLOW), "slot_again": ("SlotUsedAgain", SLOW), "active_slot_again": ("SlotUsedAgain", SLOW), "sact_after_ci": ("ActiveAfterIssue", SLOW),
    "log_not_read": ("LogNotRead", FAILS), "tag_above_depth": ("TagAboveDepth", ["--depth", "2"]), "wrong_tag": ("TagNotSlot", []),
    "queue_without_sncq": ("QueueWithoutCapability", NO_QUEUE), "queue_without_sncq_and_sact": ("QueueWithoutCapability", NO_QUEUE),
    "slot_above_list": ("SlotAboveList", ["--cap", "ncs=8"]),
    # headers and FISes
    "short_fis": ("FisLength", []), "wrong_direction": ("WriteFlag", []), "header_reserved": ("ReservedHeader", []), "header_bit_11": ("ReservedHeader", []),
    "prefetch_of_queued": ("PrefetchWithQueue", []), "pmp_of_header": ("PortOfMultiplier", []), "pmp_of_fis": ("PortOfMultiplier", []), "bist": ("BistFlag", []),
    "fis_reserved_dword": ("ReservedFis", []), "fis_reserved_bits": ("ReservedFis", []), "srst_without_flags": ("ResetFlags", []), "srst_alone": ("ResetAlone", []),
    "srst_cleared_alone": ("ResetAlone", []), "srst_beside_a_command": ("ResetBesideCommands", SLOW),
    "srst_behind_a_read": ("ResetBesideCommands", []), "srst_cleared_behind_a_read": ("ResetBesideCommands", []),
    "srst_alone_over_a_restart": ("ResetAlone", []),
    # PRDTs, and memory
    "odd_address": ("OddAddress", []), "even_count": ("EvenCount", []), "short_list": ("ListTooShort", []), "no_entries": ("ListTooShort", []), "long_list": ("ListTooLong", []),
    "many_entries": ("ListTooLong", []),
    "entry_reserved_dword": ("ReservedEntry", []), "entry_reserved_bits": ("ReservedEntry", []), "table_changed": ("TableChanged", SLOW), "data_changed": ("DataChanged", SLOW),
    "data_over_area": ("MemoryOverlaps", []), "table_over_list": ("MemoryOverlaps", []), "list_over_area": ("MemoryOverlaps", []),
    "list_above_reach": ("AddressAboveReach", SHORT), "area_above_reach": ("AddressAboveReach", SHORT), "table_above_reach": ("AddressAboveReach", SHORT),
    "data_above_reach": ("AddressAboveReach", SHORT), "table_nowhere": ("NoMemory", []), "data_nowhere": ("NoMemory", []),
}

# drivers that keep the rules: what they do after the queued command has failed, and that command's options; how they issue the FISes of a software reset; that
# they write all 1s to PxSERR (section 10.4.2), write what memory has of the command list to the disk, and issue PACKET with A, which the disk aborts
RIGHT: Dict[str, List[str]] = {
    "none": [], "none_while_slow": [*SLOW, "--slow-bits", "3"], "log_read": [*FAILS, "--slow-bits", "3"], "log_refused": [*FAILS, "--refuse-log", "--slow-bits", "3"],
    "srst": [*FAILS, "--slow-bits", "3"], "comreset": [*FAILS, "--slow-bits", "3"], "srst_at_once": [*SLOW, "--slow-bits", "3"], "serr_of_ones": [],
    "srst_over_a_restart": ["--slow-bits", "3"], "srst_then_offline": ["--slow-bits", "3"], "list_written": [], "packet": [],
}
