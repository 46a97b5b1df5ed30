"""The structs of c/ahci.h, and the arguments of its calls, as ctypes has them. Written by tools/bindings from c/ahci.h."""
import ctypes
from typing import Any, Dict, List

u8, u16, u32, u64, size, flag, place = ctypes.c_uint8, ctypes.c_uint16, ctypes.c_uint32, ctypes.c_uint64, ctypes.c_size_t, ctypes.c_bool, ctypes.c_void_p
text = ctypes.c_char_p


def to(kind: Any) -> Any:
    return ctypes.POINTER(kind)


class PortPlace(ctypes.Structure):
    """The place of a port, in the caller's memory. All zeros is an empty place (ahci_port)"""

    _fields_ = [
        ("at", place), ("full", flag), ("stopped", flag), ("announced", u32),
    ]


class SteppedStruct(ctypes.Structure):
    """ahci_stepped of c/ahci.h."""

    _fields_ = [
        ("first", u64), ("count", u32), ("did", u32),
    ]


class ReplyStruct(ctypes.Structure):
    """ahci_reply of c/ahci.h."""

    _fields_ = [
        ("number", u64), ("entry", u64), ("lba", u64), ("bytes", u64), ("outcome", u32), ("error", u32),
    ]


class SlotStruct(ctypes.Structure):
    """One slot of a port (ahci_slot)."""

    _fields_ = [
        ("number", u64), ("bytes", u64), ("phase", u32), ("owned", u32),
    ]


class TagSetsStruct(ctypes.Structure):
    """Tags by what they wait for, each set as the bits of a word (ahci_tag_sets)."""

    _fields_ = [
        ("issued", u32), ("accepted", u32), ("held", u32),
    ]


class EntryStruct(ctypes.Structure):
    """One entry. What its kind doesn't have is 0 (ahci_entry)"""

    _fields_ = [
        ("lba", u64), ("sectors", u32), ("kind", u32), ("tag", u32), ("error", u32),
    ]


class WrittenStruct(ctypes.Structure):
    """ahci_written of c/ahci.h."""

    _fields_ = [
        ("did", u32), ("slots", u32), ("tag", u32),
    ]


class StateStruct(ctypes.Structure):
    """The whole visible state of a port, without padding: two ports that have done the same are equal by memcmp (ahci_state)."""

    _fields_ = [
        ("first", u64), ("next", u64), ("numbers", u64 * 32), ("depth", u32), ("sectors", u32), ("halted", u32), ("issued", u32), ("accepted", u32),
        ("held", u32), ("cap", u32), ("ghc", u32), ("pi", u32), ("vs", u32), ("px_clb", u32), ("px_clbu", u32), ("px_fb", u32), ("px_fbu", u32),
        ("px_is", u32), ("px_ie", u32), ("px_cmd", u32), ("px_tfd", u32), ("px_sig", u32), ("px_ssts", u32), ("px_sctl", u32), ("px_serr", u32),
        ("px_sact", u32), ("px_ci", u32), ("received", u8 * 256), ("phases", u8 * 32),
    ]


class FisStruct(ctypes.Structure):
    """A FIS (SATA, "FIS types"), with no padding. What its type doesn't have is 0 (ahci_fis)"""

    _fields_ = [
        ("lba", u64), ("sactive", u32), ("offset", u32), ("transfer", u32), ("features", u16), ("count", u16), ("bytes", u16), ("payload", u16),
        ("kind", u8), ("c", u8), ("a", u8), ("i", u8), ("d", u8), ("status", u8), ("error", u8), ("device", u8), ("command", u8), ("control", u8),
        ("e_status", u8), ("tag", u8),
    ]


class CommandStruct(ctypes.Structure):
    """The command of a window (ahci_command)."""

    _fields_ = [
        ("lba", u64), ("sectors", u32), ("kind", u32), ("tag", u32), ("pieces", u32),
    ]


class HbaPlace(ctypes.Structure):
    """The place of a controller, in the caller's memory. All zeros is an empty place (ahci_hba)"""

    _fields_ = [
        ("at", place), ("full", flag),
    ]


class HbaCapabilitiesStruct(ctypes.Structure):
    """What a controller can do, as its CAP shows it (section 3.1.1), without padding. Of a flag, all but 0 is 1 (ahci_hba_capabilities)"""

    _fields_ = [
        ("ncs", u32), ("iss", u32), ("s64a", u32), ("sncq", u32), ("sss", u32), ("sclo", u32), ("salp", u32), ("pmd", u32),
    ]


class IdentityStruct(ctypes.Structure):
    """What IDENTIFY DEVICE names the disk (ACS-3), without padding: texts of ASCII, 20h to 7Eh, filled up with spaces, in the order in which they are read (ahci_identity)."""

    _fields_ = [
        ("serial", u8 * 20), ("firmware", u8 * 8), ("model", u8 * 40), ("rotation", u32),
    ]


class HbaStateStruct(ctypes.Structure):
    """What a controller does next, without padding (ahci_hba_state)."""

    _fields_ = [
        ("address", u64), ("length", u64), ("want", u32), ("interrupt", u32), ("sign", u32), ("depth", u32), ("next", u8 * 32),
    ]


# without ahci_; each call returns a status, u32
CALLS: Dict[str, List[Any]] = {
    "port_new": [to(PortPlace), text, size, u32],
    "port_new_zeros": [to(PortPlace), u32, u32],
    "port_resume": [to(PortPlace), text, size, u32, u64],
    "port_over": [to(PortPlace), text, size, u32, u32, u64],
    "port_free": [to(PortPlace)],
    "port_depth": [to(PortPlace), to(u32)],
    "port_sectors": [to(PortPlace), to(u32)],
    "port_register": [to(PortPlace), u32, to(u32)],
    "port_acknowledge": [to(PortPlace), u32],
    "port_write_register": [to(PortPlace), u32, u32, text, size, text, size, to(WrittenStruct)],
    "port_read_register": [to(PortPlace), u32, to(u32)],
    "port_received": [to(PortPlace), text, size],
    "port_issue": [to(PortPlace), u32, text, size, text, size, to(u64)],
    "port_submit": [to(PortPlace), u32, u32, u64, u32, text, size, to(u64)],
    "port_accept": [to(PortPlace), u32, to(SteppedStruct)],
    "port_serve": [to(PortPlace), text, size, to(SteppedStruct)],
    "port_fail": [to(PortPlace), u32, u8, u64, to(SteppedStruct)],
    "port_recover": [to(PortPlace), to(u32)],
    "port_reissue": [to(PortPlace), u32],
    "port_collect": [to(PortPlace), u32, u64, to(ReplyStruct), text, size],
    "port_identify": [to(PortPlace), text, size],
    "port_flush": [to(PortPlace)],
    "port_tag_sets": [to(PortPlace), to(TagSetsStruct)],
    "port_slot": [to(PortPlace), u32, to(SlotStruct)],
    "port_copy": [to(PortPlace), u64, text, size],
    "port_touched": [to(PortPlace), to(u32), size, to(u64)],
    "port_trim": [to(PortPlace), to(u64)],
    "port_entry": [to(PortPlace), u64, to(EntryStruct)],
    "port_entry_bytes": [to(PortPlace), u64, text, size],
    "port_state": [to(PortPlace), to(StateStruct)],
    "hba_new": [to(HbaPlace), text, size, u32],
    "hba_new_with": [to(HbaPlace), text, size, u32, to(HbaCapabilitiesStruct)],
    "hba_over": [to(HbaPlace), text, size, u32, u32, to(HbaCapabilitiesStruct)],
    "hba_free": [to(HbaPlace)],
    "hba_read": [to(HbaPlace), u32, u32, to(u64)],
    "hba_write": [to(HbaPlace), u32, u32, u64, to(u64)],
    "hba_power_on": [to(HbaPlace), to(u64)],
    "hba_identity": [to(HbaPlace), to(IdentityStruct)],
    "hba_write_cache": [to(HbaPlace), u32],
    "hba_write_cache_enabled": [to(HbaPlace), to(u32)],
    "hba_trim_zeros": [to(HbaPlace), u32],
    "hba_lose_link": [to(HbaPlace), to(u64)],
    "hba_find_link": [to(HbaPlace)],
    "hba_unplug": [to(HbaPlace), to(u64)],
    "hba_plug": [to(HbaPlace)],
    "hba_plug_other": [to(HbaPlace), text, size, u32, u32, to(IdentityStruct), to(u64)],
    "hba_fail_interface": [to(HbaPlace), u32, u32],
    "hba_sign_as": [to(HbaPlace), u32],
    "hba_receive_bits": [to(HbaPlace), u32],
    "hba_receive_register": [to(HbaPlace)],
    "hba_receive_unknown": [to(HbaPlace), text, size],
    "hba_look": [to(HbaPlace), to(HbaStateStruct)],
    "hba_supply": [to(HbaPlace), text, size],
    "hba_bytes": [to(HbaPlace), text, size],
    "hba_written": [to(HbaPlace)],
    "hba_unmapped": [to(HbaPlace)],
    "hba_spoiled": [to(HbaPlace)],
    "hba_step": [to(HbaPlace), u32, to(u64)],
    "hba_trim_range": [to(HbaPlace), u32, to(u64), to(u32)],
    "hba_fail": [to(HbaPlace), u32, u8, u64],
    "hba_refuse": [to(HbaPlace), u32, u8, u64],
    "hba_end": [to(HbaPlace), u32, u8, u8, u64],
    "hba_sign": [to(HbaPlace)],
    "hba_trim": [to(HbaPlace), to(u64)],
    "hba_copy": [to(HbaPlace), u64, text, size],
    "hba_may_be_left": [to(HbaPlace), text, size, u64, text, size, to(u32)],
    "hba_touched": [to(HbaPlace), to(u32), size, to(u64)],
    "hba_entry": [to(HbaPlace), u64, to(EntryStruct)],
    "hba_entry_bytes": [to(HbaPlace), u64, text, size],
    "hba_port": [to(HbaPlace), to(StateStruct)],
    "hba_write_breaks": [to(HbaPlace), u32, u32, u32, to(u32)],
    "command_breaks": [u32, u32, u32, text, size, text, size, to(u32)],
    "entry_breaks": [u32, text, size, to(u32)],
    "length_breaks": [u32, text, size, u64, to(u32)],
    "fis_decode": [text, size, to(FisStruct)],
    "fis_encode": [to(FisStruct), text, size, text, size, to(size)],
    "window_check": [u32, text, size, text, size, to(CommandStruct)],
    "identify_page": [u32, u32, text, size],
    "log_page": [u32, u8, u64, text, size],
    "journal_check": [u32, u32, to(EntryStruct), size, to(size)],
    "choose_tag": [u32, u32, u64, to(u32)],
    "choose_tags": [u32, u32, u32, u32, to(u64), size, text, size, to(size)],
    "status_text": [u32, text, size, to(size)],
    "version": [],
}
