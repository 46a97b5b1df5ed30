"""Faults to plant in the stand-in: each is what somebody could believe of the standard."""
from typing import Dict, List, NamedTuple, Optional, Tuple, Type

from .command_faults import (
    BitsFisTakesAll, CKeepsBusy, CKeepsIssued, CountOfTheList, DhrsWithoutI, ErrorByteLost, ErrorClearsActive, ErrorClearsIssued, FinalStatusBusy,
    GoesOnAfterAnError, LengthWithoutItsOne, LogNamesNoSector, LoneControlSigns, LowestSlotFirst, NoBusy, NoCount, NoCurrentSlot, NoDmaSetup,
    NoPssOfWrites, NoSdbs, NoTfes, OneSectorTooMany, OutstandingSurviveStop, PssAtOnce, SetDeviceBitsAt60, StopKeepsActive, StopKeepsIssued,
    StopKeepsSlot, TakenWhileBusy, UpperHalfIgnored, WritesAnywhere, WrittenBelowTheError,
)
from .hba import Hba
from .register_faults import (
    ErrorsStayWithStatus, LineFollowsPort, LineIgnoresEnable, LinkKeepsSignature, LinkSetsNoX, OfflineIsPresent, PartWritesClear, ResetClearsBases,
    ResetKeepsEnable, ResetKeepsPortEnable, SignatureWithoutStatus, StatusFalls, StatusIgnoresEnable, StatusWrittenWhole,
)


class Fault(NamedTuple):
    """A planted fault: where it is found, at any of these places as `*` patterns; and the rule of rules.py or alone.py under which."""

    name: str
    about: str
    stand_in: Type[Hba]
    places: Tuple[str, ...]
    rule: str


def _snake(name: str) -> str:
    return "".join(f"_{it.lower()}" if it.isupper() and at else it.lower() for at, it in enumerate(name))


_PLACES: Dict[Type[Hba], Tuple[str, ...]] = {
    StopKeepsActive: ("PxSACT",), StopKeepsIssued: ("PxCI",), StopKeepsSlot: ("PxCMD",), NoCurrentSlot: ("PxCMD",), LowestSlotFirst: ("PxCMD", "PxCI"),
    TakenWhileBusy: ("emulator: no command is taken while BSY or DRQ", "the emulator dies", "PxCI", "PxTFD"), NoBusy: ("PxTFD", "the emulator dies"),
    CKeepsIssued: ("PxCI", "emulator: C is set and PxCI loses the slot"),
    CKeepsBusy: ("PxTFD", "emulator: C is set and BSY is cleared"), LoneControlSigns: ("PxTFD", "PxSIG", "PxCI"), ErrorByteLost: ("PxTFD",), BitsFisTakesAll: ("PxSACT",),
    ErrorClearsActive: ("PxSACT",), NoTfes: ("PxIS",), GoesOnAfterAnError: ("PxCMD", "PxCI", "PxTFD", "PxSACT"), ErrorClearsIssued: ("PxCI",), NoSdbs: ("PxIS",), DhrsWithoutI: ("PxIS",),
    NoPssOfWrites: ("PxIS",), PssAtOnce: ("PxIS",), StatusWrittenWhole: ("PxIS",), ErrorsStayWithStatus: ("PxSERR", "PxIS"), StatusFalls: ("IS",), StatusIgnoresEnable: ("IS",),
    LineIgnoresEnable: ("interrupt line",), LineFollowsPort: ("interrupt line",), ResetKeepsEnable: ("GHC",), ResetClearsBases: ("PxCLB", "PxFB"), ResetKeepsPortEnable: ("PxIE",),
    LinkSetsNoX: ("PxSERR", "PxIS"), LinkKeepsSignature: ("PxSIG",), OfflineIsPresent: ("PxSSTS",), SignatureWithoutStatus: ("PxTFD",), CountOfTheList: ("PRDBC",), NoCount: ("PRDBC",),
    LengthWithoutItsOne: ("data", "disk", "memory beside", "PxIS", "PxTFD"), UpperHalfIgnored: ("data", "memory beside"), SetDeviceBitsAt60: ("Set Device Bits FIS", "rest of the FIS area"),
    NoDmaSetup: ("DMA Setup FIS",), FinalStatusBusy: ("PIO Setup FIS",), WrittenBelowTheError: ("disk",), OneSectorTooMany: ("data",), LogNamesNoSector: ("data", "PxTFD", "D2H Register FIS"),
    OutstandingSurviveStop: ("emulator: *", "data", "PxTFD", "disk"), PartWritesClear: ("PxIE",), WritesAnywhere: ("memory beside", "data"),
}
_STOP, _LINE = "ST is cleared and PxCI, PxSACT and CCS are 0", "the interrupt line is IS and GHC.IE"
_IS, _SACT = "IS has the port while an enabled bit of PxIS is 1, and keeps it until it is cleared", "after an error PxSACT keeps its tags until ST is cleared"
_TASK, _DATA = "PxTFD has the status and the error of the last FIS", "data go where the PRDT says, and nowhere else"
_FAILS, _RESET = "a command that fails moves no sector from the failing one on", "GHC.HR resets all other registers"
_PSS, _COUNT, _PLACE = "PSS is set after the data of a PIO Setup FIS with I", "PRDBC is the number of bytes that were moved", "a received FIS has its own place in the area"
_RULES: Dict[Type[Hba], str] = {
    StopKeepsActive: _STOP, StopKeepsIssued: _STOP, StopKeepsSlot: _STOP, NoCurrentSlot: "CCS is the slot of the command that was issued last",
    LowestSlotFirst: "commands are issued from the slot behind CCS on", TakenWhileBusy: "no command is taken while BSY or DRQ", NoBusy: "BSY is 1 while a command is under way",
    CKeepsIssued: "C is set and PxCI loses the slot", CKeepsBusy: "C is set and BSY is cleared", LoneControlSigns: "a software reset is SRST 1, then SRST 0", ErrorByteLost: _TASK,
    BitsFisTakesAll: "PxSACT keeps a tag until a Set Device Bits FIS names it", ErrorClearsActive: _SACT, NoTfes: "TFES is set by ERR in a status",
    GoesOnAfterAnError: "after an error no command is issued until ST is cleared", ErrorClearsIssued: "after an error PxCI keeps its slots until ST is cleared",
    NoSdbs: "SDBS is set by a Set Device Bits FIS with I", DhrsWithoutI: "DHRS is set by a D2H Register FIS with I", NoPssOfWrites: _PSS, PssAtOnce: _PSS,
    StatusWrittenWhole: "bits of PxIS are cleared by a 1 that is written, and set by events alone", ErrorsStayWithStatus: "DIAG.X and DIAG.N are cleared by PxSERR alone",
    StatusFalls: _IS, StatusIgnoresEnable: _IS, LineIgnoresEnable: _LINE, LineFollowsPort: _LINE, ResetKeepsEnable: _RESET, ResetClearsBases: "GHC.HR leaves PxCLB and PxFB",
    ResetKeepsPortEnable: _RESET, LinkSetsNoX: "DIAG.X is set by COMINIT, DIAG.N by PhyRdy", LinkKeepsSignature: "PxSIG has the signature, and FFFFFFFFh until it comes",
    OfflineIsPresent: "DET, SPD and IPM of PxSSTS show the link as it is", SignatureWithoutStatus: _TASK, CountOfTheList: _COUNT, NoCount: _COUNT, LengthWithoutItsOne: _DATA,
    UpperHalfIgnored: _DATA, SetDeviceBitsAt60: _PLACE, NoDmaSetup: _PLACE, FinalStatusBusy: "E_Status is the status after the data", WrittenBelowTheError: _FAILS, OneSectorTooMany: _FAILS,
    LogNamesNoSector: "log 10h names the command that failed, and its sector", OutstandingSurviveStop: "nothing comes of a command that was dropped with ST",
    PartWritesClear: "an access writes the bytes that it has, and no others", WritesAnywhere: _DATA,
}
FAULTS: List[Fault] = [Fault(_snake(it.__name__), (it.__doc__ or "").strip(), it, places, _RULES[it]) for it, places in _PLACES.items()]


def named(name: Optional[str]) -> Optional[Type[Hba]]:
    """The stand-in with this fault; without a name the one without faults."""
    found: Dict[Optional[str], Type[Hba]] = {None: Hba, **{it.name: it.stand_in for it in FAULTS}}
    return found.get(name)
