"""Faults of a server around the library: what somebody could do wrong who has a right controller and gives it to a guest."""
from typing import Dict, List, NamedTuple, Optional, Tuple, Type

from ahci import Want

from . import layout
from .library import Library

HEADER_COUNT = 4  # where PRDBC is in a command header
PLACES = {0x00: 28, 0x20: 20, 0x40: 20, 0x58: 8}  # of the FISes in the received FIS area, and their lengths


class Server(Library):
    """The library behind a server that shows each word of the registers and writes each run of memory by a method of its own."""

    title = "a server over the library"

    def shown(self, at: int, word: int) -> int:
        return word

    def written_as(self, address: int, data: bytes) -> Optional[Tuple[int, bytes]]:
        """Where a run goes, and its bytes; nothing if it is lost."""
        return address, data

    def read(self, offset: int, size: int) -> int:
        value = super().read(offset, size)
        return self.shown(offset, value) if size == 4 else value

    def registers(self) -> Tuple[bytes, bytes]:
        host, port = super().registers()
        return self.words(0, host), self.words(layout.PORT_BASE, port)

    def words(self, base: int, data: bytes) -> bytes:
        return b"".join(self.shown(base + at, int.from_bytes(data[at : at + 4], "little")).to_bytes(4, "little") for at in range(0, len(data), 4))

    def move(self, want: Want, address: int, length: int) -> None:
        at = layout.place(address, length)
        if at is None or want == Want.READ:
            super().move(want, address, length)
            return
        found = self.written_as(address, bytes(self.it.bytes()))
        if found:
            self.put(*found)
        self.it.written()

    def fis_at(self, address: int) -> Optional[int]:
        """The place of the received FIS area that an address is; nothing if it is none."""
        read = self.it.read
        place = address - (read(layout.PX_FB, 4) | read(layout.PX_FBU, 4) << 32)
        return place if place in PLACES else None

    def is_count(self, address: int, data: bytes) -> bool:
        read = self.it.read
        place = address - (read(layout.PX_CLB, 4) | read(layout.PX_CLBU, 4) << 32)
        return len(data) == 4 and 0 <= place < 1024 and place % 32 == HEADER_COUNT


# ---- registers

class NoCurrentSlot(Server):
    """PxCMD.CCS reads 0."""

    def shown(self, at: int, word: int) -> int:
        return word & ~0x1F00 if at == layout.PX_CMD else word


class NotRunning(Server):
    """PxCMD.CR reads 0."""

    def shown(self, at: int, word: int) -> int:
        return word & ~0x8000 if at == layout.PX_CMD else word


class NeverBusy(Server):
    """BSY reads 0."""

    def shown(self, at: int, word: int) -> int:
        return word & ~0x80 if at == layout.PX_TFD else word


class NoErrorByte(Server):
    """The error of PxTFD reads 0."""

    def shown(self, at: int, word: int) -> int:
        return word & ~0xFF00 if at == layout.PX_TFD else word


class NoSignature(Server):
    """PxSIG stays as before the device's first FIS."""

    def shown(self, at: int, word: int) -> int:
        return 0xFFFFFFFF if at == layout.PX_SIG else word


class NoPhyChange(Server):
    """DIAG.N of PxSERR reads 0."""

    def shown(self, at: int, word: int) -> int:
        return word & ~0x10000 if at == layout.PX_SERR else word


class NoDhrs(Server):
    """DHRS of PxIS reads 0."""

    def shown(self, at: int, word: int) -> int:
        return word & ~1 if at == layout.PX_IS else word


class ActiveIsIssued(Server):
    """PxSACT reads as PxCI."""

    def shown(self, at: int, word: int) -> int:
        return self.it.read(layout.PX_CI, 4) if at == layout.PX_SACT else word


class NoCommunication(Server):
    """PxSSTS.DET reads 1: a device is there, and no communication with it."""

    def shown(self, at: int, word: int) -> int:
        return word & ~2 if at == layout.PX_SSTS else word


class HalfOfEnable(Server):
    """The upper half of PxIE is not written."""

    def write(self, offset: int, size: int, value: int) -> None:
        super().write(offset, size, value & 0xFFFF if offset == layout.PX_IE and size == 4 else value)


class BytesAreWords(Server):
    """A byte that is written is a word whose other bytes are 0."""

    def write(self, offset: int, size: int, value: int) -> None:
        super().write(offset, 4 if size == 1 and offset % 4 == 0 else size, value)


class StatusIsAWord(Server):
    """PxIS is cleared by any write."""

    def write(self, offset: int, size: int, value: int) -> None:
        super().write(offset, size, 0xFFFFFFFF if offset == layout.PX_IS and size == 4 else value)


# ---- resets

class ResetClearsBases(Server):
    """GHC.HR clears PxCLB and PxFB."""

    def write(self, offset: int, size: int, value: int) -> None:
        super().write(offset, size, value)
        if offset == layout.GHC and value & 1:
            for at in (layout.PX_CLB, layout.PX_FB):
                super().write(at, 4, 0)


class StopsNever(Server):
    """ST is not cleared."""

    def write(self, offset: int, size: int, value: int) -> None:
        started = offset == layout.PX_CMD and size == 4 and self.it.read(layout.PX_CMD, 4) & layout.ST
        super().write(offset, size, value | layout.ST if started else value)


# ---- FISes and memory

class RegisterFisBehind(Server):
    """A D2H Register FIS goes four bytes too far."""

    def written_as(self, address: int, data: bytes) -> Optional[Tuple[int, bytes]]:
        return address + 4 if self.fis_at(address) == 0x40 else address, data


class HalfOfBitsFis(Server):
    """Of a Set Device Bits FIS one dword is written."""

    def written_as(self, address: int, data: bytes) -> Optional[Tuple[int, bytes]]:
        return address, data[:4] if self.fis_at(address) == 0x58 else data


class NoDmaSetup(Server):
    """A DMA Setup FIS is not written."""

    def written_as(self, address: int, data: bytes) -> Optional[Tuple[int, bytes]]:
        return None if self.fis_at(address) == 0x00 else (address, data)


class NoCount(Server):
    """PRDBC is not written."""

    def written_as(self, address: int, data: bytes) -> Optional[Tuple[int, bytes]]:
        return None if self.is_count(address, data) else (address, data)


class CountOfSectors(Server):
    """PRDBC counts sectors."""

    def written_as(self, address: int, data: bytes) -> Optional[Tuple[int, bytes]]:
        return address, (int.from_bytes(data, "little") // 512).to_bytes(4, "little") if self.is_count(address, data) else data


class WritesBehindData(Server):
    """A run of a read's data has two bytes more."""

    def written_as(self, address: int, data: bytes) -> Optional[Tuple[int, bytes]]:
        is_data = self.fis_at(address) is None and not self.is_count(address, data)
        return address, data + b"\x5A\xA5" if is_data else data


# ---- the interrupt line

class LineWithoutGlobalEnable(Server):
    """The line is asserted whatever GHC.IE is."""

    def level(self) -> bool:
        return bool(self.it.read(layout.PX_IS, 4) & self.it.read(layout.PX_IE, 4))


class LineNever(Server):
    """The line is never asserted."""

    def level(self) -> bool:
        return False


class Fault(NamedTuple):
    """A fault, the places where it is found, and the rule of rules.py or alone.py under which."""

    name: str
    about: str
    server: Type[Server]
    places: Tuple[str, ...]
    rule: str


_PLACES: Dict[Type[Server], Tuple[str, ...]] = {
    NoCurrentSlot: ("PxCMD",), NotRunning: ("PxCMD",), NeverBusy: ("PxTFD",), NoErrorByte: ("PxTFD",), NoSignature: ("PxSIG",), NoPhyChange: ("PxSERR", "PxIS"),
    NoDhrs: ("PxIS",), ActiveIsIssued: ("PxSACT",), NoCommunication: ("PxSSTS",), HalfOfEnable: ("PxIE",), BytesAreWords: ("Px*", "GHC", "IS"), StatusIsAWord: ("PxIS",),
    ResetClearsBases: ("PxCLB", "PxFB"), StopsNever: ("PxCMD", "PxCI", "PxSACT"), RegisterFisBehind: ("D2H Register FIS", "rest of the FIS area"),
    HalfOfBitsFis: ("Set Device Bits FIS",), NoDmaSetup: ("DMA Setup FIS",), NoCount: ("PRDBC",), CountOfSectors: ("PRDBC",), WritesBehindData: ("memory beside", "data"),
    LineWithoutGlobalEnable: ("interrupt line",), LineNever: ("interrupt line",),
}
_PLACE, _COUNT = "a received FIS has its own place in the area", "PRDBC is the number of bytes that were moved"
_LINE = "the interrupt line is IS and GHC.IE"
_RULES: Dict[Type[Server], str] = {
    NoCurrentSlot: "CCS is the slot of the command that was issued last", NotRunning: "CR is 1 while the list runs, FR while FISes are received", NeverBusy: "BSY is 1 while a command is under way",
    NoErrorByte: "PxTFD has the status and the error of the last FIS", NoSignature: "PxSIG has the signature, and FFFFFFFFh until it comes", NoPhyChange: "DIAG.X is set by COMINIT, DIAG.N by PhyRdy",
    NoDhrs: "DHRS is set by a D2H Register FIS with I", ActiveIsIssued: "PxSACT keeps a tag until a Set Device Bits FIS names it", NoCommunication: "DET, SPD and IPM of PxSSTS show the link as it is",
    HalfOfEnable: "PxIE is what software writes", BytesAreWords: "an access writes the bytes that it has, and no others",
    StatusIsAWord: "bits of PxIS are cleared by a 1 that is written, and set by events alone",
    ResetClearsBases: "GHC.HR leaves PxCLB and PxFB", StopsNever: "ST, FRE, SUD and POD are what software writes", RegisterFisBehind: _PLACE,
    HalfOfBitsFis: "a Set Device Bits FIS has the tags that are done", NoDmaSetup: _PLACE, NoCount: _COUNT,
    CountOfSectors: _COUNT, WritesBehindData: "data go where the PRDT says, and nowhere else", LineWithoutGlobalEnable: _LINE, LineNever: _LINE,
}
FAULTS: List[Fault] = [Fault(it.__name__, (it.__doc__ or "").strip(), it, places, _RULES[it]) for it, places in _PLACES.items()]
