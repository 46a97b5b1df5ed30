"""What a command FIS asks for (ACS-3; Serial ATA, Register - Host to Device)."""
from typing import Dict, NamedTuple, Tuple

# code: its name, how its data go, and whether its LBA has 28 bits (None: it has no sectors)
COMMANDS: Dict[int, Tuple[str, str, object]] = {
    0x60: ("READ FPDMA QUEUED", "queued", False), 0x61: ("WRITE FPDMA QUEUED", "queued", False),
    0xC8: ("READ DMA", "dma", True), 0xCA: ("WRITE DMA", "dma", True), 0x25: ("READ DMA EXT", "dma", False), 0x35: ("WRITE DMA EXT", "dma", False),
    0x20: ("READ SECTOR(S)", "pio", True), 0x30: ("WRITE SECTOR(S)", "pio", True), 0x24: ("READ SECTOR(S) EXT", "pio", False), 0x34: ("WRITE SECTOR(S) EXT", "pio", False),
    0x40: ("READ VERIFY SECTOR(S)", "verify", True), 0x42: ("READ VERIFY SECTOR(S) EXT", "verify", False),
    0xEC: ("IDENTIFY DEVICE", "page", None), 0x2F: ("READ LOG EXT", "page", None), 0x47: ("READ LOG DMA EXT", "page", None),
    0xA1: ("IDENTIFY PACKET DEVICE", "none", None), 0xE7: ("FLUSH CACHE", "none", None), 0xEA: ("FLUSH CACHE EXT", "none", None), 0xEF: ("SET FEATURES", "none", None),
    0xE0: ("STANDBY IMMEDIATE", "none", None), 0xE1: ("IDLE IMMEDIATE", "none", None), 0xE2: ("STANDBY", "none", None), 0xE3: ("IDLE", "none", None),
    0xE5: ("CHECK POWER MODE", "none", None), 0xF8: ("READ NATIVE MAX ADDRESS", "none", None), 0x27: ("READ NATIVE MAX ADDRESS EXT", "none", None),
    0x90: ("EXECUTE DEVICE DIAGNOSTIC", "none", None),
}
WRITES = frozenset((0x61, 0xCA, 0x35, 0x30, 0x34))


class Asked(NamedTuple):
    """A command FIS as a disk reads it."""

    kind: str  # queued, dma, pio, verify, page, none, control; other: a command that isn't in the table
    lba: int = 0
    count: int = 0  # type: ignore[assignment]
    write: bool = False
    code: int = 0

    @property
    def sectors(self) -> range:
        """The sectors that it reads, writes or verifies."""
        return range(self.lba, self.lba + self.count)

    @property
    def moves(self) -> bool:
        return self.kind in ("queued", "dma", "pio")

    def first_of(self, bad: range, disk: int) -> int:
        """Its first sector that is bad or not on the disk; -1 if there is none."""
        if not self.count:
            return -1
        passed = max(self.lba, disk) if self.lba + self.count > disk else -1
        inside = max(self.lba, bad.start)
        failing = inside if inside < min(self.lba + self.count, bad.stop) else -1
        return min((it for it in (passed, failing) if it >= 0), default=-1)


def asked(fis: bytes) -> Asked:
    """The first 20 bytes of a command table."""
    fis = fis.ljust(20, b"\0")
    if not fis[1] & 0x80:
        return Asked("control")
    code, count = fis[2], fis[12] | fis[13] << 8
    low = fis[4] | fis[5] << 8 | fis[6] << 16
    _, kind, short = COMMANDS.get(code, ("", "other", None))
    if kind == "queued":
        return Asked(kind, low | fis[8] << 24 | fis[9] << 32 | fis[10] << 40, (fis[3] | fis[11] << 8) or 65_536, code in WRITES, code)
    if short is None:
        return Asked(kind, code=code)
    if short:
        return Asked(kind, low | (fis[7] & 15) << 24, count & 255 or 256, code in WRITES, code)
    return Asked(kind, low | fis[8] << 24 | fis[9] << 32 | fis[10] << 40, count or 65_536, code in WRITES, code)


def title(fis: bytes) -> str:
    """A command in words."""
    it = asked(fis)
    if it.kind == "control":
        return "control FIS, SRST " + ("1" if fis.ljust(16, b"\0")[15] & 4 else "0")
    name = COMMANDS.get(it.code, (f"command {it.code:02X}h", "", None))[0]
    if not it.count:
        return name
    return f"{name}, {it.count} sector{'s' if it.count > 1 else ''} from {it.lba}"
