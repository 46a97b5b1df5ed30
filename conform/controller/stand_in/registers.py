"""The stand-in's registers, resets and link, by AHCI 1.3.1, chapters 3 and 10."""
from typing import Dict, List, NamedTuple, Optional, Set, Tuple

from .. import layout
from ..adapter import Controller
from ..ata import Asked
from ..layout import BSY, DRQ, FRE, GHC, IS, PX_CI, PX_CLB, PX_CLBU, PX_CMD, PX_FB, PX_FBU, PX_IE, PX_IS, PX_SACT, PX_SCTL, PX_SERR, PX_SIG, PX_SSTS, PX_TFD, ST
from .disk import Disk

CAP, PI, VS = 0x00, 0x0C, 0x10
CLO, SUD, POD, FR, CR = 0x8, 0x2, 0x4, 0x4000, 0x8000
DHRS, PSS, SDBS, DPS, OFS, IFS, HBFS, TFES = 0x1, 0x2, 0x8, 0x20, 1 << 24, 1 << 27, 1 << 29, 1 << 30
DIAG_X, DIAG_W, DIAG_N = 1 << 26, 1 << 18, 1 << 16
CONSTANT = {CAP: 0xC1249F00, PI: 1, VS: 0x00010301}
CLEARED_BY_ONE, SET_BY_ONE = (IS, PX_IS, PX_SERR), (PX_SACT, PX_CI)
WRITABLE = {PX_CLB: 0xFFFFFC00, PX_CLBU: 0xFFFFFFFF, PX_FB: 0xFFFFFF00, PX_FBU: 0xFFFFFFFF, PX_IE: 0x7DC0007F, PX_SCTL: 0xFFFFF, PX_CMD: 0x03000011}
ABSENT, SIGNATURE = 0x7F, 0x00000101


class Bad(Exception):
    """An address is no memory."""


class Task(NamedTuple):
    """A command that was fetched."""

    slot: int
    header: int
    fis: bytes
    flags: int
    runs: List[Tuple[int, int]]
    interrupts: List[bool]  # I of each
    asked: Asked


class Registers(Controller):
    """What a driver reads and writes. `work` is the port's state machine."""

    title = "the stand-in"
    can_hold = True

    # ---- what an adapter has ----

    def start(self) -> None:
        self.ram = bytearray(2 * layout.MEMORY)
        self.reset(bytes(layout.SECTORS * layout.SECTOR))

    def stop(self) -> None:
        self.ram = bytearray()

    def reset(self, image: bytes) -> None:
        self.words: Dict[int, int] = {PX_CLB: 0, PX_CLBU: 0, PX_FB: 0, PX_FBU: 0}
        self.drive = Disk(image)
        self.held: Set[int] = set()  # slots whose requests are held in the disk
        self.power_on()
        self.work()

    def level(self) -> bool:
        return bool(self.words[IS] and self.words[GHC] & 2)

    def get(self, address: int, length: int) -> bytes:
        at = layout.place(address, length)
        if at is None:
            raise Bad
        return bytes(self.ram[at : at + length])

    def put(self, address: int, data: bytes) -> None:
        at = layout.place(address, len(data))
        if at is None:
            raise Bad
        self.ram[at : at + len(data)] = data

    def disk(self) -> bytes:
        return bytes(self.drive.image)

    def hold(self, slot: int, way: str) -> None:
        self.held.add(slot)

    def go(self, slot: int) -> None:
        self.held.discard(slot)
        self.work()

    # ---- resets and the link ----

    def power_on(self) -> None:
        """GHC.HR and power-on (sections 3.1.2, 10.4.3): the bases stay."""
        bases = {at: self.words[at] for at in (PX_CLB, PX_CLBU, PX_FB, PX_FBU)}
        self.words = {**CONSTANT, GHC: 0x80000000, IS: 0, PX_IS: 0, PX_IE: 0, PX_CMD: SUD | POD, PX_TFD: ABSENT, PX_SIG: 0xFFFFFFFF, PX_SSTS: 0, PX_SCTL: 0, PX_SERR: 0, PX_SACT: 0, PX_CI: 0, **bases}
        self.drop()
        self.link_up()

    def drop(self) -> None:
        """No command is left (section 3.3.7, ST)."""
        self.queue: Dict[int, Task] = {}
        self.held = set()
        self.waiting: Optional[Task] = None  # a command that isn't queued, and is held in the disk
        self.halted = self.stuck = False
        self.behind = 0  # the slot that has the highest priority
        self.words[PX_SACT] = self.words[PX_CI] = 0

    def link_down(self, state: int) -> None:
        was_up = self.words[PX_SSTS] & 15 == 3
        self.drop()
        self.words.update({PX_SSTS: state, PX_TFD: ABSENT, PX_SIG: 0xFFFFFFFF})
        self.signature_due = self.post_due = self.in_reset = False
        self.words[PX_SERR] |= DIAG_N if was_up else 0

    def link_up(self) -> None:
        """The device answers with its signature (section 10.4.2; Serial ATA, COMRESET)."""
        limit = self.words[PX_SCTL] >> 4 & 15
        self.words[PX_SSTS] = 0x103 | (limit if limit in (1, 2) else 2) << 4
        self.words[PX_TFD] = 0x80
        self.words[PX_SERR] |= DIAG_X | DIAG_W | DIAG_N
        self.signature_due, self.post_due, self.in_reset = True, False, False
        self.reset_slot: Optional[int] = None
        self.drive.failed = None

    def signature_fis(self) -> bytes:
        return bytes([0x34, 0, 0x50, 1, 1, 0, 0, 0, 0, 0, 0, 0, 1]) + bytes(7)

    def send_signature(self) -> None:
        """P:RegFisUpdate and RegFIS:UpdateSig (section 5.3): with ST 0 at any FRE, else while FRE is 1."""
        if not self.signature_due or self.words[PX_CMD] & (ST | FRE) == ST or self.halted:
            return
        if self.words[PX_CMD] & FRE:
            try:
                self.post(0x40, self.signature_fis())
            except Bad:
                self.words[PX_IS] |= HBFS
                return
        else:
            self.post_due = True
        self.signature_due = False
        self.words[PX_TFD], self.words[PX_SIG] = 0x0150, SIGNATURE
        if self.reset_slot is not None:
            self.words[PX_CI] &= ~(1 << self.reset_slot)
            self.reset_slot = None

    def work(self) -> None:
        """All that can be done now."""
        raise NotImplementedError

    def post(self, offset: int, fis: bytes) -> None:
        """A FIS into the received FIS area (section 4.2.1)."""
        self.put((self.words[PX_FB] | self.words[PX_FBU] << 32) + offset, fis)

    # ---- registers ----

    def word(self, at: int) -> int:
        value = self.words.get(at, 0)
        if at == PX_CMD:
            return value | (FR if value & FRE else 0) | (CR if value & ST else 0)
        if at == PX_IS:
            errors = self.words[PX_SERR]
            return value | (0x40 if errors & DIAG_X else 0) | (0x400000 if errors & DIAG_N else 0)
        return value

    def read(self, offset: int, size: int) -> int:
        if offset % size:
            return 0
        if size == 8:
            return self.word(offset) | self.word(offset + 4) << 32
        return self.word(offset & ~3) >> 8 * (offset & 3) & (1 << 8 * size) - 1

    def write(self, offset: int, size: int, value: int) -> None:
        if offset % size:
            return
        for at in (offset,) if size <= 4 else (offset, offset + 4):
            word = value >> 8 * (at - offset) & 0xFFFFFFFF
            if size < 4:
                base, shift = offset & ~3, 8 * (offset & 3)
                rest = 0 if base in CLEARED_BY_ONE + SET_BY_ONE else self.word(base) & ~((1 << 8 * size) - 1 << shift)
                at, word = base, rest | word << shift
            self.write_word(at, word)
            self.work()

    def write_word(self, at: int, value: int) -> None:
        running = self.words[PX_CMD]
        if at == GHC:
            if value & 1:
                self.power_on()
            else:
                self.words[GHC] = 0x80000000 | value & 2
        elif at in CLEARED_BY_ONE:
            self.words[at] &= ~value
        elif at in SET_BY_ONE:
            self.words[at] |= value if running & ST else 0
        elif at == PX_CMD:
            self.write_command(value)
        elif at == PX_SCTL:
            self.write_link(value)
        elif at in WRITABLE and not (at in (PX_CLB, PX_CLBU) and running & ST or at in (PX_FB, PX_FBU) and running & FRE):
            self.words[at] = value & WRITABLE[at]

    def write_command(self, value: int) -> None:
        before = self.words[PX_CMD]
        self.words[PX_CMD] = before & ~WRITABLE[PX_CMD] | value & WRITABLE[PX_CMD]
        if value & CLO:
            self.words[PX_TFD] &= ~(BSY | DRQ)
        if before & ST and not value & ST:
            self.drop()
            self.words[PX_CMD] &= ~0x1F00

    def write_link(self, value: int) -> None:
        before = self.words[PX_SCTL] & 15
        self.words[PX_SCTL] = value & WRITABLE[PX_SCTL]
        after = value & 15
        if after in (1, 4) and self.words[PX_SSTS] & 15 != {1: 0, 4: 4}[after]:
            self.link_down({1: 0, 4: 4}[after])
        elif after == 0 and before != 0 and self.words[PX_SSTS] & 15 != 3:
            self.link_up()
