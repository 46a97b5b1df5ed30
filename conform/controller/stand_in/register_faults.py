"""Faults of registers, interrupts, resets and the link: each is one changed body."""
from ..layout import GHC, IS, PX_CLB, PX_FB, PX_IE, PX_IS, PX_SERR, PX_SIG, PX_SSTS, PX_TFD
from .hba import Hba


class StatusWrittenWhole(Hba):
    """PxIS becomes what is written to it."""

    def write_word(self, at: int, value: int) -> None:
        if at == PX_IS:
            self.words[PX_IS] = value & 0x7900000B
        else:
            super().write_word(at, value)


class ErrorsStayWithStatus(Hba):
    """Writing 1 to PCS or PRCS of PxIS clears DIAG.X or DIAG.N."""

    def write_word(self, at: int, value: int) -> None:
        super().write_word(at, value)
        if at == PX_IS:
            self.words[PX_SERR] &= ~((value >> 6 & 1) << 26 | (value >> 22 & 1) << 16)


class StatusFalls(Hba):
    """IS.IPS falls by itself once no enabled bit of PxIS is 1."""

    def work(self) -> None:
        super().work()
        self.words[IS] = int(bool(self.word(PX_IS) & self.words[PX_IE]))


class StatusIgnoresEnable(Hba):
    """IS.IPS is set by bits of PxIS that PxIE doesn't enable."""

    def work(self) -> None:
        super().work()
        self.words[IS] |= int(bool(self.word(PX_IS)))


class LineIgnoresEnable(Hba):
    """The line is IS, whatever GHC.IE is."""

    def level(self) -> bool:
        return bool(self.words[IS])


class LineFollowsPort(Hba):
    """The line is PxIS and PxIE, whatever IS is."""

    def level(self) -> bool:
        return bool(self.word(PX_IS) & self.words[PX_IE] and self.words[GHC] & 2)


class ResetKeepsEnable(Hba):
    """GHC.HR leaves GHC.IE."""

    def power_on(self) -> None:
        kept = self.words.get(GHC, 0) & 2
        super().power_on()
        self.words[GHC] |= kept


class ResetClearsBases(Hba):
    """GHC.HR clears PxCLB and PxFB."""

    def power_on(self) -> None:
        super().power_on()
        self.words.update({PX_CLB: 0, PX_FB: 0})


class ResetKeepsPortEnable(Hba):
    """GHC.HR leaves PxIE."""

    def power_on(self) -> None:
        kept = self.words.get(PX_IE, 0)
        super().power_on()
        self.words[PX_IE] = kept


class LinkSetsNoX(Hba):
    """A link that comes up doesn't set DIAG.X."""

    def link_up(self) -> None:
        kept = self.words[PX_SERR] & (1 << 26)
        super().link_up()
        self.words[PX_SERR] = self.words[PX_SERR] & ~(1 << 26) | kept


class LinkKeepsSignature(Hba):
    """COMRESET leaves PxSIG."""

    def link_down(self, state: int) -> None:
        kept = self.words[PX_SIG]
        super().link_down(state)
        self.words[PX_SIG] = kept


class OfflineIsPresent(Hba):
    """DET 4 shows nothing in PxSSTS."""

    def write_link(self, value: int) -> None:
        kept = self.words[PX_SSTS]
        super().write_link(value)
        if value & 15 == 4:
            self.words[PX_SSTS] = kept


class SignatureWithoutStatus(Hba):
    """The signature leaves the error byte 00h."""

    def send_signature(self) -> None:
        due = self.signature_due
        super().send_signature()
        if due and not self.signature_due:
            self.words[PX_TFD] &= 0xFF


class PartWritesClear(Hba):
    """A write of one byte of PxIE clears the other three."""

    def write(self, offset: int, size: int, value: int) -> None:
        if size < 4 and not offset % size and offset & ~3 == PX_IE:
            super().write(offset & ~3, 4, value << 8 * (offset & 3))
        else:
            super().write(offset, size, value)
