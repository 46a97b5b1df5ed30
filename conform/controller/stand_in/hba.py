"""The stand-in's port: its state machine and the data of its disk, by AHCI 1.3.1, chapters 4 to 6. It works only while it is called."""
import functools
from typing import Callable, List, Optional, Tuple

from .. import layout
from ..adapter import Died
from ..ata import Asked, asked
from ..layout import BSY, DRQ, ERR, FRE, IS, PX_CI, PX_CLB, PX_CLBU, PX_CMD, PX_IE, PX_IS, PX_SACT, PX_SSTS, PX_TFD, ST
from .disk import ABRT, BAD_STATUS, GOOD, MODES, POWER, UNC, Failure
from .registers import DHRS, DPS, HBFS, IFS, OFS, PSS, SDBS, TFES, Bad, Registers, Task


MOST_MOVES = 2000  # of one access


class Hba(Registers):
    """One controller with one port and its disk."""

    # ---- work ----

    def work(self) -> None:
        """All that can be done now: every command is taken before a queued one is served."""
        for _ in range(MOST_MOVES):
            self.send_signature()
            if self.post_due and self.words[PX_CMD] & FRE:
                self.post_due = False
                self.guard(lambda: self.post(0x40, self.signature_fis()))
            elif not (self.finish() or self.take() or self.serve()):
                break
        else:
            raise Died("the stand-in never comes to rest")
        if self.word(PX_IS) & self.words[PX_IE]:
            self.words[IS] |= 1

    def guard(self, act: Callable[[], None]) -> None:
        """Bad pointers are HBFS, a fatal error (section 6.2.1)."""
        try:
            act()
        except Bad:
            self.words[PX_IS] |= HBFS
            self.halted = True

    @property
    def runs(self) -> bool:
        return bool(self.words[PX_CMD] & ST) and not self.halted and not self.stuck and self.words[PX_SSTS] & 15 == 3

    def take(self) -> bool:
        """P:Idle to CFIS:Xmit (section 5.3): the next slot from behind the last one on."""
        taken = {*self.queue, *([self.waiting.slot] if self.waiting else [])}
        wanted = [slot for slot in range(32) if self.words[PX_CI] >> slot & 1 and slot not in taken]
        if not self.runs or not wanted or self.words[PX_TFD] & (BSY | DRQ):
            return False
        slot = next((it for it in wanted if it >= self.behind), wanted[0])
        self.behind = (slot + 1) % 32
        self.words[PX_CMD] = self.words[PX_CMD] & ~0x1F00 | slot << 8
        self.guard(lambda: self.send(self.fetch(slot)))
        return True

    def fetch(self, slot: int) -> Task:
        header = (self.words[PX_CLB] | self.words[PX_CLBU] << 32) + 32 * slot
        head = self.get(header, 32)
        table = int.from_bytes(head[8:16], "little") & ~0x7F
        fis = self.get(table, 20)
        flags = head[0] | head[1] << 8
        wants = asked(fis)
        runs: List[Tuple[int, int]] = []
        interrupts: List[bool] = []
        left = layout.SECTOR * wants.count if wants.moves else layout.SECTOR if wants.kind == "page" else 0
        for number in range(head[2] | head[3] << 8 if left else 0):
            entry = self.get(table + 0x80 + 16 * number, 16)
            runs.append((int.from_bytes(entry[:8], "little") & ~1, self.length(entry)))
            interrupts.append(bool(entry[15] & 0x80))
            left -= runs[-1][1]
            if left <= 0:
                break
        return Task(slot, header, fis, flags, runs, interrupts, wants)

    def length(self, entry: bytes) -> int:
        return (int.from_bytes(entry[12:16], "little") & 0x3FFFFF | 1) + 1

    def send(self, task: Task) -> None:
        """CFIS:Xmit and CFIS:Success (section 5.3.5)."""
        if task.fis[0] != 0x27 or task.flags & 0x1F != 5 or task.flags & 0x220:
            self.words[PX_IS] |= IFS
            self.halted = True
            return
        if task.flags & 0x400:
            self.words[PX_CI] &= ~(1 << task.slot)
        else:
            self.words[PX_TFD] |= BSY
        if task.asked.kind == "control":
            self.control(task)
        elif task.asked.write and sum(length for _, length in task.runs) < layout.SECTOR * task.asked.count:
            self.stuck = True
        else:
            self.waiting = task

    def control(self, task: Task) -> None:
        """A software reset (section 10.4.1): SRST 1, and then SRST 0."""
        if task.fis[15] & 4:
            self.in_reset = True
            self.queue.clear()
            self.signature_due = False
        elif self.in_reset:
            self.in_reset = False
            self.drive.failed = None
            self.signature_due, self.reset_slot = True, task.slot

    # ---- the disk's side ----

    def finish(self) -> bool:
        """The command that was sent last is answered, once FRE is 1 (section 3.3.7, FRE)."""
        task = self.waiting
        if task is None or not self.words[PX_CMD] & FRE or not self.runs:
            return False
        if task.asked.kind != "queued" and task.slot in self.held:
            return False
        self.waiting = None
        self.guard(functools.partial(self.answer, task))
        return True

    def answer(self, task: Task) -> None:
        it, code = task.asked, task.fis[2]
        if self.drive.failed is not None and code not in (0x2F, 0x47) or self.queue and it.kind != "queued":
            self.drop_queue()
            self.register_fis(task, ABRT)
        elif it.kind == "queued":
            self.accept(task)
        elif it.kind == "pio":
            self.pio(task)
        elif it.kind in ("dma", "verify"):
            self.dma(task)
        elif it.kind == "page":
            self.page(task)
        else:
            self.no_data(task, code)

    def drop_queue(self) -> None:
        self.queue.clear()

    def accept(self, task: Task) -> None:
        failure = self.drive.failure(task.asked)
        if failure and failure.error != UNC:
            self.drop_queue()
            self.drive.fail_queue(task.slot, failure)
            self.register_fis(task, failure.error, failure.lba)
            return
        self.queue[task.slot] = task
        self.receive(task.slot, bytes([0x34, 0, GOOD, 0]) + bytes(16))

    def serve(self) -> bool:
        """The lowest queued command that isn't held: DMA Setup, data, Set Device Bits."""
        ready = sorted(slot for slot in self.queue if slot not in self.held)
        if not ready or not self.runs or not self.words[PX_CMD] & FRE:
            return False
        self.guard(lambda: self.serve_one(self.queue.pop(ready[0])))
        return True

    def serve_one(self, task: Task) -> None:
        it, failure = task.asked, self.drive.failure(task.asked)
        if failure is None or not it.write and failure.lba > it.lba:
            self.post(0x00, bytes([0x41, 0 if it.write else 0x20, 0, 0, task.slot]) + bytes(15) + self.moved(it, failure).to_bytes(4, "little") + bytes(4))
        if not it.write:
            self.scatter(task, self.drive.read(it.lba, (failure.lba if failure else it.lba + it.count) - it.lba))
        if failure:
            self.queue.clear()
            self.drive.fail_queue(task.slot, failure._replace(lba=it.lba if it.write else failure.lba))
            self.bits_fis(BAD_STATUS, failure.error, 0)
            return
        if it.write:
            self.drive.write(it.lba, self.gather(task))
            self.process(task, 0, layout.SECTOR * it.count)
        self.bits_fis(GOOD, 0, 1 << task.slot)

    def moved(self, it: Asked, failure: Optional[Failure]) -> int:
        """The transfer count of a DMA Setup FIS: the command's whole length."""
        return layout.SECTOR * it.count

    def dma(self, task: Task) -> None:
        it, failure = task.asked, self.drive.failure(task.asked)
        moved = b""
        if it.kind == "dma" and not it.write:
            moved = self.drive.read(it.lba, (failure.lba if failure else it.lba + it.count) - it.lba)
            self.scatter(task, moved)
        elif it.kind == "dma" and not failure:
            moved = self.gather(task)
            self.drive.write(it.lba, moved)
            self.process(task, 0, len(moved))
        if it.kind == "dma" and moved:
            self.count(task, len(moved))
        if failure:
            self.register_fis(task, failure.error, it.lba if it.write else failure.lba)
        else:
            self.register_fis(task)

    def pio(self, task: Task) -> None:
        """Serial ATA, PIO protocols: a PIO Setup FIS for each sector."""
        it, failure = task.asked, self.drive.failure(task.asked)
        data = self.gather(task) if it.write else b""
        last = failure.lba if failure and not it.write else it.lba + it.count
        for lba in range(it.lba, it.lba if failure and it.write and failure.lba == it.lba else last):
            if it.write and failure:
                break
            ends = 0xC0 if it.write or lba + 1 < it.lba + it.count else GOOD
            self.pio_setup(task, not it.write, ends, it.write and lba == it.lba)
            if not it.write:
                self.block(task, self.drive.read(it.lba, lba + 1 - it.lba))
            else:
                self.process(task, layout.SECTOR * (lba - it.lba), layout.SECTOR * (lba + 1 - it.lba))
            self.end_pio(task, ends, it.write and lba == it.lba)
        if it.write and not failure:
            self.drive.write(it.lba, data)
            self.count(task, len(data))
        if failure:
            self.register_fis(task, failure.error, it.lba if it.write else failure.lba)
        elif it.write:
            self.register_fis(task)

    def block(self, task: Task, data: bytes) -> None:
        """The data so far: only its last sector is new."""
        self.scatter(task, data, len(data) - layout.SECTOR)
        self.count(task, len(data))

    def pio_setup(self, task: Task, to_host: bool, ends: int, first: bool) -> None:
        self.post(0x20, bytes([0x5F, (0x20 if to_host else 0) | (0 if first else 0x40), 0x48, 0]) + bytes(11) + bytes([ends, 0, 2, 0, 0]))
        self.words[PX_TFD] = 0x48

    def end_pio(self, task: Task, ends: int, first: bool) -> None:
        """PIO:Update to PIO:GenIntr (section 5.3)."""
        self.words[PX_TFD] = ends
        if not ends & (BSY | DRQ | ERR):
            self.words[PX_CI] &= ~(1 << task.slot)
        self.words[PX_IS] |= 0 if first else PSS

    def page(self, task: Task) -> None:
        data = self.drive.identify() if task.fis[2] == 0xEC else self.drive.log(task.fis)
        if data is None:
            self.register_fis(task, ABRT)
        elif task.fis[2] == 0x47:
            self.scatter(task, data)
            self.count(task, len(data))
            self.register_fis(task)
        else:
            for end in range(layout.SECTOR, len(data) + 1, layout.SECTOR):
                ends = GOOD if end == len(data) else 0xC0
                self.pio_setup(task, True, ends, False)
                self.block(task, data[:end])
                self.end_pio(task, ends, False)

    def no_data(self, task: Task, code: int) -> None:
        last = (layout.SECTORS - 1).to_bytes(6, "little")
        if code in (0xE7, 0xEA, *POWER) or code == 0xEF and task.fis[3] == 3 and task.fis[12] in MODES:
            self.register_fis(task)
        elif code == 0xE5:
            self.d2h(task, GOOD, 0, bytes(6), 0xFF)
        elif code in (0xF8, 0x27):
            self.d2h(task, GOOD, 0, last, 0)
        elif code == 0x90:
            self.d2h(task, GOOD, 1, b"\x01" + bytes(5), 1)
        elif code == 0xA1:
            self.d2h(task, BAD_STATUS, ABRT, b"\x01" + bytes(5), 1)
        else:
            self.register_fis(task, ABRT)

    # ---- FISes ----

    def register_fis(self, task: Task, error: int = 0, lba: int = 0) -> None:
        self.d2h(task, BAD_STATUS if error else GOOD, error, lba.to_bytes(6, "little"), 0)

    def d2h(self, task: Task, status: int, error: int, lba: bytes, count: int) -> None:
        self.receive(task.slot, bytes([0x34, 0x40, status, error]) + lba[:3] + b"\0" + lba[3:] + b"\0" + bytes([count]) + bytes(7))

    def receive(self, slot: int, fis: bytes) -> None:
        """RegFIS:Entry to RegFIS:GenIntr (section 5.3)."""
        self.post(0x40, fis)
        self.words[PX_TFD] = fis[3] << 8 | fis[2]
        if fis[2] & ERR:
            self.fail_task()
        elif not fis[2] & (BSY | DRQ):
            self.words[PX_CI] &= ~(1 << slot)
        self.words[PX_IS] |= DHRS if fis[1] & 0x40 else 0

    def bits_fis(self, status: int, error: int, tags: int) -> None:
        self.post(0x58, bytes([0xA1, 0x40, status, error]) + tags.to_bytes(4, "little"))
        self.words[PX_TFD] = error << 8 | self.words[PX_TFD] & 0x88 | status & 0x77
        self.words[PX_SACT] &= ~tags
        self.words[PX_IS] |= SDBS
        if status & ERR:
            self.fail_task()

    def fail_task(self) -> None:
        """ERR:FatalTaskfile (section 6.2.2): no command is processed until ST is cleared."""
        self.words[PX_IS] |= TFES
        self.halted = True

    # ---- memory ----

    def count(self, task: Task, sent: int) -> None:
        """PRDBC: what was moved of so many bytes."""
        moved = min(sent, sum(length for _, length in task.runs))
        self.put(task.header + 4, moved.to_bytes(4, "little"))

    def scatter(self, task: Task, data: bytes, after: int = 0) -> None:
        """Data into the runs of the PRDT; those before `after` are there already. Data without room are dropped: OFS, which is not fatal (section 6.1.5)."""
        at = 0
        for address, length in task.runs:
            part = data[at : at + length]
            skip = min(max(0, after - at), len(part))
            if part[skip:]:
                self.put(address + skip, part[skip:])
            at += length
        if at < len(data):
            self.words[PX_IS] |= OFS
        self.process(task, after, len(data))

    def process(self, task: Task, after: int, end: int) -> None:
        """Data have moved up to a byte: DPS if the last one of an entry with I is new among them (sections 3.3.5 and 4.2.3.3)."""
        at = 0
        for (_, length), interrupt in zip(task.runs, task.interrupts):
            at += length
            self.words[PX_IS] |= DPS if interrupt and after < at <= end else 0

    def gather(self, task: Task) -> bytes:
        return b"".join(self.get(address, length) for address, length in task.runs)[: layout.SECTOR * task.asked.count]
