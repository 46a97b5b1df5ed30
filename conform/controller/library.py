"""The library's controller as one to be judged: its memory, and the order of its steps as the caller chooses it."""
import ctypes
import os
import sys
from typing import Dict, FrozenSet, List, Optional, Sequence, Set, Tuple

from judge.adapter import EmulatorFault

from . import layout
from .adapter import Controller
from .ata import Asked, asked

TOP = os.path.dirname(os.path.dirname(os.path.dirname(os.path.abspath(__file__))))
sys.path.insert(0, os.path.join(TOP, "python"))
BUILT = os.path.join(TOP, "c", "out", "libahci.so.0")
if "AHCI_LIBRARY" not in os.environ and os.path.exists(BUILT):
    os.environ["AHCI_LIBRARY"] = BUILT

from ahci import Step, Want  # noqa: E402
from ahci.hba import Hba  # noqa: E402
from ahci.library import loaded  # noqa: E402

UNC = 0x40
MOST_STEPS = 200_000
HOST_DOUBLES = -(-layout.HOST_BYTES // 8)
DOUBLES = (*range(0, layout.HOST_BYTES, 8), *range(layout.PORT_BASE, layout.PORT_BASE + layout.PORT_BYTES, 8))
REFUSABLE = ((Step.SEND, "dma"), (Step.SEND, "pio"), (Step.EXECUTE, "verify"))  # where a command that isn't queued meets a bad sector


def needed() -> None:
    """Raises a fault if there is no library."""
    try:
        loaded()
    except OSError as why:
        raise EmulatorFault(f"the library isn't built ({why}): make -C c, or AHCI_LIBRARY=FILE") from why


class Library(Controller):
    """One controller of the library. `settle` does all that it can do: every command is taken before a queued one is served."""

    title = "the model"
    can_hold = True

    def __init__(self) -> None:
        self.hba: Optional[Hba] = None
        self.order: Sequence[int] = ()  # of the slots whose queued commands are served first
        self.held: FrozenSet[int] = frozenset()

    def start(self) -> None:
        needed()
        self.ram = bytearray(2 * layout.MEMORY)
        self.copies: Dict[layout.Part, bytes] = {}  # of the parts that are looked at, as long as nothing in them changes

    def stop(self) -> None:
        if self.hba:
            self.hba.free()
            self.hba = None

    @property
    def it(self) -> Hba:
        assert self.hba
        return self.hba

    def reset(self, image: bytes) -> None:
        self.stop()
        self.hba = Hba(image, 32)
        self.image, self.dirty = image, set()  # type: bytes, Set[int]
        self.fises: Dict[int, bytes] = {}  # by slot: the command FIS that was read last
        self.fetching, self.reads = -1, 0
        self.log: List[str] = []  # what it did since the last operation
        self.choice: Tuple[int, ...] = ()  # slots that could have been served in another order
        self.order, self.held = (), frozenset()
        self.settle()

    def read(self, offset: int, size: int) -> int:
        return self.it.read(offset, size)

    def write(self, offset: int, size: int, value: int) -> None:
        if offset == layout.PX_CMD and not value & layout.ST or offset == layout.PX_SCTL or offset == layout.GHC and value & 1:
            self.held = frozenset()  # what is held is dropped with its command
        self.it.write(offset, value, size)

    def level(self) -> bool:
        return self.it.look().interrupt

    def get(self, address: int, length: int) -> bytes:
        """A part that is looked at is copied again only if something in it was written."""
        part = layout.Part(address, length)
        if part in self.copies:
            return self.copies[part]
        at = layout.place(address, length)
        assert at is not None
        found = bytes(memoryview(self.ram)[at : at + length])
        if part in layout.PARTS:
            self.copies[part] = found
        return found

    def put(self, address: int, data: bytes) -> None:
        at = layout.place(address, len(data))
        assert at is not None
        memoryview(self.ram)[at : at + len(data)] = data
        for part in layout.PARTS:
            if part.base < address + len(data) and address < part.base + part.bytes:
                self.copies.pop(part, None)

    def disk(self) -> bytes:
        """Only sectors of commands that may have written since are copied."""
        if self.dirty:
            image = bytearray(self.image)
            for lba in self.dirty:
                image[lba * layout.SECTOR : (lba + 1) * layout.SECTOR] = self.it.copy(lba)
            self.image, self.dirty = bytes(image), set()
        return self.image

    def idle(self) -> None:
        self.settle()

    def hold(self, slot: int, way: str) -> None:
        self.held |= {slot}

    def go(self, slot: int) -> None:
        self.held -= {slot}

    def registers(self) -> Tuple[bytes, bytes]:
        """By the library's own call, without what the package does around each: a look is mostly this."""
        read, place, word = loaded().ahci_hba_read, ctypes.byref(self.it._place), ctypes.c_uint64()
        found = []
        for at in DOUBLES:
            if read(place, at, 8, ctypes.byref(word)):
                raise EmulatorFault(f"the library refuses a read of 8 bytes at {at:03x}")
            found.append(word.value.to_bytes(8, "little"))
        return b"".join(found[:HOST_DOUBLES])[: layout.HOST_BYTES], b"".join(found[HOST_DOUBLES:])

    # ---- its steps ----

    def settle(self) -> None:
        self.choice = ()
        for _ in range(MOST_STEPS):
            look = self.it.look()
            if look.want:
                self.move(look.want, look.address, look.length)
            elif look.sign:
                if not self.sign():
                    return
            elif not self.step(look.next):
                return
        raise EmulatorFault("the model doesn't come to rest")

    def move(self, want: Want, address: int, length: int) -> None:
        at = layout.place(address, length)
        if at is None:
            self.it.unmapped()
            self.log.append("unmapped")
        elif want == Want.READ:
            data = bytes(self.ram[at : at + length])
            if self.fetching >= 0:
                self.reads += 1
                if self.reads == 2:  # the header comes first
                    self.fises[self.fetching], self.fetching = data, -1
            self.it.supply(data)
        else:
            self.put(address, self.it.bytes())
            self.it.written()

    def sign(self) -> bool:
        """The signature. False: its address is no memory, and it is due again."""
        self.it.sign()
        self.log.append("sign")
        while True:
            look = self.it.look()
            if not look.want:
                return not look.sign
            self.move(look.want, look.address, look.length)

    def asked(self, slot: int) -> Asked:
        return asked(self.fises[slot]) if slot in self.fises else Asked("other")

    def ready(self, steps: Sequence[Step]) -> Optional[Tuple[int, Step]]:
        """The next step: of the queued commands that wait to be served the first by `order`, once nothing else is left."""
        waiting = []
        for slot, step in enumerate(steps):
            if step == Step.SERVE and slot in self.held:
                continue
            if step == Step.SERVE and self.asked(slot).kind == "queued":
                waiting.append(slot)
            elif step:
                return slot, step
        if not waiting:
            return None
        if len(waiting) > max(1, len(self.choice)):
            self.choice = tuple(waiting)
        return next((it for it in self.order if it in waiting), waiting[0]), Step.SERVE

    def step(self, steps: Sequence[Step]) -> bool:
        found = self.ready(steps)
        if found is None:
            return False
        slot, step = found
        if step == Step.FETCH:
            self.fetching, self.reads = slot, 0
        self.log.append(f"{step.name.lower()} {slot}")
        it = self.asked(slot)
        if it.write:
            self.dirty.update(range(it.lba, min(it.lba + it.count, layout.SECTORS)))
        failing = it.first_of(layout.BAD, layout.SECTORS)
        if failing in layout.BAD and step == Step.SERVE and it.kind == "queued":
            self.it.fail(slot, UNC, failing)
        elif failing in layout.BAD and (step, it.kind) in REFUSABLE:
            self.it.refuse(slot, UNC, failing)
        else:
            self.it.step(slot)
        return True

