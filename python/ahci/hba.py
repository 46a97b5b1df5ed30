"""A controller with one port and its NCQ disk, as a driver finds it.

    hba = Hba(bytes(512 * 64), depth=32)
    hba.write(Register.PXCMD, 0x10)   # FRE
    hba.run(memory)                   # the disk sends its signature into the driver's memory
    hba.read(Register.PXSIG)          # 0x101

The driver's memory is the caller's: `look` returns which run of bytes the controller reads or writes next. `run` moves them in a
`bytearray` or another writable buffer that begins at address 0.
"""
from __future__ import annotations

import builtins
import ctypes
import mmap
from typing import List, Optional, Tuple, Union

from .library import Bytes, Owner, fits, given
from .names import DeviceKind, InterfaceError, Rule, Step, Want
from .prototypes import HbaCapabilitiesStruct, HbaPlace, HbaStateStruct, IdentityStruct, u32, u64
from .records import Capabilities, Entry, Identity, Look, State

Memory = Union[bytearray, memoryview, mmap.mmap]
_STEPS = tuple(Step)  # by number


def _text(text: str, name: str, characters: int) -> builtins.bytes:
    """A text as IDENTIFY DEVICE has it, filled up with spaces. A character that is no ASCII is none that the library takes."""
    spelt = text.encode("ascii", "replace") if text.isascii() else b"\x7f"
    if len(spelt) > characters:
        raise ValueError(f"{name} has more than {characters} characters")
    return spelt.ljust(characters)


def _named(identity: Identity) -> IdentityStruct:
    """What names a disk, as the library takes it."""
    made = IdentityStruct()
    for name, text, characters in (("serial", identity.serial, 20), ("firmware", identity.firmware, 8), ("model", identity.model, 40)):
        ctypes.memmove(getattr(made, name), _text(text, name, characters), characters)
    made.rotation = fits(identity.rotation, 32, "rotation")
    return made


class Hba(Owner):
    """A controller, which is freed with its object, or by `free`, or at the end of a `with`. Threads may share it."""

    _prefix = "hba"

    def __init__(self, image: Bytes, depth: int, capabilities: Capabilities = Capabilities()) -> None:
        """After power-on, in front of a disk with a copy of an image of whole sectors. The controller can do what `capabilities` says."""
        super().__init__(HbaPlace())
        words = HbaCapabilitiesStruct(*(fits(it, 32, name) for name, it in zip(capabilities._fields, capabilities)))
        self._call("new_with", *given(image), fits(depth, 32, "depth"), ctypes.byref(words))

    @classmethod
    def over(cls, base: Bytes, sectors: int, depth: int, capabilities: Capabilities = Capabilities()) -> "Hba":
        """In front of a disk over a base, as `Port.over` has it."""
        made = cls.__new__(cls)
        Owner.__init__(made, HbaPlace())
        where, count = made._base = given(base)
        words = HbaCapabilitiesStruct(*(fits(it, 32, name) for name, it in zip(capabilities._fields, capabilities)))
        made._call("over", where, count, fits(sectors, 32, "sectors"), fits(depth, 32, "depth"), ctypes.byref(words))
        return made

    def __enter__(self) -> "Hba":
        return self

    def read(self, offset: int, size: int = 4) -> int:
        """What a driver reads at an offset of the registers, in 1, 2, 4 or 8 bytes."""
        return self._number("read", u64, fits(offset, 32, "offset"), fits(size, 32, "size"))

    def write(self, offset: int, value: int, size: int = 4) -> int:
        """Takes what a driver writes there. Returns how many entries the journal had, if the write discarded it."""
        return self._number("write", u64, fits(offset, 32, "offset"), fits(size, 32, "size"), fits(value, 64, "value"))

    def write_breaks(self, rule: Rule, offset: int, word: int) -> bool:
        """Whether a word that a driver is about to write at an offset breaks a rule."""
        return bool(self._number("write_breaks", u32, rule, fits(offset, 32, "offset"), fits(word, 32, "word")))

    def power_on(self) -> int:
        """Power-on, as by a reset of the machine or of the PCI function: as a new controller with the same capabilities, over the disk as it is. Returns
        what `write` does."""
        return self._number("power_on", u64)

    def identity(self, identity: Identity) -> None:
        """What IDENTIFY DEVICE names the disk from now on."""
        self._call("identity", ctypes.byref(_named(identity)))

    def write_cache(self, supported: bool) -> None:
        """The disk has a volatile write cache, which is enabled from now on, or it has none."""
        self._call("write_cache", int(supported))

    @property
    def write_cache_enabled(self) -> bool:
        """Whether the disk has a volatile write cache that is enabled: SET FEATURES and resets of the link change it."""
        return bool(self._number("write_cache_enabled", u32))

    def trim_zeros(self, supported: bool) -> None:
        """Sectors that DATA SET MANAGEMENT with TRIM names read as zeros from now on, or it is advice that changes no sector."""
        self._call("trim_zeros", int(supported))

    def trim_range(self, slot: int) -> Optional[Tuple[int, int]]:
        """The sectors that the next step of a slot's command makes zeros: the first of them, and how many."""
        lba, sectors = u64(), u32()
        self._call("trim_range", fits(slot, 32, "slot"), ctypes.byref(lba), ctypes.byref(sectors))
        return (lba.value, sectors.value) if sectors.value else None

    def lose_link(self) -> int:
        """PhyRdy is lost: the disk drops its commands. Returns what `write` does."""
        return self._number("lose_link", u64)

    def find_link(self) -> None:
        """A disk that is plugged in makes itself known by COMINIT."""
        self._call("find_link")

    def unplug(self) -> int:
        """The disk is pulled out, and nothing brings the link up until `plug`. Returns what `write` does."""
        return self._number("unplug", u64)

    def plug(self) -> None:
        """The disk is plugged in again, with the sectors that it had."""
        self._call("plug")

    def plug_other(self, base: Bytes, sectors: int, depth: int, identity: Identity) -> int:
        """Another disk is plugged in where one was pulled out, over a base as `over` has it: one that has never been used, with another name and queue depth.
        Returns how many entries the journal of the disk had that was pulled out, which is discarded with its sectors."""
        where, count = kept = given(base)
        named = _named(identity)
        with self._lock:
            entries = self._number("plug_other", u64, where, count, fits(sectors, 32, "sectors"), fits(depth, 32, "depth"), ctypes.byref(named))
            self._base = kept  # the library reads the one before no more
        return entries

    def fail_interface(self, error: InterfaceError, is_fatal: bool) -> None:
        """A FIS meets an error of the interface, which stops the port if it is fatal."""
        self._call("fail_interface", fits(error, 32, "error"), int(is_fatal))

    def sign_as(self, kind: DeviceKind) -> None:
        """The disk sends the signature of a device of another kind."""
        self._call("sign_as", fits(kind, 32, "kind"))

    def receive_bits(self, notification: bool) -> None:
        """The disk sends a Set Device Bits FIS that no command asks for, with N if it is a notification."""
        self._call("receive_bits", int(notification))

    def receive_register(self) -> None:
        """The disk sends a D2H Register FIS that no command asks for."""
        self._call("receive_register")

    def receive_unknown(self, fis: Bytes) -> None:
        """The disk sends a FIS of a type that isn't known: at most 28 bytes, from the type on."""
        self._call("receive_unknown", *given(fis))

    def look(self) -> Look:
        """What the controller does next."""
        found = HbaStateStruct()
        self._call("look", ctypes.byref(found))
        steps = tuple(map(_STEPS.__getitem__, found.next))
        return Look(found.address, found.length, Want(found.want), bool(found.interrupt), bool(found.sign), found.depth, steps)

    def supply(self, data: Bytes) -> None:
        """Supplies the bytes that the controller reads."""
        self._call("supply", *given(data))

    def bytes(self) -> builtins.bytes:
        """The bytes that the controller writes next."""
        with self._lock:
            look = self.look()
            length = look.length if look.want == Want.WRITE else 0
            out = ctypes.create_string_buffer(max(1, length))
            self._call("bytes", out, length)
        return out.raw[:length]

    def written(self) -> None:
        """The bytes that the controller writes are written."""
        self._call("written")

    def unmapped(self) -> None:
        """The address that the controller reads or writes is no memory."""
        self._call("unmapped")

    def spoiled(self) -> None:
        """The memory there gives or takes wrong data."""
        self._call("spoiled")

    def step(self, slot: int) -> int:
        """Takes the next step with the command of a slot. Returns what `write` does."""
        return self._number("step", u64, fits(slot, 32, "slot"))

    def fail(self, slot: int, error: int, lba: int) -> None:
        """The disk fails a queued command that it has accepted, at one of its sectors. A driver takes those before that as moved."""
        self._call("fail", fits(slot, 32, "slot"), fits(error, 8, "error"), fits(lba, 64, "lba"))

    def refuse(self, slot: int, error: int, lba: int) -> None:
        """The disk fails a command that was read and is not queued."""
        self._call("refuse", fits(slot, 32, "slot"), fits(error, 8, "error"), fits(lba, 64, "lba"))

    def end(self, slot: int, status: int, error: int, lba: int) -> None:
        """The disk ends a command that was read and is not queued with any status, in place of doing it."""
        self._call("end", fits(slot, 32, "slot"), fits(status, 8, "status"), fits(error, 8, "error"), fits(lba, 64, "lba"))

    def sign(self) -> None:
        """The disk sends its signature."""
        self._call("sign")

    def trim(self) -> int:
        """Discards the journal if the disk's queue has no request. Returns how many entries it had."""
        return self._number("trim", u64)

    def copy(self, lba: int) -> builtins.bytes:
        """The 512 bytes of a sector as it is now."""
        return self._copied("copy", 512, fits(lba, 64, "lba"))

    def may_be_left(self, was: Bytes, lba: int, data: Bytes) -> bool:
        """Whether a sector may have these 512 bytes after a loss of power, where it had the bytes `was` when the journal began."""
        return bool(self._number("may_be_left", u32, *given(was), fits(lba, 64, "lba"), *given(data)))

    def touched(self) -> List[int]:
        """The pages of eight sectors that may have changed since the journal began, as `Port.touched` has them."""
        return self._touched()

    def entry(self, number: int) -> Entry:
        """The entry of the disk's journal with this number."""
        return self._entry(number)

    def entry_bytes(self, number: int) -> builtins.bytes:
        """The bytes of the write that the entry with this number issued."""
        return self._entry_bytes(number)

    def port(self) -> State:
        """The whole visible state of the queue behind the controller."""
        return self._state("port")

    def move(self, memory: Memory) -> bool:
        """Reads or writes the next run of bytes, in memory that begins at address 0. Returns whether there was one. Past its end there is no memory."""
        with self._lock:
            look = self.look()
            end = look.address + look.length
            if look.want == Want.NOTHING:
                return False
            if end > len(memory):
                self.unmapped()
            elif look.want == Want.READ:
                self.supply(memory[look.address : end])
            else:
                memory[look.address : end] = self.bytes()
                self.written()
            return True

    def run(self, memory: Memory) -> None:
        """Does all that the controller can do now, the lowest slot first. If PxFB is no memory, the signature is sent once: it comes again after
        the driver's next write of a register."""
        with self._lock:
            signed = False
            while True:
                look = self.look()
                slot: Optional[int] = next((it for it, step in enumerate(look.next) if step), None)
                if look.want:
                    self.move(memory)
                elif look.sign and not signed:
                    self.sign()
                    signed = True
                elif slot is not None:
                    self.step(slot)
                    signed = False
                else:
                    return
