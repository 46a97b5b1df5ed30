"""The shared library libahci.so.0 by ctypes, and what every caller of it needs."""
from __future__ import annotations

import ctypes
import mmap
import os
import threading
from typing import Any, List, NoReturn, Optional, Tuple, Union

from .names import Event, Phase, Status
from .prototypes import CALLS, EntryStruct, StateStruct, u32, u64
from .records import Entry, State

OTHERS = {"first", "next", "numbers", "depth", "sectors", "halted", "issued", "accepted", "held", "received", "phases"}  # fields of an ahci_state that are no registers

Bytes = Union[bytes, bytearray, memoryview, mmap.mmap]
"""Bytes that a call reads. They may not change during the call."""


class Refused(Exception):
    """The call was refused and nothing has changed, with one exception: if `slot` is a number, the commands of the slots below it were issued."""

    def __init__(self, status: int, slot: Optional[int] = None) -> None:
        self.status = Status(status)
        self.slot = slot
        super().__init__(self.status.name)

    def __reduce__(self) -> Tuple[Any, ...]:
        return Refused, (int(self.status), self.slot)


class OutOfMemory(MemoryError):
    """The library's allocation failed. `slot` is as that of `Refused`."""

    def __init__(self, slot: Optional[int] = None) -> None:
        self.slot = slot
        super().__init__(*(() if slot is None else (f"slot {slot}",)))

    def __reduce__(self) -> Tuple[Any, ...]:
        return OutOfMemory, (self.slot,)


_loaded: Optional[ctypes.CDLL] = None
_loading = threading.RLock()  # a signal's handler may call while a call of its thread loads


def library_file() -> str:
    """The file of the library: the one that AHCI_LIBRARY names, the one beside this module, or the one that the loader finds."""
    named = os.environ.get("AHCI_LIBRARY")
    beside = os.path.join(os.path.dirname(os.path.abspath(__file__)), "libahci.so.0")
    return named or (beside if os.path.exists(beside) else "libahci.so.0")


def loaded() -> ctypes.CDLL:
    """The library, with the arguments of its calls."""
    global _loaded
    with _loading:
        if _loaded is None:
            found = ctypes.CDLL(library_file())
            for name, kinds in CALLS.items():
                call = getattr(found, f"ahci_{name}")
                call.argtypes, call.restype = kinds, u32
            _loaded = found
        return _loaded


def done(status: int, slot: Optional[int] = None) -> None:
    """Raises what a status means."""
    if status == Status.OUT_OF_MEMORY:
        raise OutOfMemory(slot)
    if status:
        raise Refused(status, slot)


def call(name: str, *arguments: object) -> None:
    """A call that needs no port and no controller. The frames of an exception keep no argument, so that a buffer of the caller's is free."""
    status = getattr(loaded(), f"ahci_{name}")(*arguments)
    del arguments
    done(status)


def fits(value: int, bits: int, name: str) -> int:
    """The value, if it has so many bits; ctypes would cut it to its width."""
    if not 0 <= value < 1 << bits:
        raise ValueError(f"{name} is not a number of {bits} bits")
    return value


def given(data: Bytes) -> Tuple[Any, int]:
    """Bytes as a call takes them: where they are, and how many. Bytes in writable memory are not copied, and can't be resized meanwhile."""
    if isinstance(data, bytes):
        return data, len(data)
    with memoryview(data) as view:
        count = view.nbytes
        if view.readonly or not view.c_contiguous or count == 0:
            return view.tobytes(), count
    return (ctypes.c_char * count).from_buffer(data), count


def entry_of(found: EntryStruct) -> Entry:
    return Entry(found.lba, found.sectors, Event(found.kind), found.tag, found.error)


def state_of(found: StateStruct) -> State:
    registers = {name: int(getattr(found, name)) for name, _ in StateStruct._fields_ if name not in OTHERS}
    return State(
        found.first, found.next, tuple(found.numbers), found.depth, found.sectors, bool(found.halted), found.issued, found.accepted,
        found.held, registers, bytes(found.received), tuple(Phase(it) for it in found.phases),
    )


class Owner:
    """What owns a port or a controller of the library: it is freed with its object, by `free`, or at the end of a `with`.

    Threads may share it: one call at a time goes on, and a call lets other threads run meanwhile. It can't be copied or pickled.
    """

    _prefix = ""
    _place: Any = None
    _base: Any = None  # the bytes that a disk is over

    def __init__(self, place: Any) -> None:
        self._lock = threading.RLock()
        self._place = place

    def _status(self, name: str, *arguments: object) -> int:
        with self._lock:
            return int(getattr(loaded(), f"ahci_{self._prefix}_{name}")(ctypes.byref(self._place), *arguments))

    def _call(self, name: str, *arguments: object) -> None:
        """The frames of an exception keep no argument, so that a buffer of the caller's is free."""
        status = self._status(name, *arguments)
        del arguments
        done(status)

    def _number(self, name: str, kind: Any, *arguments: object) -> int:
        found = kind()
        status = self._status(name, *arguments, ctypes.byref(found))
        del arguments
        done(status)
        return int(found.value)

    def _copied(self, name: str, count: int, *arguments: object) -> bytes:
        out = ctypes.create_string_buffer(count)
        self._call(name, *arguments, out, count)
        return out.raw

    def _touched(self) -> List[int]:
        """With room for as many numbers as the call says that there are."""
        with self._lock:
            found, room = u64(), 0
            while True:
                pages = (u32 * max(1, room))()
                status = self._status("touched", pages, room, ctypes.byref(found))
                if status != Status.BUFFER_TOO_SMALL:
                    done(status)
                    return list(pages[: found.value])
                room = found.value

    def _entry(self, number: int) -> Entry:
        found = EntryStruct()
        self._call("entry", fits(number, 64, "number"), ctypes.byref(found))
        return entry_of(found)

    def _entry_bytes(self, number: int) -> bytes:
        with self._lock:
            return self._copied("entry_bytes", max(1, 512 * self._entry(number).sectors), number)

    def _state(self, name: str) -> State:
        found = StateStruct()
        self._call(name, ctypes.byref(found))
        return state_of(found)

    def free(self) -> None:
        """Frees it. A second time does nothing."""
        with self._lock:
            if self._place.full:
                self._call("free")
            self._base = None

    def __enter__(self) -> Any:
        return self

    def __exit__(self, *why: object) -> None:
        self.free()

    def __del__(self) -> None:
        if self._place is not None:
            self.free()

    def __copy__(self) -> NoReturn:
        raise TypeError(f"a {type(self).__name__} can't be copied or pickled")

    def __deepcopy__(self, memo: object) -> NoReturn:
        self.__copy__()

    def __reduce__(self) -> NoReturn:
        self.__copy__()
