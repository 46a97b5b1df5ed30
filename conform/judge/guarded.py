"""An adapter between the tool and somebody's: each exception of it is an EmulatorFault, and each answer is of the type and length it should be."""
from typing import Any, Callable, List, Optional, Sequence, Tuple, Type

from . import layout
from .adapter import Adapter, EmulatorFault, Place


METHODS = [name for name, it in vars(Adapter).items() if callable(it) and not name.startswith("_")]


def fault_of(what: str, why: BaseException) -> EmulatorFault:
    """An exception of somebody's code, in one line."""
    text = str(why).strip().splitlines()
    return EmulatorFault(f"the adapter's {what} has ended with {type(why).__name__}" + (f": {text[0]}" if text else ""))


def memory_of(given: Any) -> List[Place]:
    """What the adapter offers, if it is lists of addresses and lengths that don't overlap."""
    try:
        places = sorted((int(address), int(length)) for address, length in given)
    except (TypeError, ValueError) as why:
        raise EmulatorFault("the adapter's `guest_memory` is no list of addresses and lengths") from why
    after = 0
    for address, length in places:
        if address < after or length <= 0 or address + length > 2**64:
            raise EmulatorFault(f"the adapter's `guest_memory` has a place at {address:x}h that overlaps another, or has no bytes")
        if address < layout.FIXED_END and address + length > layout.COMMAND_LIST:
            raise EmulatorFault(f"the adapter's `guest_memory` has a place at {address:x}h in 10000h to {layout.FIXED_END - 1:x}h, which the tool uses for other things")
        after = address + length
    return places


class Guarded(Adapter):
    """Passes each call on."""

    def __init__(self, make: Callable[[], Adapter]) -> None:
        try:
            self.adapter = make()
        except (Exception, SystemExit) as why:
            raise why if isinstance(why, EmulatorFault) else fault_of("constructor", why) from why
        for name in METHODS:
            if not callable(getattr(self.adapter, name)):
                raise EmulatorFault(f"the adapter's attribute `{name}` is {type(getattr(self.adapter, name)).__name__} and hides its method of that name")
        self.title, self.patience, self.quiet = str(self.adapter.title), float(self.adapter.patience), float(self.adapter.quiet)
        self.guest_memory = memory_of(self.adapter.guest_memory)
        self.most_entries = self.checked("`most_entries`", self.adapter.most_entries, int)
        if not 64 <= self.most_entries <= 65_535:
            raise EmulatorFault(f"the adapter's `most_entries` is {self.most_entries}, and not 64 to 65,535")

    def call(self, name: str, *given: Any) -> Any:
        try:
            return getattr(self.adapter, name)(*given)
        except EmulatorFault:
            raise
        except (Exception, SystemExit) as why:
            raise fault_of(name, why) from why

    def has(self, name: str) -> bool:
        """Whether the adapter has a body of its own for an optional method."""
        return getattr(type(self.adapter), name) is not getattr(Adapter, name)

    @staticmethod
    def checked(name: str, value: Any, kind: Type[Any], length: Optional[int] = None) -> Any:
        if not isinstance(value, kind):
            raise EmulatorFault(f"the adapter's {name} answers {type(value).__name__} and not {kind.__name__}")
        if length is not None and len(value) != length:
            raise EmulatorFault(f"the adapter's {name} answers {len(value)} and not {length} {'bytes' if kind is not list else 'values'}")
        return value

    def data(self, name: str, value: Any, length: int) -> bytes:
        return bytes(self.checked(name, bytes(value) if isinstance(value, (bytearray, memoryview)) else value, bytes, length))

    def word(self, name: str, value: Any) -> int:
        if not 0 <= self.checked(name, value, int) < 2**32:
            raise EmulatorFault(f"the adapter's {name} answers {value:x}h, which is no word of 32 bits")
        return int(value)

    def start(self, sectors: int, depth: int) -> None:
        self.call("start", sectors, depth)

    def stop(self) -> None:
        self.call("stop")

    def read_memory(self, address: int, length: int) -> bytes:
        return self.data("read_memory", self.call("read_memory", address, length), length)

    def write_memory(self, address: int, data: bytes) -> None:
        self.call("write_memory", address, data)

    def read_register(self, offset: int) -> int:
        return self.word("read_register", self.call("read_register", offset))

    def write_register(self, offset: int, value: int) -> None:
        self.call("write_register", offset, value)

    def complete(self, tag: int) -> bool:
        return bool(self.call("complete", tag))

    def fail(self, tag: int, error: int, lba: int) -> bool:
        return bool(self.call("fail", tag, error, lba))

    def read_registers(self, offsets: Sequence[int]) -> List[int]:
        words = self.checked("read_registers", self.call("read_registers", offsets), list, len(offsets))
        return [self.word("read_registers", it) for it in words]

    def read_places(self, places: Sequence[Place]) -> List[bytes]:
        found = self.checked("read_places", self.call("read_places", places), list, len(places))
        return [self.data("read_places", it, length) for it, (_, length) in zip(found, places)]

    def write_places(self, places: Sequence[Tuple[int, bytes]]) -> None:
        self.call("write_places", places)

    def complete_together(self, tags: Sequence[int]) -> bool:
        return bool(self.call("complete_together", tags))

    def sector(self, lba: int) -> Optional[bytes]:
        found = self.call("sector", lba)
        return None if found is None else self.data("sector", found, layout.SECTOR)

    def sectors(self, lba: int, count: int) -> Optional[bytes]:
        found = self.call("sectors", lba, count)
        return None if found is None else self.data("sectors", found, count * layout.SECTOR)

    def put_sector(self, lba: int, data: bytes) -> None:
        self.call("put_sector", lba, data)

    def give_up(self) -> None:
        self.call("give_up")

    def way_back(self) -> bool:
        return bool(self.call("way_back"))

    def settle(self) -> None:
        self.call("settle")
