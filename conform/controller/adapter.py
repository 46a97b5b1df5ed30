"""What a controller has to offer to be judged: one class. conform/ADAPTERS.md shows how to write one."""
from abc import ABC, abstractmethod
from typing import Optional, Tuple

from . import layout


class Died(Exception):
    """The emulator has ended, or answers nothing, while a program was played: a find of its own. Its text is one line."""


class Controller(ABC):
    """A controller with one port, in front of a disk of 128 sectors of which four are bad, and with memory for the driver.

    The first methods have to be written. The others have a body that suits most emulators.
    """

    title = "an emulator"  # how reports name it
    can_hold = False  # whether `hold` and `go` are there
    sees_disk = True  # whether `disk` can be called at any moment; else it is called after the last look, and may change all that was seen

    @abstractmethod
    def start(self) -> None:
        """Starts the emulator. judge.adapter.EmulatorFault if it can't be started."""

    @abstractmethod
    def stop(self) -> None:
        """Ends the emulator, also where it hangs, or where `start` came half way."""

    @abstractmethod
    def reset(self, image: bytes) -> None:
        """As after power-on, PxCLB and PxFB among it, with this image on the disk; sectors 96 to 99 can't be read or written."""

    @abstractmethod
    def read(self, offset: int, size: int) -> int:
        """Reads 1, 2, 4 or 8 bytes at an offset from ABAR. Any method may raise Died."""

    @abstractmethod
    def write(self, offset: int, size: int, value: int) -> None:
        """Writes 1, 2, 4 or 8 bytes."""

    @abstractmethod
    def level(self) -> bool:
        """Whether the interrupt line is asserted."""

    @abstractmethod
    def get(self, address: int, length: int) -> bytes:
        """Reads the driver's memory: 00000000h to 01FFFFFFh and 100000000h to 101FFFFFFh are there, 20000000h to 2000FFFFh is none."""

    @abstractmethod
    def put(self, address: int, data: bytes) -> None:
        """Writes the driver's memory."""

    @abstractmethod
    def disk(self) -> bytes:
        """All sectors as they are now."""

    def idle(self) -> None:
        """Returns once no request is under way but those that are held."""

    def hold(self, slot: int, way: str) -> None:
        """The next `read` or `write` that reaches the disk stops there, until `go`."""
        raise NotImplementedError

    def go(self, slot: int) -> None:
        """The request that was held for this slot goes on."""
        raise NotImplementedError

    def registers(self) -> Tuple[bytes, bytes]:
        """The bytes of all registers: the host's, and those of port 0."""
        host = b"".join(self.read(at, 4).to_bytes(4, "little") for at in range(0, layout.HOST_BYTES, 4))
        port = b"".join(self.read(layout.PORT_BASE + at, 4).to_bytes(4, "little") for at in range(0, layout.PORT_BYTES, 4))
        return host, port

    def settled(self, moved: bool) -> Tuple[bytes, bytes, bool]:
        """The registers and the line once nothing changes any more. `moved`: the last operation may have begun something."""
        if moved:
            self.idle()
        host, port = self.registers()
        return host, port, self.level()


def put_in(it: Controller, address: int, data: bytes) -> None:
    """Writes memory if there is any."""
    if layout.place(address, len(data)) is not None:
        it.put(address, data)


def part_of(it: Controller, part: layout.Part, before: Optional[bytes]) -> bytes:
    """A part of the memory; the same object as before if it hasn't changed."""
    now = it.get(part.base, part.bytes)
    return before if before is not None and before == now else now
