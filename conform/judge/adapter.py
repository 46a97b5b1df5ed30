"""What an emulator has to offer to be judged: one small class. conform/ADAPTERS.md shows how to write one."""
from abc import ABC, abstractmethod
from typing import List, Optional, Sequence, Tuple

Place = Tuple[int, int]  # an address and a length


class EmulatorFault(Exception):
    """The emulator can't be started, has died, or answers nothing. Its text is one line."""


class Adapter(ABC):
    """One port of an emulator, with a blank disk behind it whose requests wait until the tool lets them go.

    The first methods have to be written. The others have a body that suits most emulators.
    """

    title = "an emulator"  # how reports name it
    patience = 0.5  # seconds to wait for what the model says should come
    quiet = 0.02  # seconds to look whether something comes that should not
    guest_memory: Sequence[Place] = ((0x10000000, 0x80000000),)  # of the guest, for tables and data; those above 4 GiB are used if CAP has S64A
    most_entries = 65_535  # of a PRDT at most: 64 and more

    @abstractmethod
    def start(self, sectors: int, depth: int) -> None:
        """Starts the emulator with a disk of that many zeroed sectors, and with that queue depth where it can be chosen.
        The registers can then be reached; the port isn't running yet."""

    @abstractmethod
    def stop(self) -> None:
        """Ends the emulator, also where it hangs, or where `start` came half way."""

    @abstractmethod
    def read_memory(self, address: int, length: int) -> bytes:
        """Reads the guest's memory."""

    @abstractmethod
    def write_memory(self, address: int, data: bytes) -> None:
        """Writes the guest's memory."""

    @abstractmethod
    def read_register(self, offset: int) -> int:
        """Reads a word of 32 bits at an offset from ABAR; the port's registers begin at 100h."""

    @abstractmethod
    def write_register(self, offset: int, value: int) -> None:
        """Writes a word. A 1 in PxCI makes the port fetch that slot's command: its request then waits in the disk."""

    @abstractmethod
    def complete(self, tag: int) -> bool:
        """Lets the disk do the waiting request of a tag. False: no such request waits."""

    @abstractmethod
    def fail(self, tag: int, error: int, lba: int) -> bool:
        """Lets the waiting request of a tag fail, with this error byte at this sector where both can be chosen."""

    def read_registers(self, offsets: Sequence[int]) -> List[int]:
        """Many registers at once, where that is faster."""
        return [self.read_register(offset) for offset in offsets]

    def read_places(self, places: Sequence[Place]) -> List[bytes]:
        """Many places of the guest's memory at once, where that is faster."""
        return [self.read_memory(address, length) for address, length in places]

    def write_places(self, places: Sequence[Tuple[int, bytes]]) -> None:
        """Writes many places at once, where that is faster."""
        for address, data in places:
            self.write_memory(address, data)

    def complete_together(self, tags: Sequence[int]) -> bool:
        """Completes several in this order, by one Set Device Bits FIS. False: it can't, and they go one by one."""
        return False

    def sector(self, lba: int) -> Optional[bytes]:
        """A sector as it is on the disk now. None: the disk can't be looked at."""
        return None

    def sectors(self, lba: int, count: int) -> Optional[bytes]:
        """Sectors that follow each other, where that is faster than one by one."""
        found = [self.sector(at) for at in range(lba, lba + count)]
        return b"".join(it or b"" for it in found) if all(found) else None

    def put_sector(self, lba: int, data: bytes) -> None:
        """Puts a sector onto the disk behind the port's back, to go on after a known difference."""

    def give_up(self) -> None:
        """Called in a recovery, while ST is 0: a request that still waits must never be done. A port that drops its
        requests when ST is cleared needs nothing here."""

    def way_back(self) -> bool:
        """Called after a recovery's READ LOG EXT was compared. True: the port needed more than the standard's recovery
        to take commands again, and that was done now."""
        return False

    def settle(self) -> None:
        """Lets an emulator that works on its own catch up. Called before the port is compared."""
