"""One AHCI port with its NCQ disk."""
from __future__ import annotations

import ctypes
from typing import List, Sequence, Tuple

from .library import Bytes, Owner, done, fits, given
from .names import Did, Kind, Outcome, Phase, Wrote
from .prototypes import PortPlace, ReplyStruct, SlotStruct, SteppedStruct, TagSetsStruct, WrittenStruct, u32, u64
from .records import Entry, Reply, Slot, State, Stepped, TagSets, Written


class Port(Owner):
    """A port, which is freed with its object, or by `free`, or at the end of a `with`. Threads may share it."""

    _prefix = "port"

    def __init__(self, image: Bytes, depth: int, first: int = 0) -> None:
        """Over a copy of an image of whole sectors; the journal's first entry has the number `first`."""
        super().__init__(PortPlace())
        self._call("resume", *given(image), fits(depth, 32, "depth"), fits(first, 64, "first"))

    @classmethod
    def zeros(cls, sectors: int, depth: int) -> "Port":
        """Over a disk of zeros."""
        made = cls.__new__(cls)
        Owner.__init__(made, PortPlace())
        made._call("new_zeros", fits(sectors, 32, "sectors"), fits(depth, 32, "depth"))
        return made

    @classmethod
    def over(cls, base: Bytes, sectors: int, depth: int, first: int = 0) -> "Port":
        """Over a disk of 1 to 2^32 - 1 sectors, which are those of `base`, and zeros past its last whole one, until they are written. Bytes in writable
        memory, as those of a file that is mapped with `mmap.ACCESS_COPY`, are not copied, and may not change as long as the port is there."""
        made = cls.__new__(cls)
        Owner.__init__(made, PortPlace())
        where, count = made._base = given(base)
        made._call("over", where, count, fits(sectors, 32, "sectors"), fits(depth, 32, "depth"), fits(first, 64, "first"))
        return made

    def __enter__(self) -> "Port":
        return self

    def depth(self) -> int:
        """How many slots there are."""
        return self._number("depth", u32)

    def sectors(self) -> int:
        """How many sectors of 512 bytes the disk has."""
        return self._number("sectors", u32)

    def register(self, offset: int) -> int:
        """Reads the register at an offset (`Register`)."""
        return self._number("register", u32, fits(offset, 32, "offset"))

    def acknowledge(self, mask: int) -> None:
        """Writes a word to PxIS: a 1 clears its bit."""
        self._call("acknowledge", fits(mask, 32, "mask"))

    def write_register(self, offset: int, word: int, headers: Bytes = bytes(1024), windows: Bytes = b"") -> Written:
        """Writes a register as a driver does. A bit of PxCI issues the command of that slot: its header is in `headers`, the
        1,024 bytes of the command list, and its window is a 32nd part of `windows`. If a command can't be issued, `Refused` and
        `OutOfMemory` have its slot: those of the slots below it are issued."""
        did = WrittenStruct()
        status = self._status("write_register", fits(offset, 32, "offset"), fits(word, 32, "word"), *given(headers), *given(windows), ctypes.byref(did))
        done(status, did.tag if did.did == Wrote.SOME else None)
        return Written(Wrote(did.did), did.slots, did.tag)

    def read_register(self, offset: int) -> int:
        """Reads a register as a driver finds it between its writes."""
        return self._number("read_register", u32, fits(offset, 32, "offset"))

    def received(self) -> bytes:
        """The 256 bytes of the received FIS area."""
        return self._copied("received", 256)

    def issue(self, tag: int, header: Bytes, memory: Bytes) -> int:
        """Issues the command of a window. Returns the request's number."""
        return self._number("issue", u64, fits(tag, 32, "tag"), *given(header), *given(memory))

    def read(self, tag: int, lba: int, sectors: int, fua: bool = False) -> int:
        """Issues a read, with FUA or without. Returns the request's number."""
        return self._number("submit", u64, fits(tag, 32, "tag"), Kind.READ_FUA if fua else Kind.READ, fits(lba, 64, "lba"), fits(sectors, 32, "sectors"), b"", 0)

    def write(self, tag: int, lba: int, data: Bytes, fua: bool = False) -> int:
        """Issues a write of whole sectors, with FUA or without. Returns the request's number."""
        return self._number("submit", u64, fits(tag, 32, "tag"), Kind.WRITE_FUA if fua else Kind.WRITE, fits(lba, 64, "lba"), memoryview(data).nbytes // 512, *given(data))

    def _stepped(self, name: str, *arguments: object) -> Stepped:
        did = SteppedStruct()
        self._call(name, *arguments, ctypes.byref(did))
        return Stepped(did.first, did.count, Did(did.did))

    def accept(self, tag: int) -> Stepped:
        """The device takes a tag's command, or fails it if it passes the last sector."""
        return self._stepped("accept", fits(tag, 32, "tag"))

    def serve(self, tags: Sequence[int]) -> Stepped:
        """The device serves the commands of these tags, in this order."""
        return self._stepped("serve", bytes(list(tags)), len(tags))

    def fail(self, tag: int, error: int, lba: int) -> Stepped:
        """The device fails an accepted command at one of its sectors."""
        return self._stepped("fail", fits(tag, 32, "tag"), fits(error, 8, "error"), fits(lba, 64, "lba"))

    def recover(self) -> int:
        """Software recovers. Returns the tag whose command had failed."""
        return self._number("recover", u32)

    def reissue(self, tag: int) -> None:
        """Software issues a held command again."""
        self._call("reissue", fits(tag, 32, "tag"))

    def collect(self, tag: int, number: int) -> Tuple[Reply, bytes]:
        """Takes the answer of a request, with the data of a read, and frees the slot."""
        with self._lock:
            out = ctypes.create_string_buffer(max(1, self.slot(tag).bytes))
            reply = ReplyStruct()
            self._call("collect", tag, fits(number, 64, "number"), ctypes.byref(reply), out, len(out))
        return Reply(reply.number, reply.entry, reply.lba, reply.bytes, Outcome(reply.outcome), reply.error), out.raw[: reply.bytes]

    def identify(self) -> bytes:
        """Sends IDENTIFY DEVICE. Returns the 512 bytes of its page."""
        return self._copied("identify", 512)

    def flush(self) -> None:
        """Sends FLUSH CACHE EXT."""
        self._call("flush")

    def tag_sets(self) -> TagSets:
        """Tags by what they wait for."""
        sets = TagSetsStruct()
        self._call("tag_sets", ctypes.byref(sets))
        return TagSets(sets.issued, sets.accepted, sets.held)

    def slot(self, tag: int) -> Slot:
        """One slot."""
        slot = SlotStruct()
        self._call("slot", fits(tag, 32, "tag"), ctypes.byref(slot))
        return Slot(slot.number, slot.bytes, Phase(slot.phase), bool(slot.owned))

    def copy(self, lba: int) -> bytes:
        """The 512 bytes of a sector as it is now."""
        return self._copied("copy", 512, fits(lba, 64, "lba"))

    def touched(self) -> List[int]:
        """The pages of eight sectors that may have changed since the port was made or last trimmed, for a disk over a base: page n has
        sectors 8n to 8n + 7, and no sector of any other page has changed."""
        return self._touched()

    def trim(self) -> int:
        """Discards the journal if every slot is free. Returns how many entries it had."""
        return self._number("trim", u64)

    def entry(self, number: int) -> Entry:
        """The journal's entry with this number."""
        return self._entry(number)

    def entry_bytes(self, number: int) -> bytes:
        """The bytes of the write that the entry with this number issued."""
        return self._entry_bytes(number)

    def state(self) -> State:
        """The whole visible state."""
        return self._state("state")
