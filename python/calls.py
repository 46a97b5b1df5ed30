"""Each method and function of ahci, its answers against values worked out by hand from docs/LAYOUTS.md and docs/PROGRAM.md:
`make check` here and in ../c runs it, and it prints one line."""
import array
import copy
import mmap
import os
import pickle
import resource
import tempfile
from typing import Callable, Dict, List, Optional, Tuple

import ahci
from ahci import Command, Did, Entry, Event, Fis, FisType, Kind, Order, Outcome, Phase, Port, Register, Reply, Slot, Status, Stepped, TagSets, Written, Wrote
from ahci.hba import Hba

FREE, ISSUED, ACCEPTED, BROKEN, HELD, DONE = Phase.FREE, Phase.ISSUED, Phase.ACCEPTED, Phase.BROKEN, Phase.HELD, Phase.DONE
PX_CMD, PX_SACT, PX_CI = Register.PXCMD, Register.PXSACT, Register.PXCI


def refused(status: Status, call: Callable[[], object], slot: Optional[int] = None) -> None:
    """A call is refused for this reason, and names this slot."""
    try:
        call()
    except ahci.Refused as why:
        assert (why.status, why.slot, str(why)) == (status, slot, status.name), (why.status, why.slot)
        return
    raise AssertionError(f"{status.name} was not answered")


def looks() -> None:
    """The calls that look at a port with one write."""
    with Port.zeros(sectors=8, depth=4) as port:
        assert (port.depth(), port.sectors()) == (4, 8)
        assert port.register(0) == 0x40000300  # CAP: SNCQ, and the depth less one
        number = port.write(tag=3, lba=5, data=b"\xaa" * 512 + b"\xbb" * 512)
        assert port.entry(number) == Entry(5, 2, Event.WRITE, 3, 0)
        assert port.entry_bytes(number) == b"\xaa" * 512 + b"\xbb" * 512
        state = port.state()
        assert (state.first, state.next, state.depth, state.sectors, state.halted) == (0, 1, 4, 8, 0)
        assert state.registers["px_sact"] == state.registers["px_ci"] == state.issued == 1 << 3
        assert state.phases == (0, 0, 0, 1) + (0,) * 28 and state.numbers == (0,) * 32
        assert state.received == port.received() == bytes(256)
        journal = [port.entry(0), Entry(0, 0, Event.ACCEPT, 3, 0), Entry(0, 0, Event.COLLECT, 3, 0)]
        assert ahci.journal_check(8, 4, journal[:2]) is None and ahci.journal_check(8, 4, journal) == 2
        refused(Status.NO_SUCH_ENTRY, lambda: port.entry(1))
    refused(Status.NO_PORT, port.depth)
    port.free()  # a second time


def raw_read(tag: int, lba: int) -> Tuple[bytes, bytes]:
    """The header and the window of a read of one sector, whose data stand after its table, from 90h on."""
    base = 0x10 + 4 * tag  # the high byte of the tag's base
    header, memory = bytearray(32), bytearray(0x290)
    header[0], header[2], header[11] = 5, 1, base
    memory[:13] = bytes([0x27, 0x80, 0x60, 1, lba, 0, 0, 0x40, 0, 0, 0, 0, tag << 3])
    memory[0x80], memory[0x83], memory[0x8C:0x8E] = 0x90, base, b"\xff\x01"
    return bytes(header), bytes(memory)


def failing_queue() -> None:
    """Three commands, of which one fails; recovery, and the way of the others to their answers. Entries are counted from 10."""
    with Port(b"".join(bytes([at]) * 512 for at in range(8)), 4, 10) as port:
        assert port.state().first == port.state().next == 10 and port.copy(7) == b"\7" * 512
        header, memory = raw_read(3, 7)
        assert ahci.window_check(3, header, memory) == Command(lba=7, sectors=1, kind=Kind.READ, tag=3, pieces=1)
        assert (port.read(2, 2, 2, fua=True), port.write(1, 5, b"\xbb" * 512, fua=True), port.issue(3, header, memory)) == (10, 11, 12)
        assert port.tag_sets() == TagSets(issued=0b1110, accepted=0, held=0)
        assert port.accept(2) == Stepped(first=13, count=1, did=Did.ACCEPTED) and port.accept(1) == Stepped(14, 1, Did.ACCEPTED)
        assert port.tag_sets() == TagSets(0b1000, 0b0110, 0) and ahci.tags_of(0b0110) == [1, 2] and ahci.tags_of(1 << 31 | 1) == [0, 31]
        assert port.received()[0x40:0x54] == b"\x34\0\x40" + bytes(17)
        refused(Status.OUTSIDE_COMMAND, lambda: port.fail(2, 0x40, 4))

        # the second sector of tag 2 can't be read: UNC
        assert port.fail(2, 0x40, 3) == Stepped(first=15, count=1, did=Did.FAILED)
        state = port.state()
        assert (state.halted, state.issued, state.accepted, state.held) == (1, 0b1000, 0b0010, 0)  # the failed one is in no set
        assert (state.registers["px_tfd"], state.registers["px_is"]) == (0x4041, 0x40000008)  # ERR; TFES and SDBS
        assert (state.registers["px_sact"], state.registers["px_ci"]) == (0b1110, 0b1000)
        assert state.received[0x58:0x60] == b"\xa1\x40\x41\x40" + bytes(4)
        assert state.phases == (FREE, ACCEPTED, BROKEN, ISSUED) + (FREE,) * 28 and state.numbers == (0, 11, 10, 12) + (0,) * 28
        assert port.slot(2) == Slot(number=10, bytes=1024, phase=BROKEN, owned=True) and port.slot(1) == Slot(11, 0, ACCEPTED, True)
        assert port.slot(0) == Slot(0, 0, FREE, False)
        assert port.entry(15) == Entry(lba=3, sectors=0, kind=Event.FAIL, tag=2, error=0x40)
        for call in (lambda: port.accept(3), lambda: port.serve([1]), port.flush, port.identify):
            refused(Status.HALTED, call)
        port.acknowledge(0x40000000)
        assert port.register(0x110) == 8

        # the port stops and starts, and the log names the tag: it has its answer, and the others are held
        assert port.recover() == 2 and port.entry(16) == Entry(0, 0, Event.RECOVER, 2, 0)
        refused(Status.NOT_HALTED, port.recover)
        state = port.state()
        assert (state.halted, state.issued, state.accepted, state.held) == (0, 0, 0, 0b1010) and port.tag_sets() == TagSets(0, 0, 0b1010)
        assert (state.registers["px_sact"], state.registers["px_ci"], state.registers["px_tfd"]) == (0, 0, 0x40)
        assert state.phases == (FREE, HELD, DONE, HELD) + (FREE,) * 28
        refused(Status.NOT_HELD, lambda: port.reissue(2))
        port.reissue(1)
        port.reissue(3)
        assert port.entry(18) == Entry(0, 0, Event.REISSUE, 3, 0) and port.tag_sets() == TagSets(0b1010, 0, 0)
        assert (port.accept(3), port.accept(1), port.serve([1, 3])) == (Stepped(19, 1, Did.ACCEPTED), Stepped(20, 1, Did.ACCEPTED), Stepped(21, 2, Did.COMPLETED))
        assert port.received()[0x58:0x60] == b"\xa1\x40\x40\0\x0a\0\0\0"
        refused(Status.STRANGER, lambda: port.collect(2, 11))
        assert port.collect(2, 10) == (Reply(number=10, entry=15, lba=3, bytes=0, outcome=Outcome.FAIL, error=0x40), b"")
        assert port.collect(1, 11) == (Reply(number=11, entry=21, lba=0, bytes=0, outcome=Outcome.WRITE, error=0), b"")
        assert port.collect(3, 12) == (Reply(number=12, entry=22, lba=0, bytes=512, outcome=Outcome.READ, error=0), b"\7" * 512)
        assert port.copy(5) == b"\xbb" * 512 and port.copy(4) == b"\4" * 512

        # what is not queued; and 18 entries, from 10 to 27, are thrown away
        page = port.identify()
        assert page == ahci.identify_page(8, 4) and (page[120], page[150], page[152:154], page[200]) == (8, 3, b"\6\1", 8)  # words 60, 75, 76, 100
        port.flush()
        assert [port.entry(it).kind for it in range(23, 28)] == [Event.COLLECT] * 3 + [Event.IDENTIFY, Event.FLUSH]
        assert port.trim() == 18 and port.state().first == port.state().next == 28
    refused(Status.BAD_FIRST, lambda: Port(bytes(512), 1, (1 << 63) + 1))
    refused(Status.BAD_SIZE, lambda: Port(bytes(513), 1))
    assert Port(bytes(512), 1).state().first == 0


def registers() -> None:
    """A driver's writes: two commands that are not there, one that is, its failure and its recovery by PxCMD."""
    with Port.zeros(sectors=8, depth=4) as port:
        assert port.write_register(PX_SACT, 3) == Written(Wrote.WORD, 0, 0) and port.read_register(PX_SACT) == 3 and port.register(PX_SACT) == 0
        refused(Status.NOT_QUEUED, lambda: port.write_register(PX_CI, 4))
        refused(Status.BAD_HEADER, lambda: port.write_register(PX_CI, 2), slot=1)
        header, table = raw_read(1, 3)
        headers, windows = bytes(32) + header + bytes(960), bytes(0x290) + table + bytes(30 * 0x290)
        assert port.write_register(PX_CI, 2, headers, windows) == Written(did=Wrote.COMMANDS, slots=2, tag=0)
        assert port.entry(0) == Entry(3, 1, Event.READ, 1, 0) and port.read_register(PX_CI) == 2
        port.accept(1)
        port.fail(1, 0x10, 3)
        assert port.write_register(PX_CMD, 0x10) == Written(Wrote.WORD, 0, 0) and port.read_register(PX_CMD) == 0x4010  # FRE, and FR
        assert port.write_register(PX_CMD, 0x11) == Written(did=Wrote.START, slots=0, tag=1) and port.state().phases[1] == DONE


def layers() -> None:
    """The calls that need no port."""
    page = ahci.log_page(3, 0x40, 0x060504030201)
    assert page[:11] == bytes([3, 0, 0x41, 0x40, 1, 2, 3, 0, 4, 5, 6]) and sum(page) % 256 == 0
    for data, fis in (
        ([0x27, 0x80, 0x60, 8, 1, 2, 3, 0x40, 4, 5, 6, 9, 5 << 3, 1, 0, 7] + [0] * 4,
         Fis(kind=0x27, c=1, command=0x60, features=0x908, lba=0x060504030201, device=0x40, count=0x128, control=7)),
        ([0x34, 0x40, 0x50, 0x10, 7, 0, 0, 0x40, 0, 0, 0, 0, 0x34, 0x12] + [0] * 6,
         Fis(kind=0x34, i=1, status=0x50, error=0x10, lba=7, device=0x40, count=0x1234)),
        ([0x39, 0, 0, 0], Fis(kind=0x39)),
        ([0x41, 0xA0, 0, 0, 31] + [0] * 11 + [0x78, 0x56, 0x34, 0x12, 0, 2] + [0] * 6, Fis(kind=0x41, a=1, d=1, tag=31, offset=0x12345678, transfer=512)),
        ([0x5F, 0x60, 0x58, 0, 9, 0, 0, 0x40, 0, 0, 0, 0, 1, 0, 0, 0x50, 0, 2, 0, 0],
         Fis(kind=0x5F, i=1, d=1, status=0x58, lba=9, device=0x40, count=1, e_status=0x50, bytes=512)),
        ([0xA1, 0x40, 0x41, 0x40, 8, 0, 0, 0x80], Fis(kind=0xA1, i=1, status=0x41, error=0x40, sactive=0x80000008)),
    ):
        assert ahci.fis_decode(bytes(data)) == fis and ahci.fis_encode(fis) == bytes(data)
    assert ahci.fis_encode(Fis(kind=0x46), b"\1\2\3\4") == b"\x46\0\0\0\1\2\3\4"
    assert ahci.fis_decode(b"\x46\0\0\0\1\2\3\4") == Fis(kind=0x46, payload=4)
    refused(Status.BAD_FLAG, lambda: ahci.fis_encode(Fis(kind=0x27, c=2)))
    assert [ahci.choose_tag(Order.LOWEST, 0b1010), ahci.choose_tag(Order.HIGHEST, 0b1010), ahci.choose_tag(Order.DRAWN, 0b1010, 5)] == [1, 3, 3]
    assert ahci.choose_tags(Order.HIGHEST, 0b11010, failing=0b10) == [4, 3] and ahci.choose_tags(Order.LOWEST, 0b11010, failing=0b10) == [1]
    assert ahci.choose_tags(Order.DRAWN, 0b11010, most=2, draws=[2, 1]) == [4, 3] and ahci.choose_tags(Order.LOWEST, (1 << 32) - 1) == list(range(32))
    refused(Status.BAD_TAGS, lambda: ahci.choose_tag(Order.LOWEST, 0))
    assert [ahci.choose_tag(Order.ROUND, 0b11010, draw) for draw in (0, 2, 5, 35)] == [1, 3, 1, 3]
    refused(Status.BAD_KIND, lambda: ahci.choose_tags(4, 1))  # type: ignore[arg-type]
    assert ahci.status_text(Status.OUTSIDE_COMMAND) == "OutsideCommand"
    refused(Status.BAD_KIND, lambda: ahci.status_text(14))
    refused(Status.BAD_DEPTH, lambda: ahci.journal_check(8, 33, []))
    assert ahci.version() == 0x010100
    refused(Status.BAD_HEADER, lambda: ahci.window_check(0, bytes(32), bytes(1024)))


def wide_numbers() -> None:
    """No number is cut to its width: one that doesn't fit is refused, with its name, and the largest that fits reaches the library."""
    with Port.zeros(sectors=8, depth=4) as port:
        calls: Dict[Tuple[str, int], Tuple[Callable[[int], object], ...]] = {
            ("depth", 32): (lambda it: Port(bytes(512), it), lambda it: Port.zeros(1, it), lambda it: ahci.identify_page(1, it), lambda it: ahci.journal_check(1, it, [])),
            ("first", 64): (lambda it: Port(bytes(512), 1, it),),
            ("sectors", 32): (lambda it: Port.zeros(it, 1), lambda it: port.read(0, 0, it), lambda it: ahci.identify_page(it, 0),
                              lambda it: ahci.journal_check(it, 0, []), lambda it: ahci.journal_check(8, 0, [Entry(0, it, Event.READ, 0, 0)])),
            ("offset", 32): (port.register, port.read_register, lambda it: port.write_register(it, 0)),
            ("mask", 32): (port.acknowledge,),
            ("word", 32): (lambda it: port.write_register(2, it),),
            ("tag", 32): (lambda it: port.issue(it, bytes(32), b""), lambda it: port.read(it, 0, 1), lambda it: port.write(it, 0, bytes(512)), port.accept,
                          lambda it: port.fail(it, 0, 0), port.reissue, lambda it: port.collect(it, 0), port.slot,
                          lambda it: ahci.window_check(it, bytes(32), b""), lambda it: ahci.log_page(it, 0, 0)),
            ("lba", 64): (lambda it: port.read(0, it, 1), lambda it: port.write(0, it, bytes(512)), lambda it: port.fail(0, 0, it), port.copy,
                          lambda it: ahci.log_page(0, 0, it), lambda it: ahci.fis_encode(Fis(kind=0x27, lba=it))),
            ("error", 8): (lambda it: port.fail(0, it, 0), lambda it: ahci.log_page(32, it, 0)),
            ("number", 64): (lambda it: port.collect(0, it), port.entry, port.entry_bytes),
            ("status", 32): (ahci.status_text,),
            ("tags", 32): (lambda it: ahci.choose_tag(4, it), lambda it: ahci.choose_tags(4, it)),  # type: ignore[arg-type]
            ("draw", 64): (lambda it: ahci.choose_tag(Order.DRAWN, 0, it), lambda it: ahci.choose_tags(Order.DRAWN, 0, draws=[0, it])),
            ("failing", 32): (lambda it: ahci.choose_tags(Order.LOWEST, 0, it),),
            ("most", 32): (lambda it: ahci.choose_tags(Order.LOWEST, 0, 0, it),),
            ("features", 16): (lambda it: ahci.fis_encode(Fis(kind=0, features=it)),),
        }
        for (name, bits), of_name in calls.items():
            for call in of_name:
                for value in (-1, 1 << bits):
                    try:
                        call(value)
                    except ValueError as why:
                        assert str(why) == f"{name} is not a number of {bits} bits"
                        continue
                    raise AssertionError(f"{name} {value} was taken")
                try:
                    call((1 << bits) - 1)
                    assert name == "mask"
                except ahci.Refused:
                    pass
        assert port.state().next == 0


def buffers() -> None:
    """Bytes of every kind are taken as bytes are; a number or a text is none."""
    image = b"".join(bytes([at]) * 512 for at in range(8))
    data = b"\x5a" * 1024
    wide = bytearray(2 * len(data))
    wide[::2] = data
    with tempfile.TemporaryFile() as file:
        file.write(data)
        file.flush()
        with mmap.mmap(file.fileno(), len(data)) as mapped, mmap.mmap(file.fileno(), len(data), access=mmap.ACCESS_READ) as shown:
            for given in (data, bytearray(data), memoryview(data), memoryview(bytearray(data)), memoryview(wide)[::2], mapped, shown,
                          memoryview(array.array("I", data))):
                for disk in (image, bytearray(image), memoryview(image)):
                    with Port(disk, 4) as port:
                        number = port.write(0, 2, given)  # type: ignore[arg-type]
                        assert port.entry(number) == Entry(2, 2, Event.WRITE, 0, 0) and port.entry_bytes(number) == data and port.copy(7) == b"\7" * 512
    with Port.zeros(8, 4) as port:
        header, table = raw_read(1, 3)
        assert port.issue(1, bytearray(header), memoryview(table)) == 0 and ahci.window_check(1, memoryview(header), bytearray(table)).kind is Kind.READ
        assert ahci.fis_decode(bytearray(b"\x39\0\0\0")).kind is FisType.DMA_ACTIVATE
        grown = bytearray(512)
        port.write(0, 0, grown)
        grown.extend(b"more")  # the call has let go of it
        refused(Status.BAD_COUNT, lambda: port.write(2, 0, bytearray()))
        for none in (5, "a text", None):
            calls: Tuple[Callable[[], object], ...] = (lambda: port.write(2, 0, none), lambda: ahci.fis_decode(none))  # type: ignore[arg-type]
            for call in calls:
                try:
                    call()
                except TypeError:
                    continue
                raise AssertionError(f"{none!r} was taken for bytes")


def over_a_base() -> None:
    """A disk of nearly 2 TiB over a mapped file: what is written is in memory, and the file stays."""
    most, gibibyte = (1 << 32) - 1, 1 << 30
    with tempfile.TemporaryFile() as file:
        file.truncate(gibibyte)
        file.seek(512 * 3)
        file.write(b"\x11" * 512)
        file.flush()
        before = size_of_this()
        with mmap.mmap(file.fileno(), gibibyte, access=mmap.ACCESS_COPY) as mapped:
            with Port.over(mapped, most, 32, first=7) as port:
                assert port.sectors() == most and port.copy(3) == b"\x11" * 512 and port.copy(most - 1) == bytes(512)
                assert port.identify()[120:124] == b"\xff\xff\xff\x0f" and port.identify()[200:208] == b"\xff\xff\xff\xff\0\0\0\0"
                for tag, lba in enumerate((3, most - 1)):
                    number = port.write(tag, lba, b"\x22" * 512)
                    port.accept(tag)
                    port.serve([tag])
                    assert port.collect(tag, number)[0].outcome is Outcome.WRITE
                assert port.touched() == [0, (most - 1) // 8]
                assert port.trim() > 0 and port.touched() == [] and port.copy(3) == port.copy(most - 1) == b"\x22" * 512 and port.copy(4) == bytes(512)
                assert size_of_this() < before + gibibyte + (16 << 20)
            with Hba.over(mapped, most, 32) as hba:
                assert hba.copy(3) == b"\x11" * 512 and hba.copy(most - 1) == bytes(512) and hba.touched() == []
        assert os.pread(file.fileno(), 512, 512 * 3) == b"\x11" * 512
    with Port.zeros(8, 1) as port:
        refused(Status.BAD_KIND, port.touched)
    refused(Status.BAD_SIZE, lambda: Port.over(b"", 0, 32))
    refused(Status.BAD_FIRST, lambda: Port.over(b"", 1, 32, 1 << 63 | 1))


def copies() -> None:
    """A port is not copied: two objects would free it twice."""
    with Port.zeros(8, 4) as port:
        calls: Tuple[Callable[[], object], ...] = (lambda: copy.copy(port), lambda: copy.deepcopy(port), lambda: pickle.dumps(port))
        for call in calls:
            try:
                call()
            except TypeError as why:
                assert str(why) == "a Port can't be copied or pickled"
                continue
            raise AssertionError("a port was copied")
        assert port.depth() == 4


def exceptions() -> None:
    """An exception is copied whole, so it comes through a pool of processes, and keeps no buffer of the caller's."""
    one, other = ahci.Refused(Status.BAD_TAG, 3), ahci.OutOfMemory(4)
    for made in (copy.copy(one), pickle.loads(pickle.dumps(one))):
        assert (type(made), made.status, made.slot, str(made)) == (ahci.Refused, Status.BAD_TAG, 3, "BAD_TAG")
    for lacks in (copy.copy(other), pickle.loads(pickle.dumps(other))):
        assert (type(lacks), lacks.slot, str(lacks)) == (ahci.OutOfMemory, 4, "slot 4")
    buffer = mmap.mmap(-1, 512)
    kept: List[ahci.Refused] = []
    with Port.zeros(8, 4) as port:
        calls: Tuple[Callable[[], object], ...] = (
            lambda: ahci.fis_decode(buffer), lambda: ahci.entry_breaks(ahci.Rule.ODD_ADDRESS, buffer), lambda: port.write(40, 0, buffer),
            lambda: port.write_register(PX_CI, 1, buffer),
        )
        for call in calls:
            try:
                call()
            except ahci.Refused as why:
                kept.append(why)
                continue
            raise AssertionError("a wrong call was not refused")
    buffer.close()  # a BufferError, if an exception has it


def enums() -> None:
    """What was a bare number has its name, and is the number all the same."""
    with Port.zeros(8, 4) as port:
        number = port.read(0, 3, 1)
        assert port.slot(0).phase is Phase.ISSUED and port.slot(0).owned is True and port.state().halted is False
        assert port.accept(0).did is Did.ACCEPTED and port.state().phases[0] is Phase.ACCEPTED and int(Phase.ACCEPTED) == 2
        assert port.serve([0]).did is Did.COMPLETED
        reply, _ = port.collect(0, number)
        assert reply.outcome is Outcome.READ and port.write_register(Register.PXIS, 0).did is Wrote.WORD
        assert port.register(Register.VS) == 0x00010301


def size_of_this() -> int:
    """How many bytes of addresses this process has."""
    with open("/proc/self/statm", encoding="ascii") as words:
        return int(words.read().split()[0]) * resource.getpagesize()


def without_memory(call: Callable[[], object], more: int) -> ahci.OutOfMemory:
    """A call for which `more` bytes are not enough raises MemoryError, and names the slot that was refused."""
    before = resource.getrlimit(resource.RLIMIT_AS)
    resource.setrlimit(resource.RLIMIT_AS, (size_of_this() + more, before[1]))
    try:
        call()
    except ahci.OutOfMemory as why:
        assert isinstance(why, MemoryError)
        return why
    finally:
        resource.setrlimit(resource.RLIMIT_AS, before)
    raise AssertionError("there was memory")


def memory() -> None:
    """What is reported where the system gives no memory; and that a port's goes with its object."""
    without_memory(lambda: Port.zeros(131072, 32), 16 << 20)
    image = bytes(64 << 20)
    without_memory(lambda: Port(image, 32), 16 << 20)
    with Port.zeros(8, 4) as port:
        header, table = raw_read(0, 3)
        windows = table + bytes((1 << 26) - len(table))
        port.write_register(PX_SACT, 1)
        assert without_memory(lambda: port.write_register(PX_CI, 1, header + bytes(992), windows), 0).slot == 0
        assert port.write_register(PX_CI, 1, header + bytes(992), windows) == Written(Wrote.COMMANDS, 1, 0)
    before = size_of_this()
    for _ in range(4):
        Port.zeros(131072, 1)
    assert size_of_this() < before + (64 << 20)


for part in (looks, failing_queue, registers, layers, wide_numbers, buffers, over_a_base, copies, exceptions, enums, memory):
    part()
print("the calls of ahci: as in docs/LAYOUTS.md and docs/PROGRAM.md")
