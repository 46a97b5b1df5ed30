"""Every call of ahci.hba, over the life of a driver: start, IDENTIFY DEVICE, a queued write and read, an error and its log, resets, and rules."""
from __future__ import annotations

import struct
from typing import Callable

import ahci
from ahci import Rule, Step, Want, command_breaks, entry_breaks, length_breaks
from ahci.hba import Hba

PXCLB, PXFB, PXIS, PXIE, PXCMD, PXTFD, PXSIG, PXSSTS, PXSCTL, PXSERR, PXSACT, PXCI = 0x100, 0x108, 0x110, 0x114, 0x118, 0x120, 0x124, 0x128, 0x12C, 0x130, 0x134, 0x138
LIST, RECEIVED, TABLES, DATA = 0x1000, 0x400, 0x2000, 0x8000
SECTORS = 64


def refused(status: ahci.Status, call: Callable[[], object]) -> None:
    """The call is refused for this reason."""
    try:
        call()
    except ahci.Refused as why:
        assert why.status == status, why
    else:
        raise AssertionError(f"not {status.name}")


def lay(memory: bytearray, slot: int, fis: bytes, bytes_moved: int, write: bool) -> None:
    """Lays out a command: header, command FIS and one PRDT entry (AHCI 1.3.1, sections 4.2.2 and 4.2.3)."""
    table = TABLES + 0x100 * slot
    memory[LIST + 32 * slot:LIST + 32 * slot + 32] = struct.pack("<HHIQ16x", 5 | write << 6, 1 if bytes_moved else 0, 0, table)
    memory[table:table + 20] = fis.ljust(20, b"\0")
    memory[table + 0x80:table + 0x90] = struct.pack("<QII", DATA, 0, max(bytes_moved, 1) - 1)


def queued(code: int, slot: int, lba: int) -> bytes:
    """READ or WRITE FPDMA QUEUED of one sector (ACS-3)."""
    return bytes([0x27, 0x80, code, 1, lba, 0, 0, 0x40, 0, 0, 0, 0, slot << 3, 0])


def issue(hba: Hba, slot: int, is_queued: bool) -> None:
    if is_queued:
        hba.write(PXSACT, 1 << slot)
    hba.write(PXCI, 1 << slot)


def until(hba: Hba, memory: bytearray, slot: int, step: Step) -> None:
    """Goes on with a slot's command up to this step."""
    while hba.look().next[slot] != step:
        assert hba.move(memory) or hba.look().next[slot] != Step.NONE, "the command is stuck"
        if hba.look().want == Want.NOTHING and hba.look().next[slot] not in (step, Step.NONE):
            hba.step(slot)


memory = bytearray(0x10000)
with Hba(bytes(SECTORS * 512), depth=32) as hba:
    assert (hba.read(0x00), hba.read(0x10), hba.read(0x13C), hba.read(0x104, 8)) == (0xC1249F00, 0x00010301, 0, 0)
    refused(ahci.Status.WRONG_LENGTH, lambda: hba.read(0, 3))
    refused(ahci.Status.WRONG_LENGTH, lambda: hba.write(0, 0, 5))
    assert hba.look().sign  # FRE is 0, so the FIS is taken and not written; it is written once FRE is 1
    hba.sign()
    assert (hba.look().want, hba.read(PXSIG)) == (Want.NOTHING, 0x101)
    refused(ahci.Status.NOT_READY, hba.sign)
    assert hba.write(0x04, 0x80000002) == 0
    hba.write(PXCLB, LIST)
    hba.write(PXFB, RECEIVED)
    assert hba.write_breaks(Rule.START_WITHOUT_RECEIVING, PXCMD, 1) and not hba.write_breaks(Rule.START_WITHOUT_RECEIVING, PXCMD, 0x10)
    for at in (0x08, 0x100, 0x108, 0x110, 0x114):  # IS, PxCLB, PxFB, PxIS and PxIE have reserved bits
        assert hba.write_breaks(Rule.RESERVED_BITS, at, 0xFFFFFFFF)
    assert not hba.write_breaks(Rule.RESERVED_BITS, 0x130, 0xFFFFFFFF)  # "software should write all 1s to the PxSERR register" (section 10.4.2)
    hba.write(PXSCTL, 0xFFFFF300)  # PMP and SPM are read and write, though AHCI doesn't use them (section 3.3.11)
    assert hba.read(PXSCTL) == 0x000FF300
    hba.write(PXSCTL, 0)
    refused(ahci.Status.NO_SUCH_REGISTER, lambda: hba.write_breaks(Rule.RESERVED_BITS, 0x13C, 1))
    hba.write(PXCMD, 0x10)
    assert hba.look().sign and hba.look().depth == 32
    hba.sign()
    assert (hba.look().want, hba.look().address, len(hba.bytes())) == (Want.WRITE, RECEIVED + 0x40, 20)
    hba.run(memory)
    assert (hba.read(PXSIG), hba.read(PXTFD), memory[RECEIVED + 0x40]) == (0x101, 0x150, 0x34)
    hba.write(PXSERR, 0xFFFFFFFF)
    hba.write(PXIS, 0xFFFFFFFF)
    hba.write(PXIE, 0x7800000F)
    hba.write(PXCMD, 0x11)

    # IDENTIFY DEVICE: the model number, and an interrupt
    lay(memory, 0, bytes([0x27, 0x80, 0xEC]), 512, False)
    issue(hba, 0, False)
    hba.run(memory)
    assert bytes(memory[DATA + 54:DATA + 64]) == b"OSTFAWERN " and hba.look().interrupt

    # a queued write, and what the journal says of it
    memory[DATA:DATA + 512] = b"\xAA" * 512
    lay(memory, 3, queued(0x61, 3, 5), 512, True)
    issue(hba, 3, True)
    until(hba, memory, 3, Step.SERVE)
    number = hba.port().numbers[3]
    assert hba.entry(number).lba == 5 and hba.entry_bytes(number) == b"\xAA" * 512 and hba.copy(5) == bytes(512)
    hba.run(memory)
    assert hba.copy(5) == b"\xAA" * 512 and hba.read(PXSACT) == 0
    refused(ahci.Status.NO_SUCH_SECTOR, lambda: hba.copy(SECTORS))
    refused(ahci.Status.NO_SUCH_ENTRY, lambda: hba.entry(1 << 40))

    # the journal is discarded, and numbers go on
    next_number = hba.port().next
    assert hba.trim() == next_number and hba.port().first == next_number == hba.port().next
    refused(ahci.Status.NO_SUCH_ENTRY, lambda: hba.entry(number))
    assert hba.copy(5) == b"\xAA" * 512 and hba.trim() == 0

    # a queued read fails; the port halts, and its log is read once it was started again
    lay(memory, 1, queued(0x60, 1, 5), 512, False)
    issue(hba, 1, True)
    until(hba, memory, 1, Step.SERVE)
    assert hba.port().numbers[1] == next_number
    refused(ahci.Status.BUSY, hba.trim)
    refused(ahci.Status.NOT_READY, lambda: hba.fail(1, 0x40, 6))
    refused(ahci.Status.BAD_TAG, lambda: hba.fail(32, 0x40, 5))
    hba.fail(1, 0x40, 5)
    hba.run(memory)
    assert hba.read(PXTFD) == 0x4041
    hba.write(PXCMD, 0x10)
    hba.write(PXCMD, 0x11)
    lay(memory, 0, bytes([0x27, 0x80, 0x2F, 0, 0x10, 0, 0, 0, 0, 0, 0, 0, 1]), 512, False)
    issue(hba, 0, False)
    until(hba, memory, 0, Step.RECOVER)
    assert hba.step(0) > 0
    hba.run(memory)
    assert (memory[DATA], memory[DATA + 3], memory[DATA + 4]) == (1, 0x40, 5)

    # a read that the disk refuses, and an address that is no memory
    lay(memory, 0, bytes([0x27, 0x80, 0xC8, 0, 5, 0, 0, 0x40, 0, 0, 0, 0, 1]), 512, False)
    issue(hba, 0, False)
    until(hba, memory, 0, Step.SEND)
    refused(ahci.Status.BAD_LBA, lambda: hba.refuse(0, 0x40, 1 << 48))
    hba.refuse(0, 0x40, 5)
    hba.run(memory)
    assert hba.read(PXTFD) == 0x4041
    refused(ahci.Status.NOT_READY, lambda: hba.step(0))
    hba.write(PXCMD, 0x10)
    hba.write(PXCLB, 0x00F00000)
    hba.write(PXCMD, 0x11)
    issue(hba, 0, False)
    hba.step(0)
    refused(ahci.Status.WRONG_LENGTH, lambda: hba.supply(b""))
    hba.unmapped()
    assert hba.read(PXIS) & 1 << 29

    # a reset hands the journal out if the queue has requests
    hba.write(0x04, 0x80000001)
    assert (hba.read(PXCMD), hba.read(PXSIG)) == (6, 0xFFFFFFFF)

    # and leaves the bases; power-on clears them, and drops what is outstanding
    hba.write(PXCLB, LIST)
    hba.write(PXCMD, 0x10)
    hba.run(memory)
    hba.write(PXCMD, 0x11)
    issue(hba, 3, True)
    until(hba, memory, 3, Step.SERVE)
    assert (hba.read(PXFB), hba.read(PXSACT)) == (RECEIVED, 8) and hba.power_on() == 2
    assert [hba.read(at) for at in (PXCLB, PXFB, PXCMD, PXTFD, PXSIG, PXSERR, PXSACT)] == [0, 0, 6, 0x80, 0xFFFFFFFF, 0x04050000, 0]
    assert hba.look().want == Want.NOTHING and not any(hba.look().next) and hba.copy(5) == b"\xAA" * 512 and hba.power_on() == 0

    # the link is lost and found, a FIS meets an error, and the disk is pulled out and plugged in again
    hba.write(PXSERR, 0xFFFFFFFF)
    assert hba.lose_link() == 0 and (hba.read(PXSSTS), hba.read(PXSERR), hba.read(PXIS) & 0x400040) == (0, 0x10000, 0x400000)
    hba.find_link()
    assert (hba.read(PXSSTS) & 15, hba.read(PXSERR), hba.read(PXIS) & 0x400040) == (3, 0x04050000, 0x400040)
    hba.fail_interface(ahci.InterfaceError.CRC, False)
    assert (hba.read(PXSERR), hba.read(PXIS) & 0x0C000000) == (0x04250001, 0x04000000)
    assert hba.unplug() == 0 and hba.read(PXSSTS) == 0
    hba.find_link()
    hba.write(PXSCTL, 0x301)
    hba.write(PXSCTL, 0x300)
    assert hba.read(PXSSTS) == 0 and hba.copy(5) == b"\xAA" * 512
    hba.plug()
    assert hba.read(PXSSTS) & 15 == 3

    # another disk is plugged in where one was pulled out: it has sectors of its own, and the numbers of its journal go on
    other, name = bytearray(b"\x55" * 1024), ahci.Identity(serial="00000002")
    refused(ahci.Status.NOT_READY, lambda: hba.plug_other(other, 8, 4, name))
    assert hba.unplug() == 0
    before = hba.port().next
    refused(ahci.Status.BAD_SIZE, lambda: hba.plug_other(other, 0, 4, name))
    refused(ahci.Status.BAD_DEPTH, lambda: hba.plug_other(other, 8, 33, name))
    refused(ahci.Status.BAD_KIND, lambda: hba.plug_other(other, 8, 4, ahci.Identity(serial="\n")))
    assert hba.copy(5) == b"\xAA" * 512 and hba.read(PXSSTS) == 0
    assert hba.plug_other(other, 8, 4, name) == 0
    assert (hba.read(PXSSTS) & 15, hba.look().depth, hba.port().sectors, hba.port().first, hba.port().next) == (3, 4, 8, before, before)
    assert hba.copy(1) == b"\x55" * 512 and hba.copy(2) == bytes(512) and hba.touched() == []
    refused(ahci.Status.BAD_KIND, lambda: hba.fail_interface(20, True))  # type: ignore[arg-type]

header, fis = struct.pack("<HHIQ16x", 5, 1, 0, TABLES), queued(0x60, 2, 5).ljust(20, b"\0")
assert command_breaks(Rule.TAG_NOT_SLOT, 3, True, header, fis) and not command_breaks(Rule.TAG_NOT_SLOT, 2, True, header, fis)
assert command_breaks(Rule.QUEUE_WITHOUT_ACTIVE, 2, False, header, fis)
# ACS-3 and Serial ATA 3.1: NCQ NON-DATA, SEND and RECEIVE FPDMA QUEUED are queued commands, with a tag and Auxiliary; READ DMA is none. AHCI 1.3.1, 5.5.1: A is of PACKET
for code in (0x60, 0x61, 0x63, 0x64, 0x65):
    ncq = bytes([0x27, 0x80, code]).ljust(12, b"\0") + bytes([2 << 3]).ljust(8, b"\0")
    assert command_breaks(Rule.QUEUE_WITHOUT_ACTIVE, 2, False, header, ncq) and not command_breaks(Rule.ACTIVE_WITHOUT_QUEUE, 2, True, header, ncq)
    assert command_breaks(Rule.TAG_NOT_SLOT, 3, True, header, ncq) and not command_breaks(Rule.TAG_NOT_SLOT, 2, True, header, ncq)
    assert not command_breaks(Rule.RESERVED_FIS, 2, True, header, ncq[:16] + b"\1\0\0\0")
unqueued = bytes([0x27, 0x80, 0xC8]).ljust(12, b"\0") + bytes([1]).ljust(8, b"\0")
assert command_breaks(Rule.ACTIVE_WITHOUT_QUEUE, 2, True, header, unqueued) and command_breaks(Rule.RESERVED_FIS, 2, False, header, unqueued[:16] + b"\1\0\0\0")
packet = struct.pack("<HHIQ16x", 1 << 5 | 5, 0, 0, TABLES)
assert not command_breaks(Rule.ATAPI_FLAG, 0, False, packet, b"\x27\x80\xA0".ljust(20, b"\0")) and command_breaks(Rule.ATAPI_FLAG, 0, False, packet, unqueued)
assert entry_breaks(Rule.ODD_ADDRESS, struct.pack("<QII", DATA + 1, 0, 511)) and not entry_breaks(Rule.EVEN_COUNT, struct.pack("<QII", DATA, 0, 511))
assert entry_breaks(Rule.RESERVED_ENTRY, struct.pack("<QII", DATA, 1, 511)) and not entry_breaks(Rule.RESERVED_ENTRY, struct.pack("<QII", DATA, 0, 1 << 31 | 511))
assert command_breaks(Rule.RESET_FLAGS, 0, False, struct.pack("<HHIQ16x", 1 << 8 | 5, 0, 0, TABLES), bytes([0x27, 0]).ljust(15, b"\0") + bytes([4]) + bytes(4))
bist, longer = (struct.pack("<HHIQ16x", 1 << 9 | dwords, 0, 0, TABLES) for dwords in (3, 5))  # a BIST Activate FIS has three dwords (Serial ATA)
for rule in (Rule.FIS_LENGTH, Rule.NO_COMMAND_FIS, Rule.BIST_FLAG):
    assert not command_breaks(rule, 0, False, bist, b"\x58".ljust(20, b"\0"))
assert command_breaks(Rule.FIS_LENGTH, 0, False, longer, b"\x58".ljust(20, b"\0")) and command_breaks(Rule.NO_COMMAND_FIS, 0, False, header, b"\x58".ljust(20, b"\0"))
assert length_breaks(Rule.LIST_TOO_SHORT, fis, 0) and length_breaks(Rule.LIST_TOO_SHORT, fis, 511) and not length_breaks(Rule.LIST_TOO_LONG, fis, 512)
refused(ahci.Status.BAD_SIZE, lambda: Hba(bytes(100), 32))
refused(ahci.Status.BAD_KIND, lambda: Hba(bytes(512), 32, ahci.Capabilities(ncs=33)))
refused(ahci.Status.BAD_KIND, lambda: Hba(bytes(512), 32, ahci.Capabilities(iss=0)))
few = ahci.Capabilities(ncs=8, iss=1, s64a=False, sncq=False, sss=True, sclo=False, salp=True, pmd=False)
with Hba(bytes(512), depth=32, capabilities=few) as hba:
    assert (hba.read(0x00), hba.read(0x118), hba.read(0x128)) == (0x0C140700, 0x00000004, 0)
    hba.write(0x118, 0x0C000002)
    assert (hba.read(0x118), hba.read(0x128)) == (0x0C000006, 0x00000113)
refused(ahci.Status.BAD_DEPTH, lambda: Hba(bytes(512), 33))
with Hba(bytes(512), depth=32) as hba:  # what names the disk, and its write cache
    hba.identity(ahci.Identity("S1", "F", "A MODEL", 7200))
    for wrong in (ahci.Identity(rotation=2), ahci.Identity(rotation=0xFFFF), ahci.Identity(model="\n"), ahci.Identity(serial="\u00e9")):
        refused(ahci.Status.BAD_KIND, lambda: hba.identity(wrong))
    assert not hba.write_cache_enabled
    hba.write_cache(True)
    assert hba.write_cache_enabled
    hba.write_cache(False)
    assert not hba.write_cache_enabled
memory = bytearray(0x10000)
with Hba(b"\x11" * 512 * 8, depth=32) as hba:  # a TRIM makes sectors zeros, those of one range in each step, or only advises
    hba.write(PXCLB, LIST)
    hba.write(PXFB, RECEIVED)
    hba.write(PXCMD, 0x10)
    hba.run(memory)
    hba.write(PXCMD, 0x11)
    hba.trim_zeros(True)
    memory[DATA:DATA + 512] = struct.pack("<QQQ", 1 << 48 | 2, 7, 2 << 48 | 5).ljust(512, b"\0")
    lay(memory, 0, bytes([0x27, 0x80, 0x06, 1, 0, 0, 0, 0x40, 0, 0, 0, 0, 1]), 512, True)
    issue(hba, 0, False)
    until(hba, memory, 0, Step.EXECUTE)
    for zeros in ((2, 1), (5, 2)):
        number = hba.port().next
        assert hba.trim_range(0) == zeros and hba.step(0) == 0 and hba.entry(number) == ahci.Entry(*zeros, ahci.Event.ZERO, 0, 0)
    assert hba.trim_range(0) is None and hba.port().next == number + 1
    hba.run(memory)
    assert (hba.read(PXTFD), hba.read(PXCI)) == (0x40, 0) and [hba.copy(lba)[511] for lba in range(8)] == [0x11, 0x11, 0, 0x11, 0x11, 0, 0, 0x11]
    hba.trim_zeros(False)
    memory[DATA:DATA + 8] = struct.pack("<Q", 1 << 48 | 3)
    issue(hba, 0, False)
    until(hba, memory, 0, Step.EXECUTE)
    assert hba.trim_range(0) is None
    hba.run(memory)
    assert hba.read(PXTFD) == 0x40 and hba.copy(3) == b"\x11" * 512 and hba.port().next == number + 1
    refused(ahci.Status.BAD_TAG, lambda: hba.trim_range(32))
    for supported, high, low in ((False, 0x0C, 0x00), (True, 0x4C, 0x20)):  # word 69 of IDENTIFY DEVICE: DRAT and RZAT
        hba.trim_zeros(supported)
        lay(memory, 0, bytes([0x27, 0x80, 0xEC]), 512, False)
        issue(hba, 0, False)
        hba.run(memory)
        assert (memory[DATA + 139], memory[DATA + 138]) == (high, low)
with Hba.over(b"", 1 << 28, 32) as hba:  # a disk that commands of 28 bits don't reach whole: below FFF_FFFFh (ACS-3, "IDENTIFY DEVICE", words 60 and 61)
    hba.write(PXCLB, LIST)
    hba.write(PXFB, RECEIVED)
    hba.write(PXCMD, 0x10)
    hba.run(memory)
    for code, device, count, ends in ((0xC8, 0x4F, 1, 0x41), (0xC8, 0x4F, 2, 0x41), (0x40, 0x4F, 1, 0x41), (0x25, 0x40, 1, 0x40), (0xCA, 0x4F, 1, 0x41)):
        hba.write(PXCMD, 0x11)
        lay(memory, 0, bytes([0x27, 0x80, code, 0, 0xFF, 0xFF, 0xFF, device, 0x0F if code == 0x25 else 0, 0, 0, 0, count]), 512 * count * (code != 0x40), code == 0xCA)
        issue(hba, 0, False)
        hba.run(memory)
        assert hba.read(PXTFD) & 0xFF == ends
        if ends == 0x41:  # IDNF at LBA FFF_FFFFh
            assert memory[RECEIVED + 0x43:RECEIVED + 0x48] == b"\x10\xFF\xFF\xFF\x0F"
        hba.write(PXCMD, 0x10)
    hba.write(PXCMD, 0x11)
    lay(memory, 0, bytes([0x27, 0x80, 0xC8, 0, 0xFE, 0xFF, 0xFF, 0x4F, 0, 0, 0, 0, 1]), 512, False)
    issue(hba, 0, False)
    hba.run(memory)
    assert hba.read(PXTFD) == 0x40
    lay(memory, 0, bytes([0x27, 0x80, 0xB0, 0xD4, 0x81, 0x4F, 0xC2, 0x40]), 0, False)  # a captive self-test has found no error: C24Fh in LBA 23:8
    issue(hba, 0, False)
    hba.run(memory)
    assert hba.read(PXTFD) == 0x40 and memory[RECEIVED + 0x44:RECEIVED + 0x47] == b"\x00\x4F\xC2"
    lay(memory, 0, bytes([0x27, 0x80, 0xEC]), 512, False)
    issue(hba, 0, False)
    hba.run(memory)
    assert memory[DATA + 120:DATA + 124] == b"\xFF\xFF\xFF\x0F" and memory[DATA + 152:DATA + 154] == b"\x0E\x85"  # words 60, 61 and 76
with Hba(bytes(512), depth=32) as hba:  # PxFB is no memory: HBFS, and no second signature before the driver's next write
    hba.write(PXFB, 0x100000)
    hba.write(PXCMD, 0x10)
    hba.run(bytearray(0x1000))
    assert hba.read(PXIS) & 0x20000000 and hba.read(PXSIG) == 0xFFFFFFFF
print("every call of a controller, and every refusal that it has")
