"""Faults to plant in the small port of C: each is what somebody could believe, as an edit of small_port/port.c."""
from typing import List, NamedTuple, Tuple

DATA = ("data of tag *", "disk, sector *", "memory beside *", "identify word *", "log 10h")


class Planted(NamedTuple):
    name: str
    belief: str
    places: Tuple[str, ...]  # it has to be found at one of these
    edits: Tuple[Tuple[str, str], ...]  # a text that port.c has once, and what it becomes


LENGTH = "(word(entry + 12) & 0x3fffff) + 1"
LOOP = "list && at < entries && done < length"
CUT = "        if (piece > length - done)\n            piece = length - done;\n"
DONE = "        done += piece;\n"

# those of a trial by an emulator's author, who found 6 of them by none of 300 random scripts of one piece and a few sectors
TRIED: List[Planted] = [
    Planted("count_of_one_byte", "A command has 255 sectors at most.", (*DATA, "DMA Setup FIS", "D2H Register FIS"),
            (("count = fis[3] | fis[11] << 8", "count = fis[3]"),)),
    Planted("sixteen_entries", "A PRDT has 16 entries at most.", DATA, ((LOOP, "list && at < entries && at < 16 && done < length"),)),
    Planted("interrupt_in_the_length", "I is a bit of DBC.", DATA, ((LENGTH, "(word(entry + 12) & 0x803fffff) + 1"),)),
    Planted("contiguous_entries", "The pieces follow each other in memory.", DATA, (("address = wide(entry)", "address = wide(list + 0x80) + done"),)),
    Planted("entry_after_a_large_one", "An entry of over 64 KiB takes the place of two.", DATA,
            ((DONE, DONE + "        if (piece > 0x10000)\n            at++;\n"),)),
    Planted("fua_refused", "FUA is no bit of a disk without a write cache.", ("D2H Register FIS",),
            (("disk.failed || tag >= disk.depth", "disk.failed || fis[7] & 0x80 || tag >= disk.depth"),)),
    Planted("register_fis_at_44h", "The D2H Register FIS has its place after a word of its own.", ("D2H Register FIS",), (("REGISTER = 0x40", "REGISTER = 0x44"),)),
    Planted("one_tag_of_two", "A Set Device Bits FIS names the first of two tags.", ("PxSACT",),
            (("receive_bits(GOOD, 0, done)", "receive_bits(GOOD, 0, count == 2 ? 1u << (tags[0] & 31) : done)"),)),
    Planted("busy_after_an_error", "The device is busy after an error.", ("PxTFD",),
            (("    receive_bits(GOOD | ERR, error, 0);\n", "    receive_bits(GOOD | ERR, error, 0);\n    port.tfd |= BSY;\n"),)),
    Planted("prdbc_less_one", "PRDBC is less by one, as DBC is.", ("PRDBC",), (("move(slot, page, SECTOR, true))", "move(slot, page, SECTOR, true) - 1)"),)),
    Planted("sum_in_the_log", "The last byte of log 10h is the sum of the others.", ("log 10h",), (("page[511] = -sum", "page[511] = sum"),)),
    Planted("requests_survive", "A recovery leaves the disk's requests as they were.", ("D2H Register FIS",),
            (("disk.requests[each].waits = false", "disk.requests[each].waits = disk.requests[each].waits && each != (int)tag"),
             ("            disk.requests[tag].waits = false;\n    }\n    port.cmd", "            (void)tag;\n    }\n    port.cmd"))),
    Planted("flush_without_interrupt", "FLUSH CACHE EXT ends without an interrupt.", ("PxIS",),
            (("case 0xea:\n        receive_register(slot, 0x40,", "case 0xea:\n        receive_register(slot, 0,"),)),
    Planted("sdbs_clears_dhrs", "PxIS has the bit of the last FIS.", ("PxIS",), (("port.is |= SDBS", "port.is = (port.is & ~DHRS) | SDBS"),)),
    Planted("depth_in_word_75", "Word 75 is the depth.", ("identify word 75",), (("page[2 * 75] = disk.depth - 1", "page[2 * 75] = disk.depth"),)),
    Planted("another_sector_too", "A write also lands on the first sector.", ("disk, sector *",),
            (("        request->waits = false;\n", "        if (request->write)\n            memcpy(disk.bytes, port_sectors(request->lba, 1), SECTOR);\n        request->waits = false;\n"),)),
]

OWN: List[Planted] = [
    Planted("ctbau_ignored", "A command table lies below 4 GiB.", ("D2H Register FIS",), (("wide(header_of(slot) + 8) & ~0x7full", "word(header_of(slot) + 8) & ~0x7fu"),)),
    Planted("dbau_ignored", "Data lie below 4 GiB.", DATA, (("address = wide(entry)", "address = word(entry)"),)),
    Planted("pieces_of_four_bytes", "A piece is a multiple of four bytes.", DATA, ((LENGTH, "((word(entry + 12) & 0x3fffff) + 4) & ~3u"),)),
    Planted("piece_in_a_page", "A piece ends with its page.", DATA,
            (("memcpy(memory, data + done, piece)", "memcpy(memory, data + done, piece > 4096 - (address & 4095) ? 4096 - (address & 4095) : piece)"),)),
    Planted("whole_list_moved", "The list says how many bytes are moved.", DATA, ((CUT, ""), (LOOP, "list && at < entries && length"))),
    Planted("priority_in_the_tag", "The tag is the count's bits 15 to 3.", ("D2H Register FIS",), (("tag = fis[12] >> 3", "tag = (fis[12] | fis[13] << 8) >> 3"),)),
    Planted("lba_in_the_device", "The device register has bits 27 to 24 of the LBA.", ("D2H Register FIS",),
            (("return fis[4] |", "return (uint64_t)(fis[7] & 15) << 24 | fis[4] |"),)),
    Planted("reserved_bits_in_the_length", "DBC has 31 bits.", DATA, ((LENGTH, "(word(entry + 12) & 0x7fffffff) + 1"),)),
    Planted("prdtl_of_one_byte", "PRDTL has eight bits.", DATA, (("word(header_of(slot)) >> 16,", "word(header_of(slot)) >> 16 & 0xff,"),)),
    Planted("first_lba_in_the_log", "The log names the first sector of the command.", ("log 10h",), (("    stop(tag, error, lba);\n", "    stop(tag, error, disk.requests[tag].lba);\n"),)),
    Planted("high_word_first", "Word 60 is the high half of the number of sectors.", ("identify word 60",),
            (("put_word(page + 2 * 60, disk.sectors)", "put_word(page + 2 * 60, disk.sectors << 16 | disk.sectors >> 16)"),)),
    Planted("pio_setup_without_d", "D is 0 in a PIO Setup FIS.", ("PIO Setup FIS",), (("0x5f, 0x60", "0x5f, 0x40"),)),
    Planted("failed_tag_in_sactive", "SActive has the bit of a command that failed.", ("PxSACT",), (("receive_bits(GOOD | ERR, error, 0)", "receive_bits(GOOD | ERR, error, 1u << tag)"),)),
    Planted("error_left_after_the_log", "The error stays in PxTFD until the next command.", ("PxTFD",),
            (("    port.tfd = GOOD;\n    port.is |= PSS;", "    port.tfd = GOOD | (port.tfd & 0xff00);\n    port.is |= PSS;"),)),
    Planted("one_sector_past_the_end", "The last sector is that of this number.", ("D2H Register FIS",), (("lba + count > disk.sectors", "lba + count > disk.sectors + 1ull"),)),
    Planted("one_entry_a_sector", "An entry has a sector at most.", DATA, ((CUT, CUT + "        if (piece > SECTOR)\n            piece = SECTOR;\n"),)),
]
PLANTED: List[Planted] = TRIED + OWN


def edited(source: str, planted: Planted) -> str:
    """port.c with the fault. ValueError: port.c doesn't have a text once."""
    for old, new in planted.edits:
        if source.count(old) != 1:
            raise ValueError(f"{planted.name}: port.c has `{old}` {source.count(old)} times")
        source = source.replace(old, new)
    return source
