"""The stand-in: registers, guest memory and the received FIS area of one AHCI port, as an adapter of ahci_conform.

It works while it is called, and does nothing by itself; so nobody has to wait for it.
"""
from typing import Dict, List, Optional, Sequence, Tuple

from judge import layout
from judge.adapter import Adapter
from stand_in.disk import PIO_FIS, Command, Disk, register_fis
from stand_in.memory import Memory

DHRS, PSS, SDBS, TFES = 1, 2, 8, 1 << 30
ERR, DRQ, BSY = 0x01, 0x08, 0x80
CR, FR = 0x8000, 0x4000


class StandIn(Adapter):
    title = "the stand-in"
    patience = quiet = 0.0  # what comes has come when a call returns

    def start(self, sectors: int, depth: int) -> None:
        self.disk = self.new_disk(sectors, depth)
        self.memory = Memory()
        self.halted = False
        self.words: Dict[int, int] = {offset: 0 for offset, _, _ in layout.REGISTERS.values()}
        self.words.update({0x00: 0x40000000 | (depth - 1) << 8, 0x04: 0x80000000, 0x0C: 1, 0x10: 0x00010301})
        self.words.update({layout.PX_TFD: 0x40, 0x124: 0x101, 0x128: 0x123})

    def new_disk(self, sectors: int, depth: int) -> Disk:
        """The disk behind the port: another one can stand here, over a library for one."""
        return Disk(sectors, depth)

    def stop(self) -> None:
        pass

    # what the tool asks
    def read_memory(self, address: int, length: int) -> bytes:
        return self.memory.read(address, length)

    def write_memory(self, address: int, data: bytes) -> None:
        self.memory.write(address, data)

    def read_register(self, offset: int) -> int:
        return self.words.get(offset, 0)

    def write_register(self, offset: int, value: int) -> None:
        if offset == layout.PX_IS:
            self.acknowledge(value)
        elif offset == layout.PX_CMD:
            self.run(value)
        elif offset == layout.PX_SACT:
            self.activate(value)
        elif offset == layout.PX_CI:
            self.issue(value)
        elif offset in (layout.PX_CLB, layout.PX_FB):
            self.words[offset] = value

    def complete(self, tag: int) -> bool:
        return self.complete_together([tag])

    def complete_together(self, tags: Sequence[int]) -> bool:
        if self.halted or any(tag not in self.disk.commands for tag in tags):
            return False
        for tag in tags:
            setup, data = self.disk.serve(tag)
            self.put_fis("DMA Setup FIS", setup)
            if data is not None:
                self.scatter(self.pieces(tag), data)
        self.receive_bits(self.disk.completed(list(tags)))
        return True

    def fail(self, tag: int, error: int, lba: int) -> bool:
        if tag not in self.disk.commands:
            return False
        self.receive_bits(self.disk.fail(tag, error, lba))
        return True

    def sector(self, lba: int) -> Optional[bytes]:
        return self.disk.sector(lba)

    def put_sector(self, lba: int, data: bytes) -> None:
        self.disk.put_sector(lba, data)

    # registers that software writes (AHCI 1.3.1, section 3.3)
    def acknowledge(self, value: int) -> None:
        self.words[layout.PX_IS] &= ~value

    def activate(self, value: int) -> None:
        self.words[layout.PX_SACT] |= value

    def run(self, value: int) -> None:
        if self.words[layout.PX_CMD] & layout.ST and not value & layout.ST:
            self.stop_port()
        bits = value & (layout.ST | layout.FRE)
        self.words[layout.PX_CMD] = bits | (CR if value & layout.ST else 0) | (FR if value & layout.FRE else 0)

    def stop_port(self) -> None:
        self.words[layout.PX_SACT] = self.words[layout.PX_CI] = 0
        self.halted = False

    def issue(self, value: int) -> None:
        self.words[layout.PX_CI] |= value
        for tag in range(32):
            if value >> tag & 1 and not self.halted:
                self.fetch(tag)

    # commands (section 4.2)
    def header(self, tag: int) -> bytes:
        return self.memory.read(self.words[layout.PX_CLB] + 32 * tag, 32)

    def table(self, tag: int) -> int:
        return int.from_bytes(self.header(tag)[8:12], "little")

    def pieces(self, tag: int) -> List[Tuple[int, int]]:
        """Addresses and lengths of the PRDT."""
        count, first = int.from_bytes(self.header(tag)[2:4], "little"), self.table(tag) + 0x80
        return [(self.memory.word(at), self.length(self.memory.word(at + 12))) for at in range(first, first + 16 * count, 16)]

    def length(self, last: int) -> int:
        return (last & 0x3FFFFF) + 1

    def fetch(self, tag: int) -> None:
        cfis = self.memory.read(self.table(tag), 20)
        if cfis[2] in (0x60, 0x61):
            self.receive_register(self.disk.take(tag, self.command(tag, cfis)), tag)
        elif cfis[2] == 0xEA:
            self.receive_register(self.disk.flush(), tag)
        elif cfis[2] == 0xEC:
            self.send_page(tag, self.disk.identify())
        else:
            self.send_page(tag, self.disk.read_log() if cfis[2] == 0x2F else None)

    def command(self, tag: int, cfis: bytes) -> Command:
        count = (cfis[3] | cfis[11] << 8) or 65_536
        write = cfis[2] == 0x61
        data = b"".join(self.memory.read(*piece) for piece in self.pieces(tag)) if write else b""
        return Command(write, self.lba(cfis), count, data[: count * layout.SECTOR])  # a list may have more bytes than the command moves

    def lba(self, cfis: bytes) -> int:
        return int.from_bytes(cfis[4:7] + cfis[8:11], "little")

    def scatter(self, pieces: List[Tuple[int, int]], data: bytes) -> None:
        done = 0
        for address, length in pieces:
            self.memory.write(address, data[done : done + length])
            done += length

    def send_page(self, tag: int, page: Optional[bytes]) -> None:
        """PIO data-in: the PIO Setup FIS, the page, and its E_Status."""
        if page is None:
            return self.receive_register(register_fis(True, 0x41, 0x04), tag)
        self.put_fis("PIO Setup FIS", PIO_FIS)
        self.scatter(self.pieces(tag), page)
        self.words[layout.PX_TFD] = PIO_FIS[15]
        self.words[layout.PX_IS] |= PSS
        self.words[layout.PX_CI] &= ~(1 << tag)

    # FISes that come from the disk (sections 3.3 and 4.2.1)
    def put_fis(self, name: str, fis: bytes) -> None:
        place = next(it for it in layout.FIS_PLACES if it.name == name)
        self.memory.write(self.words[layout.PX_FB] + place.offset, fis)

    def receive_register(self, fis: bytes, slot: int) -> None:
        self.put_fis("D2H Register FIS", fis)
        self.words[layout.PX_TFD] = fis[2] | fis[3] << 8
        if fis[1] & 0x40:
            self.words[layout.PX_IS] |= DHRS
        self.look_at_error(fis[2])
        if not fis[2] & (ERR | DRQ | BSY):
            self.words[layout.PX_CI] &= ~(1 << slot)

    def receive_bits(self, fis: bytes) -> None:
        self.put_fis("Set Device Bits FIS", fis)
        self.words[layout.PX_TFD] = self.words[layout.PX_TFD] & 0x88 | fis[2] & 0x77 | fis[3] << 8
        self.words[layout.PX_SACT] &= ~int.from_bytes(fis[4:8], "little")
        if fis[1] & 0x40:
            self.words[layout.PX_IS] |= SDBS
        self.look_at_error(fis[2])

    def look_at_error(self, status: int) -> None:
        if status & ERR:
            self.words[layout.PX_IS] |= TFES
            self.halted = True
