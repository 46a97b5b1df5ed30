"""The small port as an adapter of ahci_conform: a program of C behind a pipe, one for each script."""
import os
import select
import struct
import subprocess
from typing import Optional, Sequence

from judge.adapter import Adapter, EmulatorFault

HERE = os.path.dirname(os.path.abspath(__file__))
SECONDS = 60.0


class SmallPort(Adapter):
    title = "the small port"
    patience = quiet = 0.0  # what comes has come when a call returns
    guest_memory = ((0x10000000, 0x80000000), (0x100000000, 0x10000000))
    program = os.path.join(HERE, "out", "small_port")  # `make -C conform/small_port` builds it
    run: Optional["subprocess.Popen[bytes]"] = None

    def start(self, sectors: int, depth: int) -> None:
        self.run = subprocess.Popen([self.program], stdin=subprocess.PIPE, stdout=subprocess.PIPE)
        self.ask("s", sectors, depth)

    def stop(self) -> None:
        if self.run:
            self.run.kill()
            self.run.communicate()

    def ask(self, letter: str, first: int, second: int = 0, data: bytes = b"", answer: int = 0) -> bytes:
        """One request. Those without an answer wait in the buffer for the next one that has some."""
        assert self.run and self.run.stdin and self.run.stdout
        self.run.stdin.write(struct.pack("<cQQ", letter.encode(), first, second) + data)
        found = bytearray()
        while len(found) < answer:
            self.run.stdin.flush()
            ready, _, _ = select.select([self.run.stdout], [], [], SECONDS)
            part = os.read(self.run.stdout.fileno(), answer - len(found)) if ready else b""
            if not part:
                raise EmulatorFault(f"it has ended with status {self.run.wait(1)}" if ready else f"it has answered nothing for {SECONDS:.0f} seconds")
            found += part
        return bytes(found)

    def read_memory(self, address: int, length: int) -> bytes:
        return self.ask("r", address, length, answer=length)

    def write_memory(self, address: int, data: bytes) -> None:
        self.ask("w", address, len(data), data)

    def read_register(self, offset: int) -> int:
        return int.from_bytes(self.ask("R", offset, answer=4), "little")

    def write_register(self, offset: int, value: int) -> None:
        self.ask("W", offset, value)

    def complete(self, tag: int) -> bool:
        return self.complete_together([tag])

    def complete_together(self, tags: Sequence[int]) -> bool:
        return self.ask("c", 0, len(tags), bytes(tags), 1) == b"\1"

    def fail(self, tag: int, error: int, lba: int) -> bool:
        return self.ask("f", tag | error << 8, lba, answer=1) == b"\1"

    def sectors(self, lba: int, count: int) -> Optional[bytes]:
        return self.ask("d", lba, 512 * count, answer=512 * count)

    def put_sector(self, lba: int, data: bytes) -> None:
        self.ask("p", lba, 512, data)


