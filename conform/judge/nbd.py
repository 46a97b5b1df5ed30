"""A disk of zeros that an emulator reaches by NBD, whose reads and writes fail while the tool wants it so.

The protocol is that of the Network Block Device project ("doc/proto.md"): fixed newstyle negotiation, simple replies.
"""
import select
import socket
import struct
from typing import Optional

from .adapter import EmulatorFault
from .layout import SECTOR

OPTION_EXPORT_NAME, OPTION_ABORT, OPTION_GO = 1, 2, 7
READ, WRITE, DISCONNECT = 0, 1, 2
IO_ERROR = 5
SECONDS = 60.0


class NbdDisk:
    """A disk at a Unix socket, for one emulator."""

    def __init__(self, path: str, sectors: int) -> None:
        self.image = bytearray(sectors * SECTOR)
        self.error = 0  # what reads and writes are answered
        self.done = 0  # how many there were
        self.listener = socket.socket(socket.AF_UNIX)
        self.listener.bind(path)
        self.listener.listen(1)
        self.peer: Optional[socket.socket] = None

    def fileno(self) -> int:
        return (self.peer or self.listener).fileno()

    def close(self) -> None:
        for end in (self.peer, self.listener):
            if end:
                end.close()

    def take(self, length: int) -> bytes:
        assert self.peer
        data = bytearray()
        try:
            while len(data) < length:
                part = self.peer.recv(length - len(data))
                if not part:
                    raise EmulatorFault("the emulator has closed its disk")
                data += part
        except OSError as why:
            raise EmulatorFault(f"the emulator's disk has stopped in the middle of a message: {why}") from why
        return bytes(data)

    def give(self, data: bytes) -> None:
        assert self.peer
        try:
            self.peer.sendall(data)
        except OSError as why:
            raise EmulatorFault(f"the emulator takes no answer of its disk: {why}") from why

    def connect(self) -> None:
        """The handshake, up to the last option."""
        self.peer, _ = self.listener.accept()
        self.peer.settimeout(SECONDS)
        self.give(b"NBDMAGICIHAVEOPT" + struct.pack(">H", 3))
        self.take(4)
        while True:
            _, option, length = struct.unpack(">8sII", self.take(16))
            self.take(length)
            about = struct.pack(">QH", len(self.image), 1 | 4)  # flags: has flags, takes flush
            if option == OPTION_EXPORT_NAME:
                return self.give(about)
            if option == OPTION_GO:
                self.reply_option(option, 3, b"\0\0" + about)
                return self.reply_option(option, 1, b"")
            if option == OPTION_ABORT:
                raise EmulatorFault("the emulator wants no disk by NBD")
            self.reply_option(option, 0x80000001, b"")

    def reply_option(self, option: int, kind: int, data: bytes) -> None:
        self.give(struct.pack(">QIII", 0x0003E889045565A9, option, kind, len(data)) + data)

    def pump(self) -> None:
        """Carries out all that has come; a read or a write fails, with nothing changed, where `error` says so."""
        while select.select([self], [], [], 0)[0]:
            if self.peer is None:
                self.connect()
                continue
            magic, _, kind, cookie, offset, length = struct.unpack(">IHHQQI", self.take(28))
            if magic != 0x25609513:
                raise EmulatorFault(f"the emulator sends its disk no request of NBD: {magic:08x}")
            data = self.take(length) if kind == WRITE else b""
            error = self.error if kind in (READ, WRITE) else 0
            if kind == WRITE and not error:
                self.image[offset : offset + length] = data
            self.done += kind in (READ, WRITE)
            if kind != DISCONNECT:
                answer = bytes(self.image[offset : offset + length]) if kind == READ and not error else b""
                self.give(struct.pack(">IIQ", 0x67446698, error, cookie) + answer)
