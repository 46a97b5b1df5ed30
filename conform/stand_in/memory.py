"""A guest's memory, of which only what was written takes room."""
from typing import Dict

PAGE = 4096


class Memory:
    def __init__(self) -> None:
        self.pages: Dict[int, bytearray] = {}

    def read(self, address: int, length: int) -> bytes:
        found = bytearray()
        while length:
            at = address % PAGE
            part = min(length, PAGE - at)
            page = self.pages.get(address - at)
            found += page[at : at + part] if page else bytes(part)
            address, length = address + part, length - part
        return bytes(found)

    def write(self, address: int, data: bytes) -> None:
        done = 0
        while done < len(data):
            at = (address + done) % PAGE
            part = data[done : done + PAGE - at]
            self.pages.setdefault(address + done - at, bytearray(PAGE))[at : at + len(part)] = part
            done += len(part)

    def word(self, address: int) -> int:
        return int.from_bytes(self.read(address, 4), "little")
