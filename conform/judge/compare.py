"""Compares the port with the model after a line: all registers, and the received FIS area."""
from typing import Dict, List

from . import layout
from .differences import Difference, differs
from .driver import Driver
from .model import Step


class Comparer:
    """Holds what the model's registers are, and which bits are known to differ since an earlier line."""

    def __init__(self, driver: Driver) -> None:
        self.driver = driver
        self.words: Dict[str, int] = {}
        self.carried: Dict[str, Difference] = {}

    def expected(self, name: str) -> int:
        """The model's word. A slot that the port doesn't know of yet has no bit in PxCI."""
        untold = sum(1 << tag for tag in self.driver.untold)
        return self.words[name] & ~untold if name == "PxCI" else self.words[name]

    def got(self) -> Dict[str, int]:
        return dict(zip(layout.REGISTERS, self.driver.adapter.read_registers([it[0] for it in layout.REGISTERS.values()])))

    def compare(self, step: Step) -> List[Difference]:
        """What differs at this line and didn't before it."""
        self.words.update(step.registers)
        if not self.driver.started:
            return []
        return self.registers() + self.area(step)

    def registers(self) -> List[Difference]:
        found, carried = [], {}
        for name, word in self.got().items():
            expected, got = self.expected(name).to_bytes(4, "big"), word.to_bytes(4, "big")
            if expected == got:
                continue
            now = Difference(name, expected, got, differs(expected, got), self.note(name))
            carried[name] = now
            mask = self.news(now)
            if any(mask):
                found.append(now._replace(mask=mask))
        self.carried = carried
        return found

    def note(self, name: str) -> str:
        """Why the model's own PxCI may have more bits than what is expected."""
        untold = ", ".join(str(tag) for tag in sorted(self.driver.untold))
        return f"PxCI is written at `accept`: not yet for slot {untold}" if name == "PxCI" and untold else ""

    def news(self, now: Difference) -> bytes:
        """The bits that differ in another way than after the line before."""
        before = self.carried.get(now.place)
        if before is None:
            return now.mask
        same = bytes(m & n & ~(a ^ b) for m, n, a, b in zip(now.mask, before.mask, now.got, before.got))
        return bytes(a & ~b for a, b in zip(now.mask, same))

    def area(self, step: Step) -> List[Difference]:
        """The FISes of this line alone: the area is cleared after each line."""
        area, found = bytearray(self.driver.area()), []
        if not any(area) and not step.received:
            return []
        for place in layout.FIS_PLACES:
            got = bytes(area[place.offset : place.offset + place.size])
            area[place.offset : place.offset + place.size] = bytes(place.size)
            expected = self.received(step, place)
            if expected != got:
                found.append(Difference(place.name, expected, got, differs(expected, got), "none came" if not any(got) else "none should come" if not any(expected) else ""))
        if any(area):
            found.append(Difference("received FIS area, elsewhere", bytes(len(area)), bytes(area), bytes(area)))
        self.driver.clear_area()
        return found

    def received(self, step: Step, place: layout.FisPlace) -> bytes:
        """The model's FIS of this line; where tags were completed one by one, SActive of the last FIS has the last tag alone."""
        fis = step.received.get(place.member, bytes(place.size))
        alone = self.driver.alone
        return fis[:4] + (1 << alone).to_bytes(4, "little") if place.member == "set_device_bits" and alone is not None else fis

    def go_on(self, step: Step) -> None:
        """After a line with known differences alone: ends those that would hide others, as a driver may."""
        if step.words[0] == "recover" and not step.answer.startswith("refused") and self.driver.adapter.way_back():
            self.driver.clear_area()
            self.level()
        elif "PxIS" in self.carried:
            self.level()

    def level(self) -> None:
        """Clears bits of PxIS that the model hasn't, and takes what differs in PxIS and PxTFD as known."""
        extra = self.got()["PxIS"] & ~self.expected("PxIS")
        if extra:
            self.driver.write(layout.PX_IS, extra)
        words = self.got()
        for name in ("PxIS", "PxTFD"):
            expected, got = self.expected(name).to_bytes(4, "big"), words[name].to_bytes(4, "big")
            self.carried.pop(name, None)
            if expected != got:
                self.carried[name] = Difference(name, expected, got, differs(expected, got))

