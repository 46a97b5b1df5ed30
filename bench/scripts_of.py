#!/usr/bin/env python3
"""Prints the script of one seed for `ahci replay`: some hundred lines, most of them lawful, no one a fault of the language.

    bench/scripts_of.py [--raw] [--large] SEED

The same seed has the same script with every version of Python: nothing is drawn but by `random()`, whose numbers are
fixed. Each script has its own disk of 1 to 64 sectors, its own depth of 1 to 32, now and then a first number, and its own liking for
each command. A
line that the port has to refuse stands in it now and then. The last line is `journal`.

With --raw the script is another one, in which `raw` lines stand too: windows of one or two sectors as docs/LAYOUTS.md has them, some with
what the port ignores, and now and then one that breaks a rule.

With --large it is another one again: an eighth of the scripts has a disk of up to 131,072 sectors, and there a few commands have 129
sectors and more, 65,536 at most, so many that all scripts together take little longer (seed 10 has four of 65,536); and in all of them commands end
with the last sector, or pass it by one, more often.
"""
import random
import signal
import struct
import sys

FREE, ISSUED, ACCEPTED, FAILED, DONE, HELD = "free", "issued", "accepted", "failed", "done", "held"
LARGEST = 10  # a seed whose script has commands of 65,536 sectors, so that they come among the first 20
REGISTERS = "0 4 c 10 100 104 108 10c 110 114 118 120 124 128 12c 130 134 138".split()


class Slot:
    def __init__(self, phase=FREE, number=0, lba=0, count=0):
        self.phase, self.number, self.lba, self.count = phase, number, lba, count


class Port:
    """The phases of the slots and the next entry's number: what lines that are to be taken need to know."""

    def __init__(self, sectors, depth, first):
        self.sectors, self.entries, self.halted = sectors, first, False
        self.slots = [Slot() for _ in range(depth)]

    def tags(self, *phases):
        return [tag for tag, slot in enumerate(self.slots) if slot.phase in phases]

    def moves(self, tags, before, after):
        """Moves slots on where each is in that phase, with an entry for each."""
        if len(set(tags)) == len(tags) and all(tag in self.tags(before) for tag in tags):
            self.entries += len(tags)
            for tag in tags:
                self.slots[tag].phase = after

    def takes(self, word, *given):
        """A command with its numbers, which changes nothing where the port refuses it."""
        if word == "collect":
            if given[1:] == tuple(self.slots[tag].number for tag in given[:1] if tag in self.tags(DONE)):
                self.moves(given[:1], DONE, FREE)
        elif word == "recover":
            self.entries += self.halted
            for tag in self.tags(FAILED, ISSUED, ACCEPTED) if self.halted else []:
                self.slots[tag].phase = DONE if self.slots[tag].phase == FAILED else HELD
            self.halted = False
        elif self.halted:
            return
        elif word in ("write", "read", "raw"):
            tag, lba, count = given
            if 1 <= count <= 65_536 and lba < 2**48 and tag in self.tags(FREE):
                self.slots[tag] = Slot(ISSUED, self.entries, lba, count)
                self.entries += 1
        elif word == "accept":
            tags = [tag for tag in given if tag in self.tags(ISSUED)]
            fits = all(self.slots[tag].lba + self.slots[tag].count <= self.sectors for tag in tags)
            self.moves(given, ISSUED, ACCEPTED if fits else FAILED)
            self.halted = not fits
        elif word == "serve":
            self.moves(given, ACCEPTED, DONE)
        elif word == "fail":
            tag, lba = given
            if tag in self.tags(ACCEPTED) and 0 <= lba - self.slots[tag].lba < self.slots[tag].count:
                self.moves([tag], ACCEPTED, FAILED)
                self.halted = True
        elif word == "reissue":
            self.moves(given, HELD, ISSUED)
        elif word in ("identify", "flush"):
            self.entries += not self.tags(ISSUED, ACCEPTED)


class Writer:
    """Draws the lines of one script."""

    # the phase in which a command's tag is to be, and how much it is liked at most
    COMMANDS = {
        "write": (FREE, 12), "read": (FREE, 12), "accept": (ISSUED, 24), "serve": (ACCEPTED, 16), "fail": (ACCEPTED, 3),
        "recover": (None, 3), "reissue": (HELD, 24), "collect": (DONE, 24), "reg": (None, 4), "ack": (None, 2),
        "identify": (None, 3), "flush": (None, 3), "show": (None, 4), "journal": (None, 1),
        "trim": (None, 6),
    }

    def __init__(self, seed, raw=False, large=False):
        self.random = random.Random(seed).random
        self.commands = {**self.COMMANDS, "raw": (FREE, 6)} if raw else self.COMMANDS
        self.first = self.one_of(["", "", "", " 0", " 7", f" {2**63 - 40}", f" {2**63}"])
        self.port = Port(1 + self.below(64), 1 + self.below(32), int(self.first or 0))
        self.likings = {word: 1 + self.below(most) for word, (_, most) in self.commands.items()}
        self.large, self.left = large, 0  # sectors that large commands may still have
        if large and self.below(8) == 0:
            self.port.sectors, self.left = self.up_to(256, 131_072), 8192
            if self.below(8) == 0:
                self.port.sectors = self.left = self.up_to(8193, 131_072)
        if large and seed == LARGEST:
            self.port.sectors, self.left = 65_536 + self.below(65_537), 4 * 65_536

    def below(self, end):
        return int(self.random() * end)

    def up_to(self, first, last):
        """A number between these, as likely in each doubling of the first."""
        low = first << self.below((last // first).bit_length())
        return min(last, low + self.below(low))

    def one_of(self, values):
        return values[self.below(len(values))]

    def seldom(self):
        return self.below(16) == 0

    def tag(self, phase):
        """A tag in that phase, but seldom, or where there is none, any tag."""
        tags = self.port.tags(phase)
        return self.below(32) if not tags or self.seldom() else self.one_of(tags)

    def word(self):
        """A command by the likings: one that is of no use now is liked an eighth as much, and a halted port wants `recover`."""
        weights = []
        for word, (phase, _) in self.commands.items():
            idle = phase and not self.port.tags(phase) or word == "recover" and not self.port.halted
            idle = idle or word in ("identify", "flush") and self.port.tags(ISSUED, ACCEPTED)
            idle = idle or word == "trim" and len(self.port.tags(FREE)) < len(self.port.slots)
            idle = idle or self.port.halted and phase not in (None, DONE)
            weight = self.likings[word] * (1 if idle else 8)
            weights.append((word, weight * 12 if word == "recover" and self.port.halted else weight))
        left = self.below(sum(weight for _, weight in weights))
        for word, weight in weights:
            left -= weight
            if left < 0:
                return word

    def span(self):
        """The first sector and the count of a command, which seldom passes the disk's end or is none at all."""
        end = self.port.sectors
        if self.seldom():
            return self.one_of([self.below(end + 8), 2**48 - 1, 2**48, 2**64 - 1]), self.one_of([0, 1, 9, 65_537, 131_072])
        count = 1 + self.below(min(end, 8))
        if self.large and self.below(32) == 0:
            return end - count + self.below(2), count  # the last sector, or one more
        if self.left >= 129 and self.below(8) == 0:
            most = min(end, self.left, 65_536)
            count = most if most > 8192 else self.up_to(129, most)
            self.left -= count
        return self.below(end - count + 1), count

    def window(self, tag):
        """The text of a window's header and bytes (docs/LAYOUTS.md, "Memory"), and the first sector and count of its command, a count of 0 where
        it breaks a rule."""
        base, count, is_write = 0x1000_0000 + tag * 0x0400_0000, 1 + self.below(min(self.port.sectors, 2)), self.below(2)
        lba = self.below(2**48) if self.seldom() else self.below(self.port.sectors - count + 1)
        sizes = [512 * count]
        if self.below(2):
            sizes = [2 + 2 * self.below(256 * count - 1)]
            sizes.append(512 * count - sizes[0])
        fault = self.one_of(["CFL", "A", "PRDTL", "CTBA", "short", "command", "W", "tag", "DBA", "DBC", "cut", "twice", "sum"]) if self.below(4) == 0 else ""
        first = 0x80 + 16 * len(sizes)
        places = [first + sum(sizes[:at]) for at in range(len(sizes))]
        ignored = self.below(16) << 12 | self.below(2) << 7  # PMP, P
        flags = (4 if fault == "CFL" else 5) | (fault == "A") << 5 | (is_write ^ (fault == "W")) << 6
        entries = self.one_of([0, 33]) if fault == "PRDTL" else len(sizes)
        header = struct.pack("<4I16x", flags | ignored | entries << 16, self.below(2**16), base + 0x80 * (fault == "CTBA"), 0)
        code = 0xEC if fault == "command" else 0x60 + is_write
        named, total = (tag + (fault == "tag")) % 32, count + (fault == "sum")
        device = 0x40 | self.below(2) << 7  # FUA
        cfis = struct.pack("<4B3sB3s4B", 0x27, 0x80, code, total & 0xFF, lba.to_bytes(6, "little")[:3], device, lba.to_bytes(6, "little")[3:], 0,
                           named << 3, self.below(4) << 6, 0)
        table = cfis.ljust(0x40, b"\0") + bytes(self.below(256) for _ in range(16))
        table = table.ljust(0x80, b"\0")
        for size, place in zip(sizes, [first] * 2 if fault == "twice" else places):
            table += struct.pack("<4I", base + place + (fault == "DBA"), 0, 0, size - 1 - (fault == "DBC"))
        if fault == "twice" and len(sizes) == 1:
            fault = ""  # one piece alone shares no byte
        data = bytes([self.below(256)]) * (512 * count) if is_write else bytes(512 * count)
        memory = {"short": table[: 1 + self.below(first - 1)], "cut": table + data[:-2]}.get(fault, table + data)
        return f"{header.hex()} {memory.hex()}", lba, 0 if fault else count

    def line(self):
        """One line, and what it does to the port."""
        word, port = self.word(), self.port
        phase = self.commands[word][0]
        tag = self.tag(phase) if phase else 0
        slot = port.slots[tag] if tag < len(port.slots) else Slot()
        byte, tail = f"{self.below(256):02x}", ""
        given = ()
        if word in ("write", "read"):
            given, tail = (tag, *self.span()), f" {byte}" if word == "write" else ""
        elif word == "raw":
            text, *given = self.window(tag)
            port.takes(word, tag, *given)
            return f"raw {tag} {text}"
        elif word in ("accept", "reissue"):
            given = (tag,)
        elif word == "serve":
            more = {self.tag(phase): None for _ in range(self.below(4))}
            given = (tag, *(it for it in more if it != tag or self.seldom()))
        elif word == "fail":
            lba = slot.lba + self.below(slot.count + self.seldom())
            port.takes(word, tag, lba)
            return f"fail {tag} {byte} {lba}"
        elif word == "collect":
            given = (tag, self.below(port.entries + 1) if self.seldom() else slot.number)
        elif word in ("reg", "ack"):
            wide = f"{self.below(2**32):x}"
            return f"{word} {wide if word == 'ack' or self.seldom() else self.one_of(REGISTERS)}"
        elif word == "identify":
            tail = f" {self.below(256)}"
        elif word == "show":
            return f"show {self.below(port.sectors + self.seldom())}"
        port.takes(word, *given)
        return " ".join([word, *map(str, given)]) + tail


def script_of(seed, raw=False, large=False):
    """The lines of a seed's script, with or without lines of `raw`, on a disk of 64 sectors at most or now and then on a large one."""
    writer = Writer(seed, raw, large)
    lines = [writer.one_of(["disk 0 1", "disk 131073 1", "disk 1 0", "disk 1 33", f"disk 1 1 {2**63 + 1}"])] if writer.seldom() else []
    lines.append(f"disk {writer.port.sectors} {len(writer.port.slots)}{writer.first}")
    lines += [writer.line() for _ in range(200 + writer.below(300))]
    return [*lines, "journal"]


if __name__ == "__main__":
    WORDS = sys.argv[1:]
    if WORDS[:-1] not in ([], ["--raw"], ["--large"], ["--raw", "--large"]) or not WORDS[-1:] or not WORDS[-1].isdecimal():
        sys.exit(__doc__)
    signal.signal(signal.SIGPIPE, signal.SIG_DFL)  # the script may go to a reader that ends early
    print("\n".join(script_of(int(WORDS[-1]), "--raw" in WORDS, "--large" in WORDS)))
