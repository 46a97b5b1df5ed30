"""Plays a script's lines on an emulator's port, as a driver of the standard's steps would."""
import time
from typing import Callable, Dict, List, Optional, Sequence, Set

from . import layout
from .differences import Difference, differs
from .guarded import Guarded
from .image import Image
from .model import Sent, Step, log_page
from .window import PLAIN, Layer, Memory, Window, memory_of

ERR, BUSY = 0x01, 0x88  # of a status: ERR; BSY and DRQ
ALL = 0xFFFFFFFF
S64A = 0x80000000  # of CAP
OWN_IMAGE = "the tool's own image of the disk"  # a difference here is a fault of the tool
TURNS_A_SECOND = 200  # looks that a second of patience has at least
HEADER = 32  # bytes of a command header
LOOKED_AT = 1 << 16  # bytes of a write whose memory is looked at again when it is done


def named(window: Window) -> str:
    """Whose window it is."""
    return f"tag {window.tag}" if window.tag != PLAIN else "slot 0"


def first_apart(expected: bytes, got: bytes) -> int:
    """The first byte that isn't the same."""
    return next((at for at, (before, after) in enumerate(zip(expected, got)) if before != after), min(len(expected), len(got)))


class Driver:
    """What a driver has to remember: its windows, which slots it has announced to the port, and what the disk should hold."""

    def __init__(self, adapter: Guarded, layer: Layer, page: bytes = b"") -> None:
        self.adapter, self.layer, self.page = adapter, layer, page
        self.started = False
        self.windows: Dict[int, Window] = {}
        self.untold: Set[int] = set()  # issued, with PxCI not yet written: the port would accept at once
        self.image = Image(0)
        self.texts: Dict[int, bytes] = {}  # what the commands of the slots have read
        self.spoiled: Set[int] = set()  # sectors that the port may have changed while it was halted
        self.failure = (0, 0)  # error and LBA of the failed command
        self.alone: Optional[int] = None  # of several tags that were completed one by one, the last
        self.found: List[Difference] = []

    def play(self, step: Step) -> List[Difference]:
        """Plays one line, and answers what differs beside the registers and the received FIS area."""
        self.found, self.alone = [], None
        word = step.words[0]
        if step.answer.startswith("refused"):
            if step.answer == "refused Halted" and word in ("accept", "serve"):
                self.try_halted(step)
            return self.found
        actions: Dict[str, Callable[[Step], None]] = {
            "disk": self.disk, "write": self.issue, "read": self.issue, "raw": self.issue, "reissue": self.issue,
            "accept": self.accept, "serve": self.serve, "fail": self.fail, "recover": self.recover,
            "identify": self.identify, "flush": self.flush, "ack": self.ack, "show": self.show, "collect": self.collect,
        }
        actions.get(word, lambda _: None)(step)
        return self.found

    # what is reported of a difference
    def report(self, place: str, expected: bytes, got: bytes, note: str = "") -> None:
        if expected != got:
            self.found.append(Difference(place, expected, got, differs(expected, got), note))

    # registers and memory
    def write(self, offset: int, value: int) -> None:
        self.adapter.write_register(offset, value)

    def read(self, offset: int) -> int:
        return self.adapter.read_register(offset)

    def area(self) -> bytes:
        return self.adapter.read_memory(layout.RECEIVED_AREA, layout.RECEIVED_SIZE)

    def clear_area(self) -> None:
        self.adapter.write_memory(layout.RECEIVED_AREA, bytes(layout.RECEIVED_SIZE))

    def wait(self, is_there: Callable[[], bool], seconds: Optional[float] = None) -> bool:
        """Waits so long, and so many turns: on a busy machine an emulator does little in the time."""
        longest = self.adapter.patience if seconds is None else seconds
        until, turns = time.monotonic() + longest, longest * TURNS_A_SECOND
        while not is_there():
            if time.monotonic() >= until and turns <= 0:
                return False
            self.adapter.settle()
            turns -= 1
        return True

    def wait_for(self, *members: str) -> None:
        """Waits until these FISes have come."""
        places = [it for it in layout.FIS_PLACES if it.member in members]
        self.wait(lambda: all(self.area()[it.offset] for it in places))
        self.adapter.settle()

    # the lines
    def disk(self, step: Step) -> None:
        """Starts the emulator, and its port as AHCI 1.3.1 wants it ("System Software Specific Initialization")."""
        sectors, depth = int(step.words[1]), int(step.words[2])
        self.image = Image(sectors)
        self.started = True  # so that `stop` ends one that came up half way
        self.adapter.start(sectors, depth)
        self.layer.guest = self.layer.guest._replace(high=bool(self.read(0) & S64A))
        self.adapter.write_memory(layout.COMMAND_LIST, bytes(32 * 32))
        self.clear_area()
        self.write(layout.PX_CLB, step.registers["PxCLB"])
        self.write(layout.PX_FB, step.registers["PxFB"])
        for bits, answer in ((layout.FRE, 0x4000), (layout.FRE | layout.ST, 0xC000)):
            self.write(layout.PX_CMD, bits)
            self.wait(lambda answer=answer: self.read(layout.PX_CMD) & answer == answer)  # type: ignore[misc]
        self.adapter.settle()

    def issue(self, step: Step) -> None:
        """Header, table and data, then PxSACT. PxCI is written when the script wants the command accepted."""
        tag = int(step.words[1])
        window = self.layer.again(self.windows[tag], step.line) if step.words[0] == "reissue" else self.new_window(tag, step)
        self.windows[tag] = window
        self.adapter.write_places([*memory_of(window).parts(), (layout.header_place(tag), window.header)])
        self.write(layout.PX_SACT, 1 << tag)
        self.untold.add(tag)

    def new_window(self, tag: int, step: Step) -> Window:
        entry, words = step.entries[0], step.words
        if words[0] == "raw":
            return self.layer.raw(tag, step.line, bytes.fromhex(words[2]), bytes.fromhex(words[3]), entry["write"], entry["lba"])
        assert step.sent
        text = (bytes.fromhex(words[4]) if words[0] == "write" else b"\0") * (entry["sectors"] * layout.SECTOR)
        return self.layer.queued(tag, step.line, step.sent, entry["write"], entry["lba"], text)

    def accept(self, step: Step) -> None:
        tag = int(step.words[1])
        self.untold.discard(tag)
        self.write(layout.PX_CI, 1 << tag)
        self.wait_for("d2h_register")
        if step.answer.startswith("failed"):
            entry = step.entries[0]
            self.failure = (int(entry["error"], 16), entry["lba"])
            self.wait(lambda: bool(self.read(layout.PX_TFD) & ERR))

    def serve(self, step: Step) -> None:
        tags = [int(it) for it in step.words[1:]]
        if len(tags) == 1 or not self.adapter.complete_together(tags):
            self.alone = tags[-1] if len(tags) > 1 else None
            for tag in tags:
                if not self.adapter.complete(tag):
                    self.report("disk request", b"\1", b"\0", f"the disk was asked for nothing by tag {tag}")
                self.wait(lambda tag=tag: not self.read(layout.PX_SACT) >> tag & 1)  # type: ignore[misc]
        self.wait_for("set_device_bits")
        windows = [self.windows[tag] for tag in tags]
        texts = [self.image.effect(window) for window in windows]
        self.texts.update(zip(tags, texts))
        headers = self.adapter.read_places([(layout.header_place(tag), HEADER) for tag in tags])
        for window, text, header in zip(windows, texts, headers):
            self.compare_header(window, header)
            self.compare_memory(window, text)
        self.compare_disk(tags)

    def compare_header(self, window: Window, got: bytes) -> None:
        """Of a command header the HBA writes PRDBC alone."""
        at, (before, after) = layout.header_place(window.tag if window.tag != PLAIN else 0), (it[:4] + bytes(4) + it[8:] for it in (window.header, got))
        self.report(f"command header of {named(window)}", before, after, f"at {at:x}h; PRDBC aside")

    def compare_memory(self, window: Window, text: bytes) -> bytes:
        """A read's data should have come, and nothing else is changed. Answers what stands in the pieces."""
        expected = memory_of(window)
        if window.write and len(text) > LOOKED_AT:
            return text
        places = expected.places()
        got = Memory([(address, data) for (address, _), data in zip(places, self.adapter.read_places(places))])
        data = got.gather(window.used)
        if window.tag != PLAIN and data != text:
            self.report(f"data of tag {window.tag}", text, data, f"{window.spot(first_apart(text, data))} (laid {window.way})")
        self.report("command table", window.table, got.take(window.table_at, len(window.table)), f"at {window.table_at:x}h")
        got.put(window.table_at, window.table)
        got.scatter(window.used, expected.gather(window.used))
        for (address, _), before, after in zip(places, expected.blocks, got.blocks):
            self.report(f"memory beside the data of {named(window)}", bytes(before), bytes(after), f"from {address:x}h on (laid {window.way})")
        return data

    # the disk
    def compare_disk(self, tags: Sequence[int], halted: bool = False) -> None:
        """After commands: the whole disk, or of a large one what is near."""
        windows = [self.windows[tag] for tag in tags]
        ranges = [it for window in windows for it in self.image.near(window.lba, window.sectors)]
        for lba, got in self.image.apart(self.adapter, ranges):
            expected = self.image.sector(lba)
            writers = [it for it in windows if it.write and it.lba <= lba < it.lba + it.sectors]
            spots = [f"tag {it.tag}, {it.spot((lba - it.lba) * layout.SECTOR + first_apart(expected, got))} (laid {it.way})" for it in writers]
            if halted or lba not in self.spoiled:
                self.report(f"disk, sector {lba}", expected, got, "; ".join(spots) or "no command of this line writes this sector")

    def compare_sectors(self, ranges: Sequence[range], note: str = "") -> None:
        for lba, got in self.image.apart(self.adapter, ranges):
            if lba not in self.spoiled:
                self.report(f"disk, sector {lba}", self.image.sector(lba), got, note)

    def compare_end(self) -> List[Difference]:
        """At a script's end."""
        self.found = []
        if self.started:
            self.compare_sectors(self.image.all(self.adapter.has("sectors")), "it has changed at some line before")
        return self.found

    def fail(self, step: Step) -> None:
        tag, error, lba = int(step.words[1]), int(step.words[2], 16), int(step.words[3])
        self.failure = (error, lba)
        if not self.adapter.fail(tag, error, lba):
            self.report("disk request", b"\1", b"\0", f"the disk was asked for nothing by tag {tag}")
        self.wait(lambda: bool(self.read(layout.PX_TFD) & ERR))
        self.wait_for("set_device_bits")
        self.compare_disk([tag])

    def try_halted(self, step: Step) -> None:
        """After an error nothing goes on: the disk's requests are let go, and a slot is reported, all the same."""
        tags = [int(it) for it in step.words[1:]]
        wanted = "issued" if step.words[0] == "accept" else "accepted"
        if any(step.phases.get(tag) != wanted or wanted == "issued" and tag not in self.untold for tag in tags):
            return
        before = (self.read(layout.PX_SACT), self.area())
        for tag in tags:
            if wanted == "issued":
                self.untold.discard(tag)
                self.write(layout.PX_CI, 1 << tag)
            else:
                self.adapter.complete(tag)
            window = self.windows[tag]
            if window.write:
                self.spoiled.update(range(window.lba, min(self.image.count, window.lba + window.sectors)))
        self.wait(lambda: (self.read(layout.PX_SACT), self.area()) != before, self.adapter.quiet)
        self.adapter.settle()
        self.compare_disk(tags, halted=True)

    def ack(self, step: Step) -> None:
        self.write(layout.PX_IS, int(step.words[1], 16))

    def show(self, step: Step) -> None:
        lba = int(step.words[1])
        self.compare_sectors([range(lba, lba + 1)])
        self.report(OWN_IMAGE, bytes.fromhex(step.answer.split(" ")[2]), self.image.sector(lba)[:1])

    def collect(self, step: Step) -> None:
        """The model's answer shows whether the tool's own image, which data are compared with, is the model's."""
        answer = step.answer.split(" ")
        if answer[0] == "read":
            text = self.texts[int(step.words[1])]
            self.report(OWN_IMAGE, bytes.fromhex("".join(answer[2:])), text[:: layout.SECTOR])

    # commands that aren't queued
    def plain(self, step: Step) -> bytes:
        """A command by slot 0, whose own header is put aside meanwhile. Answers its data."""
        assert step.sent
        window, place = self.layer.unqueued(step.line, step.sent), layout.header_place(0)
        aside = self.adapter.read_memory(place, HEADER)
        self.adapter.write_places([*memory_of(window).parts(), (place, window.header)])
        self.write(layout.PX_CI, 1)
        self.wait(lambda: any(self.area()[it.offset] for it in layout.FIS_PLACES if it.member in ("pio_setup", "d2h_register")))
        self.wait(lambda: bool(self.read(layout.PX_TFD) & ERR) or not self.read(layout.PX_CI) & 1)
        self.wait(lambda: not self.read(layout.PX_TFD) & BUSY)
        self.adapter.settle()
        header = self.adapter.read_memory(place, HEADER)
        self.report("PRDBC", window.header[7:3:-1], header[7:3:-1], f"slot 0 (laid {window.way})")
        self.compare_header(window, header)
        data = self.compare_memory(window, window.text)
        self.adapter.write_memory(place, aside)
        return data

    def identify(self, step: Step) -> None:
        """All words of the page are compared; without the model's page the one that the line asks for."""
        data, word, shown = self.plain(step), int(step.words[1]), bytes.fromhex(step.answer.split(" ")[2])
        expected = {at: self.page[2 * at : 2 * at + 2][::-1] for at in range(len(self.page) // 2)}
        for at, there in {**expected, word: shown}.items():
            self.report(f"identify word {at}", there, data[2 * at : 2 * at + 2][::-1])

    def flush(self, step: Step) -> None:
        self.plain(step)

    def recover(self, step: Step) -> None:
        """AHCI 1.3.1, section 6.2.2: stop, clear, start, and read the log of the error."""
        self.write(layout.PX_CMD, layout.FRE)
        self.wait(lambda: not self.read(layout.PX_CMD) & 0x8000)
        self.report("PxSACT", bytes(4), self.read(layout.PX_SACT).to_bytes(4, "big"), "while ST is 0")
        self.report("PxCI", bytes(4), self.read(layout.PX_CI).to_bytes(4, "big"), "while ST is 0")
        self.adapter.give_up()
        self.untold.clear()
        self.clear_area()
        self.write(layout.PX_SERR, ALL)
        self.write(layout.PX_IS, ALL)
        self.write(layout.PX_CMD, layout.FRE | layout.ST)
        data, (error, lba) = self.plain(step), self.failure
        self.report("log 10h", log_page(step.entries[0]["tag"], error, lba), data)
        for at in sorted(self.spoiled):
            self.adapter.put_sector(at, self.image.sector(at))
            self.image.reported.pop(at, None)
        self.spoiled.clear()

    def stop(self) -> None:
        if self.started:
            self.adapter.stop()
        self.started = False
