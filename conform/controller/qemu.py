"""QEMU's ich9-ahci by qtest. Its processor never runs; guest memory and the disk are files that both sides map, so no byte of them goes over a socket."""
import json
import mmap
import os
import shutil
import socket
import subprocess
import tempfile
import time
from typing import Any, Dict, List, Optional, Set, Tuple

from judge.adapter import EmulatorFault
from judge.qtest import die_with_parent

from . import layout
from .adapter import Controller, Died

PROGRAM = "qemu-system-x86_64"
ABAR = 0xE0000000
FUNCTION = 0x8000FA00  # PCI 00:1f.2, by the ports CF8h and CFCh
SECONDS = 20.0
HELD_SECONDS = 1.5  # a command that is neither held nor ignored ends within them, also on a busy machine
RELEASED_SECONDS = 0.3
EQUAL_LOOKS = 4  # with nothing changed, while a command is outstanding: it is taken that nothing will change
STARTERS = (layout.PX_CI, layout.PX_SACT, layout.PX_CMD, layout.PX_SCTL, layout.GHC)  # registers whose write may begin or end a request
Snap = Tuple[bytes, bytes, int]


def blkdebug(path: str) -> str:
    """A drive: the file below blkdebug, which fails the bad sectors and stops requests at breakpoints."""
    words = [f"if=none,driver=raw,file.driver=blkdebug,file.image.driver=file,file.image.filename={path},werror=report,rerror=report"]
    for at, (way, lba) in enumerate((way, lba) for way in ("read", "write") for lba in layout.BAD):
        words.append("".join(f",file.inject-error.{at}.{name}={it}" for name, it in (("event", "none"), ("iotype", way), ("sector", lba), ("errno", 5))))
    return "".join(words)


class Socket:
    """A Unix socket to which QEMU connects, read line by line."""

    def __init__(self, path: str) -> None:
        self.waiting = b""
        self.peer: Optional[socket.socket] = None
        self.listener = socket.socket(socket.AF_UNIX)
        self.listener.bind(path)
        self.listener.listen(1)
        self.listener.settimeout(0.2)

    def open(self) -> bool:
        try:
            self.peer, _ = self.listener.accept()
        except socket.timeout:
            return False
        self.peer.settimeout(SECONDS)
        return True

    def give(self, text: str) -> bool:
        assert self.peer
        try:
            self.peer.sendall(text.encode())
        except OSError:
            return False
        return True

    def line(self) -> Optional[bytes]:
        """The next line; None if QEMU has closed the socket, or answers nothing in time."""
        assert self.peer
        while b"\n" not in self.waiting:
            try:
                part = self.peer.recv(1 << 16)
            except OSError:
                part = b""
            if not part:
                return None
            self.waiting += part
        line, _, self.waiting = self.waiting.partition(b"\n")
        return line

    def close(self) -> None:
        for end in (self.peer, self.listener):
            if end:
                end.close()


class Qemu(Controller):
    """A QEMU for many programs: `reset` is its system reset."""

    title = "QEMU"
    can_hold = True

    def __init__(self, program: str = PROGRAM, slow: bool = False) -> None:
        """`slow`: what is held waits on a disk of one request a second, not at a breakpoint. A newer QEMU waits for it in a reset, and at ST 0."""
        self.program, self.slow = program, slow
        self.process: Optional["subprocess.Popen[bytes]"] = None
        self.folder = ""

    # ---- the process ----

    def start(self) -> None:
        if not shutil.which(self.program):
            raise EmulatorFault(f"there is no {self.program}: Debian's package is qemu-system-x86")
        self.folder = tempfile.mkdtemp(prefix="ahci-conform-", dir="/dev/shm" if os.path.isdir("/dev/shm") else None)
        self.ram, self.image = self.mapped("ram", 2 * layout.MEMORY), self.mapped("disk", layout.SECTORS * layout.SECTOR)
        self.qtest, self.monitor = Socket(self.path("qtest")), Socket(self.path("qmp"))
        self.held: Set[int] = set()
        self.stuck = (0, 0)
        self.written, self.released = 0, 0.0
        try:
            self.launch()
        except BaseException:
            self.stop()
            raise

    def path(self, name: str) -> str:
        return os.path.join(self.folder, name)

    def mapped(self, name: str, size: int) -> mmap.mmap:
        with open(self.path(name), "wb+") as file:
            file.truncate(size)
            return mmap.mmap(file.fileno(), size)

    def launch(self) -> None:
        command = [self.program, "-nodefaults", "-no-user-config", "-display", "none", "-accel", "tcg", "-S", "-qtest-log", os.devnull]
        command += ["-object", f"memory-backend-file,id=ram0,size={2 * layout.MEMORY},mem-path={self.path('ram')},share=on", "-m", "64M"]
        command += ["-machine", "q35,memory-backend=ram0,max-ram-below-4g=32M", "-qtest", f"unix:{self.path('qtest')}", "-qmp", f"unix:{self.path('qmp')}"]
        command += ["-drive", f"id=d0,{blkdebug(self.path('disk'))}{',throttling.iops-total=1' if self.slow else ''}", "-device", "ide-hd,drive=d0,bus=ide.0"]
        with open(self.path("err"), "wb") as err:
            try:
                self.process = subprocess.Popen(command, stdin=subprocess.DEVNULL, stdout=err, stderr=err, preexec_fn=die_with_parent)
            except OSError as why:
                raise EmulatorFault(f"{self.program} can't be run: {why.strerror}") from why
        until = time.monotonic() + SECONDS
        for end in (self.qtest, self.monitor):
            while not end.open():
                if self.process.poll() is not None or time.monotonic() > until:
                    raise EmulatorFault(self.death())
        if self.monitor.line() is None:
            raise EmulatorFault(self.death())
        self.order("qmp_capabilities")
        self.ask("irq_intercept_in ioapic")

    def death(self) -> str:
        assert self.process
        try:
            status = self.process.wait(1)
        except subprocess.TimeoutExpired:
            return f"QEMU has answered nothing for {SECONDS:.0f} seconds"
        with open(self.path("err"), encoding="utf-8", errors="replace") as err:
            said = [line.strip() for line in err if line.strip() and not line.startswith(("blkdebug: ", "read 512/512 ", "512 bytes, "))]
        return f"QEMU has ended {f'by signal {-status}' if status < 0 else f'with status {status}'}" + (f": {said[-1]}" if said else "")

    def stop(self) -> None:
        if self.process:
            self.process.kill()
            self.process.wait()
            self.process = None
        if self.folder:
            for end in (self.qtest, self.monitor):
                end.close()
            shutil.rmtree(self.folder, ignore_errors=True)
            self.folder = ""

    # ---- what it gets ----

    def ask(self, *commands: str) -> List[bytes]:
        """Commands of the qtest protocol, and what follows each OK."""
        if not self.qtest.give("".join(f"{it}\n" for it in commands)):
            raise Died(self.death())
        answers: List[bytes] = []
        while len(answers) < len(commands):
            line = self.qtest.line()
            if line is None:
                raise Died(self.death())
            if line.startswith(b"IRQ"):
                continue
            if not line.startswith(b"OK"):
                raise EmulatorFault(f"QEMU answers '{line.decode()}' to '{commands[len(answers)]}'")
            answers.append(line[3:])
        return answers

    def heard(self) -> Dict[str, Any]:
        line = self.monitor.line()
        if line is None:
            raise Died(self.death())
        return json.loads(line)  # type: ignore[no-any-return]

    def order(self, command: str, until: str = "", **words: str) -> str:
        """One command of the monitor (QMP), and the event that it waits for."""
        if not self.monitor.give(json.dumps({"execute": command, "arguments": words}) + "\n"):
            raise Died(self.death())
        answer: Optional[str] = None
        seen = not until
        while answer is None or not seen:
            it = self.heard()
            seen = seen or it.get("event") == until
            if "error" in it:
                raise EmulatorFault(f"QEMU's monitor answers '{it['error'].get('desc')}' to {command}")
            if "return" in it:
                answer = str(it["return"] or "")
        return answer

    def on_disk(self, command: str) -> None:
        self.order("human-monitor-command", **{"command-line": f'qemu-io d0 "{command}"'})

    def configure(self, offset: int, value: int) -> None:
        self.ask(f"outl 0xcf8 {FUNCTION | offset:#x}", f"outl 0xcfc {value:#x}")

    # ---- the controller ----

    def reset(self, image: bytes) -> None:
        for slot in sorted(self.held):
            self.go(slot)
        self.order("system_reset", "RESET")
        self.configure(0x24, ABAR)
        self.configure(0x04, 0x6)  # memory space, and bus master
        # QEMU's bases survive its reset: what they are after power-on is put there by hand
        self.ask(*(f"writel {ABAR + offset:#x} 0" for offset in (layout.PX_CLB, layout.PX_CLBU, layout.PX_FB, layout.PX_FBU)))
        self.stuck = (0, 0)
        self.image[:] = image

    def read(self, offset: int, size: int) -> int:
        return int(self.ask(f"read{'bwlq'[size.bit_length() - 1]} {ABAR + offset:#x}")[0], 16)

    def write(self, offset: int, size: int, value: int) -> None:
        self.written = offset & ~3
        if self.held and not self.slow and self.written in (layout.PX_SCTL, layout.GHC):
            raise EmulatorFault("QEMU waits in a reset for a request that is held, and hears no 'go' then: PxSCTL and GHC can't be written meanwhile")
        self.ask(f"write{'bwlq'[size.bit_length() - 1]} {ABAR + offset:#x} {value:#x}")

    def level(self) -> bool:
        return bool(self.snap()[2] >> 19 & 1)

    def get(self, address: int, length: int) -> bytes:
        at = layout.place(address, length)
        assert at is not None
        return self.ram[at : at + length]

    def put(self, address: int, data: bytes) -> None:
        at = layout.place(address, len(data))
        assert at is not None
        self.ram[at : at + len(data)] = data

    def disk(self) -> bytes:
        return self.image[:]

    def hold(self, slot: int, way: str) -> None:
        if self.slow:
            self.on_disk("read 0 512")  # the request of this second
        else:
            self.on_disk(f"break {way}_aio t{slot}")
        self.held.add(slot)

    def go(self, slot: int) -> None:
        self.written = layout.PX_CI  # what goes on may let another command begin
        if slot in self.held and self.slow:
            self.on_disk("aio_flush")
        elif slot in self.held:
            self.on_disk(f"resume t{slot}")
            self.on_disk(f"remove_break t{slot}")
        self.held.discard(slot)
        if self.held:
            self.released = time.monotonic()  # a drain would wait for the others
        else:
            self.on_disk("aio_flush")

    # ---- rest ----

    def snap(self) -> Snap:
        """The registers, and PCI command and status, whose bit 19 is the level of the line."""
        _, host, port, pci = self.ask(f"outl 0xcf8 {FUNCTION | 4:#x}", f"read {ABAR:#x} {layout.HOST_BYTES:#x}", f"read {ABAR + layout.PORT_BASE:#x} {layout.PORT_BYTES:#x}", "inl 0xcfc")
        return bytes.fromhex(host[2:].decode()), bytes.fromhex(port[2:].decode()), int(pci, 16)

    def settled(self, moved: bool) -> Tuple[bytes, bytes, bool]:
        """Two equal looks. While a command is outstanding the disk is drained between them, and the memory has to be the same too:
        a PIO command of many sectors changes nothing else between two looks, and a command that is ignored never ends."""
        last = self.snap()
        if moved and self.written in STARTERS and not (self.slow and self.held):
            last = self.rest(last)
        return last[0], last[1], bool(last[2] >> 19 & 1)

    def waiting(self, snap: Snap) -> Tuple[int, int]:
        """PxSACT and PxCI of a port that runs."""
        sact, issued = layout.words(snap[1][0x34:0x3C])
        return (sact, issued) if snap[1][0x18] & 1 else (0, 0)

    def rest(self, last: Snap) -> Snap:
        same, until, memory = 0, time.monotonic() + HELD_SECONDS, self.moving()
        released = self.released + RELEASED_SECONDS  # when what `go` let go has ended, though no register may show it
        ignored = self.stuck if self.written != layout.PX_CI else (0, 0)
        for _ in range(4000):
            waits = self.waiting(last)
            others = (waits[0] | waits[1]) & ~sum(1 << it for it in self.held)
            busy = waits not in ((0, 0), ignored) and (others or not self.held) or time.monotonic() < released
            if busy and self.held:
                time.sleep(0.001)  # a drain would wait for the held request
            elif busy:
                self.on_disk("aio_flush")
            now, moved = self.snap(), self.moving() if busy or self.held else memory
            same = same + 1 if now == last and moved == memory else 0
            last, memory = now, moved
            if same and (not busy or (time.monotonic() > until if self.held else same >= EQUAL_LOOKS)):
                break
        self.stuck = self.waiting(last)
        return last

    def moving(self) -> Tuple[bytes, ...]:
        """What a command that goes on changes: the places of data, and the disk."""
        return self.get(layout.DATA, layout.LOW.base + layout.LOW.bytes - layout.DATA), self.get(layout.HIGH_DATA, layout.HIGH.base + layout.HIGH.bytes - layout.HIGH_DATA), self.disk()
