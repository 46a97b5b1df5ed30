"""A QEMU whose processor never runs: its qtest protocol, its monitor, and its disk, each at a Unix socket."""
import ctypes
import json
import os
import select
import shutil
import signal
import socket
import subprocess
import tempfile
import time
from typing import List, Optional, Sequence

from .adapter import EmulatorFault
from .nbd import NbdDisk

SECONDS = 60.0
AT_ONCE = 100  # commands: a socket holds some 270 answers that nobody has read yet, and QEMU waits then


def die_with_parent() -> None:
    """Runs in the child: Linux kills it where this process is killed (prctl, PR_SET_PDEATHSIG)."""
    try:
        ctypes.CDLL(None).prctl(1, signal.SIGKILL)
    except (OSError, AttributeError):
        pass  # elsewhere `stop` alone ends it


class Channel:
    """A connection that QEMU makes to this process, with answers line by line."""

    def __init__(self, path: str) -> None:
        self.waiting = b""
        self.peer: Optional[socket.socket] = None
        self.listener = socket.socket(socket.AF_UNIX)
        self.listener.bind(path)
        self.listener.listen(1)

    def fileno(self) -> int:
        return (self.peer or self.listener).fileno()

    def close(self) -> None:
        for end in (self.peer, self.listener):
            if end:
                end.close()

    def fill(self) -> bool:
        """Takes what has come. False: QEMU has closed it."""
        if self.peer is None:
            self.peer, _ = self.listener.accept()
            self.peer.settimeout(SECONDS)
            return True
        try:
            part = self.peer.recv(1 << 16)
        except OSError:
            part = b""
        self.waiting += part
        return bool(part)

    def take_line(self) -> Optional[str]:
        line, end, rest = self.waiting.partition(b"\n")
        if not end:
            return None
        self.waiting = rest
        return line.decode("utf-8", "replace").rstrip()


class Qtest:
    """One run of QEMU with one disk, from `start` to `stop`."""

    def __init__(self, program: str, sectors: int, words: Sequence[str]) -> None:
        self.folder = tempfile.mkdtemp(prefix="ahci-conform-")
        self.process: Optional["subprocess.Popen[bytes]"] = None
        self.qtest, self.monitor = Channel(self.path("qtest")), Channel(self.path("qmp"))
        self.disk = NbdDisk(self.path("nbd"), sectors)
        try:
            self.launch(program, words)
        except BaseException:
            self.stop()
            raise

    def path(self, name: str) -> str:
        return os.path.join(self.folder, name)

    def launch(self, program: str, words: Sequence[str]) -> None:
        """Starts QEMU. Its disk is NBD below blkdebug, whose breakpoints hold requests."""
        drive = f"id=d0,if=none,driver=raw,file.driver=blkdebug,file.image.driver=nbd,file.image.server.type=unix,file.image.server.path={self.path('nbd')}"
        command = [program, "-nodefaults", "-no-user-config", "-display", "none", "-accel", "tcg", "-S", "-qtest-log", os.devnull]
        command += ["-qtest", f"unix:{self.path('qtest')}", "-qmp", f"unix:{self.path('qmp')}", "-drive", f"{drive},werror=report,rerror=report", *words]
        with open(self.path("err"), "wb") as err:
            try:
                self.process = subprocess.Popen(command, stdin=subprocess.DEVNULL, stdout=err, stderr=err, preexec_fn=die_with_parent)
            except OSError as why:
                raise EmulatorFault(f"{program} can't be run: {why.strerror}") from why
        while not (self.qtest.peer and self.monitor.peer):
            self.wait_for(*(end for end in (self.qtest, self.monitor) if not end.peer))
        self.order("qmp_capabilities")

    def wait_for(self, *ends: Channel) -> None:
        """Waits until QEMU says something at one of these ends, and serves its disk meanwhile."""
        until = time.monotonic() + SECONDS
        while True:
            ready, _, _ = select.select([*ends, self.disk], [], [], 0.5)
            if self.disk in ready:
                self.serve_disk()
            open_ends = [end.fill() for end in ends if end in ready]
            if not all(open_ends) or self.process and self.process.poll() is not None:
                raise EmulatorFault(self.death())
            if open_ends:
                return
            if time.monotonic() > until:
                raise EmulatorFault(f"QEMU has answered nothing for {SECONDS:.0f} seconds")

    def serve_disk(self) -> None:
        """Where QEMU ends, its disk may be the first to notice."""
        try:
            self.disk.pump()
        except EmulatorFault as why:
            text = self.death()
            raise EmulatorFault(text if "has ended" in text else str(why)) from why

    def death(self) -> str:
        assert self.process
        try:
            status: Optional[int] = self.process.wait(1)
        except subprocess.TimeoutExpired:
            return "QEMU has closed its connection"
        with open(self.path("err"), encoding="utf-8", errors="replace") as err:
            said = [line.strip() for line in err if line.strip() and not line.startswith("blkdebug: ")]
        end = f"by signal {-status}" if status is not None and status < 0 else f"with status {status}"
        return f"QEMU has ended {end}" + (f": {said[-1]}" if said else "")

    def line(self, end: Channel) -> str:
        while True:
            line = end.take_line()
            if line is not None:
                return line
            self.wait_for(end)

    def give(self, end: Channel, text: str) -> None:
        assert end.peer
        try:
            end.peer.sendall(text.encode())
        except OSError as why:
            raise EmulatorFault(self.death()) from why

    def ask(self, *commands: str) -> List[str]:
        """Gives commands of the qtest protocol, not too many at a time, and answers what stands after each OK."""
        answers: List[str] = []
        for at in range(0, len(commands), AT_ONCE):
            part = commands[at : at + AT_ONCE]
            self.give(self.qtest, "".join(f"{it}\n" for it in part))
            answers += [self.line(self.qtest) for _ in part]
        for command, answer in zip(commands, answers):
            if not answer.startswith("OK"):
                raise EmulatorFault(f"QEMU answers '{answer}' to '{command[:60]}'")
        return [answer[3:] for answer in answers]

    def order(self, command: str, **words: str) -> str:
        """One command of the monitor (QMP)."""
        self.give(self.monitor, json.dumps({"execute": command, "arguments": words}) + "\n")
        while True:
            answer = json.loads(self.line(self.monitor))
            if "error" in answer:
                raise EmulatorFault(f"QEMU's monitor answers '{answer['error'].get('desc')}' to {command}")
            if "return" in answer:
                return str(answer["return"] or "")

    def debug_disk(self, command: str) -> None:
        """A command of blkdebug, such as `break read_aio t3` and `resume t3`."""
        said = self.order("human-monitor-command", **{"command-line": f'qemu-io d0 "{command}"'}).strip()
        if said:
            raise EmulatorFault(f"QEMU's monitor answers '{said}' to '{command}'")

    def wait_for_disk(self, done: int) -> bool:
        """Serves the disk until it has done that many requests."""
        until = time.monotonic() + SECONDS
        while self.disk.done < done and time.monotonic() < until:
            if select.select([self.disk], [], [], 0.05)[0]:
                self.serve_disk()
        return self.disk.done >= done

    def stop(self) -> None:
        if self.process:
            self.process.kill()
            self.process.wait()
        for end in (self.qtest, self.monitor):
            end.close()
        self.disk.close()
        shutil.rmtree(self.folder, ignore_errors=True)
