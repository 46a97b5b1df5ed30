"""What the checks and the bench have in common: a server, the tools that run on it, and what its last line counts."""
from __future__ import annotations

import contextlib
import json
import os
import re
import signal
import subprocess
import sys
import time
from typing import Any, Dict, Iterator, List, Optional

HERE = os.path.dirname(os.path.dirname(os.path.realpath(__file__)))
TOP = os.path.dirname(HERE)
PLUGIN = os.environ.get("AHCI_NBD_PLUGIN", os.path.join(HERE, "nbdkit-ahci-plugin.so"))
RACES_PLUGIN = os.environ.get("AHCI_NBD_TSAN_PLUGIN", os.path.join(HERE, "tsan-nbdkit-ahci-plugin.so"))
PLAYER = os.path.join(HERE, "out", "play")
MIB = 1 << 20
SECONDS = int(os.environ.get("AHCI_NBD_SECONDS", "240"))  # the most that one tool may take on an idle machine
SECTOR = 512

sys.dont_write_bytecode = True
sys.path += [os.path.join(TOP, "host"), os.path.join(TOP, "host", "checks")]

import pace  # noqa: E402
import playing  # noqa: E402
from playing import STRETCH as STRETCH, scripted as scripted, sectors_of as sectors_of  # noqa: E402
from suite import Check as Check, Failed as Failed, Skipped as Skipped  # noqa: E402


def tool(words: List[str], **more: Any) -> "subprocess.CompletedProcess[str]":
    """Runs a tool, and keeps what it printed, whatever it met."""
    return pace.ran(words, SECONDS, **{"stdout": subprocess.PIPE, "stderr": subprocess.STDOUT, "text": True, "errors": "replace", **more})


def ran(words: List[str], status: int = 0, **more: Any) -> str:
    """What a tool printed, if it ended as it should."""
    done = tool(words, **more)
    if done.returncode != status:
        raise Failed(f"{' '.join(words)}: status {done.returncode}, not {status}\n{done.stdout[-2000:]}")
    return str(done.stdout)


class Server:
    """nbdkit with the plugin, or with another one."""

    def __init__(self, room: str, plugin: str, words: List[str], environment: Optional[Dict[str, str]] = None) -> None:
        self.socket = os.path.join(room, "socket")
        self.log = os.path.join(room, "log")
        self.uri = f"nbd+unix:///?socket={self.socket}"
        with contextlib.suppress(OSError):
            os.remove(self.socket)
        with open(self.log, "w", encoding="utf-8") as log:
            self.process = subprocess.Popen(["nbdkit", "-f", "-t", "32", "-U", self.socket, plugin, *words], stdin=subprocess.DEVNULL,
                                            stdout=log, stderr=log, env={**os.environ, **(environment or {})})
        limit = pace.Limit(60)
        while not os.path.exists(self.socket):
            if self.process.poll() is not None or limit.has_passed():
                raise Failed(f"nbdkit did not start: {self.said()}")
            time.sleep(0.02)

    def said(self) -> str:
        with open(self.log, encoding="utf-8", errors="replace") as log:
            return log.read()

    def memory(self) -> int:
        """Its resident set in bytes."""
        with open(f"/proc/{self.process.pid}/statm", encoding="ascii") as text:
            return int(text.read().split()[1]) * os.sysconf("SC_PAGE_SIZE")

    def own_memory(self) -> int:
        """How much of that is no page of a file, in bytes."""
        with open(f"/proc/{self.process.pid}/status", encoding="ascii") as text:
            return next(int(it.split()[1]) * 1024 for it in text if it.startswith("RssAnon:"))

    def stop(self, how: signal.Signals = signal.SIGTERM) -> str:
        """Ends it, and returns all that it printed."""
        if self.process.poll() is None:
            self.process.send_signal(how)
        if not pace.ended(self.process, SECONDS):
            self.process.kill()
            raise Failed("nbdkit did not end")
        with contextlib.suppress(OSError):
            os.remove(self.socket)
        return self.said()


USUAL = re.compile(r"ahci: \d+ commands, .*")  # the line with which the plugin ends


@contextlib.contextmanager
def serving(room: str, *words: str, plugin: str = "", environment: Optional[Dict[str, str]] = None, says: str = "", status: int = 0) -> Iterator[Server]:
    """A server that prints nothing but its last line, and lines that match `says`, and ends with a status."""
    server = Server(room, plugin or PLUGIN, list(words), environment)
    try:
        yield server
        printed = server.stop().splitlines()
        strange = [line for line in printed if not USUAL.fullmatch(line) and not (says and re.search(says, line))]
        if server.process.returncode != status or strange:
            raise Failed(f"nbdkit ended with status {server.process.returncode}, and printed: {strange[:5]} ({len(strange)} lines)")
        if says and not any(re.search(says, line) for line in printed):
            raise Failed(f"nbdkit did not print {says}: {printed[:5]}")
    finally:
        if server.process.poll() is None:
            server.process.kill()
            server.process.wait()


def fio(server: Server, name: str, *words: str) -> Dict[str, object]:
    """Runs one fio job, whose errors it counts."""
    done = tool(["fio", f"--name={name}", "--ioengine=nbd", f"--uri={server.uri}", "--output-format=json", *words], stderr=subprocess.PIPE, cwd=os.path.dirname(server.socket))
    text = done.stdout
    if "{" not in text:
        raise Failed(f"fio printed no figures\n{text[-1000:]}{done.stderr[-1000:]}")
    found: Dict[str, object] = json.loads(text[text.index("{"):text.rindex("}") + 1])
    found["status"] = done.returncode
    return found


def must_be_clean(found: Dict[str, object]) -> None:
    jobs = found["jobs"]
    assert isinstance(jobs, list)
    errors = [job["error"] for job in jobs if job["error"]] + [job["total_err"] for job in jobs if job.get("total_err")]
    if errors or found["status"]:
        raise Failed(f"fio met errors {errors}, status {found['status']}")


def out(server: Server, path: str) -> bytes:
    """The whole disk as a client reads it."""
    ran(["nbdcopy", "--requests=32", server.uri, path])
    with open(path, "rb") as file:
        return file.read()


def summary_of(server: Server) -> str:
    """The line with which the plugin ends."""
    return next((line[6:] for line in reversed(server.said().split("\n")) if line.startswith("ahci: ")), "")


def counted(server: Server, what: str) -> int:
    """A number of that line."""
    return next((int(part.strip().partition(" ")[0]) for part in summary_of(server).split(",") if part.endswith(what)), 0)


def replayed(script: str) -> bytes:
    """The disk after a script."""
    return playing.replayed(script, PLAYER)
