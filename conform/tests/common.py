"""What the tests share: stored traces, which need no model, and the model where it is built."""
import os
import shutil
import unittest
from typing import Optional

from judge import model
from judge.model import Trace, commands_of, steps_of

TESTS = os.path.dirname(os.path.abspath(__file__))
CONFORM = os.path.dirname(TESTS)
TOP = os.path.dirname(CONFORM)
BUILT = os.path.join(TOP, "crates", "ahci", "out", "rlib", "ahci", "ahci")
MODEL: Optional[str] = os.environ.get("MODEL") or (BUILT if os.path.exists(BUILT) else None)

needs_model = unittest.skipUnless(MODEL, "the model isn't built: ./ahci --build, or make check MODEL=PATH")
LIBRARY = os.environ.get("AHCI_LIBRARY") or os.path.join(TOP, "c", "out", "libahci.so.0")

needs_library = unittest.skipUnless(os.path.exists(LIBRARY), "the library isn't built: make -C c, or AHCI_LIBRARY=FILE")
needs_cc = unittest.skipUnless(shutil.which("cc"), "there is no C compiler: Debian's package is gcc")
needs_qemu = unittest.skipUnless(shutil.which("qemu-system-x86_64"), "QEMU is missing: Debian's package is qemu-system-x86")


def text_of(*names: str) -> str:
    with open(os.path.join(TOP, *names), encoding="utf-8") as text:
        return text.read()


def stored() -> Trace:
    """The example whose trace is stored as JSON: an error in a queue of three, its recovery, and two reissues."""
    return Trace(steps_of(text_of("examples", "error_in_a_queue.json")), "")


def trace_of(script: str) -> Trace:
    assert MODEL
    return model.trace_of(MODEL, script)


__all__ = ["commands_of", "needs_cc", "needs_library", "needs_model", "needs_qemu", "stored", "text_of", "trace_of"]
