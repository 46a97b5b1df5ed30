"""What is reported where QEMU can't be run, dies or hangs; and that no process is left."""
import os
import stat
import subprocess
import sys
import tempfile
import unittest
from unittest import mock

from judge import nbd, qtest
from judge.adapter import EmulatorFault
from judge.qemu import Qemu
from tests.common import needs_qemu


class Programs(unittest.TestCase):
    def fault(self, body: str) -> str:
        """What is reported of a program in QEMU's place."""
        with tempfile.TemporaryDirectory() as folder:
            path = os.path.join(folder, "qemu")
            with open(path, "w", encoding="ascii") as out:
                out.write(f"#!/bin/sh\n{body}\n")
            os.chmod(path, stat.S_IRWXU)
            with self.assertRaises(EmulatorFault) as caught, mock.patch.object(qtest, "SECONDS", 1.0):
                Qemu(path).start(1, 32)
        self.assertNotIn("\n", str(caught.exception))
        return str(caught.exception)

    def test_a_missing_program_is_told_with_its_package(self) -> None:
        with self.assertRaisesRegex(EmulatorFault, "there is no qemu-nowhere: Debian's package is qemu-system-x86"):
            Qemu("qemu-nowhere").start(1, 32)

    def test_one_that_ends_is_told_with_its_last_words(self) -> None:
        self.assertEqual(self.fault("echo no such machine >&2; exit 1"), "QEMU has ended with status 1: no such machine")

    def test_one_that_hangs_is_told_and_ended(self) -> None:
        self.assertEqual(self.fault("exec sleep 60"), "QEMU has answered nothing for 1 seconds")


@needs_qemu
class Real(unittest.TestCase):
    def test_one_that_is_killed_in_the_middle_is_told(self) -> None:
        qemu = Qemu()
        self.addCleanup(qemu.stop)
        qemu.start(1, 32)
        process = qemu.qtest.process
        assert process
        process.kill()
        with self.assertRaisesRegex(EmulatorFault, "QEMU has ended by signal 9"):
            qemu.read_register(0)

    def test_a_stop_leaves_no_process_and_no_folder(self) -> None:
        qemu = Qemu()
        qemu.start(1, 32)
        process, folder = qemu.qtest.process, qemu.qtest.folder
        qemu.stop()
        assert process
        self.assertIsNotNone(process.poll())
        self.assertFalse(os.path.exists(folder))


class Disks(unittest.TestCase):
    def test_a_peer_that_speaks_no_nbd_is_told(self) -> None:
        with tempfile.TemporaryDirectory() as folder:
            disk = nbd.NbdDisk(os.path.join(folder, "nbd"), 1)
            self.addCleanup(disk.close)
            code = f"import socket; s = socket.socket(socket.AF_UNIX); s.connect({os.path.join(folder, 'nbd')!r}); s.sendall(bytes(4)); s.close()"
            subprocess.run([sys.executable, "-c", code], check=True)
            with self.assertRaisesRegex(EmulatorFault, "the emulator"):
                disk.pump()


if __name__ == "__main__":
    unittest.main()
