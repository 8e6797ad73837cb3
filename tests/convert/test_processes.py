"""Child processes, which end with the work that they are for."""

import os
import resource
import signal
import subprocess
import tempfile
import threading
import unittest
from types import FrameType
from unittest import mock

from support import ROOT  # noqa: F401

from convert.common import processes
from convert.common.faults import ReadFault
from convert.common.processes import last_words, running

_SLEEP = ("sleep", "60")


class Ended(Exception):
    """A signal came."""


class Processes(unittest.TestCase):
    """Programs of coreutils and a shell."""

    def setUp(self) -> None:
        for number in (signal.SIGTERM, signal.SIGINT):
            self.addCleanup(signal.signal, number, signal.getsignal(number))

    def handle(self, number: int) -> None:
        """Has a signal raise."""
        def raise_it(_: int, __: FrameType | None) -> None:
            raise Ended

        signal.signal(number, raise_it)

    def require_ended(self, process: "subprocess.Popen[bytes]") -> None:
        """It was waited for: nothing has its number."""
        self.assertIsNotNone(process.returncode)
        with self.assertRaises(ProcessLookupError):
            os.kill(process.pid, 0)

    def test_what_has_not_ended_is_ended(self) -> None:
        for end, status in ((signal.SIGKILL, -9), (signal.SIGTERM, -15)):
            with self.assertRaises(Ended), running(_SLEEP, stdin=subprocess.PIPE, end=end) as process:
                raise Ended
            self.require_ended(process)
            self.assertEqual(process.returncode, status)
        with running(["sh", "-c", "exit 7"]) as process:
            self.assertEqual(process.wait(), 7)
        with self.assertRaisesRegex(ReadFault, "cannot run /absent: No such file"), running(["/absent"]):
            self.fail()

    def test_a_signal_while_it_is_started(self) -> None:
        started: list["subprocess.Popen[bytes]"] = []
        popen = subprocess.Popen

        def start(*words: object, **more: object) -> "subprocess.Popen[bytes]":
            os.kill(os.getpid(), signal.SIGTERM)
            started.append(popen(*words, **more))  # type: ignore[call-overload]
            os.kill(os.getpid(), signal.SIGINT)
            return started[-1]

        for ignored in ((), (signal.SIGTERM,)):
            for number in (signal.SIGTERM, signal.SIGINT):
                self.handle(number)
            for number in ignored:
                signal.signal(number, signal.SIG_IGN)
            with mock.patch.object(processes.subprocess, "Popen", start), self.assertRaises(Ended), running(_SLEEP):
                self.fail()
            self.require_ended(started[-1])

    def test_in_another_thread(self) -> None:
        found: list[int] = []

        def work() -> None:
            with running(["sh", "-c", "exit 3"]) as process:
                found.append(process.wait())

        thread = threading.Thread(target=work)
        thread.start()
        thread.join()
        self.assertEqual(found, [3])

    def test_limits(self) -> None:
        words = ["sh", "-c", "read line; grep -E '^Max (core )?file size' /proc/self/limits"]
        with running(
            words, stdin=subprocess.PIPE, stdout=subprocess.PIPE, limits={resource.RLIMIT_FSIZE: 1 << 20}
        ) as process:
            lines = process.communicate(b"\n")[0].splitlines()
        self.assertEqual([line.split()[-3] for line in lines], [b"1048576", b"0"])

    def test_last_words(self) -> None:
        for text, status, wanted in (
            (b"", 3, "x ended with status 3"), (b"\n \n", -9, "x was ended by signal 9"), (b"a\n b\n", 1, "a; b"),
            (b"y" * 2_000 + b"\nz", 1, "y" * 998 + "; z"),
        ):
            with tempfile.TemporaryFile() as messages:
                messages.write(text)
                self.assertEqual(last_words(messages, "x", status), wanted)

