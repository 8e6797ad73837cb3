"""Layers that several processes read side by side: what comes of them is what comes of one after the other."""

import contextlib
import os
import random
import shutil
import signal
import subprocess
import sys
import tarfile
import tempfile
import time
import unittest
from collections.abc import Iterator
from unittest import mock

from images import archive, folder, member, packed, write_layout
from support import IS_SIDE_BY_SIDE, ROOT, FolderTest, call

from convert.image import ahead
from convert.common import budgets
from convert.common.contents import LARGE_PIECE, PIECE
from convert.image.quick_gzip import find_program

IMAGES = 40
_SIZES = (0, 1, 511, 512, 513, 5_000, PIECE - 1, PIECE, PIECE + 1, LARGE_PIECE + 12_345)
_STARTED = "started"
_WAITING = f"""
import os, sys, time
sys.path.insert(0, sys.argv[1])
from convert.image import ahead
from convert.cli import main
def read(self, take):
    with open(sys.argv[2], "a") as file:
        file.write(f"{{os.getpid()}}\\n")
    time.sleep(60)
ahead.LEAST_BYTES = 0
ahead.ArchiveReader.read = read
sys.exit(main(sys.argv[3:]))
"""
_READING = _WAITING.replace("    time.sleep(60)\n", """
    from convert.tar.headers import Header
    while True:
        time.sleep(0.01)
        take(Header(b"d", b"5", 0, 0, 0, 0, 0, b"", 0, 0), None)
""")


def _runs(process: str) -> bool:
    """Whether a process is there that hasn't ended."""
    try:
        with open(f"/proc/{process}/stat", encoding="ascii") as file:
            return file.read().rpartition(")")[2].split()[0] != "Z"
    except FileNotFoundError:
        return False


class AheadTest(FolderTest):
    """A test that unpacks images in both ways."""

    @contextlib.contextmanager
    def side_by_side(self, is_quick: bool = False) -> Iterator[mock.Mock]:
        """Has images of any size read by several processes, whose start is noted."""
        with (
            mock.patch("convert.image.ahead.LEAST_BYTES", 0), mock.patch("convert.image.ahead.usual_workers", return_value=3),
            mock.patch("convert.image.ahead._Worker", wraps=ahead._Worker) as worker, contextlib.ExitStack() as more,
        ):
            if not is_quick:
                more.enter_context(mock.patch("convert.image.images.find_program", return_value=None))
            yield worker

    def unpacked(self, *words: str) -> tuple[object, dict[str, bytes]]:
        """What unpacking gives: the status, the messages and the files."""
        result, files = call("unpack", self.path("image"), "--out", self.path("out"), *words), {}
        for path, _, names in os.walk(self.path("out")):
            for name in names:
                with open(os.path.join(path, name), "rb") as file:
                    files[os.path.relpath(os.path.join(path, name), self.path("out"))] = file.read()
        shutil.rmtree(self.path("out"), ignore_errors=True)
        self.require_nothing_left("image")
        return result, files

    def require_same(self, *words: str) -> object:
        """The same comes of the image in all ways; gives what."""
        wanted = self.unpacked(*words)
        for is_quick in (False, True):
            with self.side_by_side(is_quick):
                found = self.unpacked(*words)
                self.assertEqual(found[0], wanted[0])
                self.assertTrue(found[1] == wanted[1])
        return wanted[0]


class Same(AheadTest):
    """One after the other, side by side, and unpacked by the quick program if it is there."""

    def test_random_images(self) -> None:
        pick = random.Random(3)
        for number in range(IMAGES):
            with self.subTest(number=number):
                layers = [archive(_members(pick)) for _ in range(pick.randint(2, 5))]
                layers += pick.choices(layers, k=pick.randint(0, 2))
                given = [packed(layer) if pick.random() < 0.7 else layer for layer in layers]
                if number % 4 == 3:
                    given[pick.randrange(len(given))] = _spoilt(pick, pick.choice(given))
                write_layout(self.path("image"), given, layers if pick.random() < 0.8 else None)
                self.require_same(*pick.choice(([], ["--digests-only"])))
                self.empty()

    def test_the_lowest_fault_is_reported(self) -> None:
        """Those of the layers above are of no account, nor which process is quick."""
        bad = archive([member("../x", b"a")])
        for layers in ([bad, archive([member("a", bytes(LARGE_PIECE))]), b"x" * 2_000], [archive([]), b"y" * 999, bad]):
            write_layout(self.path("image"), layers)
            status, _, messages = self.require_same()  # type: ignore[misc]
            self.assertEqual((status, messages.count("\n")), (3, 1), messages)
            self.empty()

    def test_one_budget_for_all(self) -> None:
        layers = [archive([member(f"{layer}.{number}") for number in range(40)]) for layer in range(4)]
        write_layout(self.path("image"), layers)
        for most, status in ((160, 0), (159, 3), (100, 3), (1, 3)):
            with mock.patch.object(budgets, "MAX_HEADERS", most):
                self.assertEqual(self.require_same()[0], status)  # type: ignore[index]

    def test_what_is_no_file(self) -> None:
        """Data of whiteouts, and of directories of old archives, become no blobs."""
        strange = [folder("d"), member("d/.wh.x", b"no"), member("d/.wh..wh..opq", b"no"), member("f", b"yes")]
        write_layout(self.path("image"), [archive(strange), archive([member("d/x", b"below")])] * 2)
        self.assertEqual(self.require_same()[0], 0)  # type: ignore[index]

    def test_when_it_is_done(self) -> None:
        """Of several layers, or of one that is unpacked quickly, but never if something may be left out."""
        two = [archive([member("a", b"a")]), archive([member("b", b"b")])]
        for layers, words, count in ((two, (), 2), (two[:1] * 3, (), 0), (two, ("--skip-unsupported",), 0)):
            write_layout(self.path("image"), layers)
            with self.side_by_side() as worker:
                self.unpacked(*words)
            self.assertEqual(worker.call_count, count)
            self.empty()

    @unittest.skipIf(IS_SIDE_BY_SIDE, "then small images too are read side by side")
    def test_not_of_a_small_image(self) -> None:
        write_layout(self.path("image"), [archive([member("a", b"a")]), archive([member("b", b"b")])])
        with mock.patch("convert.image.ahead._Worker", side_effect=AssertionError):
            self.assertEqual(self.unpacked()[0][0], 0)  # type: ignore[index]


class Quick(AheadTest):
    """The quick program, and stand-ins for it that do less or else than it should."""

    def test_stand_ins(self) -> None:
        pick = random.Random(5)
        layers = [archive([member("big", pick.randbytes(2 * LARGE_PIECE)), *_members(pick)]) for _ in range(2)]
        write_layout(self.path("image"), list(map(packed, layers)), layers)
        wanted = self.unpacked()
        with tempfile.TemporaryDirectory() as programs:
            for text in (
                "exit 1", "exit 0", "cat > /dev/null", "head -c 9999999 /dev/zero", "gzip -dc",
                "gzip -dc | head -c -1", "gzip -dc; exit 3", "gzip -dc | tr a b", "gzip -dc | LC_ALL=C tr Q R", "kill -9 $$",
                "gzip -dc | head -c 9999", "gzip -dc | head -c 1500000", "exec 0<&-; sleep 1",
            ):
                with open(f"{programs}/igzip", "w", encoding="utf-8") as file:
                    file.write(f"#!/bin/sh\n{text}\n")
                os.chmod(f"{programs}/igzip", 0o755)
                path = f"{programs}:{os.environ['PATH']}"
                with self.subTest(text=text), mock.patch.dict(os.environ, PATH=path), self.side_by_side(is_quick=True):
                    self.assertTrue(self.unpacked() == wanted)

    def test_streams_that_it_takes_and_zlib_does_not(self) -> None:
        if find_program() is None:
            self.skipTest("needs igzip")
        layers = [archive([member("a", b"a" * 99)]), archive([member("b", b"b" * 99)])]
        sound = packed(layers[0])
        for stream, status in (
            (sound, 0), (sound + bytes(700), 0), (sound[:-8] + bytes(8), 3), (sound + b"garbage", 3),
            (sound + bytes(9) + packed(b""), 3), (sound + packed(b""), 0), (sound[:3] + b"\xe0" + sound[4:], 3),
        ):
            write_layout(self.path("image"), [stream, packed(layers[1])], layers)
            self.assertEqual(self.require_same()[0], status, stream)  # type: ignore[index]
            self.empty()


class Ended(AheadTest):
    """Processes that end early, or are ended."""

    def setUp(self) -> None:
        super().setUp()
        write_layout(self.path("image"), [archive([member(name, b"a")]) for name in "abc"])

    def test_a_process_that_is_killed(self) -> None:
        def read(_: object, __: object) -> None:
            os.kill(os.getpid(), signal.SIGKILL)

        with self.side_by_side(), mock.patch("convert.image.ahead.ArchiveReader.read", read):
            result, files = self.unpacked()
        self.require_fault(result, 5, "a process that reads layers was ended")  # type: ignore[arg-type]
        self.assertEqual(files, {})

    def test_interrupted(self) -> None:
        """Nothing is left, and no process."""
        for number in (signal.SIGTERM, signal.SIGINT, signal.SIGHUP):
            with self.subTest(number=number):
                words = [ROOT, self.path(_STARTED), "unpack", self.path("image"), "--out", self.path("out")]
                process = subprocess.Popen([sys.executable, "-B", "-c", _WAITING, *map(str, words)])
                while not (pids := self._started()):
                    self.assertIsNone(process.poll())
                process.send_signal(number)
                self.assertEqual(process.wait(30), 128 + number)
                self.assertFalse([pid for pid in pids if os.path.exists(f"/proc/{pid}")])
                os.unlink(self.path(_STARTED))
                self.require_nothing_left("image")

    def test_killed(self) -> None:
        """Its processes end when they come to the next entry; the next run reports the stage."""
        words = [ROOT, self.path(_STARTED), "unpack", self.path("image"), "--out", self.path("out")]
        process = subprocess.Popen([sys.executable, "-B", "-c", _READING, *map(str, words)])
        while not (pids := self._started()):
            self.assertIsNone(process.poll())
        process.kill()
        process.wait()
        end = time.monotonic() + 60
        while any(map(_runs, pids)):
            self.assertLess(time.monotonic(), end)
            time.sleep(0.01)
        result = call("unpack", self.path("image"), "--out", self.path("out"))
        self.require_done(result)
        self.assertIn("the stage of a run that was cut off", result[2])

    def _started(self) -> list[str]:
        """The processes that read, once all three do."""
        with contextlib.suppress(FileNotFoundError), open(self.path(_STARTED), encoding="ascii") as file:
            pids = file.read().split()
            return pids if len(pids) == 3 else []
        return []


def _members(pick: random.Random) -> list[tuple[tarfile.TarInfo, bytes]]:
    """Entries of a layer, some of which take the place of others, and some of which can't be stated."""
    members = [folder("./")]
    for number in range(pick.randint(1, 12)):
        name = f"{pick.choice('abc')}/{pick.choice('abc')}{pick.randint(0, 4)}"
        data = pick.choice((bytes, pick.randbytes))(pick.choice(_SIZES))
        sort = pick.random()
        if sort < 0.6:
            members.append(member(name, data, pax={"mtime": f"{number}.5"}))
        elif sort < 0.7:
            members.append(member(f"{pick.choice('abc')}/.wh.{pick.choice('abc')}1"))
        elif sort < 0.8:
            members.append(member(name, kind=tarfile.SYMTYPE, target="x"))
        elif sort < 0.9:
            members.append(member("s", b"abc", pax={"GNU.sparse.map": "5,3", "GNU.sparse.size": "999999"}))
        elif len(members) > 1 and members[1][0].isreg():
            members.append(member(f"{name}l", kind=tarfile.LNKTYPE, target=members[1][0].name))
    return members


def _spoilt(pick: random.Random, data: bytes) -> bytes:
    """With a byte turned, or cut short."""
    at = pick.randrange(len(data))
    return data[:at] if pick.random() < 0.5 else data[:at] + bytes([data[at] ^ 0xFF]) + data[at + 1:]


if __name__ == "__main__":
    unittest.main()
