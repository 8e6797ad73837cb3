"""Threads beside the one that goes on: the same bytes in the same order, whichever of them is slow."""

import hashlib
import random
import threading
import time
import unittest
from unittest import mock

from support import ROOT  # noqa: F401

from convert.common.contents import LARGE_PIECE, DigestedBeside
from convert.common.streams import Digesting, Hash, Reader, read_ahead

DATA = random.Random(1).randbytes(9 * LARGE_PIECE + 12_345)
WAIT = 0.005  # seconds


class _Broken(Exception):
    """What is wrong with a stream."""


class _Stream(Reader):
    """Bytes that come slowly, and then end, or break off."""

    def __init__(self, wait: float, is_broken: bool = False) -> None:
        super().__init__()
        self._wait = wait
        self._is_broken = is_broken
        self.place = 0

    def readinto(self, buffer: bytearray | memoryview) -> int:  # type: ignore[override]
        time.sleep(self._wait)
        if self._is_broken and self.place == len(DATA):
            raise _Broken
        piece = DATA[self.place:self.place + len(buffer)]
        buffer[:len(piece)] = piece
        self.place += len(piece)
        return len(piece)


class _SlowDigest:
    """A digest that takes its time before it looks at what it is given."""

    def __init__(self) -> None:
        self._digest = hashlib.new("sha256")

    def update(self, data: memoryview) -> None:
        time.sleep(WAIT)
        self._digest.update(data)

    def hexdigest(self) -> str:
        return self._digest.hexdigest()


class Threads(unittest.TestCase):
    """Each ends its thread, whatever happens."""

    def tearDown(self) -> None:
        self.assertEqual(threading.active_count(), 1)

    def read(self, stream: Reader, wait: float, digest: Hash | None = None) -> bytes:
        """All bytes of a stream that is read ahead, in pieces of odd sizes."""
        pick, pieces = random.Random(2), [b"x"]
        with read_ahead(stream, digest) as ahead:
            while pieces[-1]:
                time.sleep(wait)
                pieces.append(ahead.read(pick.randint(1, 2 * LARGE_PIECE)))
            self.assertEqual(ahead.read(1), b"")
        return b"".join(pieces[1:])

    def test_read_ahead(self) -> None:
        for stream_waits, reader_waits, digest in (
            (0.0, 0.0, hashlib.sha256()), (WAIT, 0.0, hashlib.sha256()), (0.0, WAIT, hashlib.sha256()),
            (0.0, 0.0, _SlowDigest()),
        ):
            source = Digesting(_Stream(stream_waits), "sha256")
            self.assertTrue(self.read(source, reader_waits, digest) == DATA)
            self.assertEqual({digest.hexdigest(), source.digest_of_all()}, {hashlib.sha256(DATA).hexdigest()})

    def test_what_breaks_off(self) -> None:
        """All that comes before is given."""
        given = 0
        with self.assertRaises(_Broken), read_ahead(_Stream(0.0, is_broken=True)) as ahead:
            while piece := ahead.read(100_000):
                self.assertTrue(piece == DATA[given:given + len(piece)])
                given += len(piece)
        self.assertEqual(given, len(DATA))

    def test_left_early(self) -> None:
        """No more is read than a few pieces."""
        stream = _Stream(0.0)
        with self.assertRaises(KeyError), read_ahead(stream) as ahead:
            ahead.read(1)
            raise KeyError
        self.assertLess(stream.place, 6 * LARGE_PIECE)

    def test_digested_beside(self) -> None:
        pick, place, handed = random.Random(3), 0, bytearray()
        with mock.patch("convert.common.contents.hashlib.sha256", _SlowDigest), DigestedBeside(handed.extend) as archive:
            while place < len(DATA):
                count = pick.choice((0, 1, 512, 100_000, 3 * LARGE_PIECE))
                archive.write(DATA[place:place + count])
                place += count
            digest = archive.end()
        self.assertTrue(handed == DATA)
        self.assertEqual(digest, hashlib.sha256(DATA).hexdigest())

    def test_what_can_not_be_written(self) -> None:
        with self.assertRaises(OSError), DigestedBeside(mock.Mock(side_effect=OSError)) as archive:
            archive.write(DATA)


if __name__ == "__main__":
    unittest.main()
