"""Unpacking gzip by the program `igzip` of Debian's package isal, which takes a third of the time that zlib does.

It passes over what is after the last member. So it is used only for bytes whose digest is known, and a member of
random bytes is put after the others, which comes out only if nothing before it was passed over. Whoever uses it
reads again by zlib what it doesn't take, so what is reported of a broken stream doesn't depend on whether it is there.
"""

import contextlib
import fcntl
import gzip
import secrets
import shutil
import subprocess
import threading
from collections.abc import Iterator

from ..common.contents import LARGE_PIECE, PIECE, write_all
from ..common.streams import Digesting, Reader
from .documents import Digest

_NAME = "igzip"
_MARK_BYTES = 16
_MOST_AHEAD = 1 << 23  # bytes that the program may be handed beyond twice those that it gives, as packing makes few more


class NotTaken(Exception):
    """The program didn't take a stream, or not all of it."""


def find_program() -> str | None:
    """The program, if it is there."""
    return shutil.which(_NAME)


@contextlib.contextmanager
def unpacked_quickly(packed: Reader, digest: Digest | None) -> Iterator["QuickGunzip"]:
    """The bytes of a gzip stream, of all its members; fails at the end if the stream isn't sound, or has another digest."""
    process = _started()
    source = packed if digest is None else Digesting(packed, digest[0])
    stream = QuickGunzip(process, secrets.token_bytes(_MARK_BYTES))
    feeder = threading.Thread(target=stream.feed, args=(source,), daemon=True)
    feeder.start()
    try:
        yield stream
    finally:
        process.kill()
        process.stdout.close()  # type: ignore[union-attr]
        process.wait()
        feeder.join()
    if isinstance(source, Digesting) and digest is not None and source.digest_of_all() != digest[1]:
        raise NotTaken


def _started() -> "subprocess.Popen[bytes]":
    command = [str(find_program()), "--decompress", "--stdout"]
    process = subprocess.Popen(
        command, stdin=subprocess.PIPE, stdout=subprocess.PIPE, stderr=subprocess.DEVNULL, bufsize=0
    )
    assert process.stdin is not None and process.stdout is not None
    for pipe in (process.stdin, process.stdout):
        with contextlib.suppress(OSError):  # a user may have few large pipes
            fcntl.fcntl(pipe, fcntl.F_SETPIPE_SZ, LARGE_PIECE)
    return process


class QuickGunzip(Reader):
    """What the program gives, but for the mark at its end."""

    def __init__(self, process: "subprocess.Popen[bytes]", mark: bytes) -> None:
        super().__init__()
        assert process.stdin is not None and process.stdout is not None
        self._process = process
        self._input, self._output = process.stdin, process.stdout
        self._mark = mark
        self._held = b""  # what may be the mark
        self._given = 0  # bytes that the program gave

    def feed(self, packed: Reader) -> None:
        """Hands all bytes to the program, and the mark behind them; fewer where it takes far more than it gives."""
        piece, handed = memoryview(bytearray(PIECE)), 0
        with contextlib.suppress(OSError), self._input as program:
            while count := packed.readinto(piece):
                handed += count
                if handed > _MOST_AHEAD + 2 * self._given:
                    return
                write_all(program.fileno(), piece[:count])
            write_all(program.fileno(), gzip.compress(self._mark))

    def readinto(self, buffer: bytearray | memoryview) -> int:  # type: ignore[override]
        """Fills a large piece, less at the end."""
        view, size = memoryview(buffer), len(self._held)
        view[:size] = self._held
        while size < len(view) and (count := self._output.readinto(view[size:])):  # type: ignore[attr-defined]
            size += count
            self._given += count
        self._held = bytes(view[max(0, size - _MARK_BYTES):size])
        if size <= _MARK_BYTES and (self._held != self._mark or self._process.wait() != 0):
            raise NotTaken
        return size - len(self._held)
