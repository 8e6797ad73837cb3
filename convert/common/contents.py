"""Copying and digesting the contents of files, a piece at a time."""

import errno
import fcntl
import hashlib
import os
import tempfile
from collections import deque
from collections.abc import Callable
from concurrent.futures import Future, ThreadPoolExecutor
from types import TracebackType

from .faults import cannot_read, reason_of

PIECE = 1 << 18
ZEROS = bytes(PIECE)
PRIVATE_MODE = 0o600  # of what has the contents of files, secret ones too
Piece = bytes | bytearray | memoryview
Write = Callable[[Piece], object]  # takes all bytes that it is given
LARGE_PIECE = 1 << 20  # bytes that one thread hands to another, so that they seldom wait for each other
LARGE_PIECES = 4  # that are on their way at once
_SMALL = 1 << 16  # bytes of contents that are digested at once, since another thread would hold up the one that reads
_COPY_AT_ONCE = 1 << 30
_CLONE = 0x40049409  # FICLONE of linux/fs.h
_REFUSED = (
    errno.EXDEV, errno.EINVAL, errno.ENOSYS, errno.EOPNOTSUPP, errno.ENOTSUP, errno.ENOTTY,
    errno.EBADF, errno.EPERM, errno.ETXTBSY,
)


class Copier:
    """Copies whole files, by a reflink or inside the kernel if the file systems can.

    A way that the file systems refuse once isn't tried again.
    """

    def __init__(self) -> None:
        self.can_clone = True
        self._can_copy = True

    def clone(self, source: int, target: int) -> bool:
        """Makes an empty open file share another one's bytes, or says that this can't be had here."""
        if self.can_clone:
            try:
                fcntl.ioctl(target, _CLONE, source)
            except OSError as error:
                self.can_clone = False
                _require_refusal(error)
        return self.can_clone

    def copy(self, source: int, target: int) -> None:
        """Copies all of one open file into another, empty one."""
        if self.clone(source, target):
            return
        if self._can_copy:
            try:
                _copy_in_kernel(source, target)
                return
            except OSError as error:
                self._can_copy = False
                _require_refusal(error)
                os.lseek(source, 0, os.SEEK_SET)
                os.lseek(target, 0, os.SEEK_SET)
        _copy_pieces(source, target)


def _require_refusal(error: OSError) -> None:
    """Raises an error that says something else than that a way of copying isn't there."""
    if error.errno not in _REFUSED:
        raise error


def may_clone(source: str, target: str) -> bool:
    """Whether files of one folder may share their bytes with new ones in another, which then take no room."""
    if os.stat(source).st_dev != os.stat(target).st_dev:
        return False
    try:
        with tempfile.TemporaryFile(dir=target) as one, tempfile.TemporaryFile(dir=target) as other:
            return Copier().clone(one.fileno(), other.fileno())
    except OSError:
        return False


def _copy_in_kernel(source: int, target: int) -> None:
    while os.copy_file_range(source, target, _COPY_AT_ONCE):
        pass


def _copy_pieces(source: int, target: int) -> None:
    while piece := os.read(source, PIECE):
        write_all(target, piece)


def read_small(file: int, size: int) -> bytes:
    """All bytes of an open file that is said to have this size, one more if it has more."""
    piece = os.read(file, size + 1)
    while len(piece) < size:
        more = os.read(file, size + 1 - len(piece))
        if not more:
            break
        piece += more
    return piece


def is_zeros(piece: Piece) -> bool:
    """Whether a piece of contents is only zeros."""
    return piece[:1] == b"\0" and piece == ZEROS[:len(piece)]


def write_all(target: int, piece: Piece) -> None:
    """Writes all bytes, however many the system takes at once."""
    view = memoryview(piece)
    while view:
        view = view[os.write(target, view):]


class OtherContents(Exception):
    """The contents of a file, of this path, have another digest than they should."""


class _Contents:
    """A file's contents on their way, which are to have a digest."""

    def __init__(self, wanted: str, path: str) -> None:
        self._digest = hashlib.sha256()
        self._wanted = wanted
        self._path = path

    def take(self, part: memoryview, is_last: bool) -> None:
        """The next part of them."""
        self._digest.update(part)
        if is_last and self._digest.hexdigest() != self._wanted:
            raise OtherContents(self._path)


class _LargePiece:
    """A large piece on its way, and what has to be done before it is filled again."""

    def __init__(self) -> None:
        self.bytes = memoryview(bytearray(LARGE_PIECE))
        self.parts: list[tuple[_Contents, memoryview, bool]] = []
        self.tasks: list[Future[object]] = []

    def digest_parts(self) -> None:
        """Digests the contents of files that are in it."""
        for contents, part, is_last in self.parts:
            contents.take(part, is_last)

    def wait(self) -> None:
        """Waits until it can be filled again; raises what went wrong."""
        for task in self.tasks:
            task.result()
        self.tasks, self.parts = [], []


class DigestedBeside:
    """Takes bytes into large pieces. A thread writes them, one makes a digest of them, and one those of files in them."""

    def __init__(self, write: Write, is_digested: bool = True) -> None:
        self._write = write
        self._digest = hashlib.sha256() if is_digested else None
        self._threads = ThreadPoolExecutor(1), ThreadPoolExecutor(1), ThreadPoolExecutor(1)
        self._pieces = deque(_LargePiece() for _ in range(LARGE_PIECES))
        self._size = 0  # of what is in the first piece

    def __enter__(self) -> "DigestedBeside":
        return self

    def __exit__(
        self, kind: type[BaseException] | None, error: BaseException | None, trace: TracebackType | None
    ) -> None:
        try:
            if isinstance(error, Exception):
                self._wait()  # what went wrong before is reported first
        finally:
            for thread in self._threads:
                thread.shutdown(cancel_futures=True)

    def write(self, data: Piece) -> None:
        """Takes all bytes."""
        begin = self._size
        if begin + len(data) < LARGE_PIECE:
            self._size = begin + len(data)
            self._pieces[0].bytes[begin:self._size] = data
            return
        view = memoryview(data)
        while view:
            place = self._room()[:len(view)]
            place[:] = view[:len(place)]
            view = view[len(place):]
            self._fill(len(place))

    def copy(self, file: int, size: int, wanted: str | None, path: str) -> bool:
        """Takes this many bytes of an open file, which may have to have a digest; fails later if they have another.

        Says whether there were as many.
        """
        contents, left = None if wanted is None else _Contents(wanted, path), size
        while left:
            place = self._room()[:left]
            try:
                count = os.readv(file, [place])
            except OSError as error:
                raise cannot_read(path, reason_of(error)) from error
            if count == 0:
                return False
            left -= count
            if contents is not None and size <= _SMALL:
                contents.take(place[:count], left == 0)
            elif contents is not None:
                self._pieces[0].parts.append((contents, place[:count], left == 0))
            self._fill(count)
        return True

    def _room(self) -> memoryview:
        """What is left of the first piece."""
        return self._pieces[0].bytes[self._size:]

    def _fill(self, count: int) -> None:
        """So many bytes of it are there now."""
        self._size += count
        if self._size == LARGE_PIECE:
            self._hand_on()

    def _hand_on(self) -> None:
        piece = self._pieces[0]
        filled = piece.bytes[:self._size]
        writing, digesting, checking = self._threads
        piece.tasks = [writing.submit(self._write, filled)]
        if self._digest is not None:
            piece.tasks.append(digesting.submit(self._digest.update, filled))
        if piece.parts:
            piece.tasks.append(checking.submit(piece.digest_parts))
        self._pieces.rotate(-1)
        self._size = 0
        self._pieces[0].wait()

    def end(self) -> str:
        """Has what is left written; gives the digits of the digest of all, or nothing where none is made."""
        self._hand_on()
        self._wait()
        return "" if self._digest is None else self._digest.hexdigest()

    def _wait(self) -> None:
        for piece in self._pieces:
            piece.wait()


def digest_and_size(file: int, begin: int = 0) -> tuple[str, int]:
    """The SHA-256 digest of an open file's bytes from a place on, and how many they are."""
    digest = hashlib.sha256()
    size = 0
    while piece := os.pread(file, PIECE, begin + size):
        digest.update(piece)
        size += len(piece)
    return digest.hexdigest(), size
