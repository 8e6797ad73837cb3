"""The bytes of a layer: unpacked, with their digest, whatever it was packed with."""

import contextlib
import hashlib
import io
import os
import re
import shutil
import subprocess
import tempfile
import threading
import zlib
from collections import deque
from collections.abc import Iterator
from concurrent.futures import Future, ThreadPoolExecutor
from typing import IO, Protocol

from .contents import LARGE_PIECE, LARGE_PIECES, PIECE
from .faults import EndsEarly, TarFault, cannot_read
from .processes import last_words, running
from .progress import Progress

_GZIP = b"\x1f\x8b"
_RESERVED = 0xE0  # flags in the fourth byte
_GZIP_WINDOW = 31  # zlib's number for a gzip header and trailer
_GZIP_PIECE = 1 << 18
_FIRST_OF_MEMBER = 1 << 13  # bytes that a member is begun with, as what it leaves of them is copied
MAX_MEMBERS = 1 << 14  # of a gzip stream, and one more for each MEMBER_BYTES that it unpacks to
MEMBER_BYTES = 1 << 8
_ZSTD = b"\x28\xb5\x2f\xfd"
_BZIP2 = {b"BZh%d1AY&SY" % level: "bzip2" for level in range(1, 10)}
_OTHERS = {**_BZIP2, b"\xfd7zXZ\0": "xz"}
_PACKINGS = {_GZIP: "gzip", _ZSTD: "zstd", **_OTHERS}
HEAD_BYTES = 10  # that show how a file is packed
_ZSTD_INPUT = re.compile(r"(zstd: )?/\*stdin\*\\ ?: ")  # what zstd puts before what it says


class Hash(Protocol):
    """What digests bytes, as hashlib has it."""

    def update(self, data: memoryview, /) -> None: ...

    def hexdigest(self) -> str: ...


class Source(Protocol):
    """Bytes in order; none only at the end."""

    def read(self, count: int, /) -> bytes: ...

    def readinto(self, buffer: bytearray | memoryview, /) -> int | None: ...


class Reader(io.RawIOBase):
    """Bytes to read, which are there whenever they are asked for."""

    def readable(self) -> bool:
        """They are."""
        return True

    def read(self, count: int = -1, /) -> bytes:
        """As many as are asked for at most; none only at the end."""
        return super().read(count) or b""


class Slice(Reader):
    """A part of a file, for reading; the file's own place isn't used."""

    def __init__(self, file: int, begin: int, size: int) -> None:
        super().__init__()
        self._file = file
        self._begin = begin
        self.place = begin
        self._end = begin + size

    def size(self) -> int:
        """How many bytes are left."""
        return self._end - self.place

    def is_packed(self) -> bool:
        """Whether its first bytes are those of a packed one."""
        return is_packed(self._head())

    def packing(self) -> str:
        """What its first bytes say that it is packed by, or nothing."""
        return packing_of(self._head())

    def is_gzip(self) -> bool:
        """Whether they are those of a gzip stream, of no form that isn't defined yet."""
        head = self._head()
        return head.startswith(_GZIP) and len(head) == HEAD_BYTES and not head[3] & _RESERVED

    def _head(self) -> bytes:
        return os.pread(self._file, min(HEAD_BYTES, self._end - self._begin), self._begin)

    def readinto(self, buffer: bytearray | memoryview) -> int:  # type: ignore[override]
        """Reads what fits."""
        count = os.preadv(self._file, [memoryview(buffer)[:self._end - self.place]], self.place)
        self.place += count
        return count


class SeekingSlice(Slice):
    """A part of a file that is read here and there."""

    def skip(self, count: int, /) -> None:
        """Passes bytes over."""
        if self.place + count > self._end:
            raise EndsEarly
        self.place += count


class Gunzip(Reader):
    """The bytes of a gzip stream, of all its members; zeros may come after the last one."""

    def __init__(self, packed: io.BufferedReader) -> None:
        super().__init__()
        self._packed = packed
        self._piece = packed.read(_GZIP_PIECE)
        self._place = 0
        self._members = 0
        self._size = 0
        self._begin_member()

    def readinto(self, buffer: bytearray | memoryview) -> int:  # type: ignore[override]
        """Fills the buffer, less at the end and before what is broken."""
        view, size = memoryview(buffer), 0
        try:
            while size < len(view) and self._is_in_member():
                data = self._unpack(len(view) - size)
                view[size:size + len(data)] = data
                size += len(data)
        except (EOFError, zlib.error):
            if size == 0:
                raise  # and otherwise at the next call
        return size

    def _is_in_member(self) -> bool:
        """Whether there is a member, which is begun where the one before it ended."""
        if self._member.eof:
            if self._is_at_end():
                return False
            self._begin_member()
        return True

    def _begin_member(self) -> None:
        self._members += 1
        if self._members > MAX_MEMBERS + self._size // MEMBER_BYTES:
            raise TarFault(f"its gzip stream has {self._members:,} members, which unpack to {self._size:,} bytes")
        self._member = zlib.decompressobj(_GZIP_WINDOW)
        self._at_once = _FIRST_OF_MEMBER

    def _unpack(self, most: int) -> bytes:
        """The next bytes of the member, at most so many; none where more of the stream is to be read first."""
        part = memoryview(self._piece)[self._place:self._place + self._at_once]
        data = self._member.decompress(part, most)
        self._place += len(part) - len(self._member.unused_data if self._member.eof else self._member.unconsumed_tail)
        self._at_once = min(2 * self._at_once, _GZIP_PIECE)
        self._size += len(data)
        if not data and not part and not self._member.eof and not self._has_more():
            raise EOFError("it ends too early")
        return data

    def _has_more(self) -> bool:
        """Goes on to the next piece of the stream, where there is one."""
        more = self._packed.read(_GZIP_PIECE)
        if more:
            self._piece, self._place = more, 0
        return bool(more)

    def _is_at_end(self) -> bool:
        """Whether nothing comes after a member but zeros."""
        has_zeros = False
        while self._has_zeros_alone():
            has_zeros = has_zeros or self._place < len(self._piece)
            if not self._has_more():
                return True
        if has_zeros:
            raise zlib.error("zeros stand between its members")
        return False

    def _has_zeros_alone(self) -> bool:
        """Whether the rest of the piece is of zeros, if there is one."""
        is_zero = not self._piece[self._place:self._place + 1].strip(b"\0")
        return is_zero and not self._piece[self._place:].strip(b"\0")


class Plain(Reader):
    """Bytes that weren't packed, of which the first were looked at."""

    def __init__(self, stream: io.BufferedReader) -> None:
        super().__init__()
        self._stream = stream

    def readinto(self, buffer: bytearray | memoryview) -> int:  # type: ignore[override]
        """Reads what fits."""
        return self._stream.readinto(buffer)


class Watched(Reader):
    """Reads a part of a file, or what a program writes, and counts its bytes on the progress."""

    def __init__(self, part: Source, progress: Progress) -> None:
        super().__init__()
        self._part = part
        self._progress = progress
        progress.expect(part.size() if isinstance(part, Slice) else None)

    def readinto(self, buffer: bytearray | memoryview) -> int:  # type: ignore[override]
        """Reads what fits."""
        count = self._part.readinto(buffer) or 0
        self._progress.step(count)
        return count


class Digesting(Reader):
    """Reads from a stream and digests all that is read."""

    def __init__(self, stream: Source, algorithm: str) -> None:
        super().__init__()
        self._stream = stream
        self._digest = hashlib.new(algorithm)

    def readinto(self, buffer: bytearray | memoryview) -> int:  # type: ignore[override]
        """Reads what fits."""
        count = self._stream.readinto(buffer) or 0
        self._digest.update(memoryview(buffer)[:count])
        return count

    def digest_of_all(self) -> str:
        """The digits of the digest of all bytes, of which those are read now that weren't."""
        piece = bytearray(PIECE)
        while self.readinto(piece):
            pass
        return self._digest.hexdigest()


class Ahead(Reader):
    """A stream of which a thread reads pieces before they are asked for, while another one digests the one before."""

    def __init__(self, stream: Source, threads: "_Threads", digest: Hash | None) -> None:
        super().__init__()
        self._stream = stream
        self._threads = threads
        self._digest = digest
        self._digested: Future[None] | None = None
        self._pieces: deque[tuple[memoryview, Future[int | None]]] = deque()
        for _ in range(LARGE_PIECES):
            self._have_filled(memoryview(bytearray(LARGE_PIECE)))
        self._piece = memoryview(b"")  # the one that is read from
        self._place = 0
        self._size = 0

    def _have_filled(self, piece: memoryview) -> None:
        self._pieces.append((piece, self._threads.reading.submit(self._stream.readinto, piece)))

    def _have_digested(self, digest: Hash) -> None:
        self._digested = self._threads.digesting.submit(digest.update, self._piece[:self._size])

    def read(self, count: int = -1, /) -> bytes:
        """Gives of the next piece as many as are asked for at most; what went wrong with it is raised here."""
        return bytes(self.view(count))

    def view(self, count: int, /) -> memoryview:
        """The same bytes where they are, until more of them are read."""
        if self._place == self._size and not self._has_next():
            return self._piece[:0]
        begin, self._place = self._place, min(self._place + count, self._size)
        return self._piece[begin:self._place]

    def _has_next(self) -> bool:
        """Goes on to the next piece, if there is one. At the end all are digested."""
        piece, filled = self._pieces[0]
        size = filled.result() or 0
        if self._digested is not None:
            self._digested.result()
        if size > 0:
            self._pieces.popleft()
            if self._size > 0:
                self._have_filled(self._piece)
            self._piece, self._place, self._size = piece, 0, size
            if self._digest is not None:
                self._have_digested(self._digest)
        return size > 0


class _Threads:
    """The threads beside one that goes on: one that reads, and one that digests."""

    def __init__(self) -> None:
        self.reading = ThreadPoolExecutor(1)
        self.digesting = ThreadPoolExecutor(1)

    def __enter__(self) -> "_Threads":
        return self

    def __exit__(self, *_: object) -> None:
        self.reading.shutdown(cancel_futures=True)
        self.digesting.shutdown(cancel_futures=True)


@contextlib.contextmanager
def read_ahead(stream: Source, digest: Hash | None = None) -> Iterator[Source]:
    """The same bytes, pieces of which are read, unpacked and digested before they are asked for.

    A stream that may have to be waited for is read when it is asked, if there is nothing to digest.
    """
    if digest is None and not isinstance(stream, Reader):
        yield stream
    else:
        with _Threads() as threads:
            yield Ahead(stream, threads, digest)


def buffered(stream: Source) -> Source:
    """A stream of which few bytes can be read at once."""
    return io.BufferedReader(stream, PIECE) if isinstance(stream, Reader) and not isinstance(stream, Ahead) else stream


def packing_of(head: bytes) -> str:
    """The program that packs what begins with these bytes, or nothing."""
    return next((name for magic, name in _PACKINGS.items() if head.startswith(magic)), "")


def is_packed(head: bytes) -> bool:
    """Whether bytes begin as what gzip, zstd or another such program packs."""
    return bool(packing_of(head))


@contextlib.contextmanager
def unpacked(part: io.RawIOBase, name: str, *, may_wait: bool = False) -> Iterator[Source]:
    """The bytes of an archive. Tells what is wrong with its packing as a fault of this name.

    What feeds zstd is waited for at the end, unless it may itself have to wait for bytes, as for those of a pipe.
    """
    packed = io.BufferedReader(part, PIECE)
    head = packed.peek(HEAD_BYTES)[:HEAD_BYTES]
    try:
        if head.startswith(_GZIP):
            yield Gunzip(packed)
        elif head.startswith(_ZSTD):
            with _by_zstd(packed, name, may_wait) as stream:
                yield stream
        else:
            for magic, program in _OTHERS.items():
                if head.startswith(magic):
                    raise cannot_read(name, f"it is packed by {program}, which isn't read; unpack it first (`{program} -d`)")
            yield Plain(packed)
    except EOFError as error:
        raise cannot_read(name, "it is cut off: its gzip stream ends too early") from error
    except zlib.error as error:
        raise cannot_read(name, f"its gzip stream is broken: {error}") from error
    except TarFault as error:
        raise cannot_read(name, str(error)) from error


@contextlib.contextmanager
def _by_zstd(packed: io.BufferedReader, name: str, may_wait: bool) -> Iterator[Source]:
    program = shutil.which("zstd")
    if program is None:
        raise cannot_read(name, "it is packed by zstd, and there is no zstd program; install zstd")
    command = [program, "--decompress", "--stdout", "--quiet"]
    feeder = None
    with tempfile.TemporaryFile() as messages:
        try:
            with running(command, stdin=subprocess.PIPE, stdout=subprocess.PIPE, stderr=messages) as process:
                assert process.stdin is not None and isinstance(process.stdout, io.BufferedReader)
                feeder = threading.Thread(target=_feed, args=(packed, process.stdin), daemon=True)
                feeder.start()
                try:
                    yield process.stdout
                except EndsEarly:
                    # An archive that seems to be cut short may be one of which zstd could unpack no more.
                    if process.wait() == 0:
                        raise
                process.stdout.close()
                status = process.wait()
        finally:
            if feeder is not None and not may_wait:
                feeder.join()
        if status != 0:
            reason = _ZSTD_INPUT.sub("", last_words(messages, "zstd", status))
            raise cannot_read(name, f"its zstd stream is broken: {reason}")


def _feed(packed: io.BufferedReader, program: IO[bytes]) -> None:
    """Writes all packed bytes to the program; one that ends early needs no more, and one that was ended is closed."""
    with contextlib.suppress(BrokenPipeError, ValueError), program:
        shutil.copyfileobj(packed, program, PIECE)
