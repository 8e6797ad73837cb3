"""How layers are packed, and packing an archive while it is written: not at all, by gzip or by zstd."""

import contextlib
import hashlib
import os
import shutil
import struct
import subprocess
import tempfile
import zlib
from collections import deque
from collections.abc import Iterator, Mapping
from concurrent.futures import Future, ThreadPoolExecutor
from dataclasses import dataclass
from typing import IO

from ..common.contents import Write
from ..common.faults import ReadFault, cannot_write
from ..common.processes import last_words, running
from ..common.streams import Hash

NONE, GZIP, ZSTD = "none", "gzip", "zstd"
LEVELS: Mapping[str, range] = {NONE: range(0), GZIP: range(1, 10), ZSTD: range(1, 20)}  # of the methods of images
_USUAL_LEVELS: Mapping[str, int] = {GZIP: 6, ZSTD: 3}
_GZIP_HEADER = b"\x1f\x8b\x08\0\0\0\0\0\0\x03"  # packed by deflate, without a name and a time, on Unix
BLOCK = 1 << 19  # bytes that one processor packs at once
_DICTIONARY = 1 << 15
_ZSTD_WORDS = ["--compress", "--single-thread", "--quiet", "--stdout"]


@dataclass(frozen=True)
class Compression:
    """A method of packing, and its level if that isn't the usual one."""

    method: str = NONE
    level: int | None = None

    def __str__(self) -> str:
        return self.method if self.level is None else f"{self.method}:{self.level}"

    def problem(self, levels: Mapping[str, range]) -> str | None:
        """Why it is none of some methods at one of their levels."""
        if self.method not in levels:
            return f"{self.method} is none of {', '.join(levels)}"
        known = levels[self.method]
        if self.level is None or self.level in known:
            return None
        return f"{self.method} has levels {known[0]} to {known[-1]}" if known else f"{self.method} has no levels"


PLAIN = Compression()


def compression_of(text: str) -> Compression | None:
    """What a text such as `gzip` or `gzip:9` means; nothing if it isn't written so."""
    method, colon, level = text.partition(":")
    if not colon:
        return Compression(method)
    return Compression(method, int(level)) if level.isascii() and level.isdecimal() else None


def require_program(compression: Compression) -> None:
    """Refuses a way of packing whose program isn't there."""
    if compression.method == ZSTD and shutil.which("zstd") is None:
        raise ReadFault("there is no zstd program; install zstd, or use --compress gzip")


@dataclass(frozen=True)
class Packer:
    """Takes the bytes of an archive; may make the digest of what comes of them."""

    write: Write
    hash: Hash | None = None

    def digest(self) -> str | None:
        """Its digits, once all is packed, if it is made."""
        return None if self.hash is None else self.hash.hexdigest()


@contextlib.contextmanager
def packing(compression: Compression, file: IO[bytes]) -> Iterator[Packer]:
    """What takes the bytes of an archive and writes them packed; at its end all is in the file."""
    file.flush()
    level = _USUAL_LEVELS.get(compression.method, 0) if compression.level is None else compression.level
    if compression.method == GZIP:
        with ThreadPoolExecutor(len(os.sched_getaffinity(0))) as workers:
            gzip = _Gzip(file, workers, level)
            yield Packer(gzip.write, gzip.hash)
            gzip.end()
    elif compression.method == ZSTD:
        with _by_zstd(file, level) as write:
            yield Packer(write)
    else:
        yield Packer(file.write)
    file.flush()


class _Gzip:
    """A gzip stream of blocks that are packed by themselves, so by as many processors as there are.

    Each block begins with what the one before it had last as its dictionary, as `pigz` does it. So the bytes
    don't depend on how many threads pack them, and hardly differ in number from those of one block.
    """

    def __init__(self, file: IO[bytes], workers: ThreadPoolExecutor, level: int) -> None:
        self._file = file
        self._workers = workers
        self._level = level
        self._most_waiting = 2 * len(os.sched_getaffinity(0))
        self._waiting: deque[Future[bytes]] = deque()
        self._held = bytearray()
        self._before = b""
        self._check = 0
        self._size = 0
        self.hash = hashlib.sha256()
        self._put(_GZIP_HEADER)

    def write(self, piece: bytes) -> None:
        """Takes bytes; those of whole blocks go to be packed."""
        self._held += piece
        while len(self._held) > BLOCK:
            self._pack(bytes(self._held[:BLOCK]), zlib.Z_SYNC_FLUSH)
            del self._held[:BLOCK]

    def end(self) -> None:
        """Packs what is held, and ends the stream."""
        self._pack(bytes(self._held), zlib.Z_FINISH)
        while self._waiting:
            self._put(self._waiting.popleft().result())
        self._put(struct.pack("<II", self._check, self._size % (1 << 32)))

    def _put(self, packed: bytes) -> None:
        self._file.write(packed)
        self.hash.update(packed)

    def _pack(self, block: bytes, flush: int) -> None:
        while len(self._waiting) >= self._most_waiting:
            self._put(self._waiting.popleft().result())
        self._waiting.append(self._workers.submit(_packed_block, block, self._before, flush, self._level))
        self._before = block[-_DICTIONARY:]
        self._check = zlib.crc32(block, self._check)
        self._size += len(block)


def _packed_block(block: bytes, before: bytes, flush: int, level: int) -> bytes:
    packer = zlib.compressobj(level, zlib.DEFLATED, -zlib.MAX_WBITS, zdict=before)
    return packer.compress(block) + packer.flush(flush)


@contextlib.contextmanager
def _by_zstd(file: IO[bytes], level: int) -> Iterator[Write]:
    command = [str(shutil.which("zstd")), *_ZSTD_WORDS, f"-{level}"]
    with tempfile.TemporaryFile() as messages:
        with running(command, stdin=subprocess.PIPE, stdout=file, stderr=messages) as process:
            assert process.stdin is not None
            with contextlib.suppress(BrokenPipeError):
                yield process.stdin.write
            with contextlib.suppress(BrokenPipeError):
                process.stdin.close()
            status = process.wait()
        if status != 0:
            raise cannot_write("a layer", f"zstd failed: {last_words(messages, 'zstd', status)}")
