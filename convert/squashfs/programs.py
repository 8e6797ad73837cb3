"""squashfs files, read by `sqfs2tar` and written by `tar2sqfs`, both of squashfs-tools-ng."""

import contextlib
import errno
import io
import os
import resource
import shutil
import struct
import subprocess
import tempfile
from collections.abc import Callable, Iterator, Mapping
from dataclasses import dataclass
from typing import IO

from ..common.contents import Write
from ..common.faults import EndsEarly, ReadFault, cannot_read, cannot_write, reading
from ..common.open_dirs import READ_WHERE_IT_LEADS
from ..common.processes import last_words, running
from ..common.streams import Source
from ..image.compression import Compression
from ..model import rules
from ..model.workers import usual_workers

MAGIC = b"hsqs"
LEVELS: Mapping[str, range] = {"gzip": range(1, 10), "xz": range(10), "zstd": range(1, 23), "lz4": range(0)}
_READER, _WRITER = "sqfs2tar", "tar2sqfs"
# magic, inodes, .., bytes of a block, .., compressor, .., flags, .., major and minor version, .., bytes used
_SUPER_BLOCK = struct.Struct("<4sI4xI4xH2xH2xHH8xQ")
_SUPER_BLOCK_BYTES = 96
_VERSION = 4
_COMPRESSORS = {1: "gzip", 4: "xz", 5: "lz4", 6: "zstd"}
_HAS_OPTIONS = 0x400  # a flag: what the compressor was asked for comes after the first block
_OPTIONS = struct.Struct("<HI")  # a head, and of gzip and zstd the level
_OF_LEVELS = ("gzip", "zstd")
_BLOCK_BYTES = [1 << power for power in range(12, 21)]
_PACKAGE = "squashfs-tools-ng"
_MOST_MEMORY = 1 << 30  # bytes that a program may have; sqfs2tar takes some 250 for each entry
_MOST_TOLD = 16 << 20  # bytes of what it says, a line for each socket
_LEAST_FREE = 1 << 16  # bytes of a disk that isn't full
_SOCKET = (b"WARNING: ./", b": cannot pack socket\nSkipping ./", b"\n")  # a path is between these
_ENVIRONMENT = {"LC_ALL": "C"}  # without SOURCE_DATE_EPOCH, which would be in what tar2sqfs writes


def require_programs() -> None:
    """Refuses to begin what needs both programs if one isn't there."""
    for name in (_READER, _WRITER):
        require_program(name)


def require_program(name: str) -> str:
    """A program of squashfs-tools-ng on the PATH, or a fault that says where to get it."""
    program = shutil.which(name)
    if program is None:
        raise ReadFault(f"there is no program {name}, which reads and writes squashfs; install {_PACKAGE}")
    return os.path.abspath(program)


@dataclass(frozen=True)
class Packing:
    """How a squashfs is packed: the compression, and the bytes of a block; what isn't said is as the program has it."""

    compression: Compression | None = None
    block_bytes: int | None = None

    def words(self) -> list[str]:
        """The same as words of the program."""
        found = [] if self.block_bytes is None else ["--block-size", str(self.block_bytes)]
        if self.compression is not None:
            found += ["--compressor", self.compression.method]
            if self.compression.level is not None:
                found += ["--comp-extra", f"level={self.compression.level}"]
        return found


def packing_of(path: str) -> Packing:
    """How the squashfs at a path is packed, as far as the program that writes them can do it."""
    size = _SUPER_BLOCK_BYTES + _OPTIONS.size
    with reading(path):
        file = os.open(path, READ_WHERE_IT_LEADS)
        try:
            head = os.pread(file, size, 0).ljust(size, b"\0")
        finally:
            os.close(file)
    _, _, block_bytes, compressor, flags, *_ = _SUPER_BLOCK.unpack_from(head)
    method = _COMPRESSORS.get(compressor)
    if method is None:
        return Packing()
    compression = Compression(method)
    if flags & _HAS_OPTIONS and method in _OF_LEVELS:
        asked = Compression(method, _OPTIONS.unpack_from(head, _SUPER_BLOCK_BYTES)[1])
        compression = asked if asked.problem(LEVELS) is None else compression
    return Packing(compression, block_bytes if block_bytes in _BLOCK_BYTES else None)


def entry_count(file: int, path: str) -> int:
    """How many inodes an open squashfs file says it has; refuses one that is cut or of another version."""
    with reading(path):
        size, head = os.fstat(file).st_size, os.pread(file, _SUPER_BLOCK.size, 0)
    if len(head) < _SUPER_BLOCK.size:
        raise cannot_read(path, "its squashfs is cut: it ends inside of its first block")
    _, inodes, _, _, _, major, minor, used = _SUPER_BLOCK.unpack(head)
    if major != _VERSION:
        raise cannot_read(path, f"a squashfs of version {major}.{minor}; version {_VERSION} alone is read")
    if used > size:
        raise cannot_read(path, f"its squashfs is cut: it says that it has {used:,} bytes, and there are {size:,}")
    return int(inodes)


@contextlib.contextmanager
def archive_of(file: int, path: str, report_socket: Callable[[str], None]) -> Iterator[Source]:
    """The archive of all that an open squashfs file holds; sockets, which archives don't have, are reported."""
    if entry_count(file, path) > rules.MAX_ENTRIES:
        raise cannot_read(path, f"it has over {rules.MAX_ENTRIES:,} entries")
    command = [require_program(_READER), "--root-becomes", ".", f"/dev/fd/{file}"]
    limits = {resource.RLIMIT_AS: _MOST_MEMORY, resource.RLIMIT_FSIZE: _MOST_TOLD}
    with tempfile.TemporaryFile() as messages:
        with running(
            command, stdout=subprocess.PIPE, stderr=messages, pass_fds=[file], environment=_ENVIRONMENT, limits=limits
        ) as process:
            assert isinstance(process.stdout, io.BufferedReader)
            try:
                yield process.stdout
            except EndsEarly:
                # An archive that seems to be cut short may be one of which the program could read no more.
                if process.wait() == 0:
                    raise
            process.stdout.close()
            status = process.wait()
        sockets, words = _sockets_and_words(messages)
    if status != 0 or words:
        raise cannot_read(path, f"its squashfs is broken: {_reason(words, command[-1], _READER, status)}")
    for name in sockets:
        report_socket(name)


@contextlib.contextmanager
def written(folder: str, name: str, reported_path: str, packing: Packing) -> Iterator[Write]:
    """What takes the bytes of an archive, of which a squashfs is made of a name that nothing in a folder has."""
    command = [require_program(_WRITER), "--quiet", "--no-skip", "--num-jobs", str(usual_workers()), *packing.words()]
    with tempfile.TemporaryFile() as messages:
        with running(
            [*command, name], stdin=subprocess.PIPE, stderr=messages, folder=folder, environment=_ENVIRONMENT
        ) as process:
            assert process.stdin is not None
            with contextlib.suppress(BrokenPipeError):
                yield process.stdin.write
            with contextlib.suppress(BrokenPipeError):
                process.stdin.close()
            status = process.wait()
        messages.seek(0)
        words = messages.read()
    if status != 0:
        reason = os.strerror(errno.ENOSPC) if _is_full(folder) else _reason(words, name, _WRITER, status)
        raise cannot_write(reported_path, reason)


def _is_full(folder: str) -> bool:
    """Whether nothing more can be written into a folder."""
    free = os.statvfs(folder)
    return free.f_bavail * free.f_frsize < _LEAST_FREE


def _sockets_and_words(messages: IO[bytes]) -> tuple[list[str], bytes]:
    """The paths of the sockets that the program said it left out, and all else that it said."""
    messages.seek(0)
    text, sockets, place = messages.read(), [], 0
    before, between, after = _SOCKET
    while text.startswith(before, place):
        begin = place + len(before)
        end = text.find(between, begin)
        name = text[begin:end]
        if end < 0 or not text.startswith(name + after, end + len(between)):
            break
        sockets.append("/" + os.fsdecode(name))
        place = end + len(between) + len(name) + len(after)
    return sockets, text[place:]


def _reason(words: bytes, name: str, program: str, status: int) -> str:
    """What the program said last, without the name that it says first, or how it ended if it said nothing."""
    return last_words(io.BytesIO(words), program, status).replace(f"{name}: ", "")
