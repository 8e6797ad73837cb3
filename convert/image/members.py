"""The files of an image, in a folder or in a tar archive, and never one outside of it."""

import contextlib
import io
import os
import posixpath
import stat
import tempfile
from collections.abc import Hashable, Iterator
from typing import Protocol

from ..common.budgets import Budget, Counter, TooMuch
from ..common.contents import PIECE, is_zeros, write_all
from ..common.faults import EndsEarly, TarFault, cannot_read, reading, reason_of, writing
from ..common.open_dirs import READ_WHERE_IT_LEADS
from ..common.streams import SeekingSlice, Slice, Source, is_packed, unpacked
from ..tar.headers import HARD_LINK, REGULAR_TYPES, SYMLINK
from ..tar.reader import TarReader
from .not_images import HEAD_BYTES, instead_of_absent, look_of_file, look_of_names

STANDARD_INPUT = "-"
_INPUT = "standard input"
_MAX_HEADERS = 100_000
_MAX_NAME = 4_095  # bytes, as Linux has them
_MAX_NAMES = 1 << 24  # bytes of all names and of what links lead to
_MAX_LINKS = 8


class Members(Protocol):
    """The files of an image by their names."""

    path: str

    def size(self, name: str) -> int | None:
        """The size of a file, or nothing if there is none of this name."""

    def identity(self, name: str) -> Hashable:
        """The same for two names of one file."""

    def opened(self, name: str) -> contextlib.AbstractContextManager[Slice]:
        """The bytes of a file while it is open; fails if there is none."""

    def look(self) -> str:
        """What it is if it is no image."""


@contextlib.contextmanager
def opened_members(path: str, given_label: str | None = None) -> Iterator[Members]:
    """The files of the image at a path, or of the archive that standard input gives."""
    is_input = path == STANDARD_INPUT
    label = given_label or (_INPUT if is_input else path)
    if not is_input and _is_folder(path, label):
        yield _Folder(path, label)
        return
    with contextlib.ExitStack() as files:
        with reading(label):
            file = os.dup(0) if is_input else os.open(path, os.O_RDONLY | os.O_CLOEXEC)
            files.callback(os.close, file)
            status = os.fstat(file)
        is_pipe = stat.S_ISFIFO(status.st_mode) or stat.S_ISSOCK(status.st_mode)
        if not is_pipe and not stat.S_ISREG(status.st_mode):
            raise cannot_read(label, "it is neither a folder, nor a regular file, nor a pipe")
        if is_pipe or is_packed(os.pread(file, HEAD_BYTES, 0)):
            source = io.FileIO(file, closefd=False) if is_pipe else Slice(file, 0, status.st_size)
            file = _copied(source, label, files, may_wait=is_pipe)
        yield _Archive(file, label)


def _is_folder(path: str, label: str) -> bool:
    try:
        return stat.S_ISDIR(os.stat(path).st_mode)
    except FileNotFoundError as error:
        raise cannot_read(label, reason_of(error) + instead_of_absent(path)) from None
    except OSError as error:
        raise cannot_read(label, reason_of(error)) from None


def _copied(source: io.RawIOBase, label: str, files: contextlib.ExitStack, *, may_wait: bool) -> int:
    """What a pipe gives, or a packed archive, unpacked in an open file without a name, to be read here and there."""
    with writing(tempfile.gettempdir()):
        copy = files.enter_context(tempfile.TemporaryFile(buffering=0)).fileno()
    with unpacked(source, label, may_wait=may_wait) as stream:
        with writing(tempfile.gettempdir()):
            _write_with_holes(copy, iter(lambda: _read(stream, label), b""))
    return copy


def _write_with_holes(file: int, pieces: Iterator[bytes]) -> None:
    """Writes all pieces, and passes over those of zeros: a small file may unpack to gigabytes of them."""
    for piece in pieces:
        if is_zeros(piece):
            os.lseek(file, len(piece), os.SEEK_CUR)
        else:
            write_all(file, piece)
    os.truncate(file, os.lseek(file, 0, os.SEEK_CUR))


def _read(stream: Source, label: str) -> bytes:
    with reading(label):
        return stream.read(PIECE)


def _inner(name: str) -> str | None:
    """A name as a way inside the image, or nothing if it leads out."""
    way = posixpath.normpath(name)
    try:
        os.fsencode(way)
    except UnicodeEncodeError:
        return None
    return None if way.startswith(("/", "../")) or way in ("..", ".") or "\0" in way else way


def _text_of(name: bytes) -> str:
    """A name in an archive as a text, if the kernel has names that are as long."""
    if len(name) > _MAX_NAME:
        raise TarFault(f"a name of over {_MAX_NAME:,} bytes")
    return os.fsdecode(name)


class _Folder:
    """An image in a folder."""

    def __init__(self, path: str, label: str) -> None:
        self.path = label
        self._root = os.path.realpath(path)

    def look(self) -> str:
        """See `Members`."""
        with reading(self.path):
            return look_of_names(set(os.listdir(self._root)), self.path)

    def size(self, name: str) -> int | None:
        """The size of a file that is inside of the folder, through links too."""
        way = self._way(name)
        if way is None:
            return None
        with reading(f"{self.path}/{name}"):
            return os.stat(way).st_size

    def identity(self, name: str) -> Hashable:
        """The file's place in its file system."""
        way = self._required(name)
        with reading(f"{self.path}/{name}"):
            status = os.stat(way)
        return status.st_dev, status.st_ino

    @contextlib.contextmanager
    def opened(self, name: str) -> Iterator[Slice]:
        """The bytes of a file."""
        way = self._required(name)
        with reading(f"{self.path}/{name}"):
            file = os.open(way, READ_WHERE_IT_LEADS)
        try:
            with reading(f"{self.path}/{name}"):
                size = os.fstat(file).st_size
            yield Slice(file, 0, size)
        finally:
            os.close(file)

    def _required(self, name: str) -> str:
        """The way to a file, which may have gone since it was looked for."""
        way = self._way(name)
        if way is None:
            raise cannot_read(f"{self.path}/{name}", "the image has no such file")
        return way

    def _way(self, name: str) -> str | None:
        inner = _inner(name)
        if inner is None:
            return None
        way = os.path.realpath(os.path.join(self._root, inner))
        is_inside = os.path.commonpath([way, self._root]) == self._root
        return way if is_inside and os.path.isfile(way) else None


def _problem_text(problem: TarFault) -> str:
    return f"it is cut off: {problem}" if isinstance(problem, EndsEarly) else f"it is no tar archive: {problem}"


class _Archive:
    """An image in a tar archive, whose files are found once."""

    def __init__(self, file: int, path: str) -> None:
        self.path = path
        self._word = "FILE" if path == _INPUT else path
        self._file = file
        self._places: dict[str, tuple[int, int]] = {}
        self._links: dict[str, str] = {}
        with reading(path):
            size = os.fstat(file).st_size
        try:
            with reading(path):
                self._find(size)
        except TarFault as problem:
            raise cannot_read(path, self._look_of_file() or _problem_text(problem)) from None
        except TooMuch as problem:
            raise cannot_read(path, str(problem)) from None

    def _look_of_file(self) -> str | None:
        with reading(self.path):
            return look_of_file(os.pread(self._file, HEAD_BYTES, 0), self._word)

    def look(self) -> str:
        """See `Members`."""
        names = {name.partition("/")[0] for name in (*self._places, *self._links)}
        return not names and self._look_of_file() or look_of_names(names, self._word)

    def _find(self, size: int) -> None:
        """Finds the place of each file. A later one of the same name counts, as where an archive is unpacked."""
        source = SeekingSlice(self._file, 0, size)
        archive = TarReader(source, Budget())
        headers, names = Counter(_MAX_HEADERS, "files in its archive"), Counter(_MAX_NAMES, "bytes of their names")
        for header in archive:
            headers.take()
            names.take(len(header.name) + len(header.target))
            name = _inner(_text_of(header.name))
            if name is None:
                continue
            self._places.pop(name, None)
            self._links.pop(name, None)
            if archive.is_sparse():
                raise TarFault(f"{name} is a sparse file in it")
            if header.type in REGULAR_TYPES:
                self._places[name] = source.place, header.size
            elif header.type == SYMLINK:
                self._links[name] = posixpath.join(posixpath.dirname(name), _text_of(header.target))
            elif header.type == HARD_LINK:
                self._links[name] = _text_of(header.target)

    def size(self, name: str) -> int | None:
        """The size of a file."""
        place = self._place(name)
        return None if place is None else place[1]

    def identity(self, name: str) -> Hashable:
        """Where its bytes are."""
        return self._place(name)

    @contextlib.contextmanager
    def opened(self, name: str) -> Iterator[Slice]:
        """The bytes of a file."""
        place = self._place(name)
        if place is None:
            raise cannot_read(f"{self.path}/{name}", "the image has no such file")
        yield Slice(self._file, *place)

    def _place(self, name: str) -> tuple[int, int] | None:
        way = _inner(name)
        for _ in range(_MAX_LINKS):
            if way is None or way not in self._links:
                break
            way = _inner(self._links[way])
        return None if way is None else self._places.get(way)
