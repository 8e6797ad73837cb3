"""The folder of blobs: the contents of files, each once, under its SHA-256 digest."""

import contextlib
import hashlib
import itertools
import os
import stat
from collections.abc import Callable, Iterable, Iterator, Set
from types import TracebackType

from ..common.contents import PIECE, PRIVATE_MODE, Copier, Piece, digest_and_size, is_zeros, read_small, write_all
from ..common.faults import cannot_read, is_of_writing, reason_of, writing
from ..common.open_dirs import CREATE, FOLDER_MODE, READ, open_folder, open_root
from ..common.outputs import Place, opened_place
from ..common.progress import note
from ..common.stages import Stage, tidy

_SCRATCH = "scratch"


class BlobStore:
    """Puts contents into a folder, which is made if it is absent.

    Writers write into a stage inside the folder. Its blobs are moved into place at the end, and none
    of them if the body fails.
    """

    def __init__(self, folder: str) -> None:
        self.folder = folder
        self._opened = contextlib.ExitStack()
        self._is_new = False
        self._was_empty = False
        self._numbers = itertools.count(1)

    def __enter__(self) -> "BlobStore":
        with contextlib.ExitStack() as opened, writing(self.folder):
            self._file = self._open(opened)
            opened.callback(os.close, self._file)
            for stage in tidy(self._file, self.folder):
                note(f"there is {stage}")
            self._was_empty = not os.listdir(self._file)
            self._stage = opened.enter_context(Stage(self._file))
            self._opened = opened.pop_all()
        return self

    def __exit__(
        self, kind: type[BaseException] | None, error: BaseException | None, trace: TracebackType | None
    ) -> None:
        with self._opened:
            if error is None:
                with writing(self.folder):
                    self._publish()
                self._is_new = False

    def _open(self, opened: contextlib.ExitStack) -> int:
        """Opens the folder, and makes it first where it is absent."""
        place = opened.enter_context(opened_place(self.folder))
        if place.found is None:
            os.mkdir(place.name, FOLDER_MODE, dir_fd=place.folder)
            self._is_new = True
            opened.callback(self._take_away, place)
        return open_folder(place.name, place.folder)

    def _take_away(self, place: Place) -> None:
        """Takes away a folder that wasn't there and is empty, unless all is done."""
        if self._is_new:
            with contextlib.suppress(OSError):
                os.rmdir(place.name, dir_fd=place.folder)

    def writer(self) -> "BlobWriter":
        """One that puts contents in. Several may write at the same time, each in a process of its own."""
        scratch = _scratch_name(self._numbers)
        return BlobWriter(self.folder, self._file, self._stage.file, scratch, not self._was_empty)

    def _publish(self) -> None:
        for name in self._stage.names():
            if not name.startswith(_SCRATCH):
                os.rename(name, name, src_dir_fd=self._stage.file, dst_dir_fd=self._file)


def _scratch_name(numbers: Iterator[int]) -> str:
    """A name that no other writer of this run has."""
    return f"{_SCRATCH}-{os.getpid()}-{next(numbers)}"


class BlobWriter:
    """Writes blobs into a stage, each once, but for those that the folder of blobs has.

    What that has is trusted only once its bytes were digested; otherwise it is written anew. Others may write
    into the same stage, each with a scratch file of its own.
    """

    def __init__(self, folder: str, others: int, stage: int, scratch: str, has_others: bool) -> None:
        self._blobs = folder
        self._others = others
        self._scratch_name = scratch
        self._has_others = has_others
        self._copier = Copier()
        self._scratch = -1
        self._folder = os.dup(stage)

    def close(self) -> None:
        """Takes the scratch file away, and closes what is open."""
        if self._scratch >= 0:
            with contextlib.suppress(OSError):
                os.unlink(self._scratch_name, dir_fd=self._folder)
            self._drop_scratch()
        os.close(self._folder)

    def scratch(self) -> int:
        """An empty open file, for contents that `keep` takes."""
        if self._scratch < 0:
            with writing(self._blobs):
                self._scratch = os.open(self._scratch_name, CREATE, PRIVATE_MODE, dir_fd=self._folder)
        return self._scratch

    def keep(self, digest: str, size: int) -> None:
        """Makes the scratch file the blob of this digest, or empties it if that is there."""
        with writing(self._blobs):
            if size == 0 or self._is_written(digest) or self._has(digest, size):
                self._empty()
            else:
                os.rename(self._scratch_name, digest, src_dir_fd=self._folder, dst_dir_fd=self._folder)
                self._drop_scratch()

    def take(self, pieces: Iterable[Piece], size: int) -> str:
        """Writes contents of this size that come in pieces, zeros as holes; gives their digest."""
        if size <= PIECE:
            whole = _joined(pieces, size)
            if not is_zeros(whole):
                return self._put_piece(whole)
            pieces = [whole]
        digest, scratch = hashlib.sha256(), self.scratch()
        with writing(self._blobs):
            self._empty()  # of what reading was cut off at, if it began again
        for piece in pieces:
            digest.update(piece)
            with writing(self._blobs):
                if is_zeros(piece):
                    os.lseek(scratch, len(piece), os.SEEK_CUR)
                else:
                    write_all(scratch, piece)
        with writing(self._blobs):
            os.ftruncate(scratch, size)
        self.keep(digest.hexdigest(), size)
        return digest.hexdigest()

    def put(self, source: int, size: int) -> str | None:
        """Copies an open file of this size in and gives its digest; nothing if its size is another.

        An error of the system is one of reading the source; one of writing is a fault of its own.
        """
        scratch = self.scratch()
        try:
            if size > PIECE:
                self._copier.copy(source, scratch)
            elif not self._copier.can_clone or not self._copier.clone(source, scratch):
                return self._put_small(source, size)
        except OSError as error:
            if is_of_writing(error):
                with writing(self._blobs):
                    raise
            raise
        with writing(self._blobs):
            digest, copied = digest_and_size(scratch)
        if copied != size:
            return None
        self.keep(digest, size)
        return digest

    def _put_small(self, source: int, size: int) -> str | None:
        """Reads a file once, for its digest and for the blob."""
        piece = read_small(source, size)
        return self._put_piece(piece) if len(piece) == size else None

    def _put_piece(self, piece: Piece) -> str:
        """Writes contents that are there as a whole, at once by their digest; gives it."""
        digest = hashlib.sha256(piece).hexdigest()
        if piece and not self._has(digest, len(piece)):
            try:
                self._create(digest, piece)
            except FileExistsError:
                pass
            except OSError:
                with writing(self._blobs):
                    raise
        return digest

    def _create(self, digest: str, piece: Piece) -> None:
        file = os.open(digest, CREATE, PRIVATE_MODE, dir_fd=self._folder)
        try:
            if os.write(file, piece) != len(piece):
                os.lseek(file, 0, os.SEEK_SET)
                write_all(file, piece)
        finally:
            os.close(file)

    def drop_others(self, digests: Set[str]) -> None:
        """Takes away what was written and isn't one of these. No other writer may be at work."""
        with writing(self._blobs):
            for name in os.listdir(self._folder):
                if name not in digests and not name.startswith(_SCRATCH):
                    os.unlink(name, dir_fd=self._folder)

    def _is_written(self, digest: str) -> bool:
        """Whether this run has written the blob, or is about to, which nobody else can reach."""
        return os.access(digest, os.F_OK, dir_fd=self._folder, follow_symlinks=False)

    def _has(self, digest: str, size: int) -> bool:
        """Whether the folder of blobs has these very bytes."""
        if not self._has_others:
            return False
        try:
            file = os.open(digest, READ, dir_fd=self._others)
        except OSError:
            return False
        try:
            found = os.fstat(file)
            return stat.S_ISREG(found.st_mode) and found.st_size == size and digest_and_size(file) == (digest, size)
        except OSError:
            return False
        finally:
            os.close(file)

    def _empty(self) -> None:
        os.ftruncate(self._scratch, 0)
        os.lseek(self._scratch, 0, os.SEEK_SET)

    def _drop_scratch(self) -> None:
        if self._scratch >= 0:
            os.close(self._scratch)
            self._scratch = -1


def _joined(pieces: Iterable[Piece], size: int) -> Piece:
    """The bytes of pieces, each of which is there until the next one is. They mostly come as one."""
    whole = bytearray()
    for piece in pieces:
        if len(piece) == size:
            return piece
        whole += piece
    return whole


class Digester:
    """Takes a writer's place if no blobs are wanted: contents are only read for their digest."""

    def put(self, source: int, size: int) -> str | None:
        """The digest of an open file of this size; nothing if its size is another."""
        digest, found = digest_and_size(source)
        return digest if found == size else None

    def take(self, pieces: Iterable[Piece], size: int) -> str:
        """The digest of contents of this size that come in pieces."""
        digest = hashlib.sha256()
        for piece in pieces:
            digest.update(piece)
        return digest.hexdigest()

    def drop_others(self, digests: Set[str]) -> None:
        """Nothing is written."""

    def close(self) -> None:
        """Nothing is open."""


Writer = BlobWriter | Digester


@contextlib.contextmanager
def writers(blobs: str | None) -> Iterator[Callable[[], Writer]]:
    """What makes writers into a folder of blobs, or such as only digest. Each process has one of its own."""
    if blobs is None:
        yield Digester
    else:
        with BlobStore(blobs) as store:
            yield store.writer


@contextlib.contextmanager
def staged_writers(blobs: str | None) -> Iterator[Callable[[], Writer]]:
    """The same of a folder of blobs that is made inside a stage, and so needs none of its own."""
    if blobs is None:
        yield Digester
        return
    folder, numbers = blobs, itertools.count(1)
    with writing(folder):
        os.mkdir(folder, FOLDER_MODE)
        file = open_root(folder)
    try:
        yield lambda: BlobWriter(folder, file, file, _scratch_name(numbers), has_others=False)
    finally:
        os.close(file)


def blob_path(folder: str, digest: str) -> str:
    """Where a folder of blobs has this one."""
    return f"{folder}/{digest}"


@contextlib.contextmanager
def opened_blob(folder: str, digest: str, size: int) -> Iterator[int]:
    """A blob of this size, open for reading; refuses links, and what isn't a regular file."""
    file = open_blob(blob_path(folder, digest), size)
    try:
        yield file
    finally:
        os.close(file)


def open_blob(path: str, size: int) -> int:
    """The same of a blob at a path, to be closed."""
    try:
        file = os.open(path, READ)
    except OSError as error:
        raise cannot_read(path, reason_of(error)) from error
    try:
        found = os.fstat(file)
        if not stat.S_ISREG(found.st_mode):
            raise cannot_read(path, "it isn't a regular file")
        if found.st_size != size:
            raise cannot_read(path, f"it has {found.st_size} bytes, and the manifest says {size}")
    except BaseException:
        os.close(file)
        raise
    return file
