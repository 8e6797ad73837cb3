"""Files and folders that appear whole or not at all."""

import contextlib
import os
import stat
import sys
import tempfile
from collections.abc import Callable, Iterable, Iterator
from dataclasses import dataclass
from typing import IO, TextIO

from .contents import PIECE, Write
from .faults import ClosedPipe, cannot_write, reason_of, signals_wait, reported_as, writing
from .open_dirs import (
    CREATE, FOLDER_MODE, dress_of, is_at, move, open_folder, open_way, path_of, place_of, put_on, remove, status_of,
)
from .progress import note
from .stages import Stage, lock, tidy

STANDARD_OUTPUT = "-"
NEW = "new"  # in a stage: what is to get the path
_AT_ONCE = 1 << 18
USUAL_MODE = 0o666  # less what the umask takes
_MOST_LINKS = 40  # on the way to a file


@dataclass(frozen=True)
class Place:
    """A path that is written: its last name, the open folder that it is in, and what was there."""

    folder: int
    name: str
    found: os.stat_result | None

    def put(self, stage: Stage) -> None:
        """Moves what was made in a stage there: where nothing was, or in place of the very file that was there."""
        made = status_of(NEW, stage.file)
        if self.found is None:
            try:
                move(stage.file, NEW, self.folder, self.name)
            except FileExistsError:
                raise OSError(None, "it came meanwhile") from None
        else:
            self.require(self.found)
            os.rename(NEW, self.name, src_dir_fd=stage.file, dst_dir_fd=self.folder)
        self.require(made)

    def require(self, wanted: os.stat_result) -> None:
        """Fails if another file or folder is there."""
        if not is_at(self.name, self.folder, wanted):
            raise OSError(None, "it was replaced meanwhile")


@contextlib.contextmanager
def opened_place(path: str) -> Iterator[Place]:
    """Where a path leads. A link that is neither this user's nor root's isn't followed."""
    links = 0
    while True:
        folder, name = os.path.split(path.rstrip("/") or "/")
        file = open_way(folder or ".")
        with _closed(file):
            place = _place_in(file, name or ".")
            if place.found is None or not stat.S_ISLNK(place.found.st_mode):
                yield place
                return
            links += 1
            if place.found.st_uid not in (0, os.geteuid()) or links > _MOST_LINKS:
                raise OSError(None, "it is a link of another user")
            path = os.path.join(folder, os.readlink(place.name, dir_fd=file))


@contextlib.contextmanager
def _closed(file: int) -> Iterator[int]:
    try:
        yield file
    finally:
        os.close(file)


def _place_in(folder: int, name: str) -> Place:
    try:
        return Place(folder, name, status_of(name, folder))
    except FileNotFoundError:
        return Place(folder, name, None)


def write_text(path: str, pieces: Iterable[str]) -> None:
    """Writes a file of UTF-8 text: see `write_file`."""

    def fill(write: Write) -> None:
        held: list[str] = []
        size = 0
        for piece in pieces:
            held.append(piece)
            size += len(piece)
            if size > _AT_ONCE:
                write("".join(held).encode())
                held, size = [], 0
        write("".join(held).encode())

    write_file(path, fill)


def write_file(path: str, fill: Callable[[Write], None], mode: int = USUAL_MODE) -> None:
    """Has a file filled.

    Nothing, or a regular file, is replaced as a whole by one that was filled in a stage beside it; a link leads
    there. Anything else that is there, such as a device or a pipe, is written through, as standard output is,
    which `-` means.
    """
    with writing(path):
        if is_replaced(path):
            _replace(path, lambda file: fill(file.write), mode)
        else:
            _write_through(path, fill)


def write_file_in_place(path: str, beside: str, fill: Callable[[IO[bytes]], None], mode: int) -> None:
    """The same of a file that is filled here and there.

    What can't be written so gets its bytes at the end, from a file without a name that is made beside a path.
    An error of the system is one of writing.
    """
    if is_replaced(path):
        _replace(path, fill, mode)
        return
    with tempfile.TemporaryFile(dir=os.path.dirname(beside) or ".") as file:
        fill(file)
        file.seek(0)
        _write_through(path, lambda write: _copy(file, write))


def _copy(file: IO[bytes], write: Write) -> None:
    while piece := file.read(PIECE):
        write(piece)


def is_replaced(path: str) -> bool:
    """Whether a file of this name is written as one, and not into what is there or standard output."""
    if path == STANDARD_OUTPUT:
        return False
    with writing(path):
        try:
            status = os.stat(path)
        except FileNotFoundError:
            return True
        if stat.S_ISDIR(status.st_mode):
            raise IsADirectoryError(None, "it is a folder")
        return stat.S_ISREG(status.st_mode) and not _is_standard_output(status)


def _is_standard_output(status: os.stat_result) -> bool:
    with contextlib.suppress(OSError, ValueError):
        return os.path.samestat(status, os.fstat(sys.stdout.fileno()))
    return False


def _write_through(path: str, fill: Callable[[Write], None]) -> None:
    if path == STANDARD_OUTPUT or _is_standard_output(os.stat(path)):
        with standard_output() as out:
            fill(out.buffer.write)
        return
    with opened_place(path):  # for whose link it is
        file = os.open(path, os.O_WRONLY | os.O_CLOEXEC | os.O_NOCTTY)
    with open(file, "wb", buffering=_AT_ONCE) as out_file:
        if stat.S_ISREG(os.fstat(file).st_mode):
            raise OSError(None, "what was there was replaced meanwhile")
        fill(out_file.write)


@contextlib.contextmanager
def standard_output() -> Iterator[TextIO]:
    """Standard output, written to its end, or a fault that says that this can't be done."""
    try:
        yield sys.stdout
        sys.stdout.flush()
    except OSError as error:
        os.dup2(os.open(os.devnull, os.O_WRONLY), sys.stdout.fileno())
        if isinstance(error, BrokenPipeError):
            raise ClosedPipe from None
        raise cannot_write("standard output", reason_of(error)) from None


def _replace(path: str, fill: Callable[[IO[bytes]], None], mode: int) -> None:
    with new_file(path) as stage:
        file = os.open(NEW, CREATE, mode, dir_fd=stage.file)
        with open(file, "w+b", buffering=_AT_ONCE) as out:
            fill(out)


@contextlib.contextmanager
def new_file(path: str, reported_path: str | None = None) -> Iterator[Stage]:
    """A stage beside a path, where a regular file is or nothing. The file that the body makes of the name NEW gets it.

    One that takes the place of another is on the disk before, so that a power cut leaves the one or the other.
    """
    reported = reported_path or path
    with contextlib.ExitStack() as opened:
        with writing(reported):
            place = opened.enter_context(opened_place(path))
            if place.found is not None and not stat.S_ISREG(place.found.st_mode):
                raise OSError(None, "it is no regular file")
            tidy(place.folder, os.path.dirname(path))
            stage = opened.enter_context(Stage(place.folder))
        with reported_as(stage.path, reported):
            yield stage
        with writing(reported):
            if place.found is not None:
                _flush(stage)
            with signals_wait():
                place.put(stage)


def _flush(stage: Stage) -> None:
    """Has the bytes of a new file written to the disk."""
    with _closed(os.open(NEW, os.O_RDONLY | os.O_NOFOLLOW | os.O_CLOEXEC, dir_fd=stage.file)) as file:
        os.fsync(file)


@contextlib.contextmanager
def folder_made(path: str, reported_path: str | None = None, is_dressed: bool = False) -> Iterator[Stage]:
    """A stage for a folder that is absent or empty. The one that the body makes of the name NEW there becomes it.

    If it is absent, that is moved to its place. If it is there, it gets what is in that, while no other run writes into
    it, and if it `is_dressed`, the owner, mode, attributes and time too. If anything fails it is as it was.
    """
    reported = reported_path or path
    with contextlib.ExitStack() as opened:
        with writing(reported):
            place, folder = opened.enter_context(opened_place(path)), None
            if place.found is None:
                _note_stages(place, path)
            else:
                folder = opened.enter_context(_closed(_opened_empty(place, path)))
                opened.enter_context(_as_it_was(folder))
            stage = opened.enter_context(Stage(place.folder if folder is None else folder))
        with reported_as(stage.path, reported):
            yield stage
        with writing(reported), signals_wait():
            if folder is None:
                place.put(stage)
            else:
                _fill(folder, stage, is_dressed)
                place.require(os.fstat(folder))


@contextlib.contextmanager
def _as_it_was(folder: int) -> Iterator[None]:
    """Dresses an open folder as it was if the body fails."""
    before = dress_of(folder)
    try:
        yield
    except BaseException:
        with contextlib.suppress(OSError):
            put_on(folder, before)
        raise


@contextlib.contextmanager
def new_folder(path: str, reported_path: str | None = None, is_dressed: bool = False) -> Iterator[str]:
    """The same, with an empty folder of this user alone for the body to fill."""
    with folder_made(path, reported_path, is_dressed) as stage:
        with writing(reported_path or path):
            os.mkdir(NEW, FOLDER_MODE, dir_fd=stage.file)
        yield place_of(stage.file, NEW)


def _fill(folder: int, stage: Stage, is_dressed: bool) -> None:
    """Moves all that is in the new folder of a stage into an open one, or nothing. The stage is used up."""
    moved: list[tuple[str, os.stat_result]] = []
    try:
        with _closed(open_folder(NEW, stage.file)) as new:
            wanted = dress_of(new)
            os.chmod(new, FOLDER_MODE)
            for name in sorted(os.listdir(new)):
                found = status_of(name, new)
                try:
                    move(new, name, folder, name)
                except FileExistsError:
                    raise OSError(None, f"{name} came into it meanwhile") from None
                moved.append((name, found))
        stage.close()  # which gives the folder another time, and needs the right to write to it
        if is_dressed:
            put_on(folder, wanted)
    except BaseException:
        for name, found in moved:
            remove(name, folder, found)
        raise


@contextlib.contextmanager
def passing_stage(folder: str, reported_path: str | None = None) -> Iterator[Stage]:
    """A stage in a folder, which is taken away at the end whatever happens."""
    with contextlib.ExitStack() as opened:
        with writing(reported_path or folder):
            parent = opened.enter_context(_closed(open_way(folder)))
            tidy(parent, folder)
            stage = opened.enter_context(Stage(parent))
        with reported_as(stage.path, reported_path or folder):
            yield stage


@contextlib.contextmanager
def passing_folder(folder: str, reported_path: str | None = None) -> Iterator[str]:
    """The path of such a stage."""
    with passing_stage(folder, reported_path) as stage:
        yield stage.path


def print_file(path: str) -> None:
    """Writes the bytes of a file that was made here to standard output."""
    with open(path, "rb") as file, standard_output() as out:
        while piece := file.read(PIECE):
            out.buffer.write(piece)


@contextlib.contextmanager
def kept_folder(path: str) -> Iterator[str]:
    """A folder that is absent or empty, and gets what the body puts into it, even if that fails then."""
    failed: BaseException | None = None
    with new_folder(path) as folder:
        try:
            with reported_as(folder, path):
                yield folder
        except BaseException as problem:  # pylint: disable=broad-except
            failed = problem
    if failed is not None:
        raise failed


@contextlib.contextmanager
def folder_of(path: str) -> Iterator[str]:
    """The open folder that what is written to a path will lie in: the one there, or else the one that the path is in."""
    with opened_place(path) as place:
        if place.found is None or not stat.S_ISDIR(place.found.st_mode):
            yield path_of(place.folder)
        else:
            with _closed(open_folder(place.name, place.folder)) as folder:
                yield path_of(folder)


def require_empty(path: str) -> None:
    """Refuses a folder that can't be filled: it holds anything but old stages, which go, or is none."""
    with writing(path), opened_place(path) as place:
        if place.found is not None:
            os.close(_opened_empty(place, path))


def _opened_empty(place: Place, path: str) -> int:
    """Opens a folder that is empty but for old stages, which go; as long as it is open, no other run can."""
    folder = open_folder(place.name, place.folder)
    try:
        if not lock(folder):
            raise OSError(None, "another run writes into it")
        stages, names = tidy(folder, path), os.listdir(folder)
        if stages and len(stages) == len(names):
            raise OSError(None, f"it holds {stages[0]}; take that away, or name another folder")
        if names:
            raise OSError(None, "it isn't empty; name a folder that is empty or absent")
    except BaseException:
        os.close(folder)
        raise
    return folder


def note_stages_beside(path: str) -> None:
    """Says which stages of other runs are beside a path."""
    with writing(path), opened_place(path) as place:
        _note_stages(place, path)


def _note_stages(place: Place, path: str) -> None:
    for stage in tidy(place.folder, os.path.dirname(path)):
        note(f"there is {stage}")
