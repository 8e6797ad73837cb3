"""Stages: what is half made lies in a folder of its own, locked while its process lives."""

import contextlib
import fcntl
import os
import re
import secrets
import stat
import time
from collections.abc import Iterator

from .faults import signals_wait
from .open_dirs import CREATE, FOLDER_MODE, READ, empty, is_at, open_folder, open_root, path_of, remove
from .progress import note

_PREFIX = ".layers-"
_NAME = re.compile(re.escape(_PREFIX) + "[0-9a-f]{16}")
_NAME_BYTES = 8
_MARK = "made-by"  # a file in each stage, which says whose it is
_MARK_MODE = 0o600
_MOST_MARKED = 4_096  # bytes
_OLD = 24 * 60 * 60  # seconds


class Stage:
    """A new folder of this user alone, in an open one. It goes away at the end, but for what was moved out of it."""

    def __init__(self, parent: int) -> None:
        self.name = _PREFIX + secrets.token_hex(_NAME_BYTES)
        self.file = -1
        with signals_wait():
            os.mkdir(self.name, FOLDER_MODE, dir_fd=parent)
            try:
                self.file = self._opened(parent)
            except BaseException:
                with contextlib.suppress(OSError):
                    os.rmdir(self.name, dir_fd=parent)
                raise
            self._parent = os.dup(parent)
            lock(self.file)

    def __enter__(self) -> "Stage":
        return self

    def __exit__(self, *_: object) -> None:
        self.close()

    @property
    def path(self) -> str:
        """A path to what is in it, wherever it was moved to."""
        return path_of(self.file)

    def names(self) -> list[str]:
        """What was made in it."""
        return sorted(name for name in os.listdir(self.file) if name != _MARK)

    def close(self) -> None:
        """Takes away what is still there."""
        if self.file >= 0:
            take_away(self.name, self._parent, self.file)
            os.close(self.file)
            os.close(self._parent)
            self.file = -1

    def _opened(self, parent: int) -> int:
        """Opens and marks it; fails if it isn't the new folder, but one that another user put in its place."""
        file = open_folder(self.name, parent)
        try:
            if os.listdir(file):
                raise _replaced()
            mark = os.open(_MARK, CREATE, _MARK_MODE, dir_fd=file)
            try:
                # A file system that has no owners gives both the same.
                if os.fstat(mark).st_uid != os.fstat(file).st_uid:
                    raise _replaced()
                os.write(mark, _marked(self.name) + _process())
            except BaseException:
                os.unlink(_MARK, dir_fd=file)
                raise
            finally:
                os.close(mark)
        except BaseException:
            os.close(file)
            raise
        return file


def _replaced() -> OSError:
    return OSError(None, "a folder that was made in it was replaced meanwhile")


def take_away(name: str, parent: int, folder: int) -> bool:
    """Takes away an open folder with all that is in it, as far as that can be done; says whether it is gone."""
    empty(folder)
    with contextlib.suppress(OSError):
        if is_at(name, parent, os.fstat(folder)):
            os.rmdir(name, dir_fd=parent)
            return True
    return False


def _marked(name: str) -> bytes:
    """How the mark of a stage begins."""
    return f"{name} is the stage of a run of layers, ".encode()


def _process() -> bytes:
    """How the mark of a stage of this process ends."""
    return b"process %d\n" % os.getpid()


@contextlib.contextmanager
def removing(folder: str, *names: str) -> Iterator[None]:
    """Takes away what is in a folder beside other work, which it would hold up at its end.

    A process does it, so that no thread lives while the work starts others.
    """
    if not names:
        yield
        return
    with signals_wait():
        process = os.fork()
        if process == 0:
            try:
                parent = open_root(folder)
                for name in names:
                    remove(name, parent)
            finally:
                os._exit(0)
    try:
        yield
    finally:
        os.waitpid(process, 0)


def tidy(folder: int, path: str) -> list[str]:
    """Takes away this user's stages whose processes ended a day ago or before, and says so; gives those of other runs.

    A stage has a name as they are given here, and its own mark: nothing else is touched.
    """
    names: list[str] = []
    with contextlib.suppress(OSError), _opened(".", folder) as listed:
        names = sorted(name for name in os.listdir(listed) if _NAME.fullmatch(name))
    kept = []
    for name in names:
        with contextlib.suppress(OSError), _opened(name, folder) as stage:
            begun, place = _begun(stage, name), os.path.join(path, name)
            is_left = lock(stage)
            if is_left and begun < time.time() - _OLD and take_away(name, folder, stage):
                note(f"took away {place}, which a run that was cut off left over a day ago")
            else:
                kept.append(f"{place}, the stage of a run that {'was cut off' if is_left else 'is at work'}")
    return kept


@contextlib.contextmanager
def _opened(name: str, parent: int) -> Iterator[int]:
    folder = open_folder(name, parent)
    try:
        yield folder
    finally:
        os.close(folder)


def _begun(stage: int, name: str) -> float:
    """When a stage of this user was made by another run; fails if it is none."""
    mark = os.open(_MARK, READ, dir_fd=stage)
    try:
        found = os.fstat(mark)
        is_ours = os.geteuid() == os.fstat(stage).st_uid == found.st_uid and stat.S_ISREG(found.st_mode)
        text = os.read(mark, _MOST_MARKED)
        if not is_ours or not text.startswith(_marked(name)) or text == _marked(name) + _process():
            raise FileNotFoundError
        return found.st_mtime
    finally:
        os.close(mark)


def lock(file: int) -> bool:
    """Locks where no other process has; a file system without locks has all stages of dead processes."""
    try:
        fcntl.flock(file, fcntl.LOCK_EX | fcntl.LOCK_NB)
    except BlockingIOError:
        return False
    except OSError:
        return True
    return True
