"""Walking a folder in path order, without following links and without leaving it."""

import os
import stat
import struct
from collections.abc import Iterator
from dataclasses import dataclass

from ..common.faults import cannot_read, reading, reason_of
from ..common.open_dirs import open_folder, place_of, status_of
from ..model.entries import BLOCK, CHAR, DIRECTORY, FIFO, FILE, SOCKET, SYMLINK

_KINDS = {
    stat.S_IFDIR: DIRECTORY,
    stat.S_IFREG: FILE,
    stat.S_IFLNK: SYMLINK,
    stat.S_IFCHR: CHAR,
    stat.S_IFBLK: BLOCK,
    stat.S_IFIFO: FIFO,
    stat.S_IFSOCK: SOCKET,
}


# What each change of a file or folder changes: its place on the disk, times, mode, owner and size.
_STATE = struct.Struct("=QQqqIIIq")


def state_of(status: os.stat_result) -> bytes:
    """What is another wherever what has this status was replaced or changed."""
    return _STATE.pack(
        status.st_dev, status.st_ino, status.st_ctime_ns, status.st_mtime_ns, status.st_mode, status.st_uid,
        status.st_gid, status.st_size,
    )


@dataclass(slots=True)
class Found:
    """Something in a folder. `folder` is open until the next one is asked for."""

    path: str
    name: str
    depth: int
    folder: int
    status: os.stat_result
    kind: str
    is_other_system: bool = False
    enter: bool = True

    def place(self) -> str | int:
        """What calls on attributes take: never a link's target."""
        return self.folder if self.depth == 0 else place_of(self.folder, self.name)

    def renew(self) -> bool:
        """Looks at it again; says whether it was as it is."""
        before = state_of(self.status)
        self.status = status_of(self.name, self.folder) if self.depth else os.fstat(self.folder)
        self.kind = _KINDS[stat.S_IFMT(self.status.st_mode)]
        return state_of(self.status) == before

    def target(self) -> str:
        """Where a symlink leads."""
        return os.readlink(self.name, dir_fd=self.folder)


@dataclass(slots=True)
class _Open:
    folder: int
    path: str
    names: list[str]


def walk(root: int, root_path: str, cross: bool) -> Iterator[Found]:
    """Everything in an open folder, itself first, in path order.

    A directory is entered once the next thing is asked for, unless `enter` was set to false. One of
    another file system is entered only if `cross` says so.
    """
    with reading(root_path):
        status = os.fstat(root)
    found = Found("/", "", 0, root, status, DIRECTORY)
    yield found
    if not found.enter:
        return
    levels = [_opened(os.dup(root), "", root_path, status)]
    try:
        while levels:
            if not levels[-1].names:
                os.close(levels.pop().folder)
                continue
            level = levels[-1]
            name = level.names.pop()
            path = f"{level.path}/{name}"
            try:
                found = found_at(level.folder, name, path, len(levels), status.st_dev)
            except OSError as error:
                raise cannot_read(root_path + path, reason_of(error)) from error
            found.enter = cross or not found.is_other_system
            yield found
            if found.enter and found.kind == DIRECTORY:
                with reading(root_path + path):
                    folder = open_folder(name, level.folder)
                levels.append(_opened(folder, path, root_path, found.status))
    finally:
        for level in levels:
            os.close(level.folder)


def _opened(folder: int, path: str, root_path: str, found: os.stat_result) -> _Open:
    """A folder with its names, the first one last; it is the one that was found."""
    try:
        with reading(root_path + path):
            there = os.fstat(folder)
            if (there.st_mode, there.st_uid, there.st_gid) != (found.st_mode, found.st_uid, found.st_gid) or \
                    not os.path.samestat(there, found):
                raise OSError(None, "it was changed meanwhile")
            return _Open(folder, path, sorted(os.listdir(folder), key=os.fsencode, reverse=True))
    except BaseException:
        os.close(folder)
        raise


def found_at(folder: int, name: str, path: str, depth: int, device: int | None = None) -> Found:
    """What has a name in an open folder, and whether its file system isn't that of the device."""
    status = status_of(name, folder)
    kind = _KINDS[stat.S_IFMT(status.st_mode)]
    other = kind == DIRECTORY and device is not None and status.st_dev != device
    return Found(path, name, depth, folder, status, kind, other)
