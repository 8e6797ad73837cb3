"""Folders held open, so that no link is followed and nothing outside is reached, whatever moves."""

import contextlib
import ctypes
import errno
import os
import stat
import sys
from collections.abc import Callable, Iterator, Mapping
from dataclasses import dataclass

# How a file is opened: never through a link, and never waiting for whoever has the other end of a pipe.
READ = os.O_RDONLY | os.O_NOFOLLOW | os.O_NONBLOCK | os.O_CLOEXEC
READ_WHERE_IT_LEADS = os.O_RDONLY | os.O_NONBLOCK | os.O_CLOEXEC
CREATE = os.O_RDWR | os.O_CREAT | os.O_EXCL | os.O_NOFOLLOW | os.O_CLOEXEC
FOLDER_MODE = 0o700  # of new folders: what is in them is only this user's
_FOLDER = os.O_RDONLY | os.O_DIRECTORY | os.O_NOFOLLOW | os.O_CLOEXEC
_WAY = os.O_PATH | os.O_DIRECTORY | os.O_CLOEXEC  # no right is needed but to pass through
_NO_REPLACE = 1  # RENAME_NOREPLACE of linux/fs.h
_CANNOT = (errno.ENOSYS, errno.EINVAL, errno.EOPNOTSUPP)
_rename_at: Callable[..., int] | None = getattr(ctypes.CDLL(None, use_errno=True), "renameat2", None)


def open_root(path: str) -> int:
    """Opens the folder that a person named, which may be a link to one."""
    return os.open(path, os.O_RDONLY | os.O_DIRECTORY | os.O_CLOEXEC)


def open_folder(name: str, parent: int) -> int:
    """Opens a folder inside another; fails on a link."""
    return os.open(name, _FOLDER, dir_fd=parent)


def open_way(path: str) -> int:
    """Opens a folder that nothing but names in it is taken of, which may be a link to one."""
    return os.open(path, _WAY)


def path_of(file: int) -> str:
    """A path to what is open, wherever it was moved to, for calls and programs that take paths alone."""
    return f"/proc/self/fd/{file}"


def place_of(parent: int, name: str) -> str:
    """A path to a name inside an open folder, for calls that take paths alone."""
    return f"{path_of(parent)}/{name}"


def status_of(name: str, parent: int) -> os.stat_result:
    """The status of a name inside an open folder, of a link itself."""
    return os.stat(name, dir_fd=parent, follow_symlinks=False)


def rename_new(source: int, name: str, target: int, new_name: str) -> None:
    """Moves what has a name in an open folder to a name in another one; fails where something has that.

    A few file systems can't do both in one step. There it is looked for before.
    """
    sys.audit("os.rename", name, new_name, source, target)
    if _rename_at is not None:
        if _rename_at(source, os.fsencode(name), target, os.fsencode(new_name), _NO_REPLACE) == 0:
            return
        number = ctypes.get_errno()
        if number not in _CANNOT:
            raise OSError(number, os.strerror(number))
    with contextlib.suppress(FileNotFoundError):
        status_of(new_name, target)
        raise FileExistsError(errno.EEXIST, os.strerror(errno.EEXIST))
    os.rename(name, new_name, src_dir_fd=source, dst_dir_fd=target)


def move(source: int, name: str, target: int, new_name: str) -> None:
    """The same, of a directory too that its owner may not write to, which a new parent changes; it keeps its time."""
    if not stat.S_ISDIR(status_of(name, source).st_mode):
        rename_new(source, name, target, new_name)
        return
    with _itself(name, source) as folder:
        found, place = os.fstat(folder), path_of(folder)
        try:
            rename_new(source, name, target, new_name)
        except PermissionError:
            if found.st_mode & stat.S_IWUSR:
                raise
            os.chmod(place, stat.S_IMODE(found.st_mode) | stat.S_IWUSR)
            rename_new(source, name, target, new_name)
            os.chmod(place, stat.S_IMODE(found.st_mode))
        if os.fstat(folder).st_mtime_ns != found.st_mtime_ns:
            os.utime(place, ns=(found.st_atime_ns, found.st_mtime_ns))


def is_at(name: str, parent: int, found: os.stat_result) -> bool:
    """Whether a name in an open folder is that of a file or folder of this status."""
    try:
        return os.path.samestat(status_of(name, parent), found)
    except FileNotFoundError:
        return False


def remove(name: str, parent: int, found: os.stat_result | None = None) -> None:
    """Takes away what has a name in an open folder, as far as that can be done; if it isn't what was found, nothing."""
    with contextlib.suppress(OSError):
        found = found or status_of(name, parent)
        if stat.S_ISDIR(found.st_mode):
            _remove_folder(name, parent, found)
        elif is_at(name, parent, found):
            os.unlink(name, dir_fd=parent)


def empty(folder: int) -> None:
    """Takes away all that is in an open folder, as far as that can be done."""
    with contextlib.suppress(OSError):
        with os.scandir(folder) as found:
            names = [(entry.name, entry.is_dir(follow_symlinks=False)) for entry in found]
        for name, is_folder in names:
            with contextlib.suppress(OSError):
                if is_folder:
                    _remove_folder(name, folder)
                else:
                    os.unlink(name, dir_fd=folder)


def _remove_folder(name: str, parent: int, found: os.stat_result | None = None) -> None:
    with _itself(name, parent) as itself:
        if found is not None and not os.path.samestat(os.fstat(itself), found):
            return
        with contextlib.suppress(OSError):
            os.chmod(path_of(itself), FOLDER_MODE)  # which may have denied it to its owner
        folder = os.open(".", _FOLDER, dir_fd=itself)
    try:
        empty(folder)
    finally:
        os.close(folder)
    os.rmdir(name, dir_fd=parent)


@contextlib.contextmanager
def _itself(name: str, parent: int) -> Iterator[int]:
    """A folder inside another, open for what needs no right to read it."""
    folder = os.open(name, _WAY | os.O_NOFOLLOW, dir_fd=parent)
    try:
        yield folder
    finally:
        os.close(folder)


@dataclass(frozen=True)
class Dress:
    """What a folder is dressed with."""

    status: os.stat_result
    attributes: Mapping[str, bytes]


def dress_of(folder: int) -> Dress:
    """What an open folder is dressed with."""
    names: list[str] = []
    with contextlib.suppress(OSError):  # a file system that has no attributes
        names = os.listxattr(folder)
    return Dress(os.fstat(folder), {name: os.getxattr(folder, name) for name in names})


def put_on(folder: int, dress: Dress) -> None:
    """Dresses an open folder as another one was. Attributes that only this one has stay."""
    there, wanted = dress_of(folder), dress.status
    if (there.status.st_uid, there.status.st_gid) != (wanted.st_uid, wanted.st_gid):
        os.chown(folder, wanted.st_uid, wanted.st_gid)
    for name, value in dress.attributes.items():
        if there.attributes.get(name) != value:
            os.setxattr(folder, name, value)
    os.chmod(folder, stat.S_IMODE(wanted.st_mode))
    os.utime(folder, ns=(wanted.st_atime_ns, wanted.st_mtime_ns))


class Chain:
    """Opens folder after folder below a root, name by name, and keeps the way to the last one open."""

    def __init__(self, root: int) -> None:
        self._names: list[str] = []
        self._folders = [root]

    def folder(self, names: list[str]) -> int:
        """The open folder at these names below the root."""
        shared = 0
        for mine, wanted in zip(self._names, names):
            if mine != wanted:
                break
            shared += 1
        self._cut(shared)
        for name in names[shared:]:
            self._folders.append(open_folder(name, self._folders[-1]))
            self._names.append(name)
        return self._folders[-1]

    def close(self) -> None:
        """Closes all but the root, which isn't the chain's own."""
        self._cut(0)

    def _cut(self, length: int) -> None:
        while len(self._names) > length:
            self._names.pop()
            os.close(self._folders.pop())
