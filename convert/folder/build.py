"""`build`: the folder of a manifest."""

import hashlib
import os
import stat
from collections.abc import Mapping
from dataclasses import dataclass

from ..common.contents import PIECE, Copier, digest_and_size, may_clone, read_small, write_all
from ..common.disk_space import require_room
from ..common.faults import cannot_read, cannot_write, reason_of, writing
from ..common.open_dirs import CREATE, Chain, open_folder, open_root, place_of
from ..common.outputs import folder_of, new_folder
from ..common.progress import Progress
from ..model import rules, times
from ..model.attributes import Unstated, marks_to_user, write_attributes
from ..model.blobs import blob_path, opened_blob
from ..model.entries import BLOCK, CHAR, DIRECTORY, FIFO, FILE, SYMLINK, Entry, only_in_manifests
from ..model.links import FirstNames, take_links
from ..model.manifests import read_manifest
from ..squashfs.programs import Packing

_TYPES = {
    CHAR: stat.S_IFCHR, BLOCK: stat.S_IFBLK, FIFO: stat.S_IFIFO, "socket": stat.S_IFSOCK,
}
_STAT_BLOCK = 512  # bytes of the blocks that a file's status counts
_MAX_MAJOR = (1 << 12) - 1
_MAX_MINOR = (1 << 20) - 1


@dataclass(frozen=True, kw_only=True)
class BuildOptions:
    """What the words of `build` say."""

    layer: str
    blobs: str
    out: str
    userxattr: bool = False
    packing: Packing = Packing()  # of a squashfs
    name: str | None = None  # what it is called in faults and notes, if it isn't made at its place

    @property
    def label(self) -> str:
        """What it is called in faults and notes."""
        return self.name or self.out


def _takes_room(options: BuildOptions) -> bool:
    """Whether contents are copied, as the file system can't share their bytes."""
    with writing(options.label), folder_of(options.out) as folder:
        return not may_clone(options.blobs, folder)


def build(options: BuildOptions) -> None:
    """Makes the folder of a manifest, in one that is empty or absent."""
    entries = read_manifest(options.layer)
    take_links(options.layer, entries)
    need, firsts = 0, FirstNames()
    for entry in entries:
        problem = entry_problem(entry, options.userxattr)
        if problem:
            raise cannot_write(options.label + entry.path, problem)
        if entry.names_contents():
            with opened_blob(options.blobs, str(entry.blob), entry.size) as file:
                taken = min(entry.size, os.fstat(file).st_blocks * _STAT_BLOCK)
            need += taken if firsts.before(entry) is None else 0
    if need and _takes_room(options):
        require_room(options.label, options.out, need)
    with new_folder(options.out, options.label, is_dressed=True) as folder:
        with writing(options.label):
            root = open_root(folder)
        try:
            _Builder(options, root).make(entries)
        finally:
            os.close(root)


def entry_problem(entry: Entry, userxattr: bool) -> str | None:
    """Why Linux can't have this entry."""
    stated_alone = only_in_manifests(entry)
    if stated_alone:
        return stated_alone
    if rules.MAX_NUMBER in (entry.uid, entry.gid):
        return f"an owner or group {rules.MAX_NUMBER}: Linux has none of this number"
    if entry.kind in (CHAR, BLOCK) and (entry.major > _MAX_MAJOR or entry.minor > _MAX_MINOR):
        return f"a device {entry.major}:{entry.minor}: Linux has numbers up to {_MAX_MAJOR}:{_MAX_MINOR}"
    try:
        attributes = marks_to_user(entry.attributes) if userxattr else entry.attributes
    except Unstated as problem:
        return problem.text
    if entry.kind not in (FILE, DIRECTORY):
        for name in attributes:
            if name.startswith("user."):
                return f"attribute {name}: Linux has user.* attributes on files and directories alone"
    return None


@dataclass(slots=True)
class _Level:
    """A directory that is being filled; its attributes and times are set when it is left."""

    entry: Entry | None
    folder: int


class _Builder:
    """Makes entries in path order inside an open folder."""

    def __init__(self, options: BuildOptions, root: int) -> None:
        self._options = options
        self._firsts = FirstNames()
        self._chain = Chain(root)
        self._levels = [_Level(None, root)]
        self._copier = Copier()

    def make(self, entries: list[Entry]) -> None:
        """Makes all entries; the root comes first, and parents before what is in them."""
        progress = Progress("making entries", len(entries))
        try:
            for entry in entries[1:]:
                *names, name = entry.path[1:].split("/")
                self._leave(len(names))
                try:
                    self._make(entry, name)
                except OSError as error:
                    raise self._fault(entry, error) from error
                progress.step()
            self._leave(0)
            with writing(self._options.label):
                _dress(self._levels[0].folder, entries[0], self._options.userxattr)
        finally:
            progress.end()
            self._chain.close()
            for level in self._levels[1:]:
                os.close(level.folder)

    def _leave(self, depth: int) -> None:
        while len(self._levels) > depth + 1:
            level = self._levels.pop()
            assert level.entry is not None
            try:
                _dress(level.folder, level.entry, self._options.userxattr)
            except OSError as error:
                raise self._fault(level.entry, error) from error
            finally:
                os.close(level.folder)

    def _make(self, entry: Entry, name: str) -> None:
        parent = self._levels[-1].folder
        before = self._firsts.before(entry)
        if before is not None:
            *names, first = before[1:].split("/")
            os.link(first, name, src_dir_fd=self._chain.folder(names), dst_dir_fd=parent, follow_symlinks=False)
        elif entry.kind == DIRECTORY:
            os.mkdir(name, 0o700, dir_fd=parent)
            self._levels.append(_Level(entry, open_folder(name, parent)))
        elif entry.kind == FILE:
            file = os.open(name, CREATE, 0o600, dir_fd=parent)
            try:
                self._fill(file, entry)
                _dress(file, entry, self._options.userxattr)
            finally:
                os.close(file)
        else:
            _make_other(entry, name, parent)
            _dress_by_name(parent, name, entry, self._options.userxattr)

    def _fill(self, file: int, entry: Entry) -> None:
        """Copies a file's contents and checks them; a metacopy file gets only its size."""
        if not entry.names_contents():
            os.ftruncate(file, entry.size)
            return
        blob = str(entry.blob)
        with opened_blob(self._options.blobs, blob, entry.size) as source:
            if entry.size <= PIECE:
                piece = read_small(source, entry.size)
                digest, size = hashlib.sha256(piece).hexdigest(), len(piece)
                write_all(file, piece)
            else:
                self._copier.copy(source, file)
                digest, size = digest_and_size(file)
        if (digest, size) != (blob, entry.size):
            raise cannot_read(blob_path(self._options.blobs, blob), "its contents have another digest")

    def _fault(self, entry: Entry, error: OSError) -> Exception:
        hint = ""
        if isinstance(error, PermissionError):
            hint = "; owners, devices and trusted.* attributes need root, try sudo"
        return cannot_write(self._options.label + entry.path, reason_of(error) + hint)


def _make_other(entry: Entry, name: str, parent: int) -> None:
    if entry.kind == SYMLINK:
        os.symlink(entry.target, name, dir_fd=parent)
    else:
        os.mknod(name, _TYPES[entry.kind] | 0o600, os.makedev(entry.major, entry.minor), dir_fd=parent)


def _marked(entry: Entry, userxattr: bool) -> Mapping[str, bytes]:
    return marks_to_user(entry.attributes) if userxattr else entry.attributes


def _dress(file: int, entry: Entry, userxattr: bool) -> None:
    """Owner, attributes, mode and time of an open file or folder, in an order in which each one lasts."""
    status = os.fstat(file)
    if (status.st_uid, status.st_gid) != (entry.uid, entry.gid):
        os.chown(file, entry.uid, entry.gid)
    write_attributes(file, _marked(entry, userxattr))
    os.chmod(file, entry.mode)
    _set_time(file, entry)
    if stat.S_IMODE(os.fstat(file).st_mode) != entry.mode:
        raise OSError(None, f"the system doesn't let it have the mode {entry.mode:04o}")


def _dress_by_name(parent: int, name: str, entry: Entry, userxattr: bool) -> None:
    """The same of what can't be opened. The folder is the builder's own, so the name stays what it is."""
    status = os.stat(name, dir_fd=parent, follow_symlinks=False)
    if (status.st_uid, status.st_gid) != (entry.uid, entry.gid):
        os.chown(name, entry.uid, entry.gid, dir_fd=parent, follow_symlinks=False)
    write_attributes(place_of(parent, name), _marked(entry, userxattr))
    if entry.kind != SYMLINK:
        os.chmod(name, entry.mode, dir_fd=parent)
    os.utime(name, ns=(entry.mtime_ns, entry.mtime_ns), dir_fd=parent, follow_symlinks=False)
    _require_time(os.stat(name, dir_fd=parent, follow_symlinks=False), entry)


def _set_time(file: int, entry: Entry) -> None:
    os.utime(file, ns=(entry.mtime_ns, entry.mtime_ns))
    _require_time(os.fstat(file), entry)


def _require_time(status: os.stat_result, entry: Entry) -> None:
    if status.st_mtime_ns != entry.mtime_ns:
        raise OSError(None, f"the file system can't have the time {times.shown(entry.mtime_ns)}")
