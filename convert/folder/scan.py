"""`scan`: a layer as a manifest and blobs, whether it is a folder, a squashfs or an archive of its folder."""

import contextlib
import itertools
import os
import stat
from collections.abc import Callable, Iterator, Mapping, Sequence
from dataclasses import dataclass, fields

from ..common.faults import ReadFault, cannot_read, reading, reason_of
from ..common.omissions import ScanLosses
from ..common.open_dirs import READ, Chain, open_root
from ..common.progress import Progress, note_path
from ..model import rules
from ..model.attributes import Unstated, marks_of, read_attributes, require_trusted
from ..model.blobs import Writer, writers
from ..model.entries import BLOCK, CHAR, DIRECTORY, FILE, NO_ATTRIBUTES, SYMLINK, Entry, is_whiteout, named
from ..model.entry_file import EntryFile
from ..model.links import write_layer
from ..model.workers import give_blobs
from ..squashfs.layer_files import FileOptions, Form, form_of, scan_file
from .mounts import note_mounted
from .outside import require_outside
from .walks import Found, found_at, state_of, walk

_TRIES = 2  # to look at what changes meanwhile
_CHANGED = "f" * 64  # in place of a digest; no contents that are known have it


@dataclass(frozen=True, kw_only=True)
class ScanOptions:
    """What the words of `scan` say. Without a folder of blobs contents are digested and not copied."""

    layer: str
    out: str
    blobs: str | None
    userxattr: bool | None = None
    cross_file_systems: bool = False
    skip_unsupported: bool = False
    workers: int = 1


def scan(options: ScanOptions) -> None:
    """Writes the manifest of a layer, and the contents of its files. Tells what is lost."""
    form, losses = form_of(options.layer), ScanLosses()
    if form is Form.MANIFEST:
        raise cannot_read(options.layer, "it is no layer, but perhaps the manifest of one")
    require_outside({"--out": options.out, "--blobs": options.blobs}, [options.layer])
    if form is Form.FOLDER:
        scan_folder(options, losses)
    else:
        with EntryFile() as entries:
            scan_file(FileOptions(
                layer=options.layer, out=options.out, blobs=options.blobs, userxattr=options.userxattr,
                skip_unsupported=options.skip_unsupported,
            ), form, losses, entries)
    losses.report()


def scan_folder(options: ScanOptions, losses: ScanLosses, links: Iterator[int] | None = None) -> list[Entry]:
    """The same of a folder, with what is lost counted; gives the entries. With numbers for files of several names it is
    of a stack, and has a file of links even if there are none."""
    if not options.userxattr:
        require_trusted(options.layer)
    with reading(options.layer):
        root = open_root(options.layer)
    try:
        survey = Survey(options, losses, links or itertools.count(1))
        entries = survey.entries(root)
        _store_contents(options, root, entries, survey)
    finally:
        os.close(root)
    note_mounted(options.layer)
    losses.hard_links += write_layer(options.out, lambda: named(entries), options.layer, links is not None)
    return entries


@dataclass(slots=True, eq=False)
class _ScannedFile(Entry):
    """The entry of a file, with the state that the file had then."""

    state: bytes = b""


class Survey:
    """The first pass: every entry but for its blob, so that a refusal comes before anything is written."""

    def __init__(self, options: ScanOptions, losses: ScanLosses, links: Iterator[int]) -> None:
        self._options = options
        self._losses = losses
        self._links = links
        self._numbers: dict[tuple[int, int], int] = {}

    def entries(self, root: int) -> list[Entry]:
        """The entries of an open folder, in path order."""
        entries: list[Entry] = []
        progress = Progress("looking at entries")
        for found in walk(root, self._options.layer, self._options.cross_file_systems):
            if len(entries) == rules.MAX_ENTRIES:
                self._leave_out(found, f"the folder has over {rules.MAX_ENTRIES:,} entries")
                break
            problem = _place_problem(found)
            entry = None if problem else self._settled(found)
            if entry is None:
                self._leave_out(found, problem or "")
                continue
            if found.is_other_system and not found.enter:
                note_path(self._options.layer + found.path, "another file system, not entered")
            entries.append(entry)
            progress.step()
        progress.end()
        return entries

    def renew(self, entry: "_ScannedFile", folder: int) -> None:
        """Makes the entry of a file in an open folder again, since the file has changed."""
        *way, name = entry.path[1:].split("/")
        with reading(self._options.layer + entry.path):
            renewed = self._settled(found_at(folder, name, entry.path, len(way) + 1))
        if not isinstance(renewed, _ScannedFile):
            raise _changed(self._options.layer + entry.path)
        for member in fields(_ScannedFile):
            setattr(entry, member.name, getattr(renewed, member.name))

    def _settled(self, found: Found) -> Entry | None:
        """The entry of what doesn't change while it is looked at, which is tried twice."""
        for _ in range(_TRIES):
            entry = self._entry(found)
            with reading(self._path(found)):
                if found.renew():
                    return entry
        raise _changed(self._path(found))

    def _entry(self, found: Found) -> Entry | None:
        """The entry of what was found, or nothing if it was left out."""
        status = found.status
        kind: type[Entry] = _ScannedFile if found.kind == FILE else Entry
        entry = kind(
            found.path, found.kind, stat.S_IMODE(status.st_mode), status.st_uid, status.st_gid,
            status.st_mtime_ns, self._attributes(found),
        )
        if isinstance(entry, _ScannedFile):
            entry.state = state_of(status)
        if found.kind == SYMLINK:
            with reading(self._path(found)):
                entry.target = found.target()
            problem = rules.target_problem(entry.target)
            if problem:
                self._leave_out(found, problem)
                return None
        elif found.kind in (CHAR, BLOCK):
            entry.major, entry.minor = os.major(status.st_rdev), os.minor(status.st_rdev)
        elif found.kind == FILE:
            entry.size = status.st_size
        # The kernel links the whiteouts of a mount to one another, which nothing shows.
        is_linked = found.kind != DIRECTORY and status.st_nlink > 1
        if is_linked and not is_whiteout(entry):
            inode = status.st_dev, status.st_ino
            if inode not in self._numbers:
                self._numbers[inode] = next(self._links)
            entry.link = self._numbers[inode]
        return entry

    def _attributes(self, found: Found) -> Mapping[str, bytes]:
        try:
            attributes = read_attributes(found.place())
        except OSError as error:
            raise cannot_read(self._path(found), reason_of(error)) from error
        if not attributes:
            return NO_ATTRIBUTES
        try:
            attributes = marks_of(attributes, self._options.userxattr)
        except Unstated as fault:
            raise cannot_read(self._path(found), fault.text) from None
        for name in list(attributes):
            problem = rules.attribute_problem(name)
            if problem:
                self._refuse_or_note(found, problem)
                attributes = {kept: value for kept, value in attributes.items() if kept != name}
        return attributes

    def _leave_out(self, found: Found, problem: str) -> None:
        self._refuse_or_note(found, problem)
        found.enter = False

    def _refuse_or_note(self, found: Found, problem: str) -> None:
        if not self._options.skip_unsupported:
            raise cannot_read(self._path(found), problem)
        note_path(self._path(found), f"left out: {problem}")
        self._losses.left_out += 1

    def _path(self, found: Found) -> str:
        return self._options.layer + (found.path if found.depth else "")


def _place_problem(found: Found) -> str | None:
    if found.depth == 0:
        return None
    return rules.name_problem(found.name) or rules.path_problem(found.path, found.depth)


def _changed(path: str) -> ReadFault:
    return cannot_read(path, "it was changed meanwhile, and again while it was looked at once more")


def _store_contents(options: ScanOptions, root: int, entries: list[Entry], survey: Survey) -> None:
    """The second pass: gives each file with contents its blob. One that has changed since the first is looked at again."""
    files = [entry for entry in entries if isinstance(entry, _ScannedFile) and entry.names_contents()]
    progress = Progress("reading files", len(files))

    with writers(options.blobs) as new_writer:

        def job(share: Sequence[Entry]) -> Iterator[str]:
            with _opened(root, new_writer) as (chain, writer):
                for entry in share:
                    assert isinstance(entry, _ScannedFile)
                    yield _stored(options.layer, chain, writer, entry) or _CHANGED

        try:
            give_blobs(files, options.workers, job, progress.step)
        finally:
            progress.end()
        with _opened(root, new_writer) as (chain, writer):
            for entry in files:
                if entry.blob == _CHANGED:
                    survey.renew(entry, chain.folder(entry.path[1:].split("/")[:-1]))
                    if entry.names_contents():
                        entry.blob = _stored(options.layer, chain, writer, entry)
                        if entry.blob is None:
                            raise _changed(options.layer + entry.path)


@contextlib.contextmanager
def _opened(root: int, new_writer: Callable[[], Writer]) -> Iterator[tuple[Chain, Writer]]:
    """The way to files below a root, and what takes their contents."""
    chain, writer = Chain(root), new_writer()
    try:
        yield chain, writer
    finally:
        writer.close()
        chain.close()


def _stored(folder: str, chain: Chain, writer: Writer, entry: _ScannedFile) -> str | None:
    """The digest of a file's contents; nothing if the file isn't as it was for its entry, before it is read or after."""
    *names, name = entry.path[1:].split("/")
    file = -1
    try:
        file = os.open(name, READ, dir_fd=chain.folder(names))
        digest = writer.put(file, entry.size) if state_of(os.fstat(file)) == entry.state else None
        return digest if state_of(os.fstat(file)) == entry.state else None
    except OSError as error:
        raise cannot_read(folder + entry.path, reason_of(error)) from error
    finally:
        if file >= 0:
            os.close(file)
