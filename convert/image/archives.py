"""A layer's archive on its way into a tree, and the contents of its files into blobs."""

import contextlib
import functools
import hashlib
import os
from collections.abc import Callable, Hashable, Iterator, Mapping
from dataclasses import dataclass, field, replace
from typing import Protocol

from ..common.budgets import Budget, TooMuch
from ..common.contents import PIECE
from ..common.disk_space import require_room
from ..common.faults import cannot_read
from ..common.omissions import Loss, Losses
from ..common.progress import Progress, note
from ..common.streams import Source, buffered, read_ahead
from ..model import rules
from ..model.attributes import Unstated, marks_of
from ..model.blobs import Digester, Writer
from ..model.entries import (
    BLOCK, CHAR, DIRECTORY, FIFO, FILE, LINK_MODE, METACOPY, NO_ATTRIBUTES, OVERLAY, SYMLINK, WHITEOUT, Entry,
    is_whiteout,
)
from ..model.entry_file import EntryFile
from ..model.layer_tree import Blocked, Gap, LayerTree, Unfit, whiteout
from ..model.merged_tree import MergedTree
from ..model.times import ONE_SECOND
from ..tar import headers as tar
from ..tar.headers import HARD_LINK, REGULAR_TYPES, Header
from ..tar.reader import TarReader
from .archive_names import AUFS_LINKS, OPAQUE_NAME, WHITEOUT_PREFIX, Paths, is_of_aufs, may_be_special
from .layer_cache import NO_CONTENTS, Contents, Keeping, KeptLayers

RawAttributes = tuple[tuple[bytes, bytes], ...]
_ATTRIBUTE_BYTES = 256  # that an attribute takes at most beside its name and value
_KINDS = {
    tar.SYMLINK: SYMLINK, tar.CHAR: CHAR, tar.BLOCK: BLOCK, tar.DIRECTORY: DIRECTORY, tar.FIFO: FIFO,
    HARD_LINK: FILE, **{bytes([kind]): FILE for kind in REGULAR_TYPES},
}
Store = Callable[[], Contents]  # gives the contents of an entry, which are blobs then
Take = Callable[[Header, Store], None]  # takes the next entry of an archive
_GAPS = {
    Gap.UNKNOWN: Loss.UNKNOWN, Gap.OVER_OTHER: Loss.OVER_OTHER, Gap.WHITEOUT: Loss.WHITEOUT,
    Gap.ANEW: Loss.ANEW,
}


class Layer(Protocol):
    """A layer whose archive can be read."""

    @property
    def name(self) -> str:
        """What it is called in notes."""

    @property
    def path(self) -> str:
        """What it is called in faults."""

    @property
    def unpacked_digest(self) -> tuple[str, str] | None:
        """The algorithm and the digits of the digest of the archive's bytes, if they are known."""

    def is_checked(self) -> bool:
        """Whether that digest is looked at anyway, since the archive isn't packed."""

    def identity(self) -> Hashable:
        """The same for two layers of the same bytes."""

    def archive(self, progress: Progress) -> contextlib.AbstractContextManager[Source]:
        """The bytes of its archive, unpacked. Tells what is wrong with them as a fault of its path.

        What is read counts only once this has ended well.
        """


@dataclass(frozen=True, slots=True)
class Attributes:
    """Attributes as an entry has them, how many marks were left out, and why others can't be stated."""

    kept: Mapping[str, bytes]
    marks: int
    problems: tuple[str, ...] = ()


@dataclass(frozen=True, kw_only=True)
class ReadOptions:
    """What is taken of the archives of layers, and where it goes.

    The archive of a layer's folder has whiteouts as the kernel has them, and no names with a meaning of their
    own; its marks are those of a mount, with `userxattr` or without.
    """

    out: str
    writer: Writer
    budget: Budget
    below: MergedTree
    skip_unsupported: bool = False
    overlay_marks: bool = False
    is_folder: bool = False
    userxattr: bool | None = False  # for an image, whose archives have no such marks
    most_contents: int | None = None  # bytes of all its files, if they are bounded
    kept: KeptLayers | None = None  # of an image, which may name a layer again
    is_again: bool = False  # what is lost was reported before
    attribute_sets: dict[RawAttributes, Attributes] = field(default_factory=dict)  # as records had them before


class ArchiveReader:
    """Reads one layer's archive: entry by entry, and the contents of its files into blobs."""

    def __init__(self, layer: Layer, options: ReadOptions) -> None:
        self._layer = layer
        self._options = options
        self._contents = 0

    def read(self, take: Take) -> None:
        """Gives each entry on, if the layer's bytes are those that the image names."""
        progress = Progress("unpacking")
        try:
            with self._layer.archive(progress) as stream:
                self._read_checked(stream, take)
        except TooMuch as problem:
            raise cannot_read(self._layer.path, str(problem)) from None
        finally:
            progress.end()

    def _read_checked(self, stream: Source, take: Take) -> None:
        if self._layer.unpacked_digest is None or self._layer.is_checked():
            with read_ahead(stream) as ahead:
                self._read(ahead, take)
            return
        algorithm, wanted = self._layer.unpacked_digest
        digest = hashlib.new(algorithm)
        with read_ahead(stream, digest) as ahead:
            self._read(ahead, take)
        if digest.hexdigest() != wanted:
            raise cannot_read(self._layer.path, f"its unpacked bytes aren't those of {algorithm}:{wanted}")

    def _read(self, stream: Source, take: Take) -> None:
        archive = TarReader(buffered(stream), self._options.budget)
        for header in archive:
            take(header, functools.partial(self._store, archive, header))

    def _store(self, archive: TarReader, header: Header) -> Contents:
        """Writes an entry's data as a blob, zeros as holes."""
        most, writer = self._options.most_contents, self._options.writer
        self._contents += header.size
        if most is not None and self._contents > most:
            raise TooMuch(f"its files have over {most:,} bytes, which is more than its own size speaks for")
        if header.size == 0:
            return NO_CONTENTS
        self._require_space(archive.stored())
        return writer.take(archive.data(), header.size), header.size

    def _require_space(self, size: int) -> None:
        if size > PIECE and not isinstance(self._options.writer, Digester):
            require_room(self._options.out, self._options.out, size)


class LayerArchive:
    """One layer's archive, whose entries go into a file that those of the layers below are in too."""

    def __init__(self, layer: Layer, options: ReadOptions, entries: EntryFile) -> None:
        self._layer = layer
        self._options = options
        self._entries = entries
        self._tree = LayerTree(options.budget, entries)
        self._paths = Paths(not options.is_folder)
        self._losses = Losses()
        self._aufs_links: dict[str, int] = {}  # the places of files
        self._left_out: set[str] = set()  # paths of what can't be stated

    def tree(self) -> LayerTree:
        """The layer, if its bytes are those that the image names."""
        layer = self._layer
        try:
            self._take_all()
            self._tree.settle(self._options.below.root, lambda gap, path: self._losses.add(_GAPS[gap], path))
        except TooMuch as problem:
            raise cannot_read(layer.path, str(problem)) from None
        if not self._options.is_again:
            self._losses.report(layer.name)
        return self._tree

    def _take_all(self) -> None:
        """Takes the entries of its archive, or of one of the same bytes that was read, whose contents are blobs."""
        layers = self._options.kept
        kept = layers.kept(self._layer) if layers else None
        if kept is not None:
            for header, contents in kept.entries(self._options.budget):
                self._take_fitting(header, _known(contents))
            return
        keeping = layers.keeping(self._layer) if layers else None
        reader = ArchiveReader(self._layer, self._options)
        if keeping is None:
            reader.read(self._take_fitting)
        else:
            reader.read(functools.partial(self._take_and_keep, keeping))

    def _take_and_keep(self, keeping: Keeping, header: Header, store: Store) -> None:
        contents = store() if has_contents(header) else NO_CONTENTS
        keeping.add(header, contents)
        self._take_fitting(header, _known(contents))

    def _take_fitting(self, header: Header, store: Store) -> None:
        try:
            self._take(header, store)
        except Unfit as problem:
            self._refuse_or_note(header, str(problem))
            self._leave_out(header)
        except Unstated as problem:
            raise cannot_read(self._layer.path, f"{os.fsdecode(header.name)}: {problem.text}") from None

    def _leave_out(self, header: Header) -> None:
        """Leaves out all below an entry that can't be stated: otherwise a private directory would be open to all."""
        with contextlib.suppress(Unfit):
            names = self._paths.names(header.name)
            if names and not _is_special(names):
                self._left_out.add(_path(names))
                self._tree.drop(names)

    def _is_left_out(self, names: list[str]) -> bool:
        """Whether an entry is below one that can't be stated; one of its very path takes its place."""
        self._left_out.discard(_path(names))
        return any(_path(names[:depth]) in self._left_out for depth in range(1, len(names)))

    def _take(self, header: Header, store: Store) -> None:
        names = self._paths.names(header.name)
        if self._left_out and self._is_left_out(names):
            self._losses.add(Loss.BELOW, _path(names))
            return
        if may_be_special(header.name) and _is_special(names):
            if not self._options.is_folder:
                self._take_special(header, names, store)
                return
            self._losses.add(Loss.WHITEOUT_NAME, _path(names))
        entry, place = self._entry(header, names), None
        self._tree.folder(names[:-1])
        if header.type == HARD_LINK:
            entry, place = self._linked(header, names, entry)
        elif entry.kind == FILE:
            _fill(entry, store)
        elif is_whiteout(entry) and not self._options.is_folder:
            self._losses.add(Loss.DEVICE, _path(names))
        self._tree.put(names, entry, place)

    def _take_special(self, header: Header, names: list[str], store: Store) -> None:
        """What is no entry of the layer: a whiteout, an opaque mark, or what aufs keeps for itself."""
        if is_of_aufs(names):
            self._losses.add(Loss.AUFS, _path(names))
            if _is_aufs_link(names) and header.type in REGULAR_TYPES:
                entry = self._entry(header, names)
                self._options.budget.entries.take()
                _fill(entry, store)
                self._aufs_links[_path(names)] = self._entries.put(entry)
            return
        try:
            self._take_whiteout(header, names)
        except Blocked:
            self._losses.add(Loss.WHITEOUT, _path(names))

    def _take_whiteout(self, header: Header, names: list[str]) -> None:
        *folder, last = names
        if last == OPAQUE_NAME:
            _check_place(folder)
            self._tree.put_opaque(folder)
            return
        hidden = last[len(WHITEOUT_PREFIX):]
        problem = rules.name_problem(hidden)
        if problem:
            raise Unfit(f"a whiteout of nothing: {problem}")
        entry = self._entry(replace(header, type=b"0", size=0, name=hidden.encode()), [*folder, hidden])
        if WHITEOUT not in entry.attributes:
            attributes = entry.attributes
            entry = whiteout(entry.uid, entry.gid, entry.mtime_ns)
            entry.attributes = attributes
        self._tree.put_whiteout([*folder, hidden], entry)

    def _entry(self, header: Header, names: list[str]) -> Entry:
        """The entry of a header but for a file's contents."""
        _check_place(names)
        kind = _KINDS.get(header.type)
        if kind is None:
            raise Unfit(f"an entry of type {header.type!r}, which can't be stated")
        entry = Entry("", kind, header.mode, header.uid, header.gid, header.mtime_ns, NO_ATTRIBUTES)
        if kind == SYMLINK:
            entry.mode = LINK_MODE
            entry.target = header.target.decode("utf-8", "surrogateescape")
        elif kind in (CHAR, BLOCK):
            entry.major, entry.minor = header.major, header.minor
        _check_values(entry)
        if header.attributes:
            entry.attributes = self._attributes(header, names)
        if header.cut_time:
            self._losses.add(Loss.CUT_TIME, _path(names))
        if header.has_acl:
            self._losses.add(Loss.ACCESS_LIST, _path(names))
        if header.has_label:
            self._losses.add(Loss.LABEL, _path(names))
        if header.has_global:
            self._losses.add(Loss.GLOBAL, _path(names))
        if header.other_record:
            self._losses.add(Loss.RECORD, f"{_path(names)} ({os.fsdecode(header.other_record)})")
        return entry

    def _attributes(self, header: Header, names: list[str]) -> Mapping[str, bytes]:
        raw = header.attributes
        key = tuple(raw.items())
        found = self._options.attribute_sets.get(key)
        if found is None:
            self._options.budget.text.take(sum(_ATTRIBUTE_BYTES + 2 * (len(name) + len(value)) for name, value in key))
            found = self._options.attribute_sets[key] = self._decoded(raw)
        if found.marks:
            self._losses.add(Loss.MARK, _path(names), found.marks)
        for problem in found.problems:
            self._refuse_or_note(header, problem)
        return found.kept

    def _decoded(self, raw: Mapping[bytes, bytes]) -> Attributes:
        attributes: Mapping[str, bytes] = {
            name.decode("utf-8", "surrogateescape"): value for name, value in raw.items()
        }
        attributes = marks_of(attributes, self._options.userxattr)
        takes_marks = self._options.overlay_marks
        own = {name: value for name, value in attributes.items() if takes_marks or not name.startswith(OVERLAY)}
        problems = {name: problem for name in own if (problem := rules.attribute_problem(name))}
        kept = {name: value for name, value in own.items() if name not in problems}
        problem = rules.attributes_problem(kept)
        if problem:
            raise Unfit(problem)
        return Attributes(kept or NO_ATTRIBUTES, len(attributes) - len(own), tuple(problems.values()))

    def _linked(self, header: Header, names: list[str], entry: Entry) -> tuple[Entry, int | None]:
        """One more name of a file of this layer, with its place, or a copy of one of the layers below."""
        target, is_folder = os.fsdecode(header.target), self._options.is_folder
        linked = Paths(not is_folder).names(header.target, "the file that it links to")
        aufs = self._aufs_links.get(_path(linked))
        here = self._tree.file_at(linked, None, is_folder) if aufs is None and linked else aufs
        place = self._tree.file_at(linked, self._options.below.root) if here is None and linked else here
        if place is None:
            raise Unfit(f"it links to {target}, which is no file of this layer so far or of those below")
        found = self._entries.entry(place)
        if METACOPY in found.attributes and not is_folder:
            raise Unfit(f"it links to {target}, a file without its contents")
        self._options.budget.attributes.take(len(found.attributes))
        if (entry.mode, entry.uid, entry.gid) != (found.mode, found.uid, found.gid):
            self._losses.add(Loss.LINK_HEADER, _path(names))
        if here is None:
            self._losses.add(Loss.LOWER_LINK, _path(names))
        elif not is_whiteout(found):  # the kernel links the whiteouts of a mount to one another, which nothing shows
            self._entries.add_name(here)
            return found, here
        return found, None

    def _refuse_or_note(self, header: Header, problem: str) -> None:
        name = os.fsdecode(header.name)
        if not self._options.skip_unsupported:
            raise cannot_read(self._layer.path, f"{name}: {problem}")
        if not self._options.is_again:
            note(f"{self._layer.path}: {name}: left out: {problem}")


def _known(contents: Contents) -> Store:
    return lambda: contents


def has_contents(header: Header) -> bool:
    """Whether what an entry of an image's layer has as data are contents of a file, if it can be stated at all."""
    if header.type not in REGULAR_TYPES:
        return False
    if not may_be_special(header.name):
        return True
    try:
        names = Paths().names(header.name)
    except Unfit:
        return False
    return not _is_special(names) or _is_aufs_link(names)


def _is_special(names: list[str]) -> bool:
    """Whether a name means something else than an entry of the layer."""
    return bool(names) and (names[-1].startswith(WHITEOUT_PREFIX) or is_of_aufs(names))


def _is_aufs_link(names: list[str]) -> bool:
    """Whether it is a file to which names of aufs' layers link."""
    return names[0] == AUFS_LINKS and is_of_aufs(names)


def _fill(entry: Entry, store: Store) -> None:
    digest, entry.size = store()
    entry.blob = digest if entry.names_contents() else None


def _path(names: list[str]) -> str:
    return "/" + "/".join(names)


def _check_place(names: list[str]) -> None:
    problem = rules.path_problem(_path(names), len(names))
    if problem:
        raise Unfit(problem)


def _check_values(entry: Entry) -> None:
    """Refuses what the members of a manifest's entry have no place for."""
    problem = (
        rules.number_problem("owner", entry.uid, 0, rules.MAX_NUMBER)
        or rules.number_problem("group", entry.gid, 0, rules.MAX_NUMBER)
        or rules.number_problem("time", entry.mtime_ns // ONE_SECOND, rules.MIN_TIME, rules.MAX_TIME)
    )
    if problem is None and entry.kind == SYMLINK:
        problem = rules.target_problem(entry.target)
    elif problem is None and entry.kind in (CHAR, BLOCK):
        problem = (
            rules.number_problem("major number", entry.major, 0, rules.MAX_NUMBER)
            or rules.number_problem("minor number", entry.minor, 0, rules.MAX_NUMBER)
        )
    if problem:
        raise Unfit(problem)
