"""A layer that is one file: a squashfs, or a plain archive of the layer's folder."""

import contextlib
import io
import os
import stat
from collections.abc import Iterator
from dataclasses import dataclass, field
from enum import Enum, auto

from ..common.budgets import Budget
from ..common.contents import PIECE
from ..common.faults import TarFault, cannot_read, reading
from ..common.omissions import Loss, Losses, ScanLosses
from ..common.open_dirs import READ_WHERE_IT_LEADS
from ..common.progress import Progress
from ..common.streams import Slice, Source, Watched, is_packed, unpacked
from ..image.archives import LayerArchive, ReadOptions
from ..model.blobs import Digester, writers
from ..model.entries import Named
from ..model.entry_file import EntryFile
from ..model.layer_tree import LayerTree, whiteout
from ..model.links import write_layer
from ..model.merged_tree import MergedTree
from ..tar.headers import BLOCK_BYTES, parse_header
from . import programs as squashfs

_MOST_CONTENTS = 1 << 34  # bytes of the files of a layer that is small itself
_MOST_RATIO = 100  # contents beside the size of the file that holds them


class Form(Enum):
    """What a layer is given as."""

    FOLDER = auto()
    SQUASHFS = auto()
    ARCHIVE = auto()
    MANIFEST = auto()


def form_of(path: str) -> Form:
    """The form of the layer at a path, by its first bytes."""
    with reading(path):
        file = os.open(path, READ_WHERE_IT_LEADS)
        try:
            kind = os.fstat(file).st_mode
            if stat.S_ISDIR(kind):
                return Form.FOLDER
            head = os.pread(file, BLOCK_BYTES, 0) if stat.S_ISREG(kind) else b""
            may_be_archive = stat.S_ISREG(kind) and (is_packed(head) or _is_header(head))
        finally:
            os.close(file)
    if head.startswith(squashfs.MAGIC):
        return Form.SQUASHFS
    if head.lstrip(b" \t\r\n").startswith(b"{"):
        return Form.MANIFEST
    if may_be_archive:
        return Form.ARCHIVE
    raise cannot_read(path, "it is neither a folder, nor a squashfs, nor a tar archive")


def _is_header(block: bytes) -> bool:
    """Whether an archive may begin with this block. One of zeros is the end of an empty one."""
    if len(block) < BLOCK_BYTES:
        return False
    try:
        parse_header(block)
    except TarFault:
        return False
    return True


@dataclass(frozen=True, kw_only=True)
class FileOptions:
    """Which file of a layer is read, and where its manifest and its contents go."""

    layer: str
    out: str
    blobs: str | None
    userxattr: bool | None
    skip_unsupported: bool = False
    hides_sockets: bool = False  # a whiteout in place of each socket that can't be had, so that none below shows


@dataclass(frozen=True)
class _FileLayer:
    """A layer in an open file; see `archives.Layer`."""

    path: str
    form: Form
    file: int
    unpacked_digest: None = None
    sockets: list[str] = field(default_factory=list)

    @property
    def name(self) -> str:
        """What it is called in notes."""
        return self.path

    def is_checked(self) -> bool:
        """No digest of it is known."""
        return False

    def identity(self) -> str:
        """Its place."""
        return self.path

    def size(self) -> int:
        """The bytes of the file."""
        return os.fstat(self.file).st_size

    @contextlib.contextmanager
    def archive(self, progress: Progress) -> Iterator[Source]:
        """The bytes of its archive."""
        if self.form is Form.ARCHIVE:
            with unpacked(Watched(Slice(self.file, 0, self.size()), progress), self.path) as stream:
                yield stream
            return
        try:
            with squashfs.archive_of(self.file, self.path, self.sockets.append) as stream:
                yield io.BufferedReader(Watched(stream, progress), PIECE)
        except TarFault as problem:
            raise cannot_read(self.path, f"its squashfs is broken: {problem}") from problem


@contextlib.contextmanager
def opened_layer(path: str, form: Form, reported_path: str | None = None) -> Iterator[_FileLayer]:
    """A squashfs or an archive, open, so that its archive can be read."""
    with reading(reported_path or path):
        file = os.open(path, READ_WHERE_IT_LEADS)
    try:
        yield _FileLayer(reported_path or path, form, file)
    finally:
        os.close(file)


def scan_file(
    options: FileOptions, form: Form, losses: ScanLosses, entries: EntryFile, is_of_stack: bool = False
) -> Iterator[Named]:
    """Writes the manifest of a squashfs or an archive, and the contents of its files; gives its entries, which a file
    has. See `write_layer`."""
    with opened_layer(options.layer, form) as layer:
        tree = _read(layer, options, entries)
    left_out = Losses()
    for path in layer.sockets:
        left_out.add(Loss.SOCKET, path)
        if options.hides_sockets:
            tree.put(path[1:].split("/"), whiteout())
    left_out.report(layer.name)
    losses.hard_links += write_layer(options.out, tree.entries, options.layer, is_of_stack)
    return tree.taken()


def tree_of_file(path: str, form: Form, reported_path: str, userxattr: bool, entries: EntryFile) -> LayerTree:
    """The entries of a layer's file that was written here, with the digests of its files, in a file of entries."""
    with opened_layer(path, form, reported_path) as layer:
        read_options = ReadOptions(
            out=reported_path, overlay_marks=True, writer=Digester(), budget=Budget(), below=MergedTree(),
            is_folder=True, userxattr=userxattr,
        )
        return LayerArchive(layer, read_options, entries).tree()


def _read(layer: _FileLayer, options: FileOptions, entries: EntryFile) -> LayerTree:
    most = max(_MOST_CONTENTS, _MOST_RATIO * layer.size())
    with writers(options.blobs) as new_writer:
        writer = new_writer()
        try:
            return LayerArchive(layer, ReadOptions(
                out=options.blobs or options.out, skip_unsupported=options.skip_unsupported, overlay_marks=True,
                writer=writer, budget=Budget(), below=MergedTree(), is_folder=True, userxattr=options.userxattr,
                most_contents=most,
            ), entries).tree()
        finally:
            writer.close()
