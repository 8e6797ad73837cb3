"""`cat`: the contents of a file that a source shows, taken from the layer that has them."""

import hashlib
import os
import tempfile
from collections.abc import Iterable, Iterator
from dataclasses import dataclass
from typing import IO

from ..common.budgets import Budget
from ..common.contents import PIECE, Piece
from ..common.faults import ReadFault, cannot_read, reading, writing
from ..common.open_dirs import READ, Chain, open_root
from ..common.outputs import passing_folder, standard_output
from ..folder.stack_layers import StackOptions
from ..image.archives import ArchiveReader, Layer, ReadOptions, Store
from ..model.blobs import Digester, opened_blob
from ..model.entries import FILE
from ..model.manifests import entries_of
from ..model.merged_tree import MergedTree
from ..model.show_report import MISSING, ShowLine
from ..squashfs.layer_files import Form, form_of, opened_layer
from ..tar.headers import REGULAR_TYPES, Header
from .paths import find
from .sources import Shown, Source, opened_source
from .texts import name_text

_KINDS = {"dir": "a directory", "char": "a device", "block": "a device", "fifo": "a pipe", "socket": "a socket"}


@dataclass(frozen=True)
class _Wanted:
    """Contents of this size and digest, which an open file gets."""

    size: int
    digest: str
    file: IO[bytes]

    def take(self, pieces: Iterable[Piece]) -> bool:
        """Writes contents; says whether they are those."""
        digest = hashlib.sha256()
        with writing(tempfile.gettempdir()):
            self.file.seek(0)
            self.file.truncate()
        for piece in pieces:
            digest.update(piece)
            with writing(tempfile.gettempdir()):
                self.file.write(piece)
        return digest.hexdigest() == self.digest


def print_contents(source: Source, path: str) -> None:
    """Prints the contents of the file to which a path leads, once their digest is known to be right."""
    with passing_folder(tempfile.gettempdir()) as folder, opened_source(source, folder) as shown:
        line = find(shown.report, path, source.name, True)
        if line.kind != FILE:
            raise ReadFault(f"{source.name}: {name_text(line.path)} is {_KINDS[line.kind]}")
        if line.what == MISSING:
            raise ReadFault(f"{source.name}: no layer has the contents of {name_text(line.path)}")
        if int(line.size) == 0:
            return
        with writing(tempfile.gettempdir()):
            file = tempfile.TemporaryFile(dir=folder)
        with file:
            _fetch(source, shown, line, file)
            _print(file)


def _print(file: IO[bytes]) -> None:
    with reading(tempfile.gettempdir()):
        file.seek(0)
    with standard_output() as out:
        while piece := file.read(PIECE):
            out.buffer.write(piece)


def _fetch(source: Source, shown: Shown, line: ShowLine, file: IO[bytes]) -> None:
    """Fills a file with what is shown, from the topmost layer that has these contents."""
    wanted = _Wanted(int(line.size), line.what, file)
    number, path = next(
        (number, entry.path) for number, layer in enumerate(shown.layers) for entry in entries_of(layer)
        if entry.blob == line.what
    )
    if shown.image is not None:
        layer = shown.image.layers[len(shown.layers) - 1 - number]
        is_found = _is_in_archive(layer, wanted, False)
        name = layer.path
    elif source.stack is not None:
        is_found, name = _is_in_layer(source.stack, number, path, wanted), source.stack.layers[number]
    elif shown.blobs is not None:
        is_found, name = _is_blob(shown.blobs, wanted), shown.blobs
    else:
        raise cannot_read(source.word, "it has no contents, as of --digests-only")
    if not is_found:
        raise cannot_read(name, f"it no longer has the contents of {path}")


def _is_in_layer(stack: StackOptions, number: int, path: str, wanted: _Wanted) -> bool:
    """Takes contents from a layer on a disk."""
    layer = stack.layers[number]
    form = form_of(layer)
    if form is Form.FOLDER:
        return wanted.take(_pieces_in_folder(layer, path))
    if form is Form.MANIFEST:
        if stack.blobs is None:
            raise cannot_read(layer, "it is a manifest: --blobs must name the folder of its contents")
        return _is_blob(stack.blobs, wanted)
    with opened_layer(layer, form) as opened:
        return _is_in_archive(opened, wanted, True)


def _is_blob(blobs: str, wanted: _Wanted) -> bool:
    with opened_blob(blobs, wanted.digest, wanted.size) as blob:
        return wanted.take(_pieces_of(blob, f"{blobs}/{wanted.digest}"))


def _pieces_in_folder(folder: str, path: str) -> Iterator[bytes]:
    """The contents of a file below a folder; no link is followed."""
    *way, name = path[1:].split("/")
    with reading(folder + path):
        root = open_root(folder)
        chain = Chain(root)
        try:
            file = os.open(name, READ, dir_fd=chain.folder(way))
            try:
                yield from _pieces_of(file, folder + path)
            finally:
                os.close(file)
        finally:
            chain.close()
            os.close(root)


def _pieces_of(file: int, path: str) -> Iterator[bytes]:
    with reading(path):
        while piece := os.read(file, PIECE):
            yield piece


class _Found(Exception):
    """What was sought in an archive is found."""


class _Taker(Digester):
    """Takes the place of a folder of blobs, for one of them."""

    def __init__(self, wanted: _Wanted) -> None:
        self._wanted = wanted

    def take(self, pieces: Iterable[Piece], size: int) -> str:
        """Ends the reading at what is wanted."""
        if self._wanted.take(pieces):
            raise _Found
        return ""


def _is_in_archive(layer: Layer, wanted: _Wanted, is_folder: bool) -> bool:
    """Reads the archive of a layer up to the contents. Only those of their size are kept on the way, one at a time."""
    reader = ArchiveReader(layer, ReadOptions(
        out=tempfile.gettempdir(), writer=_Taker(wanted), budget=Budget(), below=MergedTree(), overlay_marks=True,
        is_folder=is_folder,
    ))

    def take(header: Header, store: Store) -> None:
        if header.type in REGULAR_TYPES and header.size == wanted.size:
            store()

    try:
        reader.read(take)
    except _Found:
        return True
    return False
