"""The files of a new image: in a folder, or in one tar archive, which is written once."""

import os
from collections.abc import Callable
from typing import IO, Protocol

from ..common.contents import PIECE, PRIVATE_MODE
from ..common.faults import writing
from ..common.open_dirs import FOLDER_MODE
from ..common.outputs import new_folder, write_file_in_place
from ..tar.headers import BLOCK_BYTES, DIRECTORY, Header, header_block
from ..tar.writer import TarWriter
from .targets import Form, Target

Fill = Callable[[IO[bytes]], str]
BLOBS = "blobs/sha256"
_FILE = b"0"


class ImageFiles(Protocol):
    """Takes the files of an image, one after the other."""

    def blob(self, fill: Fill) -> None:
        """A blob that is written at a file's place; `fill` gives its digest, by which it is named."""

    def put(self, name: str, data: bytes) -> None:
        """A file of this name."""


class FolderFiles:
    """In a folder."""

    def __init__(self, folder: str, blobs: str) -> None:
        self._folder = self._blobs = folder
        for name in filter(None, blobs.split("/")):
            self._blobs = f"{self._blobs}/{name}"
            os.mkdir(self._blobs, FOLDER_MODE)

    def blob(self, fill: Fill) -> None:
        """See `ImageFiles`."""
        path = os.path.join(self._blobs, "layer")
        with open(path, "x+b", buffering=PIECE, opener=_private) as file:
            digest = fill(file)
        os.rename(path, os.path.join(self._blobs, digest))

    def put(self, name: str, data: bytes) -> None:
        """See `ImageFiles`."""
        with open(os.path.join(self._folder, name), "wb", opener=_private) as file:
            file.write(data)


def _private(path: str, flags: int) -> int:
    """Opens a new file of this user alone: layers have what the files of the layers have."""
    return os.open(path, flags, PRIVATE_MODE)


class ArchiveFiles:
    """In a tar archive. The header of a blob is written last, when its name and its size are known."""

    def __init__(self, file: IO[bytes]) -> None:
        self._file = file
        self._archive = TarWriter(file.write)
        self._there: set[str] = set()
        way = ""
        for name in BLOBS.split("/"):
            way += f"{name}/"
            self._archive.entry(Header(way.encode(), DIRECTORY, 0o755, 0, 0, 0, 0, b"", 0, 0))

    def blob(self, fill: Fill) -> None:
        """See `ImageFiles`. One that is there already isn't kept twice."""
        file = self._file
        begin = file.tell()
        file.write(bytes(BLOCK_BYTES))
        digest = fill(file)
        end = file.seek(0, os.SEEK_END)
        file.seek(begin)
        if digest in self._there:
            file.truncate()
            return
        self._there.add(digest)
        size = end - begin - BLOCK_BYTES
        file.write(header_block(_header(f"{BLOBS}/{digest}", size)))
        file.seek(end)
        self._archive.end_data(size)

    def put(self, name: str, data: bytes) -> None:
        """See `ImageFiles`."""
        self._archive.entry(_header(name, len(data)))
        self._archive.data(data)
        self._archive.end_data(len(data))

    def end(self) -> None:
        """Writes the end of the archive."""
        self._archive.end()


def write_image_files(out: Target, write: Callable[[ImageFiles], None]) -> None:
    """Has the files of a new image written, into a folder or one tar archive."""
    if out.form is Form.ARCHIVE:

        def fill(file: IO[bytes]) -> None:
            files = ArchiveFiles(file)
            write(files)
            files.end()

        with writing(out.label):
            write_file_in_place(out.path, out.place, fill, PRIVATE_MODE)
        return
    with new_folder(out.path) as folder, writing(out.label):
        write(FolderFiles(folder, "" if out.form is Form.COPY else BLOBS))


def _header(name: str, size: int) -> Header:
    return Header(name.encode(), _FILE, 0o644, 0, 0, size, 0, b"", 0, 0)
