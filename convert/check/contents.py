"""Contents of files in a folder of blobs, of which parts are read."""

import os

from ..common.faults import ReadFault, reading
from ..model.blobs import blob_path, opened_blob
from ..model.entries import FILE
from ..model.show_report import MISSING, NONE, ShowLine

_MOST_TEXT = 1 << 20  # bytes of a file that is read as a text


class Contents:
    """Reads what was checked: of contents that `fsck` found missing or damaged nothing is read, or what is there."""

    def __init__(self, blobs: str) -> None:
        self._blobs = blobs

    def part_of_blob(self, digest: str, size: int, at: int, count: int) -> bytes:
        """The bytes at a place of a blob of this size, as many as there are."""
        if at >= size:
            return b""  # which no file may be long enough for
        try:
            with opened_blob(self._blobs, digest, size) as file, reading(blob_path(self._blobs, digest)):
                return os.pread(file, count, at)
        except ReadFault:
            return b""

    def part(self, line: ShowLine, at: int, count: int) -> bytes:
        """The same of a line of the report; none of what has no contents."""
        if line.kind != FILE or line.what in (NONE, MISSING):
            return b""
        return self.part_of_blob(line.what, int(line.size), at, count)

    def text(self, line: ShowLine) -> str:
        """The text of a small file."""
        return self.part(line, 0, _MOST_TEXT).decode("utf-8", "surrogateescape")
