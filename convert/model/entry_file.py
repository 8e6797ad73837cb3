"""Entries of layers in a file without a name: of one that is no directory a tree holds only its place there."""

import itertools
import os
import struct
import tempfile
from collections.abc import Iterable, Iterator, Mapping
from typing import IO, Any

from ..common.contents import write_all
from ..common.faults import cannot_read, reason_of, writing
from .entries import BLOCK, CHAR, DIRECTORY, FIFO, FILE, NO_ATTRIBUTES, SOCKET, SYMLINK, Entry, Named
from .times import ONE_SECOND

_KINDS = (DIRECTORY, FILE, SYMLINK, CHAR, BLOCK, FIFO, SOCKET)
_CODES = {kind: code for code, kind in enumerate(_KINDS)}
# Attributes and kind by numbers, what the entry has as numbers, its blob, and the length of its target, which follows.
_NUMBERS = struct.Struct("<IBHIIqIqII64sH")
_AT_ONCE = 1 << 18  # bytes that are written
_WINDOW = 1 << 14  # bytes that are read
_LONGEST = 1 << 13  # bytes of an entry at most: a target has half as many


class EntryFile:
    """Entries, each found by its place. The names of one file have one. Attributes, which many have in common, are held.

    `links` gives numbers for files of several names, such as no other layer of a stack has.
    """

    def __init__(self, folder: str | None = None) -> None:
        self.links = itertools.count(1)
        self._folder = folder or tempfile.gettempdir()
        self._linked: dict[int, int] = {}  # the numbers of files of several names, by their places
        self._attributes: list[Mapping[str, bytes]] = [NO_ATTRIBUTES]
        self._numbers = {id(NO_ATTRIBUTES): 0}  # of attributes, which the list keeps in their places
        self._file: IO[bytes] | None = None  # none before there is much
        self._written = 1  # so that no place is 0
        self._tail = bytearray()  # what isn't written yet
        self._begin = 0
        self._window = b""

    def __enter__(self) -> "EntryFile":
        return self

    def __exit__(self, *_: object) -> None:
        self.close()

    def close(self) -> None:
        """Takes the file away."""
        if self._file is not None:
            self._file.close()

    def put(self, entry: Entry) -> int:
        """Puts an entry in; gives its place."""
        number, tail = self._numbers.get(id(entry.attributes)), self._tail
        if number is None:
            number = self._numbers[id(entry.attributes)] = len(self._attributes)
            self._attributes.append(entry.attributes)
        place = self._written + len(tail)
        seconds, below = divmod(entry.mtime_ns, ONE_SECOND)
        target = entry.target.encode() if entry.target else b""
        tail += _NUMBERS.pack(
            number, _CODES[entry.kind], entry.mode, entry.uid, entry.gid, seconds, below, entry.size, entry.major,
            entry.minor, entry.blob.encode() if entry.blob else b"", len(target),
        )
        tail += target
        if len(tail) >= _AT_ONCE:
            self._write()
        return place

    def _write(self) -> None:
        with writing(self._folder):
            if self._file is None:
                self._file = tempfile.TemporaryFile(buffering=0, dir=self._folder)
            write_all(self._file.fileno(), self._tail)
        self._written += len(self._tail)
        self._tail.clear()

    def entry(self, place: int) -> Entry:
        """The entry at a place, without its path."""
        at = place - self._begin
        if not 0 <= at <= len(self._window) - _LONGEST:
            self._read(place)
            at = 0
        number, code, mode, uid, gid, seconds, below, size, major, minor, blob, length = _NUMBERS.unpack_from(self._window, at)
        at += _NUMBERS.size
        return Entry(
            "", _KINDS[code], mode, uid, gid, seconds * ONE_SECOND + below, self._attributes[number], size,
            blob.decode() if blob[0] else None, self._window[at:at + length].decode() if length else "", major, minor,
            self._linked.get(place, 0), place,
        )

    def _read(self, place: int) -> None:
        """Has what begins at a place in the window."""
        if self._file is None or place >= self._written:
            at = place - self._written
            data = bytes(self._tail[at:at + _WINDOW])
        else:
            try:
                data = os.pread(self._file.fileno(), _WINDOW, place - 1)
            except OSError as error:
                raise cannot_read(self._folder, reason_of(error)) from error
            if len(data) < min(_LONGEST, self._written - place):
                raise cannot_read(self._folder, "a file of entries in it is cut off")
        self._begin, self._window = place, data

    def add_name(self, place: int) -> None:
        """The entry at a place is that of a file of several names."""
        if place not in self._linked:
            self._linked[place] = next(self.links)

    def has_links(self) -> bool:
        """Whether there is any such file."""
        return bool(self._linked)

    def linked(self, nodes: Iterable[tuple[str, Any]]) -> Iterator[Named]:
        """Of the paths of a tree with what is there, those of such files, and of entries that have no place."""
        for path, node in nodes:
            if isinstance(node, Entry):
                yield path, node
            elif isinstance(node, int) and node in self._linked:
                yield path, self.entry(node)
