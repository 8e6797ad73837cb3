"""Long manifests cut into parts: ranges of paths, each with the entries on the way to its first path.

Without redirects what layers show at a path is decided by what they have there and at its prefixes. So a part of all
layers shows in its range what the layers do. Nearly all of a text is copied unread: the program reads it, and if it takes
all parts, their entries are those of the layers. For that the list of entries has no other list in it: then each
`},{"gid":` is the beginning of an entry, as no text within has a quotation mark of its own.
"""

import contextlib
import heapq
import json
import operator
import os
import re
import stat
from bisect import bisect_left
from collections.abc import Iterator, Sequence
from dataclasses import dataclass
from typing import IO

from ..common.contents import PIECE
from ..common.escaping import escaped
from ..common.faults import reading, writing
from . import rules, stacks
from .entries import REDIRECT
from .manifests import WRITTEN_ENTRY, WRITTEN_HEAD, WRITTEN_TAIL

MOST_BYTES = 12_000_000  # of the manifests of a part, of which the program takes about twice as many
SPACING = 1 << 16  # bytes from an entry whose path is held to the next one
_BLOCK = 1 << 16  # bytes that are looked through at once
_USUAL_ENTRY = 1 << 12  # bytes of an entry and more
_BEGINS = (b'},{"gid":', b'},{"blob":')
_BEGIN = re.compile(b"|".join(map(re.escape, _BEGINS)))
_BRACKET = re.compile(rb"\[")
_NAME_OF_EACH = b'"mtime-nsec"'
_REDIRECT = f'"{REDIRECT}"'.encode()
_OTHER_FORM = re.compile(rb"\\u(?!00[01])[0-9A-Fa-f]{4}")  # of a letter that is written as it is
_OVERLAP = len(_REDIRECT) - 1
_Key = tuple[bytes, ...]


class NotCut(Exception):
    """A manifest isn't written as here, or has redirects."""


@dataclass(frozen=True, slots=True)
class _Found:
    """An entry: its path, its text, and where that begins."""

    key: _Key
    text: bytes
    begin: int


def are_long(manifests: Sequence[str]) -> bool:
    """Whether manifests together are longer than a part, and none is longer than the program reads."""
    with contextlib.suppress(OSError):
        found = list(map(os.stat, manifests))
        sizes = [it.st_size for it in found]
        is_read = all(stat.S_ISREG(it.st_mode) for it in found) and max(sizes) <= rules.MAX_MANIFEST_BYTES
        return is_read and sum(sizes) > MOST_BYTES
    return False


def parts_of(manifests: Sequence[str], folder: str) -> Iterator[frozenset[str]]:
    """Writes part after part into a folder, of each layer a manifest, each in the place of the one before.

    Gives of each the paths on the way to its first one, as reports have them.
    """
    with contextlib.ExitStack() as files:
        layers = [_Layer(path, files) for path in manifests]
        paths = stacks.layer_paths(folder, len(layers))
        begin: _Key = ()
        for end in [*_cuts(layers), None]:
            for layer, path in zip(layers, paths):
                with writing(path), open(path, "wb") as out:
                    layer.write_part(end, out)
            yield frozenset(_text_of(begin[:depth]) for depth in range(len(begin)))
            begin = end or ()


def _cuts(layers: Sequence["_Layer"]) -> Iterator[_Key]:
    """The first path of each part after the first."""
    size = 0
    last: _Key = ()
    for key, more in heapq.merge(*(layer.spans() for layer in layers), key=operator.itemgetter(0)):
        if size + more > MOST_BYTES and key > last:
            yield key
            size, last = 0, key
        size += more


def _text_of(key: _Key) -> str:
    """A path as reports have it."""
    return escaped(b"/" + b"/".join(key))


class _Layer:
    """A manifest, of which one part after the other is taken."""

    def __init__(self, path: str, files: contextlib.ExitStack) -> None:
        self._path = path
        with reading(path):
            self._file = files.enter_context(open(path, "rb", buffering=0))
        self._end = self._find_end()
        self._begins = self._find_begins()
        self._keys = [self._entry_at(begin).key for begin in self._begins]
        if any(not before < key for before, key in zip(self._keys, self._keys[1:])):
            raise NotCut
        self._next = self._begins[0]  # where the next part begins
        self._way: list[_Found] = []  # to its first path
        self._held: tuple[int, list[_Found]] = (-1, [])

    def spans(self) -> Iterator[tuple[_Key, int]]:
        """Some paths, each with the bytes up to the next one."""
        for key, begin, end in zip(self._keys, self._begins, [*self._begins[1:], self._end]):
            yield key, end - begin

    def write_part(self, end: _Key | None, out: IO[bytes]) -> None:
        """Writes the part that ends before a path, or with the last one."""
        found = None if end is None else self._first_from(end)
        stop = self._end + 1 if found is None else found.begin
        out.write(WRITTEN_HEAD + b",".join(entry.text for entry in self._way))
        if self._next < stop:
            out.write(b"," if self._way else b"")
            for begin in range(self._next, stop - 1, PIECE):
                out.write(self._read(begin, min(begin + PIECE, stop - 1)))
        out.write(WRITTEN_TAIL + b"\n")
        self._next = stop
        if end is not None:
            self._go_to(end)

    def _go_to(self, key: _Key) -> None:
        """Has the entries at the prefixes of a path as the way. Below one that isn't there nothing is."""
        self._way = [entry for entry in self._way if entry.key == key[:len(entry.key)]]
        while len(self._way) < len(key):
            prefix = key[:len(self._way)]
            found = self._first_from(prefix)
            if found is None or found.key != prefix:
                break
            self._way.append(found)

    def _first_from(self, key: _Key) -> _Found | None:
        """The first entry at or after a path."""
        for number in range(max(0, bisect_left(self._keys, key) - 1), len(self._keys)):
            for entry in self._entries_from(number):
                if entry.key >= key:
                    return entry
        return None

    def _entries_from(self, number: int) -> list[_Found]:
        """The entries from one of those whose paths are held to the next one."""
        if self._held[0] != number:
            begin, stop = [*self._begins, self._end + 1][number:number + 2]
            text, found, at = self._read(begin, stop), list[_Found](), 0
            while at < len(text):
                found.append(_found_in(text, at, begin))
                at = found[-1].begin - begin + len(found[-1].text) + len(",")
            self._held = number, found
        return self._held[1]

    def _entry_at(self, begin: int) -> _Found:
        """The entry that begins at a place."""
        size = _USUAL_ENTRY
        while begin + size < self._end:
            with contextlib.suppress(NotCut):
                return _found_in(self._read(begin, begin + size), 0, begin)
            size *= 4
        return _found_in(self._read(begin, self._end), 0, begin)

    def _find_end(self) -> int:
        """Where the last entry ends."""
        with reading(self._path):
            size = os.fstat(self._file.fileno()).st_size
        for tail in (WRITTEN_TAIL + b"\n", WRITTEN_TAIL):
            end = size - len(tail)
            if end > len(WRITTEN_HEAD) and self._read(end, size) == tail and self._read(0, len(WRITTEN_HEAD)) == WRITTEN_HEAD:
                return end
        raise NotCut

    def _find_begins(self) -> list[int]:
        """Where some entries begin. All of the list is looked through for what it must not have."""
        begins, last, count = [len(WRITTEN_HEAD)], len(WRITTEN_HEAD), 0
        for start, held, seen in self._blocks():
            if _REDIRECT in held or _OTHER_FORM.search(held):
                raise NotCut
            for bracket in _BRACKET.finditer(held, seen):
                begin = _last_begin(held, bracket.start())
                self._require_text(last if begin is None else start + begin, start + bracket.start())
            count += held.count(_NAME_OF_EACH, max(0, seen - len(_NAME_OF_EACH) + 1))
            while found := _BEGIN.search(held, max(0, begins[-1] + SPACING - len("},") - start)):
                begins.append(start + found.start() + len("},"))
            begin = _last_begin(held, len(held))
            last = last if begin is None else start + begin
        if count > rules.MAX_ENTRIES:
            raise NotCut
        return begins

    def _blocks(self) -> Iterator[tuple[int, bytes, int]]:
        """The text of the list, block by block: where each begins, its text, and how much of that the last one had too."""
        at, before = len(WRITTEN_HEAD), b""
        while at < self._end:
            block = self._read(at, min(at + _BLOCK, self._end))
            yield at - len(before), before + block, len(before)
            at, before = at + len(block), block[-_OVERLAP:]

    def _require_text(self, begin: int, place: int) -> None:
        """Goes on only if a place is in a text of the entry that begins at another one."""
        if not place < begin + len(self._entry_at(begin).text):
            raise NotCut

    def _read(self, begin: int, end: int) -> bytes:
        with reading(self._path):
            data = os.pread(self._file.fileno(), end - begin, begin)
        if len(data) < end - begin:
            raise NotCut
        return data


def _last_begin(text: bytes, end: int) -> int | None:
    """Where the last entry begins that begins before a place."""
    found = max(text.rfind(begin, 0, end) for begin in _BEGINS)
    return None if found < 0 else found + len("},")


def _found_in(text: bytes, at: int, begin: int) -> _Found:
    """The entry at a place of a text, which begins at a place of the manifest."""
    match = WRITTEN_ENTRY.match(text, at)
    if match is None:
        raise NotCut
    quoted = match[1]
    try:
        path = json.loads(quoted) if b"\\" in quoted else quoted[1:-1].decode()
    except ValueError:
        raise NotCut from None
    return _Found(rules.path_key(path), match[0], begin + at)
