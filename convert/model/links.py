"""Hard links: which names of a layer are one file. A manifest has no place for it, so a file beside it says so.

Beside `l0.json` is `l0.links`: the names of files that have several, in path order, each with a number that
is the same for the names of one file, and before them the digest of the manifest that they are of, so that
names of another text of it are never taken. `shown.links` has the names that all layers show together.
Such a file is read piece by piece beside the entries, and never held, so it may be as long as it wants to.
"""

import hashlib
import json
import os
import re
import stat
from collections.abc import Callable, Iterable, Iterator
from dataclasses import replace

from ..common.escaping import quoted
from ..common.faults import cannot_read, reading, reason_of
from ..common.open_dirs import READ_WHERE_IT_LEADS
from ..common.outputs import is_replaced, write_text
from ..common.progress import counted, note_path
from . import rules
from .entries import DIRECTORY, Entry, Named, is_whiteout
from .manifests import write_manifest

SUFFIX = ".links"
_HEAD = '{"layer-links":1,'
_OF = re.compile(r'"manifest":"([0-9a-f]{64})",')
_NAMES = '"names":{'
_NAME = re.compile(r'("(?:[^"\\]|\\.)*"):([1-9][0-9]{0,7})([,}])', re.DOTALL)
_PIECE = 1 << 16  # letters; more than a name takes, each of its bytes escaped


class NotTaken(Exception):
    """A file of links isn't taken, for this reason."""


class LinkNames:
    """The names of files that have several, counted as entries pass by in path order."""

    def __init__(self) -> None:
        self._counts: dict[int, int] = {}

    def passing(self, entries: Iterable[Named]) -> Iterator[Named]:
        """The same entries."""
        for path, entry in entries:
            if entry.link:
                self._counts[entry.link] = self._counts.get(entry.link, 0) + 1
            yield path, entry

    def write(self, path: str, entries: Callable[[], Iterable[Named]], layer: str | None = None) -> None:
        """Writes those of the same entries, which are of a manifest, or of what layers show together."""
        write_text(path, self._text(path, entries() if self.has_any() else (), layer))

    def has_any(self) -> bool:
        """Whether any file has two names."""
        return self.count() > 0

    def count(self) -> int:
        """How many names the files have together that have two or more."""
        return sum(count for count in self._counts.values() if count > 1)

    def _text(self, path: str, entries: Iterable[Named], layer: str | None) -> Iterator[str]:
        yield _HEAD if layer is None else f'{_HEAD}"manifest":"{_digest(layer)}",'
        yield _NAMES
        numbers: dict[int, int] = {}
        before, left = "", rules.MAX_MANIFEST_BYTES
        for name, entry in entries:
            if self._counts.get(entry.link, 0) < 2:
                continue
            number = numbers.setdefault(entry.link, len(numbers) + 1)
            text = f"{before}{quoted(name)}:{number}"
            left -= len(text.encode())
            if left < 0:
                note_path(path, f"cut at {rules.MAX_MANIFEST_BYTES:,} bytes; names that follow are files of their own")
                break
            yield text
            before = ","
        yield "}}\n"


def write_layer(out: str, entries: Callable[[], Iterable[Named]], layer: str, is_of_stack: bool) -> int:
    """Writes the manifest of a layer, and its file of links: if there are any, if one is there, and in a stack.

    Gives how many names of links are lost, if what is written is no file that another could be beside.
    """
    names, beside = LinkNames(), links_path(out)
    write_manifest(out, names.passing(entries()), layer)
    if not is_replaced(out):
        return names.count()
    if is_of_stack or names.has_any() or os.path.lexists(beside):
        names.write(beside, entries, out)
    return 0


def count_links(entries: Iterable[Named]) -> LinkNames:
    """The same of entries that go nowhere else."""
    names = LinkNames()
    for _ in names.passing(entries):
        pass
    return names


def renumber(entries: Iterable[Entry], links: Iterator[int]) -> None:
    """Gives files of several names other numbers, such as no other layer of a stack has."""
    numbers: dict[int, int] = {}
    for entry in entries:
        if entry.link:
            if entry.link not in numbers:
                numbers[entry.link] = next(links)
            entry.link = numbers[entry.link]


def links_path(layer: str) -> str:
    """Where the links of a manifest are."""
    return layer.removesuffix(".json") + SUFFIX


class FirstNames:
    """The first names of files, as entries pass by that `take_links` has seen."""

    def __init__(self) -> None:
        self._first: dict[int, str] = {}

    def before(self, entry: Entry) -> str | None:
        """The earlier name that a name is to be linked to; nothing for the first one, and for a file of one name."""
        first = self._first.setdefault(entry.link, entry.path) if entry.link else entry.path
        return None if first == entry.path else first


def take_links(layer: str, entries: list[Entry], shown: str | None = None) -> None:
    """Gives the entries of a manifest the numbers of its own links, or else those of what its names show.

    Two names become one file only if the layer has both, neither is a directory or a whiteout, and all
    their members are the same: so whatever a file of links says, it never changes what the layers show. One
    that is beside the manifest and isn't taken is reported; one that is named must be good.
    """
    own = links_path(layer)
    if own != layer and os.path.lexists(own):
        try:
            _take(own, entries, _digest(layer))
            return
        except NotTaken as problem:
            _take_none(entries)
            note_path(own, f"not taken: {problem}")
    if shown is not None:
        try:
            _take(shown, entries, None)
        except NotTaken as problem:
            raise cannot_read(shown, str(problem)) from None


def numbered_names(path: str, layer: str | None = None) -> Iterator[tuple[str, int]]:
    """The names in a file of links, of a manifest or of what layers show together, each with its file's number."""
    try:
        yield from _names(path, layer and _digest(layer))
    except NotTaken as problem:
        raise cannot_read(path, str(problem)) from None


def _take_none(entries: Iterable[Entry]) -> None:
    for entry in entries:
        entry.link = 0


def _take(path: str, entries: Iterable[Entry], manifest: str | None) -> None:
    """Walks names and entries side by side, both in path order."""
    firsts: dict[int, Entry] = {}
    unfit = absent = 0
    names = _names(path, manifest)
    name, number = next(names, (None, 0))
    for entry in entries:
        if name is not None and name != entry.path:
            key = rules.path_key(entry.path)
            while name is not None and rules.path_key(name) < key:
                absent += 1
                name, number = next(names, (None, 0))
        if name == entry.path:
            may_link = entry.kind != DIRECTORY and not is_whiteout(entry)
            if may_link and _is_same(entry, firsts.setdefault(number, entry)):
                entry.link = number
            else:
                unfit += 1
            name, number = next(names, (None, 0))
    absent += (name is not None) + sum(1 for _ in names)
    if manifest is not None and (unfit or absent):
        raise NotTaken(f"{counted(absent, 'of its names is', 'of its names are')} not in the layer, "
                       f"{counted(unfit, 'is', 'are')} not of one file")


def _is_same(entry: Entry, first: Entry) -> bool:
    """Whether all that two entries say is the same but their paths."""
    return replace(entry, path=first.path, attributes=dict(entry.attributes)) == replace(
        first, attributes=dict(first.attributes)
    )


def _names(path: str, manifest: str | None) -> Iterator[tuple[str, int]]:
    """The names and numbers in a file of links, which is of this digest of a manifest, or of none."""
    try:
        file = os.open(path, READ_WHERE_IT_LEADS)
        with open(file, encoding="utf-8", newline="") as text:
            status = os.fstat(file)
            if not stat.S_ISREG(status.st_mode):
                raise NotTaken("it is no regular file")
            if status.st_size > rules.MAX_MANIFEST_BYTES:
                raise NotTaken(f"it has over {rules.MAX_MANIFEST_BYTES:,} bytes")
            yield from _parsed(text.read, manifest)
    except OSError as error:
        raise NotTaken(reason_of(error)) from None
    except ValueError:
        raise NotTaken("it isn't as `layers` writes it") from None


def _parsed(read: Callable[[int], str], manifest: str | None) -> Iterator[tuple[str, int]]:
    held = read(_PIECE)
    if not held.startswith(_HEAD):
        raise ValueError
    at = len(_HEAD)
    of = _OF.match(held, at)
    if (of and of[1]) != manifest:
        raise NotTaken("it is of another text of the manifest" if of and manifest else "it isn't of this sort")
    at = of.end() if of else at
    if not held.startswith(_NAMES, at):
        raise ValueError
    at += len(_NAMES)
    before: tuple[bytes, ...] | None = None
    after = "}" if held.startswith("}", at) else ","
    at += after == "}"
    while after == ",":
        found = _NAME.match(held, at)
        if found is None:
            more = read(_PIECE) if len(held) - at < _PIECE else ""
            if not more:
                raise ValueError
            held, at = held[at:] + more, 0
            continue
        name = json.loads(found[1])
        key = rules.path_key(name)
        if not name.startswith("/") or (before is not None and not before < key):
            raise ValueError
        yield name, int(found[2])
        before, at, after = key, found.end(), found[3]
    if held[at:] + read(_PIECE) != "}\n":
        raise ValueError


def _digest(path: str) -> str:
    with reading(path), open(path, "rb") as file:
        return hashlib.file_digest(file, "sha256").hexdigest()
