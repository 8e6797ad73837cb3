"""Which layer each thing that is shown comes from, and which entries of layers aren't shown.

Layers without redirects are read side by side with the report, an entry of each at a time: what is shown at a path is the
topmost entry there, for whatever would hide that one hides all below it too. With redirects the merged tree is put
together. Either way each line must be what the layer has, or nothing is given.
"""

import heapq
import itertools
import operator
from collections.abc import Iterable, Iterator, Sequence
from dataclasses import dataclass, fields
from typing import NamedTuple

from ..common.escaping import escaped
from ..common.faults import Fault
from ..common.program import NAME
from ..model import rules, times
from ..model.entries import (
    BLOCK, CHAR, DIRECTORY, FILE, METACOPY, OVERLAY, REDIRECT, SYMLINK, Entry, is_opaque, is_whiteout, named,
)
from ..model.manifests import entries_of, has_attribute
from ..model.merged_tree import Directory, LayerFile, MergedTree, Node, is_line_of
from ..model.show_report import MISSING, NONE, ShowLine, escaped_path, read_report

_Key = tuple[bytes, ...]
_Entry = tuple[int, str]  # an entry's layer and path


class Place(NamedTuple):
    """A line with the layer whose entry it is. The contents of a metacopy file are those of another layer."""

    line: ShowLine
    layer: int
    contents_layer: int | None = None
    hidden_by: int | None = None  # of what isn't shown: the layer with which it went, if that is known
    is_replaced: bool = False  # whether that one has something in its place


@dataclass(frozen=True)
class Layers:
    """The manifests of a stack, the topmost first, of which the lowest may be data-only, and the report of what they show."""

    manifests: Sequence[str]
    data_layers: int
    report: str

    def shown(self) -> Iterator[Place]:
        """What is shown, in path order."""
        if self._has_redirects():
            return (place for place, _ in self._by_tree({}))
        return (_place_of(line, entries) for line, entries in self._side_by_side() if line is not None)

    def not_shown(self) -> Iterator[Place]:
        """The entries that aren't shown, in path order, the topmost first. Directories and whiteouts don't count.

        With redirects it is known only of files which layer hides them.
        """
        return self._not_shown_in_tree() if self._has_redirects() else self._not_shown_beside()

    def _not_shown_in_tree(self) -> Iterator[Place]:
        files = dict[_Entry, LayerFile]()
        used = {place for _, places in self._by_tree(files) for place in places}
        for entries in _by_path(self.manifests):
            for number, entry in entries:
                if (number, entry.path) not in used and _counts(entry):
                    file = files.get((number, entry.path))
                    yield _not_shown(number, entry, None if file is None else file.hidden_by, entries)

    def _not_shown_beside(self) -> Iterator[Place]:
        way = _Way()
        for line, entries in self._side_by_side():
            place = None if line is None else _place_of(line, entries)
            used_here = () if place is None else (place.layer, place.contents_layer)
            way.enter(entries)
            for number, entry in entries:
                if number not in used_here and _counts(entry):
                    is_data_only = number >= len(self.manifests) - self.data_layers
                    yield _not_shown(number, entry, None if is_data_only else way.hider(number, entry), entries)

    def _has_redirects(self) -> bool:
        return any(has_attribute(manifest, [REDIRECT]) for manifest in self.manifests)

    def _side_by_side(self) -> Iterator[tuple[ShowLine | None, list[tuple[int, Entry]]]]:
        """The entries of each path, the topmost first, and the line that is shown there, if one is."""
        lines = read_report(self.report)
        line = next(lines, None)
        for entries in _by_path(self.manifests):
            if line is not None and line.path == escaped_path(entries[0][1].path):
                yield line, entries
                line = next(lines, None)
            else:
                yield None, entries
        if line is not None:
            raise _other(line.path)

    def _by_tree(self, files: dict[_Entry, LayerFile]) -> Iterator[tuple[Place, list[_Entry]]]:
        """What is shown, and the entries that show it. All files of the layers are noted."""
        lines = read_report(self.report)
        for path, node in self._tree(files).nodes():
            line = next(lines, None)
            if line is None or not is_line_of(line, path, node):
                raise _other(path)
            entry = node.entry if isinstance(node, (Directory, _PlacedFile)) else node
            assert isinstance(entry, _PlacedEntry)
            if not _is_of(line, entry):
                raise _other(path)
            data = node.contents() if isinstance(node, LayerFile) else None
            is_other = data is not None and data is not node
            used = [(entry.layer, entry.path)] + ([(data.layer, data.path)] if data is not None else [])
            yield Place(line, entry.layer, data.layer if data is not None and is_other else None), used
        for line in lines:
            raise _other(line.path)

    def _tree(self, noted: dict[_Entry, LayerFile]) -> MergedTree:
        """The merged tree, with entries that know their layers. All files of the layers are noted."""

        def leaf_of(entry: Entry, _: Node | None) -> LayerFile | Entry:
            if not isinstance(entry, _PlacedEntry) or entry.kind != FILE:
                return entry
            file = noted[entry.layer, entry.path] = _file_of(entry)
            return file

        ordinary = len(self.manifests) - self.data_layers
        data: list[dict[str, LayerFile]] = []
        for number in range(ordinary, len(self.manifests)):
            files = (entry for entry in entries_of(self.manifests[number]) if entry.kind == FILE and _counts(entry))
            data.append({it.path: _file_of(_placed(it, number)) for it in files if METACOPY not in it.attributes})
            noted.update(((number, path), file) for path, file in data[-1].items())
        tree = MergedTree(data)
        for number in reversed(range(ordinary)):
            entries = (_placed(entry, number) for entry in entries_of(self.manifests[number]))
            has_redirects = has_attribute(self.manifests[number], [REDIRECT])
            tree.cover(named(entries), has_redirects, number, leaf_of)
        return tree


class _Way:
    """The directories on the way to a path, and which layers hide what those below have there; without redirects."""

    def __init__(self) -> None:
        self._levels: list[tuple[str, list[int]]] = []  # with those that hide all in a directory
        self._entries: Sequence[tuple[int, Entry]] = ()

    def enter(self, entries: Sequence[tuple[int, Entry]]) -> None:
        """Goes on to the next path in path order, of which these are the entries."""
        path = entries[0][1].path
        while self._levels and not path.startswith(self._levels[-1][0]):
            self._levels.pop()
        folder = path if path == "/" else f"{path}/"
        self._levels.append((folder, [number for number, entry in entries if entry.kind != DIRECTORY or is_opaque(entry)]))
        self._entries = entries

    def hider(self, number: int, entry: Entry) -> int | None:
        """The lowest layer over an entry's that hides it. A metacopy file shows the data that is below it."""
        is_data = entry.kind == FILE and METACOPY not in entry.attributes
        here = (upper for upper, over in self._entries if not (is_data and over.kind == FILE and METACOPY in over.attributes))
        above = (upper for _, hiding in self._levels[:-1] for upper in hiding)
        return max((upper for upper in itertools.chain(here, above) if upper < number), default=None)


@dataclass(slots=True, eq=False)
class _PlacedEntry(Entry):
    """An entry that knows its layer."""

    layer: int = 0


@dataclass(slots=True, eq=False)
class _PlacedFile(LayerFile):
    """A file that knows its entry."""

    entry: Entry | None = None


def _placed(entry: Entry, layer: int) -> _PlacedEntry:
    return _PlacedEntry(**{member.name: getattr(entry, member.name) for member in fields(Entry)}, layer=layer)


def _file_of(entry: _PlacedEntry) -> _PlacedFile:
    blob = bytes.fromhex(entry.blob) if entry.blob is not None else b""
    is_metacopy = METACOPY in entry.attributes
    return _PlacedFile(entry.layer, entry.path, 0 if is_metacopy else entry.size, blob, is_metacopy, entry=entry)


def _by_path(manifests: Sequence[str]) -> Iterator[list[tuple[int, Entry]]]:
    """The entries of each path with the numbers of their layers, the topmost first, in path order."""
    keyed = (_keyed(number, manifest) for number, manifest in enumerate(manifests))
    merged = heapq.merge(*keyed, key=operator.itemgetter(0, 1))
    return ([item[1:] for item in group] for _, group in itertools.groupby(merged, key=operator.itemgetter(0)))


def _keyed(number: int, manifest: str) -> Iterator[tuple[_Key, int, Entry]]:
    return ((rules.path_key(entry.path), number, entry) for entry in entries_of(manifest))


def _not_shown(number: int, entry: Entry, hidden_by: int | None, entries: Sequence[tuple[int, Entry]]) -> Place:
    is_replaced = any(upper == hidden_by and not is_whiteout(over) for upper, over in entries)
    return Place(line_of(entry), number, hidden_by=hidden_by, is_replaced=is_replaced)


def _counts(entry: Entry) -> bool:
    """Whether it is listed if it isn't shown."""
    return entry.kind != DIRECTORY and not is_whiteout(entry)


def _place_of(line: ShowLine, entries: Sequence[tuple[int, Entry]]) -> Place:
    """Where a line comes from, of the entries that are at its path."""
    if not entries or not _is_of(line, entries[0][1]):
        raise _other(line.path)
    layer, entry = entries[0]
    if METACOPY not in entry.attributes or entry.kind != FILE or line.what == MISSING:
        return Place(line, layer)
    data = next((number for number, lower in entries[1:] if METACOPY not in lower.attributes), None)
    found = dict(entries).get(-1 if data is None else data)
    if found is None or (line.size, line.what) != (str(found.size), found.blob or NONE):
        raise _other(line.path)
    return Place(line, layer, data)


def _is_of(line: ShowLine, entry: Entry) -> bool:
    """Whether a line is that of an entry, but for its path and the contents of a metacopy file."""
    wanted = line_of(entry, False)._replace(path=line.path)
    if entry.kind == FILE and METACOPY in entry.attributes:
        wanted = wanted._replace(size=line.size, what=line.what)
    return line == wanted


def line_of(entry: Entry, with_marks: bool = True) -> ShowLine:
    """An entry as a line of the report has it."""
    what = NONE
    if entry.kind == FILE:
        what = entry.blob or NONE
    elif entry.kind == SYMLINK:
        what = escaped_path(entry.target)
    elif entry.kind in (CHAR, BLOCK):
        what = f"{entry.major}:{entry.minor}"
    attributes = {
        name.encode(): value for name, value in entry.attributes.items() if with_marks or not name.startswith(OVERLAY)
    }
    return ShowLine(
        entry.kind, f"{entry.mode:04o}", str(entry.uid), str(entry.gid), times.shown(entry.mtime_ns),
        str(entry.size) if entry.kind == FILE else NONE, what, escaped_path(entry.path),
        " ".join(f"{escaped(name)}={attributes[name].hex()}" for name in sorted(attributes)),
    )


def _other(path: str) -> Fault:
    return Fault(f"{NAME} shows something else at {path}; please report this")
