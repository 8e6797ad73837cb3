"""Where the bytes of layers go: which contents of each are shown, hidden and repeated, as README.md defines it."""

from collections.abc import Iterable, Sequence
from dataclasses import dataclass, field, fields

from ..common.faults import Fault
from ..common.program import NAME
from ..model.entries import DIRECTORY, FILE, METACOPY, OVERLAY, REDIRECT, Entry, is_opaque, is_whiteout, named
from ..model.links import take_links
from ..model.manifests import read_manifest
from ..model.merged_tree import LayerFile, MergedTree, Node, Rights, is_line_of
from ..model.show_report import read_report


@dataclass(slots=True)
class LayerSizes:
    """The numbers of one layer, or the sums over all."""

    entries: int = 0
    files: int = 0
    bytes: int = 0
    shown: int = 0
    hidden: int = 0
    repeated: int = 0
    whiteouts: int = 0
    opaque: int = 0

    def add(self, other: "LayerSizes") -> None:
        """Adds another layer's."""
        for member in fields(self):
            setattr(self, member.name, getattr(self, member.name) + getattr(other, member.name))


@dataclass(frozen=True, slots=True)
class NotShown:
    """A file whose contents count as not shown."""

    file: LayerFile
    is_repeated: bool
    by: int | None  # the layer that hides it, or the one whose contents it repeats
    replacing: LayerFile | None = None  # the file that the hiding layer has in its place


@dataclass(slots=True)
class Sizes:
    """What is counted of a stack. Layers are counted from the topmost."""

    layers: list[LayerSizes]
    sums: LayerSizes = field(default_factory=LayerSizes)
    merged: LayerSizes = field(default_factory=LayerSizes)  # of the merged tree: entries, files and bytes
    shown: list[LayerFile] = field(default_factory=list)  # the files whose contents count as shown
    not_shown: list[NotShown] = field(default_factory=list)  # the largest first
    tree: MergedTree = field(default_factory=MergedTree)
    lowest: dict[bytes, int] = field(default_factory=dict)  # the layer that pays for some contents


class _Stack:
    """Layers on their way, from the lowest one up."""

    def __init__(self, count: int, data_layers: int) -> None:
        self.layers = [LayerSizes() for _ in range(count)]
        self.files: list[list[LayerFile]] = [[] for _ in range(count)]  # those with contents, by their first names
        self.lowest: dict[bytes, int] = {}  # the lowest layer that has some contents
        self._rights: dict[object, Rights] = {}
        self._ordinary = count - data_layers
        self._data: list[dict[str, LayerFile]] = [{} for _ in range(data_layers)]
        self.tree = MergedTree(self._data)

    def take(self, number: int, layer: str) -> None:
        """Puts the next layer on top, that of a manifest."""
        entries = read_manifest(layer)
        take_links(layer, entries)
        taking = _Layer(number, self.layers[number], self.files[number], self._rights)
        if number < self._ordinary:
            has_redirects = any(REDIRECT in entry.attributes for entry in entries)
            self.tree.cover(named(entries), has_redirects, number, taking.leaf_of)
        else:
            below = self._data[number - self._ordinary]
            for entry in entries:
                if entry.kind == FILE and not is_whiteout(entry):
                    file = taking.file_of(entry)
                    if not file.is_metacopy:
                        below[entry.path] = file
        taking.count(entries)
        for file in self.files[number]:
            self.lowest.setdefault(file.blob, number)


class _Layer:
    """The files of one layer, as its entries pass by."""

    def __init__(self, number: int, sizes: LayerSizes, files: list[LayerFile], rights: dict[object, Rights]) -> None:
        self._number = number
        self._sizes = sizes
        self._files = files
        self._rights = rights
        self._linked: dict[int, LayerFile] = {}

    def leaf_of(self, entry: Entry, before: Node | None) -> LayerFile | Entry:
        """What the tree has for what is no directory."""
        return self.file_of(entry, before) if entry.kind == FILE else entry

    def file_of(self, entry: Entry, before: Node | None = None) -> LayerFile:
        """The file of an entry; the same one for the names of a hard link."""
        number = entry.link
        if number and number in self._linked:
            self._linked[number].add_name(entry.path)
            return self._linked[number]
        blob = bytes.fromhex(entry.blob) if entry.blob is not None else b""
        is_metacopy = METACOPY in entry.attributes
        file = LayerFile(
            self._number, entry.path, 0 if is_metacopy else entry.size, blob, is_metacopy, rights=self._rights_of(entry),
            is_new=before is None, over=before if isinstance(before, LayerFile) else None,
        )
        if number and not is_metacopy:
            self._linked[number] = file
        self._sizes.files += 1
        if blob:
            self._files.append(file)
            self._sizes.bytes += file.size
        return file

    def _rights_of(self, entry: Entry) -> Rights:
        """Those of an entry; equal ones are held once."""
        own = tuple(sorted(item for item in entry.attributes.items() if not item[0].startswith(OVERLAY)))
        key = (entry.mode, entry.uid, entry.gid, own)
        rights = self._rights.get(key)
        if rights is None:
            rights = self._rights[key] = Rights(*key)
        return rights

    def count(self, entries: Iterable[Entry]) -> None:
        """Counts what isn't a file."""
        for entry in entries:
            self._sizes.entries += 1
            self._sizes.whiteouts += is_whiteout(entry)
            self._sizes.opaque += entry.kind == DIRECTORY and is_opaque(entry)


def sizes_of(layers: Sequence[str], data_layers: int, report: str) -> Sizes:
    """The sizes of manifests, the topmost first, whose show report is in a file."""
    stack = _Stack(len(layers), data_layers)
    for number in reversed(range(len(layers))):
        stack.take(number, layers[number])
    sizes = Sizes(stack.layers, tree=stack.tree, lowest=stack.lowest)
    _take_merged(sizes, report)
    paying = _Paying(stack.files, stack.lowest)
    replacing = _replacing(stack.files)
    for own, files in zip(stack.layers, stack.files):
        for file in files:
            _classify(sizes, own, file, paying, replacing)
        sizes.sums.add(own)
    sizes.not_shown.sort(key=lambda one: (-one.file.size, one.file.layer))
    return sizes


class _Paying:
    """Which contents the lowest layer that has them pays for, since layers above repeat them, and these are shown."""

    def __init__(self, files: Sequence[Sequence[LayerFile]], lowest: dict[bytes, int]) -> None:
        self.lowest = lowest
        by_repeated: set[bytes] = set()
        by_own: set[bytes] = set()
        for layer in files:
            for file in layer:
                if file.uses:
                    (by_own if lowest[file.blob] == file.layer else by_repeated).add(file.blob)
        self._due = by_repeated - by_own

    def pays(self, file: LayerFile) -> bool:
        """Whether a file of the lowest layer is the one that counts as shown. It is asked in path order, once."""
        if file.blob in self._due:
            self._due.remove(file.blob)
            return True
        return file.uses > 0


_Replacing = dict[tuple[int | None, str], LayerFile]


def _replacing(files: Sequence[Sequence[LayerFile]]) -> _Replacing:
    """The files that are in the place of one that they hide, by their layers and paths."""
    hidden = {(file.hidden_by, file.path) for layer in files for file in layer}
    return {(file.layer, file.path): file for layer in files for file in layer if (file.layer, file.path) in hidden}


def _classify(sizes: Sizes, own: LayerSizes, file: LayerFile, paying: _Paying, replacing: _Replacing) -> None:
    lowest = paying.lowest[file.blob]
    if lowest != file.layer:
        own.repeated += file.size
        sizes.not_shown.append(NotShown(file, True, lowest))
    elif paying.pays(file):
        own.shown += file.size
        sizes.shown.append(file)
    else:
        own.hidden += file.size
        sizes.not_shown.append(NotShown(file, False, file.hidden_by, replacing.get((file.hidden_by, file.path))))


def _take_merged(sizes: Sizes, report: str) -> None:
    """Counts the merged tree, which must be, line by line, the one that the program has printed."""
    merged, seen = sizes.merged, set[int]()
    lines = read_report(report)
    for path, node in sizes.tree.nodes():
        line = next(lines, None)
        if line is None or not is_line_of(line, path, node):
            raise _other(path)
        merged.entries += 1
        if isinstance(node, LayerFile) and id(node) not in seen:
            seen.add(id(node))
            merged.files += 1
            merged.bytes += shown_size(node)
    for line in lines:
        raise _other(line.path)


def _other(path: str) -> Fault:
    return Fault(f"{NAME} shows something else at {path}; please report this")


def shown_size(file: LayerFile) -> int:
    """The size of what is shown at a file's place."""
    contents = file.contents()
    return 0 if contents is None else contents.size
