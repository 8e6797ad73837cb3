"""What layers show together, and the file of which layer is at each path: put together from the lowest layer up.

What layers show at several places, by redirects, is held once, and each node counts its uses. Only if a layer has
redirects, or something in what an earlier one's repeat, the directories that it states are copied, within a bound.
"""

from collections.abc import Callable, Iterable, Iterator, Mapping, Sequence
from dataclasses import dataclass, field

from ..common.faults import ReadFault
from . import rules, stacks
from .entries import DIRECTORY, FILE, REDIRECT, Entry, Named, is_opaque, is_whiteout
from .links import count_links
from .show_report import MISSING, NONE, ShowLine, escaped_path

MAX_COPIES = 1 << 24


@dataclass(slots=True, eq=False)
class Directory:
    """A directory as layers show it, with the entry of the topmost one that states it."""

    entry: Entry
    children: dict[str, "Node"] = field(default_factory=dict)
    uses: int = 0


@dataclass(frozen=True, slots=True)
class Rights:
    """Who may do what with a file, and its other attributes."""

    mode: int
    uid: int
    gid: int
    attributes: tuple[tuple[str, bytes], ...]


@dataclass(slots=True, eq=False)
class LayerFile:
    """A file of a layer, with all its names there."""

    layer: int
    path: str  # the first of its names
    size: int
    blob: bytes = b""  # the digest of its contents, if it has any
    is_metacopy: bool = False
    data: "LayerFile | None" = None  # of a metacopy file: the file whose contents it shows
    rights: Rights | None = None
    is_new: bool = True  # whether the layers below show nothing at its path
    over: "LayerFile | None" = None  # the file that they show there
    uses: int = 0
    hidden_by: int | None = None  # the layer with which it went, if nothing uses it
    further: list[str] | None = None  # its other names there

    def add_name(self, path: str) -> None:
        """Another name in its layer."""
        if self.further is None:
            self.further = []
        self.further.append(path)

    def names(self) -> list[str]:
        """All its names in its layer."""
        return [self.path, *(self.further or ())]

    def contents(self) -> "LayerFile | None":
        """The file whose contents are shown at this one's place; none if they are missing."""
        return self.data if self.is_metacopy else self


Node = Directory | LayerFile | Entry | int  # the place of an entry in its file
# What the tree has for an entry that is no directory, and is put over what the layers below show there.
LeafOf = Callable[[Entry, Node | None], LayerFile | Entry | int]


def _entry_itself(entry: Entry, _: Node | None) -> Entry:
    return entry


def place_of(entry: Entry, _: Node | None) -> Entry | int:
    """The place of an entry in its file, if it has one, in place of the entry."""
    return entry.place or entry


class MergedTree:
    """What the layers so far show. Data-only layers, the topmost first, are maps from paths to files."""

    def __init__(self, data_layers: Sequence[Mapping[str, LayerFile]] = ()) -> None:
        self.root: Directory | None = None  # none before the first layer
        self._data_layers = data_layers
        self._room = MAX_COPIES

    def cover(
        self, entries: Iterable[Named], has_redirects: bool, number: int = 0, leaf_of: LeafOf = _entry_itself,
    ) -> None:
        """Puts a layer on top, of this number; its entries come in path order."""
        below = self.root
        if has_redirects and below is not None:
            below.uses += 1  # what redirects lead to stays as it is until the layer is on top
        rest = iter(entries)
        covering = _Covering(number, next(rest)[1], below, self._data_layers, self._room)
        for path, entry in rest:
            covering.put(path, entry, leaf_of)
        self.root, self._room = covering.root, covering.room
        self.root.uses = 1
        if below is not None and self.root is not below:
            below.uses = 1
            covering.release(below)

    def nodes(self) -> Iterator[tuple[str, Node]]:
        """All paths with what is there, in path order."""
        if self.root is None:
            return
        yield "/", self.root
        levels = [("", self.root, iter(sorted(self.root.children)))]
        while levels:
            path, folder, names = levels[-1]
            name = next(names, None)
            if name is None:
                levels.pop()
                continue
            inner, node = f"{path}/{name}", folder.children[name]
            yield inner, node
            if isinstance(node, Directory):
                levels.append((inner, node, iter(sorted(node.children))))

    def entries(self) -> Iterator[Named]:
        """The entries in it."""
        for path, node in self.nodes():
            if isinstance(node, (Directory, Entry)):
                yield path, node.entry if isinstance(node, Directory) else node


def write_shown_links(folder: str, entries: Callable[[], Iterable[Named]]) -> None:
    """Writes the names that all layers of a stack show together as one file; other entries may be left out."""
    count_links(entries()).write(f"{folder}/{stacks.SHOWN_LINKS}", entries)


@dataclass(slots=True)
class _Open:
    """A directory of the layer that is put on top, and what those below show in its place."""

    path: str  # empty of the root
    folder: Directory
    lower: Directory | None

    def lower_at(self, name: str) -> Node | None:
        """What those below show in it."""
        return None if self.lower is None else self.lower.children.get(name)


class _Covering:
    """One layer on its way onto those below."""

    def __init__(
        self, number: int, root: Entry, below: Directory | None, data_layers: Sequence[Mapping[str, LayerFile]],
        room: int,
    ) -> None:
        self._number = number
        self._below = below
        self._data_layers = data_layers
        self.room = room  # entries of directories that may be copied yet
        self.root = self._over(root, below, below)
        self._open = [_Open("", self.root, below)]

    def put(self, path: str, entry: Entry, leaf_of: LeafOf) -> None:
        """Puts in the next entry, in path order."""
        above, _, name = path.rpartition("/")
        while self._open[-1].path != above:
            self._open.pop()
        place = self._open[-1]
        if is_whiteout(entry):
            hidden = place.folder.children.pop(name, None)
            if hidden is not None:
                self.release(hidden)
        elif entry.kind == DIRECTORY:
            lower = None if is_opaque(entry) else self._next(entry, place, name)
            lower = lower if isinstance(lower, Directory) else None
            folder = self._over(entry, place.folder.children.get(name), lower)
            self._place(place.folder, name, folder)
            self._open.append(_Open(path, folder, lower))
        else:
            leaf = leaf_of(entry, place.folder.children.get(name))
            if isinstance(leaf, LayerFile) and leaf.is_metacopy:
                leaf.data = self._data(entry, place, name)
            self._place(place.folder, name, leaf)

    def _next(self, entry: Entry, place: _Open, name: str) -> Node | None:
        """What those below show at the next path of an entry's walk."""
        value = entry.attributes.get(REDIRECT)
        if value is None:
            return place.lower_at(name)
        names = read_redirect(value)
        if names is None:
            return None
        if isinstance(names, str):
            return place.lower_at(names)
        found: Node | None = self._below
        for inner in names:
            found = found.children.get(inner) if isinstance(found, Directory) else None
        return found

    def _data(self, entry: Entry, place: _Open, name: str) -> LayerFile | None:
        """The file with the data of a metacopy file, which is in use from now on."""
        found = self._next(entry, place, name)
        names = read_redirect(entry.attributes.get(REDIRECT, b""))
        data = found.contents() if isinstance(found, LayerFile) else None
        if found is None and isinstance(names, list):
            path = "/" + "/".join(names)
            data = next((layer[path] for layer in self._data_layers if path in layer), None)
        if data is not None:
            data.uses += 1
        return data

    def _place(self, folder: Directory, name: str, node: Node) -> None:
        before = folder.children.get(name)
        if before is node:
            return
        _use(node)
        folder.children[name] = node
        if before is not None:
            self.release(before)

    def _over(self, entry: Entry, before: Node | None, lower: Directory | None) -> Directory:
        """The directory that is over what those below show in its place: the same if nothing else uses it."""
        if lower is None:
            return Directory(entry)
        if lower is before and lower.uses == 1:
            lower.entry = entry
            return lower
        self.room -= len(lower.children)
        if self.room < 0:
            raise ReadFault(f"layer {self._number}: what redirects repeat has over {MAX_COPIES:,} entries")
        for child in lower.children.values():
            _use(child)
        return Directory(entry, dict(lower.children))

    def release(self, node: Node) -> None:
        """Takes one use away from what this layer hides, and from all in it that nothing else uses."""
        todo = [node]
        while todo:
            node = todo.pop()
            if not isinstance(node, (Directory, LayerFile)):
                continue
            node.uses -= 1
            if node.uses > 0:
                continue
            if isinstance(node, Directory):
                todo.extend(node.children.values())
            else:
                node.hidden_by = self._number
                if node.data is not None:
                    todo.append(node.data)


def _use(node: Node) -> None:
    if isinstance(node, (Directory, LayerFile)):
        node.uses += 1


def read_redirect(value: bytes) -> str | list[str] | None:
    """What a redirect means: one name beside, the names of a path from the root, or nothing if it is malformed."""
    try:
        text = value.decode()
    except UnicodeDecodeError:
        return None
    names = text.removeprefix("/").split("/")
    if any(map(rules.name_problem, names)):
        return None
    if text.startswith("/"):
        return names
    return names[0] if len(names) == 1 else None


def is_line_of(line: ShowLine, path: str, node: Node) -> bool:
    """Whether a line of the report is of this path, and of these contents there."""
    if line.path != escaped_path(path):
        return False
    if isinstance(node, Directory):
        return line.kind == DIRECTORY
    if not isinstance(node, LayerFile):
        return line.kind not in (DIRECTORY, FILE)
    contents = node.contents()
    if contents is None:
        return (line.kind, line.what) == (FILE, MISSING)
    return (line.kind, line.size, line.what) == (FILE, str(contents.size), contents.blob.hex() or NONE)
