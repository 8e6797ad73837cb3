"""Small random stacks, and what they show and where their bytes go, read plainly off the definitions.

Paths are tuples of names, and a layer is a map from paths to entries. Each question is asked of each path anew, of
every stack of layers from one layer down, so nothing here is fast.
"""

import itertools
import random
from collections.abc import Iterator, Mapping
from dataclasses import dataclass

from support import ROOT  # noqa: F401  (sets the path of the modules)

from convert.model import rules
from convert.model.entries import CHAR, DIRECTORY, FILE, METACOPY, OPAQUE, REDIRECT, SYMLINK, WHITEOUT, Entry
from convert.common.escaping import escaped
from convert.model.times import shown as shown_time

Path = tuple[str, ...]
Layer = Mapping[Path, Entry]
Place = tuple[int, Path]  # an entry: its layer in the stack, and its path there
_NAMES = ("a", "b", "c")
_CONTENTS = {size: f"{size:064x}" for size in (20, 300)}  # each has a size of its own
_OTHER_CONTENTS = "f" * 64  # as long as another one


def names_of(path: str) -> Path:
    """A path of a manifest."""
    return tuple(path.split("/")[1:]) if path != "/" else ()


def text_of(path: Path) -> str:
    """The same, written."""
    return "/" + "/".join(path)


def random_stack(seed: int) -> tuple[list[list[Entry]], int]:
    """The entries of one to five layers, the topmost first, with links, and how many are data-only."""
    pick = random.Random(seed)
    layers = [_random_layer(pick) for _ in range(pick.randint(1, 5))]
    return layers, pick.choice((0, 0, pick.randrange(len(layers))))


def _random_layer(pick: random.Random) -> list[Entry]:
    entries: dict[Path, Entry] = {(): Entry("/", DIRECTORY, 0o755)}
    paths = [path for depth in (1, 2, 3) for path in itertools.product(_NAMES, repeat=depth)]
    for path in paths:
        if path[:-1] in entries and entries[path[:-1]].kind == DIRECTORY and pick.random() < 0.6:
            entries[path] = _random_entry(pick, text_of(path))
    ordered = sorted(entries.values(), key=lambda entry: rules.path_key(entry.path))
    _link(pick, ordered)
    return ordered


def _random_entry(pick: random.Random, path: str) -> Entry:
    kind = pick.choice(("dir", "dir", "dir", "file", "file", "file", "empty", "white", "white file", "meta", "link"))
    if kind == "white":
        return Entry(path, CHAR, 0)
    if kind == "link":
        return Entry(path, SYMLINK, 0o777, target="a")
    if kind == "dir":
        return Entry(path, DIRECTORY, 0o755, attributes=_directory_marks(pick))
    if kind == "white file":
        return Entry(path, FILE, 0o644, attributes={WHITEOUT: b""})
    if kind == "meta":
        size = pick.choice((0, 20, 300))
        return Entry(path, FILE, 0o600, size=size, attributes={METACOPY: b"", **_redirect(pick, 0.7)})
    if kind == "empty":
        return Entry(path, FILE, 0o644)
    size = pick.choice(list(_CONTENTS))
    blob = _OTHER_CONTENTS if size == 300 and pick.random() < 0.3 else _CONTENTS[size]
    return Entry(path, FILE, 0o644, size=size, blob=blob)


def _directory_marks(pick: random.Random) -> dict[str, bytes]:
    return {OPAQUE: pick.choice((b"y", b"y", b"x"))} if pick.random() < 0.2 else _redirect(pick, 0.3)


def _redirect(pick: random.Random, share: float) -> dict[str, bytes]:
    if pick.random() > share:
        return {}
    names = pick.choices(_NAMES, k=pick.choice((1, 1, 2)))
    return {REDIRECT: pick.choice((names[0].encode(), text_of(tuple(names)).encode(), b"/" + names[0].encode(), b"a/b"))}


def _link(pick: random.Random, entries: list[Entry]) -> None:
    """Makes some files with equal members names of one file."""
    numbers: dict[tuple[str | None, int], int] = {}
    for entry in entries:
        is_full = entry.kind == FILE and not entry.attributes
        if is_full and pick.random() < 0.5:
            entry.link = numbers.setdefault((entry.blob, entry.size), len(numbers) + 1)


# The overlay's rules, as docs/PROFILE.md has them.


def is_whiteout(entry: Entry) -> bool:
    """Both forms."""
    return (entry.kind == CHAR and (entry.major, entry.minor) == (0, 0)) or (
        entry.kind == FILE and entry.size == 0 and WHITEOUT in entry.attributes
    )


def redirect(entry: Entry) -> Path | str | None:
    """A path from the root, a name beside, or nothing if it is malformed. Names are only those of these stacks."""
    text = entry.attributes[REDIRECT].decode()
    if text.startswith("/"):
        return names_of(text)
    return None if "/" in text else text


def is_meta(entry: Entry) -> bool:
    """A metacopy file whose redirect isn't malformed."""
    is_copy = entry.kind == FILE and METACOPY in entry.attributes and not is_whiteout(entry)
    return is_copy and (REDIRECT not in entry.attributes or redirect(entry) is not None)


@dataclass(frozen=True)
class Step:
    """What a walk of a path answers in one layer."""

    found: bool
    next: Path
    is_closed: bool


def walk(layer: Layer, path: Path) -> Step:
    """A walk in one layer, step by step."""
    after: Path = ()
    closed = False
    for depth, name in enumerate(path, 1):
        rest = path[depth:]
        entry = layer.get(path[:depth])
        if entry is None:
            return Step(False, (*after, name, *rest), closed)
        if is_whiteout(entry) or (rest and entry.kind != DIRECTORY):
            return Step(False, (*after, name, *rest), True)
        moves = REDIRECT in entry.attributes and (entry.kind == DIRECTORY or is_meta(entry))
        to = redirect(entry) if moves else name
        if entry.kind == DIRECTORY and entry.attributes.get(OPAQUE) == b"y":
            after, closed = (*after, name), True
        elif to is None:
            after, closed = (*after, name), True
        elif isinstance(to, tuple):
            after, closed = to, False
        else:
            after = (*after, to)
        if entry.kind != DIRECTORY and not is_meta(entry):
            closed = True
    return Step(True, after, closed)


class PlainStack:
    """A stack, the topmost layer first."""

    def __init__(self, layers: list[list[Entry]], data_layers: int) -> None:
        maps = [{names_of(entry.path): entry for entry in layer} for layer in layers]
        self.layers: list[Layer] = list(maps)
        self._ordinary = len(layers) - data_layers
        self._names = sorted({name for layer in maps for path in layer for name in path})

    def entry(self, place: Place) -> Entry:
        """The entry of a place."""
        return self.layers[place[0]][place[1]]

    def found(self, path: Path, top: int = 0) -> list[Place]:
        """What the walks of a path find, in the layers from one down."""
        places = []
        for number in range(top, self._ordinary):
            step = walk(self.layers[number], path)
            if step.found:
                places.append((number, path))
            if step.is_closed:
                break
            path = step.next
        return places

    def trace(self, found: list[Place]) -> list[Place]:
        """The longest beginning of only directories, or of metacopy files with at most one other non-directory."""
        longest = 0
        for length in range(1, len(found) + 1):
            entries = [self.entry(place) for place in found[:length]]
            folders = [entry.kind == DIRECTORY for entry in entries]
            if all(folders) or (not any(folders) and all(map(is_meta, entries[:-1]))):
                longest = length
        return found[:longest]

    def shown(self, path: Path, top: int = 0) -> Place | None:
        """The entry that is shown at a path."""
        return next(iter(self.trace(self.found(path, top))), None)

    def contents(self, path: Path, top: int = 0) -> Place | None:
        """The entry whose contents are shown at a path; none if there is no file, or its data is missing."""
        found = self.found(path, top)
        trace = self.trace(found)
        if not trace or self.entry(trace[0]).kind != FILE:
            return None
        last = self.entry(trace[-1])
        to = redirect(last) if is_meta(last) and REDIRECT in last.attributes else None
        if trace == found and isinstance(to, tuple):
            data = [(number, to) for number in range(self._ordinary, len(self.layers))]
            return next((place for place in data if self._is_full(place)), None)
        return trace[-1] if self._is_full(trace[-1]) else None

    def _is_full(self, place: Place) -> bool:
        entry = self.layers[place[0]].get(place[1])
        return entry is not None and entry.kind == FILE and METACOPY not in entry.attributes and not is_whiteout(entry)

    def paths(self, top: int = 0) -> Iterator[Path]:
        """All paths that are shown, in path order. A name that is shown is one of some layer's."""
        yield from self._paths((), top)

    def _paths(self, path: Path, top: int) -> Iterator[Path]:
        place = self.shown(path, top)
        if place is not None:
            yield path
            if self.entry(place).kind == DIRECTORY:
                for name in self._names:
                    yield from self._paths((*path, name), top)

    def report(self) -> Iterator[str]:
        """The show report. The entries of these stacks have no attributes but marks."""
        count = 0
        for count, path in enumerate(self.paths(), 1):
            place = self.shown(path)
            assert place is not None
            yield self._line(path, self.entry(place)) + "\n"
        yield f"entries {count}\n"

    def _line(self, path: Path, entry: Entry) -> str:
        size, what = "-", "-"
        if entry.kind == FILE:
            data = self.contents(path)
            contents = entry if data is None else self.entry(data)
            size, what = str(contents.size), "missing" if data is None else contents.blob or "-"
        elif entry.kind == SYMLINK:
            what = escaped(entry.target.encode())
        return (
            f"{entry.kind} {entry.mode:04o} {entry.uid} {entry.gid} {shown_time(entry.mtime_ns)} {size} {what} "
            f"{escaped(text_of(path).encode())}"
        )


# The definitions of convert/README.md.


@dataclass
class File:
    """A file of a layer with contents: its names."""

    layer: int
    names: list[Path]
    entry: Entry


class PlainSizes:
    """The sizes of a stack."""

    def __init__(self, stack: PlainStack) -> None:
        self._stack = stack
        self.files = [file for number in range(len(stack.layers)) for file in self._files_of(number)]
        self._uses = [self._used(top) for top in range(len(stack.layers) + 1)]

    def _files_of(self, number: int) -> list[File]:
        """The files of a layer that have contents, by their first names in path order."""
        files: dict[tuple[int, Path], File] = {}
        for path, entry in self._stack.layers[number].items():
            if entry.kind == FILE and entry.blob is not None:
                key = (entry.link, () if entry.link else path)
                files.setdefault(key, File(number, [], entry)).names.append(path)
        return list(files.values())

    def _used(self, top: int) -> set[Place]:
        """The entries whose contents the layers from one down show at some path."""
        places = (self._stack.contents(path, top) for path in self._stack.paths(top))
        return {place for place in places if place is not None}

    def is_used(self, file: File, top: int = 0) -> bool:
        """Whether the layers from one down show its contents at a path."""
        return any((file.layer, name) in self._uses[top] for name in file.names)

    def is_repeated(self, file: File) -> bool:
        """Whether a lower layer has a file of the same contents."""
        return any(other.layer > file.layer for other in self._equal(file))

    def _equal(self, file: File) -> list[File]:
        return [other for other in self.files if other.entry.blob == file.entry.blob]

    def is_shown(self, file: File) -> bool:
        """Whether its bytes count as shown."""
        if self.is_repeated(file):
            return False
        equal = self._equal(file)
        beside = [other for other in equal if other.layer == file.layer]
        pays = file is beside[0] and not any(map(self.is_used, beside)) and any(map(self.is_used, equal))
        return self.is_used(file) or pays

    def by(self, file: File) -> int | None:
        """The lowest layer with the same contents, or the layer that hides them."""
        if self.is_repeated(file):
            return max(other.layer for other in self._equal(file))
        tops = range(len(self._uses) - 1)
        return next((top for top in tops if self.is_used(file, top + 1) and not self.is_used(file, top)), None)

    def numbers(self, number: int) -> dict[str, int]:
        """What is counted of a layer."""
        own = [file for file in self.files if file.layer == number]
        entries = self._stack.layers[number].values()
        linked = {entry.link for entry in entries if entry.link}
        single = [entry for entry in entries if entry.kind == FILE and not entry.link and not is_whiteout(entry)]
        below = [entry for path, entry in self._stack.layers[number].items() if path]
        repeated = [file for file in own if self.is_repeated(file)]
        shown = [file for file in own if self.is_shown(file)]
        hidden = [file for file in own if file not in repeated and file not in shown]
        return {
            "entries": len(entries),
            "files": len(linked) + len(single),
            **{
                name: sum(file.entry.size for file in files)
                for name, files in (("bytes", own), ("shown", shown), ("hidden", hidden), ("repeated", repeated))
            },
            "whiteouts": sum(map(is_whiteout, entries)),
            "opaque": sum(entry.kind == DIRECTORY and entry.attributes.get(OPAQUE) == b"y" for entry in below),
        }

    def one_layer(self) -> dict[str, int]:
        """What one layer would take: each file of the merged tree once, however many names of it are shown."""
        paths = list(self._stack.paths())
        sizes: dict[tuple[int, int, Path], int] = {}
        for path in paths:
            place = self._stack.shown(path)
            if place is not None and self._stack.entry(place).kind == FILE:
                link = self._stack.entry(place).link
                data = self._stack.contents(path)
                own = () if link else place[1]
                sizes[place[0], link, own] = 0 if data is None else self._stack.entry(data).size
        return {"entries": len(paths), "files": len(sizes), "bytes": sum(sizes.values())}

    def not_shown(self) -> list[dict[str, object]]:
        """The files that aren't shown, the largest first."""
        found = [file for file in self.files if not self.is_shown(file)]
        return [
            {
                "bytes": file.entry.size, "layer": file.layer, "path": text_of(file.names[0]),
                "why": "repeated" if self.is_repeated(file) else "hidden", "by": self.by(file),
            }
            for file in sorted(found, key=lambda file: (-file.entry.size, file.layer))
        ]
