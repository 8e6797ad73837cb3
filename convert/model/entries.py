"""The entries of a layer, and what the marks of the overlay on them mean."""

from collections.abc import Iterable, Iterator, Mapping
from dataclasses import dataclass, field
from types import MappingProxyType

OVERLAY = "trusted.overlay."
ESCAPED = "trusted.overlay.overlay."
OPAQUE = OVERLAY + "opaque"
REDIRECT = OVERLAY + "redirect"
METACOPY = OVERLAY + "metacopy"
WHITEOUT = OVERLAY + "whiteout"
IS_OPAQUE = b"y"
HOST_MARKS = frozenset(OVERLAY + name for name in ("origin", "impure", "uuid", "nlink", "upper"))  # of its inodes

DIRECTORY = "dir"
FILE = "file"
SYMLINK = "symlink"
CHAR = "char"
BLOCK = "block"
FIFO = "fifo"
SOCKET = "socket"

LINK_MODE = 0o777  # of a symlink: Linux has no other

NO_ATTRIBUTES: Mapping[str, bytes] = MappingProxyType({})


@dataclass(slots=True)
class Entry:
    """An entry of a layer as its manifest states it."""

    path: str  # empty in a tree, where its names lead to it
    kind: str
    mode: int
    uid: int = 0
    gid: int = 0
    mtime_ns: int = 0
    attributes: Mapping[str, bytes] = field(default_factory=lambda: NO_ATTRIBUTES)
    size: int = 0
    blob: str | None = None
    target: str = ""
    major: int = 0
    minor: int = 0
    link: int = field(default=0, compare=False)  # the same number: names of one file; a manifest doesn't have it
    place: int = field(default=0, compare=False)  # in the file of entries that it comes from, if it does

    def names_contents(self) -> bool:
        """Whether the manifest names a blob for this entry."""
        return self.kind == FILE and self.size > 0 and METACOPY not in self.attributes


Named = tuple[str, Entry]  # an entry with its path, as trees give them


def named(entries: Iterable[Entry]) -> Iterator[Named]:
    """Entries that have their paths, with these."""
    return ((entry.path, entry) for entry in entries)


def without_paths(entries: Iterable[Entry]) -> Iterator[Named]:
    """The same, which lose their paths as they pass by: what takes them in knows where they are."""
    for entry in entries:
        path, entry.path = entry.path, ""
        yield path, entry


def is_whiteout(entry: Entry) -> bool:
    """Both forms: a char device 0:0, or an empty file with the attribute."""
    if entry.kind == CHAR:
        return entry.major == 0 and entry.minor == 0
    return entry.kind == FILE and entry.size == 0 and WHITEOUT in entry.attributes


def is_opaque(entry: Entry) -> bool:
    """A directory below the root that hides what is below it. The root's mark says nothing."""
    return (
        entry.kind == DIRECTORY
        and entry.path != "/"
        and entry.attributes.get(OPAQUE) == IS_OPAQUE
    )


def needs_lower_layers(entry: Entry) -> str | None:
    """What of this entry means a place in a lower layer, which no image can state."""
    if entry.path == "/" or is_whiteout(entry) or is_opaque(entry):
        return None
    if entry.kind == DIRECTORY and REDIRECT in entry.attributes:
        return "a directory that was moved (trusted.overlay.redirect)"
    if entry.kind == FILE and METACOPY in entry.attributes:
        return "a file without its contents (trusted.overlay.metacopy)"
    return None


def only_in_manifests(entry: Entry) -> str | None:
    """What of this entry only a manifest can have, and no folder, squashfs or archive of a layer."""
    if entry.kind == SYMLINK and entry.mode != LINK_MODE:
        return f"a symlink of mode {entry.mode:04o}: Linux has them of mode 0777 alone"
    return None


def drop_host_marks(entry: Entry) -> int:
    """Leaves out what only means something on the host that the layer comes from; gives how many marks."""
    found = HOST_MARKS & entry.attributes.keys() if entry.attributes else frozenset()
    if found:
        entry.attributes = {name: value for name, value in entry.attributes.items() if name not in HOST_MARKS}
    return len(found)
