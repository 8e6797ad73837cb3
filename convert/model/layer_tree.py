"""A layer that is put together from the entries of an archive, in whatever order they come."""

import sys
from collections.abc import Callable, Iterator
from dataclasses import dataclass, field, replace
from enum import Enum, auto

from ..common.budgets import Budget, TooMuch
from . import rules
from .entries import CHAR, DIRECTORY, IS_OPAQUE, NO_ATTRIBUTES, OPAQUE, OVERLAY, SYMLINK, Entry, Named, is_whiteout
from .entry_file import EntryFile
from .merged_tree import Directory, Node

_IMPLIED_MODE = 0o755


class Unfit(Exception):
    """An entry can't be stated in a manifest, or has no place in its layer."""


class Blocked(Unfit):
    """The way to an entry leads through what is no directory."""


@dataclass(slots=True)
class Folder:
    """A directory, and the places of what else is in it. `is_stated` is false if the archive leaves it out and has only
    what is in it; `is_anew` says that its layer had something else in its place first.
    """

    entry: Entry
    children: dict[str, "Folder | int"] = field(default_factory=dict)
    whiteouts: dict[str, int] = field(default_factory=dict)
    is_opaque: bool = False
    is_stated: bool = True
    is_root: bool = False
    is_anew: bool = False

    def hides_all(self) -> bool:
        """Whether nothing that lower layers have in it is shown. The root's mark says nothing."""
        return self.is_opaque or self.is_anew or (not self.is_root and self.entry.attributes.get(OPAQUE) == IS_OPAQUE)

    def lower(self, under: Directory | None, name: str) -> Node | None:
        """What lower layers show in this directory by this name, if they show `under` in its place."""
        is_hidden = under is None or name in self.whiteouts or self.hides_all()
        return None if is_hidden or under is None else under.children.get(name)

    def says_nothing(self, under: Node | None) -> bool:
        """Whether it may be left out: it isn't stated, and has nothing in but whiteouts of what isn't there."""
        hides = bool(self.whiteouts) or self.is_opaque
        return not (self.is_stated or self.children or (hides and isinstance(under, Directory)))


class Gap(Enum):
    """What is put right once a layer is whole."""

    UNKNOWN = auto()  # a directory that neither this layer nor those below state
    OVER_OTHER = auto()  # a directory that isn't stated, above a file or a link
    WHITEOUT = auto()  # a whiteout in no directory
    ANEW = auto()  # a directory in place of something else of its layer, above a directory


class LayerTree:
    """Entries by path, which they don't hold themselves. A later entry of a path takes the place of an earlier one.

    A whiteout hides what lower layers have, not what the layer itself has. So beside an entry of the
    same path it says nothing more than that a directory there is opaque.
    """

    def __init__(self, budget: Budget, entries: EntryFile) -> None:
        self.root = _implied()
        self.root.is_root = True
        self._budget = budget
        self._entries = entries
        self._count = 1
        self._way: list[str] = []
        self._last = self.root

    def put(self, names: list[str], entry: Entry, place: int | None = None) -> None:
        """Puts an entry in, which may have a place. A directory in place of another one keeps what is in it."""
        if not names:
            if entry.kind != DIRECTORY:
                raise Unfit("the root is no directory")
            self.root.entry, self.root.is_stated = entry, True
            return
        *way, name = names
        folder = self.folder(way)
        before = folder.children.get(name)
        if isinstance(before, Folder):
            if entry.kind == DIRECTORY:
                before.entry, before.is_stated = entry, True
                return
            self._cut(before)
        elif before is None and name not in folder.whiteouts:
            self._grow()
        self._weigh(name, entry)
        if entry.kind == DIRECTORY:
            folder.children[name] = Folder(entry, is_anew=isinstance(before, int))
        else:
            folder.children[name] = self._entries.put(entry) if place is None else place

    def drop(self, names: list[str]) -> None:
        """Takes what is at a path away, with all below it, and what hides lower layers there."""
        *way, name = names
        folder = self.root
        for each in way:
            found = folder.children.get(each)
            if not isinstance(found, Folder):
                return
            folder = found
        before = folder.children.get(name)
        if isinstance(before, Folder):
            self._drop(folder, name, before)
        elif folder.children.pop(name, None) is not None and name not in folder.whiteouts:
            self._count -= 1

    def put_whiteout(self, names: list[str], whiteout: Entry) -> None:
        """Hides what lower layers have at a path."""
        *way, name = names
        folder = self.folder(way)
        if name not in folder.children and name not in folder.whiteouts:
            self._grow()
        self._weigh(name, whiteout)
        folder.whiteouts[name] = self._entries.put(whiteout)

    def put_opaque(self, names: list[str]) -> None:
        """Hides all that lower layers have below a directory."""
        self.folder(names).is_opaque = True

    def folder(self, names: list[str]) -> Folder:
        """A directory. Those that the archive leaves out are made."""
        if names == self._way:
            return self._last
        folder = self.root
        for depth, name in enumerate(names, 1):
            found = folder.children.get(name)
            if found is None:
                if name not in folder.whiteouts:
                    self._grow()
                self._budget.text.take(sys.getsizeof(name))
                self._budget.unstated.take()
                found = folder.children[name] = _implied()
            elif not isinstance(found, Folder):
                sort = "the symlink" if self._entries.entry(found).kind == SYMLINK else "what is no directory,"
                raise Blocked(f"its path leads through {sort} /{'/'.join(names[:depth])}")
            folder = found
        self._way, self._last = names, folder
        return folder

    def file_at(self, names: list[str], below: Directory | None, with_whiteouts: bool = False) -> int | None:
        """The place of what isn't a directory at a path: of this layer as far as it has come, or of what is below it."""
        here: Folder | None = self.root
        for name in names[:-1]:
            under = here.lower(below, name) if here else below.children.get(name) if below else None
            inner = here.children.get(name) if here else None
            if isinstance(inner, int):
                return None
            here, below = inner, under if isinstance(under, Directory) else None
        name = names[-1]
        found: Folder | Node | None = here.children.get(name) if here else None
        if found is None:
            found = here.lower(below, name) if here else below.children.get(name) if below else None
        if not isinstance(found, int) or (not with_whiteouts and is_whiteout(self._entries.entry(found))):
            return None
        return found

    def settle(self, below: Directory | None, report: Callable[[Gap, str], None]) -> None:
        """Gives directories that the archive leaves out what the layers below show there.

        If these show nothing, whiteouts by themselves make no directory. An opaque root, which overlayfs
        hasn't, becomes whiteouts of what is below.
        """
        self._settle(self.root, below, "", report)
        if self.root.is_opaque:
            self.root.is_opaque = False
            for name in below.children if below else ():
                self.put_whiteout([name], whiteout())

    def _settle(
        self, folder: Folder, below: Directory | None, path: str, report: Callable[[Gap, str], None]
    ) -> None:
        inner = [(name, child) for name, child in folder.children.items() if isinstance(child, Folder)]
        for name, child in inner:
            under = folder.lower(below, name)
            if child.is_anew and isinstance(under, Directory):
                child.is_opaque = True
                report(Gap.ANEW, f"{path}/{name}")
            self._settle(child, under if isinstance(under, Directory) else None, f"{path}/{name}", report)
            if child.says_nothing(under):
                self._drop(folder, name, child)
                for hidden in [*child.whiteouts, *([""] if child.is_opaque else [])]:
                    report(Gap.WHITEOUT, f"{path}/{name}/{hidden}")
            elif not child.is_stated and under is not None and not isinstance(under, Directory):
                report(Gap.OVER_OTHER, f"{path}/{name}")
        if not folder.is_stated:
            if below is not None:
                self._budget.attributes.take(len(below.entry.attributes))
                folder.entry = _shown_directory(below.entry)
            elif folder.children and not folder.is_root:
                report(Gap.UNKNOWN, path or "/")

    def _drop(self, parent: Folder, name: str, folder: Folder) -> None:
        """Takes a directory away with the whiteouts in it."""
        self._cut(folder)
        del parent.children[name]
        if name not in parent.whiteouts:
            self._count -= 1

    def entries(self) -> Iterator[Named]:
        """All entries with their paths, in path order."""
        return self._walk(keeps=True)

    def taken(self) -> Iterator[Named]:
        """The same, which it no longer has once they are given."""
        return self._walk(keeps=False)

    def _walk(self, *, keeps: bool) -> Iterator[Named]:
        yield "/", self.root.entry
        levels = [("", _names_backwards(self.root), self.root)]
        while levels:
            path, names, folder = levels[-1]
            if not names:
                levels.pop()
                continue
            name = names.pop()
            child = folder.children.get(name) if keeps else folder.children.pop(name, None)
            if child is None:
                child = folder.whiteouts[name]
            if isinstance(child, int):
                yield f"{path}/{name}", self._entries.entry(child)
                continue
            if child.is_opaque or name in folder.whiteouts:
                child.entry.attributes = {**child.entry.attributes, OPAQUE: IS_OPAQUE}
            yield f"{path}/{name}", child.entry
            levels.append((f"{path}/{name}", _names_backwards(child), child))

    def _cut(self, folder: Folder) -> None:
        """Counts what is in a directory out."""
        self._count -= _size(folder) - 1
        self._way, self._last = [], self.root

    def _grow(self) -> None:
        self._budget.entries.take()
        self._count += 1
        if self._count > rules.MAX_ENTRIES:
            raise TooMuch(f"the layer has over {rules.MAX_ENTRIES:,} entries")

    def _weigh(self, name: str, entry: Entry) -> None:
        self._budget.text.take(sys.getsizeof(name) + (sys.getsizeof(entry.target) if entry.target else 0))


def whiteout(uid: int = 0, gid: int = 0, mtime_ns: int = 0) -> Entry:
    """A whiteout as the kernel makes it."""
    return Entry("", CHAR, 0, uid, gid, mtime_ns)


def _implied() -> Folder:
    return Folder(Entry("", DIRECTORY, _IMPLIED_MODE), is_stated=False)


def _shown_directory(entry: Entry) -> Entry:
    """A directory as lower layers show it: all but the overlay's marks."""
    attributes = {name: value for name, value in entry.attributes.items() if not name.startswith(OVERLAY)}
    return replace(entry, path="", attributes=attributes or NO_ATTRIBUTES, link=0)


def _names_backwards(folder: Folder) -> list[str]:
    names = folder.children.keys() | folder.whiteouts.keys() if folder.whiteouts else folder.children
    return sorted(names, reverse=True)


def _size(folder: Folder) -> int:
    inner = sum(_size(child) if isinstance(child, Folder) else 1 for child in folder.children.values())
    return 1 + inner + len(folder.whiteouts.keys() - folder.children.keys())
