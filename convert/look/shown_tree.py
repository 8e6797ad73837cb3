"""Paths of a tree that a show report lists, found without reading it all, and links followed inside of the tree."""

import contextlib
import mmap
import os
from collections import deque
from collections.abc import Iterator
from dataclasses import dataclass, field

from ..common.escaping import unescaped
from ..common.faults import reading
from ..model.entries import DIRECTORY, SYMLINK
from ..model.show_report import ShowLine, escaped_path, line_of
from .texts import decoded

ROOT = "/"
_MOST_LINKS = 40  # on one way, as the kernel follows them


class NoWay(Exception):
    """A path leads to nothing in the tree, from here on."""

    def __init__(self, path: str, reason: str, is_absent: bool = False) -> None:
        super().__init__(f"{path} {reason}")
        self.path = path
        self.is_absent = is_absent


@dataclass
class Found:
    """What a path leads to: its place, its line, and the lines of the directories on the way."""

    path: str
    line: ShowLine
    way: list[ShowLine] = field(default_factory=list)


@contextlib.contextmanager
def opened_tree(report: str) -> Iterator["ShownTree"]:
    """The tree of a whole report in a file."""
    with reading(report), open(report, "rb") as file, mmap.mmap(file.fileno(), 0, access=mmap.ACCESS_READ) as text:
        yield ShownTree(text)


class ShownTree:
    """Lines in path order, of which some are looked at."""

    def __init__(self, text: mmap.mmap) -> None:
        self._text = text
        self._end = text.rfind(b"\n", 0, len(text) - 1) + 1  # where the line with their number begins

    def at(self, path: str) -> ShowLine | None:
        """The line of a path, links not followed, if the tree has it."""
        wanted, key = escaped_path(path), os.fsencode(path).split(b"/")
        low, high = 0, self._end
        while low < high:
            middle = (low + high) // 2
            begin = max(low, self._text.rfind(b"\n", low, middle) + 1)
            end = self._text.find(b"\n", middle) + 1
            line = line_of(self._text[begin:end].decode("ascii"))
            if line.path == wanted:
                return line
            if unescaped(line.path).split(b"/") < key:
                low = end
            else:
                high = begin
        return None

    def followed(self, path: str, folder: str = ROOT, follows_last: bool = True) -> Found:
        """What a path leads to, counted from a folder if it is relative; no link leads out of the tree.

        A link at the end of the path itself may be what it leads to.
        """
        names, links = deque(f"{folder}/{path}".split("/") if not path.startswith("/") else path.split("/")), 0
        found = self._root()
        while names:
            name = names.popleft()
            if found.line.kind != DIRECTORY:
                raise NoWay(found.path, "is no directory")
            if name == "..":
                found = self._above(found)
            elif name not in ("", "."):
                inner = self._inner(found, name)
                if inner.line.kind != SYMLINK or not (names or follows_last):
                    found = inner
                    continue
                links += 1
                if links > _MOST_LINKS:
                    raise NoWay(inner.path, "is reached by too many links")
                target = decoded(inner.line.what)
                names.extendleft(reversed(target.split("/")))
                found = self._root() if target.startswith("/") else found
        return found

    def _root(self) -> Found:
        line = self.at(ROOT)
        if line is None:
            raise NoWay(ROOT, "isn't there", True)
        return Found(ROOT, line)

    def _above(self, found: Found) -> Found:
        path = os.path.dirname(found.path)
        return Found(path, found.way[-1], found.way[:-1]) if found.way else found

    def _inner(self, found: Found, name: str) -> Found:
        path = f"{found.path.rstrip('/')}/{name}"
        line = self.at(path)
        if line is None:
            raise NoWay(path, "isn't there", True)
        return Found(path, line, [*found.way, found.line])
