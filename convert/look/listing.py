"""`ls`: what a source shows, or a layer of it has, or is shipped and not shown."""

import json
import stat
import tempfile
from collections.abc import Callable, Iterable, Iterator
from dataclasses import dataclass
from typing import IO, Any

from ..common.amounts import size_text
from ..common.colours import Colour, painted
from ..common.escaping import printable
from ..common.faults import ReadFault, UsageFault, reading, writing
from ..common.outputs import passing_folder
from ..model.entries import (
    BLOCK, CHAR, DIRECTORY, FIFO, FILE, METACOPY, REDIRECT, SOCKET, SYMLINK, Entry, is_opaque, is_whiteout,
)
from ..model.manifests import entries_of
from ..model.show_report import NONE, ShowLine, escaped_path
from ..sizes.history import short_command, steps_of
from .paths import find, is_below
from .places import Layers, Place, line_of
from .sources import Shown, Source, shown_by
from .texts import decoded, name_text, object_of, time_text

_VERSION = 1
_WHITEOUT = "whiteout"
_MODES = {
    "dir": stat.S_IFDIR, "file": stat.S_IFREG, "symlink": stat.S_IFLNK, "char": stat.S_IFCHR, "block": stat.S_IFBLK,
    "fifo": stat.S_IFIFO, "socket": stat.S_IFSOCK,
}
_COLOURS = {
    DIRECTORY: Colour.BLUE, SYMLINK: Colour.CYAN, CHAR: Colour.YELLOW, BLOCK: Colour.YELLOW, FIFO: Colour.YELLOW,
    SOCKET: Colour.MAGENTA,
}
_EXECUTABLE = 0o111
_OWNER_WIDTH, _SIZE_WIDTH, _EXACT_WIDTH, _MOST_OF_MAKING = 5, 5, 12, 40
_CUT = ".."


@dataclass(frozen=True, kw_only=True)
class ListOptions:
    """What the words of `ls` say."""

    source: Source
    path: str = "/"
    layer: int | None = None
    only_removed: bool = False
    is_recursive: bool = True
    full_time: bool = False
    with_making: bool = False
    exact: bool = False
    as_json: bool = False


@dataclass(frozen=True)
class _Row:
    """A line with its layer, and what its marks mean."""

    place: Place
    marks: str = ""
    is_whiteout: bool = False


def list_entries(options: ListOptions, print_lines: Callable[[Iterable[str]], None]) -> None:
    """Prints them, once all are known to be what the proved program shows."""
    if options.layer is not None and options.only_removed:
        raise UsageFault("--layer says what a layer has, --removed what isn't shown: give one of them")
    with passing_folder(tempfile.gettempdir()) as folder:
        shown = shown_by(options.source, folder)
        lister = _Lister(options, shown)
        with writing(tempfile.gettempdir()):
            file = tempfile.TemporaryFile("w+", dir=folder, encoding="utf-8", errors="surrogateescape", newline="\n")
        with file:
            _write(file, lister.lines())
            print_lines(_read(file))


def _write(file: IO[str], lines: Iterable[str]) -> None:
    with writing(tempfile.gettempdir()):
        file.writelines(lines)
        file.seek(0)


def _read(file: IO[str]) -> Iterator[str]:
    with reading(tempfile.gettempdir()):
        yield from file


class _Lister:
    """The lines of a listing."""

    def __init__(self, options: ListOptions, shown: Shown) -> None:
        self._options = options
        self._shown = shown
        self._making = _making(options.source, shown)
        self._root = self._find_root()
        self._layer_width = len(str(len(shown.layers) - 1))
        texts = [self._short(text) for text in self._making]
        self._making_texts = [text.ljust(max(map(len, texts))) for text in texts]

    def _short(self, made_by: str | None) -> str:
        text = made_by or NONE
        text = printable(text if self._options.source.stack else short_command(text))
        return text if len(text) <= _MOST_OF_MAKING else text[:_MOST_OF_MAKING - len(_CUT)].rstrip() + _CUT

    def _find_root(self) -> str:
        """The path, as reports have it, that is listed with what is below it."""
        options = self._options
        if options.layer is not None or options.only_removed:
            path = "/" + "/".join(name for name in options.path.split("/") if name not in ("", "."))
            return escaped_path(path)
        return find(self._shown.report, options.path, options.source.name, options.path.endswith("/")).path

    def lines(self) -> Iterator[str]:
        """All of them; fails if there is none."""
        count = 0
        if self._options.as_json:
            yield _json({"layers-ls": _VERSION})
        for row in self._rows():
            if self._is_listed(row.place.line.path):
                yield _json(self._object(row)) if self._options.as_json else self._line(row)
                count += 1
        if not count and self._root != "/":
            what = "a layer that isn't shown" if self._options.only_removed else f"layer {self._options.layer}"
            raise ReadFault(f"{self._options.source.name}: there is nothing of {what} at {decoded(self._root)}")
        if self._options.as_json:
            yield _json({"entries": count})

    def _is_listed(self, path: str) -> bool:
        if not is_below(path, self._root):
            return False
        return self._options.is_recursive or "/" not in path[len(self._root):].lstrip("/")

    def _rows(self) -> Iterator[_Row]:
        layers = Layers(self._shown.layers, self._shown.data_layers, self._shown.report)
        if self._options.layer is not None:
            return self._rows_of_layer(self._options.layer)
        return map(_Row, layers.not_shown() if self._options.only_removed else layers.shown())

    def _rows_of_layer(self, number: int) -> Iterator[_Row]:
        count = len(self._shown.layers)
        if number >= count:
            raise UsageFault(f"--layer is {number}, and there are {count} layers; 0 is the topmost")
        for entry in entries_of(self._shown.layers[number]):
            yield _Row(Place(line_of(entry), number), _marks_of(entry), is_whiteout(entry))

    def _line(self, row: _Row) -> str:
        """The line for a person."""
        line, options = row.place.line, self._options
        if row.is_whiteout:
            return f"{painted('-', Colour.RED)} {name_text(line.path)}\n"
        fields = [
            stat.filemode(_MODES[line.kind] | int(line.mode, 8)), line.uid.rjust(_OWNER_WIDTH), line.gid.rjust(_OWNER_WIDTH),
            self._size(line).rjust(_EXACT_WIDTH if options.exact else _SIZE_WIDTH), time_text(line.mtime, options.full_time),
            self._layer(row.place), painted(name_text(line.path), _colour_of(line)),
        ]
        target = f" -> {name_text(line.what)}" if line.kind == SYMLINK else ""
        return f"{' '.join(fields)}{target}{row.marks}{self._hider(row.place)}\n"

    def _hider(self, place: Place) -> str:
        """With which layer it went."""
        if place.hidden_by is None:
            return ""
        making = f" {self._making_texts[place.hidden_by].rstrip()}" if self._options.with_making else ""
        done = painted("replaced", Colour.YELLOW) if place.is_replaced else painted("removed", Colour.RED)
        return f" ({done} by {place.hidden_by}{making})"

    def _size(self, line: ShowLine) -> str:
        """What `ls` has in the place of the size."""
        if line.kind == FILE:
            return NONE if line.size == NONE else size_text(int(line.size), self._options.exact)
        if line.kind == SYMLINK:
            return str(len(decoded(line.what).encode("utf-8", "surrogateescape")))
        return line.what.replace(":", ", ") if line.kind in (CHAR, BLOCK) else NONE

    def _layer(self, place: Place) -> str:
        """The layer, and after a colon that of a metacopy file's contents."""
        contents = "" if place.contents_layer is None else f":{place.contents_layer}"
        text = f"{place.layer}{contents}".rjust(self._layer_width)
        return f"{text} {self._making_texts[place.layer]}" if self._options.with_making else text

    def _object(self, row: _Row) -> dict[str, Any]:
        """The line for a program."""
        line, place = row.place.line, row.place
        members: dict[str, Any] = {"path": decoded(line.path), "layer": place.layer}
        if place.contents_layer is not None:
            members["contents-layer"] = place.contents_layer
        if place.hidden_by is not None:
            members["replaced-by" if place.is_replaced else "removed-by"] = place.hidden_by
        if self._options.with_making:
            members["made-by"] = self._making[place.layer]
        members |= object_of(line)
        return members | {"kind": _WHITEOUT} if row.is_whiteout else members


def _json(value: Any) -> str:
    return json.dumps(value) + "\n"


def _making(source: Source, shown: Shown) -> list[str | None]:
    """What made each layer: a step of the image's history, or the word that names it."""
    count = len(shown.layers)
    if source.stack is not None:
        return list(source.stack.layers)
    steps = steps_of(shown.configuration or {}, count)[::-1]
    return [step.made_by if step else None for step in steps]


def _colour_of(line: ShowLine) -> Colour | None:
    """The colour of a name, by what it names, as `ls` has them."""
    is_executable = line.kind == FILE and int(line.mode, 8) & _EXECUTABLE
    return Colour.GREEN if is_executable else _COLOURS.get(line.kind)


def _marks_of(entry: Entry) -> str:
    """What an entry's marks mean, for a person."""
    if is_opaque(entry):
        return " (opaque)"
    redirect = entry.attributes.get(REDIRECT)
    moved = "" if redirect is None else f" (moved from {printable(redirect.decode('utf-8', 'surrogateescape'))})"
    if entry.kind == DIRECTORY:
        return moved
    return f" (without contents){moved}" if entry.kind == FILE and METACOPY in entry.attributes else ""
