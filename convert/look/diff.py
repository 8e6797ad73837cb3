"""`diff`: what differs between what two sources show."""

import json
import os
import tempfile
from collections import Counter
from collections.abc import Callable, Iterable, Iterator
from dataclasses import dataclass
from typing import Any

from ..common.colours import Colour, painted
from ..common.escaping import printable
from ..common.faults import FAULTY, Fault, writing
from ..common.outputs import passing_folder
from ..common.progress import counted, note
from ..model.entries import FILE
from ..model.show_report import ShowLine, read_report
from .changes import ASPECTS, KIND, Change, ConfigurationChange, changes, configuration_changes
from .sources import Shown, Source, is_tree, require_one_pipe, shown_by, shown_tree
from .texts import attributes_of, decoded, name_text, object_of, time_text

_VERSION = 1
_ADDED, _REMOVED, _CHANGED = "+", "-", "M"
_COLOURS = {_ADDED: Colour.GREEN, _REMOVED: Colour.RED, _CHANGED: Colour.YELLOW}
_CONFIGURATION = "configuration"


class Different(Fault):
    """The two differ."""

    status = FAULTY


@dataclass(frozen=True, kw_only=True)
class DiffOptions:
    """What the words of `diff` say."""

    old: Source
    new: Source
    ignored: frozenset[str] = frozenset()
    with_configuration: bool = True
    as_json: bool = False
    only_sums: bool = False


def diff(options: DiffOptions, print_lines: Callable[[Iterable[str]], None]) -> None:
    """Prints what differs; fails if anything does."""
    require_one_pipe([options.old.word, options.new.word])
    sums = _Sums()
    with passing_folder(tempfile.gettempdir()) as folder:
        old, new = (_read(source, f"{folder}/{side}") for side, source in enumerate((options.old, options.new)))
        found = sums.passing(_all_changes(options, old, new))
        if options.only_sums:
            for _ in found:
                pass
            print_lines(sums.lines(options.as_json))
        elif options.as_json:
            print_lines(_json_lines(found, sums))
        else:
            print_lines(map(_line, found))
    if sums.marks.total():
        raise Different(f"{options.old.name} and {options.new.name} differ: {sums.text()}")


def _read(source: Source, folder: str) -> Shown:
    with writing(folder):
        os.mkdir(folder)
    is_mounted = source.stack is None and is_tree(source.word)
    return shown_tree(source.word, folder) if is_mounted else shown_by(source, folder)


_Any = Change | ConfigurationChange


def _all_changes(options: DiffOptions, old: Shown, new: Shown) -> Iterator[_Any]:
    if options.with_configuration:
        yield from _of_configurations(options, old, new)
    yield from changes(read_report(old.report), read_report(new.report), options.ignored)


def _of_configurations(options: DiffOptions, old: Shown, new: Shown) -> Iterator[_Any]:
    if old.configuration is not None and new.configuration is not None:
        yield from configuration_changes(old.configuration, new.configuration)
    elif old.configuration is not None or new.configuration is not None:
        without = options.old if old.configuration is None else options.new
        note(f"{without.name} has no configuration, so it isn't compared")


def _mark(change: _Any) -> str:
    if change.old is None:
        return _ADDED
    return _REMOVED if change.new is None else _CHANGED


class _Sums:
    """How much differs, counted as it passes by."""

    def __init__(self) -> None:
        self.marks: Counter[str] = Counter()
        self._aspects: Counter[str] = Counter()

    def passing(self, found: Iterable[_Any]) -> Iterator[_Any]:
        """Counts the changes."""
        for change in found:
            if isinstance(change, Change):
                self.marks[_mark(change)] += 1
                self._aspects.update(change.aspects)
            else:
                self.marks[_CONFIGURATION] += 1
            yield change

    def text(self) -> str:
        """The numbers in a line."""
        words = [("added", _ADDED), ("removed", _REMOVED), ("changed", _CHANGED)]
        numbers = [f"{self.marks[mark]:,} {word}" for word, mark in words if self.marks[mark]]
        members = self.marks[_CONFIGURATION]
        return ", ".join([*numbers, *[counted(members, "member", "members") + " of the configuration"] * bool(members)])

    def lines(self, as_json: bool) -> Iterator[str]:
        """The numbers, one to a line or as an object."""
        sums = self.object()
        if as_json:
            yield _json(sums)
        else:
            yield from (f"{name} {number}\n" for name, number in sums.items())

    def object(self) -> dict[str, int]:
        """The numbers for a program: of paths, of members, and of the changed paths in each aspect."""
        return {
            "added": self.marks[_ADDED], "removed": self.marks[_REMOVED], "changed": self.marks[_CHANGED],
            _CONFIGURATION: self.marks[_CONFIGURATION],
            **{aspect: self._aspects[aspect] for aspect in (KIND, *ASPECTS)},
        }


def _json(value: Any) -> str:
    return json.dumps(value) + "\n"


def _json_lines(found: Iterable[_Any], sums: _Sums) -> Iterator[str]:
    yield _json({"layers-diff": _VERSION})
    for change in found:
        yield _json(_object(change))
    yield _json(sums.object())


def _object(change: _Any) -> dict[str, Any]:
    if isinstance(change, ConfigurationChange):
        return {"change": _mark(change), "member": change.member, "old": change.old, "new": change.new}
    sides = {name: object_of(line) for name, line in (("old", change.old), ("new", change.new)) if line is not None}
    aspects = {"aspects": change.aspects} if change.aspects else {}
    return {"change": _mark(change), "path": decoded(change.path), **aspects, **sides}


def _line(change: _Any) -> str:
    mark = painted(_mark(change), _COLOURS[_mark(change)])
    if isinstance(change, ConfigurationChange):
        sides = [json.dumps(side) for side in (change.old, change.new) if side is not None]
        return f"{mark} {_CONFIGURATION}: {printable('.'.join(change.member))} {' -> '.join(sides)}\n"
    if change.old is None or change.new is None:
        return f"{mark} {name_text(change.path)}\n"
    differences = ", ".join(_difference(aspect, change.old, change.new) for aspect in change.aspects)
    return f"{mark} {name_text(change.path)}: {differences}\n"


def _difference(aspect: str, old: ShowLine, new: ShowLine) -> str:
    """What differs in an aspect."""
    if aspect == "attributes":
        before, after = attributes_of(old), attributes_of(new)
        names = [name for name in sorted({*before, *after}) if before.get(name) != after.get(name)]
        return " ".join([aspect, *map(name_text, names)])
    sides = [_side(aspect, line) for line in (old, new)]
    return f"{aspect} {' -> '.join(sides)}" if sides[0] != sides[1] else aspect


def _side(aspect: str, line: ShowLine) -> str:
    """What one of the two has."""
    if aspect == KIND:
        return line.kind
    if aspect == "contents":
        return f"{line.size} bytes" if line.kind == FILE else ""
    if aspect == "owner":
        return f"{line.uid}:{line.gid}"
    if aspect == "mtime":
        return time_text(line.mtime, True)
    return name_text(line.mode if aspect == "mode" else line.what)
