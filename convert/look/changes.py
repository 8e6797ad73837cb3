"""What differs between two show reports, side by side in path order, and between two configurations."""

from collections.abc import Callable, Iterable, Iterator, Mapping
from dataclasses import dataclass
from typing import Any

from ..common.escaping import unescaped
from ..model.entries import BLOCK, CHAR, FILE, SYMLINK
from ..model.show_report import ShowLine

KIND = "kind"
_VALUE_OF: Mapping[str, Callable[[ShowLine], object]] = {
    "contents": lambda line: (line.size, line.what) if line.kind == FILE else None,
    "mode": lambda line: line.mode,
    "owner": lambda line: (line.uid, line.gid),
    "mtime": lambda line: line.mtime,
    "attributes": lambda line: line.attributes,
    "link": lambda line: line.what if line.kind == SYMLINK else None,
    "device": lambda line: line.what if line.kind in (CHAR, BLOCK) else None,
}
ASPECTS = tuple(_VALUE_OF)
_OF_A_KIND = frozenset(["contents", "link", "device"])  # between two kinds these aren't compared
_OF_LAYERS = ("rootfs", "history", "created")  # members of a configuration that say how the layers were made
Member = tuple[str, ...]


@dataclass(frozen=True)
class Change:
    """A path that only one of two trees shows, or that they show differently."""

    path: str  # as reports have it
    old: ShowLine | None
    new: ShowLine | None
    aspects: tuple[str, ...] = ()


@dataclass(frozen=True)
class ConfigurationChange:
    """A member of the configuration that only one has, or that differs; none where it is absent."""

    member: Member
    old: Any
    new: Any


def changes(old: Iterable[ShowLine], new: Iterable[ShowLine], ignored: frozenset[str]) -> Iterator[Change]:
    """What differs between two trees. One line of each is held."""
    left, right = iter(old), iter(new)
    before, after = next(left, None), next(right, None)
    while before is not None or after is not None:
        order = _order(before, after)
        if before is not None and order < 0:
            yield Change(before.path, before, None)
        elif after is not None and order > 0:
            yield Change(after.path, None, after)
        elif before is not None and after is not None:
            aspects = _aspects(before, after, ignored)
            if aspects:
                yield Change(before.path, before, after, aspects)
        before = next(left, None) if order <= 0 else before
        after = next(right, None) if order >= 0 else after


def _order(old: ShowLine | None, new: ShowLine | None) -> int:
    """Below 0 if the old line comes first, above 0 if the new one does."""
    if old is None or new is None:
        return 1 if old is None else -1
    if old.path == new.path:
        return 0
    return -1 if _key(old.path) < _key(new.path) else 1


def _key(path: str) -> list[bytes]:
    return unescaped(path).split(b"/")


def _aspects(old: ShowLine, new: ShowLine, ignored: frozenset[str]) -> tuple[str, ...]:
    if old == new:
        return ()
    is_kind = old.kind == new.kind
    found = tuple(
        aspect for aspect, value_of in _VALUE_OF.items()
        if aspect not in ignored and (is_kind or aspect not in _OF_A_KIND) and value_of(old) != value_of(new)
    )
    return found if is_kind else (KIND, *found)


def configuration_changes(old: Mapping[str, Any], new: Mapping[str, Any]) -> Iterator[ConfigurationChange]:
    """What differs between two configurations, but for what says how their layers were made."""
    before, after = dict(_members(old, ())), dict(_members(new, ()))
    for member in sorted({*before, *after}):
        one, other = before.get(member), after.get(member)
        if one != other and member[0] not in _OF_LAYERS:
            yield ConfigurationChange(member, one, other)


def _members(value: Mapping[str, Any], way: Member) -> Iterator[tuple[Member, Any]]:
    """The members of an object, and of objects in it; null is as good as absent."""
    for name, inner in value.items():
        if isinstance(inner, dict) and inner:
            yield from _members(inner, (*way, name))
        elif inner is not None:
            yield (*way, name), inner
