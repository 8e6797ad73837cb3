"""Which user and groups an image's configuration means, by the files of the tree, as docker reads them."""

import re
from collections.abc import Iterator, Sequence
from dataclasses import dataclass

from .findings import Finding, Level

PASSWD = "/etc/passwd"
GROUP = "/etc/group"
_MOST = (1 << 31) - 1  # the greatest number of a user or a group that engines take
_NUMBER = re.compile(r"[+-]?\d{1,19}", re.ASCII)


@dataclass(frozen=True)
class User:
    """Who runs a container."""

    uid: int = 0
    gid: int = 0
    groups: frozenset[int] = frozenset()

    @property
    def all_groups(self) -> frozenset[int]:
        """Its own group and the others."""
        return self.groups | {self.gid}


@dataclass(frozen=True)
class _Line:
    """A line of one of the two files: a name, a number, and the fields after it."""

    name: str
    number: int
    rest: Sequence[str]


class Unknown(Exception):
    """The tree doesn't know a user or a group."""

    def __init__(self, finding: Finding) -> None:
        super().__init__(finding.words)
        self.finding = finding


def user_of(text: str, passwd: str, group: str) -> tuple[User, list[Finding]]:
    """The user that `USER[:GROUP]` means, by the texts of the two files, and what is to be said of it."""
    name, _, group_name = text.partition(":")
    number = _number(name) if name else 0
    line = next((it for it in _lines(passwd) if (it.name == name if number is None else it.number == number)), None)
    if line is None and (number is None or not 0 <= number <= _MOST):
        raise Unknown(_fault("user-unknown", f"it has no user {name}, and the image runs as that one", PASSWD))
    uid, gid, groups, notes = number or 0, 0, frozenset[int](), list[Finding]()
    if line is not None:
        uid, gid = line.number, (_number(line.rest[0]) if line.rest else None) or 0
        groups = frozenset() if group_name else _groups(line.name, group)
    elif name:
        words = f"it has no user {uid}, so the image runs without a home, with group {group_name or 0}"
        notes.append(Finding(Level.NOTE, "user-unnamed", words, PASSWD))
    return User(uid, _group(group_name, group) if group_name else gid, groups), notes


def _group(name: str, text: str) -> int:
    """The number of a group."""
    number = _number(name)
    if number is None:
        line = next((it for it in _lines(text) if it.name == name), None)
        number = line.number if line else None
    if number is None or not 0 <= number <= _MOST:
        raise Unknown(_fault("group-unknown", f"it has no group {name}, and the image runs with that one", GROUP))
    return number


def _groups(name: str, text: str) -> frozenset[int]:
    """The groups that list a user."""
    return frozenset(it.number for it in _lines(text) if it.rest and name in it.rest[0].split(","))


def _lines(text: str) -> Iterator[_Line]:
    """The lines that have a name and a number."""
    for line in text.splitlines():
        fields = line.strip().split(":")
        number = _number(fields[2]) if len(fields) > 2 else None
        if number is not None:
            yield _Line(fields[0], number, fields[3:])


def _number(text: str) -> int | None:
    return int(text) if _NUMBER.fullmatch(text) else None


def _fault(code: str, words: str, path: str) -> Finding:
    return Finding(Level.FAULT, code, words, path)
