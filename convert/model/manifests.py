"""The layer manifest: reading both versions of it, and the one text that is written of a layer, of version 2."""

import io
import json
import os
import re
from collections.abc import Iterable, Iterator, Mapping
from dataclasses import dataclass
from typing import Any, BinaryIO, NoReturn, TextIO

from ..common.escaping import quoted
from ..common.faults import cannot_read, reading
from ..common.outputs import write_text
from . import rules
from .entries import BLOCK, CHAR, DIRECTORY, ESCAPED, FILE, NO_ATTRIBUTES, SYMLINK, Entry, Named
from .times import ONE_SECOND

_BASE = frozenset(["path", "kind", "mode", "uid", "gid", "mtime", "xattrs"])
_BLOB = frozenset(["blob"])
_BELOW_SECOND = "mtime-nsec"
_MORE: dict[str, frozenset[str]] = {
    "dir": frozenset(),
    "file": frozenset(["size"]),
    "symlink": frozenset(["target"]),
    "char": frozenset(["major", "minor"]),
    "block": frozenset(["major", "minor"]),
    "fifo": frozenset(),
    "socket": frozenset(),
}
_NUMBERS = (
    ("mode", 0, rules.MAX_MODE), ("uid", 0, rules.MAX_NUMBER), ("gid", 0, rules.MAX_NUMBER),
    ("mtime", rules.MIN_TIME, rules.MAX_TIME),
)
_DEVICE_NUMBERS = (("major", 0, rules.MAX_NUMBER), ("minor", 0, rules.MAX_NUMBER))
_NUMBERS_OF = {
    FILE: (*_NUMBERS, ("size", 0, rules.MAX_SIZE)), CHAR: _NUMBERS + _DEVICE_NUMBERS, BLOCK: _NUMBERS + _DEVICE_NUMBERS,
}
_KINDS = {kind: kind for kind in _MORE}  # so that each text of a kind is held once


@dataclass(frozen=True)
class _Version:
    """What a version of the manifest has: the members of entries by kind, and how many names of a path at most."""

    number: int
    members: Mapping[str, frozenset[str]]  # but for a blob, which a file may have
    names: int

    def tail(self) -> str:
        """What ends its written text, before the newline."""
        return f'],"overlay-layer":{self.number}}}'


_FIRST = _Version(1, {kind: _BASE | more for kind, more in _MORE.items()}, rules.MAX_NAMES_OF_FIRST)
_SECOND = _Version(2, {kind: _BASE | {_BELOW_SECOND} | more for kind, more in _MORE.items()}, rules.MAX_NAMES)
_VERSIONS = {version.number: version for version in (_FIRST, _SECOND)}
_HEAD = '{"entries":['
WRITTEN_HEAD, WRITTEN_TAIL = _HEAD.encode(), _SECOND.tail().encode()  # of a text as it is written
_QUOTED = rb'"[^"\\]*(?:\\.[^"\\]*)*"'
# An entry's text as it is written, with its path: each member once, in its place. The program looks at the values.
WRITTEN_ENTRY = re.compile(
    rb'\{(?:"blob":"[^"\\]*",)?"gid":[-0-9]*,"kind":"[^"\\]*",(?:"major":[-0-9]*,"minor":[-0-9]*,)?"mode":[-0-9]*,'
    rb'"mtime":[-0-9]*,"mtime-nsec":[-0-9]*,"path":(%(text)b),(?:"size":[-0-9]*,)?(?:"target":%(text)b,)?"uid":[-0-9]*,'
    rb'"xattrs":\{(?:%(text)b:"[^"\\]*",?)*\}\}' % {b"text": _QUOTED}
)
_DECODER = json.JSONDecoder()
_PIECE = 1 << 18
_HEXADECIMAL = re.compile(r"(?:[0-9a-f]{2})*\Z")




class _Refused(Exception):
    """A manifest has this fault, in the program's words."""


def read_manifest(path: str) -> list[Entry]:
    """The entries of a manifest's file, refused as the program refuses it."""
    with reading(path), open(path, "rb") as file:
        entries = _compact_entries(file)
        if entries is not None:
            return entries
        file.seek(0)
        data = file.read(rules.MAX_MANIFEST_BYTES + 1)
    if len(data) > rules.MAX_MANIFEST_BYTES:
        raise cannot_read(path, f"it has over {rules.MAX_MANIFEST_BYTES} bytes")
    try:
        return list(parse(data))
    except _Refused as fault:
        raise cannot_read(path, str(fault)) from None


def entries_of(path: str) -> Iterator[Entry]:
    """The same one after the other; of a manifest as it is written here, few of them are held at a time."""
    count = 0
    with reading(path), open(path, "rb") as file:
        try:
            for entry in _within_size(file):
                yield entry
                count += 1
            return
        except (ValueError, RecursionError, _Refused):
            pass
    yield from read_manifest(path)[count:]


def _within_size(file: BinaryIO) -> Iterator[Entry]:
    """The entries of a compact manifest that isn't too long."""
    if os.fstat(file.fileno()).st_size > rules.MAX_MANIFEST_BYTES:
        raise ValueError
    text = io.TextIOWrapper(file, "utf-8", newline="")
    try:
        yield from _compact(text)
    finally:
        text.detach()


def _compact_entries(file: BinaryIO) -> list[Entry] | None:
    """The entries of a manifest as it is written here and by the program, taken piece by piece.

    Nothing for any other text, sound or not: that is read as a whole, which takes more memory.
    """
    try:
        return list(_within_size(file))
    except (ValueError, RecursionError, _Refused):
        return None


def _compact(text: TextIO) -> Iterator[Entry]:
    if text.read(len(_HEAD)) != _HEAD:
        raise ValueError
    sequence: _Sequence | None = None
    held, at, after = "", 0, ","
    while after == ",":
        try:
            value, end = _DECODER.raw_decode(held, at)
            after = held[end]
        except (ValueError, IndexError):
            more = text.read(max(_PIECE, len(held) - at))
            if not more:
                raise ValueError from None
            held, at = held[at:] + more, 0
            continue
        if held.find(":-0", at, end) >= 0:
            raise ValueError  # it may be the number -0, which isn't whole
        if sequence is None:
            # The version is said at the end, and seen of the first entry.
            is_second = isinstance(value, dict) and _BELOW_SECOND in value
            sequence = _Sequence(_SECOND if is_second else _FIRST)
        yield sequence.entry(value)
        at = end + 1
    tail = sequence.version.tail() if sequence is not None else ""
    if after + held[at:] + text.read(len(tail)) not in (tail, tail + "\n"):
        raise ValueError


def parse(data: bytes) -> Iterator[Entry]:
    """The entries that a manifest states."""
    members = _value_of(data)
    if not isinstance(members, dict) or set(members) != {"overlay-layer", "entries"}:
        raise _Refused("wrong shape")
    number, stated = members["overlay-layer"], members["entries"]
    if type(number) is not int or not isinstance(stated, list):
        raise _Refused("wrong shape")
    if number not in _VERSIONS:
        raise _Refused("unknown version")
    if not 1 <= len(stated) <= rules.MAX_ENTRIES:
        raise _Refused("entry count")
    yield from map(_Sequence(_VERSIONS[number]).entry, stated)


def _whole(text: str) -> int | float:
    return -0.0 if text == "-0" else int(text)


def _refuse_constant(text: str) -> NoReturn:
    raise ValueError(text)


def _value_of(data: bytes) -> Any:
    try:
        return json.loads(data.decode(), parse_int=_whole, parse_constant=_refuse_constant)
    except (ValueError, RecursionError):
        raise _Refused("not JSON") from None


class _Sequence:
    """The entries of a layer one after the other, each in its place."""

    def __init__(self, version: _Version) -> None:
        self.version = version
        self._count = 0
        self._before: tuple[bytes, ...] = ()
        self._directories: set[str] = set()

    def entry(self, value: Any) -> Entry:
        """The next entry, of a JSON value."""
        number = self._count
        if number == rules.MAX_ENTRIES:
            raise _Refused("entry count")
        entry = _entry_of(value, number, self.version, self._directories)
        key = rules.path_key(entry.path)
        if number == 0:
            if entry.path != "/" or entry.kind != DIRECTORY:
                raise _Refused("no root directory first")
        elif not self._before < key:
            raise _Refused(f"entry {number}: out of order")
        elif (entry.path.rpartition("/")[0] or "/") not in self._directories:
            raise _Refused(f"entry {number}: no parent directory")
        if entry.kind == DIRECTORY:
            self._directories.add(entry.path)
        self._count, self._before = number + 1, key
        return entry


def _entry_of(value: Any, number: int, version: _Version, directories: set[str]) -> Entry:
    entry = _sound_entry(value, version, directories)
    if entry is None:
        raise _Refused(f"entry {number}: wrong entry")
    if entry.attributes and any(map(rules.attribute_problem, entry.attributes)):
        raise _Refused(f"entry {number}: escaped attribute")
    return entry


def _sound_entry(value: Any, version: _Version, directories: set[str]) -> Entry | None:
    """The entry of a JSON value, or nothing if one of its members isn't as it must be."""
    if not isinstance(value, dict):
        return None
    kind = value.get("kind")
    if not isinstance(kind, str) or kind not in _MORE:
        return None
    if value.keys() - _BLOB != version.members[kind] or not _is_path(value["path"], version, directories):
        return None
    attributes = _attributes_of(value["xattrs"])
    if attributes is None or not _numbers_fit(value, kind):
        return None
    entry = Entry(
        value["path"], _KINDS[kind], value["mode"], value["uid"], value["gid"],
        value["mtime"] * ONE_SECOND + value.get(_BELOW_SECOND, 0), attributes or NO_ATTRIBUTES,
        size=value.get("size", 0),
        blob=value.get("blob"),
        target=value.get("target", ""),
        major=value.get("major", 0),
        minor=value.get("minor", 0),
    )
    if entry.names_contents() != ("blob" in value):
        return None
    if "blob" in value and not (isinstance(entry.blob, str) and rules.DIGEST.match(entry.blob)):
        return None
    if kind == SYMLINK and not (isinstance(entry.target, str) and not rules.target_problem(entry.target)):
        return None
    return entry


def _is_path(text: Any, version: _Version, directories: set[str]) -> bool:
    """Whether a text is a path; of one below a directory that came before, only the last name is looked at."""
    if not isinstance(text, str) or not text.startswith("/"):
        return False
    if text == "/":
        return True
    folder, _, name = text.rpartition("/")
    names = [name] if folder != "/" and folder in directories else text[1:].split("/")
    return not any(map(rules.name_problem, names)) and not rules.path_problem(text, text.count("/"), version.names)


def _attributes_of(value: Any) -> dict[str, bytes] | None:
    if not isinstance(value, dict):
        return None
    attributes: dict[str, bytes] = {}
    for name, digits in value.items():
        if not isinstance(digits, str) or not _HEXADECIMAL.match(digits):
            return None
        problem = rules.attribute_problem(name)
        if problem and not name.startswith(ESCAPED):
            return None
        attributes[name] = bytes.fromhex(digits)
    return attributes


def _numbers_fit(value: dict[str, Any], kind: str) -> bool:
    for name, least, most in _NUMBERS_OF.get(kind, _NUMBERS):
        number = value[name]
        if type(number) is not int or not least <= number <= most:
            return False
    below = value.get(_BELOW_SECOND, 0)
    return type(below) is int and 0 <= below < ONE_SECOND


def written(entries: Iterable[Named]) -> Iterator[str]:
    """The text of a layer, piece by piece: compact JSON, members sorted by name, and a newline."""
    yield _HEAD
    before = ""
    for path, entry in entries:
        yield before + _entry_text(path, entry)
        before = ","
    yield _SECOND.tail() + "\n"


def write_manifest(path: str, entries: Iterable[Named], layer: str) -> None:
    """Writes the manifest of a layer; refuses a layer whose manifest is longer than the program reads."""
    write_text(path, _within_limit(written(entries), layer))


def _within_limit(pieces: Iterable[str], layer: str) -> Iterator[str]:
    size = 0
    for piece in pieces:
        size += len(piece) if piece.isascii() else len(piece.encode())
        if size > rules.MAX_MANIFEST_BYTES:
            raise cannot_read(
                layer, f"its manifest has over {rules.MAX_MANIFEST_BYTES:,} bytes, and ovl_layers reads no more"
            )
        yield piece


def _entry_text(path: str, entry: Entry) -> str:
    seconds, below = divmod(entry.mtime_ns, ONE_SECOND)
    blob = f'"blob":"{entry.blob}",' if entry.blob is not None else ""
    device = f'"major":{entry.major},"minor":{entry.minor},' if entry.kind in (CHAR, BLOCK) else ""
    size = f'"size":{entry.size},' if entry.kind == FILE else ""
    target = f'"target":{quoted(entry.target)},' if entry.kind == SYMLINK else ""
    return (
        f'{{{blob}"gid":{entry.gid},"kind":"{entry.kind}",{device}"mode":{entry.mode},'
        f'"mtime":{seconds},"mtime-nsec":{below},"path":{quoted(path)},{size}{target}'
        f'"uid":{entry.uid},"xattrs":{_attributes_text(entry) if entry.attributes else "{}"}}}'
    )


def _attributes_text(entry: Entry) -> str:
    parts = (
        f'{quoted(name)}:"{entry.attributes[name].hex()}"'
        for name in sorted(entry.attributes)
    )
    return "{" + ",".join(parts) + "}"


def has_attribute(path: str, names: Iterable[str]) -> bool:
    """Whether an entry has one of these attributes, in a manifest of the same text."""
    texts = [f'"{name}":'.encode() for name in names]
    overlap, before = max(map(len, texts)) - 1, b""
    with reading(path), open(path, "rb") as file:
        while piece := file.read(_PIECE):
            if any(text in before + piece for text in texts):
                return True
            before = piece[-overlap:]
    return False
