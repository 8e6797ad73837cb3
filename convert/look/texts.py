"""How lines of the show report are written for a person, and for a program."""

import json
import time
from collections.abc import Iterable, Iterator
from typing import Any

from ..common.escaping import printable, unescaped
from ..model import times
from ..model.entries import BLOCK, CHAR, FILE, SYMLINK
from ..model.show_report import NONE, ShowLine

_VERSION = 1


def name_text(text: str) -> str:
    """A path or a target of the report, for a person."""
    return printable(decoded(text))


def decoded(text: str) -> str:
    """A path, a target or a name of the report as it is; bytes that aren't UTF-8 are surrogates."""
    return unescaped(text).decode("utf-8", "surrogateescape")


def time_text(text: str, is_full: bool) -> str:
    """A time of the report as local time in ISO form, to the minute or to the nanosecond."""
    time_ns = times.of_shown(text)
    seconds, over = divmod(time_ns, times.ONE_SECOND)
    try:
        local = time.localtime(seconds)
        if not is_full:
            return time.strftime("%Y-%m-%d %H:%M", local)
        return f"{time.strftime('%Y-%m-%d %H:%M:%S', local)}.{over:09} {time.strftime('%z', local)}"
    except (OverflowError, ValueError, OSError):
        return f"@{times.to_decimal(time_ns)}"  # no calendar has it


def json_report(lines: Iterable[ShowLine]) -> Iterator[str]:
    """A show report for a program: a line with the version of this form, and an object for each path."""
    yield json.dumps({"layers-mounted": _VERSION}) + "\n"
    for line in lines:
        yield json.dumps({"path": decoded(line.path), **object_of(line)}) + "\n"


def attributes_of(line: ShowLine) -> dict[str, str]:
    """The attributes of a line, in hexadecimal digits."""
    pairs = (pair.rpartition("=") for pair in line.attributes.split(" ") if pair)
    return {name: value for name, _, value in pairs}


def object_of(line: ShowLine) -> dict[str, Any]:
    """A line for a program, without its path. Times are in seconds, as decimal fractions."""
    members: dict[str, Any] = {
        "kind": line.kind, "mode": line.mode, "uid": int(line.uid), "gid": int(line.gid),
        "mtime": times.to_decimal(times.of_shown(line.mtime)),
    }
    if line.kind == FILE:
        members.update({"size": int(line.size) if line.size != NONE else None, "sha256": line.what})
    if line.kind == SYMLINK:
        members["target"] = decoded(line.what)
    if line.kind in (CHAR, BLOCK):
        members["device"] = line.what
    attributes = {decoded(name): value for name, value in attributes_of(line).items()}
    return {**members, "attributes": attributes} if attributes else members
