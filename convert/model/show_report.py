"""The report of `show`: a line for each path, and at its end how many there are."""

import os
from collections.abc import Collection, Iterable, Iterator
from typing import IO, NamedTuple

from ..common.contents import PIECE
from ..common.escaping import escaped
from ..common.faults import Fault, reading
from ..common.program import NAME

NONE = "-"
MISSING = "missing"  # in place of the digest of contents that no layer has
_COUNT = "entries "
_MOST_LAST = 64  # bytes of the last line, and more
_FIELDS = 8  # that each line has; attributes follow


class ShowLine(NamedTuple):
    """A line of the report, its fields as they are written there."""

    kind: str
    mode: str
    uid: str
    gid: str
    mtime: str
    size: str  # of a file
    what: str  # the digest of a file's contents, a symlink's target, a device's numbers
    path: str
    attributes: str = ""  # NAME=HEX, with spaces between them

    def text(self) -> str:
        """The line, with its end."""
        return " ".join(self if self.attributes else self[:_FIELDS]) + "\n"


def escaped_path(path: str) -> str:
    """A path, or a target, as reports have it."""
    return escaped(os.fsencode(path))


def last_line(count: int) -> str:
    """What ends a report of this many lines."""
    return f"{_COUNT}{count}\n"


def report_of(lines: Iterable[ShowLine]) -> Iterator[str]:
    """The text of the report of these lines."""
    count = 0
    for line in lines:
        yield line.text()
        count += 1
    yield last_line(count)


def read_report(path: str) -> Iterator[ShowLine]:
    """The lines of a report in a file, which must be whole."""
    count = 0
    with reading(path), open(path, encoding="ascii", errors="replace", newline="\n") as file:
        for text in file:
            if text.startswith(_COUNT):
                if text != last_line(count) or file.read(1):
                    raise _broken(f"after {count} lines comes {text!r}")
                return
            yield line_of(text)
            count += 1
    raise _broken("its last line is missing")


def append_lines(report: str, way: Collection[str], out: IO[bytes]) -> int:
    """Appends the lines of a report, but for the first ones, if they are of these paths. Gives how many it appends."""
    with reading(report), open(report, "rb") as file:
        count, end = _count_of(file)
        file.seek(0)
        begin, text = 0, file.readline().decode("ascii", "replace")
        while begin < end and line_of(text).path in way:
            count, begin, text = count - 1, file.tell(), file.readline().decode("ascii", "replace")
        for place in range(begin, end, PIECE):
            file.seek(place)
            out.write(file.read(min(PIECE, end - place)))
    return count


def _count_of(file: IO[bytes]) -> tuple[int, int]:
    """How many lines a report says that it has, and where it says so."""
    file.seek(max(0, os.fstat(file.fileno()).st_size - _MOST_LAST))
    last = file.read().splitlines(keepends=True)[-1:]
    text = b"".join(last).decode("ascii", "replace")
    number = text.removeprefix(_COUNT).removesuffix("\n")
    if text != f"{_COUNT}{number}\n" or not number.isdecimal():
        raise _broken(f"its last line is {text!r}")
    return int(number), file.tell() - len(text)


def _broken(reason: str) -> Fault:
    return Fault(f"{NAME} show gave no whole report: {reason}; please report this")


def line_of(text: str) -> ShowLine:
    """A line as the report has it, with its end."""
    fields = text.removesuffix("\n").split(" ", _FIELDS)
    if len(fields) < _FIELDS:
        raise _broken(f"there is a line {text!r}")
    return ShowLine(*fields)
