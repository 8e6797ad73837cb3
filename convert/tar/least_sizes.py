"""How large an archive becomes at least, known before it is written."""

from collections.abc import Iterable

from ..model.entries import FILE, Entry
from ..model.links import FirstNames
from ..model.show_report import read_report
from ..model.times import ONE_SECOND
from .headers import BLOCK_BYTES


def least_archive(entries: Iterable[Entry]) -> int:
    """How many bytes the plain archive of a layer has at least."""
    size, firsts = 2 * BLOCK_BYTES, FirstNames()
    for entry in entries:
        has_records = bool(entry.attributes) or entry.mtime_ns % ONE_SECOND != 0
        size += (3 if has_records else 1) * BLOCK_BYTES
        if firsts.before(entry) is None and entry.names_contents():
            size += entry.size + -entry.size % BLOCK_BYTES
    return size


def least_shown(report: str) -> int:
    """How many bytes a plain archive has at least of what a report of `show` lists."""
    sizes: dict[str, int] = {}
    count = 1  # what an archive ends with
    for line in read_report(report):
        count += 1
        if line.kind == FILE:
            sizes[line.what] = int(line.size)
    return count * BLOCK_BYTES + sum(sizes.values())
