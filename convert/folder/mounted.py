"""`mounted`: the show report of a tree that a kernel shows."""

import os
import stat
from collections.abc import Iterator

from ..common.contents import digest_and_size
from ..common.escaping import escaped
from ..common.faults import cannot_read, reading, reason_of
from ..common.open_dirs import READ, open_root
from ..common.progress import Progress, note
from ..model import times
from ..model.attributes import can_read_trusted, read_attributes
from ..model.entries import BLOCK, CHAR, FILE, OVERLAY, SYMLINK
from ..model.show_report import NONE, ShowLine, escaped_path, report_of
from .walks import Found, walk


def report(folder: str, cross_file_systems: bool) -> Iterator[str]:
    """The text of the show report for a folder, such as a mounted overlay."""
    return report_of(mounted_lines(folder, cross_file_systems))


def mounted_lines(folder: str, cross_file_systems: bool) -> Iterator[ShowLine]:
    """The lines of that report."""
    if not can_read_trusted():
        note("trusted.* attributes can't be read without CAP_SYS_ADMIN; the report has none of them")
    with reading(folder):
        root = open_root(folder)
    try:
        yield from _lines(root, folder, cross_file_systems)
    finally:
        os.close(root)


def _lines(root: int, folder: str, cross_file_systems: bool) -> Iterator[ShowLine]:
    progress = Progress("reading entries")
    try:
        for found in walk(root, folder, cross_file_systems):
            try:
                line = _line(found)
            except OSError as error:
                raise cannot_read(folder + found.path, reason_of(error)) from error
            yield line
            progress.step()
    finally:
        progress.end()


def _line(found: Found) -> ShowLine:
    status = found.status
    attributes = {os.fsencode(name): value for name, value in read_attributes(found.place()).items()}
    return ShowLine(
        kind=found.kind, mode=f"{stat.S_IMODE(status.st_mode):04o}", uid=str(status.st_uid), gid=str(status.st_gid),
        mtime=times.shown(status.st_mtime_ns), size=str(status.st_size) if found.kind == FILE else NONE,
        what=_what(found), path=escaped_path(found.path),
        attributes=" ".join(
            f"{escaped(name)}={attributes[name].hex()}"
            for name in sorted(attributes)
            if not name.startswith(OVERLAY.encode())
        ),
    )


def _what(found: Found) -> str:
    if found.kind == SYMLINK:
        return escaped_path(found.target())
    if found.kind in (CHAR, BLOCK):
        return f"{os.major(found.status.st_rdev)}:{os.minor(found.status.st_rdev)}"
    if found.kind != FILE or found.status.st_size == 0:
        return NONE
    file = os.open(found.name, READ, dir_fd=found.folder)
    try:
        return digest_and_size(file)[0]
    finally:
        os.close(file)
