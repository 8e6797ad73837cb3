"""What of a layer a squashfs can hold, and what is lost of it there."""

from collections.abc import Iterable, Iterator

from ..common.omissions import Loss, Losses
from ..model.entries import SOCKET, Entry
from ..model.show_report import ShowLine
from ..model.times import ONE_SECOND, of_shown, shown

_MAX_TIME = 2**32 - 1  # seconds
MAX_OWNERS = 65_535  # numbers of users and groups together
_PREFIXES = ("user.", "trusted.", "security.")


def attributes_problem(names: Iterable[str]) -> str | None:
    """Why a squashfs, or the archive that it is made of, can't have attributes of these names."""
    for name in names:
        if not name.startswith(_PREFIXES) or name in _PREFIXES:
            return f"attribute {name}: a squashfs has those of user.*, trusted.* and security.* alone"
        if "=" in name:
            return f"attribute {name}: the archive that a squashfs is made of has no = in names"
    return None


def owners_problem(entries: Iterable[Entry]) -> str | None:
    """Why a squashfs can't have all the owners of these entries."""
    count = len({number for entry in entries for number in (entry.uid, entry.gid)})
    return f"{count:,} users and groups: a squashfs has at most {MAX_OWNERS:,}" if count > MAX_OWNERS else None


def without_sockets(entries: Iterable[Entry], losses: Losses) -> Iterator[Entry]:
    """The entries as an archive has them, of which a squashfs is made."""
    for entry in entries:
        if entry.kind == SOCKET:
            losses.add(Loss.SOCKET, entry.path)
        else:
            yield entry


def fitted(entries: Iterable[Entry], losses: Losses) -> Iterator[Entry]:
    """The entries as a squashfs has them: without sockets, and with times in whole seconds of its range."""
    for entry in without_sockets(entries, losses):
        time = fitting_time(entry.mtime_ns)
        if time != entry.mtime_ns:
            is_cut = 0 <= entry.mtime_ns - time < ONE_SECOND
            losses.add(Loss.SECONDS if is_cut else Loss.FAR_TIME, entry.path)
            entry.mtime_ns = time
        yield entry


def fitting_time(time_ns: int) -> int:
    """The time of a squashfs for a time: cut to whole seconds, and to the nearest one in the range."""
    return min(max(time_ns // ONE_SECOND, 0), _MAX_TIME) * ONE_SECOND


def lines_without_sockets(lines: Iterable[ShowLine]) -> Iterator[ShowLine]:
    """The lines of the report of `show` as of a tree that an archive can hold."""
    return (line for line in lines if line.kind != SOCKET)


def fitted_lines(lines: Iterable[ShowLine]) -> Iterator[ShowLine]:
    """The lines of the report of `show` as of a tree that a squashfs can hold."""
    for line in lines_without_sockets(lines):
        yield line._replace(mtime=shown(fitting_time(of_shown(line.mtime))))
