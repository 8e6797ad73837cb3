"""Extended attributes: reading and writing them, and the two families of overlay marks."""

import errno
import os
from collections.abc import Mapping

from ..common.faults import Fault, cannot_read
from .entries import NO_ATTRIBUTES, OVERLAY

USER_OVERLAY = "user.overlay."
_USER_MARKS = frozenset(USER_OVERLAY + name for name in ("opaque", "redirect", "metacopy", "whiteout"))
_CAP_SYS_ADMIN = 21
_NONE_HERE = (errno.ENOTSUP, errno.EOPNOTSUPP)

HOW_TO_READ_TRUSTED = (
    "trusted.* attributes can only be read by root with CAP_SYS_ADMIN, outside of a user "
    "namespace; run it with sudo, or give --userxattr for a layer of a mount with that option"
)


def can_read_trusted() -> bool:
    """Whether the kernel shows `trusted.*` attributes to this process; it hides them silently."""
    try:
        with open("/proc/self/status", encoding="utf-8") as status:
            fields = dict(line.split(":", 1) for line in status)
        with open("/proc/self/uid_map", encoding="utf-8") as ids:
            is_initial = ids.read().split() == ["0", "0", "4294967295"]
        return is_initial and bool(int(fields["CapEff"], 16) >> _CAP_SYS_ADMIN & 1)
    except (OSError, KeyError, ValueError):
        return os.geteuid() == 0


def require_trusted(path: str) -> None:
    """Refuses to go on if marks would go unseen."""
    if not can_read_trusted():
        raise cannot_read(path, HOW_TO_READ_TRUSTED)


def read_attributes(place: str | int) -> Mapping[str, bytes]:
    """All attributes of a file, of a link itself if it is one."""
    follow = isinstance(place, int)
    try:
        names = os.listxattr(place, follow_symlinks=follow)
        if not names:
            return NO_ATTRIBUTES
        return {name: os.getxattr(place, name, follow_symlinks=follow) for name in names}
    except OSError as error:
        if error.errno in _NONE_HERE:
            return NO_ATTRIBUTES
        raise


def write_attributes(place: str | int, attributes: Mapping[str, bytes]) -> None:
    """Sets attributes of a file, of a link itself if it is one."""
    for name, value in attributes.items():
        try:
            os.setxattr(place, name, value, follow_symlinks=isinstance(place, int))
        except OSError as error:
            raise OSError(error.errno, f"attribute {name}: {os.strerror(error.errno or 0)}") from error


class Unstated(Fault):
    """An attribute has no form in the other family."""


def marks_of(attributes: Mapping[str, bytes], userxattr: bool | None) -> Mapping[str, bytes]:
    """The attributes with marks as `trusted.overlay.*`, of a mount with `userxattr` or without.

    If nobody said which, marks as `user.overlay.*` are refused: left as they are they would mean nothing.
    """
    if userxattr:
        return marks_from_user(attributes)
    mark = next((name for name in attributes if name in _USER_MARKS), None) if userxattr is None else None
    if mark:
        raise Unstated(
            f"it has {mark}, a mark of a mount with userxattr: give --userxattr, or --no-userxattr if it is an "
            "ordinary attribute here"
        )
    return attributes


def marks_from_user(attributes: Mapping[str, bytes]) -> Mapping[str, bytes]:
    """The attributes as of a mount without `userxattr`: `user.overlay.*` as `trusted.overlay.*`."""
    for name in attributes:
        if name.startswith(OVERLAY):
            raise Unstated(f"it has {name}, which is an ordinary attribute where marks are user.overlay.*")
    return _renamed(attributes, USER_OVERLAY, OVERLAY)


def marks_to_user(attributes: Mapping[str, bytes]) -> Mapping[str, bytes]:
    """The attributes as for a mount with `userxattr`: `trusted.overlay.*` as `user.overlay.*`."""
    for name in attributes:
        if name.startswith(USER_OVERLAY):
            raise Unstated(f"its ordinary attribute {name} would become a mark")
    return _renamed(attributes, OVERLAY, USER_OVERLAY)


def _renamed(attributes: Mapping[str, bytes], old: str, new: str) -> Mapping[str, bytes]:
    return {
        new + name[len(old):] if name.startswith(old) else name: value
        for name, value in attributes.items()
    }
