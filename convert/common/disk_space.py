"""Room on a disk, asked for before anything is written."""

import os

from .faults import cannot_write, writing


def require_room(label: str, place: str, need: int) -> None:
    """Refuses what takes at least this many bytes, if the file system of a place hasn't as many."""
    with writing(label):
        system = os.statvfs(existing(place))
    room = (system.f_bfree if os.geteuid() == 0 else system.f_bavail) * system.f_frsize
    if system.f_blocks and need > room:  # some file systems know nothing of their room
        raise cannot_write(label, f"it takes at least {need:,} bytes, and {room:,} are free")


def existing(place: str) -> str:
    """The path itself, or what is there of the way to it."""
    folder = os.path.abspath(place)
    while not os.path.lexists(folder):
        folder = os.path.dirname(folder)
    return folder
