"""Overlays that are mounted here, from the kernel's list of mounts."""

import re
from pathlib import Path

from ..common.progress import note_path

_MOUNTS = Path("/proc/self/mountinfo")
_OCTAL = re.compile(r"\\([0-7]{3})")
_UPPER = "upperdir="


def note_mounted(folder: str) -> None:
    """Says that a folder is the upper directory of a mounted overlay, which may change while it is read."""
    place = mounted_at(folder)
    if place is not None:
        note_path(folder, f"it is the upper directory of the overlay that is mounted at {place}; what is written meanwhile may be missing")


def mounted_at(folder: str) -> str | None:
    """Where an overlay is mounted whose upper directory is this folder, if one is."""
    try:
        lines = _MOUNTS.read_text(encoding="utf-8", errors="surrogateescape").splitlines()
    except OSError:
        return None
    for line in lines:
        mount, _, source = line.partition(" - ")
        if source.startswith("overlay "):
            options = source.split(" ")[-1].split(",")
            uppers = [_plain(it.removeprefix(_UPPER)) for it in options if it.startswith(_UPPER)]
            if any(_is_same(upper, folder) for upper in uppers):
                return _plain(mount.split(" ")[4])
    return None


def _plain(text: str) -> str:
    """A path without the kernel's escapes."""
    return _OCTAL.sub(lambda found: chr(int(found[1], 8)), text)


def _is_same(one: str, other: str) -> bool:
    try:
        return Path(one).samefile(other)
    except OSError:
        return False
