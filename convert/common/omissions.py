"""What a layer has that its manifest doesn't: one note for each kind."""

from dataclasses import dataclass
from enum import Enum

from .progress import counted, note


class Loss(Enum):
    """A kind of thing that is lost or put right: one of them, and several."""

    CUT_TIME = ("time cut to whole nanoseconds", "times cut to whole nanoseconds")
    LOWER_LINK = (
        "hard link to a file of the layers below, now a copy",
        "hard links to files of the layers below, now copies",
    )
    MARK = (
        "attribute trusted.overlay.* left out (--overlay-marks takes it)",
        "attributes trusted.overlay.* left out (--overlay-marks takes them)",
    )
    ACCESS_LIST = (
        "entry with an access list (SCHILY.acl.*), left out",
        "entries with access lists (SCHILY.acl.*), left out",
    )
    LABEL = (
        "entry with a label of SELinux (RHT.security.selinux), left out",
        "entries with labels of SELinux (RHT.security.selinux), left out",
    )
    LINK_HEADER = (
        "hard link with another mode or owner than its file, which docker would give the file",
        "hard links with another mode or owner than their files, which docker would give the files",
    )
    BELOW = (
        "entry left out, as a directory above it was left out", "entries left out, as a directory above them was left out",
    )
    GLOBAL = (
        "entry with values of PAX records for all entries, which docker passes over",
        "entries with values of PAX records for all entries, which docker passes over",
    )
    RECORD = ("entry with PAX records that aren't read", "entries with PAX records that aren't read")
    AUFS = ("entry of aufs' own (.wh..wh.*) left out", "entries of aufs' own (.wh..wh.*) left out")
    WHITEOUT = (
        "whiteout left out that hides nothing, as there is no directory for it",
        "whiteouts left out that hide nothing, as there is no directory for them",
    )
    DEVICE = (
        "char device 0:0, which an overlay takes as a whiteout",
        "char devices 0:0, which an overlay takes as whiteouts",
    )
    WHITEOUT_NAME = (
        "name that begins with .wh., which means a whiteout in images alone (`unpack` reads those)",
        "names that begin with .wh., which mean whiteouts in images alone (`unpack` reads those)",
    )
    SECONDS = ("time cut to whole seconds", "times cut to whole seconds")
    FAR_TIME = (
        "time before 1970 or after the year 2105, now the nearest one that a squashfs has",
        "times before 1970 or after the year 2105, now the nearest ones that a squashfs has",
    )
    SOCKET = ("socket left out, which archives don't have", "sockets left out, which archives don't have")
    UNKNOWN = (
        "directory that no layer states, now of mode 0755, owner 0 and time 0",
        "directories that no layer states, now of mode 0755, owner 0 and time 0",
    )
    ANEW = (
        "directory that its layer has in place of a file hides that of the layers below",
        "directories that their layer has in place of files hide those of the layers below",
    )
    OVER_OTHER = (
        "directory left out by the layer hides a file or a link of those below",
        "directories left out by the layer hide files or links of those below",
    )


class Losses:
    """Counts what is met, by kinds."""

    def __init__(self) -> None:
        self._counts: dict[Loss, int] = {}
        self._first: dict[Loss, str] = {}

    def add(self, loss: Loss, path: str, count: int = 1) -> None:
        """Something of this kind more, at a path."""
        self._counts[loss] = self._counts.get(loss, 0) + count
        self._first.setdefault(loss, path)

    def report(self, layer: str) -> None:
        """One note for each kind that was met, with the first path."""
        for loss, count in self._counts.items():
            note(f"{layer}: {counted(count, *loss.value)}: {self._first[loss]}{', ..' if count > 1 else ''}")


@dataclass
class ScanLosses:
    """What the manifest of a scanned layer doesn't state, counted as it is met."""

    hard_links: int = 0
    left_out: int = 0

    def report(self) -> None:
        """Says what was lost, if anything was."""
        if self.hard_links:
            note(
                counted(self.hard_links, "name of a hard link, now a file", "names of hard links, now files")
                + " with the same contents"
            )
        if self.left_out:
            note(f"{counted(self.left_out, 'thing', 'things')} left out")
