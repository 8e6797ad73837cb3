"""Files with keys and credentials that the layers ship: those that are shown, and those that were deleted or replaced."""

from collections.abc import Iterator
from dataclasses import dataclass

from ..model.merged_tree import LayerFile
from ..sizes.layer_sizes import Sizes
from .contents import Contents
from .credentials import KEY, MARK, credential_in, may_be_key
from .findings import Finding, Level

_MOST_READ = 1 << 16  # bytes in which the mark of a key is


@dataclass(frozen=True)
class _Secret:
    """A file of a layer by one of its names, and what it has."""

    file: LayerFile
    path: str
    what: str


def credential_findings(sizes: Sizes, contents: Contents) -> Iterator[Finding]:
    """The files of all layers whose names are those of keys and credentials."""
    secrets = list(_secrets(sizes, contents))
    shown = {it.file.blob for it in secrets if it.file.uses}
    for it in secrets:
        if it.file.uses:
            yield Finding(Level.NOTE, "credential-shown", f"it may have {it.what}", it.path, it.file.layer)
        elif it.file.blob not in shown:
            words = f"it may have {it.what}, was deleted or replaced, and is shipped all the same"
            yield Finding(Level.WARNING, "credential-deleted", words, it.path, it.file.layer)


def _secrets(sizes: Sizes, contents: Contents) -> Iterator[_Secret]:
    for file in [*sizes.shown, *(one.file for one in sizes.not_shown)]:
        for path in file.names():
            what = credential_in(path) or (KEY if may_be_key(path) and _has_mark(file, contents) else None)
            if what:
                yield _Secret(file, path, what)


def _has_mark(file: LayerFile, contents: Contents) -> bool:
    """Whether the beginning of a file has the mark of a private key."""
    return MARK in contents.part_of_blob(file.blob.hex(), file.size, 0, _MOST_READ)
