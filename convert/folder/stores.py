"""`store`: a layer of docker's or containers-storage's store with those below it, as manifests and blobs.

Both keep each layer in a folder `ID` of the store: `diff` has what is in it, `link` a short name of it, and
`lower` the short names of the layers below, `l/NAME:l/NAME`, the topmost first; the lowest has no `lower`. In
the store's folder `l` each short name is a link to `../ID/diff`.
"""

import itertools
import os
import re
from collections.abc import Iterator
from dataclasses import dataclass

from ..common.faults import cannot_read, reading
from ..common.omissions import ScanLosses
from ..common.outputs import new_folder
from ..common.progress import note_path
from ..model import rules, stacks
from ..model.attributes import require_trusted
from ..model.entries import REDIRECT, without_paths
from ..model.manifests import has_attribute
from ..model.merged_tree import MergedTree, write_shown_links
from .outside import require_outside
from .scan import ScanOptions, scan_folder

_DIFF = "diff"
_MERGED = "merged"
_LINKS = "l"
_LINK = "link"
_LOWER = "lower"
_LOWER_NAME = re.compile(r"l/[0-9A-Za-z]+\Z")
_TARGET = re.compile(r"\.\./([0-9A-Za-z][0-9A-Za-z_.-]*)/diff\Z")
_MAX_BYTES = 1 << 16  # of a file `lower` or `link`
_DRIVERS = {"overlay2", "overlay"}
_LOWER_LAYERS = "lower-layers"  # beside `lower` it says the same
_OTHER_WAYS = {"composefs-data", "lower-id", _LOWER_LAYERS}  # of naming contents or lower layers
_SHOWN = 80  # letters of a wrong name


@dataclass(frozen=True, kw_only=True)
class StoreOptions:
    """What the words of `store` say."""

    folder: str
    out: str
    userxattr: bool | None = None
    cross_file_systems: bool = False
    skip_unsupported: bool = False
    digests_only: bool = False
    workers: int = 1


def store(options: StoreOptions) -> None:
    """Writes `l0.json`, the topmost layer, and so on, and the folder `blobs` unless digests are enough."""
    if not options.userxattr:
        require_trusted(options.folder)
    layers = chain(options.folder)
    if len(layers) > rules.MAX_LAYERS:
        raise cannot_read(options.folder, f"it has {len(layers)} layers, over {rules.MAX_LAYERS}")
    require_outside({"--out": options.out}, layers)
    losses, below, links = ScanLosses(), MergedTree(), itertools.count(1)
    with new_folder(options.out) as stage:
        for number, layer in reversed(list(enumerate(layers))):
            manifest = f"{stage}/{stacks.layer_name(number, len(layers))}"
            entries = scan_folder(ScanOptions(
                layer=layer, out=manifest,
                blobs=None if options.digests_only else f"{stage}/{stacks.BLOBS}",
                userxattr=options.userxattr, cross_file_systems=options.cross_file_systems,
                skip_unsupported=options.skip_unsupported, workers=options.workers,
            ), losses, links)
            below.cover(without_paths(entries), has_attribute(manifest, [REDIRECT]))
        write_shown_links(stage, below.entries)
    for number, layer in enumerate(layers):
        note_path(layer, f"is {stacks.layer_name(number, len(layers))}")
    if os.path.ismount(os.path.join(options.folder, _MERGED)):
        note_path(options.folder, "it is mounted; what was written meanwhile may be missing")
    losses.report()


def chain(folder: str) -> list[str]:
    """The folders that an overlay of this layer is mounted from, the topmost first."""
    with reading(folder):
        there = os.listdir(folder)
    if _DIFF not in there:
        raise cannot_read(
            folder, f"it is no layer's folder of docker's overlay2 or of containers-storage{_hint(folder, there)}"
        )
    home = os.path.dirname(os.path.realpath(folder))
    names = _Names(home)
    layers = list(_parts(folder))
    for lower in _lowers(folder):
        layers += _parts(os.path.join(home, names.layer(lower)))
    return layers


def _hint(folder: str, there: list[str]) -> str:
    """Which folder is meant, if a person named one near it."""
    if _LINKS in there or not _DRIVERS.isdisjoint(there):
        return "; name the folder of a layer in it"
    if os.path.lexists(os.path.join(folder, os.pardir, _LINK)):
        return "; name the folder that it is in"
    return ""


def _parts(folder: str) -> Iterator[str]:
    """What is in a layer: `diff`, and below it the parts `diff1` and so on that containers-storage may have."""
    with reading(folder):
        there = set(os.listdir(folder))
    others = _OTHER_WAYS & there - ({_LOWER_LAYERS} if _LOWER in there else set())
    if others:
        raise cannot_read(folder, f"it is kept in a way that isn't read: it has {min(others)}")
    path = os.path.join(folder, _DIFF)
    if not _is_folder(path):
        raise cannot_read(path, "it is no folder")
    for number in itertools.count(1):
        yield path
        path = os.path.join(folder, f"{_DIFF}{number}")
        if not _is_folder(path):
            break


def _is_folder(path: str) -> bool:
    return os.path.isdir(path) and not os.path.islink(path)


def _lowers(folder: str) -> list[str]:
    """The short names of the layers below one."""
    text = _read(folder, _LOWER)
    lowers = text.split(":") if text else []
    for lower in lowers:
        if not _LOWER_NAME.match(lower):
            raise cannot_read(os.path.join(folder, _LOWER), f"{lower[:_SHOWN]!r} is no name of a layer")
    return [lower.removeprefix(f"{_LINKS}/") for lower in lowers]


def _read(folder: str, name: str) -> str:
    """The text of a small file of a layer; none if the file isn't there."""
    path = os.path.join(folder, name)
    with reading(path):
        try:
            file = os.open(path, os.O_RDONLY | os.O_NOFOLLOW | os.O_NONBLOCK | os.O_CLOEXEC)
        except FileNotFoundError:
            return ""
        try:
            data = os.read(file, _MAX_BYTES + 1)
        finally:
            os.close(file)
    if len(data) > _MAX_BYTES:
        raise cannot_read(path, f"it has over {_MAX_BYTES:,} bytes")
    return os.fsdecode(data).strip()


class _Names:
    """The short names of the layers of a store."""

    def __init__(self, home: str) -> None:
        self._home = home
        self._by_file: dict[str, str] | None = None

    def layer(self, name: str) -> str:
        """The layer's folder: where the link of this name leads, or else the one that says so itself."""
        path = os.path.join(self._home, _LINKS, name)
        try:
            target = os.readlink(path)
        except FileNotFoundError:
            return self._by_link_file(name, path)
        except OSError as error:
            raise cannot_read(path, f"it is no link to a layer: {error.strerror}") from error
        found = _TARGET.match(target)
        if not found:
            raise cannot_read(path, f"it leads to {target}, which is no layer of this store")
        return found[1]

    def _by_link_file(self, name: str, path: str) -> str:
        """By the files `link`; a machine that fails can lose the links in `l`."""
        if self._by_file is None:
            with reading(self._home):
                layers = [entry.name for entry in os.scandir(self._home) if entry.is_dir(follow_symlinks=False)]
            self._by_file = {_read(os.path.join(self._home, layer), _LINK): layer for layer in layers}
        if name not in self._by_file:
            raise cannot_read(path, "it isn't there, and no layer of this store has this short name")
        return self._by_file[name]
