"""The layers of a stack, each a folder, a squashfs, an archive or a manifest, as manifests and blobs in one folder."""

import os
import re
from collections.abc import Iterable, Iterator, Sequence
from dataclasses import dataclass

from ..common.faults import UsageFault, cannot_read, reading
from ..common.omissions import ScanLosses
from ..common.outputs import new_folder
from ..common.progress import counted, layers_at_work
from ..model import rules, stacks
from ..model.blobs import blob_path, opened_blob, writers
from ..model.entries import REDIRECT, Entry, Named, named, without_paths
from ..model.entry_file import EntryFile
from ..model.links import renumber, take_links, write_layer
from ..model.merged_tree import MergedTree, place_of, write_shown_links
from ..model.manifests import has_attribute, read_manifest
from ..squashfs.layer_files import FileOptions, Form, form_of, scan_file
from .outside import require_outside
from .scan import ScanOptions, scan_folder


_MOUNT = "lowerdir="
_LAYER_OR_COLONS = re.compile(r"(?:\\.|[^:\\])+|:+", re.DOTALL)
_BACKSLASH = re.compile(r"\\(.)", re.DOTALL)
_IMAGES = (frozenset(["/oci-layout", "/index.json"]), frozenset(["/manifest.json", "/repositories"]))  # all in an image
_OF_IMAGES = frozenset().union(*_IMAGES)


@dataclass(frozen=True, kw_only=True)
class StackOptions:
    """Which layers are read, the topmost first, and how. `blobs` has the contents of those that are manifests."""

    layers: Sequence[str]
    blobs: str | None = None
    userxattr: bool | None = None
    cross_file_systems: bool = False
    skip_unsupported: bool = False
    digests_only: bool = False
    workers: int = 1


def layers_of_mount(word: str) -> tuple[list[str], int] | None:
    """The layers that a word names as a mount does, `lowerdir=A:B::DATA`, and how many of them are data-only."""
    if not word.startswith(_MOUNT) or os.path.lexists(word):
        return None
    parts = _LAYER_OR_COLONS.findall(word.removeprefix(_MOUNT))
    layers, colons = parts[::2], parts[1::2]
    data_layers = colons.count("::")
    if len(layers) != len(colons) + 1 or colons != sorted(colons) or not set(colons) <= {":", "::"}:
        raise UsageFault(f"{word}: layers are named {_MOUNT}UPPER:LOWER, data-only ones after :: each")
    return [_BACKSLASH.sub(r"\1", layer) for layer in layers], data_layers


def write_stack(options: StackOptions, out: str) -> None:
    """The same into a new folder."""
    require_forms(options)
    require_outside({"--out": out}, options.layers)
    with new_folder(out) as stage:
        read_stack(options, stage)


def read_stack(options: StackOptions, out: str, data_layers: int = 0) -> None:
    """Writes `l0.json`, the topmost layer, and so on, their links, and the folder `blobs` unless digests are enough.

    `out` is a folder that is there. A socket that a layer's file can't give hides what is below it all the same. Names
    in the lowest layers aren't shown if they are data-only.
    """
    forms = require_forms(options)
    losses, below = ScanLosses(), MergedTree()
    with EntryFile(out) as file:
        for number, form in layers_at_work(reversed(list(enumerate(forms)))):
            entries = _without_images(options.layers[number], _read(options, number, form, out, losses, file))
            if number < len(forms) - data_layers:
                manifest = f"{out}/{stacks.layer_name(number, len(options.layers))}"
                below.cover(entries, has_attribute(manifest, [REDIRECT]), leaf_of=place_of)
            else:
                for _ in entries:
                    pass
        write_shown_links(out, lambda: file.linked(below.nodes()))
    losses.report()


def _without_images(layer: str, entries: Iterable[Named]) -> Iterator[Named]:
    """Refuses an image's folder or archive, which isn't a layer, as its entries pass by."""
    found = set[str]()
    for path, entry in entries:
        if path in _OF_IMAGES:
            found.add(path)
        yield path, entry
    if any(names <= found for names in _IMAGES):
        raise UsageFault(f"{layer} is an image and no layer: name it without --stack, or unpack it first")


def _read(
    options: StackOptions, number: int, form: Form, out: str, losses: ScanLosses, file: EntryFile
) -> Iterator[Named]:
    """Writes one layer; gives its entries."""
    layer, manifest = options.layers[number], f"{out}/{stacks.layer_name(number, len(options.layers))}"
    blobs = None if options.digests_only else f"{out}/{stacks.BLOBS}"
    if form is Form.FOLDER:
        return without_paths(scan_folder(ScanOptions(
            layer=layer, out=manifest, blobs=blobs, userxattr=options.userxattr,
            cross_file_systems=options.cross_file_systems, skip_unsupported=options.skip_unsupported,
            workers=options.workers,
        ), losses, file.links))
    if form is Form.MANIFEST:
        entries = read_manifest(layer)
        take_links(layer, entries)
        renumber(entries, file.links)
        if blobs is not None:
            _copy_contents(entries, str(options.blobs), blobs)
        write_layer(manifest, lambda: named(entries), layer, True)
        return without_paths(entries)
    is_lowest = number == len(options.layers) - 1
    return scan_file(FileOptions(
        layer=layer, out=manifest, blobs=blobs, userxattr=options.userxattr,
        skip_unsupported=options.skip_unsupported, hides_sockets=not is_lowest,
    ), form, losses, file, True)


def require_forms(options: StackOptions) -> list[Form]:
    """What each layer is given as; refuses what can't be read before anything is."""
    if not 1 <= len(options.layers) <= rules.MAX_LAYERS:
        raise UsageFault(f"layers must be 1 to {rules.MAX_LAYERS}")
    stacks.require_no_stack(options.layers)
    forms = [form_of(layer) for layer in options.layers]
    if Form.MANIFEST in forms and options.blobs is None and not options.digests_only:
        raise UsageFault(
            f"{options.layers[forms.index(Form.MANIFEST)]} is a manifest: --blobs must name the folder of its contents"
        )
    return forms


def require_ordinary(count: int, data_layers: int) -> None:
    """Refuses data-only layers of a stack if no other is left."""
    if data_layers >= count:
        raise UsageFault(f"of {counted(count, 'layer', 'layers')} {data_layers} can't be data-only")


def _copy_contents(entries: Iterable[Entry], given: str, blobs: str) -> None:
    """Copies what the files of a layer hold from one folder of blobs into another."""
    named = {str(entry.blob): entry.size for entry in entries if entry.names_contents()}
    with writers(blobs) as new_writer:
        writer = new_writer()
        try:
            for blob, size in sorted(named.items()):
                path = blob_path(given, blob)
                with opened_blob(given, blob, size) as file, reading(path):
                    if writer.put(file, size) != blob:
                        raise cannot_read(path, "its contents have another digest")
        finally:
            writer.close()
