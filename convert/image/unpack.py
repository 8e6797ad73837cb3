"""`unpack`: the layers of an image as manifests and blobs, and its configuration."""

import contextlib
import os
from dataclasses import dataclass, replace

from ..common.budgets import Budget
from ..common.disk_space import require_room
from ..common.faults import cannot_read
from ..common.outputs import new_folder, write_text
from ..common.progress import layers_at_work
from ..model import rules, stacks
from ..model.blobs import staged_writers
from ..model.entries import REDIRECT
from ..model.entry_file import EntryFile
from ..model.links import LinkNames, links_path
from ..model.manifests import has_attribute, write_manifest
from ..model.merged_tree import MergedTree, place_of, write_shown_links
from .ahead import NewWriter, layers_read
from .archives import LayerArchive, ReadOptions
from .configuration import text_of
from .images import Image, ImageLayer, image_place, opened_image
from .layer_cache import KeptLayers


@dataclass(frozen=True, kw_only=True)
class UnpackOptions:
    """What the words of `unpack` say."""

    image: str
    out: str
    platform: str | None = None
    tag: str | None = None
    skip_unsupported: bool = False
    overlay_marks: bool = False
    digests_only: bool = False
    is_again: bool = False  # what is lost was reported before


def unpack(options: UnpackOptions, read: KeptLayers | None = None) -> Image:
    """Writes `l0.json`, the topmost, and so on, the folder `blobs`, and `config.json`. Gives the image.

    If digests are enough there is no folder `blobs`, and layers that were read before may be given. An image with
    annotations has them in `annotations.json`.
    """
    path, tag = image_place(options.image, options.tag)
    with opened_image(path, options.platform, tag) as image:
        unpack_opened(options, image, read)
    return image


def unpack_opened(options: UnpackOptions, image: Image, read: KeptLayers | None = None) -> None:
    """The same of an image that is open."""
    if not options.digests_only:
        # Equal contents are kept once, in one layer and in several, so it isn't known that it takes more.
        require_room(options.out, options.out, max(layer.size for layer in image.layers))
    with new_folder(options.out) as stage:
        with staged_writers(None if options.digests_only else f"{stage}/{stacks.BLOBS}") as new_writer:
            _unpack_layers(options, image.layers, stage, new_writer, read)
        write_text(f"{stage}/{stacks.CONFIG}", [text_of(image.configuration)])
        if image.annotations:
            write_text(f"{stage}/{stacks.ANNOTATIONS}", [text_of(image.annotations)])


def _unpack_layers(
    options: UnpackOptions, layers: list[ImageLayer], stage: str, new_writer: NewWriter, read: KeptLayers | None
) -> None:
    below, writer, entries = MergedTree(), new_writer(), EntryFile(stage)
    read_options = ReadOptions(
        out=options.out, skip_unsupported=options.skip_unsupported, overlay_marks=options.overlay_marks, writer=writer,
        budget=Budget(), below=below, is_again=options.is_again,
    )
    try:
        with contextlib.nullcontext(read) if read else layers_read(layers, read_options, stage, new_writer) as kept:
            _take_layers(layers, replace(read_options, kept=kept), stage, entries)
        write_shown_links(stage, lambda: entries.linked(below.nodes()))
    finally:
        entries.close()
        writer.close()


def _take_layers(layers: list[ImageLayer], read_options: ReadOptions, stage: str, entries: EntryFile) -> None:
    """Writes the manifest of each layer, and its links, and puts it above those below.

    Over them the topmost says nothing but what is shown as one file.
    """
    written = 0
    for number, layer in layers_at_work(zip(reversed(range(len(layers))), layers)):
        tree = LayerArchive(layer, read_options, entries).tree()
        path, names = f"{stage}/{stacks.layer_name(number, len(layers))}", LinkNames()
        write_manifest(path, names.passing(tree.entries()), layer.path)
        names.write(links_path(path), tree.entries, path)
        written += os.path.getsize(path)
        if written > rules.MAX_IMAGE_MANIFESTS:
            raise cannot_read(
                layer.path, f"the manifests of the layers have over {rules.MAX_IMAGE_MANIFESTS:,} bytes"
            )
        if number > 0 or entries.has_links():
            has_redirects = has_attribute(path, [REDIRECT])
            read_options.below.cover(tree.taken(), has_redirects, leaf_of=place_of)
