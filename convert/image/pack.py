"""`pack`: manifests and blobs as an OCI image layout."""

import hashlib
import os
from collections.abc import Iterator, Mapping, Sequence
from dataclasses import dataclass, replace
from typing import IO

from ..common.contents import PIECE, PRIVATE_MODE, DigestedBeside, OtherContents, digest_and_size
from ..common.disk_space import require_room
from ..common.faults import ReadFault, UsageFault, cannot_read, reading, writing
from ..common.outputs import new_folder, write_file_in_place
from ..common.progress import Progress, counted, layers_at_work, note, note_path
from ..model import rules
from ..model.blobs import blob_path, open_blob, opened_blob
from ..model.entries import (
    DIRECTORY, IS_OPAQUE, OPAQUE, SOCKET, Entry, drop_host_marks, is_opaque, is_whiteout, needs_lower_layers,
    only_in_manifests,
)
from ..model.links import FirstNames, take_links
from ..model.manifests import read_manifest
from ..tar import headers as tar
from ..tar.least_sizes import least_archive
from ..tar.headers import Header
from ..tar.writer import TYPES, TarWriter
from .archive_names import OPAQUE_NAME, WHITEOUT_PREFIX
from .compression import NONE, PLAIN, Compression, packing, require_program
from .configuration import (
    USUAL_PLATFORM, Document, Making, for_layers, platform_text, read_annotations, read_configuration,
)
from .image_files import ImageFiles, write_image_files
from .images import ImageLayer
from .new_documents import MediaTypes, NewImage, descriptor, put_image, put_index, types_beside
from .new_layers import ALGORITHM, NewLayers
from .targets import Target


@dataclass(frozen=True, kw_only=True)
class PackOptions:
    """What the words of `pack` say."""

    layers: list[str]
    blobs: str
    out: Target
    platform: str | None = None
    name: str | None = None
    skip_unsupported: bool = False
    config: str | None = None
    compress: Compression = PLAIN
    links: str | None = None
    annotations: str | None = None
    has_checked_blobs: bool = False  # and what is written is read again
    new_layers: NewLayers | None = None  # reads layers that aren't packed again, and so makes their digests
    kept: Sequence[ImageLayer] = ()  # of an open image, which stay as they are, below the others; the lowest first
    making: Making = Making()


@dataclass(frozen=True)
class _Written:
    """A layer's archive in the image: what refers to it, and the digest of its bytes before they were packed."""

    described: Document
    unpacked_digest: str


@dataclass(frozen=True)
class _Given:
    """What the image is to say of itself."""

    configuration: Document
    annotations: Mapping[str, str]


def pack(options: PackOptions) -> None:
    """Writes the image: a folder, or one tar archive."""
    if not 1 <= len(options.layers) + len(options.kept) <= rules.MAX_LAYERS:
        raise UsageFault(f"layers must be 1 to {rules.MAX_LAYERS}")
    require_program(options.compress)
    types = types_beside([layer.described for layer in options.kept])
    if options.layers and options.compress.method not in types.methods:
        raise UsageFault(
            f"layers that stay have docker's media types, which know no {options.compress.method}: say --compress gzip"
        )
    annotations = read_annotations(options.annotations) if options.annotations is not None else {}
    given = _Given(_given_configuration(options), annotations)
    layers = [list(_packable(path, options)) for path in reversed(options.layers)]
    out = options.out
    least = sum(map(least_archive, layers)) if options.compress == PLAIN else 0
    require_room(out.label, out.place, least + sum(layer.size for layer in set(options.kept)))
    write_image_files(out, lambda files: _write_image(files, layers, given, types, options))


def _given_configuration(options: PackOptions) -> Document:
    """What the image is to say of itself; without a file for it, a note says what it doesn't."""
    if options.config is not None:
        given = read_configuration(options.config)
        if options.platform is None and platform_text(given) is None:
            note_path(options.config, f"it names no platform; the image's is {USUAL_PLATFORM}")
        return given
    note(
        "without --config the image has no command, entry point, environment, user, working directory, "
        f"labels, volumes, ports and author; its platform is {options.platform or USUAL_PLATFORM}"
    )
    return {}


def _packable(path: str, options: PackOptions) -> Iterator[Entry]:
    """The entries of a layer that an archive can state; refuses the others, or leaves them out."""
    marks = 0
    entries = read_manifest(path)
    take_links(path, entries, options.links)
    for entry in entries:
        reason = needs_lower_layers(entry)
        if reason:
            raise cannot_read(
                path,
                f"{entry.path} is {reason}, which no image has; "
                "run `ovl_layers deref` on the stack first, or `merge` down to one layer",
            )
        problem = _problem(entry)
        if problem is None:
            marks += drop_host_marks(entry)
            yield entry
        elif options.skip_unsupported:
            note_path(path, f"{entry.path}: left out: {problem}")
        else:
            raise cannot_read(path, f"{entry.path}: {problem}")
    if marks:
        note_path(path, counted(marks, "mark", "marks") + " of the host's overlay left out (origin, impure, uuid)")


def _problem(entry: Entry) -> str | None:
    """Why an archive of a layer can't state an entry."""
    if entry.kind == SOCKET:
        return "archives have no sockets"
    if entry.path.rpartition("/")[2].startswith(WHITEOUT_PREFIX):
        return f"a name that begins with {WHITEOUT_PREFIX} is a whiteout in an image"
    problem = only_in_manifests(entry)
    if problem is None and entry.attributes and any("=" in name for name in entry.attributes):
        return "the name of an attribute holds ="
    return problem


def _write_image(
    files: ImageFiles, layers: list[list[Entry]], given: _Given, types: MediaTypes, options: PackOptions
) -> None:
    """The files of the image. Nothing in them depends on when or where they are made."""
    written = [_keep_layer(files, layer, types) for layer in options.kept]
    written += [_write_layer(files, layer, types, options) for layer in layers_at_work(layers)]
    digests = [layer.unpacked_digest for layer in written]
    image = NewImage(
        layers=[layer.described for layer in written], annotations=given.annotations, types=types, name=options.name,
        configuration=for_layers(given.configuration, options.platform, digests, options.making),
    )
    put_index(files, options.out, [put_image(files, options.out, image)])


def _keep_layer(files: ImageFiles, layer: ImageLayer, types: MediaTypes) -> _Written:
    """Copies a layer of another image as it is, with all that its descriptor says of it."""
    digests: list[str] = []

    def fill(file: IO[bytes]) -> str:
        digests.append(layer.copy(ALGORITHM, file.write))
        return digests[0]

    files.blob(fill)
    kind = types.of_layer(Compression(layer.packing() or NONE))
    assert layer.unpacked_digest is not None
    return _Written({**descriptor(kind, digests[0], layer.size), **layer.described}, ":".join(layer.unpacked_digest))


def _write_layer(files: ImageFiles, entries: list[Entry], types: MediaTypes, options: PackOptions) -> _Written:
    """Writes a layer's archive."""
    written: list[_Written] = []

    def fill(file: IO[bytes]) -> str:
        begin = file.tell()
        again = options.new_layers
        try:
            with packing(options.compress, file) as packer, DigestedBeside(packer.write, again is None) as archive:
                _write_archive(entries, options, archive)
                unpacked = archive.end()
        except OtherContents as wrong:
            raise _other_contents(str(wrong)) from None
        size = file.seek(0, os.SEEK_END) - begin
        if again is not None:
            unpacked = again.read(file.fileno(), begin, size)
        digest = unpacked if options.compress == PLAIN else packer.digest() or digest_and_size(file.fileno(), begin)[0]
        described = descriptor(types.of_layer(options.compress), digest, size)
        written.append(_Written(described, f"{ALGORITHM}:{unpacked}"))
        return digest

    files.blob(fill)
    return written[0]


def _write_archive(entries: list[Entry], options: PackOptions, out: DigestedBeside) -> None:
    """The archive of a layer. A directory's `.wh..wh..opq` comes right after it."""
    archive, firsts = TarWriter(out.write), FirstNames()
    progress = Progress("packing", sum(tar.BLOCK_BYTES + entry.size for entry in entries))
    for entry in entries:
        first = firsts.before(entry)
        archive.entry(_header(entry) if first is None else _link_header(entry, first))
        if first is None and entry.names_contents():
            _copy_contents(entry, options, out)
            archive.end_data(entry.size)
        if is_opaque(entry):
            name = f"{entry.path[1:]}/{OPAQUE_NAME}".encode()
            archive.entry(Header(name, b"0", 0, entry.uid, entry.gid, 0, entry.mtime_ns, b"", 0, 0))
        progress.step(tar.BLOCK_BYTES + entry.size)
    archive.end()
    progress.end()


def _header(entry: Entry) -> Header:
    parent, _, name = entry.path[1:].rpartition("/")
    attributes = {key.encode(): value for key, value in entry.attributes.items()}
    kind = TYPES[entry.kind]
    if is_whiteout(entry):
        name, kind = WHITEOUT_PREFIX + name, b"0"
    elif is_opaque(entry):
        del attributes[OPAQUE.encode()]
        assert entry.attributes[OPAQUE] == IS_OPAQUE
    path = f"{parent}/{name}" if parent else name
    if entry.kind == DIRECTORY:
        path = f"{path}/" if path else "./"
    return Header(
        path.encode(), kind, entry.mode, entry.uid, entry.gid, entry.size, entry.mtime_ns,
        entry.target.encode(), entry.major, entry.minor, attributes,
    )


def _link_header(entry: Entry, first: str) -> Header:
    """One more name of a file that came before. Repeats mode, owner, time and attributes: some unpackers apply them."""
    return replace(_header(entry), type=tar.HARD_LINK, target=first[1:].encode(), size=0, major=0, minor=0)


def _copy_contents(entry: Entry, options: PackOptions, out: DigestedBeside) -> None:
    """A file's contents, which are those of its digest; if they aren't, that is reported a little later."""
    blob = str(entry.blob)
    path = blob_path(options.blobs, blob)
    file = open_blob(path, entry.size)
    try:
        is_whole = out.copy(file, entry.size, None if options.has_checked_blobs else blob, path)
    finally:
        os.close(file)
    if not is_whole:
        raise _other_contents(path)


def _other_contents(path: str) -> ReadFault:
    return cannot_read(path, "its contents have another digest")


def contents_of(entry: Entry, blobs: str) -> Iterator[bytes]:
    """A file's contents, which are those of its digest."""
    digest, left, path = hashlib.sha256(), entry.size, blob_path(blobs, str(entry.blob))
    with opened_blob(blobs, str(entry.blob), entry.size) as file:
        while left:
            with reading(path):
                piece = os.read(file, min(PIECE, left))
            if not piece:
                break
            digest.update(piece)
            yield piece
            left -= len(piece)
    if left or digest.hexdigest() != entry.blob:
        raise _other_contents(path)
