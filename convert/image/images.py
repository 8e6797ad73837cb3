"""Images: OCI image layouts, what `docker save` writes, and the folders of skopeo's `dir:`."""

import contextlib
import hashlib
import io
import os
import re
from collections.abc import Callable, Hashable, Iterator, Mapping, Sequence
from dataclasses import dataclass, field, replace
from typing import Any, TypeVar

from ..common.budgets import TooMuch
from ..common.contents import PIECE, Write
from ..common.faults import ReadFault, TarFault, UsageFault, cannot_read, reading
from ..common.progress import Progress
from ..common.streams import Digesting, Reader, Source, Watched, unpacked
from ..model import rules
from .configuration import MAX_BYTES, Document, no_configuration, platform_of, platform_text, with_platform
from .documents import (
    CONFIGURATION_TYPES, INDEX_TYPES, LAYER_TYPES, MANIFEST_TYPES, Descriptor, Digest, Index, Json, Manifest,
    Misshapen, SavedImage, document_of, index_of, layer_digests, parse, require_configuration, saved_images_of,
)
from .fetched import fetched, is_fetched, name_of
from .members import STANDARD_INPUT, Members, opened_members
from .platforms import is_meant
from .quick_gzip import find_program, unpacked_quickly
from .targets import TRANSPORTS

MAX_DOCUMENTS = 1 << 24  # bytes of an image's documents together, each as often as it is named
_MAX_DEPTH = 4
_MOST_TOLD = 20
REF_NAME = "org.opencontainers.image.ref.name"
_FULL_NAME = "io.containerd.image.name"
_BASE = "org.opencontainers.image.base."
_ATTESTATION = "vnd.docker.reference.type"
BlobName = Callable[[Digest], str]
_T = TypeVar("_T")


class Spoilt(ReadFault):
    """A file of an image isn't the one that the image means: it is missing, or of another size or digest."""

    def __init__(self, path: str, reason: str) -> None:
        super().__init__(cannot_read(path, reason).text)
        self.path = path
        self.reason = reason
        self.layer: int | None = None  # from the topmost, 0, if it is one and that is known


@dataclass(frozen=True)
class ImageLayer:
    """The archive of a layer, and the digests that the image has of its bytes."""

    name: str
    path: str
    members: Members
    size: int
    digest: Digest | None
    unpacked_digest: Digest | None
    described: Mapping[str, Json] = field(default_factory=dict, compare=False)  # what a manifest has of it

    def identity(self) -> Hashable:
        """The same for two layers of the image that are one file, and must unpack to the same."""
        return self.digest or self.members.identity(self.name), self.unpacked_digest

    @contextlib.contextmanager
    def archive(self, progress: Progress) -> Iterator[Source]:
        """Its bytes, unpacked. They are digested on the way, so what is read counts once this has ended."""
        with (
            self.members.opened(self.name) as part, self._digested(Watched(part, progress)) as packed,
            unpacked(packed, self.path) as stream,
        ):
            yield stream

    @contextlib.contextmanager
    def _digested(self, packed: Reader) -> Iterator[Reader]:
        """The same bytes. That they aren't those of the digest is reported before what is wrong with what they hold."""
        if self.digest is None:
            yield packed
            return
        source = Digesting(packed, self.digest[0])
        try:
            yield source
        except (ReadFault, TarFault, TooMuch):
            self._require_digest(source, self.digest)
            raise
        self._require_digest(source, self.digest)

    def _require_digest(self, source: Digesting, digest: Digest) -> None:
        with reading(self.path):
            found = source.digest_of_all()
        if found != digest[1]:
            raise _wrong_bytes(self.path, digest)

    @contextlib.contextmanager
    def archive_quickly(self, progress: Progress) -> Iterator[Source]:
        """The same of a gzip stream, by a program that is quicker and less strict than zlib; see `quick_gzip`."""
        with self.members.opened(self.name) as part, unpacked_quickly(Watched(part, progress), self.digest) as stream:
            yield stream

    def require_digests(self) -> None:
        """Refuses bytes, packed or unpacked, that aren't those of its digests. It reads them all."""
        progress = Progress("digesting")
        try:
            with self.archive(progress) as stream:
                algorithm, wanted = self.unpacked_digest or ("sha256", None)
                found = Digesting(stream, algorithm).digest_of_all()
        finally:
            progress.end()
        if wanted not in (None, found):
            raise Spoilt(self.path, f"its unpacked bytes aren't those of {algorithm}:{wanted}")

    def can_stay(self, algorithm: str) -> bool:
        """Whether a new image, whose blobs have digests of an algorithm, can have it as it is."""
        return self.unpacked_digest is not None and (self.digest is None or self.digest[0] == algorithm)

    def copy(self, algorithm: str, write: Write) -> str:
        """Gives its bytes on as they are, if they are those of its digest, and the digits of their digest."""
        with self.members.opened(self.name) as part:
            source, piece = Digesting(part, algorithm), memoryview(bytearray(PIECE))
            while count := self._fill(source, piece):
                write(piece[:count])
            digest = algorithm, source.digest_of_all()
        if self.digest not in (None, digest):
            raise _wrong_bytes(self.path, self.digest or digest)
        return digest[1]

    def _fill(self, source: Digesting, piece: memoryview) -> int:
        with reading(self.path):
            return source.readinto(piece)

    def is_checked(self) -> bool:
        """Whether the digest of its bytes in the image is that of the unpacked ones."""
        return self.digest is not None and self.digest == self.unpacked_digest and self.packed_size() is None

    def may_be_quick(self) -> bool:
        """Whether it can be unpacked by that program: what comes of it is checked by its digest."""
        if self.unpacked_digest is None or find_program() is None:
            return False
        with self.members.opened(self.name) as part, reading(self.path):
            return part.is_gzip()

    def packing(self) -> str:
        """What its bytes in the image are packed by, or nothing."""
        with self.members.opened(self.name) as part, reading(self.path):
            return part.packing()

    def packed_size(self) -> int | None:
        """How many bytes it has in the image, if these are compressed."""
        return self.size if self.packing() else None


@dataclass(frozen=True)
class Image:
    """The layers of an image, the lowest first, its configuration with the platform in it, and its names."""

    layers: list[ImageLayer]
    configuration: Document
    names: tuple[str, ...] = ()
    annotations: Mapping[str, str] = field(default_factory=dict)  # but for those of the base, which new layers haven't
    digest: Digest | None = None  # of its configuration, by which docker names it
    manifest_digest: Digest | None = None  # by which registries name it

    def layer_bytes(self) -> int:
        """How many bytes its layers have in it, each file once."""
        return sum({layer.identity(): layer.size for layer in self.layers}.values())


@dataclass(frozen=True)
class _Choice:
    """One of the images that are there."""

    platform: str
    names: dict[str, None]

    def matches(self, platform: str | None, tag: str | None) -> bool:
        """Whether it is meant by what a person asked for."""
        is_platform = platform is None or is_meant(platform, self.platform)
        return is_platform and (tag is None or not spellings(tag).isdisjoint(self.names))

    def __str__(self) -> str:
        return " ".join([self.platform, *self.names])


@dataclass(frozen=True)
class _InLayout(_Choice):
    """One of a layout: its manifest, the name of that, and what the index says of its platform."""

    manifest: Manifest
    name: str
    stated: Mapping[str, Json]
    digest: Digest | None = None


@dataclass(frozen=True)
class _Saved(_Choice):
    """One of those that `docker save` wrote."""

    image: SavedImage


_C = TypeVar("_C", bound=_Choice)


def spellings(tag: str) -> set[str]:
    """A name, and what docker and skopeo make of it if a part is left out."""
    whole = tag if ":" in tag.rpartition("/")[2] else f"{tag}:latest"
    return {tag, whole, f"docker.io/{whole}", f"docker.io/library/{whole}"}


def image_place(word: str, tag: str | None) -> tuple[str, str | None]:
    """The path and the tag of an image that a word names, as a path or as skopeo has it: `oci:PATH:TAG`."""
    if is_fetched(word):
        if tag is not None:
            raise UsageFault(f"{word} and --from-tag name two images")
        return word, None
    transport, colon, rest = word.partition(":")
    if not colon or transport not in TRANSPORTS or os.path.lexists(word):
        return word, tag
    path, _, own = (rest, "", "") if transport == "dir" else rest.partition(":")
    if own and tag not in (None, own):
        raise UsageFault(f"{word} and --from-tag name two images")
    return path, own or tag


def paths_of_image(path: str) -> list[str]:
    """The path of an image that must be there: none of standard input, and of what is fetched."""
    return [] if path == STANDARD_INPUT or is_fetched(path) else [path]


@contextlib.contextmanager
def opened_image(path: str, platform: str | None, tag: str | None) -> Iterator[Image]:
    """The one image at a path that is meant, or of a name by which skopeo fetches it."""
    if not is_fetched(path):
        with opened_members(path) as members:
            yield _image_of(members, platform, tag)
        return
    with fetched(path, platform) as folder, opened_members(folder, path) as members:
        name = name_of(path)
        yield replace(_image_of(members, platform, None), names=(name,) if name else ())


def platforms_in(path: str, tag: str | None) -> list[str]:
    """The platforms of all images at a path, or of those of a name, each of one image."""
    with opened_members(path) as members:
        choices = [choice for choice in _choices_in(members) if choice.matches(None, tag)]
        found = [choice.platform for choice in choices]
        if not found:
            raise _not_one(members.path, [], None)
        twice = next((platform for platform in found if found.count(platform) > 1), None)
        if twice is not None:
            raise cannot_read(members.path, f"it has several images of {twice}; say which by --from-tag")
        return found


def _choices_in(members: Members) -> "Sequence[_Choice]":
    """All images that are there."""
    documents = _Documents(members)
    if members.size("index.json") is not None:
        return _Layout(documents).choices()
    value = documents.read("manifest.json") if members.size("manifest.json") is not None else None
    if not isinstance(value, list):
        raise cannot_read(members.path, "it is neither an OCI image layout nor what docker save wrote")
    return _saved_choices(documents, value)


def _image_of(members: Members, platform: str | None, tag: str | None) -> Image:
    documents = _Documents(members)
    if members.size("index.json") is not None:
        return _Layout(documents).image(platform, tag)
    if members.size("manifest.json") is None:
        raise cannot_read(members.path, f"it is no image: {members.look()}")
    manifest = documents.read("manifest.json")
    if isinstance(manifest, dict):
        return _copied_image(documents, manifest, platform)
    return _saved_image(documents, manifest, platform, tag)


class _Documents:
    """The JSON documents of an image, within a bound."""

    def __init__(self, members: Members) -> None:
        self.members = members
        self._left = MAX_DOCUMENTS

    def path(self, name: str) -> str:
        """A member as a person sees it."""
        return f"{self.members.path}/{name}"

    def read(self, name: str, descriptor: Descriptor | None = None, digest: Digest | None = None) -> Json:
        """The value of a document whose bytes are those that a descriptor says, or a digest."""
        digest = descriptor.digest if descriptor else digest
        with self.members.opened(name) as part, reading(self.path(name)):
            data = io.BufferedReader(part).read(MAX_BYTES + 1)
        self._left -= len(data)
        if len(data) > MAX_BYTES:
            raise cannot_read(self.path(name), f"it has over {MAX_BYTES:,} bytes")
        if self._left < 0:
            raise cannot_read(self.members.path, f"its manifests and indexes have over {MAX_DOCUMENTS:,} bytes")
        if digest and hashlib.new(digest[0], data).hexdigest() != digest[1]:
            raise _wrong_bytes(self.path(name), digest)
        if descriptor and descriptor.size != len(data):
            raise _wrong_size(self.path(name), descriptor)
        return self.decoded(name, parse, data)

    def decoded(self, name: str, decode: Callable[..., _T], *values: Any) -> _T:
        """What a document, or the value of one, is decoded into."""
        try:
            return decode(*values)
        except Misshapen as problem:
            raise cannot_read(self.path(name), str(problem)) from None

    def configuration(
        self, name: str, descriptor: Descriptor | None, digest: Digest | None, count: int,
    ) -> tuple[Document, list[Digest | None]]:
        """An image's configuration, and the digests of its layers' unpacked bytes if it has them."""
        value = self.read(name, descriptor, digest)
        try:
            require_configuration(value)
        except Misshapen as problem:
            raise no_configuration(self.path(name), problem) from None
        digests = self.decoded(name, layer_digests, value)
        if digests is None:
            return value, [None] * count
        if len(digests) != count:
            raise cannot_read(
                self.path(name), f"it has digests of {len(digests)} layers, and the manifest has {count}"
            )
        return value, list(digests)

    def layer(self, name: str, descriptor: Descriptor | None, unpacked: Digest | None) -> ImageLayer:
        """A layer that is there, of the size that is stated."""
        there = self.members.size(name)
        if there is None:
            raise Spoilt(self.path(name), "the image has no such file")
        if descriptor is None:
            return ImageLayer(name, self.path(name), self.members, there, None, unpacked)
        if descriptor.size != there:
            raise _wrong_size(self.path(name), descriptor)
        self._require_packing(name, descriptor.media_type)
        return ImageLayer(name, self.path(name), self.members, there, descriptor.digest, unpacked, descriptor.value)

    def _require_packing(self, name: str, media_type: str | None) -> None:
        """Refuses a layer that isn't packed as its media type says, if that says it."""
        said = None if media_type is None else LAYER_TYPES[media_type]
        with self.members.opened(name) as part, reading(self.path(name)):
            packing = part.packing()
        if said not in (None, packing):
            wanted, found = (word or "plain" for word in (said, packing))
            raise cannot_read(self.path(name), f"its media type says {wanted}, and its bytes are {found}")


def _wrong_bytes(path: str, digest: Digest) -> Spoilt:
    return Spoilt(path, f"its bytes aren't those of the digest {':'.join(digest)}")


def _wrong_size(path: str, descriptor: Descriptor) -> Spoilt:
    return Spoilt(path, f"it has another size than the {descriptor.size:,} bytes that its descriptor says")


def _blob_in_layout(digest: Digest) -> str:
    return f"blobs/{digest[0]}/{digest[1]}"


class _Layout:
    """An OCI image layout."""

    def __init__(self, documents: _Documents) -> None:
        self._documents = documents
        self._members = documents.members
        self._choices: dict[tuple[Digest, str | None], _InLayout] = {}
        self._descriptors: dict[Digest, Descriptor] = {}
        self._visited: set[tuple[Digest, tuple[str, ...]]] = set()

    def choices(self) -> Sequence[_InLayout]:
        """All images that it has."""
        index = self._documents.decoded("index.json", index_of, self._documents.read("index.json"))
        self._visit(index, "index.json", (), {}, 0)
        if self._members.size("manifest.json") is not None:
            self._require_agreement(self._documents.read("manifest.json"))
        return list(self._choices.values())

    def image(self, platform: str | None, tag: str | None) -> Image:
        """The one image that is meant."""
        chosen = _one_of(self._members.path, self.choices(), platform, tag)
        image = _image(self._documents, chosen, _blob_in_layout)
        return replace(image, names=tuple(chosen.names), manifest_digest=chosen.digest)

    def _require_agreement(self, value: Json) -> None:
        """Refuses what `docker save` would list beside the index, if it isn't of the same images: docker reads that."""
        images = {
            it.manifest.configuration.digest[1]: [layer.digest[1] for layer in it.manifest.layers]
            for it in self._choices.values()
        }
        for image in self._documents.decoded("manifest.json", saved_images_of, value):
            layers = [_digits(name) for name in image.layers]
            if images.get(_digits(image.configuration) or "") != layers:
                raise cannot_read(
                    self._documents.path("manifest.json"), "it has an image that index.json hasn't, or with other layers"
                )

    def _visit(
        self, index: Index, name: str, names: tuple[str, ...], platform: Mapping[str, Json], depth: int
    ) -> None:
        """Finds the images of an index, and of those inside of it, whose manifests are there."""
        if depth > _MAX_DEPTH:
            raise cannot_read(self._documents.path(name), "an index inside too many others")
        for descriptor in index.manifests:
            notes = descriptor.annotations
            own = tuple(notes[key] for key in (REF_NAME, _FULL_NAME) if key in notes) or names
            if _ATTESTATION in notes:
                continue
            self._require_same(descriptor)
            if (descriptor.digest, own) in self._visited:
                continue
            self._visited.add((descriptor.digest, own))
            if self._members.size(_blob_in_layout(descriptor.digest)) is not None:
                self._take(descriptor, own, platform_of(descriptor.platform) or platform, depth)

    def _take(
        self, descriptor: Descriptor, names: tuple[str, ...], stated: Mapping[str, Json], depth: int
    ) -> None:
        """An image, or an index inside of the one that is visited; whatever else is there isn't read."""
        if descriptor.media_type not in (None, *INDEX_TYPES, *MANIFEST_TYPES):
            return
        name, wanted = _blob_in_layout(descriptor.digest), platform_text(stated)
        before = self._choices.get((descriptor.digest, wanted))
        if before:
            before.names.update(dict.fromkeys(names))
            return
        value = self._documents.read(name, descriptor)
        document = self._documents.decoded(name, document_of, value, descriptor.media_type)
        if isinstance(document, Index):
            self._visit(document, name, names, stated, depth + 1)
        else:
            self._choices[descriptor.digest, wanted] = _InLayout(
                wanted or self._platform(document), dict.fromkeys(names), document, name, stated, descriptor.digest
            )

    def _require_same(self, descriptor: Descriptor) -> None:
        """Refuses descriptors of one digest that differ in size or media type."""
        first = self._descriptors.setdefault(descriptor.digest, descriptor)
        if (first.size, first.media_type) != (descriptor.size, descriptor.media_type):
            name = _blob_in_layout(descriptor.digest)
            raise cannot_read(self._documents.path(name), "its descriptors differ in size or media type")

    def _platform(self, manifest: Manifest) -> str:
        """The platform that an image's configuration names."""
        name = _blob_in_layout(manifest.configuration.digest)
        if self._members.size(name) is None:
            return "unknown"
        return platform_text(self._documents.read(name, manifest.configuration)) or "unknown"


def _image(documents: _Documents, chosen: _InLayout, blob: BlobName) -> Image:
    """The image of a manifest, whose layers and configuration are members of these names."""
    manifest = chosen.manifest
    _require_types(documents, chosen.name, manifest)
    _require_count(documents, len(manifest.layers))
    configuration, unpacked = documents.configuration(
        blob(manifest.configuration.digest), manifest.configuration, None, len(manifest.layers)
    )
    return Image(
        [documents.layer(blob(own.digest), own, inner) for own, inner in zip(manifest.layers, unpacked)],
        with_platform(configuration, chosen.stated),
        annotations={key: text for key, text in manifest.annotations.items() if not key.startswith(_BASE)},
        digest=manifest.configuration.digest,
    )


def _require_types(documents: _Documents, name: str, manifest: Manifest) -> None:
    """Refuses a configuration and layers of media types that no image has."""
    own = manifest.configuration.media_type
    if own not in (None, *CONFIGURATION_TYPES):
        raise cannot_read(documents.path(name), f"it is no container image: its configuration is of type {own}")
    for layer in manifest.layers:
        if layer.media_type not in (None, *LAYER_TYPES):
            raise cannot_read(documents.path(name), f"it has a layer of type {layer.media_type}, which isn't read")


def _require_count(documents: _Documents, count: int) -> None:
    if not 1 <= count <= rules.MAX_LAYERS:
        raise cannot_read(documents.members.path, f"it has {count} layers, not 1 to {rules.MAX_LAYERS}")


def _one_of(path: str, choices: Sequence[_C], platform: str | None, tag: str | None) -> _C:
    """The one image that is meant, or a fault that lists those that are there."""
    fitting = [choice for choice in choices if choice.matches(platform, tag)]
    exact = [choice for choice in fitting if choice.platform == platform]
    if len(fitting) == 1 or len(exact) == 1:
        return (exact or fitting)[0]
    asked = " and ".join([f"{word} {value}" for word, value in (("--from-tag", tag), ("--platform", platform)) if value])
    raise _not_one(path, list(map(str, choices)), f"none of them is {asked}" if not fitting else None)


def _not_one(path: str, there: list[str], none: str | None) -> ReadFault:
    if not there:
        return cannot_read(path, "it has no image whose manifest is there")
    which = none or "say which by --platform or --from-tag"
    more = "; .." if len(there) > _MOST_TOLD else ""
    return cannot_read(path, f"it has {len(there)} images ({'; '.join(there[:_MOST_TOLD])}{more}); {which}")


def _copied_image(documents: _Documents, value: Json, platform: str | None) -> Image:
    """The image in a folder of skopeo's `dir:`, whose blobs have their digits as names."""
    document = documents.decoded("manifest.json", document_of, value, None)
    if isinstance(document, Index):
        raise cannot_read(documents.members.path, "it is an index in the form dir:; copy one image of it")
    chosen = _InLayout("", {}, document, "manifest.json", {})
    image = _image(documents, chosen, lambda digest: digest[1])
    _one_of(documents.members.path, [_Choice(platform_text(image.configuration) or "unknown", {})], platform, None)
    return image


def _digits(name: str) -> str | None:
    """The digits of the digest by which `docker save` names a file."""
    found = re.search(r"([0-9a-f]{64})(\.json|/layer\.tar)?\Z", name)
    return found[1] if found else None


def _saved_choices(documents: _Documents, value: Json) -> Sequence[_Saved]:
    """The images that `docker save` wrote."""
    return [
        _Saved(platform_text(documents.read(it.configuration)) or "unknown", dict.fromkeys(it.names), it)
        for it in documents.decoded("manifest.json", saved_images_of, value)
    ]


def _saved_image(documents: _Documents, value: Json, platform: str | None, tag: str | None) -> Image:
    """The one image that is meant of those that `docker save` wrote."""
    chosen = _one_of(documents.members.path, _saved_choices(documents, value), platform, tag)
    image = chosen.image
    _require_count(documents, len(image.layers))
    digits = _digits(image.configuration)
    digest = ("sha256", digits) if digits else None
    configuration, digests = documents.configuration(image.configuration, None, digest, len(image.layers))
    return Image(
        [documents.layer(name, None, digest) for name, digest in zip(image.layers, digests)],
        configuration, tuple(chosen.names), digest=digest,
    )
