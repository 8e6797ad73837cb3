"""The JSON documents of images, each with one meaning, whichever program reads it.

Go's decoder takes the last of doubled members, and a member whose name differs from a known one in case; others don't.
So both are refused, and so is whatever else two readers take in two ways.
"""

import json
import math
import re
from collections import Counter
from collections.abc import Callable, Iterable, Mapping, Sequence
from dataclasses import dataclass, field
from typing import Any, NoReturn, Protocol, TypeVar

Json = Any  # what a JSON text is read into
_T = TypeVar("_T")
Digest = tuple[str, str]  # the algorithm and the hexadecimal digits

INDEX_TYPES = (
    "application/vnd.oci.image.index.v1+json",
    "application/vnd.docker.distribution.manifest.list.v2+json",
)
MANIFEST_TYPES = (
    "application/vnd.oci.image.manifest.v1+json",
    "application/vnd.docker.distribution.manifest.v2+json",
)
CONFIGURATION_TYPES = (
    "application/vnd.oci.image.config.v1+json",
    "application/vnd.docker.container.image.v1+json",
)
_OCI_LAYER = "application/vnd.oci.image.layer"
_DOCKER_LAYER = "application/vnd.docker.image.rootfs"
# The types of layers, and how each is packed; docker's say it of what is pushed, and tools put them at plain layers too.
LAYER_TYPES: Mapping[str, str | None] = {
    **{
        f"{_OCI_LAYER}.{kind}tar{packing and f'+{packing}'}": packing
        for kind in ("v1.", "nondistributable.v1.") for packing in ("", "gzip", "zstd")
    },
    **{
        f"{_DOCKER_LAYER}.{kind}tar{packing and f'.{packing}'}": None
        for kind in ("diff.", "foreign.diff.") for packing in ("", "gzip", "zstd")
    },
}
_MAX_DEPTH = 64  # of objects and lists in one another; real documents have 4
_MAX_PARTS = 1 << 18  # objects and lists of a document, each of which takes memory
_MAX_NAME = 60  # characters of a member's name that a fault gives
_MOST_NAMES = 8  # of objects and lists in one another that it gives
_DIGEST = re.compile(r"(?:(sha256):([0-9a-f]{64})|(sha384):([0-9a-f]{96})|(sha512):([0-9a-f]{128}))\Z")


class Misshapen(ValueError):
    """What a document has in place of what it should have, and at which of its members."""

    def __init__(self, words: str, *place: str | int) -> None:
        super().__init__(words)
        self._words = words
        self._place = list(place)

    def below(self, name: str | int) -> "Misshapen":
        """The same, of a member or an item of this name or number."""
        self._place.insert(0, name)
        return self

    def __str__(self) -> str:
        shown = self._place if len(self._place) <= _MOST_NAMES else [*self._place[:_MOST_NAMES], ".."]
        place = "".join(f"[{it}]" if isinstance(it, int) else f".{_shortened(it)}" for it in shown)
        return f"{place.removeprefix('.') or 'it'} {self._words}"


def _shortened(name: str) -> str:
    return name if len(name) <= _MAX_NAME else f"{name[:_MAX_NAME]}.."


class _Doubled(dict[str, Json]):
    """An object that has two members of one name."""

    def __init__(self, members: Iterable[tuple[str, Json]], name: str) -> None:
        super().__init__(members)
        self.name = name


def parse(data: bytes) -> Json:
    """The value of a JSON text in UTF-8, whose objects have no name twice; a `Misshapen` says why it is none."""
    if data.count(b"[") + data.count(b"{") > _MAX_PARTS:
        raise Misshapen(f"has over {_MAX_PARTS:,} objects and lists")
    try:
        value = json.loads(
            data.decode(), parse_constant=_refuse, parse_float=_finite, object_pairs_hook=_object,
        )
    except (ValueError, RecursionError):
        raise Misshapen("isn't JSON") from None
    _require_plain(value, _MAX_DEPTH)
    return value


def _refuse(text: str) -> NoReturn:
    raise ValueError(text)


def _finite(text: str) -> float:
    value = float(text)
    if not math.isfinite(value):
        raise ValueError(text)
    return value


def _object(members: list[tuple[str, Json]]) -> dict[str, Json]:
    found = dict(members)
    if len(found) == len(members):
        return found
    counts = Counter(name for name, _ in members)
    return _Doubled(members, next(name for name, count in counts.items() if count > 1))


def _require_plain(value: Json, depth: int) -> None:
    """Refuses doubled names, texts that aren't Unicode, and what lies too deep."""
    if isinstance(value, str):
        _require_unicode(value)
    elif isinstance(value, (dict, list)):
        if depth == 0:
            raise Misshapen(f"lies in over {_MAX_DEPTH} objects and lists")
        if isinstance(value, _Doubled):
            raise Misshapen("stands twice", value.name)
        for name, inner in value.items() if isinstance(value, dict) else enumerate(value):
            try:
                _require_unicode(name)
                _require_plain(inner, depth - 1)
            except Misshapen as problem:
                raise problem.below(name) from None


def _require_unicode(text: str | int) -> None:
    if isinstance(text, str) and not text.isascii():
        try:
            text.encode()
        except UnicodeEncodeError:
            raise Misshapen("has half of a surrogate pair") from None


class Shape(Protocol):
    """What a value must be; null is as if the value weren't there."""

    def require(self, value: Json) -> None:
        """Refuses another value."""


@dataclass(frozen=True)
class _Of:
    """A value of one type of Python's."""

    kind: type
    label: str

    def require(self, value: Json) -> None:
        """Refuses others; true and false are no numbers."""
        if type(value) is not self.kind:
            raise Misshapen(f"is no {self.label}")


@dataclass(frozen=True)
class _Anything:
    """A value that nobody here reads."""

    def require(self, value: Json) -> None:
        """Refuses nothing."""


@dataclass(frozen=True)
class ListOf:
    """A list of values of a shape."""

    inner: Shape

    def require(self, value: Json) -> None:
        """Refuses other values and other items."""
        if not isinstance(value, list):
            raise Misshapen("is no list")
        for number, item in enumerate(value):
            _require_inner(self.inner, item, number)


@dataclass(frozen=True)
class MapOf:
    """An object whose names are data, and whose values have a shape."""

    inner: Shape

    def require(self, value: Json) -> None:
        """Refuses other values and other members."""
        if not isinstance(value, dict):
            raise Misshapen("is no object")
        for name, item in value.items():
            _require_inner(self.inner, item, name)


class Fields:
    """An object with known members, some of which are needed, and others that mean nothing here.

    Strange members are those of another kind of document, which this one can't be too.
    """

    def __init__(self, known: Mapping[str, Shape], needed: Sequence[str] = (), strange: Sequence[str] = ()) -> None:
        self._known = known
        self._needed = needed
        self._strange = frozenset(strange)
        self._by_fold = {name.casefold(): name for name in [*known, *strange]}

    def require(self, value: Json) -> None:
        """Refuses other values, names that differ from known ones in case, and members of other shapes."""
        if not isinstance(value, dict):
            raise Misshapen("is no object")
        for name, item in value.items():
            meant = self._by_fold.get(name.casefold(), name)
            if meant != name:
                raise Misshapen(f"differs from {meant} in case only", name)
            if name in self._strange and item is not None:
                raise Misshapen("belongs to a document of another kind", name)
            if name in self._known and item is not None:
                _require_inner(self._known[name], item, name)
        for name in self._needed:
            if value.get(name) is None:
                raise Misshapen("is missing", name)


def _require_inner(shape: Shape, value: Json, name: str | int) -> None:
    try:
        shape.require(value)
    except Misshapen as problem:
        raise problem.below(name) from None


ANYTHING = _Anything()
TEXT = _Of(str, "string")
NUMBER = _Of(int, "whole number")
FLAG = _Of(bool, "true or false")
TEXTS = ListOf(TEXT)
ANNOTATIONS = MapOf(TEXT)

_PLATFORM = Fields({
    "architecture": TEXT, "os": TEXT, "os.version": TEXT, "os.features": TEXTS, "variant": TEXT, "features": TEXTS,
})
_DESCRIPTOR = Fields({
    "mediaType": TEXT, "digest": TEXT, "size": NUMBER, "urls": TEXTS, "annotations": ANNOTATIONS, "data": TEXT,
    "artifactType": TEXT, "platform": _PLATFORM,
}, needed=["digest", "size"])
_DOCUMENT: Mapping[str, Shape] = {
    "schemaVersion": NUMBER, "mediaType": TEXT, "artifactType": TEXT, "subject": _DESCRIPTOR, "annotations": ANNOTATIONS,
}
_INDEX = Fields(
    {**_DOCUMENT, "manifests": ListOf(_DESCRIPTOR)}, needed=["manifests"], strange=["config", "layers", "fsLayers"],
)
_MANIFEST = Fields(
    {**_DOCUMENT, "config": _DESCRIPTOR, "layers": ListOf(_DESCRIPTOR)}, needed=["config", "layers"],
    strange=["manifests", "fsLayers"],
)
_SAVED = ListOf(Fields(
    {"Config": TEXT, "RepoTags": TEXTS, "Layers": TEXTS, "Parent": TEXT, "LayerSources": MapOf(_DESCRIPTOR)},
    needed=["Config", "Layers"],
))
_RUN = Fields({
    **dict.fromkeys(["User", "WorkingDir", "StopSignal", "Hostname", "Domainname", "Image", "MacAddress"], TEXT),
    **dict.fromkeys(["Env", "Entrypoint", "Cmd", "OnBuild", "Shell"], TEXTS),
    **dict.fromkeys(["ExposedPorts", "Volumes"], MapOf(ANYTHING)),
    **dict.fromkeys([
        "ArgsEscaped", "AttachStdin", "AttachStdout", "AttachStderr", "Tty", "OpenStdin", "StdinOnce",
        "NetworkDisabled",
    ], FLAG),
    "Labels": ANNOTATIONS,
    "StopTimeout": NUMBER,
    "Healthcheck": Fields({
        "Test": TEXTS, **dict.fromkeys(["Interval", "Timeout", "StartPeriod", "StartInterval", "Retries"], NUMBER),
    }),
})
_HISTORY = Fields({
    **dict.fromkeys(["created", "created_by", "author", "comment"], TEXT), "empty_layer": FLAG,
})
_CONFIGURATION = Fields({
    **dict.fromkeys([
        "created", "author", "architecture", "variant", "os", "os.version", "id", "parent", "container",
        "docker_version", "comment",
    ], TEXT),
    "os.features": TEXTS,
    "config": _RUN,
    "container_config": _RUN,
    "rootfs": Fields({"type": TEXT, "diff_ids": TEXTS}),
    "history": ListOf(_HISTORY),
})


def digest_parts(text: str) -> Digest:
    """A digest's algorithm and digits."""
    found = _DIGEST.match(text)
    if not found:
        raise Misshapen("is no digest of sha256, sha384 or sha512")
    algorithm, digits = filter(None, found.groups())
    return algorithm, digits


@dataclass(frozen=True)
class Descriptor:
    """What an index or a manifest says of another file of the image."""

    digest: Digest
    size: int
    media_type: str | None
    annotations: Mapping[str, str]
    platform: Mapping[str, Json]
    value: Mapping[str, Json]  # all that it has


@dataclass(frozen=True)
class Index:
    """Images, and indexes inside of this one."""

    manifests: Sequence[Descriptor]
    media_type: str | None


@dataclass(frozen=True)
class Manifest:
    """One image: its configuration, and its layers, the lowest first."""

    configuration: Descriptor
    layers: Sequence[Descriptor]
    annotations: Mapping[str, str]
    media_type: str | None


@dataclass(frozen=True)
class SavedImage:
    """One image of those that `docker save` wrote: the names of its files, and its own."""

    configuration: str
    layers: Sequence[str]
    names: Sequence[str] = field(default=())


def index_of(value: Json) -> Index:
    """The index that a document is."""
    _INDEX.require(value)
    return Index(_each(value, "manifests", _descriptor), value.get("mediaType"))


def manifest_of(value: Json) -> Manifest:
    """The image's manifest that a document is."""
    _MANIFEST.require(value)
    return Manifest(
        _one(value, "config", _descriptor), _each(value, "layers", _descriptor), value.get("annotations") or {},
        value.get("mediaType"),
    )


def document_of(value: Json, media_type: str | None) -> Index | Manifest:
    """The index or manifest that a document is, whose descriptor gives it this media type, if any."""
    own = value.get("mediaType") if isinstance(value, dict) else None
    if None not in (media_type, own) and media_type != own:
        raise Misshapen(f"isn't {media_type}, which its descriptor says", "mediaType")
    is_index = (media_type or own) in INDEX_TYPES
    if media_type is None and own is None:
        is_index = isinstance(value, dict) and "manifests" in value
    return index_of(value) if is_index else manifest_of(value)


def saved_images_of(value: Json) -> list[SavedImage]:
    """The images that a `manifest.json` of `docker save` lists."""
    _SAVED.require(value)
    return [SavedImage(it["Config"], it["Layers"], it.get("RepoTags") or ()) for it in value]


def require_configuration(value: Json) -> None:
    """Refuses what is no image's configuration."""
    _CONFIGURATION.require(value)


def layer_digests(configuration: Mapping[str, Json]) -> list[Digest] | None:
    """The digests of its layers' unpacked bytes, if a configuration has them."""
    rootfs = configuration.get("rootfs")
    if rootfs is None:
        return None
    if rootfs.get("diff_ids") is None:
        raise Misshapen("is missing", "rootfs", "diff_ids")
    try:
        return _each(rootfs, "diff_ids", digest_parts)
    except Misshapen as problem:
        raise problem.below("rootfs") from None


def _descriptor(value: Json) -> Descriptor:
    if value["size"] < 0:
        raise Misshapen("is negative", "size")
    return Descriptor(
        _one(value, "digest", digest_parts), value["size"], value.get("mediaType"), value.get("annotations") or {},
        value.get("platform") or {}, value,
    )


def _one(value: Json, name: str | int, decode: Callable[[Json], _T]) -> _T:
    try:
        return decode(value[name])
    except Misshapen as problem:
        raise problem.below(name) from None


def _each(value: Json, name: str, decode: Callable[[Json], _T]) -> list[_T]:
    return _one(value, name, lambda items: [_one(items, number, decode) for number in range(len(items))])
