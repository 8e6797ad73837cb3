"""The documents of new images: configurations, manifests and the index, and what docker and skopeo read beside these."""

import hashlib
import json
from collections.abc import Mapping, Sequence
from dataclasses import dataclass
from typing import Any

from ..common.progress import note_path
from .compression import GZIP, NONE, PLAIN, ZSTD, Compression
from .configuration import Document, platform_of
from .image_files import BLOBS, ImageFiles
from .images import REF_NAME
from .new_layers import ALGORITHM
from .targets import Form, Target

_INDEX_TYPE = "application/vnd.oci.image.index.v1+json"
_DOCKER_LIST_TYPE = "application/vnd.docker.distribution.manifest.list.v2+json"
_LAYOUT = {"imageLayoutVersion": "1.0.0"}
_SAVED = "manifest.json"  # of docker's archives, and of skopeo's dir:
_COPY = b"Directory Transport Version: 1.1\n"


@dataclass(frozen=True)
class MediaTypes:
    """The media types of an image's manifest, configuration and plain layers, what joins a method of packing to these, and
    which methods tools know so."""

    manifest: str
    configuration: str
    layer: str
    joint: str
    methods: tuple[str, ...]

    def of_layer(self, compression: Compression) -> str:
        """That of a layer that is packed so."""
        return self.layer if compression == PLAIN else f"{self.layer}{self.joint}{compression.method}"


OCI = MediaTypes(
    "application/vnd.oci.image.manifest.v1+json", "application/vnd.oci.image.config.v1+json",
    "application/vnd.oci.image.layer.v1.tar", "+", (NONE, GZIP, ZSTD),
)
_DOCKER = MediaTypes(
    "application/vnd.docker.distribution.manifest.v2+json", "application/vnd.docker.container.image.v1+json",
    "application/vnd.docker.image.rootfs.diff.tar", ".", (NONE, GZIP),
)


def types_beside(layers: Sequence[Mapping[str, Any]]) -> MediaTypes:
    """The types of an image that has layers of these descriptors: docker's if one of them has docker's, else OCI's."""
    is_docker = any(str(layer.get("mediaType")).startswith("application/vnd.docker.") for layer in layers)
    return _DOCKER if is_docker else OCI


@dataclass(frozen=True, kw_only=True)
class NewImage:
    """What an image is of: the descriptors of its layers, the lowest first, and what is said of it."""

    layers: Sequence[Document]
    configuration: Document
    annotations: Mapping[str, str]
    types: MediaTypes
    name: str | None


@dataclass(frozen=True)
class Listed:
    """An image whose blobs are there: what an index lists of it, and what docker's list has."""

    described: Document
    saved: Document


def put_image(files: ImageFiles, out: Target, image: NewImage) -> Listed:
    """Writes an image's configuration and manifest."""
    manifest: Document = {
        "schemaVersion": 2, "mediaType": image.types.manifest,
        "config": _put(files, out, image.types.configuration, image.configuration), "layers": list(image.layers),
    }
    if image.annotations:
        manifest["annotations"] = dict(image.annotations)
    if out.form is Form.COPY:
        _put_copy(files, out, manifest, image.name)
        return Listed({}, {})
    described = _put(files, out, image.types.manifest, manifest) | {"platform": platform_of(image.configuration)}
    if image.name is not None:
        described["annotations"] = {REF_NAME: image.name}
    parts = (manifest["config"], *manifest["layers"])
    config, *layers = (blob_name(out, part["digest"].partition(":")[2]) for part in parts)
    return Listed(described, {"Config": config, "RepoTags": out.docker_names(image.name) or None, "Layers": layers})


def _put_copy(files: ImageFiles, out: Target, manifest: Document, name: str | None) -> None:
    """What a folder of skopeo's `dir:` has beside the blobs."""
    if name is not None:
        note_path(out.label, f"a folder dir: has no place for the name {name}")
    files.put(_SAVED, _json(manifest))
    files.put("version", _COPY)


def put_index(files: ImageFiles, out: Target, images: Sequence[Listed]) -> None:
    """Writes what lists the images of a layout, and in an archive what docker reads."""
    if out.form is Form.COPY:
        return
    index = {"schemaVersion": 2, "mediaType": _INDEX_TYPE, "manifests": [image.described for image in images]}
    files.put("index.json", _json(index))
    if out.form is Form.ARCHIVE:
        files.put(_SAVED, _json([image.saved for image in images]))
    files.put("oci-layout", _json(_LAYOUT))


def put_list(files: ImageFiles, out: Target, images: Sequence[Document], name: str | None) -> None:
    """Writes what lists the images of several platforms as one, of this name."""
    is_docker = all(image["mediaType"] == _DOCKER.manifest for image in images)
    kind = _DOCKER_LIST_TYPE if is_docker else _INDEX_TYPE
    listed = _put(files, out, kind, {"schemaVersion": 2, "mediaType": kind, "manifests": list(images)})
    if name is not None:
        listed["annotations"] = {REF_NAME: name}
    files.put("index.json", _json({"schemaVersion": 2, "mediaType": _INDEX_TYPE, "manifests": [listed]}))
    files.put("oci-layout", _json(_LAYOUT))


def _json(value: Any) -> bytes:
    return json.dumps(value, separators=(",", ":"), sort_keys=True, ensure_ascii=False).encode()


def descriptor(kind: str, digest: str, size: int) -> Document:
    """What refers to a blob."""
    return {"mediaType": kind, "digest": f"{ALGORITHM}:{digest}", "size": size}


def blob_name(out: Target, digest: str) -> str:
    """Where an image has a blob."""
    return digest if out.form is Form.COPY else f"{BLOBS}/{digest}"


def _put(files: ImageFiles, out: Target, kind: str, document: Document) -> Document:
    """Writes a document as a blob of the image; gives its descriptor."""
    data = _json(document)
    digest = hashlib.new(ALGORITHM, data).hexdigest()
    files.put(blob_name(out, digest), data)
    return descriptor(kind, digest, len(data))
