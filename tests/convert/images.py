"""Images for tests, written by the standard library's tarfile and json."""

import gzip
import hashlib
import io
import json
import os
import subprocess
import tarfile
from collections.abc import Iterable

from support import ROOT  # noqa: F401

REGULAR = tarfile.REGTYPE


def member(
    name: str, data: bytes = b"", kind: bytes = REGULAR, target: str = "", mode: int = 0o644,
    pax: dict[str, str] | None = None,
) -> tuple[tarfile.TarInfo, bytes]:
    """An entry of a layer's archive."""
    info = tarfile.TarInfo(name)
    info.type, info.size, info.linkname, info.mode = kind, len(data), target, mode
    info.pax_headers = pax or {}
    return info, data


def folder(
    name: str, mode: int = 0o755, pax: dict[str, str] | None = None
) -> tuple[tarfile.TarInfo, bytes]:
    """A directory in a layer's archive."""
    return member(name, kind=tarfile.DIRTYPE, mode=mode, pax=pax)


def archive(members: Iterable[tuple[tarfile.TarInfo, bytes]]) -> bytes:
    """The bytes of a layer's archive."""
    out = io.BytesIO()
    with tarfile.open(fileobj=out, mode="w", format=tarfile.PAX_FORMAT) as file:
        for info, data in members:
            file.addfile(info, io.BytesIO(data))
    return out.getvalue()


def _sha256(data: bytes) -> str:
    return hashlib.sha256(data).hexdigest()


def _put(path: str, data: bytes) -> str:
    os.makedirs(f"{path}/blobs/sha256", exist_ok=True)
    digest = _sha256(data)
    with open(f"{path}/blobs/sha256/{digest}", "wb") as file:
        file.write(data)
    return f"sha256:{digest}"


def _describe(path: str, kind: str, data: bytes) -> dict[str, object]:
    return {"mediaType": f"application/vnd.oci.image.{kind}", "digest": _put(path, data), "size": len(data)}


def _packing(data: bytes) -> str:
    """The end of a layer's media type."""
    kinds = {b"\x1f\x8b": "+gzip", b"\x28\xb5\x2f\xfd": "+zstd"}
    return next((kind for magic, kind in kinds.items() if data.startswith(magic)), "")


def put_manifest(
    path: str, layers: list[bytes], unpacked: list[bytes] | None, platform: str,
    config: dict[str, object] | None = None, annotations: dict[str, str] | None = None,
) -> dict[str, object]:
    """Writes an image's manifest and blobs; gives its descriptor."""
    system, architecture = platform.split("/")
    config = dict(config or {"os": system, "architecture": architecture})
    if unpacked is not None:
        config["rootfs"] = {"type": "layers", "diff_ids": [f"sha256:{_sha256(data)}" for data in unpacked]}
    manifest: dict[str, object] = {
        "schemaVersion": 2,
        "config": _describe(path, "config.v1+json", json.dumps(config).encode()),
        "layers": [_describe(path, f"layer.v1.tar{_packing(data)}", data) for data in layers],
    }
    if annotations is not None:
        manifest["annotations"] = annotations
    descriptor = _describe(path, "manifest.v1+json", json.dumps(manifest).encode())
    return {**descriptor, "platform": {"os": system, "architecture": architecture}}


def put_index(path: str, manifests: list[dict[str, object]]) -> None:
    """Writes the index of a layout."""
    with open(f"{path}/index.json", "w", encoding="utf-8") as file:
        json.dump({"schemaVersion": 2, "manifests": manifests}, file)
    with open(f"{path}/oci-layout", "w", encoding="utf-8") as file:
        json.dump({"imageLayoutVersion": "1.0.0"}, file)


def write_layout(path: str, layers: list[bytes], unpacked: list[bytes] | None = None) -> None:
    """An OCI image layout of these layers, the lowest first."""
    os.makedirs(path, exist_ok=True)
    put_index(path, [put_manifest(path, layers, unpacked, "linux/amd64")])


def write_saved(
    path: str, layers: list[bytes], more: dict[str, object] | None = None, name: str = "layer.tar"
) -> None:
    """What `docker save` wrote before it wrote OCI layouts: a folder for each layer, links for equal ones."""
    config = json.dumps({
        **(more or {"os": "linux", "architecture": "amd64"}),
        "rootfs": {"type": "layers", "diff_ids": [f"sha256:{_sha256(data)}" for data in layers]},
    }).encode()
    names = [f"{number:064x}/{name}" for number in range(len(layers))]
    listed = [{"Config": f"{_sha256(config)}.json", "RepoTags": ["small:latest"], "Layers": names}]
    with tarfile.open(path, "w") as file:
        seen: dict[bytes, str] = {}
        for name, data in zip(names, layers):
            if data in seen:
                info, data = member(name, kind=tarfile.SYMTYPE, target=f"../{seen[data]}")
            else:
                seen[data] = name
                info, data = member(name, data)
            file.addfile(info, io.BytesIO(data))
        for name, data in ((f"{_sha256(config)}.json", config), ("manifest.json", json.dumps(listed).encode())):
            file.addfile(*(lambda info: (info, io.BytesIO(data)))(member(name, data)[0]))


def is_document(path: str) -> bool:
    """Whether a file of a layout is a document and no archive."""
    with open(path, "rb") as file:
        return file.read(1) == b"{"


def packed(data: bytes) -> bytes:
    """By gzip."""
    return gzip.compress(data, mtime=0)


def packed_by_zstd(data: bytes) -> bytes:
    """By the program zstd."""
    return subprocess.run(["zstd", "--quiet", "--stdout"], input=data, check=True, capture_output=True).stdout
