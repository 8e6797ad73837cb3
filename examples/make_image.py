#!/usr/bin/env python3
"""Writes a small OCI image layout of three layers into a new folder, the same bytes each time:

    examples/make_image.py DIR

`examples/image` is what it writes. The lowest layer is a small system, the second changes it (a file removed, a
directory replaced), and the third adds to it. Python 3.11 and its standard library; no network.
"""

import hashlib
import io
import json
import os
import sys
import tarfile

Member = tuple[tarfile.TarInfo, bytes]
MEDIA = "application/vnd.oci.image"


def folder(name: str, mode: int = 0o755) -> Member:
    """A directory."""
    return _member(name, tarfile.DIRTYPE, b"", mode)


def file(name: str, text: str, mode: int = 0o644) -> Member:
    """A file."""
    return _member(name, tarfile.REGTYPE, text.encode(), mode)


def link(name: str, target: str) -> Member:
    """A symlink."""
    info, data = _member(name, tarfile.SYMTYPE, b"", 0o777)
    info.linkname = target
    return info, data


def hard_link(name: str, target: str) -> Member:
    """A second name of a file."""
    info, data = _member(name, tarfile.LNKTYPE, b"", 0o755)
    info.linkname = target
    return info, data


def _member(name: str, kind: bytes, data: bytes, mode: int) -> Member:
    info = tarfile.TarInfo(name)
    info.type, info.size, info.mode, info.mtime = kind, len(data), mode, 1_700_000_000
    return info, data


LAYERS: list[list[Member]] = [
    [
        folder("bin"), file("bin/sh", "a shell\n", 0o755), hard_link("bin/ash", "bin/sh"), folder("etc"),
        file("etc/motd", "Welcome\n"), file("etc/old.conf", "old=1\n"), folder("etc/app"),
        file("etc/app/a.conf", "a=1\n"), file("etc/app/b.conf", "b=1\n"), folder("tmp", 0o1777),
    ],
    [folder("etc"), file("etc/.wh.old.conf", ""), folder("etc/app"), file("etc/app/.wh..wh..opq", ""),
     file("etc/app/c.conf", "c=1\n")],
    [folder("srv"), file("srv/hello", "hello\n"), link("srv/motd", "../etc/motd"), folder("etc"),
     file("etc/motd", "Welcome\n")],
]
# What made each layer, the lowest first.
MADE_BY = ["COPY rootfs /", "RUN rm -r /etc/old.conf /etc/app && install-app", "COPY srv /srv"]


def archive(members: list[Member]) -> bytes:
    """The bytes of a layer."""
    out = io.BytesIO()
    with tarfile.open(fileobj=out, mode="w", format=tarfile.USTAR_FORMAT) as tar:
        for info, data in members:
            tar.addfile(info, io.BytesIO(data))
    return out.getvalue()


def describe(path: str, kind: str, data: bytes) -> dict[str, object]:
    """Writes a blob; gives what a manifest says of it."""
    digest = hashlib.sha256(data).hexdigest()
    with open(f"{path}/blobs/sha256/{digest}", "wb") as out:
        out.write(data)
    return {"mediaType": f"{MEDIA}.{kind}", "digest": f"sha256:{digest}", "size": len(data)}


def write_document(path: str, value: object) -> None:
    """Writes a JSON document."""
    with open(path, "w", encoding="utf-8") as out:
        json.dump(value, out)


def main(words: list[str]) -> int:
    """Writes the image."""
    if len(words) != 1:
        print("usage: examples/make_image.py DIR", file=sys.stderr)
        return 2
    path = words[0]
    os.makedirs(f"{path}/blobs/sha256")
    plain = [archive(members) for members in LAYERS]
    config = {
        "architecture": "amd64", "os": "linux", "config": {"Cmd": ["/bin/sh"], "Env": ["PATH=/bin"]},
        "history": [{"created_by": line} for line in MADE_BY],
        "rootfs": {"type": "layers", "diff_ids": [f"sha256:{hashlib.sha256(data).hexdigest()}" for data in plain]},
    }
    manifest = {
        "schemaVersion": 2, "mediaType": f"{MEDIA}.manifest.v1+json",
        "config": describe(path, "config.v1+json", json.dumps(config).encode()),
        "layers": [describe(path, "layer.v1.tar", data) for data in plain],
    }
    listed = describe(path, "manifest.v1+json", json.dumps(manifest).encode())
    write_document(f"{path}/index.json", {"schemaVersion": 2, "manifests": [listed]})
    write_document(f"{path}/oci-layout", {"imageLayoutVersion": "1.0.0"})
    return 0


if __name__ == "__main__":
    sys.exit(main(sys.argv[1:]))
