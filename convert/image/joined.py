"""An image of several platforms, put together of images of one each."""

import hashlib
import json
import os
from collections.abc import Sequence
from typing import IO

from ..common.contents import PIECE
from ..common.faults import cannot_read, reading
from .configuration import Document
from .image_files import BLOBS, ImageFiles, write_image_files
from .new_documents import put_list
from .new_layers import ALGORITHM
from .targets import Target


def join_images(layouts: Sequence[str], out: Target, name: str | None) -> None:
    """Writes an image with the blobs of OCI layouts that were written here, each of one image, and an index of these."""

    def write(files: ImageFiles) -> None:
        for layout in layouts:
            for digest in sorted(os.listdir(f"{layout}/{BLOBS}")):
                files.blob(lambda file, path=f"{layout}/{BLOBS}/{digest}": _copied(path, file))  # type: ignore[misc]
        put_list(files, out, list(map(_listed, layouts)), name)

    write_image_files(out, write)


def _listed(layout: str) -> Document:
    """What the index of a layout has of its image, without its name."""
    path = f"{layout}/index.json"
    with reading(path), open(path, "rb") as file:
        (listed,) = json.load(file)["manifests"]
    return {member: value for member, value in listed.items() if member != "annotations"}


def _copied(path: str, out: IO[bytes]) -> str:
    """Copies a blob, whose name is its digest; gives that."""
    digest = hashlib.new(ALGORITHM)
    with reading(path):
        file = open(path, "rb")
    with file:
        while piece := _read(file, path):
            digest.update(piece)
            out.write(piece)
    if digest.hexdigest() != os.path.basename(path):
        raise cannot_read(path, "its bytes changed meanwhile")
    return digest.hexdigest()


def _read(file: IO[bytes], path: str) -> bytes:
    with reading(path):
        return file.read(PIECE)
