"""What somebody names for an image and is none: what it looks like, and what to say in its place."""

import os
import re
from collections.abc import Set

from ..model import stacks
from .targets import DOCKER_NAME

HEAD_BYTES = 1 << 16  # that are looked at
_SQUASHFS = b"hsqs"
_STACK = "a layer is named by --stack"
_FILE_SYSTEM = "a file system: mount it, and name the folders or files of its layers by --stack"
# Where a file has which bytes, and what it is then.
_LOOKS = (
    (0, _SQUASHFS, "a squashfs, which is a layer and no image: say --stack {path}"),
    (0x8001, b"CD001", "an ISO image: the layers of a live system are the squashfs files in it, named by --stack"),
    (0x438, b"\x53\xef", _FILE_SYSTEM),
    (0, b"QFI\xfb", "the disk of a virtual machine, which isn't read"),
    (0, b"PK\x03\x04", "a zip archive, which isn't read"),
    (0, b"\x7fELF", "a program"),
)
_FROM = re.compile(r"^\s*FROM\s+\S+", re.MULTILINE | re.IGNORECASE)
_DOCKERFILES = frozenset(["Dockerfile", "Containerfile"])
_BUILD = "build the image (`docker build -t NAME .`), then name it docker-daemon:NAME"
_ROOT_NAMES = frozenset(["bin", "etc", "lib", "sbin", "usr", "var"])
_LEAST_ROOT_NAMES = 3
_OTHER_TRANSPORTS = ("docker:", "ostree:", "sif:", "tarball:")


def instead_of_absent(word: str) -> str:
    """What to say in place of a word that names no file, if it looks like the name of an image."""
    if word.startswith(_OTHER_TRANSPORTS) and not word.startswith("docker://"):
        return f"; copy it by `skopeo copy {word} oci:DIR`, and name oci:DIR"
    name = DOCKER_NAME.fullmatch(word)
    folder, _, last = word.rpartition("/")
    if name is None or os.path.isdir(folder) or not name[1] and "." in last:
        return ""
    return f"; an image in docker is docker-daemon:{word}, one in a registry docker://{word}"


def look_of_file(head: bytes, path: str) -> str | None:
    """What a file looks like that begins with these bytes and is no tar archive."""
    if not head:
        return "it is empty"
    found = next((look for begin, magic, look in _LOOKS if head.startswith(magic, begin)), None)
    if found is not None:
        return f"it is {found.format(path=path)}"
    text = _text_of(head)
    if text is None:
        return None
    if text.lstrip().startswith("{"):
        return f"it is a JSON text; {_STACK}, by its manifest too"
    return f"it is a Dockerfile: {_BUILD}" if _FROM.search(text) else "it is a text"


def _text_of(head: bytes) -> str | None:
    text = head.decode("utf-8", "ignore" if len(head) == HEAD_BYTES else "replace")
    is_text = "\ufffd" not in text and all(letter.isprintable() or letter in "\t\r\n\f" for letter in text)
    return text if is_text else None


def look_of_names(names: Set[str], path: str) -> str:
    """What a folder or an archive looks like that is no image and has these names at its top."""
    if stacks.SHOWN_LINKS in names:
        return "it is a folder that unpack wrote, a stack of manifests"
    if "repositories" in names and "manifest.json" not in names:
        return "docker before 1.10 saved it so: load it into docker (`docker load`), and save it again"
    if not _DOCKERFILES.isdisjoint(names):
        return f"there is a Dockerfile: {_BUILD}"
    if len(_ROOT_NAMES & names) >= _LEAST_ROOT_NAMES:
        return f"it looks like a root directory, which is a layer: say --stack {path}"
    if "blobs" in names or "oci-layout" in names:
        return "neither index.json nor manifest.json is there: it is cut off, or a part of an image"
    if not names:
        return "nothing is in it"
    return f"neither index.json (OCI image layout) nor manifest.json (docker save) is there; {_STACK}"
