"""Where a new image goes, and in which form: what the word of `--out` means."""

import re
import tempfile
from dataclasses import dataclass
from enum import Enum, auto

from ..common.faults import UsageFault
from ..common.outputs import STANDARD_OUTPUT

ARCHIVE_SUFFIX = ".tar"
_PACKED_SUFFIXES = (".gz", ".tgz", ".zst")
_PART = r"[a-z0-9]+(?:(?:\.|_|__|-+)[a-z0-9]+)*"
_HOST = r"[A-Za-z0-9][A-Za-z0-9.-]*(?::[0-9]+)?/"
DOCKER_NAME = re.compile(rf"(?:{_HOST})?{_PART}(?:/{_PART})*(:[A-Za-z0-9_][A-Za-z0-9_.-]{{0,127}})?")
_MAX_DOCKER_NAME = 255


class Form(Enum):
    """The forms of an image in files."""

    LAYOUT = auto()  # a folder: an OCI image layout
    ARCHIVE = auto()  # the same as one tar archive, with what docker reads too
    COPY = auto()  # a folder as skopeo's `dir:`


TRANSPORTS = {"oci": Form.LAYOUT, "oci-archive": Form.ARCHIVE, "docker-archive": Form.ARCHIVE, "dir": Form.COPY}
_DOCKER = "docker-archive"
_BY_SKOPEO = "write oci:DIR, and hand it on by `skopeo copy oci:DIR"
# What skopeo can write to and this doesn't, and what to say in its place.
_ELSEWHERE = {
    "docker": f"{_BY_SKOPEO} docker://NAME`",
    "docker-daemon": "say `--out - | docker load`",
    "containers-storage": "say `--out - | podman load`",
    "tarball": f"say docker-archive:FILE{ARCHIVE_SUFFIX}",
    "sif": f"{_BY_SKOPEO} sif:FILE`",
    "ostree": f"{_BY_SKOPEO} ostree:NAME`",
}
_OF_OTHERS = (".squashfs", ".sqfs", ".sqsh", ".img", ".raw", ".iso", ".ext4", ".qcow2", ".vmdk")


@dataclass(frozen=True)
class Target:
    """Where a new image goes. `word` is what names it, without a tag."""

    word: str
    path: str
    form: Form
    tag: str | None = None
    given: str = ""  # the path that a person gave, if it is made elsewhere first

    @property
    def is_standard_output(self) -> bool:
        """Whether its bytes go to standard output, and nothing else does."""
        return self.form is Form.ARCHIVE and self.path == STANDARD_OUTPUT

    @property
    def is_path(self) -> bool:
        """Whether it is named as a path, and not as skopeo does it."""
        return self.word.partition(":")[0] not in TRANSPORTS

    @property
    def label(self) -> str:
        """Its place as a person named it."""
        path = self.given or self.path
        return "standard output" if path == STANDARD_OUTPUT and self.form is Form.ARCHIVE else path

    @property
    def place(self) -> str:
        """A path beside which it is made."""
        return f"{tempfile.gettempdir()}/{STANDARD_OUTPUT}" if self.is_standard_output else self.path

    def docker_names(self, name: str | None) -> list[str]:
        """The names that docker gives an image of this name: none if it isn't one that docker takes.

        A name without a tag, as in many layouts, is a tag, and only to `docker-archive:` the name of an image.
        """
        is_name = name is not None and (":" in name or "/" in name or self.word.startswith(f"{_DOCKER}:"))
        found = DOCKER_NAME.fullmatch(name) if is_name and name and len(name) <= _MAX_DOCKER_NAME else None
        return [] if found is None else [found[0] if found[1] else f"{found[0]}:latest"]


def target_of(word: str) -> Target:
    """What a word means: a path, or as skopeo has it: `oci:PATH:TAG`."""
    transport, colon, rest = word.partition(":")
    if not colon or transport not in TRANSPORTS:
        _require_path(word)
        path = _without_slashes(word)
        is_archive = path == STANDARD_OUTPUT or path.endswith((ARCHIVE_SUFFIX, *_PACKED_SUFFIXES))
        return _checked(Target(word, path, Form.ARCHIVE if is_archive else Form.LAYOUT))
    form = TRANSPORTS[transport]
    path, _, tag = (rest, "", "") if form is Form.COPY else rest.partition(":")
    return _checked(Target(f"{transport}:{path}", _without_slashes(path), form, tag or None))


def _require_path(word: str) -> None:
    """Refuses a word that means something else to who writes it than a path where an image can be written."""
    transport, colon, _ = word.partition(":")
    if colon and transport in _ELSEWHERE:
        raise UsageFault(f"--out {word}: {_ELSEWHERE[transport]}")
    name = DOCKER_NAME.fullmatch(word)
    if name and name[1] and "/" not in word:
        raise UsageFault(
            f"--out {word} is an image's name: say docker-archive:FILE.tar:{word} or oci:DIR:TAG (./{word} is a folder)"
        )
    if word.endswith(_OF_OTHERS):
        raise UsageFault(
            f"--out {word}: an image is written as a folder or a {ARCHIVE_SUFFIX} (oci:{word} is a folder of this name); "
            "`layers flatten --rootfs` writes a squashfs"
        )


def _without_slashes(path: str) -> str:
    return path.rstrip("/") or path[:1]


def _checked(target: Target) -> Target:
    if target.form is Form.ARCHIVE and target.path.endswith(_PACKED_SUFFIXES):
        raise UsageFault(
            f"{target.path}: an archive isn't packed as a whole; name a {ARCHIVE_SUFFIX}, --compress packs its layers"
        )
    if target.tag is not None and target.word.startswith(f"{_DOCKER}:") and not target.docker_names(target.tag):
        raise UsageFault(f"{target.tag} is no name that docker takes")
    return target
