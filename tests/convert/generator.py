"""Random layers, the same for the same seed."""

import hashlib
import os
import random
import stat
from dataclasses import dataclass, field

from support import ROOT  # noqa: F401  (sets the path of the modules)

from convert.model import rules
from convert.model.entries import BLOCK, CHAR, DIRECTORY, FIFO, FILE, HOST_MARKS, SOCKET, SYMLINK, Entry, named
from convert.model.manifests import written
from convert.model.times import ONE_SECOND

_NAMES = (
    "a", "b", "bin", "etc", "x.conf", "a b", " ", "back\\slash", "quote\"d", "é", "日本", "new\nline",
    "tab\t", "\x01", "\x7f", "a-b", "a.b", "\U0001f600", "=", "-", "n" * 255, "ü" * 100, "~", "{}",
)
_TARGETS = ("a", "../x y", "/etc/é", "back\\slash", "t" * 300, "/" * 200, "\n")
_MARKS = (
    ("trusted.overlay.opaque", b"y"), ("trusted.overlay.opaque", b"x"), ("trusted.overlay.impure", b"y"),
    ("trusted.overlay.origin", bytes(range(29))), ("trusted.overlay.opaque", b"z"),
)
_REDIRECTS = (b"/x/y", b"r", b"", b"/", b"a/b", "/é".encode(), b"/a\xff")


@dataclass(frozen=True)
class Style:
    """What a random layer may have."""

    is_root: bool = True  # owners, devices, attributes of trusted.* and security.*
    is_image: bool = False  # only what an image can state
    user_attributes: bool = True


@dataclass
class RandomLayer:
    """A layer and the contents that it names."""

    entries: list[Entry]
    contents: dict[str, bytes] = field(default_factory=dict)

    def manifest(self) -> bytes:
        """The layer's written text."""
        return "".join(written(named(self.entries))).encode()


class Generator:
    """Makes layers one after the other."""

    def __init__(self, seed: int, style: Style) -> None:
        self._random = random.Random(seed)
        self._style = style
        self._contents: dict[str, bytes] = {}

    def layer(self) -> RandomLayer:
        """A layer of 1 to about 30 entries."""
        self._contents = {}
        root = self._plain("/", DIRECTORY)
        root.attributes = self._attributes(DIRECTORY, True)
        entries = {"/": root}
        for _ in range(self._random.randrange(30)):
            parents = [path for path, entry in entries.items() if entry.kind == DIRECTORY]
            parent = self._random.choice(parents).rstrip("/")
            path = f"{parent}/{self._random.choice(_NAMES)}"
            if path not in entries and not rules.path_problem(path, path.count("/")):
                entries[path] = self._entry(path)
        ordered = sorted(entries.values(), key=lambda entry: rules.path_key(entry.path))
        return RandomLayer([self._fit(entry) for entry in ordered], self._contents)

    def _plain(self, path: str, kind: str) -> Entry:
        pick = self._random
        entry = Entry(path, kind, pick.choice((0o755, 0o644, 0o700, 0o2750, 0o4755, 0o1777, 0o600)))
        if self._style.is_root:
            entry.mode = pick.choice((entry.mode, pick.randrange(0o10000)))
            entry.uid = pick.choice((0, 33, 1000, 4_000_000_000, 2**32 - 2))
            entry.gid = pick.choice((0, 33, 1000, 2_097_152))
        else:
            entry.uid, entry.gid, entry.mode = os.geteuid(), os.getegid(), entry.mode | 0o700
        seconds = pick.choice((0, 1, -1, 1_700_000_000, 2**31, 2**33, pick.randrange(2**32)))
        below = pick.choice((0, 0, 1, 500_000_000, ONE_SECOND - 1, pick.randrange(ONE_SECOND)))
        # The earliest time of ext4, which it has with no nanoseconds.
        entry.mtime_ns = pick.choice((-(2**31) * ONE_SECOND, *[seconds * ONE_SECOND + below] * 7))
        return entry

    def _entry(self, path: str) -> Entry:
        kinds = [DIRECTORY] * 5 + [FILE] * 6 + [SYMLINK] * 2 + [CHAR, FIFO]
        if self._style.is_root:
            kinds += [BLOCK, CHAR]
        if not self._style.is_image:
            kinds.append(SOCKET)
        kind = self._random.choice(kinds)
        entry = self._plain(path, kind)
        entry.attributes = self._attributes(kind, False)
        if kind == FILE:
            self._fill(entry)
        elif kind == SYMLINK:
            entry.mode, entry.target = 0o777, self._random.choice(_TARGETS)
        elif kind in (CHAR, BLOCK):
            self._number(entry)
        elif kind == DIRECTORY and not self._style.is_image and self._random.random() < 0.2:
            entry.attributes["trusted.overlay.redirect"] = self._random.choice(_REDIRECTS)
        return entry

    def _fill(self, entry: Entry) -> None:
        pick = self._random
        sort = pick.random()
        if sort < 0.1:
            entry.attributes["trusted.overlay.whiteout"] = pick.choice((b"", b"y"))
        elif sort < 0.25 and not self._style.is_image:
            entry.size = pick.choice((0, 1, 5, 1_000_000))
            entry.attributes["trusted.overlay.metacopy"] = pick.choice((b"", b"\0\4\0\0"))
            if pick.random() < 0.5:
                entry.attributes["trusted.overlay.redirect"] = pick.choice(_REDIRECTS)
        elif sort < 0.85:
            contents = pick.randbytes(pick.choice((1, 3, 511, 512, 513, 5_000, 300_000 if sort < 0.3 else 9)))
            entry.size, entry.blob = len(contents), hashlib.sha256(contents).hexdigest()
            self._contents[entry.blob] = contents

    def _number(self, entry: Entry) -> None:
        if entry.kind == CHAR and (self._random.random() < 0.6 or not self._style.is_root):
            entry.mode = 0
        else:
            entry.major, entry.minor = self._random.choice(((0, 1), (5, 1), (8, 0), (4_095, 1_048_575)))

    def _attributes(self, kind: str, is_root: bool) -> dict[str, bytes]:
        attributes: dict[str, bytes] = {}
        holds_user = kind in (DIRECTORY, FILE)
        if self._random.random() < 0.4:
            choices = []
            if self._style.user_attributes and holds_user:
                choices += [("user.k", b"\1"), ("user.é \\", b""), ("user.long", bytes(range(256)))]
            if self._style.is_root:
                choices += [("trusted.k", b"\xff\0"), ("security.k", b"s"), *_MARKS]
            elif holds_user:
                choices += _MARKS
            if self._style.is_image:
                choices = [choice for choice in choices if choice[0] not in HOST_MARKS]
            for name, value in self._random.sample(choices, min(len(choices), 2)):
                attributes[name] = value
        if kind == DIRECTORY and not is_root and self._random.random() < 0.2:
            attributes["trusted.overlay.opaque"] = b"y"
        return attributes

    def _fit(self, entry: Entry) -> Entry:
        """The entry as an archive of an image can state it."""
        if self._style.is_image and entry.kind == CHAR and (entry.major, entry.minor) == (0, 0):
            entry.mode = 0
        return entry


def write_layer(layer: RandomLayer, manifest: str, blobs: str) -> None:
    """Writes a layer's manifest and the contents that it names."""
    os.makedirs(blobs, exist_ok=True)
    with open(manifest, "wb") as file:
        file.write(layer.manifest())
    for digest, contents in layer.contents.items():
        with open(os.path.join(blobs, digest), "wb") as file:
            file.write(contents)


def is_readable(entry: Entry) -> bool:
    """Whether its owner may read and enter it."""
    return bool(entry.mode & stat.S_IRUSR)
