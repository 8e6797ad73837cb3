"""Stacks that the kernel's overlayfs makes, compared with what is scanned of them.

    unshare --mount --propagation private python3 kernel_stacks.py KIND FOLDER SEED COUNT [PROGRAM..]

Runs in a mount namespace of its own, so its mounts end with it. Each stack is made by mounting an
overlay and working in it, layer on layer, in folders that lie as docker's overlay2 has them. Then the tree
that the kernel shows must be the one that it shows of the folders built from the scanned manifests, and
the one that PROGRAM shows of the manifests; and `store` must write the manifests that `scan` does.
KIND is `plain`, or `data-only` for stacks over layers that have the contents of the others' files.
"""

import contextlib
import errno
import filecmp
import itertools
import json
import os
import random
import shutil
import stat
import subprocess
import sys
from collections.abc import Callable, Iterable, Iterator
from difflib import unified_diff

from support import call

from convert.model.times import ONE_SECOND

_NAMES = ("a", "b", "c", "d", "e f", "é", "back\\slash")
MAKING = "redirect_dir=on,metacopy=on"
_LOOKING = "redirect_dir=follow,metacopy=on"
_ALLOWED = (errno.EEXIST, errno.ENOTEMPTY, errno.EINVAL, errno.EXDEV, errno.ENOENT, errno.EISDIR, errno.ENOTDIR)


def mount(kind: str, place: str, options: str) -> None:
    """Mounts, or raises CalledProcessError."""
    subprocess.run(["mount", "-t", kind, "-o", options, "layers-test", place], check=True)


@contextlib.contextmanager
def mounted_overlay(
    place: str, layers: list[str], data_only: list[str], options: str, work: str | None = None
) -> Iterator[None]:
    """An overlay of folders, the topmost first, over data-only ones; if there is a work folder, it can be written."""
    upper = f"upperdir={layers[0]},workdir={work}," if work else ""
    lower = "::".join([":".join(layers[1:] if work else layers), *data_only])
    mount("overlay", place, f"{upper}lowerdir={lower},{options}")
    try:
        yield
    finally:
        subprocess.run(["umount", place], check=True)


class Worker:
    """Does things in a folder at random."""

    def __init__(self, pick: random.Random, root: str) -> None:
        self._pick = pick
        self._root = root
        self._count = itertools.count()

    def work(self, steps: int) -> None:
        """Does this many things. What the system refuses because of what is there is passed over."""
        deeds: list[Callable[[], None]] = [
            self._create, self._create, self._mkdir, self._mkdir, self._rename_directory, self._rename_directory,
            self._rename_file, self._chmod, self._chmod, self._unlink, self._make_again, self._link, self._append,
            self._symlink, self._device, self._attribute, self._move_into_new,
        ]
        for _ in range(steps):
            try:
                self._pick.choice(deeds)()
            except OSError as error:
                if error.errno not in _ALLOWED:
                    raise

    def _paths(self, want_directories: bool) -> list[str]:
        found = []
        for folder, directories, files in os.walk(self._root):
            found += [os.path.join(folder, name) for name in (directories if want_directories else files)]
        return sorted(path for path in found if not os.path.islink(path) or not want_directories)

    def _directory(self) -> str:
        return self._pick.choice([self._root, *self._paths(True)])

    def _one(self, directories: bool) -> str:
        paths = self._paths(directories)
        if not paths:
            raise FileNotFoundError(errno.ENOENT, "nothing there")
        return self._pick.choice(paths)

    def _new(self) -> str:
        return os.path.join(self._directory(), self._pick.choice(_NAMES))

    def _create(self) -> None:
        path = self._new()
        if not os.path.lexists(path):
            with open(path, "xb") as file:
                file.write(self._pick.randbytes(self._pick.choice((0, 1, 100, 70_000))))
            self._age(path)

    def _age(self, path: str) -> None:
        seconds = self._pick.choice((-5, 0, 1_600_000_000, self._pick.randrange(2**31)))
        time = seconds * ONE_SECOND + self._pick.choice((0, 1, ONE_SECOND - 1, self._pick.randrange(ONE_SECOND)))
        os.utime(path, ns=(time, time), follow_symlinks=False)

    def _mkdir(self) -> None:
        os.mkdir(self._new())

    def _rename_directory(self) -> None:
        os.rename(self._one(True), self._new())

    def _rename_file(self) -> None:
        os.rename(self._one(False), self._new())

    def _chmod(self) -> None:
        path = self._one(self._pick.random() < 0.3)
        if self._pick.random() < 0.5 and not os.path.islink(path):
            os.chmod(path, self._pick.choice((0o600, 0o755, 0o4711, 0o000)))
        else:
            os.chown(path, self._pick.choice((0, 33, 1000)), 7, follow_symlinks=False)

    def _unlink(self) -> None:
        os.unlink(self._one(False))

    def _make_again(self) -> None:
        path = self._one(True)
        shutil.rmtree(path)
        os.mkdir(path)
        if self._pick.random() < 0.5:
            with open(os.path.join(path, "new"), "wb") as file:
                file.write(b"new")

    def _move_into_new(self) -> None:
        path = self._one(True)
        new = self._new()
        os.mkdir(new)
        os.rename(path, os.path.join(new, self._pick.choice(_NAMES)))

    def _link(self) -> None:
        os.link(self._one(False), self._new(), follow_symlinks=False)

    def _append(self) -> None:
        path = self._one(False)
        if os.path.isfile(path) and not os.path.islink(path):
            with open(path, "ab") as file:
                file.write(b"more")

    def _symlink(self) -> None:
        path = self._new()
        os.symlink(self._pick.choice(("a", "/etc/é", "x y")), path)
        self._age(path)

    def _device(self) -> None:
        sort = self._pick.choice((0o20000, 0o60000, 0o10000, 0o140000))
        os.mknod(self._new(), sort | 0o600, os.makedev(1, 3) if sort in (0o20000, 0o60000) else 0)

    def _attribute(self) -> None:
        path = self._one(self._pick.random() < 0.5)
        name = self._pick.choice(("trusted.k", "security.k"))
        os.setxattr(path, name, self._pick.randbytes(3), follow_symlinks=False)


class Store:
    """A folder of layers, each above those that were made before it, laid out by docker's overlay2."""

    def __init__(self, home: str) -> None:
        self._home = home
        self._lowers: list[str] = []
        os.makedirs(f"{home}/l")

    def new_layer(self) -> str:
        """Makes the folder of one more layer, with an empty `diff`."""
        number = len(self._lowers)
        layer, name = f"{self._home}/{number:064x}", f"SHORT{number:021}"
        os.makedirs(f"{layer}/diff")
        os.symlink(f"../{number:064x}/diff", f"{self._home}/l/{name}")
        self._write(f"{layer}/link", name)
        if self._lowers:
            os.mkdir(f"{layer}/work")
            self._write(f"{layer}/lower", ":".join(self._lowers))
        self._lowers.insert(0, f"l/{name}")
        return layer

    def _write(self, path: str, text: str) -> None:
        with open(path, "x", encoding="utf-8") as file:
            file.write(text)


class Stack:
    """A stack in a folder of its own."""

    def __init__(self, folder: str, seed: int) -> None:
        self._folder = folder
        self._pick = random.Random(seed)
        self._store = Store(f"{folder}/overlay2")
        self._top = ""
        self._layers: list[str] = []
        self._data_only: list[str] = []

    def make(self) -> None:
        """Makes two to four layers; the lowest is a plain folder."""
        Worker(self._pick, self._begin_layer()).work(30)
        self._put_on_top(f"{self._top}/diff")
        for _ in range(self._pick.randrange(1, 4)):
            upper, place = self._begin_layer(), self._new("mnt")
            with mounted_overlay(place, [upper, *self._layers], self._data_only, MAKING, f"{self._top}/work"):
                Worker(self._pick, place).work(20)
            self._put_on_top(upper)

    def _begin_layer(self) -> str:
        self._top = self._store.new_layer()
        return f"{self._top}/diff"

    def _put_on_top(self, layer: str) -> None:
        self._layers.insert(0, layer)

    def compare(self, program: list[str]) -> list[str]:
        """What differs, line by line."""
        layers = self._layers + self._data_only
        shown = self._kernel(layers)
        manifests = [f"{self._folder}/l{number}.json" for number in range(len(layers))]
        built = [self._new(f"built{number}") for number in range(len(layers))]
        for layer, manifest, again in zip(layers, manifests, built):
            _done("scan", layer, "--out", manifest, "--blobs", f"{self._folder}/blobs")
            _done("build", manifest, "--blobs", f"{self._folder}/blobs", "--out", again)
        strange = self._stored_otherwise(manifests[:len(self._layers)], shown[1])
        again, names = self._kernel(built)
        strange += unified_diff(shown[1], names, lineterm="")
        others = [again]
        if program:
            bottom = ["--data-layers", str(len(self._data_only))] if self._data_only else []
            words = [*program, "show", *bottom, *manifests]
            result = subprocess.run(words, capture_output=True, text=True, check=False)
            others.append(result.stdout + result.stderr)
            blobs = ["--blobs", f"{self._folder}/blobs"]
            words = [*program, "fsck", *blobs, *bottom, *manifests]
            checked = subprocess.run(words, capture_output=True, text=True, check=False)
            faults = [line for line in checked.stdout.splitlines() if line.startswith("fault ")]
        else:
            faults = []
        return strange + faults + [
            line for other in others for line in unified_diff(shown[0].splitlines(), other.splitlines(), lineterm="")
        ]

    def _stored_otherwise(self, manifests: list[str], linked: list[str]) -> list[str]:
        """What `store` writes otherwise than `scan` and the kernel's links; it knows of no data-only layers."""
        stored = f"{self._folder}/stored"
        _done("store", self._top, "--out", stored)
        blobs = os.listdir(f"{stored if self._data_only else self._folder}/blobs")
        names = [*map(os.path.basename, manifests), *(f"blobs/{name}" for name in blobs)]
        _, other, unread = filecmp.cmpfiles(self._folder, stored, names, shallow=False)
        return other + unread + list(unified_diff(linked, shown_links(stored), lineterm=""))

    def _kernel(self, layers: list[str]) -> tuple[str, list[str]]:
        """What the kernel shows, and the names that are one file there."""
        place, count = self._new("mnt"), len(self._layers)
        with mounted_overlay(place, layers[:count], layers[count:], _LOOKING):
            return _done("mounted", place), linked_names(place)

    def _new(self, name: str) -> str:
        for number in itertools.count():
            path = f"{self._folder}/{name}-{number}"
            if not os.path.exists(path):
                os.mkdir(path)
                return path
        raise AssertionError


class StackOverData(Stack):
    """A stack whose files have their contents, most of them, in one to three data-only layers, as tools that make
    images put them there: in each layer, once it was worked in, a metacopy file with an absolute redirect takes the
    file's place. No ordinary layer has a directory on the way of a redirect or anything at its end, and a data-only
    layer has no other regular file before the one that is meant: there kernels differ."""

    def make(self) -> None:
        self._data_only = [self._new("data") for _ in range(self._pick.randrange(1, 4))]
        for layer in self._data_only:
            os.mkdir(f"{layer}/objects")
            if self._pick.random() < 0.3:
                os.setxattr(f"{layer}/objects", "trusted.overlay.opaque", b"y")
        self._places = (f"/{folder}{number}" for number in itertools.count() for folder in ("", "objects/"))
        super().make()

    def _put_on_top(self, layer: str) -> None:
        seen = set()
        for folder, _, names in os.walk(layer):
            for path in (os.path.join(folder, name) for name in sorted(names)):
                about = os.lstat(path)
                if stat.S_ISREG(about.st_mode) and about.st_ino not in seen and self._is_moved_out(path):
                    self._move_out(path, about)
                seen.add(about.st_ino)
        super()._put_on_top(layer)

    def _is_moved_out(self, path: str) -> bool:
        return "trusted.overlay.metacopy" not in os.listxattr(path) and self._pick.random() < 0.8

    def _move_out(self, path: str, about: os.stat_result) -> None:
        with open(path, "r+b") as file:
            contents = file.read()
            file.truncate(0)
            file.truncate(len(contents))
            os.setxattr(file.fileno(), "trusted.overlay.metacopy", b"")
            os.setxattr(file.fileno(), "trusted.overlay.redirect", self._place_of(path, contents).encode())
        os.utime(path, ns=(about.st_atime_ns, about.st_mtime_ns))

    def _place_of(self, path: str, contents: bytes) -> str:
        """Where a data-only layer has these contents now: one before it has no file there, one after it maybe another."""
        is_in_lowest_root = not self._layers and os.path.dirname(path) == f"{self._top}/diff"
        own = "/" + os.path.basename(path)
        place = own if is_in_lowest_root and self._pick.random() < 0.5 else next(self._places)
        first = self._pick.randrange(len(self._data_only))
        for number, layer in enumerate(self._data_only):
            if number == first or number > first and self._pick.random() < 0.5:
                with open(layer + place, "xb") as file:
                    file.write(contents if number == first else b"of a layer below")
            elif number < first and self._pick.random() < 0.5:
                self._pick.choice((os.mkdir, lambda it: os.symlink("objects", it)))(layer + place)
        return place


def linked_names(root: str) -> list[str]:
    """The names of each file below a folder that has several, a line each."""
    found: dict[tuple[int, int], list[str]] = {}
    for folder, directories, files in os.walk(root):
        for path in (os.path.join(folder, name) for name in [*files, *directories]):
            about = os.lstat(path)
            if not stat.S_ISDIR(about.st_mode):
                found.setdefault((about.st_dev, about.st_ino), []).append(path[len(root):])
    return lines_of(found.values())


def shown_links(stack: str) -> list[str]:
    """The same of what the layers of a stack show, as it is written of them."""
    with open(f"{stack}/shown.links", encoding="utf-8") as file:
        numbers = json.load(file)["names"]
    found: dict[int, list[str]] = {}
    for name, number in numbers.items():
        found.setdefault(number, []).append(name)
    return lines_of(found.values())


def lines_of(groups: Iterable[list[str]]) -> list[str]:
    """Groups of two names and more, in order."""
    return sorted(repr(sorted(names)) for names in groups if len(names) > 1)


def _done(*words: str) -> str:
    status, printed, messages = call(*words)
    if status != 0:
        raise RuntimeError(f"{words}: {messages}")
    return printed


KINDS = {"plain": Stack, "data-only": StackOverData}


def count_different(made: Callable[[str, int], Stack], folder: str, numbers: range, program: list[str]) -> int:
    """Makes and compares the stacks of these numbers in a folder of memory, and gives how many differ."""
    mount("tmpfs", folder, "mode=700,size=1g")
    different = 0
    for number in numbers:
        place = f"{folder}/{number}"
        os.mkdir(place)
        stack = made(place, number)
        stack.make()
        difference = stack.compare(program)
        if difference:
            different += 1
            print(f"stack {number}:", *difference, sep="\n")
        shutil.rmtree(place)
    return different


def main(kind: str, folder: str, seed: int, count: int, program: list[str]) -> int:
    """Makes and compares this many stacks of a kind; the status is 1 if one differs."""
    different = count_different(KINDS[kind], folder, range(seed, seed + count), program)
    print(f"{count} stacks, {different} different, {'with' if program else 'without'} the program")
    return 1 if different else 0


if __name__ == "__main__":
    sys.exit(main(sys.argv[1], sys.argv[2], int(sys.argv[3]), int(sys.argv[4]), sys.argv[5:]))
