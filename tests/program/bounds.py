#!/usr/bin/env python3
"""Counts what small stacks cost, and refuses more.

Python 3.11, standard library, and valgrind; without valgrind it says so and ends with 0. No contract says what anything
costs: a body that asks every code of every entry, makes a view anew for each name, digests a blob again for each name that
it has, halves a list so that one half is all of it, or compares paths byte by byte, gives the same bytes. So the
instructions of one run of each stack are counted, and may be no more than its bound, a fifth over what it took
as it was bounded. The same program takes the same number of instructions, but for some hundreds that come of the
environment. A lock for each directory would be few instructions more, so those that no other
processor's may come between are counted apart.

    python3 tests/program/bounds.py --program crates/ovl_layers/out/ovl_layers
    python3 tests/program/bounds.py --program P --beside Q    # bounds are what Q takes and a fifth
"""
import argparse
import hashlib
import os
import shutil
import sys
import tempfile
from dataclasses import dataclass

sys.path.append(os.path.join(os.path.dirname(__file__), "..", "..", "bench"))
sys.path.append(os.path.join(os.path.dirname(__file__), "..", "makers"))

from entries import METACOPY, NSEC, REDIRECT, Entry, entry
from instructions import instructions, locked
from small_layers import Layer, write

CONTENTS = b"x" * 65_536
NAME = hashlib.sha256(CONTENTS).hexdigest()
OTHERS = tuple(b"%d" % n * 100 for n in range(200))
# How much more a stack may cost than it did.
MORE = 1.2


def plain(count: int, nanoseconds: int = 0) -> Layer:
    """Empty files in one directory."""
    return [entry("/d")] + [entry(f"/d/f{n:05d}", "file", size=0) | {NSEC: nanoseconds} for n in range(count)]


def deep(depth: int, count: int) -> Layer:
    """Files in a directory that lies deep."""
    return way(depth) + [entry(f"{'/d' * depth}/f{n:05d}", "file", size=0) for n in range(count)]


def named_alike(count: int) -> Layer:
    return [entry(f"/f{n:03d}", "file", size=len(CONTENTS), blob=NAME) for n in range(count)]


def of_no_blob(count: int) -> Layer:
    """Files whose contents are missing."""
    return [entry("/d")] + [entry(f"/d/f{n:05d}", "file", size=1, blob=NAME) for n in range(count)]


def escaped(count: int) -> Layer:
    return [entry(f'/"{n:05d}', "file", size=0) for n in range(count)]


def directories(count: int) -> Layer:
    return [entry(f"/d{n:05d}") for n in range(count)]


def moved(count: int) -> Layer:
    return [entry(f"/m{n:04d}", attrs={REDIRECT: f"/d{n:05d}"}) for n in range(count)] + [
        entry(f"/d{n:05d}", "char", major=0, minor=0) for n in range(count)]


def of_contents(contents: tuple[bytes, ...]) -> Layer:
    return [entry(f"/f{n:03d}", "file", size=len(it), blob=hashlib.sha256(it).hexdigest()) for n, it in enumerate(contents)]


def way(depth: int) -> list[Entry]:
    """Directories in each other."""
    return [entry("/d" * n) for n in range(1, depth + 1)]


def copied(depth: int, count: int, between: int = 10) -> tuple[Layer, ...]:
    """Metacopy files deep in layers, over their contents in the lowest one, with layers of only their directories between these."""
    names = [f"{'/d' * depth}/f{n:04d}" for n in range(count)]
    upper = way(depth) + [entry(it, "file", {METACOPY: ""}, size=len(CONTENTS)) for it in names]
    lower = way(depth) + [entry(it, "file", size=len(CONTENTS), blob=NAME) for it in names]
    return (upper, *[way(depth)] * between, lower)


def apart(layers: int, count: int) -> tuple[Layer, ...]:
    """Layers of other names in one directory."""
    return tuple([entry(f"/f{n:04d}-{layer:02d}", "file", size=0) for n in range(count)] for layer in range(layers))


def alike(count: int, names: int) -> Layer:
    """Directories that were moved from places of many names, which differ only in the first."""
    return [entry(f"/m{n:04d}", attrs={REDIRECT: f"/d{n:04d}" + "/n" * names}) for n in range(count)]


@dataclass(frozen=True)
class Bound:
    """A command with its options on layers, the topmost first, the most millions of instructions, the contents that are there,
    and its status."""

    command: str
    layers: tuple[Layer, ...]
    millions: float
    contents: tuple[bytes, ...] = ()
    status: int = 0


BOUNDS = {
    "a layer in which nothing is at fault": Bound("fsck", (plain(4_000),), 7.5),
    "files whose contents are missing": Bound("fsck", (of_no_blob(4_000),), 15.2, status=1),
    "files over the same files": Bound("vacuum", (plain(4_000, 1), plain(4_000)), 29.8),
    "files that are the same": Bound("vacuum", (deep(100, 2_000), deep(100, 2_000)), 62.6),
    "one content of many names": Bound("fsck", (named_alike(200),), 4.8, (CONTENTS,)),
    "contents of many names": Bound("fsck", (of_contents(OTHERS),), 8.5, OTHERS),
    "a directory of directories": Bound("show", (directories(2_000), directories(2_000)), 22.6),
    "moved directories": Bound("deref", (moved(500), directories(500)), 28.3),
    "metacopy files in a deep directory": Bound("deref", copied(20, 400), 13.7, (CONTENTS,)),
    "metacopy files over their contents": Bound("vacuum", copied(20, 400), 16.1, (CONTENTS,)),
    "metacopy files and their contents": Bound("merge", copied(100, 400, 0), 37.9, (CONTENTS,)),
    "many layers of other names": Bound("show", apart(128, 20), 15.1),
    "names that are escaped": Bound("show", (escaped(2_000),), 50.7),
    "contents that are read in parts": Bound("fsck --any-size", (of_contents(OTHERS),), 8.6, OTHERS),
    "places of many names that differ in the first": Bound("fsck", (alike(100, 1_000), []), 47.4, status=1),
}


# The locked instructions of a directory: a worker takes a lock once for many of them.
DIRECTORIES, LOCKED = 4_000, 3.5


def words_of(program: str, bound: Bound, folder: str) -> list[str]:
    blobs, new = os.path.join(folder, "blobs"), os.path.join(folder, "new")
    for it in (blobs, new):
        os.mkdir(it)
    for contents in bound.contents:
        with open(os.path.join(blobs, hashlib.sha256(contents).hexdigest()), "wb") as out:
            out.write(contents)
    what, *more = bound.command.split()
    words = [program, what, *more, "--workers", "1"]
    words += ["--blobs", blobs] if what != "show" else []
    words += ["--out", new] if what not in ("show", "fsck") else []
    return words + write(folder, bound.layers)


def counted(program: str, bound: Bound) -> float:
    """The instructions of a run, in millions."""
    with tempfile.TemporaryDirectory(prefix="ovl-bounds-") as folder:
        return instructions(words_of(program, bound, folder), (bound.status,)) / 1e6


def locked_each(program: str, folder: str) -> float:
    """The locked instructions of a directory without entries."""
    return locked(words_of(program, Bound("fsck", (directories(DIRECTORIES),), 0), folder), (0,)) / DIRECTORIES


def main() -> None:
    words = argparse.ArgumentParser(description="Counts what small stacks cost, and refuses more.")
    words.add_argument("--program", required=True, help="path of the program")
    words.add_argument("--beside", metavar="PROGRAM", help="take what another program costs, and a fifth, for bounds")
    given = words.parse_args()
    if not shutil.which("valgrind"):
        sys.exit(print("bounds.py: skipped, as valgrind isn't here"))
    program, over = os.path.abspath(given.program), 0
    for name, bound in BOUNDS.items():
        most = counted(os.path.abspath(given.beside), bound) * MORE if given.beside else bound.millions
        millions = counted(program, bound)
        over += millions > most
        print(f"{bound.command} of {name}: {millions:.1f} million instructions, at most {most:.1f}", flush=True)
    with tempfile.TemporaryDirectory(prefix="ovl-bounds-") as folder:
        each = locked_each(program, folder)
    over += each > LOCKED
    print(f"fsck of a directory without entries: {each:.2f} locked instructions, at most {LOCKED:.2f}")
    sys.exit(1 if over else 0)


if __name__ == "__main__":
    main()
