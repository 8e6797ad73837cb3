#!/usr/bin/env python3
"""Makes stacks, blobs and manifests that are large in one way, and looks whether every command takes them whole.

Python 3.11, standard library. No contract says that memory which could be had isn't refused, nor what a folder or a file has:
a body that ends with `out of memory` after a number of entries, or leaves out what comes after one of blobs or bytes, is
proved. So each stack has more layers, entries, names, bytes, attributes, redirects, findings or blobs than a number that code might
choose, up to a limit, if there is one. All are sound: `fsck` must find no fault with contents of either size, and with
the new layers of each command the stack must show the same. A manifest that isn't in written form must show what it
shows in that form.

    python3 tests/program/large.py --program crates/ovl_layers/out/ovl_layers
"""
import argparse
import concurrent.futures
import functools
import hashlib
import json
import os
import subprocess
import sys
import tempfile
from collections.abc import Callable, Iterator, Sequence
from dataclasses import dataclass

sys.path.append(os.path.join(os.path.dirname(__file__), "..", "makers"))

from ample import CLEAN, LONGEST, OPAQUE, REWRITES, Differs, chain, ran, rewritten
from entries import METACOPY, REDIRECT, Entry, entry
from small_layers import Layer, Sources, file, manifest_of, whiteout, write

# The most entries of a layer but for the root.
ENTRIES = 1_048_575


@dataclass(frozen=True)
class Large:
    """A stack: what is said of it, what makes its layers, the topmost first, the commands that must answer beside `show` and
    `fsck`, and the contents of its blobs; and whether its manifests aren't in written form."""

    what: str
    layers: Callable[[], Sources]
    commands: tuple[str, ...] = REWRITES
    contents: Sequence[bytes] = ()
    unsorted: bool = False


# ---- layers

def many(one: Entry, count: int, before: Sequence[Entry] = ()) -> str:
    """The manifest of the root, of these entries, and of as many like one, each with its number for `%07d`."""
    own = json.dumps(one, separators=(",", ":"), sort_keys=True)
    entries = [entry("/"), *before, one]
    first, last = json.dumps(manifest_of([], entries), separators=(",", ":"), sort_keys=True).split(own)
    return first + ",".join(own % n for n in range(count)) + last + "\n"


def odd_name(number: int) -> str:
    """A name of 100 to 250 bytes, of which some are escaped in a manifest or in a report."""
    return f"{number:03d}" + '\\"\t\x01é' + "n" * (90 + number % 150)


def contents_of(number: int) -> bytes:
    return f"contents {number}".encode()


def full_file(path: str, contents: bytes, **more: object) -> Entry:
    return entry(path, "file", size=len(contents), blob=hashlib.sha256(contents).hexdigest()) | more


def in_each_other(count: int) -> Layer:
    return chain("/a", ["a"] * (count - 1))


# ---- stacks

def many_layers() -> Sources:
    return [[entry("/d"), file(f"/d/f{n}")] for n in range(128)]


def moved_over_layers() -> Sources:
    """A directory that was moved from where only the lowest layer has it."""
    upper = [entry("/m", attrs={REDIRECT: "/x"}), whiteout("/x")]
    return [upper, *[[file(f"/f{n}")] for n in range(126)], [entry("/x"), file("/x/k")]]


def data_through_layers() -> Sources:
    return [[entry("/f", "file", {METACOPY: ""}, size=10)]] * 127 + [[full_file("/f", contents_of(0))]]


def redirected_through_layers() -> Sources:
    attributes = {METACOPY: "", REDIRECT: "/g"} | {f"user.{n:07d}": "v" for n in range(5_000)}
    upper = [entry("/f", "file", attributes, size=10), whiteout("/g")]
    return [upper, *[[file(f"/h{n}")] for n in range(126)], [full_file("/g", contents_of(0))]]


def moved_with_odd_names(count: int) -> Sources:
    """Directories with a file each, of which each was moved, by its path or by its name."""
    old = [f"o{n}" + "o" * (n % 200) for n in range(count)]
    lower = [entry(f"/{it}") for it in old]
    lower += [full_file(f"/{it}/{odd_name(n)}", contents_of(n), mtime=-n) for n, it in enumerate(old)]
    upper = [entry(f"/{odd_name(n)}", attrs={REDIRECT: f"/{old[n]}" if n % 2 else old[n]}) for n in range(count)]
    return [upper + [whiteout(f"/{it}") for it in old], lower]


def many_moved(count: int) -> Sources:
    upper = [entry(f"/m{n:07d}", attrs={REDIRECT: f"/o{n:07d}"}) for n in range(count)]
    return [upper + [whiteout(f"/o{n:07d}") for n in range(count)], many(entry("/o%07d"), count)]


def deep_redirect() -> Sources:
    return [[entry("/m", attrs={REDIRECT: "/a" * 127}), whiteout("/a")], in_each_other(128)]


def deep_layers() -> Sources:
    return [in_each_other(128), [*in_each_other(127), file("/a" * 127 + "/f")]]


def odd_texts() -> Sources:
    """Targets and attributes of which some bytes are escaped, and links to long ones."""
    attributes = {odd_name(n): odd_name(n) * n for n in range(40)}
    links = [entry(f"/l{n:03d}", "symlink", attributes if n < 3 else {}, target=odd_name(n) * (1 + n % 15)) for n in range(300)]
    return [links, [entry("/d", attrs=attributes)]]


def many_attributes() -> Sources:
    long, many_of = {"user.long": "v" * 300_000}, {f"user.{n:07d}": "v" for n in range(5_000)}
    return [[entry("/f", "file", long, size=0), entry("/g", attrs=many_of)],
            [entry("/d", attrs=long), entry("/e", "file", many_of, size=0)]]


def many_findings() -> Sources:
    return [many(entry("/d%07d", attrs={OPAQUE: "z"}), ENTRIES), []]


def large_moved() -> Sources:
    lower = many(file("/x/f%07d"), 600_000, [entry("/x")])
    return [[entry("/m", attrs={REDIRECT: "/x"}), whiteout("/x")], lower]


def beyond_the_limits() -> Sources:
    """Three layers, each of which goes on below the deepest directory of the one under it: 360 names, of 12,000 bytes."""
    names = ["n" * 33] * 120
    deep = chain("/" + names[0], names[1:])
    below = [entry(it["path"].replace("/" + names[0], "/x", 1)) for it in deep]
    return [[*deep[:-1], entry(deep[-1]["path"], attrs={REDIRECT: "/x"}), whiteout("/x")],
            [*below[:-1], entry(below[-1]["path"], attrs={REDIRECT: "/y"}), whiteout("/y")],
            [entry(it["path"].replace("/x", "/y", 1)) for it in below]]


def side_by_side(kind: Callable[[str], Entry], count: int, layers: str) -> Sources:
    """Layers of other names in one directory."""
    return [many(kind(f"/d/{letter}%07d"), count, [entry("/d")]) for letter in layers]


def same_twice(count: int) -> Sources:
    return [many(file("/f%07d"), count)] * 2


def unlike_written() -> Sources:
    long = [entry(("/" + "n" * 199) * n) for n in range(1, 21)]
    attributes = {f"user.{n:02d}": "v" for n in range(40)}
    others = [entry("/l", "symlink", target="t" * 4_095), entry("/x", attrs=attributes)]
    return [[*long, *others, entry("/f"), *(file(f"/f/{n:07d}") for n in range(180_000))]]


def many_blobs(count: int) -> Sources:
    return [[full_file(f"/f{n:07d}", contents_of(n)) for n in range(count)]]


def large() -> Iterator[Large]:
    """All, those that take longest first."""
    few = [contents_of(n) for n in range(300)]
    yield Large("1,040,000 names of one directory", functools.partial(side_by_side, file, 520_000, "fg"))
    yield Large("400,000 directories", functools.partial(side_by_side, entry, 200_000, "fg"))
    yield Large("600,000 names that were moved", large_moved)
    yield Large("3,000,000 paths", functools.partial(side_by_side, file, 1_000_000, "fgh"), ())
    yield Large("1,048,575 findings", many_findings, ())
    yield Large("65,537 blobs", functools.partial(many_blobs, 65_537), (), [contents_of(n) for n in range(65_537)])
    yield Large("70,000 names that change nothing", functools.partial(same_twice, 70_000), ("vacuum",))
    yield Large("70,000 moved directories", functools.partial(many_moved, 70_000))
    yield Large("20 MB that aren't in written form", unlike_written, (), unsorted=True)
    yield Large("attributes of 300,000 bytes, and 5,000 of them", many_attributes)
    yield Large("300 moved directories, odd names, 300 contents", functools.partial(moved_with_odd_names, 300), contents=few)
    yield Large("odd targets and attributes", odd_texts)
    yield Large("128 layers", many_layers)
    yield Large("a directory moved from under 127 layers", moved_over_layers)
    yield Large("data through 128 layers", data_through_layers, contents=few)
    yield Large("data by a redirect through 128 layers", redirected_through_layers, contents=few)
    yield Large("redirects of 127 names", deep_redirect)
    yield Large("128 names", deep_layers)
    yield Large("360 names of 12,000 bytes", beyond_the_limits, ())


# ---- runs

def same(what: str, one: object, other: object) -> None:
    """(Answers are too long to be printed.)"""
    if one != other:
        raise Differs(f"{what} isn't the same")


def held_in(folder: str, contents: Sequence[bytes]) -> str:
    """A folder of blobs with these contents."""
    blobs = os.path.join(folder, "blobs")
    os.mkdir(blobs)
    for it in contents:
        with open(os.path.join(blobs, hashlib.sha256(it).hexdigest()), "wb") as out:
            out.write(it)
    return blobs


def judge(program: str, large: Large, folder: str) -> None:
    """Whether the commands take the stack."""
    layers = large.layers()
    files, blobs = write(folder, layers, large.unsorted), held_in(folder, large.contents)
    shown = ran(program, "show", *files)
    found = ran(program, "fsck", "--blobs", blobs, *files)
    same("the status of fsck", found[0], 0)
    if large.contents:
        same("fsck", found[1], CLEAN)
    same("fsck --any-size", ran(program, "fsck", "--any-size", "--blobs", blobs, *files), found)
    if large.unsorted:
        same("show of the written form", ran(program, "show", *write(folder, layers)), shown)
    for command in large.commands:
        new, _ = rewritten(program, blobs, files, command, folder)
        same(f"show after {command}", new and ran(program, "show", *new), shown)


def large_blob(program: str, folder: str) -> None:
    """Contents of 255 MiB, held and in parts."""
    size = 255 << 20
    name, blobs = hashlib.sha256(bytes(size)).hexdigest(), held_in(folder, ())
    with open(os.path.join(blobs, name), "wb") as out:
        out.truncate(size)
    files = write(folder, [[entry("/f", "file", size=size, blob=name)]])
    for how in ((), ("--any-size",)):
        same(" ".join(("fsck", *how)), ran(program, "fsck", *how, "--blobs", blobs, *files), (0, CLEAN))


def large_manifest(program: str, folder: str) -> None:
    """A manifest of 255 MiB, of a file and of standard input."""
    [small] = write(folder, [[entry("/d")]])
    shown, padded = ran(program, "show", small), os.path.join(folder, "padded.json")
    with open(small, "rb") as text, open(padded, "wb") as out:
        out.write(b" " * (255 << 20) + text.read())
    same("show", ran(program, "show", padded), shown)
    with open(padded, "rb") as text:
        done = subprocess.run([program], stdin=text, capture_output=True, check=False, timeout=LONGEST)
    same("show of standard input", (done.returncode, done.stdout), shown)


def case(what: str, judged: Callable[[str], None]) -> str | None:
    """What isn't as it should be."""
    with tempfile.TemporaryDirectory(prefix="ovl-large-") as folder:
        try:
            judged(folder)
        except Differs as fault:
            return f"{what}: {fault}"
    return None


def cases(program: str) -> Iterator[tuple[str, Callable[[str], None]]]:
    for it in large():
        yield it.what, functools.partial(judge, program, it)
    yield "a blob of 255 MiB", functools.partial(large_blob, program)
    yield "a manifest of 255 MiB", functools.partial(large_manifest, program)


def main() -> None:
    words = argparse.ArgumentParser(description="Makes what is large in one way, and runs every command on it.")
    words.add_argument("--program", required=True, help="path of the program")
    words.add_argument("--only", metavar="WHAT", help="only what is printed so if it isn't as it should be")
    given = words.parse_args()
    with concurrent.futures.ProcessPoolExecutor() as pool:
        chosen = [it for it in cases(os.path.abspath(given.program)) if given.only in (None, it[0])]
        done = [pool.submit(case, *it) for it in chosen]
        differ = [it for it in (one.result() for one in done) if it is not None]
    print(*differ, sep="\n", end="\n" if differ else "")
    print(f"{len(done)} that are large, {len(differ)} not as they should be")
    sys.exit(1 if differ or not done else 0)


if __name__ == "__main__":
    main()
