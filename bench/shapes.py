"""Small stacks that are dear for careless programs, each made of a size: growth.py measures commands on them."""
from __future__ import annotations

import functools
import hashlib
import json
import os
import sys
from collections.abc import Iterable, Mapping

sys.path.append(os.path.join(os.path.dirname(__file__), "..", "tests", "makers"))

from entries import METACOPY, OPAQUE, REDIRECT, Entry, entry
from generate import LAST
from small_layers import Layer, Source, Sources, chain, directories, file, files, manifest_of, whiteout

CONTENTS = b"x"
BLOB = hashlib.sha256(CONTENTS).hexdigest()
# A long name, and one of which some 21 are a path of the most bytes.
LONG, OF_21 = "n" * 250, "n" * 194


def moved(path: str, to: str) -> Entry:
    return entry(path, attrs={REDIRECT: to})


def chained(top: str, depth: int) -> Layer:
    """Directories in each other in one of another name."""
    return [entry(top + "/x" * n) for n in range(1, depth + 1)]


# ---- names, attributes and layers

def long_redirect(size: int) -> Sources:
    return [[moved("/m", "/a" * size)] + files("/m", size), []]


def lone_redirect(size: int) -> Sources:
    return [[moved("/m", "/a" * size)]]


def redirected_directories(size: int) -> Sources:
    return [[moved("/m", "/a" * size)] + directories("/m", size), []]


def many_attributes(size: int) -> Sources:
    return [[entry("/m", attrs={f"user.a{n}": "v" for n in range(size)})] + files("/m", size)]


def short_attributes(size: int) -> Sources:
    """A layer of one entry with short attributes, of which one isn't shown."""
    return [[entry("/m", attrs={OPAQUE: "y", **{f"{n:x}": "" for n in range(size)}})], []]


def attributes_and_whiteouts(size: int) -> Sources:
    return [[entry("/d", attrs={f"user.a{n}": "v" for n in range(size)})] + [whiteout(f"/d/w{n:07d}") for n in range(size)],
            [entry("/d")] + files("/d", 1)]


def other_names(size: int) -> Sources:
    return [functools.partial(files, "", 20_000, 20_000 * n) for n in range(size)]


def empty_over_full(size: int) -> Sources:
    return [*[Layer()] * (size - 1), lambda: files("", 20_000)]


def empty_over_directories(size: int) -> Sources:
    return [*[Layer()] * (size - 1), lambda: directories("", 5_000)]


def empty_under_directories(size: int) -> Sources:
    """Directories over layers of only a root, of which the lowest has them too."""
    return [lambda: directories("", 2_000), *[Layer()] * (size - 2), lambda: directories("", 2_000)]


def full_layer(size: int) -> Sources:
    """Directories of at most 1,000 files."""
    left, layer = size - 1, []
    while left > 0:
        directory = f"/d{left:07d}"
        layer += [entry(directory)] + files(directory, min(1_000, left - 1))
        left -= 1 + min(1_000, left - 1)
    return [layer]


def one_directory(size: int) -> Sources:
    return [files("", size)]


def one_directory_twice(size: int) -> Sources:
    return [lambda: files("", size)] * 2


def long_names(size: int) -> Sources:
    return [[file(f"/{n:0246d}") for n in range(size)]]


def opaque_over_full(size: int) -> Sources:
    full = [it for at in directories("", size) for it in (at, file(at["path"] + "/f"))]
    return [[it | {"xattrs": {OPAQUE: "79"}} if it["kind"] == "dir" else it for it in full], full, directories("", size)]


# ---- depth

def under_a_chain(size: int) -> Sources:
    return [chain("d", size) + files("/d" * size, 20_000)]


def under_long_names(size: int) -> Sources:
    return [chain(LONG, 15) + files(f"/{LONG}" * 15, size)]


def at_the_end_of_chains(size: int) -> Sources:
    below = [lambda: chain("x", 62)] * (size - 1)
    return [*below, lambda: chain("x", 62) + directories("/x" * 62, 2_000)]


def whiteouts_through_chains(size: int) -> Sources:
    hidden = [whiteout(it["path"]) for it in files("/x" * 62, 500)]
    return [chain("x", 62) + hidden, *[lambda: chain("x", 62)] * (size - 2), chain("x", 62) + files("/x" * 62, 500)]


def directories_under_a_chain(size: int) -> Sources:
    return [chain("x", 63) + directories("/x" * 63, size), chain("x", 63)]


def equal_chains(size: int) -> Sources:
    equal = [entry(f"/c{n:05d}" + "/a" * names) for n in range(size) for names in range(63)]
    return [[moved("/m", "/z"), whiteout("/z")] + equal, [entry("/z")]]


# ---- directories that were moved

def chained_redirects(size: int) -> Sources:
    below = [lambda: chain("x", 64, {REDIRECT: "/x"})] * (size - 1)
    return [*below, lambda: chain("x", 64) + files("/x", 1)]


def moved_on(name: str, depth: int, size: int, last: Layer) -> Sources:
    """Sound layers of a chain, whose deepest directory is redirected to that of the next layer."""
    def upper(number: int) -> Layer:
        return chain(f"{number}{name}", depth, {REDIRECT: f"/{number + 1}{name}"}) + [whiteout(f"/{number + 1}{name}")]

    end = f"{size - 1}{name}"
    return [*[functools.partial(upper, n) for n in range(size - 1)],
            chain(end, depth) + [it | {"path": f"/{end}" * depth + it["path"]} for it in last]]


def chains_moved_on(size: int) -> Sources:
    return moved_on("", 64, size, files("", 1))


def long_chains_moved_on(size: int) -> Sources:
    return moved_on("n" * 248, 15, 60, directories("", size))


def beside_chains(size: int) -> Sources:
    return [*[[moved(f"/m{n}", f"m{n + 1}"), whiteout(f"/m{n + 1}")] for n in range(size - 1)],
            [entry(f"/m{size - 1}")] + files(f"/m{size - 1}", 1_000)]


def over_the_limits(size: int) -> Sources:
    return [chain(OF_21, 21, {REDIRECT: "/y"}) + [whiteout("/y")], [entry("/y")] + directories("/y", size)]


def redirected_apart(tops: int, size: int, is_first: bool) -> Sources:
    """Moved directories whose redirects differ only in the first name, or in the last."""
    layer = []
    for n in range(tops):
        top, own, alike = f"/m{n:05d}", f"/{n:05d}", "/a" * (20 * size - 1)
        layer += [moved(top, own + alike if is_first else alike + own)] + directories(top, size)
    return [layer, []]


def apart_in_the_first(size: int) -> Sources:
    return redirected_apart(size, size, True)


def apart_in_the_last(size: int) -> Sources:
    return redirected_apart(size, size, False)


def two_apart(size: int) -> Sources:
    return redirected_apart(2, size, True)


def moved_chain(depth: int, size: int, redirect: str, to_all: bool) -> Sources:
    """Directories at the end of a chain of this many, the first moved or all of them, each by a name only."""
    paths = ["/a" + "/x" * n for n in range(depth)]
    renamed = paths if to_all else paths[:1]
    upper = [entry(path, attrs={REDIRECT: redirect} if path in renamed else None) for path in paths]
    return [upper + directories(paths[-1], size) + [whiteout(f"/{redirect}")], chain(redirect, len(renamed))]


def below_one_moved(size: int) -> Sources:
    return moved_chain(127, size, "b", False)


def below_60_moved(size: int) -> Sources:
    return moved_chain(60, size, "b", True)


def below_moved_of_long_names(size: int) -> Sources:
    return moved_chain(127, size, "b" * 30, True)


def below_60_layers(size: int) -> Sources:
    """Directories at the end of a moved chain, which 60 layers have."""
    below = [lambda: [entry("/z")] + chained("/z", 61)] * 59
    return [[moved("/m", "/z"), whiteout("/z")] + chained("/m", 61) + directories("/m" + "/x" * 61, size), *below]


def in_redirected(size: int, inside: Layer) -> Sources:
    """A directory with a redirect of many names, and what is in it."""
    return [[moved("/m", "/a" * (20 * size))] + inside, []]


def moved_in_redirected(size: int) -> Sources:
    return in_redirected(size, [moved(f"/m/d{n:07d}", f"x{n:07d}") for n in range(size)])


def whiteouts_in_redirected(size: int) -> Sources:
    inside = directories("/m", size)
    return in_redirected(size, inside + [whiteout(it["path"] + "/w") for it in inside])


def copies_in_redirected(size: int) -> Sources:
    return in_redirected(size, bare_files("/m", size))


def moved_from(size: int, attrs: Mapping[str, str]) -> Sources:
    return [directories("", size, {REDIRECT: "/o"}), [entry("/o", attrs=attrs)]]


def moved_from_one(size: int) -> Sources:
    return moved_from(size, {})


def moved_from_long_attribute(size: int) -> Sources:
    return moved_from(size, {"user.a": "v" * (40 * size)})


def files_of_doubles(size: int) -> Sources:
    return [directories("", size, {REDIRECT: "/o"}), [entry("/o")] + files("/o", size)]


def redirected_to_themselves(size: int) -> Sources:
    return [*[[moved("/d", "/d")]] * (size - 1), lambda: [entry("/d")] + files("/d", 1_000)]


def directories_through_redirects(size: int) -> Sources:
    return [*[[moved("/d", "/d")]] * (size - 1), lambda: [entry("/d")] + directories("/d", 1_000)]


def doubled_in_each_layer(size: int) -> Sources:
    """Two directories in one, each of which has both again: a tree of 2 to the number of layers."""
    return [[entry("/d"), moved("/d/a", "/d"), moved("/d/b", "/d")]] * size


# ---- metacopy files and contents

def full_file(path: str) -> Entry:
    return entry(path, "file", size=len(CONTENTS), blob=BLOB)


def bare_file(path: str, to: str = "") -> Entry:
    return entry(path, "file", {METACOPY: "", **({REDIRECT: to} if to else {})}, size=len(CONTENTS))


def bare_files(directory: str = "", count: int = 3_000, redirected: bool = False) -> Layer:
    """Metacopy files, which may have an absolute redirect to their own name, the only way into a data-only layer."""
    return [bare_file(directory + it["path"], it["path"] if redirected else "") for it in files("", count)]


def full_files(count: int = 3_000) -> Layer:
    return [full_file(it["path"]) for it in files("", count)]


def named_alike(size: int) -> Sources:
    return [full_files(size)]


def metacopy_files(size: int) -> Sources:
    return [*[bare_files] * (size - 1), full_files]


def data_only_layers(size: int) -> Sources:
    return [lambda: bare_files(redirected=True), *[bare_files] * (size - 1), full_files]


def empty_data_only_layers(size: int) -> Sources:
    return [lambda: bare_files("", 20_000, True), *[Layer()] * (size - 1), lambda: full_files(20_000)]


def moved_into_data(size: int) -> Sources:
    return [lambda: [moved("/m", "/o"), whiteout("/o")] + bare_files("/m", redirected=True), [entry("/o")],
            *[Layer()] * (size - 1), full_files]


def chains_into_data(size: int) -> Sources:
    return [*[lambda: bare_files(redirected=True)] * size, full_files]


def copies_of_the_next(size: int) -> Sources:
    """Metacopy files that are redirected to those of the next layer, of other names."""
    def upper(number: int) -> Layer:
        return [bare_file(f"/{number:03d}{n:04d}", f"{number + 1:03d}{n:04d}") for n in range(1_000)]

    return [*[functools.partial(upper, n) for n in range(size - 1)], [full_file(f"/{size - 1:03d}{n:04d}") for n in range(1_000)]]


def copies_of_one(size: int, attrs: Mapping[str, str]) -> Sources:
    """Metacopy files whose data is one file, which has these attributes."""
    return [[bare_file(f"/m{n:07d}", "/d") for n in range(size)], [full_file("/d") | entry("/d", "file", attrs)]]


def copies_of_long_attribute(size: int) -> Sources:
    return copies_of_one(size, {"user.a": "v" * (40 * size)})


def copies_of_many_attributes(size: int) -> Sources:
    return copies_of_one(size, {f"user.a{n}": "v" for n in range(size)})


def missing_contents(size: int) -> Sources:
    return [[full_file(f"/f{n:07d}") | {"blob": f"{n:064x}"} for n in range(size)]]


# ---- manifests as others may write them, and such as state no layer, which are to be refused without a value of all they hold

def spaced(size: int) -> Sources:
    layer = [entry("/")] + files("", size)
    return [json.dumps(manifest_of(layer, layer), sort_keys=True)]


def late_fault(size: int) -> Sources:
    return [[*files("", size), entry("/z", "file")]]


def manifest(entries: str) -> Sources:
    return [f'{{"entries":[{entries}],"overlay-layer":1}}']


def no_entries(size: int) -> Sources:
    return manifest(",".join(['{"":0}'] * size))


def zeros(size: int) -> Sources:
    return manifest(",".join("0" * size))


def deep_objects(size: int) -> Sources:
    return manifest(",".join(['{"a":' * 100 + "0" + "}" * 100] * size))


def numbers_alone(size: int) -> Sources:
    return [f"[{','.join('0' * size)}]"]


def many_members(size: int) -> Sources:
    return manifest("{" + ",".join(f'"{n:x}":0' for n in range(size)) + "}")


def wrong_attributes(size: int) -> Sources:
    return manifest('{"xattrs":{' + ",".join(f'"{n:x}":0' for n in range(size)) + "}}")


def attributes_of_root(members: Iterable[str]) -> Sources:
    """A root with these attributes, as they are in its manifest."""
    root = json.dumps({"entries": [entry("/")], "overlay-layer": LAST}, separators=(",", ":"), sort_keys=True)
    return [root.replace('"xattrs":{}', '"xattrs":{' + ",".join(members) + "}")]


def attributes_backwards(size: int) -> Sources:
    return attributes_of_root(f'"{n:07x}":""' for n in range(size, 0, -1))


def attribute_again(size: int) -> Sources:
    """One attribute of many bytes, and another again and again."""
    return attributes_of_root([f'"b":"{"00" * (5 * size)}"', *['"a":""'] * size])


def many_lists(size: int) -> Sources:
    return ["{" + ",".join(['"entries":[0,0]'] * size) + ',"overlay-layer":1}']
