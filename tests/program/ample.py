#!/usr/bin/env python3
"""Makes many small stacks, full of redirects, and looks whether every command does with them what it must.

Python 3.11, standard library. Each layer is made as a mounted overlay leaves it: files and directories of the
tree so far are moved, also into each other, replaced, removed, changed and made, and the layer has what that takes:
redirects to a path or to a name beside, opaque directories, whiteouts of both forms, metacopy files over files and
over other metacopy files, and copies of what lies below. So it is known what each stack shows, and that it is sound.
In a third of the stacks something is then changed that no mounted overlay would have changed. The manifests of a stack are
of both versions: some of those without a time below a second are of version 1.

If `fsck` finds no fault, `vacuum`, `deref` and `merge` must give new layers with which the stack shows the same
bytes, and `flatten` one that does so by itself; `vacuum` once more must remove nothing, `fsck` must find no fault after
`vacuum` and `deref`, and nothing after `flatten`. If it finds one, all four must answer with its report. There is memory
enough, so no command may end with `out of memory`.

Before these come stacks whose new layers just keep a limit of names or of text, or just pass it: `deref`, `merge` and
`flatten` must give them, or say that they are over the limits.

    python3 tests/program/ample.py --program crates/ovl_layers/out/ovl_layers
"""
import argparse
import concurrent.futures
import hashlib
import os
import random
import subprocess
import sys
import tempfile
from collections.abc import Callable, Iterator, Sequence
from dataclasses import dataclass, replace

sys.path.append(os.path.join(os.path.dirname(__file__), "..", "makers"))

from entries import METACOPY, NSEC, REDIRECT, Entry, entry
from small_layers import First, Layer, write

OPAQUE, WHITEOUT = "trusted.overlay.opaque", "trusted.overlay.whiteout"
CONTENTS = ("", "a", "b", "abc")
# The first is how other unions write the whiteout of `a`, and means nothing here; the last two have one length.
NAMES, DEEPEST = (".wh.a", "b", "directory-c", "directory-d"), 5
NANOSECONDS = (0, 1, 500_000_000, 999_999_999)
REWRITES = ("vacuum", "deref", "merge", "flatten")
# What `fsck` prints if it finds nothing.
CLEAN = b"faults 0 notes 0\n"
# How many stacks that are not as they should be are printed, and the seconds after which a command counts as one without end.
TOLD, LONGEST = 10, 60


# ---- the tree that a stack shows: what is at each path but the root

Path = tuple[str, ...]


@dataclass(frozen=True)
class Thing:
    """A directory, or a file of these contents; and where the layers below the one in work have it, if they do."""

    contents: str | None
    mode: int
    nanoseconds: int
    origin: Path | None = None
    changed: bool = False

    def is_directory(self) -> bool:
        return self.contents is None


Tree = dict[Path, Thing]


def below(tree: Tree, path: Path) -> list[Path]:
    return [it for it in tree if it[:len(path)] == path]


def some_place(rng: random.Random, tree: Tree) -> Path:
    """A path in a directory of the tree, at which mostly there is nothing."""
    directories = [()] + [path for path, thing in tree.items() if thing.is_directory() and len(path) < DEEPEST]
    places = [rng.choice(directories) + (rng.choice(NAMES),) for _ in range(4)]
    return next((it for it in places if it not in tree), places[0])


def remove(_: object, tree: Tree, path: Path, *__: object) -> None:
    for it in below(tree, path):
        del tree[it]


def make(rng: random.Random, tree: Tree, _: object, times: Sequence[int]) -> None:
    place = some_place(rng, tree)
    remove(rng, tree, place)
    tree[place] = Thing(rng.choice((None, None, None, *CONTENTS)), rng.choice((0o644, 0o755)), rng.choice(times))


def move(rng: random.Random, tree: Tree, path: Path, _: object) -> None:
    place = some_place(rng, tree)
    within = below(tree, path)
    longest = max(map(len, within)) - len(path) + len(place)
    if place[:len(path)] != path and path[:len(place)] != place and longest <= DEEPEST:
        remove(rng, tree, place)
        tree |= {place + it[len(path):]: tree.pop(it) for it in within}


def change(rng: random.Random, tree: Tree, path: Path, times: Sequence[int]) -> None:
    if rng.random() < 0.5:
        tree[path] = replace(tree[path], nanoseconds=rng.choice(times), changed=True)
    else:
        tree[path] = replace(tree[path], mode=rng.choice((0o600, 0o700)), changed=True)


Work = Callable[[random.Random, Tree, Path, Sequence[int]], None]
WORK: tuple[Work, ...] = (make, make, make, move, move, move, move, change, change, remove)


def work(rng: random.Random, tree: Tree, times: Sequence[int]) -> Tree:
    """The tree after some work in it, which gives things these nanoseconds."""
    tree = {path: replace(it, origin=path, changed=False) for path, it in tree.items()}
    for _ in range(rng.randint(8, 16)):
        what = rng.choice(WORK) if tree else make
        what(rng, tree, rng.choice(sorted(tree)) if tree else (), times)
    return tree


# ---- the layer that makes a tree of another

def text(path: Path) -> str:
    return "/" + "/".join(path)


def whiteout(rng: random.Random, path: Path) -> Entry:
    if rng.random() < 0.5:
        return entry(text(path), "char", major=0, minor=0)
    return entry(text(path), "file", {WHITEOUT: ""}, size=0)


def redirect(rng: random.Random, origin: Path, place: Path | None) -> dict[str, str]:
    """The redirect to an origin from where the directory's own lower place is this one, if any."""
    beside = place is not None and origin[:-1] == place and rng.random() < 0.6
    return {REDIRECT: origin[-1] if beside else text(origin)}


def file(rng: random.Random, path: Path, thing: Thing, place: Path | None) -> Entry:
    contents = thing.contents or ""
    attrs: dict[str, str] = {}
    more: dict[str, object] = {"size": len(contents)}
    if thing.origin is not None and rng.random() < 0.7:
        natural = place is not None and thing.origin == place + path[-1:]
        attrs = {METACOPY: ""} | ({} if natural and rng.random() < 0.5 else redirect(rng, thing.origin, place))
    elif contents:
        more["blob"] = hashlib.sha256(contents.encode()).hexdigest()
    return entry(text(path), "file", attrs, **more) | {"mode": thing.mode, NSEC: thing.nanoseconds}


def directory(rng: random.Random, path: Path, thing: Thing, place: Path | None, lower: Tree) -> tuple[Entry, Path | None]:
    """The directory's entry, and its own lower place."""
    natural = None if place is None else place + path[-1:]
    hides = natural in lower and lower[natural].is_directory()
    if thing.origin is None:
        attrs, own = ({OPAQUE: "y"} if hides or rng.random() < 0.2 else {}), None
    elif thing.origin == natural:
        attrs, own = {}, natural
    else:
        attrs, own = redirect(rng, thing.origin, place), thing.origin
    return entry(text(path), attrs=attrs) | {"mode": thing.mode, NSEC: thing.nanoseconds}, own


def entries(rng: random.Random, tree: Tree, lower: Tree, path: Path = (), place: Path | None = ()) -> Layer:
    """The entries in a directory of the layer by which `lower` becomes the tree."""
    shown = {it[-1] for it in tree if it[:-1] == path} | {it[-1] for it in lower if it[:-1] == place}
    made = []
    for name in sorted(shown):
        here, natural = path + (name,), None if place is None else place + (name,)
        thing = tree.get(here)
        kept = thing is not None and natural is not None and thing.origin == natural and not thing.changed
        if thing is None:
            made.append(whiteout(rng, here))
        elif thing.is_directory():
            its, own = directory(rng, here, thing, place, lower)
            within = entries(rng, tree, lower, here, own)
            made += [its, *within] if within or not kept or rng.random() < 0.1 else []
        elif not kept or rng.random() < 0.2:
            made.append(file(rng, here, thing, place))
    return made


def spoil(rng: random.Random, layers: list[Layer]) -> None:
    """Changes one entry of a layer, or drops it with all below."""
    layer = rng.choice([it for it in layers if it] or [[]])
    if not layer:
        return
    spoilt = rng.choice(layer)
    attrs, way = spoilt["xattrs"], rng.randrange(5)
    if way == 0:
        layer[:] = [it for it in layer if not (it["path"] + "/").startswith(spoilt["path"] + "/")]
    elif way == 1 and spoilt["kind"] == "dir":
        attrs[OPAQUE] = b"y".hex()
    elif way == 2 and (spoilt["kind"] == "dir" or METACOPY in attrs):
        a, b, c, d = NAMES
        attrs[REDIRECT] = rng.choice((f"/{a}", f"/{b}/{c}", d, f"/{d}/{a}/{b}", "/", f"{a}/{b}")).encode().hex()
    elif way == 3 and "blob" in spoilt:
        del spoilt["blob"]
        attrs[METACOPY] = ""
    else:
        attrs.pop(REDIRECT, None)


@dataclass(frozen=True)
class Stack:
    """Layers, the topmost first, and what they show, if that is known."""

    layers: list[Layer]
    tree: Tree | None


def of_some_version(rng: random.Random, layer: Layer) -> Layer:
    """The layer in a version that can state it."""
    return layer if any(it[NSEC] for it in layer) or rng.choice((1, 2)) == 2 else First(layer)


def stack_of(rng: random.Random, counts: tuple[int, ...] = (2, 3, 3, 4, 5)) -> Stack:
    tree: Tree = {}
    layers: list[Layer] = []
    # The lowest layers may be of a time in which manifests had only whole seconds.
    times = rng.choice(((0,), NANOSECONDS))
    for _ in range(rng.choice(counts)):
        lower, tree = tree, work(rng, tree, times)
        layers.insert(0, entries(rng, tree, lower))
        times = rng.choice((times, NANOSECONDS))
    spoils = rng.randint(1, 3) if rng.random() < 1 / 3 else 0
    for _ in range(spoils):
        spoil(rng, layers)
    return Stack([of_some_version(rng, layer) for layer in layers], None if spoils else tree)


def report(tree: Tree) -> bytes:
    """What `show` prints of a tree."""
    lines = ["dir 0755 0 0 0 - - /"]
    for path, thing in sorted(tree.items()):
        contents = thing.contents or ""
        name = hashlib.sha256(contents.encode()).hexdigest() if contents else "-"
        kind, what = ("dir", "- -") if thing.is_directory() else ("file", f"{len(contents)} {name}")
        time = f"0+{thing.nanoseconds:09}" if thing.nanoseconds else "0"
        lines.append(f"{kind} {thing.mode:04o} 0 0 {time} {what} {text(path)}")
    return "\n".join([*lines, f"entries {len(lines)}", ""]).encode()


# ---- stacks at the limits of new layers

def chain(path: str, names: list[str]) -> Layer:
    """A directory, with the names in it in each other."""
    return [entry("/".join([path, *names[:count]])) for count in range(len(names) + 1)]


def moved_to(place: str) -> Layer:
    """A layer that moves `/x` to a place, in a directory of the layer, if that isn't the root."""
    above = [entry(place.rpartition("/")[0])] if place.count("/") > 1 else []
    return [*above, entry(place, attrs={REDIRECT: "/x"}), entry("/x", "char", major=0, minor=0)]


def at_the_limits() -> Iterator[tuple[str, list[Layer], bool]]:
    """What is said of a stack, its layers, and whether what lies in the moved directory keeps the limits there."""
    long, deep = chain("/x", 15 * ["n" * 255]), chain("/x", 127 * ["d"])
    yield "paths of 4,095 bytes", [moved_to("/" + "m" * 254), long], True
    yield "paths of 4,096 bytes", [moved_to("/" + "m" * 255), long], False
    yield "paths of 4,098 bytes below a directory", [moved_to("/a/" + "m" * 255), long], False
    yield "paths of 128 names", [moved_to("/m"), deep], True
    yield "paths of 129 names", [moved_to("/a/m"), deep], False


# ---- runs

class Differs(Exception):
    """What isn't as it should be."""


def ran(program: str, *words: str) -> tuple[int, bytes]:
    """Status and standard output of a run, which must report no fault on standard error."""
    done = subprocess.run([program, *words], stdin=subprocess.DEVNULL, capture_output=True, check=False, timeout=LONGEST)
    if done.returncode not in (0, 1) or done.stderr:
        raise Differs(f"{words[0]} ended with status {done.returncode}: {done.stderr.decode(errors='replace').strip()[:200]}")
    return done.returncode, done.stdout


def same(what: str, one: object, other: object) -> None:
    if one != other:
        raise Differs(f"{what}: {one} and not {other}")


def rewritten(program: str, blobs: str, layers: list[str], command: str, folder: str) -> tuple[list[str], tuple[int, bytes]]:
    """The layers with the new ones of a command, or only that of `flatten`, and its status and what it printed."""
    out = os.path.join(folder, command)
    os.makedirs(out, exist_ok=True)
    status, printed = ran(program, command, "--blobs", blobs, "--out", out, "--workers", "3", *layers)
    if status != 0:
        return [], (status, printed)
    new = [os.path.join(out, it) for it in sorted(os.listdir(out))]
    return new if command == "flatten" else new + layers[len(new):], (status, printed)


def judge(program: str, blobs: str, stack: Stack, folder: str) -> bool:
    """Whether the stack is sound."""
    layers = write(folder, stack.layers)
    shown, found = ran(program, "show", *layers), ran(program, "fsck", "--blobs", blobs, *layers)
    if stack.tree is not None:
        same("show", shown, (0, report(stack.tree)))
        same("the status of fsck", found[0], 0)
    after = {it: rewritten(program, blobs, layers, it, folder) for it in REWRITES}
    for command, (new, answered) in after.items():
        if found[0] == 1:
            same(command, answered, found)
            continue
        same(f"the status of {command}", answered[0], 0)
        same(f"show after {command}", ran(program, "show", *new), shown)
        if command == "flatten":
            same(f"fsck after {command}", ran(program, "fsck", "--blobs", blobs, *new), (0, CLEAN))
        elif command != "merge":
            same(f"the status of fsck after {command}", ran(program, "fsck", "--blobs", blobs, *new)[0], 0)
    if found[0] == 0:
        _, (_, again) = rewritten(program, blobs, after["vacuum"][0], "vacuum", os.path.join(folder, "again"))
        same("vacuum again", again.startswith(b"removed 0 kept "), True)
    return found[0] == 0


def judge_at_limit(program: str, blobs: str, layers: list[Layer], within: bool, folder: str) -> None:
    """Whether all but `vacuum` give what keeps the limits and refuse what doesn't, as what it is."""
    files = write(folder, layers)
    shown = ran(program, "show", *files)
    for command in REWRITES[1:]:
        if within:
            new, _ = rewritten(program, blobs, files, command, folder)
            same(f"show after {command}", ran(program, "show", *new), shown)
        else:
            words = [program, command, "--blobs", blobs, "--out", folder, *files]
            done = subprocess.run(words, stdin=subprocess.DEVNULL, capture_output=True, check=False, timeout=LONGEST)
            same(command, (done.returncode, done.stdout, done.stderr), (5, b"", b"ovl_layers: result over the limits\n"))


def limit_case(program: str, blobs: str, what: str, layers: list[Layer], within: bool) -> str | None:
    """What isn't as it should be of a stack at the limits."""
    with tempfile.TemporaryDirectory(prefix="ovl-ample-") as folder:
        try:
            judge_at_limit(program, blobs, layers, within, folder)
        except Differs as fault:
            return f"{what}: {fault}"
    return None


def case(program: str, blobs: str, seed: str, number: int) -> bool | str:
    """Whether the stack of this number is sound, or what isn't as it should be."""
    with tempfile.TemporaryDirectory(prefix="ovl-ample-") as folder:
        try:
            return judge(program, blobs, stack_of(random.Random(f"{seed} {number}")), folder)
        except Differs as fault:
            return f"stack {number}: {fault}"


def main() -> None:
    words = argparse.ArgumentParser(description="Makes many small stacks, and runs every command on them.")
    words.add_argument("--program", required=True, help="path of the program")
    words.add_argument("--count", type=int, default=2_000, help="how many stacks (default 2,000)")
    words.add_argument("--seed", default="1", help="other stacks; one depends only on the seed and its number (default 1)")
    words.add_argument("--keep", type=int, metavar="N", help="only print the layers of the stack of this number")
    given = words.parse_args()
    if given.keep is not None:
        sys.exit(print(*write(tempfile.mkdtemp(), stack_of(random.Random(f"{given.seed} {given.keep}")).layers), sep="\n"))
    program, numbers = os.path.abspath(given.program), range(given.count)
    with tempfile.TemporaryDirectory(prefix="ovl-ample-") as blobs, concurrent.futures.ProcessPoolExecutor() as pool:
        for contents in map(str.encode, CONTENTS):
            with open(os.path.join(blobs, hashlib.sha256(contents).hexdigest()), "wb") as out:
                out.write(contents)
        all_of = ([it] * given.count for it in (program, blobs, given.seed))
        at_limits = [pool.submit(limit_case, program, blobs, *it) for it in at_the_limits()]
        answers = list(pool.map(case, *all_of, numbers, chunksize=20))
        differ = [it.result() for it in at_limits] + answers
    differ = [it for it in differ if isinstance(it, str)]
    print(*differ[:TOLD], sep="\n", end="\n" if differ else "")
    print(f"{given.count:,} stacks of seed {given.seed}, {answers.count(True):,} of them sound, {len(differ)} not as they should be")
    sys.exit(1 if differ else 0)


if __name__ == "__main__":
    main()
