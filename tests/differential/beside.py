#!/usr/bin/env python3
"""Makes small stacks of manifests of both versions, and compares all commands on them with an independent reading.

Python 3.11, standard library. Half of the stacks are those of ample.py: as a mounted overlay leaves them, some of them
spoilt, and some with contents in a data-only layer, as composefs has them. A few have chains of directories about as deep as a path may be, of which one goes on at the other by a redirect.
The rest is anything: layers of few names with all marks, redirects that lead nowhere or can't be followed, contents that
are missing, and data-only layers. Each manifest is of a version by chance; times in one of version 2 may lie below a
second. In a third of the stacks contents are missing, wrong, cut or doubled, and strangers lie beside them. `show`, and
all other commands with and without `--any-size`, must give the same standard output, standard error, status and new layers
as the other reading, which isn't given that word. What `flatten` makes must show by itself what the stack shows, and `fsck` must
find nothing in it. A case depends only on the seed and its number.

The other reading is a command that takes the same words (docs/FORMATS.md); as another build of the program does.

    python3 tests/differential/beside.py --program ./ovl_layers --oracle 'python3 reading.py'
"""
import collections
import concurrent.futures
import hashlib
import os
import random
import subprocess
import sys
import tempfile
from collections.abc import Iterator, Sequence
from dataclasses import dataclass, replace

sys.path.append(os.path.join(os.path.dirname(__file__), "..", "makers"))
sys.path.append(os.path.join(os.path.dirname(__file__), "..", "program"))

import ample
from cases import add_oracle, oracle_of, show_sorts, words_of
from generate import MOST_NAMES
from entries import METACOPY, NSEC, REDIRECT, Entry, entry
from small_layers import First, Layer, chain, write

COMMANDS = ("show", "fsck", "vacuum", "deref", "merge", "flatten")
WORKERS = (1, 2, 3, 4, 7, 64)
# Seconds after which a command counts as one that gives no answer, and how many bytes of an answer are printed.
LONGEST, TOLD = 120, 400
# The shares of the stacks as overlays leave them, of those with chains, and of those whose contents are spoilt; of the first
# those with a data-only layer, and of files in these such as have their contents there.
MADE, CHAINED, SPOILT, COMPOSED, ELSEWHERE = 0.5, 0.1, 0.3, 0.6, 0.4
NAMES, DEEPEST, MOST = ("a", "b", "c"), 3, 12
CONTENTS = (b"", b"a", b"b", b"abc")
ABSENT = b"no such blob"
REDIRECTS = ("/a", "/b", "/c", "/a/b", "/b/c/a", "/a/a/a/a", "a", "b", "c", "/", "", "a/b", "/a/..", "/\u00e9")
SECONDS = (0, 0, 0, 1, -1, 1_700_000_000, -2**63, 2**63 - 1)


# ---- random layers

def attributes(rng: random.Random) -> dict[str, str]:
    names = {"user.k": "v", ample.OPAQUE: rng.choice("yyx"), "trusted.overlay.origin": "x", "security.s": ""}
    return {name: names[name] for name in names if rng.random() < 0.15}


def directory(rng: random.Random, path: str) -> Entry:
    attrs = attributes(rng)
    if rng.random() < 0.3:
        attrs[REDIRECT] = rng.choice(REDIRECTS)
    return entry(path, attrs=attrs)


def file(rng: random.Random, path: str) -> Entry:
    attrs, contents = attributes(rng), rng.choice(CONTENTS)
    if rng.random() < 0.1:
        attrs[ample.WHITEOUT] = ""
    if rng.random() < 0.35:
        attrs[METACOPY] = ""
        if rng.random() < 0.6:
            attrs[REDIRECT] = rng.choice(REDIRECTS)
    elif rng.random() < 0.02:
        contents = ABSENT
    made = entry(path, "file", attrs, size=len(contents))
    if contents and METACOPY not in attrs:
        made["blob"] = hashlib.sha256(contents).hexdigest()
    return made


def other(rng: random.Random, path: str) -> Entry:
    chance = rng.random()
    if chance < 0.6:
        return entry(path, "char", major=0, minor=0)
    if chance < 0.8:
        return entry(path, "symlink", attributes(rng), target=rng.choice(("a", "/b c", "\u00e9")))
    return entry(path, rng.choice(("fifo", "socket")), attributes(rng))


def timed(rng: random.Random, made: Entry) -> Entry:
    return made | {"mtime": rng.choice(SECONDS), NSEC: rng.choice(ample.NANOSECONDS), "mode": rng.choice((0o644, 0o755, 0o4711))}


def anything(rng: random.Random) -> Layer:
    """A layer below its root, of up to this many entries."""
    found, below = {}, [""]
    for _ in range(rng.randint(0, MOST)):
        path = rng.choice(below) + "/" + rng.choice(NAMES)
        if path not in found:
            found[path] = timed(rng, rng.choice((directory, directory, file, file, other))(rng, path))
            below += [path] * (found[path]["kind"] == "dir" and path.count("/") < DEEPEST)
    return list(found.values())


def chains(rng: random.Random, versions: list[int]) -> list[Layer]:
    """A chain of directories, the deepest moved there from another chain in the layer below it, and empty layers."""
    upper, lower = (MOST_NAMES[it] - rng.choice((0, 1, 2, 30, 60)) for it in versions[:2])
    moved = chain("d", upper, {REDIRECT: "/x"})
    layers = [[*moved, entry("/x", "char", major=0, minor=0)], chain("x", min(lower, MOST_NAMES[2] - upper + rng.randint(0, 2)))]
    layers += [Layer()] * len(versions[2:])
    return [[timed(rng, it) if it["kind"] == "dir" else it for it in layer] for layer in layers]


def composed(rng: random.Random, layers: list[Layer]) -> list[Layer]:
    """The layers, with contents of some files in one more layer, which is data-only."""
    data, found = [entry("/z")], []
    for layer in layers:
        found.append(type(layer)())
        for it in layer:
            if "blob" in it and rng.random() < ELSEWHERE:
                data.append(it | {"path": f"/z/{len(data)}", "xattrs": {}})
                it = {name: value for name, value in it.items() if name != "blob"}
                it["xattrs"] = it["xattrs"] | {METACOPY: "", REDIRECT: data[-1]["path"].encode().hex()}
            found[-1].append(it)
    return [*found, data]


@dataclass(frozen=True)
class Case:
    """Layers, the topmost first, how many are data-only, and what lies in the folder of contents."""

    number: int
    layers: list[Layer]
    data_only: int
    blobs: dict[str, bytes]

    def versions(self) -> list[int]:
        """The versions of their manifests, each once."""
        return sorted({1 if isinstance(layer, First) else 2 for layer in self.layers})


def in_version(layer: Layer, version: int) -> Layer:
    """The layer as a manifest of the version can state it."""
    return First(it | {NSEC: 0} for it in layer) if version == 1 else layer


def contents_of(rng: random.Random) -> dict[str, bytes]:
    """What is in the folder of contents, by name; if it is spoilt, with strangers."""
    held = {hashlib.sha256(it).hexdigest(): it for it in CONTENTS[1:]}
    if rng.random() >= SPOILT:
        return held
    spoilt = {name: rng.choice((it, None, it[:-1], it + it, b"x" * len(it))) for name, it in held.items()}
    strangers = {hashlib.sha256(ABSENT).hexdigest()[::-1]: ABSENT, "notes": b""}
    return {name: it for name, it in spoilt.items() if it is not None} | strangers


def case_of(seed: str, number: int) -> Case:
    rng = random.Random(f"{seed} {number}")
    chance = rng.random()
    if chance < MADE:
        layers, data_only = ample.stack_of(rng).layers, int(rng.random() < COMPOSED)
        return Case(number, composed(rng, layers) if data_only else layers, data_only, contents_of(rng))
    versions = [rng.choice((1, 2, 2)) for _ in range(rng.choice((2, 2, 3, 3, 4) if chance < MADE + CHAINED else (1, 2, 2, 3, 4)))]
    if chance < MADE + CHAINED:
        layers, data_only = chains(rng, versions), 0
    else:
        layers = [anything(rng) for _ in versions]
        data_only = rng.choice((0, 0, 0, 1, 1, 2))
    return Case(number, [in_version(*it) for it in zip(layers, versions)], data_only, contents_of(rng))


# ---- runs

@dataclass(frozen=True)
class Answer:
    status: int | None
    printed: bytes
    told: bytes
    layers: dict[str, bytes]


# A command, what is wanted of it, and what it says.
Difference = tuple[str, Answer, Answer]
# What `fsck` answers if it finds nothing.
CLEAN = Answer(0, b"faults 0 notes 0\n", b"", {})


def answer(words: list[str], what: str, case: Case, blobs: str, files: list[str], workers: int,
           more: Sequence[str] = ()) -> Answer:
    """What a command says of the files, with some more words, and the new layers that it makes."""
    with tempfile.TemporaryDirectory(prefix="ovl-beside-") as out:
        words = [*words, what, *more, "--workers", str(workers), "--data-layers", str(case.data_only)]
        words += ["--blobs", blobs] if what != "show" else []
        words += ["--out", out] if what not in ("show", "fsck") else []
        try:
            ran = subprocess.run([*words, *files], stdin=subprocess.DEVNULL, capture_output=True, timeout=LONGEST, check=False)
        except subprocess.TimeoutExpired:
            return Answer(None, b"", b"no answer in time", {})
        layers = {}
        for it in os.scandir(out):
            with open(it.path, "rb") as made:
                layers[it.name] = made.read()
        return Answer(ran.returncode, ran.stdout, ran.stderr, layers)


def after_flatten(program: list[str], case: Case, blobs: str, said: dict[str, Answer], workers: int) -> Iterator[Difference]:
    """What is wanted of the flattened layer, and what is said of it: `show` as of the stack, and nothing is wrong."""
    with tempfile.NamedTemporaryFile(prefix="ovl-beside-") as layer:
        layer.write(said["flatten"].layers["layer-0.json"])
        layer.flush()
        alone = replace(case, data_only=0)
        for what, wanted in (("show", said["show"]), ("fsck", CLEAN)):
            yield f"{what} after flatten", wanted, answer(program, what, alone, blobs, [layer.name], workers)


def compared(program: list[str], oracle: list[str], case: Case) -> tuple[Case, list[str], list[Difference]]:
    """The case, a sort of answer for each command, and those of which the program says something else."""
    with tempfile.TemporaryDirectory(prefix="ovl-beside-") as folder, tempfile.TemporaryDirectory(prefix="ovl-beside-") as blobs:
        for name, contents in case.blobs.items():
            with open(os.path.join(blobs, name), "wb") as out:
                out.write(contents)
        files = write(folder, case.layers)
        sorts, differ, said, workers = [], [], {}, WORKERS[case.number % len(WORKERS)]
        for what in COMMANDS:
            wanted = answer(oracle, what, case, blobs, files, 1)
            end = wanted.told.decode(errors="replace").replace(blobs, "BLOBS").strip() or f"status {wanted.status}"
            sorts.append(f"{what}: {end}")
            for more in [(), ("--any-size",)][:1 if what == "show" else 2]:
                said[what] = answer(program, what, case, blobs, files, workers, more)
                if said[what] != wanted:
                    differ.append((" ".join([what, *more]), wanted, said[what]))
        if said["flatten"].status == 0:
            differ += [it for it in after_flatten(program, case, blobs, said, workers) if it[1] != it[2]]
        return case, sorts, differ


def tell(case: Case, differ: list[Difference], keep: str | None) -> None:
    """Prints a case whose answers differ, and keeps its manifests if asked to."""
    for what, *answers in differ:
        print(f"case {case.number}, {what}, layers: {len(case.layers)}, data-only: {case.data_only}")
        for name, it in zip(("wanted", "found"), answers):
            print(f"  {name}: status {it.status}, printed {it.printed[:TOLD]!r}, told {it.told[:TOLD]!r}, layers {sorted(it.layers)}")
    sys.stdout.flush()
    if keep:
        folder = os.path.join(keep, str(case.number))
        os.makedirs(folder, exist_ok=True)
        write(folder, case.layers)


def main() -> None:
    words = words_of("Compares what all commands do with small stacks with an independent reading.", "stacks", 1000)
    add_oracle(words, "stack", "those of the program")
    given = words.parse_args()
    program, oracle = [os.path.abspath(given.program)], oracle_of(given)
    sorts: collections.Counter[str] = collections.Counter()
    versions: collections.Counter[str] = collections.Counter()
    bad = 0
    with concurrent.futures.ThreadPoolExecutor(given.jobs) as pool:
        cases = (case_of(given.seed, number) for number in given.case or range(given.count))
        for case, found, differ in pool.map(lambda case: compared(program, oracle, case), cases):
            sorts.update(found)
            versions[" and ".join(map(str, case.versions()))] += 1
            if differ:
                tell(case, differ, given.keep)
                bad += 1
    show_sorts(sorts)
    told = ", ".join(f"{count:,} of version {names}" for names, count in sorted(versions.items()))
    print(f"{versions.total():,} stacks of seed {given.seed} ({told}), {bad} differ")
    sys.exit(1 if bad else 0)


if __name__ == "__main__":
    main()
