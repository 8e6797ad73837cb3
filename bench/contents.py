#!/usr/bin/env python3
"""Measures the commands on contents of any size (`--any-size`): memory on long files, and time on many.

Python 3.11, standard library. In a temporary folder it makes files of contents with a layer that names each: sparse ones,
of which one is over 4 GiB; some of 50 MiB; and many of 1 KiB. It runs the program several times, each run a fresh process,
and prints Markdown tables: the least wall time and the largest peak of memory, beside `sha256sum` of the same files. The
status is 1 if a command on the sparse files takes more than 64 MiB and 100 bytes a file beyond what `show` takes of the
same layers.

    python3 bench/contents.py --program crates/ovl_layers/out/ovl_layers
"""
import argparse
import hashlib
import os
import random
import subprocess
import sys
import tempfile
import time
from collections.abc import Callable
from dataclasses import dataclass
from typing import BinaryIO

sys.path.append(os.path.join(os.path.dirname(__file__), "..", "tests", "makers"))

import run
from entries import entry
from small_layers import write

KIB, MIB, GIB = 1 << 10, 1 << 20, 1 << 30
# What a run may take beyond `show`: for itself, and for each file.
MOST, MOST_A_FILE = 64 * MIB, 100
# How many files a directory of a layer has, and how many are named of the many.
IN_DIRECTORY, FEW = 1_000, 10
# Fills the open file of this number and size.
Fill = Callable[[BinaryIO, int, int], None]


@dataclass(frozen=True)
class Contents:
    """A folder of blobs, and a layer that names some."""

    blobs: str
    layer: str
    named: list[tuple[int, str]]


def layer_of(folder: str, name: str, named: list[tuple[int, str]]) -> str:
    """The manifest of a layer that has a file for each of these sizes and digests."""
    paths = [(f"/d{n // IN_DIRECTORY:06d}", f"/f{n:07d}") for n in range(len(named))]
    entries = [entry(it) for it in sorted({directory for directory, _ in paths})]
    entries += [entry(top + path, "file", size=size, blob=digest) for (top, path), (size, digest) in zip(paths, named)]
    os.makedirs(os.path.join(folder, name))
    return write(os.path.join(folder, name), [entries])[0]


def digest_of(path: str) -> str:
    with open(path, "rb") as file:
        return hashlib.file_digest(file, "sha256").hexdigest()


def made(folder: str, name: str, sizes: list[int], fill: Fill) -> Contents:
    """Contents of these sizes, each made by `fill` of the open file, its number and size."""
    blobs, named = os.path.join(folder, name + "-blobs"), []
    os.makedirs(blobs)
    for number, size in enumerate(sizes):
        path = os.path.join(blobs, "new")
        with open(path, "wb") as file:
            fill(file, number, size)
        named.append((size, digest_of(path)))
        os.rename(path, os.path.join(blobs, named[-1][1]))
    return Contents(blobs, layer_of(folder, name, named), named)


def sparse(file: BinaryIO, number: int, size: int) -> None:
    mark = b"%08d" % number
    file.truncate(size)
    file.seek(size - len(mark))
    file.write(mark)


def dense(file: BinaryIO, number: int, size: int) -> None:
    file.write(random.Random(number).randbytes(size))


# ---- runs

def measured(words: list[str], repeats: int) -> tuple[float, int]:
    """(least seconds, largest peak) of runs that must end with 0."""
    runs = [run.one_run(words, os.devnull, os.devnull) for _ in range(repeats)]
    if any(status != 0 for *_, status in runs):
        sys.exit(f"contents.py: {' '.join(words[1:5])} didn't end with 0")
    return min(seconds for seconds, *_ in runs), max(peak for _, peak, _ in runs)


def command(program: str, what: str, contents: Contents, workers: int, out: str) -> list[str]:
    words = [program, what, "--any-size", "--blobs", contents.blobs, "--workers", str(workers)]
    return words + (["--out", out, contents.layer, contents.layer] if what == "merge" else [contents.layer])


def show(program: str, what: str, contents: Contents, workers: int) -> list[str]:
    return [program, "show", "--workers", str(workers), contents.layer] + [contents.layer] * (what == "merge")


def by_sha256sum(contents: Contents) -> float:
    """Seconds that `sha256sum` takes for the named files, in one process after another if there are many."""
    paths = "\0".join(os.path.join(contents.blobs, digest) for _, digest in contents.named).encode()
    begin = time.perf_counter()
    subprocess.run(["xargs", "-0", "sha256sum"], input=paths, stdout=subprocess.DEVNULL, check=True)
    return time.perf_counter() - begin


def print_memory(given: argparse.Namespace, folder: str, out: str) -> bool:
    """Whether all peaks are within what a run may take."""
    contents, within = made(folder, "long", [GIB // 32] * 96 + [4 * GIB + 100 * MIB], sparse), True
    print(f"\n96 sparse files of 32 MiB and one of 4,196 MiB, {sum(size for size, _ in contents.named):,} bytes:\n")
    print(run.row(["Command", "Workers", "Seconds", "Peak, bytes", "`show`", "Beyond"]))
    print(run.row(["---"] + ["---:"] * 5))
    for what in ("fsck", "merge"):
        for workers in given.workers:
            _, least = measured(show(given.program, what, contents, workers), 1)
            seconds, peak = measured(command(given.program, what, contents, workers, out), 1)
            within &= peak - least <= MOST + MOST_A_FILE * len(contents.named)
            print(run.row([f"`{what}`", str(workers), f"{seconds:.2f}", f"{peak:,}", f"{least:,}", f"{peak - least:,}"]), flush=True)
    return within


def print_times(given: argparse.Namespace, contents: Contents, what: str) -> None:
    """A row for these contents: `sha256sum`, and `fsck` by each number of workers."""
    beside = min(by_sha256sum(contents) for _ in range(given.repeats))
    times = [measured(command(given.program, "fsck", contents, workers, ""), given.repeats) for workers in given.workers]
    cells = [f"{seconds:.2f}" for seconds, _ in times] + [f"{times[0][0] / seconds:.2f}" for seconds, _ in times[1:]]
    print(run.row([what, f"{beside:.2f}", *cells, f"{max(peak for _, peak in times):,}"]), flush=True)


def main() -> None:
    words = argparse.ArgumentParser(description="Measures the commands on contents of any size.")
    words.add_argument("--program", required=True, help="path of the program")
    words.add_argument("--workers", default="1,4,64", help="numbers of workers, with commas (default 1,4,64)")
    words.add_argument("--repeats", type=int, default=3, help="runs of each command but those on sparse files (default 3)")
    words.add_argument("--many", type=int, default=200_000, help="how many files of 1 KiB (default 200,000)")
    given = words.parse_args()
    given.program, given.workers = os.path.abspath(given.program), [int(it) for it in given.workers.split(",")]
    print(f"Machine: {run.machine()}. Least time of {given.repeats} runs.")
    with tempfile.TemporaryDirectory(prefix="ovl-contents-") as folder:
        out = os.path.join(folder, "out")
        os.makedirs(out)
        within = print_memory(given, folder, out)
        print("\n" + run.row(["Contents", "`sha256sum`, s", *(f"`fsck` by {it}, s" for it in given.workers),
                              *(f"{given.workers[0]} / {it}" for it in given.workers[1:]), "Peak, bytes"]))
        print(run.row(["---"] + ["---:"] * (2 * len(given.workers) + 1)))
        print_times(given, made(folder, "fifty", [50 * MIB] * 40, dense), "40 files of 50 MiB")
        many = made(folder, "many", [KIB] * given.many, dense)
        print_times(given, many, f"{given.many:,} files of 1 KiB")
        few = made(folder, "few", [KIB] * FEW, dense)
        print_times(given, few, f"{FEW} files of 1 KiB")
        print_times(given, Contents(many.blobs, few.layer, few.named), f"the same {FEW} among {given.many:,}")
    sys.exit(0 if within else 1)


if __name__ == "__main__":
    main()
