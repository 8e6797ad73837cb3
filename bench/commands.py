#!/usr/bin/env python3
"""Measures the commands by several numbers of workers, on large layers and on many blobs.

Python 3.11, standard library. In a temporary folder it makes three layers of the
same number of entries (generate.py, seeds 1 to 3) and a folder of blobs with a
layer that names each of them, runs the program several times, each run a fresh
process, and prints Markdown tables: the least wall time of the runs and the
largest peak memory of one run. Commands that make new layers want contents that
are right: their layers have empty files, and are once of other names and once
the same one three times.

    python3 bench/commands.py --program ./ovl_layers
"""
import argparse
import hashlib
import json
import os
import random
import subprocess
import sys
import tempfile
from collections.abc import Iterator, Sequence

sys.path.append(os.path.join(os.path.dirname(__file__), "..", "tests", "makers"))

import run
from entries import entry
from generate import LAST

WORKERS = (1, 2, 4)
# How many layers a stack has.
LAYERS = 3
# The commands that make new layers.
REWRITING = ("vacuum", "deref", "merge", "flatten")


def measure(command: list[str], statuses: Sequence[int], repeats: int) -> tuple[float, int]:
    """(least seconds, largest peak) over the runs; a status that isn't expected ends the script."""
    runs = []
    for _ in range(repeats):
        seconds, peak, status = run.one_run(command, os.devnull, os.devnull)
        if status not in statuses:
            sys.exit("commands.py: %s ended with status %d" % (" ".join(command[:4]), status))
        runs.append((seconds, peak))
    return min(s for s, _ in runs), max(p for _, p in runs)


def make_layers(folder: str, entries: int, version: int, empty: bool = False) -> list[str]:
    """Layers of other names; if asked for, with only empty files."""
    files = []
    for n in range(1, LAYERS + 1):
        files.append(os.path.join(folder, "%s-%d.json" % ("empty" if empty else "layer", n)))
        subprocess.run([sys.executable, run.GENERATE, "--entries", str(entries), "--seed", str(n),
                        "--version", str(version), "--out", files[-1]] + ["--empty"] * empty, check=True)
    return files


def rewriting(program: str, folder: str, none: str, entries: int, version: int) -> Iterator[tuple[str, list[str]]]:
    """A name and a command for each command that makes new layers, over layers of other names and of the same."""
    layers, new = make_layers(folder, entries, version, empty=True), os.path.join(folder, "new")
    os.mkdir(new)
    for what in REWRITING:
        command = [program, what, "--blobs", none, "--out", new]
        yield what + ", other names", command + layers
        yield what + ", the same names", command + layers[:1] * LAYERS


def on_layers(program: str, folder: str, entries: int, version: int = LAST) -> Iterator[tuple[str, list[str], Sequence[int]]]:
    """A name, a command and the statuses that it may end with, for each command over three layers."""
    layers, none = make_layers(folder, entries, version), os.path.join(folder, "none")
    os.mkdir(none)
    yield "show", [program, "show"] + layers, (0,)
    # The generated layers name blobs that aren't there: faults, and status 1.
    yield "fsck", [program, "fsck", "--blobs", none] + layers, (0, 1)
    for name, command in rewriting(program, folder, none, entries, version):
        yield name, command, (0,)


def with_workers(command: list[str], workers: int) -> list[str]:
    return command[:2] + ["--workers", str(workers)] + command[2:]


def make_blobs(folder: str, count: int, size: int) -> tuple[str, str]:
    """A folder of blobs, and a layer with a file for each of them."""
    blobs = os.path.join(folder, "blobs")
    os.mkdir(blobs)
    bits = random.Random(1)
    entries = [entry("/")]
    for n in range(count):
        content = bits.randbytes(size)
        name = hashlib.sha256(content).hexdigest()
        with open(os.path.join(blobs, name), "wb") as file:
            file.write(content)
        entries.append(entry("/f%07d" % n, "file", size=size, blob=name))
    layer = os.path.join(folder, "blobs.json")
    with open(layer, "w") as file:
        json.dump({"overlay-layer": LAST, "entries": entries}, file, separators=(",", ":"), sort_keys=True)
    return blobs, layer


def table(head: list[str], rows: list[list[str]]) -> None:
    print(run.row(head))
    print(run.row(["---"] + ["---:"] * (len(head) - 1)))
    for cells in rows:
        print(run.row(cells))
    print()


def by_workers(name: str, command: list[str], statuses: Sequence[int], repeats: int) -> list[list[str]]:
    """Rows of one command, each with how many times as fast as one worker it is."""
    rows, alone = [], None
    for workers in WORKERS:
        seconds, peak = measure(with_workers(command, workers), statuses, repeats)
        alone = alone or seconds
        rows.append([name, str(workers), "%.2f" % seconds, "%.2f" % (alone / seconds), "{:,}".format(peak)])
        print("commands.py: %s by %d workers done" % (name, workers), file=sys.stderr)
    return rows


def main() -> None:
    words = argparse.ArgumentParser(description="Measures the commands by several numbers of workers.")
    words.add_argument("--program", required=True, help="path of the program")
    words.add_argument("--entries", type=int, default=100000, help="entries of each of three layers (default 100000)")
    words.add_argument("--blobs", type=int, default=2000, help="how many blobs (default 2000)")
    words.add_argument("--size", type=int, default=100000, help="bytes of each blob (default 100000)")
    words.add_argument("--repeats", type=int, default=3, help="runs of each command (default 3)")
    given = words.parse_args()
    program = os.path.abspath(given.program)
    head = ["Command", "Workers", "Wall time, s", "Times as fast as one", "Peak, bytes"]

    with tempfile.TemporaryDirectory(prefix="ovl-bench-") as folder:
        rows = []
        for name, command, statuses in on_layers(program, folder, given.entries):
            rows += by_workers(name, command, statuses, given.repeats)
        blobs, layer = make_blobs(folder, given.blobs, given.size)
        digests = by_workers("fsck of blobs", [program, "fsck", "--blobs", blobs, layer], (0,), given.repeats)

    print("Machine: %s. Least time of %d runs.\n" % (run.machine(), given.repeats))
    print("Three layers of {:,} entries each:\n".format(given.entries))
    table(head, rows)
    print("{:,} blobs of {:,} bytes each:\n".format(given.blobs, given.size))
    table(head, digests)


if __name__ == "__main__":
    main()
