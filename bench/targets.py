#!/usr/bin/env python3
"""Measures whether the program meets its targets of time and memory, side by side with Python's JSON reader.

Python 3.11, standard library. In a temporary folder it makes three layers as commands.py does, one layer of as many
entries and one of ten times as many (generate.py), and chains of directories as growth.py does. Each run is a fresh
process; the reader's and the program's are in turn, so that what else the machine does meets both. It prints a
Markdown table of the targets: the least times of the runs, the largest peaks, their quotients, and whether each is at
most what is wanted. The status is 1 if one isn't.

    python3 bench/targets.py --program ./ovl_layers
"""
import argparse
import os
import subprocess
import sys
import tempfile
from collections.abc import Iterator, Sequence
from dataclasses import dataclass

import commands
import growth
import run

# What is wanted, by number of workers: the most that a command on three layers takes of the reader's time.
TIME = {1: 0.5, 4: 0.25}
# The most times the bytes of the manifests that it has in memory; the most times that ten times the entries take.
MEMORY, GROWTH, TENFOLD = 4, 11, 10
# Chains: the most times the bytes of the manifests and the report in memory, through this many layers.
CHAINED, CHAINS = 6, (32, 128)


@dataclass(frozen=True)
class Target:
    """What was measured, beside what, and the most that their quotient may be."""

    name: str
    program: str
    beside: str
    quotient: float
    most: float

    def met(self) -> bool:
        return self.quotient <= self.most

    def cells(self) -> list[str]:
        return [self.name, self.program, self.beside, f"{self.quotient:.2f}", f"{self.most:g}", "yes" if self.met() else "no"]


def seconds_of(*least: float) -> str:
    return ", then ".join(f"{it:.2f} s" for it in least)


def bytes_of(count: int) -> str:
    return f"{count:,} bytes"


def people(workers: int) -> str:
    return "1 worker" if workers == 1 else f"{workers} workers"


def read_by_python(layers: list[str]) -> float:
    """The seconds that Python's reader takes for these manifests, one after the other."""
    return sum(run.measure([sys.executable, "-c", run.READ_ONE], layer, 1)[0] for layer in layers)


def in_turn(command: list[str], statuses: Sequence[int], layers: list[str], repeats: int) -> tuple[float, float, int]:
    """The least seconds of the reader and of a command on these layers, and the command's largest peak."""
    runs = [(read_by_python(layers), *commands.measure(command, statuses, 1)) for _ in range(repeats)]
    readers, times, peaks = zip(*runs)
    return min(readers), min(times), max(peaks)


def on_three_layers(program: str, folder: str, entries: int, repeats: int) -> Iterator[Target]:
    """Time and memory of each command."""
    for name, command, statuses in commands.on_layers(program, folder, entries):
        layers = command[-commands.LAYERS:]
        size = sum(map(os.path.getsize, layers))
        for workers, most in TIME.items():
            reader, seconds, peak = in_turn(commands.with_workers(command, workers), statuses, layers, repeats)
            which = f"{name}, {people(workers)}"
            yield Target(f"{which}: time", seconds_of(seconds), seconds_of(reader), seconds / reader, most)
            yield Target(f"{which}: peak", bytes_of(peak), bytes_of(size), peak / size, MEMORY)


def of_one_layer(program: str, folder: str, entries: int, repeats: int) -> Iterator[Target]:
    """How many times as long ten times the entries take."""
    files = []
    for count in (entries, TENFOLD * entries):
        files.append(os.path.join(folder, f"one-{count}.json"))
        subprocess.run([sys.executable, run.GENERATE, "--entries", str(count), "--out", files[-1]], check=True)
    for workers in TIME:
        found = [in_turn(commands.with_workers([program, "show", it], workers), (0,), [it], repeats) for it in files]
        (readers, times, _) = zip(*found)
        name = f"show, {people(workers)}, {entries:,} and {TENFOLD * entries:,} entries: growth of time"
        yield Target(name, seconds_of(*times), seconds_of(*readers), times[1] / times[0], GROWTH)


def of_chains(program: str) -> Iterator[Target]:
    """The memory that chains of directories take, through many layers that are each redirected to the next."""
    for layers in CHAINS:
        it = growth.cost(program, growth.CHAINS, layers, 0.0)
        name = f"show, 1 worker, 64 directories through {layers} layers: peak"
        yield Target(name, bytes_of(it.peak), bytes_of(it.bytes), it.peak / it.bytes, CHAINED)


def measured(program: str, entries: int, repeats: int) -> Iterator[Target]:
    with tempfile.TemporaryDirectory(prefix="ovl-targets-") as folder:
        yield from on_three_layers(program, folder, entries, repeats)
        yield from of_one_layer(program, folder, entries, repeats)
    yield from of_chains(program)


def main() -> None:
    words = argparse.ArgumentParser(description="Measures whether the program meets its targets of time and memory.")
    words.add_argument("--program", required=True, help="path of the program")
    words.add_argument("--entries", type=int, default=100000, help="entries of each of three layers, and of one beside one "
                       "of ten times as many (default 100000)")
    words.add_argument("--repeats", type=int, default=3, help="runs of each command (default 3)")
    given = words.parse_args()

    print(f"Machine: {run.machine()}. Least time of {given.repeats} runs; three layers of {given.entries:,} entries each.\n")
    print(run.row(["What", "Program", "Reader; or bytes of manifests, and of a chain's report", "Quotient", "At most", "Met"]))
    print(run.row(["---"] + ["---:"] * 4 + ["---"]))
    met = []
    for target in measured(os.path.abspath(given.program), given.entries, given.repeats):
        print(run.row(target.cells()), flush=True)
        met.append(target.met())
    print(f"\n{sum(met)} of {len(met)} targets are met. Load at the end: {os.getloadavg()[2]:.1f}.")
    sys.exit(0 if all(met) else 1)


if __name__ == "__main__":
    main()
