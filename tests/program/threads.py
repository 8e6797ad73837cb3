#!/usr/bin/env python3
"""Counts the threads that PROGRAM starts, of which no contract says how many share a thing, and what the first of them does.

Python 3.11, standard library, and `rt`, whose compiler builds refuse.c. Forty layers with forty contents, and a layer whose
report has many lines, are given to each command by 2, 4 and 12 workers, and the layers to `show` by 40. So a command is found
in which one thread reads all manifests or contents or writes all lines, one that starts a thread for each of them, and one of
too few workers. Of many contents in parts no one thread reads most.

    python3 tests/program/threads.py --program crates/ovl_layers/out/ovl_layers
"""
import argparse
import concurrent.futures
import hashlib
import os
import subprocess
import sys
import tempfile
from collections.abc import Iterator
from dataclasses import dataclass
from pathlib import Path

sys.path.append(os.path.join(os.path.dirname(__file__), "..", "makers"))

from refusals import THREAD, WAYS, Stack, Sweep, build, file, run
from refusals import STACKS as SMALL
from small_layers import write

REWRITES = ("vacuum", "deref", "merge", "flatten")
# Of a stack of this many layers, for each command: how many lists of that length it cuts into shares, how many other things all
# workers share, as walks and lines, and how many things are done beside others.
STARTS = {
    "forty_layers": (40, {"show": (3, 1, 0), "fsck": (4, 41, 0), **{it: (4, 42, 1) for it in REWRITES},
                          "fsck --any-size": (3, 41, 0), "merge --any-size": (3, 42, 1)}),
    "many_lines": (2, {"show": (3, 2, 1), "fsck": (3, 4, 0), **{it: (3, 4, 1) for it in REWRITES},
                       "fsck --any-size": (3, 3, 0), "merge --any-size": (3, 3, 1)}),
}
# What standard input's many lines take, by four workers: a walk, the lines, and letting the walk go beside that.
OF_INPUT = 2 * 3 + 1
# How many contents are read in parts by how many workers, of which none reads more than this share.
CONTENTS, READERS, SHARE = 20_000, 8, 0.4


@dataclass(frozen=True)
class Crew:
    """A command on a stack by this many workers, of which the threads are counted."""

    command: str
    stack: str
    workers: int

    def threads(self) -> int:
        layers, commands = STARTS[self.stack]
        lists, walks, beside = commands[self.command]
        share = -(-layers // self.workers)
        return lists * (-(-layers // share) - 1) + walks * (self.workers - 1) + beside


def crews() -> Iterator[Crew]:
    for stack, (_, commands) in STARTS.items():
        yield from (Crew(command, stack, workers) for command in commands for workers in (2, 4, 12))
    yield Crew("show", "forty_layers", 40)


def counted(program: str, library: str, crew: Crew) -> str | None:
    """What is printed if a run starts fewer threads, or many more."""
    with tempfile.TemporaryDirectory(prefix="ovl-threads-") as folder:
        room = Path(folder)
        words = Sweep(crew.command, crew.stack, crew.workers, THREAD).words(program, room)
        ending, met, _ = run(words, room, {"LD_PRELOAD": library, "REFUSE_AT": "0", **WAYS[THREAD]})
    wanted = crew.threads()
    if ending.status in (0, 1) and wanted <= met <= wanted + crew.workers:
        return None
    return f"{crew.command} of {crew.stack} by {crew.workers}: {met} threads were started, and not {wanted}"


def counted_of_input(program: str, library: str) -> str | None:
    with tempfile.TemporaryDirectory(prefix="ovl-threads-") as folder:
        [layer, *_] = write(folder, SMALL["many_lines"].layers)
        told = os.path.join(folder, "told")
        env = {"LD_PRELOAD": library, "REFUSE_AT": "0", "REFUSE_TOLD": told, **WAYS[THREAD]}
        with open(layer, "rb") as text:
            subprocess.run([program], env=env, stdin=text, stdout=subprocess.DEVNULL, check=True)
        met = int(Path(told).read_text(encoding="ascii").split()[0])
    return None if OF_INPUT <= met <= OF_INPUT + 4 else f"standard input: {met} threads were started, and not {OF_INPUT}"


def counted_of_contents(program: str, library: str) -> str | None:
    """Counts the contents that the first thread opens, which is a worker as the others are."""
    contents = [b"%d" % number for number in range(CONTENTS)]
    stack = Stack(([file(f"/f{number:05d}", it) for number, it in enumerate(contents)],), {})
    with tempfile.TemporaryDirectory(prefix="ovl-threads-") as folder:
        blobs, told = os.path.join(folder, "blobs"), os.path.join(folder, "told")
        os.mkdir(blobs)
        for it in contents:
            with open(os.path.join(blobs, hashlib.sha256(it).hexdigest()), "wb") as out:
                out.write(it)
        env = {"LD_PRELOAD": library, "REFUSE": "own", "REFUSE_TOLD": told}
        words = ["fsck", "--any-size", "--workers", str(READERS), "--blobs", blobs, *write(folder, stack.layers)]
        subprocess.run([program, *words], env=env, stdin=subprocess.DEVNULL, stdout=subprocess.DEVNULL, check=True)
        met = int(Path(told).read_text(encoding="ascii").split()[0])
    return None if met < SHARE * CONTENTS else f"of {CONTENTS:,} contents one of {READERS} workers opens {met:,}"


def main() -> None:
    words = argparse.ArgumentParser(description="Counts the threads that a program starts.")
    words.add_argument("--program", required=True, help="path of the program")
    program = os.path.abspath(words.parse_args().program)
    with tempfile.TemporaryDirectory(prefix="ovl-refuse-") as folder, concurrent.futures.ProcessPoolExecutor() as pool:
        library = os.path.join(folder, "refuse.so")
        build(library)
        done = [pool.submit(counted, program, library, it) for it in crews()]
        done += [pool.submit(counted_of_input, program, library), pool.submit(counted_of_contents, program, library)]
        wrong = [it for it in (one.result() for one in done) if it is not None]
    print(*wrong, sep="\n", end="\n" if wrong else "")
    print(f"{len(done)} runs, {len(wrong)} with another number of threads")
    sys.exit(1 if wrong else 0)


if __name__ == "__main__":
    main()
