#!/usr/bin/env python3
"""Merges small stacks down to each number of layers at once, and compares that with the same merges one by one.

Python 3.11, standard library. The stacks have 3 to 6 layers that aren't data-only. Most are made as those of ample.py, as
a mounted overlay leaves them, some of them spoilt, half of them over a data-only layer; the others are anything, as those
of beside.py. Contents are right, missing or wrong. For each number of layers that may be left, `merge --down-to` must give
the standard output, standard error, status and new layers of the last of the runs by hand, each of which takes the lower
layer that the one before made into the next, or of the first that ends otherwise than with status 0; with `--any-size` too.
If it gives layers, the stack with these must show the same, and a single layer that is left must be what `flatten` makes. A
number that is none, or too great, must be refused.

    python3 tests/differential/down.py --program ./ovl_layers
"""
import collections
import concurrent.futures
import os
import random
import sys
import tempfile
from collections.abc import Iterator
from dataclasses import replace

sys.path.append(os.path.join(os.path.dirname(__file__), "..", "makers"))
sys.path.append(os.path.join(os.path.dirname(__file__), "..", "program"))

import ample
import beside
from beside import Answer, Case, Difference
from cases import show_sorts, words_of
from small_layers import Layer, write

# How many layers aren't data-only, and the share of the stacks as overlays leave them.
FEWEST, MOST, MADE = 3, 6, 0.8
NO_LOWER = Answer(3, b"", b"ovl_layers: no lower layer\n", {})


def ordinary(case: Case) -> int:
    return len(case.layers) - case.data_only


def case_of(seed: str, number: int) -> Case:
    rng = random.Random(f"down {seed} {number}")
    count = rng.randint(FEWEST, MOST)
    if rng.random() < MADE:
        layers, data_only = ample.stack_of(rng, (count,)).layers, rng.randrange(2)
        return Case(number, beside.composed(rng, layers) if data_only else layers, data_only, beside.contents_of(rng))
    data_only = rng.randrange(3)
    anything: list[Layer] = [beside.in_version(beside.anything(rng), rng.choice((1, 2, 2))) for _ in range(count + data_only)]
    return Case(number, anything, data_only, beside.contents_of(rng))


class Room:
    """A case in a folder: its files, and runs over it."""

    def __init__(self, program: list[str], case: Case, folder: str, blobs: str) -> None:
        self._program, self.case, self._folder, self._blobs = program, case, folder, blobs
        self._workers = beside.WORKERS[case.number % len(beside.WORKERS)]
        self.files = write(folder, case.layers)
        for name, contents in case.blobs.items():
            with open(os.path.join(blobs, name), "wb") as out:
                out.write(contents)

    def run(self, what: str, files: list[str], *more: str) -> Answer:
        return beside.answer(self._program, what, self.case, self._blobs, files, self._workers, more)

    def alone(self, file: str) -> Answer:
        """What a layer shows by itself."""
        case = replace(self.case, data_only=0)
        return beside.answer(self._program, "show", case, self._blobs, [file], self._workers, ())

    def kept(self, name: str, answered: Answer, layer: str = "layer-1.json") -> str:
        """Where a new layer of a run is kept as a file."""
        path = os.path.join(self._folder, name)
        with open(path, "wb") as file:
            file.write(answered.layers[layer])
        return path

    def by_hand(self) -> dict[int, Answer]:
        """What the last run says for each number of layers that is left, from the greatest on."""
        said: dict[int, Answer] = {}
        files = list(self.files)
        for left in range(ordinary(self.case) - 1, 0, -1):
            said[left] = self.run("merge", files)
            if said[left].status != 0:
                return said | {it: said[left] for it in range(1, left)}
            files[:2] = [self.kept(f"by-hand-{left}.json", said[left])]
        return said

    def after(self, left: int, answered: Answer) -> Iterator[Difference]:
        """What is wanted, and what is shown, with the new layers, and with only the lower one."""
        lower, top = self.kept(f"lower-{left}.json", answered), self.kept(f"top-{left}.json", answered, "layer-0.json")
        rest, before = self.files[ordinary(self.case) - left + 1:], self.run("show", self.files)
        yield f"show of {left} left", before, self.run("show", [lower, *rest])
        yield f"show of {left} left under a root", before, self.run("show", [top, lower, *rest])
        if left == 1 and not self.case.data_only:
            flat = self.run("flatten", self.files)
            if flat.status == 0:
                yield "show of the flattened layer", self.alone(self.kept("flat.json", flat, "layer-0.json")), self.alone(lower)


def compared(program: list[str], case: Case) -> tuple[Case, list[str], list[Difference]]:
    """The case, a sort of answer for each number, and what differs."""
    with tempfile.TemporaryDirectory(prefix="ovl-down-") as folder, tempfile.TemporaryDirectory(prefix="ovl-down-") as blobs:
        room = Room(program, case, folder, blobs)
        wanted = room.by_hand() | {left: NO_LOWER for left in (ordinary(case), ordinary(case) + 1, 127)}
        sorts: list[str] = []
        differ: list[Difference] = []
        for left, one in wanted.items():
            sorts.append(f"status {one.status} {one.told.decode(errors='replace').strip()}")
            for more in ((), ("--any-size",)):
                found = room.run("merge", room.files, "--down-to", str(left), *more)
                if found != one:
                    differ.append((f"merge --down-to {left} {' '.join(more)}", one, found))
            if one.status == 0:
                differ += [it for it in room.after(left, one) if it[1] != it[2]]
        for word in ("0", "128", "", "two"):
            found = room.run("merge", room.files, "--down-to", word)
            if (found.status, found.printed, found.layers) != (2, b"", {}):
                differ.append((f"merge --down-to {word!r}", replace(found, status=2), found))
        return case, sorts, differ


def main() -> None:
    given = words_of("Merges small stacks down to each number of layers, at once and one by one.", "stacks", 200).parse_args()
    program = [os.path.abspath(given.program)]
    sorts: collections.Counter[str] = collections.Counter()
    bad = 0
    with concurrent.futures.ThreadPoolExecutor(given.jobs) as pool:
        cases = (case_of(given.seed, it) for it in range(given.count))
        for case, found, differ in pool.map(lambda case: compared(program, case), cases):
            sorts.update(found)
            if differ:
                beside.tell(case, differ, given.keep)
                bad += 1
    show_sorts(sorts)
    print(f"{given.count:,} stacks of seed {given.seed}, {bad} differ")
    sys.exit(1 if bad else 0)


if __name__ == "__main__":
    main()
