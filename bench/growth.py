#!/usr/bin/env python3
"""Measures how the program's cost grows with its input, on inputs that are dear for careless programs.

Python 3.11, standard library; instructions are counted if valgrind is there. Each
case makes layers of several sizes in a temporary folder (shapes.py) and has one
command read them by one worker. It prints a Markdown table a case: wall time,
peak memory and instructions at each size, and each of them for a byte of the
input and the report together; or one row a case. The status is 1 if the
instructions for a byte are more than the case allows, or grow more from a size
to the next, for each doubling, or if the peak, beside what the program takes
of only a root, is more bytes for a byte.

    python3 bench/growth.py --program ./ovl_layers
"""
import argparse
import math
import os
import shutil
import sys
import tempfile
from collections.abc import Callable, Iterator, Sequence
from dataclasses import dataclass

sys.path.append(os.path.join(os.path.dirname(__file__), "..", "tests", "makers"))

import instructions
import run
import shapes
from small_layers import Layer, Sources, write

# The most times that the instructions for a byte may grow at each doubling: in general, and of layers times directories
# or files, each of which may be looked at in each layer.
ALLOWED, LAYERED = 1.15, 2.2
# The most instructions and bytes of memory for a byte, and a little more bytes than the program takes of only a root.
INSTRUCTIONS, MEMORY, ITSELF = 400, 12, 4_000_000
# The most bytes of memory for a byte of a manifest of which a value is made: as others may write it, and of small objects.
FORM, VALUE = 20, 200
# The statuses of a stack in which a fault is found, of a manifest that is refused, and of a result over the limits.
FAULTY, REFUSED, LIMIT = 1, 3, 5


@dataclass(frozen=True)
class Case:
    """A command on layers of several sizes, how often the instructions for a byte may grow at a doubling, its status, and
    how many of the layers are data-only."""

    name: str
    command: str
    make: Callable[[int], Sources]
    sizes: tuple[int, ...]
    allowed: float = ALLOWED
    status: int = 0
    # How many layers are data-only, at a size.
    data_only: Callable[[int], int] = lambda size: 0
    # Whether members are out of the order of their names.
    unsorted: bool = False
    # The most bytes of memory for a byte.
    memory: int = MEMORY
    # Further words.
    words: tuple[str, ...] = ()
    # The names of more files in the folder of contents, at a size.
    strangers: Callable[[int], list[str]] = lambda size: []

    @property
    def most(self) -> float:
        """The most instructions for a byte."""
        return INSTRUCTIONS if self.allowed == ALLOWED else math.inf


def unnamed(size: int) -> list[str]:
    return [f"{n:064x}" for n in range(size)]


def other_files(size: int) -> list[str]:
    return [f"{n:063x}" for n in range(size)]


def each(commands: str, name: str, make: Callable[[int], Sources], sizes: tuple[int, ...], allowed: float = ALLOWED,
         status: int = 0) -> Iterator[Case]:
    """A case for each of the commands, which may have the status."""
    return (Case(name, command, make, sizes, allowed, status) for command in commands.split())


CHAINS = Case("N layers of 64 directories in each other, the deepest redirected to the first", "show", shapes.chained_redirects,
              (4, 8, 16, 32, 64, 128), LAYERED)
ANY_SIZE = ("--any-size",)
CASES = [
    # Redirects, names and attributes.
    Case("a directory with a redirect of N names, and N files in it", "show", shapes.long_redirect, (500, 1_000, 2_000, 4_000)),
    Case("a directory with a redirect of N names, and N directories in it", "show", shapes.redirected_directories, (500, 1_000, 2_000)),
    # The redirect leads nowhere, which is a fault.
    Case("a directory with a redirect of N names, and N directories in it", "fsck", shapes.redirected_directories, (500, 1_000, 2_000),
         status=FAULTY),
    Case("a redirect of N names", "show", shapes.lone_redirect, (1_000_000, 2_000_000)),
    Case("a directory with N attributes and N files", "show", shapes.many_attributes, (8_000, 16_000, 32_000)),
    Case("a directory with N attributes and N whiteouts", "fsck", shapes.attributes_and_whiteouts, (500, 1_000, 2_000)),
    *each("show deref merge flatten", "an entry of N attributes", shapes.short_attributes, (250_000, 500_000)),
    Case("N directories with redirects of 20 N names that differ only in the first, and N directories in each", "fsck",
         shapes.apart_in_the_first, (16, 32, 64), status=FAULTY),
    Case("N directories with redirects of 20 N names that differ only in the last, and N directories in each", "fsck",
         shapes.apart_in_the_last, (16, 32, 64), status=FAULTY),
    Case("two directories with redirects of 20 N names that differ only in the first, and N directories in each", "fsck",
         shapes.two_apart, (200, 400, 800), status=FAULTY),
    Case("a directory with a redirect of 20 N names, and N moved directories in it", "fsck", shapes.moved_in_redirected,
         (200, 400, 800), status=FAULTY),
    Case("a directory with a redirect of 20 N names, and N directories of a whiteout in it", "fsck",
         shapes.whiteouts_in_redirected, (200, 400, 800), status=FAULTY),
    Case("a directory with a redirect of 20 N names, and N metacopy files in it", "fsck",
         shapes.copies_in_redirected, (200, 400, 800), status=FAULTY),
    # Many entries.
    Case("a layer of N entries", "show", shapes.full_layer, (131_072, 1_048_576)),
    Case("a directory of N files", "show", shapes.one_directory, (50_000, 100_000, 200_000)),
    Case("two layers of a directory of N files", "vacuum", shapes.one_directory_twice, (25_000, 50_000, 100_000)),
    Case("a directory of N names of 246 bytes", "show", shapes.long_names, (5_000, 10_000, 20_000)),
    Case("N opaque directories of a file over the same, over empty ones", "merge", shapes.opaque_over_full, (2_500, 5_000, 10_000)),
    Case("a directory of N files, members out of the order of their names", "show", shapes.one_directory, (10_000, 20_000), unsorted=True,
         memory=FORM),
    Case("a directory of N files, white space in the manifest", "show", shapes.spaced, (25_000, 50_000), memory=FORM),
    # Depth.
    Case("20,000 files under N directories in each other", "show", shapes.under_a_chain, (0, 15, 30, 60)),
    Case("N files under 15 directories of long names", "show", shapes.under_long_names, (500, 1_000, 2_000)),
    Case("N directories under 63 in each other, over these 63", "merge", shapes.directories_under_a_chain, (1_000, 2_000, 4_000)),
    Case("N chains of 62 directories of equal names, and a moved directory", "fsck", shapes.equal_chains, (50, 100, 200)),
    # Moved directories.
    Case("N directories moved to one place", "fsck", shapes.moved_from_one, (2_500, 5_000, 10_000), status=FAULTY),
    Case("N directories moved to one with an attribute of 40 N bytes", "fsck",
         shapes.moved_from_long_attribute, (500, 1_000, 2_000, 4_000), status=FAULTY),
    Case("N directories moved to one of N files", "show", shapes.files_of_doubles, (50, 100, 200)),
    *each("show fsck vacuum deref", "N directories at the end of a chain of 126 below a moved directory", shapes.below_one_moved,
          (2_500, 5_000)),
    Case("N directories at the end of a chain of 60 moved ones", "fsck", shapes.below_60_moved, (5_000, 10_000)),
    Case("N directories at the end of a chain of 127 moved from long names", "fsck", shapes.below_moved_of_long_names, (2_500, 5_000)),
    *each("deref merge", "N directories in a moved one, whose paths are over the limits", shapes.over_the_limits, (5_000, 10_000),
          status=LIMIT),
    Case("N directories at the end of 60 layers of 15 long names, each moved to the next", "fsck", shapes.long_chains_moved_on, (250, 500)),
    Case("N directories at the end of 60 layers of 15 long names, each moved to the next", "deref",
         shapes.long_chains_moved_on, (250, 500), status=LIMIT),
    # Layers.
    Case("N layers of 20,000 other names each", "show", shapes.other_names, (1, 3, 16, 64)),
    Case("N - 1 layers of only a root over one of 20,000 files", "show", shapes.empty_over_full, (1, 16, 64, 128)),
    Case("N - 1 layers of only a root over one of 5,000 directories", "show", shapes.empty_over_directories, (8, 32, 127), LAYERED),
    Case("2,000 directories over N - 2 layers of only a root, over the same", "merge",
         shapes.empty_under_directories, (8, 32, 127), LAYERED),
    Case("N layers of 62 directories in each other, the lowest with 2,000 at their end", "show", shapes.at_the_end_of_chains,
         (8, 32, 127), LAYERED),
    *each("fsck vacuum merge", "500 whiteouts at the end of 62 directories in each other, which N layers have",
          shapes.whiteouts_through_chains, (8, 32), LAYERED),
    *each("vacuum merge", "N directories at the end of a moved chain of 62, which 60 layers have", shapes.below_60_layers, (500, 1_000),
          LAYERED),
    CHAINS,
    Case("N layers of 64 directories in each other, the deepest moved to the next layer's", "deref", shapes.chains_moved_on, (4, 8, 16, 32),
         LAYERED, LIMIT),
    *each("show fsck", "N layers in which a directory is moved to the next name, the lowest with 1,000 files in it", shapes.beside_chains,
          (8, 32, 127), LAYERED),
    Case("N layers in which a directory is redirected to itself, the lowest with 1,000 files in it", "show",
         shapes.redirected_to_themselves, (8, 32, 127), LAYERED),
    Case("N layers in which a directory is redirected to itself, the lowest with 1,000 directories in it", "show",
         shapes.directories_through_redirects, (8, 32, 127), LAYERED),
    Case("N layers of two directories that are each redirected to their parent", "fsck", shapes.doubled_in_each_layer, (16, 32, 64),
         LAYERED, FAULTY),
    # Metacopy files. Each one's data is sought in the layers below.
    *each("show fsck vacuum deref merge", "N metacopy files of one file with an attribute of 40 N bytes", shapes.copies_of_long_attribute,
          (500, 1_000, 2_000)),
    Case("N metacopy files of one file with N attributes", "fsck", shapes.copies_of_many_attributes, (1_000, 2_000, 4_000)),
    Case("3,000 metacopy files through N layers", "fsck", shapes.metacopy_files, (16, 32, 64), LAYERED),
    Case("1,000 metacopy files that are redirected to the next of N layers", "fsck", shapes.copies_of_the_next, (8, 32, 127), LAYERED),
    Case("3,000 metacopy files whose data lie in the last of N data-only layers", "fsck", shapes.data_only_layers, (1, 8, 64),
         data_only=lambda size: size),
    Case("20,000 metacopy files over N data-only layers, of which only the last has anything", "fsck", shapes.empty_data_only_layers,
         (1, 10, 100), LAYERED, data_only=lambda size: size),
    Case("3,000 metacopy files in a moved directory over N data-only layers, of which only the last has anything", "fsck",
         shapes.moved_into_data, (1, 8, 64), LAYERED, data_only=lambda size: size),
    Case("3,000 metacopy files with redirects through N layers into a data-only one", "fsck",
         shapes.chains_into_data, (1, 8, 32, 64), LAYERED, data_only=lambda size: 1),
    # Contents.
    Case("N files whose contents are missing", "fsck", shapes.missing_contents, (10_000, 20_000, 40_000), status=FAULTY),
    Case("N files whose contents are missing, with `--any-size`", "fsck",
         shapes.missing_contents, (10_000, 20_000, 40_000), status=FAULTY, words=ANY_SIZE),
    Case("N files of one content, with `--any-size`", "fsck", shapes.named_alike, (50_000, 100_000), words=ANY_SIZE),
    Case("N contents that no file names", "fsck", lambda size: [Layer()], (10_000, 20_000), strangers=unnamed),
    Case("N contents that no file names, with `--any-size`", "fsck",
         lambda size: [Layer()], (10_000, 20_000), words=ANY_SIZE, strangers=unnamed),
    Case("N files of other names among the contents, with `--any-size`", "fsck", lambda size: [Layer()], (10_000, 20_000), words=ANY_SIZE,
         strangers=other_files),
    Case("an entry of N attributes backwards", "show", shapes.attributes_backwards, (125_000, 250_000)),
    Case("an entry of an attribute of 5 N bytes and N times another", "show", shapes.attribute_again, (125_000, 250_000)),
    # What anyone may hand in: the status is that of a manifest that is refused.
    Case("N files, and an entry without a size", "show", shapes.late_fault, (10_000, 20_000, 40_000), status=REFUSED, memory=VALUE),
    Case("N objects that are no entries", "show", shapes.no_entries, (125_000, 250_000), status=REFUSED, memory=VALUE),
    Case("N objects of 100 in each other", "show", shapes.deep_objects, (2_500, 5_000), status=REFUSED, memory=VALUE),
    Case("N zeros as entries", "show", shapes.zeros, (500_000, 1_000_000), status=REFUSED, memory=VALUE),
    Case("a list of N numbers as the whole manifest", "show", shapes.numbers_alone, (500_000, 1_000_000), status=REFUSED, memory=VALUE),
    Case("an entry of N members", "show", shapes.many_members, (250_000, 500_000), status=REFUSED, memory=VALUE),
    Case("an entry of N attributes that are no texts", "show", shapes.wrong_attributes, (250_000, 500_000), status=REFUSED, memory=VALUE),
    Case("N members `entries`", "show", shapes.many_lists, (125_000, 250_000), status=REFUSED, memory=VALUE),
]


@dataclass(frozen=True)
class Cost:
    size: int
    bytes: int
    seconds: float
    peak: int
    instructions: int | None


def cost(program: str, case: Case, size: int, longest: float, unsorted: bool = False) -> Cost:
    with tempfile.TemporaryDirectory(prefix="ovl-growth-") as folder:
        blobs = os.path.join(folder, "blobs")
        os.mkdir(blobs)
        with open(os.path.join(blobs, shapes.BLOB), "wb") as out:
            out.write(shapes.CONTENTS)
        strangers = case.strangers(size)
        for name in strangers:
            open(os.path.join(blobs, name), "wb").close()
        layers, report = write(folder, case.make(size), unsorted or case.unsorted), os.path.join(folder, "report")
        places = ["--blobs", blobs] if case.command != "show" else []
        if case.command not in ("show", "fsck"):
            places += ["--out", folder]
        command = [program, case.command, *places, *case.words, "--workers", "1", "--data-layers", str(case.data_only(size)), *layers]
        seconds, peak, status = run.one_run(command, os.devnull, report)
        if status != case.status:
            sys.exit(f"growth.py: {case.name}: status {status} at {size}")
        counted = None
        if seconds <= longest and shutil.which("valgrind"):
            counted = instructions.instructions(command, (case.status,))
        total = sum(map(os.path.getsize, [*layers, report])) + sum(map(len, strangers))
        return Cost(size, total, seconds, peak, counted)


@dataclass(frozen=True)
class Marked:
    """What a run took, and what is said of its instructions and of its peak if they are more than the case allows."""

    cost: Cost
    of_instructions: str
    of_peak: str

    @property
    def each(self) -> str:
        """The instructions for a byte."""
        it = self.cost
        return "" if it.instructions is None else f"{it.instructions / it.bytes:.0f}{self.of_instructions}"

    @property
    def peak(self) -> str:
        return f"{self.cost.peak / self.cost.bytes:.1f}{self.of_peak}"

    def cells(self) -> list[str]:
        it = self.cost
        counted = "" if it.instructions is None else f"{it.instructions:,}"
        return [f"{it.size:,}", f"{it.bytes:,}", f"{it.seconds:.2f}", f"{it.peak:,}", counted, f"{1e9 * it.seconds / it.bytes:.0f}",
                self.peak, self.each]


def grown(before: Cost | None, after: Cost, allowed: float) -> bool:
    """Whether the instructions for a byte grew by more than is allowed at each doubling."""
    if before is None or before.instructions is None or after.instructions is None:
        return False
    doublings = max(1.0, math.log2(max(1, after.size) / max(1, before.size)))
    return after.instructions / after.bytes > math.pow(allowed, doublings) * before.instructions / before.bytes


def marked(case: Case, before: Cost | None, it: Cost) -> Marked:
    many = it.instructions is not None and it.instructions > case.most * it.bytes
    grew = " (grown)" if grown(before, it, case.allowed) else ""
    return Marked(it, " (too many)" if many else grew, " (too much)" if it.peak > case.memory * it.bytes + ITSELF else "")


def measured(program: str, case: Case, sizes: Sequence[int], longest: float, unsorted: bool) -> Iterator[Marked]:
    before = None
    for size in sizes:
        it = cost(program, case, size, longest, unsorted)
        yield marked(case, before, it)
        before = it


def table(case: Case, found: Iterator[Marked]) -> bool:
    """Prints the case's table. Gives whether all is within what the case allows."""
    print(f"`{case.command}`: {case.name}:\n")
    head = ["N", "Input and report, bytes", "Seconds", "Peak, bytes", "Instructions", "Nanoseconds a byte", "Peak a byte", "Instructions a byte"]
    print(run.row(head))
    print(run.row(["---:"] * len(head)))
    good = True
    for it in found:
        print(run.row(it.cells()), flush=True)
        good = good and not it.of_instructions and not it.of_peak
    print()
    return good


def short(case: Case, found: Iterator[Marked]) -> bool:
    """Prints a row of the case. Gives whether all is within what the case allows."""
    sizes = list(found)
    cells = [[f"{it.cost.size:,}" for it in sizes], [it.each for it in sizes if it.each], [it.peak for it in sizes]]
    print(run.row([f"{case.name} (`{case.command}`)", *map("; ".join, cells)]), flush=True)
    return not any(it.of_instructions or it.of_peak for it in sizes)


def main() -> None:
    words = argparse.ArgumentParser(description="Measures how the program's cost grows with its input.")
    words.add_argument("--program", required=True, help="path of the program")
    words.add_argument("--case", type=int, action="append", choices=range(1, len(CASES) + 1), help="only this case, counted from 1")
    words.add_argument("--sizes", type=int, help="only this many of the smallest sizes of each case")
    words.add_argument("--longest", type=float, default=5.0, help="count the instructions of runs of at most this many seconds (default 5)")
    words.add_argument("--unsorted", action="store_true", help="members out of the order of their names, which are read one by one")
    words.add_argument("--rows", action="store_true", help="a row a case, without seconds")
    given = words.parse_args()
    program = os.path.abspath(given.program)
    if given.rows:
        print(run.row(["Case", "N", "Instructions a byte", "Peak a byte"]))
        print(run.row(["---"] * 4))
    else:
        print(f"Machine: {run.machine()}.\n")
    good, told = True, short if given.rows else table
    for case in [CASES[n - 1] for n in given.case] if given.case else CASES:
        good = told(case, measured(program, case, case.sizes[:given.sizes], given.longest, given.unsorted)) and good
    sys.exit(0 if good else 1)


if __name__ == "__main__":
    main()
