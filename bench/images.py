#!/usr/bin/env python3
"""Measures the converter on images that it makes, beside the least that the same bytes take, umoci, buildah and pigz.

Python 3.11, standard library; needs the built program, igzip, umoci, pigz, for one row buildah, and root. In a temporary folder
it makes its images, then runs the commands of all rows in turn, several times, each run a fresh process, so that what else the
machine does meets all of them. It prints a Markdown table: medians of wall and of processor time, of a command with its
children, each beside that of another command; and the most memory of all processes of the command together, their shares of
what they share, in a run that isn't timed. The status is 1 if a figure is missed.

    sudo python3 bench/images.py [--rows NAME,NAME,..] [--runs N]
"""
import argparse
import os
import statistics
import subprocess
import sys
import tempfile
import time
from collections.abc import Callable, Iterator
from dataclasses import dataclass, replace

import run
from made_images import TAG, Made, many_bytes, many_files

CONVERTER = [sys.executable, os.path.join(os.path.dirname(run.HERE), "layers")]
LIMIT = [sys.executable, os.path.join(run.HERE, "limit.py")]
NEW = ["new", "new.tar", "new.gz", "store", "squashed"]  # what a command makes, which is taken away before the next one
MEMORY = 120 * 1_000_000  # bytes of all processes together, at most
MEGABYTE = 1_000_000
STORE = "buildah --root store/root --runroot store/run --storage-driver vfs"
SQUASH = f'{STORE} commit --squash $({STORE} from "oci:$1") oci:squashed:x'
WITHOUT_PROGRAMS = "nothing"  # an empty folder, as the PATH of those that are to find no igzip
EVERY = 0.01  # seconds


@dataclass(frozen=True)
class Command:
    """Words that are run, in a folder in which they make one of `NEW`."""

    label: str
    words: tuple[str, ...]
    path: str | None = None  # in place of the usual one


@dataclass(frozen=True)
class Row:
    """A command, the one beside it, and how many times that one's time of the clock and of the processor it may take."""

    name: str
    ours: Command
    beside: Command
    wall: float | None = None
    processor: float | None = None


@dataclass(frozen=True)
class Used:
    """The medians of what the runs of a command took, in seconds."""

    wall: float
    processor: float


def converter(label: str, *words: str) -> Command:
    return Command(label, (*CONVERTER, *words))


def flatten(label: str, image: Made, out: str, *words: str) -> Command:
    """With plain layers, as packing is measured by itself."""
    return converter(label, "flatten", f"oci:{image.layout}:{TAG}", "--out", out, "--compress", "none", *words)


def without_igzip(command: Command) -> Command:
    return replace(command, label=f"{command.label}, without igzip", path=os.path.abspath(WITHOUT_PROGRAMS))


class Images:
    """The images, each made once it is wanted."""

    def __init__(self) -> None:
        self._made: dict[str, Made] = {}

    def _get(self, name: str, make: Callable[[str], Made]) -> Made:
        if name not in self._made:
            print(f"images.py: making {name}", file=sys.stderr)
            folder = os.path.abspath(name)
            self._made[name] = make(folder)
        return self._made[name]

    def large(self) -> Made:
        return self._get("large", lambda folder: many_bytes(folder, 440 * MEGABYTE, 8_000, 5))

    def few_layers(self) -> Made:
        return self._get("few-layers", lambda folder: many_bytes(folder, 50 * MEGABYTE, 2_000, 5))

    def many_layers(self) -> Made:
        return self._get("many-layers", lambda folder: many_bytes(folder, 50 * MEGABYTE, 2_000, 40))

    def many_files(self) -> Made:
        return self._get("many-files", lambda folder: many_files(folder, 2_000, 100_000))


def limit_rows(images: Images) -> Iterator[Row]:
    """The large image, beside its layers unpacked and digested once, and what it shows written and digested once."""
    image = images.large()
    limit = Command(
        "the limit", (*LIMIT, *image.layers, "--out", "new", "--bytes", str(image.shown))
    )
    for form, out in (("folder", "new"), ("tar", "new.tar")):
        command = flatten(f"`flatten` to a {form}", image, out)
        yield Row(form, command, limit, 1.5, 2.0)
        yield Row(f"{form}-zlib", without_igzip(command), limit, 2.0, 2.3)


def reading_rows(images: Images) -> Iterator[Row]:
    """What only reads the large image, beside its layers unpacked and digested once."""
    image = images.large()
    place, reading = f"oci:{image.layout}:{TAG}", Command("the limit's reading", (*LIMIT, *image.layers))
    digests = converter("`unpack --digests-only`", "unpack", place, "--out", "new", "--digests-only")
    yield Row("digests", digests, reading, 1.3, 1.4)
    yield Row("sizes", converter("`sizes`", "sizes", place), reading, 1.3, 1.4)


def layers_row(images: Images) -> Iterator[Row]:
    few, many = images.few_layers(), images.many_layers()
    yield Row(
        "layers", flatten("`flatten` of 40 layers", many, "new"), flatten("of the same in 5", few, "new"), 1.2, 1.1
    )


def files_rows(images: Images) -> Iterator[Row]:
    image = images.many_files()
    umoci = Command("`umoci unpack`", ("umoci", "unpack", "--image", f"{image.layout}:{TAG}", "new"))
    yield Row("files", flatten("`flatten` of 100,000 files", image, "new"), umoci, 0.5, 0.6)
    unpack = converter("`unpack` of 100,000 files", "unpack", f"oci:{image.layout}:{TAG}", "--out", "new")
    yield Row("files-unpack", unpack, umoci)


def gzip_row(images: Images) -> Iterator[Row]:
    """`pack` of what `flatten` made of the large image, beside pigz of the same archive."""
    once(flatten("", images.large(), "plain", "--keep", "kept"))
    layer = max((entry.path for entry in os.scandir("plain/blobs/sha256")), key=os.path.getsize)
    pack = converter(
        "`pack --compress gzip`", "pack", "kept/flatten/layer-0.json", "--blobs", "kept/stack/blobs",
        "--config", "kept/stack/config.json", "--out", "new", "--compress", "gzip",
    )
    yield Row("gzip", pack, Command("`pigz`", ("sh", "-c", 'pigz -c "$1" > new.gz', "sh", layer)), 1.1)


def others_rows(images: Images) -> Iterator[Row]:
    image = images.large()
    umoci = Command("`umoci unpack`", ("umoci", "unpack", "--image", f"{image.layout}:{TAG}", "new"))
    yield Row("umoci", flatten("`flatten` to a folder", image, "new"), umoci)
    buildah = Command("`buildah from`, `commit --squash`", ("sh", "-ec", SQUASH, "sh", f"{image.layout}:{TAG}"))
    yield Row("buildah", flatten("`flatten` to a folder", image, "new"), buildah)


ROWS = {
    "limit": limit_rows, "reading": reading_rows, "layers": layers_row, "files": files_rows, "gzip": gzip_row,
    "others": others_rows,
}


def once(command: Command) -> run.Used:
    """What one run took."""
    usual = os.environ["PATH"]
    os.environ["PATH"] = usual if command.path is None else command.path
    try:
        return run.used(list(command.words), NEW)
    finally:
        os.environ["PATH"] = usual


def measured(rows: list[Row], runs: int) -> dict[Command, Used]:
    """The medians of each command, which are run in turn."""
    commands = list(dict.fromkeys(command for row in rows for command in (row.beside, row.ours)))
    found: dict[Command, list[run.Used]] = {command: [] for command in commands}
    for number in range(runs):
        for command in commands:
            found[command].append(once(command))
        print(f"images.py: run {number + 1} of {runs} done", file=sys.stderr)
    return {
        command: Used(statistics.median(it.wall for it in of), statistics.median(it.processor for it in of))
        for command, of in found.items()
    }


def memory(command: Command) -> int:
    """The most bytes that all processes of a command took together, each its share of what several have."""
    run.clear(NEW)
    environment = {**os.environ, **({} if command.path is None else {"PATH": command.path})}
    process = subprocess.Popen(
        command.words, stdout=subprocess.DEVNULL, stderr=subprocess.DEVNULL, env=environment
    )
    most = 0
    while process.poll() is None:
        most = max(most, sum(map(_share, _with_children(process.pid))))
        time.sleep(EVERY)
    return most


def _with_children(process: int) -> Iterator[int]:
    yield process
    try:
        threads = os.listdir(f"/proc/{process}/task")
        lists = [_read(f"/proc/{process}/task/{thread}/children") for thread in threads]
    except OSError:
        return
    for child in " ".join(lists).split():
        yield from _with_children(int(child))


def _share(process: int) -> int:
    try:
        lines = _read(f"/proc/{process}/smaps_rollup").splitlines()
    except OSError:
        return 0
    return sum(int(line.split()[1]) * 1024 for line in lines if line.startswith("Pss:"))


def _read(path: str) -> str:
    with open(path, encoding="ascii") as file:
        return file.read()


def print_table(rows: list[Row], found: dict[Command, Used]) -> bool:
    """Prints the rows, and gives whether all figures are reached."""
    reached = True
    print(run.row(["Command", "beside", "Wall", "beside", "times", "at most", "Processor", "beside", "times", "at most", "Memory"]))
    print(run.row(["---", "---"] + ["---:"] * 9))
    for row in rows:
        ours, beside, most = found[row.ours], found[row.beside], memory(row.ours)
        wall, processor = ours.wall / beside.wall, ours.processor / beside.processor
        reached &= most <= MEMORY and wall <= (row.wall or wall) and processor <= (row.processor or processor)
        cells = [row.ours.label, row.beside.label]
        cells += _cells(ours.wall, beside.wall, row.wall) + _cells(ours.processor, beside.processor, row.processor)
        print(run.row([*cells, f"{most / MEGABYTE:.0f} MB"]), flush=True)
    return reached


def _cells(ours: float, beside: float, most: float | None) -> list[str]:
    return [f"{ours:.2f} s", f"{beside:.2f} s", f"{ours / beside:.2f}", "" if most is None else f"{most:.1f}"]


def main() -> None:
    parser = argparse.ArgumentParser(description=__doc__, formatter_class=argparse.RawDescriptionHelpFormatter)
    usual = ",".join(name for name in ROWS if name != "others")
    parser.add_argument("--rows", default=usual, help=f"of {','.join(ROWS)} [default: {usual}]")
    parser.add_argument("--runs", type=int, default=5, help="runs of each command [default: 5]")
    options = parser.parse_args()
    names = options.rows.split(",")
    if options.runs < 1 or not set(names) <= set(ROWS):
        parser.error(f"--rows takes {','.join(ROWS)}; --runs at least 1")
    with tempfile.TemporaryDirectory(prefix="ovl-bench-") as work:
        os.chdir(work)
        os.mkdir(WITHOUT_PROGRAMS)
        images = Images()
        rows = [row for name in names for row in ROWS[name](images)]
        found = measured(rows, options.runs)
        print(f"Machine: {run.machine()}. Medians of {options.runs} runs.\n")
        reached = print_table(rows, found)
    sys.exit(0 if reached else 1)


if __name__ == "__main__":
    main()
