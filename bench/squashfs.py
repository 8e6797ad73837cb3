#!/usr/bin/env python3
"""Measures scan and build of squashfs files, beside squashfs-tools.

Python 3.11, standard library; needs squashfs-tools-ng, and root for unsquashfs and the folder. In a temporary folder it
runs each command several times, each run a fresh process, and prints a Markdown table: the least processor time of the
command with its children (user and system), the least wall time, and the largest peak of memory of one of its processes.
Beside `scan` of the file is `unsquashfs` with `scan` of the folder, beside `build` `mksquashfs` of the folder, both
packed alike. The folder of blobs is a new one for each run.

    sudo python3 bench/squashfs.py filesystem.squashfs
"""
import argparse
import os
import sys
import tempfile
from pathlib import Path

from run import used

LAYERS = [sys.executable, "-B", str(Path(__file__).resolve().parent.parent / "layers")]
COMPRESSION = "gzip"


def row(name: str, runs: int, words: list[str], *out: str) -> None:
    """A line of the table."""
    found = [used(words, out) for _ in range(runs)]
    processor, wall, peak = min(it.processor for it in found), min(it.wall for it in found), max(it.peak for it in found)
    print(f"| {name} | {processor:.1f} s | {wall:.1f} s | {peak / 1000:.0f} MB |", flush=True)


def main() -> None:
    parser = argparse.ArgumentParser(description=__doc__, formatter_class=argparse.RawDescriptionHelpFormatter)
    parser.add_argument("squashfs", help="file to measure with")
    parser.add_argument("--runs", type=int, default=3, help="runs of each command [default: 3]")
    options = parser.parse_args()
    given, runs = os.path.realpath(options.squashfs), options.runs
    with tempfile.TemporaryDirectory() as work:
        os.chdir(work)
        print("| Command | Processor | Wall | Peak |\n| --- | ---: | ---: | ---: |")
        row("`scan` of the file", runs, [*LAYERS, "scan", given, "--out", "l.json", "--blobs", "blobs"], "blobs")
        row("`unsquashfs`", runs, ["unsquashfs", "-quiet", "-no-progress", "-dest", "folder", given], "folder")
        row("`scan` of the folder", runs, [*LAYERS, "scan", "folder", "--out", "f.json", "--blobs", "more"], "more")
        words = [*LAYERS, "build", "l.json", "--blobs", "blobs", "--out", "b.squashfs", "--compress", COMPRESSION]
        row("`build` of a squashfs, read again", runs, words, "b.squashfs")
        words = ["mksquashfs", "folder", "m.squashfs", "-comp", COMPRESSION, "-quiet", "-no-progress"]
        row("`mksquashfs`", runs, words, "m.squashfs")


if __name__ == "__main__":
    main()
