#!/usr/bin/env python3
"""Counts how wide a change is: the files that it touches, by kind, with their lines.

The change is named as `git diff` takes it, so `COMMIT..` is all that was committed since. With
`--naming` the files are those that have one of the words today: what a change of all that the words
mean has to look at. The last row leaves out examples, and files that a script makes.
Python 3.11 and git.

    python3 tools/width.py COMMIT..
    python3 tools/width.py --naming WORD
"""
import argparse
import subprocess
import sys
from collections.abc import Iterator
from dataclasses import dataclass
from pathlib import Path

TOP = Path(__file__).resolve().parent.parent
# What a file of a crate is, by its folder there, and any other file, by its folder.
PARTS = {"src": "src", "specs": "specs", "proofs": "proofs", "must-fail": "must-fail edits"}
FOLDERS = {"convert": "converter", "tests": "tests", "bench": "bench", "tools": "tools", "docs": "documents",
           "man": "documents", "examples": "examples"}
MADE = ("docs/PROVED.md",)
KINDS = [*PARTS.values(), "tests", "converter", "bench", "tools", "documents", "other", "examples", "made"]


@dataclass
class Touched:
    """A file of a change, with the lines that count of it."""

    path: str
    lines: list[int]

    @property
    def kind(self) -> str:
        folder, *rest = Path(self.path).parts
        if self.path in MADE:
            return "made"
        if folder == "crates":
            return "tests" if rest[0].endswith(("_tests", "_test_rows")) else PARTS.get(rest[1], "other")
        return FOLDERS.get(folder, "documents" if self.path.endswith(".md") else "other")


def git(*words: str) -> list[str]:
    done = subprocess.run(["git", "-C", str(TOP), *words], stdout=subprocess.PIPE, text=True)
    # (`git grep` ends with 1 if it finds nothing)
    if done.returncode > 1:
        sys.exit(done.returncode)
    return done.stdout.splitlines()


def touched_by(change: str) -> Iterator[Touched]:
    for line in git("diff", "--numstat", "--no-renames", change):
        *lines, path = line.split("\t")
        # (no lines are counted of a file that isn't text)
        yield Touched(path, [int(count) if count != "-" else 0 for count in lines])


def naming(words: list[str]) -> Iterator[Touched]:
    sought = [part for word in words for part in ("-e", word)]
    for line in git("grep", "--count", "-I", "--fixed-strings", "--word-regexp", *sought):
        path, _, count = line.rpartition(":")
        yield Touched(path, [int(count)])


def rows(files: list[Touched], heads: list[str]) -> Iterator[str]:
    yield f"| kind | files | {' | '.join(heads)} |"
    yield "|---|---:|" + "---:|" * len(heads)
    groups = [(kind, [file for file in files if file.kind == kind]) for kind in KINDS]
    groups.append(("all but the last two", [file for file in files if file.kind not in KINDS[-2:]]))
    for kind, group in groups:
        sums = [str(sum(file.lines[place] for file in group)) for place in range(len(heads))]
        yield f"| {kind} | {len(group)} | {' | '.join(sums)} |"


def main() -> None:
    words = argparse.ArgumentParser(description=__doc__,
                                    formatter_class=argparse.RawDescriptionHelpFormatter)
    words.add_argument("change", nargs="?", help="as git diff takes it, such as COMMIT..")
    words.add_argument("--naming", nargs="+", metavar="WORD", help="files that have such a word")
    words.add_argument("--files", action="store_true", help="name the files, too")
    given = words.parse_args()
    if (given.change is None) == (given.naming is None):
        words.error("a change or words")
    if given.naming is None:
        files, heads = list(touched_by(given.change)), ["lines added", "lines taken away"]
    else:
        files, heads = list(naming(given.naming)), ["lines with it"]
    if given.files:
        for kind in KINDS:
            print(f"{kind}: {' '.join(file.path for file in files if file.kind == kind)}")
    print("\n".join(rows(files, heads)))


if __name__ == "__main__":
    main()
