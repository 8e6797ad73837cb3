"""What the scripts share that run the program on cases that they make, and print those that come out otherwise."""
import argparse
import collections
import os
import shlex


def words_of(description: str, cases: str, count: int) -> argparse.ArgumentParser:
    """The words of such a script; `cases` is what its cases are called, and `count` how many there are by default."""
    words = argparse.ArgumentParser(description=description)
    words.add_argument("--program", required=True, help="path of the program")
    words.add_argument("--count", type=int, default=count, help=f"how many {cases} (default {count})")
    words.add_argument("--seed", default="1", help=f"other seeds give other {cases} (default 1)")
    words.add_argument("--jobs", type=int, default=1, help=f"{cases} that are compared at once (default 1)")
    words.add_argument("--keep", metavar="DIR", help="folder for the manifests of which something else is said")
    return words


def add_oracle(words: argparse.ArgumentParser, case: str, after: str) -> None:
    """Adds those of one that compares with an independent reading, whose command takes `after` after its own words."""
    words.add_argument("--oracle", required=True, metavar="COMMAND", help="the other reading: a command and its words, after "
                       f"which come {after}; it answers as the program must, see docs/FORMATS.md")
    words.add_argument("--case", type=int, action="append", help=f"only the {case} of this number; may be said again")


def oracle_of(given: argparse.Namespace) -> list[str]:
    """That command; a file that is named in it is found from any folder."""
    return [os.path.abspath(it) if os.path.exists(it) else it for it in shlex.split(given.oracle)]


def show_sorts(sorts: collections.Counter[str]) -> None:
    """How many cases are of which sort."""
    for sort, count in sorted(sorts.items()):
        print(f"{count:7,} {sort}")
