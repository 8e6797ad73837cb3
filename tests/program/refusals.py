#!/usr/bin/env python3
"""Refuses the program and a program of tests memory, one request after the other, and looks at how they end.

Python 3.11, standard library, and `rt`, whose compiler builds refuse.c. Each command is run on small stacks by 1 and by
2 workers, and on one of 40 directories by 7, again and again: the first, the second, the third and each later request
for memory is refused, then all from the first on, from the second on, and so forth, each time until a run meets no
refusal; and so is each start of a thread, of which there is none by 1 worker, and by others one fewer than they are for each
thing that a command does, at most. A run must end with its full answer, which is that by 1 worker, or with status 5 and
`out of memory`, nothing on standard output, no new layer, and the one that was there as it was.

Each test of the other program runs in a process of its own, again and again, with one request for memory or one start of a
thread refused: it must pass each time, as it makes a call that ran out of memory again.

    python3 tests/program/refusals.py --program crates/ovl_layers/out/ovl_layers \
        --tests crates/ovl_refusal_tests/out/ovl_refusal_tests_tests
    python3 tests/program/refusals.py --library refuse.so    # only builds the library
"""
import argparse
import collections
import concurrent.futures
import hashlib
import os
import shutil
import subprocess
import sys
import tempfile
from collections.abc import Iterator
from dataclasses import dataclass
from pathlib import Path

sys.path.append(os.path.join(os.path.dirname(__file__), "..", "makers"))

from entries import REDIRECT, Entry, entry
from small_layers import First, Layer, write

SOURCE = Path(__file__).resolve().parent / "refuse.c"
COMMANDS = ("show", "fsck", "vacuum", "deref", "merge", "flatten", "fsck --any-size", "merge --any-size", "merge --down-to 1")
# What is refused, and how refuse.c learns of it.
THREAD = "the start of a thread"
WAYS = {"a request": {"REFUSE": "memory"}, "a request and all after it": {"REFUSE": "memory", "REFUSE_ON": ""},
        THREAD: {"REFUSE": "thread"}}
# What a command does beside checking its layers, each by as many threads as there are workers: it reads files, reads what these
# state, reads blobs, digests them, makes what is shown or a new layer, lets the stack go, and writes lines.
THINGS = 7
# Stacks of at most this many layers are merged down to one.
FEW = 3
# No run meets this many requests. A sweep ends with this many wrong endings; of a command this many are printed.
MOST, ENOUGH, TOLD = 50_000, 40, 5
# So many processes share the requests of a test.
SHARES = 8
TESTS = "tests"
OLD = b"what was there before\n"


# ---- the stacks

def digest(contents: bytes) -> str:
    return hashlib.sha256(contents).hexdigest()


def file(path: str, contents: bytes, stated: int | None = None) -> Entry:
    """A file of these contents; of another size than theirs if that is stated."""
    return entry(path, "file", size=len(contents) if stated is None else stated, blob=digest(contents))


def whiteout(path: str) -> Entry:
    return entry(path, "char", major=0, minor=0)


def moved(path: str, target: str) -> Entry:
    return entry(path, attrs={REDIRECT: target})


def opaque(path: str) -> Entry:
    return entry(path, attrs={"trusted.overlay.opaque": "y"})


@dataclass(frozen=True)
class Stack:
    """Layers, the topmost first, each below its root; the contents of the blobs by their names; how many workers; and what
    these are refused."""

    layers: tuple[Layer, ...]
    blobs: dict[str, bytes]
    workers: tuple[int, ...] = (1, 2)
    refused: tuple[str, ...] = tuple(WAYS)


A = {digest(b"a"): b"a"}
DIRECTORY = [entry("/d"), file("/d/k", b"a")]
FORTY = [it for n in range(40) for it in (entry(f"/d{n:02d}"), file(f"/d{n:02d}/k", b"a"))]
# Each has a line of the report and a note, twenty times as many as one thread writes at least.
LINES = [entry(f"/d{n:05d}", attrs={"trusted.overlay.opaque": "z"}) for n in range(20 * 1024)]
STACKS = {
    "root_alone": Stack(([],), {}),
    "moved_under_opaque": Stack(([opaque("/n"), moved("/n/d", "/x"), whiteout("/x")],
                                 [entry("/n"), file("/n/z", b"a"), entry("/x"), file("/x/k", b"a")]), A),
    "the_same_twice": Stack((DIRECTORY, First(DIRECTORY)), A),
    "moved_over_another": Stack(([whiteout("/a"), moved("/b", "/a")], [entry("/a"), file("/a/k", b"a")],
                                 [entry("/b"), file("/b/z", b"a")]), A),
    "wrong_contents": Stack(([entry("/e", "file", size=0), file("/k", b"abc"), file("/m", b"a"), file("/s", b"ab", 3)],),
                            {digest(b"abc"): b"abd", digest(b"ab"): b"ab"}),
    "forty_directories": Stack((FORTY, FORTY), A, (7,)),
    "many_lines": Stack((LINES, []), {}, refused=(THREAD,)),
    "forty_layers": Stack(tuple([file(f"/f{n:02d}", b"%d" % n)] for n in range(40)), {digest(b"%d" % n): b"%d" % n for n in range(40)},
                          refused=(THREAD,)),
}


# ---- runs

@dataclass(frozen=True)
class Ending:
    """How a run ends: its status, what it printed and reported, and the new layers by their names."""

    status: int
    printed: bytes
    told: bytes
    layers: dict[str, bytes]


REFUSED = Ending(5, b"", b"ovl_layers: out of memory\n", {"layer-0.json": OLD})


def run(words: list[str], room: Path, env: dict[str, str]) -> tuple[Ending, int, bool]:
    """A run's ending, how often what is counted was met, and whether it was refused. One that is killed counts as refused."""
    new, told = room / "new", room / "told"
    shutil.rmtree(new, ignore_errors=True)
    new.mkdir()
    (new / "layer-0.json").write_bytes(OLD)
    told.unlink(missing_ok=True)
    ran = subprocess.run(words, env={**env, "REFUSE_TOLD": str(told)}, stdin=subprocess.DEVNULL, capture_output=True, check=False)
    layers = {it.name: it.read_bytes() for it in new.iterdir()}
    met, refused = map(int, told.read_text().split()) if told.exists() else (1, 1)
    return Ending(ran.returncode, ran.stdout, ran.stderr, layers), met, refused > 0


@dataclass(frozen=True)
class Sweep:
    """A command on a stack by this many workers, and what it is refused."""

    command: str
    stack: str
    workers: int
    refused: str

    def goes_on(self) -> bool:
        """Whether it merges again and again, and so checks the layers that are left and makes new ones each time."""
        return "--down-to" in self.command

    def most_threads(self) -> int:
        layers = len(STACKS[self.stack].layers)
        more = sum(left + 1 for left in range(2, layers)) if self.goes_on() else 0
        return (THINGS + layers + more) * (self.workers - 1)

    def words(self, program: str, room: Path) -> list[str]:
        stack, blobs, folder = STACKS[self.stack], room / "blobs", room / "layers"
        for it in (blobs, folder):
            it.mkdir()
        for name, contents in stack.blobs.items():
            (blobs / name).write_bytes(contents)
        what, *more = self.command.split()
        words = [program, what, *more, "--workers", str(self.workers)]
        words += ["--blobs", str(blobs)] if what != "show" else []
        words += ["--out", str(room / "new")] if what not in ("show", "fsck") else []
        return words + write(str(folder), stack.layers)


def by_one(words: list[str]) -> list[str]:
    """The same words, with one worker."""
    at = words.index("--workers") + 1
    return [*words[:at], "1", *words[at + 1:]]


def swept(program: str, library: str, sweep: Sweep) -> tuple[int, list[str]]:
    """How many runs there were, and what is printed of those that ended wrongly."""
    with tempfile.TemporaryDirectory(prefix="ovl-refusals-") as folder:
        room = Path(folder)
        words = sweep.words(program, room)
        full, _, _ = run(words, room, {})
        alone, _, _ = run(by_one(words), room, {})
        how = f"{sweep.command} of {sweep.stack} by {sweep.workers}"
        wrong = [] if full.status in (0, 1, 3) and full == alone else [f"{how}, nothing refused: {full}, and by 1: {alone}"]
        for number in range(1, MOST):
            env = {"LD_PRELOAD": library, "REFUSE_AT": str(number), **WAYS[sweep.refused]}
            ending, _, refused = run(words, room, env)
            if ending not in ((full, REFUSED) if refused else (full,)):
                wrong.append(f"{how}, refused {sweep.refused}, number {number}: {ending}")
            if number == 1 and not refused and sweep.refused != THREAD:
                wrong.append(f"{how}: no request was met")
            if refused and sweep.refused == THREAD and number > sweep.most_threads():
                wrong.append(f"{how}: thread {number} was started")
            if not refused or len(wrong) >= ENOUGH:
                return number, wrong
        return MOST, [*wrong, f"{how}: no run without a refusal"]


@dataclass(frozen=True)
class Trial:
    """A test, and what it is refused: the first of these numbers, and each that comes SHARES later."""

    test: str
    first: int
    refused: str
    command = TESTS


def tried(program: str, library: str, trial: Trial) -> tuple[int, list[str]]:
    """How many runs of a test there were, and what is printed of those that didn't pass."""
    wrong = []
    with tempfile.TemporaryDirectory(prefix="ovl-refusals-") as folder:
        for runs, number in enumerate(range(trial.first, MOST, SHARES), 1):
            env = {"LD_PRELOAD": library, "REFUSE_AT": str(number), **WAYS[trial.refused]}
            ending, _, refused = run([program, trial.test], Path(folder), env)
            if ending.status != 0:
                wrong.append(f"{trial.test}, refused {trial.refused}, number {number}: {ending}")
            if number == 1 and not refused and trial.refused != THREAD:
                wrong.append(f"{trial.test}: no request was met")
            if not refused or len(wrong) >= ENOUGH:
                return runs, wrong
    return runs, [*wrong, f"{trial.test}: no run without a refusal"]


def trials(program: str) -> Iterator[Trial]:
    listed = subprocess.run([program, "--list"], stdin=subprocess.DEVNULL, capture_output=True, text=True, check=True).stdout
    for test in listed.split(": test\n")[:-1]:
        yield Trial(test, 1, THREAD)
        yield from (Trial(test, first, "a request") for first in range(1, SHARES + 1))


def build(library: str) -> None:
    """Builds the library by the compiler that rt brings along."""
    page = subprocess.run(["rt", "doc"], stdin=subprocess.DEVNULL, capture_output=True, text=True, check=True).stdout
    tools = Path(page.strip()).parent / "toolchain/bin"
    with tempfile.TemporaryDirectory(prefix="ovl-refuse-") as folder:
        made = Path(folder) / "refuse.o"
        subprocess.run([tools / "clang", "-O2", "-fPIC", "-ffreestanding", "-c", "-o", made, SOURCE], check=True)
        subprocess.run([tools / "ld.lld", "-shared", "-o", library, made], check=True)


def sweeps() -> Iterator[Sweep]:
    """All, those of the longest runs first."""
    for name, stack in reversed(STACKS.items()):
        for refused in stack.refused:
            found = (Sweep(command, name, workers, refused) for workers in stack.workers for command in COMMANDS)
            yield from (it for it in found if not it.goes_on() or len(stack.layers) <= FEW)


def main() -> None:
    words = argparse.ArgumentParser(description="Refuses programs memory, one request after the other.")
    what = words.add_mutually_exclusive_group(required=True)
    what.add_argument("--program", help="path of the program")
    what.add_argument("--library", metavar="FILE", help="build the library that refuses into this file, and nothing else")
    words.add_argument("--tests", metavar="PROGRAM", help="path of a program of tests, which is refused memory too")
    given = words.parse_args()
    if given.library:
        build(given.library)
        sys.exit(0)
    program, tests = os.path.abspath(given.program), os.path.abspath(given.tests) if given.tests else None
    runs: collections.Counter[str] = collections.Counter()
    wrong: dict[str, list[str]] = collections.defaultdict(list)
    with tempfile.TemporaryDirectory(prefix="ovl-refuse-") as folder, concurrent.futures.ProcessPoolExecutor() as pool:
        library = os.path.join(folder, "refuse.so")
        build(library)
        todo = [(it.command, pool.submit(swept, program, library, it)) for it in sweeps()]
        todo += [(it.command, pool.submit(tried, tests, library, it)) for it in trials(tests)] if tests else []
        for command, done in todo:
            count, told = done.result()
            runs[command] += count
            wrong[command] += told
    for command in (*COMMANDS, *([TESTS] if given.tests else [])):
        print(*wrong[command][:TOLD], sep="\n", end="\n" if wrong[command] else "")
        print(f"{command}: {runs[command]:,} runs, {len(wrong[command])} ended wrongly", flush=True)
    total = sum(map(len, wrong.values()))
    print(f"{runs.total():,} runs, {total} ended wrongly")
    sys.exit(1 if total else 0)


if __name__ == "__main__":
    main()
